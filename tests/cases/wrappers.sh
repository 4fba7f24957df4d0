# The header's constants, and the Python module at its edges and interrupted. (The crate's tests are in library/rust/tests, which
# packages.sh runs.)
. "$top/tests/lib.sh"

library=$top/library
own=$top/tests/library
if [ ! -f "$linked/libpbcnf.a" ] || [ ! -f "$linked/libpbcnf.so.0" ]; then
    skip 'the library is not built; library/build builds it'
    exit 0
fi

# The problem has one sum that needs more fresh variables than a tenth of the usual budget, and one that needs more than all of it.
try_header() {
    awk 'function sum(n,    i) { for (i = 1; i <= n; i++) printf "-1 x%d ", i; print ">= -9 ;" }
        BEGIN { sum(2000); sum(20000) }' >sums.opb
    expect 0 "$compiler" -std=c11 -Wall -Wextra -Wno-unused-function -Wno-unused-const-variable -O1 -I "$library" -I "$own" "$own/usual.c" \
        "$linked/libpbcnf.a" -o usual
    fine encode sums.opb due.cnf
    cp "$said" summary
    expect 0 grep 'totalizer 1 .*adder 1$' summary
    expect 0 ./usual sums.opb
    tells
    same due.cnf "$said"
}

export PBCNF_LIBRARY=$linked/libpbcnf.so.0 PYTHONPATH=$library/python PYTHONDONTWRITEBYTECODE=1
if has python3; then
    for tests in edges interrupts; do run_tests "$own/$tests.py"; done
else
    skip 'there is no python3'
fi
find_compiler
if [ -n "$compiler" ]; then try_header; else skip 'there is no C compiler'; fi
