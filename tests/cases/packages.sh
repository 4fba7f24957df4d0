# What goes with the C library: the Python module, the Rust crate, the examples, and where all of that is installed.
. "$top/tests/lib.sh"

library=$top/library
own=$top/tests/library

expect 2 "$library/build" a b
absent a b

if [ ! -f "$linked/libpbcnf.a" ] || [ ! -f "$linked/libpbcnf.so.0" ]; then
    skip 'the library is not built; library/build builds it'
    exit 0
fi

find_compiler
python=
if has python3; then python=python3; else skip 'there is no python3'; fi
export PBCNF_LIBRARY=$linked/libpbcnf.so.0 PYTHONPATH=$library/python${PYTHONPATH:+:$PYTHONPATH} PYTHONDONTWRITEBYTECODE=1

try_python() {
    local tests
    for tests in module values tables pysat_names modelling; do run_tests "$own/$tests.py"; done
    expect 0 $python "$own/enumerators.py" "$library/pbcnf.h" "$library/rust/src/numbers.rs"
    # What the README prints of its program.
    mkdir blocks
    awk -v to=blocks -f "$top/tests/blocks.awk" "$top/README.md"
    ln -s "$examples" examples
    expect 0 $python blocks/files/knapsack.py
    sed -n 's/.*print(.*)  # //p' blocks/files/knapsack.py >printed
    same printed "$said"
}

try_rust() {
    if ! has cargo; then
        skip 'there is no cargo'
        return
    fi
    cp -R "$library/rust" crate
    expect 0 env PBCNF_LIB_DIR="$linked" CARGO_TARGET_DIR="$PWD/target" cargo test -q --offline --workspace --manifest-path crate/Cargo.toml
}

# What the repository's own ./install puts is found by Python and by pkg-config, and linked both ways.
try_install() {
    local prefix=$PWD/'a place' flags
    installs "$prefix" || return
    same "$library/pbcnf.h" "$prefix/include/pbcnf.h"
    same "$prefix/lib/libpbcnf.so.0" "$prefix/lib/libpbcnf.so"
    if [ -n "$python" ]; then
        expect 0 env -u PBCNF_LIBRARY PYTHONPATH="$prefix/share/pbcnf" $python -c \
            'import pbcnf; print(pbcnf.__version__, pbcnf.encode("+1 x1 >= 1 ;").clauses)
print(*sorted({line.split(maxsplit=5)[5] for line in open("/proc/self/maps") if "libpbcnf" in line}), end="")'
        says "$(cat "$top/VERSION") [[1]]" "$prefix/lib/libpbcnf.so.0"
    fi
    try_cmake "$prefix"
    if ! has pkg-config; then
        skip 'there is no pkg-config'
        return
    fi
    export PKG_CONFIG_PATH="$prefix/lib/pkgconfig"
    expect 0 pkg-config --modversion pbcnf
    same "$top/VERSION" "$said"
    expect 0 pkg-config --cflags --libs pbcnf
    # Blanks in names are written as the shell reads them.
    eval "flags=($(cat "$said"))"
    text "$state/due" "-I$prefix/include" "-L$prefix/lib" -lpbcnf
    printf '%s\n' "${flags[@]}" >"$said"
    same "$state/due" "$said"
    [ -z "$compiler" ] || try_links "$prefix" "${flags[@]}"
}

# try_cmake PREFIX: a project of CMake's finds what was put: by this version, and by no other.
try_cmake() {
    local version line asked
    version=$(cat "$top/VERSION")
    line=${version%.*}
    mkdir nothing project
    text nothing/CMakeLists.txt 'cmake_minimum_required(VERSION 3.13)' 'project(nothing C)'
    if ! has cmake || ! cmake -S nothing -B nothing/built >"$said" 2>&1; then
        skip 'there is no cmake, or it has no compiler to build with'
        return
    fi
    text project/one.c '#include <pbcnf.h>' '#include <stdio.h>' \
        'int main(void) { return printf("%s\n", PBCNF_VERSION) < 0 || pbcnf_abi() != PBCNF_ABI; }'
    text project/CMakeLists.txt 'cmake_minimum_required(VERSION 3.13)' 'project(one C)' 'find_package(pbcnf ${asked} REQUIRED)' \
        'find_package(pbcnf)' 'foreach(kind pbcnf static)' '  add_executable(${kind} one.c)' \
        '  target_link_libraries(${kind} PRIVATE pbcnf::${kind})' 'endforeach()'
    for asked in '' "$line" "$version"; do
        expect 0 cmake -S project -B built -DCMAKE_PREFIX_PATH="$1" -Dasked="$asked"
    done
    expect 0 cmake --build built
    for asked in pbcnf static; do
        expect 0 built/$asked
        says "$version"
    done
    for asked in 0.0.1 "$line.999" "${line%.*}.$((${line#*.} + 1))" $((${version%%.*} + 1)); do
        expect 1 cmake -S project -B "other-$asked" -DCMAKE_PREFIX_PATH="$1" -Dasked="$asked"
        told_of "pbcnf-config.cmake, version: $version"
    done
}

# try_links PREFIX FLAG..: a program in C over the header, with the shared library and with the archive.
try_links() {
    local prefix=$1
    shift
    text one.c '#include <pbcnf.h>' '#include <stdio.h>' 'int main(void) {' '  pbcnf_refusal none = {0};' '  uint8_t said[8];' \
        '  uint64_t length = 1;' '  uint8_t status = pbcnf_words(&none, said, sizeof said, &length);' \
        '  printf("%s %d %d\n", PBCNF_VERSION, status, (int)length);' '}'
    expect 0 "$compiler" one.c "$@" -o shared
    expect 0 env LD_LIBRARY_PATH="$prefix/lib" ./shared
    says "$(cat "$top/VERSION") 0 0"
    expect 0 "$compiler" one.c "$1" "$prefix/lib/libpbcnf.a" -o alone
    expect 0 ./alone
    says "$(cat "$top/VERSION") 0 0"
}

# The header for C++.
try_header() {
    if ! has c++; then
        skip 'there is no c++'
        return
    fi
    expect 0 c++ -std=c++17 -Wall -Wextra -Wpedantic -Werror -I "$library" "$own/header.cc" "$linked/libpbcnf.a" -o header
    expect 0 ./header
    if c++ -fsanitize=address,undefined -x c++ - -o try <<<'int main() {}' 2>"$state/cc" && ./try 2>>"$state/cc"; then
        expect 0 c++ -std=c++17 -fsanitize=address,undefined -I "$library" "$own/header.cc" "$linked/libpbcnf.a" -o header
        expect 0 ./header
    else
        skip 'c++ has no AddressSanitizer'
    fi
}

# The first program of docs/LIBRARY.md takes files of any size, and says what is refused.
try_first() {
    local var
    [ -n "$compiler" ] || return
    mkdir page
    awk -v to=page -f "$top/tests/blocks.awk" "$top/docs/LIBRARY.md"
    expect 0 "$compiler" -Wall -Wextra -Werror -I "$library" page/files/first.c "$linked/libpbcnf.a" -o first.out
    for ((var = 1; var < 6000; var++)); do printf '+1 x%d +1 x%d >= 1 ;\n' $var $((var + 1)); done >long.opb
    expect 0 ./first.out long.opb
    head -n 1 "$said" >sizes
    holds sizes 'the problem has 6000 of 6000 variables, 5999 clauses'
    text wrong.opb '+1 x1 >= ;'
    expect 1 ./first.out wrong.opb
    tells 'pbcnf: OPB 1:10: expected an integer'
    expect 4 ./first.out no.opb
}

# solves CMD..: the example solves OPB files.
solves() {
    expect 0 "$@" "$examples/knapsack.opb"
    head -n 1 "$said" >first
    holds first 's SATISFIABLE'
    expect 20 "$@" "$examples/pigeons.opb"
    says 's UNSATISFIABLE'
    text wrong.opb '+1 x1 >= ;'
    expect 1 "$@" wrong.opb
    tells 'pbcnf: OPB 1:10: expected an integer'
}

# finds_the_best CMD..: the example finds the optimum of OPB files.
finds_the_best() {
    expect 0 "$@" "$examples/guards.opb"
    grep '^[os] ' "$said" | tail -n 2 >ends
    holds ends 'o 20' 's OPTIMUM FOUND'
}

finds_the_cheapest() {
    expect 0 "$@"
    tail -n 2 "$said" >ends
    holds ends 'cost 16' 'none is cheaper'
}

try_examples() {
    local flags=(-I "$library" "$linked/libpbcnf.a" -lcadical -lstdc++ -lm)
    echo '#include <ccadical.h>' >has.c
    if [ -n "$compiler" ] && "$compiler" -fsyntax-only has.c 2>"$state/cc"; then
        for name in solve cheapest; do
            expect 0 "$compiler" -Wall -Wextra -Werror "$library/examples/$name.c" "${flags[@]}" -o $name.c.out
        done
        solves ./solve.c.out
        finds_the_cheapest ./cheapest.c.out
    else
        skip 'there is no ccadical.h, of libcadical-dev'
    fi
    if has c++ && echo '#include <cadical.hpp>' >has.cc && c++ -fsyntax-only has.cc 2>"$state/cc"; then
        for name in solve cheapest optimum; do
            expect 0 c++ -std=c++17 -Wall -Wextra -Werror "$library/examples/$name.cc" "${flags[@]}" -o $name.cc.out
        done
        solves ./solve.cc.out
        finds_the_cheapest ./cheapest.cc.out
        solves ./optimum.cc.out
        finds_the_best ./optimum.cc.out
    else
        skip 'there is no cadical.hpp, of libcadical-dev'
    fi
    if [ -n "$python" ] && $python -c 'import pycryptosat' 2>"$state/python"; then
        solves $python "$library/examples/solve.py"
        finds_the_cheapest $python "$library/examples/cheapest.py"
    else
        skip 'there is no pycryptosat, of python3-cryptominisat'
    fi
    if [ -n "$python" ] && has cadical; then
        expect 0 $python "$library/examples/shifts.py" cadical
        tail -n 1 "$said" >ends
        holds ends 'broken wishes weigh 7'
        expect 69 $python "$library/examples/shifts.py" no-solver
    else
        skip 'there is no cadical, or no python3'
    fi
    if has cargo && [ -x solve.c.out ]; then
        expect 0 env PBCNF_LIB_DIR="$linked" CARGO_TARGET_DIR="$PWD/target" \
            cargo build -q --offline --examples --features cadical --manifest-path crate/Cargo.toml
        solves target/debug/examples/solve
        finds_the_cheapest target/debug/examples/cheapest
    else
        skip 'there is no cargo, or no CaDiCaL for it'
    fi
}

[ -z "$python" ] || try_python
try_rust
try_install
try_header
try_first
try_examples
