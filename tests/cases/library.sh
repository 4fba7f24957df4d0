# The C library: its header is that of the crate's exports; its bytes are the program's; rooms, memory, threads.
. "$top/tests/lib.sh"

library=$top/library
own=$top/tests/library
sources=("$top"/crates/pb_columns/src/*.rt "$top"/crates/pbcnf_c/src/*.rt)

if [ ! -f "$linked/libpbcnf.a" ] || [ ! -f "$linked/libpbcnf.so.0" ]; then
    skip 'the library is not built; library/build builds it'
    exit 0
fi

find_compiler

# judged CMD..: the command says at last how many checks it has made, and none has failed.
judged() {
    last=$(shown "$@")
    "$@" >"$said" 2>&1
    if [ $? -eq 0 ] && tail -n 1 "$said" | grep -Eq '^([1-9][0-9]* passed, 0 failed|OK)$'; then
        passed
    else
        failed "$last: $(head -n 5 "$said")"
    fi
}

# compile PROGRAM FLAG..: makes it of a file of tests/library and the static library.
compile() {
    expect 0 "$compiler" -std=c11 -Wall -Wextra -Wpedantic -Werror -O1 -g -I "$library" -I . "$own/$1.c" "$linked/libpbcnf.a" "${@:2}" -o "$1"
}

# compile_beside PROGRAM FILE: makes it of two files, without the library.
compile_beside() {
    expect 0 "$compiler" -std=c11 -Wall -Wextra -Wpedantic -Werror -O1 -I "$library" "$own/$1.c" "$own/$2.c" -o "$1"
}

# Runs a program. The places of its memory are the same each time, where the system has that: some of those that are drawn are none for a
# sanitizer.
steadily() {
    "${steady[@]}" "$@"
}
steady=()
if has setarch && setarch -R true 2>"$state/setarch"; then steady=(setarch -R); fi

# makes FLAG..: whether the compiler makes a program with these flags that runs, whatever places of its memory are drawn.
makes() {
    local run
    echo 'int main(void) { return 0; }' >try.c
    "$compiler" try.c "$@" -o try 2>"$state/cc" || return
    for run in {1..20}; do
        steadily ./try 2>>"$state/cc" || return
    done
}

# The header stands by itself, in C and C++.
try_header() {
    echo '#include "pbcnf.h"' >alone.c
    expect 0 "$compiler" -std=c99 -Wall -Wextra -Wpedantic -Werror -fsyntax-only -I "$library" alone.c
    if has c++; then
        expect 0 c++ -std=c++11 -Wall -Wextra -Wpedantic -Werror -fsyntax-only -I "$library" -x c++ alone.c
    else
        skip 'there is no c++'
    fi
}

# The examples in the header's comments are a program, which is well and makes each call.
try_examples() {
    {
        printf '#include <%s>\n' assert.h string.h
        printf '%s\n' '#include "pbcnf.h"' 'static void add(void *sum, int32_t integer) { *(int64_t *)sum += integer; }' 'int main(void) {'
        sed -n 's/^ \*      //p' "$library/pbcnf.h"
        printf '%s\n' 'return 0;' '}'
    } >shown.c
    expect 0 "$compiler" -std=c11 -Wall -Wextra -Wpedantic -Werror -I "$library" shown.c "$linked/libpbcnf.a" -o shown
    expect 0 ./shown
    declared >declared
    grep -o 'pbcnf_[a-z_]*(' shown.c | tr -d '(' | sort -u | comm -13 - declared >unused
    holds unused
}

# careless BODY STATUS [WARNING]: how the compiler ends over a call that is made so, and of what it warns.
careless() {
    text careless.c '#include "pbcnf.h"' 'uint8_t call(const uint8_t *, const pbcnf_options *, const pbcnf_bound *, uint8_t *, pbcnf_size *, pbcnf_refusal *);' \
        'uint8_t call(const uint8_t *opb, const pbcnf_options *options, const pbcnf_bound *bound, uint8_t *cnf, pbcnf_size *size, pbcnf_refusal *refusal) {' "$1" '}'
    expect "$2" "$compiler" -std=c11 -Wall -Werror -I "$library" -c careless.c -o careless.o
    [ $# -eq 2 ] || told_of "$3"
}

# By the header's attributes compilers warn of what a caller must not do.
try_warnings() {
    careless 'return pbcnf_encode(opb, 1, options, bound, cnf, 1, size, refusal);' 0
    careless 'pbcnf_encode(opb, 1, options, bound, cnf, 1, size, refusal); return refusal->status;' 1 unused-result
    careless 'return pbcnf_encode(opb, 1, NULL, bound, cnf, 1, size, refusal);' 1 nonnull
    if "$compiler" -Wrestrict -Werror -c alone.c -I "$library" -o alone.o 2>"$state/cc"; then
        careless 'return pbcnf_encode(cnf, 1, options, bound, cnf, 1, size, refusal);' 1 restrict
    else
        skip "$compiler has no warning of what overlaps"
    fi
}

# restate HEADER: the exports that the sources have, held against a header in this folder.
restate() {
    mkdir -p changed
    sed "$1" "$library/pbcnf.h" >changed/pbcnf.h
    "$compiler" -std=c11 -Wall -Wextra -Werror -fsyntax-only -I changed restated.c
}

# The calls that the header declares.
declared() {
    grep -o '^uint[0-9]*_t pbcnf_[a-z_]*' "$library/pbcnf.h" | cut -d' ' -f2 | sort
}

# The header declares just what the sources export, with the same types; a header that is changed is refused.
try_signatures() {
    local change
    if ! has python3; then
        skip 'there is no python3, which reads the signatures'
        return
    fi
    "$own/signatures" "${sources[@]}" >restated.c
    expect 0 restate ''
    for change in 's/size_t room, pbcnf_size/uint32_t room, pbcnf_size/' 's/const uint8_t \*model/uint8_t *model/' \
        's/^uint8_t pbcnf_map/uint32_t pbcnf_map/' 's/uint32_t budget;/uint64_t budget;/' 's/uint64_t low;/int64_t low;/' \
        's/uint64_t number; /uint64_t number, more; /' 's/uint32_t vars; /uint32_t original; /; s/uint32_t original; \/\* the/uint32_t vars; \/* the/'; do
        expect 1 restate "$change"
    done
    "$own/signatures" --calls "${sources[@]}" | sort >exported
    declared >declared
    same exported declared
    # No compiler counts an enumerator: a variant that is put in the middle moves none.
    grep -E '^ *(enum \{ )?PBCNF_[A-Z_]+,?( |$)' "$library/pbcnf.h" | grep -v -e = -e ' PBCNF_NONNULL(' >uncounted
    holds uncounted
    "$own/signatures" --constants EXPECTED "$library/pbcnf.h" >expected.h
    "$own/signatures" --constants LIMIT "$library/pbcnf.h" >limits.h
    "$own/signatures" --constants DENIED "$library/pbcnf.h" >denied.h
    "$own/signatures" --constants UNPROVED "$library/pbcnf.h" >unproved.h
    compile numbers
    judged ./numbers
}

# Nothing but the calls can be linked to.
try_symbols() {
    if ! has nm; then
        skip 'there is no nm'
        return
    fi
    declared >declared
    nm -g --defined-only "$linked/libpbcnf.a" | awk 'NF == 3 { print $3 }' | sort >offered
    same declared offered
    # In the shared library each has the version of the interface.
    sed "s/\$/@@PBCNF_$(sed -n 's/^#define PBCNF_ABI //p' "$library/pbcnf.h")/" declared >versioned
    nm -D --defined-only "$linked/libpbcnf.so.0" | awk '$2 == "T" { print $3 }' | sort >offered
    same versioned offered
}

# A program that was linked with the shared library is not started with one of another interface.
try_interface() {
    local abi
    abi=$(sed -n 's/^#define PBCNF_ABI //p' "$library/pbcnf.h")
    text asks.c '#include "pbcnf.h"' 'int main(void) { return pbcnf_abi() != PBCNF_ABI; }'
    mkdir this other
    cp "$linked/libpbcnf.so.0" this
    sed "s/PBCNF_$abi/PBCNF_$((abi + 1))/g" "$linked/libpbcnf.so.0" >other/libpbcnf.so.0
    expect 0 "$compiler" -I "$library" asks.c this/libpbcnf.so.0 -o asks
    expect 0 env LD_LIBRARY_PATH="$PWD/this" ./asks
    expect 1 env LD_LIBRARY_PATH="$PWD/other" ./asks
    told_of "version .*PBCNF_$abi.* not found"
}

try_programs() {
    compile rooms
    judged ./rooms
    compile misuse
    judged ./misuse
    compile constraints
    judged ./constraints
    compile columns
    judged ./columns
    compile conditions
    judged ./conditions
    if makes -Wl,--wrap=malloc; then
        compile growth -Wl,--wrap=malloc,--wrap=realloc,--wrap=free
        judged ./growth
    else
        skip "$compiler wraps no allocation"
    fi
    compile threads -pthread
    judged ./threads
    compile forks -pthread
    judged ./forks
    compile nulls
    judged ./nulls
    compile_beside nulls exports
    judged ./nulls
    if makes -fsanitize=address,undefined; then
        compile rooms -fsanitize=address,undefined
        judged steadily ./rooms
        compile misuse -fsanitize=address,undefined
        judged steadily ./misuse
        compile columns -fsanitize=address,undefined
        judged steadily ./columns
    else
        skip "$compiler has no AddressSanitizer"
    fi
    if makes -fsanitize=thread; then
        compile threads -fsanitize=thread -pthread
        judged steadily ./threads
    else
        skip "$compiler has no ThreadSanitizer"
    fi
}

# The bytes, refusals and judgements are the program's.
try_bytes() {
    if ! has python3; then
        skip 'there is no python3'
        return
    fi
    judged env PBCNF_LIBRARY="$linked/libpbcnf.so.0" PYTHONPATH="$library/python" PYTHONDONTWRITEBYTECODE=1 python3 "$own/same.py" "$pbcnf" "$examples"/*.opb
}

if [ -n "$compiler" ]; then
    try_header
    try_examples
    try_warnings
    try_signatures
    try_interface
    try_programs
else
    skip 'there is no C compiler'
fi
try_symbols
try_bytes
