# What the built files ask of the system, and what they do not let it do: no newer glibc than the README names, no stack and no data that
# can be executed, no relocation of code, no undefined name beside those of libc and libgcc. They do not hang on where they were built.
. "$top/tests/lib.sh"

needs readelf
files=("$pbcnf")
for name in libpbcnf.a libpbcnf.so.0; do
    if [ -f "$linked/$name" ]; then files+=("$linked/$name"); else skip "there is no $name"; fi
done

# The newest version of glibc that a file asks for.
newest() {
    readelf -W --dyn-syms "$@" | grep -o 'GLIBC_[0-9][0-9.]*' | cut -d_ -f2 | sort -uV | tail -n 1
}

try_glibc() {
    local asked named
    asked=$(newest "${files[@]}")
    named=$(grep -o 'glibc [0-9]*\.[0-9]*' "$top/README.md" | head -n 1 | cut -d' ' -f2)
    if [ -n "$asked" ] && [ -n "$named" ] && printf '%s\n' "$asked" "$named" | sort -V -C; then
        passed
    else
        failed "glibc ${asked:-of no version} is asked for, and README.md names ${named:-none}"
    fi
}

# none_of WHAT: no line is read.
none_of() {
    local lines
    lines=$(cat)
    if [ -z "$lines" ]; then passed; else failed "$1: $(head -n 3 <<<"$lines")"; fi
}

# one_of WHAT: lines are read.
one_of() {
    if grep -q .; then passed; else failed "$1"; fi
}

# try_loaded FILE: how a file is laid out that the system loads.
try_loaded() {
    local name=${1##*/}
    readelf -W -l "$1" >headers
    readelf -W -d "$1" >dynamic
    grep -E '^ *GNU_STACK .* RW +0' headers | one_of "$name says nothing of its stack"
    grep -E '^ *(GNU_STACK|LOAD) .* RWE ' headers | none_of "$name has memory that can be written and executed"
    grep -E '^ *GNU_RELRO ' headers | one_of "$name leaves its tables writable"
    grep -E 'BIND_NOW|FLAGS.* NOW' dynamic | one_of "$name binds names late"
    grep -E 'TEXTREL' dynamic | none_of "$name relocates its code"
    grep -E 'R(UN)?PATH' dynamic | none_of "$name looks for libraries in folders of its own"
    grep 'NEEDED' dynamic | grep -v '\[libc\.so\.6\]' | none_of "$name needs more than the C library"
}

# What a program that links the archive has to have beside it.
try_archive() {
    readelf -W -S "$linked/libpbcnf.a" | grep -F .note.GNU-stack >stack
    one_of 'libpbcnf.a says nothing of its stack' <stack
    grep -E ' W?A?X ' stack | none_of 'libpbcnf.a asks for a stack that can be executed'
    readelf -W -s "$linked/libpbcnf.a" | awk '$7 == "UND" && $8 != "" { print $8 }' | sort -u |
        grep -vxE 'malloc|realloc|free|mem(cpy|move|set|cmp)|__u(div|mod|divmod)ti[34]|_GLOBAL_OFFSET_TABLE_' | none_of 'libpbcnf.a asks for'
    readelf -W -S "$linked/libpbcnf.a" | grep -E ' \.debug' | none_of 'libpbcnf.a has lines for a debugger'
}

last=linking
try_glibc
for file in "${files[@]}"; do
    grep -aoF -- "$top/" "$file" | none_of "${file##*/} names the folder in which it was built"
    case $file in
    *.a) try_archive ;;
    *) try_loaded "$file" ;;
    esac
done
