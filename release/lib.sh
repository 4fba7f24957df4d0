# What the scripts of release/ share, and tests/run. Whoever sources it has set $release to this folder.
# shellcheck shell=sh disable=SC2034,SC2154

top=$(dirname -- "$release")
platform=$(uname -m)-$(uname -s | tr '[:upper:]' '[:lower:]')
# What is shipped for this platform.
shipped=$release/$platform

# Each line: a file of the release, where the build puts it, its mode, and the crate that it is made of.
files='pbcnf crates/pbcnf/out/pbcnf 755 pbcnf
libpbcnf.a library/out/libpbcnf.a 644 pbcnf_c
libpbcnf.so.0 library/out/libpbcnf.so.0 755 pbcnf_c'

names() {
    printf '%s\n' "$files" | cut -d ' ' -f 1
}

refuse() {
    printf 'release/%s: %s\n' "${0##*/}" "$*" >&2
    exit 1
}

usage() {
    printf 'usage: release/%s\n' "$*" >&2
    exit 2
}

# The SHA-256 of standard input.
digest() {
    sha256sum | cut -c 1-64
}

# The version of what is here.
version() {
    head -n 1 "$top/VERSION" 2>/dev/null
}

# said WORD: what BUILT says after this word.
said() {
    sed -n "s/^$1 //p" "$shipped/BUILT"
}
