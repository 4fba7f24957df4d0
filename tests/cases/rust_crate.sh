# A cargo project elsewhere that uses library/rust, as who has neither rt nor an installed library: it links what the repository
# has ready.
. "$top/tests/lib.sh"
needs cargo

# No library is found but that of the repository, and nothing is fetched.
mkdir none
export PKG_CONFIG_LIBDIR=$PWD/none CARGO_NET_OFFLINE=true CARGO_TERM_COLOR=never CARGO_TARGET_DIR=$PWD/target
unset PBCNF_LIB_DIR PKG_CONFIG_PATH RUST_BACKTRACE

mkdir bin
text bin/rt '#!/bin/sh' "touch '$PWD/rt-was-run'"
chmod 755 bin/rt
PATH=$PWD/bin:$PATH

# make_project NAME CRATE: a project of this name that uses this crate.
make_project() {
    mkdir -p "$1/src"
    text "$1/Cargo.toml" '[package]' "name = \"$1\"" 'version = "1.0.0"' 'edition = "2021"' '[dependencies]' "pbcnf = { path = \"$2\" }"
    text "$1/src/main.rs" 'fn main() {' \
        '    let encoding = pbcnf::encode(b"+2 x1 +1 x2 +1 x3 >= 3 ;", None, &pbcnf::Options::new()).unwrap();' \
        '    println!("{:?}", encoding.clauses().collect::<Vec<_>>());' '}'
}

build() {
    cargo build -q --manifest-path "$1/Cargo.toml"
}

mentions() {
    if grep -Fq -- "$1" "$told"; then passed; else failed "$last: wanted '$1', got $(bytes_of "$told")"; fi
}

# An installed library of another version is passed over, one of this version is taken: here it is none.
try_installed() {
    local place=$PWD/installed-$1
    mkdir "$place"
    text "$place/libpbcnf.a" 'no archive'
    text "$place/pbcnf.pc" "libdir=$place" 'Name: pbcnf' 'Description: played' "Version: $1"
    env PKG_CONFIG_PATH="$place" cargo build -q --manifest-path first/Cargo.toml
}

# Without the repository around it there is a line.
cp -R "$top/library/rust" alone
make_project second ../alone
expect 101 build second
mentions './build builds it, and PBCNF_LIB_DIR may name its folder'

make_project first "$top/library/rust"
if [ ! -f "$top/release/$(uname -m)-linux/libpbcnf.a" ] && [ ! -f "$top/library/out/libpbcnf.a" ]; then
    skip 'there is no library to link; ./build builds it'
    exit 0
fi
expect 0 build first
expect 0 target/debug/first
says '[[1], [2, 3]]'
expect 0 cargo build -v --manifest-path first/Cargo.toml
mentions 'Fresh pbcnf v'
sed -n 's/.*Fresh pbcnf v\([0-9.]*\).*/\1/p' "$told" >number
same "$top/VERSION" number
if has pkg-config; then
    expect 0 try_installed 0.0.1
    expect 101 try_installed "$(cat "$top/VERSION")"
    mentions installed-
else
    skip 'there is no pkg-config'
fi
absent rt-was-run "$top/library/rust/target"
