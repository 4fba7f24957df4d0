# A small repository with a release, for the cases that try release/ and the gate: $copy, where $shipped is what is shipped, $built lists
# what was built, and rt, of the line $kit, is a script in bin/.
copy="$PWD/a place/repository"
shipped=$copy/release/$(uname -m)-linux
platform=${shipped##*/}
names=(pbcnf libpbcnf.a libpbcnf.so.0)
built=("$copy/crates/pbcnf/out/pbcnf" "$copy/library/out/libpbcnf.a" "$copy/library/out/libpbcnf.so.0")
kit='rattle-kit-0 logic 0123'
export PATH=$PWD/bin:$PATH

# A program and a library over one crate, and a crate of tests; what was built is newer.
make_repository() {
    local crate kind file
    for crate in pb_low pbcnf pbcnf_c pb_tests; do
        for kind in src specs proofs; do
            mkdir -p "$copy/crates/$crate/$kind/inner"
            text "$copy/crates/$crate/$kind/inner/One" "$crate $kind"
        done
    done
    text "$copy/crates.txt" '# Crates.' 'pbcnf: pb_low memchr' 'pb_tests: pb_low' 'pbcnf_c staticlib: pb_low' 'pb_low:'
    text "$copy/VERSION" 1.2.3
    mkdir -p "$copy/release" "$copy/crates/pbcnf/out" "$copy/library/out" bin
    cp -- "$top"/release/{lib.sh,crates,sources,check,take,judge} "$copy/release"
    find "$copy" -exec touch -d '2020-01-01' {} +
    for file in "${built[@]}"; do text "$file" "built as ${file##*/}"; done
    chmod 755 "${built[0]}" "${built[2]}"
    text bin/rt '#!/bin/sh' "echo '$kit'"
    chmod 755 bin/rt
}

# What is done to the copy is undone.
keep() {
    rm -rf kept
    cp -Rp "$copy" kept
}

undo() {
    rm -rf "$copy"
    cp -Rp kept "$copy"
}
