# The release is held to its sources and to what was built: release/sources, release/check, release/take and release/judge, on a small
# repository of their own.
. "$top/tests/lib.sh"
. "$top/tests/repository.sh"

needs sha256sum readlink find xargs awk

hash_of() {
    sha256sum <"$1" | cut -c 1-64
}

# change FILE: another byte is first, and the size is the same.
change() {
    printf '#' | dd of="$1" bs=1 conv=notrunc 2>"$state/dd"
}

# refused WHAT SCRIPT WORD..: it ends with 1, prints nothing, and just this line on standard error.
refused() {
    expect 1 "$copy/release/$2" "${@:3}"
    says
    tells "release/$2: $1"
}

# sound WORD..: the release is, and nothing is printed.
sound() {
    expect 0 "$copy/release/check" "$@"
    says
    tells
}

# refuses WHAT CMD..: after the command the release is refused, as this line says, whatever was built.
refuses() {
    keep
    "${@:2}"
    refused "$1" check
    refused "$1" check "${built[@]}"
    undo
}

try_crates() {
    expect 0 "$copy/release/crates" pbcnf
    says pb_low 'pbcnf pb_low'
    expect 0 "$copy/release/crates" pbcnf pbcnf_c
    says pb_low 'pbcnf pb_low' 'pbcnf_c pb_low'
    refused 'crates.txt does not have all of: pbcnf pb_none' crates pbcnf pb_none
}

# changes WHAT CMD..: the command changes the hash of the sources.
changes() {
    keep
    "${@:2}"
    expect 0 "$copy/release/sources"
    if cmp -s sources "$said"; then failed "$1: the hash of the sources is the same"; else passed; fi
    undo
}

append() {
    printf '%s\n' "$2" >>"$1"
}

# The hash of the sources hangs on their names and bytes alone.
try_sources() {
    local file
    expect 0 "$copy/release/sources"
    cp "$said" sources
    cp -R "$copy" elsewhere
    chmod -R go-rwx elsewhere/crates
    expect 0 elsewhere/release/sources
    same sources "$said"
    keep
    change "$copy/crates/pb_tests/src/inner/One"
    text "$copy/crates/pb_low/README" 'No source.'
    text "$copy/crates/pbcnf/out/more" 'No source either.'
    expect 0 "$copy/release/sources"
    same sources "$said"
    undo
    for file in crates/pb_low/proofs crates/pb_low/src crates/pbcnf/specs crates/pbcnf_c/proofs; do
        changes "a byte in $file" change "$copy/$file/inner/One"
    done
    changes 'the list of crates' append "$copy/crates.txt" '# More.'
    changes 'another name' mv "$copy/crates/pb_low/proofs/inner/One" "$copy/crates/pb_low/proofs/inner/Two"
    changes 'a name with a blank' text "$copy/crates/pb_low/proofs/inner/One more" 'pb_low'
    changes 'a file less' rm "$copy/crates/pb_low/specs/inner/One"
    keep
    rm "$copy/crates/pb_low/specs/inner/One"
    ln -s nowhere "$copy/crates/pb_low/specs/inner/One"
    expect 1 "$copy/release/sources"
    says
    undo
    expect 2 "$copy/release/sources" pbcnf
    expect 2 "$copy/release/sources" --list
    expect 0 "$copy/release/sources" --list pbcnf
    says crates.txt crates/pb_low/{src,specs,proofs} crates/pbcnf/{src,specs,proofs}
}

# What is newer than what was built, among the sources of its crate; a younger stamp speaks for that.
try_newer() {
    local program=${built[0]}
    expect 0 "$copy/release/sources" --newer "$program" pbcnf
    says
    touch "$copy/crates/pb_low/proofs/inner/One"
    touch -d '2019-01-01' "$program"
    touch -d '2019-02-01' "$program.stamp"
    expect 0 "$copy/release/sources" --newer "$program" pbcnf
    grep -q '^crates' "$said" && passed || failed "$last: nothing is newer"
    touch "$program.stamp"
    expect 0 "$copy/release/sources" --newer "$program" pbcnf
    says
    rm "$program.stamp"
    touch "$program" "$copy/crates/pbcnf_c/src/inner/One"
    expect 0 "$copy/release/sources" --newer "$program" pbcnf
    says
    refused 'there is no none/none' sources --newer none/none pbcnf
    touch "${built[@]}"
}

# The sources of this repository, somewhere else, are the same; each crate that is built has some.
try_real_sources() {
    local crate kind
    for crate in $("$top/release/crates" pbcnf pbcnf_c | cut -d ' ' -f 1); do
        for kind in src specs proofs; do
            [ ! -d "$top/crates/$crate/$kind" ] || { mkdir -p "real/crates/$crate" && cp -R "$top/crates/$crate/$kind" "real/crates/$crate"; }
        done
        if [ -d "real/crates/$crate/src" ]; then passed; else failed "the crate $crate has no src/"; fi
    done
    cp -R "$copy/release" real
    cp "$top/crates.txt" real
    expect 0 "$top/release/sources"
    cp "$said" here
    expect 0 real/release/sources
    same here "$said"
    rm -rf real
}

# What was built is taken over as a whole, or nothing is.
try_take() {
    local file
    refused "$platform/BUILT is missing" check
    expect 2 "$copy/release/take" a
    for file in "${built[@]}"; do
        mv "$file" aside
        refused "${file#"$copy/"} was not built" take
        touch -d '2019-01-01' aside
        mv aside "$file"
        expect 1 "$copy/release/take"
        grep -q "^release/take: ${file#"$copy/"} is older than crates" "$told" && passed || failed "$last: it told $(bytes_of "$told")"
        touch "$file"
    done
    absent "$shipped"
    expect 0 "$copy/release/take"
    tells
    says 'version 1.2.3' "kit $kit" "sources $(cat sources)" "$(hash_of "${built[0]}")  pbcnf" "$(hash_of "${built[1]}")  libpbcnf.a" \
        "$(hash_of "${built[2]}")  libpbcnf.so.0"
    same "$said" "$shipped/BUILT"
    (cd "$shipped" && stat -c '%a %n' -- *) >modes
    holds modes '644 BUILT' '644 libpbcnf.a' '755 libpbcnf.so.0' '755 pbcnf'
    sound
    sound "${built[@]}"
}

# A release that is there is replaced by the next, and stays where that cannot be.
try_take_again() {
    keep
    echo 'built anew' >"${built[0]}"
    touch -d '2019-01-01' "${built[1]}"
    expect 1 "$copy/release/take"
    expect 0 diff -r "$shipped" "kept/release/$platform"
    # So does one that a take which was killed has set aside.
    mv "$shipped" "$shipped.old"
    refused "$platform/BUILT is missing" check
    expect 1 "$copy/release/take"
    expect 0 diff -r "$copy/release" kept/release
    touch "${built[1]}"
    text bin/rt '#!/bin/sh' 'exit 1'
    refused 'there is no rt, which says by which kit this was built' take
    text bin/rt '#!/bin/sh' "echo '$kit'"
    refused "${built[0]} has other bytes than $platform/pbcnf" check "${built[@]}"
    expect 0 "$copy/release/take"
    sound "${built[@]}"
    expect 0 ls "$copy/release"
    says check crates judge lib.sh sources take "$platform"
    undo
}

try_check() {
    local name
    for name in "${names[@]}"; do
        refuses "$platform/$name has other bytes than BUILT gives the hash of" change "$shipped/$name"
        refuses "$platform/$name is missing" rm "$shipped/$name"
        refuses "$platform/BUILT gives no hash of $name" sed -i "/ $name\$/d" "$shipped/BUILT"
    done
    refuses "$platform/pbcnf is missing" ln -sfn "${built[0]}" "$shipped/pbcnf"
    refuses "$platform/BUILT is missing" rm "$shipped/BUILT"
    refuses "$platform/.one more is none of the files that are shipped" text "$shipped/.one more" more
    refuses "$platform/BUILT names no kit" sed -i '/^kit/d' "$shipped/BUILT"
    refuses "the version is 1.2.4, and $platform/BUILT has 1.2.3" text "$copy/VERSION" 1.2.4
    for name in crates/pb_low/proofs crates/pbcnf/src crates/pbcnf_c/specs; do
        refuses "the sources are others than those that $platform/BUILT names" change "$copy/$name/inner/One"
    done
    refuses 'the sources cannot be read' rm "$copy/crates.txt"
    for name in 0 1 2; do
        keep
        change "${built[name]}"
        sound
        refused "${built[name]} has other bytes than $platform/${names[name]}" check "${built[@]}"
        rm "${built[name]}"
        sound
        refused "${built[name]} was not built" check "${built[@]}"
        undo
    done
    keep
    chmod 644 "$shipped/pbcnf"
    refused "$platform/pbcnf cannot be run, as ${built[0]} can" check "${built[@]}"
    undo
    expect 2 "$copy/release/check" "${built[0]}"
}

# judged STATUS KIT LINE..: the gate's judgement by this kit.
judged() {
    expect "$1" "$copy/release/judge" "$2" "${built[@]}"
    says "${@:3}"
    tells
}

try_judge() {
    local other='rattle-kit-1 logic 0123' note
    note="the release was made by $kit, and this kit is $other: no bytes are compared"
    expect 2 "$copy/release/judge" "$kit"
    judged 0 "$kit" '1 passed, 0 failed'
    judged 0 "$other" "$note" '1 passed, 0 failed'
    keep
    change "${built[1]}"
    judged 1 "$kit" "FAILED the release: release/check: ${built[1]} has other bytes than $platform/libpbcnf.a" '0 passed, 1 failed'
    judged 0 "$other" "$note" '1 passed, 0 failed'
    change "$copy/crates/pb_low/proofs/inner/One"
    for one in "$kit" "$other"; do
        expect 1 "$copy/release/judge" "$one" "${built[@]}"
        tail -n 2 "$said" >ends
        holds ends "FAILED the release: release/check: the sources are others than those that $platform/BUILT names" '0 passed, 1 failed'
    done
    rm -r "$shipped"
    judged 1 "$kit" "FAILED the release: release/check: $platform/BUILT is missing" '0 passed, 1 failed'
    undo
}

make_repository
try_crates
try_sources
try_newer
try_real_sources
try_take
try_take_again
try_check
try_judge
