# The gate .ci/run, with an rt, a link and tests that only say what they would: what it runs, counts and refuses. And tests/run: which
# program and library it takes where none is named.
. "$top/tests/lib.sh"
. "$top/tests/repository.sh"

needs sha256sum readlink find xargs awk

# script FILE LINE..: puts a script into the copy.
script() {
    mkdir -p "$(dirname "$1")"
    text "$1" '#!/bin/sh' "${@:2}"
    chmod 755 "$1"
}

# The gate's parts note what they were called with.
make_parts() {
    mkdir -p "$copy/.ci"
    cp "$top/.ci/run" "$copy/.ci"
    script bin/rt "[ \"\$1\" = version ] && echo '$kit' && exit" 'echo "rt $*" >>parts' 'cp -p made/pbcnf crates/pbcnf/out' 'echo "5 passed, 0 failed"'
    script "$copy/tests/library/archive" 'echo the archive'
    script "$copy/library/build" 'echo "link $*" >>parts' 'mkdir library/out' 'cp -p made/libpbcnf.a made/libpbcnf.so.0 library/out'
    script "$copy/tests/run" 'echo "test $*" >>parts' 'echo "3 passed, 0 failed, 1 skipped"'
    mkdir "$copy/made"
    cp -p "${built[@]}" "$copy/made"
}

# gate STATUS LINE PART..: it ends so, and has run these parts.
gate() {
    : >"$copy/parts"
    expect "$1" "$copy/.ci/run"
    tail -n 1 "$said" >final
    holds final "$2"
    is "$copy/parts" 'the parts' "${@:3}"
}

# told LINE: the gate printed this line.
told() {
    if grep -qxF -- "$1" "$said"; then passed; else failed "$last: wanted the line $1, got $(bytes_of "$said")"; fi
}

parts=('rt ci' 'link the archive' 'test crates/pbcnf/out/pbcnf')

try_gate() {
    local file
    gate 0 '9 passed, 0 failed' "${parts[@]}"
    for file in pbcnf libpbcnf.a libpbcnf.so.0; do
        # What was built now is other than what is shipped: both are tested.
        keep
        echo more >>"$copy/made/$file"
        gate 1 '11 passed, 1 failed' "${parts[@]}" 'test '
        grep -q '^FAILED the release: .* has other bytes than ' "$said" && passed || failed "$last: it said $(bytes_of "$said")"
        undo
        # What is shipped was changed, or is missing.
        keep
        echo more >>"$shipped/$file"
        gate 1 '8 passed, 1 failed' "${parts[@]}"
        told "FAILED the release: release/check: $platform/$file has other bytes than BUILT gives the hash of"
        rm "$shipped/$file"
        gate 1 '8 passed, 1 failed' "${parts[@]}"
        told "FAILED the release: release/check: $platform/$file is missing"
        undo
    done
    keep
    echo more >>"$copy/crates/pb_low/proofs/inner/One"
    gate 1 '8 passed, 1 failed' "${parts[@]}"
    told "FAILED the release: release/check: the sources are others than those that $platform/BUILT names"
    undo
}

# Another kit's bytes are no fault: both programs are tested.
try_other_kit() {
    keep
    sed -i 's/rattle-kit-0/rattle-kit-1/' "$shipped/BUILT"
    gate 0 '9 passed, 0 failed' "${parts[@]}"
    echo more >>"$copy/made/pbcnf"
    gate 0 '12 passed, 0 failed' "${parts[@]}" 'test '
    told "the release was made by rattle-kit-1 logic 0123, and this kit is $kit: no bytes are compared"
    undo
}

# A part that fails is counted, once where it counts nothing itself, and nothing is linked or judged of what was not proved.
try_failures() {
    keep
    sed -i 's/5 passed, 0 failed/4 passed, 2 failed/; $a exit 1' bin/rt
    gate 1 '7 passed, 2 failed' 'rt ci' 'test crates/pbcnf/out/pbcnf'
    sed -i 's/4 passed, 2 failed/a fault/' bin/rt
    gate 1 '3 passed, 1 failed' 'rt ci' 'test crates/pbcnf/out/pbcnf'
    undo
    make_parts
    keep
    script "$copy/library/build" 'echo "link $*" >>parts' 'echo no linker' 'exit 69'
    gate 69 '11 passed, 2 failed' "${parts[@]}" 'test '
    told 'FAILED the C library: no linker'
    told 'FAILED the release: release/check: library/out/libpbcnf.a was not built'
    undo
    keep
    script "$copy/tests/run" 'echo "test $*" >>parts' 'echo "1 passed, 2 failed, 0 skipped"' 'exit 1'
    gate 1 '7 passed, 2 failed' "${parts[@]}"
    undo
}

# takes PROGRAM FOLDER WORD..: tests/run, called with these words, tests this program and this library.
takes() {
    expect 0 "$copy/tests/run" "${@:3}"
    says '1 passed, 0 failed, 0 skipped'
    holds "$PWD/taken" "$1" "$2"
}

try_run() {
    keep
    rm -r "$copy/tests"
    mkdir -p "$copy/tests/cases"
    cp "$top/tests/run" "$top/tests/lib.sh" "$copy/tests"
    text "$copy/tests/cases/one.sh" '. "$top/tests/lib.sh"' "printf '%s\n' \"\$pbcnf\" \"\$linked\" >'$PWD/taken'" passed
    takes "$shipped/pbcnf" "$shipped"
    takes "${built[0]}" "$copy/library/out" "${built[0]}"
    takes "${built[0]}" "$copy/library/out" "${built[0]}" one
    takes "$shipped/pbcnf" "$shipped" "$shipped/pbcnf"
    cp "$shipped/pbcnf" program
    takes "$PWD/program" "$copy/library/out" program
    echo more >>"$copy/crates/pb_low/proofs/inner/One"
    takes "${built[0]}" "$copy/library/out"
    rm "${built[0]}"
    expect 2 "$copy/tests/run"
    says
    undo
}

make_repository
expect 0 "$copy/release/take"
make_parts
try_gate
try_other_kit
try_failures
try_run
