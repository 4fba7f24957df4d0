# The command ./build: its words, its plan, and how it builds, over a kit whose prover proves nothing (tests/building/kit). Crates are
# built after those that they use, what was built stays, and no stamp is left where a crate was not proved.
. "$top/tests/lib.sh"

needs python3 readlink sleep
link_tools_but rt
copy="$PWD/a copy"
kit=$PWD/kit
release=$copy/release/$(python3 -c 'import platform, sys; print(platform.machine() + "-" + sys.platform)')

# build WORD..: the copy's, with the kit. bare: without one.
build() {
    PATH=$kit/bin:$PWD/bin "$copy/build" "$@"
}
bare() {
    PATH=$PWD/bin "$@"
}

# source CRATE WORD..: what a crate of the copy is made of.
source_is() {
    mkdir -p "$copy/crates/$1/src"
    case $1 in
    pbcnf) text "$copy/crates/$1/src/main.rt" "$2" ;;
    *) text "$copy/crates/$1/src/lib.rt" "$2" ;;
    esac
}

# noted LINE..: what the prover did since the last look.
noted() {
    is "$kit/log" 'what the prover did' "$@"
    : >"$kit/log"
}

# proved CRATE ..: it has built just these since the last look, in any order, each after those that it uses.
proved() {
    local got
    got=$(sed -n 's/^end //p' "$kit/log" | sort | tr '\n' ' ')
    if [ "$got" = "$* " ] && ! grep -q early "$kit/log"; then passed; else failed "$last: wanted $*, got $(bytes_of "$kit/log")"; fi
    : >"$kit/log"
}

# Its words.
expect 0 bare "$top/build" --help
tells
for word in --statements encode --jobs=0 --jobs=x --memory=0 '--release --program'; do
    # shellcheck disable=SC2086
    expect 2 bare "$top/build" $word
    says
done

# The plan, of all crates that it is for, with none before those that it uses; it asks for no rt.
expect 0 bare python3 "$top/tests/building/plan.py" "$top"
says
for words in '--jobs 2:pbcnf pbcnf_c' '--memory 3 --program:pbcnf'; do
    # shellcheck disable=SC2086
    expect 0 bare "$top/build" --plan ${words%:*}
    # shellcheck disable=SC2086
    "$top/release/crates" ${words#*:} | cut -d ' ' -f 1 | sort >crates
    awk '/ to / { print $4 }' "$said" | sort >planned
    same crates planned
done

# No rt, or one of no kit.
expect 70 bare "$top/build" --program
told_of 'rt, which proves and builds, is not on the path'
text other '#!/bin/sh' 'exit 1'
chmod 755 other
mkdir another && mv other another/rt
of_no_kit() {
    PATH=$PWD/another:$PWD/bin "$top/build" --program
}
expect 70 of_no_kit
told_of 'no kit'
of_another_kit() {
    mkdir -p other/bin
    text other/bin/rt '#!/bin/sh' "echo '$PWD/other/START-HERE.md'"
    chmod 755 other/bin/rt
    grep -v '^KEPT' "$top/tests/building/kit/bin/rtlib.py" >other/bin/rtlib.py
    PATH=$PWD/other/bin:$PWD/bin "$top/build" --program
}
expect 70 of_another_kit
told_of 'has no KEPT'

# A copy with five crates.
cp -R "$top/tests/building/kit" "$kit"
: >"$kit/log"
mkdir -p "$copy/docs/tools" "$copy/library" "$copy/release"
cp "$top/build" "$copy"
cp "$top"/docs/tools/*.py "$copy/docs/tools"
text "$copy/crates.txt" 'pb_low:' 'pb_left: pb_low' 'pb_right: pb_low' 'pbcnf: pb_left pb_right' 'pbcnf_c staticlib: pb_left' 'pb_test: pb_low'
for crate in pb_low pb_left pb_right pbcnf pbcnf_c pb_test; do
    source_is $crate "// $crate"
done
program=$copy/crates/pbcnf/out/pbcnf
text "$copy/library/build" '#!/bin/sh' 'mkdir -p library/out && echo a >library/out/libpbcnf.a && echo so >library/out/libpbcnf.so.0'
text "$copy/release/take" '#!/bin/sh' 'echo taken'
text "$copy/release/sources" '#!/bin/sh' 'echo these'
chmod 755 "$copy/library/build" "$copy/release/take" "$copy/release/sources"

# All is built, and nothing twice.
expect 0 build --program --jobs 3
says
proved pb_left pb_low pb_right pbcnf
holds "$program" '// pbcnf'
told_of '^build: 4 of 4 crates to prove: about a minute on 3 processors'
told_of '^build: proved pbcnf in [0-9]* s: 4 of 4 crates, 100 % of the work$'
expect 0 build
proved pbcnf_c
told_of '^build: the program: there is none in release/'
expect 0 build
noted

# A source that only has another time makes nothing anew; the program's stamp is newer then, so that the launcher takes it.
touch "$copy/crates/pb_low/src/lib.rt"
expect 0 test "$program.stamp" -ot "$copy/crates/pb_low/src/lib.rt"
expect 0 build --program
noted
expect 0 test "$program.stamp" -nt "$copy/crates/pb_low/src/lib.rt"
source_is pb_right '// pb_right, otherwise'
expect 0 build
proved pb_right pbcnf
expect 0 build --release
says taken
noted

# What it has beside the release.
mkdir -p "$release"
cp "$program" "$copy"/library/out/* "$release"
text "$release/BUILT" 'kit a kit of the tests' 'sources these'
expect 0 build
told_of '^build: the program has the bytes of release/$'
told_of '^build: the C library has the bytes of release/$'
text "$release/pbcnf" 'another'
expect 0 build
told_of '^build: the program has not the bytes of release/, though'
told_of '^build: the C library has the bytes of release/$'
text "$release/BUILT" 'kit another one' 'sources these'
expect 0 build
told_of '^build: the program has not the bytes of release/, which was built by another kit, another one$'
text "$release/BUILT" 'kit a kit of the tests' 'sources those'
expect 0 build
told_of '^build: the program has not the bytes of release/, which was built of other sources$'
text "$copy/library/build" '#!/bin/sh' 'echo there is no cc' 'exit 69'
expect 0 build
told_of '^build: the C library is not linked: there is no cc$'
expect 70 build --release
text "$copy/library/build" '#!/bin/sh' 'echo a fault' 'exit 70'
expect 70 build
told_of '^build: the C library is not linked: a fault$'

# A crate that is not proved: it is named, nothing above it is begun, and it has no stamp.
source_is pb_left '// wrong'
: >"$kit/log"
expect 70 build --program
told_of '^build: pb_left is not proved and built; crates/pb_left/out/build.log says why$'
noted 'begin pb_left'
absent "$copy/crates/pb_left/out/rlib/stamp"
source_is pb_left '// right'
source_is pbcnf '// wrong'
expect 70 build --program
told_of '^build: pbcnf is not proved and built'
absent "$program.stamp"
: >"$kit/log"
source_is pbcnf '// pbcnf'
expect 0 build --program
proved pbcnf

# Nothing can be written.
rm -r "$copy/crates/pbcnf/out"
: >"$copy/crates/pbcnf/out"
expect 70 build --program
told_of '^build: .*crates/pbcnf/out'
rm "$copy/crates/pbcnf/out"
expect 0 build --program
: >"$kit/log"

# A source that changes while it is built; one that changes before its own build begins is built as it is then.
# changes CRATE FILE: while another crate is built, or it is itself, this source of it changes.
changes() {
    text "$kit/bin/rattle.new" '#!/bin/sh' "echo '// changed' >>'$copy/crates/$1/src/$2.rt'" "exec '$kit/bin/rattle.old' \"\$@\""
    chmod 755 "$kit/bin/rattle.new"
    mv "$kit/bin/rattle" "$kit/bin/rattle.old" && mv "$kit/bin/rattle.new" "$kit/bin/rattle"
    build --program
    local status=$?
    mv "$kit/bin/rattle.old" "$kit/bin/rattle"
    return $status
}
source_is pb_right '// pb_right, once more'
expect 70 changes pb_low lib
told_of 'changed while it was built'
absent "$copy/crates/pb_right/out/rlib/stamp"
expect 0 build --program
source_is pb_low '// pb_low, once more'
expect 70 changes pbcnf main
told_of 'pbcnf, or of a crate below it, changed'
: >"$kit/log"
expect 0 build --program
proved pbcnf

# begin FILE: a build that takes long begins, with its standard error in the file; $begun is its process.
begin() {
    : >"$kit/log"
    PATH=$kit/bin:$PWD/bin "$copy/build" --program 2>"$1" &
    begun=$!
    wait_until ended_or $begun grep -q 'begin pb_left' "$kit/log"
}

# One that is ended ends what it began, and leaves no stamp.
source_is pb_left '// long'
begin first
kill -TERM $begun
wait $begun
expect 0 test $? -eq 143
noted 'begin pb_left'
expect 0 has_ended "$(cat "$kit/process")"
absent "$copy/crates/pb_left/out/rlib/stamp"

# Another one waits for it.
begin first
PATH=$kit/bin:$PWD/bin "$copy/build" --program 2>second &
second=$!
wait_until ended_or $second grep -q waiting second
last='two builds at once'
holds second 'build: waiting for another build to end'
noted 'begin pb_left'
source_is pb_left '// short'
kill -TERM $begun
wait $second
expect 0 test $? -eq 0
proved pb_left pbcnf

# What crates took that were built from nothing can be kept for the next plan; the one with work kept is not among them.
rm -r "$copy/crates/pb_low/out"
source_is pb_right '// pb_right, at last'
expect 0 build --program --measure
if grep -q '^"pb_low": \[0, 0.0\]' "$copy/docs/tools/crate_seconds.json"; then passed; else failed "$last: pb_low is not in the table"; fi
if grep -q pbcnf "$copy/docs/tools/crate_seconds.json"; then failed "$last: pbcnf is in the table"; else passed; fi
