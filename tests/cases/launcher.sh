# The launcher ./pbcnf: it says how it is used, and its version; else it runs the program of release/, or the one that was built here, with its words, streams and
# status, and builds one where neither is of the sources that are there; where it cannot, that is status 70.
. "$top/tests/lib.sh"

needs readlink find awk sha256sum
copy="$PWD/a copy"
built=crates/pbcnf/out/pbcnf
source=$copy/crates/pbcnf/src/main.rt
mark=$copy/crates/pbcnf/out/tested
platform=$(uname -m)-$(uname -s | tr '[:upper:]' '[:lower:]')
released=release/$platform
link_tools_but rt

# launch WORD..: the copy's launcher, where there is no rt.
launch() {
    PATH=$PWD/bin "$copy/pbcnf" "$@"
}

# The program runs, and nothing else is printed.
runs() {
    well launch bench 1 0
    clauses_alone 11 1
}

# put_program FOLDER/NAME: a program that says what it is, below the copy. The real one is the last that is put.
put_program() {
    mkdir -p "$copy/${1%/*}"
    text "$copy/$1" '#!/bin/sh' "[ \$# -gt 0 ] || exit 2" "echo $1"
    chmod 755 "$copy/$1"
}

# put_page: what release/ has is of the sources that are there.
put_page() {
    text "$copy/$released/BUILT" 'version 0.0.0' "sources $("$copy/release/sources")" "$(cd "$copy/$released" && sha256sum pbcnf)"
}

# put_real NAME: the program that is tested.
put_real() {
    cp "$pbcnf" "$copy/$1"
    chmod 755 "$copy/$1"
}

mkdir -p "$copy/crates/pbcnf/src" "$copy/crates/pbcnf_c/src" "$copy/crates/pb_words" "$copy/release"
cp "$top/pbcnf" "$top/VERSION" "$copy"
cp "$top/release/crates" "$top/release/lib.sh" "$top/release/sources" "$copy/release"
cp -R "$top/crates/pb_words/src" "$copy/crates/pb_words"
text "$copy/crates.txt" 'pb_words:' 'pbcnf: pb_words' 'pbcnf_c staticlib:'
text "$source" '// A source.'
text "$copy/crates/pbcnf_c/src/lib.rt" '// Another.'

# That of release/, where its sources are those here.
put_program "$released/pbcnf"
put_real "$released/pbcnf"
needs_to_run "$copy/$released/pbcnf"
put_page
runs
holds_first() {
    is <(head -n 1 "$mark") 'the mark' "$1"
}
holds_first "$released/pbcnf"
runs
expect 2 launch
tells 'pbcnf: usage: encode, check, decode, probe or bench'
expect 2 launch help encode
tells 'pbcnf: usage: encode, check, decode, probe or bench'
printf '+1 x1 >= 1' >'two words.opb'
expect 1 launch encode 'two words.opb' o.cnf
tells 'pbcnf: OPB 1:11: expected ;'
piped() {
    printf '+1 rain >= 1 ;\n' | launch map /dev/stdin
}
expect 0 piped
says '1 rain'
ln -s "$copy/pbcnf" link
linked() {
    PATH=$PWD/bin ./link bench 1 0
}
expect 0 linked
clauses_alone 11 1
inside() {
    (cd "$copy" && PATH=$work/$subject/bin sh pbcnf bench 1 0)
}
expect 0 inside
clauses_alone 11 1

# Its standard streams, where they are closed, are the program's.
fine bench 10 7 whole.cnf
without_output() {
    launch "$@" >&-
}
to_full() {
    launch "$@" >/dev/full
}
without_any() {
    launch "$@" <&- >&- 2>&-
}
for way in without_output without_any; do
    for is_marked in 1 ''; do
        [ "$is_marked" ] || rm -f "$mark"
        expect 5 $way bench 10 7 o.cnf
        same whole.cnf o.cnf
        rm -f o.cnf
    done
done

# A call that finds the mark reads no source, and one that cannot write it down reads them all.
runs
chmod 000 "$source"
runs
chmod 644 "$source"
if [ "$(id -u)" -ne 0 ]; then
    rm -f "$mark"
    chmod 555 "$copy/crates/pbcnf/out"
    runs
    runs
    absent "$mark"
    chmod 755 "$copy/crates/pbcnf/out"
fi
rm -r "$copy/crates/pbcnf/out"
text "$copy/crates/pbcnf/out" 'no folder'
runs
runs
holds "$copy/crates/pbcnf/out" 'no folder'
rm "$copy/crates/pbcnf/out"

# A proof changes no program.
mkdir "$copy/crates/pbcnf/proofs"
runs
rmdir "$copy/crates/pbcnf/proofs"

# A source that changed, of whatever time, is seen, in whichever way it changed; and one that changed back.
refused() {
    local got
    last=$(shown launch bench 1 0)
    launch bench 1 0 >"$said" 2>"$told"
    got=$?
    if [ $got -eq 70 ] && [ ! -s "$said" ] && grep -q "$1.*rt, which builds one, is not on the path" "$told"; then
        passed
    else
        failed "$last: wanted the status 70 and '$1', got $got; it told $(bytes_of "$told") and said $(bytes_of "$said")"
    fi
}
runs
printf '// A sourcf.\n' >"$source"
touch -d '2020-01-01' "$source"
refused 'is of other sources'
printf '// A source.\n' >"$source"
runs
: >"$copy/crates/pbcnf_c/src/more.rt"
refused 'is of other sources'
rm "$copy/crates/pbcnf_c/src/more.rt"
runs
mv "$copy/crates/pbcnf_c/src/lib.rt" "$copy/crates/pbcnf_c/src/other.rt"
refused 'is of other sources'
mv "$copy/crates/pbcnf_c/src/other.rt" "$copy/crates/pbcnf_c/src/lib.rt"
runs
# Statements count as the code does.
mkdir "$copy/crates/pbcnf/specs"
text "$copy/crates/pbcnf/specs/Run.antt" '// A statement.'
rm "$mark"
put_page
runs
text "$copy/crates/pbcnf/specs/Run.antt" '// Another one.'
refused 'is of other sources'
text "$copy/crates/pbcnf/specs/Run.antt" '// A statement.'
runs
text "$copy/crates/pbcnf/specs/More.antt" '// A statement.'
refused 'is of other sources'
rm -r "$copy/crates/pbcnf/specs"
put_page
runs
printf '\n' >>"$copy/crates.txt"
refused 'is of other sources'
text "$copy/crates.txt" 'pb_words:' 'pbcnf: pb_words' 'pbcnf_c staticlib:'
runs

# A source that changes while the program is chosen is newer than the choice.
mv "$copy/release/sources" "$copy/release/asked"
text "$copy/release/sources" '#!/bin/sh' "'$copy/release/asked' \"\$@\"" 'status=$?' "printf '// A sourcf.\n' >'$source'" \
    'sleep 0.1' 'exit $status'
chmod 755 "$copy/release/sources"
rm "$mark"
runs
mv "$copy/release/asked" "$copy/release/sources"
refused 'is of other sources'
printf '// A source.\n' >"$source"
runs

# The program takes the launcher's place: it is the same process, whether the choice stands or is made first.
mv "$copy/$released/pbcnf" real
text "$copy/$released/pbcnf" '#!/bin/sh' '[ $# -gt 0 ] || exit 2' 'echo $$'
chmod 755 "$copy/$released/pbcnf"
put_page
takes_over() {
    PATH=$PWD/bin sh -c 'echo $$; exec "$0" bench 1 0' "$copy/pbcnf" | uniq -c | awk '{ print $1 }'
}
for _ in made stands; do
    expect 0 takes_over
    says 2
done
mv real "$copy/$released/pbcnf"
put_page
runs

# A program of release/ with other bytes than its page says, one that does not run, and none.
printf 'x' >>"$copy/$released/pbcnf"
refused 'does not run here'
text "$copy/$released/pbcnf" 'no program'
put_page
refused 'does not run here'
rm "$copy/$released/pbcnf"
refused "no program for $platform"

# Help and the version need no program, and are refused where they cannot be written.
"$copy/pbcnf" --help >help
for words in --help -h help; do
    expect 0 launch $words
    same help "$said"
    tells
done
expect 0 grep -q '^usage: pbcnf COMMAND' help
expect 0 launch --version
says "pbcnf $(cat "$top/VERSION")"
for words in --help --version; do
    expect 5 without_output $words
    tells 'pbcnf: write fault'
    [ ! -w /dev/full ] || expect 5 to_full $words
done

# Words that no program would take are answered without one.
for words in '' 'encode --help' '--help encode' '--version 1' encode constrain 'constrain a b' '.* a b'; do
    set -f
    # shellcheck disable=SC2086
    expect 2 launch $words
    set +f
    says
    tells 'pbcnf: usage: encode, check, decode, probe or bench'
done
for command in encode check decode probe bench refute map wcnf optimum; do
    expect 70 launch "$command" a b
done

# The one that was built here, where it is newer than all sources, or has a stamp that is.
put_program "$built"
expect 0 launch bench 1 0
says "$built"
tells
touch "$source"
refused 'none that is as new was built here'
: >"$copy/$built.stamp"
expect 0 launch bench 1 0
says "$built"
tells
expect 0 launch bench 1 0
says "$built"
holds_first "$built"
printf 'x' >>"$copy/crates/pbcnf_c/src/lib.rt"
expect 0 launch bench 1 0
says "$built"
printf 'x' >>"$source"
refused 'none that is as new was built here'
: >"$copy/$built.stamp"
expect 0 launch bench 1 0
says "$built"
printf 'x' >>"$copy/$built"
expect 70 launch bench 1 0
put_program "$released/pbcnf"
put_page
expect 0 launch bench 1 0
says "$released/pbcnf"

# One is built where there is rt: it takes over. Where that fails, or makes none, the status is 70.
rm "$copy/$released/BUILT" "$copy/$built"
text bin/rt '#!/bin/sh' 'exit 1'
chmod 755 bin/rt
builds() {
    text "$copy/build" '#!/bin/sh' 'echo said' "echo \"\$*\" >'$PWD/asked'" "$@"
    chmod 755 "$copy/build"
}
builds 'exit 70'
expect 70 launch bench 1 0
says
told_of 'the build failed'
told_of 'half an hour'
holds asked '--program'
builds 'exit 0'
expect 70 launch bench 1 0
told_of 'the build made no program'

# Nor does an older program run in its place.
put_program "$built"
touch -d '2020-01-01' "$copy/$built"
for status in 70 0; do
    touch "$source"
    builds "exit $status"
    expect 70 launch bench 1 0
    says
done
rm "$copy/$built"
builds "cp '$pbcnf' '$copy/$built'" ": >'$copy/$built.stamp'"
expect 0 launch bench 1 0
clauses_alone 11 1
told_of 'half an hour'
runs

# A build that is ended ends the launcher, which ends it.
rm "$copy/$built"
builds "echo \$\$ >'$PWD/number'" 'exec sleep 1000'
rm -f number
PATH=$PWD/bin "$copy/pbcnf" bench 1 0 2>"$told" &
launcher=$!
wait_until ended_or $launcher test -s number
kill -TERM $launcher
wait $launcher
expect 0 test $? -eq 143
expect 0 has_ended "$(cat number)"
