# No proof covers what the program's lines at the system's edge do. For each deed that they could do wrong, by the tables of
# CONTRIBUTING.md, the case beside it fails; and over a system that is hard to please it passes.
. "$top/tests/lib.sh"

own=$top/tests/edge
needs_compiler
if ! $compiler -O1 -Wall -Wextra -Werror -shared -fPIC -o deeds.so "$own/deeds.c" 2>"$state/cc"; then
    failed "$compiler: $(tail -n 3 "$state/cc")"
    exit 0
fi
# One that is linked to nothing is the program at once; what a test has the loader bring is for the program alone then.
for way in -static ''; do
    $compiler -O1 $way -DPROGRAM="\"$pbcnf\"" -DLIBRARY="\"$PWD/deeds.so\"" -o program "$own/program.c" 2>"$state/cc" && break
done
needs_to_run ./program

# rows HEAD: the rows below the head of a table, as lines of a deed, a tabulator and a case.
rows() {
    awk -v head="$1" '$0 == head { inside = 1; next } !/^\|/ { inside = 0 } inside && !/^\|-/' "$top/CONTRIBUTING.md" |
        sed 's/^| \(.*\) | `tests\/cases\/\(.*\)\.sh` |$/\1\t\2/'
}
rows '| a wrong deed | is noticed by |' >wrong
rows '| a system on which | is borne by |' >hard
cut -f 1 wrong hard | grep -v '^the status [0-9]* is reported as [0-9]*$' | sort >listed
grep -o 'is_done("[^"]*")' "$own/deeds.c" | cut -d '"' -f 2 | sort -u >written
last='the tables of CONTRIBUTING.md and tests/edge/deeds.c'
same listed written

# ends STATUS DEED CASE: the case, over the program that does so, ends with this status. One that is skipped here says nothing.
ends() {
    until_failed=1 WRONG_DEED=$2 "$top/tests/run" "$PWD/program" "$3" >report
    local status=$?
    last="over the deed '$2'"
    if grep -q '^0 passed, 0 failed,' report; then
        skip "$last: $(head -n 1 report)"
    elif [ $status -eq "$1" ]; then
        passed
    else
        failed "$last: wanted the status $1 of $3, got $status: $(tail -n 2 report | tr '\n' '|')"
    fi
}

# Without any deed each of the cases passes, so that what fails below does so by the deed.
cut -f 2 wrong hard | sort -u >cases
while read -r one; do
    ends 0 '' "$one"
done <cases

# A program that does nothing passes less than half of the checks of these cases, and of others that are about the program alone. (Of
# scripts, packages and pages, which run it little or play it, most is well whatever it does.)
printf '%s\n' broken chain checked faults growth lengths memory options rights terminal >>cases
while read -r one; do
    "$top/tests/run" "$(type -P true)" "$one" >report
    read -r passes _ fails _ < <(tail -n 1 report)
    last="$one, over a program that does nothing"
    if [ "$passes" -lt "$fails" ] || [ "$passes" -eq 0 ]; then passed; else failed "$last: $passes checks pass, and $fails fail"; fi
done <cases
while IFS=$'\t' read -r deed one; do
    ends 0 "$deed" "$one"
done <hard
while IFS=$'\t' read -r deed one; do
    ends 1 "$deed" "$one"
done <wrong
