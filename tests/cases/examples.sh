# The commands of examples/: what they do with words, names, files and tools that are not as they should be, and that nothing is
# lost by it; and what they answer.
. "$top/tests/lib.sh"
needs python3

export PBCNF=$pbcnf PYTHONDONTWRITEBYTECODE=1
solve=$examples/solve
minimize=$examples/minimize
opb=$examples/guards.opb

# The lines that begin so of the last command's output.
lines_of() {
    grep "^$1" "$said" >"$state/lines"
    holds "$state/lines" "${@:2}"
}

# True if the last command printed a line with these words on standard error.
mentions() {
    if grep -Fq -- "$1" "$told"; then passed; else failed "$last: wanted '$1' told, got $(bytes_of "$told")"; fi
}

# refuses_words CMD..: that is status 2 and a line on the usage, and before anything is done.
refuses_words() {
    local got
    echo precious >precious.txt
    last=$(shown "$@")
    "$@" >"$said" 2>"$told"
    got=$?
    if [ $got -eq 2 ] && [ ! -s "$said" ] && grep -q 'usage: pbcnf-' "$told" && grep -qx precious precious.txt; then
        ended_well
    else
        ended_ill "$last: wanted the status 2 and the usage, got $got, $(bytes_of "$told") and $(bytes_of precious.txt)"
    fi
}

# A word after the OPB file that is no option is refused.
for command in solve minimize; do
    for words in precious.txt '--general tree precious.txt' 'precious.txt --table' '-- precious.txt' -x '--at-most=20 7' \
        '--amo auto --card totalizer precious.txt'; do
        refuses_words "$examples/$command" "$opb" $words
    done
    expect 2 "$examples/$command"
    mentions 'the following arguments are required: OPB'
done
expect 2 "$minimize" "$opb" --at-most=20
mentions '--at-most: pbcnf-minimize chooses the bounds itself'
expect 2 "$minimize" "$opb" --table
says

# Files that cannot be read.
mkdir folder
for command in solve minimize; do
    expect 4 "$examples/$command" nowhere.opb
    says
    tells "pbcnf-$command: nowhere.opb: No such file or directory"
    expect 4 "$examples/$command" folder
    tells "pbcnf-$command: folder: Is a directory"
done

# No solver on the path.
mkdir tools
for tool in sh dirname readlink; do ln -s "$(command -v $tool)" tools/$tool; done
ln -s "$(python3 -c 'import sys; print(sys.executable)')" tools/python3
bare() {
    PATH=$PWD/tools "$@"
}
for command in solve minimize; do
    expect 69 bare "$examples/$command" "$opb"
    says
    tells "pbcnf-$command: no SAT solver is on the path; install one of cadical kissat cryptominisat5 clasp picosat glucose minisat"
done
needs cadical

# A folder in which nothing may be written is no hindrance; nor are blanks in names.
mkdir 'a folder'
cp "$opb" 'a folder/the guards.opb'
cp -R "$examples" 'a folder/the examples'
cp -R "$top/library" 'a folder/library'
chmod a-w 'a folder'
(cd 'a folder' && TMPDIR=$work "./the examples/solve" 'the guards.opb' --at-most=20) >"$said" 2>"$told"
lines_of '[os]' 'o 20' 's SATISFIABLE'
chmod u+w 'a folder'

# Standard input by `-`.
by_stdin() {
    "$1" - "${@:3}" <"$2"
}
expect 0 by_stdin "$solve" "$opb" --at-most=20
lines_of '[os]' 'o 20' 's SATISFIABLE'

# least VALUE OPB [OPTION ..]: a best solution costs this, and that one costs less is refuted.
is_least() {
    grep '^[os] ' "$said" | tail -n 2 >"$state/lines"
    holds "$state/lines" "o $1" 's OPTIMUM FOUND'
}
least() {
    local value=$1
    shift
    expect 0 "$minimize" "$@"
    is_least "$value"
}
least 20 "$opb"
least 20 'a folder/the guards.opb' --general tree
least 20 "$opb" --general adder --budget 1
expect 0 by_stdin "$minimize" "$opb"
is_least 20
# By its older name.
expect 0 "$examples/cheapest" "$opb"
is_least 20
for option in '' '--budget 1'; do
    least 12 "$top/tests/data/garden.opb" $option
    least 5000000000000000000000000 "$top/tests/data/covering.opb" $option
    least 17 "$top/tests/data/upgrade.opb" $option
    # Values below 0, one that is the least of all, and one alone.
    text below.opb 'min: +3 x1 -7 x2 -2 x3 +4 x4 ;' '+1 x1 +1 x4 >= 1 ;' '+1 ~x2 +1 ~x3 >= 1 ;'
    least -4 below.opb $option
    text free.opb 'min: -123456789012345678901 x1 +1 x2 ;'
    least -123456789012345678901 free.opb $option
    text constant.opb 'min: +5 x1 +5 ~x1 ;'
    least 5 constant.opb $option
    text zero.opb 'min: ; +1 x1 >= 1 ;'
    least 0 zero.opb $option
done

# The problems are as their script makes them.
mkdir made
expect 0 "$top/tests/data/make" made
for name in garden covering upgrade; do same "$top/tests/data/$name.opb" made/$name.opb; done

# No solution, also by an empty clause or by units that come before others; and no objective.
text empty.opb '+1 x1 +1 x2 >= 3 ;' '+1 x1 >= 1 ;' '+1 x2 +1 x3 >= 1 ;'
text units.opb '+1 x1 >= 1 ;' '+1 ~x1 >= 1 ;' '+1 x2 +1 x3 >= 1 ;' '+1 x2 +1 ~x3 >= 1 ;'
for file in empty.opb units.opb; do
    for command in solve minimize; do
        expect 20 "$examples/$command" $file
        says 's UNSATISFIABLE'
    done
done
expect 20 "$minimize" "$examples/pigeons.opb"
says 's UNSATISFIABLE'
text none.opb 'min: +1 x1 ; +1 x1 +1 x2 >= 3 ;'
expect 20 "$minimize" none.opb
says 's UNSATISFIABLE'
expect 65 "$minimize" "$examples/choice.opb"
lines_of '[osr]' 's SATISFIABLE'
mentions 'pbcnf-minimize: there is no objective'

# A text that is refused keeps the program's status and line.
text wrong.opb 'min: x1 ;'
for command in solve minimize; do
    expect 1 "$examples/$command" wrong.opb
    says
    tells 'pbcnf: OPB 1:6: expected a coefficient or ;' \
        "pbcnf-$command: wrong.opb: 'x1' is there: a term without its coefficient; pbcnf-tidy makes '+1 x1' of 'x1'"
    expect 2 "$examples/$command" "$opb" --general sorter
    says
done

# A CaDiCaL that writes LRAT itself, and drat-trim, are taken where they are there: both are played by scripts here. Nine pigeons in
# eight holes have a refutation that is long enough for drat-trim.
mkdir plays
awk 'BEGIN {
    for (i = 0; i < 9; i++) { for (j = 1; j <= 8; j++) printf "+1 x%d ", 8 * i + j; print ">= 1 ;" }
    for (j = 1; j <= 8; j++) { for (i = 0; i < 9; i++) printf "+1 x%d ", 8 * i + j; print "<= 1 ;" }
}' >nine.opb
cat >plays/cadical <<'END'
#!/bin/sh
case " $* " in
*' --help '*) echo '  --lrat' && exit ;;
*' --lrat '*) ;;
*) exec "$REAL" "$@" ;;
esac
for word in "$@"; do
    shift
    [ "$word" = --lrat ] || set -- "$@" "$word"
    cnf=${lrat-} lrat=$word
done
"$REAL" "$@"
status=$?
if [ $status -eq 20 ]; then
    mv "$lrat" "$lrat.drat"
    "$HINTS" "$cnf" "$lrat.drat" >"$lrat"
    echo lrat >>"$SEEN"
fi
exit $status
END
chmod +x plays/cadical
with_plays() {
    REAL=$(command -v cadical) HINTS=$examples/hints SEEN=$PWD/seen PATH=$PWD/plays:$PATH "$@"
}
expect 20 with_plays "$solve" "$examples/pigeons.opb"
says 's UNSATISFIABLE'
holds seen lrat
rm plays/cadical seen
printf '#!/bin/sh\necho trim >>"$SEEN"\nexec "$HINTS" "$1" "$2" >"$4"\n' >plays/drat-trim
chmod +x plays/drat-trim
expect 20 with_plays "$solve" "$examples/pigeons.opb"
absent seen
expect 20 with_plays "$solve" nine.opb
says 's UNSATISFIABLE'
holds seen trim
# One that fails is no hindrance.
printf '#!/bin/sh\nexit 1\n' >plays/drat-trim
expect 20 with_plays "$solve" nine.opb
says 's UNSATISFIABLE'

# Hints for a refutation in text, which is one of the problem with the bound alone, and none of another CNF.
fine encode "$opb" o.cnf o.proof --at-most=19
cadical -q --no-binary o.cnf o.drat >o.log
expect 0 "$examples/hints" o.cnf o.drat
cp "$said" o.lrat
fine refute "$opb" o.cnf o.proof o.lrat --at-most=19
says refuted
expect 1 pb refute "$opb" o.cnf o.proof o.lrat
says
fine encode "$opb" o.cnf --at-most=20
expect 1 "$examples/hints" o.cnf o.drat

# DRAT that is binary, or refutes nothing, or has a clause that does not follow.
fine encode "$examples/pigeons.opb" o.cnf o.proof
cadical -q o.cnf o.binary >o.log
expect 1 "$examples/hints" o.cnf o.binary
tells 'pbcnf-hints: the DRAT file is binary; CaDiCaL writes text with --no-binary'
says
text o.drat
expect 1 "$examples/hints" o.cnf o.drat
tells 'pbcnf-hints: the texts end without a conflict, so that nothing is refuted'
text o.drat 'c nothing' '1 0' '-1 0' 0
expect 1 "$examples/hints" o.cnf o.drat
mentions 'does not follow by unit propagation'
expect 2 "$examples/hints" o.cnf
expect 4 "$examples/hints" o.cnf nowhere.drat
text o.drat 'c nothing' '1 one 0'
expect 1 "$examples/hints" o.cnf o.drat
says
expect 5 bash -c '"$0" o.cnf o.drat >&-' "$examples/hints"

# Nothing is left behind, also where a signal ends a command.
mkdir temporary
export TMPDIR=$PWD/temporary
expect 0 "$minimize" "$opb"
expect 0 "$solve" "$opb"
text plays/cadical '#!/bin/sh' '[ "$1" != --help ] || exit' "echo called >'$PWD/called'" 'exec sleep 1000'
rm plays/drat-trim
chmod +x plays/cadical
for command in solve minimize; do
    rm -f called
    PATH=$PWD/plays:$PATH "$examples/$command" "$opb" >slow.said 2>slow.told &
    slow=$!
    wait_until ended_or "$slow" test -s called
    expect 0 test -n "$(find temporary -type f -size +0)"
    kill "$slow"
    wait "$slow"
    last="$command, ended" status=$?
    if [ -z "$(find temporary -mindepth 1)" ]; then passed; else failed "$last: wanted no file left"; fi
done
