# The tables of docs/MISTAKES.md: each text and each command there gets the line beside it, and the mended one not.
. "$top/tests/lib.sh"

ln -s "$examples" examples
ln -s "$pbcnf" pbcnf
page=$top/docs/MISTAKES.md
usage='pbcnf: usage: encode, check, decode, probe or bench'

# The words between `` of a cell.
bare() {
    local word=${1#*\`}
    [ "$word" = "$1" ] || printf '%s' "${word%\`*}"
}

# A row of OPB texts.
judge_text() {
    text row.opb "$1"
    pb encode row.opb row.cnf >"$said" 2>"$told"
    last="the text $1"
    tells "pbcnf: $2"
    absent row.cnf
    [ -n "$3" ] || return
    text row.opb "$3"
    fine encode row.opb row.cnf
    rm row.cnf
}

# A row of commands.
judge_words() {
    expect 2 bash -c "$1"
    tells "$usage"
    expect 0 bash -c "$2"
}

fine encode examples/guards.opb out.cnf
while IFS='|' read -r _ first second third fourth _; do
    if [[ $first == *'`./pbcnf'* ]]; then
        judge_words "$(bare "$first")" "$(bare "$third")"
    elif [[ $second == *'`OPB '* ]]; then
        judge_text "$(bare "$first")" "$(bare "$second")" "$(bare "$fourth")"
    fi
done < <(grep '^| ' "$page")
