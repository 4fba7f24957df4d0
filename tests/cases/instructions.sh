# By how many instructions a command does its work: at most a twentieth more than tests/instructions says.
. "$top/tests/lib.sh"
. "$top/tests/problems.sh"
needs valgrind

# count WORD..: sets $count to the thousands of instructions of the program itself, without those of the C library, which may be
# another. The run has to end well.
count() {
    count=
    valgrind --tool=callgrind --callgrind-out-file=counted --log-file="$state/valgrind" "$pbcnf" "$@" >"$said" 2>"$told" || return
    [ -s "$said" ] || return
    # Objects have numbers, and the line after a call is what it takes in all.
    count=$(awk -v own="$pbcnf" '
        /^c?ob=/ && substr($0, length($1) + 2) == own { number = $1; sub("^c?ob=", "", number) }
        /^ob=/ { inside = $1 == "ob=" number }
        /^calls=/ { getline; next }
        inside && /^[0-9+*-]/ { sum += $2 }
        END { print int(sum / 1000) }' counted)
}

while read -r problem size command most; do
    $problem "$size"
    words_of "$command" "$problem" "$size"
    count "${words[@]}"
    last="$command of $problem $size"
    if [ "${count:-0}" -gt 100 ] && [ "$count" -le $((most + most / 20)) ]; then
        passed
    else
        failed "$last: wanted at most $most thousand instructions and a twentieth, got ${count:-no end}"
    fi
done < <(grep -v '^#' "$top/tests/instructions")
