# Time grows with the size: a text four times as long takes no more than nine times as long, by the processor's time of the best runs. What
# is linear takes four times as long, and what is quadratic sixteen times.
. "$top/tests/lib.sh"
. "$top/tests/problems.sh"

# spend COMMAND PROBLEM SIZE: sets $spent to the milliseconds of a run, in the folder of this size. It has to end well.
spend() {
    local TIMEFORMAT='%U %S'
    words_of "$@"
    spent=
    { time (cd "$3" && exec "$pbcnf" "${words[@]}") >"$said" 2>"$told"; } 2>"$state/time" && [ -s "$said" ] || return
    spent=$(awk '{ printf "%d", ($1 + $2) * 1000 }' "$state/time")
}

# best RUNS COMMAND PROBLEM SIZE: lowers $least to what the best of so many runs takes.
best() {
    local run
    for ((run = 0; run < $1; run++)); do
        spend "${@:2}" || return
        [ "$least" -le "$spent" ] || least=$spent
    done
}

# is_even COMMAND PROBLEM SIZE: whether the best run takes no more than nine times as long on four times the size. On a machine that does
# much else that is seen after some runs of both, with longer and longer pauses.
is_even() {
    local turn least
    small=1000000 large=1000000
    for turn in {0..12}; do
        sleep "$turn"
        least=$small && best 3 "$@" && small=$least || return
        least=$large && best 1 "$1" "$2" $((4 * $3)) && large=$least || return
        [ "$large" -gt $((9 * small + 20)) ] || return 0
    done
    return 1
}

# keeps_pace PROBLEM SIZE COMMAND..: each of the commands does, on a problem of this size and of four times that.
keeps_pace() {
    local problem=$1 command size small large
    for size in "$2" $((4 * $2)); do
        mkdir "$size"
        (cd "$size" && $problem "$size")
    done
    for command in "${@:3}"; do
        last="$command of $problem $size"
        if is_even "$command" "$problem" "$2"; then
            passed
        else
            failed "$last: wanted at most nine times $small ms, got $large ms; the last run took ${spent:-no end} ms"
        fi
    done
    rm -r "$2" "$size"
}
keeps_pace clauses 60000 derive check
keeps_pace five 150000 encode
keeps_pace named 60000 wcnf map decode
keeps_pace sums 1500 derive check
keeps_pace long 3000 derive check
keeps_pace long 60000 encode
keeps_pace chain 60000 probe derive refute
keeps_pace steps 100000 check
keeps_pace pairs 1000 check
keeps_pace undone 100000 refute
keeps_pace blanks 4000000 check refute
keeps_pace drawn 10000 bench
