# For the cases in which calls of the system are refused one by one, by strace: the texts that the runs read, and `each`, which makes them.
# It ends the case where there is no strace, or where it may not do so.
needs strace
trace=$state/trace
calls=openat,read,write,ftruncate,fsync,statx
if ! strace -o "$trace" -e inject=fsync:error=EIO true 2>"$state/strace"; then
    skip 'strace may not refuse calls here'
    exit 0
fi

cp "$examples"/{knapsack,pigeons}.opb "$examples/pigeons.lrat" .
text knapsack.model 's SATISFIABLE' 'v 1 2 7 8 0'
fine encode pigeons.opb pigeons.cnf pigeons.proof

# How many calls of this kind are the loader's, which comes before the program: its names are absolute.
calls_of_loader() {
    awk -v kind="$1(" '/^openat\(AT_FDCWD, "[^\/]/ { exit } index($0, kind) == 1 { count++ } END { print count + 0 }' "$trace"
}

# front FILE DUE: the file is a first part of the other, or is not there.
front() {
    [ -e "$1" ] || return 0
    if head -c "$(stat -c %s -- "$1")" -- "$2" | cmp -s - "$1"; then
        passed
    else
        failed "$last: $1 is no first part of what is due"
    fi
}

# True if the last run has said and made all that is due.
is_whole() {
    local one
    cmp -s due.said "$said" || return
    for one in n.*; do
        [ ! -e "$one" ] || cmp -s "due.${one#n.}" "$one" || return
    done
}

# each CALL ERROR STATUSES WORD..: refuses the program's first, second, .. such call, until a run has fewer. The runs end with
# these statuses in turn, the last of them for all that are left.
each() {
    local call=$1 error=$2 n before status
    local -a statuses
    read -ra statuses <<<"$3"
    shift 3
    rm -f n.*
    well strace -qq -o "$trace" -e trace=$calls "$pbcnf" "$@"
    before=$(calls_of_loader "$call")
    cp "$said" due.said
    for one in n.*; do
        [ ! -e "$one" ] || mv -- "$one" "due.${one#n.}"
    done
    for ((n = 1; n <= 100; n++)); do
        rm -f n.*
        last=$(shown "$call $n refused by $error:" "$@")
        strace -qq -o "$trace" -e trace=$calls -e inject="$call:error=$error:when=$((before + n))" "$pbcnf" "$@" \
            >"$said" 2>"$told"
        status=$?
        if ! grep -q INJECTED "$trace"; then break; fi
        if [ $status -ne "${statuses[0]}" ]; then ended_ill "$last: wanted the status ${statuses[0]}, got $status"; else ended_well; fi
        [ ${#statuses[@]} -eq 1 ] || statuses=("${statuses[@]:1}")
        front "$said" due.said
        for one in n.*; do
            front "$one" "due.${one#n.}"
        done
    done
    if [ $status -eq 0 ] && [ $n -gt 1 ] && is_whole; then
        ended_well
    else
        ended_ill "$last: wanted a whole run after call $n, in which nothing is refused, got the status $status"
    fi
}
