# Each text is read to its end once: one read of it gives nothing, whether or not its last line has an LF. So at a terminal one
# end of input is enough, and nothing after it is lost.
. "$top/tests/lib.sh"
. "$top/tests/problems.sh"

needs strace
if ! strace -o trace true 2>"$state/strace"; then
    skip 'strace may not trace here'
    exit 0
fi

# ends COUNT WORD..: the run ends well, and as many reads give nothing as there are texts.
ends() {
    local count=$1 ended got
    shift
    last=$(shown "$@")
    strace -qq -e trace=read,write -o trace "$pbcnf" "$@" >"$said" 2>"$told"
    got=$?
    ended=$(grep -c '^read(.* = 0$' trace)
    if [ $got -eq 0 ] && [ "$ended" -eq "$count" ] && [ -s "$said" -o "$1" = map ]; then
        ended_well
    else
        ended_ill "$last: wanted the status 0 and $count reads that give nothing, got $got and $ended"
    fi
}

cp "$examples"/{knapsack,timetable,pigeons}.opb "$examples/pigeons.lrat" .
fine encode knapsack.opb knapsack.cnf knapsack.proof
fine encode pigeons.opb pigeons.cnf pigeons.proof
text pair.opb 'min: +1 x1 +1 x2 ;' '+1 x1 +1 x2 >= 1 ;'
text pair.model 's SATISFIABLE' 'v 1 -2 0'
text pair.lrat '4 0 2 3 1 0'
fine encode pair.opb pair.cnf pair.proof --at-most=0
text knapsack.model 's SATISFIABLE' 'v 1 2 7 8 0'
for name in *.*; do
    head -c -1 "$name" >"cut_$name"
done
for one in '' cut_; do
    ends 1 encode ${one}knapsack.opb n.cnf n.proof
    ends 1 wcnf ${one}knapsack.opb n.wcnf
    ends 1 map ${one}timetable.opb
    ends 1 probe ${one}knapsack.cnf x1
    ends 2 decode ${one}knapsack.opb ${one}knapsack.model
    ends 3 check ${one}knapsack.opb ${one}knapsack.cnf ${one}knapsack.proof
    ends 4 refute ${one}pigeons.opb ${one}pigeons.cnf ${one}pigeons.proof ${one}pigeons.lrat
    ends 5 optimum ${one}pair.opb ${one}pair.model ${one}pair.cnf ${one}pair.proof ${one}pair.lrat
done
ends 0 bench 10 7 n.cnf

# An empty text, too.
: >empty
ends 1 encode empty n.cnf
ends 1 map empty

# A text is read, and a file is written, in pieces of 64 KiB. (The loader reads once, and words are written once.)
in_pieces() {
    local calls pieces
    calls=$(grep -c "^$1(" trace)
    pieces=$(($(stat -c %s "$2") / 65536))
    if [ "$pieces" -gt 5 ] && [ "$calls" -le $((pieces + 4)) ]; then
        passed
    else
        failed "$last: wanted $pieces calls of $1 and a few, got $calls"
    fi
}
clauses 30000
well strace -qq -e trace=read,write -o trace "$pbcnf" encode clauses.opb n.cnf
in_pieces read clauses.opb
in_pieces write n.cnf
