# How lines end, empty texts, and texts that are no regular files.
. "$top/tests/lib.sh"

opb=$examples/knapsack.opb
fine encode "$opb" o.cnf o.proof
cp "$said" summary
awk '{ printf "%s\r\n", $0 }' "$opb" >crlf.opb
awk '{ printf "%s\r\n", $0 }' o.cnf >crlf.cnf
awk '{ printf "%s\r\n", $0 }' o.proof >crlf.proof
printf 's SATISFIABLE\r\nv 1 2 7 8 0\r\n' >crlf.model
solution='v x1 x2 -x3 -x4 -x5 -x6 x7 x8'

# CRLF for LF changes nothing.
fine encode crlf.opb one.cnf one.proof
same summary "$said"
same o.cnf one.cnf
same o.proof one.proof
fine check crlf.opb crlf.cnf crlf.proof
says accepted
fine decode crlf.opb crlf.model
says 's SATISFIABLE' "$solution"
fine probe o.cnf x1
cp "$said" probed
fine probe crlf.cnf x1
same probed "$said"
awk '{ printf "%s\r\n", $0 }' "$examples/pigeons.lrat" >crlf.lrat
fine encode "$examples/pigeons.opb" pigeons.cnf pigeons.proof
fine refute "$examples/pigeons.opb" pigeons.cnf pigeons.proof crlf.lrat
says refuted

# Nor does a last line without LF.
for name in o.cnf o.proof; do
    head -c -1 "$name" >"short.${name#o.}"
done
fine check "$opb" short.cnf short.proof
says accepted
fine probe short.cnf x1
same probed "$said"
head -c -1 "$examples/pigeons.lrat" >short.lrat
fine refute "$examples/pigeons.opb" pigeons.cnf pigeons.proof short.lrat
says refuted
printf 's SATISFIABLE\nv 1 2 7 8 0' >short.model
fine decode "$opb" short.model
says 's SATISFIABLE' "$solution"

# Empty texts: a problem without statements, and texts that lack what they have to have.
: >empty
fine encode empty empty.cnf empty.proof
clauses_alone 0 0
holds empty.cnf 'p cnf 0 0'
fine check empty empty.cnf empty.proof
says accepted
fine map empty
says
fault 1 'CNF 1:1: expected p line' probe empty
fault 1 'CNF 1:1: expected p line' check "$opb" empty o.proof
fault 1 'PROOF 1:1: expected step word' check "$opb" o.cnf empty
fault 9 'no model' decode "$opb" empty
fault 10 'LRAT line 1: no empty clause' refute "$opb" o.cnf o.proof empty

# By /dev/stdin, from a file and through a pipe, whole and byte by byte.
from_stdin() {
    "$pbcnf" "$@" <"$input"
}
through_pipe() {
    cat "$input" | "$pbcnf" "$@"
}
by_bytes() {
    dd if="$input" bs=1 2>"$state/dd" | "$pbcnf" "$@"
}
for way in from_stdin through_pipe by_bytes; do
    input=$opb
    expect 0 $way encode /dev/stdin two.cnf two.proof
    same summary "$said"
    same o.cnf two.cnf
    same o.proof two.proof
    input=o.cnf
    expect 0 $way check "$opb" /dev/stdin o.proof
    says accepted
    expect 0 $way probe /dev/stdin x1
    same probed "$said"
    input=o.proof
    expect 0 $way check "$opb" o.cnf /dev/stdin
    says accepted
    input=short.model
    expect 0 $way decode "$opb" /dev/stdin
    says 's SATISFIABLE' "$solution"
    input=$examples/pigeons.lrat
    expect 0 $way refute "$examples/pigeons.opb" pigeons.cnf pigeons.proof /dev/stdin
    says refuted
    input=$examples/timetable.opb
    expect 0 $way map /dev/stdin
    says '1 maths[mon]' '2 maths[tue]' '3 physics[mon]' '4 physics[tue]' '5 music[mon]' '6 music[tue]' '7 sports[mon]' \
        '8 sports[tue]'
done

# By a FIFO, read and made.
if ! mkfifo in out 2>"$state/dd"; then
    skip 'there are no FIFOs here'
    exit 0
fi
cat "$opb" >in &
expect 0 pb encode in three.cnf
same summary "$said"
same o.cnf three.cnf
kill $! 2>"$state/kill"
# What is made goes to a reader, which has all and ends once the program has ended. One for which the program has not opened the FIFO ends
# where that is opened here.
made_for() {
    local reader
    cat out >"$1" &
    reader=$!
    shift
    expect 0 pb "$@"
    same summary "$said"
    until has_ended $reader; do
        : <>out
        sleep 0.1
    done
}
made_for four.cnf encode "$opb" out
same o.cnf four.cnf
made_for four.proof encode "$opb" five.cnf out
same o.cnf five.cnf
same o.proof four.proof
