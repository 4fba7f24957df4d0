# Standard input, output and error, closed one by one and together: nothing that is said gets into a file that is made, and
# words that cannot be said are a write fault.
. "$top/tests/lib.sh"

opb=$examples/knapsack.opb
fine encode "$opb" o.cnf o.proof
fine wcnf "$opb" o.wcnf
fine bench 10 7 o.bench
text a.model 's SATISFIABLE' 'v 1 2 7 8 0'
fine encode "$examples/pigeons.opb" pigeons.cnf pigeons.proof
printf '+1 x1 >= 1' >refused.opb

# closed WHICH WORD..: the program without the streams of these numbers.
closed() {
    local which=$1
    shift
    case $which in
    0) "$pbcnf" "$@" <&- ;;
    1) "$pbcnf" "$@" >&- ;;
    2) "$pbcnf" "$@" 2>&- ;;
    01) "$pbcnf" "$@" <&- >&- ;;
    02) "$pbcnf" "$@" <&- 2>&- ;;
    12) "$pbcnf" "$@" >&- 2>&- ;;
    012) "$pbcnf" "$@" <&- >&- 2>&- ;;
    esac
}

# ends WHICH STATUS LINE WORD..: as `fault`, without these streams; the line comes to standard error, if that is open.
ends() {
    local got
    last="without $1: $(shown "${@:4}")"
    closed "$1" "${@:4}" >"$said" 2>"$told"
    got=$?
    case $1 in
    *2*) text "$state/due" ;;
    *) text "$state/due" "$3" ;;
    esac
    if [ $got -eq "$2" ] && [ ! -s "$said" ] && cmp -s "$state/due" "$told"; then
        ended_well
    else
        ended_ill "$last: wanted the status $2 and $(bytes_of "$state/due"), got $got; it told $(bytes_of "$told")"
    fi
}

# speaks WHICH WORD..: a command that says something ends well exactly where standard output is open.
speaks() {
    case $1 in
    *1*) ends "$1" 5 'pbcnf: write fault' "${@:2}" ;;
    *)
        "$pbcnf" "${@:2}" >"$state/words"
        well closed "$@"
        same "$state/words" "$said"
        ;;
    esac
}

for which in 0 1 2 01 02 12 012; do
    rm -f n.*
    speaks $which encode "$opb" n.cnf
    same o.cnf n.cnf
    speaks $which encode "$opb" n.both n.proof
    same o.cnf n.both
    same o.proof n.proof
    speaks $which wcnf "$opb" n.wcnf
    same o.wcnf n.wcnf
    speaks $which bench 10 7 n.bench
    same o.bench n.bench
    speaks $which bench 10 7
    speaks $which check "$opb" o.cnf o.proof
    speaks $which refute "$examples/pigeons.opb" pigeons.cnf pigeons.proof "$examples/pigeons.lrat"
    speaks $which decode "$opb" a.model
    speaks $which map "$examples/timetable.opb"
    speaks $which probe o.cnf x1

    # No words are to be said.
    expect 0 closed $which map "$opb"
    says
    tells

    # Faults keep their status, and make nothing, or leave a first part.
    ends $which 1 'pbcnf: OPB 1:11: expected ;' encode refused.opb no.cnf
    ends $which 2 'pbcnf: usage: encode, check, decode, probe or bench' encode no.cnf
    ends $which 4 'pbcnf: read fault' encode missing no.cnf
    ends $which 1 'pbcnf: PROOF 1:1: expected step word' check "$opb" o.cnf refused.opb
    absent no.cnf
    ends $which 5 'pbcnf: write fault' encode "$opb" n.whole missing/o.proof
    same o.cnf n.whole
done

# Standard output that can only be read.
only_read() {
    "$pbcnf" "$@" 1<refused.opb
}
expect 5 only_read encode "$opb" n.cnf
tells 'pbcnf: write fault'
same o.cnf n.cnf
expect 5 only_read probe o.cnf x1
tells 'pbcnf: write fault'
printf '+1 x1 >= 1' >as_it_was
same as_it_was refused.opb

# Standard error that takes nothing changes no status.
full_error() {
    "$pbcnf" "$@" 2>/dev/full
}
if [ -c /dev/full ]; then
    expect 1 full_error encode refused.opb no.cnf
    expect 0 full_error encode "$opb" n.cnf
else
    skip 'there is no /dev/full'
fi
