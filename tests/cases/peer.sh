# The C programs of bench/peer, which share no line with the program, beside it: the same CNF byte for byte, the derivation accepted, the
# same literals reached, the same refutation; and they are seen to refuse.
. "$top/tests/lib.sh"
needs python3

"$top/bench/peer/build" c -Wpedantic -Werror >"$said" 2>"$told"
case $? in
0) passed ;;
69)
    skip 'there is no C compiler'
    exit 0
    ;;
*) failed "bench/peer/build: $(bytes_of "$told")" ;;
esac

# The C checker does not judge each step that `check` does.
accepts() {
    last=$(shown c/check "$@")
    c/check "$@" >"$said" 2>"$told"
    case $? in
    0) passed ;;
    8) skip "$last: $(head -n 1 "$told")" ;;
    *) failed "$last: it told $(bytes_of "$told")" ;;
    esac
}

# beside OPB OPTION..: encodes by both, checks by C, and probes by both.
beside() {
    fine encode "$1" a.cnf a.proof "${@:2}"
    expect 0 c/encode "$1" b.cnf "${@:2}"
    same a.cnf b.cnf
    accepts "$1" a.cnf a.proof
    fine probe a.cnf x1
    cp "$said" a.reached
    expect 0 c/probe a.cnf x1
    same a.reached "$said"
}

expect 0 python3 -B "$top/bench/instances.py" small problems
for opb in problems/*.opb; do
    beside "$opb"
    beside "$opb" --amo pairwise --card counter --general tree --equal joint
    beside "$opb" --amo ladder --card totalizer --general adder
    beside "$opb" --amo product --card totalizer --equal joint --budget 40
    beside "$opb" --general tree --budget 300
done

expect 0 python3 -B "$top/bench/refutations.py" 5 a.opb a.lrat
fine encode a.opb a.cnf a.proof --amo pairwise
fine refute a.opb a.cnf a.proof a.lrat
expect 0 c/refute a.cnf a.lrat
says refuted

# Without the first of its lines, or the last, it is none.
sed 1d a.lrat >first.lrat
sed '$d' a.lrat | sed '$d' >last.lrat
for lrat in first.lrat last.lrat; do
    expect 10 pb refute a.opb a.cnf a.proof $lrat
    expect 7 c/refute a.cnf $lrat
done

# A clause that is not implied, a step that does not follow, two constraints on the stack, a clause that is left, a constraint that is gone.
text two.opb '* #variable= 2 #constraint= 2' '+1 x1 +1 x2 >= 1 ;' '+1 x1 +1 ~x2 >= 1 ;'
text two.cnf 'p cnf 2 1' '1 0'
denied() {
    text two.proof 'pseudo-Boolean derivation profile 1' 'f 2' "$@" end
    expect 7 pb check two.opb two.cnf two.proof
    expect 7 c/check two.opb two.cnf two.proof
}
denied 'out 1'
denied 'rup +1 x1 >= 1 ; 1' 'out 3'
denied 'pol 1 2' 'out 3'
denied 'pol 1 2 +'
denied 'del 1' 'pol 1 2 + 2 d' 'out 3'
for step in 'pol 1 2 + 2 d' 'rup +1 x1 >= 1 ; 1 2' 'pol 1 2 + s'; do
    text two.proof 'pseudo-Boolean derivation profile 1' 'f 2' "$step" 'out 3' end
    fine check two.opb two.cnf two.proof
    expect 0 c/check two.opb two.cnf two.proof
done
text two.proof 'pseudo-Boolean derivation profile 1' 'f 2' 'rup +1 x1 >= 1 ;' 'out 3' end
fine check two.opb two.cnf two.proof
expect 8 c/check two.opb two.cnf two.proof

# What they do not take: names, products, and sums that 64 bits may not hold.
text names.opb '+1 rain +1 x1 >= 1 ;'
expect 1 c/encode names.opb a.cnf
text products.opb '+1 x1 x2 +1 x3 >= 1 ;'
expect 1 c/encode products.opb a.cnf
text wide.opb '+1000000000000000000 x1 +1000000000000000000 x2 +1 x3 >= 2 ;'
expect 3 c/encode wide.opb a.cnf
