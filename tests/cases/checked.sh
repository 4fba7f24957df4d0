# Derivations that `encode` writes are accepted, whatever the options; and refused where the CNF is another.
. "$top/tests/lib.sh"

options=('' '--amo pairwise' '--amo ladder' '--amo product' '--card counter' '--card totalizer' '--general tree' '--general adder'
    '--equal joint' '--budget 1' '--table' '--at-most=25')
for opb in "$examples"/*.opb; do
    for option in "${options[@]}"; do
        bound=
        case $option in
        --at-most*) bound=$option ;;
        esac
        fine encode "$opb" o.cnf o.proof $option
        fine check "$opb" o.cnf o.proof $bound
        says accepted
        # It is the same CNF without a derivation.
        fine encode "$opb" plain.cnf $option
        same o.cnf plain.cnf
    done
done

# The derivation of the examples, of the CNF that `encode` makes.
fine encode "$examples/weights.opb" o.cnf
fine check "$examples/weights.opb" o.cnf "$examples/weights.proof"
says accepted
fine decode "$examples/choice.opb" "$examples/choice.model"

# Another CNF, another problem, another bound.
opb=$examples/knapsack.opb
fine encode "$opb" o.cnf o.proof
sed '2s/.*/-9 0/' o.cnf >other.cnf
expect 7 pb check "$opb" other.cnf o.proof
says
sed '2d; 1s/ [0-9]*$/ 95/' o.cnf >other.cnf
expect 7 pb check "$opb" other.cnf o.proof
says
fine encode "$examples/guards.opb" bound.cnf bound.proof --at-most=30
fine check "$examples/guards.opb" bound.cnf bound.proof --at-most=30
says accepted
expect 1 pb check "$examples/guards.opb" bound.cnf bound.proof
says
expect 7 pb check "$examples/guards.opb" bound.cnf bound.proof --at-most=31
says

# A refutation of five pigeons in four holes.
fine encode "$examples/pigeons.opb" pigeons.cnf pigeons.proof
fine refute "$examples/pigeons.opb" pigeons.cnf pigeons.proof "$examples/pigeons.lrat"
says refuted
fault 10 'LRAT line 1: no empty clause' refute "$examples/pigeons.opb" pigeons.cnf pigeons.proof /dev/null
