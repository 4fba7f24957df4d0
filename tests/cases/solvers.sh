# From an OPB file to a solution, with each solver that is installed.
. "$top/tests/lib.sh"

ln -s "$examples" examples

# model SOLVER CNF MODEL: what the solver says of the CNF, as `decode` reads it.
model() {
    case $1 in
    minisat)
        minisat "$2" result >solver.log 2>&1
        sed '1s/^SAT/s SATISFIABLE/; 1s/^UNSAT/s UNSATISFIABLE/; 2s/^/v /' result >"$3"
        ;;
    glucose) glucose -model "$2" >"$3" ;;
    *) "$1" "$2" >"$3" ;;
    esac
}

# solves SOLVER OPB OPTION..: a solution, by way of the CNF.
solves() {
    fine encode "$2" o.cnf "${@:3}"
    model "$1" o.cnf o.model
    fine decode "$2" o.model
    if grep -q '^s SATISFIABLE$' "$said"; then passed; else failed "$last: wanted a solution by $1"; fi
}

found=
for solver in cadical kissat cryptominisat5 clasp picosat glucose minisat; do
    if ! has $solver; then
        skip "there is no $solver"
        continue
    fi
    found=$solver
    for opb in examples/{knapsack,guards,colouring,timetable,pairs,team,slots}.opb; do
        solves $solver $opb
    done
    for option in --amo={pairwise,ladder,product} --card={counter,totalizer} --general={tree,adder} --equal=joint --budget=1; do
        solves $solver examples/knapsack.opb $option
        solves $solver examples/slots.opb $option
    done
    fine encode examples/pigeons.opb o.cnf
    model $solver o.cnf o.model
    fault 9 'no model' decode examples/pigeons.opb o.model
    through_pipe() {
        $solver o.cnf | "$pbcnf" decode examples/pigeons.opb /dev/stdin
    }
    case $solver in
    minisat | glucose) ;;
    *)
        expect 9 through_pipe
        tells 'pbcnf: no model'
        ;;
    esac
done

[ -n "$found" ] || skip 'no solver is installed, so no model was decoded'
