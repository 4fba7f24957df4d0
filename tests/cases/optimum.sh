# A solver's solution is said to be an optimum only where the other texts refute the problem with the bound one below its value.
. "$top/tests/lib.sh"

# One of two variables, each of which costs 1: the optimum is 1. The clauses with the bound 0 are `1 2`, `-1` and `-2`.
text a.opb 'min: +1 x1 +1 x2 ;' '+1 x1 +1 x2 >= 1 ;'
text best.model 's SATISFIABLE' 'v 1 -2 0'
text worse.model 's SATISFIABLE' 'v 1 2 0'
text a.lrat '4 0 2 3 1 0'
fine encode a.opb a.cnf a.proof --at-most=0
fine optimum a.opb best.model a.cnf a.proof a.lrat
says 'o 1' 's OPTIMUM FOUND' 'v x1 -x2'
fault 7 'PROOF line 5: not propagated' optimum a.opb worse.model a.cnf a.proof a.lrat
fault 10 'LRAT line 1: no empty clause' optimum a.opb best.model a.cnf a.proof /dev/null

# Files for a greater bound, which are accepted beside this one too, but have not all its clauses; for none; and of another problem.
fine encode a.opb other.cnf other.proof --at-most=1
fault 10 'LRAT line 1: unknown hint 3' optimum a.opb best.model other.cnf other.proof a.lrat
fine encode a.opb other.cnf other.proof
expect 1 pb optimum a.opb best.model other.cnf other.proof a.lrat
text other.opb 'min: +1 x1 +1 x2 ;' '+1 x1 +1 x2 >= 2 ;'
fault 8 'statement 1 is violated' optimum other.opb best.model a.cnf a.proof a.lrat
expect 7 pb optimum other.opb worse.model a.cnf a.proof a.lrat
says

# Each text is missing in turn; what is wrong before it is reported first.
for place in 0 1 2 3 4; do
    names=(a.opb best.model a.cnf a.proof a.lrat)
    names[place]=missing
    fault 4 'read fault' optimum "${names[@]}"
done
text aimless.opb '+1 x1 +1 x2 >= 1 ;'
fault 1 'OPB: no objective' optimum aimless.opb missing none nothing nowhere
fault 9 'no model' optimum a.opb /dev/null missing none nowhere
fault 2 'usage: encode, check, decode, probe or bench' optimum a.opb best.model a.cnf a.proof a.cnf
fault 2 'usage: encode, check, decode, probe or bench' optimum a.opb best.model a.cnf a.proof a.lrat --at-most=1

# An empty objective is worth 0, and a value below zero has a bound below zero.
text free.opb 'min: ;' '+1 x1 +1 x2 >= 1 ;'
text free.lrat '3 0 2 0'
fine encode free.opb free.cnf free.proof --at-most-minus=1
fine optimum free.opb worse.model free.cnf free.proof free.lrat
says 'o 0' 's OPTIMUM FOUND' 'v x1 x2'

# Where a solver is there, so are the optima of problems, which MiniSat+ and clasp found, too.
needs cadical python3
export PBCNF=$pbcnf PYTHONDONTWRITEBYTECODE=1

# at_most VALUE: the option for a bound.
at_most() {
    if [ "$1" -lt 0 ]; then printf -- '--at-most-minus=%d' "$((-$1))"; else printf -- '--at-most=%d' "$1"; fi
}

# worth OPB VALUE MODEL: has the solver look for a solution of just this value.
worth() {
    { sed '/^\* #variable/d' "$1" && sed -n "s/^min: *\(.*\);/\1 = $2 ;/p" "$1"; } >worth.opb
    fine encode worth.opb worth.cnf
    cadical -q worth.cnf >"$3"
    grep -qx 's SATISFIABLE' "$3" || failed "no solution of $1 is worth $2"
}

# proves OPB VALUE NEXT: the least value is found to be an optimum beside what refutes a lower one, and the next value is not.
proves() {
    local opb=$1 value=$2 next=$3
    worth "$opb" "$value" best.model
    worth "$opb" "$next" worse.model
    fine encode "$opb" o.cnf o.proof "$(at_most "$((value - 1))")"
    refutes o.cnf o.lrat
    fine optimum "$opb" best.model o.cnf o.proof o.lrat
    head -n 2 "$said" >first
    holds first "o $value" 's OPTIMUM FOUND'
    expect 7 pb optimum "$opb" worse.model o.cnf o.proof o.lrat
    says
}

proves "$examples/guards.opb" 20 22
proves "$examples/weights.opb" 7 8
expect 0 python3 -B "$top/bench/instances.py" small problems
proves problems/timetable_12.opb 0 1
expect 0 env PYTHONPATH="$top/bench" python3 -B -c '
import instances
for name in "covering 40", "schedule 13", "vertex cover 50":
    with open(name.replace(" ", "_") + ".opb", "w") as file:
        file.write(instances.SOLVED[name][0]().text())'
proves covering_40.opb 117 118
proves schedule_13.opb 1 4
proves vertex_cover_50.opb 27 28
