# From each small problem of bench to an answer, with CaDiCaL between: the derivation of the CNF is accepted, what the solver says is
# decoded to a solution, and where it says that there is none its reasons are a refutation. What is of another problem is refused.
. "$top/tests/lib.sh"
needs cadical python3

export PBCNF=$pbcnf PYTHONDONTWRITEBYTECODE=1
expect 0 python3 -B "$top/bench/instances.py" small .

# violated OPB SOLUTION: the statements that the solution does not meet, and the objective if it has another value, by arithmetic alone.
violated() {
    awk '
        function sum_from(i,   sum, literal) {
            for (sum = 0; $i ~ /^[+-]/; i += 2) { literal = $(i + 1); sub("~", "-", literal); if (literal in holds) sum += $i }
            return sum
        }
        FNR == NR && $1 == "o" { value = $2 }
        FNR == NR && $1 == "v" { for (i = 2; i <= NF; i++) holds[$i] }
        FNR == NR || $1 == "*" { next }
        $1 == "min:" { if (sum_from(2) != value) print; next }
        { sum = sum_from(1); relation = $(NF - 2); right = $(NF - 1) }
        relation != "<=" && sum < right || relation != ">=" && sum > right
        ' "$2" "$1"
}

# asks NAME: encodes the problem, has the derivation checked, and keeps what the solver says of the CNF.
asks() {
    fine encode "$1.opb" "$1.cnf" "$1.proof"
    fine check "$1.opb" "$1.cnf" "$1.proof"
    says accepted
    cadical -q "$1.cnf" >"$1.model"
}

# satisfied NAME OTHER: there is a solution, and it is none of the other problem.
satisfied() {
    asks "$1"
    fine decode "$1.opb" "$1.model"
    cp "$said" solution
    grep '^s' solution >answer
    holds answer 's SATISFIABLE'
    violated "$1.opb" solution >left
    holds left
    expect 8 pb decode "$2.opb" "$1.model"
    says
}

# refuted NAME: there is none. With one more in its last statement there is one, and the refutation is not accepted.
refuted() {
    local more=$1_more
    asks "$1"
    fault 9 'no model' decode "$1.opb" "$1.model"
    refutes "$1.cnf" "$1.lrat"
    fine refute "$1.opb" "$1.cnf" "$1.proof" "$1.lrat"
    says refuted
    sed '$s/ 1 ;$/ 2 ;/' "$1.opb" >"$more.opb"
    expect 7 pb refute "$more.opb" "$1.cnf" "$1.proof" "$1.lrat"
    says
    satisfied "$more" "$1"
    expect 10 pb refute "$more.opb" "$more.cnf" "$more.proof" "$1.lrat"
    says
}

refuted pigeons_8
refuted binary_16
satisfied knapsacks_12 timetable_12
satisfied timetable_12 covering_60
satisfied covering_60 planning_8
satisfied planning_8 mixed_500
satisfied mixed_500 clauses_5k
satisfied clauses_5k knapsacks_12
last='the small problems of bench'
printf '%s\n' ./*.opb | grep -vc more >count
holds count 8
