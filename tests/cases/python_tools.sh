# pbcnf.tools: its tests in Python, and examples/minimize over the solvers that there are, with the refutations that CaDiCaL writes.
. "$top/tests/lib.sh"
needs python3

export PBCNF=$pbcnf PYTHONDONTWRITEBYTECODE=1
ln -s "$examples" examples

for name in tools_parts reasons learning; do
    run_tests "$top/library/python/tests/test_$name.py"
done

# has_lines LINE..: the last command has said these lines, among others.
has_lines() {
    local line
    for line in "$@"; do
        if grep -Fxq -- "$line" "$said"; then passed; else failed "$last: wanted the line $line, got $(bytes_of "$said")"; fi
    done
}

# Each solver, named by an option or by the environment, by its own words and lines: 20 is the least.
tool() {
    PYTHONPATH=$top/library/python python3 -m pbcnf.tools "$@"
}
for solver in cadical kissat cryptominisat5 clasp picosat glucose minisat; do
    if ! has $solver; then
        skip "there is no $solver"
        continue
    fi
    expect 0 tool solve examples/guards.opb --at-most=20 --solver $solver
    has_lines 'o 20' 's SATISFIABLE'
    SOLVER=$solver expect 20 tool solve examples/guards.opb --at-most=19
    says 's UNSATISFIABLE'
    if has cadical; then
        expect 0 tool minimize -q examples/guards.opb --solver $solver
        has_lines 'o 20' 's OPTIMUM FOUND'
    fi
done

needs cadical

# The least values are those of the pages, where other solvers have found them too; `examples` has more of them.
expect 0 examples/minimize examples/guards.opb
has_lines 'o 20' 's OPTIMUM FOUND'
told_of '20 <= objective <= 20'
expect 0 examples/minimize examples/weights.opb --general tree
has_lines 'o 7' 's OPTIMUM FOUND'

# That six bins are too few shows by their weights alone, which solvers do not see.
awk 'BEGIN {
    n = split("50 48 48 44 43 41 39 39 35 33 32 29 26 26 21 21 19 18", weights, " ")
    line = "min:"
    for (b = 1; b <= 9; b++) line = line " +1 y" b
    print line " ;"
    for (i = 1; i <= n; i++) {
        line = ""
        for (b = 1; b <= 9; b++) line = line " +1 i" i "_" b
        print line " = 1 ;"
    }
    for (b = 1; b <= 9; b++) {
        line = ""
        for (i = 1; i <= n; i++) line = line " +" weights[i] " i" i "_" b
        print line " -100 y" b " <= 0 ;"
    }
}' >bins.opb
expect 0 timeout 600 examples/minimize -q bins.opb
has_lines 'o 7' 's OPTIMUM FOUND'

# It is interrupted in the middle of a hard problem, once it has found a solution: fields in a square, each with a lamp in sight.
awk -v n=20 'BEGIN {
    line = "min:"
    for (i = 1; i <= n * n; i++) line = line " +" 90 + i * i % 17 " x" i
    print line " ;"
    for (i = 0; i < n * n; i++) {
        line = ""
        for (j = 0; j < n * n; j++) {
            rows = int(i / n) - int(j / n); columns = i % n - j % n
            if (rows * rows + columns * columns <= 5) line = line " +1 x" j + 1
        }
        print line " >= 1 ;"
    }
}' >lamps.opb
# Of what runs in the background a shell has SIGINT ignored.
interrupted() {
    mkdir "tmp.$1"
    : >number
    { wait_until test -s number && wait_until ended_or "$(cat number)" grep -q '^o ' "$said" && kill -s "$1" "$(cat number)"; } >killed 2>&1 &
    TMPDIR=$PWD/tmp.$1 sh -c 'echo $$ >number && exec examples/minimize lamps.opb'
    echo "ended with $?; left: $(ls -A "tmp.$1")"
    wait
}
for name in INT TERM; do
    : >"$said"
    expect 0 interrupted $name
    has_lines 's SATISFIABLE' 'ended with 75; left: '
    grep '^o ' "$said" | tail -n 1 >best
    grep '^[sv] ' "$said" | sed 's/x//g; $a v 0' >model
    fine decode lamps.opb model
    head -n 1 "$said" >value
    same best value
done
