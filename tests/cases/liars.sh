# Over solvers that lie the commands call nothing refuted, least or a solution that the program has not accepted.
. "$top/tests/lib.sh"
needs python3

export PBCNF=$pbcnf PYTHONDONTWRITEBYTECODE=1
ln -s "$examples" examples
mkdir bin
export PATH=$PWD/bin:$PATH

# A CaDiCaL that writes LRAT, as from 1.7 on: of every CNF it says what the file `first` has, from its second run on what `later` has,
# and its reasons are always empty.
text bin/cadical '#!/bin/sh' 'case " $* " in' '*" --help "*) echo "  --lrat=bool"; exit ;;' 'esac' \
    'for word in "$@"; do' '    case $word in' '    *cnf | *cubes) ;;' '    */*) : >"$word" ;;' '    esac' 'done' \
    "cd '$PWD' && cat first" 'case $(cat first) in' '*UNSAT*) status=20 ;;' '*) status=10 ;;' 'esac' 'cp later first' 'exit $status'
# A clasp that says at once that nothing is better.
text bin/clasp '#!/bin/sh' 'echo s OPTIMUM FOUND'
chmod 755 bin/cadical bin/clasp

# lies FIRST LATER STATUS COMMAND OPB: the command, over a solver that says these, ends with this status, and vouches for nothing.
lies() {
    printf '%b' "$1" >first
    printf '%b' "$2" >later
    expect "$3" "examples/$4" "$5"
    if grep -Eqx 'refuted|s OPTIMUM FOUND' "$said"; then failed "$last: it vouches for $(bytes_of "$said")"; else passed; fi
}

none='s UNSATISFIABLE\n'
all_false='s SATISFIABLE\nv 0\n'
text two.opb 'min: +1 x1 +1 x2 ;' '+1 x1 +1 x2 >= 1 ;'
for command in solve minimize core; do
    # That these values are a solution.
    lies "$all_false" "$all_false" 8 $command examples/pigeons.opb
    says
    told_of 'statement 1 is violated'
    [ $command != solve ] || continue
    # That there is no solution, where there are some and where there are none.
    lies "$none" "$none" 10 $command examples/guards.opb
    lies "$none" "$none" 10 $command examples/pigeons.opb
    [ $command != core ] || continue
    # That nothing is better than a solution which is not the best.
    lies 's SATISFIABLE\nv 1 2 0\n' "$none" 10 $command two.opb
    says 'o 2' 's SATISFIABLE' 'v x1 x2'
done
