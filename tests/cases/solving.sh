# pbcnf-solve, and the answers for programs, over a solver that is played.
. "$top/tests/lib.sh"
needs python3

export PBCNF=$pbcnf PYTHONDONTWRITEBYTECODE=1
run_tests "$top/library/python/tests/test_tools_commands.py" Solving Asking

# Nothing is imported that is installed beside Python, nor what a user has for each start of it. It runs by a link to it, by one to its
# folder, and by its name alone.
needs cadical
mkdir site
text site/sitecustomize.py 'raise SystemExit("this is read")'
export PYTHONPATH=$PWD/site
ln -s "$examples" linked
ln -s "$examples/solve" pbcnf-solve
by_name() {
    (cd "$examples" && exec sh solve choice.opb)
}
for way in "$examples/solve" linked/solve ./pbcnf-solve; do
    expect 0 "$way" "$examples/choice.opb"
    tells
done
expect 0 by_name
tells
