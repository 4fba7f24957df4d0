# pbcnf-minimize over a solver that is played: its answers, and what it does at signals, limits, lies and failures.
. "$top/tests/lib.sh"
needs python3

export PBCNF=$pbcnf PYTHONDONTWRITEBYTECODE=1
run_tests "$top/library/python/tests/test_tools_commands.py" Minimizing
