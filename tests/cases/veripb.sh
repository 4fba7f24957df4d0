# pbcnf-veripb, by its tests in Python: what it prints goes through a checker of its own, written from VeriPB's published rules.
. "$top/tests/lib.sh"
needs python3 cadical

export PBCNF=$pbcnf TOP=$top PYTHONDONTWRITEBYTECODE=1

for tests in veripb_checker veripb; do run_tests "$top/library/python/tests/test_$tests.py"; done
