# Each exit status, over real files, with what is printed on both outputs.
. "$top/tests/lib.sh"

text a.opb '+1 x1 +1 x2 = 1 ;'

# 0: done.
fine encode a.opb o.cnf
clauses_alone 2 2
holds o.cnf 'p cnf 2 2' '1 2 0' '-1 -2 0'
fine encode a.opb o.cnf o.proof
fine check a.opb o.cnf o.proof
says accepted
text a.model 's SATISFIABLE' 'v 1 -2 0'
fine decode a.opb a.model
says 's SATISFIABLE' 'v x1 -x2'

# 1: a text leaves its grammar.
printf '+1 x1 >= 1' >no_end.opb
fault 1 'OPB 1:11: expected ;' encode no_end.opb none.cnf
absent none.cnf

# 2: usage.
usage='usage: encode, check, decode, probe or bench'
fault 2 "$usage"
fault 2 "$usage" encode a.opb

# 3: a limit is passed.
text far.opb '+1 x2147483648 >= 1 ;'
fault 3 'OPB 1:4: limit variables' encode far.opb none.cnf
absent none.cnf

# 4: a file could not be read.
fault 4 'read fault' encode none.opb none.cnf
absent none.cnf

# 5: a file could not be written.
fault 5 'write fault' encode a.opb none/o.cnf
absent none

# 6: out of memory.
if has prlimit; then
    awk 'BEGIN { print "p cnf 400000 400000"; for (i = 1; i <= 400000; i++) print i, 0 }' >large.cnf
    expect 6 limited --as=$((1024 * 8192)) -- "$pbcnf" probe large.cnf
    says
    tells 'pbcnf: out of memory'
else
    skip 'there is no prlimit'
fi

# 7: a step of the derivation is not allowed, or clauses are left at its end.
text sets.proof 'pseudo-Boolean derivation profile 1' 'f 2' 'red +1 x1 >= 1 ; x1 -> 1'
fault 7 'PROOF line 3: sets original x1' check a.opb o.cnf sets.proof
text short.proof 'pseudo-Boolean derivation profile 1' 'f 2' end
fault 7 'PROOF line 3: clauses left' check a.opb o.cnf short.proof

# 8: the values violate a statement.
text both.model 's SATISFIABLE' 'v 1 2 0'
fault 8 'statement 1 is violated' decode a.opb both.model

# 9: the solver does not say that there is a model.
text none.model 's UNSATISFIABLE'
fault 9 'no model' decode a.opb none.model

# 10: the refutation is denied.
text b.opb '+1 x1 >= 1 ;' '+1 ~x1 >= 1 ;'
fine encode b.opb b.cnf b.proof
text b.lrat '3 0 1 2 0'
fine refute b.opb b.cnf b.proof b.lrat
says refuted
text denied.lrat '3 0 1 0'
fault 10 'LRAT line 1: no conflict' refute b.opb b.cnf b.proof denied.lrat
