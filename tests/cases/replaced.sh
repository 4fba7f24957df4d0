# What stood in the files that are made: a longer text is cut, and a text that is refused leaves it as it was.
. "$top/tests/lib.sh"

opb=$examples/knapsack.opb
fine encode "$opb" o.cnf o.proof
fine wcnf "$opb" o.wcnf
fine bench 3 1 g.cnf
seq 1 20000 >old

for name in cnf proof wcnf generated; do
    cp old "old.$name"
done
fine encode "$opb" old.cnf old.proof
same o.cnf old.cnf
same o.proof old.proof
fine wcnf "$opb" old.wcnf
same o.wcnf old.wcnf
fine bench 3 1 old.generated
same g.cnf old.generated

# So is a text of a few bytes.
text few.opb '+1 x1 >= 1 ;'
text few.cnf 'p cnf 1 1' '1 0' 'and more'
fine encode few.opb few.cnf
holds few.cnf 'p cnf 1 1' '1 0'
rm few.opb few.cnf

# It is the same file, by each of its names, with its rights.
cp old kept
chmod 640 kept
ln kept other
fine encode "$opb" kept
same o.cnf kept other
expect 0 stat -c %a kept
says 640

# A new file has the rights that the mask leaves.
fine encode "$opb" new.cnf new.proof
expect 0 stat -c %a new.cnf new.proof
says 644 644
rm new.cnf new.proof

# keeps STATUS LINE WORD..: the run fails before it makes anything.
keeps() {
    cp old old.cnf
    cp old old.proof
    fault "$@"
    same old old.cnf old.proof
}

text refused.opb '+1 x1 >= 1 ;' 'max: +1 x1 ;'
keeps 1 'OPB 2:1: expected a statement or the end' encode refused.opb old.cnf old.proof
keeps 1 'OPB 2:1: expected a statement or the end' wcnf refused.opb old.cnf
text far.opb '+1 x2147483648 >= 1 ;'
keeps 3 'OPB 1:4: limit variables' encode far.opb old.cnf old.proof
text totals.opb '* #variable= 2147483646 #constraint= 1' '-1 x1 -1 x2 -1 x3 >= -1 ;'
keeps 3 'totals: limit variables' encode totals.opb old.cnf old.proof --amo ladder
keeps 3 'totals: limit variables' wcnf totals.opb old.cnf --amo ladder
keeps 3 'totals: limit bounds' encode "$examples/guards.opb" old.cnf old.proof --table --budget 2
keeps 4 'read fault' encode missing.opb old.cnf old.proof
keeps 4 'read fault' encode . old.cnf old.proof
keeps 2 'usage: encode, check, decode, probe or bench' encode "$opb" old.cnf old.proof --amo all
keeps 2 'usage: encode, check, decode, probe or bench' bench x 1 old.cnf

# What only reads makes nothing.
fine check "$opb" o.cnf o.proof
fine probe o.cnf
fine map "$opb"
kept_all() {
    [ "$(ls | sort | tr '\n' ' ')" = 'far.opb g.cnf kept o.cnf o.proof o.wcnf old old.cnf old.generated old.proof old.wcnf other refused.opb totals.opb ' ]
}
expect 0 kept_all
