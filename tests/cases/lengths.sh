# A derivation is at most twelve times as long as the CNF, however long the sum is: of each family of bench but the diagram, whose lines
# speak of all terms after a node, and of tables of bounds. That of a totalizer is at most nine times as long.
. "$top/tests/lib.sh"
needs python3

# is_short TIMES NAME LINE OPTION..: of NAME.opb a line like this is said; its derivation is accepted, and at most so many times as long as
# the CNF.
is_short() {
    local clauses steps
    fine encode "$2.opb" o.cnf o.proof "${@:4}"
    last=$(shown pb encode "$2.opb" "${@:4}")
    if grep -q -- "$3" "$said"; then passed; else failed "$last: wanted a line like $3, got $(bytes_of "$said")"; fi
    clauses=$(stat -c %s o.cnf) steps=$(stat -c %s o.proof)
    if [ "${steps:-0}" -gt 0 ] && [ "$steps" -le $(($1 * clauses)) ]; then
        passed
    else
        failed "$last: wanted at most $(($1 * clauses)) bytes, got ${steps:-none}"
    fi
    fine check "$2.opb" o.cnf o.proof
    says accepted
}

# Makes a problem for each length of each family, and says its name, the family's and the options that ask for it.
problems() {
    PYTHONPATH=$top/bench python3 -B -c '
import instances
for family in instances.FAMILIES:
    for count in family.counts:
        name = "%s_%d" % (family.name, count)
        with open(name + ".opb", "w") as file:
            file.write(family.make(count).text())
        print(name, family.name, *family.options)'
}
problems >families
while read -r name family options; do
    times=12
    [ $family != totalizer ] || times=9
    [ $family = diagram ] || is_short $times "$name" " $family 1\>" $options
done <families
last='the families of bench'
cut -d ' ' -f 2 families | sort -u >names
holds names adder counter diagram ladder product totalizer tree

# At most 20 of 2,000.
awk 'BEGIN { for (i = 1; i <= 2000; i++) printf "+1 x%d ", i; print "<= 20 ;" }' >few.opb
is_short 8 few ' totalizer 1\>' --card totalizer

# Objectives of 100 and 200 weights, with a bound for each value.
for count in 100 200; do
    sed 's/^\(+.*\) <= [0-9]* ;$/min: \1 ;/' "tree_$count.opb" >"table_$count.opb"
    is_short 12 "table_$count" "^bound $((4 * count)) " --table
done
