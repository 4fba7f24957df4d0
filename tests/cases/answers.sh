# What the commands say and make, of small texts whose answers were worked out by hand.
. "$top/tests/lib.sh"

kinds='nothing 0 empty 0 clause 0 pairwise 0 ladder 0 product 0 counter 0 totalizer 0 diagram'

# wcnf and encode with a table.
text costs.opb 'min: +3 x1 -1 ~x2 ; +1 x1 +1 x2 >= 1 ;'
fine wcnf costs.opb o.wcnf
clauses_alone 2 1
holds o.wcnf 'c offset -1' 'h 1 2 0' '3 -1 0' '1 -2 0'
fine encode costs.opb o.cnf --table
tail -n +3 "$said" >bounds
holds bounds 'bound 0 3' 'bound 2 4' 'bound 3 5'
text costs.model 's SATISFIABLE' 'v 1 2 0'
fine decode costs.opb costs.model
says 'o 3' 's SATISFIABLE' 'v x1 x2'
fault 8 'statement 2 is violated' decode costs.opb costs.model --at-most=2

# Families by their options.
text sum.opb '+4 ~x1 +3 ~x2 +2 ~x3 >= 4 ;'
fine encode sum.opb o.cnf
says 'variables 6 original 3 fresh 3 clauses 5' "$kinds 1 tree 0 adder 0"
holds o.cnf 'p cnf 6 5' '-4 -1 5 0' '-5 6 0' '-5 -2 0' '-6 -3 0' '4 0'
fine encode sum.opb o.cnf --budget 2
says 'variables 7 original 3 fresh 4 clauses 16' "$kinds 0 tree 0 adder 1"
fine encode sum.opb o.cnf --general tree
says 'variables 11 original 3 fresh 8 clauses 11' "$kinds 0 tree 1 adder 0"

# By the bound: up to 8 a counter, above it a totalizer.
for bound in 8 9; do
    awk -v bound=$bound 'BEGIN { for (i = 1; i <= 12; i++) printf "-1 x%d ", i; print ">= -" bound " ;" }' >bound.opb
    fine encode bound.opb o.cnf
    grep -o 'counter [01] totalizer [01]' "$said" >families
    holds families "counter $((bound == 8)) totalizer $((bound == 9))"
done

# Free names and products.
text names.opb '+1 rain +1 x2 +1 ~sun >= 2 ;' '+1 x1 rain >= 0 ;'
fine map names.opb
says '3 rain' '4 sun'
fine encode names.opb o.cnf
head -n 1 "$said" >first
holds first 'variables 5 original 4 fresh 0 clauses 6 products 1'
text names.model 's SATISFIABLE' 'v 2 3 0'
fine decode names.opb names.model
says 's SATISFIABLE' 'v -x1 x2 rain -sun'
fine map sum.opb
says

# Propagation, of a counter's clauses.
text four.opb '+1 ~x1 +1 ~x2 +1 ~x3 +1 ~x4 >= 2 ;'
fine encode four.opb o.cnf --card counter
fine probe o.cnf x1 x2
says 'fixed 1 2 -3 -4 5 -6 7 8 9 10 0'
fine probe o.cnf x1 x2 x3
says conflict
fine probe o.cnf x1 '~x1'
says conflict
fine probe o.cnf x4
says 'fixed 4 -6 -8 -10 0'
text wide.cnf 'p cnf 2147483647 1' '-1 2147483647 0'
fine probe wide.cnf x1
says 'fixed 1 2147483647 0'

# Generated problems.
fine bench 1 0
clauses_alone 11 1
fine bench 1 0 o.cnf
clauses_alone 11 1
holds o.cnf 'p cnf 11 1' '3 -7 0'

# The environment changes nothing.
fine encode sum.opb o.cnf o.proof
cp "$said" summary
expect 0 env -u HOME -u PATH -u LC_ALL "$pbcnf" encode sum.opb n.cnf n.proof
tells
same summary "$said"
same o.cnf n.cnf
same o.proof n.proof
