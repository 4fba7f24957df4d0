# Words that no command takes are a usage fault, and nothing is made.
. "$top/tests/lib.sh"

usage='usage: encode, check, decode, probe or bench'
text a.opb '+1 x1 +1 x2 >= 1 ;'
text a.cnf 'p cnf 2 1' '1 2 0'

refuses() {
    fault 2 "$usage" "$@"
}

refuses
refuses ''
refuses --help
refuses encod a.opb o.cnf
refuses encode
refuses encode a.opb
refuses encode a.opb o.cnf o.proof more
refuses encode a.opb a.opb
refuses encode a.opb o.cnf o.cnf
refuses encode a.opb o.cnf a.opb
refuses encode a.opb o.cnf --generel adder
refuses encode a.opb o.cnf --general sorter
refuses encode a.opb o.cnf --general
refuses encode a.opb o.cnf --amo pairwise --amo ladder
refuses encode a.opb o.cnf --budget 0
refuses encode a.opb o.cnf --budget 10000001
refuses encode a.opb o.cnf --budget 1e3
refuses encode a.opb o.cnf --table=yes
refuses encode a.opb o.cnf --at-most=-5
refuses encode a.opb o.cnf --at-most=1 --at-most-minus=1
refuses encode a.opb o.cnf --at-most=1267650600228229401496703205376
refuses encode -x o.cnf
refuses wcnf a.opb
refuses wcnf a.opb o.cnf o.proof
refuses wcnf a.opb o.cnf --table
refuses check a.opb a.cnf
refuses check a.opb a.cnf o.proof --general adder
refuses refute a.opb a.cnf o.proof
refuses decode a.opb
refuses decode a.opb a.opb
refuses map
refuses map a.opb --at-most=1
refuses probe
refuses probe a.cnf 1
refuses probe a.cnf x0
refuses probe a.cnf x2147483648
refuses bench 10
refuses bench 1000001 1
refuses bench 1 4294967296
refuses bench 1 -1
refuses bench 1 1 o.cnf --general adder
absent o.cnf o.proof

# What is allowed: options before, between and after, with a blank or =, leading zeros, and names after --.
fine encode a.opb one.cnf --amo pairwise --budget 007
fine encode --amo=pairwise a.opb --budget=7 two.cnf
fine encode --amo pairwise -- a.opb three.cnf
fine bench 0010 007 four.cnf
fine bench 10 7 five.cnf
same one.cnf two.cnf three.cnf
same four.cnf five.cnf
fine probe a.cnf ~x0002
says 'fixed 1 -2 0'
fine probe a.cnf
says 'fixed 0'
