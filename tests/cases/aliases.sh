# A regular file that was read, or made, is not made again by any other name: status 5, and it keeps its bytes.
. "$top/tests/lib.sh"

opb=$examples/choice.opb
cp "$opb" a.opb
mkdir inner
ln -s a.opb soft
ln -s "$PWD/soft" inner/softer
ln a.opb hard
aliases=(./a.opb "$PWD/a.opb" inner/../a.opb soft inner/softer hard)
for name in "${aliases[@]}"; do
    fault 5 'write fault' encode a.opb "$name"
    fault 5 'write fault' encode "$name" a.opb
    fault 5 'write fault' wcnf a.opb "$name"
    fault 5 'write fault' encode a.opb o.cnf "$name"
    same "$opb" a.opb
done

# The derivation by the name of the CNF, which is whole then.
fine encode a.opb whole.cnf
for name in ./o.cnf "$PWD/o.cnf" inner/../o.cnf; do
    fault 5 'write fault' encode a.opb o.cnf "$name"
    same whole.cnf o.cnf
done
ln -s o.cnf soft.cnf
ln o.cnf hard.cnf
for name in soft.cnf hard.cnf; do
    fault 5 'write fault' encode a.opb o.cnf "$name"
    fault 5 'write fault' encode a.opb "$name" o.cnf
    same whole.cnf o.cnf
done

# The file of standard input.
by_stdin() {
    "$pbcnf" "$@" <a.opb
}
expect 5 by_stdin encode /dev/stdin a.opb
same "$opb" a.opb
expect 5 by_stdin encode a.opb /dev/stdin
same "$opb" a.opb

# What is read may be read twice, and links to other files are followed.
fine encode a.opb o.cnf o.proof
fine check soft soft.cnf o.proof
says accepted
ln -s made.cnf dangling
fine encode a.opb dangling
same whole.cnf made.cnf
fault 4 'read fault' encode inner/nowhere o.cnf
ln -s nowhere inner/nowhere
fault 4 'read fault' encode inner/nowhere o.cnf
ln -s round round
fault 4 'read fault' encode round o.cnf
fault 5 'write fault' encode a.opb round
same whole.cnf o.cnf
