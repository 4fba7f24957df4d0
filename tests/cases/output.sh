# A file that is to be made and is what standard output is: that is a write fault, and it keeps its bytes.
. "$top/tests/lib.sh"

opb=$examples/choice.opb
fine encode "$opb" o.cnf o.proof
cp "$said" summary
printf 'old\n' >old

# into FILE WORD..: standard output is the file, emptied; appending: at its end; over: from its beginning.
into() {
    "$pbcnf" "${@:2}" >"$1"
}
appending() {
    "$pbcnf" "${@:2}" >>"$1"
}
over() {
    "$pbcnf" "${@:2}" 1<>"$1"
}
: >empty
for made in f ./f "$PWD/f" /dev/stdout; do
    for way in into appending over; do
        cp old f
        if [ $way = into ]; then kept=empty; else kept=old; fi
        expect 5 $way f encode "$opb" "$made"
        tells 'pbcnf: write fault'
        same $kept f
        cp old f
        expect 5 $way f wcnf "$opb" "$made"
        same $kept f
        cp old f
        expect 5 $way f bench 1 0 "$made"
        same $kept f
        cp old f
        expect 5 $way f encode "$opb" n.cnf "$made"
        tells 'pbcnf: write fault'
        same $kept f
        same o.cnf n.cnf
    done
done

# By links.
cp old f
ln f hard
ln -s f soft
for made in hard soft; do
    expect 5 appending f encode "$opb" $made
    same old f
done

# A pipe, by itself and by a FIFO.
piped() {
    "$pbcnf" encode "$opb" /dev/stdout 2>"$state/pipe" | cat >got
    return "${PIPESTATUS[0]}"
}
expect 5 piped
holds "$state/pipe" 'pbcnf: write fault'
same empty got
if mkfifo fifo 2>"$state/mkfifo"; then
    cat fifo >got &
    expect 5 into fifo encode "$opb" fifo
    wait
    same empty got
else
    skip 'there are no FIFOs here'
fi

# The null device is no such file, nor is any other file.
expect 0 into /dev/null encode "$opb" /dev/null
tells
expect 0 into f encode "$opb" n.cnf n.proof
same summary f
same o.cnf n.cnf
same o.proof n.proof

# Where standard output is closed there is nothing to be made by its name.
without() {
    "$pbcnf" "$@" >&-
}
expect 5 without encode "$opb" /dev/stdout
tells 'pbcnf: write fault'

# What is only read may be what standard output is.
cp "$opb" f
expect 0 appending f map f
same "$opb" f
