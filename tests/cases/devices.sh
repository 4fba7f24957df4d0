# A full disk, a reader that goes away, limits of the system, and the null device.
. "$top/tests/lib.sh"

ln -s "$examples" examples
opb=examples/knapsack.opb
fine encode $opb o.cnf o.proof
text a.model 's SATISFIABLE' 'v 1 2 7 8 0'

into_full() {
    "$pbcnf" "$@" >/dev/full
}
if [ -c /dev/full ]; then
    fault 5 'write fault' encode $opb /dev/full
    fault 5 'write fault' encode $opb n.cnf /dev/full
    same o.cnf n.cnf
    fault 5 'write fault' wcnf $opb /dev/full
    fault 5 'write fault' bench 10 7 /dev/full
    rm -f n.cnf
    for words in "encode $opb n.cnf" "check $opb o.cnf o.proof" "decode $opb a.model" 'probe o.cnf x1' 'bench 10 7' \
        'map examples/timetable.opb'; do
        expect 5 into_full $words
        tells 'pbcnf: write fault'
    done
    same o.cnf n.cnf
else
    skip 'there is no /dev/full'
fi

# More is said than a pipe holds, to a reader that goes away after one byte.
awk 'BEGIN { for (i = 1; i <= 12000; i++) printf "+1 name_%d ", i; print ">= 1 ;" }' >many.opb
text many.model 's SATISFIABLE' 'v 1 0'
gone() {
    "$pbcnf" "$@" 2>"$state/gone" | head -c 1 >got
    return "${PIPESTATUS[0]}"
}
# So it is where the signal of a broken pipe is ignored.
ignoring() {
    (
        trap '' PIPE
        gone "$@"
    )
}
for way in gone ignoring; do
    expect 5 $way map many.opb
    holds "$state/gone" 'pbcnf: write fault'
    expect 5 $way decode many.opb many.model
    holds "$state/gone" 'pbcnf: write fault'
done

# The null device is an empty text, and takes everything.
fine encode /dev/null n.cnf
holds n.cnf 'p cnf 0 0'
fine encode $opb /dev/null n.proof
same o.proof n.proof
fine encode $opb n.cnf /dev/null
same o.cnf n.cnf

# Files that may have 4,096 bytes at most, and too few numbers for open files.
needs prlimit
fine bench 1000 1 large.cnf
short_files() {
    (
        trap '' XFSZ
        limited --fsize=4096 -- "$pbcnf" "$@"
    )
}
expect 5 short_files bench 1000 1 cut.cnf
tells 'pbcnf: write fault'
is_front() {
    local size
    size=$(stat -c %s cut.cnf)
    [ "$size" -le 4096 ] && head -c "$size" large.cnf | cmp -s - cut.cnf
}
expect 0 is_front
# So it is where all would go out at once, and just the first part is taken.
fine bench 100 1 large.cnf
expect 0 test "$(stat -c %s large.cnf)" -lt 65536
expect 5 short_files bench 100 1 cut.cnf
tells 'pbcnf: write fault'
expect 0 is_front
few_numbers() {
    limited --nofile=4 -- "$pbcnf" "$@" 3>&-
}
expect 5 few_numbers encode $opb n.cnf n.proof
tells 'pbcnf: write fault'
expect 4 few_numbers check $opb o.cnf o.proof
tells 'pbcnf: read fault'
