# A small problem takes milliseconds, and little memory.
. "$top/tests/lib.sh"

# is_quick: five small runs take less than 30 ms each by the clock, of a hundred on a machine that does much else.
is_quick() {
    local begin run quick=0
    for run in {1..100}; do
        begin=${EPOCHREALTIME/./}
        pb bench 1 0 >"$state/words" || return
        if [ $((${EPOCHREALTIME/./} - begin)) -lt 30000 ]; then quick=$((quick + 1)); else sleep 0.1; fi
        [ $quick -lt 5 ] || return 0
    done
    return 1
}
well pb bench 1 0
last='five runs of bench 1 0'
if is_quick; then passed; else failed "$last: wanted less than 30 ms each"; fi

# All that a run takes besides the texts is a few MiB of addresses, and a small stack.
needs prlimit
narrow() {
    limited --as=$((1024 * 8192)) --stack=$((1024 * 128)) -- "$pbcnf" "$@"
}
well narrow bench 1 0 o.cnf
text one.opb '+1 x1 +1 x2 >= 1 ;' '+1 ~x1 >= 1 ;' '+1 ~x2 >= 1 ;'
text one.lrat '4 0 2 3 1 0'
well narrow encode one.opb one.cnf one.proof
well narrow check one.opb one.cnf one.proof
well narrow refute one.opb one.cnf one.proof one.lrat
well narrow probe one.cnf x1
