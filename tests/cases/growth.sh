# Each allocation refused in turn: a run ends with 6, with first parts of the files and words that are due, or just as it does
# without the refusal.
. "$top/tests/lib.sh"

needs_compiler
if ! $compiler -O1 -shared -fPIC -o failing.so "$top/tests/failing_malloc.c" -ldl 2>"$state/cc"; then
    skip "$compiler makes no shared library: $(tail -n 1 "$state/cc")"
    exit 0
fi

# The bytes of a file, in $taken. (There are thousands of runs, so bash does what it can by itself.)
take() {
    taken=
    IFS= read -r -d '' taken <"$1"
}

# run N WORD..: runs the program with its Nth allocation refused, and keeps what came: the status, standard error, standard output,
# and the files one and two. The file `refused` says whether it came to that allocation.
run() {
    local file
    : >one
    : >two
    : >refused
    FAIL_AT=$1 FAIL_TOLD=refused LD_PRELOAD=./failing.so "$pbcnf" "${@:2}" >out 2>err
    came=($?)
    for file in err out one two; do
        take $file
        came+=("$taken")
    done
}

is_due() {
    local i
    for i in "${!due[@]}"; do
        [ "${came[i]}" = "${due[i]}" ] || return 1
    done
}

is_first_part() {
    local i
    [ "${came[0]}" -eq 6 ] && [ "${came[1]}" = $'pbcnf: out of memory\n' ] || return 1
    for i in 2 3 4; do
        [ "${due[i]:0:${#came[i]}}" = "${came[i]}" ] || return 1
    done
}

# grows STATUS WORD..: refuses each allocation of the command, which ends with this status where none is.
grows() {
    local n
    standing=()
    derived=()
    last=$(shown "${@:2}")
    run 0 "${@:2}"
    due=("${came[@]}")
    if [ "${due[0]}" -ne "$1" ] || [ -z "${due[1]}${due[2]}" ]; then
        failed "$last: wanted the status $1 and words, got ${due[0]} and $(bytes_of out)"
        return
    fi
    for ((n = 1; ; n++)); do
        run $n "${@:2}"
        take refused
        [ -n "$taken" ] || break
        if ! is_due && ! is_first_part; then
            failed "$last: allocation $n refused: the status ${came[0]}, standard error $(bytes_of err), and what was made and said is $(bytes_of one), $(bytes_of two) and $(bytes_of out)"
            return
        fi
        standing+=("${came[0]} ${came[3]}")
        derived+=("${came[0]} ${came[4]}")
    done
    if [ $n -gt 5 ] && is_due; then
        passed
    else
        failed "$last: $((n - 1)) allocations were refused, and the run without is ${came[0]}, $(bytes_of one) and $(bytes_of two)"
    fi
}

ln -s "$examples" examples
text row.opb '+4 ~x1 +3 ~x2 +2 ~x3 >= 4 ; +4 ~x4 +3 ~x5 +2 ~x6 >= 4 ;'
grows 0 encode row.opb one

# What a buffer holds when memory runs out is written: the second constraint's growth is refused after the first's clauses.
wanted=$'6 p cnf 12 10\n-7 -1 8 0\n-8 9 0\n-8 -2 0\n-9 -3 0\n7 0\n'
found=no
for text in "${standing[@]}"; do
    [ "$text" != "$wanted" ] || found=yes
done
if [ $found = yes ]; then
    passed
else
    failed "$last: wanted a run that ends with 6 after the five clauses of the first constraint, got none"
fi

grows 0 encode row.opb one two

# So it is of a derivation: the first constraint's five clauses are put out, and no more.
found=no
for text in "${derived[@]}"; do
    [ "${text:0:2}" != '6 ' ] || [ "$(grep -c '^out ' <<<"$text")" -ne 5 ] || found=yes
done
if [ $found = yes ]; then
    passed
else
    failed "$last: wanted a run that ends with 6 after five clauses that are put out, got none"
fi

grows 0 wcnf row.opb one
text names.opb 'min: +2 rain -1 x1 sun ;' '+1 rain +1 x1 +2 ~sun >= 2 ;' '-3 x1 -2 sun -2 rain >= -4 ;'
grows 0 encode names.opb one two
grows 0 encode names.opb one two --table --general tree
grows 0 encode names.opb one two --general adder --at-most=2
grows 0 wcnf names.opb one --at-most=2
grows 0 map names.opb
text equal.opb '+1 x1 +1 x2 +1 x3 +1 x4 = 2 ;' '-1 x1 -1 x3 -1 x5 >= -1 ;' '+1 x2 +1 x3 +1 x4 +1 x5 +1 x6 >= 3 ;'
grows 0 encode equal.opb one two
grows 0 encode equal.opb one two --equal joint --amo ladder --card totalizer
grows 0 encode equal.opb one two --amo product --card counter
grows 0 bench 4 7 one
grows 0 bench 4 7

fine encode row.opb row.cnf row.proof
grows 0 check row.opb row.cnf row.proof
awk '{ line[NR] = $0 } /^out/ { last = NR } END { for (i = 1; i <= NR; i++) if (i != last) print line[i] }' row.proof >short.proof
grows 7 check row.opb row.cnf short.proof
fine encode names.opb names.cnf names.proof --at-most=2
grows 0 check names.opb names.cnf names.proof --at-most=2
grows 0 probe row.cnf x1 '~x2' x6
text model 's SATISFIABLE' 'v 2 0'
grows 0 decode row.opb model
grows 0 decode names.opb model
text bad.model 's SATISFIABLE' 'v 1 2 3 0'
grows 8 decode row.opb bad.model
text none.opb '+1 x1 +1 x2 >= 1 ;' '+1 ~x1 >= 1 ;' '+1 ~x2 >= 1 ;'
text none.lrat '4 1 0 1 3 0' '5 0 4 2 0' '5 d 4 0'
fine encode none.opb none.cnf none.proof
grows 0 refute none.opb none.cnf none.proof none.lrat
text short.lrat '4 1 0 1 3 0'
grows 10 refute none.opb none.cnf none.proof short.lrat
grows 1 encode model one two
grows 2 encode row.opb
