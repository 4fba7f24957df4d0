# Memory depends on the text, and not on the greatest number in it.
. "$top/tests/lib.sh"
needs prlimit

within() {
    limited --as=$((1024 * 16384)) -- "$pbcnf" "$@"
}

# sparse WORD..: a command on texts with few of very many variables.
sparse() {
    well within "$@"
}

text few.opb '* #variable= 2147483640 #constraint= 3' '+2 x1 +3 x1000000000 +1 x2147483640 +2 ~x7 >= 4 ;' \
    '-1 x7 -1 ~x2000000000 -1 x3 >= -1 ;' '+1 x1 +1 x3 +1 ~x1000000000 >= 1 ;'
sparse encode few.opb few.cnf few.proof
sparse check few.opb few.cnf few.proof
says accepted
sparse probe few.cnf '~x1' '~x3'
sparse wcnf few.opb few.wcnf
expect 0 within map few.opb
says

text none.opb '* #variable= 2147483640 #constraint= 3' '+1 x5 +1 x2147483640 >= 1 ;' '+1 ~x5 >= 1 ;' '+1 ~x2147483640 >= 1 ;'
sparse encode none.opb none.cnf none.proof
sparse check none.opb none.cnf none.proof
says accepted
text none.lrat '4 0 2 3 1 0'
sparse refute none.opb none.cnf none.proof none.lrat
says refuted

text wide.cnf 'p cnf 2147483647 1' '1 2147483647 0'
sparse probe wide.cnf '~x1'
says 'fixed -1 2147483647 0'
