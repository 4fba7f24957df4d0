# Texts of several buffers: what each command reads, makes and says is whole, byte for byte. What is expected is worked out by other means.
. "$top/tests/lib.sh"

count=12000

# A problem of clauses over named variables, what is to be made and said of it, and a solver's values: all but each third are true.
awk -v n=$count '
function clause(i) { return i " -" i + 1 " " i + 2 " 0" }
BEGIN {
    printf "min:" >"due.opb"
    for (i = 1; i <= n; i++) {
        printf " +%d item_of_a_list_%d", i, i >"due.opb"
        print i, "item_of_a_list_" i >"due.map"
    }
    print " ;" >"due.opb"
    print "p cnf", n, n - 2 >"due.cnf"
    print "pseudo-Boolean derivation profile 1\nf " n - 2 >"due.proof"
    print "c offset 0" >"due.wcnf"
    for (i = 1; i <= n - 2; i++) {
        printf "+1 item_of_a_list_%d +1 ~item_of_a_list_%d +1 item_of_a_list_%d >= 1 ;\n", i, i + 1, i + 2 >"due.opb"
        print clause(i) >"due.cnf"
        print "h", clause(i) >"due.wcnf"
        printf "rup +1 x%d +1 ~x%d +1 x%d >= 1 ; %d\nout %d\n", i, i + 1, i + 2, i, n - 2 + i >"due.proof"
    }
    print "end" >"due.proof"
    for (i = 1; i <= n; i++) print i, -i, 0 >"due.wcnf"
    print "s SATISFIABLE" >"due.model"
    for (i = 1; i <= n; i++) {
        is_true = i % 3 != 0
        if (is_true) value += i
        line = line (is_true ? " item" : " -item") "_of_a_list_" i
        print "v", is_true ? i : -i >"due.model"
    }
    print "v 0" >"due.model"
    printf "o %d\ns SATISFIABLE\nv%s\n", value, line >"due.solution"
}'

# are_long FILE..: each has more bytes than two buffers of 64 KiB.
are_long() {
    local file
    for file in "$@"; do
        [ "$(stat -c %s "$file")" -gt 131072 ] || return 1
    done
}
expect 0 are_long due.opb due.cnf due.proof due.wcnf due.map due.solution
fine encode due.opb made.cnf made.proof
clauses_alone $count $((count - 2))
same due.cnf made.cnf
same due.proof made.proof
fine wcnf due.opb made.wcnf
clauses_alone $count $((count - 2))
same due.wcnf made.wcnf
fine map due.opb
same due.map "$said"
fine decode due.opb due.model
same due.solution "$said"
fine check due.opb due.cnf due.proof
says accepted

# What is wrong far into a text is seen: a literal of a clause, a step, a value that violates the statement of its number.
far=$((count - 100))
sed "$((far + 1))s/.*/$far 0/" due.cnf >wrong.cnf
fault 7 "PROOF line $((2 * far + 2)): not implied by $((far + count - 2))" check due.opb wrong.cnf due.proof
sed "$((2 * far + 2))s/.*/out $far/" due.proof >wrong.proof
fine check due.opb due.cnf wrong.proof
sed "$((2 * far + 2))s/.*/out 1/" due.proof >wrong.proof
fault 7 "PROOF line $((2 * far + 2)): not implied by 1" check due.opb due.cnf wrong.proof
far=$((far / 3 * 3))
sed "$((far + 3))s/.*/v -$((far + 2))/" due.model >wrong.model
fault 8 "statement $far is violated" decode due.opb wrong.model

# A chain of implications, which propagation goes through from end to end, and a refutation of it, line after line.
awk -v n=$count '
BEGIN {
    print "+1 x1 >= 1 ;" >"chain.opb"
    for (i = 1; i < n; i++) print "+1 ~x" i " +1 x" i + 1 " >= 1 ;" >"chain.opb"
    print "+1 ~x" n " >= 1 ;" >"chain.opb"
    printf "p cnf %d %d\n", 2 * n, 2 * n - 1 >"steps.cnf"
    for (i = 1; i < 2 * n; i++) print -i, i + 1, 0 >"steps.cnf"
    printf "fixed" >"due.fixed"
    for (i = 1; i <= 2 * n; i++) printf " %d", i >"due.fixed"
    print " 0" >"due.fixed"
    for (i = 2; i <= n; i++) printf "%d %d 0 %d %d 0\n", n + i, i, i == 2 ? 1 : n + i - 1, i >"chain.lrat"
    printf "%d 0 %d %d 0\n", 2 * n + 1, 2 * n, n + 1 >"chain.lrat"
}'
expect 0 are_long chain.opb steps.cnf chain.lrat due.fixed
fine probe steps.cnf x1
same due.fixed "$said"
fine encode chain.opb chain.cnf chain.proof
fine refute chain.opb chain.cnf chain.proof chain.lrat
says refuted
sed '$d' chain.lrat >wrong.lrat
fault 10 "LRAT line $count: no empty clause" refute chain.opb chain.cnf chain.proof wrong.lrat
sed "$((count - 9))s/ 0 [0-9]*/ 0 3/" chain.lrat >wrong.lrat
fault 10 "LRAT line $((count - 9)): no conflict" refute chain.opb chain.cnf chain.proof wrong.lrat

# A table of many rows: of powers of two each sum is one. The rows' literals are the last variables, upwards.
terms=13
awk -v n=$terms '
function fresh(p) { return p < 2 ? 0 : 2 ^ p - 1 + fresh(int(p / 2)) + fresh(p - int(p / 2)) }
BEGIN {
    printf "min:" >"powers.opb"
    for (i = 1; i <= n; i++) printf " +%d x%d", 2 ^ (i - 1), i >"powers.opb"
    print " ;" >"powers.opb"
    for (u = 1; u < 2 ^ n; u++) print "bound", u, n + fresh(n) - (2 ^ n - 1) + u >"due.bounds"
}'
fine encode powers.opb made.cnf --table
tail -n +3 "$said" >bounds
same due.bounds bounds
expect 0 test "$(stat -c %s due.bounds)" -gt 100000

# A generated problem, by its rule, is encoded as its text is.
awk -v n=3000 -v state=5 '
function draw(    high, low) {
    high = int(state / 65536); low = state % 65536
    state = ((1664525 * high) % 65536 * 65536 + 1664525 * low + 1013904223) % 4294967296
    return int(state / 65536)
}
BEGIN {
    printf "* #variable= %d #constraint= %d\n", n + 10, n
    for (i = 1; i <= n; i++) {
        terms = 2 + draw() % 10
        kind = draw() % 4
        sum = 0
        for (t = 1; t <= terms; t++) {
            weight = kind < 2 ? 1 : 1 + draw() % 20
            name = 1 + draw() % (n + 10)
            printf "+%d %sx%d ", weight, draw() % 2 ? "~" : "", name
            sum += weight
        }
        right = kind == 0 ? terms - 1 : kind == 1 ? int((terms + 1) / 2) : draw() % (sum + 1)
        printf "%s %d ;\n", kind == 3 ? "<=" : ">=", right
    }
}' >drawn.opb
fine encode drawn.opb drawn.cnf
cp "$said" summary
fine bench 3000 5 made.cnf
same summary "$said"
same drawn.cnf made.cnf
expect 0 are_long drawn.opb drawn.cnf
