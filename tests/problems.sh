# Problems of any size, for the cases that measure memory and time. Each function makes files of its name, for so many statements.

# Clauses over neighbouring variables.
clauses() {
    awk -v n="$1" 'BEGIN { for (i = 1; i <= n; i++) printf "+1 x%d +1 ~x%d +1 x%d >= 1 ;\n", i, i + 1, i + 2 }' >clauses.opb
}

# One statement of five terms, again and again.
five() {
    awk -v n="$1" 'BEGIN { for (i = 1; i <= n; i++) print "+1 x1 +1 x2 +1 x3 +1 x4 +1 x5 >= 1 ;" }' >five.opb
}

# A name for each variable, an objective over all, and values of which each third is false.
named() {
    awk -v n="$1" 'BEGIN {
        printf "min:" >"named.opb"
        for (i = 1; i <= n + 2; i++) printf " +%d name_%d", i % 9 + 1, i >"named.opb"
        print " ;" >"named.opb"
        for (i = 1; i <= n; i++) printf "+1 name_%d +1 name_%d +1 name_%d >= 2 ;\n", i, i + 1, i + 2 >"named.opb"
        print "s SATISFIABLE" >"named.model"
        for (i = 1; i <= n + 2; i++) print "v", i % 3 ? i : -i >"named.model"
        print "v 0" >"named.model"
    }'
}

# Weighted sums, each other than all others.
sums() {
    awk -v n="$1" 'BEGIN {
        for (i = 1; i <= n; i++) {
            for (j = 1; j <= 10; j++) printf "+%d x%d ", (i * j * 7919 + j) % 97 + 1, (i * 3 + j * 11) % (n + 20) + 1
            print ">= 120 ;"
        }
    }' >sums.opb
}

# One sum of so many terms.
long() {
    awk -v n="$1" 'BEGIN { for (i = 1; i <= n; i++) printf "+%d x%d ", i % 7 + 1, i; printf ">= %d ;\n", n }' >long.opb
}

# One sum of so many weights, drawn up to 1,000, whose diagram has wide levels.
weights() {
    awk -v n="$1" 'BEGIN {
        for (s = i = 1; i <= n; i++) {
            s = s * 16807 % 2147483647
            sum += s % 1000 + 1
            printf "+%d x%d ", s % 1000 + 1, i
        }
        printf ">= %d ;\n", sum / 2
    }' >weights.opb
}

# A chain of implications from x1 on: as a CNF, the last one first; as a problem that has no solution; and its refutation, in which each
# clause is deleted once the next one stands.
chain() {
    awk -v n="$1" 'BEGIN {
        printf "p cnf %d %d\n", n, n - 1 >"chain.steps"
        print "+1 x1 >= 1 ;" >"chain.opb"
        for (i = 1; i < n; i++) {
            print i - n, n - i + 1, 0 >"chain.steps"
            print "+1 ~x" i " +1 x" i + 1 " >= 1 ;" >"chain.opb"
        }
        print "+1 ~x" n " >= 1 ;" >"chain.opb"
        for (i = 2; i <= n; i++) {
            before = i == 2 ? 1 : n + i - 1
            printf "%d %d 0 %d %d 0\n%d d %d 0\n", n + i, i, before, i, n + i, before >"chain.lrat"
        }
        printf "%d 0 %d %d 0\n", 2 * n + 1, 2 * n, n + 1 >"chain.lrat"
    }'
}

# A problem of three statements that has no solution, its CNF and a derivation of that; and, named by what is to be long in them,
# derivations and refutations besides.
short() {
    printf '+1 x1 +1 x2 >= 1 ;\n+1 ~x1 >= 1 ;\n+1 ~x2 >= 1 ;\n' >"$1.opb"
    printf 'p cnf 2 3\n1 2 0\n-1 0\n-2 0\n' >"$1.cnf"
    printf 'pseudo-Boolean derivation profile 1\nf 3\nout 1\nout 2\nout 3\nend\n' >"$1.proof"
    printf '4 0 2 3 1 0\n' >"$1.lrat"
}

# So many constraints of a derivation, each deleted right after.
steps() {
    short steps
    awk -v n="$1" '{ print } /^f/ { for (i = 4; i < n + 4; i++) printf "rup +1 x1 +1 x2 >= 1 ; 1\ndel %d\n", i }' steps.proof >steps.long
    mv steps.long steps.proof
}

# So many clauses of a refutation, each deleted right after.
undone() {
    short undone
    awk -v n="$1" 'BEGIN {
        for (i = 4; i < n + 4; i++) printf "%d 1 0 1 3 0\n%d d %d 0\n", i, i, i
        printf "%d 0 2 3 1 0\n", n + 4
    }' >undone.lrat
}

# So many pairs of statements, from each of which a unit follows. It is derived without ids, and deleted right after.
pairs() {
    awk -v n="$1" 'BEGIN {
        printf "p cnf %d %d\n", 2 * n, 2 * n >"pairs.cnf"
        printf "pseudo-Boolean derivation profile 1\nf %d\n", 2 * n >"pairs.proof"
        for (i = 1; i <= n; i++) {
            print "+1 x" i " +1 x" n + i " >= 1 ;\n+1 ~x" i " +1 x" n + i " >= 1 ;" >"pairs.opb"
            printf "%d %d 0\n-%d %d 0\n", i, n + i, i, n + i >"pairs.cnf"
            print "rup +1 x" n + i " >= 1 ;\ndel", 2 * n + i >"pairs.proof"
        }
        for (i = 1; i <= 2 * n; i++) print "out", i >"pairs.proof"
        print "end" >"pairs.proof"
    }'
}

# Groups of a hundred fresh variables, so many: over each group stand 64 clauses at a time, of which none is left.
grouped() {
    short grouped
    awk -v n="$1" 'BEGIN { printf "p cnf %d 3\n1 2 0\n-1 0\n-2 0\n", 2 + 100 * n }' >grouped.cnf
    awk -v n="$1" '
        /^out 1/ {
            id = 3
            for (group = 0; group < n; group++) {
                clause = "rup"
                for (v = 3 + 100 * group; v < 103 + 100 * group; v++) {
                    printf "red +1 x%d >= 1 ; x%d -> 1\n", v, v
                    clause = clause " +1 x" v
                }
                clause = clause " >= 1 ; " id + 1
                id += 100
                for (i = 0; i < 64; i++) print clause
                for (id += 64; i > 0; i--) print "del", id - 64 + i
            }
        }
        { print }' grouped.proof >grouped.long
    mv grouped.long grouped.proof
}

# So many blanks in one line of the derivation, and of the refutation.
blanks() {
    short blanks
    awk -v n="$1" '/^out 1/ { while (n-- > 0) printf " " } { print }' blanks.proof >blanks.long
    mv blanks.long blanks.proof
    awk -v n="$1" '{ while (n-- > 0) printf " "; print }' blanks.lrat >blanks.long
    mv blanks.long blanks.lrat
}

# So many terms in one line of the derivation.
wide() {
    short wide
    awk -v n="$1" '{ print } /^f/ { printf "rup"; while (n-- > 0) printf " +1 x%d", n % 2 + 1; print " >= 1 ; 1" }' wide.proof >wide.long
    mv wide.long wide.proof
}

# So many hints in one line of the refutation.
hints() {
    short hints
    awk -v n="$1" 'BEGIN { printf "4 0"; while (n-- > 0) printf " 2"; print " 3 1 0" }' >hints.lrat
}

# A literal for each of so many variables, all of one clause, to propagate from.
literals() {
    awk -v n="$1" 'BEGIN { print "p cnf", n + 1, 1; for (i = 1; i <= n; i++) printf "-%d ", i; print n + 1, 0 }' >literals.steps
}

# One that is generated has no text.
drawn() {
    :
}

# words_of COMMAND PROBLEM SIZE: sets $words to a command's words for a problem that was made, and $texts to those texts among them that
# it reads. `derive` is `encode` with a derivation.
words_of() {
    local it=$2
    case $1 in
    encode) words=(encode $it.opb /dev/null) texts=($it.opb) ;;
    derive) words=(encode $it.opb $it.cnf $it.proof) texts=($it.opb) ;;
    wcnf) words=(wcnf $it.opb /dev/null) texts=($it.opb) ;;
    map) words=(map $it.opb) texts=($it.opb) ;;
    decode) words=(decode $it.opb $it.model) texts=($it.opb $it.model) ;;
    check) words=(check $it.opb $it.cnf $it.proof) texts=($it.opb $it.cnf $it.proof) ;;
    refute) words=(refute $it.opb $it.cnf $it.proof $it.lrat) texts=($it.opb $it.cnf $it.proof $it.lrat) ;;
    probe) words=(probe $it.steps x1) texts=($it.steps) ;;
    bench) words=(bench "$3" 1 /dev/null) texts=(/dev/null) ;;
    esac
    if [ $it = literals ]; then
        for ((i = 2; i <= $3; i++)); do words+=("x$i"); done
    fi
}
