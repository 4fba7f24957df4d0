# How a text that does not follow its grammar or passes a limit is reported: its place, and each word that the formats list.
. "$top/tests/lib.sh"

# opb STATUS LINE TEXT: of an OPB text, without a last LF.
opb() {
    printf '%s' "$3" >text
    fault "$1" "OPB $2" encode text o.cnf o.proof
    absent o.cnf o.proof
}

opb 1 '1:1: expected min:, a statement or the end' 'max: +1 x1 ;'
opb 1 '1:14: expected a statement or the end' '+1 x1 >= 1 ; min: ;'
opb 1 '1:7: expected a coefficient or a relation' '+1 x1 > 1 ;'
opb 1 '1:12: expected a coefficient or ;' 'min: +1 x1 >= 1 ;'
opb 1 '1:4: expected a literal' '+1 x0 >= 1 ;'
opb 1 '1:10: expected an integer' '+1 x1 >= ;'
opb 1 '1:12: expected ;' '+1 x1 >= 1 2 ;'
opb 1 '2:1: expected ;' $'+1 x1 >= 1\n'
opb 1 '3:1: expected ;' $'* a comment\r\n+1 x1 >= 1\r\n2 x1'
opb 1 '1:1: expected min:, a statement or the end' $'\xef\xbb\xbf+1 x1 >= 1 ;'
opb 3 '1:39: limit weight' '+633825300114114700748351602688 x1 >= 633825300114114700748351602688 ;'
opb 3 '1:4: limit variables' '+1 x2147483648 >= 1 ;'
opb 3 '1:14: limit variables' '* #variable= 2147483648'
opb 3 '1:4: limit name' "+1 $(printf 'n%.0s' {1..256}) >= 1 ;"
fault 3 'OPB: limit weight' encode "$examples/guards.opb" o.cnf --at-most=1267650600228229401496703205375
fault 3 'totals: limit bounds' encode "$examples/guards.opb" o.cnf --table --budget 2
text text '* #variable= 2147483646 #constraint= 1' '-1 x1 -1 x2 -1 x3 >= -1 ;'
fault 3 'totals: limit variables' encode text o.cnf --amo ladder
absent o.cnf

# Limits that only long texts pass. The bytes of one are not all there: what a file has none for is read as zeros.
if truncate -s 4294967297 long 2>"$state/truncate"; then
    fault 3 'OPB: limit text' map long
    rm long
else
    skip 'the file system has no file of more than four GiB'
fi
yes '>=0;' | head -n 16777217 >text
fault 3 'OPB 16777217:1: limit statements' map text
awk 'BEGIN { for (i = 0; i <= 1048576; i++) printf "+1 x1 "; print ">= 1 ;" }' >text
fault 3 'OPB 1:6291457: limit terms' map text
awk 'BEGIN { for (i = 1; i <= 400000; i++) printf "-1 x%d ", i; print ">= -1 ;" }' >text
fault 3 'totals: limit clauses' encode text o.cnf --amo pairwise
absent o.cnf

# cnf STATUS LINE TEXT: of a CNF text.
cnf() {
    printf '%s' "$3" >text
    fault "$1" "CNF $2" probe text x1
}

cnf 1 '1:1: expected p line' ''
cnf 1 '2:1: expected p line' $'c only\n'
cnf 1 '1:3: expected cnf word' 'p dnf 1 1'
cnf 1 '1:7: expected var count' $'p cnf x 1\n'
cnf 1 '1:8: expected clause count' $'p cnf 1\n'
cnf 1 '1:11: expected line end' 'p cnf 1 1 1'
cnf 1 '2:1: expected clause word' $'p cnf 1 1\n2 0\n'
cnf 1 '3:1: expected clause word' $'p cnf 1 2\n1 0\n'
cnf 1 '2:5: expected cnf end' $'p cnf 1 1\n1 0 1 0\n'
cnf 3 '1:7: limit variables' $'p cnf 2147483648 0\n'
cnf 3 '1:9: limit clauses' $'p cnf 1 68719476737\n'
truncate -s 268435457 long
fault 3 'CNF 1:1: limit line' probe long
rm long

# proof STATUS LINE STEP..: of a derivation, whose steps begin in line 3.
text one.opb '+1 x1 +1 x2 = 1 ;'
text one.cnf 'p cnf 2 2' '1 2 0' '-1 -2 0'
proof() {
    text text 'pseudo-Boolean derivation profile 1' 'f 2' "${@:3}"
    fault "$1" "PROOF $2" check one.opb one.cnf text
}

# head_lines LINE FIRST..: of a derivation by its first lines.
head_lines() {
    text text "${@:2}"
    fault 1 "PROOF $1" check one.opb one.cnf text
}

head_lines '1:1: expected step word'
head_lines '1:1: expected head' 'f 2'
head_lines '1:16: expected head' 'pseudo-Boolean derivations profile 1'
head_lines '2:1: expected loaded' 'pseudo-Boolean derivation profile 1' 'out 1'
head_lines '2:3: expected loaded count' 'pseudo-Boolean derivation profile 1' 'f 3'
proof 1 '3:1: expected step word'
proof 1 '3:1: expected step word' 'add 1'
proof 1 '3:5: expected operand' 'pol y'
proof 1 '3:7: expected factor' 'pol 1 0 d'
proof 1 '3:5: expected term' 'rup x1 >= 1 ;'
proof 1 '3:8: expected a literal' 'rup +1 y1 >= 1 ;'
proof 1 '3:14: expected an integer' 'rup +1 x1 >= ;'
proof 1 '3:16: expected ;' 'rup +1 x1 >= 1 1'
proof 1 '3:5: expected id' 'del x1'
proof 1 '3:18: expected set var' 'red +1 x1 >= 0 ; 2 -> 1'
proof 1 '3:21: expected arrow' 'red +1 x1 >= 0 ; x2 = 1'
proof 1 '3:24: expected bit' 'red +1 x1 >= 0 ; x2 -> 2'
proof 1 '3:7: expected line end' 'out 1 2'
proof 1 '6:1: expected derivation end' 'out 1' 'out 2' end 'del 1'
proof 3 '3:7: limit number' 'pol 1 85070591730234615865843651857942052864 *'
proof 3 '3:8: limit variables' 'rup +1 x2147483648 >= 1 ;'

# Steps that are not allowed.
proof 7 'line 3: unknown variable x3' 'rup +1 x3 >= 1 ;'
proof 7 'line 3: unknown id 3' 'pol 1 2 + 3'
proof 7 'line 3: unknown id 1' 'del 1 1'
proof 7 'line 3: stack' 'pol 1 +'
proof 7 'line 3: width' 'pol 1 42535295865117307932921825928971026432 *'
proof 7 'line 3: sets original x1' 'red +1 x1 >= 1 ; x1 -> 1'
proof 7 'line 3: not propagated' 'rup +1 x1 >= 1 ;'
text two.cnf 'p cnf 3 2' '1 2 0' '-1 -2 0'
text text 'pseudo-Boolean derivation profile 1' 'f 2' 'red +1 x3 >= 1 ; x3 -> 1' 'red +1 ~x3 >= 1 ; x3 -> 0'
fault 7 'PROOF line 4: obligation 3' check one.opb two.cnf text
proof 7 'line 5: no clause' 'out 1' 'out 2' 'out 1'
proof 7 'line 3: not implied by 2' 'out 2'
proof 7 'line 4: deletes output 1' 'out 1' 'del 1'
proof 7 'line 3: clauses left' end

# model LINE TEXT: of a model.
model() {
    printf '%s' "$2" >text
    fault 1 "MODEL $1" decode one.opb text
}

model '1:1: expected model line' 'x1 x2'
model '2:1: expected model line' $'s SATISFIABLE\ns SATISFIABLE\n'
model '1:3: expected model literal' $'v x1 0\n'
model '2:5: expected opposite' $'s SATISFIABLE\nv 1 -1 0\n'
model '3:1: expected model zero' $'s SATISFIABLE\nv 1 2\n'
printf 'v 2147483648 0\n' >text
fault 3 'MODEL 1:3: limit variables' decode one.opb text

# lrat STATUS LINE TEXT: of a refutation.
text none.opb '+1 x1 +1 x2 >= 1 ;' '+1 ~x1 >= 1 ;' '+1 ~x2 >= 1 ;'
fine encode none.opb none.cnf none.proof
lrat() {
    printf '%s' "$3" >text
    fault "$1" "LRAT $2" refute none.opb none.cnf none.proof text
}

lrat 1 '1:1: expected lrat id' $'x 0 1 0\n'
lrat 1 '1:3: expected lrat literal' $'4 3 0 1 0\n'
lrat 1 '1:7: expected lrat hint' $'4 0 2 -3 1 0\n'
lrat 1 '1:11: expected lrat end' $'4 0 1 2 0 3 0\n'
lrat 10 'line 1: old id 3' $'3 0 2 0\n'
lrat 10 'line 1: unknown hint 9' $'4 0 9 0\n'
lrat 10 'line 1: no conflict' $'4 0 2 3 0\n'
lrat 10 'line 1: no empty clause' ''
lrat 10 'line 2: no empty clause' $'4 1 0 1 3 0\n'

# So each word of the formats is reported here, but that of 2^40 lines.
awk -F'|' '
    /^\| (in the code|limit|expected) .* printed( as)? \|$/ { what = /greatest/ ? "limit " : / where / ? "expected " : "line [0-9]*: " }
    !/^\|/ { what = "" }
    what && !/^\|-/ && match($(NF - 1), /`.*`/) {
        count = split(substr($(NF - 1), RSTART, RLENGTH), words, "`")
        for (i = 2; i <= count; i += 2) print what words[i]
    }' "$top/docs/FORMATS.md" | sed 's/ x\{0,1\}[0-9]*$//' | sort -u | grep -vx 'limit [l]ines' >words
expect 0 test "$(wc -l <words)" -gt 50
while read -r word; do
    grep -q -- "$word" "$top/tests/cases/faults.sh" || printf '%s\n' "$word"
done <words >untold
holds untold
