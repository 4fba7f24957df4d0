# Names of files: with blanks and beyond ASCII, of folders, missing ones, and ones that no word can be.
. "$top/tests/lib.sh"

opb=$examples/choice.opb
fine encode "$opb" o.cnf o.proof

mkdir 'a folder' 'grün ☂'
for name in 'two words.opb' 'a folder/ x .opb' 'grün ☂/größe.opb' "it's \"quoted\" \$HOME *.opb" $'a\nline.opb' $'tab\t.opb' -x; do
    cp -- "$opb" "$PWD/$name"
    fine encode -- "$name" "$name.cnf" "$name.proof"
    same o.cnf "./$name.cnf"
    same o.proof "./$name.proof"
    fine check -- "$name" "$name.cnf" "$name.proof"
    says accepted
done

# No UTF-8, as a file's name and as any other word.
usage='usage: encode, check, decode, probe or bench'
odd=$'odd\xff.opb'
if cp "$opb" "$odd" 2>"$state/cp"; then
    fault 2 "$usage" encode "$odd" no.cnf
    absent no.cnf
else
    skip 'the file system takes no name that is no UTF-8'
fi
fault 2 "$usage" encode "$opb" $'no\xff.cnf'
fault 2 "$usage" probe o.cnf $'x1\xc3'
fault 2 "$usage" $'\x80'
absent $'no\xff.cnf'

# Folders, missing files and missing folders.
fault 4 'read fault' encode . no.cnf
fault 4 'read fault' encode 'a folder' no.cnf
fault 4 'read fault' encode '' no.cnf
fault 4 'read fault' encode missing/a.opb no.cnf
fault 4 'read fault' encode "$opb/a.opb" no.cnf
fault 4 'read fault' encode "$(printf 'n%.0s' {1..300})" no.cnf
fault 4 'read fault' check "$opb" . o.proof
fault 4 'read fault' check "$opb" o.cnf .
fault 4 'read fault' check "$opb" missing o.proof
fault 4 'read fault' check "$opb" o.cnf missing
fault 4 'read fault' refute "$opb" o.cnf o.proof missing
fault 4 'read fault' decode "$opb" missing
fault 4 'read fault' map missing
fault 4 'read fault' probe missing x1
absent no.cnf
fault 5 'write fault' encode "$opb" .
fault 5 'write fault' encode "$opb" 'a folder'
fault 5 'write fault' encode "$opb" 'a folder/'
fault 5 'write fault' encode "$opb" ''
fault 5 'write fault' encode "$opb" missing/o.cnf
fault 5 'write fault' encode "$opb" "$(printf 'n%.0s' {1..300})"
fault 5 'write fault' wcnf "$opb" missing/o.wcnf
fault 5 'write fault' bench 1 1 missing/o.cnf
absent missing
fault 5 'write fault' encode "$opb" whole.cnf missing/o.proof
same o.cnf whole.cnf

# An OPB text that is refused is reported before what comes after it is opened.
text refused.opb 'max: +1 x1 ;'
refusal='OPB 1:1: expected min:, a statement or the end'
fault 1 "$refusal" encode refused.opb missing/o.cnf
fault 1 "$refusal" check refused.opb missing missing/proof
fault 1 "$refusal" refute refused.opb missing missing/proof missing/lrat
fault 1 "$refusal" decode refused.opb missing
