# Texts that are cut anywhere, or have another byte somewhere: the program ends with one of its statuses, says a word only where
# all is well, else prints one line on standard error, and makes no file.
. "$top/tests/lib.sh"

take() {
    taken=
    IFS= read -r -d '' taken <"$1"
}

# holds_up 'STATUS ..' WORD..: runs the command on the file `text`.
holds_up() {
    local status
    "$pbcnf" "${@:2}" >out 2>err
    status=$?
    case " $1 " in
    *" $status "*) ;;
    *) return 1 ;;
    esac
    take err
    if [ $status -eq 0 ]; then
        [ -z "$taken" ] && { [ "$2" = map ] || [ -s out ]; }
    else
        refused=$((refused + 1))
        [[ $taken == 'pbcnf: '*$'\n' && $taken != *$'\n'?* && ! -s out ]]
    fi
}

# breaks FILE 'STATUS ..' WORD..: runs the command on the file's text as it is broken.
breaks() {
    local i byte whole bad= refused=0
    take "$1"
    whole=$taken
    last=$(shown "${@:3}")
    for ((i = 0; i < ${#whole}; i++)); do
        printf '%s' "${whole:0:i}" >text
        holds_up "${@:2}" || bad="${whole:0:i}"
        for byte in 0 - x $'\n' $'\xff'; do
            printf '%s%s%s' "${whole:0:i}" "$byte" "${whole:i+1}" >text
            holds_up "${@:2}" || bad=$(<text)
        done
        printf '%s\0%s' "${whole:0:i}" "${whole:i+1}" >text
        holds_up "${@:2}" || bad="${whole:0:i}, a byte 0, ${whole:i+1}"
    done
    # Of each text some parts are no text by themselves.
    [ $refused -gt 0 ] || bad=$whole
    if [ -z "$bad" ]; then passed; else failed "$last: no answer that is due of the text $(shown "$bad")"; fi
}

text a.opb 'min: +1 x1 -2 ~b ;' '+1 b +1 ~x2 x1 >= 1 ;'
fine encode a.opb a.cnf a.proof
text a.model 's SATISFIABLE' 'v 1 -2' 'v 3 0'
breaks a.opb '0 1 3' map text
breaks a.opb '0 1 3' encode text /dev/null
breaks a.cnf '0 1 3' probe text x1
breaks a.cnf '0 1 3 7' check a.opb text a.proof
breaks a.proof '0 1 3 7' check a.opb a.cnf text
breaks a.model '0 1 3 8 9' decode a.opb text
text b.opb '+1 x1 +1 x2 >= 1 ;' '+1 ~x1 >= 1 ;' '+1 ~x2 >= 1 ;'
fine encode b.opb b.cnf b.proof
text b.lrat '4 1 0 1 3 0' '5 d 1 0' '6 0 4 2 0'
fine refute b.opb b.cnf b.proof b.lrat
says refuted
breaks b.lrat '0 1 3 10' refute b.opb b.cnf b.proof text
breaks b.cnf '0 1 3 7 10' refute b.opb text b.proof b.lrat
breaks b.proof '0 1 3 7' refute b.opb b.cnf text b.lrat
