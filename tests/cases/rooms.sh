# By how much memory goes with the texts that a command reads: what tests/rooms allows.
. "$top/tests/lib.sh"
. "$top/tests/problems.sh"
needs prlimit

# within KIB WORD..: the command has so much of addresses, and a small stack.
within() {
    limited --as=$((1024 * $1)) --stack=$((1024 * 256)) -- "$pbcnf" "${@:2}"
}

# What a run takes whose texts are a few bytes: mostly the program and the C library themselves.
short tiny
least=2048
until within $least refute tiny.opb tiny.cnf tiny.proof tiny.lrat >"$said" 2>"$told"; do
    least=$((least + 128))
    [ $least -lt 65536 ] || break
done
says refuted

# Each command of a row, on problems of its size, twice and four times that.
grep -v '^#' "$top/tests/rooms" >rooms
while read -r problem first; do
    for size in "$first" $((2 * first)) $((4 * first)); do
        $problem "$size"
        while read -r command kib bytes; do
            words_of "$command" "$problem" "$size"
            room=$(cat "${texts[@]}" | wc -c | awk -v kib=$((least + kib)) -v bytes="$bytes" '{ printf "%d", kib + $1 * bytes / 1024 }')
            well within "$room" "${words[@]}"
            case $command in
            check) says accepted ;;
            refute) says refuted ;;
            esac
        done < <(awk -v p="$problem" -v s="$first" '$1 == p && $2 == s { print $3, $4, $5 }' rooms)
        rm -f "$problem".*
    done
done < <(awk '!seen[$1, $2]++ { print $1, $2 }' rooms)
