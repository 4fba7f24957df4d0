# `examples/tidy`: its own tests, the table of docs/MISTAKES.md, and what it does with names, files and streams.
. "$top/tests/lib.sh"
needs python3

export PYTHONPATH=$top/library/python PYTHONDONTWRITEBYTECODE=1 PBCNF=$pbcnf
[ ! -e "$linked/libpbcnf.so.0" ] || export PBCNF_LIBRARY=$linked/libpbcnf.so.0
tidy=$top/examples/tidy

run_tests "$top/library/python/tests/test_tidy.py"

# The words between `` of a cell.
bare() {
    local word=${1#*\`}
    printf '%s' "${word%\`*}"
}

# Rows of a text that the program refuses, and of what becomes of it, which it reads and which is left alone.
judge_row() {
    printf '%s\n' "$1" >row.opb
    printf '%s' "$2" >wanted
    expect 1 pb encode row.opb row.cnf
    expect 0 "$tidy" row.opb
    cp "$said" tidied.opb
    printf '%s' "$(tr '\n' ' ' <tidied.opb | sed 's/ *$//')" >got
    same wanted got
    fine encode tidied.opb row.cnf
    expect 0 "$tidy" tidied.opb
    same tidied.opb "$said"
    tells
}

rows=0
while IFS='|' read -r _ first second _; do
    judge_row "$(bare "$first")" "$(bare "$second")"
    rows=$((rows + 1))
done < <(sed -n '/^## What is rewritten/,/^## The words/p' "$top/docs/MISTAKES.md" | grep '^| `')
[ $rows -ge 20 ] || failed "docs/MISTAKES.md: wanted twenty rows or more, got $rows"

# Examples are left as they are, from a file and from a pipe.
for opb in "$examples"/*.opb; do
    expect 0 "$tidy" "$opb"
    same "$opb" "$said"
    expect 0 "$tidy" - <"$opb"
    same "$opb" "$said"
    tells
done

text loose.opb 'x1 >= 1 ;'
text refused.opb 'x1 >= 1 ;' '1.5 x2 >= 1 ;'
text tidied.opb '+1 x1 >= 1 ;'
expect 0 "$tidy" loose.opb --keep kept.opb
says
same tidied.opb kept.opb
expect 1 "$tidy" refused.opb --keep kept.opb
tells 'pbcnf-tidy: OPB 2:1: a fraction; multiply the statement'
same tidied.opb kept.opb
expect 2 "$tidy"
expect 2 "$tidy" loose.opb other.opb
expect 0 "$tidy" --help
expect 0 "$tidy" --version
says "pbcnf $(cat "$top/VERSION")"
expect 4 "$tidy" nowhere.opb
tells 'pbcnf-tidy: nowhere.opb: No such file or directory'
expect 5 "$tidy" loose.opb --keep loose.opb
expect 5 "$tidy" loose.opb --keep nowhere/kept.opb
expect 5 bash -c '"$0" loose.opb >&-' "$tidy"
[ ! -c /dev/full ] || expect 5 bash -c '"$0" loose.opb >/dev/full' "$tidy"
same tidied.opb kept.opb
holds loose.opb 'x1 >= 1 ;'
