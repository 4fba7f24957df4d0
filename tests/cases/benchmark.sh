# The benchmark measures the program on its small problems, by all its parts, and puts what it saw into the page. What is wrong with an
# answer is reported, and is status 1.
. "$top/tests/lib.sh"

needs python3

mkdir tree tree/docs tools
cp -R "$top/bench" tree/bench
cp "$top/docs/PERFORMANCE.md" tree/docs
# Each command takes two million instructions.
text tools/valgrind '#!/bin/sh' 'echo "==1== Collected : 2000000" >&2'
chmod 755 tools/valgrind
PATH=$PWD/tools:$PATH

# rows PART COUNT: the page has so many rows of this part, heads of tables among them.
section() {
    sed -n "/^<!-- what bench.run $1 wrote begins -->\$/,/^<!-- what bench.run $1 wrote ends -->\$/p" "$2"
}
rows() {
    local found
    found=$(section "$1" tree/docs/PERFORMANCE.md | grep -c '^| ')
    if [ "$found" -eq "$2" ]; then passed; else failed "$last: wanted $2 rows of $1, got $found"; fi
}
# counts COUNT PATTERN FILE: so many lines of the file are like this.
counts() {
    local found
    found=$(grep -c -- "$2" "$3")
    if [ "$found" -eq "$1" ]; then passed; else failed "$last: wanted $1 lines like $2, got $found"; fi
}

parts=(encoding commands growth derivations)
if has cadical; then parts+=(solving); fi
expect 0 tree/bench/run "${parts[@]}" --program "$pbcnf" --size small --runs 1 --instructions --write
says
rows encoding 9
rows commands 26
rows growth 5
rows derivations 15
find_compiler
if [ -n "$compiler" ]; then
    counts 24 '^| .* | 2\.00 M | 2\.00 M | 1\.00 |$' tree/docs/PERFORMANCE.md
    counts 1 '^| refute .* | 0 | 2\.00 M | - |$' tree/docs/PERFORMANCE.md
else
    skip 'there is no C compiler'
fi
counts 1 '>ladder: [0-9.]*<' tree/docs/derivation-bytes.svg
if has cadical; then
    rows solving 3
    expect 0 tree/bench/run solving --program "$pbcnf" --size small
    counts 3 '^| ' "$said"
else
    expect 69 tree/bench/run solving --program "$pbcnf" --size small
    told_of 'solving takes cadical, which is not installed'
fi

# What stands outside of the marks is as it was.
outside() {
    sed '/^<!-- what bench.run [a-z]* wrote begins -->$/,/^<!-- what bench.run [a-z]* wrote ends -->$/d' "$1"
}
outside "$top/docs/PERFORMANCE.md" >before
outside tree/docs/PERFORMANCE.md >behind
same before behind

# A program that sends all to adders and denies all derivations, and one that encodes another problem.
text wrong '#!/bin/sh' 'case $1 in' "encode) exec '$pbcnf' \"\$@\" --budget 1 ;;" \
    "check) echo 'pbcnf: PROOF line 3: not propagated' >&2; exit 7 ;;" "*) exec '$pbcnf' \"\$@\" ;;" esac
text forgets '#!/bin/sh' "exec '$pbcnf' encode '$examples/choice.opb' \"\$3\""
chmod 755 wrong forgets
expect 1 tree/bench/run encoding --program wrong --size small --runs 1
counts 8 '^| .*| not accepted |' "$said"
if [ -n "$compiler" ]; then told_of 'covering 60: the C program writes another CNF'; fi
expect 1 tree/bench/run commands --program wrong --size small --runs 1
told_of 'check of pigeons 8 did not end well'
# Without a C compiler its columns are left out.
link_tools_but cc gcc clang
bare() {
    PATH=$PWD/bin "$@"
}
expect 1 bare tree/bench/run derivations --program wrong --size small
told_of 'there is no C compiler'
counts 14 '^| .* | - |$' "$said"
told_of 'the derivation of counter of 250 is not accepted'
told_of 'counter of 250 is encoded by another family'
if has cadical; then
    expect 1 tree/bench/run solving --program forgets --size small
    told_of 'pigeons 8: the solver ends with 10, and the answer is no'
fi

expect 2 tree/bench/run nothing --program "$pbcnf"
expect 69 tree/bench/run --program no-program
tells 'bench: no-program is not there; ./pbcnf bench 0 0 builds the program'
