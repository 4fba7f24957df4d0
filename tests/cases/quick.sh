# The quick gate of the daily work: what it reads of texts and of a check's words, and how it reports planted edits.
. "$top/tests/lib.sh"

needs python3
for name in "$top"/tests/gate/test_*.py; do
    run_tests "$name"
done

# A copy with six crates, over a kit whose prover proves nothing (tests/building/kit), and with tests that only say how much passed.
kit=$PWD/kit
copy="$PWD/a copy"
cp -R "$top/tests/building/kit" "$kit"
: >"$kit/log"
mkdir -p "$copy/docs/tools" "$copy/tests/cases"
cp "$top"/docs/tools/*.py "$copy/docs/tools"
cp -R "$top/tests/gate" "$top/tests/quick" "$copy/tests"
text "$copy/crates.txt" 'pb_low:' 'pb_left: pb_low' 'pb_right: pb_low' 'pbcnf: pb_left pb_right' 'pbcnf_c staticlib: pb_left' 'pb_test: pb_left'
source_is() {
    mkdir -p "$copy/crates/$1/src" "$copy/crates/$1/edits"
    printf '%s\n' "$3" >"$copy/crates/$1/src/$2.rt"
}
for crate in pb_low pb_left pb_right pbcnf_c; do
    source_is $crate lib "// $crate"
done
source_is pbcnf main '// pbcnf'
source_is pb_test lib '#[test]'
: >"$copy/crates/pb_low/edits/one.edit"
: >"$copy/crates/pb_left/edits/one.edit"
: >"$copy/tests/cases/some.sh"
: >"$copy/tests/cases/quick.sh"
program() {
    text "$copy/tests/$1" '#!/bin/sh' "echo \"$1 \$*\" >>'$kit/log'" "echo '$2'" "exit $3"
    chmod 755 "$copy/tests/$1"
}
program run '5 passed, 0 failed, 0 skipped' 0
program edits '1 passed, 0 failed' 0
git_of() {
    git -C "$copy" -c user.name=x -c user.email=x@x -c init.defaultBranch=x "$@" >"$state/git" 2>&1
}
quick() {
    PATH=$kit/bin:$PATH "$copy/tests/quick" "$@"
}

# done_with LINE..: what was done since the last look, in any order; and the last line is the first of these.
done_with() {
    tail -n 1 "$said" >ended
    sed -n '/^begin/d; s/^edits .* \(.*\)/edits \1/; s/^run .*/run/; p' "$kit/log" | sort >steps
    : >"$kit/log"
    holds ended "$1 (this is not the gate: .ci/run is)"
    shift
    holds steps "$@"
}

# said_of WORD: the last command has a line with this word on standard output.
said_of() {
    if grep -q -- "$1" "$said"; then passed; else failed "$last: wanted a line with $1, got $(bytes_of "$said")"; fi
}

# Without git nothing shows at first what changed. Words name it.
expect 2 quick no_crate
tells 'quick: crates.txt names no crate no_crate'
expect 2 quick
tells 'quick: git does not tell what changed: name the crates'
expect 0 quick --plan pb_right
said_of '^quick: to prove over kept work: none; from nothing: pb_left pb_low pb_right pbcnf$'
expect 0 quick pb_right
done_with '9 passed, 0 failed' 'end pb_left' 'end pb_low' 'end pb_right' 'end pbcnf' run
head -n 1 "$said" >first
holds first 'quick: this is not the gate: .ci/run is'

if ! has git; then
    skip 'there is no git'
    exit 0
fi
text "$copy/.gitignore" '/crates/*/out/'
git_of init && git_of add -A && git_of commit -m all

# Nothing changed: the program is tested, and that is all.
expect 0 quick
done_with '5 passed, 0 failed' run

# What changed, and what is above, is proved, and its edits are tried; what was noted then counts, and no commit.
source_is pb_left lib '// pb_left, otherwise'
expect 0 quick
done_with '8 passed, 0 failed' 'edits pb_left' 'end pb_left' 'end pbcnf' run
said_of '^quick: left out: the tests of pb_test: --tests runs them'
said_of '^quick: left out: pbcnf_c, which was never built here$'
expect 0 quick
done_with '5 passed, 0 failed' run
git_of commit -a -m more
source_is pb_left lib '// pb_left, once more'
git_of commit -a -m more
mkdir -p "$copy/crates/pbcnf_c/out/incremental"
expect 0 quick --tests
done_with '10 passed, 0 failed' 'edits pb_left' 'end pb_left' 'end pbcnf' 'end pbcnf_c' run test

# An edit that is not refused: its crate counts as changed until it is. The tests of the program are run each time.
printf '# another\n' >"$copy/crates/pb_low/edits/one.edit"
program edits 'FAILED pb_low/one: PROVED: not refused' 1
expect 1 quick
done_with '5 passed, 1 failed' 'edits pb_low' run
said_of '^FAILED pb_low/one: PROVED'
program edits '1 passed, 0 failed' 0
program run '4 passed, 1 failed, 0 skipped' 1
expect 1 quick
done_with '5 passed, 1 failed' 'edits pb_low' run
program run '5 passed, 0 failed, 0 skipped' 0
expect 0 quick
done_with '5 passed, 0 failed' run

# A crate that is not proved: what needs it is reported as not done, and fails.
source_is pb_left lib '// wrong'
expect 1 quick
done_with '0 passed, 5 failed'
said_of '^quick: NOT PROVED pb_left, in'
said_of '^quick: NOT DONE edits of pb_left: what it needs failed$'
said_of '^quick: NOT DONE pbcnf: what it needs failed$'
source_is pb_left lib '// right'
expect 0 quick pb_left
done_with '9 passed, 0 failed' 'edits pb_left' 'end pb_left' 'end pbcnf' 'end pbcnf_c' run

# What the steps took can be kept for the next plan, and for the table of what each command costs.
source_is pb_left lib '// pb_left, measured'
expect 0 quick --measure
sed 's/: [0-9]\{1,\}/: N/g' "$copy/docs/tools/quick_seconds.json" >seconds
holds seconds '{' '"pb_left": {"again": N, "edits": N},' '"pbcnf": {"again": N},' '"pbcnf_c": {"again": N},' '"tests/run": {"tests": N}' '}'
cp "$top/docs/tools/costs" "$copy/docs/tools"
text "$copy/CONTRIBUTING.md" before '' '| crate | lines |' '|---|---|' '| an old one | 1 |' '' behind
expect 0 "$copy/docs/tools/costs" --write
cut -d'|' -f1,2 "$copy/CONTRIBUTING.md" | sed 1,4d >page
holds page '| `pb_low` ' '| `pb_left` ' '| `pb_right` ' '| `pb_test` ' '| `pbcnf_c` ' '| `pbcnf` ' '' behind

# One that is ended ends what it began, and leaves no stamp.
source_is pb_left lib '// long'
: >"$kit/log"
quick >first &
first=$!
wait_until ended_or $first grep -q 'begin pb_left' "$kit/log"
kill -TERM $first
wait $first
expect 0 test $? -eq 143
absent "$copy/crates/pb_left/out/rlib/stamp"

needs rt
expect 2 "$top/tests/edits" no_crate
says

# Edits of a crate whose check is small, which has to be proved here: one is right in other words, one only renames what a proof
# cites, one is wrong, one does not compile, and the old text of one occurs twice.
text right.edit 'file: src/grid.rt' \
    'old:         place_at(self.terms.len(), self.width, number)' \
    'new:         let at = number; place_at(self.terms.len(), self.width, at)'
text renamed.edit 'file: src/derivation.rt' \
    'old:         let seen = number / self.grid.width + 1;' \
    'new:         let rows = number / self.grid.width + 1;' \
    'old:         derive_reification(alloc, var, &self.grid.terms[..seen], least as u128, sink)' \
    'new:         derive_reification(alloc, var, &self.grid.terms[..rows], least as u128, sink)'
text wrong.edit 'file: src/grid.rt' \
    'old:         self.width + (self.terms.len() - 2) * (2 * self.width + 1) + 1' \
    'new:         self.width + (self.terms.len() - 2) * (2 * self.width + 1) + 2'
text unread.edit 'file: src/grid.rt' \
    'old:         (self.terms.len() - 1) * self.width' \
    'new:         (self.terms.len() - 1) * self.breadth'
text twice.edit 'file: src/grid.rt' 'old: self.width' 'new: self.breadth'
status=0
"$top/tests/edits" pb_counter ./*.edit >"$said" 2>"$told" || status=$?
if [ "$status" -eq 2 ]; then
    skip "planted edits: $(tail -n 1 "$told")"
    exit 0
fi
sed '/processor time/d; s/^\(\(FAILED \)\{0,1\}[^:]*: [A-Za-z ]*\).*/\1/' "$said" | sort >kinds
holds kinds '1 passed, 4 failed' \
    'FAILED pb_counter/renamed: ONLY RENAMES' \
    'FAILED pb_counter/right: PROVED' \
    'FAILED pb_counter/twice: NOT READ' \
    'FAILED pb_counter/unread: NOT READ' \
    'pb_counter/wrong: refused'
