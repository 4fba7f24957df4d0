# Each function has a clause that says what it answers, and each public one is run by a test, or it is on a list with the reason why not.
. "$top/tests/lib.sh"

needs python3

# listed WORD: the functions that the tool last printed after this word are those of its list.
listed() {
    sed "/^#/d; /^\$/d; s/^/$1 /" "$top/tests/data/$1" | sort >due
    grep "^$1 " "$said" | sort >found
    same due found
}

expect 0 "$top/tests/contracts"
listed free
listed unrun

# A function that loses its clause, an impl that says nothing of its values, and a new function are reported.
copy="$PWD/a copy"
mkdir -p "$copy/crates/pb_x/src" "$copy/crates/tests_x/src"
text "$copy/crates.txt" 'pb_x:' 'tests_x: pb_x'
text "$copy/crates/tests_x/src/lib.rt" 'fn half(x: u8) -> u8 { x / 2 }'
lines=(
    'pub trait Desk { fn say(&self) -> u8 ensures { result ≡ 0 }; fn note(&self); }'
    'struct Told(u8);'
    'impl Desk for Told { ghost state = { λ desk. None }; fn say(&self) -> u8 { 0 } fn note(&self) {} }'
    'impl fmt::Display for Told { fn fmt(&self) -> u8 { 1 } }'
    'fn half(x: u8) -> u8 requires { 0 < x } { x / 2 } // ensures { result ≡ x / 2 }'
)
text "$copy/crates/pb_x/src/lib.rt" "${lines[@]}"
expect 0 "$top/tests/contracts" "$copy"
says 'free pb_x ToldDesk.say' 'free pb_x ToldDesk.note' 'free pb_x ToldDisplay.fmt' 'free pb_x half'

lines[2]=${lines[2]/None/Some desk}
lines[3]=${lines[3]/fn/ghost output = \{ λ told. Some [] \}; fn}
lines[4]='fn half(x: u8) -> u8 ensures { result ≡ x / 2 } { x / 3 }'
text "$copy/crates/pb_x/src/lib.rt" "${lines[@]}"
expect 0 "$top/tests/contracts" "$copy"
says 'free pb_x ToldDesk.note'
expect 2 "$top/tests/contracts" "$PWD"
says

# So is a public function that tests run no more: neither a crate of tests, nor one of the C library that names its call. What tests name
# runs what it names itself. A function that others cannot call, and a law, which does nothing, need no test.
mkdir "$copy/tests" "$copy/tests/library"
lines=(
    'pub fn whole() -> u8 ensures { result ≡ 1 } { 2 * part() }'
    'pub fn part() -> u8 ensures { result ≡ 1 } { pbcnf_half() }'
    'pub extern "C" fn pbcnf_half() -> u8 ensures { result ≡ 1 } { 1 }'
    'pub(crate) fn inner() -> u8 ensures { result ≡ 1 } { 1 }'
    'pub fn law() ensures { 1 ≡ 1 } {}'
)
text "$copy/crates/pb_x/src/lib.rt" "${lines[@]}"
expect 0 "$top/tests/contracts" "$copy"
says 'unrun pb_x whole' 'unrun pb_x part' 'unrun pb_x pbcnf_half'
text "$copy/tests/library/calls.c" 'int main(void) { return whole() + pbcnf_half(); }'
expect 0 "$top/tests/contracts" "$copy"
says 'unrun pb_x whole' 'unrun pb_x part'
text "$copy/crates/tests_x/src/lib.rt" '// inner, whole' 'fn half(x: u8) -> u8 { x / part() }'
expect 0 "$top/tests/contracts" "$copy"
says 'unrun pb_x whole'
