# What the cases share. Each begins by sourcing it, in a new folder, with these names from tests/run: $pbcnf the program, $top the
# top of the repository, $linked the folder of the C library, $work the folder of the whole run, $subject the case's name.
#
# A check is a line of the tally, `passed`, `failed` or `skipped`; the last two have a line in the report too. Where a command did not end
# as it should, that is the check that failed: what is well after it says nothing, and does not count, up to the next command.
set -u

state=$work/state
said=$state/said
told=$state/told
examples=$top/examples
last=
went_well=yes

passed() {
    [ -z "$went_well" ] || printf 'passed\n' >>"$state/tally"
}

failed() {
    printf 'failed\n' >>"$state/tally"
    printf 'FAILED %s: %s\n' "$subject" "$*" >>"$state/report"
    # Of a program that is wrong on purpose the first failure is enough.
    [ -z "${until_failed-}" ] || exit 1
}

# Counts how a command ended, for what is checked after it.
ended_well() {
    went_well=yes
    passed
}

ended_ill() {
    went_well=
    failed "$@"
}

# Says why a check is not made.
skip() {
    printf 'skipped\n' >>"$state/tally"
    printf 'skipped %s: %s\n' "$subject" "$*" >>"$state/report"
}

# True if there is this tool.
has() {
    command -v "$1" >/dev/null
}

# Ends the case where a tool is missing.
needs() {
    local tool
    for tool in "$@"; do
        if ! has "$tool"; then
            skip "there is no $tool"
            exit 0
        fi
    done
}

# Sets $compiler to the name of a C compiler, or to nothing.
find_compiler() {
    for compiler in cc gcc clang ''; do
        if [ -z "$compiler" ] || has $compiler; then return; fi
    done
}

# Ends the case where there is none.
needs_compiler() {
    find_compiler
    if [ -z "$compiler" ]; then
        skip 'there is no C compiler'
        exit 0
    fi
}

# wait_until CMD..: waits until the command succeeds, for five minutes at most.
wait_until() {
    local turn
    for turn in {1..3000}; do
        ! "$@" 2>"$state/waits" || return 0
        sleep 0.1
    done
    return 1
}

# True if no process of this number runs. One that has ended, and that nobody has asked about, does not.
has_ended() {
    ! kill -0 "$1" 2>"$state/kill" || grep -q '^State:.*Z' "/proc/$1/status" 2>"$state/kill"
}

# ended_or PROCESS CMD..: whether the process has ended, or the command succeeds. So nothing is waited for that cannot come any more.
ended_or() {
    has_ended "$1" || "${@:2}"
}

# The program.
pb() {
    "$pbcnf" "$@"
}

# limited LIMIT.. -- CMD..: runs the command within these limits, in the words of prlimit. No shell is within them, since it may want for
# memory itself; and no environment, which would take a part of them, but the deed of the case `edge`.
limited() {
    env -i "PATH=$PATH" "WRONG_DEED=${WRONG_DEED-}" prlimit "$@"
}

# The words of a command, for a report.
shown() {
    local word
    for word in "$@"; do
        [ ${#word} -le 60 ] || word=${word:0:57}...
        printf '%q ' "$word"
    done
}

# The first bytes of a file, for a report.
bytes_of() {
    if [ -e "$1" ]; then
        printf '"%s"' "$(head -c 300 -- "$1" | tr '\n' '|' | cat -v)"
    else
        printf 'no file'
    fi
}

# expect STATUS CMD..: runs the command, keeps both its outputs, in $said and $told, and checks its exit status.
expect() {
    local wanted=$1 got
    shift
    last=$(shown "$@")
    "$@" >"$said" 2>"$told"
    got=$?
    if [ "$got" -eq "$wanted" ]; then
        ended_well
    else
        ended_ill "$last: wanted the status $wanted, got $got; it told $(bytes_of "$told")"
    fi
}

# is FILE WHAT LINE..: the file has just these lines.
is() {
    local file=$1 what=$2
    shift 2
    text "$state/due" "$@"
    if cmp -s -- "$state/due" "$file"; then
        passed
    else
        failed "$last: $what: wanted $(bytes_of "$state/due"), got $(bytes_of "$file")"
    fi
}

# says LINE..: the last command has said just these lines on standard output.
says() {
    is "$said" 'standard output' "$@"
}

# tells LINE..: and just these on standard error.
tells() {
    is "$told" 'standard error' "$@"
}

# holds FILE LINE..: the file has just these lines.
holds() {
    is "$1" "the file $1" "${@:2}"
}

# same FILE FILE..: all have the bytes of the first.
same() {
    local one=$1 other
    shift
    for other in "$@"; do
        if cmp -s -- "$one" "$other"; then
            passed
        else
            failed "$last: the file $other: wanted $(bytes_of "$one"), got $(bytes_of "$other")"
        fi
    done
}

# absent NAME..: nothing is there by these names.
absent() {
    local name
    for name in "$@"; do
        if [ -e "$name" ] || [ -L "$name" ]; then failed "$last: wanted no file $name, got one"; else passed; fi
    done
}

# fault STATUS LINE WORD..: the program ends with this status, prints nothing, and just this line on standard error.
fault() {
    local status=$1 line=$2 got
    shift 2
    last=$(shown pb "$@")
    pb "$@" >"$said" 2>"$told"
    got=$?
    text "$state/due" "pbcnf: $line"
    if [ "$got" -eq "$status" ] && [ ! -s "$said" ] && cmp -s -- "$state/due" "$told"; then
        ended_well
    else
        ended_ill "$last: wanted the status $status and $line, got $got; it told $(bytes_of "$told") and said $(bytes_of "$said")"
    fi
}

# well CMD..: the command ends with 0, prints something, and nothing on standard error.
well() {
    local got
    last=$(shown "$@")
    "$@" >"$said" 2>"$told"
    got=$?
    if [ "$got" -eq 0 ] && [ -s "$said" ] && [ ! -s "$told" ]; then
        ended_well
    else
        ended_ill "$last: wanted the status 0 and words, got $got; it told $(bytes_of "$told") and said $(bytes_of "$said")"
    fi
}

# fine WORD..: so does the program, but that `map` says nothing where there is no free name.
fine() {
    if [ "$1" = map ]; then
        expect 0 pb "$@"
        tells
    else
        well pb "$@"
    fi
}

# installs PREFIX: has ./install put program and library below PREFIX. False, and skipped, where neither of these sources is there.
installs() {
    local got
    "$top/install" "$1" >"$said" 2>"$told"
    got=$?
    if [ $got -eq 0 ] && [ -f "$1/lib/libpbcnf.a" ]; then
        passed
        return
    elif [ $got -eq 0 ] || [ $got -eq 69 ]; then
        skip "$(head -n 1 "$told")"
    else
        failed "./install: wanted the status 0, got $got; it told $(bytes_of "$told")"
    fi
    return 1
}

# text FILE LINE..: makes a file of these lines.
text() {
    if [ $# -eq 1 ]; then : >"$1"; else printf '%s\n' "${@:2}" >"$1"; fi
}

# The two lines that are said of V variables and C clauses, where each constraint is a clause.
clauses_alone() {
    says "variables $1 original $1 fresh 0 clauses $2" \
        "nothing 0 empty 0 clause $2 pairwise 0 ladder 0 product 0 counter 0 totalizer 0 diagram 0 tree 0 adder 0"
}

# Ends the case where this copy of the program, in a folder of ours, cannot be run, as a user if one is given.
needs_to_run() {
    if ! "$@" bench 1 0 >"$said" 2>"$told"; then
        skip "no program can be run among the temporary files: $(bytes_of "$told")"
        exit 0
    fi
}

# Has as_user run a copy of the program as a user who is not root, so that rights count.
leave_root() {
    unprivileged=()
    cp -- "$pbcnf" program && chmod 755 program
    if [ "$(id -u)" -eq 0 ]; then
        needs setpriv
        unprivileged=(setpriv --reuid=65534 --regid=65534 --clear-groups --no-new-privs)
    fi
    needs_to_run as_user
}

as_user() {
    "${unprivileged[@]}" "$PWD/program" "$@"
}

# Fills the folder bin with all tools that are on the path, but these.
link_tools_but() {
    local folder folders
    mkdir bin
    IFS=: read -ra folders <<<"$PATH"
    for folder in "${folders[@]}"; do
        [ ! -d "$folder" ] || find "$folder/" -maxdepth 1 \( -type f -o -type l \) -exec ln -s -t bin -- {} + 2>"$state/ln"
    done
    (cd bin && rm -f -- "$@")
}

# told_of WORD: the last command has a line with this word on standard error.
told_of() {
    if grep -q -- "$1" "$told"; then passed; else failed "$last: wanted a line with $1, got $(bytes_of "$told")"; fi
}

# run_tests FILE [CLASS ..]: each test of this file in Python, or of these classes in it, is a check; one that is skipped has its reason.
run_tests() {
    local line
    last=${1##*/}
    python3 "$1" -v "${@:2}" >"$said" 2>"$told" || failed "$last: it ended with $?: $(tail -n 12 "$told" | tr '\n' '|')"
    while IFS= read -r line; do
        case $line in
        *' ... ok' | ok) passed ;;
        *' ... skipped '*) skip "$line" ;;
        *' ... FAIL' | *' ... ERROR') failed "$last: $line" ;;
        esac
    done <"$told"
}

# refutes CNF LRAT: has CaDiCaL refute these clauses, and makes LRAT of the reasons that it writes.
refutes() {
    cadical -q --no-binary "$1" "$state/drat" >"$state/solver"
    expect 0 "$examples/hints" "$1" "$state/drat"
    cp -- "$said" "$2"
}

# completed WORD..: keeps what the completion for bash offers for the last of these words, one a line.
completed() {
    compopt() { :; }
    . "$top/docs/pbcnf.bash"
    COMP_WORDS=("$@")
    COMP_CWORD=$(($# - 1))
    _pbcnf 2>/dev/null
    printf '%s\n' "${COMPREPLY[@]}" >"$said"
    last=$(shown "$@")
}
