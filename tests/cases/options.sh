# The commands, options, values and statuses that the pages, the manual, the completion, the launcher's help and the header have are those of
# the program.
. "$top/tests/lib.sh"

"$top/pbcnf" --help >help
pages=("$top/README.md" "$top/docs/FORMATS.md" "$top/docs/pbcnf.1" help)

# A page without what only its format wants.
plain() {
    sed 's/\\-/-/g; s/\\|/|/g; s/"//g; s/  */ /g' "$1"
}

# True if the program takes these words. None of the names among them is a file.
takes() {
    "$pbcnf" "$@" >"$state/words" 2>&1
    [ $? -ne 2 ]
}

# name_all COMMAND: sets $names to as many as the command has, or to the two numbers of `bench`.
name_all() {
    local count
    names=(0 0)
    for count in 1 2 3 4 5; do
        ! takes "$@" "${names[@]}" || return 0
        names=(a b c d e)
        names=("${names[@]:0:count}")
    done
}

# The options that any page knows, and the values: the words between bars.
for page in "${pages[@]}" "$top/docs/pbcnf.bash"; do plain "$page"; done >pages
grep -o -- '--[a-z][a-z-]*' pages | sort -u >options
{ grep -o '[a-z]*|[a-z|]*' pages | tr '|' '\n'; sed -n "s/.*compgen -W '\([a-z ]*\)'.*/\1/p" "$top/docs/pbcnf.bash" | tr ' ' '\n'; } |
    sort -u | grep . >values

# The command takes just the options that are offered.
completed pbcnf ''
cp "$said" commands
expect 0 grep -x encode commands
sed -n 's/^  \([a-z][a-z]*\) .*/\1/p' help >helped
same commands helped
while read -r command; do
    name_all "$command"
    while read -r option; do
        for value in '' =1 =auto =diagram =split; do
            if takes "$command" "${names[@]}" "$option$value"; then
                printf '%s\n' "$option"
                break
            fi
        done
    done <options >taken
    completed pbcnf "$command" --
    sed 's/=$//; /^$/d' "$said" | sort >offered
    same taken offered
done <commands

# values_on PAGE OPTION: those between the bars after the option.
values_on() {
    plain "$1" | grep -o -- "$2 [a-z]*|[a-z|]*" | head -n 1 | cut -d ' ' -f 2 | tr '|' '\n'
}

# Each option with a list of values takes just those of each page, and just those are offered.
for option in --amo --card --general --equal; do
    while read -r value; do
        ! takes encode a b "$option=$value" || printf '%s\n' "$value"
    done <values >taken
    completed pbcnf encode $option ''
    sort "$said" >offered
    same taken offered
    for page in "${pages[@]}"; do
        last="the values of $option in ${page#"$top/"}"
        values_on "$page" $option | sort >offered
        same taken offered
    done
done

# What each status comes for, by words of which each page has one.
causes=('done' 'grammar|syntax' 'usage|command line|words are none|numbers passed' 'limit' 'read' 'written|room' 'memory'
    'step of the derivation|derivation is rejected' 'violate' 'model' 'refutation')
statuses_of() {
    case $1 in
    *.md) sed '/^| [0-9]/s/ | \([0-9][0-9]* | \)/\n| \1/' "$1" | sed -n 's/^| \([0-9][0-9]*\) | /\1 /p' ;;
    *.1) sed -n 's/^\([0-9]*\)|/\1 /p' "$1" ;;
    help) tr '\n' ' ' <"$1" | sed 's/.*Exit status: //; s/\. .*//; s/, /\n/g' ;;
    *.h) sed -n '/ PBCNF_DONE = /,/^};/s/^  PBCNF_\([A-Z_]*\) = \([0-9]*\)/\2 \1/p' "$1" | tr '[:upper:]_' '[:lower:] ' ;;
    esac
}
for page in "${pages[@]}" "$top/library/pbcnf.h"; do
    statuses_of "$page" >found
    wrong=
    for status in "${!causes[@]}"; do
        if [ "$(grep -c "^$status " found)" -ne 1 ] || ! grep "^$status " found | grep -Eq "${causes[status]}"; then
            wrong+=" $status (${causes[status]})"
        fi
    done
    if [ -z "$wrong" ]; then passed; else failed "${page#"$top/"}: it has no such line, or several, of the statuses$wrong"; fi
done
