# Completion of the words of pbcnf, and of the commands over solvers, in bash.

_pbcnf() {
    local word=${COMP_WORDS[COMP_CWORD]} before=${COMP_WORDS[COMP_CWORD-1]} command=${COMP_WORDS[1]-}
    local script=${COMP_WORDS[0]##*/}
    # With `=` among the breaks of words, `--amo=l` comes as three words.
    [ "$word" = = ] && word=
    [ "$before" = = ] && before=${COMP_WORDS[COMP_CWORD-2]}
    COMPREPLY=()
    # A script goes by its own name in place of a first word.
    if [[ $script == pbcnf-* ]]; then
        command=$script
    elif [ "$COMP_CWORD" -eq 1 ]; then
        mapfile -t COMPREPLY < <(compgen -W 'encode wcnf check refute decode optimum map probe bench' -- "$word")
        return
    fi
    case $before in
    --amo) mapfile -t COMPREPLY < <(compgen -W 'auto pairwise ladder product' -- "$word"); return ;;
    --card) mapfile -t COMPREPLY < <(compgen -W 'auto counter totalizer' -- "$word"); return ;;
    --general) mapfile -t COMPREPLY < <(compgen -W 'diagram tree adder' -- "$word"); return ;;
    --encoding) mapfile -t COMPREPLY < <(compgen -W 'auto plain' -- "$word"); return ;;
    --equal) mapfile -t COMPREPLY < <(compgen -W 'split joint' -- "$word"); return ;;
    --budget | --at-most | --at-most-minus | --seconds | --count | --jobs) return ;;
    --solver) mapfile -t COMPREPLY < <(compgen -c -- "$word"); return ;;
    esac
    if [[ $word == -* ]]; then
        local options= encoding='--amo --card --general --equal --budget' run='--solver --seconds --tidy --help --version'
        case $command in
        encode) options="$encoding --table --at-most= --at-most-minus=" ;;
        wcnf) options="$encoding --at-most= --at-most-minus=" ;;
        pbcnf-solve) options="$encoding --encoding --at-most= --at-most-minus= --count --all --unproved $run" ;;
        pbcnf-minimize | pbcnf-cheapest) options="$encoding --encoding --jobs --keep --quiet --unproved $run" ;;
        pbcnf-core) options="$encoding --keep $run" ;;
        pbcnf-hints) options='--help --version' ;;
        pbcnf-tidy) options='--keep --help --version' ;;
        pbcnf-veripb) options='--clauses --hints --help' ;;
        check | refute | decode) options='--at-most= --at-most-minus=' ;;
        esac
        mapfile -t COMPREPLY < <(compgen -W "$options" -- "$word")
        [[ ${COMPREPLY[0]-} == *= ]] && compopt -o nospace
        return
    fi
    case $command in
    encode | wcnf | check | refute | decode | optimum | map | probe | bench | pbcnf-*)
        mapfile -t COMPREPLY < <(compgen -f -- "$word")
        compopt -o filenames
        ;;
    esac
}

complete -F _pbcnf pbcnf pbcnf-cheapest pbcnf-core pbcnf-hints pbcnf-minimize pbcnf-solve pbcnf-tidy pbcnf-veripb
