# Completions of mercator for bash. Commands and options come from `mercator --help`.

# _mercator_commands: prints the lines of the help about commands.
_mercator_commands() {
    "${COMP_WORDS[0]}" --help 2> /dev/null | sed -n '/^Commands:$/,/^$/p'
}

# _mercator_options COMMAND: prints the lines of the help about options, which have several headings.
_mercator_options() {
    "${COMP_WORDS[0]}" "$1" --help 2> /dev/null | grep -E '^ +(-h, )?--'
}

_mercator() {
    local word=${COMP_WORDS[COMP_CWORD]} before=${COMP_WORDS[COMP_CWORD - 1]} command=${COMP_WORDS[1]}
    local commands options names value=
    COMPREPLY=()
    if [ "$COMP_CWORD" -eq 1 ] || [ "$command" = help ]; then
        commands=$(_mercator_commands | sed -n 's/^  \([a-z]*\) .*/\1/p')
        [ "$command" = help ] && [ "$COMP_CWORD" -gt 1 ] || commands+=" --help --version"
        mapfile -t COMPREPLY < <(compgen -W "$commands" -- "$word")
        return
    fi
    options=$(_mercator_options "$command")
    if [[ $before =~ ^--[a-z-]+$ ]]; then
        value=$(sed -n "s/^ *$before <\(.*\)> .*/\1/p" <<< "$options")
    fi
    case $value in
    FILE | LIST | NEW) ;;
    ?*) return ;;
    *)
        if [[ $word == -* ]]; then
            names=$(sed -n 's/^ *\(-h, \)*\(--[a-z-]*\) .*/\2/p' <<< "$options")
            mapfile -t COMPREPLY < <(compgen -W "$names" -- "$word")
            return
        fi
        ;;
    esac
    compopt -o filenames 2> /dev/null
    mapfile -t COMPREPLY < <(compgen -f -- "$word")
}

complete -F _mercator mercator
