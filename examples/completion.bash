# Completion for bash, from what `bank help` prints: source this file, or install it as
#
#     install -m 644 examples/completion.bash /usr/share/bash-completion/completions/bank
#
# It completes the commands, the options of the one that is given, and files.
_bank() {
    local word="${COMP_WORDS[COMP_CWORD]}" program="${COMP_WORDS[0]}" found
    if ((COMP_CWORD == 1)) || { ((COMP_CWORD == 2)) && [ "${COMP_WORDS[1]}" = help ]; }; then
        found="$("$program" help 2>/dev/null | sed -n '/^Commands:/,/^$/s/^  \([a-z]\{1,\}\) .*/\1/p')"
        if ((COMP_CWORD == 1)); then found="$found --help --version"; else found="$found faults"; fi
    elif [[ "$word" == -* ]]; then
        found="$("$program" help "${COMP_WORDS[1]}" 2>/dev/null | sed -n 's/^ \{2,6\}\(-[a-zA-Z], \)\{0,1\}\(--[a-z]\{1,\}\).*/\2/p')"
    else
        return
    fi
    COMPREPLY=($(compgen -W "$found" -- "$word"))
}
complete -o default -F _bank bank
