# Completes what COMMAND --help lists: subcommands, options, and the values of an option where it names them. zsh reads this, too.
_FUNCTION() {
    local word=${COMP_WORDS[COMP_CWORD]} before=${COMP_WORDS[COMP_CWORD - 1]} first=${COMP_WORDS[1]} help words
    [ "$COMP_CWORD" -gt 1 ] || first=
    help=$(COMMAND ${first##-*} --help 2>&1)
    words=$(printf '%s\n' "$help" | sed -n "s/^ .*$before[ =<].*\[possible values: \(.*\)\].*/\1/p; s/^ .*$before {\([^}]*\)}.*/\1/p" | tr -d ' ' | tr , ' ')
    if [ -z "$words" ] && printf '%s\n' "$help" | grep -q -- "^ .*$before[ =]<\{0,1\}[A-Z]"; then
        COMPREPLY=($(compgen -f -- "$word"))
        return
    fi
    words=${words:-$(printf '%s\n' "$help" | sed -n '/^Commands:/,/^$/s/^  \([a-z]*\).*/\1/p; /^[Oo]ption[a-z ]*:/,$p' | grep -o -- '^[a-z][a-z]*$\|--[a-z][a-z-]*' | sort -u)}
    COMPREPLY=($(compgen -W "$words" -- "$word"))
}
complete -F _FUNCTION COMMAND
