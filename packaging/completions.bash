# Completion of snomon, snomon-listing, snomon-site, snomon-parts and snomon-deck for bash: what their help names, and files.

# _snomon_words COMMAND..: the options and the commands that its help names.
_snomon_words() {
    "$@" --help 2>&1 | sed -n -e 's/^ *\(-[a-zA-Z], \)\{0,1\}\(--[a-z-]*\).*/\2/p' -e 's/^  *\([a-z][a-z]*\)  .*/\1/p' -e 's/^    \([a-z][a-z]*\)$/\1/p'
}

_snomon() {
    local word=${COMP_WORDS[COMP_CWORD]} command=("${COMP_WORDS[0]}")
    if ((COMP_CWORD > 1)) && [[ ${COMP_WORDS[1]} =~ ^[a-z]+$ ]] && _snomon_words "${command[@]}" | grep -qx -- "${COMP_WORDS[1]}"; then
        command+=("${COMP_WORDS[1]}")
    fi
    COMPREPLY=()
    if [[ $word == -* ]] || ((COMP_CWORD == 1 && ${#command[@]} == 1)); then
        mapfile -t COMPREPLY < <(compgen -W "$(_snomon_words "${command[@]}")" -- "$word")
    fi
}
complete -o default -F _snomon snomon snomon-listing snomon-site snomon-parts snomon-deck
