# Completion for bash of the words of carbink: its commands, and the options of gen. After < come files.
_carbink() {
    local word=${COMP_WORDS[COMP_CWORD]} before=${COMP_WORDS[COMP_CWORD - 1]} given option
    COMPREPLY=()
    case $before in
    '<' | '>' | '2>' | '>>')
        compopt -o filenames
        mapfile -t COMPREPLY < <(compgen -f -- "$word")
        return
        ;;
    --seed | --lines | --lanes) return ;;
    esac
    if [ "$COMP_CWORD" = 1 ]; then
        mapfile -t COMPREPLY < <(compgen -W "seq threads local check gen rma scrub map" -- "$word")
    elif [ "${COMP_WORDS[1]}" = gen ]; then
        given=" ${COMP_WORDS[*]} "
        for option in --seed --lines --lanes; do
            [[ $given = *" $option "* ]] || mapfile -t -O ${#COMPREPLY[@]} COMPREPLY < <(compgen -W "$option" -- "$word")
        done
    fi
}
complete -F _carbink carbink
