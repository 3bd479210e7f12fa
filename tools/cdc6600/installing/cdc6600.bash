# Completes the words of cdc6600 in bash.
_cdc6600() {
    local current=${COMP_WORDS[COMP_CWORD]} before=${COMP_WORDS[COMP_CWORD - 1]} words=
    COMPREPLY=()
    case $before in
        --budget | [\<\>]*) return ;;
    esac
    case ${COMP_WORDS[1]} in
        run) words='--sequential --budget -h --help' ;;
        replay) words='--log-follows -h --help' ;;
        events) words='--budget -h --help' ;;
        list) words='-h --help' ;;
        help) words='run replay events list' ;;
    esac
    if [ "$COMP_CWORD" -eq 1 ]; then
        words='run replay events list help -h --help -V --version'
    elif [ "${current#-}" = "$current" ] && [ "${COMP_WORDS[1]}" != help ]; then
        return
    fi
    mapfile -t COMPREPLY < <(compgen -W "$words" -- "$current")
}
complete -o default -F _cdc6600 cdc6600
