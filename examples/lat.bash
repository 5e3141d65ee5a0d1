# Completions of lat's words for bash: its commands, and behind `help` a command.
#
#     . examples/lat.bash
_lat() {
    local commands='audit bench capture choose draw gen help pcap replay settle show trace'
    COMPREPLY=()
    case $COMP_CWORD in
        1) mapfile -t COMPREPLY < <(compgen -W "$commands --help --version" -- "${COMP_WORDS[1]}") ;;
        2) [ "${COMP_WORDS[1]}" = help ] && mapfile -t COMPREPLY < <(compgen -W "${commands/help /}" -- "${COMP_WORDS[2]}") ;;
    esac
    return 0
}
complete -F _lat lat
