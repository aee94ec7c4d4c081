# Completions of the program `sheet` for bash.
_sheet() {
    local words
    # a file may follow here
    if [ "${COMP_WORDS[COMP_CWORD - 1]}" = --keep ]; then
        mapfile -t COMPREPLY < <(compgen -f -- "$2")
        return
    fi
    case "${COMP_WORDS[1]}" in
        run) words='--workers --replica --squash --explain --strict --keep -h --help' ;;
        table) words='--workers --entries --explain -h --help' ;;
        serve) words='--port --sessions --seats --wait --idle --explain --keep --title --workers --replica --squash -h --help' ;;
        sync) words='--from --to --explain -h --help' ;;
        join) words='--from --to --with --lines --once --check --explain -h --help' ;;
        follow) words='--from --after --until-now --every --explain -h --help' ;;
        talk) words='--to --explain -h --help' ;;
        squash) words='--keep --until --without -h --help' ;;
        help) words='run table serve sync join follow talk squash' ;;
    esac
    [ "$COMP_CWORD" -gt 1 ] || words='run table serve sync join follow talk squash help -h --help -V --version'
    mapfile -t COMPREPLY < <(compgen -W "$words" -- "$2")
}
complete -F _sheet sheet
