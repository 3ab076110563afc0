# Completion of gablecumin for bash.
_gablecumin() {
    local word=${COMP_WORDS[COMP_CWORD]}
    COMPREPLY=()
    if [ "$COMP_CWORD" = 1 ]; then
        mapfile -t COMPREPLY < <(compgen -W 'list format show check build make replay wire trial rollback on fleet' -- "$word")
        return
    fi
    if [ "${COMP_WORDS[1]}" = on ]; then
        case $COMP_CWORD in
            2) mapfile -t COMPREPLY < <(compgen -W '1 2 3 4 5 6 7 8' -- "$word") ;;
            3) mapfile -t COMPREPLY < <(compgen -W 'list format rollback' -- "$word") ;;
        esac
        return
    fi
    if [ "${COMP_WORDS[1]}" = fleet ] && [ "$COMP_CWORD" = 2 ]; then
        mapfile -t COMPREPLY < <(compgen -W '2 3 4 5 6 7 8' -- "$word")
        return
    fi
    case ${COMP_WORDS[1]} in
        show) mapfile -t COMPREPLY < <(compgen -f -- "$word" | grep -E '\.(LU[BHM]|LC[ILS]|LU[IRS])$'; compgen -d -- "$word") ;;
        check) mapfile -t COMPREPLY < <(compgen -d -- "$word") ;;
        build | replay | wire | fleet) mapfile -t COMPREPLY < <(compgen -f -- "$word") ;;
    esac
}
complete -o filenames -F _gablecumin gablecumin
