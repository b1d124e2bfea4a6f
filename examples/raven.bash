# Completions of bash for `raven`: its commands, their options, each of which is given once, and the path after --data.
#
#   source examples/raven.bash
#
# Or copy this file to ~/.local/share/bash-completion/completions/raven, where bash-completion finds it.

_raven() {
    local word=${COMP_WORDS[COMP_CWORD]} place=$COMP_CWORD options option given
    COMPREPLY=()
    if [ "$place" -eq 1 ]; then
        mapfile -t COMPREPLY < <(compgen -W "run serve http measure --help --version" -- "$word")
        return
    fi
    case ${COMP_WORDS[1]} in
    run) options="--data --id" ;;
    serve) options="--data --id --db --port --workers --pumps --connections" ;;
    http) options="--data --id --db --pump" ;;
    measure) options="--seed --docs --batch" ;;
    *) return ;;
    esac
    [ "$place" -eq 2 ] && options+=" --help"
    # After the command, options and values alternate.
    if [ $((place % 2)) -eq 0 ]; then
        given=" ${COMP_WORDS[*]:2:place - 2} "
        for option in $options; do
            [[ $given == *" $option "* ]] || mapfile -t -O ${#COMPREPLY[@]} COMPREPLY < <(compgen -W "$option" -- "$word")
        done
    elif [ "${COMP_WORDS[place - 1]}" = --data ]; then
        compopt -o filenames 2>/dev/null
        mapfile -t COMPREPLY < <(compgen -f -- "$word")
    fi
}
complete -F _raven raven
