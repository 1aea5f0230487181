# Completion of diffuse's words in bash. To have it: source this file, or put it at
# ~/.local/share/bash-completion/completions/diffuse
_diffuse() {
    local word=${COMP_WORDS[COMP_CWORD]} before=${COMP_WORDS[COMP_CWORD - 1]} engine watching
    engine="--plain --factors --order --algebra --limit --width --workers --shards --deal --budget --turns --best-first --ahead --help"
    watching="--accounts --progress --times"
    case $before in
        --algebra)
            mapfile -t COMPREPLY < <(compgen -W "shortest widest reach hops reliable within" -- "$word")
            return ;;
        --deal)
            mapfile -t COMPREPLY < <(compgen -W "shards questions" -- "$word")
            return ;;
        --limit | --workers | --shards | --width | --budget | --turns | --ahead)
            COMPREPLY=()
            return ;;
    esac
    if [ "$COMP_CWORD" -eq 1 ]; then
        mapfile -t COMPREPLY < <(compgen -W "solve bundle serve check order faults help --help --version" -- "$word")
        return
    fi
    case ${COMP_WORDS[1]}:$word in
        solve:-* | bundle:-*) mapfile -t COMPREPLY < <(compgen -W "$engine $watching" -- "$word") ;;
        serve:-*) mapfile -t COMPREPLY < <(compgen -W "$engine" -- "$word") ;;
        check:-*) mapfile -t COMPREPLY < <(compgen -W "--limit --help" -- "$word") ;;
        order:-* | faults:-*) mapfile -t COMPREPLY < <(compgen -W "--help" -- "$word") ;;
        faults:*) mapfile -t COMPREPLY < <(compgen -W "$(diffuse faults 2> /dev/null | sed -n 's/^fault \([0-9]*\):.*/\1/p')" -- "$word") ;;
        help:*) mapfile -t COMPREPLY < <(compgen -W "solve bundle serve check order faults" -- "$word") ;;
        *) mapfile -t COMPREPLY < <(compgen -f -- "$word") ;;
    esac
}
complete -o filenames -F _diffuse diffuse
