#!/usr/bin/env bash
# Asks a service for routes, one pair at a time.
trap '' PIPE # a service that has died must not end this script

# Starts a service over a graph: by --plain, or for hundreds of pairs by --factors. Without either a route takes far longer.
start() {
    coproc SERVICE { exec diffuse serve "$1" "${2:---plain}"; }
    service=$SERVICE_PID to=${SERVICE[1]} from=${SERVICE[0]}
}

# Ends the service: at the end of its input it has answered all, and its status is 0.
stop() {
    exec {to}>&-
    wait "$service"
}

route() {
    local word rest value
    printf 'p aux sp p2p 1\nq %s %s\n' "$1" "$2" 2> /dev/null >&"$to"
    while read -r word rest; do
        case $word in
            f) echo "fault $rest"; return 1 ;;
            u) echo "none"; return ;;
            d) value=${rest% *} ;;
            r) echo "$value by $rest"; return ;;
        esac
    done 2> /dev/null <&"$from"
    wait "$service"
    echo "the service has died, with status $?"
    return 1
}

start examples/five_vertices.gr
route 1 4
route 1 5
route 4 4
stop
start examples/small_town.gr --factors
route 1 5
kill "$service"
route 1 5 || { start examples/small_town.gr; route 1 5; }
stop
