#!/bin/bash
# Two CSEs that know each other. Each is registered at the other one, so that a request to one of them goes on to the
# other where its address says so. They listen on this machine alone, and end with the script. It needs curl.
#
#     examples/two_cses.sh [PROGRAM]      the ports: PORT_IN=8080 PORT_MN=8081
set -eu
program=${1:-$(dirname "$0")/../cse}
in=127.0.0.1:${PORT_IN:-8080}
mn=127.0.0.1:${PORT_MN:-8081}
servers=() number=0
trap 'kill "${servers[@]}" 2>/dev/null || true' EXIT

# start AT OPTION..: a CSE that listens there
start() {
    "$program" serve --listen "$@" &
    servers+=($!)
    until curl -s -o /dev/null "http://$1/"; do
        kill -0 $! || exit 1
        sleep 0.1
    done
    # Another program may answer there already.
    sleep 0.1
    kill -0 $! || exit 1
}

# ask AT ADDRESS ORIGINATOR [TYPE CONTENT]: a Retrieve, or a Create of this type; what is answered is printed
ask() {
    number=$((number + 1))
    local words=(-H "X-M2M-Origin: $3" -H "X-M2M-RI: $number")
    if [ $# -gt 3 ]; then
        words+=(-H "Content-Type: application/json;ty=$4" -d "$5")
    fi
    printf '%s %s: ' "$3" "$2"
    curl -s -w ' (%{http_code})\n' "${words[@]}" "http://$1$2"
}

start "$in"
start "$mn" --id id-mn --base cse-mn --type 2 --admin /id-in/CAdmin
# Each registers as itself and is named by its CSE-ID, so that it may have copies of its resources at the other one.
ask "$in" /cse-in?rcn=0 /id-mn 16 \
    '{"m2m:csr":{"rn":"id-mn","csi":"/id-mn","cb":"/id-mn/cse-mn","poa":["http://'"$mn"'"],"rr":true}}'
ask "$mn" /cse-mn?rcn=0 /id-in 16 \
    '{"m2m:csr":{"rn":"id-in","csi":"/id-in","cb":"/id-in/cse-in","poa":["http://'"$in"'"],"rr":true}}'

# CAdmin asks the first CSE for the CSEBase of the second, where it is known as /id-in/CAdmin.
ask "$in" '/~/id-mn/cse-mn' CAdmin
# An originator of the second makes a container at the first, and reads it, both by way of the second.
ask "$mn" '/~/id-in/cse-in?rcn=0' CGateway 3 '{"m2m:cnt":{"rn":"of-mn"}}'
ask "$mn" '/~/id-in/cse-in/of-mn' CGateway
# A CSE that isn't registered is known to neither.
ask "$in" '/~/id-zz/cse-zz' CAdmin
