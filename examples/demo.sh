#!/bin/sh
# The demonstration: a small device on this machine is found, read, commanded and released, by the commands of demo.out.
# Usage: examples/demo.sh PROGRAM PORT, with a UDP port that is free.
set -eu
[ $# = 2 ] || { echo 'usage: demo.sh PROGRAM PORT, like: demo.sh bactool 47808' >&2; exit 2; }
program=$1 port=$2
trap 'kill $! 2>/dev/null || true' EXIT

# shellcheck disable=SC2086  # several words
while read -r line; do
    printf '%s\n' "$line"
    words=${line#'$ bactool '}
    status=0
    case $line in
        '$ bactool '*' &')
            timeout 60 "$program" ${words% &} &
            for _ in $(seq 100); do
                ! grep -q "^ *[0-9]*: [0-9A-F]*:$(printf %04X "$port") " /proc/net/udp || break
                sleep 0.1
            done
            continue
            ;;
        '$ bactool '*) "$program" $words </dev/null || status=$? ;;
        '$ wait') wait $! || status=$? ;;
        *) continue ;;
    esac
    echo "status $status"
done <<EOF
$(sed -n -e "s/47808/$port/" -e '/^[#$]/p' -e '/^$/p' "$(dirname "$0")/demo.out")
EOF
