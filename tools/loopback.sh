#!/usr/bin/env bash
# Serves a schedule over the loopback to two receivers at once, and checks what they report. Then it does so again with
# every tenth datagram dropped on the way, which the schedule's fragments must make up for.
#
# usage: loopback.sh PROGRAM [SCHEDULE [PACE]]
#
# SCHEDULE is evening.plan of the examples where it isn't told. PACE is how many milliseconds the servers rest between frames, 40
# where it isn't told; a receiver that can't keep up loses datagrams in its socket's buffer, and the checks say so. The
# ports 47810 to 47813 must be free. It prints a line for each check, and ends with 1 if one fails.

set -u

if [ $# -lt 1 ] || [ $# -gt 3 ] || [ "$1" = --help ] || [ "$1" = -h ]; then
    sed -n '2,/^$/s/^# \{0,1\}//p' "$0"
    [ $# -ge 1 ] && [ $# -le 3 ]
    exit
fi
if ! command -v "$1" > /dev/null; then
    echo "loopback.sh: $1 is no program"
    exit 1
fi

here=$(cd "$(dirname "$0")" && pwd)
program=$1
examples=$here/../examples
# Where this is installed they stand with the documents.
[ -d "$examples" ] || examples=$here/../../share/doc/drmcast/examples
schedule=${2:-$examples/evening.plan}
pace=${3:-40}

receivers=(47810 47811)
droppers=(47812 47813)
every=10

folder=$(mktemp -d)
trap 'kill $(jobs -p) 2>/dev/null; rm -rf "$folder"' EXIT
failed=0

# Runs a command, and prints whether it succeeded as the check of this name.
check() {
    local name=$1
    shift
    if "$@"; then
        echo "ok: $name"
    else
        echo "FAILED: $name"
        failed=1
    fi
}

# Waits until a UDP port is open, for ten seconds at the most.
wait_for_port() {
    local row
    row=$(printf ':%04X ' "$1")
    for _ in {1..100}; do
        grep -q "$row" /proc/net/udp && return
        sleep 0.1
    done
    echo "port $1 isn't open"
    exit 1
}

# Receives at both ports while the schedule is served to these; leaves the reports in NAME.1 and NAME.2, and the status
# of receive in NAME.status.
session() {
    local name=$1 receiver servers=()
    shift
    "$program" receive "127.0.0.1:${receivers[0]},127.0.0.1:${receivers[1]}" \
        --first "$first" --frames "$frames" --idle 100 > "$folder/$name" &
    receiver=$!
    wait_for_port "${receivers[0]}"
    wait_for_port "${receivers[1]}"
    for port in "$@"; do
        "$program" serve "$schedule" --to "127.0.0.1:$port" --pace "$pace" &
        servers+=($!)
    done
    wait "${servers[@]}"
    wait "$receiver"
    echo $? > "$folder/$name.status"
    awk -v name="$folder/$name" '/^feed / { n++ } { print > (name "." n) }' "$folder/$name"
}

is_done() {
    [ "$(cat "$folder/$1.status")" = 0 ]
}

begins_with() {
    [ "$(head -n 1 "$folder/$1")" = "$2" ]
}

ends_with() {
    [ "$(tail -n 1 "$folder/$1")" = "$2" ]
}

has_switches() {
    [ "$(grep -E '^(switch|resumed) ' "$folder/$1")" = "$switches" ]
}

are_alike() {
    cmp -s <(tail -n +2 "$folder/$1") <(tail -n +2 "$folder/$2")
}

drops_some() {
    local dropped
    read -r _ _ _ dropped < "$folder/$1"
    [ "$dropped" -gt 0 ]
}

# The checks of the reports of a session.
check_session() {
    local name=$1
    check "$name: the status is 0" is_done "$name"
    for feed in 1 2; do
        check "$name: report $feed begins with: feed $feed" begins_with "$name.$feed" "feed $feed"
        check "$name: report $feed tells: ${switches//$'\n'/, }" has_switches "$name.$feed"
        check "$name: report $feed ends with: $end" ends_with "$name.$feed" "$end"
    done
    check "$name: both reports are alike" are_alike "$name.1" "$name.2"
}

canonical=$("$program" check "$schedule") || exit 1
first=$(awk '$1 == "first" { print $2 }' <<< "$canonical")
frames=$(awk '$1 == "length" { print 3 * $2 }' <<< "$canonical")
switches=$(awk '$1 == "config" && $2 > 0 { print "switch", 3 * $2 }' <<< "$canonical")
end="end frames given $frames missing 0 bad 0 refused 0"

session whole "${receivers[@]}"
check_session whole

forwarders=()
for feed in 0 1; do
    "$here/drop.py" "127.0.0.1:${droppers[feed]}" "127.0.0.1:${receivers[feed]}" "$every" > "$folder/dropper.$((feed + 1))" &
    forwarders+=($!)
    wait_for_port "${droppers[feed]}"
done
session dropped "${droppers[@]}"
wait "${forwarders[@]}"
for feed in 1 2; do
    check "dropped: on the way to receiver $feed: $(cat "$folder/dropper.$feed")" drops_some "dropper.$feed"
done
check_session dropped
check "dropped: the reports are those of the first session" are_alike dropped.1 whole.1

exit $failed
