#!/usr/bin/env bash
# Runs `late` over UDP on loopback against a small server of replays, which loses some of its datagrams, and into each
# status of `late`; and compares the status, what is said and what is printed.
#
#     late.sh [PROGRAM]
set -u
cd "$(dirname "$0")/.."
if ! python3 -c 'import socket; socket.socket(socket.AF_INET, socket.SOCK_DGRAM).bind(("127.0.0.1", 0))' 2> /dev/null; then
    echo "tests/late.sh: skipped, for there is no UDP on loopback here"
    exit 0
fi
program=${1:-$(tests/program.sh)} || exit 1
folder=$(mktemp -d)
server=
trap '[ -n "$server" ] && kill "$server" 2> /dev/null; rm -rf "$folder"' EXIT
failed=0
say_failed() { echo "tests/late.sh: $1"; failed=1; }

# A server of so many changes, which loses each datagram with a multiple of that number; `port` is where it is heard.
serve() {
    rm -f "$folder/port"
    python3 tests/tools/replay_server.py "$1" "$2" > "$folder/port" &
    server=$!
    for _ in {1..100}; do
        [ -s "$folder/port" ] && break
        sleep 0.05
    done
    port=$(cat "$folder/port")
}

# `late` at that peer, with so many turns, must end with this status and say this; `printed` has what it printed.
late() {
    said=$("$program" late --reader b2b2b2b2b2b2b2b2b2b2b2b200000107 --prefix=0102030405060708 --writer 01000102 \
        --peer "$1" --turns "$2" 2>&1 > "${5:-$folder/printed}")
    status=$?
    if [ "$status" != "$3" ] || [ "$said" != "$4" ]; then
        say_failed "--peer $1 --turns $2: ended with $status and said: $said"
    fi
}

# What was printed must be the lines of so many changes.
prints() {
    for number in $(seq 1 "$1"); do
        echo "a1a1a1a1a1a1a1a1a1a1a1a100000102 $number aaaaaaaaaaaaaaaaaaaaaaaaaaaaaaaa write 5 000100002a000000"
    done | cmp -s - "$folder/printed" || say_failed "not the lines of $1 changes: $(cat "$folder/printed")"
}

# A whole replay of so many changes with such losses.
replays() {
    serve "$1" "$2"
    late "127.0.0.1:$port" 2000 0 ''
    prints "$1"
    wait "$server" || say_failed "the server of $1 changes was not told that all of them came"
    server=
}

replays 0 0
replays 5 0
replays 5 3
replays 300 7

# In the first turn nothing can have come, and in the second one no more than a HEARTBEAT.
serve 5 0
late "127.0.0.1:$port" 2 13 'durability: unfinished'
prints 0
kill "$server"
wait "$server" 2> /dev/null
late "127.0.0.1:$port" 2 13 'durability: unfinished'
serve 5 0
late "127.0.0.1:$port" 2000 6 'durability: write fault' /dev/full
wait "$server" || say_failed "the server was not told that all of them came"
server=
late 127.0.0.1:0 2 12 'durability: link fault'
late localhost 2 2 'durability: usage'
late 127.0.0.1:7400 0 2 'durability: usage'
[ "$failed" = 0 ] && echo "late: takes replays over UDP, and ends with each of its statuses"
exit "$failed"
