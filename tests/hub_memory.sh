#!/usr/bin/env bash
# Runs the hub's test of wanting memory with each allocation of its process refused in turn, by a `malloc` that stands
# before the C library's: those of the opening of a hub, of a first datagram, of one of a sample and a HEARTBEAT that
# is told again until there is memory for it, of a batch and of a snapshot. It fails where one of these runs does not
# end well. Outside the gate, since it proves the hub's tests where they were not; skipped where cc or rt is missing.
set -euo pipefail
cd "$(dirname "$0")/.."
for tool in cc rt; do
    command -v "$tool" > /dev/null || { echo "tests/hub_memory.sh: skipped, $tool is missing"; exit 0; }
done
work=$(mktemp -d)
trap 'rm -rf "$work"' EXIT
test=storing_tests::what_was_told_stands_where_memory_is_wanting

cc -O2 -shared -fPIC -o "$work/refuse.so" tests/tools/refuse.c -ldl
(cd crates/dur_hub && rt test > "$work/tests.log" 2>&1) || { tail -20 "$work/tests.log"; exit 1; }

number=1
while [ "$number" -le 10000 ]; do
    rm -f "$work/refused"
    REFUSE=$number REFUSED="$work/refused" LD_PRELOAD="$work/refuse.so" crates/dur_hub/out/dur_hub_tests "$test" \
        > "$work/said" 2>&1 || {
        echo "tests/hub_memory.sh: with allocation $number refused:"
        cat "$work/said"
        exit 1
    }
    [ -e "$work/refused" ] || { echo "tests/hub_memory.sh: $((number - 1)) allocations refused in turn, ok"; exit 0; }
    number=$((number + 1))
done
echo "tests/hub_memory.sh: it does not end"
exit 1
