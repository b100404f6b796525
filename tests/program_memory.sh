#!/usr/bin/env bash
# Runs commands of the program with each allocation of its process refused in turn, by a `malloc` that stands before the
# C library's: `list` and `show` of the first example, `rerun` of both parts of the restart, and `check` of its files; and
# `list` and `rerun` of the small inputs of tests/tools/inputs.py: a displaced sample, refused samples, sets and a replay.
# Each run must end with 0 or 3, or with 6 or 7 where it was the system's call on a file that wanted memory, have written a
# front of what the whole run writes, and a run of `rerun` must leave files that `check` reads and a later run goes on from. Outside the gate; skipped where cc is missing.
#
# Usage: tests/program_memory.sh [PROGRAM], by default the program that is built here.
set -euo pipefail
cd "$(dirname "$0")/.."
for tool in cc python3; do
    command -v $tool > /dev/null || { echo "tests/program_memory.sh: skipped, $tool is missing"; exit 0; }
done
program=${1:-$(tests/program.sh)}
work=$(mktemp -d)
trap 'rm -rf "$work"' EXIT
cc -O2 -shared -fPIC -o "$work/refuse.so" tests/tools/refuse.c -ldl

fails() {
    echo "tests/program_memory.sh: $1"
    exit 1
}

# Runs a command on an input with that allocation refused, and tells its status.
refused() {
    local number=$1 input=$2
    shift 2
    rm -f "$work/refused"
    REFUSE=$number REFUSED="$work/refused" LD_PRELOAD="$work/refuse.so" "$program" "$@" < "$input" > "$work/out" 2> "$work/err" &&
        status=0 || status=$?
}

# A command with each of its allocations refused in turn. Its files are those of the folder of that name, if there is one.
each() {
    local name=$1 input=$2 number=1
    shift 2
    rm -rf "$work/files"
    mkdir "$work/files"
    [ ! -d "$work/$name" ] || cp "$work/$name"/* "$work/files/"
    "$program" "$@" < "$input" > "$work/whole" || fails "$name: ended with $?"
    while [ "$number" -le 20000 ]; do
        rm -rf "$work/files"
        mkdir "$work/files"
        [ ! -d "$work/$name" ] || cp "$work/$name"/* "$work/files/"
        refused "$number" "$input" "$@"
        [ -e "$work/refused" ] || break
        case $status in 0 | 3 | 6 | 7) ;; *) false ;; esac || fails "$name: allocation $number refused, status $status"
        cmp -s -n "$(stat -c %s "$work/out")" "$work/out" "$work/whole" || fails "$name: allocation $number refused, other octets"
        [ "$status" != 0 ] || cmp -s "$work/out" "$work/whole" || fails "$name: allocation $number refused, status 0 and less"
        if [ "$1" = rerun ]; then
            "$program" check --dir "$work/files" > "$work/checked" || fails "$name: allocation $number refused, files that break"
            "$program" "$@" < "$input" > /dev/null || fails "$name: allocation $number refused, no later run"
        fi
        number=$((number + 1))
    done
    echo "tests/program_memory.sh: $name, $((number - 1)) allocations refused in turn, ok"
}

cat examples/first/plan.txt examples/first/capture.bin > "$work/first.in"
cat examples/restart/plan.txt examples/restart/before.bin > "$work/before.in"
cat examples/restart/plan.txt examples/restart/after.bin > "$work/after.in"
mkdir "$work/after" "$work/check"
"$program" rerun --dir "$work/after" < "$work/before.in" > /dev/null
cp "$work/after"/* "$work/check/"
each list "$work/first.in" list
each show "$work/first.in" show
each before "$work/before.in" rerun --dir "$work/files"
each after "$work/after.in" rerun --dir "$work/files"
each check /dev/null check --dir "$work/files"
for name in newest refused closed half rest replay; do
    python3 tests/tools/inputs.py $name > "$work/$name.in"
done
mkdir "$work/rest"
"$program" rerun --dir "$work/rest" < "$work/half.in" > /dev/null
for name in newest refused closed; do
    each "list $name" "$work/$name.in" list
done
for name in refused half rest replay; do
    each "$name" "$work/$name.in" rerun --dir "$work/files"
done
