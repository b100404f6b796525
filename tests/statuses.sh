#!/usr/bin/env bash
# Runs the program into each status with which a process of it ends, and compares the status, the line that
# it says, and for the status 0 what it prints.
#
#     statuses.sh [PROGRAM]
set -u
cd "$(dirname "$0")/.."
program=${1:-$(tests/program.sh)} || exit 1
folder=$(mktemp -d)
trap 'rm -rf "$folder"' EXIT
failed=0
export program
plan=examples/first/plan.txt
guid='\241\241\241\241\241\241\241\241\241\241\241\241'
cat "$plan" examples/first/capture.bin > "$folder/input"
(cat "$plan"; printf '\0\0\0\0\0\0\0\0\0\0\344\377\0\0') > "$folder/long"
printf 'prefix 0102030405060708\ntopic\n' > "$folder/bad_plan"
# A capture of 200 samples of 60,000 octets, each of an instance of its own, which is more than 6 MB hold.
cp "$plan" "$folder/many"
for number in {1..200}; do
    printf -v low '\\x%02x' "$number"
    printf "\5\0\0\0\0\0\0\0\0\0\254\352\0\0RTPS\2\5\0\0$guid\25\7\224\352\0\0\20\0\0\0\0\0\0\0\1\2\0\0\0\0$low\0\0\0\160\0\20\0"
    printf '\252%.0s' {1..15}
    printf "$low"
    printf '\1\0\0\0\0\1\0\0\52\0\0\0'
    head -c 60000 /dev/zero
done >> "$folder/many"
# Two files of a journal: one that is a folder itself, and one of ten zeros.
mkdir -p "$folder/no_file/journal.0" "$folder/no_journal"
head -c 10 /dev/zero > "$folder/no_journal/journal.1"
# One of the last generation; and a plan of which each setting is kept.
mkdir "$folder/worn" "$folder/stored"
(printf 'DDSJRNL1\1\2\0\0\0\377\377\377\377\40\0\0\0\0\0\0\0'; head -c 33 /dev/zero) > "$folder/worn/journal.0"
sed 's/transient/persistent/' "$plan" > "$folder/persistent"
cat "$folder/persistent" examples/first/capture.bin > "$folder/to_store"
sed 's/hash 1/hash 2/' "$folder/persistent" > "$folder/deeper"
export folder

# A command line must end with this status, and say this line.
ends() {
    said=$(bash -c "$3" 2>&1 > "$folder/printed")
    status=$?
    if [ "$status" != "$1" ] || [ "$said" != "$2" ]; then
        echo "tests/statuses.sh: $3: ended with $status and said: $said"
        failed=1
    fi
}

# And it must have printed this.
prints() {
    if [ "$(cat "$folder/printed")" != "$1" ]; then
        echo "tests/statuses.sh: printed: $(cat "$folder/printed")"
        failed=1
    fi
}

ends 0 '' '"$program" list < "$folder/input"'
[ -s "$folder/printed" ] || { echo "tests/statuses.sh: list printed nothing"; failed=1; }
ends 2 'durability: usage' '"$program"'
ends 2 'durability: usage' '"$program" lists < "$folder/input"'
ends 2 'durability: usage' '"$program" $'"'"'\xff'"'"' < "$folder/input"'
ends 3 'durability: out of memory' 'ulimit -v 6000; "$program" list < "$folder/many"'
ends 4 'durability: input 10 LongDatagram' '"$program" show < "$folder/long"'
ends 5 'durability: read fault' '"$program" show < /'
ends 6 'durability: write fault' '"$program" show < "$folder/input" > /dev/full'
ends 7 'durability: disk fault' '"$program" check --dir "$folder/no_file"'
ends 7 'durability: disk fault' '"$program" check --dir "$folder/input"'
ends 8 'durability: plan 2 Word' '"$program" show < "$folder/bad_plan"'
ends 9 'durability: not a journal 1 0' '"$program" check --dir "$folder/no_journal"'
prints $'file 0 blank\nfile 1 broken 0'
ends 0 '' '"$program" check --dir "$folder/none"'
prints $'file 0 blank\nfile 1 blank'
if [ -e "$folder/none" ] || [ -e "$folder/no_journal/journal.0" ]; then echo "tests/statuses.sh: check made a file"; failed=1; fi
ends 7 'durability: disk fault' '"$program" rerun --dir "$folder/no_file" < "$folder/to_store"'
ends 7 'durability: disk fault' '"$program" rerun --dir "$folder/none" < "$folder/to_store"'
if [ -e "$folder/none" ]; then echo "tests/statuses.sh: rerun made a folder"; failed=1; fi
ends 9 'durability: not a journal 1 0' '"$program" rerun --dir "$folder/no_journal" < "$folder/to_store"'
ends 10 'durability: worn' '"$program" rerun --dir "$folder/worn" < "$folder/to_store"'
ends 0 '' '"$program" rerun --dir "$folder/stored" < "$folder/to_store"'
ends 9 'durability: plan differs T' '"$program" rerun --dir "$folder/stored" < "$folder/deeper"'
listed=$("$program" list < "$folder/input")
ends 0 '' '"$program" check --dir "$folder/stored"'
prints "$(printf 'file 0 open 1 2\nfile 1 blank\n%s 6' "$listed")"
[ "$failed" = 0 ] && echo "each status: as its input calls for"
exit "$failed"
