#!/usr/bin/env bash
# Commits a second of 1 and of 100 entries of 256 octets to the journal of two real files, beside a program in C that
# writes and syncs as many octets in the same way (write, fdatasync, write of the gate's octet, fdatasync), and beside
# SQLite in WAL mode with synchronous FULL (one transaction for as many rows, by Python's sqlite3). Each line has its
# ratio to the one in C. Then the time of an opening with as many kept changes as were stored by 100, beside reading and
# writing as many octets and two fdatasyncs. The program is made, proved and built in a temporary folder, over the
# libraries that are proved here already where there are some; the files stand in a folder beside it, or in FOLDER.
#
# Usage: bench/journal.sh [FOLDER]
set -euo pipefail
cd "$(dirname "$0")/.."
work=$(mktemp -d)
files=$(mktemp -d "${1:-$work}/journal.XXXXXX")
trap 'rm -rf "$work" "$files"' EXIT

mkdir -p "$work/crates/journal_bench/src"
tests/take_crates.sh "$work" dur_journal
echo 'journal_bench: bytes dur_base dur_journal dur_outside dur_qos dur_record dur_view' >> "$work/crates.txt"
cat > "$work/crates/journal_bench/src/main.rt" <<'PROGRAM'
//! Opens the journal of the files of a folder, and commits the batches of its input until a store would compact. It
//! prints the time of the opening, and then the commits, their octets and their time.
#![tactic(auto)]

ghost use Rattle.std.specs.Prelude.{◌≡◌, ◌≤◌, ◌^◌, IfOk, IfSome, length};
ghost use Rattle.std.specs.List.{AllByRecursion};
ghost use Rattle.dur_qos.specs.Good.{GoodPlan};
ghost use Rattle.dur_record.specs.Entries.{IsGoodEntry};

use bytes::Bytes;
use dur_journal::{Journal, Opened};
use dur_outside::FileDisk;
use dur_qos::{Plan, PlanFault, PlanReader};
use dur_record::read_entries;
use dur_view::{Batch, View};
use std::alloc::Global;
use std::fs::{File, OpenOptions};
use std::io::{self, Read};
use std::path::PathBuf;
use std::time::{Clock, Instant};
use std::env;

const PLAN: &[u8] = b"prefix 0102030405060708\ntopic T persistent hash all - - - - 0\n\
writer a1a1a1a1a1a1a1a1a1a1a1a100000102 T -\nend\n";

fn read_plan(alloc: Global) -> Result<Plan, PlanFault>
    ensures { IfOk result (λ p. GoodPlan p) }
{
    let mut reader = PlanReader::new(alloc);
    match reader.push(PLAN) {
        Ok(_) => reader.finish(),
        Err(fault) => Err(fault),
    }
}

fn file(rt: &HostRuntime, folder: &str, name: &str) -> io::Result<File> {
    let path = PathBuf::from_str(rt.alloc(), folder)?.join(rt.alloc(), name)?;
    let mut options = OpenOptions::new();
    options.read(true).write(true).create(true);
    options.open(rt, &path)
}

// The batch of a text.
fn batch(alloc: Global, from: u64, text: &[u8]) -> Option<Batch>
    ensures { IfSome result (λ b. (b.from ≡ from) × (length b.entries ≤ 4096) × AllByRecursion IsGoodEntry b.entries) }
{
    let text = Bytes::copy_from_slice(alloc, text).ok()?;
    match read_entries(alloc, text) {
        Ok(entries) if entries.len() <= 4096 => Some(Batch { from, entries }),
        _ => None,
    }
}

// Stores the batch of a text, and adds the time of that.
fn store(
    rt: &HostRuntime,
    journal: Journal<FileDisk>,
    text: &[u8],
    nanos: &mut u128,
) -> io::Result<Option<Journal<FileDisk>>> {
    let Some(batch) = batch(rt.alloc(), journal.position(), text) else {
        return Ok(None);
    };
    if journal.appended() >= 1 << 20 {
        return Ok(None);
    }
    let start = Instant::now(rt)?;
    match journal.commit(rt.alloc(), &batch) {
        Ok((journal, _)) => {
            *nanos = nanos.saturating_add(start.elapsed(rt)?.as_nanos());
            Ok(Some(journal))
        }
        Err(_) => Ok(None),
    }
}

fn store_all(rt: &HostRuntime, opened: Opened<FileDisk>, input: &[u8]) -> io::Result<()> {
    let mut journal = opened.journal;
    let (mut commits, mut nanos) = (0u64, 0u128);
    let mut rest = input;
    for _ in 0..u64::MAX {
        let octets = journal.appended();
        let [a, b, c, d, behind @ ..] = rest else {
            break;
        };
        if octets >= 1 << 20 {
            return println!(rt; "commits {commits} {octets} {nanos}");
        }
        let len = u32::from_le_bytes([*a, *b, *c, *d]) as usize;
        let (text, later) = behind.split_at(len.min(behind.len()));
        rest = later;
        let Some(stored) = store(rt, journal, text, &mut nanos)? else {
            return println!(rt; "not stored");
        };
        journal = stored;
        commits = commits.saturating_add(1);
    }
    println!(rt; "too few")
}

fn kept(view: &View) -> usize {
    view.kept.len()
}

fn main(rt: HostRuntime) -> io::Result<()> {
    let mut words = env::args(&rt)?.skip(1);
    let Some(folder) = words.next() else {
        return println!(rt; "usage: journal_bench FOLDER");
    };
    let mut input = Vec::new(rt.alloc());
    rt.stdin().read_to_end(&mut input)?;
    let zero = file(&rt, folder.as_str(), "journal.0")?;
    let one = file(&rt, folder.as_str(), "journal.1")?;
    let Ok(plan) = read_plan(rt.alloc()) else {
        return println!(rt; "no plan");
    };
    let start = Instant::now(&rt)?;
    match Journal::open(rt.alloc(), FileDisk::new(zero, one), &plan) {
        Ok(opened) => {
            let nanos = start.elapsed(&rt)?.as_nanos();
            println!(rt; "opened {} {nanos}", kept(&opened.view))?;
            store_all(&rt, opened, input.as_slice())
        }
        Err(_) => println!(rt; "refused"),
    }
}
PROGRAM
cc -O2 -o "$work/append" bench/append.c
cat > "$work/batches.py" <<'PROGRAM'
import sys
first, count = int(sys.argv[1]), int(sys.argv[2])
le = lambda width, number: number.to_bytes(width, "little")
out = sys.stdout.buffer
octets = 0
while octets < 1 << 21:
    text = b""
    for number in range(first, first + count):
        sample = b"\0\1" + bytes([number % 16]) * 16 + le(8, 5) + b"\0\0\0" + le(8, 256) + b"\7" * 256
        text += b"\1" + le(8, number) + b"\xa1" * 12 + b"\0\0\1\2" + le(8, number) + sample
    out.write(le(4, len(text)) + text)
    first += count
    octets += len(text)
PROGRAM
(cd "$work/crates/journal_bench" && rt run -- < /dev/null > "$work/build.log" 2>&1) || true
program="$work/crates/journal_bench/out/journal_bench"
[ -x "$program" ] || { cat "$work/build.log"; exit 1; }

# The line of so many entries a commit: the best of some rounds over fresh files, the three programs in turn.
measure() {
    local count=$1 rounds=$2 round
    python3 "$work/batches.py" 1 "$count" > "$work/batches"
    for round in $(seq "$rounds"); do
        rm -rf "${files:?}"/*
        mkdir "$files/ours"
        read -r _ commits octets nanos < <("$program" "$files/ours" < "$work/batches" | grep commits)
        plain=$("$work/append" "$files/plain" "$commits" $((octets / commits)))
        sqlite=$(python3 bench/rows.py "$files/base" "$commits" "$count")
        echo "$nanos $plain $sqlite $commits"
    done > "$work/rounds"
    awk -v count="$count" '
        NR == 1 || $1 < ours { ours = $1 } NR == 1 || $2 < plain { plain = $2 } NR == 1 || $3 < lite { lite = $3 }
        { commits = $4 }
        END {
            printf "%d entries a commit: %.0f commits a second, %.2f of C", count, commits / ours * 1e9, plain / ours
            printf "; SQLite %.0f a second, %.2f of C\n", commits / lite * 1e9, plain / lite
        }' "$work/rounds"
}
measure 1 3
measure 100 15

"$program" "$files/ours" < /dev/null > /dev/null
read -r _ kept nanos < <("$program" "$files/ours" < /dev/null | grep opened)
plain=$("$work/append" "$files/plain" 1 "$(stat -c %s "$files/ours/journal.0")")
awk -v kept="$kept" -v ours="$nanos" -v plain="$plain" 'BEGIN {
    printf "opening with %d kept changes: %.1f ms, %.2f times as long as a write of their octets in C\n", kept, ours / 1e6, ours / plain
}'
