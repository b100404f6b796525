#!/usr/bin/env bash
# Measures how many records a second a feed hands out, where the capture comes in pieces of 1, 64 and 65,536 octets,
# and says which part of the speed of cat that is. The program that it measures is made, proved and built in a
# temporary folder.
#
# Usage: bench/capture.sh [RECORDS], by default 524288 records of 64 octets.
set -euo pipefail
cd "$(dirname "$0")/.."
wanted=${1:-524288}
work=$(mktemp -d)
trap 'rm -rf "$work"' EXIT

mkdir -p "$work/crates/capture_bench/src"
tests/take_crates.sh "$work" dur_capture
echo 'capture_bench: dur_capture' >> "$work/crates.txt"
cat > "$work/crates/capture_bench/src/main.rt" <<'PROGRAM'
//! Reads a capture from its input, hands it on in pieces of so many octets, and prints how many records it has.
#![tactic(auto)]

use dur_capture::Feed;
use std::env;
use std::io::{self, Read};

// How many records came out of these octets.
fn hand_on(feed: &mut Feed, octets: &[u8], size: usize) -> u64 {
    let mut records: u64 = 0;
    let mut rest = octets;
    for _ in 0..octets.len() {
        let (piece, later) = rest.split_at(size.min(rest.len()));
        let _ = feed.push(piece);
        for _ in 0..u64::MAX {
            match feed.next(false) {
                Ok(Some(_)) => records = records.saturating_add(1),
                _ => break,
            }
        }
        if later.is_empty() {
            break;
        }
        rest = later;
    }
    records
}

fn size_of(rt: &HostRuntime) -> io::Result<usize> {
    for word in env::args(rt)?.skip(1) {
        return Ok(word.as_str().parse::<usize>().unwrap_or(1));
    }
    Ok(1)
}

fn main(rt: HostRuntime) -> io::Result<()> {
    let size = size_of(&rt)?;
    let mut feed = Feed::new(rt.alloc(), 0);
    let mut buffer = vec![in rt.alloc(); 0u8; 65536]?;
    let mut records: u64 = 0;
    for _ in 0..u64::MAX {
        let count = rt.stdin().read(buffer.as_mut_slice())?;
        if count == 0 {
            break;
        }
        records = records.saturating_add(hand_on(&mut feed, &buffer.as_slice()[..count], size));
    }
    println!(rt; "{records}")
}
PROGRAM

# A record is its moment, its port, its length and its octets: twice as many each time.
capture=$work/capture
printf '\5\0\0\0\0\0\0\0\364\34\100\0\0\0%064d' 0 > "$capture"
records=1
while [ "$records" -lt "$wanted" ]; do
    cat "$capture" "$capture" > "$capture.twice"
    mv "$capture.twice" "$capture"
    records=$((records * 2))
done

(cd "$work/crates/capture_bench" && rt run -- 1 < /dev/null > "$work/build.log" 2>&1) || {
    cat "$work/build.log"
    exit 1
}
program=$work/crates/capture_bench/out/capture_bench

# How many nanoseconds a command takes whose answer goes to this file, the least of five runs.
least() {
    local answer=$1 best=0 run start took
    shift
    for run in 1 2 3 4 5; do
        start=$(date +%s%N)
        "$@" < "$capture" > "$answer"
        took=$(($(date +%s%N) - start))
        if [ "$best" -eq 0 ] || [ "$took" -lt "$best" ]; then best=$took; fi
    done
    echo "$best"
}

reference=$(least /dev/null cat)
awk -v records="$records" -v took="$reference" 'BEGIN { printf "cat: %.0f records a second\n", records / (took / 1e9) }'
for size in 1 64 65536; do
    took=$(least "$work/answer" "$program" "$size")
    [ "$(cat "$work/answer")" = "$records" ] || { echo "pieces of $size: not all records came"; exit 1; }
    awk -v size="$size" -v records="$records" -v took="$took" -v reference="$reference" 'BEGIN {
        printf "pieces of %d: %.0f records a second, %.4f of cat\n", size, records / (took / 1e9), reference / took
    }'
done
