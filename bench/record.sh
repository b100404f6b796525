#!/usr/bin/env bash
# Megabytes a second that the text of a view is read and written, for 100,000 kept changes of 256 octets over 1,000
# instances of one topic, beside memcpy and a walk over the same fields in C. Each line has its ratio to that walk. The
# program is made, proved and built in a temporary folder.
#
# Usage: bench/record.sh [CHANGES], by default 100000.
set -euo pipefail
cd "$(dirname "$0")/.."
changes=${1:-100000}
work=$(mktemp -d)
trap 'rm -rf "$work"' EXIT

mkdir -p "$work/crates/record_bench/src"
tests/take_crates.sh "$work" dur_record
echo 'record_bench: bytes dur_base dur_record' >> "$work/crates.txt"
cat > "$work/crates/record_bench/src/main.rt" <<'PROGRAM'
//! Reads the view that its input is, and writes it again, eight times each, and prints the least time of both.
#![tactic(auto)]

use bytes::Bytes;
use dur_base::Octets;
use dur_record::{read_view, write_view};
use std::io::{self, Read};
use std::time::{Clock, Instant};

fn read(rt: &HostRuntime, text: &Bytes) -> io::Result<u128> {
    let shared = text.clone()?;
    let start = Instant::now(rt)?;
    let kept = match read_view(rt.alloc(), shared) {
        Ok(view) => view.kept.len(),
        Err(_) => 0,
    };
    let nanos = start.elapsed(rt)?.as_nanos().max(1);
    Ok(if kept == 0 { 0 } else { nanos })
}

fn write(rt: &HostRuntime, text: &Bytes) -> io::Result<u128> {
    let shared = text.clone()?;
    let mut out = Octets::new(rt.alloc());
    let mut nanos = 0;
    match read_view(rt.alloc(), shared) {
        Ok(view) => {
            let start = Instant::now(rt)?;
            let _ = write_view(&mut out, &view);
            nanos = start.elapsed(rt)?.as_nanos().max(1);
        }
        Err(_) => {}
    }
    Ok(if out.as_slice() == text.as_slice() { nanos } else { 0 })
}

fn main(rt: HostRuntime) -> io::Result<()> {
    let mut input = Vec::new(rt.alloc());
    rt.stdin().read_to_end(&mut input)?;
    let text = Bytes::from_vec(input)?;
    let mut reading = u128::MAX;
    let mut writing = u128::MAX;
    for _ in 0..8 {
        reading = reading.min(read(&rt, &text)?);
        writing = writing.min(write(&rt, &text)?);
    }
    println!(rt; "reading {reading}")?;
    println!(rt; "writing {writing}")
}
PROGRAM
cat > "$work/walk.c" <<'PROGRAM'
#include <stdint.h>
#include <stdio.h>
#include <stdlib.h>
#include <string.h>
#include <time.h>

static const unsigned char *at;
static uint64_t sum;

static uint64_t number(int width) {
    uint64_t value = 0;
    memcpy(&value, at, width);
    at += width;
    return value;
}
static void skip(uint64_t count) { at += count; }
static void optional(int more) { if (number(1)) skip(more); }

static void sample(void) {
    sum += number(1) + number(1);
    skip(16);
    sum += number(8);
    optional(8);
    if (number(1) == 2) skip(8);
    optional(24);
    uint64_t length = number(8);
    sum += length;
    skip(length);
}

static void walk(const unsigned char *text) {
    at = text;
    number(8);
    for (uint64_t n = number(4); n > 0; n--) { skip(number(1)); skip(25); }
    for (uint64_t n = number(4); n > 0; n--) {
        skip(28);
        for (uint64_t held = number(8); held > 0; held--) { skip(16); sample(); }
    }
    for (uint64_t n = number(8); n > 0; n--) { skip(21); optional(8); sum += number(8); skip(4 * number(4)); }
    for (uint64_t n = number(8); n > 0; n--) { sum += number(8) + number(8); skip(16); sum += number(8); optional(8); sample(); }
}

static uint64_t now(void) {
    struct timespec t;
    clock_gettime(CLOCK_MONOTONIC, &t);
    return t.tv_sec * 1000000000ull + t.tv_nsec;
}

int main(void) {
    size_t room = 1 << 30, length;
    unsigned char *text = malloc(room), *copy = malloc(room);
    length = fread(text, 1, room, stdin);
    uint64_t walking = UINT64_MAX, copying = UINT64_MAX;
    for (int round = 0; round < 8; round++) {
        uint64_t start = now();
        walk(text);
        uint64_t took = now() - start;
        if (took < walking) walking = took;
        start = now();
        memcpy(copy, text, length);
        took = now() - start;
        if (took < copying) copying = took;
    }
    if (at != text + length || copy[length - 1] != text[length - 1]) return 1;
    fprintf(stderr, "%llu\n", (unsigned long long)sum);
    printf("memcpy %llu\nwalk %llu\n", (unsigned long long)copying, (unsigned long long)walking);
    return 0;
}
PROGRAM
cc -O2 -o "$work/walk" "$work/walk.c"
python3 - "$changes" > "$work/text" <<'PROGRAM'
import sys
count, instances = int(sys.argv[1]), 1000
out = sys.stdout.buffer
le = lambda width, *numbers: b"".join(n.to_bytes(width, "little") for n in numbers)
key = lambda n: n.to_bytes(16, "big")
writer = b"w" * 16
out.write(le(8, 1000) + le(4, 1) + b"\1t\1" + le(4, 0, 0, 0, 0, 0, 0))
out.write(le(4, 1) + writer + le(4, 0) + le(8, count + 1, 0) + le(8, instances))
for place in range(instances):
    changes = (count - place + instances - 1) // instances
    out.write(le(4, 0) + key(place) + b"\0\0" + le(8, changes) + le(4, 1, 0))
out.write(le(8, count))
for n in range(count):
    place = n % instances
    out.write(le(8, place, n // instances + 1) + writer + le(8, n + 1) + b"\1" + le(8, 5))
    out.write(b"\0\1" + key(place) + le(8, 5) + b"\0\0\0" + le(8, 256) + b"p" * 256)
PROGRAM

(cd "$work/crates/record_bench" && rt run < /dev/null > "$work/build.log" 2>&1) || {
    cat "$work/build.log"
    exit 1
}
{ "$work/walk" < "$work/text" 2> /dev/null; "$work/crates/record_bench/out/record_bench" < "$work/text"; } > "$work/times"
awk -v octets="$(wc -c < "$work/text")" '
    { name[NR] = $1; took[NR] = $2; if ($1 == "walk") walk = $2 }
    END {
        for (i = 1; i <= NR; i++) {
            if (took[i] == 0) { print name[i] ": failed"; exit 1 }
            printf "%s: %.0f MB a second, %.3f of the walk\n", name[i], octets / took[i] * 1e3, walk / took[i]
        }
    }' "$work/times"
