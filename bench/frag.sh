#!/usr/bin/env bash
# Samples per second of 65,344 octets that are heard as one DATA, in fragments of 1,344 octets in order, and in the same
# fragments in reverse. Each line has its ratio to the DATA; it ends with the status 1 where one order of fragments is ten
# times slower than the other.
#
# Writes a small program into a folder of its own under the system's temporary folder, with copies of the crates that
# it stands on, has it proved and compiled there, runs it, and removes the folder.
#
# Usage: bench/frag.sh [SAMPLES], by default 2000 samples at each line.
set -euo pipefail

samples="${1:-2000}"
top="$(cd "$(dirname "${BASH_SOURCE[0]}")/.." && pwd)"
work="$(mktemp -d)"
trap 'rm -rf "$work"' EXIT

mkdir -p "$work/crates/frag_bench/src"
"$top/tests/take_crates.sh" "$work" rtps_frag
echo 'frag_bench: rtps_frag dur_base' >> "$work/crates.txt"
git -C "$work" init -q

cat > "$work/crates/frag_bench/src/main.rt" <<E
//! Times how samples are heard, whole and in fragments.
#![tactic(auto)]

use dur_base::{OutOfMemory, Prefix};
use rtps_frag::Joiner;
use std::alloc::Global;
use std::io;
use std::time::{Clock, Instant};

const SAMPLES: u64 = $samples;

const OWN: Prefix = Prefix([1; 12]);

fn put(out: &mut Vec<u8>, octets: &[u8]) -> Result<(), OutOfMemory> {
    out.extend_from_slice(octets)?;
    Ok(())
}

fn fill(out: &mut Vec<u8>, count: u32) -> Result<(), OutOfMemory> {
    for _ in 0..count {
        out.push(7)?;
    }
    Ok(())
}

// Its length is 0, so it reaches to the message's end.
fn whole(alloc: Global) -> Result<Vec<u8>, OutOfMemory> {
    let mut out = Vec::new(alloc);
    put(&mut out, b"RTPS\x02\x05\0\0\xa1\xa1\xa1\xa1\xa1\xa1\xa1\xa1\xa1\xa1\xa1\xa1")?;
    put(&mut out, b"\x15\x05\0\0\0\0\x10\0\0\0\0\0\0\0\x01\x02\0\0\0\0\x01\0\0\0")?;
    fill(&mut out, 65344)?;
    Ok(out)
}

fn fragment(alloc: Global, place: u32) -> Result<Vec<u8>, OutOfMemory> {
    let mut out = Vec::new(alloc);
    put(&mut out, b"RTPS\x02\x05\0\0\xa1\xa1\xa1\xa1\xa1\xa1\xa1\xa1\xa1\xa1\xa1\xa1")?;
    put(&mut out, b"\x16\x01\0\0\0\0\x1c\0\0\0\0\0\0\0\x01\x02\0\0\0\0\x01\0\0\0")?;
    put(&mut out, &place.saturating_add(1).to_le_bytes())?;
    put(&mut out, b"\x01\0\x40\x05\x40\xff\0\0")?;
    fill(&mut out, if place == 48 { 832 } else { 1344 })?;
    Ok(out)
}

fn fragments(alloc: Global, backward: bool) -> Result<Vec<Vec<u8>>, OutOfMemory> {
    let mut out = Vec::new(alloc);
    for place in 0..49u32 {
        let place = if backward { 48 - place } else { place };
        out.push(fragment(alloc, place)?)?;
    }
    Ok(out)
}

// How many facts the datagrams tell, over and over.
fn run(alloc: Global, datagrams: &[Vec<u8>]) -> Result<u64, OutOfMemory> {
    let mut joiner = Joiner::new(alloc)?;
    let mut facts: u64 = 0;
    for _ in 0..SAMPLES {
        for datagram in datagrams {
            let heard = joiner.hear(alloc, datagram.as_slice(), OWN)?;
            facts = facts.saturating_add(heard.facts.len() as u64);
        }
    }
    Ok(facts)
}

fn one_line(rt: &HostRuntime, name: &str, datagrams: &[Vec<u8>]) -> io::Result<()> {
    let start = Instant::now(rt)?;
    let Ok(facts) = run(rt.alloc(), datagrams) else {
        return Ok(());
    };
    let nanos = start.elapsed(rt)?.as_nanos().max(1);
    let second = (facts as u128).saturating_mul(1_000_000_000) / nanos;
    println!(rt; "{name} {facts} {second}")
}

fn main(rt: HostRuntime) -> io::Result<()> {
    let alloc = rt.alloc();
    let mut one = Vec::new(alloc);
    let Ok(datagram) = whole(alloc) else {
        return Ok(());
    };
    let Ok(()) = one.push(datagram) else {
        return Ok(());
    };
    one_line(&rt, "data", one.as_slice())?;
    if let Ok(some) = fragments(alloc, false) {
        one_line(&rt, "in-order", some.as_slice())?;
    }
    if let Ok(some) = fragments(alloc, true) {
        one_line(&rt, "in-reverse", some.as_slice())?;
    }
    Ok(())
}
E

cd "$work/crates/frag_bench"
if ! rt run > "$work/out.log" 2> "$work/err.log"; then
    cat "$work/out.log" "$work/err.log" >&2
    exit 1
fi
awk -v wanted="$samples" '
    /^(data|in-order|in-reverse) / {
        if ($2 != wanted) { print $1 ": " $2 " were told, and not " wanted; bad = 1 }
        name[++lines] = $1; speed[lines] = $3; if ($1 == "data") whole = $3; else if ($3 > best) best = $3
    }
    END {
        if (lines != 3) exit 1
        for (i = 1; i <= lines; i++) {
            printf "%s: %d samples a second, ratio %.2f\n", name[i], speed[i], speed[i] / whole
            if (speed[i] * 10 < best) bad = 1
        }
        exit bad
    }' "$work/out.log"
