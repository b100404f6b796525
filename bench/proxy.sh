#!/usr/bin/env bash
# Facts per second that a reader's proxy takes and handles, where they come in order, in reverse within the window, with
# one number missing until a heartbeat shows it, as heartbeats alone that skip more than a window each, and as GAPs that
# lie ahead of the next number, each of which reaches to the window's end. Each line has its ratio to the fastest order
# of data; it ends with the status 1 where one is ten times slower than that.
#
# Writes a small program into a folder of its own under the system's temporary folder, with copies of the crates that
# it stands on, has it proved and compiled there, runs it, and removes the folder.
#
# Usage: bench/proxy.sh [WINDOWS], by default 20000 windows of 256 numbers at each line.
set -euo pipefail

windows="${1:-20000}"
top="$(cd "$(dirname "${BASH_SOURCE[0]}")/.." && pwd)"
work="$(mktemp -d)"
trap 'rm -rf "$work"' EXIT

mkdir -p "$work/crates/proxy_bench/src"
"$top/tests/take_crates.sh" "$work" rel_reader
echo 'proxy_bench: rel_reader dur_base bytes' >> "$work/crates.txt"
git -C "$work" init -q

cat > "$work/crates/proxy_bench/src/main.rt" <<E
//! Times what a proxy does with the facts of one writer, in several orders.
#![tactic(auto)]

use bytes::Bytes;
use dur_base::{Act, Bits, Form, Key, Number, Payload, Sample, SetMark, Ticks};
use rel_reader::{Proxy, Ready};
use std::io;
use std::time::{Clock, Instant};

const WINDOWS: u64 = $windows;

#[derive(Drop)]
enum Order {
    Forward,
    Backward,
    OneMissing,
    Heartbeats,
    GapsAhead,
}

fn number(value: u64) -> Number {
    match Number::new(value) {
        Some(number) => number,
        None => Number::one(),
    }
}

fn sample() -> Sample {
    Sample {
        key: Key([0; 16]),
        act: Act::Write,
        stamp: Ticks(0),
        lifespan: None,
        set: SetMark::NoSet,
        original: None,
        form: Form::Data,
        payload: Payload::of(Bytes::new()),
    }
}

// Handles all that is ready. Answers how many samples were.
fn handle(proxy: &mut Proxy) -> u64 {
    let mut samples: u64 = 0;
    for _ in 0..257u64 {
        if proxy.ready() == Ready::Nothing {
            break;
        }
        if proxy.handled().is_some() {
            samples = samples.saturating_add(1);
        }
    }
    samples
}

fn take(proxy: &mut Proxy, value: u64) -> u64 {
    proxy.on_data(number(value), Some(sample()));
    handle(proxy)
}

// The numbers of a window in order, or from the last one back.
fn run_data(proxy: &mut Proxy, first: u64, backward: bool) -> u64 {
    let mut samples: u64 = 0;
    for i in 0..256u64 {
        let place = if backward { 255 - i } else { i };
        samples = samples.saturating_add(take(proxy, first.saturating_add(place)));
    }
    samples
}

// All but the first, then a heartbeat, which is answered, then the first.
fn run_missing(proxy: &mut Proxy, first: u64) -> u64 {
    let mut samples: u64 = 0;
    for i in 1..256u64 {
        samples = samples.saturating_add(take(proxy, first.saturating_add(i)));
    }
    proxy.on_beat(Number::one());
    let set = proxy.acknack(proxy.next(), first.saturating_add(255));
    if set.count() == 1 {
        samples = samples.saturating_add(take(proxy, first));
    }
    samples
}

// As many heartbeats, each of which skips 300 numbers.
fn run_heartbeats(proxy: &mut Proxy) -> u64 {
    let mut skips: u64 = 0;
    for _ in 0..256u64 {
        proxy.on_beat(number(proxy.next().get().saturating_add(300)));
        if proxy.ready() != Ready::Nothing {
            let _ = proxy.handled();
            skips = skips.saturating_add(1);
        }
    }
    skips
}

// All but the first by GAPs, the last one first, and then the first as data. They count where the next number is then
// the one behind the window.
fn run_gaps(proxy: &mut Proxy, first: u64) -> u64 {
    let behind = first.saturating_add(256);
    for i in 1..256u64 {
        proxy.on_gap(number(behind.saturating_sub(i)), &Bits::empty(number(behind)));
    }
    let _ = take(proxy, first);
    if proxy.next() == number(behind) { 256 } else { 0 }
}

fn run(proxy: &mut Proxy, order: &Order) -> u64 {
    let mut taken: u64 = 0;
    for window in 0..WINDOWS {
        let first = window.saturating_mul(256).saturating_add(1);
        let more = match order {
            Order::Forward => run_data(proxy, first, false),
            Order::Backward => run_data(proxy, first, true),
            Order::OneMissing => run_missing(proxy, first),
            Order::Heartbeats => run_heartbeats(proxy),
            Order::GapsAhead => run_gaps(proxy, first),
        };
        taken = taken.saturating_add(more);
    }
    taken
}

fn one_line(rt: &HostRuntime, name: &str, order: Order) -> io::Result<()> {
    let Ok(mut proxy) = Proxy::new(rt.alloc(), Number::one()) else {
        return Ok(());
    };
    let start = Instant::now(rt)?;
    let taken = run(&mut proxy, &order);
    let nanos = start.elapsed(rt)?.as_nanos().max(1);
    let second = (taken as u128).saturating_mul(1_000_000_000) / nanos;
    println!(rt; "{name} {taken} {second}")
}

fn main(rt: HostRuntime) -> io::Result<()> {
    one_line(&rt, "in-order", Order::Forward)?;
    one_line(&rt, "in-reverse", Order::Backward)?;
    one_line(&rt, "one-missing", Order::OneMissing)?;
    one_line(&rt, "heartbeats", Order::Heartbeats)?;
    one_line(&rt, "gaps-ahead", Order::GapsAhead)
}
E

cd "$work/crates/proxy_bench"
if ! rt run > "$work/out.log" 2> "$work/err.log"; then
    cat "$work/out.log" "$work/err.log" >&2
    exit 1
fi
awk -v wanted="$((windows * 256))" '
    /^(in-order|in-reverse|one-missing|heartbeats|gaps-ahead) / {
        if ($2 != wanted) { print $1 ": " $2 " were handled, and not " wanted; bad = 1 }
        name[++lines] = $1; speed[lines] = $3; if ($1 !~ /^(heartbeats|gaps-ahead)$/ && $3 > best) best = $3
    }
    END {
        if (lines != 5) exit 1
        for (i = 1; i <= lines; i++) {
            printf "%s: %d facts a second, ratio %.2f\n", name[i], speed[i], speed[i] / best
            if (speed[i] * 10 < best) bad = 1
        }
        exit bad
    }' "$work/out.log"
