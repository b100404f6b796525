#!/usr/bin/env bash
# Facts per second that a hub hears, each in a datagram of its own, from 1, 100 and 4,000 writers, in order and with the
# first of each 16 numbers of a writer missing until the others came. First GAPs, of which the store keeps each in
# constant time: what is measured is the hub. Then 64 samples of at most four writers, and how much of that time the
# store alone takes for the same entries. Each line of GAPs has its ratio to the fastest; it ends with the status 1 where
# one is ten times slower than that.
#
# Writes a small program into a folder of its own under the system's temporary folder, with copies of the crates that
# it stands on and of their libraries where they are proved here already, has it proved and compiled there, runs it, and
# removes the folder.
#
# Usage: bench/hub.sh [FACTS], by default 64000 GAPs at each line.
set -euo pipefail

facts="${1:-64000}"
top="$(cd "$(dirname "${BASH_SOURCE[0]}")/.." && pwd)"
work="$(mktemp -d)"
trap 'rm -rf "$work"' EXIT

mkdir -p "$work/crates/hub_bench/src"
"$top/tests/take_crates.sh" "$work" dur_hub rtps_message
echo 'hub_bench: dur_base dur_hub dur_qos dur_store dur_view rtps_message bytes' >> "$work/crates.txt"
git -C "$work" init -q

cat > "$work/crates/hub_bench/src/main.rt" <<E
//! Times what a hub does with the facts of the writers of the plan that its input is, and what the store alone does.
#![tactic(auto)]

ghost use Rattle.std.specs.Prelude.{◌≡◌, ◌<◌, ◌-◌, ◌^◌, [], IfOk, IfSome};
ghost use Rattle.dur_base.specs.Goodness.{IsGoodRaw};
ghost use Rattle.dur_qos.specs.Good.{GoodPlan};
ghost use Rattle.dur_view.specs.History.{HasShortNumber};
ghost use Rattle.rtps_message.specs.Facts.{IsGoodFact};

use bytes::Bytes;
use dur_base::{
    Act, Bits, EntityId, Entry, Fact, Form, GREATEST_NUMBER, Guid, Key, List, Number, Payload, Raw, Sample, SetMark, Ticks,
};
use dur_hub::{Hub, hubs_open_over_blank_views};
use dur_qos::{Plan, PlanFault, PlanReader};
use dur_store::Store;
use dur_view::{View, blank_views_are_sound};
use std::alloc::Global;
use std::io::{self, Read};
use std::time::{Clock, Instant};

const GAPS: u64 = $facts;

const SAMPLES: u64 = 64;

const EVERYBODY: EntityId = EntityId([0; 4]);

#[derive(Clone, Copy, Drop)]
enum Kind {
    Gap,
    Sample,
}

#[derive(Clone, Copy, Drop)]
enum Order {
    Forward,
    OneMissing,
}

fn read(alloc: Global, text: &[u8]) -> Result<Plan, PlanFault>
    ensures { IfOk result (λ p. GoodPlan p) }
{
    let mut reader = PlanReader::new(alloc);
    match reader.push(text) {
        Ok(_) => reader.finish(),
        Err(fault) => Err(fault),
    }
}

fn open_hub(alloc: Global, text: &[u8]) -> Option<Hub> {
    let plan = match read(alloc, text) {
        Ok(plan) => plan,
        Err(_) => return None,
    };
    let view = match View::blank(&plan) {
        Ok(view) => view,
        Err(_) => return None,
    };
    hubs_open_over_blank_views();
    match Hub::new(alloc, plan, view, 1) {
        Ok(hub) => Some(hub),
        Err(_) => None,
    }
}

fn open_store_over(alloc: Global, plan: &Plan) -> Option<Store>
    requires { GoodPlan plan.now }
{
    blank_views_are_sound();
    match View::blank(plan) {
        Ok(view) => Store::of_view(alloc, plan, view).ok(),
        Err(_) => None,
    }
}

fn open_store(alloc: Global, text: &[u8]) -> Option<Store> {
    match read(alloc, text) {
        Ok(plan) => open_store_over(alloc, &plan),
        Err(_) => None,
    }
}

// The writers of the plan, or the last four of them.
fn writers(alloc: Global, text: &[u8], is_all: bool) -> Option<Vec<Guid>> {
    let plan = match read(alloc, text) {
        Ok(plan) => plan,
        Err(_) => return None,
    };
    let mut guids = Vec::new(alloc);
    let first = if is_all { 0 } else { plan.writers.len().saturating_sub(4) };
    for (place, line) in plan.writers.as_slice().iter().enumerate() {
        if place >= first {
            guids.push(line.guid).ok()?;
        }
    }
    Some(guids)
}

fn number(value: u64) -> Number
    ensures { result < 2 ^ 63 - 1 }
{
    if value == 0 || value >= GREATEST_NUMBER {
        return Number::one();
    }
    Number::at(value)
}

fn raw() -> Raw
    ensures { IsGoodRaw result }
{
    Raw {
        hash: Some(Key([0xaa; 16])),
        status: 0,
        stamp: None,
        lifespan: None,
        set: SetMark::NoSet,
        original: None,
        form: Form::Data,
        payload: Payload::of(Bytes::new()),
    }
}

fn fact(kind: Kind, writer: Guid, value: u64) -> Fact
    ensures { IsGoodFact result }
{
    match kind {
        Kind::Gap => Fact::Gap {
            writer,
            reader: EVERYBODY,
            start: number(value),
            set: Bits::empty(number(value.saturating_add(1))),
        },
        Kind::Sample => Fact::Data {
            writer,
            reader: EVERYBODY,
            number: number(value),
            raw: raw(),
        },
    }
}

fn entry(writer: Guid, value: u64) -> Entry
    ensures { HasShortNumber result }
{
    Entry::Took {
        moment: Ticks(5),
        writer,
        number: number(value),
        sample: Sample {
            key: Key([0xaa; 16]),
            act: Act::Write,
            stamp: Ticks(5),
            lifespan: None,
            set: SetMark::NoSet,
            original: None,
            form: Form::Data,
            payload: Payload::of(Bytes::new()),
        },
    }
}

// The number that a writer tells at its turn, from 0.
fn value_at(order: Order, turn: u64) -> u64 {
    let place = turn % 16;
    match order {
        Order::Forward => turn.saturating_add(1),
        Order::OneMissing => turn
            .saturating_sub(place)
            .saturating_add(if place == 15 { 1 } else { place.saturating_add(2) }),
    }
}

fn tell(hub: &mut Hub, alloc: Global, fact: Fact)
    requires { IsGoodFact fact }
{
    let mut facts = List::new(alloc);
    match facts.push(fact) {
        Ok(()) => {
            let _reply = hub.receive(alloc, Ticks(5), facts);
        }
        Err(_) => {}
    }
}

fn tell_all(hub: &mut Hub, alloc: Global, guids: &[Guid], kind: Kind, order: Order, turns: u64) {
    for turn in 0..turns {
        let value = value_at(order, turn);
        for guid in guids {
            tell(hub, alloc, fact(kind, *guid, value));
        }
    }
}

// How long the hub takes. 0: it admitted nothing.
fn time_hub(rt: &HostRuntime, text: &[u8], guids: &[Guid], kind: Kind, order: Order, turns: u64) -> io::Result<u128> {
    let Some(mut hub) = open_hub(rt.alloc(), text) else {
        return Ok(0);
    };
    let start = Instant::now(rt)?;
    tell_all(&mut hub, rt.alloc(), guids, kind, order, turns);
    let nanos = start.elapsed(rt)?.as_nanos().max(1);
    Ok(if hub.counts().entries == 0 { 0 } else { nanos })
}

fn admit_all(store: &mut Store, guids: &[Guid], turns: u64) {
    for turn in 0..turns {
        for guid in guids {
            let _room = store.reserve();
            let _admitted = store.admit(entry(*guid, turn.saturating_add(1)));
        }
    }
}

// How long the store alone takes for the same entries.
fn time_store(rt: &HostRuntime, text: &[u8], guids: &[Guid], turns: u64) -> io::Result<u128> {
    let Some(mut store) = open_store(rt.alloc(), text) else {
        return Ok(0);
    };
    let start = Instant::now(rt)?;
    admit_all(&mut store, guids, turns);
    Ok(start.elapsed(rt)?.as_nanos().max(1))
}

// How many turns each of so many writers has in so many facts: whole sixteens.
fn turns_of(facts: u64, writers: usize) -> u64 {
    if writers == 0 {
        return 0;
    }
    let turns = facts / writers as u64;
    turns.saturating_sub(turns % 16).max(16)
}

fn name(order: Order) -> &'static str {
    match order {
        Order::Forward => "order",
        Order::OneMissing => "missing",
    }
}

fn main(rt: HostRuntime) -> io::Result<()> {
    let mut text = Vec::new(rt.alloc());
    rt.stdin().read_to_end(&mut text)?;
    let (Some(all), Some(few)) = (writers(rt.alloc(), text.as_slice(), true), writers(rt.alloc(), text.as_slice(), false)) else {
        return Ok(());
    };
    for order in [Order::Forward, Order::OneMissing] {
        let turns = turns_of(GAPS, all.len());
        let nanos = time_hub(&rt, text.as_slice(), all.as_slice(), Kind::Gap, order, turns)?;
        let facts = turns.saturating_mul(all.len() as u64);
        println!(rt; "gaps {} {} {facts} {nanos} 0", name(order), all.len())?;
    }
    for order in [Order::Forward, Order::OneMissing] {
        let turns = turns_of(SAMPLES, few.len());
        let nanos = time_hub(&rt, text.as_slice(), few.as_slice(), Kind::Sample, order, turns)?;
        let alone = time_store(&rt, text.as_slice(), few.as_slice(), turns)?;
        let facts = turns.saturating_mul(few.len() as u64);
        println!(rt; "samples {} {} {facts} {nanos} {alone}", name(order), all.len())?;
    }
    Ok(())
}
E

plan() {
    printf 'prefix 0102030405060708\ntopic T transient hash 1 - - - - 0\n'
    awk -v count="$1" 'BEGIN { for (i = 1; i <= count; i++) printf "writer a1a1a1a1a1a1a1a1a1a1a1a1%06x02 T 1000\n", i }'
    printf 'end\n'
}

cd "$work/crates/hub_bench"
if ! plan 1 | rt run > "$work/build.log" 2>&1; then
    cat "$work/build.log" >&2
    exit 1
fi
for writers in 1 100 4000; do
    plan "$writers" | out/hub_bench
done > "$work/times"
awk '
    { line[NR] = $0; if ($5 == 0) { print $0 ": nothing was admitted"; failed = 1; exit } }
    $1 == "gaps" && (!best || $5 / $4 < best) { best = $5 / $4 }
    END {
        if (failed || NR != 12) exit 1
        for (i = 1; i <= NR; i++) {
            split(line[i], f, " ")
            what = sprintf("%s, %s, %d writers: %.0f facts a second", f[1], f[2] == "order" ? "in order" : "one missing", f[3], f[4] * 1e9 / f[5])
            if (f[1] == "gaps") {
                ratio = f[5] / f[4] / best
                printf "%s, %.1f times the fastest\n", what, ratio
                if (ratio >= 10) slow = 1
            } else {
                printf "%s, %.0f %% of it the store alone\n", what, 100 * f[6] / f[5]
            }
        }
        exit slow
    }' "$work/times"
