#!/usr/bin/env bash
# Time of a replay from the snapshot to the last change that the late reader has taken, over a link in memory that
# loses nothing: the session is made, the late reader asks, and each datagram is written, read and handled. Beside it
# stands the time in which the octets of the payloads are copied once. It prints both, the changes a second, and how
# many times as long the replay takes.
#
# Writes a small program into a folder of its own under the system's temporary folder, with copies of the crates that
# it stands on, has it proved and compiled there, runs it, and removes the folder. Libraries that are proved here already
# are taken over.
#
# Usage: bench/replay.sh [CHANGES], by default 10000 changes with payloads of 256 octets.
set -euo pipefail

changes="${1:-10000}"
top="$(cd "$(dirname "${BASH_SOURCE[0]}")/.." && pwd)"
work="$(mktemp -d)"
trap 'rm -rf "$work"' EXIT

mkdir -p "$work/crates/replay_bench/src"
"$top/tests/take_crates.sh" "$work" rel_writer
echo 'replay_bench: dur_base dur_view rel_writer rtps_message bytes' >> "$work/crates.txt"
git -C "$work" init -q

cat > "$work/crates/replay_bench/src/main.rt" <<E
//! Times a replay, and a copy of the octets of its payloads.
#![tactic(auto)]

ghost use Rattle.std.specs.Prelude.{◌≤◌, length};

use bytes::Bytes;
use dur_base::{
    Act, EntityId, Fact, Form, Guid, Key, List, Number, OutOfMemory, Payload, Prefix, Sample, SetMark, Ticks,
};
use dur_view::{Change, Snapshot};
use rel_writer::{Ids, LateReader, Session, are_sendable};
use rtps_message::facts;
use std::alloc::Global;
use std::io;
use std::time::{Clock, Instant};

const CHANGES: u64 = $changes;

const OWN: Prefix = Prefix([1, 2, 3, 4, 5, 6, 7, 8, 0, 0, 0, 1]);

const REPLAY: EntityId = EntityId([1, 0, 1, 2]);

const WRITER: Guid = Guid([0xa1; 16]);

const LATE: Guid = Guid([0xb2; 16]);

fn number(value: u64) -> Number {
    match Number::new(value) {
        Some(number) => number,
        None => Number::one(),
    }
}

fn change(alloc: Global, value: u64) -> Result<Change, OutOfMemory> {
    let octets = [(value % 251) as u8; 256];
    let payload = match Bytes::copy_from_slice(alloc, &octets) {
        Ok(payload) => payload,
        Err(_) => return Err(OutOfMemory),
    };
    let number = number(value);
    Ok(Change {
        original: WRITER,
        number,
        writer: WRITER,
        sample: Sample {
            key: Key([0xaa; 16]),
            act: Act::Write,
            stamp: Ticks(5),
            lifespan: None,
            set: SetMark::NoSet,
            original: Some((WRITER, number)),
            form: Form::Data,
            payload: Payload::of(payload),
        },
    })
}

fn changes(alloc: Global) -> Result<List<Change>, OutOfMemory> {
    let mut list = List::new(alloc);
    for value in 0..CHANGES {
        list.push(change(alloc, value.saturating_add(1))?)?;
    }
    Ok(list)
}

// Writes the DATA of a number, and hands it to the late reader.
fn send(session: &Session, late: &mut LateReader, at: u64, out: &mut [u8]) -> Result<(), OutOfMemory>
    requires { 65507 ≤ length out.old }
{
    let at = number(at);
    if at.get() <= session.last().get() {
        let len = session.data(at, out);
        let _ = late.on_datagram(&out[..len])?;
    }
    Ok(())
}

// What an ACKNACK asks for comes to the late reader.
fn answer(session: &mut Session, late: &mut LateReader, fact: &Fact, out: &mut [u8]) -> Result<(), OutOfMemory>
    requires { 65507 ≤ length out.old }
{
    if let Fact::Nack { set, .. } = fact {
        let asked = session.on_nack(set);
        let base = asked.numbers.base().get();
        for i in 0..asked.numbers.count() {
            if asked.numbers.has(i) {
                send(session, late, base.saturating_add(i as u64), out)?;
            }
        }
        if asked.beat {
            let len = session.beat(out);
            let _ = late.on_datagram(&out[..len])?;
        }
    }
    Ok(())
}

// The late reader asks once.
fn ask(alloc: Global, session: &mut Session, late: &mut LateReader, out: &mut [u8]) -> Result<(), OutOfMemory>
    requires { 65507 ≤ length out.old }
{
    let len = late.nack(out);
    let heard = facts(alloc, &out[..len], OWN)?;
    for fact in heard.facts.as_slice() {
        answer(session, late, fact, out)?;
    }
    Ok(())
}

// The replay, to its end. Answers how many changes were taken.
fn replay(alloc: Global, changes: List<Change>, out: &mut [u8]) -> Result<usize, OutOfMemory>
    requires { 65507 ≤ length out.old }
{
    let ids = Ids {
        own: OWN,
        writer: REPLAY,
        reader: LATE,
        keyed: true,
    };
    if !are_sendable(changes.as_slice(), true) {
        return Ok(0);
    }
    let mut session = Session::new(Snapshot { changes }, ids);
    let mut late = LateReader::new(alloc, LATE, [1, 2, 3, 4, 5, 6, 7, 8], REPLAY)?;
    for _ in 0..CHANGES {
        if late.done() {
            break;
        }
        ask(alloc, &mut session, &mut late, out)?;
    }
    Ok(late.taken().len())
}

// As many octets as all payloads have.
fn octets(alloc: Global, value: u8) -> Result<Vec<u8>, OutOfMemory> {
    let chunk = [value; 256];
    let mut octets = Vec::new(alloc);
    for _ in 0..CHANGES {
        octets.extend_from_slice(&chunk)?;
    }
    Ok(octets)
}

fn copy(from: &[u8], to: &mut [u8]) {
    if from.len() == to.len() {
        to.copy_from_slice(from);
    }
}

fn run(rt: &HostRuntime) -> io::Result<()> {
    let Ok(changes) = changes(rt.alloc()) else {
        return Ok(());
    };
    let Ok(from) = octets(rt.alloc(), 7) else {
        return Ok(());
    };
    let Ok(mut to) = octets(rt.alloc(), 0) else {
        return Ok(());
    };
    let mut out = [0; 65507];
    let start = Instant::now(rt)?;
    let taken = replay(rt.alloc(), changes, &mut out).unwrap_or(0);
    let replayed = start.elapsed(rt)?.as_nanos().max(1);
    let start = Instant::now(rt)?;
    copy(from.as_slice(), to.as_mut_slice());
    let copied = start.elapsed(rt)?.as_nanos().max(1);
    println!(rt; "replay {taken} {replayed} {copied}")
}

fn main(rt: HostRuntime) -> io::Result<()> {
    run(&rt)
}
E

cd "$work/crates/replay_bench"
if ! rt run > "$work/out.log" 2> "$work/err.log"; then
    cat "$work/out.log" "$work/err.log" >&2
    exit 1
fi
awk -v wanted="$changes" '
    /^replay / {
        if ($2 != wanted) { print $2 " were taken, and not " wanted; bad = 1 }
        printf "%d changes: %.2f ms, %d a second; their octets copied: %.3f ms; ratio %.0f\n", $2, $3 / 1e6, $2 * 1e9 / $3, $4 / 1e6, $3 / $4
        found = 1
    }
    END { exit found ? bad : 1 }' "$work/out.log"
