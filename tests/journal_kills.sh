#!/usr/bin/env bash
# A program that opens the journal of two real files, compacts it and then commits entries one after another is killed by
# its process id 100 times, each time at a random moment, and started again over the same files. Each opening must find
# all that was said to be stored, and at most the entry that was being stored beside it, under a greater epoch; at the
# end both files are looked at. The program is made, proved and built in a temporary folder, over the libraries that are
# proved here already where there are some. Outside the gate; skipped where python3 or rt is missing.
#
# Usage: tests/journal_kills.sh [KILLS [SEED]], by default 100 kills by the seed 1.
set -euo pipefail
cd "$(dirname "$0")/.."
for tool in python3 rt; do
    command -v "$tool" > /dev/null || { echo "tests/journal_kills.sh: skipped, $tool is missing"; exit 0; }
done
work=$(mktemp -d)
trap 'rm -rf "$work"' EXIT

mkdir -p "$work/crates/journal_kills/src" "$work/files"
tests/take_crates.sh "$work" dur_journal
echo 'journal_kills: bytes dur_base dur_journal dur_outside dur_qos dur_record dur_view' >> "$work/crates.txt"
cat > "$work/crates/journal_kills/src/main.rt" <<'PROGRAM'
//! Opens the journal of the files of a folder, compacts it, and commits entries one after another. It prints what it
//! found, and each number once it is stored.
#![tactic(auto)]

ghost use Rattle.std.specs.Prelude.{◌≡◌, ◌≤◌, ◌-◌, ◌^◌, IfOk, IfSome, length};
ghost use Rattle.std.specs.List.{AllByRecursion};
ghost use Rattle.dur_qos.specs.Good.{GoodPlan};
ghost use Rattle.dur_record.specs.Entries.{IsGoodEntry};
ghost use Rattle.dur_journal.specs.Histories.{IsBase};

use bytes::Bytes;
use dur_base::{Act, Entry, Form, Guid, Key, List, Number, Payload, Sample, SetMark, Ticks};
use dur_journal::{Journal, Look, Opened, look};
use dur_outside::{FileDisk, FileId};
use dur_qos::{Plan, PlanFault, PlanReader};
use dur_view::{Batch, View};
use std::alloc::Global;
use std::fs::{File, OpenOptions};
use std::path::PathBuf;
use std::{env, io};

const PLAN: &[u8] = b"prefix 0102030405060708\ntopic T persistent hash 4 - - - - 0\n\
writer a1a1a1a1a1a1a1a1a1a1a1a100000102 T -\nend\n";

const WRITER: Guid = Guid([
    0xa1, 0xa1, 0xa1, 0xa1, 0xa1, 0xa1, 0xa1, 0xa1, 0xa1, 0xa1, 0xa1, 0xa1, 0, 0, 1, 2,
]);

fn read_plan(alloc: Global) -> Result<Plan, PlanFault>
    ensures { IfOk result (λ p. GoodPlan p) }
{
    let mut reader = PlanReader::new(alloc);
    match reader.push(PLAN) {
        Ok(_) => reader.finish(),
        Err(fault) => Err(fault),
    }
}

fn file(rt: &HostRuntime, folder: &str, name: &str) -> io::Result<File> {
    let path = PathBuf::from_str(rt.alloc(), folder)?.join(rt.alloc(), name)?;
    let mut options = OpenOptions::new();
    options.read(true).write(true).create(true);
    options.open(rt, &path)
}

fn entry(number: Number) -> Entry
    requires { number ≤ 2 ^ 63 - 2 }
    ensures { IsGoodEntry result }
{
    Entry::Took {
        moment: Ticks(number.get()),
        writer: WRITER,
        number,
        sample: Sample {
            key: Key([0xaa; 16]),
            act: Act::Write,
            stamp: Ticks(0),
            lifespan: None,
            set: SetMark::NoSet,
            original: None,
            form: Form::Data,
            payload: Payload::of(Bytes::new()),
        },
    }
}

fn batch(alloc: Global, from: u64, number: Number) -> Option<Batch>
    requires { number ≤ 2 ^ 63 - 2 }
    ensures { IfSome result (λ b. (b.from ≡ from) × (length b.entries ≤ 4096) × AllByRecursion IsGoodEntry b.entries) }
{
    let mut entries = List::new(alloc);
    entries.push(entry(number)).ok()?;
    Some(Batch { from, entries })
}

// The number that is handled next.
fn next_of(view: &View) -> u64 {
    match view.writers.as_slice() {
        [writer] => writer.next.get(),
        _ => 0,
    }
}

// Stores the entry of this number; None where nothing more can be stored.
fn store(alloc: Global, journal: Journal<FileDisk>, number: u64) -> Option<Journal<FileDisk>> {
    if number >= 1 << 62 || journal.appended() >= 1 << 20 {
        return None;
    }
    let number = Number::new(number)?;
    let batch = batch(alloc, journal.position(), number)?;
    match journal.commit(alloc, &batch) {
        Ok((journal, _)) => Some(journal),
        Err(_) => None,
    }
}

fn compacted(alloc: Global, opened: Opened<FileDisk>) -> Option<Journal<FileDisk>>
    requires { IsBase opened.view }
{
    let batch = Batch {
        from: opened.journal.position(),
        entries: List::new(alloc),
    };
    match opened.journal.compact(alloc, &batch, &opened.view) {
        Ok((journal, _)) => Some(journal),
        Err(_) => None,
    }
}

fn go_on(rt: &HostRuntime, opened: Opened<FileDisk>) -> io::Result<()>
    requires { IsBase opened.view }
{
    let mut next = next_of(&opened.view);
    println!(rt; "opened {} {next}", opened.epoch)?;
    let Some(mut journal) = compacted(rt.alloc(), opened) else {
        return println!(rt; "not compacted");
    };
    println!(rt; "compacted")?;
    for _ in 0..u64::MAX {
        let Some(stored) = store(rt.alloc(), journal, next) else {
            return println!(rt; "ended");
        };
        journal = stored;
        println!(rt; "stored {next}")?;
        next = next.saturating_add(1);
    }
    Ok(())
}

fn seen(rt: &HostRuntime, disk: &mut FileDisk, file: FileId) -> io::Result<()> {
    match look(rt.alloc(), disk, file) {
        Ok(Look::Blank) => println!(rt; "blank"),
        Ok(Look::Closed) => println!(rt; "closed"),
        Ok(Look::Open { .. }) => println!(rt; "open"),
        Ok(Look::Broken(_)) => println!(rt; "broken"),
        Err(_) => println!(rt; "not read"),
    }
}

fn main(rt: HostRuntime) -> io::Result<()> {
    let mut words = env::args(&rt)?.skip(1);
    let Some(folder) = words.next() else {
        return println!(rt; "usage: journal_kills FOLDER [look]");
    };
    let zero = file(&rt, folder.as_str(), "journal.0")?;
    let one = file(&rt, folder.as_str(), "journal.1")?;
    let mut disk = FileDisk::new(zero, one);
    if words.next().is_some() {
        seen(&rt, &mut disk, FileId::Zero)?;
        return seen(&rt, &mut disk, FileId::One);
    }
    let Ok(plan) = read_plan(rt.alloc()) else {
        return println!(rt; "no plan");
    };
    match Journal::open(rt.alloc(), disk, &plan) {
        Ok(opened) => go_on(&rt, opened),
        Err(_) => println!(rt; "refused"),
    }
}
PROGRAM
(cd "$work/crates/journal_kills" && rt run -- "$work/none" > "$work/build.log" 2>&1) || true
[ -x "$work/crates/journal_kills/out/journal_kills" ] || { cat "$work/build.log"; exit 1; }

cat > "$work/kills.py" <<'PROGRAM'
import random, signal, subprocess, sys, time
program, folder, kills, seed = sys.argv[1], sys.argv[2], int(sys.argv[3]), int(sys.argv[4])
chance = random.Random(seed)
said, epoch, stored, compactions, before = 0, 0, 0, 0, 0

def fail(text):
    print("tests/journal_kills.sh:", text)
    sys.exit(1)

for kill in range(kills + 1):
    process = subprocess.Popen([program, folder], stdout=subprocess.PIPE)
    # Some are killed in the opening or the compaction, most of them later.
    time.sleep(chance.choice([0.002, 0.01, 0.03, 0.1, 0.2]) * (0.5 + chance.random()) if kill < kills else 0.2)
    process.send_signal(signal.SIGKILL)
    lines = process.communicate()[0].decode().split("\n")[:-1]
    if not lines:
        before += 1
        continue
    word, *numbers = lines[0].split()
    if word != "opened":
        fail(f"after {kill} kills: {lines[0]}")
    if int(numbers[0]) <= epoch:
        fail(f"after {kill} kills: epoch {numbers[0]} after {epoch}")
    found = int(numbers[1]) - 1
    if not said <= found <= said + 1:
        fail(f"after {kill} kills: {said} was said to be stored, and {found} was found")
    epoch, said = int(numbers[0]), found
    for line in lines[1:]:
        if line == "compacted":
            compactions += 1
            epoch += 1
        elif line == f"stored {said + 1}":
            said, stored = said + 1, stored + 1
        else:
            fail(f"after {kill} kills: {line}")
looks = subprocess.run([program, folder, "look"], stdout=subprocess.PIPE).stdout.decode().split()
if "broken" in looks or "open" not in looks:
    fail(f"at the end the files are {looks}")
print(f"tests/journal_kills.sh: {kills} kills, {before} of them before the opening was told, {compactions} compactions, "
      f"{stored} entries stored, ok")
PROGRAM
python3 "$work/kills.py" "$work/crates/journal_kills/out/journal_kills" "$work/files" "${1:-100}" "${2:-1}"
