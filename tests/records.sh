#!/usr/bin/env bash
# Reads some 27,000 texts of the journal's two kinds and versions, one octet changed at each place or cut off there, by
# the crate's own readers and by a reader in Python, and compares what each says: good, or the same first break. What is
# good in version 2 must be written as it was read. The program that reads is made, proved and built in a temporary
# folder. Outside the gate, since it proves the crates below it; skipped where python3 or rt is missing.
set -euo pipefail
cd "$(dirname "$0")/.."
for tool in python3 rt; do
    command -v "$tool" > /dev/null || { echo "tests/records.sh: skipped, $tool is missing"; exit 0; }
done
work=$(mktemp -d)
trap 'rm -rf "$work"' EXIT

mkdir -p "$work/crates/record_faults/src"
tests/take_crates.sh "$work" dur_record
echo 'record_faults: bytes dur_base dur_record' >> "$work/crates.txt"
cat > "$work/crates/record_faults/src/main.rt" <<'PROGRAM'
//! Prints what each text of its input is: good, or its first break.
#![tactic(auto)]

use bytes::Bytes;
use dur_base::Octets;
use dur_record::{
    TextFault, read_entries, read_entries_1, read_view, read_view_1, write_entries, write_view,
};
use std::alloc::Global;
use std::io::{self, Read};

// None for a good text that is written again as it was read, where it is of version 2.
fn fault_of(alloc: Global, kind: u8, text: Bytes<Global>, octets: &[u8]) -> Option<TextFault> {
    match kind {
        1 => read_entries_1(alloc, text).err(),
        2 => match read_entries(alloc, text) {
            Ok(entries) => {
                let mut out = Octets::new(alloc);
                match write_entries(&mut out, &entries) {
                    Ok(()) if out.as_slice() == octets => None,
                    _ => Some(TextFault::OutOfMemory),
                }
            }
            Err(fault) => Some(fault),
        },
        3 => read_view_1(alloc, text).err(),
        _ => match read_view(alloc, text) {
            Ok(view) => {
                let mut out = Octets::new(alloc);
                match write_view(&mut out, &view) {
                    Ok(()) if out.as_slice() == octets => None,
                    _ => Some(TextFault::OutOfMemory),
                }
            }
            Err(fault) => Some(fault),
        },
    }
}

fn say(rt: &HostRuntime, fault: Option<TextFault>) -> io::Result<()> {
    match fault {
        None => println!(rt; "good"),
        Some(TextFault::Cut(place)) => println!(rt; "Cut {place}"),
        Some(TextFault::BadTag(place)) => println!(rt; "BadTag {place}"),
        Some(TextFault::BadField(place)) => println!(rt; "BadField {place}"),
        Some(TextFault::OutOfMemory) => println!(rt; "not as it was read"),
    }
}

fn main(rt: HostRuntime) -> io::Result<()> {
    let mut input = Vec::new(rt.alloc());
    rt.stdin().read_to_end(&mut input)?;
    let mut rest = input.as_slice();
    for _ in 0..u64::MAX {
        let [kind, a, b, c, d, behind @ ..] = rest else {
            break;
        };
        let len = u32::from_le_bytes([*a, *b, *c, *d]) as usize;
        let (octets, later) = behind.split_at(len.min(behind.len()));
        let text = Bytes::copy_from_slice(rt.alloc(), octets)?;
        say(&rt, fault_of(rt.alloc(), *kind, text, octets))?;
        rest = later;
    }
    Ok(())
}
PROGRAM

(cd "$work/crates/record_faults" && rt run < /dev/null > "$work/build.log" 2>&1) || {
    cat "$work/build.log"
    exit 1
}
python3 tests/models/record_model.py texts "$work/texts"
python3 tests/models/record_model.py faults "$work/texts" > "$work/model"
"$work/crates/record_faults/out/record_faults" < "$work/texts" > "$work/program"
cmp "$work/model" "$work/program"
echo "tests/records.sh: $(wc -l < "$work/model") texts, the same of each"
