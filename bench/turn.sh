#!/usr/bin/env bash
# Turns per second over an empty call, by 1, 2 and 4 threads, as a ratio to a Mutex of std around nothing.
#
# Writes a small program into a folder of its own under the system's temporary folder, with copies of the crates that
# it stands on, has it proved and compiled there, runs it, and removes the folder. Nothing here is a test: it prints
# what it measured. With the argument of a number, that many turns are made at each line (1000000 if none is given).
set -euo pipefail

rounds="${1:-1000000}"
top="$(cd "$(dirname "${BASH_SOURCE[0]}")/.." && pwd)"
work="$(mktemp -d)"
trap 'rm -rf "$work"' EXIT

mkdir -p "$work/crates/turn_bench"/{src,proofs/make_turns,proofs/split_all}
"$top/tests/take_crates.sh" "$work" dur_turn
echo 'turn_bench: dur_turn dur_base atomic_table' >> "$work/crates.txt"
git -C "$work" init -q

cat > "$work/crates/turn_bench/src/main.rt" <<E
//! Times empty turns, and empty critical sections of a Mutex.
#![tactic(auto)]

ghost use Rattle.std.specs.Prelude.{◌≡◌, ℕ, ◌+◌, ◌<◌, ◌^◌, length, IfOk, List};
ghost use Rattle.std.specs.List.{All};
ghost use Rattle.dur_turn.specs.Passes.{IsPassOf, IsRootOf};

use dur_base::OutOfMemory;
use dur_turn::{Call, Pass, Root, Stands, Turn};
use std::alloc::Global;
use std::io;
use std::sync::{Mutex, Wait};
use std::thread;
use std::thread::Threads;
use std::time::{Clock, Instant};

const ROUNDS: usize = $rounds;

#[derive(Drop)]
struct Nothing {
    unused: u64,
}

impl Stands for Nothing {
    ghost use Rattle.std.specs.Prelude.{false};

    type Event = u64;

    ghost stands = { λ start log v. Unit {0} };

    ghost is_lone = { λ e. false };

    ghost alone = { λ v. tt };
}

#[derive(Drop)]
struct Empty;

impl Call<Nothing> for Empty {
    ghost use Rattle.std.specs.Prelude.{◌≡◌, false, refl};

    type Reply = ();

    ghost lone = { λ _. false };

    ghost asks = { λ _ _ _. Unit {0} };

    ghost told = { λ _ _ e. e ≡ 0 };

    ghost lone_told = { λ c r e h. refl };

    fn run(self, _value: &mut Nothing) {}
}

#[derive(Drop)]
struct Job {
    pass: Pass<Nothing>,
    times: usize,
}

fn make_turns<R: Wait>(rt: &R, turn: &Turn<Nothing>, pass: &mut Pass<Nothing>, times: usize)
    requires { IsPassOf turn.now pass.old }
    ensures { IsPassOf turn.now pass.new }
{
    for _ in 0..times {
        turn.with(rt, pass, Empty);
    }
}

fn split_all(alloc: Global, turn: &Turn<Nothing>, root: &mut Root<Nothing>, count: usize, times: usize) -> Result<Vec<Job>, OutOfMemory>
    requires own { IsRootOf turn.now root.old }
    requires room { root.old.out + count < 2 ^ 32 }
    ensures { IfOk result (λ v. (length v.items ≡ count) × All (λ j. IsPassOf turn.now j.pass) v.items) }
{
    let mut jobs = Vec::new(alloc);
    for _ in 0..count {
        let pass = turn.split(root);
        if jobs.push(Job { pass, times }).is_err() {
            return Err(OutOfMemory);
        }
    }
    Ok(jobs)
}

fn run_turns<R: Threads + Wait + Sync>(rt: &R, turn: &Turn<Nothing>, jobs: &mut [Job])
    requires some { 0 < length jobs.old }
    requires own { All (λ j. IsPassOf turn.now j.pass) jobs.old }
{
    let threads = jobs.len();
    thread::for_each_mut(rt, jobs, threads, &|_, job| { make_turns(rt, turn, &mut job.pass, job.times) });
}

fn run_locks<R: Threads + Wait + Sync>(rt: &R, mutex: &Mutex<Nothing>, jobs: &mut [usize])
{
    let threads = jobs.len().max(1);
    thread::for_each_mut(rt, jobs, threads, &|_, times| {
        for _ in 0..*times {
            let _guard = mutex.lock(rt);
        }
    });
}

fn per_second(rounds: usize, nanos: u128) -> u128 {
    rounds as u128 * 1_000_000_000 / nanos.max(1)
}

fn one_line<R: Threads + Wait + Sync + Clock + Print>(rt: &R, alloc: Global, threads: usize) -> io::Result<()>
    requires { (0 < threads) × (threads < 2 ^ 32) }
{
    let each = ROUNDS / threads;
    let Ok((turn, mut root)) = Turn::open(alloc, Nothing { unused: 0 }) else {
        return Ok(());
    };
    let Ok(mut jobs) = split_all(alloc, &turn, &mut root, threads, each) else {
        return Ok(());
    };
    let start = Instant::now(rt)?;
    run_turns(rt, &turn, jobs.as_mut_slice());
    let turns = per_second(ROUNDS, start.elapsed(rt)?.as_nanos());
    let mutex = Mutex::new(Nothing { unused: 0 });
    let mut times = Vec::new(alloc);
    for _ in 0..threads {
        times.push(each)?;
    }
    let start = Instant::now(rt)?;
    run_locks(rt, &mutex, times.as_mut_slice());
    let locks = per_second(ROUNDS, start.elapsed(rt)?.as_nanos());
    println!(rt; "{threads} threads: {turns} turns a second, {locks} locks a second, ratio {}%", turns.saturating_mul(100) / locks.max(1))
}

fn main(rt: HostRuntime) -> io::Result<()> {
    one_line(&rt, rt.alloc(), 1)?;
    one_line(&rt, rt.alloc(), 2)?;
    one_line(&rt, rt.alloc(), 4)
}
E
cat > "$work/crates/turn_bench/proofs/make_turns/Invariants.antt" <<'E'
use Rattle.dur_turn.specs.Passes.{IsPassOf}
use Rattle.turn_bench.proofs.make_turns.Given as goal

abbrev pub invariant-loop : goal.invariant-loop
invariant-loop g l = IsPassOf l.turn l.pass
E
cat > "$work/crates/turn_bench/proofs/split_all/Invariants.antt" <<'E'
use Rattle.std.proofs.Common.{◌≡◌, ◌+◌, length}
use Rattle.std.specs.List.{All}
use Rattle.dur_turn.specs.Passes.{IsPassOf, IsRootOf}
use Rattle.turn_bench.proofs.split_all.Given as goal

abbrev pub invariant-loop : goal.invariant-loop
invariant-loop l = record {
  own : IsRootOf l.turn l.root;
  long : length l.jobs.items ≡ l.counter;
  each : All (λ j. IsPassOf l.turn j.pass) l.jobs.items;
  out : l.root.out ≡ l.initial.root.out + l.counter;
}
E

cd "$work/crates/turn_bench"
if ! rt run > "$work/out.log" 2> "$work/err.log"; then
    cat "$work/out.log" "$work/err.log" >&2
    exit 1
fi
grep 'threads:' "$work/out.log"
