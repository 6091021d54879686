#!/bin/sh
# Prints how long the lock takes: a `take` with its `give` where nobody else wants the value, the rate of four
# threads over four locks beside that of one thread, and four threads on one lock, with how many turns each of
# them had. It tests nothing. The aims stand beside the figures; the second wants four free processors.
#
# The value under the lock counts the turns and has no entries, so the times are the lock's alone. A thread
# with a lock of its own makes it itself. Threads on one lock go on until the value has counted so many turns.
# The time is taken inside the program, as LLVM builds it, and is the best of five runs; the turns are those
# of the last.
#
# The program and the libraries below it are built in a new folder, which takes 2 GB while it is there.
set -eu
cd "$(dirname "$0")/.."
. bench/repository.sh

program=lock_times
libraries='kb_base kb_lock atomic_table'

write_program() {
    cat <<'END'
//! Times the lock. A line that is printed has what is timed, how many turns were taken, and the nanoseconds
//! that they took; for threads on one lock also the turns of each.
#![tactic(auto)]

ghost use Rattle.std.specs.Prelude.{◌≡◌, []};
ghost use Rattle.kb_lock.specs.Passes.{idle};

use kb_lock::{Counted, Held, Pass};
use std::alloc::{AllocGlobal, Global};
use std::io;
use std::sync::Wait;
use std::thread;
use std::thread::Threads;
use std::time::{Clock, Instant};

const RUNS: u32 = 5;

/// How many turns a thread takes on a lock of its own.
const OWN: u64 = 2_000_000;

/// How many turns four threads take on one lock.
const SHARED: u64 = 400_000;

/// Counts the turns.
#[derive(Drop)]
struct Tally {
    turns: u64,
}

impl Counted for Tally {
    type Entry = ();

    ghost history = { λ _. [] };

    fn count(&self) -> u64 {
        0
    }
}

/// Takes a turn, and gives how many were taken.
#[tactic(auto, using(kb_lock::proofs::Prefixes::prefix_self))]
fn turn<R: Wait>(rt: &R, held: &Held<Tally>, pass: &mut Pass<Tally>) -> u64
    requires { pass.old ≡ idle held.now pass.old.seen }
    ensures { pass.new ≡ idle held.now pass.new.seen }
{
    let mut turn = held.take(rt, pass);
    let turns = turn.value.turns.wrapping_add(1);
    turn.value.turns = turns;
    held.give(pass, turn);
    turns
}

/// Takes turns until so many were taken, and gives how many this thread had.
fn turns<R: Wait>(rt: &R, held: &Held<Tally>, own: Pass<Tally>, until: u64) -> u64
    requires { own ≡ idle held.now own.seen }
{
    let mut pass = own;
    let mut count = 0u64;
    for _turn in 0..until {
        count = count.wrapping_add(1);
        if turn(rt, held, &mut pass) >= until {
            break;
        }
    }
    count
}

/// Takes turns on a lock of its own.
fn alone<R: Wait>(rt: &R, alloc: Global) -> u64 {
    let Ok((held, pass)) = Held::new(alloc, Tally { turns: 0 }) else {
        return 0;
    };
    turns(rt, &held, pass, OWN)
}

fn two_alone<R: Threads + Wait + Sync>(rt: &R, alloc: Global) -> (u64, u64) {
    thread::join(rt, || alone(rt, alloc), || alone(rt, alloc))
}

fn four_alone<R: Threads + Wait + Sync>(rt: &R, alloc: Global) -> u64 {
    let (a, b) = thread::join(rt, || two_alone(rt, alloc), || two_alone(rt, alloc));
    a.0.wrapping_add(a.1).wrapping_add(b.0).wrapping_add(b.1)
}

fn two_shared<R: Threads + Wait + Sync>(
    rt: &R,
    held: &Held<Tally>,
    own: Pass<Tally>,
) -> (u64, u64)
    requires { own ≡ idle held.now own.seen }
{
    let mut pass = own;
    let twin = held.split(&mut pass);
    thread::join(
        rt,
        move ||
            requires { pass ≡ idle held.now pass.seen }
        { turns(rt, held, pass, SHARED) },
        move ||
            requires { twin ≡ idle held.now twin.seen }
        { turns(rt, held, twin, SHARED) },
    )
}

fn four_shared<R: Threads + Wait + Sync>(
    rt: &R,
    held: &Held<Tally>,
    own: Pass<Tally>,
) -> ((u64, u64), (u64, u64))
    requires { own ≡ idle held.now own.seen }
{
    let mut pass = own;
    let twin = held.split(&mut pass);
    thread::join(
        rt,
        move ||
            requires { pass ≡ idle held.now pass.seen }
        { two_shared(rt, held, pass) },
        move ||
            requires { twin ≡ idle held.now twin.seen }
        { two_shared(rt, held, twin) },
    )
}

fn time_one<R: Wait + Clock + Print + AllocGlobal>(rt: &R) -> io::Result<()> {
    let start = Instant::now(rt)?;
    let count = alone(rt, rt.alloc());
    let nanos = start.elapsed(rt)?.as_nanos();
    println!(rt; "one thread,{count},{nanos}")
}

fn time_four<R: Threads + Wait + Clock + Print + AllocGlobal + Sync>(rt: &R) -> io::Result<()> {
    let start = Instant::now(rt)?;
    let count = four_alone(rt, rt.alloc());
    let nanos = start.elapsed(rt)?.as_nanos();
    println!(rt; "four threads on four locks,{count},{nanos}")
}

fn time_shared<R: Threads + Wait + Clock + Print + AllocGlobal + Sync>(rt: &R) -> io::Result<()> {
    let Ok((held, pass)) = Held::new(rt.alloc(), Tally { turns: 0 }) else {
        return Ok(());
    };
    let start = Instant::now(rt)?;
    let (a, b) = four_shared(rt, &held, pass);
    let nanos = start.elapsed(rt)?.as_nanos();
    println!(rt; "four threads on one lock,{SHARED},{nanos},{},{},{},{}", a.0, a.1, b.0, b.1)
}

fn main(rt: HostRuntime) -> io::Result<()> {
    for _ in 0..RUNS {
        time_one(&rt)?;
        time_four(&rt)?;
        time_shared(&rt)?;
    }
    Ok(())
}
END
}

# What the program's loop keeps.
write_proof() {
    cat <<'END'
use Rattle.std.proofs.Common.{◌≡◌}
use Rattle.kb_lock.specs.Passes.{idle}
use Rattle.lock_times.proofs.turns.Given as goal

abbrev pub invariant-loop-turn : goal.invariant-loop-turn
invariant-loop-turn g l = l.pass ≡ idle l.fn.held l.pass.seen
END
}

make_repository
cp HANDLES "$work"
mkdir -p "$work/crates/$program/proofs/turns"
write_proof >"$work/crates/$program/proofs/turns/Invariants.antt"
take_times
best_times | awk -F , '
    { nanos[$1] = $2 }
    END {
        printf "%-36s%9.1f ns   aim 60 ns\n", "take and give, one thread", nanos["one thread"]
        printf "%-36s%9.1f times one thread   aim 3 times\n", "rate of four threads on four locks",
            nanos["one thread"] / nanos["four threads on four locks"]
        printf "%-36s%9.1f ns a turn\n", "four threads on one lock", nanos["four threads on one lock"]
    }'
grep '^four threads on one lock' "$work/times" | tail -n 1 | awk -F , '
    { printf "%-36s%9d %d %d %d\n", "  turns of each thread", $4, $5, $6, $7 }'
