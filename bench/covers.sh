#!/bin/sh
# Prints how long it takes to bring a cover up to what is due: where nothing changes, at 120 and at 240
# monthly stretches, and where 500 stretches are repaired, or are repaired and billed by another plan. It
# tests nothing. The aims stand beside the figures.
#
# A call is timed together with the drop of the cover and the items that it gives. The time is taken inside
# the program, as LLVM builds it, and is the best of five runs of many calls.
#
# The program and the libraries below it are built in a new folder, which takes 3 GB while it is there.
set -eu
cd "$(dirname "$0")/.."
. bench/repository.sh

program=covers_times
libraries='kb_base kb_days kb_money kb_sharing kb_catalog kb_align kb_timeline kb_blocking kb_credit kb_due
    kb_events kb_tree'
libraries=$(echo $libraries)

write_program() {
    cat <<'END'
//! Times covers. A line that is printed has what is timed, how many calls were made, the nanoseconds that
//! they took, and how many new items they gave.
#![tactic(auto)]
ghost use Rattle.std.specs.Prelude.{◌≡◌, ◌≤◌, ◌<◌, ◌^◌, map};
ghost use Rattle.kb_due.specs.CellStretches.{stretch_of};
ghost use Rattle.kb_tree.specs.Covers.{ArePieces, IsAbove};

mod sound_pieces;

use kb_base::NoMemory;
use kb_days::{Bcd, mark};
use kb_due::{Cell, Piece};
use kb_money::Minor;
use kb_timeline::PlanRef;
use kb_tree::{Cover, ItemNo, Steps};
use sound_pieces::are_sound;
use std::alloc::Global;
use std::io;
use std::marker::Brand;
use std::sync::ledger::{Blank, Ledger};
use std::time::Instant;

const RUNS: u32 = 5;

const CALLS: u32 = 5_000;

/// January 2000.
const FIRST_MONTH: u32 = 360;

fn main(rt: HostRuntime) -> io::Result<()> {
    time_all::<Brand>(&rt, Blank::new(1))
}

fn time_all<L: Ledger>(rt: &HostRuntime, blank: Blank) -> io::Result<()>
    requires name { blank.name ≡ L.name }
    requires parts { blank.parts ≡ L.parts }
    requires some { 0 < blank.parts }
{
    let mut steps = Steps::<L>::new(blank);
    time(rt, "120 unchanged", 120, (120, 0), &mut steps)?;
    time(rt, "240 unchanged", 240, (240, 0), &mut steps)?;
    time(rt, "500 repaired", 500, (0, 0), &mut steps)?;
    time(rt, "500 repaired and billed", 500, (500, 1), &mut steps)
}

/// Times a cover of so many months, where so many are due by the plan at a place.
fn time<L: Ledger>(
    rt: &HostRuntime,
    name: &str,
    months: u32,
    due: (u32, u32),
    steps: &mut Steps<L>,
) -> io::Result<()>
    requires before { months ≤ 1200 }
    requires after { due.0 ≤ 1200 }
{
    let alloc = rt.alloc();
    let (Ok(before), Ok(after)) = (months_of(alloc, months, 0), months_of(alloc, due.0, due.1)) else {
        return Err(io::ErrorKind::OutOfMemory.into());
    };
    if !are_sound(&before) || !are_sound(&after) {
        return Err(io::ErrorKind::InvalidData.into());
    }
    let Ok((cover, items)) = Cover::new(alloc).reconcile(alloc, &before, 1, steps) else {
        return Err(io::ErrorKind::OutOfMemory.into());
    };
    let first = 1 + items.len() as u64;
    if first > 1_000_000 {
        return Err(io::ErrorKind::InvalidData.into());
    }
    for _ in 0..RUNS {
        time_run(rt, name, &cover, &after, first, steps)?;
    }
    Ok(())
}

fn time_run<L: Ledger>(
    rt: &HostRuntime,
    name: &str,
    cover: &Cover,
    pieces: &[Piece],
    first: ItemNo,
    steps: &mut Steps<L>,
) -> io::Result<()>
    requires pieces { ArePieces (map stretch_of pieces.now) }
    requires above { IsAbove first cover.now }
    requires room { first ≤ 2 ^ 62 }
{
    let mut made = 0u64;
    let start = Instant::now(rt)?;
    for _ in 0..CALLS {
        let Ok((_, items)) = cover.reconcile(rt.alloc(), pieces, first, steps) else {
            return Err(io::ErrorKind::OutOfMemory.into());
        };
        made = made.wrapping_add(items.len() as u64);
    }
    let nanos = start.elapsed(rt)?.as_nanos();
    // What was made is printed too, so that no call can be left out.
    println!(rt; "{name},{CALLS},{nanos},{made}")
}

/// A piece for each of some months, by the plan at a place, at 1000 a month.
fn months_of(alloc: Global, months: u32, plan: u32) -> Result<Vec<Piece>, NoMemory>
    requires few { months ≤ 1200 }
{
    let (Some(first), Some(price)) = (Bcd::new(1), Minor::new(1000)) else {
        return Err(NoMemory);
    };
    let mut pieces = Vec::new(alloc);
    for turn in 0..months {
        let month = FIRST_MONTH + turn;
        let (from, to) = (mark(month, first), mark(month + 1, first));
        let cell = Cell {
            plan: PlanRef { version: 0, list: 0, plan },
            phase: 0,
            start: from,
            end: to,
            price,
        };
        pieces.push(Piece { from, to, cell })?;
    }
    Ok(pieces)
}
END
}

# The ledger of a blank with one part.
write_ledger() {
    cat <<'END'
use Rattle.covers_times.proofs.main.Given as goal

abbrev pub ghosts-time_all : goal.ghosts-time_all
ghosts-time_all a = record { name = a.blank.name; parts = a.blank.parts }
END
}

# At first there is no bill.
write_start() {
    cat <<'END'
use Rattle.kb_tree.proofs.NoCover.{above-no_cover}
use Rattle.covers_times.proofs.time.Goals as goal

pub reconcile-requires-clause-above : goal.reconcile-requires-clause-above
reconcile-requires-clause-above g c = rw c.new.ensures (above-no_cover 1)
END
}

make_repository
at="$work/crates/$program"
mkdir -p "$at/proofs/main" "$at/proofs/time"
cp crates/tests_due/src/covers/sound_pieces.rt "$at/src"
cp -r crates/tests_due/proofs/covers/sound_pieces "$at/proofs"
grep -rl tests_due "$at" | xargs sed -i "s/tests_due.proofs.covers/$program.proofs/; s/tests_due/$program/"
write_ledger >"$at/proofs/main/Invariants.antt"
write_start >"$at/proofs/time/Answers.antt"
take_times
best_times | awk -F , '
    BEGIN { aim["120 unchanged"] = "2 us"; aim["500 repaired"] = "50 us" }
    { nanos[$1] = $2; printf "%-26s %9.2f us%s\n", $1, $2 / 1e3, $1 in aim ? "   aim: under " aim[$1] : "" }
    END {
        times = nanos["240 unchanged"] / nanos["120 unchanged"]
        printf "twice the stretches %23.2f times   aim: at most 2.2\n", times
    }'
