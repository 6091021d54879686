#!/bin/sh
# Prints how long commands on a lane take, and how much memory an account of a lane does. It tests nothing.
# The aims stand beside the figures.
#
# A lane on a disk in memory, which notes each of its calls, opens 10,000 accounts and charges each ten times;
# behind each command its outbox is handled to its end. The lane is then loaded from its disk. A charge is
# timed on one account of a thousand, and on one of 100,000. The memory is that of the 100,000 accounts and
# of their disk, with its notes. The time is taken inside the program, as LLVM builds it, and is the best of
# three runs.
#
# The program and the libraries below it are built in a new folder, which takes 8 GB while it is there.
set -eu
cd "$(dirname "$0")/.."
. bench/repository.sh

program=lane_times
libraries='kb_base kb_days kb_money kb_sharing kb_catalog kb_align kb_timeline kb_blocking kb_overdue kb_credit
    kb_payment kb_due kb_events kb_tree kb_catalog_text kb_codec kb_ports kb_disk kb_journal kb_gateway
    kb_book kb_edits kb_account kb_machine kb_histories kb_lane'
libraries=$(echo $libraries)

write_program() {
    cat <<'END'
//! Times commands on a lane. A line that is printed has what is timed, how many calls were made, and the
//! nanoseconds that they took; or how much memory the process held at most, in KB.
#![tactic(auto)]

use kb_lane::drain;
use kb_codec::{Action, Amount, Charge, Command, OpenAccount};
use kb_days::{Bcd, Day, Name};
use kb_disk::MemoryDisk;
use kb_gateway::ListGateway;
use kb_book::LaneReply;
use kb_lane::Lane;
use kb_money::Currency;
use kb_book::Step;
use std::alloc::Global;
use std::fs;
use std::io;
use std::time::Instant;

type MemoryLane = Lane<MemoryDisk, ListGateway>;

const RUNS: u32 = 3;

/// The accounts of the lane that is loaded, and how often each is charged.
const ACCOUNTS: u32 = 10_000;
const ROUNDS: u32 = 10;

/// The accounts of a lane of which one is charged, and how often.
const FEW: u32 = 1_000;
const MANY: u32 = 100_000;
const CHARGES: u32 = 20_000;

fn main(rt: HostRuntime) -> io::Result<()> {
    time_charges(&rt, "charge among 1000", FEW)?;
    for _ in 0..RUNS {
        time_lane(&rt)?;
    }
    peak(&rt, "before")?;
    time_charges(&rt, "charge among 100000", MANY)?;
    peak(&rt, "after")
}

/// Times the commands of a lane, and how it is loaded.
fn time_lane(rt: &HostRuntime) -> io::Result<()> {
    let alloc = rt.alloc();
    let mut lane = empty(alloc).ok_or(io::ErrorKind::OutOfMemory)?;
    let start = Instant::now(rt)?;
    let mut done = open_all(alloc, &mut lane, ACCOUNTS);
    for round in 0..ROUNDS {
        done = done.wrapping_add(charge_all(alloc, &mut lane, ACCOUNTS, round));
    }
    let nanos = start.elapsed(rt)?.as_nanos();
    println!(rt; "commands,{done},{nanos}")?;
    time_load(rt, lane)
}

fn time_load(rt: &HostRuntime, lane: MemoryLane) -> io::Result<()> {
    let (disk, gateway) = lane.into_parts();
    let start = Instant::now(rt)?;
    let count = loaded(rt.alloc(), disk, gateway);
    let nanos = start.elapsed(rt)?.as_nanos();
    println!(rt; "commands loaded,{count},{nanos}")
}

/// How many commands the lane of a disk has.
fn loaded(alloc: Global, disk: MemoryDisk, gateway: ListGateway) -> u64 {
    match Lane::load(alloc, disk, gateway, 0) {
        Ok(lane) => lane.count(),
        Err(_) => 0,
    }
}

/// Times charges on one of so many accounts.
fn time_charges(rt: &HostRuntime, what: &str, accounts: u32) -> io::Result<()> {
    let alloc = rt.alloc();
    let mut lane = empty(alloc).ok_or(io::ErrorKind::OutOfMemory)?;
    let opened = open_all(alloc, &mut lane, accounts);
    let start = Instant::now(rt)?;
    let mut done = 0u32;
    for number in 0..CHARGES {
        done = done.wrapping_add(charge(alloc, &mut lane, opened / 2, number));
    }
    let nanos = start.elapsed(rt)?.as_nanos();
    println!(rt; "{what},{done},{nanos}")
}

fn empty(alloc: Global) -> Option<MemoryLane> {
    let disk = MemoryDisk::new(alloc, Vec::new(alloc), Vec::new(alloc)).ok()?;
    let gateway = ListGateway::new(alloc, Vec::new(alloc), Vec::new(alloc), Vec::new(alloc));
    Lane::create(alloc, disk, gateway, 0, 1).ok()
}

/// Opens so many accounts. This and what follows give how many commands were accepted.
fn open_all(alloc: Global, lane: &mut MemoryLane, accounts: u32) -> u32 {
    let mut done = 0u32;
    for number in 0..accounts {
        done = done.wrapping_add(open(alloc, lane, number));
    }
    done
}

/// Charges each of so many accounts.
fn charge_all(alloc: Global, lane: &mut MemoryLane, accounts: u32, round: u32) -> u32 {
    let mut done = 0u32;
    for number in 0..accounts {
        done = done.wrapping_add(charge(alloc, lane, number, round));
    }
    done
}

fn open(alloc: Global, lane: &mut MemoryLane, number: u32) -> u32 {
    match (account(alloc, number), Name::new(b"k1"), opening()) {
        (Some(account), Some(key), Some(action)) => act(alloc, lane, account, key, action),
        _ => 0,
    }
}

fn charge(alloc: Global, lane: &mut MemoryLane, number: u32, round: u32) -> u32 {
    match (account(alloc, number), charge_key(alloc, round), charging()) {
        (Some(account), Some(key), Some(action)) => act(alloc, lane, account, key, action),
        _ => 0,
    }
}

fn opening() -> Option<Action> {
    Some(Action::OpenAccount(OpenAccount {
        currency: Currency::new(b"USD")?,
        bcd: Bcd::new(1)?,
        autopay: false,
    }))
}

fn charging() -> Option<Action> {
    Some(Action::Charge(Charge {
        amount: Amount::new(100)?,
    }))
}

fn charge_key(alloc: Global, round: u32) -> Option<Name> {
    let key = format!(in alloc; "c{round}").ok()?;
    Name::new(key.as_bytes())
}

fn account(alloc: Global, number: u32) -> Option<Name> {
    let name = format!(in alloc; "a{number}").ok()?;
    Name::new(name.as_bytes())
}

/// An action on an account, and what it leaves to do.
fn act(alloc: Global, lane: &mut MemoryLane, account: Name, key: Name, action: Action) -> u32 {
    let Ok(today) = kb_days::parse(b"2024-03-01") else {
        return 0;
    };
    let command = Command::Act {
        account,
        key,
        action,
    };
    let reply = lane.perform(alloc, today, &command);
    ended(alloc, lane, today, reply)
}

/// Handles the outbox behind a command.
fn ended(alloc: Global, lane: &mut MemoryLane, today: Day, reply: LaneReply) -> u32 {
    match (reply, drain(lane, alloc, today)) {
        (LaneReply::Accepted(_), Step::Idle) => 1,
        _ => 0,
    }
}
END
    write_peak
}

make_repository
take_times
awk -F , '
    /^peak/ { split($2, number, " "); figure[$1] = number[1]; next }
    !($1 in best) { order[++count] = $1; best[$1] = $3 / $2 }
    $3 / $2 < best[$1] { best[$1] = $3 / $2 }
    END {
        aim["commands"] = aim["commands loaded"] = "aim: 150000"
        for (place = 1; place <= count; place++)
            printf "%-24s %10.0f a second %s\n", order[place], 1e9 / best[order[place]], aim[order[place]]
        printf "%-24s %10.2f kB\n", "memory of an account", \
            (figure["peak after"] - figure["peak before"]) * 1.024 / 100000
    }' "$work/times"
