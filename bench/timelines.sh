#!/bin/sh
# Prints how long billing periods, phases, blocking states and timelines take: `period_of`, `phase_at`,
# `Blocks::blocked`, `Blocks::transitions`, the four edits of a `Timeline` and its `governing`. It tests
# nothing. The aims stand beside the figures. All but the edits and `transitions` take no memory.
#
# Periods are walked from 2000 to 2102, each call from the end of the period before. The blocking states are
# those of one chain, of twelve scopes and services in turn, which are on and off in turn, and off in the
# end; they are accepted in the order of their days or in a mixed one. `blocked` asks for a day after them,
# so that it looks at each state, and is to take four times as long for four times the states. The timeline
# has 128 subscriptions, each in a bundle of its own and with ten entries, and the edits are of the last
# one; each is timed together with the drop of the timeline that it gives. `governing` asks for days all
# over 1,024 entries. The time is taken inside the program, as LLVM builds it, and is the best of five runs
# of many calls.
#
# The program and the libraries below it are built in a new folder, which takes 2 GB while it is there.
set -eu
cd "$(dirname "$0")/.."
. bench/repository.sh

program=timeline_times
libraries='kb_base kb_days kb_align kb_timeline kb_blocking'

write_program() {
    cat <<'END'
//! Times billing periods, phases, blocking states and timelines. A line that is printed has what is timed,
//! how many calls were made, and the nanoseconds that they took.
#![tactic(auto)]

use kb_align::{period_of, phase_at};
use kb_blocking::{BlockState, Blocks, Chain, Flag, Flags, Scope};
use kb_days::{Bcd, Count, Day, Name, Period, Reach, Span};
use kb_timeline::{Entry, PlanRef, Timeline};
use std::alloc::Global;
use std::io;
use std::time::Instant;

const RUNS: u32 = 5;

/// 1 January 2000.
const FIRST: u32 = 10_957;

/// The last day that has a billing period.
const LAST: u32 = 48_242;

/// A day after each blocking state.
const LATER: u32 = 44_000;

/// How many states, in the order of their days, one lies behind the one that was accepted before it, where
/// the order is mixed. It has no divisor in common with their count.
const MIXED: u32 = 1597;

/// The place of the last of 128 subscriptions.
const PLACE: u32 = 127;

const SCOPES: [Scope; 3] = [Scope::Account, Scope::Bundle(0), Scope::Subscription(0)];

const SERVICES: [&str; 4] = ["billing", "entitlement", "fraud", "support"];

const CHAIN: Chain = Chain {
    bundle: Some(0),
    subscription: Some(0),
};

fn main(rt: HostRuntime) -> io::Result<()> {
    time_days(&rt)?;
    time_blocks(&rt)?;
    time_edits(&rt)?;
    time_governing(&rt)
}

/// Times calls, each of which is handed the day that the one before it gave.
fn time<F: Fn(Reach) -> Option<Reach>>(
    rt: &HostRuntime,
    what: &str,
    calls: u32,
    first: u32,
    call: F,
) -> io::Result<()>
    requires { F.IsAlwaysCallable call }
{
    for _ in 0..RUNS {
        time_run(rt, what, calls, first, &call)?;
    }
    Ok(())
}

fn time_run<F: Fn(Reach) -> Option<Reach>>(
    rt: &HostRuntime,
    what: &str,
    calls: u32,
    first: u32,
    call: F,
) -> io::Result<()>
    requires { F.IsAlwaysCallable call }
{
    let mut day = Reach::new(first).ok_or(io::ErrorKind::InvalidData)?;
    let start = Instant::now(rt)?;
    for _ in 0..calls {
        day = call(day).ok_or(io::ErrorKind::InvalidData)?;
    }
    let nanos = start.elapsed(rt)?.as_nanos();
    // The last day is printed too, so that no call can be left out.
    let last = day.number();
    println!(rt; "{what},{calls},{nanos},{last}")
}

fn time_days(rt: &HostRuntime) -> io::Result<()> {
    time_period(rt, "period_of MONTHLY by 31", Period::Monthly)?;
    time_period(rt, "period_of THIRTY_DAYS", Period::ThirtyDays)?;
    time_phase(rt)
}

fn time_period(rt: &HostRuntime, what: &str, period: Period) -> io::Result<()> {
    let start = Day::new(FIRST).ok_or(io::ErrorKind::InvalidData)?;
    let bcd = Bcd::new(31).ok_or(io::ErrorKind::InvalidData)?;
    time(rt, what, 1_000_000, FIRST, |day| {
        after_period(start, period, bcd, day)
    })
}

fn time_phase(rt: &HostRuntime) -> io::Result<()> {
    let start = Day::new(FIRST).ok_or(io::ErrorKind::InvalidData)?;
    let spans = spans().ok_or(io::ErrorKind::InvalidData)?;
    time(rt, "phase_at of 3 phases", 1_000_000, LAST, |day| {
        after_phase(start, &spans, day)
    })
}

/// The day after the period of a day, or the start again where that one has no period.
fn after_period(start: Day, period: Period, bcd: Bcd, day: Reach) -> Option<Reach> {
    let start = start.reach();
    if matches!(period, Period::NoBillingPeriod) || day < start || day.number() > LAST {
        return None;
    }
    let (from, to) = period_of(start, period, bcd, day);
    if to <= from {
        None
    } else if to.number() > LAST {
        Some(start)
    } else {
        Some(to)
    }
}

/// A trial of 30 days, half a year, and no end.
fn spans() -> Option<[Span; 3]> {
    let trial = Span::Days(Count::new(30)?);
    Some([trial, Span::Months(Count::new(6)?), Span::Unlimited])
}

/// A day soon after another, how soon by its phase, or the anchor again behind the last day.
fn after_phase(anchor: Day, spans: &[Span; 3], day: Reach) -> Option<Reach> {
    if day < anchor.reach() {
        return None;
    }
    let at = phase_at(anchor, spans, day);
    let next = day.number() + 1 + at.index % 2;
    if LAST < next {
        Some(anchor.reach())
    } else {
        Reach::new(next)
    }
}

fn time_blocks(rt: &HostRuntime) -> io::Result<()> {
    time_blocked(rt, "blocked at 1024 states", 4000, 1024)?;
    time_blocked(rt, "blocked at 4096 states", 1000, 4096)?;
    time_transitions(rt, "transitions by days", 1)?;
    time_transitions(rt, "transitions mixed", MIXED)
}

fn time_blocked(rt: &HostRuntime, what: &str, calls: u32, count: u32) -> io::Result<()> {
    let blocks = blocks(rt.alloc(), count, MIXED).ok_or(io::ErrorKind::InvalidData)?;
    time(rt, what, calls, LATER, |day| unblocked(&blocks, day))
}

fn time_transitions(rt: &HostRuntime, what: &str, step: u32) -> io::Result<()> {
    let alloc = rt.alloc();
    let blocks = blocks(alloc, 4096, step).ok_or(io::ErrorKind::InvalidData)?;
    time(rt, what, 100, LATER, |_| last_turn(alloc, &blocks))
}

/// Another day, where one isn't blocked.
fn unblocked(blocks: &Blocks, day: Reach) -> Option<Reach> {
    if blocks.blocked(CHAIN, Flag::Billing, day) {
        return None;
    }
    Reach::new(day.number() ^ 1)
}

/// The last day on which the flag turns.
fn last_turn(alloc: Global, blocks: &Blocks) -> Option<Reach> {
    let days = blocks.transitions(alloc, CHAIN, Flag::Billing).ok()?;
    Some(days.last()?.reach())
}

/// So many states, each of which lies so many behind the one that was accepted before it, in the order of
/// their days.
fn blocks(alloc: Global, count: u32, step: u32) -> Option<Blocks> {
    let mut blocks = Blocks::new(alloc);
    for number in 0..count {
        let place = number.wrapping_mul(step).checked_rem(count)?;
        let is_on = place / 12 % 2 == 0 && place.checked_add(12)? < count;
        blocks = blocks.add(alloc, state(place, is_on)?).ok()?;
    }
    Some(blocks)
}

/// The state at a place in the order of the days, 8 days after the one before.
fn state(place: u32, is_on: bool) -> Option<BlockState> {
    let service = SERVICES.get((place % 4) as usize)?;
    Some(BlockState {
        scope: *SCOPES.get((place / 4 % 3) as usize)?,
        service: Name::new(service.as_bytes())?,
        state: Name::new(b"STATE")?,
        day: Day::new(place.checked_mul(8)?.checked_add(FIRST)?)?,
        flags: Flags {
            change: is_on,
            entitlement: is_on,
            billing: is_on,
        },
    })
}

fn time_edits(rt: &HostRuntime) -> io::Result<()> {
    time_create(rt)?;
    time_change(rt)?;
    time_cancel(rt)?;
    time_uncancel(rt)
}

fn time_create(rt: &HostRuntime) -> io::Result<()> {
    let alloc = rt.alloc();
    let name = Name::new(b"subscription-127").ok_or(io::ErrorKind::InvalidData)?;
    let timeline = timeline(alloc, PLACE, 10).ok_or(io::ErrorKind::InvalidData)?;
    time(rt, "create", 10_000, FIRST, |day| {
        created(alloc, &timeline, name)?;
        Some(day)
    })
}

fn time_change(rt: &HostRuntime) -> io::Result<()> {
    let alloc = rt.alloc();
    let timeline = timeline(alloc, 128, 10).ok_or(io::ErrorKind::InvalidData)?;
    time(rt, "change", 10_000, FIRST, |day| {
        changed(alloc, &timeline, PLACE, 10)?;
        Some(day)
    })
}

fn time_cancel(rt: &HostRuntime) -> io::Result<()> {
    let alloc = rt.alloc();
    let timeline = timeline(alloc, 128, 10).ok_or(io::ErrorKind::InvalidData)?;
    time(rt, "cancel", 10_000, FIRST, |day| {
        cancelled(alloc, &timeline)?;
        Some(day)
    })
}

fn time_uncancel(rt: &HostRuntime) -> io::Result<()> {
    let alloc = rt.alloc();
    let timeline = ended(alloc).ok_or(io::ErrorKind::InvalidData)?;
    time(rt, "uncancel", 10_000, FIRST, |day| {
        uncancelled(alloc, &timeline)?;
        Some(day)
    })
}

/// The timeline whose last subscription is cancelled.
fn ended(alloc: Global) -> Option<Timeline> {
    cancelled(alloc, &timeline(alloc, 128, 10)?)
}

/// So many subscriptions, each with so many entries.
fn timeline(alloc: Global, subscriptions: u32, entries: u32) -> Option<Timeline> {
    let mut timeline = Timeline::new(alloc);
    for number in 0..subscriptions {
        timeline = created(alloc, &timeline, numbered(alloc, number)?)?;
        timeline = lengthened(alloc, timeline, number, entries)?;
    }
    Some(timeline)
}

/// The name of the subscription at a place.
fn numbered(alloc: Global, place: u32) -> Option<Name> {
    Name::new(format!(in alloc; "subscription-{place}").ok()?.as_bytes())
}

/// The timeline, where the new subscription at a place has so many entries.
fn lengthened(alloc: Global, new: Timeline, sub: u32, entries: u32) -> Option<Timeline> {
    let mut timeline = new;
    for place in 1..entries {
        timeline = changed(alloc, &timeline, sub, place)?;
    }
    Some(timeline)
}

/// A subscription more, in a bundle of its name.
fn created(alloc: Global, timeline: &Timeline, name: Name) -> Option<Timeline> {
    timeline.create(alloc, name, name, false, entry(0)?).ok()
}

/// The subscription with the entry at a place.
fn changed(alloc: Global, timeline: &Timeline, sub: u32, place: u32) -> Option<Timeline> {
    if timeline.len() <= sub {
        return None;
    }
    timeline.change(alloc, sub, entry(place)?).ok()
}

fn cancelled(alloc: Global, timeline: &Timeline) -> Option<Timeline> {
    if timeline.len() <= PLACE {
        return None;
    }
    timeline.cancel(alloc, PLACE, Day::new(LATER)?).ok()
}

fn uncancelled(alloc: Global, timeline: &Timeline) -> Option<Timeline> {
    if timeline.len() <= PLACE {
        return None;
    }
    timeline.uncancel(alloc, PLACE).ok()
}

/// The entry at a place, 32 days after the one before.
fn entry(place: u32) -> Option<Entry> {
    let day = Day::new(place.checked_mul(32)?.checked_add(FIRST)?)?;
    let plan = PlanRef {
        version: 0,
        list: 0,
        plan: 0,
    };
    Some(Entry {
        day,
        plan,
        anchor: day,
    })
}

fn time_governing(rt: &HostRuntime) -> io::Result<()> {
    let timeline = timeline(rt.alloc(), 1, 1024).ok_or(io::ErrorKind::InvalidData)?;
    time(rt, "governing of 1024 entries", 1_000_000, FIRST, |day| {
        governed(&timeline, day)
    })
}

/// The day of another entry than the one that governs a day: the calls go through all 1,024.
fn governed(timeline: &Timeline, day: Reach) -> Option<Reach> {
    if timeline.len() == 0 {
        return None;
    }
    let place = timeline.governing(0, day)?;
    let other = place.wrapping_mul(1597).wrapping_add(331) % 1024;
    Reach::new(32 * other + FIRST)
}
END
}

make_repository
take_times
best_times | awk -F , '
    function row(unit, nanos, aim) { printf "%-28s%9.2f %s%s\n", $1, $2 / nanos, unit, aim }
    /^period_of|^phase_at/ { row("ns", 1, "   aim 200 ns") }
    /^blocked/ { row("us", 1e3, "") }
    /^transitions/ { row("ms", 1e6, "   aim 2 ms") }
    /^create|^change|^cancel|^uncancel/ { row("us", 1e3, "   aim 50 us") }
    /^governing/ { row("us", 1e3, "") }'
