#!/bin/sh
# Prints how long `pieces` takes: the due cells of all days of one subscription, as runs of days. It tests
# nothing. The aims stand beside the figures.
#
# The subscription is the only one of its account, whose cycle day is the 1st, and starts on 2000-01-01. On
# a MONTHLY plan the billed date lies 1, 10 and 75 years after the start, and on a DAILY plan 10 years;
# there is no change and no pause then, so that the time goes into billing periods. The entries are the
# start and changes between two MONTHLY plans, each 32 days after the one before; the pauses are of 16 days,
# each begun 64 days after the one before. A pause is two blocking states of the bundle, of which the first
# has all three flags on and the second has them off. The billed date lies 32 days after the last entry. So
# twice the events lie as dense in twice the days, and are to take at most 2.2 times as long.
#
# A call is timed together with the drop of the pieces that it gives. The time is taken inside the program,
# as LLVM builds it, and is the best of five runs of many calls, each of which takes about 0.1 s or more.
#
# The program and the libraries below it are built in a new folder, which takes 3 GB while it is there.
set -eu
cd "$(dirname "$0")/.."
. bench/repository.sh

program=pieces_times
libraries='kb_base kb_days kb_money kb_catalog kb_align kb_timeline kb_blocking kb_due kb_events'

write_program() {
    cat <<'END'
//! Times the pieces of a subscription. A line that is printed has what is timed, how many calls were made,
//! the nanoseconds that they took, and how many pieces they gave.
#![tactic(auto)]

use kb_base::Seq;
use kb_blocking::{BlockState, Blocks, Flags, Scope};
use kb_catalog::Catalog;
use kb_days::{Bcd, Day, Name, Period, Span};
use kb_due::Facts;
use kb_events::pieces;
use kb_money::{Currency, Minor};
use kb_catalog::{Align, BillingAlign, BillingCase, CancelCase, Category, ChangeAlignmentCase, ChangePolicyCase, CreateAlign, CreateCase, Phase, PhaseType, Plan, PlanCondition, Policy, Price, PriceList, Product, Rules};
use kb_timeline::{Entry, PlanRef, Timeline};
use kb_catalog::{Valid, Version};
use std::alloc::Global;
use std::io;
use std::time::Instant;

const RUNS: u32 = 5;

/// 1 January 2000.
const FIRST: u32 = 10_957;

/// The place of one MONTHLY plan.
const BASIC: u32 = 0;

/// The place of the other one.
const PRO: u32 = 1;

/// The place of the DAILY plan.
const DAILY: u32 = 2;

/// The plans: the name, which is that of its product too, the billing period, and what it costs.
const PLANS: [(&str, Period, u64); 3] = [
    ("basic", Period::Monthly, 1000),
    ("pro", Period::Monthly, 3100),
    ("daily", Period::Daily, 50),
];

fn main(rt: HostRuntime) -> io::Result<()> {
    let catalog = catalog(rt.alloc()).ok_or(io::ErrorKind::InvalidData)?;
    time_years(&rt, &catalog)?;
    time_events(&rt, &catalog, "512 entries and 250 pauses", 800, 512, 250)?;
    time_events(&rt, &catalog, "1024 entries and 500 pauses", 400, 1024, 500)
}

/// The billed dates are 1 January of 2001, 2010 and 2075.
fn time_years(rt: &HostRuntime, catalog: &Catalog) -> io::Result<()> {
    time_plan(rt, catalog, "MONTHLY over 1 year", 200_000, BASIC, 11_323)?;
    time_plan(rt, catalog, "MONTHLY over 10 years", 20_000, BASIC, 14_610)?;
    time_plan(rt, catalog, "MONTHLY over 75 years", 3000, BASIC, 38_351)?;
    time_plan(rt, catalog, "DAILY over 10 years", 1500, DAILY, 14_610)
}

/// Times a plan without a change or a pause.
fn time_plan(
    rt: &HostRuntime,
    catalog: &Catalog,
    what: &str,
    calls: u32,
    plan: u32,
    billed: u32,
) -> io::Result<()> {
    let alloc = rt.alloc();
    let timeline = created(alloc, plan).ok_or(io::ErrorKind::InvalidData)?;
    let blocks = Blocks::new(alloc);
    let facts = facts(catalog, &timeline, &blocks).ok_or(io::ErrorKind::InvalidData)?;
    time(rt, what, calls, &facts, billed)
}

/// Times so many entries and pauses.
fn time_events(
    rt: &HostRuntime,
    catalog: &Catalog,
    what: &str,
    calls: u32,
    entries: u32,
    pauses: u32,
) -> io::Result<()> {
    let alloc = rt.alloc();
    let timeline = timeline(alloc, entries).ok_or(io::ErrorKind::InvalidData)?;
    let blocks = blocks(alloc, pauses).ok_or(io::ErrorKind::InvalidData)?;
    let facts = facts(catalog, &timeline, &blocks).ok_or(io::ErrorKind::InvalidData)?;
    let billed = after(FIRST, entries, 32).ok_or(io::ErrorKind::InvalidData)?;
    time(rt, what, calls, &facts, billed)
}

fn time(rt: &HostRuntime, what: &str, calls: u32, facts: &Facts, billed: u32) -> io::Result<()> {
    let billed = Day::new(billed).ok_or(io::ErrorKind::InvalidData)?;
    for _ in 0..RUNS {
        time_run(rt, what, calls, facts, billed)?;
    }
    Ok(())
}

fn time_run(
    rt: &HostRuntime,
    what: &str,
    calls: u32,
    facts: &Facts,
    billed: Day,
) -> io::Result<()> {
    let alloc = rt.alloc();
    let mut count = 0u64;
    let start = Instant::now(rt)?;
    for _ in 0..calls {
        let found = count_pieces(alloc, facts, billed).ok_or(io::ErrorKind::InvalidData)?;
        count = count.wrapping_add(found);
    }
    let nanos = start.elapsed(rt)?.as_nanos();
    // How many there were is printed too, so that no call can be left out.
    println!(rt; "{what},{calls},{nanos},{count}")
}

/// How many pieces the subscription has at a billed date.
fn count_pieces(alloc: Global, facts: &Facts, billed: Day) -> Option<u64> {
    if facts.timeline.len() == 0 {
        return None;
    }
    let found = pieces(alloc, facts, 0, billed).ok()?;
    Some(found.len() as u64)
}

fn facts<'a>(
    catalog: &'a Catalog,
    timeline: &'a Timeline,
    blocks: &'a Blocks,
) -> Option<Facts<'a>> {
    Some(Facts {
        catalog,
        timeline,
        blocks,
        currency: Currency::new(b"USD")?,
        bcd: Bcd::new(1)?,
    })
}

/// The day that lies so many times so many days after a day.
fn after(day: u32, count: u32, days: u32) -> Option<u32> {
    count.checked_mul(days)?.checked_add(day)
}

/// One subscription with so many entries, which are of one MONTHLY plan and the other in turn.
fn timeline(alloc: Global, entries: u32) -> Option<Timeline> {
    let mut timeline = created(alloc, BASIC)?;
    for place in 1..entries {
        timeline = changed(alloc, &timeline, place)?;
    }
    Some(timeline)
}

/// One subscription on a plan.
fn created(alloc: Global, plan: u32) -> Option<Timeline> {
    let name = Name::new(b"subscription")?;
    let start = entry(FIRST, plan)?;
    Timeline::new(alloc)
        .create(alloc, name, name, false, start)
        .ok()
}

/// The subscription with the change at a place.
fn changed(alloc: Global, timeline: &Timeline, place: u32) -> Option<Timeline> {
    if timeline.len() == 0 {
        return None;
    }
    let plan = if place % 2 == 0 { BASIC } else { PRO };
    let change = entry(after(FIRST, place, 32)?, plan)?;
    timeline.change(alloc, 0, change).ok()
}

/// The entry of a plan on a day, whose phases are counted from that day.
fn entry(day: u32, plan: u32) -> Option<Entry> {
    let day = Day::new(day)?;
    let plan = PlanRef {
        version: 0,
        list: 0,
        plan,
    };
    Some(Entry {
        day,
        plan,
        anchor: day,
    })
}

/// So many pauses, none of which begins or ends on the day of an entry.
fn blocks(alloc: Global, pauses: u32) -> Option<Blocks> {
    let mut blocks = Blocks::new(alloc);
    for place in 0..pauses {
        let day = after(FIRST + 40, place, 64)?;
        blocks = blocks.add(alloc, state(day, true)?).ok()?;
        blocks = blocks.add(alloc, state(day.checked_add(16)?, false)?).ok()?;
    }
    Some(blocks)
}

/// The first day of a pause, or the day after its last.
fn state(day: u32, is_on: bool) -> Option<BlockState> {
    Some(BlockState {
        scope: Scope::Bundle(0),
        service: Name::new(b"entitlement-service")?,
        state: Name::new(b"STATE")?,
        day: Day::new(day)?,
        flags: Flags {
            change: is_on,
            entitlement: is_on,
            billing: is_on,
        },
    })
}

/// The catalog: one version, with the three plans.
fn catalog(alloc: Global) -> Option<Catalog> {
    Catalog::new(alloc).add(alloc, valid(alloc)?).ok()
}

fn valid(alloc: Global) -> Option<Valid> {
    let version = Version {
        effective: Day::new(FIRST)?,
        currencies: Seq::from_vec(vec![in alloc; Currency::new(b"USD")?].ok()?),
        products: products(alloc)?,
        plans: plans(alloc)?,
        lists: lists(alloc)?,
        rules: rules(alloc)?,
    };
    if !version.has_counts() {
        return None;
    }
    version.check().ok()
}

fn products(alloc: Global) -> Option<Seq<Product>> {
    let mut products = Seq::new(alloc);
    for (name, _, _) in PLANS {
        let product = Product {
            name: Name::new(name.as_bytes())?,
            category: Category::Base,
            available: Seq::new(alloc),
            included: Seq::new(alloc),
        };
        products.push(product).ok()?;
    }
    Some(products)
}

fn plans(alloc: Global) -> Option<Seq<Plan>> {
    let mut plans = Seq::new(alloc);
    for (name, period, units) in PLANS {
        plans.push(plan(alloc, name, period, units)?).ok()?;
    }
    Some(plans)
}

/// A plan of one phase without an end.
fn plan(alloc: Global, name: &str, period: Period, units: u64) -> Option<Plan> {
    let name = Name::new(name.as_bytes())?;
    let price = Price {
        currency: Currency::new(b"USD")?,
        amount: Minor::new(units)?,
    };
    let phase = Phase {
        kind: PhaseType::Evergreen,
        span: Span::Unlimited,
        fixed: Seq::new(alloc),
        period,
        recurring: Seq::from_vec(vec![in alloc; price].ok()?),
    };
    Some(Plan {
        name,
        product: name,
        phases: Seq::from_vec(vec![in alloc; phase].ok()?),
    })
}

fn lists(alloc: Global) -> Option<Seq<PriceList>> {
    let mut plans = Seq::new(alloc);
    for (name, _, _) in PLANS {
        plans.push(Name::new(name.as_bytes())?).ok()?;
    }
    let list = PriceList {
        name: Name::new(b"DEFAULT")?,
        plans,
    };
    Some(Seq::from_vec(vec![in alloc; list].ok()?))
}

/// One case for each rule, which asks nothing of a plan.
fn rules(alloc: Global) -> Option<Rules> {
    Some(Rules {
        change_policy: change_policy(alloc)?,
        change_alignment: change_alignment(alloc)?,
        cancel_policy: cancel_policy(alloc)?,
        create_alignment: create_alignment(alloc)?,
        billing_alignment: billing_alignment(alloc)?,
    })
}

fn anything() -> PlanCondition {
    PlanCondition {
        product: None,
        category: None,
        period: None,
        list: None,
    }
}

fn change_policy(alloc: Global) -> Option<Seq<ChangePolicyCase>> {
    let case = ChangePolicyCase {
        from: anything(),
        phase: None,
        to: anything(),
        answer: Policy::Immediate,
    };
    Some(Seq::from_vec(vec![in alloc; case].ok()?))
}

fn change_alignment(alloc: Global) -> Option<Seq<ChangeAlignmentCase>> {
    let case = ChangeAlignmentCase {
        from: anything(),
        phase: None,
        to: anything(),
        answer: Align::ChangeOfPlan,
    };
    Some(Seq::from_vec(vec![in alloc; case].ok()?))
}

fn cancel_policy(alloc: Global) -> Option<Seq<CancelCase>> {
    let case = CancelCase {
        plan: anything(),
        phase: None,
        answer: Policy::Immediate,
    };
    Some(Seq::from_vec(vec![in alloc; case].ok()?))
}

fn create_alignment(alloc: Global) -> Option<Seq<CreateCase>> {
    let case = CreateCase {
        plan: anything(),
        alignment: CreateAlign::StartOfSubscription,
    };
    Some(Seq::from_vec(vec![in alloc; case].ok()?))
}

fn billing_alignment(alloc: Global) -> Option<Seq<BillingCase>> {
    let case = BillingCase {
        plan: anything(),
        phase: None,
        answer: BillingAlign::Account,
    };
    Some(Seq::from_vec(vec![in alloc; case].ok()?))
}
END
}

make_repository
take_times
best_times | awk -F , '
    function row(aim) { printf "%-28s%9.2f us%s\n", $1, $2 / 1e3, aim }
    /^MONTHLY over 75/ { row("   aim 1000 us"); next }
    /^DAILY/ { row("   aim 3000 us"); next }
    /^512/ { few = $2 }
    /^1024/ { many = $2 }
    { row("") }
    END { printf "%-28s%9.2f times   aim 2.2 times\n", "twice the events", many / few }'
