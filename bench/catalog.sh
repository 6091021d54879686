#!/bin/sh
# Prints how long the check of a large catalog takes, and what billing asks of it: `Version::check`,
# `Valid::find_plan` and the five rule calls. It tests nothing. The aims are 20 ms for the check, and
# 20 us for each of the other calls, which take no memory.
#
# The catalog is slightly larger than what 60,000 bytes can spell: 600 plans of one phase, one for each of
# 60 products and ten billing periods. The list DEFAULT names none, some or all of them. Each rule list has
# ten cases, of which the last one decides. The time is taken inside the program, as LLVM builds it, and is
# the best of five: of one check, and of 10,000 of each other call.
#
# The program and the libraries below it are built in a new folder, which takes 2 GB while it is there.
set -eu
cd "$(dirname "$0")/.."
. bench/repository.sh

program=catalog_times
libraries='kb_base kb_days kb_money kb_catalog'

write_program() {
    cat <<'END'
//! Times the check of a large catalog, and what billing asks of it. A line that is printed has what is
//! timed, how many calls were made, and the nanoseconds that they took.
#![tactic(auto)]

use kb_base::Seq;
use kb_days::{Day, Name, Period, Span};
use kb_money::{Currency, Minor};
use kb_catalog::{Align, BillingAlign, BillingCase, CancelCase, Category, ChangeAlignmentCase, ChangeAsk, ChangePolicyCase, CreateAlign, CreateCase, Phase, PhaseType, Plan, PlanAsk, PlanCondition, Policy, Price, PriceList, Product, Rules};
use kb_catalog::{Valid, Version};
use std::alloc::Global;
use std::io;
use std::time::Instant;

const RUNS: u32 = 5;

const CALLS: u32 = 10_000;

const PRODUCTS: u32 = 60;

const PLANS: u32 = 600;

const PERIODS: [Period; 10] = [
    Period::Daily,
    Period::Weekly,
    Period::Biweekly,
    Period::ThirtyDays,
    Period::Monthly,
    Period::Quarterly,
    Period::Biannual,
    Period::Annual,
    Period::Biennial,
    Period::NoBillingPeriod,
];

fn main(rt: HostRuntime) -> io::Result<()> {
    for listed in [0, 150, 300, PLANS] {
        for _ in 0..RUNS {
            time_check(&rt, listed)?;
        }
    }
    let Some(version) = valid(rt.alloc()) else {
        return Err(io::ErrorKind::InvalidData.into());
    };
    for _ in 0..RUNS {
        time_look_ups(&rt, &version)?;
        time_rules(&rt, &version)?;
    }
    Ok(())
}

fn time_check(rt: &HostRuntime, listed: u32) -> io::Result<()> {
    let Some(version) = large(rt.alloc(), listed) else {
        return Err(io::ErrorKind::InvalidData.into());
    };
    if !version.has_counts() {
        return Err(io::ErrorKind::InvalidData.into());
    }
    let start = Instant::now(rt)?;
    let valid = version.check().is_ok();
    let nanos = start.elapsed(rt)?.as_nanos();
    if !valid {
        return Err(io::ErrorKind::InvalidData.into());
    }
    println!(rt; "check {listed} listed,1,{nanos}")
}

fn time_look_ups(rt: &HostRuntime, version: &Valid) -> io::Result<()> {
    let Some((first, last, lost, list)) = names() else {
        return Err(io::ErrorKind::InvalidData.into());
    };
    time(rt, "find_plan first", || {
        version.find_plan(first, Period::Daily, list) == Some((0, 0))
    })?;
    time(rt, "find_plan last", || {
        version.find_plan(last, Period::NoBillingPeriod, list) == Some((0, 599))
    })?;
    time(rt, "find_plan none", || {
        version.find_plan(lost, Period::Daily, list).is_none()
    })
}

/// The products of the first plan, of the last plan and of none, and the list.
fn names() -> Option<(Name, Name, Name, Name)> {
    let first = Name::new(b"product-0")?;
    let last = Name::new(b"product-59")?;
    let lost = Name::new(b"product-60")?;
    Some((first, last, lost, Name::new(b"DEFAULT")?))
}

/// Asks each rule list for what its last case alone gives.
fn time_rules(rt: &HostRuntime, version: &Valid) -> io::Result<()> {
    let Some(plan) = asked() else {
        return Err(io::ErrorKind::InvalidData.into());
    };
    let change = ChangeAsk {
        from: plan,
        to: plan,
    };
    time(rt, "change_policy", || {
        version.change_policy(&change) == Policy::EndOfTerm
    })?;
    time(rt, "change_alignment", || {
        version.change_alignment(&change) == Align::ChangeOfPlan
    })?;
    time(rt, "cancel_policy", || {
        version.cancel_policy(&plan) == Policy::EndOfTerm
    })?;
    time(rt, "create_alignment", || {
        version.create_alignment(&plan) == CreateAlign::StartOfSubscription
    })?;
    time(rt, "billing_alignment", || {
        version.billing_alignment(&plan) == BillingAlign::Subscription
    })
}

fn asked() -> Option<PlanAsk> {
    Some(PlanAsk {
        product: Name::new(b"product-59")?,
        category: Some(Category::Base),
        period: Period::Monthly,
        list: Name::new(b"DEFAULT")?,
        phase: Some(PhaseType::Evergreen),
    })
}

/// Times calls that are to give true.
fn time<F: Fn() -> bool>(rt: &HostRuntime, what: &str, call: F) -> io::Result<()>
    requires { F.IsAlwaysCallable call }
{
    let mut good = 0u32;
    let start = Instant::now(rt)?;
    for _ in 0..CALLS {
        if call() {
            good = good.wrapping_add(1);
        }
    }
    let nanos = start.elapsed(rt)?.as_nanos();
    if good != CALLS {
        return Err(io::ErrorKind::InvalidData.into());
    }
    println!(rt; "{what},{CALLS},{nanos}")
}

fn valid(alloc: Global) -> Option<Valid> {
    let version = large(alloc, PLANS)?;
    if !version.has_counts() {
        return None;
    }
    version.check().ok()
}

/// A plan for each of the products and billing periods, of which the list DEFAULT names so many.
fn large(alloc: Global, listed: u32) -> Option<Version> {
    Some(Version {
        effective: Day::new(18_262)?,
        currencies: Seq::from_vec(vec![in alloc; Currency::new(b"USD")?].ok()?),
        products: products(alloc)?,
        plans: plans(alloc)?,
        lists: lists(alloc, listed)?,
        rules: rules(alloc)?,
    })
}

fn numbered(alloc: Global, word: &str, number: u32) -> Option<Name> {
    Name::new(format!(in alloc; "{word}-{number}").ok()?.as_bytes())
}

fn products(alloc: Global) -> Option<Seq<Product>> {
    let mut products = Seq::new(alloc);
    for number in 0..PRODUCTS {
        let product = Product {
            name: numbered(alloc, "product", number)?,
            category: Category::Base,
            available: Seq::new(alloc),
            included: Seq::new(alloc),
        };
        products.push(product).ok()?;
    }
    Some(products)
}

fn plans(alloc: Global) -> Option<Seq<Plan>> {
    let mut plans = Seq::new(alloc);
    for product in 0..PRODUCTS {
        for (place, period) in PERIODS.into_iter().enumerate() {
            let number = product * 10 + place as u32;
            plans.push(plan(alloc, product, number, period)?).ok()?;
        }
    }
    Some(plans)
}

fn plan(alloc: Global, product: u32, number: u32, period: Period) -> Option<Plan> {
    let phase = Phase {
        kind: PhaseType::Evergreen,
        span: Span::Unlimited,
        fixed: Seq::new(alloc),
        period,
        recurring: recurring(alloc, period)?,
    };
    Some(Plan {
        name: numbered(alloc, "plan", number)?,
        product: numbered(alloc, "product", product)?,
        phases: Seq::from_vec(vec![in alloc; phase].ok()?),
    })
}

fn recurring(alloc: Global, period: Period) -> Option<Seq<Price>> {
    if period == Period::NoBillingPeriod {
        return Some(Seq::new(alloc));
    }
    let price = Price {
        currency: Currency::new(b"USD")?,
        amount: Minor::new(1000)?,
    };
    Some(Seq::from_vec(vec![in alloc; price].ok()?))
}

/// The list DEFAULT, which names so many plans, and the list SALE, which names none.
fn lists(alloc: Global, listed: u32) -> Option<Seq<PriceList>> {
    let mut plans = Seq::new(alloc);
    for number in 0..listed {
        plans.push(numbered(alloc, "plan", number)?).ok()?;
    }
    let default = PriceList {
        name: Name::new(b"DEFAULT")?,
        plans,
    };
    let sale = PriceList {
        name: Name::new(b"SALE")?,
        plans: Seq::new(alloc),
    };
    Some(Seq::from_vec(vec![in alloc; default, sale].ok()?))
}

fn rules(alloc: Global) -> Option<Rules> {
    Some(Rules {
        change_policy: change_policy(alloc)?,
        change_alignment: change_alignment(alloc)?,
        cancel_policy: cancel_policy(alloc)?,
        create_alignment: create_alignment(alloc)?,
        billing_alignment: billing_alignment(alloc)?,
    })
}

/// The condition of each case but the last: all four, of which the one on the list doesn't hold.
fn of_sale() -> Option<PlanCondition> {
    Some(PlanCondition {
        product: Some(Name::new(b"product-59")?),
        category: Some(Category::Base),
        period: Some(Period::Monthly),
        list: Some(Name::new(b"SALE")?),
    })
}

fn anything() -> PlanCondition {
    PlanCondition {
        product: None,
        category: None,
        period: None,
        list: None,
    }
}

fn change_policy(alloc: Global) -> Option<Seq<ChangePolicyCase>> {
    let case = ChangePolicyCase {
        from: anything(),
        phase: None,
        to: of_sale()?,
        answer: Policy::Illegal,
    };
    let last = ChangePolicyCase {
        from: anything(),
        phase: None,
        to: anything(),
        answer: Policy::EndOfTerm,
    };
    let cases = vec![in alloc; case, case, case, case, case, case, case, case, case, last];
    Some(Seq::from_vec(cases.ok()?))
}

fn change_alignment(alloc: Global) -> Option<Seq<ChangeAlignmentCase>> {
    let case = ChangeAlignmentCase {
        from: anything(),
        phase: None,
        to: of_sale()?,
        answer: Align::StartOfBundle,
    };
    let last = ChangeAlignmentCase {
        from: anything(),
        phase: None,
        to: anything(),
        answer: Align::ChangeOfPlan,
    };
    let cases = vec![in alloc; case, case, case, case, case, case, case, case, case, last];
    Some(Seq::from_vec(cases.ok()?))
}

fn cancel_policy(alloc: Global) -> Option<Seq<CancelCase>> {
    let case = CancelCase {
        plan: of_sale()?,
        phase: None,
        answer: Policy::Illegal,
    };
    let last = CancelCase {
        plan: anything(),
        phase: None,
        answer: Policy::EndOfTerm,
    };
    let cases = vec![in alloc; case, case, case, case, case, case, case, case, case, last];
    Some(Seq::from_vec(cases.ok()?))
}

fn create_alignment(alloc: Global) -> Option<Seq<CreateCase>> {
    let case = CreateCase {
        plan: of_sale()?,
        alignment: CreateAlign::StartOfBundle,
    };
    let last = CreateCase {
        plan: anything(),
        alignment: CreateAlign::StartOfSubscription,
    };
    let cases = vec![in alloc; case, case, case, case, case, case, case, case, case, last];
    Some(Seq::from_vec(cases.ok()?))
}

fn billing_alignment(alloc: Global) -> Option<Seq<BillingCase>> {
    let case = BillingCase {
        plan: of_sale()?,
        phase: None,
        answer: BillingAlign::Account,
    };
    let last = BillingCase {
        plan: anything(),
        phase: None,
        answer: BillingAlign::Subscription,
    };
    let cases = vec![in alloc; case, case, case, case, case, case, case, case, case, last];
    Some(Seq::from_vec(cases.ok()?))
}
END
}

make_repository
take_times
best_times | awk -F , '
    $1 ~ /^check/ { printf "%-20s%9.2f ms\n", $1, $2 / 1e6; next }
    { printf "%-20s%9.2f us\n", $1, $2 / 1e3 }'
