#!/bin/sh
# Prints how long it takes to issue an invoice, to pay on one and to level the account, one after another,
# at an account of 100 and at one of 100,000 paid invoices with three unpaid ones, and how much memory an
# invoice takes. It tests nothing. The time is to grow no more than the logarithm of the number of invoices
# does.
#
# Each invoice has one line of 1000. The payment is of 2500 on the oldest, which is paid already, so levelling
# makes credit there and uses it on the unpaid ones. The three edits are made of the account as it stands, and
# what they give is let go. The time is taken inside the program, as LLVM builds it, and is the best of five
# runs. The memory is the most that the program held, over all its invoices.
#
# The program and the libraries below it are built in a new folder, which takes 2 GB while it is there.
set -eu
cd "$(dirname "$0")/.."
. bench/repository.sh

program=credit_times
libraries='kb_base kb_days kb_sharing kb_credit'

# The most memory that a run held, in KB.
peak_memory() {
    if [ -x /usr/bin/time ] && /usr/bin/time -v true >/dev/null 2>&1; then
        /usr/bin/time -v "$work/crates/$program/out/$program" 2>"$work/time" >/dev/null
        awk '/Maximum resident set size/ { print $NF }' "$work/time"
    fi
}

write_program() {
    cat <<'END'
//! Times invoices. A line that is printed has how many invoices are paid, how often the three edits were
//! made, and the nanoseconds that they took.
#![tactic(auto)]

ghost use Rattle.std.specs.Prelude.{◌≡◌, ◌+◌, ◌*◌, ◌^◌, ◌≤◌, nat_abs, IfOk};
ghost use Rattle.credit_times.specs.Steps.{IsWithin};

use kb_base::NoMemory;
use kb_credit::{Invoices, Line};
use kb_days::Day;
use std::alloc::Global;
use std::io;
use std::time::Instant;

const RUNS: u32 = 5;

const CALLS: u32 = 2_000;

/// 1 March 2024.
const MARCH: u32 = 19_783;

fn main(rt: HostRuntime) -> io::Result<()> {
    time_at(&rt, 100)?;
    time_at(&rt, 100_000)
}

fn time_at(rt: &HostRuntime, count: usize) -> io::Result<()>
    requires few { count ≤ 100000 }
{
    let day = Day::new(MARCH).ok_or(io::ErrorKind::InvalidData)?;
    let Ok(invoices) = grown(rt.alloc(), day, count) else {
        return Err(io::ErrorKind::OutOfMemory.into());
    };
    for _ in 0..RUNS {
        time_run(rt, &invoices, day, count)?;
    }
    Ok(())
}

fn time_run(rt: &HostRuntime, invoices: &Invoices, day: Day, count: usize) -> io::Result<()>
    requires few { count ≤ 100000 }
    requires within { IsWithin (2 * count + 3) invoices.now }
{
    let mut unpaid = 0u32;
    let start = Instant::now(rt)?;
    for _ in 0..CALLS {
        let Ok(edited) = edited(rt.alloc(), invoices, day, 2 * count + 3) else {
            return Err(io::ErrorKind::OutOfMemory.into());
        };
        unpaid = unpaid.wrapping_add(edited.unpaid_count());
    }
    let nanos = start.elapsed(rt)?.as_nanos();
    // What is unpaid is printed too, so that no edit can be left out.
    println!(rt; "{count},{CALLS},{nanos},{unpaid}")
}

/// An account of so many paid invoices, and three unpaid ones.
fn grown(alloc: Global, day: Day, count: usize) -> Result<Invoices, NoMemory>
    requires few { count ≤ 100000 }
    ensures { IfOk result (λ all. IsWithin (2 * count + 3) all) }
{
    let all = settled(alloc, day, count)?;
    let one = issued(alloc, &all, day, 1000, 2 * count)?;
    let two = issued(alloc, &one, day, 1000, 2 * count + 1)?;
    issued(alloc, &two, day, 1000, 2 * count + 2)
}

/// An account of so many paid invoices.
fn settled(alloc: Global, day: Day, count: usize) -> Result<Invoices, NoMemory>
    requires few { count ≤ 100000 }
    ensures { IfOk result (λ all. IsWithin (2 * count) all) }
{
    let mut all = Invoices::new(alloc);
    for turn in 0..count {
        all = with_settled(alloc, &all, day, 2 * turn)?;
    }
    Ok(all)
}

/// The invoices, and another one that is paid.
fn with_settled(alloc: Global, before: &Invoices, day: Day, count: usize) -> Result<Invoices, NoMemory>
    requires within { IsWithin count before.now }
    requires few { count ≤ 200000 }
    ensures { IfOk result (λ after. IsWithin (count + 2) after) }
{
    let issued = issued(alloc, before, day, 1000, count)?;
    paid(alloc, &issued, issued.len(), 1000, count + 1)
}

/// The invoices, where one is issued, more is paid on the oldest, and all are levelled.
fn edited(alloc: Global, before: &Invoices, day: Day, count: usize) -> Result<Invoices, NoMemory>
    requires within { IsWithin count before.now }
    requires few { count ≤ 200003 }
{
    let issued = issued(alloc, before, day, 1000, count)?;
    let paid = paid(alloc, &issued, 1, 2500, count + 1)?;
    paid.level(alloc)
}

fn issued(
    alloc: Global,
    before: &Invoices,
    day: Day,
    amount: i128,
    count: usize,
) -> Result<Invoices, NoMemory>
    requires within { IsWithin count before.now }
    requires few { count ≤ 300000 }
    requires small { nat_abs amount ≤ 2 ^ 63 }
    ensures { IfOk result (λ after. IsWithin (count + 1) after) }
{
    Ok(before.issue(alloc, day, &[Line::Charge { amount }])?)
}

fn paid(
    alloc: Global,
    before: &Invoices,
    invoice: u32,
    amount: i128,
    count: usize,
) -> Result<Invoices, NoMemory>
    requires within { IsWithin count before.now }
    requires few { count ≤ 300000 }
    requires small { nat_abs amount ≤ 2 ^ 63 }
    ensures { IfOk result (λ after. IsWithin (count + 1) after) }
{
    if invoice == 0 || before.len() < invoice {
        return Err(NoMemory);
    }
    Ok(before.pay(alloc, invoice, amount)?)
}
END
}

# What the program's loop keeps.
write_invariant() {
    cat <<'END'
use Rattle.std.proofs.Common.{◌*◌}
use Rattle.credit_times.specs.Steps.{IsWithin}
use Rattle.credit_times.proofs.settled.Given as goal

abbrev pub invariant-loop-turn : goal.invariant-loop-turn
invariant-loop-turn l = IsWithin (2 * l.turn) l.all
END
}

write_issued() {
    cat <<'END'
use Rattle.std.proofs.Common.{◌≡◌, ◌∷◌, [], to_z, of_z, to_z-of_z, ap, ◌∙◌}
use Rattle.std.specs.Int.{w128}
use Rattle.kb_credit.specs.declared.line.Line.TheVariants.{Charge}
use Rattle.kb_credit.specs.InvoiceEdits as edits
use Rattle.credit_times.proofs.WithinSteps.{IsWithin-issued}
use Rattle.credit_times.proofs.issued.Goals as goal

pub returns : goal.returns
returns c =
    let before = c.args.before.now in
    let same : to_z w128 (of_z w128 c.args.amount) ≡ c.args.amount = to_z-of_z c.ranges.amount in
    IsWithin-issued c.args.count before c.in_ok-issue.field-0 c.args.day (Charge c.args.amount)
        c.requires.within c.requires.small
        (c.in_ok-issue.ensures.issued ∙ ap (λ amount. edits.issued before c.args.day (Charge amount ∷ [])) same)
END
}

write_paid() {
    cat <<'END'
use Rattle.std.proofs.Common.{◌≡◌, to_z, of_z, to_z-of_z, ap, ◌∙◌}
use Rattle.std.specs.Int.{w128}
use Rattle.kb_credit.specs.InvoiceEdits.{paid_on}
use Rattle.credit_times.proofs.WithinSteps.{IsWithin-paid, payments_within}
use Rattle.credit_times.proofs.paid.Goals as goal

pub pay-requires-clause-bounded : goal.pay-requires-clause-bounded
pay-requires-clause-bounded c =
    rw (to_z-of_z c.ranges.amount)
    (payments_within c.args.count _ c.args.amount c.args.before.now c.requires.within c.requires.few
        c.requires.small)

pub returns : goal.returns
returns c =
    let same : to_z w128 (of_z w128 c.args.amount) ≡ c.args.amount = to_z-of_z c.ranges.amount in
    IsWithin-paid c.args.count c.args.invoice c.args.amount c.args.before.now c.in_ok-pay.field-0
        c.requires.within c.requires.small
        (c.in_ok-pay.ensures.paid ∙ ap (paid_on c.args.before.now c.args.invoice) same)
END
}

# What bounds an account of so many steps.
write_steps() {
    cat <<'END'
-- How large an account may be after some steps.
use Rattle.std.specs.Prelude.{ℕ, ◌*◌, ◌^◌, ◌≤◌, length}
use Rattle.kb_credit.specs.declared.row.Row.{Row}
use Rattle.kb_credit.specs.Sizes.{size_of}
use Rattle.kb_credit.specs.InvoiceRows.{InvoicesValue}

-- no more than one invoice a step, and no amount of more than 2 ^ 63
pub record IsWithin (steps : ℕ) (invoices : InvoicesValue) : Type 0 where
  pub rows : length invoices.rows ≤ steps
  pub totals : size_of (λ (row : Row). row.total) invoices.rows ≤ steps * 2 ^ 63
  pub payments : size_of (λ (row : Row). row.paid) invoices.rows ≤ steps * 2 ^ 63
END
}

# Each step keeps within its bound.
write_within() {
    cat <<'END'
-- Each step keeps an account within what so many steps make of it.
use Rattle.std.proofs.Common.{◌≡◌, ℕ, ◌+◌, ◌-◌, ◌^◌, ◌≤◌, [], ◌∷◌, ℤ, pos}
use Rattle.std.proofs.Common.{nat_abs, arith, length-append}
use Rattle.kb_sharing.specs.Sums.{sum_of}
use Rattle.kb_credit.specs.declared.row.Row.{Row}
use Rattle.kb_credit.specs.declared.line.Line.{Line}
use Rattle.kb_credit.specs.Items.{amount_of}
use Rattle.kb_credit.specs.Sizes.{size_of}
use Rattle.kb_credit.specs.InvoiceRows.{InvoicesValue}
use Rattle.kb_credit.specs.InvoiceEdits.{max_sum, issued, paid_at, paid_on, levelled}
use Rattle.kb_credit.proofs.GrownSizes.{totals-issued, payments-issued, totals-paid_at, payments-paid_at}
use Rattle.kb_credit.proofs.GrownSizes.{totals-levelled, payments-levelled}
use Rattle.kb_credit.proofs.PaidRows.{length-paid_at}
use Rattle.kb_credit.proofs.ClosedForm.{length-levelled_rows}
use Rattle.credit_times.specs.Steps.{IsWithin}

pub IsWithin-issued : (steps : ℕ) (before after : InvoicesValue) (day : ℕ) (line : Line)
    → IsWithin steps before → nat_abs (amount_of line) ≤ 2 ^ 63 → after ≡ issued before day (line ∷ [])
    → IsWithin (steps + 1) after
IsWithin-issued steps before after day line within small is =
    let totals = totals-issued before day (line ∷ []) in
    let payments = payments-issued before day (line ∷ []) in
    let row : Row =
    record { day = day; total = sum_of amount_of (line ∷ []); adjusted = pos 0; paid = pos 0 } in
    let longer = length-append before.rows (row ∷ []) in
    let few = within.rows in
    let sum = within.totals in
    let pays = within.payments in
    rw is (record { rows = omega arith; totals = omega arith; payments = omega arith })

pub payments_within : (steps place : ℕ) (amount : ℤ) (before : InvoicesValue) → IsWithin steps before
    → steps ≤ 300000 → nat_abs amount ≤ 2 ^ 63
    → size_of (λ (row : Row). row.paid) (paid_at place amount before.rows) ≤ max_sum
payments_within steps place amount before within few small =
    let more = payments-paid_at place amount before.rows in
    let pays = within.payments in
    omega arith

pub IsWithin-paid : (steps number : ℕ) (amount : ℤ) (before after : InvoicesValue) → IsWithin steps before
    → nat_abs amount ≤ 2 ^ 63 → after ≡ paid_on before number amount → IsWithin (steps + 1) after
IsWithin-paid steps number amount before after within small is =
    let totals = totals-paid_at (number - 1) amount before.rows in
    let payments = payments-paid_at (number - 1) amount before.rows in
    let same = length-paid_at (number - 1) amount before.rows in
    let few = within.rows in
    let sum = within.totals in
    let pays = within.payments in
    rw is (record { rows = omega arith; totals = omega arith; payments = omega arith })

pub IsWithin-levelled : (steps : ℕ) (before after : InvoicesValue) → IsWithin steps before
    → after ≡ levelled before → IsWithin (steps + 1) after
IsWithin-levelled steps before after within is =
    let totals = totals-levelled before in
    let payments = payments-levelled before in
    let same = length-levelled_rows before.rows in
    let few = within.rows in
    let sum = within.totals in
    let pays = within.payments in
    rw is (record { rows = omega arith; totals = omega arith; payments = omega arith })
END
}

make_repository
at="$work/crates/$program"
mkdir -p "$at/specs" "$at/proofs/settled" "$at/proofs/issued" "$at/proofs/paid"
echo 'pub mod Steps' >"$at/specs/Lib.antt"
write_steps >"$at/specs/Steps.antt"
echo 'pub mod WithinSteps' >"$at/proofs/Lib.antt"
write_within >"$at/proofs/WithinSteps.antt"
write_invariant >"$at/proofs/settled/Invariants.antt"
write_issued >"$at/proofs/issued/Answers.antt"
write_paid >"$at/proofs/paid/Answers.antt"
take_times
best_times | awk -F , '
    { nanos[$1] = $2; printf "issue, pay and level at %6d paid invoices%9.2f us\n", $1, $2 / 1e3 }
    END { printf "times as long%36.2f\n", nanos[100000] / nanos[100] }'
memory=$(peak_memory)
[ -z "$memory" ] || echo "memory for each invoice, at most        $((memory * 1024 / 100106)) bytes"
