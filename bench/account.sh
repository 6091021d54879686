#!/bin/sh
# Prints how long commands on an account take, and how much memory an account does. It tests nothing. The
# aims stand beside the figures.
#
# The account bills on the 1st, and its subscriptions are on a plan of 1000 a month since 2020-01-01. `bill`
# is that of the next month once 24 or 120 months are billed, and once 1,200 commands more of charges,
# payments and settlements were accepted; and that of 128 subscriptions. `change` moves a subscription to
# another plan, 24 months ago. Each is prepared and dropped, over and over. The time is taken inside the
# program, as LLVM builds it, and is the best of five runs of many calls. Then 2,000 accounts are made, each
# with 24 bills and their automatic payments: the commands a second, and what the process holds of each. A
# payment and its settlement come to an account that is known to be billed, as they do in a lane.
#
# The program and the libraries below it are built in a new folder, which takes 6 GB while it is there.
set -eu
cd "$(dirname "$0")/.."
. bench/repository.sh

program=account_times
libraries='kb_base kb_days kb_money kb_sharing kb_catalog kb_align kb_timeline kb_blocking kb_overdue kb_credit
    kb_payment kb_due kb_events kb_tree kb_catalog_text kb_codec kb_book kb_edits kb_account kb_samples'
libraries=$(echo $libraries)

write_program() {
    cat <<'END'
//! Times commands on accounts. A line that is printed has what is timed, how many calls were made, and the
//! nanoseconds that they took; or how much memory the process held at most, in KB.
#![tactic(auto)]
ghost use Rattle.std.specs.Prelude.{◌≡◌, true, IfSome};
ghost use Rattle.kb_book.specs.BilledBooks.{IsBilled};

use kb_account::{Book, Prepared, World, auto_key};
use kb_catalog_text::read_overdue;
use kb_codec::decode;
use kb_codec::{Action, Command};
use kb_days::Day;
use kb_overdue::Config;
use kb_catalog_text::SHOP;
use kb_samples::catalog;
use std::alloc::Global;
use std::fs;
use std::io;
use std::time::Instant;

const RUNS: u32 = 5;

/// How many accounts are held in memory.
const ACCOUNTS: u32 = 2_000;

fn main(rt: HostRuntime) -> io::Result<()> {
    let world = world(rt.alloc()).ok_or(io::ErrorKind::InvalidData)?;
    time_all(&rt, &world)?;
    hold(&rt, &world)
}

fn world(alloc: Global) -> Option<World> {
    let catalog = catalog(alloc, &[SHOP]).ok()?;
    let overdue = no_states(alloc)?;
    Some(World { catalog, overdue })
}

fn no_states(alloc: Global) -> Option<Config> {
    let text = b"state = []".to_vec(alloc).ok()?;
    match read_overdue(alloc, text) {
        Ok(checked) => Some(checked.into_parts().1),
        Err(_) => None,
    }
}

fn time_all(rt: &HostRuntime, world: &World) -> io::Result<()> {
    time_bill(rt, world, "bill after 24 months", 1, 24, 0, 10_000)?;
    time_bill(rt, world, "bill after 120 months", 1, 120, 0, 10_000)?;
    time_bill(rt, world, "bill after 1200 commands", 1, 24, 400, 10_000)?;
    time_bill(rt, world, "bill of 128", 128, 24, 0, 200)?;
    time_change(rt, world)
}

/// Times the bill of the next month of an account.
fn time_bill(
    rt: &HostRuntime,
    world: &World,
    what: &str,
    subscriptions: u32,
    months: u32,
    rounds: u32,
    calls: u32,
) -> io::Result<()> {
    let alloc = rt.alloc();
    let next = months.wrapping_add(1);
    let bill = bill(alloc, next).ok_or(io::ErrorKind::InvalidData)?;
    let book = account(alloc, world, subscriptions, months, rounds);
    let book = book.ok_or(io::ErrorKind::InvalidData)?;
    time(rt, world, &book, what, next, &bill, calls)
}

/// Times a change of 24 months ago.
fn time_change(rt: &HostRuntime, world: &World) -> io::Result<()> {
    let alloc = rt.alloc();
    let change = change(alloc).ok_or(io::ErrorKind::InvalidData)?;
    let book = account(alloc, world, 1, 24, 0).ok_or(io::ErrorKind::InvalidData)?;
    time(rt, world, &book, "change 24 months ago", 24, &change, 10_000)
}

/// Times a command that is prepared and dropped.
fn time(
    rt: &HostRuntime,
    world: &World,
    book: &Book,
    what: &str,
    month: u32,
    bytes: &[u8],
    calls: u32,
) -> io::Result<()> {
    let today = first_of(month).ok_or(io::ErrorKind::InvalidData)?;
    match decode(rt.alloc(), bytes) {
        Ok(Some(command)) => time_runs(rt, world, book, what, today, &command, calls),
        _ => Err(io::ErrorKind::InvalidData.into()),
    }
}

/// The calls are all the same, so none is timed unless one, and so each, is prepared as a new command.
fn time_runs(
    rt: &HostRuntime,
    world: &World,
    book: &Book,
    what: &str,
    today: Day,
    command: &Command,
    calls: u32,
) -> io::Result<()> {
    for _ in 0..RUNS {
        let start = Instant::now(rt)?;
        let mut done = 0;
        for _ in 0..calls {
            if is_next(rt.alloc(), world, book, today, command) {
                done = calls;
            }
        }
        let nanos = start.elapsed(rt)?.as_nanos();
        println!(rt; "{what},{done},{nanos}")?;
    }
    Ok(())
}

/// Whether a command is prepared as a new one.
fn is_next(alloc: Global, world: &World, book: &Book, today: Day, command: &Command) -> bool {
    match book.prepare(alloc, world, today, command, false) {
        Ok(Prepared::Next(_)) => true,
        _ => false,
    }
}

/// Makes accounts and holds them.
fn hold(rt: &HostRuntime, world: &World) -> io::Result<()> {
    peak(rt, "before")?;
    let alloc = rt.alloc();
    let mut books = Vec::new(alloc);
    let mut commands = 0u64;
    let start = Instant::now(rt)?;
    for _ in 0..ACCOUNTS {
        let book = paying(alloc, world).ok_or(io::ErrorKind::InvalidData)?;
        commands = commands.wrapping_add(book.sums().commands);
        books.push(book)?;
    }
    let nanos = start.elapsed(rt)?.as_nanos();
    println!(rt; "commands,{commands},{nanos}")?;
    println!(rt; "accounts held,{}", books.len())?;
    peak(rt, "after")
}

/// An account with 24 bills, each paid by itself.
fn paying(alloc: Global, world: &World) -> Option<Book> {
    let mut book = account(alloc, world, 1, 0, 0)?;
    match pay_months(alloc, world, &mut book) {
        true => Some(book),
        false => None,
    }
}

fn pay_months(alloc: Global, world: &World, book: &mut Book) -> bool {
    for month in 1..=24 {
        if pay_month(alloc, world, book, month).is_none() {
            return false;
        }
    }
    true
}

fn pay_month(alloc: Global, world: &World, book: &mut Book, month: u32) -> Option<()> {
    let today = first_of(month)?;
    send(alloc, world, book, today, &bill(alloc, month)?)?;
    pay_due(alloc, world, book, today)?;
    let payment = auto_key(alloc, month, today).ok()?;
    send_to(alloc, world, book, today, &settle(alloc, payment.as_str())?, true)
}

fn pay_due(alloc: Global, world: &World, book: &mut Book, today: Day) -> Option<()>
    requires billed { IsBilled world.now book.old }
    ensures billed { IfSome result (λ _. IsBilled world.now book.new) }
{
    match book.due_next(world, today) {
        None => None,
        Some(due) => apply(alloc, world, book, today, &due, true),
    }
}

/// An account with subscriptions that are billed for some months, after some rounds of a charge, a payment
/// and its settlement.
fn account(
    alloc: Global,
    world: &World,
    subscriptions: u32,
    months: u32,
    rounds: u32,
) -> Option<Book> {
    let mut book = opened(alloc)?;
    match fill(alloc, world, &mut book, subscriptions, months, rounds) {
        Some(()) => Some(book),
        None => None,
    }
}

fn fill(
    alloc: Global,
    world: &World,
    book: &mut Book,
    subscriptions: u32,
    months: u32,
    rounds: u32,
) -> Option<()> {
    let today = first_of(0)?;
    for number in 0..subscriptions {
        send(alloc, world, book, today, &create(alloc, number)?)?;
    }
    for month in 1..=months {
        send(alloc, world, book, first_of(month)?, &bill(alloc, month)?)?;
    }
    for number in 0..rounds {
        send(alloc, world, book, today, &charge(alloc, number)?)?;
        send(alloc, world, book, today, &pay(alloc, number)?)?;
        let payment = format!(in alloc; "p{}", four(number)).ok()?;
        send(alloc, world, book, today, &settle(alloc, payment.as_str())?)?;
    }
    Some(())
}

fn opened(alloc: Global) -> Option<Book> {
    match decode(alloc, b"\x03\x02a1\x02k1USD\x01\x01") {
        Ok(Some(open)) => first_by(alloc, &open),
        _ => None,
    }
}

fn first_by(alloc: Global, command: &Command) -> Option<Book> {
    match command {
        Command::Act { action: Action::OpenAccount(_), .. } => match Book::first(alloc, command) {
            Ok((book, _)) => Some(book),
            Err(_) => None,
        },
        _ => None,
    }
}

/// The account after the command of these bytes.
fn send(alloc: Global, world: &World, book: &mut Book, today: Day, bytes: &[u8]) -> Option<()>
    ensures billed { IfSome result (λ _. IsBilled world.now book.new) }
{
    send_to(alloc, world, book, today, bytes, false)
}

/// The same of an account that may be known to be billed.
fn send_to(
    alloc: Global,
    world: &World,
    book: &mut Book,
    today: Day,
    bytes: &[u8],
    billed: bool,
) -> Option<()>
    requires known { billed ≡ true → IsBilled world.now book.old }
    ensures billed { IfSome result (λ _. IsBilled world.now book.new) }
{
    match decode(alloc, bytes) {
        Ok(Some(command)) => apply(alloc, world, book, today, &command, billed),
        _ => None,
    }
}

/// The account after a command that is new.
fn apply(
    alloc: Global,
    world: &World,
    book: &mut Book,
    today: Day,
    command: &Command,
    billed: bool,
) -> Option<()>
    requires known { billed ≡ true → IsBilled world.now book.old }
    ensures billed { IfSome result (λ _. IsBilled world.now book.new) }
{
    match book.prepare(alloc, world, today, command, billed) {
        Ok(Prepared::Next(next)) => {
            book.commit(next);
            Some(())
        }
        _ => None,
    }
}

/// A number as four digits.
fn four(number: u32) -> u32 {
    number % 1000 + 1000
}

fn create(alloc: Global, number: u32) -> Option<Vec<u8>> {
    let n = four(number);
    let text = format!(in alloc; "\x04\x02a1\x05c{n}\x05b{n}\x05s{n}\x05Basic\x04\x07DEFAULT\0");
    Some(text.ok()?.into_bytes())
}

fn bill(alloc: Global, month: u32) -> Option<Vec<u8>> {
    let text = format!(in alloc; "\x0b\x02a1\x05m{}\0", four(month));
    Some(text.ok()?.into_bytes())
}

/// To another plan, from 2020-01-01 on.
fn change(alloc: Global) -> Option<Vec<u8>> {
    b"\x05\x02a1\x01x\x05s1000\x03Pro\x04\x07DEFAULT\x01\0\0GV".to_vec(alloc).ok()
}

fn charge(alloc: Global, number: u32) -> Option<Vec<u8>> {
    let text = format!(in alloc; "\x0c\x02a1\x05x{}\0\0\0\0\0\0\0d", four(number));
    Some(text.ok()?.into_bytes())
}

/// All of an invoice.
fn pay(alloc: Global, number: u32) -> Option<Vec<u8>> {
    let n = four(number);
    let text = format!(in alloc; "\x0e\x02a1\x05y{n}\x05p{n}");
    let mut bytes = text.ok()?.into_bytes();
    let invoice = number.wrapping_add(1);
    bytes.extend_from_slice(&invoice.to_be_bytes()).ok()?;
    bytes.push(0).ok()?;
    Some(bytes)
}

/// As a success.
fn settle(alloc: Global, payment: &str) -> Option<Vec<u8>> {
    let mut bytes = b"\x13\x02a1".to_vec(alloc).ok()?;
    bytes.push(u8::try_from(payment.len()).ok()?).ok()?;
    bytes.extend_from_slice(payment.as_bytes()).ok()?;
    bytes.push(2).ok()?;
    Some(bytes)
}

/// The first day of a month, counted from January 2020.
fn first_of(month: u32) -> Option<Day> {
    let year = month / 12;
    let place = month % 12 + 1;
    let text = [
        b'2',
        b'0',
        digit(year / 10 + 2),
        digit(year),
        b'-',
        digit(place / 10),
        digit(place),
        b'-',
        b'0',
        b'1',
    ];
    kb_days::parse(&text).ok()
}

fn digit(number: u32) -> u8 {
    b'0' + (number % 10) as u8
}
END
    write_peak
}

# Why an account is known to be billed after a command.
write_proof() {
    cat <<'END'
use Rattle.std.proofs.Common.{sym, subst}
use Rattle.kb_account.specs.declared.next.Prepared.{Prepared}
use Rattle.kb_account.specs.Prepares.{IfNew}
use Rattle.kb_book.specs.BilledBooks.{IsBilled}
use Rattle.account_times.proofs.apply.Goals as goal

pub returns-in-Ok-Next : goal.returns-in-Ok-Next
returns-in-Ok-Next c = record {
  billed = subst (IsBilled c.args.world.now) (sym c.commit.ensures.book)
      (subst (λ (prepared : Prepared). IfNew (λ book answer. IsBilled c.args.world.now book) prepared)
      c.in-Ok-Next.field-0-is c.in-Ok-Next.ensures.billed);
}
END
}

make_repository
mkdir -p "$work/crates/$program/proofs/apply"
write_proof >"$work/crates/$program/proofs/apply/Answers.antt"
take_times
awk -F , '
    /^peak|^accounts held/ { split($2, number, " "); figure[$1] = number[1]; next }
    !($1 in best) { order[++count] = $1; best[$1] = $3 / $2 }
    $3 / $2 < best[$1] { best[$1] = $3 / $2 }
    END {
        aim["bill after 24 months"] = "aim: under 10"
        aim["bill after 120 months"] = "aim: under 30"
        aim["bill after 1200 commands"] = "aim: 1.5 times that of 24 months"
        aim["bill of 128"] = "aim: under 1000"
        aim["change 24 months ago"] = "aim: under 50"
        for (place = 1; place <= count; place++)
            if (order[place] != "commands")
                printf "%-26s %10.2f us       %s\n", order[place], best[order[place]] / 1e3, aim[order[place]]
        printf "%-26s %10.0f a second aim: 200000\n", "commands", 1e9 / best["commands"]
        printf "%-26s %10.2f kB       aim: under 20\n", "memory of an account", \
            (figure["peak after"] - figure["peak before"]) * 1.024 / figure["accounts held"]
    }' "$work/times"
