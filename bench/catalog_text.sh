#!/bin/sh
# Prints how long a large catalog text takes to read (`kb_catalog_text::read`), how long its TOML alone takes
# (`toml::table_from_slice`), and how much memory the program that reads it holds. It tests nothing. The aims
# are 30 ms for the read, and 10 MB.
#
# The text has 59,641 of at most 60,000 bytes, and spells 56 products, each with a plan of one phase for
# each of the ten billing periods. The list DEFAULT names all 560 plans, and each rule list has one case.
# The time is taken inside the program, as LLVM builds it, and is the best of five.
#
# The program and the libraries below it are built in a new folder, which takes 3 GB while it is there.
set -eu
cd "$(dirname "$0")/.."
. bench/repository.sh

program=text_times
libraries='kb_base kb_days kb_money kb_catalog kb_overdue kb_catalog_text toml'

# The most memory that a run held.
peak_memory() {
    if [ -x /usr/bin/time ] && /usr/bin/time -v true >/dev/null 2>&1; then
        /usr/bin/time -v "$work/crates/$program/out/$program" 2>"$work/time" >/dev/null
        awk '/Maximum resident set size/ { print $NF, "KB" }' "$work/time"
        return
    fi
    echo "not known (there is no /usr/bin/time)"
}

write_program() {
    cat <<'END'
//! Times the reading of a large catalog text. A line that is printed has what is timed, how many calls were
//! made, and the nanoseconds that they took. The first line has the bytes of the text in their place.
#![tactic(auto)]

use std::alloc::Global;
use std::io;
use std::io::Write;
use std::time::Instant;

const RUNS: u32 = 5;

/// Each letter or digit is the name of a product.
const PRODUCTS: &str = "ABCDEFGHIJKLMNOPQRSTUVWXYZabcdefghijklmnopqrstuvwxyz0123";

/// The billing periods with a price. A plan may also have none.
const PERIODS: [&str; 9] = [
    "DAILY",
    "WEEKLY",
    "BIWEEKLY",
    "THIRTY_DAYS",
    "MONTHLY",
    "QUARTERLY",
    "BIANNUAL",
    "ANNUAL",
    "BIENNIAL",
];

const HEAD: &str = "format=1
effective='2020-01-01'
currencies=['USD']
";

const RULES: &str = "[rules]
change_policy=[{policy='IMMEDIATE'}]
change_alignment=[{alignment='START_OF_SUBSCRIPTION'}]
cancel_policy=[{policy='IMMEDIATE'}]
create_alignment=[{alignment='START_OF_SUBSCRIPTION'}]
billing_alignment=[{alignment='ACCOUNT'}]
";

fn main(rt: HostRuntime) -> io::Result<()> {
    let bytes = large(rt.alloc())?.len();
    println!(rt; "bytes,1,{bytes}")?;
    for _ in 0..RUNS {
        time_read(&rt)?;
        time_toml(&rt)?;
    }
    Ok(())
}

fn time_read(rt: &HostRuntime) -> io::Result<()> {
    let text = large(rt.alloc())?;
    let start = Instant::now(rt)?;
    let read = kb_catalog_text::read(rt.alloc(), text);
    let nanos = start.elapsed(rt)?.as_nanos();
    if let Err(fault) = read {
        eprintln!(rt; "the text has the fault {}: {fault:?}", fault.number())?;
        return Err(io::ErrorKind::InvalidData.into());
    }
    println!(rt; "read,1,{nanos}")
}

fn time_toml(rt: &HostRuntime) -> io::Result<()> {
    let text = large(rt.alloc())?;
    let start = Instant::now(rt)?;
    let table = toml::table_from_slice(rt.alloc(), &text);
    let nanos = start.elapsed(rt)?.as_nanos();
    if table.is_err() {
        return Err(io::ErrorKind::InvalidData.into());
    }
    println!(rt; "toml,1,{nanos}")
}

/// A plan for each of the products and billing periods, which the list DEFAULT names.
fn large(alloc: Global) -> io::Result<Vec<u8>> {
    let mut text = Vec::new(alloc);
    write!(text, "{HEAD}")?;
    products(&mut text)?;
    plans(&mut text)?;
    list(&mut text)?;
    write!(text, "{RULES}")?;
    Ok(text)
}

fn products(text: &mut Vec<u8>) -> io::Result<()> {
    write!(text, "product=[")?;
    for product in PRODUCTS.chars() {
        write!(text, "{{name='{product}',category='BASE'}},")?;
    }
    writeln!(text, "]")
}

fn plans(text: &mut Vec<u8>) -> io::Result<()> {
    write!(text, "plan=[")?;
    for product in PRODUCTS.chars() {
        for (place, period) in PERIODS.iter().enumerate() {
            plan(text, product, place)?;
            write!(text, ",period='{period}',recurring.USD=1}}]}},")?;
        }
        plan(text, product, PERIODS.len())?;
        write!(text, "}}]}},")?;
    }
    writeln!(text, "]")
}

/// A plan up to its phase's billing period.
fn plan(text: &mut Vec<u8>, product: char, place: usize) -> io::Result<()> {
    write!(text, "{{name='{product}{place}',product='{product}',")?;
    write!(text, "phase=[{{type='EVERGREEN',unit='UNLIMITED'")
}

fn list(text: &mut Vec<u8>) -> io::Result<()> {
    write!(text, "list=[{{name='DEFAULT',plans=[")?;
    for product in PRODUCTS.chars() {
        for place in 0..=PERIODS.len() {
            write!(text, "'{product}{place}',")?;
        }
    }
    writeln!(text, "]}}]")
}
END
}

make_repository
take_times
best_times | awk -F , '
    $1 == "bytes" { printf "bytes         %d\n", $2 }
    $1 == "read" { printf "read          %.2f ms\n", $2 / 1e6 }
    $1 == "toml" { printf "toml alone    %.2f ms\n", $2 / 1e6 }'
echo "peak memory   $(peak_memory)"
