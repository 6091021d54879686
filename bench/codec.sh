#!/bin/sh
# Prints how long it takes to write a command as bytes and to read it back: of an account that is opened, of a
# subscription that is begun, of a block with six names, and of a catalog text. It tests nothing. The aims
# stand beside the figures; a text is to be read at the speed of its reader, whose own time is printed
# beside it.
#
# A call is timed together with the drop of what it gives. The time is taken inside the program, as LLVM
# builds it, and is the best of five runs of many calls.
#
# The program and the libraries below it are built in a new folder, which takes 4 GB while it is there.
set -eu
cd "$(dirname "$0")/.."
. bench/repository.sh

program=codec_times
libraries='kb_base kb_days kb_money kb_sharing kb_catalog kb_blocking kb_overdue kb_payment kb_catalog_text
    kb_codec'
libraries=$(echo $libraries)

write_program() {
    cat <<'END'
//! Times commands as bytes. A line that is printed has what is timed, how many calls were made, and the
//! nanoseconds that they took.
#![tactic(auto)]

use kb_base::NoMemory;
use kb_catalog_text::read;
use kb_codec::{decode, encode};
use kb_codec::Command;
use std::alloc::Global;
use std::io;
use std::time::Instant;

const RUNS: u32 = 5;

const CALLS: u32 = 20_000;

const TEXT_CALLS: u32 = 500;

const OPEN: &[u8] = b"\x03\x02a1\x02k1USD\x01\x00";

const CREATE: &[u8] = b"\x04\x02a1\x02k2\x02b1\x02s1\x05Basic\x04\x07DEFAULT\x01\x00\x00\x4d\x47";

const BLOCK: &[u8] = b"\x0a\x0aaccount-01\x0arequest-01\x01\x08bundle-1\x07support\x04HOLD\x01\x00\x00\x4d\x47\x04";

const TEXT: &[u8] = b"format = 1
effective = '2020-01-01'
currencies = ['USD']
product = [{name='Gold', category='BASE', available=['Help']}, {name='Help', category='ADD_ON'}]
plan = [{name='gold-monthly', product='Gold', phase=[{type='EVERGREEN', unit='UNLIMITED', period='MONTHLY', recurring={USD=1000}}]}]
list = [{name='DEFAULT', plans=['gold-monthly']}]
[rules]
change_policy = [{policy='IMMEDIATE'}]
change_alignment = [{alignment='START_OF_SUBSCRIPTION'}]
cancel_policy = [{policy='IMMEDIATE'}]
create_alignment = [{alignment='START_OF_SUBSCRIPTION'}]
billing_alignment = [{alignment='ACCOUNT'}]
";

fn main(rt: HostRuntime) -> io::Result<()> {
    let alloc = rt.alloc();
    for _ in 0..RUNS {
        time(&rt, "open", OPEN)?;
        time(&rt, "create", CREATE)?;
        time(&rt, "block", BLOCK)?;
        let Ok(bytes) = catalog_bytes(alloc) else {
            return Err(io::ErrorKind::OutOfMemory.into());
        };
        time_decode(&rt, "catalog text", &bytes, TEXT_CALLS)?;
        time_read(&rt)?;
    }
    Ok(())
}

/// A catalog text as a command.
fn catalog_bytes(alloc: Global) -> Result<Vec<u8>, NoMemory> {
    let mut bytes = Vec::new(alloc);
    bytes.extend_from_slice(b"\x01\x02k1")?;
    bytes.extend_from_slice(&(TEXT.len() as u32).to_be_bytes())?;
    bytes.extend_from_slice(TEXT)?;
    Ok(bytes)
}

fn time(rt: &HostRuntime, name: &str, bytes: &[u8]) -> io::Result<()> {
    let Ok(Some(command)) = decode(rt.alloc(), bytes) else {
        return Err(io::ErrorKind::InvalidData.into());
    };
    time_encode(rt, name, &command)?;
    time_decode(rt, name, bytes, CALLS)
}

fn time_encode(rt: &HostRuntime, name: &str, command: &Command) -> io::Result<()> {
    let mut total = 0u64;
    let start = Instant::now(rt)?;
    for _ in 0..CALLS {
        let Ok(bytes) = encode(rt.alloc(), command) else {
            return Err(io::ErrorKind::OutOfMemory.into());
        };
        total = total.wrapping_add(bytes.len() as u64);
    }
    let nanos = start.elapsed(rt)?.as_nanos();
    println!(rt; "{name} encode,{CALLS},{nanos},{total}")
}

fn time_decode(
    rt: &HostRuntime,
    name: &str,
    bytes: &[u8],
    calls: u32,
) -> io::Result<()> {
    let mut found = 0u32;
    let start = Instant::now(rt)?;
    for _ in 0..calls {
        let Ok(command) = decode(rt.alloc(), bytes) else {
            return Err(io::ErrorKind::OutOfMemory.into());
        };
        if command.is_some() {
            found = found.wrapping_add(1);
        }
    }
    let nanos = start.elapsed(rt)?.as_nanos();
    println!(rt; "{name} decode,{calls},{nanos},{found}")
}

/// The reader of catalog texts alone.
fn time_read(rt: &HostRuntime) -> io::Result<()> {
    let mut found = 0u32;
    let start = Instant::now(rt)?;
    for _ in 0..TEXT_CALLS {
        let Ok(text) = TEXT.to_vec(rt.alloc()) else {
            return Err(io::ErrorKind::OutOfMemory.into());
        };
        if read(rt.alloc(), text).is_ok() {
            found = found.wrapping_add(1);
        }
    }
    let nanos = start.elapsed(rt)?.as_nanos();
    println!(rt; "catalog text reader,{TEXT_CALLS},{nanos},{found}")
}
END
}

make_repository
take_times
best_times | awk -F , '
    { printf "%-24s %9.0f ns%s\n", $1, $2, $1 ~ /text/ ? "" : "   aim: under 300 ns" }'
