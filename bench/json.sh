#!/bin/sh
# Prints how long it takes to read a line of JSON as a request, and to write an answer as JSON; and how much
# memory a long line takes while it is read. It tests nothing. The aims stand beside the figures.
#
# The lines are those of a bill, of a subscription that is begun and of a block with all its members; a bill
# that is padded with blanks to 65,536 bytes; a line as long whose member that isn't known is one text, and
# one whose is an array of numbers. The answers are to an accepted command and to a query for an account. A
# call is timed together with the drop of what it gives. The time is taken inside the program, as LLVM
# builds it, and is the best of five runs of many calls.
#
# The program and the libraries below it are built in a new folder, which takes 7 GB while it is there.
set -eu
cd "$(dirname "$0")/.."
. bench/repository.sh

program=json_times
libraries='kb_base kb_days kb_money kb_sharing kb_catalog kb_align kb_timeline kb_blocking kb_overdue kb_credit
    kb_payment kb_due kb_events kb_tree kb_catalog_text kb_codec kb_ports kb_disk kb_journal kb_gateway
    kb_book kb_edits kb_account kb_machine kb_histories kb_lane kb_json'
libraries=$(echo $libraries)

write_program() {
    cat <<'END'
//! Times requests and answers in JSON. A line that is printed has what is timed, how many calls were made,
//! and the nanoseconds that they took; or how much memory the process held at most, in KB.
#![tactic(auto)]

use kb_book::{AccountView, View};
use kb_base::NoMemory;
use kb_book::Answer;
use kb_days::Name;
use kb_money::Currency;
use kb_book::LaneReply;
use kb_json::read_request;
use kb_json::{Said, answer_text};
use std::alloc::Global;
use std::fs;
use std::io;
use std::time::Instant;

const RUNS: u32 = 5;

const CALLS: u32 = 20_000;

const LONG_CALLS: u32 = 200;

const LENGTH: usize = 65_536;

const BILL: &[u8] = br#"{"do":"bill","account":"a1","key":"k1","today":"2024-03-10"}"#;

const CREATE: &[u8] = br#"{"do":"create","account":"a1","key":"k1","bundle":"b1","subscription":"s1","product":"Basic","period":"MONTHLY","day":"2024-03-01","today":"2024-03-10"}"#;

const BLOCK: &[u8] = br#"{"do":"block","account":"a1","key":"k1","scope":"BUNDLE","target":"b1","service":"support","state":"HOLD","day":"2024-03-01","change":true,"entitlement":true,"billing":true}"#;

fn main(rt: HostRuntime) -> io::Result<()> {
    let alloc = rt.alloc();
    let (Ok(blanks), Ok(text), Ok(numbers)) = (
        filled(alloc, BILL, b" ", b""),
        filled(alloc, b"{\"x\":\"", b"a", b"\"}"),
        filled(alloc, b"{\"x\":[1", b",1", b"]}"),
    ) else {
        return Err(io::ErrorKind::OutOfMemory.into());
    };
    time_memory(&rt, "before", &[])?;
    time_memory(&rt, "blanks", &blanks)?;
    time_memory(&rt, "text", &text)?;
    time_memory(&rt, "numbers", &numbers)?;
    for _ in 0..RUNS {
        time_line(&rt, "read bill", BILL, CALLS)?;
        time_line(&rt, "read create", CREATE, CALLS)?;
        time_line(&rt, "read block", BLOCK, CALLS)?;
        time_line(&rt, "read blanks", &blanks, LONG_CALLS)?;
        time_line(&rt, "read text", &text, LONG_CALLS)?;
        time_line(&rt, "read numbers", &numbers, LONG_CALLS)?;
        time_answer(&rt, "answer accepted", &accepted())?;
        if let Some(account) = account() {
            time_answer(&rt, "answer account", &account)?;
        }
    }
    Ok(())
}

/// A line of the most bytes: some before, some over and over, and some behind.
fn filled(alloc: Global, before: &[u8], more: &[u8], behind: &[u8]) -> Result<Vec<u8>, NoMemory> {
    let mut bytes = before.to_vec(alloc)?;
    for _ in 0..LENGTH {
        if bytes.len() >= LENGTH.saturating_sub(more.len()).saturating_sub(behind.len()) {
            break;
        }
        bytes.extend_from_slice(more)?;
    }
    bytes.extend_from_slice(behind)?;
    Ok(bytes)
}

fn accepted() -> Said {
    Said::Reply(LaneReply::Accepted(Answer {
        command: 1234,
        invoice: Some(56),
        total: -38_700,
        credit: 38_700,
        unpaid: 0,
    }))
}

fn account() -> Option<Said> {
    Some(Said::View(View::Account(AccountView {
        account: Name::new(b"account-0123456789")?,
        currency: Currency::new(b"USD")?,
        billed: None,
        charged: 613,
        paid: 1000,
        credit: 387,
        unpaid: 0,
        overdue: None,
    })))
}

fn time_line(rt: &HostRuntime, name: &str, line: &[u8], calls: u32) -> io::Result<()> {
    let mut found = 0u32;
    let start = Instant::now(rt)?;
    for _ in 0..calls {
        if read_request(rt.alloc(), line, true).is_ok() {
            found = found.wrapping_add(1);
        }
    }
    let nanos = start.elapsed(rt)?.as_nanos();
    println!(rt; "{name},{calls},{nanos},{found}")
}

fn time_answer(rt: &HostRuntime, name: &str, answer: &Said) -> io::Result<()> {
    let mut total = 0u64;
    let start = Instant::now(rt)?;
    for _ in 0..CALLS {
        let Ok(text) = answer_text(rt.alloc(), answer) else {
            return Err(io::ErrorKind::OutOfMemory.into());
        };
        total = total.wrapping_add(text.len() as u64);
    }
    let nanos = start.elapsed(rt)?.as_nanos();
    println!(rt; "{name},{CALLS},{nanos},{total}")
}

/// Reads a line once, and prints what the process held at most until then.
fn time_memory(rt: &HostRuntime, name: &str, line: &[u8]) -> io::Result<()> {
    let _ = read_request(rt.alloc(), line, true);
    peak(rt, name)
}
END
    write_peak
}

make_repository
take_times
awk -F , '
    /^peak/ { split($2, number, " "); peak[$1] = number[1]; next }
    !($1 in best) { order[++count] = $1; best[$1] = $3 / $2 }
    $3 / $2 < best[$1] { best[$1] = $3 / $2 }
    END {
        aim["read bill"] = "aim: under 1000"
        aim["read blanks"] = aim["read text"] = aim["read numbers"] = "aim: under 1000000"
        aim["answer accepted"] = aim["answer account"] = "aim: under 300"
        for (place = 1; place <= count; place++)
            printf "%-20s %10.0f ns   %s\n", order[place], best[order[place]], aim[order[place]]
        printf "memory of a line of 64 KB: of blanks %d KB more, of a text %d, of numbers %d\n", \
            peak["peak blanks"] - peak["peak before"], peak["peak text"] - peak["peak blanks"], \
            peak["peak numbers"] - peak["peak text"]
    }' "$work/times"
