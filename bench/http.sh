#!/bin/sh
# Prints how long it takes to give a request of a connection: a GET of 100 bytes and a POST with a body of
# 200, each in a reading of its own, with its route; to make a response with a body of 200 bytes; and to
# read a head of 16,384 bytes that comes byte by byte. It tests nothing. The aims stand beside the figures.
#
# A request is timed together with the reading from a link in memory and the drop of the request. The time
# is taken inside the program, as LLVM builds it, and is the best of five runs of many calls.
#
# The program and the libraries below it are built in a new folder, which takes 2 GB while it is there.
set -eu
cd "$(dirname "$0")/.."
. bench/repository.sh

program=http_times
libraries='kb_base kb_days kb_ports kb_http'

write_program() {
    cat <<'END'
//! Times requests and responses. A line that is printed has what is timed, how many calls were made, and the
//! nanoseconds that they took.
#![tactic(auto)]

use kb_http::{Conn, HttpNext, response_bytes};
use kb_ports::PairLink;
use kb_ports::Sips;
use std::alloc::{AllocError, Global};
use std::io;
use std::time::Instant;

const RUNS: u32 = 5;

const CALLS: u32 = 9_000;

const GET: &[u8] = b"GET /accounts/a1/payments/p-1 HTTP/1.1\r\nHost: billing.example.com:8080\r\nAccept: application/json\r\n\r\n";

const POST: &[u8] = b"POST /commands HTTP/1.1\r\nHost: billing.example\r\nContent-Type: application/json\r\nContent-Length: 200\r\n\r\n";

fn main(rt: HostRuntime) -> io::Result<()> {
    for _ in 0..RUNS {
        time_requests(&rt, "GET", GET, 0)?;
        time_requests(&rt, "POST", POST, 200)?;
        time_responses(&rt)?;
        time_single_bytes(&rt)?;
    }
    Ok(())
}

/// A request with so many bytes of body, again and again, each in a reading of its own.
fn stream(alloc: Global, head: &[u8], body: usize) -> Result<Sips<PairLink>, AllocError> {
    let mut bytes = Vec::new(alloc);
    for _ in 0..CALLS {
        bytes.extend_from_slice(head)?;
        for _ in 0..body {
            bytes.push(b'x')?;
        }
    }
    let most = head.len().saturating_add(body).max(1);
    Ok(Sips {
        inner: PairLink::new(alloc, bytes, Vec::new(alloc), Vec::new(alloc)),
        most,
    })
}

fn time_requests(rt: &HostRuntime, name: &str, head: &[u8], body: usize) -> io::Result<()> {
    let Ok(link) = stream(rt.alloc(), head, body) else {
        return Err(io::ErrorKind::OutOfMemory.into());
    };
    let mut conn = Conn::new(rt.alloc(), link);
    let mut total = 0u64;
    let start = Instant::now(rt)?;
    for _ in 0..CALLS {
        if let HttpNext::Request(request) = conn.next(rt.alloc()) {
            total = total.wrapping_add(request.body.len() as u64 + 1);
        }
    }
    let nanos = start.elapsed(rt)?.as_nanos();
    println!(rt; "{name},{CALLS},{nanos},{total}")
}

fn time_responses(rt: &HostRuntime) -> io::Result<()> {
    let body = [b'x'; 200];
    let mut total = 0u64;
    let start = Instant::now(rt)?;
    for _ in 0..CALLS {
        let Ok(bytes) = response_bytes(rt.alloc(), 200, &body, false, None) else {
            return Err(io::ErrorKind::OutOfMemory.into());
        };
        total = total.wrapping_add(bytes.len() as u64);
    }
    let nanos = start.elapsed(rt)?.as_nanos();
    println!(rt; "response,{CALLS},{nanos},{total}")
}

/// A head that is as long as one may be.
fn long_head(alloc: Global) -> Result<Sips<PairLink>, AllocError> {
    let mut bytes = Vec::new(alloc);
    bytes.extend_from_slice(b"GET / HTTP/1.1\r\na:")?;
    for _ in bytes.len()..16_380 {
        bytes.push(b'x')?;
    }
    bytes.extend_from_slice(b"\r\n\r\n")?;
    Ok(Sips {
        inner: PairLink::new(alloc, bytes, Vec::new(alloc), Vec::new(alloc)),
        most: 1,
    })
}

fn time_single_bytes(rt: &HostRuntime) -> io::Result<()> {
    let Ok(link) = long_head(rt.alloc()) else {
        return Err(io::ErrorKind::OutOfMemory.into());
    };
    let mut conn = Conn::new(rt.alloc(), link);
    let mut total = 0u64;
    let start = Instant::now(rt)?;
    if let HttpNext::Request(_) = conn.next(rt.alloc()) {
        total = 1;
    }
    let nanos = start.elapsed(rt)?.as_nanos();
    println!(rt; "single bytes,1,{nanos},{total}")
}
END
}

make_repository
take_times
best_times | awk -F , '
    BEGIN { aim["GET"] = 1000; aim["POST"] = 1500; aim["response"] = 500; aim["single bytes"] = 20000000 }
    { printf "%-24s %9.0f ns   aim: under %d ns\n", $1, $2, aim[$1] }'
