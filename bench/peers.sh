#!/bin/sh
# Tries the HTTP layer over real connections on this machine, with peers that others wrote: curl, the client
# of Python's library, and bytes sent as they are. A small program listens, takes one connection after
# another, and answers each request until its connection ends. A line is printed for each thing that is tried;
# the first answer that isn't the wanted one ends the script, with status 1.
#
#   sh bench/peers.sh           at a port that is free
#   sh bench/peers.sh 8080      at this one
#
# It wants Python 3, and leaves out curl where there is none. bench/peers.py has what is tried.
#
# The program and its libraries are proved and built in a new folder, which takes 2 GB while it is there.
set -eu
cd "$(dirname "$0")/.."
. bench/repository.sh

program=http_peers
libraries='kb_base kb_days kb_money kb_sharing kb_payment kb_ports kb_disk kb_http kb_gateway kb_system'

write_program() {
    cat <<'END'
//! Answers the requests of connections, one connection after another.
//!
//! It is given how many connections it takes, and a port, or 0 for one that is free. It prints its port, and
//! for each connection how many requests it answered there and how the connection ended.
#![tactic(auto)]

ghost use Rattle.std.specs.Prelude.{◌≡◌, ◌==◌, false};
ghost use Rattle.kb_http.specs.Responses.{IsStatus};

use kb_base::NoMemory;
use kb_http::{Conn, HttpNext, HttpRequest, response_bytes};
use kb_http::{Allow, Route};
use kb_ports::{Door, Link};
use kb_system::{TcpDoor, TcpLink};
use std::alloc::Global;
use std::{env, io};

/// How often a peer is read behind a refusal.
const MAX_READS: u32 = 1_000;

const NOT_FOUND: &[u8] = b"{\"status\":\"http\",\"code\":404}";

const NOT_ALLOWED: &[u8] = b"{\"status\":\"http\",\"code\":405}";

fn main(rt: HostRuntime) -> io::Result<()> {
    let mut words = env::args(&rt)?.skip(1);
    let (Some(count), Some(port)) = (words.next(), words.next()) else {
        return Err(io::ErrorKind::InvalidInput.into());
    };
    let mut door = TcpDoor::new(&rt);
    if door.listen(port.parse().unwrap_or(0)).is_err() {
        return Err(io::ErrorKind::AddrInUse.into());
    }
    println!(rt; "port {}", door.port().unwrap_or(0))?;
    for _ in 0..count.parse::<u32>().unwrap_or(0) {
        let Ok(link) = door.accept() else {
            return Err(io::ErrorKind::NotConnected.into());
        };
        let (requests, end) = serve(rt.alloc(), link);
        println!(rt; "{requests} answered, {end}")?;
    }
    Ok(())
}

/// Answers the requests of a connection: how many there were, and how it ended. It is closed then.
fn serve(alloc: Global, link: TcpLink) -> (u32, &'static str) {
    let mut conn = Conn::new(alloc, link);
    for requests in 0..u32::MAX {
        match conn.next(alloc) {
            HttpNext::Request(request) => match answer(alloc, &mut conn, &request) {
                None => {}
                Some(end) => return (requests.saturating_add(1), end),
            },
            other => return (requests, ended(alloc, conn, other)),
        }
    }
    (u32::MAX, "left")
}

/// Answers a request, and tells why its connection ends, if it does.
fn answer(alloc: Global, conn: &mut Conn<TcpLink>, request: &HttpRequest) -> Option<&'static str> {
    let close = request.close || matches!(request.route, Route::NotAllowed(_));
    let Ok(bytes) = response(alloc, request, close) else {
        return Some("no memory");
    };
    match conn.send(&bytes) {
        Err(_) => Some("fault"),
        Ok(()) if close => Some("left"),
        Ok(()) => None,
    }
}

/// The response to a request. A 405 may answer HEAD, whose peer takes no body: the connection closes then.
fn response(alloc: Global, request: &HttpRequest, close: bool) -> Result<Vec<u8>, NoMemory> {
    match request.route {
        Route::Unknown => response_bytes(alloc, 404, NOT_FOUND, close, None),
        Route::NotAllowed(allow) => response_bytes(alloc, 405, NOT_ALLOWED, close, Some(allow)),
        _ => {
            let body = told(alloc, request)?;
            response_bytes(alloc, 200, body.as_bytes(), close, None)
        }
    }
}

/// What is told of a request to a place that is known.
fn told(alloc: Global, request: &HttpRequest) -> Result<String, NoMemory> {
    let place = place(alloc, request.route)?;
    let method = method(request.route);
    let length = request.body.len();
    Ok(format!(in alloc; "{{\"method\":\"{method}\",\"place\":\"{place}\",\"length\":{length}}}")?)
}

/// The one method by which a place is asked for.
fn method(route: Route) -> &'static str {
    match route {
        Route::Commands | Route::Janitor => "POST",
        _ => "GET",
    }
}

/// A place in words.
fn place(alloc: Global, route: Route) -> Result<String, NoMemory> {
    Ok(match route {
        Route::Commands => format!(in alloc; "commands")?,
        Route::Janitor => format!(in alloc; "janitor")?,
        Route::Account(a) => format!(in alloc; "account {}", a.as_str())?,
        Route::Invoice(a, number) => format!(in alloc; "invoice {number} of {}", a.as_str())?,
        Route::Payment(a, name) => format!(in alloc; "payment {} of {}", name.as_str(), a.as_str())?,
        Route::Subscription(a, name) => {
            format!(in alloc; "subscription {} of {}", name.as_str(), a.as_str())?
        }
        Route::NotAllowed(_) | Route::Unknown => format!(in alloc; "none")?,
    })
}

/// How a connection ends that gives no more requests. What was read may be refused: then that is answered.
fn ended(alloc: Global, conn: Conn<TcpLink>, next: HttpNext) -> &'static str {
    match next {
        HttpNext::Refuse(status) => refuse(alloc, conn, status),
        HttpNext::Request(_) => "left",
        HttpNext::Closed => "closed",
        HttpNext::Cut => "cut",
        HttpNext::InputFault => "fault",
        HttpNext::NoMemory => "no memory",
    }
}

fn refuse(alloc: Global, mut conn: Conn<TcpLink>, status: u16) -> &'static str {
    let Ok(bytes) = refusal(alloc, status) else {
        return "no memory";
    };
    if conn.send(&bytes).is_err() {
        return "fault";
    }
    read_off(conn.into_link())
}

/// Reads on until the peer closes. With bytes unread the system would reset the connection, and a peer that
/// still sends might miss its answer.
fn read_off(mut link: TcpLink) -> &'static str {
    let mut buf = [0; 4_096];
    for _ in 0..MAX_READS {
        match link.read(&mut buf) {
            Ok(0) => return "refused",
            Ok(_) => {}
            Err(_) => return "fault",
        }
    }
    "refused, with bytes unread"
}

fn refusal(alloc: Global, status: u16) -> Result<Vec<u8>, NoMemory> {
    let status = known(status);
    let body = format!(in alloc; "{{\"status\":\"http\",\"code\":{status}}}")?;
    response_bytes(alloc, status, body.as_bytes(), true, None)
}

/// The status of a refusal: those that are told are these.
fn known(status: u16) -> u16
    ensures known { IsStatus result }
    ensures none_allowed { (result == 405) ≡ false }
{
    match status {
        411 | 413 | 431 => status,
        _ => 400,
    }
}
END
}

command -v python3 >/dev/null || { echo "bench/peers.sh: there is no Python 3" >&2; exit 1; }
make_repository
echo "Proving and building the libraries and the program. This takes some minutes." >&2
if ! (cd "$work/crates/$program" && rt run -- 0 0) >"$work/build" 2>&1; then
    tail -n 20 "$work/build" >&2
    echo "bench/peers.sh: there is no program" >&2
    exit 1
fi
python3 bench/peers.py "$work/crates/$program/out/$program" "${1:-0}"
