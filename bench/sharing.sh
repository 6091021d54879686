#!/bin/sh
# Prints how long shared lists and maps take, at three sizes: a push and its drop, a `get` and a `replace`
# of a list; a `with` of a new key and its drop, and a `get` of a map by numbers and of one by names. Then it
# prints how much memory the process holds of each member of a list of 100,000 pairs of numbers, 16 bytes
# each, and of each entry of maps of 100,000. It tests nothing. The aims stand beside the figures.
#
# Members and keys are asked for and changed all over the list or the map, in an order that jumps. The time
# is taken inside the program, as LLVM builds it, and is the best of five runs of many calls. Pushes begin
# at the size and go on from there.
#
# The program and the libraries below it are built in a new folder, which takes 2 GB while it is there.
set -eu
cd "$(dirname "$0")/.."
. bench/repository.sh

program=sharing_times
libraries='kb_base kb_days kb_sharing jiff_core'

write_program() {
    cat <<'END'
//! Times shared lists and maps. A line that is printed has what is timed, how many calls were made, and the
//! nanoseconds that they took; or how much memory the process held at most, in KB.
#![tactic(auto)]

use kb_base::NoMemory;
use kb_days::Name;
use kb_sharing::SharedList;
use kb_sharing::{Key, SharedMap};
use std::alloc::{AllocGlobal, Global};
use std::fs;
use std::io;
use std::time::{Clock, Instant};

const RUNS: u32 = 5;

const CALLS: u64 = 200_000;

/// An odd number: its products with numbers are different from each other and lie all over.
const STEP: u64 = 0x9E37_79B9_7F4A_7C15;

const SIZES: [u64; 3] = [100, 10_000, 100_000];

/// How many members and entries the list and each map have that are held in memory.
const HELD: u64 = 100_000;

fn list_of(alloc: Global, size: u64) -> Result<SharedList<u64>, NoMemory> {
    let mut list = SharedList::new();
    for number in 0..size {
        list = list.push(alloc, number)?;
    }
    Ok(list)
}

fn push_all(alloc: Global, list: &SharedList<u64>) -> Result<SharedList<u64>, NoMemory> {
    let mut longer = list.share()?;
    for number in 0..CALLS {
        longer = longer.push(alloc, number)?;
    }
    Ok(longer)
}

fn get_all(list: &SharedList<u64>) -> u64 {
    let len = list.len().max(1);
    let mut total = 0u64;
    for call in 0..CALLS {
        if let Some(member) = list.get(call.wrapping_mul(STEP) % len) {
            total = total.wrapping_add(*member);
        }
    }
    total
}

fn replace_all(alloc: Global, list: &SharedList<u64>) -> Result<u64, NoMemory> {
    let len = list.len();
    let mut total = 0u64;
    for call in 0..CALLS {
        if len > 0 {
            let changed = list.replace(alloc, call.wrapping_mul(STEP) % len, call)?;
            total = total.wrapping_add(changed.len());
        }
    }
    Ok(total)
}

/// A key for each number.
trait Numbered: Key + Drop {
    fn of(number: u64) -> Option<Self>;
}

impl Numbered for u64 {
    fn of(number: u64) -> Option<u64> {
        Some(number.wrapping_mul(STEP))
    }
}

/// A letter for the lowest four bits.
fn letter(bits: u64) -> u8 {
    b'a' + (bits % 16) as u8
}

impl Numbered for Name {
    fn of(number: u64) -> Option<Name> {
        let mut bits = number.wrapping_mul(STEP);
        let mut letters = [b'a'; 16];
        for place in 0..16usize {
            letters[place] = letter(bits);
            bits /= 16;
        }
        Name::new(&letters)
    }
}

fn map_of<K: Numbered>(alloc: Global, size: u64) -> Result<SharedMap<K, u64>, NoMemory> {
    let mut map = SharedMap::new();
    for number in 0..size {
        if let Some(key) = K::of(number) {
            map = map.with(alloc, key, number)?;
        }
    }
    Ok(map)
}

fn keep_all<K: Numbered>(alloc: Global, map: &SharedMap<K, u64>) -> Result<u64, NoMemory> {
    let mut total = 0u64;
    for call in 0..CALLS {
        if let Some(key) = K::of(call.wrapping_add(2_000_000)) {
            let changed = map.with(alloc, key, call)?;
            total = total.wrapping_add(changed.len());
        }
    }
    Ok(total)
}

fn find_all<K: Numbered>(map: &SharedMap<K, u64>) -> u64 {
    let len = map.len().max(1);
    let mut total = 0u64;
    for call in 0..CALLS {
        if let Some(key) = K::of(call.wrapping_mul(7_919) % len)
            && let Some(value) = map.get(&key)
        {
            total = total.wrapping_add(*value);
        }
    }
    total
}

fn key_all<K: Numbered>(size: u64) -> u64 {
    let len = size.max(1);
    let mut total = 0u64;
    for call in 0..CALLS {
        if let Some(key) = K::of(call.wrapping_mul(7_919) % len)
            && key.order(&key).is_eq()
        {
            total = total.wrapping_add(1);
        }
    }
    total
}

fn time_list<R: Clock + Print + AllocGlobal>(rt: &R, size: u64) -> io::Result<()> {
    let Ok(list) = list_of(rt.alloc(), size) else {
        return Ok(());
    };
    let start = Instant::now(rt)?;
    let pushed = push_all(rt.alloc(), &list);
    let nanos = start.elapsed(rt)?.as_nanos();
    println!(rt; "list of {size}: push,{CALLS},{nanos},{}", pushed.is_ok())?;
    let start = Instant::now(rt)?;
    let got = get_all(&list);
    let nanos = start.elapsed(rt)?.as_nanos();
    println!(rt; "list of {size}: get,{CALLS},{nanos},{got}")?;
    let start = Instant::now(rt)?;
    let replaced = replace_all(rt.alloc(), &list).unwrap_or(0);
    let nanos = start.elapsed(rt)?.as_nanos();
    println!(rt; "list of {size}: replace,{CALLS},{nanos},{replaced}")
}

fn time_map<K: Numbered, R: Clock + Print + AllocGlobal>(
    rt: &R,
    kind: &str,
    size: u64,
) -> io::Result<()> {
    let Ok(map) = map_of::<K>(rt.alloc(), size) else {
        return Ok(());
    };
    let start = Instant::now(rt)?;
    let kept = keep_all(rt.alloc(), &map).unwrap_or(0);
    let nanos = start.elapsed(rt)?.as_nanos();
    println!(rt; "map of {size} {kind}: with,{CALLS},{nanos},{kept}")?;
    let start = Instant::now(rt)?;
    let found = find_all(&map);
    let nanos = start.elapsed(rt)?.as_nanos();
    println!(rt; "map of {size} {kind}: get,{CALLS},{nanos},{found}")?;
    let start = Instant::now(rt)?;
    let made = key_all::<K>(size);
    let nanos = start.elapsed(rt)?.as_nanos();
    println!(rt; "map of {size} {kind}: of which making the key,{CALLS},{nanos},{made}")
}

fn pairs(alloc: Global) -> Result<SharedList<(u64, u64)>, NoMemory> {
    let mut list = SharedList::new();
    for number in 0..HELD {
        list = list.push(alloc, (number, number))?;
    }
    Ok(list)
}

/// Makes a list of pairs, a map of numbers and one of names, and holds them.
fn hold(rt: &HostRuntime) -> io::Result<()> {
    peak(rt, "at first")?;
    let pairs = pairs(rt.alloc());
    peak(rt, "with pairs")?;
    let numbers = map_of::<u64>(rt.alloc(), HELD);
    peak(rt, "with numbers")?;
    let names = map_of::<Name>(rt.alloc(), HELD);
    peak(rt, "with names")?;
    if let Ok(pairs) = &pairs
        && let Ok(numbers) = &numbers
        && let Ok(names) = &names
    {
        println!(rt; "held,{},{},{}", pairs.len(), numbers.len(), names.len())?;
    }
    Ok(())
}

fn main(rt: HostRuntime) -> io::Result<()> {
    // The memory comes first: later on, what was let go is taken again, and the peak doesn't rise.
    hold(&rt)?;
    for _ in 0..RUNS {
        for size in SIZES {
            time_list(&rt, size)?;
            time_map::<u64, HostRuntime>(&rt, "numbers", size)?;
            time_map::<Name, HostRuntime>(&rt, "names", size)?;
        }
    }
    Ok(())
}
END
    write_peak
}

make_repository
take_times
best_times | awk -F , '
    function aim(name) {
        if (name ~ /list.*push/) return "   aim 300 ns"
        if (name ~ /of 100 .*with/) return "   aim 2,000 ns"
        if (name ~ /of 100000 .*with/) return "   aim 5,000 ns"
        if (name ~ /of 100 .*get/) return "   aim 300 ns"
        if (name ~ /of 100000 .*get/) return "   aim 1,500 ns"
        return ""
    }
    /^peak|^held/ { next }
    { printf "%-52s%9.1f ns%s\n", $1, $2, aim($1) }'
awk -F , '
    /^peak/ { split($2, number, " "); peak[$1] = number[1] }
    /^held/ { pairs = $2; numbers = $3; names = $4 }
    function each(name, before, after, held, aim) {
        printf "%-52s%9.1f bytes   aim %d bytes\n", name, (peak[after] - peak[before]) * 1024 / held, aim
    }
    END {
        each("list of 100000 pairs: a pair", "peak at first", "peak with pairs", pairs, 30)
        each("map of 100000 numbers: an entry", "peak with pairs", "peak with numbers", numbers, 80)
        each("map of 100000 names: an entry", "peak with numbers", "peak with names", names, 150)
    }' "$work/times"
