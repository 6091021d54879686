#!/bin/sh
# Prints how many records a second a journal takes on a real file in the temporary folder, beside a bare
# loop of the same two writes and two syncs; how fast a journal in memory is loaded; and how much memory it
# takes to load one from a file, beside the size of the file. It tests nothing. The aims stand beside the
# figures.
#
# The time is taken inside the program, as LLVM builds it. Appends and turns of the bare loop alternate, each
# on a file of its own, so that whatever else uses the disk slows both; the rate is that of all of them. A
# load is the best of five, with a look at each record, and without the drop of what it gives. Records have
# 200 bytes and, where the memory is taken, 20 and 4,000 too.
#
# The program and the libraries below it are built in a new folder, which takes 3 GB while it is there.
set -eu
cd "$(dirname "$0")/.."
. bench/repository.sh

program=journal_times
libraries='kb_base kb_days kb_money kb_sharing kb_payment kb_ports kb_disk kb_journal kb_gateway kb_system'

write_program() {
    cat <<'END'
//! Times journals. A line that is printed has what is timed, how many records or bytes, and the nanoseconds
//! that they took; or how much memory the process held at most, in KB.
#![tactic(auto)]

use kb_base::NoMemory;
use kb_disk::MemoryDisk;
use kb_system::FileDisk;
use kb_disk::Disk;
use kb_journal::Journal;
use std::alloc::Global;
use std::env;
use std::fs;
use std::fs::File;
use std::io;
use std::io::Write;
use std::os::unix::fs::FileExt;
use std::path::PathBuf;
use std::time::Instant;

const RUNS: u32 = 5;

const APPENDS: u32 = 400;

/// How many records of 200 bytes are loaded: 41 MB.
const RECORDS: u32 = 200_000;

fn main(rt: HostRuntime) -> io::Result<()> {
    // What one frees serves the next, which is larger.
    peak(&rt, "before")?;
    memory(&rt, "4000", &[7; 4000], 5_000)?;
    memory(&rt, "200", &[7; 200], RECORDS)?;
    memory(&rt, "20", &[7; 20], 2_000_000)?;
    for _ in 0..RUNS {
        time_appends(&rt)?;
        time_load(&rt)?;
    }
    Ok(())
}

/// A new file in the temporary folder, which has no name any more.
fn new_file(rt: &HostRuntime) -> io::Result<File> {
    let mut path: PathBuf = env::temp_dir(rt)?;
    path.push("kb_journal_times")?;
    let file = File::create_new(rt, path.as_path())?;
    fs::remove_file(rt, path.as_path())?;
    Ok(file)
}

/// Appends, and their writes and syncs alone, in turn.
fn time_appends(rt: &HostRuntime) -> io::Result<()> {
    let Ok(mut journal) = Journal::create(FileDisk::new(new_file(rt)?), 0, 1) else {
        return Err(io::ErrorKind::Other.into());
    };
    let file = new_file(rt)?;
    file.write_all_at(&[0; 17], 0)?;
    let record = [7; 200];
    let mut gate = 16u64;
    let mut appended = 0u128;
    let mut alone = 0u128;
    for _ in 0..APPENDS {
        let start = Instant::now(rt)?;
        if journal.append(&record).is_err() {
            return Err(io::ErrorKind::Other.into());
        }
        appended = appended.wrapping_add(start.elapsed(rt)?.as_nanos());
        let start = Instant::now(rt)?;
        write_alone(&file, gate)?;
        alone = alone.wrapping_add(start.elapsed(rt)?.as_nanos());
        gate = gate.wrapping_add(205);
    }
    println!(rt; "append,{APPENDS},{appended}")?;
    println!(rt; "bare,{APPENDS},{alone}")
}

/// The writes and syncs of an append of 200 bytes.
fn write_alone(file: &File, gate: u64) -> io::Result<()> {
    file.write_all_at(&[7; 205], gate.wrapping_add(1))?;
    file.sync_all()?;
    file.write_all_at(&[1], gate)?;
    file.sync_all()
}

/// The header of lane 0 of 1.
const HEADER: &[u8] = b"KBJRNL01\x00\x01\x00\x00\x00\x00\x00\x00";

/// What stands before a record of this size.
fn front(record: &[u8]) -> [u8; 5] {
    let [a, b, c, d] = ((record.len() % 65_537) as u32).to_be_bytes();
    [1, a, b, c, d]
}

/// A journal of so many records, as bytes.
fn journal_bytes(alloc: Global, record: &[u8], count: u32) -> Result<Vec<u8>, NoMemory> {
    let mut bytes = Vec::new(alloc);
    bytes.extend_from_slice(HEADER)?;
    for _ in 0..count {
        bytes.extend_from_slice(&front(record))?;
        bytes.extend_from_slice(record)?;
    }
    bytes.push(0)?;
    Ok(bytes)
}

fn time_load(rt: &HostRuntime) -> io::Result<()> {
    let alloc = rt.alloc();
    let Ok(bytes) = journal_bytes(alloc, &[7; 200], RECORDS) else {
        return Err(io::ErrorKind::OutOfMemory.into());
    };
    let size = bytes.len();
    let Ok(disk) = MemoryDisk::new(alloc, bytes, Vec::new(alloc)) else {
        return Err(io::ErrorKind::OutOfMemory.into());
    };
    let start = Instant::now(rt)?;
    let Ok((_, records)) = Journal::load(alloc, disk, 0) else {
        return Err(io::ErrorKind::InvalidData.into());
    };
    let mut found = 0usize;
    for record in records.iter() {
        found = found.wrapping_add(record.len());
    }
    let nanos = start.elapsed(rt)?.as_nanos();
    println!(rt; "load,{size},{nanos},{found}")
}

/// Loads a journal of so many records from a file, and prints its size, and how much memory the process then
/// has held at most.
fn memory(rt: &HostRuntime, name: &str, record: &[u8], count: u32) -> io::Result<()> {
    let mut file = new_file(rt)?;
    file.write_all(HEADER)?;
    for _ in 0..count {
        file.write_all(&front(record))?;
        file.write_all(record)?;
    }
    file.write_all(&[0])?;
    let size = file.metadata()?.len();
    println!(rt; "size {name},{size}")?;
    let Ok((_, records)) = Journal::load(rt.alloc(), FileDisk::new(file), 0) else {
        return Err(io::ErrorKind::InvalidData.into());
    };
    println!(rt; "records {name},{}", records.len())?;
    peak(rt, name)
}
END
    write_peak
}

make_repository
take_times
awk -F , '
    $1 == "append" || $1 == "bare" { calls[$1] += $2; nanos[$1] += $3 }
    $1 == "load" && (!load || $3 / $2 < load) { load = $3 / $2 }
    $1 ~ / / { split($2, number, " "); figure[$1] = number[1] }
    END {
        printf "append to a file       %9.0f a second\n", 1e9 * calls["append"] / nanos["append"]
        printf "the bare loop          %9.0f a second\n", 1e9 * calls["bare"] / nanos["bare"]
        printf "appends to the loop    %9.2f            aim: at least 0.9\n", nanos["bare"] / nanos["append"]
        printf "load from memory       %9.0f MB/s       aim: over 200\n", 1e3 / load
        split("20 200 4000", sizes, " ")
        for (place = 1; place <= 3; place++) {
            held = figure["peak " sizes[place]] - figure["peak before"]
            printf "memory at %4d bytes    %9.2f files      aim: at most 2\n", sizes[place], \
                held * 1024 / figure["size " sizes[place]]
        }
    }' "$work/times"
