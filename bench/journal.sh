#!/bin/sh
# Times the journal of crates/nb_journal over a host in memory: prints, for journals of 10, 10000 and 1000000 entries, the
# nanoseconds an entry that `find` takes and the host's calls that it makes, and then the host's calls of `append` in the
# middle of a page and at its last entry. It builds a small proved program over this checkout's crates in a temporary folder,
# and leaves nothing.
set -eu
. "$(dirname "$0")/small_program.sh"
stand_on nb_model nb_host nb_journal
cat >"$bench/src/main.rt" <<'PROGRAM'
//! Finds journals of several lengths, and adds an entry to some.
#![tactic(auto)]

ghost use Rattle.std.specs.Prelude.{◌≡◌, ◌^◌, ◌<◌, ◌≤◌};

use nb_host::MemoryHost;
use nb_journal::{Entry, Journal, JournalError, Opened, find, prepare, start_gate};
use nb_model::{Edge, Params};
use std::alloc::{AllocError, Global};
use std::test::Fail;
use std::time::Instant;

const FILE: u64 = 2;
const PAGE_LENGTH: usize = 4096;
/// The entries of all rounds of a try.
const ENTRIES: u64 = 1000000;
/// Each time is the least of so many.
const TRIES: u64 = 5;

const PARAMS: Params = Params {
    grav: 1000000000,
    theta_num: 1,
    theta_den: 2,
    soft: 1,
    leaf: 8,
    every: 100,
    edge: Edge::Open,
};

/// An entry's 32 bytes.
fn spell(letter: u8, first: u64) -> [u8; 32] {
    let mut bytes = [0; 32];
    bytes[0] = b'G';
    bytes[1] = letter;
    bytes[8..16].copy_from_slice(&first.to_le_bytes());
    bytes
}

/// A journal that is just started.
fn start(alloc: Global) -> Result<MemoryHost, JournalError> {
    let mut host = MemoryHost::new(alloc);
    let ready = prepare(&mut host, &PARAMS, 1, 0, 0)?;
    start_gate(&mut host, ready)?;
    Ok(host)
}

/// The bytes of so many entries, a leg and ticks, and of a page of zeros behind them.
fn entries_of(alloc: Global, entries: u64) -> Result<Vec<u8>, AllocError> {
    let mut bytes = Vec::new(alloc);
    bytes.extend_from_slice(&spell(b'L', ENTRIES))?;
    for number in 1..entries {
        bytes.extend_from_slice(&spell(b'T', number))?;
    }
    bytes.extend_from_slice(&[0; PAGE_LENGTH])?;
    Ok(bytes)
}

/// A host with a journal of so many entries.
fn host_of(alloc: Global, entries: u64) -> Result<MemoryHost, Fail> {
    let started = start(alloc)?;
    let page = started.bytes(FILE).get(..PAGE_LENGTH).ok_or("the header is too short")?;
    let mut bytes = Vec::new(alloc);
    bytes.extend_from_slice(page)?;
    let entries = entries_of(alloc, entries)?;
    bytes.extend_from_slice(&entries)?;
    let whole = bytes.len() - bytes.len() % PAGE_LENGTH;
    let pages = bytes.get(..whole).ok_or("the file is too short")?;
    let mut host = MemoryHost::new(alloc);
    host.with_file(FILE, pages)?;
    Ok(host)
}

/// The journal, which has so many entries.
fn found(host: &mut MemoryHost, entries: u64) -> Result<Journal, Fail> {
    match find(host) {
        Ok(Opened::Made(journal)) if journal.entries() == entries => Ok(journal),
        Ok(_) => Err(Fail::new("another journal is found")),
        Err(error) => Err(Fail::from(error)),
    }
}

/// The nanoseconds of so many rounds.
fn try_once(rt: &HostRuntime, host: &mut MemoryHost, entries: u64, rounds: u64) -> Result<u128, Fail> {
    let start = Instant::now(rt)?;
    for _ in 0..rounds {
        found(host, entries)?;
    }
    Ok(start.elapsed(rt)?.as_nanos())
}

fn measure_find(rt: &HostRuntime, entries: u64) -> Result<(), Fail>
    requires { 1 ≤ entries }
{
    let mut host = host_of(rt.alloc(), entries)?;
    let before = host.calls();
    found(&mut host, entries)?;
    let calls = host.calls().wrapping_sub(before);
    let rounds = ENTRIES / entries;
    let mut least = u128::MAX;
    for _ in 0..TRIES {
        least = least.min(try_once(rt, &mut host, entries, rounds)?);
    }
    let tenths = least.saturating_mul(10) / u128::from(ENTRIES);
    let nanos = tenths / 10;
    let tenth = tenths % 10;
    println!(rt; "find {entries} entries: {nanos}.{tenth} ns an entry, {calls} host calls")?;
    Ok(())
}

/// Adds the next tick.
fn add(host: &mut MemoryHost, journal: Journal) -> Result<Journal, Fail> {
    let _params = journal.params();
    if journal.time() == journal.target() {
        return Err(Fail::new("the leg is done"));
    }
    let entry = Entry::Tick(journal.ticks() + 1, journal.gone());
    match journal.append(host, entry) {
        Ok(journal) => Ok(journal),
        Err(error) => Err(Fail::from(JournalError::from(error))),
    }
}

fn measure_append(rt: &HostRuntime, entries: u64) -> Result<(), Fail> {
    let mut host = host_of(rt.alloc(), entries)?;
    let journal = found(&mut host, entries)?;
    let before = host.calls();
    let _ = add(&mut host, journal)?;
    let calls = host.calls().wrapping_sub(before);
    println!(rt; "append entry {entries}: {calls} host calls")?;
    Ok(())
}

fn main(rt: HostRuntime) -> Result<(), Fail> {
    measure_find(&rt, 10)?;
    measure_find(&rt, 10000)?;
    measure_find(&rt, 1000000)?;
    measure_append(&rt, 10)?;
    measure_append(&rt, 127)
}
PROGRAM
run_bench 'find|append'
