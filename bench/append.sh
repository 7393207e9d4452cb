#!/bin/sh
# Times `append` of crates/nb_journal on real files: prints the microseconds an entry takes, with its two syncs of the file and
# two of the folder, over some hundred entries of a journal in a temporary folder. TMPDIR says on which disk that is: where it is
# kept in memory a sync costs nothing.
# It builds a small proved program over this checkout's crates in that folder, with the `FolderHost` of crates/nbody, and leaves
# nothing.
set -eu
. "$(dirname "$0")/small_program.sh"
# FolderHost and its proofs are of the crate nbody, so this program is a crate of that name.
bench=$work/crates/nbody
stand_on nb_model nb_host nb_journal
sed -i 's/^bench: /nbody: /' "$work/crates.txt"
cp -R "$top/crates/nbody/src" "$top/crates/nbody/specs" "$top/crates/nbody/proofs" "$bench/"
cat >"$bench/src/main.rt" <<'PROGRAM'
//! Adds entries to a journal in the current folder.
#![tactic(auto)]

mod folder;
mod folder_host;
mod names;
mod open_files;

use crate::folder_host::FolderHost;
use nb_host::Host;
use nb_journal::{Entry, Journal, JournalError, prepare, start_gate};
use nb_model::{Edge, Params};
use std::test::Fail;
use std::time::Instant;

const ENTRIES: u64 = 500;
/// Each row is of so many entries.
const ROWS: u64 = 3;

const PARAMS: Params = Params {
    grav: 1000000000,
    theta_num: 1,
    theta_den: 2,
    soft: 1,
    leaf: 8,
    every: 100,
    edge: Edge::Open,
};

/// Adds the next entry: a leg where none is open, else a tick.
fn add<H: Host>(host: &mut H, journal: Journal) -> Result<Journal, JournalError> {
    let _params = journal.params();
    if journal.time() == journal.target() {
        return Err(JournalError::Damaged(0));
    }
    let entry = Entry::Tick(journal.ticks() + 1, journal.gone());
    Ok(journal.append(host, entry)?)
}

/// A journal with one leg.
fn begin<H: Host>(host: &mut H) -> Result<Journal, JournalError> {
    let ready = prepare(host, &PARAMS, 1, 0, 0)?;
    let journal = start_gate(host, ready)?;
    Ok(journal.append(host, Entry::Leg(ENTRIES * ROWS + 1))?)
}

/// Adds so many entries.
fn add_all<H: Host>(host: &mut H, mut journal: Journal) -> Result<Journal, JournalError> {
    for _ in 0..ENTRIES {
        journal = add(host, journal)?;
    }
    Ok(journal)
}

fn main(rt: HostRuntime) -> Result<(), Fail> {
    let mut host = FolderHost::new(rt, rt.stdout(), rt.stderr());
    let mut journal = begin(&mut host)?;
    for _ in 0..ROWS {
        let start = Instant::now(&rt)?;
        journal = add_all(&mut host, journal)?;
        let micros = start.elapsed(&rt)?.as_micros() / u128::from(ENTRIES);
        println!(&rt; "append {ENTRIES} entries: {micros} microseconds an entry")?;
    }
    Ok(())
}
PROGRAM
run_bench 'append'
