#!/bin/sh
# Times ticks of crates/nb_tick over a host in memory, for 10,000 and 100,000 generated bodies, with caches of 4096, 1024 and
# 256 pages and pools of 64 and 1024 walks: prints, a tick,
#   first  one that finds its first half kicks, by a tree of its own: nanoseconds a body, reads and writes of pages
#   next   the one behind it, which takes them from the slot: the same, and how many writes are the least possible, each page of
#          the other slot, of files 5 and 6, and of the cells once
# A call that empties a file, or asks for its length, counts as a write.
# It builds a small proved program over this checkout's crates in a temporary folder, and leaves nothing.
set -eu
. "$(dirname "$0")/small_program.sh"
. "$(dirname "$0")/generated_bodies.sh"
stand_on nb_model nb_fixed nb_key nb_host nb_record nb_cache nb_order nb_cell nb_tree nb_walk nb_force nb_tick
write_generated
# The bodies stand in the slot of an even number of ticks.
sed -i 's/^pub(crate) const BODIES: u64 = 6;$/pub(crate) const BODIES: u64 = 3;/' "$bench/src/generated.rt"
mkdir -p "$bench/proofs/measure"
cat >"$bench/proofs/measure/Answers.antt" <<'ANSWERS'
use Rattle.bench.proofs.measure.Goals as goal

pub make_bodies-requires-clause-in_step : goal.make_bodies-requires-clause-in_step
make_bodies-requires-clause-in_step c = λ _. c.in_ok-cache.ensures.fits _
ANSWERS
cat >"$bench/src/main.rt" <<'PROGRAM'
//! Times ticks of generated bodies.
#![tactic(auto)]

ghost use Rattle.std.specs.Prelude.{◌≡◌, ◌≤◌, ◌^◌, [], OnOk};
ghost use Rattle.nb_model.specs.Valid.{AreInRange};
ghost use Rattle.nb_host.specs.Memory.{contents_of};
ghost use Rattle.nb_cache.specs.InStep.{IsCoherent};

mod generated;

use generated::{make_bodies, params};
use nb_cache::Cache;
use nb_host::MemoryHost;
use nb_model::{Params, Way};
use nb_order::Sorter;
use nb_record::BODIES_PER_PAGE;
use nb_tick::{Slot, tick};
use nb_tree::Builder;
use nb_walk::Pool;
use std::test::Fail;
use std::time::Instant;

const PAGE: u64 = 4096;
const CELLS: u64 = 7;

/// What a tick took.
#[derive(Clone, Copy)]
struct Taken {
    nanos: u128,
    reads: u64,
    writes: u64,
}

fn time_tick(
    rt: &HostRuntime,
    host: &mut MemoryHost,
    cache: &mut Cache,
    pool: &mut Pool,
    params: &Params,
    from: Slot,
    count: u64,
    known: bool,
) -> Result<Taken, Fail>
    requires some { 1 ≤ count }
    requires few { count ≤ 100000 }
    requires params { AreInRange params.now }
    requires unwritten { cache.old.unwritten ≡ [] }
    requires in_step { IsCoherent cache.old (contents_of host.old) }
    ensures unwritten { OnOk result (cache.new.unwritten ≡ []) }
    ensures in_step { IsCoherent cache.new (contents_of host.new) }
{
    let mut sorter = Sorter::new(rt.alloc());
    let mut builder = Builder::new(rt.alloc());
    let reads_before = host.reads();
    let calls_before = host.calls();
    let start = Instant::now(rt)?;
    tick(
        host,
        cache,
        pool,
        &mut sorter,
        &mut builder,
        params,
        from,
        count,
        Way::Forward,
        known,
    )?;
    let nanos = start.elapsed(rt)?.as_nanos() / u128::from(count);
    let reads = host.reads().wrapping_sub(reads_before);
    let writes = host.calls().wrapping_sub(calls_before).wrapping_sub(reads);
    Ok(Taken { nanos, reads, writes })
}

fn measure(rt: &HostRuntime, count: u64, pages: usize, walks: usize) -> Result<(), Fail>
    requires some { 1 ≤ count }
    requires few { count ≤ 100000 }
    requires least { 4 ≤ pages }
    requires most { pages ≤ 2 ^ 18 }
    requires some_walks { 1 ≤ walks }
    requires few_walks { walks ≤ 1024 }
{
    let mut host = MemoryHost::new(rt.alloc());
    let mut cache = Cache::new(rt.alloc(), pages)?;
    make_bodies(rt.alloc(), &mut host, &mut cache, count)?;
    cache.flush(&mut host)?;
    let mut pool = Pool::new(rt.alloc(), walks)?;
    let params = params(count);
    let first = time_tick(rt, &mut host, &mut cache, &mut pool, &params, Slot::Even, count, false)?;
    let next = time_tick(rt, &mut host, &mut cache, &mut pool, &params, Slot::Odd, count, true)?;
    let body_pages = count.div_ceil(BODIES_PER_PAGE);
    let cell_pages = host.bytes(CELLS).len() as u64 / PAGE;
    let least = body_pages.wrapping_mul(3).wrapping_add(cell_pages);
    let nanos = first.nanos;
    let reads = first.reads;
    let writes = first.writes;
    println!(rt; "first {count} bodies, {pages} pages, {walks} walks: {nanos} ns, {reads} reads, {writes} writes")?;
    let nanos = next.nanos;
    let reads = next.reads;
    let writes = next.writes;
    println!(rt;
        "next {count} bodies, {pages} pages, {walks} walks: {nanos} ns, {reads} reads, {writes} writes of {least} at least"
    )?;
    Ok(())
}

fn measure_all(rt: &HostRuntime, count: u64) -> Result<(), Fail>
    requires some { 1 ≤ count }
    requires few { count ≤ 100000 }
{
    measure(rt, count, 4096, 64)?;
    measure(rt, count, 4096, 1024)?;
    measure(rt, count, 1024, 64)?;
    measure(rt, count, 1024, 1024)?;
    measure(rt, count, 256, 64)?;
    measure(rt, count, 256, 1024)
}

fn main(rt: HostRuntime) -> Result<(), Fail> {
    measure_all(&rt, 10_000)?;
    measure_all(&rt, 100_000)
}
PROGRAM
run_bench 'first|next'
