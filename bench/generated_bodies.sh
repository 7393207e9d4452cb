# Sourced behind small_program.sh by the scripts that time what stands on a file of bodies.

# Writes the module `generated` of `bench`: files of generated bodies in Morton order, the constants of their run.
write_generated() {
    mkdir -p "$bench/proofs/generated/push_bodies"
    cat >"$bench/proofs/generated/push_bodies/Invariants.antt" <<'INVARIANTS'
use Rattle.nb_cache.specs.InStep.{IsInStep}
use Rattle.bench.proofs.generated.push_bodies.Given as goal

abbrev pub invariant-loop-index : goal.invariant-loop-index
invariant-loop-index g l = IsInStep g.H.Host.meaning l.cache l.host
INVARIANTS
    cat >"$bench/src/generated.rt" <<'PROGRAM'
//! Files of generated bodies.

ghost use Rattle.std.specs.Prelude.{◌<◌, ◌≤◌};
ghost use Rattle.nb_model.specs.Limits.{box_side};
ghost use Rattle.nb_model.specs.Valid.{AreInRange, IsValidBody};
ghost use Rattle.nb_cache.specs.InStep.{IsInStep};

use nb_cache::Cache;
use nb_host::Host;
use nb_model::{At, Body, Edge, Params, V3};
use nb_order::{ByKey, Sorter, push_body, reorder};
use std::alloc::Global;
use std::test::Fail;

const UNSORTED: u64 = 5;
/// The bodies in Morton order.
pub(crate) const BODIES: u64 = 6;
const SEED: u64 = 1;

/// The next word of SplitMix64 (Steele, Lea and Flood 2014).
fn next_word(state: &mut u64) -> u64 {
    *state = state.wrapping_add(0x9e37_79b9_7f4a_7c15);
    let z = *state;
    let z = (z ^ (z >> 30)).wrapping_mul(0xbf58_476d_1ce4_e5b9);
    let z = (z ^ (z >> 27)).wrapping_mul(0x94d0_49bb_1331_11eb);
    z ^ (z >> 31)
}

/// A coordinate in a cube of side 2^26 in the middle of the box.
fn coordinate(word: u64) -> u64
    ensures { result < box_side }
{
    (1 << 39) - (1 << 25) + (word >> 38)
}

/// A body of random mass, 1 to 1000, at a random position. No cell tells of its velocity, for which three words
/// are passed over.
fn next_body(id: u64, state: &mut u64) -> Body
    ensures { IsValidBody result }
{
    let mass = 1 + (next_word(state) % 1000) as u32;
    let x = coordinate(next_word(state));
    let y = coordinate(next_word(state));
    let z = coordinate(next_word(state));
    for _ in 0..3 {
        let _ = next_word(state);
    }
    Body { id, mass, out: false, at: At { x, y, z }, v: V3 { x: 0, y: 0, z: 0 } }
}

pub(crate) fn params(count: u64) -> Params
    requires some { 1 ≤ count }
    requires few { count ≤ 100000 }
    ensures { AreInRange result }
{
    Params {
        grav: ((1 << 60) - 1) / (1000 * count),
        theta_num: 1,
        theta_den: 2,
        soft: 65536,
        leaf: 8,
        every: 10,
        edge: Edge::Open,
    }
}

/// Makes the file of so many bodies, in Morton order.
pub(crate) fn make_bodies<H: Host>(
    alloc: Global,
    host: &mut H,
    cache: &mut Cache,
    count: u64,
) -> Result<(), Fail>
    requires few { count ≤ 100000 }
    requires in_step { IsInStep H.meaning cache.old host.old }
    ensures { IsInStep H.meaning cache.new host.new }
{
    push_bodies(host, cache, count)?;
    sort_bodies(alloc, host, cache, count)
}

/// Makes the file of these bodies in Morton order.
pub(crate) fn sort_bodies<H: Host>(
    alloc: Global,
    host: &mut H,
    cache: &mut Cache,
    count: u64,
) -> Result<(), Fail>
    requires few { count ≤ 100000 }
    requires in_step { IsInStep H.meaning cache.old host.old }
    ensures { IsInStep H.meaning cache.new host.new }
{
    let mut sorter = Sorter::new(alloc);
    reorder(host, cache, &mut sorter, &ByKey, UNSORTED, BODIES, count)?;
    Ok(())
}

/// Makes the file of so many bodies, as they are generated.
pub(crate) fn push_bodies<H: Host>(host: &mut H, cache: &mut Cache, count: u64) -> Result<(), Fail>
    requires few { count ≤ 100000 }
    requires in_step { IsInStep H.meaning cache.old host.old }
    ensures { IsInStep H.meaning cache.new host.new }
{
    let mut state = SEED;
    for index in 0..count {
        let body = next_body(index + 1, &mut state);
        push_body(host, cache, UNSORTED, index, &body, &V3 { x: 0, y: 0, z: 0 })?;
    }
    Ok(())
}
PROGRAM
}
