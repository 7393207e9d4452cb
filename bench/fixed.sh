#!/bin/sh
# Times the root, the pull and the opening criterion of crates/nb_fixed, in an open box and in one that wraps: prints tenths
# of nanoseconds a call,
#   N bits   for softened squares of 20, 40, 60 and 80 bits
#   walk     for what a walk down the tree of 10,000 random bodies meets, of each 64th of them: the opening criterion of the cells
#            that it comes to, and the pulls of the cells that it takes and of the bodies of the leaves that it opens
#   near     for the pulls of these that aren't 0 at once, as the softened square isn't above GM
# The program reads theta, the softening lengths and the edges at run time, so that no compiler folds them.
# It builds a small proved program over this checkout's crates in a temporary folder, and leaves nothing. With KEEP set
# to a folder, it copies the program there as `bench`, and what that reads as `stdin`.
# To time an older commit beside this one, copy this script and small_program.sh into bench/ of a worktree of that
# commit, run both with KEEP, and then run the two programs by turns, on one processor, for the least of each row. There
# root, pull and opens have to have the signatures that they have here.
set -eu
. "$(dirname "$0")/small_program.sh"
stand_on nb_model nb_fixed
# On the first line the parameters: theta, the softening lengths of the fixed sizes and of the walks, and the two edges.
# Then what the walks meet, a line each: whether the walk tests it, whether it pulls, its level and whether its cell
# holds the body that is pulled, the six coordinates of that body and of the centre, GM and the softened square.
python3 - >"$bench/stdin" <<'PYTHON'
SEED, BODIES, STEP = 1, 10000, 64
GRAV, SOFT, LEAF = (2**60 - 1) // (1000 * BODIES), 65536, 8
THETA_NUM, THETA_DEN, SOFT_OF_FIXED_SIZES = 1, 2, 1
OPEN, WRAP = 0, 1
BOX_BITS, DEEPEST_LEVEL = 40, 21
MASK = 2**64 - 1


def splitmix64(state):
    """The words of SplitMix64 (Steele, Lea and Flood 2014)."""
    while True:
        state = (state + 0x9E3779B97F4A7C15) & MASK
        word = state
        word = ((word ^ (word >> 30)) * 0xBF58476D1CE4E5B9) & MASK
        word = ((word ^ (word >> 27)) * 0x94D049BB133111EB) & MASK
        yield word ^ (word >> 31)


def tree_of(level, bodies):
    """The cell of these bodies: its level, its mass, its centre, a body of it, and its bodies or its octants."""
    mass = sum(mass for mass, _ in bodies)
    centre = [sum(mass * at[axis] for mass, at in bodies) // mass for axis in range(3)]
    if len(bodies) <= LEAF or level == DEEPEST_LEVEL:
        return level, mass, centre, bodies[0][1], bodies, []
    parts = {}
    for mass_of_body, at in bodies:
        octant = [c >> (BOX_BITS - 1 - level) for c in at]
        parts.setdefault(tuple(octant), []).append((mass_of_body, at))
    octants = [tree_of(level + 1, parts[octant]) for octant in sorted(parts)]
    return level, mass, centre, bodies[0][1], [], octants


def meet(tested, pulls, level, inside, body, centre, mass, square):
    print(int(tested), int(pulls), level, int(inside), *body, *centre, GRAV * mass, square + SOFT * SOFT)


def walk(body, cell):
    """Opens a cell that isn't further than twice its side."""
    level, mass, centre, first, leaf, octants = cell
    square = sum((a - b) ** 2 for a, b in zip(body, centre))
    inside = all(a >> (BOX_BITS - level) == b >> (BOX_BITS - level) for a, b in zip(body, first))
    opened = inside or square <= (2 << (BOX_BITS - level)) ** 2
    meet(True, not opened, level, inside, body, centre, mass, square)
    if opened:
        for mass, at in leaf:
            meet(False, True, level, inside, body, at, mass, sum((a - b) ** 2 for a, b in zip(body, at)))
        for octant in octants:
            walk(body, octant)


words = splitmix64(SEED)
bodies = []
for _ in range(BODIES):
    mass = 1 + next(words) % 1000
    bodies.append((mass, [2**39 - 2**25 + next(words) // 2**38 for _ in range(3)]))
root = tree_of(0, bodies)
print(THETA_NUM, THETA_DEN, SOFT_OF_FIXED_SIZES, SOFT, OPEN, WRAP)
for _, body in bodies[::STEP]:
    walk(body, root)
PYTHON
cat >"$bench/src/main.rt" <<'PROGRAM'
//! Times the root, the pull and the opening criterion over numbers of a xorshift generator (Marsaglia 2003).
#![tactic(auto)]

ghost use Rattle.std.specs.Prelude.{◌≡◌, ◌*◌, ◌+◌, ◌^◌, ◌<◌, ◌≤◌, IfSome};
ghost use Rattle.nb_model.specs.Limits.{box_side, deepest_level, gm_limit};
ghost use Rattle.nb_model.specs.Valid.{AreInRange, IsInBox};

use nb_fixed::{opens, pull, root};
use nb_model::{At, BOX_SIDE, Edge, Params, V3};
use std::alloc::Global;
use std::io::{self, BufRead, BufReader};
use std::time::Instant;

const COUNT: u64 = 4096;
const ROUNDS: u64 = 512;
const CALLS: u64 = COUNT * ROUNDS;
/// Each time is the least of so many.
const TRIES: u64 = 5;
const SEED: u64 = 88172645463325252;
/// How often the terms of the walks are gone through for a time, of which the least of so many is taken.
const WALK_ROUNDS: u64 = 16;
const WALK_TRIES: u64 = 25;
const DEEPEST_LEVEL: u32 = 21;
const GM_LIMIT: u64 = 1 << 60;
/// The greatest numerator and denominator of theta.
const MOST_THETA: u64 = 32768;

fn next(state: u64) -> u64 {
    let a = state ^ (state << 13);
    let b = a ^ (a >> 7);
    b ^ (b << 17)
}

/// Tenths of a nanosecond a call.
fn tenths(nanos: u128, calls: u64) -> u128 {
    nanos.saturating_mul(10) / u128::from(calls.max(1))
}

fn time_root(rt: &HostRuntime, bits: u32) -> io::Result<()>
    requires low { 2 ≤ bits }
    requires high { bits ≤ 80 }
{
    let mut inputs = Vec::new(rt.alloc());
    let mut state = SEED;
    for _ in 0..COUNT {
        state = next(state);
        let high = state as u128;
        state = next(state);
        let random = (high << 64) | state as u128;
        inputs.push((random >> (128 - bits)) | (1 << (bits - 1)))?;
    }
    let mut sum = 0u64;
    let mut least = u128::MAX;
    for _ in 0..TRIES {
        let start = Instant::now(rt)?;
        for round in 0..ROUNDS {
            for q in &inputs {
                sum = sum.wrapping_add(root(*q ^ round as u128));
            }
        }
        least = least.min(start.elapsed(rt)?.as_nanos());
    }
    let each = tenths(least, CALLS);
    println!(rt; "root {bits} bits: {each} (sum {sum})")?;
    Ok(())
}

#[derive(Clone, Copy)]
struct Case {
    x: u64,
    y: u64,
    z: u64,
    weight: u64,
}

/// A coordinate within 2^39 of the middle of the box.
fn coordinate(offset: u64) -> u64
    ensures { result < 2 ^ 40 }
{
    549755813888 + (offset & 549755813887)
}

fn cases(rt: &HostRuntime, bits: u32) -> io::Result<Vec<Case>>
    requires low { 8 ≤ bits }
    requires high { bits ≤ 80 }
{
    let mut cases = Vec::new(rt.alloc());
    let mut state = SEED;
    for _ in 0..COUNT {
        state = next(state);
        let x = (state >> (64 - bits / 2)) | (1 << (bits / 2 - 1));
        state = next(state);
        let y = state >> (66 - bits / 2);
        state = next(state);
        let z = state >> (66 - bits / 2);
        state = next(state);
        // A weight of up to 60 bits, or one that is below the square.
        let small = if bits < 60 { bits - 2 } else { 58 };
        let weight = if state % 2 == 0 { state >> 4 } else { (state >> 4) % (1 << small) };
        cases.push(Case { x, y, z, weight })?;
    }
    Ok(cases)
}

fn middle() -> At
    ensures { IsInBox result }
{
    At { x: 549755813888, y: 549755813888, z: 549755813888 }
}

/// The parameters that were read.
#[derive(Clone, Copy)]
struct Given {
    theta_num: u64,
    theta_den: u64,
    soft: u64,
    edge: Edge,
    ghost theta_num_limit: { theta_num ≤ 32768 },
    ghost some_theta_den: { 1 ≤ theta_den },
    ghost theta_den_limit: { theta_den ≤ 32768 },
    ghost some_soft: { 1 ≤ soft },
    ghost soft_limit: { soft < box_side },
}

impl Given {
    fn new(theta_num: u128, theta_den: u128, soft: u128, wraps: u128) -> Option<Given> {
        let theta_num = u64::try_from(theta_num).ok()?;
        let theta_den = u64::try_from(theta_den).ok()?;
        let soft = u64::try_from(soft).ok()?;
        if theta_num > MOST_THETA || theta_den < 1 || theta_den > MOST_THETA || soft < 1 || soft >= BOX_SIDE {
            return None;
        }
        let edge = if wraps == 0 { Edge::Open } else { Edge::Wrap };
        Some(Given { theta_num, theta_den, soft, edge })
    }
}

fn params(given: Given) -> Params
    ensures range { AreInRange result }
    ensures unit { result.grav ≡ 1 }
{
    Params {
        grav: 1,
        theta_num: given.theta_num,
        theta_den: given.theta_den,
        soft: given.soft,
        leaf: 8,
        every: 100,
        edge: given.edge,
    }
}

fn centre(case: &Case, round: u64) -> At
    ensures { IsInBox result }
{
    At { x: coordinate(case.x ^ round % 4), y: coordinate(case.y), z: coordinate(case.z) }
}

fn pull_of(params: &Params, case: &Case, round: u64) -> V3
    requires range { AreInRange params.now }
    requires unit { params.now.grav ≡ 1 }
{
    pull(params, &middle(), case.weight % (1 << 60), &centre(case, round))
}

fn is_opened(params: &Params, case: &Case, round: u64) -> bool
    requires { AreInRange params.now }
{
    let level = 1 + (case.weight % 16) as u32;
    opens(params, &middle(), level, &centre(case, round), false)
}

fn time_pull(rt: &HostRuntime, given: Given, bits: u32) -> io::Result<()>
    requires low { 8 ≤ bits }
    requires high { bits ≤ 80 }
{
    let cases = cases(rt, bits)?;
    let params = params(given);
    let mut sum = 0i64;
    let mut none = 0u64;
    let mut least = u128::MAX;
    for _ in 0..TRIES {
        let start = Instant::now(rt)?;
        for round in 0..ROUNDS {
            for case in &cases {
                let kick = pull_of(&params, case, round);
                sum = sum.wrapping_add(kick.x).wrapping_add(kick.y).wrapping_add(kick.z);
                if kick.x == 0 {
                    none = none.wrapping_add(1);
                }
            }
        }
        least = least.min(start.elapsed(rt)?.as_nanos());
    }
    let each = tenths(least, CALLS);
    let share = none / (CALLS * TRIES / 100);
    println!(rt; "pull {:?} {bits} bits: {each} ({share} of 100 without a kick, sum {sum})", given.edge)?;
    Ok(())
}

fn time_opens(rt: &HostRuntime, given: Given, bits: u32) -> io::Result<()>
    requires low { 8 ≤ bits }
    requires high { bits ≤ 80 }
{
    let cases = cases(rt, bits)?;
    let params = params(given);
    let mut opened = 0u64;
    let mut least = u128::MAX;
    for _ in 0..TRIES {
        let start = Instant::now(rt)?;
        for round in 0..ROUNDS {
            for case in &cases {
                if is_opened(&params, case, round) {
                    opened = opened.wrapping_add(1);
                }
            }
        }
        least = least.min(start.elapsed(rt)?.as_nanos());
    }
    let each = tenths(least, CALLS);
    println!(rt; "opens {:?} {bits} bits: {each} ({opened} opened)", given.edge)?;
    Ok(())
}

/// A cell that a walk tests.
#[derive(Clone, Copy)]
struct Test {
    from: At,
    centre: At,
    level: u32,
    inside: bool,
    ghost from_in_box: { IsInBox from },
    ghost centre_in_box: { IsInBox centre },
    ghost no_deeper: { level ≤ deepest_level },
}

/// A mass that pulls in a walk.
#[derive(Clone, Copy)]
struct Term {
    from: At,
    centre: At,
    gm: u64,
    ghost from_in_box: { IsInBox from },
    ghost centre_in_box: { IsInBox centre },
    ghost light: { gm < gm_limit },
}

/// The numbers of a line, or fewer where one is none.
fn numbers_of(alloc: Global, line: &str) -> io::Result<Vec<u128>> {
    let mut numbers = Vec::new(alloc);
    for word in line.split(' ') {
        if let Ok(number) = word.parse::<u128>() {
            numbers.push(number)?;
        }
    }
    Ok(numbers)
}

fn position(x: u128, y: u128, z: u128) -> Option<At>
    ensures { IfSome result (λ at. IsInBox at) }
{
    let at = At { x: u64::try_from(x).ok()?, y: u64::try_from(y).ok()?, z: u64::try_from(z).ok()? };
    if !at.is_in_box() {
        return None;
    }
    Some(at)
}

/// What the walks meet: the cells that they test, and the terms that pull, with the softened squares of all.
#[derive(Drop)]
struct Walks {
    /// The parameters of the fixed sizes, with each of the edges.
    fixed: Vec<Given>,
    /// Those of the walks.
    given: Vec<Given>,
    tests: Vec<Test>,
    terms: Vec<Term>,
    near: Vec<Term>,
    squares: Vec<u64>,
}

impl Walks {
    /// Takes up the parameters of the first line.
    fn add_given(&mut self, numbers: &[u128]) -> io::Result<()> {
        if numbers.len() != 6 {
            return Ok(());
        }
        for edge in [numbers[4], numbers[5]] {
            if let Some(given) = Given::new(numbers[0], numbers[1], numbers[2], edge) {
                self.fixed.push(given)?;
            }
            if let Some(given) = Given::new(numbers[0], numbers[1], numbers[3], edge) {
                self.given.push(given)?;
            }
        }
        Ok(())
    }

    /// Takes up the cell or the term of a line, and passes by what is none.
    fn add(&mut self, numbers: &[u128]) -> io::Result<()> {
        if numbers.len() != 12 {
            return Ok(());
        }
        let (Some(from), Some(centre)) = (
            position(numbers[4], numbers[5], numbers[6]),
            position(numbers[7], numbers[8], numbers[9]),
        ) else {
            return Ok(());
        };
        if let Ok(level) = u32::try_from(numbers[2]) {
            if numbers[0] == 1 && level <= DEEPEST_LEVEL {
                self.tests.push(Test { from, centre, level, inside: numbers[3] == 1 })?;
            }
        }
        if let (Ok(gm), Ok(square)) = (u64::try_from(numbers[10]), u64::try_from(numbers[11])) {
            if numbers[1] == 1 && gm < GM_LIMIT {
                self.terms.push(Term { from, centre, gm })?;
                self.squares.push(square)?;
                if square <= gm {
                    self.near.push(Term { from, centre, gm })?;
                }
            }
        }
        Ok(())
    }
}

fn read_walks(rt: &HostRuntime) -> io::Result<Walks> {
    let alloc = rt.alloc();
    let mut walks = Walks {
        fixed: Vec::new(alloc),
        given: Vec::new(alloc),
        tests: Vec::new(alloc),
        terms: Vec::new(alloc),
        near: Vec::new(alloc),
        squares: Vec::new(alloc),
    };
    for line in BufReader::new(alloc, rt.reader())?.lines(alloc) {
        let numbers = numbers_of(alloc, &line?)?;
        walks.add_given(&numbers)?;
        walks.add(&numbers)?;
    }
    Ok(walks)
}

fn time_walk_roots(rt: &HostRuntime, squares: &[u64]) -> io::Result<()> {
    let mut sum = 0u64;
    let mut least = u128::MAX;
    for _ in 0..WALK_TRIES {
        let start = Instant::now(rt)?;
        for _ in 0..WALK_ROUNDS {
            for square in squares {
                sum = sum.wrapping_add(root(u128::from(*square)));
            }
        }
        least = least.min(start.elapsed(rt)?.as_nanos());
    }
    let count = squares.len() as u64;
    let each = tenths(least, count.saturating_mul(WALK_ROUNDS));
    println!(rt; "root walk: {each} ({count} terms, sum {sum})")?;
    Ok(())
}

fn time_walk_pulls(rt: &HostRuntime, given: Given, name: &str, terms: &[Term]) -> io::Result<()> {
    let params = params(given);
    let mut sum = 0i64;
    let mut least = u128::MAX;
    for _ in 0..WALK_TRIES {
        let start = Instant::now(rt)?;
        for _ in 0..WALK_ROUNDS {
            for term in terms {
                let kick = pull(&params, &term.from, term.gm, &term.centre);
                sum = sum.wrapping_add(kick.x).wrapping_add(kick.y).wrapping_add(kick.z);
            }
        }
        least = least.min(start.elapsed(rt)?.as_nanos());
    }
    let count = terms.len() as u64;
    let each = tenths(least, count.saturating_mul(WALK_ROUNDS));
    println!(rt; "pull {:?} {name}: {each} ({count} terms, sum {sum})", given.edge)?;
    Ok(())
}

fn time_walk_opens(rt: &HostRuntime, given: Given, tests: &[Test]) -> io::Result<()> {
    let params = params(given);
    let mut opened = 0u64;
    let mut least = u128::MAX;
    for _ in 0..WALK_TRIES {
        let start = Instant::now(rt)?;
        for _ in 0..WALK_ROUNDS {
            for test in tests {
                let is_opened = opens(&params, &test.from, test.level, &test.centre, test.inside);
                opened = opened.wrapping_add(u64::from(is_opened));
            }
        }
        least = least.min(start.elapsed(rt)?.as_nanos());
    }
    let count = tests.len() as u64;
    let each = tenths(least, count.saturating_mul(WALK_ROUNDS));
    println!(rt; "opens {:?} walk: {each} ({count} cells, {opened} opened)", given.edge)?;
    Ok(())
}

fn main(rt: HostRuntime) -> io::Result<()> {
    let walks = read_walks(&rt)?;
    time_walk_roots(&rt, &walks.squares)?;
    for given in &walks.given {
        time_walk_pulls(&rt, *given, "walk", &walks.terms)?;
        time_walk_pulls(&rt, *given, "near", &walks.near)?;
        time_walk_opens(&rt, *given, &walks.tests)?;
    }
    time_root(&rt, 20)?;
    time_root(&rt, 40)?;
    time_root(&rt, 60)?;
    time_root(&rt, 80)?;
    for given in &walks.fixed {
        for bits in [20, 40, 60, 80] {
            time_pull(&rt, *given, bits)?;
        }
        for bits in [20, 40, 60, 80] {
            time_opens(&rt, *given, bits)?;
        }
    }
    Ok(())
}
PROGRAM
run_bench 'root|pull|opens' <"$bench/stdin"
if [ -n "${KEEP-}" ]; then
    mkdir -p "$KEEP"
    cp out/bench "$KEEP/bench"
    cp stdin "$KEEP/stdin"
fi
