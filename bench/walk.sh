#!/bin/sh
# Times walks of crates/nb_walk down the trees of 10,000 and of 100,000 generated bodies, over a cache with all pages resident, to
# each 10th and to each 100th of them: prints, for one of them,
#   counts   the pages of chains that a walk looks at, the keys that it compares on each, its terms, and how many pull at all
#   pulls    nanoseconds of the pulls of these terms alone
#   walk     of the walk, which visits those pages, and the pages of the leaves that it opens
#   rest     of a visit without its pulls, the difference of these two over the visits; and the walk over its pulls alone
#   light    of the walk under so weak a gravity that each pull is 0 at once
#   course   of a course, which only hands out its terms: its steps are those pages, and the bodies of leaves one by one
# and then, for one of 16 times 64 neighbours in Morton order:
#   block    the pulls of its terms alone
#   alone    a walk, as above, and how many times its pulls that is
#   pool     the same of pools of 64 walks each: how many pages of chains are looked at for one of them, how many it meets, and the
#            nanoseconds of each, with its pulls; how many times the pulls alone, and of a walk alone, that is
# It builds a small proved program over this checkout's crates in a temporary folder, and leaves nothing.
set -eu
. "$(dirname "$0")/small_program.sh"
. "$(dirname "$0")/generated_bodies.sh"
stand_on nb_model nb_fixed nb_key nb_host nb_record nb_cache nb_order nb_cell nb_tree nb_walk nb_force
write_generated
mkdir -p "$bench/proofs/run_walk" "$bench/proofs/measure" "$bench/proofs/begin" "$bench/proofs/run_pool"
cat >"$bench/proofs/begin/Answers.antt" <<'ANSWERS'
use Rattle.std.proofs.Common.{sym, subst}
use Rattle.nb_walk.specs.Pool.{AreSumsInRange}
use Rattle.nb_walk.proofs.Callers.{begun_range}
use Rattle.bench.proofs.begin.Goals as goal

pub returns-then-len-walks : goal.returns-then-len-walks
returns-then-len-walks c = record {
  range = subst (λ v. AreSumsInRange c.args.params.now v.walks) (sym c.begin.ensures)
      (begun_range c.args.params.now c.args.target.now.at c.args.pool.now.walks c.requires.range);
}
ANSWERS
cat >"$bench/proofs/run_pool/Invariants.antt" <<'INVARIANTS'
use Rattle.nb_walk.specs.Pool.{AreSumsInRange}
use Rattle.bench.proofs.run_pool.Given as goal

abbrev pub invariant-loop-target : goal.invariant-loop-target
invariant-loop-target g l = AreSumsInRange l.wood.params l.pool.walks
INVARIANTS
cat >"$bench/proofs/run_walk/Invariants.antt" <<'INVARIANTS'
use Rattle.nb_walk.specs.Walk.{IsSumInRange}
use Rattle.bench.proofs.run_walk.Given as goal

abbrev pub invariant-loop : goal.invariant-loop
invariant-loop l = IsSumInRange l.wood.params l.walk
INVARIANTS
cat >"$bench/proofs/measure/Answers.antt" <<'ANSWERS'
use Rattle.bench.proofs.measure.Goals as goal

pub make_bodies-requires-clause-in_step : goal.make_bodies-requires-clause-in_step
make_bodies-requires-clause-in_step c = λ _. c.in_ok-cache.ensures.fits _
ANSWERS
cat >"$bench/src/main.rt" <<'PROGRAM'
//! Times walks down a tree of generated bodies.
#![tactic(auto)]

ghost use Rattle.std.specs.Prelude.{◌≡◌, ◌*◌, ◌^◌, ◌<◌, ◌≤◌};
ghost use Rattle.nb_model.specs.Limits.{gm_limit};
ghost use Rattle.nb_model.specs.Valid.{AreInRange, IsInBox};
ghost use Rattle.nb_cache.specs.InStep.{IsInStep};
ghost use Rattle.nb_walk.specs.Angle.{by_angle};
ghost use Rattle.nb_walk.specs.Pool.{AreSumsInRange};
ghost use Rattle.nb_cache.specs.View.{resident_bytes};

mod generated;

use generated::{BODIES, make_bodies, params};
use nb_cache::Cache;
use nb_fixed::pull;
use nb_force::Window;
use nb_host::{Host, MemoryHost};
use nb_key::Key;
use nb_model::{At, Params, V3};
use nb_record::{BODIES_PER_PAGE, BodyPage, CellPage, CellView, Lender, PageError, Tree};
use nb_tree::{Builder, build};
use nb_walk::{ByAngle, Course, Opening, Pool, Step, Term, Visit, Walk};
use std::alloc::Global;
use std::test::Fail;
use std::time::Instant;
use std::{cell, fmt};

const CELLS: u64 = 7;
/// A cache of so many pages has room for all.
const ALL_PAGES: usize = 16384;
/// So many bodies are walked for.
const TARGETS: u64 = 1000;
/// So many walks share a pool.
const WALKS: usize = 64;
/// For so many pools bodies are taken, at like distances in Morton order.
const POOLS: u64 = 16;
/// No walk has so many visits.
const MOST_VISITS: u64 = 1 << 32;
/// Each time is the least of so many.
const TRIES: u64 = 25;

const GM_LIMIT: u64 = 1 << 60;

/// A tree, and the parameters under which it is walked.
#[derive(Clone, Copy)]
struct Wood {
    params: Params,
    tree: Tree,
    ghost ranges: { AreInRange params },
    ghost gm: { params.grav * tree.mass < gm_limit },
    ghost bits: { tree.bits ≤ 18 },
    ghost pages: { tree.pages < 2 ^ 48 },
}

fn grow<H: Host>(
    rt: &HostRuntime,
    host: &mut H,
    cache: &mut Cache,
    params: Params,
    count: u64,
) -> Result<Wood, Fail>
    requires params { AreInRange params }
    requires few { count ≤ 100000 }
    requires in_step { IsInStep H.meaning cache.old host.old }
    ensures { IsInStep H.meaning cache.new host.new }
{
    let mut builder = Builder::new(rt.alloc());
    let tree = build(host, cache, &mut builder, &params, BODIES, CELLS, count)?;
    Ok(Wood { params, tree })
}

/// Where a walk goes to.
#[derive(Clone, Copy)]
struct Target {
    at: At,
    ghost in_box: { IsInBox at },
}

/// Body i of the tree's file, where it is there.
fn find(window: &Window<'_>, i: u64) -> Option<Target> {
    let Some(Ok(page)) = window.body_page(i / BODIES_PER_PAGE) else {
        return None;
    };
    let index = i % BODIES_PER_PAGE;
    if index >= page.count() {
        return None;
    }
    let at = page.body(index)?.at;
    if !at.is_in_box() {
        return None;
    }
    Some(Target { at })
}

/// As many bodies as are walked for, at like distances in Morton order.
fn targets(alloc: Global, window: &Window<'_>, count: u64) -> Result<Vec<Target>, Fail>
    requires few { count ≤ 100000 }
{
    let mut targets = Vec::new(alloc);
    for i in 0..TARGETS {
        if let Some(target) = find(window, i * count / TARGETS) {
            targets.push(target)?;
        }
    }
    Ok(targets)
}

/// The bodies that so many pools walk to: neighbours in Morton order for each.
fn blocks(alloc: Global, window: &Window<'_>, count: u64) -> Result<Vec<Target>, Fail>
    requires few { count ≤ 100000 }
{
    let mut targets = Vec::new(alloc);
    for pool in 0..POOLS {
        for walk in 0..WALKS as u64 {
            if let Some(target) = find(window, pool * count / POOLS + walk) {
                targets.push(target)?;
            }
        }
    }
    Ok(targets)
}

/// A window that counts the looks at pages of cells.
#[derive(Clone, Copy)]
struct Seen<'a> {
    window: &'a Window<'a>,
    looks: &'a cell::Cell<u64>,
}

impl Lender for Seen<'_> {
    ghost cells = { λ s page.
        resident_bytes s.window.now.cache.now.held (record { file = s.window.now.cells; page = page }) };

    ghost bodies = { λ s page.
        resident_bytes s.window.now.cache.now.held (record { file = s.window.now.bodies; page = page }) };

    fn cell_page(&self, page: u64) -> Option<Result<CellPage<'_>, PageError>> {
        self.looks.set(self.looks.get().wrapping_add(1));
        self.window.cell_page(page)
    }

    fn body_page(&self, page: u64) -> Option<Result<BodyPage<'_>, PageError>> {
        self.window.body_page(page)
    }
}

/// The opening angle; it counts the keys of a cell's chain up to the cell's.
#[derive(Clone, Copy)]
struct Counting<'a> {
    window: &'a Window<'a>,
    bits: u32,
    keys: &'a cell::Cell<u64>,
    ghost few_bits: { bits ≤ 18 },
}

impl Opening for Counting<'_> {
    ghost meaning = { λ opening params from key mass centre. by_angle params from key centre };

    fn whole(&self, params: &Params, from: &At, cell: &CellView<'_>) -> bool {
        let more = keys_to(self.window, self.bits, cell.key());
        self.keys.set(self.keys.get().wrapping_add(more));
        ByAngle.whole(params, from, cell)
    }
}

/// How many keys a search compares until it finds this one.
fn keys_to(window: &Window<'_>, bits: u32, key: Key) -> u64
    requires bits { bits ≤ 18 }
{
    let mut keys = 0u64;
    let mut page = key.number() % (1 << bits);
    for _ in 0..ALL_PAGES {
        let Some(Ok(cells)) = window.cell_page(page) else {
            return keys;
        };
        for i in 0..cells.count() {
            keys = keys.wrapping_add(1);
            if cells.key_at(i) == key.number() {
                return keys;
            }
        }
        page = cells.next_page();
        if page == 0 {
            return keys;
        }
    }
    keys
}

/// What acts on a target.
#[derive(Clone, Copy)]
struct Mass {
    gm: u64,
    centre: At,
    ghost light: { gm < gm_limit },
    ghost in_box: { IsInBox centre },
}

/// What the steps of courses were.
#[derive(Drop)]
struct Steps {
    looks: u64,
    cells: u64,
    bodies: u64,
    masses: Vec<Mass>,
}

impl Steps {
    fn new(alloc: Global) -> Steps {
        Steps {
            looks: 0,
            cells: 0,
            bodies: 0,
            masses: Vec::new(alloc),
        }
    }

    /// Takes up a mass that acts, by its GM.
    fn add(&mut self, grav: u64, mass: u64, centre: At) -> Result<(), Fail> {
        if let Some(gm) = grav.checked_mul(mass) {
            if gm < GM_LIMIT && centre.is_in_box() {
                self.masses.push(Mass { gm, centre })?;
            }
        }
        Ok(())
    }

    /// Takes up a step, and tells whether it was the last.
    fn take(&mut self, grav: u64, step: Step) -> Result<bool, Fail> {
        match step {
            Step::Term(Term::Cell(mass, centre)) => {
                self.looks = self.looks.wrapping_add(1);
                self.cells = self.cells.wrapping_add(1);
                self.add(grav, mass, centre)?;
                Ok(false)
            }
            Step::Term(Term::Body(body)) => {
                self.bodies = self.bodies.wrapping_add(1);
                self.add(grav, u64::from(body.mass), body.at)?;
                Ok(false)
            }
            Step::Moved => {
                self.looks = self.looks.wrapping_add(1);
                Ok(false)
            }
            _ => Ok(true),
        }
    }

    /// Takes up all steps of a course to a target, and forgets the masses of those before.
    fn go<O: Opening + Drop>(
        &mut self,
        wood: &Wood,
        window: &Window<'_>,
        opening: O,
        target: &Target,
    ) -> Result<(), Fail> {
        self.masses.clear();
        let mut course = Course::start(opening, target.at);
        for _ in 0..MOST_VISITS {
            let step = course.step(&wood.params, &wood.tree, window);
            if self.take(wood.params.grav, step)? {
                return Ok(());
            }
        }
        Ok(())
    }
}

/// The steps of a course to a target.
fn run_course(wood: &Wood, window: &Window<'_>, target: &Target) -> u64 {
    let mut course = Course::start(ByAngle, target.at);
    let mut steps = 0u64;
    for _ in 0..MOST_VISITS {
        match course.step(&wood.params, &wood.tree, window) {
            Step::Term(_) | Step::Moved => steps = steps.wrapping_add(1),
            _ => return steps,
        }
    }
    steps
}

/// A walk that has ended.
#[derive(Clone, Copy)]
struct Walked {
    visits: u64,
    sum: V3,
}

/// A walk to a target.
fn run_walk(wood: &Wood, window: &Window<'_>, target: &Target) -> Walked {
    let mut walk = Walk::start(target.at);
    let mut visits = 0u64;
    for _ in 0..MOST_VISITS {
        if walk.visit(&wood.params, &wood.tree, window) != Visit::Moved {
            break;
        }
        visits = visits.wrapping_add(1);
    }
    Walked {
        visits,
        sum: walk.sum(),
    }
}

/// Begins a walk where there is room for one more.
fn begin(pool: &mut Pool, params: &Params, target: &Target)
    requires range { AreSumsInRange params.now pool.old.walks }
    ensures range { AreSumsInRange params.now pool.new.walks }
{
    if pool.len() < pool.walks() {
        pool.begin(target.at);
    }
}

/// Has the walks of a pool go on to their ends, and tells whether they came there, with the sum of their pulls.
fn end_walks<L: Lender>(wood: &Wood, lender: &L, pool: &mut Pool, sum: &mut V3) -> bool
    requires range { AreSumsInRange wood.now.params pool.old.walks }
    ensures range { AreSumsInRange wood.now.params pool.new.walks }
{
    let done = pool.advance(&wood.params, &wood.tree, lender) == Ok(true);
    for i in 0..pool.len() {
        add(sum, &pool.sum(i));
    }
    pool.clear();
    done
}

/// Adds a vector to another.
fn add(sum: &mut V3, more: &V3) {
    sum.x = sum.x.wrapping_add(more.x);
    sum.y = sum.y.wrapping_add(more.y);
    sum.z = sum.z.wrapping_add(more.z);
}

/// The sum of all pulls on targets, to which a pool walks in turns of as many as it has room for.
fn run_pool<L: Lender>(
    wood: &Wood,
    lender: &L,
    pool: &mut Pool,
    targets: &[Target],
) -> Option<V3> {
    let mut sum = V3 { x: 0, y: 0, z: 0 };
    pool.clear();
    for target in targets {
        if pool.len() == pool.walks() && !end_walks(wood, lender, pool, &mut sum) {
            return None;
        }
        begin(pool, &wood.params, target);
    }
    if !end_walks(wood, lender, pool, &mut sum) {
        return None;
    }
    Some(sum)
}

/// The pulls of masses on a target, under parameters with the unit of gravity.
fn run_pulls(params: &Params, target: &Target, masses: &[Mass]) -> V3
    requires params { AreInRange params.now }
    requires unit { params.now.grav ≡ 1 }
{
    let mut sum = V3 { x: 0, y: 0, z: 0 };
    for mass in masses {
        let more = pull(params, &target.at, mass.gm, &mass.centre);
        add(&mut sum, &more);
    }
    sum
}

/// How many of these pulls aren't 0.
fn kicks(params: &Params, target: &Target, masses: &[Mass]) -> u64
    requires params { AreInRange params.now }
    requires unit { params.now.grav ≡ 1 }
{
    let mut kicks = 0u64;
    for mass in masses {
        if pull(params, &target.at, mass.gm, &mass.centre) != (V3 { x: 0, y: 0, z: 0 }) {
            kicks = kicks.wrapping_add(1);
        }
    }
    kicks
}

/// A quotient to two places.
#[derive(Clone, Copy)]
struct Quotient {
    whole: u128,
    hundredths: u128,
}

impl Quotient {
    fn of(all: u128, among: u128) -> Quotient {
        let hundredths = all.saturating_mul(100) / among.max(1);
        Quotient {
            whole: hundredths / 100,
            hundredths: hundredths % 100,
        }
    }
}

impl fmt::Display for Quotient {
    fn fmt<W: fmt::Write>(&self, f: &mut fmt::Formatter<W>) -> fmt::Result {
        write!(f, "{}.{:02}", self.whole, self.hundredths)
    }
}

/// How long so many steps, visits or pulls took.
#[derive(Clone, Copy)]
struct Timed {
    nanos: u128,
    done: u64,
}

/// The most that is wanted: nanoseconds of a visit without its pull, of a walk over its pulls, and of a pool over walks alone.
#[derive(Clone, Copy)]
struct Wanted {
    rest: u64,
    whole: &'static str,
    pool: &'static str,
}

/// What is measured at one size.
#[derive(Drop)]
struct Bench<'a> {
    window: &'a Window<'a>,
    wood: Wood,
    /// The same tree under so weak a gravity that each pull is 0 at once.
    light: Wood,
    targets: Vec<Target>,
}

impl Bench<'_> {
    /// A number of all targets together, for one of them.
    fn each(&self, all: u64) -> Quotient {
        Quotient::of(u128::from(all), self.targets.len() as u128)
    }

    /// The parameters with the unit of gravity.
    fn unit_params(&self) -> Params
        ensures range { AreInRange result }
        ensures unit { result.grav ≡ 1 }
    {
        Params {
            grav: 1,
            ..self.wood.params
        }
    }

    /// Prints what the walks meet, and answers how many terms they have.
    fn count(&self, rt: &HostRuntime, count: u64) -> Result<u64, Fail> {
        let params = self.unit_params();
        let keys = cell::Cell::new(0u64);
        let mut steps = Steps::new(rt.alloc());
        let mut kicks_of_all = 0u64;
        for target in &self.targets {
            let opening = Counting {
                window: self.window,
                bits: self.wood.tree.bits,
                keys: &keys,
            };
            steps.go(&self.wood, self.window, opening, target)?;
            kicks_of_all = kicks_of_all.wrapping_add(kicks(&params, target, &steps.masses));
        }
        let looks = self.each(steps.looks);
        let keys = Quotient::of(u128::from(keys.get()), u128::from(steps.looks));
        let cells = self.each(steps.cells);
        let bodies = self.each(steps.bodies);
        let kicks = self.each(kicks_of_all);
        println!(rt;
            "counts {count} bodies: {looks} looks of {keys} keys, {cells} cells and {bodies} bodies pull, {kicks} not by 0"
        )?;
        Ok(steps.cells.wrapping_add(steps.bodies))
    }

    /// The least time of the courses, and their steps.
    fn time_courses(&self, rt: &HostRuntime) -> Result<Timed, Fail> {
        let mut least = u128::MAX;
        let mut done = 0u64;
        for _ in 0..TRIES {
            done = 0;
            let start = Instant::now(rt)?;
            for target in &self.targets {
                done = done.wrapping_add(run_course(&self.wood, self.window, target));
            }
            least = least.min(start.elapsed(rt)?.as_nanos());
        }
        Ok(Timed { nanos: least, done })
    }

    /// The least time of walks, and their visits.
    fn time_walks(&self, rt: &HostRuntime, wood: &Wood) -> Result<Timed, Fail> {
        let mut least = u128::MAX;
        let mut done = 0u64;
        for _ in 0..TRIES {
            done = 0;
            let start = Instant::now(rt)?;
            for target in &self.targets {
                done = done.wrapping_add(run_walk(wood, self.window, target).visits);
            }
            least = least.min(start.elapsed(rt)?.as_nanos());
        }
        Ok(Timed { nanos: least, done })
    }

    /// The least time of the pulls alone, and their number. Each target's are found anew before they are timed.
    fn time_pulls(&self, rt: &HostRuntime) -> Result<Timed, Fail> {
        let params = self.unit_params();
        let mut steps = Steps::new(rt.alloc());
        let mut least = u128::MAX;
        let mut done = 0u64;
        for _ in 0..TRIES {
            done = 0;
            let mut nanos = 0u128;
            for target in &self.targets {
                steps.go(&self.wood, self.window, ByAngle, target)?;
                let start = Instant::now(rt)?;
                let sum = run_pulls(&params, target, &steps.masses);
                nanos = nanos.saturating_add(start.elapsed(rt)?.as_nanos());
                if sum != run_walk(&self.wood, self.window, target).sum {
                    return Err(Fail::new("a course's pulls aren't the walk's"));
                }
                done = done.wrapping_add(steps.masses.len() as u64);
            }
            least = least.min(nanos);
        }
        Ok(Timed { nanos: least, done })
    }

    /// The least time of pools, and how many pages of chains they look at. Each sum has to be that of the walks alone.
    fn time_pools(&self, rt: &HostRuntime) -> Result<Timed, Fail> {
        let looks = cell::Cell::new(0u64);
        let seen = Seen {
            window: self.window,
            looks: &looks,
        };
        let mut pool = Pool::new(rt.alloc(), WALKS)?;
        let mut sum = V3 { x: 0, y: 0, z: 0 };
        for target in &self.targets {
            add(&mut sum, &run_walk(&self.wood, self.window, target).sum);
        }
        if run_pool(&self.wood, &seen, &mut pool, &self.targets) != Some(sum) {
            return Err(Fail::new("a pool's pulls aren't the walks'"));
        }
        let mut least = u128::MAX;
        for _ in 0..TRIES {
            let start = Instant::now(rt)?;
            let pulls = run_pool(&self.wood, self.window, &mut pool, &self.targets);
            least = least.min(start.elapsed(rt)?.as_nanos());
            if pulls != Some(sum) {
                return Err(Fail::new("a pool's pulls aren't the walks'"));
            }
        }
        Ok(Timed {
            nanos: least,
            done: looks.get(),
        })
    }

    fn print(
        &self,
        rt: &HostRuntime,
        name: &str,
        count: u64,
        what: &str,
        timed: Timed,
    ) -> Result<(), Fail> {
        let body = Quotient::of(timed.nanos, self.targets.len() as u128);
        let done = self.each(timed.done);
        let each = Quotient::of(timed.nanos, u128::from(timed.done));
        println!(rt; "{name} {count} bodies: {body} ns, {done} {what}, {each} ns each")?;
        Ok(())
    }

    /// Prints what is left of the walks without their pulls, beside what is wanted.
    fn print_rest(
        &self,
        rt: &HostRuntime,
        count: u64,
        pulls: Timed,
        walks: Timed,
        wanted: Wanted,
    ) -> Result<(), Fail> {
        let nanos = walks.nanos.saturating_sub(pulls.nanos);
        let rest = Quotient::of(nanos, u128::from(walks.done));
        let whole = Quotient::of(walks.nanos, pulls.nanos);
        let Wanted {
            rest: most_rest,
            whole: most_whole,
            ..
        } = wanted;
        println!(rt;
            "rest {count} bodies: {rest} ns a visit without its pull, of {most_rest} at most; {whole} times the pulls, of {most_whole} at most"
        )?;
        Ok(())
    }

    fn run(&self, rt: &HostRuntime, count: u64, wanted: Wanted) -> Result<(), Fail> {
        let terms = self.count(rt, count)?;
        let pulls = self.time_pulls(rt)?;
        if pulls.done != terms {
            return Err(Fail::new("a pull is left out"));
        }
        self.print(rt, "pulls", count, "terms", pulls)?;
        let walks = self.time_walks(rt, &self.wood)?;
        self.print(rt, "walk", count, "visits", walks)?;
        self.print_rest(rt, count, pulls, walks, wanted)?;
        self.print(
            rt,
            "light",
            count,
            "visits",
            self.time_walks(rt, &self.light)?,
        )?;
        self.print(rt, "course", count, "steps", self.time_courses(rt)?)
    }

    /// Prints what pools of many walks take, beside these walks one by one.
    fn run_blocks(&self, rt: &HostRuntime, count: u64, whole: &str) -> Result<(), Fail> {
        let pulls = self.time_pulls(rt)?;
        self.print(rt, "block", count, "terms", pulls)?;
        let walks = self.time_walks(rt, &self.wood)?;
        let alone = Quotient::of(walks.nanos, u128::from(walks.done));
        let times = Quotient::of(walks.nanos, pulls.nanos);
        let body = Quotient::of(walks.nanos, self.targets.len() as u128);
        let visits = self.each(walks.done);
        println!(rt; "alone {count} bodies: {body} ns, {visits} met, {alone} ns each; {times} times the pulls")?;
        let pools = self.time_pools(rt)?;
        let body = Quotient::of(pools.nanos, self.targets.len() as u128);
        let looks = self.each(pools.done);
        let each = Quotient::of(pools.nanos, u128::from(walks.done));
        let times = Quotient::of(pools.nanos, pulls.nanos);
        let gain = Quotient::of(pools.nanos, walks.nanos);
        println!(rt;
            "pool {count} bodies: {body} ns, {looks} looks, {visits} met, {each} ns each; {times} times the pulls, {gain} times the walks alone, of {whole} at most"
        )?;
        Ok(())
    }
}

fn measure(rt: &HostRuntime, count: u64, wanted: Wanted) -> Result<(), Fail>
    requires some { 1 ≤ count }
    requires few { count ≤ 100000 }
{
    let mut host = MemoryHost::new(rt.alloc());
    let mut cache = Cache::new(rt.alloc(), ALL_PAGES)?;
    make_bodies(rt.alloc(), &mut host, &mut cache, count)?;
    let light = Params {
        grav: 1,
        ..params(count)
    };
    let light = grow(rt, &mut host, &mut cache, light, count)?;
    let wood = grow(rt, &mut host, &mut cache, params(count), count)?;
    let window = Window {
        cache: &cache,
        bodies: BODIES,
        cells: CELLS,
    };
    let targets = targets(rt.alloc(), &window, count)?;
    let bench = Bench {
        window: &window,
        wood,
        light,
        targets,
    };
    bench.run(rt, count, wanted)?;
    let targets = blocks(rt.alloc(), &window, count)?;
    let bench = Bench { targets, ..bench };
    bench.run_blocks(rt, count, wanted.pool)
}

fn main(rt: HostRuntime) -> Result<(), Fail> {
    let small = Wanted {
        rest: 60,
        whole: "1.6",
        pool: "0.50",
    };
    let large = Wanted {
        rest: 110,
        whole: "2.2",
        pool: "0.40",
    };
    measure(&rt, 10_000, small)?;
    measure(&rt, 100_000, large)
}
PROGRAM
run_bench 'counts|pulls|walk|rest|light|course|block|alone|pool'
