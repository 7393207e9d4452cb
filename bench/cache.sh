#!/bin/sh
# Times the cache of crates/nb_cache over a host in memory: prints nanoseconds a look-up, the first byte of the page read with
# it, and how many calls of the host's `read_at` all look-ups made, for caches of 4, 256 and 65536 pages:
#   resident  random pages that are resident; none reads
#   group     64 random pages that are resident (all, where there are fewer), fetched together and then looked up; none reads
#   sweep     a quarter more pages than the cache has, each fetched and looked up, in order and over again; each reads
#   mix       the same of random pages: 7 of 8 among half as many as the cache has, 1 of 8 among twice as many
# and a row that pushes 100,000 generated bodies one by one, sorts the file and reads it back through such caches:
#   push      nanoseconds a push, with the body's making and the flush at the end, and the writes of pages beside the least
#             possible, each page once, where the bodies are pushed and where they are sorted
# It builds a small proved program over this checkout's crates in a temporary folder, and leaves nothing. The program takes
# 1.6 GB of memory.
set -eu
. "$(dirname "$0")/small_program.sh"
. "$(dirname "$0")/generated_bodies.sh"
stand_on nb_model nb_key nb_host nb_record nb_cache nb_order
write_generated
mkdir -p "$bench/proofs/Storage/fetch_group" "$bench/proofs/Storage/new"
# The loops over a storage keep its cache in step with its host.
keep_in_step() {
    mkdir -p "$bench/proofs/$1"
    cat >"$bench/proofs/$1/Invariants.antt" <<INVARIANTS
use Rattle.nb_host.specs.Memory.{contents_of}
use Rattle.nb_cache.specs.InStep.{IsCoherent}
use Rattle.bench.proofs.$(echo "$1" | tr / .).Given as goal

abbrev pub invariant-loop$2 : goal.invariant-loop$2
invariant-loop$2 l = IsCoherent l.$3.cache (contents_of l.$3.host)
INVARIANTS
}
mkdir -p "$bench/proofs/read_back" "$bench/proofs/measure_pushes"
cat >"$bench/proofs/read_back/Invariants.antt" <<'INVARIANTS'
use Rattle.nb_cache.specs.InStep.{IsInStep}
use Rattle.bench.proofs.read_back.Given as goal

abbrev pub invariant-loop-index : goal.invariant-loop-index
invariant-loop-index g l = IsInStep g.H.Host.meaning l.cache l.host
INVARIANTS
cat >"$bench/proofs/measure_pushes/Answers.antt" <<'ANSWERS'
use Rattle.bench.proofs.measure_pushes.Goals as goal

pub push_bodies-requires-clause-in_step : goal.push_bodies-requires-clause-in_step
push_bodies-requires-clause-in_step c = λ _. c.in_ok-cache.ensures.fits _
ANSWERS
keep_in_step Storage/fetch_all -page self
keep_in_step Storage/fetch_groups -group self
keep_in_step time '' storage
keep_in_step fill -page storage
echo 'pub mod Rising' >"$bench/specs/Lib.antt"
cat >"$bench/specs/Rising.antt" <<'DEFINITIONS'
-- Pages of file 3 in rising order.
use Rattle.std.specs.Prelude.{◌≡◌, ℕ, ⊤, ◌+◌, ◌^◌, ◌<◌, ◌≤◌, List, [], ◌∷◌}
use Rattle.std.specs.Coded.{Unit-prop, le_prop}
use Rattle.std.proofs.Math.Nat.{ℕ_set}
use Rattle.nb_host.specs.declared.page_name.PageName.{PageName}

-- pages of file 3 with rising numbers, the first of them this number or a later one
abbrev pub Rises : ℕ → List PageName → Type 0
Rises from [] = ⊤
Rises from (n ∷ names) = (n.file ≡ 3) × (from ≤ n.page) × (n.page < 2 ^ 48) × Rises (n.page + 1) names

pub Rises-prop : (from : ℕ) (names : List PageName) → IsProp (Rises from names)
Rises-prop from [] = Unit-prop
Rises-prop from (n ∷ names) = hlevel (ℕ_set, le_prop, Rises-prop (n.page + 1) names)
DEFINITIONS
cat >"$bench/proofs/Storage/new/Answers.antt" <<'ANSWERS'
use Rattle.bench.proofs.Storage.new.Goals as goal

pub returns : goal.returns
returns c = c.in_ok-cache.ensures.fits _
ANSWERS
cat >"$bench/proofs/Storage/fetch_group/Answers.antt" <<'ANSWERS'
use Rattle.std.proofs.Common.{◌≡◌, ℕ, ◌+◌, ◌<◌, inr, List, [], ◌∷◌, arith, sym, ◌∙◌}
use Rattle.std.specs.List.{AllByRecursion}
use Rattle.nb_host.specs.declared.page_name.PageName.{PageName}
use Rattle.nb_host.specs.Page.{IsBefore, IsRising}
use Rattle.nb_cache.specs.InStep.{IsCacheable}
use Rattle.bench.specs.Rising.{Rises}
use Rattle.bench.proofs.Storage.fetch_group.Goals as goal

all_later : (m : PageName) (from : ℕ) (names : List PageName) → m.file ≡ 3 → m.page < from → Rises from names
    → AllByRecursion (IsBefore m) names
all_later m from [] file less rises = tt
all_later m from (n ∷ names) file less rises = (
  inr (file ∙ sym rises.0, omega (arith, less, rises.1)),
  all_later m (n.page + 1) names file (omega (arith, less, rises.1)) rises.3,
)

all_rising : (from : ℕ) (names : List PageName) → Rises from names → IsRising names
all_rising from [] rises = tt
all_rising from (n ∷ names) rises =
    (all_later n (n.page + 1) names rises.0 (omega arith) rises.3, all_rising (n.page + 1) names rises.3)

all_places : (from : ℕ) (names : List PageName) → Rises from names → AllByRecursion IsCacheable names
all_places from [] rises = tt
all_places from (n ∷ names) rises = (
  record { file = record { least = omega (arith, rises.0); greatest = omega (arith, rises.0) }; page = rises.2 },
  all_places (n.page + 1) names rises.3,
)

pub fetch-requires-clause-rising : goal.fetch-requires-clause-rising
fetch-requires-clause-rising c = rw c.deref.ensures.value (all_rising _ _ c.args.group.now.rises)

pub fetch-requires-clause-names : goal.fetch-requires-clause-names
fetch-requires-clause-names c = rw c.deref.ensures.value (all_places _ _ c.args.group.now.rises)
ANSWERS
cat >"$bench/src/main.rt" <<'PROGRAM'
//! Times look-ups of pages through a cache, in the order of a xorshift generator (Marsaglia 2003).
#![tactic(auto)]

ghost use Rattle.std.specs.Prelude.{◌≡◌, ◌^◌, ◌<◌, ◌≤◌, IfOk};
ghost use Rattle.nb_host.specs.Memory.{contents_of};
ghost use Rattle.nb_cache.specs.InStep.{IsCoherent, IsInStep};
ghost use Rattle.bench.specs.Rising.{Rises, Rises-prop};

mod generated;

use generated::{BODIES, push_bodies, sort_bodies};
use nb_cache::Cache;
use nb_host::{Host, MemoryHost, PageName};
use nb_order::body_at;
use nb_record::BODIES_PER_PAGE;
use std::alloc::{AllocError, Global};
use std::test::Fail;
use std::time::Instant;

const FILE: u64 = 3;

const PAGE_LENGTH: usize = 4096;
/// The look-ups of a try: a whole number of sweeps at each size.
const LOOK_UPS: u32 = 10 * 65536;
/// Each time is the least of so many.
const TRIES: u64 = 5;

const SEED: u64 = 88172645463325252;

/// So many bodies are pushed.
const COUNT: u64 = 100_000;

#[derive(Drop)]
struct Random {
    state: u64,
}

impl Random {
    fn below(&mut self, end: u32) -> u32
        requires { 0 < end }
        ensures { result < end }
    {
        let a = self.state ^ (self.state << 13);
        let b = a ^ (a >> 7);
        self.state = b ^ (b << 17);
        ((self.state >> 32) % u64::from(end)) as u32
    }
}

fn name_of(page: u32) -> PageName
    ensures { result ≡ record { file = 3; page = page } }
{
    PageName {
        file: FILE,
        page: u64::from(page),
    }
}

/// Names of pages in rising order.
#[derive(Drop)]
struct Group {
    names: Vec<PageName>,
    first: u64,
    ghost rises: { Rises first names.items } by { Rises-prop first names.items },
}

impl Group {
    fn new(alloc: Global) -> Group {
        Group {
            names: Vec::new(alloc),
            first: u64::MAX,
        }
    }

    /// Puts a page before the others, if that is its place.
    fn push_front(&mut self, page: u32) -> Result<(), AllocError> {
        let name = name_of(page);
        if name.page < self.first {
            self.names.insert(0, name)?;
            self.first = name.page;
        }
        Ok(())
    }
}

/// The look-ups of a try.
#[derive(Drop)]
enum Work {
    /// Of pages that are resident.
    LookUps(Vec<u32>),
    /// Of pages that are fetched one by one.
    Fetches(Vec<u32>),
    /// Of pages that are fetched group by group.
    Groups(Vec<Group>),
}

#[derive(Clone, Copy)]
enum Pattern {
    Resident,
    Group,
    Sweep,
    Mix,
}

impl Pattern {
    fn name(self) -> &'static str {
        match self {
            Pattern::Resident => "resident",
            Pattern::Group => "group",
            Pattern::Sweep => "sweep",
            Pattern::Mix => "mix",
        }
    }

    /// How many of so many look-ups read, where that is certain.
    fn reads(self, look_ups: u64) -> Option<u64> {
        match self {
            Pattern::Resident | Pattern::Group => Some(0),
            Pattern::Sweep => Some(look_ups),
            Pattern::Mix => None,
        }
    }

    /// The look-ups of a try, for a cache of so many pages.
    fn work(self, alloc: Global, pages: u32, random: &mut Random) -> Result<Work, AllocError>
        requires least { 4 ≤ pages }
        requires most { pages ≤ 2 ^ 18 }
    {
        match self {
            Pattern::Resident => Ok(Work::LookUps(anywhere(alloc, pages, random)?)),
            Pattern::Group => Ok(Work::Groups(groups(alloc, pages, random)?)),
            Pattern::Sweep => Ok(Work::Fetches(sweep(alloc, pages + pages / 4)?)),
            Pattern::Mix => Ok(Work::Fetches(mix(alloc, pages, random)?)),
        }
    }
}

fn anywhere(alloc: Global, pages: u32, random: &mut Random) -> Result<Vec<u32>, AllocError>
    requires { 0 < pages }
{
    let mut order = Vec::new(alloc);
    for _ in 0..LOOK_UPS {
        order.push(random.below(pages))?;
    }
    Ok(order)
}

fn sweep(alloc: Global, pages: u32) -> Result<Vec<u32>, AllocError>
    requires { 0 < pages }
{
    let mut order = Vec::new(alloc);
    for step in 0..LOOK_UPS {
        order.push(step % pages)?;
    }
    Ok(order)
}

/// Seven of eight are among the first half as many pages as the cache has, one is anywhere in the file.
fn mix(alloc: Global, pages: u32, random: &mut Random) -> Result<Vec<u32>, AllocError>
    requires least { 4 ≤ pages }
    requires most { pages ≤ 2 ^ 18 }
{
    let mut order = Vec::new(alloc);
    for _ in 0..LOOK_UPS {
        let is_hot = random.below(8) < 7;
        let end = if is_hot { pages / 2 } else { 2 * pages };
        order.push(random.below(end))?;
    }
    Ok(order)
}

/// Groups of 64 pages, or of all where the cache has fewer.
fn groups(alloc: Global, pages: u32, random: &mut Random) -> Result<Vec<Group>, AllocError>
    requires { 0 < pages }
{
    let count = pages.min(64);
    let mut groups = Vec::new(alloc);
    for _ in 0..LOOK_UPS / count {
        groups.push(spread(alloc, count, pages / count, random)?)?;
    }
    Ok(groups)
}

/// One page of each of so many stretches of so many pages.
fn spread(alloc: Global, count: u32, width: u32, random: &mut Random) -> Result<Group, AllocError>
    requires { 0 < width }
{
    let mut group = Group::new(alloc);
    for stretch in (0..count).rev() {
        let start = stretch.saturating_mul(width);
        group.push_front(start.saturating_add(random.below(width)))?;
    }
    Ok(group)
}

/// The bytes of so many pages. The first of a page is the page's number modulo 251.
fn bytes_of(alloc: Global, pages: u32) -> Result<Vec<u8>, AllocError>
    requires { pages ≤ 2 ^ 19 }
{
    let mut bytes = Vec::with_capacity(alloc, pages as usize * PAGE_LENGTH)?;
    let mut page = [0; PAGE_LENGTH];
    for number in 0..pages {
        page[0] = (number % 251) as u8;
        bytes.extend_from_slice(&page)?;
    }
    Ok(bytes)
}

/// A file, and a cache for its host.
#[derive(Drop)]
struct Storage {
    host: MemoryHost,
    cache: Cache,
    ghost some: { 1 ≤ cache.pages },
}

impl Storage {
    /// A file of twice as many pages as the cache has.
    fn new(alloc: Global, pages: u32) -> Result<Storage, Fail>
        requires least { 4 ≤ pages }
        requires most { pages ≤ 2 ^ 18 }
        ensures { IfOk result (λ s. IsCoherent s.cache (contents_of s.host)) }
    {
        let mut host = MemoryHost::new(alloc);
        host.with_file(FILE, &bytes_of(alloc, 2 * pages)?)?;
        let cache = Cache::new(alloc, pages as usize)?;
        Ok(Storage { host, cache })
    }

    /// The first byte of a page, or None where it isn't resident.
    fn look_up(&self, name: PageName) -> Option<u64> {
        let bytes = self.cache.lent(name)?;
        Some(u64::from(bytes[0]))
    }

    /// Fetches a page and looks it up.
    fn fetch(&mut self, page: u32) -> Option<u64>
        requires { IsCoherent self.old.cache (contents_of self.old.host) }
        ensures { IsCoherent self.new.cache (contents_of self.new.host) }
    {
        let name = name_of(page);
        self.cache.fetch(&mut self.host, &[name]).ok()?;
        self.look_up(name)
    }

    /// Fetches the pages of a group, looks them up, and answers the sum of their first bytes.
    fn fetch_group(&mut self, group: &Group) -> Option<u64>
        requires { IsCoherent self.old.cache (contents_of self.old.host) }
        ensures { IsCoherent self.new.cache (contents_of self.new.host) }
    {
        if group.names.len() > self.cache.pages() {
            return None;
        }
        self.cache.fetch(&mut self.host, &group.names).ok()?;
        let mut sum = 0u64;
        for name in &group.names {
            sum = sum.wrapping_add(self.look_up(*name)?);
        }
        Some(sum)
    }

    fn look_all_up(&self, pages: &[u32]) -> Option<u64> {
        let mut sum = 0u64;
        for page in pages {
            sum = sum.wrapping_add(self.look_up(name_of(*page))?);
        }
        Some(sum)
    }

    fn fetch_all(&mut self, pages: &[u32]) -> Option<u64>
        requires { IsCoherent self.old.cache (contents_of self.old.host) }
        ensures { IsCoherent self.new.cache (contents_of self.new.host) }
    {
        let mut sum = 0u64;
        for page in pages {
            sum = sum.wrapping_add(self.fetch(*page)?);
        }
        Some(sum)
    }

    fn fetch_groups(&mut self, groups: &[Group]) -> Option<u64>
        requires { IsCoherent self.old.cache (contents_of self.old.host) }
        ensures { IsCoherent self.new.cache (contents_of self.new.host) }
    {
        let mut sum = 0u64;
        for group in groups {
            sum = sum.wrapping_add(self.fetch_group(group)?);
        }
        Some(sum)
    }

    /// Does the work, and answers the sum of the first bytes of all pages that were looked up.
    fn run(&mut self, work: &Work) -> Option<u64>
        requires { IsCoherent self.old.cache (contents_of self.old.host) }
        ensures { IsCoherent self.new.cache (contents_of self.new.host) }
    {
        match work {
            Work::LookUps(pages) => self.look_all_up(pages),
            Work::Fetches(pages) => self.fetch_all(pages),
            Work::Groups(groups) => self.fetch_groups(groups),
        }
    }
}

/// What a try took, and what it found.
#[derive(Drop)]
struct Try {
    nanos: u128,
    reads: u64,
    sum: u64,
}

fn try_once(rt: &HostRuntime, storage: &mut Storage, work: &Work) -> Result<Try, Fail>
    requires { IsCoherent storage.old.cache (contents_of storage.old.host) }
    ensures { IsCoherent storage.new.cache (contents_of storage.new.host) }
{
    let before = storage.host.reads();
    let start = Instant::now(rt)?;
    let found = storage.run(work);
    let nanos = start.elapsed(rt)?.as_nanos();
    let sum = found.ok_or("a page that was looked up isn't resident")?;
    let reads = storage.host.reads().wrapping_sub(before);
    Ok(Try { nanos, reads, sum })
}

fn time(rt: &HostRuntime, storage: &mut Storage, pattern: Pattern, pages: u32) -> Result<(), Fail>
    requires least { 4 ≤ pages }
    requires most { pages ≤ 2 ^ 18 }
    requires in_step { IsCoherent storage.old.cache (contents_of storage.old.host) }
    ensures { IsCoherent storage.new.cache (contents_of storage.new.host) }
{
    let alloc = rt.alloc();
    let mut random = Random { state: SEED };
    // In the first try the cache settles. It isn't counted.
    try_once(rt, storage, &pattern.work(alloc, pages, &mut random)?)?;
    let mut all = Try {
        nanos: u128::MAX,
        reads: 0,
        sum: 0,
    };
    for _ in 0..TRIES {
        let one = try_once(rt, storage, &pattern.work(alloc, pages, &mut random)?)?;
        all.nanos = all.nanos.min(one.nanos);
        all.reads = all.reads.wrapping_add(one.reads);
        all.sum = all.sum.wrapping_add(one.sum);
    }
    tell(rt, pattern, pages, &all)
}

/// Prints the line, and sees that the look-ups read as often as they must.
fn tell(rt: &HostRuntime, pattern: Pattern, pages: u32, all: &Try) -> Result<(), Fail> {
    let name = pattern.name();
    let tenths = all.nanos.saturating_mul(10) / u128::from(LOOK_UPS);
    let nanos = tenths / 10;
    let tenth = tenths % 10;
    let look_ups = u64::from(LOOK_UPS) * TRIES;
    let reads = all.reads;
    let sum = all.sum;
    println!(rt;
        "{name} {pages} pages: {nanos}.{tenth}, {reads} reads in {look_ups} look-ups (sum {sum})"
    )?;
    match pattern.reads(look_ups) {
        Some(must) if must != reads => Err(Fail::new(
            "the look-ups didn't read as often as they must",
        )),
        _ => Ok(()),
    }
}

/// Fetches the first pages of the file.
fn fill(storage: &mut Storage, pages: u32) -> Result<(), Fail>
    requires { IsCoherent storage.old.cache (contents_of storage.old.host) }
    ensures { IsCoherent storage.new.cache (contents_of storage.new.host) }
{
    for page in 0..pages {
        storage.fetch(page).ok_or("a page isn't fetched")?;
    }
    Ok(())
}

fn measure(rt: &HostRuntime, pages: u32) -> Result<(), Fail>
    requires least { 4 ≤ pages }
    requires most { pages ≤ 2 ^ 18 }
{
    let mut storage = Storage::new(rt.alloc(), pages)?;
    fill(&mut storage, pages)?;
    time(rt, &mut storage, Pattern::Resident, pages)?;
    time(rt, &mut storage, Pattern::Group, pages)?;
    time(rt, &mut storage, Pattern::Sweep, pages)?;
    time(rt, &mut storage, Pattern::Mix, pages)
}

/// Reads the sorted bodies, and answers the sum of their numbers.
fn read_back<H: Host>(host: &mut H, cache: &mut Cache) -> Result<u64, Fail>
    requires in_step { IsInStep H.meaning cache.old host.old }
    ensures { IsInStep H.meaning cache.new host.new }
{
    let mut sum = 0u64;
    for index in 0..COUNT {
        let body = body_at(host, cache, BODIES, index)?;
        sum = sum.wrapping_add(body.id);
    }
    Ok(sum)
}

/// How many of a host's calls were no reads. Where bodies are pushed no call asks for a file's length.
fn writes(host: &MemoryHost) -> u64 {
    host.calls().wrapping_sub(host.reads())
}

/// What pushes took and wrote, and what the sort wrote.
#[derive(Clone, Copy)]
struct Pushes {
    nanos: u128,
    pushed: u64,
    sorted: u64,
}

/// Pushes bodies one by one, sorts them and reads them back.
fn measure_pushes(rt: &HostRuntime, pages: usize) -> Result<(), Fail>
    requires least { 4 ≤ pages }
    requires most { pages ≤ 2 ^ 18 }
{
    let mut host = MemoryHost::new(rt.alloc());
    let mut cache = Cache::new(rt.alloc(), pages)?;
    let start = Instant::now(rt)?;
    push_bodies(&mut host, &mut cache, COUNT)?;
    cache.flush(&mut host)?;
    let nanos = start.elapsed(rt)?.as_nanos();
    let pushed = writes(&host);
    sort_bodies(rt.alloc(), &mut host, &mut cache, COUNT)?;
    cache.flush(&mut host)?;
    // One call empties the file that is sorted into.
    let sorted = writes(&host).wrapping_sub(pushed).wrapping_sub(1);
    if read_back(&mut host, &mut cache)? != COUNT * (COUNT + 1) / 2 {
        return Err(Fail::new("the bodies that are read back are others"));
    }
    tell_pushes(rt, pages, &Pushes { nanos, pushed, sorted })
}

/// Prints the line of the pushes, and sees that they wrote no more than they must.
fn tell_pushes(rt: &HostRuntime, pages: usize, pushes: &Pushes) -> Result<(), Fail> {
    let nanos = pushes.nanos / u128::from(COUNT);
    let pushed = pushes.pushed;
    let sorted = pushes.sorted;
    let least = COUNT.div_ceil(BODIES_PER_PAGE);
    println!(rt;
        "push {pages} pages: {nanos}, {pushed} writes and sorted {sorted}, of {least} at least each"
    )?;
    if pushed != least || sorted != least {
        return Err(Fail::new("a page is written more than once"));
    }
    Ok(())
}

fn main(rt: HostRuntime) -> Result<(), Fail> {
    measure_pushes(&rt, 4)?;
    measure_pushes(&rt, 256)?;
    measure_pushes(&rt, 65536)?;
    measure(&rt, 4)?;
    measure(&rt, 256)?;
    measure(&rt, 65536)
}
PROGRAM
run_bench 'push|resident|group|sweep|mix'
