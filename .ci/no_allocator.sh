#!/bin/sh
# A tick can't read its slot into a vector: it takes no allocator, and nothing that it is handed gives one out. Such a body doesn't
# compile, so no edit in must-fail/ can show it. This does, on a copy of the crates: where a tick is handed an allocator too, the
# body that reads the slot into a vector and puts that through the plain tick compiles, and without, each way to come by one is an
# error at its line.
set -u
top=$(CDPATH='' cd -- "$(dirname -- "$0")/.." && pwd) || exit 1
work=$(mktemp -d) || exit 1
trap 'rm -rf "$work"' EXIT
for name in nb_model nb_fixed nb_key nb_host nb_record nb_cache nb_order nb_cell nb_tree nb_walk nb_force nb_tick; do
    mkdir -p "$work/crates/$name"
    for part in src specs proofs; do
        if [ -d "$top/crates/$name/$part" ]; then
            cp -R "$top/crates/$name/$part" "$work/crates/$name/"
        fi
    done
    grep "^$name:" "$top/crates.txt" >>"$work/crates.txt"
done
cd "$work/crates/nb_tick" || exit 1
cp src/leapfrog.rt tick

# In place of the crate's tests, which call a tick as it is, one that only has the crate compiled.
rm -rf src/tests.rt proofs/tests
cat >src/tests.rt <<'TEST'
//! That the crate compiles.

#[test]
fn compiles() {}
TEST

# Has the tick begin with these lines.
begin_with() {
    awk -v lines="$1" '
        { print }
        /^pub fn tick</ { inside = 1 }
        inside && /^\{$/ { print lines; inside = 0 }
    ' tick >src/leapfrog.rt
}

begin_with '    let mut bodies = Vec::new(alloc);
    for index in 0..count {
        let _ = bodies.push(nb_order::body_at(host, cache, from.file(), index)?);
    }
    let _ = nb_fixed::plain_tick(alloc, params, &mut bodies, way);'
sed -i 's/^pub fn tick<H: Host>($/pub fn tick<H: Host>(\n    alloc: std::alloc::Global,/' src/leapfrog.rt
if ! rt try --test >out 2>&1 || ! grep -q 'tests::compiles .* ok' out; then
    cat out
    echo "no allocator: a tick that is handed one does not compile"
    exit 1
fi

# Each way, and the error that there has to be.
begin_with '    let _ = Vec::<nb_model::Body, _>::new(alloc); // unknown-name
    let _ = Vec::<nb_model::Body, _>::new(sorter.alloc); // private-field
    let _ = Vec::<nb_model::Body, _>::new(builder.waiting.allocator()); // private-field
    let _ = Vec::<nb_model::Body, _>::new(cache.frames.allocator()); // private-field
    let _ = Vec::<nb_model::Body, _>::new(pool.wants.allocator()); // private-field
    let _ = Vec::<nb_model::Body, _>::new(&*sorter); // unsatisfied-bound
    let _ = Vec::<nb_model::Body, _>::new(host.alloc()); // unknown-method
    let _ = Vec::<nb_model::Body, _>::new(std::alloc::Global::new(std::rt::Memory { seal: () })); // private-field'
if rt try --test >out 2>&1; then
    cat out
    echo "no allocator: a tick comes by one"
    exit 1
fi
grep -n 'Vec::<nb_model::Body, _>::new' src/leapfrog.rt | sed 's/:.*\/\/ / /' | while read -r line error; do
    if ! grep -q "src/leapfrog.rt:$line:.*error\[$error\]" out; then
        cat out
        sed -n "${line}p" src/leapfrog.rt
        echo "no allocator: this is refused for another reason, or not at all"
        exit 1
    fi
done || exit 1
echo "no allocator: a tick comes by none"
