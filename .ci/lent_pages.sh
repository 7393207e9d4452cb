#!/bin/sh
# A lent page can't be held across a call of the cache that may take its memory. The borrow checker refuses such a
# program before the prover sees it, so no edit in must-fail/ can show it. This does, on a copy of the crates: a page that
# is let go before each of the four calls compiles and runs, and one that is held across it is a borrow error at that line.
set -u
top=$(CDPATH='' cd -- "$(dirname -- "$0")/.." && pwd) || exit 1
work=$(mktemp -d) || exit 1
trap 'rm -rf "$work"' EXIT
for name in nb_model nb_host nb_cache; do
    mkdir -p "$work/crates/$name"
    for part in src specs proofs; do
        if [ -d "$top/crates/$name/$part" ]; then
            cp -R "$top/crates/$name/$part" "$work/crates/$name/"
        fi
    done
done
grep -E '^nb_(model|host|cache):' "$top/crates.txt" >"$work/crates.txt"
printf '#[cfg(test)]\nmod held;\n' >>"$work/crates/nb_cache/src/lib.rt"
cd "$work/crates/nb_cache" || exit 1

# Writes a test that makes the call with a lent page before it, and then does what is given.
write_test() {
    cat >src/held.rt <<TEST
//! A page that is lent before a call.

use crate::Cache;
use nb_host::{MemoryHost, PageName};
use std::test::Fail;

#[test]
fn held(rt: HostRuntime) -> Result<(), Fail> {
    let name = PageName { file: 3, page: 0 };
    let bytes = [1; 4096];
    let mut host = MemoryHost::new(rt.alloc());
    let mut cache = Cache::new(rt.alloc(), 4)?;
    let held = cache.lent(name);
    let _ = held.is_some();
    let _ = $1;
    $2
    Ok(())
}
TEST
}
line=$(write_test call use && grep -n 'let _ = call' src/held.rt | cut -d: -f1)

for call in 'cache.fetch(&mut host, &[name])' 'cache.put(&mut host, name, &bytes)' \
    'cache.flush(&mut host)' 'cache.empty(&mut host, 3)'; do
    write_test "$call" ''
    if ! rt try --test >out 2>&1 || ! grep -q 'held::held .* ok' out; then
        cat out
        echo "lent pages: $call after a page was let go does not compile and run"
        exit 1
    fi
    write_test "$call" 'let _ = held.is_some();'
    if rt try --test >out 2>&1 || ! grep -q "src/held.rt:$line:.*borrow-e0502" out; then
        cat out
        echo "lent pages: $call compiles while a page is held"
        exit 1
    fi
done
echo "lent pages: none can be held across fetch, put, flush or empty"
