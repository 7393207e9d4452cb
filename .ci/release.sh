#!/bin/sh
# The kept program is the one that `rt ci` just built, byte for byte, and its checksums are those of this checkout.
cd "$(dirname "$0")/.." || exit 1
built=crates/nbody/out/nbody
kept=release/nbody-x86_64-linux

fail() {
    echo "release: $1" >&2
    exit 1
}

stale="run release/refresh, which keeps the program that rt ci just built, and commit release/"
[ -f "$built" ] || fail "rt ci left no program $built"
[ -x "$kept" ] || fail "there is no program $kept that can be run: $stale"
cmp "$built" "$kept" || fail "$kept isn't the program that was proved and built: $stale"
sums=$(release/sums) || fail "the checksums can't be made"
kit=$(rt version) || fail "rt doesn't say its version"
[ "$(printf '%s\n# built by %s' "$sums" "$kit")" = "$(cat release/SHA256SUMS)" ] ||
    fail "release/SHA256SUMS doesn't say this program, these files and this kit: $stale"
echo "release: the kept program is the one that was proved and built"
