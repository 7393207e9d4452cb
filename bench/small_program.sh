# Sourced by the scripts that time one crate: they build a small proved program, the crate `bench`, over this checkout's
# crates, in a temporary folder that goes when the script ends. It sets `bench`, the folder of that crate.

top=$(cd "$(dirname "$0")/.." && pwd)
work=$(mktemp -d)
trap 'rm -rf "$work"' EXIT
bench=$work/crates/bench

# Copies the crates of this checkout with these names, and has `bench` stand on them.
stand_on() {
    mkdir -p "$bench/src" "$bench/specs" "$bench/proofs"
    : >"$bench/specs/Lib.antt"
    for name in "$@"; do
        mkdir "$work/crates/$name"
        for part in src specs proofs; do
            if [ -d "$top/crates/$name/$part" ]; then
                cp -R "$top/crates/$name/$part" "$work/crates/$name/"
            fi
        done
        grep "^$name:" "$top/crates.txt" >>"$work/crates.txt"
    done
    echo "bench: $*" >>"$work/crates.txt"
}

# Proves, builds and runs `bench`, and prints the lines that begin with one of these words: `root|pull`, say.
run_bench() {
    cd "$bench"
    rt run >"$work/out" 2>"$work/errors" || {
        cat "$work/out" "$work/errors"
        exit 1
    }
    grep -E "^($1) " "$work/out"
}
