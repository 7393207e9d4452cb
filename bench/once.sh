#!/bin/sh
# Times `nbody once` on generated bodies, and prints the seconds and the peak memory: one tick of 4096 bodies, the most
# that `once` takes, and 1000 ticks of 64 bodies. The bodies are made here, in a folder of their own, and not by the program.

root=$(CDPATH='' cd -- "$(dirname -- "$0")/.." && pwd) || exit 1
folder=$(mktemp -d) || exit 1
trap 'rm -rf "$folder"' EXIT
cd "$folder" || exit 1

# No words are no command: this only has the program built before the clock starts.
"$root/nbody" >/dev/null 2>"$folder/built"
if [ $? -ne 1 ]; then
    cat "$folder/built" >&2
    exit 1
fi

make_bodies() {
    python3 - "$1" <<'PYTHON'
import struct
import sys

SEED, BODIES = 1, int(sys.argv[1])
MASK = 2**64 - 1


def splitmix64(state):
    """The words of SplitMix64 (Steele, Lea and Flood 2014)."""
    while True:
        state = (state + 0x9E3779B97F4A7C15) & MASK
        word = state
        word = ((word ^ (word >> 30)) * 0xBF58476D1CE4E5B9) & MASK
        word = ((word ^ (word >> 27)) * 0x94D049BB133111EB) & MASK
        yield word ^ (word >> 31)


def body(number, words):
    """A body in a cube of side 2^26 in the middle of the box, with a speed of at most 2048 on each axis."""
    mass = 1 + next(words) % 1000
    position = [2**39 - 2**25 + next(words) // 2**38 for _ in range(3)]
    velocity = [next(words) // 2**52 - 2048 for _ in range(3)]
    return struct.pack("<QII3Q3q", number, mass, 0, *position, *velocity)


words = splitmix64(SEED)
with open("init.nbs", "wb") as file:
    file.write(b"FNBSNAP1" + struct.pack("<QQQ", BODIES, 0, 0))
    file.write(b"".join(body(i + 1, words) for i in range(BODIES)))
PYTHON
}

time_once() {
    python3 - "$root/nbody" "$1" <<'PYTHON'
import resource
import subprocess
import sys
import time

start = time.monotonic()
status = subprocess.call([sys.argv[1], "once", sys.argv[2]])
seconds = time.monotonic() - start
used = resource.getrusage(resource.RUSAGE_CHILDREN)
print(f"seconds {seconds:.2f}, of the processor {used.ru_utime:.2f}, peak memory at most {used.ru_maxrss} kB")
sys.exit(status)
PYTHON
}

cat >params <<'PARAMS'
grav = 1000000000
theta_num = 1
theta_den = 2
soft = 1
leaf = 8
every = 100
PARAMS
make_bodies 4096 && time_once 1 && make_bodies 64 && time_once 1000
