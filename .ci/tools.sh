#!/bin/sh
# The tests of the tools that need more than tools/test_bodies.py, by a Python that has numpy and matplotlib. Where none has,
# they are installed by apt if that may be. If not, the tests that need them are skipped, and the last lines say so. The
# one of a film needs ffmpeg, which is large and isn't installed.
cd "$(dirname "$0")/../tools" || exit 1
debians=/usr/bin/python3

has_both() {
    "$1" -c 'import numpy, matplotlib' 2>/dev/null
}

install() {
    [ "$(id -u)" = 0 ] && command -v apt-get >/dev/null || return 1
    echo "tools: installing python3-numpy and python3-matplotlib" >&2
    { timeout 300 apt-get update && timeout 600 apt-get install -y --no-install-recommends \
        python3-numpy python3-matplotlib; } >/dev/null 2>&1
}

python=python3
if ! has_both python3; then
    has_both "$debians" || install
    if has_both "$debians"; then
        python=$debians
    fi
fi
tests=$(ls test_*.py | grep -v '^test_bodies.py$' | sed 's/\.py$//')
# shellcheck disable=SC2086
"$python" -B -m unittest $tests || exit 1
if ! has_both "$python"; then
    echo "tools: SKIPPED every test that needs numpy or matplotlib: apt-get install -y python3-numpy python3-matplotlib" >&2
fi
if ! command -v ffmpeg >/dev/null; then
    echo "tools: SKIPPED the test of a film by ffmpeg: apt-get install -y ffmpeg" >&2
fi
