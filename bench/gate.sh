#!/bin/sh
# Runs the whole check from nothing, `rt ci --anew`, on a copy of the crates, and prints the processor seconds that
# it took: for each crate its proof, the proof of its tests and its edits; what the rest took; then each edit. With
# names of crates, it runs these and those below them alone. At the end stand the last lines of what the check said.
# It takes as long as the check does, and all processors.
set -eu
top=$(cd "$(dirname "$0")/.." && pwd)
work=$(mktemp -d)
trap 'rm -rf "$work"' EXIT
mkdir "$work/copy"
git init -q "$work/copy"
cp "$top/crates.txt" "$top/HANDLES" "$work/copy/"
(cd "$top" && tar -cf - --exclude='crates/*/out' crates) | tar -xf - -C "$work/copy"
cd "$work/copy"
python3 - "$work/log" "$@" <<'PYTHON'
"""Watches the prover's processes below `rt ci`, and adds up what each of them took."""

import collections
import os
import subprocess
import sys
import time

CLOCK = os.sysconf("SC_CLK_TCK")
PAUSE = 0.5  # seconds from one look at the processes to the next
UNCHANGED = "(the crate as it stands)"


def processes():
    """By number: its parent, its start, and its processor seconds with those of children that have ended."""
    found = {}
    for name in filter(str.isdecimal, os.listdir("/proc")):
        try:
            with open(f"/proc/{name}/stat") as file:
                fields = file.read().rpartition(")")[2].split()
        except OSError:
            continue
        found[int(name)] = int(fields[1]), int(fields[19]), sum(map(int, fields[11:15])) / CLOCK
    return found


def text_of(path):
    with open(path, encoding="utf-8") as file:
        return file.read()


def edits_of(crate):
    """By name: the files that an edit changes, with their texts."""
    folder, edits = f"crates/{crate}/must-fail", {}
    for name in sorted(os.listdir(folder)) if os.path.isdir(folder) else ():
        name, ending = os.path.splitext(name)
        if ending != ".edit":
            continue
        texts, path, old = {}, "", ""
        for line in text_of(f"{folder}/{name}.edit").splitlines():
            word, _, rest = line.partition(":")
            if word == "file":
                path = rest.strip()
            elif word == "old":
                old = rest[1:]
            elif word == "new":
                whole = texts.get(path) or text_of(f"crates/{crate}/{path}")
                texts[path] = whole.replace(old, rest[1:])
        edits[name] = texts
    return edits


def edit_in(room, crate):
    """The name of the edit that was made in a copy of the crate."""
    for name, texts in edits_of(crate).items():
        if all(text_of(f"{room}/{path}") == text for path, text in texts.items()):
            return name
    return UNCHANGED


def job_of(number):
    """What a process of the prover does: the crate, and its proof, its tests or the name of an edit."""
    try:
        with open(f"/proc/{number}/cmdline", "rb") as file:
            words = file.read().decode().split("\0")
        if os.path.basename(words[0]) != "rattle" or "--crate-name" not in words:
            return None
        crate, room = words[words.index("--crate-name") + 1], os.readlink(f"/proc/{number}/cwd")
        if os.path.basename(room).startswith("rt-edit-"):
            return crate, f"edit {edit_in(room, crate)}"
    except OSError:
        return None
    return crate, "tests" if "--test" in words else "proof"


def watch(command):
    """The seconds of each job of the prover below a command that runs, by job and process."""
    jobs, took = {}, {}
    while command.poll() is None:
        found = processes()
        below = collections.defaultdict(list)
        for number, (parent, _, _) in found.items():
            below[parent].append(number)
        stack = [(command.pid, None)]
        now = collections.Counter()
        while stack:
            number, key = stack.pop()
            if key is None and number in found:
                name = number, found[number][1]
                jobs[name] = jobs.get(name) or job_of(number)
                key = (jobs[name], name) if jobs[name] else None
            if key and number in found:
                now[key] += found[number][2]
            stack += [(child, key) for child in below[number]]
        for key, seconds in now.items():
            took[key] = max(took.get(key, 0), seconds)
        time.sleep(PAUSE)
    return took


def table(took, used, wall):
    seconds = collections.defaultdict(collections.Counter)
    for ((crate, what), _), spent in took.items():
        seconds[crate][what] += spent
    known = sum(sum(each.values()) for each in seconds.values())
    print(f"{'processor seconds':18} {'proof':>7} {'tests':>7} {'edits':>7} {'all':>7}")
    for crate, each in sorted(seconds.items(), key=lambda it: -sum(it[1].values())):
        edits = sum(spent for what, spent in each.items() if what.startswith("edit"))
        print(f"{crate:18} {each['proof']:7.0f} {each['tests']:7.0f} {edits:7.0f} {sum(each.values()):7.0f}")
    print(f"{'the rest':18} {used - known:31.0f}    compilers, tests and programs that run, rt itself")
    print(f"{'all':18} {used:31.0f}    or {used / 60:.0f} minutes, in {wall / 60:.0f} minutes by the clock")
    edits = [(spent, crate, what) for crate, each in seconds.items() for what, spent in each.items()]
    for spent, crate, what in sorted(edits, reverse=True):
        if what.startswith("edit"):
            print(f"{spent:7.0f} {crate}/{what[5:]}")


def main(log, names):
    start = time.monotonic()
    with open(log, "w") as file:
        words = ["rt", "ci", "--anew", *names]
        command = subprocess.Popen(words, stdin=subprocess.DEVNULL, stdout=file, stderr=file)
        took = watch(command)
    of_children = os.times()
    used = of_children.children_user + of_children.children_system
    table(took, used, time.monotonic() - start)
    print(*text_of(log).splitlines()[-3:], sep="\n")
    return command.returncode


sys.exit(main(sys.argv[1], sys.argv[2:]))
PYTHON
