"""The files of a run of nbody, for the tools beside it: snapshots, the parameter text and the journal.

Python's standard library is all that it needs. The forms of the files are those of docs/FORMATS.md.
"""

import contextlib
import importlib
import importlib.util
import os
import re
import struct
import subprocess
import sys
from collections import namedtuple

HEADER = struct.Struct("<c7sQQQ")  # the gate, the form's name, the count of bodies, the time, zeros
RECORD = struct.Struct("<QII3Q3q")  # id, mass, out, position, velocity
GATE = b"F"
FORM = b"NBSNAP1"

BOX_SIDE = 2**40
MIDDLE = BOX_SIDE // 2
SPEED_LIMIT = 2**61  # a body that isn't out is slower than this on each axis
HEAVIEST = 2**32 - 1
MOST_BODIES = 2**24
GM_LIMIT = 2**60  # grav times the mass of all bodies is below this
MOST_TICKS = 2**40

Body = namedtuple("Body", "id mass x y z vx vy vz out")
POSITION = ("x", "y", "z")
VELOCITY = ("vx", "vy", "vz")

# The parameters in the order in which they are written, each with what stands where no option sets it.
USUAL = {"grav": 10**9, "theta": (1, 2), "soft": 1, "leaf": 8, "every": 100, "edge": "open"}
RANGES = {
    "grav": (0, GM_LIMIT - 1),
    "theta_num": (0, 32768),
    "theta_den": (1, 32768),
    "soft": (1, BOX_SIDE - 1),
    "leaf": (1, 32),
    "every": (1, MOST_TICKS),
}

PAGE = 4096
JOURNAL_GATE = b"S"
ENTRY = struct.Struct("<cc6sQQQ")  # the gate, the kind, zeros, the target or the tick's number, out, zeros
PAGE_0 = struct.Struct("<c7s6QQQQQ")  # the gate, the form's name, six parameters, bodies, time, out, edge

# Where apt puts the packages that it is asked for below.
DEBIANS_PYTHON = "/usr/bin/python3"


class Refused(Exception):
    """Why nothing is written, in one line."""


# What a user is told of a file for these errors. Of others the system's words are told.
FILE_ERRORS = {
    FileNotFoundError: "isn't there",
    IsADirectoryError: "is a folder, and has to be a file",
    NotADirectoryError: "is no folder",
    FileExistsError: "is there, and is no folder",
    PermissionError: "may not be opened or written",
}


def buffer_output():
    """Has standard output take all that it is given. Where Python is told not to buffer it, a short write would lose the rest."""
    if sys.stdout is not None:
        sys.stdout = open(sys.stdout.fileno(), "w", encoding=sys.stdout.encoding, closefd=False)


def drop_output():
    """Has standard output lose what it couldn't take, so that Python doesn't try again as it ends."""
    with contextlib.suppress(OSError, ValueError, AttributeError), open(os.devnull, "wb") as nowhere:
        os.dup2(nowhere.fileno(), sys.stdout.fileno())


def reason_of(why):
    """The line that tells a user of a refusal, or of an error of a file, which is named."""
    if not isinstance(why, OSError) or why.filename is None:
        return str(why)
    return f"{why.filename} {FILE_ERRORS.get(type(why), f'fails: {why.strerror}')}"


def require(*names):
    """The modules of these names, which aren't of the standard library.

    Where the Python that runs lacks one and Debian's has them all, Debian's runs the tool in its place.
    """
    missing = [name for name in names if importlib.util.find_spec(name) is None]
    if missing and sys.executable != DEBIANS_PYTHON and os.path.exists(DEBIANS_PYTHON):
        probe = [DEBIANS_PYTHON, "-c", f"import {', '.join(names)}"]
        if subprocess.run(probe, stderr=subprocess.DEVNULL).returncode == 0:
            os.execv(DEBIANS_PYTHON, [DEBIANS_PYTHON, *sys.argv])
    if missing:
        packages = " ".join(f"python3-{name}" for name in missing)
        raise Refused(f"{sys.executable} has no {' and no '.join(missing)}: apt-get install -y {packages}")
    return [importlib.import_module(name) for name in names]


def whole_number(text, least, greatest, what):
    text = text.strip()
    if not re.fullmatch("-?[0-9]{1,100}", text):
        raise Refused(f"{what} is {text!r}, which is no whole number")
    number = int(text)
    if not least <= number <= greatest:
        raise Refused(f"{what} is {number}, and has to be from {least} to {greatest}")
    return number


def range_of(column, is_out):
    """The least and the greatest number of a column. A body that is out may have any velocity."""
    if column == "id":
        return 0, 2**64 - 1
    if column == "mass":
        return 1, HEAVIEST
    if column == "out":
        return 0, 1
    if column in POSITION:
        return 0, BOX_SIDE - 1
    return (-(2**63), 2**63 - 1) if is_out else (1 - SPEED_LIMIT, SPEED_LIMIT - 1)


def header_bytes(count, time):
    return HEADER.pack(GATE, FORM, count, time, 0)


def snapshot_of(bodies, time):
    """The bytes of the snapshot of these bodies, whose ids rise."""
    records = (RECORD.pack(b.id, b.mass, b.out, b.x, b.y, b.z, b.vx, b.vy, b.vz) for b in bodies)
    return header_bytes(len(bodies), time) + b"".join(records)


class Bodies(list):
    """Bodies whose ids rise, as write_run of tables.py takes them; bulk.py has them as an array."""

    @property
    def mass(self):
        return sum(body.mass for body in self)

    def snapshot(self, time):
        """The parts of the bytes of their snapshot."""
        return [snapshot_of(self, time)]


def header_of(data):
    """The count of bodies and the time of a snapshot. A refusal has the words that nbody has for it."""
    if len(data) < HEADER.size:
        raise Refused("short")
    gate, form, count, time, zeros = HEADER.unpack_from(data)
    for is_right, name in (
        (gate == GATE, "unfinished"),
        (form == FORM, "magic"),
        (count <= MOST_BODIES, "count"),
        (zeros == 0, "zeros"),
        (len(data) == HEADER.size + count * RECORD.size, "length"),
    ):
        if not is_right:
            raise Refused(name)
    return count, time


def fault_of(body, last_id):
    """nbody's word for the first field of a body that isn't of the form, or None. `last_id` is the id of the body
    before it, -1 where there is none."""
    for is_right, name in (
        (body.id > last_id, "id order"),
        (body.mass != 0, "mass"),
        (body.out in (0, 1), "flag"),
        (all(place < BOX_SIDE for place in body[2:5]), "place"),
        (body.out == 1 or all(abs(speed) < SPEED_LIMIT for speed in body[5:8]), "speed"),
    ):
        if not is_right:
            return name
    return None


def bodies_of(data):
    """The bodies and the time of a snapshot. A refusal has the words that nbody has for it."""
    _, time = header_of(data)
    bodies, last_id = [], -1
    for index, (number, mass, out, *rest) in enumerate(RECORD.iter_unpack(data[HEADER.size :])):
        body = Body(number, mass, *rest, out)
        fault = fault_of(body, last_id)
        if fault:
            raise Refused(f"{fault} at body {index}")
        bodies.append(body)
        last_id = number
    return bodies, time


def read_snapshot(path, reader=bodies_of):
    """What a reader makes of a snapshot's bytes: by itself the bodies and the time."""
    with open(path, "rb") as file:
        data = file.read()
    try:
        return reader(data)
    except Refused as why:
        raise Refused(f"{path} is no snapshot: {why}") from None


def snapshots_of(folder):
    """The paths of a run's snapshots: init.nbs, those of its ticks in their order, and once.nbs."""
    numbers = {}
    for name in os.listdir(folder):
        found = re.fullmatch(r"snap\.([1-9][0-9]{0,12})\.nbs", name)
        if found:
            numbers[int(found.group(1))] = name
    names = ["init.nbs", *(numbers[number] for number in sorted(numbers)), "once.nbs"]
    paths = [os.path.join(folder, name) for name in names]
    paths = [path for path in paths if os.path.exists(path)]
    if not paths:
        raise Refused(f"{folder} has no snapshot: no init.nbs, snap.*.nbs or once.nbs")
    return paths


def is_unfinished(path):
    """Whether a snapshot is empty, or its gate is still to come."""
    with open(path, "rb") as file:
        return file.read(1) in (b"", b"\0")


def finished(paths, tell):
    """The paths of those snapshots that are finished. `tell` is called with a line for each other: nbody leaves one
    while it writes, where it was stopped, and where it emptied what an earlier run had left under a tick's name.
    """
    unfinished = [path for path in paths if is_unfinished(path)]
    for path in unfinished:
        tell(f"{path} isn't finished, and is passed over")
    if len(unfinished) == len(paths):
        raise Refused("there is no finished snapshot")
    return [path for path in paths if path not in unfinished]


def params_of(given, mass):
    """The parameter text for bodies of this mass together, with what is given in place of the usual."""
    values = {**USUAL, **given}
    grav = values["grav"]
    if grav * mass >= GM_LIMIT:
        most = (GM_LIMIT - 1) // mass
        raise Refused(f"grav {grav} times mass {mass} is not below 2^60: grav can be at most {most}")
    values["theta_num"], values["theta_den"] = values["theta"]
    return "".join(f"{name} = {values[name]}\n" for name in (*RANGES, "edge"))


def read_params(path):
    """The values of a parameter text by their names; `edge` is a word, the others are numbers."""
    with open(path, encoding="ascii", errors="replace", newline="\n") as file:
        lines = [line.strip(" \t\r\n") for line in file]
    values = {}
    for number, line in enumerate(lines, 1):
        if not line or line.startswith("#"):
            continue
        found = re.fullmatch(r"([a-z_]+)[ \t\r]*=[ \t\r]*([0-9]{1,20}|open|wrap)", line)
        name, value = found.groups() if found else ("", "")
        if name not in (*RANGES, "edge") or (name == "edge") == value.isdecimal():
            raise Refused(f"{path}: line {number}")
        if name in values:
            raise Refused(f"{path}: line {number} repeats a name")
        values[name] = value if name == "edge" else int(value)
        if name != "edge" and not RANGES[name][0] <= values[name] <= RANGES[name][1]:
            raise Refused(f"{path}: line {number} is out of range")
    for name in RANGES:
        if name not in values:
            raise Refused(f"{path}: {name} is missing")
    return {"edge": "open", **values}


Leg = namedtuple("Leg", "target")
Tick = namedtuple("Tick", "number time out")
Journal = namedtuple("Journal", "params bodies time out entries")


def journal_of(data):
    """A run's journal, or None where none is started. Damage is told by its first place."""
    if len(data) <= PAGE or data[:1] != JOURNAL_GATE:
        return None
    _, form, *numbers, bodies, time, out, edge = PAGE_0.unpack_from(data)
    params = dict(zip(RANGES, numbers))
    is_right = (
        (form == b"NBJRNL2" and edge in (0, 1) or form == b"NBJRNL1" and edge == 0)
        and all(RANGES[name][0] <= params[name] <= RANGES[name][1] for name in RANGES)
        and out <= bodies <= MOST_BODIES
        and not any(data[PAGE_0.size : PAGE])
    )
    if not is_right:
        raise Refused("damaged at 0")
    params["edge"] = ("open", "wrap")[edge]
    return Journal(params, bodies, time, out, entries_of(data, bodies, time, out))


def entries_of(data, bodies, time, out):
    """The entries up to the first whose gate isn't open; each has to be a lawful next one."""
    entries, ticks, target = [], 0, time
    for at in range(PAGE, MOST_TICKS * ENTRY.size, ENTRY.size):
        if at % PAGE == 0 and len(data) < at + PAGE:
            raise Refused(f"damaged at {at}")
        gate, kind, zeros, number, now_out, more_zeros = ENTRY.unpack_from(data, at)
        if gate != b"G":
            return entries
        is_leg = kind == b"L" and time == target != number and now_out == 0
        is_leg = is_leg and ticks + abs(number - time) <= MOST_TICKS
        is_tick = kind == b"T" and time != target and number == ticks + 1 and out <= now_out <= bodies
        if any(zeros) or more_zeros or not (is_leg or is_tick):
            raise Refused(f"damaged at {at}")
        if is_leg:
            target = number
            entries.append(Leg(target))
        else:
            ticks, time, out = number, time + (1 if target > time else -1), now_out
            entries.append(Tick(ticks, time, out))


def is_started(folder):
    """Whether a run is started in a folder, damaged or not."""
    try:
        with open(os.path.join(folder, "journal"), "rb") as file:
            return file.read(1) == JOURNAL_GATE and os.fstat(file.fileno()).st_size > PAGE
    except (FileNotFoundError, NotADirectoryError):
        return False


def read_journal(folder):
    path = os.path.join(folder, "journal")
    if not os.path.isdir(folder):
        raise Refused(f"{folder} is no folder")
    if not is_started(folder):
        raise Refused(f"no run is started in {folder}")
    with open(path, "rb") as file:
        data = file.read()
    try:
        return journal_of(data)
    except Refused as why:
        raise Refused(f"{path} is {why}") from None


@contextlib.contextmanager
def new_file(path):
    """A file to be written, under another name until it is whole."""
    part = f"{path}.part"
    with open(part, "wb") as file:
        try:
            yield file
            file.flush()
            os.fsync(file.fileno())
        except BaseException:
            os.remove(part)
            raise
    os.replace(part, path)


def write_files(folder, files):
    """Writes files into a folder, by their names and the parts of their bytes."""
    os.makedirs(folder, exist_ok=True)
    for name, parts in files.items():
        with new_file(os.path.join(folder, name)) as file:
            file.writelines(parts)
