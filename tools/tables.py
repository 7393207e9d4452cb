"""Tables of bodies, in CSV or .npy, and the folder of a run that is made of one."""

import argparse
import csv
import importlib
import itertools
import math
import os
import re
import sys

import nbs
import units
from nbs import MOST_BODIES, POSITION, RANGES, USUAL, VELOCITY, Body, Refused, require, whole_number

NEEDED = ("mass", *POSITION, *VELOCITY)
OPTIONAL = ("id", "out")
# The options that say what one unit is, and the kind of each.
UNITS = {"length": "length", "mass": "mass", "tick": "time"}
PARAMETERS = ("grav", "theta", "soft", "leaf", "every", "edge")
# A file of this size or more is read by numpy.
BULK_BYTES = 2**20
ROWS_AT_ONCE = 2**14


def note(line):
    print(f"bodies: {line}", file=sys.stderr)


def check_columns(columns, place):
    for column in columns:
        if column not in NEEDED + OPTIONAL:
            raise Refused(f"{place}: there is no column {column!r}; they are {', '.join(NEEDED + OPTIONAL)}")
        if columns.count(column) > 1:
            raise Refused(f"{place}: the column {column} stands twice")
    for column in NEEDED:
        if column not in columns:
            raise Refused(f"{place}: the column {column} is missing")


def open_csv(path):
    """A CSV file to be read. Bytes that are no text become marks, which no number has."""
    return open(path, newline="", encoding="utf-8-sig", errors="surrogateescape")


def csv_columns(rows):
    """The names in the first row."""
    columns = [column.strip() for column in next(rows, [])]
    check_columns(columns, "line 1")
    return columns


def csv_rows(rows, columns, lines_before=0):
    """The rows that a CSV reader gives, each as the number of its line and its texts by their columns."""
    while True:
        try:
            row = next(rows)
        except StopIteration:
            return
        except csv.Error as why:
            raise Refused(f"line {lines_before + rows.line_num}: {why}") from None
        if not row:
            continue
        number = lines_before + rows.line_num
        if len(row) != len(columns):
            raise Refused(f"line {number}: {len(row)} values stand where there are {len(columns)} columns")
        yield number, dict(zip(columns, row))


def open_npy(path):
    """The array of a .npy file, with named fields or with the needed columns in their order, and its columns."""
    (numpy,) = require("numpy")
    try:
        array = numpy.load(path, allow_pickle=False)
    except ValueError as why:
        raise Refused(f"{path} is no .npy file of numbers: {why}") from None
    columns = list(array.dtype.names or NEEDED)
    check_columns(columns, "its fields")
    if array.shape[1:] != (() if array.dtype.names else (len(NEEDED),)):
        raise Refused(f"{path} has the shape {array.shape}, and not rows of {', '.join(NEEDED)}")
    return array, columns


def npy_rows(array, columns, records_before=0):
    """The rows of an array, each as its number and its texts by their columns."""
    for number, values in enumerate(array.tolist(), records_before + 1):
        texts = (str(int(v)) if isinstance(v, float) and v.is_integer() else str(v) for v in values)
        yield number, dict(zip(columns, texts))


def is_npy(path):
    return path.endswith(".npy")


def place_of(path, number):
    """Where a row stands, for a reader."""
    return f"{'record' if is_npy(path) else 'line'} {number}"


def rows_of(path):
    """The rows of a table, each as its number and its texts by their columns."""
    if is_npy(path):
        yield from npy_rows(*open_npy(path))
        return
    with open_csv(path) as file:
        rows = csv.reader(file)
        yield from csv_rows(rows, csv_columns(rows))


def whole_body(texts):
    """The body of a row of whole numbers."""
    is_out = texts["out"].strip().lstrip("0") == "1"
    return Body(*(whole_number(texts[name], *nbs.range_of(name, is_out), name) for name in Body._fields))


def decimal(text, what):
    text = text.strip()
    if not re.fullmatch(r"[-+]?([0-9]+\.?[0-9]*|\.[0-9]+)([eE][-+]?[0-9]{1,3})?", text):
        raise Refused(f"{what} is {text!r}, which is no number")
    value = float(text)
    if value in (float("inf"), float("-inf")):
        raise Refused(f"{what} is {text!r}, which is too large")
    return value


def decimal_row(texts):
    """A row of numbers in the table's units, by its columns."""
    row = {name: decimal(texts[name], name) for name in NEEDED}
    if row["mass"] <= 0:
        raise Refused(
            f"mass is {row['mass']}, and has to be above 0; a light body can stand for one without mass"
        )
    row.update((name, whole_number(texts[name], *nbs.range_of(name, False), name)) for name in OPTIONAL)
    return row


def row_of(texts, index, reader):
    """What a reader makes of the row with this index. Rows without an id are numbered from 1."""
    return reader({"id": str(index + 1), "out": "0", **texts})


def repeated(number, place):
    return Refused(f"id {number} stands on {place} already")


def too_many():
    return Refused(f"there are more than {MOST_BODIES} bodies")


def read_table(path, reader):
    """What a reader makes of each row of a table, by rising id, each behind its place."""
    found, places = [], {}
    for line, texts in rows_of(path):
        place = place_of(path, line)
        try:
            row = row_of(texts, len(found), reader)
            number = row["id"] if isinstance(row, dict) else row.id
            if number in places:
                raise repeated(number, places[number])
            if len(found) == MOST_BODIES:
                raise too_many()
        except Refused as why:
            raise Refused(f"{place}: {why}") from None
        found.append((number, place, row))
        places[number] = place
    return [(place, row) for _, place, row in sorted(found, key=lambda each: each[0])]


class Table:
    """A table's bodies, read row by row."""

    def __init__(self, path):
        self.path = path

    def whole(self):
        """Its bodies, where its numbers are whole."""
        return nbs.Bodies(body for _, body in read_table(self.path, whole_body))

    def decimal(self):
        """Its rows of numbers in units of its own."""
        return units.Rows(read_table(self.path, decimal_row))


def for_many(path):
    """The module that reads a large file by numpy, or None for a small one, or where numpy is missing."""
    if os.path.getsize(path) < BULK_BYTES:
        return None
    try:
        require("numpy")
    except Refused as why:
        note(f"so many rows take long without numpy: {why}")
        return None
    return importlib.import_module("bulk")


def table_at(path):
    """A table's bodies, by numpy where they are many."""
    bulk = for_many(path)
    return bulk.Table(path) if bulk else Table(path)


def npy_fields(is_whole):
    """The fields of an array of bodies, in whole numbers or in units of the table."""
    kinds = ("u8", "u4", *["u8"] * 3, *["i8"] * 3, "u4") if is_whole else ("u8", *["f8"] * 7, "u4")
    return list(zip(Body._fields, kinds))


class Rows:
    """Bodies as the rows of a table that is to be written: in whole numbers, or in the table's units."""

    def __init__(self, bodies, is_whole):
        self.bodies, self.is_whole = bodies, is_whole

    def __len__(self):
        return len(self.bodies)

    def __iter__(self):
        return iter(self.bodies)

    def array(self):
        (numpy,) = require("numpy")
        return numpy.array([tuple(body) for body in self.bodies], npy_fields(self.is_whole))


def read_rows(path, scale):
    """A snapshot's bodies as rows, in the units of a scale where there is one, and its time."""
    bulk = for_many(path)
    if bulk:
        return bulk.read_rows(path, scale)
    bodies, time = nbs.read_snapshot(path)
    return Rows([units.unboxed(body, scale) for body in bodies] if scale else bodies, scale is None), time


def csv_texts(rows):
    """The text of a table of bodies, in parts that fit in memory. Numbers need no marks around them."""
    line = ",".join(["%r"] * len(Body._fields)) + "\n"
    yield ",".join(Body._fields) + "\n"
    rows = iter(rows)
    while text := "".join(line % row for row in itertools.islice(rows, ROWS_AT_ONCE)):
        yield text


def write_table(path, rows):
    """Writes rows to a .npy or CSV file, or without a path as CSV to standard output."""
    if path is None and sys.stdout is None:
        raise Refused("standard output is closed, and no file is named")
    if path is None:
        sys.stdout.writelines(csv_texts(rows))
    elif is_npy(path):
        (numpy,) = require("numpy")
        array = rows.array()
        with nbs.new_file(path) as file:
            numpy.save(file, array)
    else:
        with nbs.new_file(path) as file:
            file.writelines(text.encode() for text in csv_texts(rows))


def number(least, greatest):
    """The reader of an option that takes a number of this range."""

    def read(text):
        try:
            return whole_number(text, least, greatest, "it")
        except Refused as why:
            raise argparse.ArgumentTypeError(str(why)) from None

    return read


def ratio(text):
    """Reads the opening angle, as 1/2."""
    over, slash, under = text.partition("/")
    if not slash:
        raise argparse.ArgumentTypeError("it has to be two numbers, as 1/2")
    return number(*RANGES["theta_num"])(over), number(*RANGES["theta_den"])(under)


def softening(text):
    """Reads the softening length: box units, or a length with its unit."""
    return number(*RANGES["soft"])(text) if text.strip().lstrip("-").isdecimal() else text


def add_run_options(command):
    """The options of a command that makes a run's folder."""
    command.add_argument(
        "--at", type=number(0, 2**64 - 1), default=0, metavar="T", help="the bodies' time, in ticks (0)"
    )
    command.add_argument(
        "--replace", action="store_true", help="write init.nbs also in a folder in which a run is started"
    )
    units_of = command.add_argument_group("units, with --units; what isn't given is chosen")
    units_of.add_argument(
        "--box-units", action="store_true", help="in box units and ticks, also where units.json is"
    )
    units_of.add_argument(
        "--units", metavar="U", help="the table's: pc,Msun,km/s, say, or nbody where G is 1"
    )
    for name, about in zip(
        UNITS, ("a box unit is, as 0.01AU", "a unit of mass is, as 0.001Msun", "a tick is, as 28.7h")
    ):
        units_of.add_argument(f"--{name}", metavar="Q", help=f"what {about}")
    units_of.add_argument(
        "--orbit",
        type=number(units.FEWEST_TICKS, 2**20),
        metavar="N",
        help="ticks of a typical orbit (100 to 400)",
    )
    parameters = command.add_argument_group("parameters")
    for name, kind, sign, about in (
        ("grav", number(*RANGES["grav"]), "N", "the constant of gravity, without --units (1000000000)"),
        ("theta", ratio, "N/N", "the opening angle (1/2)"),
        (
            "soft",
            softening,
            "N",
            "the softening length: box units, or 0.05pc, say (1, or what --units finds)",
        ),
        ("leaf", number(*RANGES["leaf"]), "N", "the most bodies of a leaf (8)"),
        ("every", number(*RANGES["every"]), "N", "the ticks from one snapshot to the next (100)"),
    ):
        parameters.add_argument(f"--{name}", type=kind, metavar=sign, help=about)
    parameters.add_argument("--edge", choices=("open", "wrap"), help="the border of the box (open)")


def given_in(options, names):
    return {name: getattr(options, name) for name in names if getattr(options, name) is not None}


def scaled_run(rows, options, shrinks_to):
    """The bodies, the parameters that are set, the scale by the options, and the lines that tell of it."""
    table = units.table_of(options.units)
    parameters = given_in(options, PARAMETERS)
    if "grav" in parameters:
        raise Refused("--grav can't be set with --units, which find it")
    given = {
        name: units.quantity(text, table, UNITS[name], name) for name, text in given_in(options, UNITS).items()
    }
    theta = parameters.get("theta", USUAL["theta"])
    scale, grav, choice = units.fitted(table, rows, given, theta, options.orbit)
    soft, soft_is = parameters.get("soft"), None
    if soft is None:
        soft, soft_is = units.usual_soft(choice, shrinks_to)
    if isinstance(soft, str):
        soft = max(1, round(units.quantity(soft, table, "length", "soft") / scale.length))
    if soft > RANGES["soft"][1]:
        raise Refused(f"--soft is {soft} box units, and has to be below the box's side")
    lines = units.report_of(scale, grav, rows, choice, soft, soft_is)
    return rows.boxed(scale), {**parameters, "grav": grav, "soft": soft}, scale, lines


def check_options(options, params, scale):
    """Refuses options that don't go together, or not with what stands in the folder."""
    unit_options = given_in(options, (*UNITS, "orbit"))
    if os.path.exists(params):
        if options.units or unit_options or given_in(options, PARAMETERS):
            raise Refused(f"{params} is there, so no option can set a parameter")
    elif options.box_units and options.units:
        raise Refused("--box-units are nbody's own, and have no --units")
    elif scale:
        raise Refused(
            f"{os.path.dirname(params)} has {units.FILE} but no params: remove it, or bring them back"
        )
    elif unit_options and not options.units:
        raise Refused(f"--{min(unit_options)} needs --units, the units of the table")
    elif not options.units and isinstance(options.soft, str):
        raise Refused(f"--soft {options.soft!r} is no whole number, and needs --units")


def check_folder(folder, may_replace):
    """Refuses a folder in which a run is started."""
    if nbs.is_started(folder) and not may_replace:
        raise Refused(
            f"a run is started in {folder}, and goes by its journal, not by init.nbs: take another folder, or "
            f"--replace to write init.nbs there all the same"
        )


def note_usual_grav(mass):
    """Says which grav is taken where none is set, and how far it reaches for bodies of this mass together."""
    grav = USUAL["grav"]
    note(
        f"grav is {grav}, as neither --grav nor --units sets it: beyond {math.isqrt(grav * mass)} box units all "
        f"bodies together pull by less than 1 box unit a tick, which is no force"
    )


def write_run(table, folder, options, shrinks_to=None):
    """Writes init.nbs, and where no parameters are there, params and with units units.json. The bodies are those of
    the table, in whole numbers or by a scale; `shrinks_to` is the part of their size to which they fall together."""
    check_folder(folder, options.replace)
    params = os.path.join(folder, "params")
    scale = units.scale_in(folder)
    check_options(options, params, scale)
    parameters, lines, new_scale = given_in(options, PARAMETERS), [], None
    if options.units:
        bodies, parameters, new_scale, lines = scaled_run(table.decimal(), options, shrinks_to)
    elif scale and not options.box_units:
        bodies = table.decimal().boxed(scale)
    else:
        bodies = table.whole()
    files = {}
    if new_scale:
        files[units.FILE] = [units.text_of(new_scale).encode()]
    if not os.path.exists(params):
        files["params"] = [nbs.params_of(parameters, bodies.mass).encode()]
    files["init.nbs"] = bodies.snapshot(options.at)
    # In this order, so that no run is without the units of its bodies, also where the tool is stopped in between.
    nbs.write_files(folder, files)
    names = sorted(files)
    wrote = " and ".join(filter(None, (", ".join(names[:-1]), names[-1])))
    print("\n".join([f"{len(bodies)} bodies at time {options.at}; wrote {wrote}", *lines]))
    if "params" in files and "grav" not in parameters and len(bodies) > 1:
        note_usual_grav(bodies.mass)
