"""Tables and snapshots of many bodies, by numpy: the same bytes and the same refusals as row by row.

A piece of a table whose rows are all right and written plainly is taken as a whole. Any other is read by tables.py row
by row, so that what a row is, and why one is refused, stands there alone.
"""

import csv
import io
import re

import numpy

import nbs
import tables
import units
from nbs import BOX_SIDE, HEAVIEST, MIDDLE, POSITION, SPEED_LIMIT, VELOCITY, Body, Refused

# What is too large for floating point becomes infinite here, as it does row by row, and is refused.
numpy.seterr(over="ignore", invalid="ignore")

RECORD = numpy.dtype(
    [
        ("id", "<u8"),
        ("mass", "<u4"),
        ("out", "<u4"),
        *((name, "<u8") for name in POSITION),
        *((name, "<i8") for name in VELOCITY),
    ]
)
DECIMAL = numpy.dtype([("id", "<u8"), ("out", "<u4"), *((name, "<f8") for name in tables.NEEDED)])

TEXT_AT_ONCE = 2**20
# The letters of rows that are written plainly, and the length of a field up to which they are.
WHOLE_LETTERS = b"0123456789-, \t\n"
DECIMAL_LETTERS = WHOLE_LETTERS + b"+.eE"
PLAIN_LENGTH = 100
# float takes these, and tables.py doesn't.
LONG_EXPONENT = re.compile(rb"[eE][-+]?[0-9]{4}")
COMMA, LINE_FEED = b",\n"


class Unusual(Exception):
    """A piece has to be read row by row."""


def whole_numbers(values, name):
    """An array as a column of RECORD, where all are whole numbers of the column's range."""
    least, greatest = nbs.range_of(name, True)
    is_whole = values.dtype.kind in "iu" or (values == numpy.floor(values)).all()
    if not is_whole or not least <= values.min().item() or not values.max().item() <= greatest:
        raise Unusual
    return values.astype(RECORD[name])


def listed_numbers(values, name):
    """A list of whole numbers as a column of RECORD, where all are of the column's range."""
    least, greatest = nbs.range_of(name, True)
    if min(values) < least or max(values) > greatest:
        raise Unusual
    return numpy.array(values, RECORD[name])


def decimal_numbers(values, name):
    if not numpy.isfinite(values).all() or name == "mass" and values.min() <= 0:
        raise Unusual
    return values


def is_slow(speeds):
    """Which are those of a body in the box."""
    return (speeds > -SPEED_LIMIT) & (speeds < SPEED_LIMIT)


class CsvPiece:
    """Lines of a CSV file."""

    def __init__(self, text, columns, lines_before):
        self.text, self.columns, self.before = text, columns, lines_before

    def rows(self):
        lines = csv.reader(io.StringIO(self.text, newline=""))
        return tables.csv_rows(lines, self.columns, self.before)

    def fields(self, letters):
        """The texts of all rows, one behind the other."""
        text = self.text.replace("\r\n", "\n").rstrip("\n") + "\n"
        if not text.isascii():
            raise Unusual
        data = text.encode()
        found = numpy.frombuffer(data, "u1")
        ends = numpy.flatnonzero((found == COMMA) | (found == LINE_FEED))
        row = [COMMA] * (len(self.columns) - 1) + [LINE_FEED]
        if (
            data.translate(None, letters)
            or len(ends) % len(row)
            or (found[ends].reshape(-1, len(row)) != row).any()
            or numpy.diff(ends, prepend=0).max() > PLAIN_LENGTH
            or b"e" in letters and LONG_EXPONENT.search(data)
        ):
            raise Unusual
        return text.replace("\n", ",").split(",")[:-1]

    def arrays(self, form):
        """Its columns, and the numbers of its lines."""
        fields = self.fields(WHOLE_LETTERS if form == RECORD else DECIMAL_LETTERS)
        found = {}
        try:
            for index, name in enumerate(self.columns):
                texts = fields[index :: len(self.columns)]
                if form[name].kind == "f":
                    found[name] = decimal_numbers(numpy.array(list(map(float, texts))), name)
                else:
                    found[name] = listed_numbers(list(map(int, texts)), name)
        except ValueError:
            raise Unusual from None
        count = len(fields) // len(self.columns)
        return found, numpy.arange(count) + self.before + 1


class NpyPiece:
    """Records of a .npy file."""

    def __init__(self, array, columns, records_before):
        self.array, self.columns, self.before = array, columns, records_before

    def rows(self):
        return tables.npy_rows(self.array, self.columns, self.before)

    def arrays(self, form):
        """Its columns, and the numbers of its records."""
        found = {}
        for index, name in enumerate(self.columns):
            values = self.array[name] if self.array.dtype.names else self.array[:, index]
            if values.ndim != 1 or values.dtype.kind not in "iuf" or values.dtype.itemsize > 8:
                raise Unusual
            if form[name].kind == "f":
                # Row by row a negative zero is none either.
                found[name] = decimal_numbers(values.astype(float) + 0.0, name)
            else:
                found[name] = whole_numbers(values, name)
        return found, numpy.arange(len(self.array)) + self.before + 1


def csv_pieces(path):
    with tables.open_csv(path) as file:
        rows = csv.reader(file)
        columns = tables.csv_columns(rows)
        lines = rows.line_num
        while True:
            text = file.read(TEXT_AT_ONCE) + file.readline()
            if not text:
                return
            if '"' in text:
                # A row may go on over the end of any line.
                text += file.read()
            yield CsvPiece(text, columns, lines)
            lines += text.count("\n") + text.count("\r") - text.count("\r\n")


def npy_pieces(path):
    array, columns = tables.open_npy(path)
    for first in range(0, len(array), tables.ROWS_AT_ONCE):
        yield NpyPiece(array[first : first + tables.ROWS_AT_ONCE], columns, first)


def as_a_whole(piece, count, form):
    """The rows of a piece that stand behind so many others, and their numbers."""
    arrays, numbers = piece.arrays(form)
    part = numpy.zeros(len(numbers), form)
    part["id"] = numpy.arange(count + 1, count + 1 + len(numbers), dtype="u8")
    for name, values in arrays.items():
        part[name] = values
    if form == RECORD and not all((is_slow(part[name]) | (part["out"] == 1)).all() for name in VELOCITY):
        raise Unusual
    return part, numbers


def row_by_row(piece, count, form, path):
    """The same, as far as they are right, and the refusal of the next."""
    rows, numbers, refusal = [], [], None
    try:
        for number, texts in piece.rows():
            try:
                if form == RECORD:
                    row = tables.row_of(texts, count + len(rows), tables.whole_body)._asdict()
                else:
                    row = tables.row_of(texts, count + len(rows), tables.decimal_row)
            except Refused as why:
                raise Refused(f"{tables.place_of(path, number)}: {why}") from None
            rows.append(tuple(row[name] for name in form.names))
            numbers.append(number)
    except Refused as why:
        refusal = why
    return numpy.array(rows, form), numpy.array(numbers, int), refusal


def rising_order(path, ids, numbers):
    """The order of rising ids. The first row whose id stands before it already is refused."""
    if (ids[1:] > ids[:-1]).all():
        return slice(None)
    order = numpy.argsort(ids, kind="stable")
    again = numpy.flatnonzero(ids[order[1:]] == ids[order[:-1]])
    if len(again):
        at = again[order[again + 1].argmin()]
        first, second = (tables.place_of(path, numbers[order[index]]) for index in (at, at + 1))
        raise Refused(f"{second}: {tables.repeated(ids[order[at]], first)}")
    return order


def read_table(path, form):
    """The rows of a table by rising id, in an array of this form, and the numbers of their lines or records."""
    parts, numbers, count, refusal = [numpy.empty(0, form)], [numpy.empty(0, int)], 0, None
    for piece in (npy_pieces if tables.is_npy(path) else csv_pieces)(path):
        try:
            part, at = as_a_whole(piece, count, form)
        except Unusual:
            part, at, refusal = row_by_row(piece, count, form, path)
        parts.append(part)
        numbers.append(at)
        count += len(part)
        if refusal or count > tables.MOST_BODIES:
            break
    # A row that is one too many is looked at, but none behind it.
    seen = tables.MOST_BODIES + 1
    rows, at = numpy.concatenate(parts)[:seen], numpy.concatenate(numbers)[:seen]
    del parts
    order = rising_order(path, rows["id"], at)
    if count >= seen:
        raise Refused(f"{tables.place_of(path, at[-1])}: {tables.too_many()}")
    if refusal:
        raise refusal
    return rows[order], at[order]


class Records:
    """Bodies as an array, as nbs.Bodies has them in a list."""

    def __init__(self, array):
        self.array = array

    def __len__(self):
        return len(self.array)

    @property
    def mass(self):
        return int(self.array["mass"].sum(dtype="u8"))

    def snapshot(self, time):
        """The parts of the bytes of their snapshot."""
        return [nbs.header_bytes(len(self), time), self.array.view("u1")]


class Table:
    """A table's bodies, as tables.Table has them."""

    def __init__(self, path):
        self.path = path

    def whole(self):
        """Its bodies, where its numbers are whole."""
        return Records(read_table(self.path, RECORD)[0])

    def decimal(self):
        """Its rows of numbers in units of its own."""
        return Columns(*read_table(self.path, DECIMAL), self.path)


def median_of(values, masses):
    """units.median_of, of arrays."""
    order = numpy.lexsort((masses, values))
    half = sum(masses.tolist()) / 2
    reached = numpy.searchsorted(numpy.cumsum(masses[order]), half)
    return values[order[min(reached, len(order) - 1)]].item()


class Columns:
    """Rows of numbers as arrays, as units.Rows has them: each method gives the same number, to the last bit."""

    def __init__(self, rows, numbers, path):
        self.rows, self.numbers, self.path = rows, numbers, path
        self.inside = rows[rows["out"] == 0] if rows["out"].any() else rows

    @property
    def count_inside(self):
        return len(self.inside)

    def masses(self):
        masses = self.rows["mass"]
        # numpy's own sum takes them in another order.
        return sum(masses.tolist()), masses.min().item(), masses.max().item()

    def are_multiples(self, mass):
        multiples = self.rows["mass"] / mass
        off = abs(multiples - numpy.rint(multiples))
        return multiples.max() <= HEAVIEST and bool((off < 1e-9 * multiples).all())

    def heaviest(self):
        row = self.inside[self.inside["mass"].argmax()]
        return row["mass"].item(), [row[name].item() for name in POSITION]

    def middle(self):
        return [median_of(self.inside[name], self.inside["mass"]) for name in POSITION]

    def distances(self, middle):
        x, y, z = (self.inside[name] - at for name, at in zip(POSITION, middle))
        return numpy.sqrt(x * x + y * y + z * z)

    def half_mass_radius(self, middle):
        return median_of(self.distances(middle), self.inside["mass"])

    def median_radius(self, middle):
        away = self.distances(middle)
        others = numpy.sort(away)[1:]
        radius = median_of(others, numpy.ones(len(others))) if len(others) else 0.0
        return radius, sum(self.inside["mass"][away <= radius].tolist())

    def whole_mass(self, unit):
        return int(numpy.rint(self.rows["mass"] / unit).astype("u8").sum())

    def rounding(self, unit):
        masses = self.rows["mass"] / unit
        return abs(numpy.rint(masses) / masses - 1).max().item()

    def boxed(self, scale):
        bodies = numpy.empty(len(self.rows), RECORD)
        for first in range(0, len(bodies), tables.ROWS_AT_ONCE):
            part = slice(first, first + tables.ROWS_AT_ONCE)
            wrong = numpy.flatnonzero(~box(self.rows[part], scale, bodies[part]))
            if len(wrong):
                self.refuse(first + wrong[0], scale)
        return Records(bodies)

    def refuse(self, index, scale):
        """Says why a row has no place in the box."""
        row = {name: self.rows[name][index].item() for name in DECIMAL.names}
        try:
            units.boxed(row, scale)
        except Refused as why:
            raise Refused(f"{tables.place_of(self.path, self.numbers[index])}: {why}") from None
        raise AssertionError(f"units.boxed takes {row}")


def box(rows, scale, bodies):
    """Puts rows into bodies by a scale, as units.boxed does. Gives which of them are right."""
    values = {"mass": numpy.rint(rows["mass"] / scale.mass)}
    for name, middle in zip(POSITION, scale.middle):
        values[name] = numpy.rint((rows[name] - middle) / scale.length) + MIDDLE
    for name in VELOCITY:
        values[name] = numpy.rint(rows[name] / scale.velocity)
    is_right = (values["mass"] >= 1) & (values["mass"] <= HEAVIEST)
    for name in POSITION:
        is_right &= (values[name] >= 0) & (values[name] < BOX_SIDE)
    for name in VELOCITY:
        fits = (values[name] >= -(2.0**63)) & (values[name] < 2.0**63)
        is_right &= is_slow(values[name]) | (rows["out"] == 1) & fits
    bodies["id"], bodies["out"] = rows["id"], rows["out"]
    for name, numbers in values.items():
        bodies[name] = numbers
    return is_right


def records_of(data):
    """The records and the time of a snapshot, as nbs.bodies_of gives its bodies."""
    count, time = nbs.header_of(data)
    records = numpy.frombuffer(data, RECORD, count, nbs.HEADER.size)
    is_right = numpy.ones(count, bool)
    is_right[1:] = records["id"][1:] > records["id"][:-1]
    is_right &= (records["mass"] != 0) & (records["out"] <= 1)
    for name in POSITION:
        is_right &= records[name] < BOX_SIDE
    for name in VELOCITY:
        is_right &= is_slow(records[name]) | (records["out"] == 1)
    if not is_right.all():
        index = int(is_right.argmin())
        body = Body(*(records[name][index].item() for name in Body._fields))
        last_id = records["id"][index - 1].item() if index else -1
        raise Refused(f"{nbs.fault_of(body, last_id)} at body {index}")
    return records, time


class Rows:
    """Bodies as the rows of a table that is to be written, as tables.Rows has them."""

    def __init__(self, records, scale):
        self.records, self.scale = records, scale

    def __len__(self):
        return len(self.records)

    def columns(self, records):
        """The columns of records, whole or in the units of the scale, as units.unboxed has them."""
        found = {name: records[name] for name in Body._fields}
        if self.scale:
            found["mass"] = found["mass"] * self.scale.mass
            for name, middle in zip(POSITION, self.scale.middle):
                found[name] = (found[name].astype("i8") - MIDDLE) * self.scale.length + middle
            for name in VELOCITY:
                found[name] = found[name] * self.scale.velocity
        return found

    def __iter__(self):
        for first in range(0, len(self), tables.ROWS_AT_ONCE):
            columns = self.columns(self.records[first : first + tables.ROWS_AT_ONCE])
            yield from zip(*(values.tolist() for values in columns.values()))

    def array(self):
        array = numpy.empty(len(self), tables.npy_fields(self.scale is None))
        for name, values in self.columns(self.records).items():
            array[name] = values
        return array


def read_rows(path, scale):
    """A snapshot's bodies as rows, in the units of a scale where there is one, and its time."""
    records, time = nbs.read_snapshot(path, records_of)
    return Rows(records, scale), time
