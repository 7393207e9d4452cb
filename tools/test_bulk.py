"""Tests of bulk.py: a table or a snapshot read by numpy gives the same bytes, and the same refusal, as row by row."""

import csv
import io
import os
import random
import unittest
from unittest import mock

from tool_test import LACKS, ToolTest, needs, tool

import nbs
import tables
import units
from nbs import Body

if "numpy" not in LACKS:
    import numpy

    import bulk

NAMES = ["mass", "x", "y", "z", "vx", "vy", "vz"]
ALL = list(Body._fields)


def random_bodies(count, seed=1):
    """Rows of whole numbers of every size, the greatest and the least among them, in no order."""
    draw = random.Random(seed)
    bodies = []
    for number in {draw.choice([draw.randrange(2**64), draw.randrange(2**20)]) for _ in range(count)}:
        out = draw.randrange(2)
        least, greatest = (-(2**63), 2**63 - 1) if out else (1 - 2**61, 2**61 - 1)
        speeds = [draw.choice([least, greatest, 0, draw.randrange(least, greatest)]) for _ in range(3)]
        places = [draw.choice([0, 2**40 - 1, draw.randrange(2**40)]) for _ in range(3)]
        bodies.append([number, draw.choice([1, 2**32 - 1, draw.randrange(1, 2**32)]), *places, *speeds, out])
    return bodies


def random_stars(count, seed=1):
    """Rows in units of their own: a ball whose lightest and heaviest star differ by ten thousand."""
    draw = random.Random(seed)
    return [
        [
            draw.choice([0.01, 10 ** draw.uniform(-2, 2)]),
            *(draw.gauss(at, 1.2) for at in (8000, 20, -3)),
            *(draw.gauss(0, 1) for _ in range(3)),
        ]
        for _ in range(count)
    ]


def csv_text(rows, columns):
    text = io.StringIO()
    csv.writer(text, lineterminator="\n").writerows([columns, *rows])
    return text.getvalue()


@needs("numpy")
class Bulk(ToolTest):
    tool = tool("bodies")

    def both(self, *words, names=()):
        """What the tool says row by row, and by numpy in pieces of a few rows, has to be the same, and the files that
        it leaves too, which are removed behind each. Gives what is said and the files' bytes."""
        found = []
        for least, at_once in ((10**9, 2**14), (0, 40)):
            with mock.patch.object(tables, "BULK_BYTES", least), mock.patch.object(
                tables, "ROWS_AT_ONCE", at_once
            ), mock.patch.object(bulk, "TEXT_AT_ONCE", 20 * at_once):
                said = self.run_tool(*words)
            files = {}
            for name in names:
                if os.path.exists(self.path(name)):
                    files[name] = self.read(name)
                    os.remove(self.path(name))
            found.append((said, files))
        self.assertEqual(found[0], found[1])
        return found[0]

    def both_from(self, table, *options):
        names = [f"run/{name}" for name in ("init.nbs", "params", "units.json")]
        return self.both("from", self.path(table), self.path("run"), *options, names=names)

    def both_from_csv(self, text, *options):
        self.write("table.csv", text.encode())
        return self.both_from("table.csv", *options)

    def refuses(self, text, why, *options):
        self.assertEqual(self.both_from_csv(text, *options), ((1, "", f"bodies: {why}\n"), {}))

    def test_a_thousand_whole_bodies(self):
        bodies = random_bodies(1000)
        options = ("--grav", "1", "--at", "7")
        (status, _, _), files = self.both_from_csv(csv_text(bodies, ALL), *options)
        self.assertEqual(status, 0)
        bodies.sort()
        snapshot = nbs.snapshot_of([Body(*body) for body in bodies], 7)
        self.assertEqual(files["run/init.nbs"], snapshot)
        self.write("one.nbs", snapshot)
        for out in ("back.csv", "back.npy"):
            (status, _, _), files = self.both("to", self.path("one.nbs"), self.path(out), names=[out])
            self.assertEqual(status, 0)
            if out == "back.csv":
                self.assertEqual(files[out].decode(), csv_text(bodies, ALL))
            self.write(out, files[out])
            self.assertEqual(self.both_from(out, *options)[1]["run/init.nbs"], snapshot)
        (status, out, _), _ = self.both("to", self.path("one.nbs"))
        self.assertEqual((status, out), (0, csv_text(bodies, ALL)))

    def test_a_thousand_stars(self):
        """With a leader and without, with ids and bodies that are out, and back in the table's units."""
        stars = random_stars(1000)
        numbered = [[7 * index % 1009, *star, index % 3 // 2] for index, star in enumerate(stars, 1)]
        around = [*stars[1:], [1e5, 8000, 20, -3, 0, 0, 0]]
        led = [[index, *star, int(index == 3)] for index, star in enumerate(around, 1)]
        for rows, columns in ((stars, NAMES), (numbered, ALL), (led, ALL)):
            (status, out, _), files = self.both_from_csv(
                csv_text(rows, columns), "--units", "pc,Msun,km/s", "--theta", "1/1", "--orbit", "30"
            )
            self.assertEqual((status, sorted(files)), (0, ["run/init.nbs", "run/params", "run/units.json"]), out)
            for name, data in files.items():
                self.write(name, data)
            for back in ("back.csv", "back.npy"):
                (status, _, _), given = self.both("to", self.path("run/init.nbs"), self.path(back), names=[back])
                self.assertEqual(status, 0)
                self.write(back, given[back])
                # By the units that are there: the same snapshot again.
                os.remove(self.path("run/init.nbs"))
                found = self.run_tool("from", self.path(back), self.path("run"))
                self.assertEqual((found[0], self.read("run/init.nbs")), (0, files["run/init.nbs"]))
            for name in files:
                os.remove(self.path(name))
        around[-1][1] = -0.0
        numpy.save(self.path("led.npy"), numpy.array(around))
        self.assertEqual(self.both_from("led.npy", "--units", "nbody", "--orbit", "50")[0][0], 0)
        numpy.save(self.path("stars.npy"), numpy.array(stars))
        csv_files = self.both_from_csv(csv_text(stars, NAMES), "--units", "nbody", "--theta", "1/1", "--orbit", "30")[1]
        npy_files = self.both_from("stars.npy", "--units", "nbody", "--theta", "1/1", "--orbit", "30")[1]
        self.assertEqual(npy_files, csv_files)
        self.assertEqual(len(npy_files), 3)

    def test_medians(self):
        """Of values that are often equal, with masses whose sums are rounded, and half of the mass at a border."""
        draw = random.Random(5)
        for count in [*range(1, 60), *range(100, 1000, 7)]:
            for masses in ([0.1], [0.1, 0.3, 1e16, 1e-3], [1.0, 3.0]):
                pairs = [(float(draw.randrange(count)), draw.choice(masses)) for _ in range(count)]
                halves = [(value, mass) for _, mass in pairs for value in (0.0, 1.0)]
                draw.shuffle(halves)
                for each in (pairs, halves):
                    arrays = (numpy.array(column) for column in zip(*each))
                    self.assertEqual(bulk.median_of(*arrays), units.median_of(each))

    def test_the_borders_of_the_box(self):
        """Masses, places and speeds at each limit and beside it, where one unit of nbody is one of the table."""
        side, slow, fast = 2.0**39, 2.0**61, 2.0**63
        scale = units.Scale(units.table_of("nbody"), 1.0, 1.0, 1.0, 1.0, (0.0, 0.0, 0.0))
        rows = [
            (1, out, mass, x, 0.5, 1.5, v, -0.5, 2.5)
            for out in (0, 1)
            for mass in (0.5, 0.50001, 1.5, 2.0**32 - 1, 2.0**32 - 0.5, 1e300)
            for x in (-side - 1, -side - 0.5, -side, side - 1, side - 0.5, side, -1e300)
            for v in (-slow, 256 - slow, slow - 256, slow, -fast - 2048, -fast, fast - 1024, fast, 1e300)
        ]
        array = numpy.array(rows, bulk.DECIMAL)
        records = numpy.zeros(len(rows), bulk.RECORD)
        is_right = bulk.box(array, scale, records)
        for row, fits, record in zip(rows, is_right, records):
            try:
                body = units.boxed(dict(zip(bulk.DECIMAL.names, row)), scale)
            except nbs.Refused:
                body = None
            self.assertEqual(bool(fits), body is not None, row)
            if body:
                self.assertEqual(Body(**{name: record[name].item() for name in Body._fields}), body)
        # 0.50001, 1.5 and 2^32 - 1; -2^39 - 1/2, -2^39 and 2^39 - 1; two speeds of bodies in the box, six of those out.
        self.assertEqual(is_right.sum(), 3 * 3 * (2 + 6))

    def test_unusual_rows(self):
        """What the plain way takes, in the midst of plain rows: marks, blanks, zeros, empty lines, other line ends."""
        rows = csv_text(random_bodies(300), ALL).splitlines()[1:]
        head = ",".join(ALL)
        unusual = [
            ' 5 ,"7", 8,9,10,\t11,12,13,0',
            "",
            "00000006,7,8,9,10,11,12,13,00",
            '"123",7,8,9,10,11,12,13,001',
            "0,7,8,9,10,11,12,-0,1",
        ]
        rows[100:100] = unusual[:3]
        rows[200:200] = unusual[3:]
        for end in ("\n", "\r\n", "\r"):
            for last in ("", end, 3 * end):
                with self.subTest(end=end, last=last):
                    text = "\ufeff" + head + end + end.join(rows) + last
                    (status, _, err), files = self.both_from_csv(text, "--grav", "1")
                    self.assertEqual((status, err), (0, ""))
                    found = nbs.bodies_of(files["run/init.nbs"])[0]
                    self.assertEqual(len(found), len(rows) - 1)
                    self.assertIn(Body(5, 7, 8, 9, 10, 11, 12, 13, 0), found)
        self.assertEqual(self.both_from_csv(head + "\n", "--grav", "1")[0][0], 0)

    def test_hostile_rows(self):
        """A bad row behind 150 that are right is told by its line, 152, and what stands behind it isn't looked at."""
        rows = [[index, *body[1:]] for index, body in enumerate(random_bodies(300), 1000)]
        good = csv_text(rows[:150], ALL)
        behind = csv_text(rows[150:], ALL).split("\n", 1)[1] + "1,1,1\n"
        for row, why in (
            ("5,1,0,0,0,0,0,0", "8 values stand where there are 9 columns"),
            ("5,1,0,0,0,0,0,0,0,0", "10 values stand where there are 9 columns"),
            ("5,1.5,0,0,0,0,0,0,0", "mass is '1.5', which is no whole number"),
            ("5,+1,0,0,0,0,0,0,0", "mass is '+1', which is no whole number"),
            ("5,1_0,0,0,0,0,0,0,0", "mass is '1_0', which is no whole number"),
            ("5,,0,0,0,0,0,0,0", "mass is '', which is no whole number"),
            ("5,1 1,0,0,0,0,0,0,0", "mass is '1 1', which is no whole number"),
            ("5,1,--1,0,0,0,0,0,0", "x is '--1', which is no whole number"),
            ("5,\u0661,0,0,0,0,0,0,0", "mass is '\u0661', which is no whole number"),
            ("5,0,0,0,0,0,0,0,0", "mass is 0, and has to be from 1 to 4294967295"),
            ("5,4294967296,0,0,0,0,0,0,0", "mass is 4294967296, and has to be from 1 to 4294967295"),
            ("-1,1,0,0,0,0,0,0,0", "id is -1, and has to be from 0 to 18446744073709551615"),
            (
                "18446744073709551616,1,0,0,0,0,0,0,0",
                "id is 18446744073709551616, and has to be from 0 to 18446744073709551615",
            ),
            ("5,1,0,-1,0,0,0,0,0", "y is -1, and has to be from 0 to 1099511627775"),
            ("5,1,0,1099511627776,0,0,0,0,0", "y is 1099511627776, and has to be from 0 to 1099511627775"),
            ("5,1,0,0,0,0,0,0,2", "out is 2, and has to be from 0 to 1"),
            (
                "5,1,0,0,0,0,-2305843009213693952,0,0",
                "vy is -2305843009213693952, and has to be from -2305843009213693951 to 2305843009213693951",
            ),
            (
                "5,1,0,0,0,0,9223372036854775808,0,1",
                "vy is 9223372036854775808, and has to be from -9223372036854775808 to 9223372036854775807",
            ),
            ("5,1,0,0,0,0,0,0," + "0" * 101, f"out is '{'0' * 101}', which is no whole number"),
            ("1003,1,0,0,0,0,0,0,0", "id 1003 stands on line 5 already"),
            ('"5,1,0,0,0,0,0,0,0', None),
        ):
            with self.subTest(row=row):
                text = good + row + "\n" + behind
                if why:
                    self.refuses(text, f"line 152: {why}", "--grav", "1")
                else:
                    self.assertEqual(self.both_from_csv(text, "--grav", "1")[0][0], 1)

    def test_lines_are_counted_at_each_line_end(self):
        rows = csv_text([[1, 0, 0, 0, 0, 0, 0]] * 300, NAMES).splitlines()
        rows[151] = "0,0,0,0,0,0,0"
        rows[7] += "\n"  # with the line end behind it, an empty line
        for end in ("\n", "\r\n", "\r"):
            why = "line 153: mass is 0, and has to be from 1 to 4294967295"
            self.refuses(end.join(rows), why, "--grav", "1")

    def test_the_first_bad_row_is_told(self):
        """Of a repeated id and a bad row the one that stands before, in one piece or in several."""
        rows = [[index, 1, 0, 0, 0, 0, 0, 0, 0] for index in range(1, 201)]
        for again, bad, why in (
            (20, 25, "line 22: id 5 stands on line 6 already"),
            (25, 20, "line 22: mass is 0, and has to be from 1 to 4294967295"),
            (20, 190, "line 22: id 5 stands on line 6 already"),
            (190, 20, "line 22: mass is 0, and has to be from 1 to 4294967295"),
        ):
            with self.subTest(again=again, bad=bad):
                hostile = [list(row) for row in rows]
                hostile[again][0], hostile[bad][1] = 5, 0
                self.refuses(csv_text(hostile, ALL), why, "--grav", "1")
        hostile = [list(row) for row in rows]
        for index, number in ((150, 8), (100, 9), (160, 9), (170, 8)):
            hostile[index][0] = number
        self.refuses(csv_text(hostile, ALL), "line 102: id 9 stands on line 10 already", "--grav", "1")

    def test_too_many(self):
        """Of 150 bodies where at most 100 may be, the one on line 102 is one too many, if it is right."""
        rows = [[index, 1, 0, 0, 0, 0, 0, 0, 0] for index in range(1, 151)]
        with mock.patch.object(tables, "MOST_BODIES", 100):
            self.assertEqual(self.both_from_csv(csv_text(rows[:100], ALL), "--grav", "1")[0][0], 0)
            self.refuses(csv_text(rows, ALL), "line 102: there are more than 100 bodies", "--grav", "1")
            for index, column, value, why in (
                (100, 0, 4, "line 102: id 4 stands on line 5 already"),
                (100, 1, 0, "line 102: mass is 0, and has to be from 1 to 4294967295"),
                (101, 1, 0, "line 102: there are more than 100 bodies"),
                (101, 0, 4, "line 102: there are more than 100 bodies"),
            ):
                hostile = [list(row) for row in rows]
                hostile[index][column] = value
                with self.subTest(why=why, index=index):
                    self.refuses(csv_text(hostile, ALL), why, "--grav", "1")

    def test_hostile_stars(self):
        """In units of the table: what is no number, and what has no place in the box."""
        good, behind = random_stars(150), random_stars(150, 2)
        options = ("--units", "pc,Msun,km/s", "--theta", "1/1", "--orbit", "30")
        for row, why in (
            ("1,1,2,3,4,5", "6 values stand where there are 7 columns"),
            ("1,nan,2,3,4,5,6", "x is 'nan', which is no number"),
            ("1,1e5,inf,3,4,5,6", "y is 'inf', which is no number"),
            ("1,1e999,2,3,4,5,6", "x is '1e999', which is too large"),
            ("1,1e0001,2,3,4,5,6", "x is '1e0001', which is no number"),
            ("1,1_0,2,3,4,5,6", "x is '1_0', which is no number"),
            ("1,.,2,3,4,5,6", "x is '.', which is no number"),
            ("0,1,2,3,4,5,6", "mass is 0.0, and has to be above 0"),
            ("-1,1,2,3,4,5,6", "mass is -1.0, and has to be above 0"),
            ("1,1e9,2,3,4,5,6", "x is 1000000000.0, outside the box"),
            ("1,-1e308,2,3,4,5,6", "x is -1e+308, outside the box"),
            ("1,8000,2,3,4,1e300,6", "vy is 1e+300, "),
            ("1,8000,2,3,4,-1e15,6", "vy is -1000000000000000.0, "),
        ):
            with self.subTest(row=row):
                text = csv_text(good, NAMES) + row + "\n" + csv_text(behind, NAMES).split("\n", 1)[1]
                (status, out, err), files = self.both_from_csv(text, *options)
                self.assertEqual((status, out, files), (1, "", {}))
                self.assertTrue(err.startswith(f"bodies: line 152: {why}"), err)
        for rows in ([[1e308, *row[1:]] for row in good], [[1, 1e200 * row[1], *row[2:]] for row in good]):
            self.refuses(
                csv_text(rows, NAMES), "masses, positions or units are too large or too small to choose by", *options
            )

    def test_bad_arrays(self):
        """Records of every kind of number, of which one isn't right."""
        right = numpy.ones(100, [(name, "f8") for name in ALL])
        right["id"], right["out"] = range(100), 0
        for column, value, kind, why in (
            ("x", 1.5, "f8", "x is '1.5', which is no whole number"),
            ("x", float("nan"), "f4", "x is 'nan', which is no whole number"),
            ("x", float("inf"), "f8", "x is 'inf', which is no whole number"),
            ("x", -1, ">i2", "x is -1, and has to be from 0 to 1099511627775"),
            ("x", 2**40, "<u8", "x is 1099511627776, and has to be from 0 to 1099511627775"),
            ("id", 2.0**64, "f8", "id is 18446744073709551616, and has to be from 0 to 18446744073709551615"),
            ("id", 7, "i1", "id 7 stands on record 8 already"),
            (
                "vx",
                2.0**61,
                "f8",
                "vx is 2305843009213693952, and has to be from -2305843009213693951 to 2305843009213693951",
            ),
        ):
            with self.subTest(why=why):
                array = right.astype([(name, kind if name == column else "f8") for name in ALL])
                self.assertEqual(self.saved(array)[0][0], 0)
                array[column][60] = value
                self.assertEqual(self.saved(array), ((1, "", f"bodies: record 61: {why}\n"), {}))
        for kind in ("?", "U5", "c16", "g", ("f8", 2)):
            array = right.astype([(name, kind if name == "x" else "f8") for name in ALL])
            self.assertEqual(self.saved(array)[0][0], 1)
        self.assertEqual(self.saved(right[:0])[0][0], 0)
        self.assertEqual(self.saved(right.astype([(name, ">f4") for name in ALL]))[0][0], 0)

    def saved(self, array):
        numpy.save(self.path("table.npy"), array)
        return self.both_from("table.npy", "--grav", "1")

    def test_bad_snapshots(self):
        bodies = [Body(*body) for body in sorted(random_bodies(200))]
        first_out = next(index for index, body in enumerate(bodies) if index > 50 and body.out)
        first_in = next(index for index, body in enumerate(bodies) if index > 50 and not body.out)
        data = nbs.snapshot_of(bodies, 3)
        for at, value, why in (
            (0, b"\0", "unfinished"),
            (24, b"\1", "zeros"),
            (8, b"\3", "length"),
            (32 + 64 * 70, b"\0" * 8, "id order at body 70"),
            (32 + 64 * 70, data[32 + 64 * 69 :][:8], "id order at body 70"),
            (32 + 64 * 70 + 8, b"\0" * 4, "mass at body 70"),
            (32 + 64 * first_in + 12, b"\2", f"flag at body {first_in}"),
            (32 + 64 * 70 + 21, b"\1", "place at body 70"),
            (32 + 64 * first_in + 63, b"\x20", f"speed at body {first_in}"),
            (32 + 64 * first_out + 63, b"\x20", None),
        ):
            with self.subTest(why=why):
                self.write("bad.nbs", data[:at] + value + data[at + len(value) :])
                (status, _, err), _ = self.both("to", self.path("bad.nbs"))
                if why:
                    self.assertEqual(err, f"bodies: {self.path('bad.nbs')} is no snapshot: {why}\n")
                self.assertEqual(status, int(why is not None))

    def test_how_many_are_read_by_numpy(self):
        """Large files are, and where it is missing a line says why they take long."""
        self.write("table.csv", csv_text([[1, 0, 0, 0, 0, 0, 0]], NAMES).encode())
        self.assertIsNone(tables.for_many(self.path("table.csv")))
        with mock.patch.object(tables, "BULK_BYTES", 20):
            self.assertIs(tables.for_many(self.path("table.csv")), bulk)
            with mock.patch.object(tables, "require", side_effect=nbs.Refused("no numpy")):
                words = ("from", self.path("table.csv"), self.path("run"), "--grav", "1")
                said = self.run_tool(*words)
        self.assertEqual((said[0], said[2]), (0, "bodies: so many rows take long without numpy: no numpy\n"))


if __name__ == "__main__":
    unittest.main()
