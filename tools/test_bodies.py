"""Tests of tools/bodies: `python3 tools/test_bodies.py`. Bytes are written by hand, from docs/FORMATS.md."""

import os
import subprocess
import sys
import unittest

from tool_test import TOOLS, ToolTest, bytes_of, tool

import nbs

# The snapshot of docs/FORMATS.md: one body, id 7, mass 3, at (5, 5, 5), velocity (1, 0, 0), at time 0.
ONE = """
    464e42534e415031 0100000000000000 0000000000000000 0000000000000000
    0700000000000000 0300000000000000 0500000000000000 0500000000000000
    0500000000000000 0100000000000000 0000000000000000 0000000000000000
"""

# Two bodies at time 258. Body 1 has the mass 2^32 - 1, stands in a corner of the box and has the velocity
# (-2, 0, 2^61 - 1). Body 2, of mass 1, is out, with the velocity -2^63 on y, too fast for the box.
TWO = """
    464e42534e415031 0200000000000000 0201000000000000 0000000000000000
    0100000000000000 ffffffff00000000 ffffffffff000000 0000000000000000
    0000000000000000 feffffffffffffff 0000000000000000 ffffffffffffff1f
    0200000000000000 0100000001000000 0100000000000000 0001000000000000
    0000000000000000 0000000000000000 0000000000000080 0000000000000000
"""
TWO_ROWS = """id,mass,x,y,z,vx,vy,vz,out
1,4294967295,1099511627775,0,0,-2,0,2305843009213693951,0
2,1,1,256,0,0,-9223372036854775808,0,1
"""

USUAL = """grav = 1000000000
theta_num = 1
theta_den = 2
soft = 1
leaf = 8
every = 100
edge = open
"""


class Bodies(ToolTest):
    tool = tool("bodies")

    def from_csv(self, text, *options):
        self.write("bodies.csv", text.encode())
        return self.run_tool("from", self.path("bodies.csv"), self.path("run"), *options)

    def refuses(self, text, why, *options):
        self.assertEqual(self.from_csv(text, *options), (1, "", f"bodies: {why}\n"))
        self.assertFalse(os.path.exists(self.path("run")))

    def test_one_body(self):
        done = (0, "1 bodies at time 0; wrote init.nbs and params\n", "")
        self.assertEqual(self.from_csv("id,mass,x,y,z,vx,vy,vz\n7,3,5,5,5,1,0,0\n"), done)
        self.assertEqual(self.read("run/init.nbs"), bytes_of(ONE))
        self.assertEqual(self.read("run/params"), USUAL.encode())
        self.assertEqual(sorted(os.listdir(self.path("run"))), ["init.nbs", "params"])

    def test_no_constant_of_gravity(self):
        # The root of 3 * 10^9 is 54772.3.
        note = (
            "bodies: grav is 1000000000, as neither --grav nor --units sets it: beyond 54772 box units all bodies "
            "together pull by less than 1 box unit a tick, which is no force\n"
        )
        done = (0, "2 bodies at time 0; wrote init.nbs and params\n", note)
        text = "id,mass,x,y,z,vx,vy,vz\n7,1,5,5,5,1,0,0\n8,2,6,5,5,1,0,0\n"
        self.assertEqual(self.from_csv(text), done)

    def test_standard_output_is_closed(self):
        self.from_csv("id,mass,x,y,z,vx,vy,vz\n7,3,5,5,5,1,0,0\n")
        words = [sys.executable, os.path.join(TOOLS, "bodies"), "to", self.path("run/init.nbs")]
        ran = subprocess.run(["sh", "-c", 'exec "$@" >&-', "sh", *words], stderr=subprocess.PIPE, text=True)
        self.assertEqual(ran.returncode, 1)
        self.assertEqual(ran.stderr, "bodies: standard output is closed, and no file is named\n")

    def test_there_and_back(self):
        self.assertEqual(self.from_csv(TWO_ROWS, "--grav", "1", "--at", "258")[0], 0)
        self.assertEqual(self.read("run/init.nbs"), bytes_of(TWO))
        printed = (0, TWO_ROWS, "2 bodies at time 258\n")
        self.assertEqual(self.run_tool("to", self.path("run/init.nbs")), printed)

    def test_columns_and_rows_in_any_order(self):
        """Columns and rows may be turned round, and blanks and empty lines may stand between."""
        text = "\ufeff z,vx,vy,vz,x,y,out,mass,id\r\n\r\n0,0,-9223372036854775808,0,1,256,1,1,2\r\n"
        text += " 0 , -2,0,2305843009213693951,1099511627775,0,0,4294967295,01\r\n"
        self.assertEqual(self.from_csv(text, "--grav", "1", "--at", "258")[0], 0)
        self.assertEqual(self.read("run/init.nbs"), bytes_of(TWO))

    def test_numbered_without_ids(self):
        self.assertEqual(self.from_csv("mass,x,y,z,vx,vy,vz\n5,0,0,0,0,0,0\n6,0,0,0,0,0,0\n")[0], 0)
        data = self.read("run/init.nbs")
        self.assertEqual(data[32:48], bytes_of("0100000000000000 0500000000000000"))
        self.assertEqual(data[96:112], bytes_of("0200000000000000 0600000000000000"))

    def test_no_bodies(self):
        self.assertEqual(self.from_csv("mass,x,y,z,vx,vy,vz\n")[0], 0)
        self.assertEqual(self.read("run/init.nbs"), bytes_of("464e42534e415031" + "00" * 24))

    def test_options(self):
        row = "mass,x,y,z,vx,vy,vz\n1,0,0,0,0,0,0\n"
        options = "--grav 1152921504606846975 --theta 3/4 --soft 65536 --leaf 32 --every 10 --edge wrap"
        self.assertEqual(self.from_csv(row, *options.split())[0], 0)
        text = (
            "grav = 1152921504606846975\ntheta_num = 3\ntheta_den = 4\nsoft = 65536\nleaf = 32\nevery = 10\n"
        )
        self.assertEqual(self.read("run/params").decode(), text + "edge = wrap\n")

    def test_parameters_that_are_there_stay(self):
        row = "mass,x,y,z,vx,vy,vz\n1,0,0,0,0,0,0\n"
        os.mkdir(self.path("run"))
        self.write("run/params", b"mine")
        self.assertEqual(self.from_csv(row), (0, "1 bodies at time 0; wrote init.nbs\n", ""))
        before = self.read("run/init.nbs")
        why = f"bodies: {self.path('run/params')} is there, so no option can set a parameter\n"
        self.assertEqual(self.from_csv(row.replace("1,0", "2,0"), "--soft", "2"), (1, "", why))
        self.assertEqual((self.read("run/params"), self.read("run/init.nbs")), (b"mine", before))

    def test_grav_that_is_set(self):
        """Then nothing is told of it, nor where `params` has it already."""
        row = "mass,x,y,z,vx,vy,vz\n1,0,0,0,0,0,0\n"
        done = (0, "1 bodies at time 0; wrote init.nbs and params\n", "")
        self.assertEqual(self.from_csv(row, "--grav", "1000000000"), done)
        self.assertEqual(self.from_csv(row), (0, "1 bodies at time 0; wrote init.nbs\n", ""))

    def test_a_folder_in_which_a_run_is_started(self):
        """Its journal has the gate `S` and more than 4096 bytes."""
        row = "mass,x,y,z,vx,vy,vz\n1,0,0,0,0,0,0\n"
        self.write("run/journal", b"S" + b"\0" * 4096)
        self.write("run/init.nbs", b"the first")
        why = (
            f"bodies: a run is started in {self.path('run')}, and goes by its journal, not by init.nbs: take another "
            f"folder, or --replace to write init.nbs there all the same\n"
        )
        self.assertEqual(self.from_csv(row), (1, "", why))
        self.assertEqual(self.read("run/init.nbs"), b"the first")
        self.assertEqual(sorted(os.listdir(self.path("run"))), ["init.nbs", "journal"])
        self.assertEqual(self.from_csv(row, "--replace")[0], 0)
        self.assertEqual(self.read("run/init.nbs")[:8], b"FNBSNAP1")

    def test_a_folder_in_which_none_is_started(self):
        row = "mass,x,y,z,vx,vy,vz\n1,0,0,0,0,0,0\n"
        for journal in (b"", b"S" + b"\0" * 4095, b"\0" * 8192):
            self.write("run/journal", journal)
            self.assertEqual(self.from_csv(row)[0], 0)
            self.assertEqual(self.read("run/journal"), journal)

    def test_missing_files(self):
        self.write("table.csv", b"mass,x,y,z,vx,vy,vz\n")
        for words, name, why in (
            (("from", "none.csv", "run"), "none.csv", "isn't there"),
            (("from", "", "run"), "", "is a folder, and has to be a file"),
            (("from", "table.csv", "table.csv"), "table.csv", "is there, and is no folder"),
            (("to", "none.nbs"), "none.nbs", "isn't there"),
        ):
            with self.subTest(words=words):
                told = f"bodies: {self.path(name)} {why}\n"
                found = self.run_tool(words[0], *(self.path(word) for word in words[1:]))
                self.assertEqual(found, (1, "", told))

    def test_lines_that_are_no_text(self):
        """In the header, in a row, and in a row whose quotes have no end."""
        self.write("table.csv", b"mass,\xff\n")
        words = ("from", self.path("table.csv"), self.path("run"))
        self.assertIn("bodies: line 1: there is no column '\\udcff'", self.run_tool(*words)[2])
        head, row = b"mass,x,y,z,vx,vy,vz\n", b"1,0,0,0,0,0,0\n"
        self.write("table.csv", head + row + b"1,0,0,0,0,0,\xff\n")
        self.assertEqual(self.run_tool(*words)[2], "bodies: line 3: vz is '\\udcff', which is no whole number\n")
        self.write("table.csv", head + row + b'1,0,0,0,0,0,"' + b"0" * 200000)
        self.assertIn("bodies: line 3: field larger than field limit", self.run_tool(*words)[2])

    def test_bad_lines(self):
        good = "id,mass,x,y,z,vx,vy,vz,out\n1,1,0,0,0,0,0,0,0\n"
        for row, why in (
            ("2,1,0,0,0,0,0,0\n", "8 values stand where there are 9 columns"),
            ("2,1.5,0,0,0,0,0,0,0\n", "mass is '1.5', which is no whole number"),
            ("2,1e3,0,0,0,0,0,0,0\n", "mass is '1e3', which is no whole number"),
            ("2,,0,0,0,0,0,0,0\n", "mass is '', which is no whole number"),
            ("2,0,0,0,0,0,0,0,0\n", "mass is 0, and has to be from 1 to 4294967295"),
            ("2,4294967296,0,0,0,0,0,0,0\n", "mass is 4294967296, and has to be from 1 to 4294967295"),
            ("2,1,0,-1,0,0,0,0,0\n", "y is -1, and has to be from 0 to 1099511627775"),
            ("2,1,0,0,1099511627776,0,0,0,0\n", "z is 1099511627776, and has to be from 0 to 1099511627775"),
            ("2,1,0,0,0,0,0,0,2\n", "out is 2, and has to be from 0 to 1"),
            (
                "2,1,0,0,0,0,2305843009213693952,0,0\n",
                "vy is 2305843009213693952, and has to be from -2305843009213693951 to 2305843009213693951",
            ),
            ("1,1,0,0,0,0,0,0,0\n", "id 1 stands on line 2 already"),
        ):
            with self.subTest(row=row):
                self.refuses(good + row, f"line 3: {why}")

    def test_bad_columns(self):
        names = "they are mass, x, y, z, vx, vy, vz, id, out"
        self.refuses("mass,x,y,z,vx,vy,vz,name\n", f"line 1: there is no column 'name'; {names}")
        self.refuses("mass,x,y,z,vx,vy,vz,x\n", "line 1: the column x stands twice")
        self.refuses("mass,x,y,vx,vy,vz\n", "line 1: the column z is missing")
        self.refuses("", "line 1: the column mass is missing")

    def test_too_heavy(self):
        row = "mass,x,y,z,vx,vy,vz\n1000,0,0,0,0,0,0\n1,0,0,0,0,0,0\n"
        # 1001 * 1151769734871975 is 2^60 - 1
        why = "grav 1152921504606846 times mass 1001 is not below 2^60: grav can be at most 1151769734871975"
        self.refuses(row, why, "--grav", "1152921504606846")
        self.assertEqual(self.from_csv(row, "--grav", "1151769734871975")[0], 0)

    def test_bad_snapshots(self):
        for at, value, why in (
            (0, b"\0", "unfinished"),
            (7, b"2", "magic"),
            (11, b"\2", "count"),
            (24, b"\1", "zeros"),
            (8, b"\3", "length"),
            (96, b"\1", "id order at body 1"),
            (40, b"\0\0\0\0", "mass at body 0"),
            (44, b"\2", "flag at body 0"),
            (53, b"\1", "place at body 0"),
            (95, b"\x20", "speed at body 0"),
        ):
            data = bytearray(bytes_of(TWO))
            data[at : at + len(value)] = value
            with self.subTest(why=why):
                self.refuses_snapshot(bytes(data), why)
        self.refuses_snapshot(bytes_of(TWO)[:31], "short")

    def refuses_snapshot(self, data, why):
        self.write("bad.nbs", data)
        path = self.path("bad.nbs")
        self.assertEqual(self.run_tool("to", path), (1, "", f"bodies: {path} is no snapshot: {why}\n"))

    def test_a_reader_that_wants_no_more(self):
        """Of 2000 rows, which a pipe doesn't hold, it takes one."""
        self.write("many.nbs", nbs.snapshot_of([nbs.Body(i, 1, *[2**39] * 6, 0) for i in range(2000)], 0))
        words = [sys.executable, os.path.join(TOOLS, "bodies"), "to", self.path("many.nbs")]
        with subprocess.Popen(words, stdout=subprocess.PIPE, stderr=subprocess.PIPE) as running:
            self.assertEqual(running.stdout.readline(), b"id,mass,x,y,z,vx,vy,vz,out\n")
            running.stdout.close()
            self.assertEqual(running.stderr.read(), b"")
        self.assertEqual(running.returncode, 1)

    def test_bad_words(self):
        for words in ("", "to", "from x", "from x y --leaf 33", "from x y --theta 1", "from x y --edge both"):
            with self.subTest(words=words), self.assertRaises(SystemExit) as ended:
                self.run_tool(*words.split())
            self.assertEqual(ended.exception.code, 2)


if __name__ == "__main__":
    unittest.main()
