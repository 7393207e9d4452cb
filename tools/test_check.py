"""Tests of tools/check, on snapshots of a few bodies whose sums are taken by hand."""

import csv
import io
import os
import sys
import unittest
from unittest import mock

from tool_test import ToolTest, needs, tool

import nbs
from nbs import Body

PARAMS = "grav = 1000\ntheta_num = 1\ntheta_den = 2\nsoft = 12\nleaf = 8\nevery = 100\n"

# A mass of 2 and one of 3, 3 apart on x and 4 on y, and a third that is out.
BEFORE = [
    Body(1, 2, 100, 100, 7, 5, 0, -1, 0),
    Body(4, 3, 103, 104, 7, 0, -2, 1, 0),
    Body(9, 100, 0, 0, 0, 2**62, 0, 0, 1),
]
AFTER = [BEFORE[0]._replace(vx=8, vz=3), BEFORE[1]._replace(vx=-2), BEFORE[2]]


class Check(ToolTest):
    tool = tool("check")

    def write_run(self, params=PARAMS):
        self.write("run/params", params.encode())
        self.write("run/init.nbs", nbs.snapshot_of(BEFORE, 5))
        self.write("run/snap.10.nbs", nbs.snapshot_of(AFTER, 15))
        self.write("run/snap.9.nbs", nbs.snapshot_of(BEFORE, 14))
        self.write("run/once.nbs", nbs.snapshot_of(BEFORE, 7))

    def rows(self, *words):
        status, out, err = self.run_tool("--csv", *words)
        self.assertEqual((status, err), (0, ""))
        return list(csv.DictReader(io.StringIO(out)))

    @needs("numpy")
    def test_sums(self):
        """Momentum (10, -6, 1) and 2 * 26 + 3 * 5 = 67; then (10, -6, 9) and 2 * 73 + 3 * 9 = 173."""
        self.write_run()
        rows = self.rows(self.path("run"))
        self.assertEqual(
            [row["snapshot"] for row in rows], ["init.nbs", "snap.9.nbs", "snap.10.nbs", "once.nbs"]
        )
        self.assertEqual([row["time"] for row in rows], ["5", "14", "15", "7"])
        first, last = rows[0], rows[2]
        names = ("out", "mass", "px", "py", "pz", "2 kinetic")
        self.assertEqual([first[name] for name in names], ["1", "5", "10", "-6", "1", "67"])
        self.assertEqual([last[name] for name in names], ["1", "5", "10", "-6", "9", "173"])
        # -2 * 1000 * 2 * 3 / sqrt(3^2 + 4^2 + 12^2)
        self.assertAlmostEqual(float(first["potential"]), -12000 / 13, places=2)
        self.assertEqual([row["drift of momentum"] for row in rows[:2]], ["0.00e+00", "0.00e+00"])
        # 8 / sqrt(5 * 173). About the centre of mass the 67 and 173 are 67 - 137 / 5 and 173 - 217 / 5, so 39.6 and
        # 129.6: the change is 90 / 2, over 12000 / 13 - 39.6 / 2.
        self.assertAlmostEqual(float(last["drift of momentum"]), 0.2720, places=3)
        self.assertAlmostEqual(float(last["drift of energy"]), 45 / (12000 / 13 - 19.8), places=3)

    @needs("numpy")
    def test_a_box_that_wraps(self):
        """The nearest image of a body at 2^40 - 3 is 3 to the left of 0."""
        self.write("run/params", (PARAMS + "edge = wrap\n").encode())
        bodies = [Body(1, 2, 0, 0, 0, 0, 0, 0, 0), Body(2, 3, 2**40 - 3, 4, 0, 0, 0, 0, 0)]
        self.write("run/init.nbs", nbs.snapshot_of(bodies, 0))
        self.assertAlmostEqual(float(self.rows(self.path("run"))[0]["potential"]), -12000 / 13, places=2)

    @needs("numpy")
    def test_heavy_and_light(self):
        """A body's own softened potential, 10^9 times the pair's here, isn't in the sum."""
        self.write("run/params", PARAMS.replace("soft = 12", "soft = 1").encode())
        bodies = [Body(1, 2**32 - 1, 0, 0, 0, 0, 0, 0, 0), Body(2, 1, 2**30, 0, 0, 0, 0, 0, 0)]
        self.write("run/init.nbs", nbs.snapshot_of(bodies, 0))
        self.assertAlmostEqual(float(self.rows(self.path("run"))[0]["potential"]) / -8000, 1, places=6)

    def test_sums_are_exact(self):
        """Of numbers that no floating point holds: (2^32 - 1) (2^61 - 1)."""
        bodies = [Body(1, 2**32 - 1, 0, 0, 0, 2**61 - 1, 1 - 2**61, 1, 0)]
        self.write("one.nbs", nbs.snapshot_of(bodies, 0))
        status, out, err = self.run_tool("--csv", self.path("one.nbs"))
        row = next(csv.DictReader(io.StringIO(out)))
        self.assertEqual((status, err), (0, f"check: no potential: there is no {self.path('params')}\n"))
        self.assertEqual(int(row["px"]), (2**32 - 1) * (2**61 - 1))
        self.assertEqual(int(row["2 kinetic"]), (2**32 - 1) * (2 * (2**61 - 1) ** 2 + 1))
        self.assertEqual((row["potential"], row["drift of energy"]), ("-", "-"))

    def test_too_many_for_a_potential(self):
        self.write_run()
        status, out, err = self.run_tool("--most", "2", self.path("run"))
        self.assertEqual((status, err), (0, "check: no potential: 3 bodies are more than --most 2\n"))
        self.assertEqual(len({len(line) for line in out.splitlines()}), 1)

    def test_unfinished_snapshots(self):
        """What nbody leaves under a tick's name that it has emptied, or while it writes, is passed over."""
        self.write_run()
        before = self.run_tool("--most", "0", "--csv", self.path("run"))
        self.write("run/snap.11.nbs", b"")
        self.write("run/snap.12.nbs", b"\0" + nbs.snapshot_of(BEFORE, 17)[1:])
        names = [self.path(f"run/snap.{number}.nbs") for number in (11, 12)]
        notes = "".join(f"check: {name} isn't finished, and is passed over\n" for name in names)
        found = self.run_tool("--most", "0", "--csv", self.path("run"))
        self.assertEqual(found, (0, before[1], before[2] + notes))
        why = "check: there is no finished snapshot\n"
        self.assertEqual(self.run_tool(*names), (1, "", notes + why))

    def test_refusals(self):
        self.write_run()
        self.write("run/snap.11.nbs", nbs.snapshot_of(BEFORE[:2], 16))
        why = f"check: {self.path('run/snap.11.nbs')} has other bodies than {self.path('run/init.nbs')}\n"
        self.assertEqual(self.run_tool("--most", "0", self.path("run"))[2].splitlines(True)[-1], why)
        self.write("run/snap.11.nbs", b"FNBSNAP1")
        why = f"check: {self.path('run/snap.11.nbs')} is no snapshot: short\n"
        self.assertEqual(self.run_tool("--most", "0", self.path("run"))[2].splitlines(True)[-1], why)
        self.write("empty/other", b"")
        why = f"check: {self.path('empty')} has no snapshot: no init.nbs, snap.*.nbs or once.nbs\n"
        self.assertEqual(self.run_tool(self.path("empty")), (1, "", why))
        self.assertEqual(self.run_tool(self.path("none.nbs"))[0], 1)

    @needs("numpy")
    def test_bad_parameters(self):
        for text, why in (
            (PARAMS.replace("leaf", "leaves"), "line 5"),
            (PARAMS + "edge = both\n", "line 7"),
            (PARAMS + "edge = 1\n", "line 7"),
            ("# none\n\n" + PARAMS + "soft = 3\n", "line 9 repeats a name"),
            (PARAMS.replace("leaf = 8", "leaf = 33"), "line 5 is out of range"),
            (PARAMS.replace("leaf = 8\n", ""), "leaf is missing"),
        ):
            with self.subTest(why=why):
                self.write_run(text)
                status, _, err = self.run_tool(self.path("run"))
                self.assertEqual((status, err), (1, f"check: {self.path('run/params')}: {why}\n"))


class Modules(unittest.TestCase):
    """What is asked for where a module is missing."""

    def test_it_is_named(self):
        with mock.patch.object(nbs, "DEBIANS_PYTHON", "/none/python3"):
            with self.assertRaises(nbs.Refused) as refused:
                nbs.require("numpie", "mathplotlib")
        why = "has no numpie and no mathplotlib: apt-get install -y python3-numpie python3-mathplotlib"
        self.assertEqual(str(refused.exception), f"{sys.executable} {why}")

    def test_debians_python_goes_on(self):
        """Where it has the module, and the one that runs hasn't: /bin/true stands for it, which has them all."""
        with mock.patch.object(nbs, "DEBIANS_PYTHON", "/bin/true"), mock.patch.object(os, "execv") as execv:
            with self.assertRaises(nbs.Refused):
                nbs.require("numpie")
        execv.assert_called_once_with("/bin/true", ["/bin/true", *sys.argv])
        with mock.patch.object(nbs, "DEBIANS_PYTHON", "/bin/false"), mock.patch.object(os, "execv") as execv:
            with self.assertRaises(nbs.Refused):
                nbs.require("numpie")
        execv.assert_not_called()


if __name__ == "__main__":
    unittest.main()
