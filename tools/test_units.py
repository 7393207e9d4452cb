"""Tests of units: a table in units of its own becomes a run's folder, and a snapshot such a table again."""

import csv
import io
import json
import math
import os
import random
import re
import unittest

from tool_test import ToolTest, needs, tool

import nbs
import units
from nbs import Body

NAMES = ["mass", "x", "y", "z", "vx", "vy", "vz"]
MIDDLE = 2**39


def table_text(rows, columns=NAMES):
    text = io.StringIO()
    csv.writer(text, lineterminator="\n").writerows([columns, *rows])
    return text.getvalue()


def cluster(count, seed=1):
    """Rows of stars in pc, Msun and km/s: a ball of 2 pc, at 8 kpc from the table's origin."""
    draw = random.Random(seed)
    return [
        [
            draw.uniform(0.5, 2),
            *(draw.gauss(at, 1.2) for at in (8000, 20, -3)),
            *(draw.gauss(0, 1) for _ in range(3)),
        ]
        for _ in range(count)
    ]


class TableTest(ToolTest):
    tool = tool("bodies")

    def from_rows(self, rows, *options, columns=NAMES, folder="run"):
        self.write("table.csv", table_text(rows, columns).encode())
        return self.run_tool("from", self.path("table.csv"), self.path(folder), *options)

    def from_stars(self, *options, count=200):
        return self.from_rows(cluster(count), "--units", "pc,Msun,km/s", *options)


class Units(TableTest):
    def params(self):
        return nbs.read_params(self.path("run/params"))

    def bodies(self):
        return nbs.read_snapshot(self.path("run/init.nbs"))[0]

    def refuses(self, why, *options, rows=None):
        """`why` is what the line begins with."""
        rows = cluster(200) if rows is None else rows
        status, out, err = self.from_rows(rows, "--units", "pc,Msun,km/s", *options)
        self.assertEqual((status, out), (1, ""))
        self.assertTrue(err.startswith(f"bodies: {why}"), err)
        self.assertFalse(os.path.exists(self.path("run")))
        return err

    def test_the_earths_orbit(self):
        """u is the distance over 2^24, m a thousandth of the sun, and a tick 103400 s, as in the README."""
        rows = [[1, 0, 0, 0, 0, 0, 0], [0.001, 1, 0, 0, 0, 0.0172021, 0]]
        given = ("--length", "8916.7279m", "--mass", "0.001Msun", "--tick", "103400s")
        status, out, _ = self.from_rows(rows, "--units", "AU,Msun,AU/d", *given)
        self.assertEqual(status, 0)
        self.assertIn("a circular orbit there: 305 ticks", out)
        # 1.3271244e17 * 103400^2 / (2 * 8916.7279^3) = 1.0007e15, in metres and seconds
        self.assertAlmostEqual(self.params()["grav"] / 1.0007e15, 1, places=4)
        sun, earth = self.bodies()
        self.assertEqual((sun.mass, earth.mass), (1000, 1))
        self.assertEqual((sun.x, sun.y, sun.z, earth.y, earth.z), (MIDDLE,) * 5)
        self.assertAlmostEqual(earth.x - MIDDLE, 2**24, delta=2)
        # 0.0172021 * 103400 / 86400 * 2^24
        self.assertAlmostEqual(earth.vy, 345389, delta=2)

    def assert_newtons_constant(self, places=9):
        """grav is G * m * t^2 / (2 u^3) in metres, kilograms and seconds; G times a solar mass is 1.3271244e20.
        Gives the tick in seconds."""
        with open(self.path("run/units.json")) as file:
            scale = json.load(file)
        self.assertEqual(scale["table"], "pc,Msun,km/s")
        length = scale["length"] * 3.0856775814913673e16
        time = length / (scale["velocity"] * 1000)
        grav = 1.3271244e20 * scale["mass"] * time**2 / (2 * length**3)
        self.assertAlmostEqual(self.params()["grav"] / grav, 1, places=places)
        return time

    def test_newtons_constant(self):
        """What isn't given takes up the rounding of grav, here a thousandth or so; where all is given, nothing can."""
        for given, places in (
            (["--tick", "100kyr", "--mass", "5e-10Msun"], 9),
            (["--length", "2e-4pc", "--orbit", "25", "--mass", "1e-6Msun"], 9),
            (["--length", "2e-4pc", "--tick", "0.85Myr", "--mass", "1e-7Msun"], 1),
        ):
            with self.subTest(given=given):
                self.assertEqual(self.from_stars(*given)[0], 0)
                self.assert_newtons_constant(places)
                for name in os.listdir(self.path("run")):
                    os.remove(self.path(f"run/{name}"))

    def test_pulls_on_a_body(self):
        """14 pi / 3 * 2^3 at each of log8 1000 = 3.3219 levels, but never more than there are others."""
        for count, theta, pulls in (
            (1000, (1, 2), 389.6),
            (1000, (0, 1), 999),
            (100, (1, 2), 99),
            (2, (1, 1), 1),
        ):
            self.assertAlmostEqual(units.pulls_on_a_body(count, theta), pulls, places=1)

    def test_units_that_are_chosen(self):
        status, out, _ = self.from_stars()
        self.assertEqual(status, 0)
        rows, bodies, grav = cluster(200), self.bodies(), self.params()["grav"]
        total = sum(body.mass for body in bodies)
        self.assertLess(grav * total, 2**60)
        self.assertGreater(grav * total, 0.99 * 2**60)
        time = self.assert_newtons_constant()
        # The orbit at the half-mass radius takes as many ticks as were told.
        # Half of the stars are within 1.538 sigma of the ball's middle, as coordinates are normal.
        radius, half = 1.538 * 1.2, sum(row[0] for row in rows) / 2
        period = 2 * math.pi * math.sqrt((radius * 3.0856776e16) ** 3 / (half * 1.3271244e20))
        told = int(re.search(r"there: ([0-9]+) ticks", out).group(1))
        self.assertAlmostEqual(period / time / told, 1, delta=0.15)
        self.assertTrue(100 <= told <= 400)

    def test_what_is_given_stays(self):
        """A parsec has 206264.806 AU, and over a kilometre a second it is 977.79222 kyr."""
        for name, text, found_in in (
            ("length", "0.05AU", lambda scale: scale.length * 206264.806 / 0.05),
            ("tick", "100kyr", lambda scale: scale.tick * 977.79222 / 100),
            ("mass", "1e-5Msun", lambda scale: scale.mass / 1e-5),
        ):
            with self.subTest(name=name):
                rows = cluster(200)
                given = ("--units", "pc,Msun,km/s", f"--{name}", text)
                self.assertEqual(self.from_rows(rows, *given, folder=name)[0], 0)
                self.assertAlmostEqual(found_in(units.scale_in(self.path(name))), 1, places=6)
        self.assertIn("a circular orbit there: 80 ticks", self.from_stars("--orbit", "80")[1])

    def test_there_and_back(self):
        """What `to` prints gives the same snapshot again, by the units that stand in the folder."""
        self.assertEqual(self.from_stars(count=1000)[0], 0)
        before = self.read("run/init.nbs")
        status, out, err = self.run_tool("to", self.path("run/init.nbs"))
        self.assertEqual((status, err), (0, "1000 bodies at time 0, which is 0s; units pc,Msun,km/s\n"))
        printed = list(csv.reader(io.StringIO(out)))
        self.assertEqual(printed[0], ["id", *NAMES, "out"])
        for row, found in zip(cluster(1000), printed[1:]):
            for value, text in zip(row, found[1:8]):
                self.assertAlmostEqual(value, float(text), delta=1e-5)
        self.write("again.csv", out.encode())
        os.remove(self.path("run/init.nbs"))
        done = (0, "1000 bodies at time 0; wrote init.nbs\n", "")
        self.assertEqual(self.run_tool("from", self.path("again.csv"), self.path("run")), done)
        self.assertEqual(self.read("run/init.nbs"), before)
        whole = self.run_tool("to", "--box-units", self.path("run/init.nbs"))[1]
        self.write("whole.csv", whole.encode())
        self.assertEqual(self.run_tool("from", "--box-units", self.path("whole.csv"), self.path("run")), done)
        self.assertEqual(self.read("run/init.nbs"), before)
        self.assertEqual(whole.splitlines()[1].split(",")[1:], [str(value) for value in self.bodies()[0][1:]])

    def test_a_thousand_random_bodies(self):
        """Of whole numbers of every size, byte for byte through CSV."""
        draw = random.Random(2)
        bodies = []
        for number in sorted({draw.randrange(2**64) for _ in range(1000)}):
            out = draw.randrange(2)
            fastest = 2**63 if out else 2**61
            speeds = [draw.randrange(1 - fastest, fastest) for _ in range(3)]
            bodies.append(
                [
                    number,
                    draw.randrange(1, 2**32),
                    *(draw.randrange(2**40) for _ in range(3)),
                    *speeds,
                    out,
                ]
            )
        columns = ["id", *NAMES, "out"]
        self.assertEqual(self.from_rows(bodies, "--grav", "1", columns=columns)[0], 0)
        self.assertEqual([list(body) for body in self.bodies()], bodies)
        before = self.read("run/init.nbs")
        text = self.run_tool("to", self.path("run/init.nbs"))[1]
        self.assertEqual(text, table_text(bodies, columns))
        draw.shuffle(bodies)
        self.assertEqual(self.from_rows(bodies, "--grav", "1", columns=columns, folder="shuffled")[0], 0)
        self.assertEqual(self.read("shuffled/init.nbs"), before)

    def test_the_loss_that_is_told(self):
        """Of a direct sum: what whole pulls lack of exact ones, toward the middle, of bodies at half the mass."""
        out = self.from_stars("--theta", "0/1", "--orbit", "400")[1]
        told = float(re.search("a tick loses about .*, ([0-9.]+) %", out).group(1)) / 100
        params, bodies = self.params(), self.bodies()
        exact = lacking = 0.0
        for body in sorted(bodies, key=lambda each: math.dist(each[2:5], [MIDDLE] * 3))[80:120]:
            inward = [(MIDDLE - at) / math.dist(body[2:5], [MIDDLE] * 3) for at in body[2:5]]
            for other in bodies:
                away = [b - a for a, b in zip(body[2:5], other[2:5])]
                squared = sum(d * d for d in away) + params["soft"] ** 2
                pull = [params["grav"] * other.mass * d / squared**1.5 for d in away]
                exact += sum(part * along for part, along in zip(pull, inward))
                lacking += sum((part - math.trunc(part)) * along for part, along in zip(pull, inward))
        self.assertTrue(0.7 < told / (lacking / exact) < 1.4, (told, lacking / exact))

    def test_natural_units(self):
        """With nbody G is 1: two bodies of mass 1/2 at the distance 1 go round in 2 pi."""
        rows = [[0.5, -0.5, 0, 0, 0, -0.5, 0], [0.5, 0.5, 0, 0, 0, 0.5, 0]]
        status, out, _ = self.from_rows(rows, "--units", "nbody", "--orbit", "100")
        self.assertEqual(status, 0)
        one, two = self.bodies()
        grav = self.params()["grav"]
        # On a circle the two half kicks of a tick are 2 v^2 / d: each is at d / 2 from the middle.
        self.assertAlmostEqual(
            2 * grav * two.mass / (two.x - one.x) ** 2 / (2 * one.vy**2 / (two.x - one.x)), 1, places=4
        )
        self.assertEqual(
            self.run_tool("to", self.path("run/init.nbs"))[2], "2 bodies at time 0, which is 0; units nbody\n"
        )

    def test_what_is_told_of_rounding(self):
        """Masses of 0.5 and more in units of 0.3, and a grav of some tens; neither by itself."""
        self.assertIn("rounding masses changes them by up to ", self.from_stars("--mass", "0.3Msun")[1])
        os.remove(self.path("run/params"))
        os.remove(self.path("run/units.json"))
        given = ("--length", "2e-4pc", "--tick", "0.85Myr", "--mass", "3e-8Msun")
        out = self.from_stars(*given)[1]
        self.assertIn("rounding grav changes all forces by ", out)
        self.assertNotIn("rounding masses", out)
        os.remove(self.path("run/params"))
        os.remove(self.path("run/units.json"))
        self.assertNotIn("rounding grav", self.from_stars()[1])

    def test_one_body(self):
        """Where nothing tells units, those that are given are taken."""
        given = ("--length", "1AU", "--mass", "1Msun", "--tick", "1yr")
        status, out, _ = self.from_rows([[1, 1, 2, 3, 4.74, 0, 0]], "--units", "AU,Msun,km/s", *given)
        # grav is 4 pi^2 / 2 = 19.74, and 4.74 km/s are an AU in a year.
        told = "rounding grav changes all forces by 1.3 %: by a larger --mass less"
        self.assertEqual((status, out.splitlines()[-1]), (0, told))
        self.assertEqual(self.params()["grav"], 20)
        self.assertEqual(self.bodies(), [Body(1, 1, MIDDLE, MIDDLE, MIDDLE, 1, 0, 0, 0)])

    def test_softening(self):
        self.assertEqual(self.from_stars("--soft", "0.1pc")[0], 0)
        self.assertAlmostEqual(self.params()["soft"] * units.scale_in(self.path("run")).length, 0.1, places=6)

    def test_bad_softening(self):
        self.refuses("--soft '1Msun' is no length", "--soft", "1Msun")
        self.refuses("--soft is ", "--soft", "10Mpc")

    def test_a_choice_under_which_forces_vanish(self):
        self.assertRegex(
            self.refuses("forces vanish", "--length", "1AU", "--tick", "100yr"),
            "--tick has to be at least .*kyr",
        )
        self.assertRegex(
            self.refuses("forces vanish", "--length", "1pc", "--tick", "1Myr"), "--length can be at most .*pc"
        )
        self.assertRegex(
            self.refuses("forces vanish", "--tick", "1yr"),
            "the finest choice that is felt is --length .* with --tick .*, or --orbit",
        )
        self.assertRegex(
            self.refuses(
                "forces vanish: grav is", "--length", "2e-4pc", "--tick", "0.85Myr", "--mass", "5e-10Msun"
            ),
            "grav .* rounds to 0: --mass has to be at least",
        )

    def test_what_a_refusal_advises_does(self):
        """Its limit, a little to the right side, is taken."""
        why = self.refuses("forces vanish", "--length", "1AU", "--tick", "100yr")
        least = float(re.search("at least ([0-9.]+)kyr", why).group(1))
        self.refuses("forces vanish", "--length", "1AU", "--tick", f"{0.99 * least}kyr")
        self.assertEqual(self.from_stars("--length", "1AU", "--tick", f"{1.01 * least}kyr")[0], 0)

    def test_limits(self):
        why = self.refuses("grav times mass is", "--length", "0.001AU", "--tick", "100kyr")
        time, length = re.search(
            "--tick can be at most ([0-9.]+)yr, or --length has to be at least ([0-9.e-]+)pc", why
        ).groups()
        self.refuses("grav times mass is", "--length", "0.001AU", "--tick", f"{1.01 * float(time)}yr")
        self.refuses("grav times mass is", "--length", f"{0.99 * float(length)}pc", "--tick", "100kyr")
        self.refuses("a typical orbit takes", "--tick", "1Gyr")
        self.refuses(
            "the lightest body has less than half a unit of mass: --mass can be at most", "--mass", "10Msun"
        )
        self.refuses(
            "the heaviest body has more than 4294967295 units of mass: --mass has to be at least",
            "--mass",
            "1e-12Msun",
        )

    def test_bodies_that_do_not_fit(self):
        rows = cluster(200)
        far = [*rows[:5], [1, 1e9, 0, 0, 0, 0, 0], *rows[5:]]
        self.refuses("line 7: x is 1000000000.0, outside the box: --length has to be at least", rows=far)
        fast = [*rows[:5], [1, 8000, 0, 0, 1e20, 0, 0], *rows[5:]]
        self.refuses("line 7: vx is ", rows=fast)
        light = [*rows[:5], [1e-12, 8000, 0, 0, 0, 0, 0], *rows[5:]]
        self.refuses(
            "the heaviest body has more than 2^32 times the mass of the lightest: no --mass fits both",
            rows=light,
        )
        self.refuses("no two bodies are apart", rows=rows[:1])
        self.refuses("there are no bodies to choose units for", rows=[])

    def test_bad_lines(self):
        for bad, why in (
            ([1, "1,5", 0, 0, 0, 0, 0], "x is '1,5', which is no number"),
            ([1, "nan", 0, 0, 0, 0, 0], "x is 'nan', which is no number"),
            ([1, "1e999", 0, 0, 0, 0, 0], "x is '1e999', which is too large"),
            ([0, 0, 0, 0, 0, 0, 0], "mass is 0.0, and has to be above 0"),
            ([-1, 0, 0, 0, 0, 0, 0], "mass is -1.0, and has to be above 0"),
            ([1, 0, 0, 0, 0, 0], "6 values stand where there are 7 columns"),
        ):
            with self.subTest(bad=bad):
                self.refuses(f"line 3: {why}", rows=[cluster(1)[0], bad])

    def test_bad_options(self):
        self.refuses("--length '3Msun' is no length", "--length", "3Msun")
        self.refuses("--tick '-3yr' is no time", "--tick=-3yr")
        self.refuses("--mass '0Msun' is no mass", "--mass", "0Msun")
        self.refuses("--grav can't be set with --units", "--grav", "5")
        self.refuses("--tick and --orbit both say how long a tick is", "--tick", "100kyr", "--orbit", "100")
        self.refuses("--box-units are nbody's own, and have no --units", "--box-units")
        self.assertIn("'furlong' is no unit", self.from_rows(cluster(9), "--units", "furlong")[2])
        self.assertIn(
            "--length '1pc' is no length, a number alone",
            self.from_rows(cluster(9), "--units", "nbody", "--length", "1pc")[2],
        )
        self.assertEqual(
            self.from_rows([[1] * 7], "--length", "1pc")[2],
            "bodies: --length needs --units, the units of the table\n",
        )
        self.assertEqual(
            self.from_rows([[1] * 7], "--soft", "1pc")[2],
            "bodies: --soft '1pc' is no whole number, and needs --units\n",
        )
        self.assertEqual(self.from_stars()[0], 0)
        self.assertIn("so no option can set a parameter", self.from_stars()[2])
        os.remove(self.path("run/params"))
        self.assertIn("has units.json but no params", self.from_stars()[2])
        self.write("run/units.json", b'{"table": "pc,Msun,km/s"}')
        self.assertIn("is no scale of units", self.run_tool("to", self.path("run/init.nbs"))[2])


@needs("numpy")
class Npy(TableTest):
    """The same tables as .npy."""

    def test_whole_numbers(self):
        import numpy

        draw = random.Random(3)
        rows = [
            [draw.randrange(1, 2**32), *(draw.randrange(2**40) for _ in range(6))] for _ in range(1000)
        ]
        self.assertEqual(self.from_rows(rows, "--grav", "1")[0], 0)
        numpy.save(self.path("plain.npy"), numpy.array(rows))
        self.assertEqual(
            self.run_tool("from", self.path("plain.npy"), self.path("plain"), "--grav", "1")[0], 0
        )
        self.assertEqual(self.read("plain/init.nbs"), self.read("run/init.nbs"))
        self.assertEqual(self.run_tool("to", self.path("run/init.nbs"), self.path("named.npy"))[0], 0)
        self.assertEqual(numpy.load(self.path("named.npy"))["vz"].tolist(), [row[6] for row in rows])
        self.assertEqual(
            self.run_tool("from", self.path("named.npy"), self.path("named"), "--grav", "1")[0], 0
        )
        self.assertEqual(self.read("named/init.nbs"), self.read("run/init.nbs"))

    def test_decimal_numbers(self):
        import numpy

        numpy.save(self.path("stars.npy"), numpy.array(cluster(200)))
        words = ("from", self.path("stars.npy"), self.path("npy"), "--units", "pc,Msun,km/s")
        self.assertEqual(self.run_tool(*words)[0], 0)
        self.assertEqual(self.from_stars()[0], 0)
        for name in ("init.nbs", "params", "units.json"):
            self.assertEqual(self.read(f"npy/{name}"), self.read(f"run/{name}"))
        self.assertEqual(self.run_tool("to", self.path("run/init.nbs"), self.path("back.npy"))[0], 0)
        again = numpy.load(self.path("back.npy"))
        self.assertLess(abs(again["x"] - numpy.array(cluster(200))[:, 1]).max(), 1e-5)

    def test_bad_arrays(self):
        import numpy

        for array, why in (
            (numpy.ones((2, 6)), "has the shape (2, 6), and not rows of mass, x, y, z, vx, vy, vz"),
            (numpy.ones(2, [("mass", "f8")]), "its fields: the column x is missing"),
            (
                numpy.array([[1, 1, 1, 1, 1, 1, 1], [1, 1.5, 1, 1, 1, 1, 1]]),
                "record 2: x is '1.5', which is no whole number",
            ),
        ):
            with self.subTest(why=why):
                numpy.save(self.path("bad.npy"), array)
                status, out, err = self.run_tool("from", self.path("bad.npy"), self.path("run"))
                self.assertEqual((status, out), (1, ""))
                self.assertIn(why, err)
                self.assertFalse(os.path.exists(self.path("run")))
        self.write("bad.npy", b"no array")
        self.assertIn(
            "is no .npy file of numbers", self.run_tool("from", self.path("bad.npy"), self.path("run"))[2]
        )


if __name__ == "__main__":
    unittest.main()
