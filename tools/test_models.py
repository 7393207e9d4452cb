"""Tests of tools/models: what is known of each model from theory, with the error that so many bodies allow."""

import csv
import math
import os
import re
import shutil
import unittest

from tool_test import TOOLS, ToolTest, tool

import nbs
import units


class Models(ToolTest):
    tool = tool("models")

    def stars(self, *words):
        """The rows of a model's table, as mass, position and velocity."""
        status, _, err = self.run_tool(*words, self.path("model.csv"))
        self.assertEqual((status, err), (0, ""))
        with open(self.path("model.csv"), newline="") as file:
            rows = [[float(text) for text in row] for row in list(csv.reader(file))[1:]]
        return [(row[1], row[2:5], row[5:8]) for row in rows]

    def energies(self, stars):
        """The kinetic energy, and that of gravity, with a constant of gravity of 1."""
        kinetic = sum(mass * sum(c * c for c in v) for mass, _, v in stars) / 2
        potential = 0.0
        for index, (mass, at, _) in enumerate(stars):
            potential -= mass * sum(other / math.dist(at, there) for other, there, _ in stars[:index])
        return kinetic, potential

    def assert_at_rest(self, stars):
        for axis in range(3):
            self.assertAlmostEqual(sum(mass * at[axis] for mass, at, _ in stars), 0, places=12)
            self.assertAlmostEqual(sum(mass * v[axis] for mass, _, v in stars), 0, places=12)

    def test_plummer(self):
        """Of mass and radius 1: the energy of gravity is -3 pi / 32, the kinetic half of that, half of the mass within
        1.3048, and a quarter within 0.8114. 1500 bodies know each of them to about a thirtieth."""
        stars = self.stars("plummer", "1500")
        self.assertEqual(len(stars), 1500)
        self.assertAlmostEqual(sum(mass for mass, _, _ in stars), 1, places=12)
        self.assert_at_rest(stars)
        kinetic, potential = self.energies(stars)
        self.assertAlmostEqual(-2 * kinetic / potential, 1, delta=0.06)
        self.assertAlmostEqual(potential / (-3 * math.pi / 32), 1, delta=0.06)
        radii = sorted(math.hypot(*at) for _, at, _ in stars)
        self.assertAlmostEqual(radii[750] / 1.3048, 1, delta=0.06)
        self.assertAlmostEqual(radii[375] / 0.8114, 1, delta=0.06)
        # No star is faster than its speed of escape, sqrt(2) (1 + r^2)^(-1/4), but for the shift to rest.
        for _, at, v in stars:
            self.assertLess(math.hypot(*v), math.sqrt(2) * (1 + math.hypot(*at) ** 2) ** -0.25 + 0.05)

    def test_cold(self):
        stars = self.stars("cold", "1500")
        self.assert_at_rest(stars)
        self.assertEqual(max(abs(c) for _, _, v in stars for c in v), 0)
        radii = sorted(math.hypot(*at) for _, at, _ in stars)
        self.assertLess(radii[-1], 1.05)
        self.assertAlmostEqual(radii[750], 0.5 ** (1 / 3), delta=0.03)
        kinetic, potential = self.energies(self.stars("cold", "1500", "--virial", "0.1"))
        self.assertAlmostEqual(potential, -0.6, delta=0.02)
        self.assertAlmostEqual(-kinetic / potential, 0.1, delta=0.01)

    def test_pair(self):
        """The energy is -m1 m2 / 2 for a half major axis of 1, and the angular momentum tells the ellipse."""
        stars = self.stars("pair", "--ratio", "0.25", "--eccentricity", "0.5")
        self.assertEqual([mass for mass, _, _ in stars], [0.8, 0.2])
        self.assert_at_rest(stars)
        self.assertAlmostEqual(math.dist(stars[0][1], stars[1][1]), 1.5)
        kinetic, potential = self.energies(stars)
        self.assertAlmostEqual(kinetic + potential, -0.8 * 0.2 / 2)
        turning = sum(mass * (at[0] * v[1] - at[1] * v[0]) for mass, at, v in stars)
        self.assertAlmostEqual(turning, 0.8 * 0.2 * math.sqrt(1 - 0.5**2))

    def test_encounter(self):
        """On a parabola the energy of the two centres is 0, and their angular momentum that of the pericentre."""
        stars = self.stars("encounter", "400", "--ratio", "0.25", "--pericentre", "2", "--apart", "8")
        self.assert_at_rest(stars)
        self.assertEqual(len(stars), 400)
        spheres = stars[:320], stars[320:]
        masses = [sum(mass for mass, _, _ in sphere) for sphere in spheres]
        self.assertAlmostEqual(masses[1] / masses[0], 0.25)
        centre, motion = (
            [
                [sum(star[0] * star[part][axis] for star in sphere) / mass for axis in range(3)]
                for sphere, mass in zip(spheres, masses)
            ]
            for part in (1, 2)
        )
        at = [b - a for a, b in zip(*centre)]
        v = [b - a for a, b in zip(*motion)]
        self.assertAlmostEqual(math.hypot(*at), 8)
        self.assertAlmostEqual(math.hypot(*v) ** 2 / 2, 1 / 8)
        self.assertAlmostEqual(at[0] * v[1] - at[1] * v[0], math.sqrt(2 * 2))
        self.assertLess(v[0], 0)
        # Each is a Plummer sphere of its own: a kinetic energy of 3 pi / 64 M^2, and half of M within 1.3048.
        for sphere, mass, own, own_v in zip(spheres, masses, centre, motion):
            inner = [
                (each, [a - b for a, b in zip(at, own)], [a - b for a, b in zip(v, own_v)])
                for each, at, v in sphere
            ]
            kinetic = sum(each * math.hypot(*v) ** 2 for each, _, v in inner) / 2
            self.assertAlmostEqual(kinetic / (3 * math.pi / 64 * mass**2), 1, delta=0.2)
            radii = sorted(math.hypot(*at) for _, at, _ in inner)
            self.assertAlmostEqual(radii[len(radii) // 2] / 1.3048, 1, delta=0.2)

    def test_disk(self):
        """Each tracer is on a circle: its speed is r^(-1/2), across its radius, in nearly one plane."""
        stars = self.stars("disk", "300", "--inner", "0.5", "--tracer", "1e-6")
        self.assertEqual(stars[0], (1, [0] * 3, [0] * 3))
        for mass, at, v in stars[1:]:
            radius = math.hypot(*at)
            self.assertEqual(mass, 1e-6)
            self.assertTrue(0.5 <= radius <= 1)
            self.assertAlmostEqual(math.hypot(*v), radius**-0.5)
            self.assertAlmostEqual(sum(a * b for a, b in zip(at, v)), 0)
            self.assertLess(abs(at[2]), 0.1)
            self.assertGreater(at[0] * v[1] - at[1] * v[0], 0)

    def test_units(self):
        """A sphere of 1000 solar masses and 2 pc has the speed sqrt(G M / a) as its unit, 1.4666 km/s."""
        plain = self.stars("plummer", "5")
        real = self.stars("plummer", "5", "--units", "pc,Msun,km/s", "--total", "1000Msun", "--size", "2pc")
        for one, other in zip(plain, real):
            self.assertAlmostEqual(other[0], 200)
            for axis in range(3):
                self.assertAlmostEqual(other[1][axis], 2 * one[1][axis])
                self.assertAlmostEqual(other[2][axis], 1.46645 * one[2][axis], places=4)

    def test_seeds(self):
        first = self.stars("plummer", "50")
        self.assertEqual(self.stars("plummer", "50", "--seed", "1"), first)
        self.assertNotEqual(self.stars("plummer", "50", "--seed", "2"), first)

    def test_the_example(self):
        """The bodies of examples/collapse are those of the command that its README names."""
        words = ("cold", "2000", self.path("run"), "--soft", "0.08", "--every", "2")
        self.assertEqual(self.run_tool(*words)[0], 0)
        for name in ("init.nbs", "params"):
            with open(os.path.join(TOOLS, "..", "examples", "collapse", name), "rb") as file:
                self.assertEqual(self.read(f"run/{name}"), file.read())

    def test_a_run(self):
        """The folder of a run has the same bodies as the table."""
        stars = self.stars("plummer", "100")
        status, out, _ = self.run_tool("plummer", "100", self.path("run"))
        self.assertEqual(status, 0)
        self.assertTrue(
            out.startswith("100 bodies at time 0; wrote init.nbs, params and units.json\none unit: ")
        )
        bodies, time = nbs.read_snapshot(self.path("run/init.nbs"))
        params = nbs.read_params(self.path("run/params"))
        self.assertEqual((len(bodies), time), (100, 0))
        self.assertTrue(0.99 * 2**60 < params["grav"] * sum(body.mass for body in bodies) < 2**60)
        # One scale takes all positions of the table to those of the snapshot, but for half a unit.
        shift = [bodies[0].x - bodies[1].x, stars[0][1][0] - stars[1][1][0]]
        for body, (_, at, _) in zip(bodies, stars):
            self.assertAlmostEqual(
                (body.x - bodies[0].x) / (shift[0] / shift[1]), at[0] - stars[0][1][0], places=5
            )
        self.assertEqual(
            self.run_tool("plummer", "100", self.path("run"))[2].split(" ", 1)[1],
            f"{self.path('run')} is the folder of a run already\n",
        )

    def softening(self, *words):
        """The softening of a run in the table's units, and what is told of the choice."""
        status, out, _ = self.run_tool(*words, self.path("run"))
        self.assertEqual(status, 0)
        soft = nbs.read_params(self.path("run/params"))["soft"]
        told = re.search(f"softening: {soft} box units, ([0-9.e-]+)(?:, (.*))?\n", out)
        length = units.scale_in(self.path("run")).length
        self.assertAlmostEqual(float(told[1]) / (soft * length), 1, places=3)
        shutil.rmtree(self.path("run"))
        return soft * length, told[2]

    def test_softening(self):
        """Half of a sphere's mass is within 0.7937, where an orbit takes 2 pi, so in 300 ticks a tick is 0.020944. The
        length s that is moved in one at the depth 1 / s is (2 * 0.020944^2)^(1/3) = 0.09573, however many bodies there
        are, and in 1200 ticks 0.03799. Of 20 bodies a neighbour is at 0.7937 * (8 pi / 3 / 20)^(1/3) = 0.5938, and a
        quarter of it is 0.1485. With 0.4 of the energy of its gravity a sphere shrinks to 2/3, where a body moves
        sqrt(2 / (2/3 * 0.7937)) * 0.020944 = 0.04072 in a tick; with 0.5 it doesn't shrink, and in an orbit a body
        moves sqrt(0.5 / 0.7937) * 0.020944 = 0.01662."""
        fall = "what a body moves in a tick once all have fallen together"
        for words, soft, told in (
            ("cold 300", 0.09573, fall),
            ("cold 20000", 0.09573, fall),
            ("cold 20000 --orbit 1200", 0.03799, fall),
            ("cold 20", 0.1485, "a quarter of the distance of neighbours"),
            ("cold 20000 --virial 0.4", 0.04072, fall),
            ("cold 20000 --virial 0.5", 0.01662, "what that orbit moves in a tick"),
            ("disk 20", 0, "next to none around one heavy body"),
            ("cold 300 --soft 0.25", 0.25, None),
        ):
            with self.subTest(words=words):
                found, found_told = self.softening(*words.split())
                self.assertAlmostEqual(found, soft, delta=0.1 * soft + 1e-6)
                self.assertEqual(found_told, told)

    def test_refusals(self):
        for words, why in (
            (("plummer", "1"), "plummer has 2 bodies or more"),
            (("encounter", "3"), "encounter has 4 bodies or more"),
            (("encounter", "9", "--pericentre", "20"), "--pericentre 20.0 is more than --apart 10.0"),
            (("plummer", "9", "--size", "2pc"), "--size '2pc' is no length, a number alone"),
            (("plummer", "9", "--total", "no"), "--total 'no' is no mass, a number alone"),
        ):
            with self.subTest(words=words):
                self.assertEqual(self.run_tool(*words, self.path("run")), (1, "", f"models: {why}\n"))
                self.assertEqual(os.listdir(self.room), [])
        for words in (
            "",
            "plummer",
            "plummer x y",
            "pair 2 run",
            "pair run --eccentricity 1",
            "cold 5 run --virial nan",
        ):
            with self.subTest(words=words), self.assertRaises(SystemExit) as ended:
                self.run_tool(*words.split())
            self.assertEqual(ended.exception.code, 2)


if __name__ == "__main__":
    unittest.main()
