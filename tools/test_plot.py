"""Tests of tools/plot and of the journal that it reads, on files that are written here."""

import contextlib
import io
import os
import random
import resource
import shutil
import stat
import subprocess
import unittest
from unittest import mock

from tool_test import LACKS, ToolTest, bytes_of, needs, tool

import nbs
import units
from nbs import Body, Leg, Refused, Tick

MIDDLE = 2**39
PARAMETERS = (10**9, 1, 2, 1, 8, 100)


def numbers(*values):
    return b"".join(value.to_bytes(8, "little") for value in values)


def page_0(form=b"SNBJRNL2", bodies=3, time=10, out=1, edge=0, parameters=PARAMETERS):
    return (form + numbers(*parameters, bodies, time, out, edge)).ljust(4096, b"\0")


def leg(target):
    return b"GL".ljust(8, b"\0") + numbers(target, 0, 0)


def tick(number, out):
    return b"GT".ljust(8, b"\0") + numbers(number, out, 0)


def pages(*entries):
    data = b"".join(entries)
    return data.ljust(-(-(len(data) + 1) // 4096) * 4096, b"\0")


class Journals(ToolTest):
    """The journal's form, by docs/FORMATS.md."""

    def test_entries(self):
        """A leg from 10 to 12, its ticks, and one of the leg back to 9."""
        data = page_0() + pages(leg(12), tick(1, 1), tick(2, 2), leg(9), tick(3, 2))
        found = nbs.journal_of(data)
        entries = [Leg(12), Tick(1, 11, 1), Tick(2, 12, 2), Leg(9), Tick(3, 11, 2)]
        self.assertEqual((found.bodies, found.time, found.out, found.entries), (3, 10, 1, entries))
        self.assertEqual(found.params["edge"], "open")
        self.assertEqual(found.params["grav"], 10**9)
        self.assertEqual(
            bytes_of("4754000000000000 0100000000000000 0100000000000000" + "00" * 8), tick(1, 1)
        )

    def test_what_is_not_looked_at(self):
        """What stands behind the first gate that isn't open, and pages behind it."""
        data = page_0() + pages(leg(12)) + b"GX"
        self.assertEqual(nbs.journal_of(data).entries, [Leg(12)])
        data = page_0() + pages(leg(12), b"\0" + tick(1, 1)[1:], b"GX" * 16)
        self.assertEqual(nbs.journal_of(data).entries, [Leg(12)])

    def test_more_than_a_page(self):
        entries = [leg(1000), *(tick(number, 1) for number in range(1, 201))]
        found = nbs.journal_of(page_0() + pages(*entries))
        self.assertEqual(len(found.entries), 201)
        self.assertEqual(found.entries[-1], Tick(200, 210, 1))

    def test_not_started(self):
        for data in (b"", page_0(), b"\0" + page_0()[1:] + pages(leg(12))):
            self.assertIsNone(nbs.journal_of(data))

    def test_damage(self):
        for data, place in (
            (page_0(form=b"SNBJRNL3") + pages(), 0),
            (page_0(form=b"SNBJRNL1", edge=1) + pages(), 0),
            (page_0(bodies=0) + pages(), 0),
            (page_0(parameters=(1, 1, 0, 1, 8, 100)) + pages(), 0),
            (page_0()[:-1] + b"\1" + pages(), 0),
            (page_0() + pages()[:-1], 4096),
            (page_0() + pages(tick(1, 1)), 4096),
            (page_0() + pages(leg(10)), 4096),
            (page_0() + pages(leg(12), leg(13)), 4128),
            (page_0() + pages(leg(12), tick(2, 1)), 4128),
            (page_0() + pages(leg(12), tick(1, 0)), 4128),
            (page_0() + pages(leg(12), tick(1, 4)), 4128),
            (page_0() + pages(leg(11), tick(1, 1), tick(2, 1)), 4160),
            (page_0() + pages(leg(12)[:-1] + b"\1"), 4096),
            (page_0() + pages(leg(2**40 + 11)), 4096),
            (page_0() + pages(leg(1000), *(tick(number, 1) for number in range(1, 128)))[:4096], 8192),
        ):
            with self.subTest(place=place), self.assertRaisesRegex(Refused, f"^damaged at {place}$"):
                nbs.journal_of(data)

    def test_version_1_is_open(self):
        self.assertEqual(nbs.journal_of(page_0(form=b"SNBJRNL1") + pages()).params["edge"], "open")
        self.assertEqual(nbs.journal_of(page_0(edge=1) + pages()).params["edge"], "wrap")


@needs("numpy", "matplotlib")
class Plot(ToolTest):
    tool = None if LACKS else tool("plot")

    def bodies(self, shift=0, count=200):
        draw = random.Random(4)
        ball = [[round(draw.gauss(0, 1e6)) for _ in range(3)] for _ in range(count)]
        return [
            Body(
                index + 1,
                5,
                *(MIDDLE + shift + c for c in at),
                *(draw.randrange(-99, 99) for _ in range(3)),
                0,
            )
            for index, at in enumerate(ball)
        ]

    def write_run(self, *ticks):
        self.write("run/init.nbs", nbs.snapshot_of(self.bodies(), 0))
        for number in ticks:
            self.write(f"run/snap.{number}.nbs", nbs.snapshot_of(self.bodies(number * 10000), number))

    def pixels(self, name):
        from matplotlib.image import imread

        return imread(self.path(name))[:, :, :3]

    def plots(self, name, *words):
        self.assertEqual(self.run_tool(*words), (0, f"wrote {self.path(name)}\n", ""))
        found = self.pixels(name)
        self.assertGreater(found.std(), 0.01)
        return found

    def test_where_a_picture_shows_a_body(self):
        """Of 41 bodies that stand along x and y one is to the right and above: there its pixels are, and nowhere else."""
        cross = [(c, 0) for c in range(-10, 11)] + [(0, c) for c in range(-10, 11) if c]
        cross.append((8, 4))
        bodies = [
            Body(i + 1, 1, MIDDLE + 1000 * x, MIDDLE + 1000 * y, 5, 0, 0, 0, 0)
            for i, (x, y) in enumerate(cross)
        ]
        self.write("one.nbs", nbs.snapshot_of(bodies, 0))
        for kind in ("--points", "--density"):
            found = self.plots("one.png", "picture", self.path("one.nbs"), kind, "--width", "22000")
            if kind == "--density":
                continue
            # The ground's ends are those of the axes: their middle is half a side off them.
            ground = (abs(found - [11 / 255, 13 / 255, 23 / 255]).max(axis=2) < 0.01).nonzero()
            top, bottom, left, right = ground[0].min(), ground[0].max(), ground[1].min(), ground[1].max()

            def is_lit(x, y):
                row = round((top + bottom) / 2 - y / 11 * (bottom - top) / 2)
                column = round((left + right) / 2 + x / 11 * (right - left) / 2)
                return found[row - 4 : row + 5, column - 4 : column + 5].sum(axis=2).max() > 1.5

            self.assertTrue(is_lit(8, 4))
            self.assertTrue(is_lit(10, 0))
            self.assertFalse(is_lit(4, 8) or is_lit(8, -4) or is_lit(-8, 4) or is_lit(-8, -4))

    def test_a_picture(self):
        self.write_run()
        one = self.plots("run/init.png", "picture", self.path("run/init.nbs"))
        other = self.plots(
            "x.png", "picture", self.path("run/init.nbs"), "--plane", "xz", "--out", self.path("x.png")
        )
        self.assertEqual(one.shape, other.shape)
        self.assertGreater(abs(one - other).max(), 0.5)

    def test_panels(self):
        self.write_run(*range(1, 21))
        self.plots("run/panels.png", "panels", self.path("run"))

    def test_shells_and_profile(self):
        self.write_run(10, 20)
        self.plots("run/shells.png", "shells", self.path("run"))
        self.plots("run/profile.png", "profile", self.path("run"))
        self.write(
            "run/units.json",
            units.text_of(units.Scale(units.table_of("pc,Msun,km/s"), 1e-6, 2, 3, 4, (1, 2, 3))).encode(),
        )
        self.plots("run/shells.png", "shells", self.path("run"))
        self.plots("run/profile.png", "profile", self.path("run/init.nbs"), self.path("run/snap.20.nbs"))

    def test_numbers(self):
        """Radii that hold a part of the mass, and units."""
        bodies = [Body(i, 1, MIDDLE + 10 * i, MIDDLE, MIDDLE, 3, 0, 0, 0) for i in range(11)]
        bodies.append(Body(11, 9, MIDDLE, 0, 0, 0, 0, 0, 1))
        self.write("run/init.nbs", nbs.snapshot_of(bodies, 7))
        found = self.tool.Snapshot(self.path("run/init.nbs"))
        self.assertEqual((found.count, found.out, found.when), (11, 1, "tick 7"))
        self.assertEqual(found.centre.tolist(), [50, 0, 0])
        self.assertEqual([found.radius_of(part, found.radii()) for part in (0.01, 0.5, 0.9)], [0, 30, 50])
        scale = units.Scale(units.table_of("pc,Msun,km/s"), 0.5, 2.0, 4.0, 1.0, (8.0, 0.0, 0.0))
        self.write("run/units.json", units.text_of(scale).encode())
        found = self.tool.Snapshot(self.path("run/init.nbs"))
        self.assertEqual((found.centre[0], found.mass[0], found.v[0][0]), (33, 2, 12))
        # 7 ticks of a parsec over a kilometre a second, 0.97779 Myr
        self.assertEqual(found.when, "time 6.845Myr")

    def test_bodies_that_move_together(self):
        """By ten times what they are across: a picture that follows them is the first one again."""
        self.write("run/init.nbs", nbs.snapshot_of(self.bodies(), 0))
        self.write("run/snap.5.nbs", nbs.snapshot_of(self.bodies(60000000), 0))
        first, last = (self.tool.Snapshot(self.path(f"run/{name}")) for name in ("init.nbs", "snap.5.nbs"))
        for follow, reach, said in ((False, 60000000, "--follow keeps them in the middle"), (True, 0, "")):
            words = ["panels", self.path("run"), *(["--follow"] if follow else [])]
            with contextlib.redirect_stderr(io.StringIO()) as err:
                _, centre, found = self.tool.view_of([first, last], self.tool.options_of(words))
            self.assertIn(said, err.getvalue())
            self.assertEqual((centre is None, err.getvalue() == ""), (follow, follow))
            self.assertAlmostEqual(found, 1.15 * reach + first.reach([0, 1], first.centre), delta=3000000)
            self.assertEqual(self.run_tool(*words)[0], 0)
        for name, shown in (("a", "init"), ("b", "snap.5")):
            self.run_tool("picture", self.path(f"run/{shown}.nbs"), "--follow", "--out", self.path(f"{name}.png"))
        self.assertTrue((self.pixels("a.png") == self.pixels("b.png")).all())

    def test_frames(self):
        self.write_run(9, 10, 11)
        with mock.patch.dict(os.environ, {"PATH": self.room}):
            status, out, err = self.run_tool("film", self.path("run"))
        told = f"wrote 4 frames in {self.path('run/frames')}\nwrote {self.path('run/film.gif')}\n"
        fallback = "plot: there is no ffmpeg, so the film is a GIF: apt-get install -y ffmpeg, for a smaller .mp4\n"
        self.assertEqual((status, out, err), (0, told, fallback))
        self.assertEqual(
            sorted(os.listdir(self.path("run/frames"))), [f"frame.0000{index}.png" for index in range(4)]
        )
        self.assertEqual(self.read("run/film.gif")[:6], b"GIF89a")
        first, last = self.pixels("run/frames/frame.00000.png"), self.pixels("run/frames/frame.00003.png")
        self.assertEqual(first.shape, last.shape)
        self.assertGreater(abs(first - last).max(), 0.5)

    def test_the_words_for_ffmpeg(self):
        """A script stands for it, which keeps its words, and fails where `broken` is."""
        self.write_run(1)
        script = b'#!/bin/sh\necho "$@" >"${0%/*}/words"\nfor last; do :; done\n: >"${last#file:}"\necho why >&2\n'
        self.write("bin/ffmpeg", script + b'[ ! -e "${0%/*}/broken" ]\n')
        os.chmod(self.path("bin/ffmpeg"), stat.S_IRWXU)
        with mock.patch.dict(os.environ, {"PATH": self.path("bin") + ":" + os.environ["PATH"]}):
            status, out, err = self.run_tool("film", self.path("run"), "--rate", "5")
            self.assertEqual((status, out.splitlines()[-1], err), (0, f"wrote {self.path('run/film.mp4')}", ""))
            words = self.read("bin/words").decode().split()
            self.assertEqual(words[words.index("-framerate") + 1], "5")
            self.assertEqual(words[words.index("-i") + 1], f"file:{self.path('run/frames/frame.%05d.png')}")
            self.write("bin/broken", b"")
            os.remove(self.path("run/film.mp4"))
            why = "plot: ffmpeg made no film: it ended with 1 and said: why\n"
            self.assertEqual(self.run_tool("film", self.path("run"))[2], why)
            self.assertEqual([name for name in os.listdir(self.path("run")) if "film" in name], [])

    def test_no_film(self):
        """Told before frames are drawn."""
        self.write_run(1)
        with mock.patch.dict(os.environ, {"PATH": self.room}):
            for name, why in (
                ("x.mp4", "there is no ffmpeg to make {}: apt-get install -y ffmpeg, or --out film.gif"),
                ("x.txt", "{} is no film's name: it has to end in .mp4, .mkv, .mov or .gif"),
                ("none/x.gif", f"there is no folder {self.path('none')} for {{}}"),
            ):
                with self.subTest(name=name):
                    words = ("film", self.path("run"), "--out", self.path(name))
                    self.assertEqual(self.run_tool(*words), (1, "", f"plot: {why.format(self.path(name))}\n"))
                    self.assertFalse(os.path.exists(self.path("run/frames")))

    def test_a_gif_of_more_frames_than_open_files(self):
        """Each has a grey of its own, so that no two are drawn together."""
        from PIL import Image

        names = [self.path(f"{index}.png") for index in range(100)]
        for index, name in enumerate(names):
            Image.new("L", (4, 4), index).save(name)
        soft, hard = resource.getrlimit(resource.RLIMIT_NOFILE)
        self.addCleanup(resource.setrlimit, resource.RLIMIT_NOFILE, (soft, hard))
        resource.setrlimit(resource.RLIMIT_NOFILE, (60, hard))
        self.tool.write_gif(names, self.path("film.gif"), 20)
        with Image.open(self.path("film.gif")) as made:
            self.assertEqual((made.n_frames, made.info["duration"]), (100, 50))

    @unittest.skipUnless(shutil.which("ffmpeg"), "ffmpeg missing: apt-get install -y ffmpeg")
    def test_a_film_by_ffmpeg(self):
        """Its frames are the pictures in their order, but for what its compression loses. A folder may have a % in
        its name."""
        import numpy

        self.write_run(9, 10, 11)
        os.rename(self.path("run"), self.path("50%d run"))
        film = self.path("50%d run/film.mp4")
        status, out, err = self.run_tool("film", self.path("50%d run"), "--rate", "5")
        self.assertEqual((status, out.splitlines()[-1], err), (0, f"wrote {film}", ""))
        told = subprocess.run(["ffmpeg", "-i", film], stderr=subprocess.PIPE, text=True).stderr
        self.assertRegex(told, r"Video: .*yuv420p.* 600x600.* 5 fps")
        words = ["ffmpeg", "-v", "error", "-i", film, "-f", "rawvideo", "-pix_fmt", "rgb24", "-"]
        raw = subprocess.run(words, stdout=subprocess.PIPE, check=True).stdout
        shown = numpy.frombuffer(raw, "u1").reshape(-1, 600, 600, 3) / 255
        self.assertEqual(len(shown), 4)
        drawn = [self.pixels(f"50%d run/frames/frame.0000{index}.png") for index in range(4)]
        for index, picture in enumerate(shown):
            off = [abs(picture - other).mean() for other in drawn]
            self.assertEqual(off.index(min(off)), index)
            self.assertLess(min(off), 0.02)

    def test_a_journal(self):
        self.write("run/journal", page_0() + pages(leg(12), tick(1, 1), tick(2, 2), leg(9), tick(3, 2)))
        self.plots("run/journal.png", "journal", self.path("run"))

    def test_few_bodies(self):
        """No body, one, or all in one place."""
        for bodies in (
            [],
            [Body(1, 1, 0, 0, 0, 0, 0, 0, 0)],
            [Body(i, 1, 5, 5, 5, 0, 0, 0, i == 3) for i in range(4)],
        ):
            self.write("run/init.nbs", nbs.snapshot_of(bodies, 0))
            for command in ("picture", "panels", "shells", "profile"):
                with self.subTest(count=len(bodies), command=command):
                    path = self.path("run/init.nbs" if command == "picture" else "run")
                    self.assertEqual(self.run_tool(command, path)[0], 0)

    def test_unfinished_snapshots(self):
        """An empty one, and one that is being written, are passed over, but not where it is the one to show."""
        self.write_run(5)
        self.write("run/snap.6.nbs", b"")
        self.write("run/snap.7.nbs", b"\0" + nbs.snapshot_of(self.bodies(), 7)[1:])
        notes = "".join(
            f"plot: {self.path(name)} isn't finished, and is passed over\n"
            for name in ("run/snap.6.nbs", "run/snap.7.nbs")
        )
        for command in ("panels", "shells", "profile"):
            self.assertEqual(
                self.run_tool(command, self.path("run")), (0, f"wrote {self.path(f'run/{command}.png')}\n", notes)
            )
        for name, why in (("run/snap.6.nbs", "short"), ("run/snap.7.nbs", "unfinished")):
            told = f"plot: {self.path(name)} is no snapshot: {why}\n"
            self.assertEqual(self.run_tool("picture", self.path(name)), (1, "", told))

    def test_refusals(self):
        self.write("run/init.nbs", b"FNBSNAP1")
        why = f"plot: {self.path('run/init.nbs')} is no snapshot: short\n"
        self.assertEqual(self.run_tool("picture", self.path("run/init.nbs")), (1, "", why))
        self.assertEqual(self.run_tool("panels", self.path("run")), (1, "", why))
        for words, why in (
            (("picture", "none.nbs"), "{} isn't there"),
            (("picture", "run"), "{} is a folder, and has to be a file"),
            (("panels", "none"), "{} isn't there"),
            (("shells", "run/init.nbs"), "{} is no folder"),
            (("profile", "none.nbs"), "{} isn't there"),
            (("journal", "none"), "{} is no folder"),
            (("journal", "run"), "no run is started in {}"),
        ):
            with self.subTest(words=words):
                path = self.path(words[1])
                self.assertEqual(self.run_tool(words[0], path), (1, "", f"plot: {why.format(path)}\n"))
        why = f"plot: {self.path('x.jpg')} is no picture's name: it has to end in .png\n"
        words = ("picture", self.path("run/init.nbs"), "--out", self.path("x.jpg"))
        self.assertEqual(self.run_tool(*words), (1, "", why))
        self.write("run/journal", page_0())
        why = f"plot: no run is started in {self.path('run')}\n"
        self.assertEqual(self.run_tool("journal", self.path("run"))[2], why)
        self.write("run/journal", page_0() + pages(tick(1, 1)))
        self.assertEqual(
            self.run_tool("journal", self.path("run"))[2],
            f"plot: {self.path('run/journal')} is damaged at 4096\n",
        )
        for words in ("", "picture", "picture x --plane xx", "film x --rate 0", "stars x"):
            with self.subTest(words=words), self.assertRaises(SystemExit) as ended:
                self.run_tool(*words.split())
            self.assertEqual(ended.exception.code, 2)


if __name__ == "__main__":
    unittest.main()
