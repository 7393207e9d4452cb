"""Units of a table of bodies, and units in which nbody feels their forces.

A table has units of its own, as `pc,Msun,km/s` for lengths, masses and velocities, or `nbody` for any in which
the constant of gravity is 1. A scale says what one unit of nbody is in them: of length, of mass, and of time, a
tick. It is chosen here, or checked where it is given, and kept as units.json beside `params`.
"""

import json
import math
import os
import re
from collections import namedtuple

import nbs
from nbs import GM_LIMIT, HEAVIEST, MIDDLE, POSITION, VELOCITY, Body, Refused

FILE = "units.json"
# The conversion and its inverse, as the file tells them: capital letters are nbody's numbers.
TO_TABLE = "x = (X - 2^39) * length + middle, m = M * mass, v = V * velocity, t = T * tick"
TO_BOX = "X = round((x - middle) / length) + 2^39, M = round(m / mass), V = round(v / velocity)"

G = 6.67430e-11  # CODATA 2018, in metres, kilograms and seconds
AU = 149597870700.0  # IAU 2012
PARSEC = AU * 648000 / math.pi  # IAU 2015
YEAR = 31557600.0  # Julian
LENGTHS = {"m": 1.0, "km": 1e3, "AU": AU, "ly": 9460730472580800.0}
LENGTHS.update({"pc": PARSEC, "kpc": 1e3 * PARSEC, "Mpc": 1e6 * PARSEC})
# The nominal products of G with a mass of IAU 2015, over G.
MASSES = {"kg": 1.0, "Mearth": 3.986004e14 / G, "Mjup": 1.2668653e17 / G, "Msun": 1.3271244e20 / G}
TIMES = {"s": 1.0, "min": 60.0, "h": 3600.0, "d": 86400.0, "yr": YEAR}
TIMES.update({"kyr": 1e3 * YEAR, "Myr": 1e6 * YEAR, "Gyr": 1e9 * YEAR})

# What a choice of units aims at. A pull of 100 loses about a hundredth; an orbit of 100 ticks is still followed.
GOOD_PULL = 100
ORBIT_TICKS = (100, 400)
# So many ticks an orbit has to have at least.
FEWEST_TICKS = 10
# A user is warned of a greater loss of force, and of greater changes by the rounding of grav and of masses.
BAD_LOSS = 0.1
BAD_ROUNDING = 1e-3
# The lightest body gets so many units of mass where that fits, and grav is at least so much: both round well.
FINE_MASS = 2**20
FINE_GRAV = 1000

# What one unit of each kind is in metres, kilograms and seconds, and the constant of gravity in these. The names
# are those of length, mass and velocity.
Table = namedtuple("Table", "names length mass velocity gravity")
# A unit of nbody in units of the table: of length, of mass, of velocity, and a tick in the table's length over
# its velocity; and where in the table the middle of the box is.
Scale = namedtuple("Scale", "table length mass velocity tick middle")
# The bodies as the choice of units sees them, in the table's units. `whole` is that all masses are multiples of
# the lightest, `radius` that of a typical orbit, `inside` the mass within it, `pulling` the mass of a typical pull
# on it, and `is_led` that one body has half of the mass or more.
System = namedtuple("System", "count mass lightest heaviest whole radius inside pulling is_led middle")


def table_of(text):
    """The units that an option names: `nbody`, or three as pc,Msun,km/s."""
    if text == "nbody":
        return Table(None, 1.0, 1.0, 1.0, 1.0)
    found = re.fullmatch(r"(\w+),(\w+),(\w+)/(\w+)", text)
    units = zip((LENGTHS, MASSES, LENGTHS, TIMES), found.groups()) if found else [({}, text)]
    for known, name in units:
        if name not in known:
            raise Refused(
                f"{text!r} is no unit: lengths {', '.join(LENGTHS)}; masses {', '.join(MASSES)}; "
                f"velocities as km/s, over {', '.join(TIMES)}; or nbody, where G is 1"
            )
    length, mass, over, under = found.groups()
    names = (length, mass, f"{over}/{under}")
    return Table(names, LENGTHS[length], MASSES[mass], LENGTHS[over] / TIMES[under], G)


def name_of(table):
    return ",".join(table.names) if table.names else "nbody"


def gravity_of(table):
    """The constant of gravity in the table's units of length, mass, and length over velocity."""
    return table.gravity * table.mass / (table.length * table.velocity**2)


def quantity(text, table, kind, option=None):
    """A length, mass or time of an option in the table's units: 3.5pc, or 3.5 alone for the table's own unit."""
    known, own = {
        "length": (LENGTHS, table.length),
        "mass": (MASSES, table.mass),
        "time": (TIMES, table.length / table.velocity),
    }[kind]
    found = re.fullmatch(r"([0-9.]+(?:[eE][-+]?[0-9]+)?)\s*(\w*)", text.strip())
    number, unit = found.groups() if found else ("", "")
    if unit and (table.names is None or unit not in known):
        number = ""
    try:
        value = float(number) * (known[unit] / own if unit else 1.0)
    except ValueError:
        value = 0.0
    if not 0 < value < math.inf:
        units = f", as 3.5{min(known)}, of {', '.join(known)}" if table.names else ", a number alone"
        raise Refused(f"--{option or kind} {text!r} is no {kind}{units}")
    return value


def shown(value, table, kind):
    """A length, mass or time for a reader: in the table's unit, a time in the greatest that it reaches."""
    if table.names is None:
        return f"{value:.4g}"
    if kind != "time":
        return f"{value:.4g}{table.names[kind == 'mass']}"
    seconds = value * table.length / table.velocity
    unit = max((name for name in TIMES if TIMES[name] <= seconds), key=TIMES.get, default="s")
    return f"{seconds / TIMES[unit]:.4g}{unit}"


def distance(row, point):
    """Of finite numbers it may be infinite, and is then too far for any choice."""
    x, y, z = (row[name] - at for name, at in zip(POSITION, point))
    return math.sqrt(x * x + y * y + z * z)


def pulls_on_a_body(count, theta):
    """About how many pulls a body at the half-mass radius gets: of all others, or of cells. At each level those
    cells act as one mass that are a side over theta away or more, and whose parents aren't: 28 pi / (3 theta^3) of
    them if bodies lie all around it, and half of that where they lie on one side. N bodies fill log8 N levels.
    """
    over, under = theta
    if count < 2 or over == 0:
        return max(count - 1, 1)
    a_level = 14 * math.pi / 3 * (under / over) ** 3
    return min(count - 1, a_level * math.log(count, 8))


def median_of(values):
    """The value in the middle of pairs of a value and its mass, by mass: a body far away doesn't move it."""
    half, within = sum(mass for _, mass in values) / 2, 0.0
    for value, mass in sorted(values):
        within += mass
        if within >= half:
            break
    return value


class Rows:
    """Rows of numbers by their columns, each behind its place, and what a choice of units asks of them. bulk.py has
    the same of arrays, with the same sums in the same order, so that no bit of the choice differs."""

    def __init__(self, placed):
        self.placed = placed
        self.rows = [row for _, row in placed]
        self.inside = [row for row in self.rows if not row["out"]]

    @property
    def count_inside(self):
        return len(self.inside)

    def masses(self):
        """Of all together, of the lightest and of the heaviest."""
        masses = [row["mass"] for row in self.rows]
        return sum(masses), min(masses), max(masses)

    def are_multiples(self, mass):
        """Whether all masses are whole multiples of one, as far as a body's mass goes."""
        multiples = [row["mass"] / mass for row in self.rows]
        return max(multiples) <= HEAVIEST and all(abs(m - round(m)) < 1e-9 * m for m in multiples)

    def heaviest(self):
        """The mass of the heaviest body in the box, and where it is."""
        row = max(self.inside, key=lambda row: row["mass"])
        return row["mass"], [row[name] for name in POSITION]

    def middle(self):
        return [median_of([(row[name], row["mass"]) for row in self.inside]) for name in POSITION]

    def half_mass_radius(self, middle):
        return median_of([(distance(row, middle), row["mass"]) for row in self.inside])

    def median_radius(self, middle):
        """The median distance of all bodies but the nearest, and the mass within it."""
        away = [(distance(row, middle), row["mass"]) for row in self.inside]
        radius = median_of([(length, 1) for length, _ in sorted(away)[1:]] or [(0.0, 1)])
        return radius, sum(mass for length, mass in away if length <= radius)

    def whole_mass(self, unit):
        """All masses together, each rounded to whole units."""
        return sum(round(row["mass"] / unit) for row in self.rows)

    def rounding(self, unit):
        """The greatest part of its mass by which a mass is changed then."""
        return max(abs(round(row["mass"] / unit) / (row["mass"] / unit) - 1) for row in self.rows)

    def boxed(self, scale):
        """The bodies by a scale."""
        bodies = nbs.Bodies()
        for place, row in self.placed:
            try:
                bodies.append(boxed(row, scale))
            except Refused as why:
                raise Refused(f"{place}: {why}") from None
        return bodies


def system_of(rows, theta):
    """What the choice of units needs to know of rows of bodies."""
    if rows.count_inside == 0:
        raise Refused("there are no bodies to choose units for")
    mass, lightest, greatest = rows.masses()
    shared = (rows.count_inside, mass, lightest, greatest, rows.are_multiples(lightest))
    leader, middle = rows.heaviest()
    if 2 * leader >= mass:
        radius, inside = rows.median_radius(middle)
        system = System(*shared, radius, inside, leader, True, middle)
    else:
        middle = rows.middle()
        pulling = mass / pulls_on_a_body(rows.count_inside, theta)
        system = System(*shared, rows.half_mass_radius(middle), mass / 2, pulling, False, middle)
    if not (math.isfinite(system.mass) and math.isfinite(system.radius)):
        raise OverflowError
    return system


class Choice:
    """A length and a time of one unit, in the table's units, and what they make of the forces."""

    def __init__(self, gravity, system, length, time):
        self.gravity, self.system, self.length, self.time = gravity, system, length, time

    @property
    def gm(self):
        """grav times the mass of all bodies, whatever the unit of mass: it has to be below 2^60."""
        return self.gravity * self.system.mass * self.time**2 / (2 * self.length**3)

    @property
    def radius(self):
        return self.system.radius / self.length

    @property
    def kick(self):
        """The half kick of all within a typical orbit, in box units a tick."""
        return self.gm * self.system.inside / self.system.mass / self.radius**2

    @property
    def pull(self):
        """The half kick of a typical pull there. It is cut to a whole number on each axis."""
        return self.gm * self.system.pulling / self.system.mass / self.radius**2

    @property
    def orbit_ticks(self):
        return 2 * math.pi * math.sqrt(self.radius / (2 * self.kick))

    @property
    def speed(self):
        """Of a typical orbit, in box units a tick."""
        return math.sqrt(2 * self.kick * self.radius)

    def fall(self, shrinks_to):
        """What a body moves in a tick where all mass has fallen together, to this part of its size or as far as a
        softening of that very length lets it. Its speed at the radius r is sqrt(2 G M / r), and G M is 2 gm."""
        least = (4 * self.gm) ** (1 / 3)
        radius = shrinks_to * self.radius
        return least if radius <= least else math.sqrt(4 * self.gm / radius)

    @property
    def loss(self):
        """The part of its force that a typical orbit loses. A pull loses half a unit on an axis, and has half of its
        size there, both on average."""
        return min(1.0, 1 / self.pull)

    def least_length(self):
        """At this time, the length at which grav times mass is at the limit."""
        return self.length * (self.gm / GM_LIMIT) ** (1 / 3)

    def most_time(self):
        """At this length, the time at which grav times mass is at the limit."""
        return self.time * math.sqrt(GM_LIMIT / self.gm)

    def at(self, **changed):
        return Choice(
            self.gravity, self.system, changed.get("length", self.length), changed.get("time", self.time)
        )


def chosen(table, system, length, time, orbit_ticks):
    """The choice of units; a length or time that is given stays.

    What isn't given is such that grav times mass is at its limit, which makes kicks as large as can be; and where
    both are free, that a typical pull is good, within the bounds of the ticks of an orbit.
    """
    gravity = gravity_of(table)
    if time and orbit_ticks:
        raise Refused("--tick and --orbit both say how long a tick is: set one of them")
    if system.radius == 0 and not (length and time):
        raise Refused("no two bodies are apart, so no force tells units: set --length, --mass and --tick")
    first = Choice(gravity, system, length or system.radius, time or 1.0)
    if time is None:
        fewest, most = ORBIT_TICKS
        ticks = orbit_ticks or fewest
        if length is None and orbit_ticks is None:
            side = math.sqrt(GM_LIMIT * system.pulling / system.mass / GOOD_PULL)
            full = first.at(length=system.radius / side)
            ticks = min(max(full.at(time=full.most_time()).orbit_ticks, fewest), most)
        time = first.orbit_ticks * first.time / ticks
        if length is not None:
            time = min(time, first.most_time())
    if length is None:
        length = first.at(time=time).least_length()
    return first.at(length=length, time=time)


def mass_unit(system, gm):
    """The lightest body's mass where all are whole multiples of it, and else a small part of it."""
    if system.whole:
        return system.lightest
    parts = min(
        FINE_MASS,
        HEAVIEST * system.lightest / system.heaviest,
        gm / FINE_GRAV * system.lightest / system.mass,
    )
    return system.lightest / max(1, math.floor(parts))


def check_forces(table, choice):
    """Refuses units under which forces vanish, or no orbit is followed, and says which to change."""
    system = choice.system
    if choice.gm >= GM_LIMIT * (1 + 1e-9):
        raise Refused(
            f"grav times mass is {choice.gm:.3g}, and not below 2^60: --tick can be at most "
            f"{shown(choice.most_time(), table, 'time')}, or --length has to be at least "
            f"{shown(choice.least_length(), table, 'length')}"
        )
    if system.radius == 0:
        return
    if choice.pull < 1:
        why = f"forces vanish: a typical pull is {choice.pull:.2g} box units a tick, and cut to 0: "
        longer = choice.at(time=choice.time / math.sqrt(choice.pull))
        if longer.time <= choice.most_time() and longer.orbit_ticks >= FEWEST_TICKS:
            raise Refused(f"{why}--tick has to be at least {shown(longer.time, table, 'time')}")
        shorter = choice.length * choice.pull
        if shorter >= choice.least_length():
            raise Refused(f"{why}--length can be at most {shown(shorter, table, 'length')}")
        side = math.sqrt(GM_LIMIT * system.pulling / system.mass)
        # A little more of both, so that they hold as they are printed.
        least = choice.at(length=1.01 * system.radius / side)
        finest = least.at(time=0.999 * least.most_time())
        raise Refused(
            f"{why}the finest choice that is felt is --length {shown(finest.length, table, 'length')} "
            f"with --tick {shown(finest.time, table, 'time')}, or --orbit {math.floor(finest.orbit_ticks)}"
        )
    if choice.orbit_ticks < FEWEST_TICKS:
        most = choice.time * choice.orbit_ticks / FEWEST_TICKS
        raise Refused(
            f"a typical orbit takes {choice.orbit_ticks:.2g} ticks, fewer than {FEWEST_TICKS}: "
            f"--tick can be at most {shown(most, table, 'time')}"
        )


def check_masses(table, system, mass, grav):
    if system.heaviest > HEAVIEST * system.lightest:
        raise Refused(
            "the heaviest body has more than 2^32 times the mass of the lightest: no --mass fits both"
        )
    if round(system.lightest / mass) < 1:
        most = shown(system.lightest, table, "mass")
        raise Refused(f"the lightest body has less than half a unit of mass: --mass can be at most {most}")
    if round(system.heaviest / mass) > HEAVIEST:
        least = shown(system.heaviest / HEAVIEST, table, "mass")
        raise Refused(
            f"the heaviest body has more than {HEAVIEST} units of mass: --mass has to be at least {least}"
        )
    if grav < 1:
        least = shown(mass / max(grav, 1e-300), table, "mass")
        raise Refused(
            f"forces vanish: grav is {grav:.2g}, and rounds to 0: --mass has to be at least {least}"
        )


def fitted(table, rows, given, theta, orbit_ticks):
    """The scale, grav and the choice for rows of bodies. `given` has the length, mass and tick of options."""
    try:
        system = system_of(rows, theta)
        choice = chosen(table, system, given.get("length"), given.get("tick"), orbit_ticks)
        return scaled(table, rows, given, choice)
    except (OverflowError, ZeroDivisionError):
        raise Refused("masses, positions or units are too large or too small to choose by") from None


def scaled(table, rows, given, choice):
    """The scale, grav and the choice, once that is right and grav is whole."""
    system = choice.system
    check_forces(table, choice)
    mass = given.get("mass") or mass_unit(system, choice.gm)
    exact = choice.gm * mass / system.mass
    check_masses(table, system, mass, exact)
    grav = min(max(1, round(exact)), (GM_LIMIT - 1) // rows.whole_mass(mass))
    # What isn't given takes up the rounding of grav, so that none is left.
    if "tick" not in given:
        choice = choice.at(time=choice.time * math.sqrt(grav / exact))
    elif "length" not in given:
        choice = choice.at(length=choice.length * (exact / grav) ** (1 / 3))
    scale = Scale(table, choice.length, mass, choice.length / choice.time, choice.time, tuple(system.middle))
    return scale, grav, choice


def report_of(scale, grav, rows, choice, soft, soft_is=None):
    """What a user wants to know of a choice of units, in lines. `soft_is` says how the softening was chosen."""
    table, system = scale.table, choice.system
    length = shown(scale.length, table, "length")
    mass, tick = shown(scale.mass, table, "mass"), shown(scale.tick, table, "time")
    gm = grav * rows.whole_mass(scale.mass)
    softening = f"softening: {soft} box units, {shown(soft * scale.length, table, 'length')}"
    lines = [
        f"one unit: --length {length} --mass {mass} --tick {tick}",
        f"box: {shown(scale.length * nbs.BOX_SIDE, table, 'length')} across",
        f"grav: {grav}, and times the mass of all {gm / GM_LIMIT:.3g} * 2^60",
    ]
    if system.radius:
        where = "median distance from the heaviest body" if system.is_led else "half-mass radius"
        radius = shown(system.radius, table, "length")
        kick, loss = 2 * choice.kick, choice.loss
        lines += [
            f"{where}: {radius}, {choice.radius:.4g} box units",
            f"a circular orbit there: {choice.orbit_ticks:.0f} ticks, {choice.speed:.4g} box units a tick",
            f"its half kick: {choice.kick:.4g} box units a tick, of pulls of about {choice.pull:.3g}",
            f"rounding: pulls are cut, and a tick loses about {kick * loss:.2g} of {kick:.4g}, {100 * loss:.2g} %",
            f"{softening}, {soft_is}" if soft_is else softening,
        ]
        if loss > BAD_LOSS:
            lines.append(
                "that is much: longer ticks lose less (--tick, --orbit), and so does a larger --theta"
            )
    error = grav / (choice.gm * scale.mass / system.mass) - 1
    if abs(error) > BAD_ROUNDING:
        lines.append(f"rounding grav changes all forces by {100 * error:.2g} %: by a larger --mass less")
    error = rows.rounding(scale.mass)
    if error > BAD_ROUNDING:
        lines.append(f"rounding masses changes them by up to {100 * error:.2g} %: by a smaller --mass less")
    return lines


def usual_soft(choice, shrinks_to):
    """The softening in box units, and how it was chosen: what a typical orbit moves in a tick, so that bodies don't
    pass unresolved, or a quarter of the distance of neighbours within the half-mass radius, where that is more; none
    around one heavy body. Bodies that fall together, to a part of their size that is given, are fastest there."""
    if choice.system.is_led:
        return 1, "next to none around one heavy body"
    if choice.system.radius == 0:
        return 1, None
    apart = choice.radius * (8 * math.pi / 3 / choice.system.count) ** (1 / 3)
    lengths = [
        (choice.speed, "what that orbit moves in a tick"),
        (apart / 4, "a quarter of the distance of neighbours"),
    ]
    if shrinks_to is not None:
        lengths.append((choice.fall(shrinks_to), "what a body moves in a tick once all have fallen together"))
    soft, soft_is = max(lengths)
    return max(1, round(soft)), soft_is


def nearest(value):
    """The nearest whole number. An infinite one stays, and is outside every range."""
    return round(value) if math.isfinite(value) else value


def boxed(row, scale):
    """The body of a row of numbers. A refusal says which value has no place in the box."""
    values = {"id": row["id"], "out": row["out"], "mass": nearest(row["mass"] / scale.mass)}
    for name, middle in zip(POSITION, scale.middle):
        values[name] = nearest((row[name] - middle) / scale.length) + MIDDLE
        if not 0 <= values[name] < nbs.BOX_SIDE:
            least = shown(abs(row[name] - middle) / (MIDDLE - 1), scale.table, "length")
            raise Refused(f"{name} is {row[name]}, outside the box: --length has to be at least {least}")
    for name in VELOCITY:
        values[name] = nearest(row[name] / scale.velocity)
    for name, value in values.items():
        least, greatest = nbs.range_of(name, values["out"])
        if not least <= value <= greatest:
            raise Refused(
                f"{name} is {row[name]}, {value:.4g} in nbody's units, and has to be from {least} to {greatest}"
            )
    return Body(**values)


def unboxed(body, scale):
    """The row of a body, in the table's units."""
    at = ((value - MIDDLE) * scale.length + middle for value, middle in zip(body[2:5], scale.middle))
    return Body(body.id, body.mass * scale.mass, *at, *(v * scale.velocity for v in body[5:8]), body.out)


def text_of(scale):
    """The text of units.json."""
    return (
        json.dumps(
            {
                "table": name_of(scale.table),
                "length": scale.length,
                "mass": scale.mass,
                "velocity": scale.velocity,
                "tick": scale.tick,
                "middle": scale.middle,
                "to_table": TO_TABLE,
                "to_box": TO_BOX,
            },
            indent=2,
        )
        + "\n"
    )


def scale_in(folder):
    """The scale that stands in a folder, or None."""
    path = os.path.join(folder, FILE)
    if not os.path.exists(path):
        return None
    try:
        with open(path, encoding="utf-8") as file:
            found = json.load(file)
        numbers = [float(found[name]) for name in ("length", "mass", "velocity", "tick")]
        middle = tuple(float(value) for value in found["middle"])
        if len(middle) != 3 or not all(0 < number < math.inf for number in numbers):
            raise ValueError
        return Scale(table_of(found["table"]), *numbers, middle)
    except (ValueError, KeyError, TypeError, Refused):
        raise Refused(f"{path} is no scale of units") from None
