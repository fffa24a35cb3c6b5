#!/usr/bin/env python3
"""Tests of tools/sheet: the sheets of the repository from their text, starts, what is shown, files, and bad input.

Not tested: the library and the program `sheet`. STARTS has bits that the library gave; nothing here runs it again.
"""
import csv
import io
import os
import resource
import signal
import subprocess
import sys
import tempfile
import unittest

from repository import ROOT, TOOL, sheet

# docs/MANUAL.md: how many numbers each kind has, and where each part begins.
SIZES = [480, 25, 12, 15, 15, 75, 0, 23]
PLACES = [
    ("filter", [("A", 0), ("velocity", 9), ("position", 12), ("gamma", 15), ("delta", 21), ("E", 24), ("sigma", 33),
                ("gravity", 474), ("position_alpha", 477), ("velocity_alpha", 478), ("direction_alpha", 479)]),
    ("propagate", [("omega", 0), ("accel", 3), ("dt", 6), ("density.gyro", 7), ("density.accel", 10),
                   ("density.gyro_bias", 13), ("density.accel_bias", 16), ("density.lever", 19), ("density.mag", 22)]),
    ("position", [("antenna", 0), ("noise", 3)]),
    ("velocity", [("antenna", 0), ("omega", 3), ("noise", 6)]),
    ("direction", [("measured", 0), ("north", 3), ("noise", 6)]),
    ("general", [("output", 0), ("innovation", 63), ("noise", 66)]),
    ("state", []),
    ("scalar", [("output", 0), ("innovation", 21), ("variance", 22)]),
]

# States, and the bits of gamma, delta and E that the library's drifters_start gave for them. The last has zeros of both
# signs, numbers that underflow, and large ones.
AT_REST = "attitude=identity velocity=zero position=zero gyro_bias=zero accel_bias=zero lever=zero mag=identity"
TURNED = ("attitude=0.6,-0.8,0,0.48,0.36,-0.8,0.64,0.48,0.6 velocity=12.5,-3.3,0.7 position=120.1,-45.7,-900.3 "
          "gyro_bias=0.01,-0.02,0.003 accel_bias=0.1,0.07,-0.05 lever=0.3,-0.1,1.7 mag=0.28,-0.96,0,0.96,0.28,0,0,0,1")
EXTREME = ("attitude=-0.0,1e-300,1,1,0,0,0,1e150,-1 velocity=-0.0,1e150,3 position=zero "
           "gyro_bias=-0.0,1e-320,-1e-170 accel_bias=-0.0,-0.0,1e300 lever=0,-0.0,-0.0 "
           "mag=-0.0,1,1e-310,-0.0,2,-1e-310,-0.0,3,1e10")
STARTS = [
    (AT_REST, """
        8000000000000000 8000000000000000 8000000000000000 8000000000000000 8000000000000000 8000000000000000
        8000000000000000 8000000000000000 8000000000000000
        3FF0000000000000 0000000000000000 0000000000000000 0000000000000000 3FF0000000000000 0000000000000000
        0000000000000000 0000000000000000 3FF0000000000000"""),
    (TURNED, """
        BF96872B020C49BA 3F73A92A30553262 3F56F0068DB8BAC2 BF8888F861A60D3E BFC2B367A0F9096C BFB487FCB923A29C
        BFD0A3D70A3D70A4 3FF4083126E978D6 BFF29FBE76C8B43A
        BFE3333333333333 BFE999999999999A 0000000000000000 3FDEB851EB851EB8 BFD70A3D70A3D70A BFE999999999999A
        3FE47AE147AE147B BFDEB851EB851EB7 3FE3333333333333"""),
    (EXTREME, """
        1CA3529BA7D19EAF 8000000000000000 9CB352949B4BA1CD FE37E43C8800759C 1CBCFBE97BBA6E06 7E37E43C8800759C
        0000000000000000 8000000000000000 8000000000000000
        0000000000000000 4008000000000000 4202A05F20000000 0000000000000000 3FF0000000000000 000012688B70E62B
        0000000000000000 5F238D352E5096AF C202A05F20000000"""),
]

REST = "A=identity velocity=zero position=zero gamma=zero delta=zero E=identity gravity=zero"
ALPHAS = "position_alpha=0.5 velocity_alpha=0.5 direction_alpha=0.5"
FILTER = f"filter {REST} sigma=zero {ALPHAS}"
GENERAL = "general output=zero innovation=zero noise=zero"
SCALAR = "scalar output=zero innovation=0.5 variance=0.25"
PROPAGATE = ("propagate omega=zero accel=zero dt=zero density.gyro=zero density.accel=zero density.gyro_bias=zero "
             "density.accel_bias=zero density.lever=zero density.mag=zero")


def parsed(*lines):
    return sheet.parse("\n".join(lines).encode())


def numbers(line):
    """The numbers of an entry."""
    return [sheet.number(x) for x in sheet.entry(line)[1]]


def path(*names):
    return os.path.join(ROOT, "crates", *names)


def content(name):
    with open(name, "rb") as file:
        return file.read()


def run(*words, **how):
    """The program's status, output and messages."""
    how = {"stdin": subprocess.DEVNULL, "stdout": subprocess.PIPE, **how}
    if "input" in how:
        del how["stdin"]
    ended = subprocess.run([sys.executable, TOOL, *words], stderr=subprocess.PIPE, timeout=60, check=False, **how)
    return ended.returncode, ended.stdout, ended.stderr.decode()


class Case(unittest.TestCase):
    """A test with an empty folder."""

    def setUp(self):
        folder = tempfile.TemporaryDirectory()
        self.addCleanup(folder.cleanup)
        self.folder = folder.name

    def file(self, name, data=None):
        """A name in the folder; where data are given, of a file with them."""
        name = os.path.join(self.folder, name)
        if data is not None:
            with open(name, "wb") as file:
                file.write(data)
        return name

    def told(self, message, function, *given):
        """A function finds its input bad, with this message."""
        with self.assertRaises(sheet.Bad) as raised:
            function(*given)
        self.assertEqual(str(raised.exception), message)


class Build(Case):
    def test_the_repositorys_sheets(self):
        for text, data in [("sheet/sheet.txt", "sheet/data/sheet.bin"),
                           ("sheet_cases/flight.txt", "sheet_cases/data/flight.bin"),
                           ("sheet_cases/overflow.txt", "sheet_cases/data/overflow.bin")]:
            made = self.file("sheet.bin")
            sheet.main(["build", path(text), made])
            self.assertEqual(content(made), content(path(data)))

    def test_what_is_packed_unpacks(self):
        entries = parsed(FILTER.replace("direction_alpha=0.5", "direction_alpha=0x7FF0000000000001"), "state",
                         "position antenna=-0.0,nan,1e-320 noise=zero")
        self.assertEqual(sheet.unpack(sheet.pack(entries)), entries)

    def test_places(self):
        """Each part at the manual's place, in whatever order the parts are given."""
        for kind, (word, places) in enumerate(PLACES):
            parts = [f"{name}={','.join(str(k) for k in range(first, end))}"
                     for (name, first), (_, end) in zip(places, [*places[1:], ("", SIZES[kind])])]
            entry = sheet.entry(" ".join([word, *reversed(parts)]))
            self.assertEqual(entry, (kind, [sheet.bits(str(k)) for k in range(SIZES[kind])]))

    def test_forms_of_a_part(self):
        self.assertEqual(numbers("position antenna=zero noise=identity"), [0, 0, 0, 1, 0, 0, 0, 1, 0, 0, 0, 1])
        self.assertEqual(numbers("position antenna=zero noise=diagonal:1,2,3"), [0, 0, 0, 1, 0, 0, 0, 2, 0, 0, 0, 3])
        self.assertEqual(numbers("position antenna=zero noise=-4"), [0, 0, 0, -4, 0, 0, 0, -4, 0, 0, 0, -4])
        densities = " ".join(f"density.{name}={i}" for i, name in
                             enumerate(["gyro", "accel", "gyro_bias", "accel_bias", "lever", "mag"]))
        self.assertEqual(numbers(f"propagate omega=zero accel=zero dt=zero {densities}"),
                         [0] * 10 + [1] * 3 + [2] * 3 + [3] * 3 + [4] * 3 + [5] * 3)

    def test_forms_of_sigma(self):
        by_three = [1, 1, 1, 2, 2, 2, 3, 3, 3, 4, 4, 4, 5, 5, 5, 6, 6, 6, 7, 7, 7]
        for text, diagonal in [("3", [3] * 21), ("diagonal:1,2,3,4,5,6,7", by_three),
                               (f"diagonal:{','.join(map(str, range(21)))}", range(21))]:
            for word, rest in [("filter", f"{REST} {ALPHAS}"), ("start", f"{AT_REST} gravity=zero")]:
                sigma = numbers(f"{word} {rest} sigma={text}")[33:474]
                self.assertEqual(sigma, [x if i == j else 0 for i, x in enumerate(diagonal) for j in range(21)])

    def test_numbers(self):
        infinity = 0x7FF0000000000000
        for text, bits in [("inf", infinity), ("+inf", infinity), ("+Inf", infinity), ("INF", infinity),
                           ("-inf", infinity | 1 << 63), ("-Inf", infinity | 1 << 63), ("nan", 0x7FF8000000000000),
                           ("NaN", 0x7FF8000000000000), ("0x800000000000000a", 0x800000000000000A), ("-0", 1 << 63),
                           ("+.5", 0x3FE0000000000000), ("5.e-1", 0x3FE0000000000000), ("1E0", 0x3FF0000000000000)]:
            self.assertEqual(sheet.bits(text), bits)

    def test_lines_and_comments(self):
        data = b"\xef\xbb\xbf# what it is\r\n\r\n  " + FILTER.encode() + b"# gr\xc3\xbcn\r\nstate\n\tstate\rstate"
        self.assertEqual([kind for kind, _ in sheet.parse(data)], [0, 6, 6, 6])

    def bad(self, message, *lines):
        self.told(message, parsed, *lines)

    def test_bad_entries(self):
        self.bad("there is no start and no filter", "# nothing")
        first = "the first entry, and no other, is a start or a filter"
        self.bad(f"line 2: {first}", "", "state")
        self.bad(f"line 2: {first}", FILTER, FILTER)
        self.bad(f"line 2: {first}", FILTER, f"start {AT_REST} sigma=1 gravity=zero")
        self.bad("line 2: 'update' is none of start, filter, propagate, position, velocity, direction, general, state, "
                 "scalar", FILTER, "update")
        self.bad("line 257: more than 256 entries", FILTER, *["state"] * 256)
        self.bad("line 103: more than 65536 bytes of a sheet", FILTER, *[GENERAL] * 105)
        self.told("line 2: not text in UTF-8", sheet.parse, FILTER.encode() + b"\n\xff\n")

    def test_bad_parts(self):
        self.bad("line 3: state has no part 'dt'; it has none", FILTER, "# a comment", "state dt=1")
        self.bad("line 1: position has no part 'sigma'; it has antenna, noise", "position sigma=1")
        self.bad("line 1: start has no part 'A'; it has attitude, velocity, position, gyro_bias, accel_bias, lever, "
                 "mag, sigma, gravity, position_alpha, velocity_alpha, direction_alpha", "start A=identity")
        self.bad("line 1: 'gravity' is no part: NAME=NUMBERS with no space inside", "filter gravity")
        self.bad("line 1: gravity is given twice", "filter gravity=1,1,1 gravity=1,1,1")
        self.bad("line 1: filter lacks A, velocity, position and 8 more; a part may be zero", "filter")
        self.bad("line 1: filter lacks position_alpha, velocity_alpha, direction_alpha; a part may be zero",
                 f"filter {REST} sigma=1")
        self.bad("line 1: filter lacks direction_alpha; a part may be zero", FILTER.replace("direction_alpha=0.5", ""))
        self.bad("line 1: start lacks sigma, gravity; a part may be zero", f"start {AT_REST}")
        self.bad("line 2: position lacks antenna, noise; a part may be zero", FILTER, "position")

    def test_one_alpha(self):
        """A line of version 0.6.0 is told how to upgrade it; alpha is no part of another entry, as before."""
        for line in (f"filter {REST} sigma=1 alpha=0.5", f"start {AT_REST} sigma=1 gravity=zero alpha=0.5"):
            self.bad(f"line 1: {line.split()[0]} has one alpha, as up to version 0.6.0; to upgrade it, give its alpha "
                     "as each of position_alpha, velocity_alpha, direction_alpha", line)
        self.bad("line 2: position has no part 'alpha'; it has antenna, noise", FILTER, "position alpha=0.5")

    def bad_part(self, message, item):
        """A position call with this part, then the others."""
        rest = "".join(f" {name}=zero" for name in ("antenna", "noise") if not item.startswith(name))
        self.bad(f"line 1: {message}", f"position {item}{rest}")

    def test_bad_numbers(self):
        self.bad_part("'one' is not a number", "antenna=0,0,one")
        for text in ["1_0", "--1", "1e", ".", "1.2.3", "infinity", "-nan", "0X3FF0000000000000", "diag:1"]:
            self.bad_part(f"'{text}' is not a number", f"antenna=0,0,{text}")
        self.bad_part("a number is missing, or a space is inside of a part", "antenna=0,0,")
        self.bad_part("'1' is no part: NAME=NUMBERS with no space inside", "antenna=0,0, 1")
        self.bad_part("'1e400' is too large", "antenna=0,0,1e400")
        self.bad_part("'0x7FF' has not 16 hexadecimal digits after 0x", "antenna=0,0,0x7FF")
        self.bad_part("antenna: numbers wanted 3, given 2", "antenna=0,1")
        self.bad_part("antenna: numbers wanted 3, given 1", "antenna=1")
        self.bad_part("noise: numbers wanted 9 or 1, given 2", "noise=0,1")
        self.bad_part("diagonal of noise: numbers wanted 3, given 1", "noise=diagonal:1")
        for part in ("innovation", "variance"):
            self.bad(f"line 1: {part}: numbers wanted 1, given 2", SCALAR.replace(f"{part}=", f"{part}=0,"))
        self.bad("line 1: output: numbers wanted 21, given 1", SCALAR.replace("output=zero", "output=1"))
        self.bad_part("antenna is not square", "antenna=identity")
        self.bad_part("antenna is not square", "antenna=diagonal:1,1,1")
        self.bad_part("only the sigma of a start may be by deviations", "noise=deviations:1,1,1")
        rest = f"{REST} {ALPHAS}"
        self.bad("line 1: sigma: numbers wanted 441 or 1, given 21", f"filter {rest} sigma={','.join(['1'] * 21)}")
        self.bad("line 1: diagonal of sigma: numbers wanted 21 or 7, given 3", f"filter {rest} sigma=diagonal:1,1,1")
        self.bad("line 1: only the sigma of a start may be by deviations",
                 f"filter {rest} sigma=deviations:1,1,1,1,1,1,1")
        self.bad("line 1: A: numbers wanted 9, given 1", FILTER.replace("A=identity", "A=1"))
        self.bad("line 1: density.gyro: numbers wanted 3 or 1, given 2",
                 PROPAGATE.replace("gyro=zero", "gyro=1,2"))


class Start(Case):
    def test_the_librarys_bits(self):
        for state, bits in STARTS:
            kind, values = sheet.entry(f"start {state} sigma=2 gravity=0,-0.0,9.81")
            texts = dict(item.split("=") for item in state.split())
            given = {name: sheet.part(name, texts[name], *shape) for name, shape in sheet.STATE.items()}
            self.assertEqual(kind, 0)
            self.assertEqual(values[:15], given["attitude"] + given["velocity"] + given["position"])
            self.assertEqual([f"{value:016X}" for value in values[15:33]], bits.split())
            self.assertEqual(values[33:474], [sheet.bits("2") if i % 22 == 0 else 0 for i in range(441)])
            self.assertEqual(values[474:], [sheet.bits(x) for x in ("0", "-0.0", "9.81", "0.5", "0.5", "0.5")])

    def test_alphas(self):
        """Each may be given, and left out."""
        for i, name in enumerate(["position", "velocity", "direction"]):
            alphas = numbers(f"start {AT_REST} sigma=1 gravity=zero {name}_alpha=0.25")[477:]
            self.assertEqual(alphas, [0.25 if i == j else 0.5 for j in range(3)])

    def test_refused_starts(self):
        for change, why in [("velocity=0,inf,0", "2 blank (velocity is not finite)"),
                            ("mag=diagonal:1,nan,1", "2 blank (mag is not finite)"),
                            ("sigma=0x7FF0000000000001", "2 blank (sigma is not finite)"),
                            ("sigma=deviations:1,1,1,1,1,inf,1", "2 blank (sigma is not finite)"),
                            ("sigma=deviations:1,1,1,1,1,1e200,1", "2 blank (sigma is not finite)"),
                            ("gravity=0,0,-inf", "2 blank (gravity is not finite)"),
                            ("velocity_alpha=nan", "2 blank (velocity_alpha is not finite)"),
                            ("velocity=1e200,0,0 gyro_bias=0,1e200,0", "5 range (gamma is not finite)"),
                            ("attitude=diagonal:1e200,1,1 lever=1e200,0,0", "5 range (delta is not finite)"),
                            ("attitude=diagonal:1e200,1,1 mag=diagonal:1e200,1,1", "5 range (E is not finite)")]:
            texts = dict(item.split("=") for item in f"{AT_REST} sigma=1 gravity=zero {change}".split())
            line = " ".join(["start", *(f"{name}={text}" for name, text in texts.items())])
            self.told(f"line 1: the library would refuse this start: {why}", parsed, line)


# The filter by its parts, for the check of deviations: plain matrices of rows and columns.

def filter_parts(state):
    """A, E (3 by 3), velocity, position, the two of gamma, and delta, of the start of a state."""
    line = " ".join(["start", *(f"{name}={','.join(map(repr, x))}" for name, x in state.items())])
    x = numbers(f"{line} sigma=zero gravity=zero")
    return [[x[0:3], x[3:6], x[6:9]], [x[24:27], x[27:30], x[30:33]], x[9:12], x[12:15], x[15:18], x[18:21], x[21:24]]


def applied(m, v):
    return [sum(a * b for a, b in zip(row, v)) for row in m]


def turn_between(m, n):
    """m times the transpose of n."""
    return [[sum(a * b for a, b in zip(row, other)) for other in n] for row in m]


def less(a, b):
    return [x - y for x, y in zip(a, b)]


def axis(m):
    """The rotation vector of a small turn."""
    return [(m[2][1] - m[1][2]) / 2, (m[0][2] - m[2][0]) / 2, (m[1][0] - m[0][1]) / 2]


def skew(v):
    return [[0, -v[2], v[1]], [v[2], 0, -v[0]], [-v[1], v[0], 0]]


def group_error(truth, estimate):
    """The truth's filter times the inverse of the estimate's, which is near the identity, as 21 numbers."""
    a, e, velocity, position, omega, nu, delta = filter_parts(truth)
    a0, e0, velocity0, position0, omega0, nu0, delta0 = filter_parts(estimate)
    turn = turn_between(a, a0)
    moved = less(velocity, applied(turn, velocity0))
    turned = applied(turn, omega0)
    return [*axis(turn), *moved, *less(position, applied(turn, position0)), *less(omega, turned),
            *less(less(nu, applied(skew(moved), turned)), applied(turn, nu0)), *less(delta, applied(turn, delta0)),
            *axis(turn_between(e, e0))]


def with_error(state, k, size):
    """A state with an error in one of its 21 coordinates; a rotation is turned from the left."""
    name, i = list(state)[k // 3], k % 3
    values = list(state[name])
    if len(values) == 3:
        values[i] += size
    else:
        vector = [size if j == i else 0 for j in range(3)]
        columns = [less(values[j::3], applied(skew(vector), [-x for x in values[j::3]])) for j in range(3)]
        values = [columns[j][row] for row in range(3) for j in range(3)]
    return {**state, name: values}


class Deviations(Case):
    def sigma(self, state, deviations):
        line = f"start {state} gravity=zero sigma=deviations:{','.join(map(str, deviations))}"
        values = numbers(line)[33:474]
        return [values[21 * i:21 * i + 21] for i in range(21)]

    def test_at_rest(self):
        """The squares on the diagonal; the error of mag has that of attitude in it."""
        deviations = [0.5, 1, 2, 3, 4, 5, 0.25]
        squares = [x * x for x in deviations for _ in range(3)]
        wanted = [[squares[i] if i == j else 0 for j in range(21)] for i in range(21)]
        for i in range(3):
            wanted[18 + i][18 + i] += squares[i]
            wanted[i][18 + i] = wanted[18 + i][i] = squares[i]
        self.assertEqual(self.sigma(AT_REST, deviations), wanted)

    def test_one_for_each_coordinate(self):
        sigma = self.sigma(AT_REST, range(21))
        self.assertEqual([sigma[i][i] for i in range(18)], [i * i for i in range(18)])
        self.assertEqual([sigma[i][i] for i in range(18, 21)], [18 * 18, 19 * 19 + 1, 20 * 20 + 4])

    def test_a_moving_state(self):
        """Known entries: at velocity (10, 0, 0) the velocity coordinates have (0, -10 c, 10 b) of a turn (a, b, c)."""
        sigma = self.sigma(AT_REST.replace("velocity=zero", "velocity=10,0,0"), [0.5, 0, 0, 0, 0, 0, 0])
        self.assertEqual([sigma[3][3], sigma[4][4], sigma[5][5]], [0, 25, 25])
        self.assertEqual([sigma[4][2], sigma[5][1], sigma[4][1], sigma[4][5]], [-2.5, 2.5, 0, 0])

    def test_against_differences(self):
        """Turned, moving and displaced: each column against central differences of the error in the group."""
        texts = dict(item.split("=") for item in TURNED.split())
        state = {name: [float(x) for x in text.split(",")] for name, text in texts.items()}
        deviations = [0.1 + 0.05 * k for k in range(21)]
        size = 1e-4
        wanted = [[0.0] * 21 for _ in range(21)]
        for k, deviation in enumerate(deviations):
            ahead, behind = (group_error(with_error(state, k, s), state) for s in (size, -size))
            column = [deviation * (x - y) / (2 * size) for x, y in zip(ahead, behind)]
            wanted = [[x + a * b for x, b in zip(row, column)] for row, a in zip(wanted, column)]
        sigma = self.sigma(TURNED, deviations)
        for i in range(21):
            for j in range(21):
                scale = (wanted[i][i] * wanted[j][j]) ** 0.5
                self.assertAlmostEqual(sigma[i][j] / scale, wanted[i][j] / scale, places=6, msg=f"entry {i}, {j}")
                self.assertEqual(sigma[i][j], sigma[j][i])

    def test_bad_deviations(self):
        start = f"start {AT_REST} gravity=zero sigma=deviations:"
        self.told("line 1: deviations of sigma: numbers wanted 21 or 7, given 1", parsed, start + "1")
        self.told("line 1: deviations of sigma: -0.5 is below 0", parsed, start + "1,1,1,-0.5,1,1,1")


class Show(Case):
    def test_the_sample(self):
        status, out, err = run("show", path("sheet/data/sheet.bin"), path("sheet/stdout"))
        self.assertEqual((status, err), (0, ""))
        self.assertEqual(out.decode(), """\
filter
  A                  1 0 0 0 1 0 0 0 1
  velocity           0 0 0
  position           0 0 0
  gamma              0 0 0 0 0 0
  delta              0 0 0
  E                  1 0 0 0 1 0 0 0 1
  diagonal of sigma  0 0 0 0 0 0 0 0 0 0 0 0 0 0 0 0 0 0 0 0 0
  gravity            0 0 0
  position_alpha     0.5
  velocity_alpha     0.5
  direction_alpha    0.5

entry  call      answer           numbers
1      position  NIS 0            antenna 0 0 0; noise 1 0 0 0 1 0 0 0 1
2      position  NIS 1            antenna 1 0 0; noise 1 0 0 0 1 0 0 0 1
3      position  refused 4 pivot  antenna 0 0 0; noise -1 0 0 0 -1 0 0 0 -1

update    accepted  refused  mean NIS  expected
position  2         1        0.5       3
expected: about, where the filter is consistent; general: 3 where it measures three numbers
""")

    def shown(self, lines, answers=()):
        entries = parsed(*lines)
        data = "".join(f"{i} {kind} {answer}\n" for i, ((kind, _), answer) in enumerate(zip(entries[1:], answers), 1))
        return list(sheet.table(entries, sheet.answers_of(data.encode(), entries) if answers else []))

    def test_without_answers(self):
        lines = self.shown([FILTER, "state", "position antenna=zero noise=1"])
        self.assertEqual(lines[-3:], ["entry  call      answer  numbers",
                                      "1      state",
                                      "2      position          antenna 0 0 0; noise 1 0 0 0 1 0 0 0 1"])

    def test_a_filter_alone(self):
        self.assertEqual(self.shown([FILTER])[-1], "  direction_alpha    0.5")

    def test_the_diagonal_of_sigma(self):
        lines = self.shown([FILTER.replace("sigma=zero", f"sigma=diagonal:{','.join(map(str, range(21)))}")])
        self.assertEqual(lines[7], "  diagonal of sigma  " + " ".join(map(str, range(21))))

    def test_a_hundred_columns(self):
        """Wide numbers are wrapped under their column, and none is lost."""
        wide = "-1.23457e-300"
        long = f"filter {REST} {ALPHAS} sigma=diagonal:{','.join([wide] * 21)}"
        noise = ",".join([wide] * 9)
        general = f"general output={','.join([wide] * 63)} innovation=zero noise={noise}"
        lines = self.shown([long, general], ["refused 3"])
        self.assertLessEqual(max(map(len, lines)), 100)
        self.assertEqual(sum(line.count(wide) for line in lines), 21 + 63 + 9)
        first = next(line for line in lines if line.startswith("1 "))
        self.assertEqual(first.index("output"), len("1      general  refused 3 turn  "))
        following = lines[lines.index(first) + 1:lines.index("", lines.index(first))]
        self.assertEqual({len(line) - len(line.lstrip()) for line in following}, {first.index("output")})

    def test_the_parts_of_a_call_are_kept_together(self):
        lines = self.shown([FILTER, "velocity antenna=0.5,0.25,-0.1 omega=0.4,0,0.9 noise=0.0123456"])
        self.assertEqual(lines[-2:], ["1      velocity          antenna 0.5 0.25 -0.1; omega 0.4 0 0.9;",
                                      " " * 25 + "noise 0.0123456 0 0 0 0.0123456 0 0 0 0.0123456"])

    def test_a_scalar_update(self):
        output = ",".join(map(str, range(21)))
        line = f"scalar output={output} innovation=-0.5 variance=0.25"
        self.assertEqual(self.shown([FILTER, line], ["3FF0000000000000"])[-7:-4], [
            "entry  call    answer  numbers",
            "1      scalar  NIS 1   output 0 1 2 3 4 5 6 7 8 9 10 11 12 13 14 15 16 17 18 19 20; innovation -0.5;",
            " " * 23 + "variance 0.25"])
        self.told("line 1: '1 7 ok' is no answer of entry 1, scalar, of kind 7", sheet.answers_of, b"1 7 ok\n",
                  parsed(FILTER, line))

    def test_directions_of_norm_0(self):
        """Zeros are built as any other numbers. Refusal 7 is of a direction alone, and not of kind 7."""
        lines = [f"direction measured={measured} north={north} noise=1"
                 for measured, north in [("zero", "0.5,0,1"), ("1,0,0", "-0.0,0,0")]]
        self.assertEqual(self.shown([FILTER, *lines], ["refused 7", "refused 7"])[-7:], [
            "entry  call       answer          numbers",
            "1      direction  refused 7 null  measured 0 0 0; north 0.5 0 1; noise 1 0 0 0 1 0 0 0 1",
            "2      direction  refused 7 null  measured 1 0 0; north -0 0 0; noise 1 0 0 0 1 0 0 0 1",
            "",
            "update     accepted  refused  mean NIS  expected",
            "direction  0         2        -         2",
            "expected: about, where the filter is consistent; general: 3 where it measures three numbers"])
        for line in (PROPAGATE, "position antenna=zero noise=1", "velocity antenna=zero omega=zero noise=1", GENERAL,
                     "state", SCALAR):
            entries = parsed(FILTER, line)
            kind, name = entries[1][0], line.split()[0]
            self.told(f"line 1: '1 {kind} refused 7' is no answer of entry 1, {name}, of kind {kind}",
                      sheet.answers_of, f"1 {kind} refused 7\n".encode(), entries)

    def test_densities_of_zero_are_left_out(self):
        line = PROPAGATE.replace("density.accel=zero", "density.accel=0,0,2")
        self.assertEqual(self.shown([FILTER, line])[-1],
                         "1      propagate          omega 0 0 0; accel 0 0 0; dt 0; density.accel 0 0 2")

    def test_the_summary(self):
        three, one = "4008000000000000", "3FF0000000000000"
        calls = [("position antenna=zero noise=1", three), ("state", "ok"), ("position antenna=zero noise=1", one),
                 ("position antenna=zero noise=1", "refused 2"),
                 ("velocity antenna=zero omega=zero noise=1", "refused 4"),
                 ("direction measured=1,0,0 north=0,1,0 noise=1", one),
                 ("direction measured=zero north=0,1,0 noise=1", "refused 7"), (GENERAL, "7FEFFFFFFFFFFFFF"),
                 (GENERAL, "7FEFFFFFFFFFFFFF"), ("state", "refused 5"), (SCALAR, one), (SCALAR, "refused 3")]
        lines = self.shown([FILTER, *(line for line, _ in calls)], [answer for _, answer in calls])
        self.assertEqual(lines[-7:], [
            "update     accepted  refused  mean NIS      expected",
            "position   2         1        2             3",
            "velocity   0         1        -             3",
            "direction  1         1        1             2",
            "general    2         0        1.79769e+308  3",
            "scalar     1         1        1             1",
            "expected: about, where the filter is consistent; general: 3 where it measures three numbers"])

    def test_no_summary_without_updates(self):
        self.assertEqual(self.shown([FILTER, "state"], ["ok"])[-1], "1      state  ok")

    def test_csv(self):
        text = [FILTER, "position antenna=0.1,inf,-0.0 noise=1", "state", "position antenna=1e-320,0,0 noise=0.3",
                "position antenna=nan,0,0 noise=0", "direction measured=zero north=0,0,1 noise=1"]
        made = self.file("sheet.bin", sheet.pack(parsed(*text)))
        answers = self.file("answers", b"1 2 3FD3333333333334\n2 6 ok\n3 2 refused 4\n4 2 refused 2\n5 4 refused 7\n")
        status, out, err = run("show", "--csv", made, answers)
        self.assertEqual((status, err), (0, ""))
        self.assertEqual(out.decode().splitlines(), [
            "entry,kind,call,answer,nis,refusal,numbers",
            "1,2,position,3FD3333333333334,0.30000000000000004,,0.1 inf -0.0 1.0 0.0 0.0 0.0 1.0 0.0 0.0 0.0 1.0",
            "2,6,state,ok,,,",
            "3,2,position,refused 4,,4 pivot,1e-320 0.0 0.0 0.3 0.0 0.0 0.0 0.3 0.0 0.0 0.0 0.3",
            "4,2,position,refused 2,,2 blank,nan 0.0 0.0 0.0 0.0 0.0 0.0 0.0 0.0 0.0 0.0 0.0",
            "5,4,direction,refused 7,,7 null,0.0 0.0 0.0 0.0 0.0 1.0 1.0 0.0 0.0 0.0 1.0 0.0 0.0 0.0 1.0"])
        self.assertNotIn(b"\r", out)
        status, out, err = run("show", made, "--csv")
        rows = list(csv.DictReader(io.StringIO(out.decode())))
        self.assertEqual([(row["answer"], row["nis"], row["refusal"]) for row in rows], [("", "", "")] * 5)

    def test_bad_sheets(self):
        good = content(path("sheet/data/sheet.bin"))
        for data, message in [
            (good[:11], "too short for a sheet"),
            (bytes(4) + good[4:], "0 entries in 4164 bytes"),
            (b"\1\1" + good[2:], "257 entries in 4164 bytes"),
            (b"\2" + good[1:16], "2 entries in 16 bytes"),
            (good[:12] + b"\10" + good[13:], "entry 1 has kind 8"),
            (good[:12] + b"\0" + good[13:], "entry 1 has kind 0"),
            (good[:4] + b"\1" + good[5:], "entry 0 has kind 1"),
            (good[:16] + b"\x25" + good[17:], "entry 1 is at 3877 in place of 3876"),
            (good + b"\0", "the last entry ends at 4164 of 4165 bytes"),
            (good[:-1], "entry 3 goes past the end"),
        ]:
            self.told(message, sheet.unpack, data)

    def test_filters_that_lack_alphas(self):
        """Of a sheet from version 0.6.0, a filter alone or with calls, it is told what to do; of other lengths it is not."""
        def with_filter(count, *calls):
            kind, values = sheet.entry(FILTER)
            return sheet.pack([(kind, values[:count]), *map(sheet.entry, calls)])

        position = "position antenna=zero noise=1"
        for calls in [(), ("state",), (position, "state", position)]:
            for count in (478, 479):
                self.told(f"the filter has {count} numbers in place of 480; one of 478 has one alpha, as up to version "
                          "0.6.0: upgrade it (drifters_upgrade in C, Filter::upgrade in Rust)",
                          sheet.unpack, with_filter(count, *calls))
        for data in [with_filter(477), with_filter(480)[:-1], with_filter(478)[:-1], with_filter(478) + b"\0"]:
            self.told("entry 0 goes past the end", sheet.unpack, data)
        self.told("entry 1 is at 3844 in place of 3868", sheet.unpack, with_filter(477, position, position))

    def test_bad_answers(self):
        entries = parsed(FILTER, "position antenna=zero noise=1", "state", "position antenna=zero noise=1")
        sixteen = "0" * 16
        for data, message in [
            ("1 3 refused 4\n", "line 1: '1 3 refused 4' is no answer of entry 1, position, of kind 2"),
            ("2 2 refused 4\n", "line 1: '2 2 refused 4' is no answer of entry 1, position, of kind 2"),
            ("1 2 ok\n", "line 1: '1 2 ok' is no answer of entry 1, position, of kind 2"),
            ("1 2 refused 1\n", "line 1: '1 2 refused 1' is no answer of entry 1, position, of kind 2"),
            ("1 2 refused 8\n", "line 1: '1 2 refused 8' is no answer of entry 1, position, of kind 2"),
            ("1 2 3ff0000000000000\n", "line 1: '1 2 3ff0000000000000' is no answer of entry 1, position, of kind 2"),
            ("1 2 7FF0000000000000\n", "line 1: '1 2 7FF0000000000000' is no answer of entry 1, position, of kind 2"),
            (f"1 2 {sixteen}\n2 6 {sixteen}\n",
             f"line 2: '2 6 {sixteen}' is no answer of entry 2, state, of kind 6"),
            ("\n", "line 1: '' is no answer of entry 1, position, of kind 2"),
            ("", "calls with an answer: 0 of 3"),
            ("1 2 refused 4\n2 6 ok\n", "calls with an answer: 2 of 3"),
            ("1 2 refused 4\n2 6 ok\n3 2 refused 4\n4 2 refused 4\n", "line 4: an answer with no call"),
            ("refused 6\n", "refused 6 sheet: the sheet breaks its layout or could not be read; no call was made"),
        ]:
            self.told(message, sheet.answers_of, data.encode(), entries)

    def test_other_line_ends(self):
        entries = parsed(FILTER, "state", "state")
        self.assertEqual(sheet.answers_of(b"1 6 ok\r\n2 6 refused 5", entries), ["ok", "refused 5"])


class Program(Case):
    USAGE = "usage: {0} build TEXT SHEET\n       {0} show [--csv] SHEET [ANSWERS]\n       {0} --help\n"

    def setUp(self):
        super().setUp()
        self.text = path("sheet/sheet.txt")
        self.data = content(path("sheet/data/sheet.bin"))

    def test_help(self):
        for words in [["--help"], ["-h"], ["show", "--help"]]:
            status, out, err = run(*words)
            self.assertEqual((status, err), (0, ""))
            lines = out.decode().splitlines()
            self.assertTrue(out.decode().startswith(self.USAGE.format("sheet") + "\n"))
            self.assertIn("  velocity   antenna 3, omega 3, noise 9", lines)
            self.assertEqual(lines[-2:], ["  state      none", "  scalar     output 21, innovation 1, variance 1"])
            self.assertLessEqual(max(map(len, lines)), 100)

    def test_wrong_use(self):
        for words in [[], ["build"], ["build", "a"], ["build", "a", "b", "c"], ["show"], ["show", "a", "b", "c"],
                      ["make", "a", "b"], ["show", "--cvs", "a"], ["build", "--csv", "a", "b"], ["--csv", "show", "a"],
                      ["show", "--csv"], ["show", "--csv", "--csv", "a"], ["show", "-", "-"], ["build", "-v", "a"]]:
            self.assertEqual(run(*words), (2, b"", self.USAGE.format("sheet")), words)

    def test_the_name_in_the_usage(self):
        name = self.file("drifters-sheet")
        os.symlink(TOOL, name)
        ended = subprocess.run([sys.executable, name], stderr=subprocess.PIPE, check=False)
        self.assertEqual(ended.stderr.decode(), self.USAGE.format("drifters-sheet"))

    def test_standard_input_and_output(self):
        text, answers = content(self.text), content(path("sheet/stdout"))
        made, printed = self.file("sheet.bin", self.data), self.file("answers", answers)
        self.assertEqual(run("build", "-", "-", input=text), (0, self.data, ""))
        self.assertEqual(run("build", "-", self.file("other"), input=text), (0, b"", ""))
        self.assertEqual(content(self.file("other")), self.data)
        shown = run("show", made, printed)
        self.assertEqual(run("show", "-", printed, input=self.data), shown)
        self.assertEqual(run("show", made, "-", input=answers), shown)

    def test_standard_output_stays_open(self):
        """For those who import the program."""
        sheet.put("-", b"")
        os.fstat(1)

    def test_messages_have_the_files_name(self):
        bad, made = self.file("bad", b"\nstate\n"), self.file("sheet.bin", self.data)
        first = "line 2: the first entry, and no other, is a start or a filter"
        missing = self.file("missing")
        for words, message in [
            (["build", bad, made], f"{bad}: {first}"),
            (["build", missing, made], f"{missing}: No such file or directory"),
            (["build", self.folder, made], f"{self.folder}: Is a directory"),
            (["build", self.text, self.folder], f"{self.folder}: Is a directory"),
            (["build", self.text, os.path.join(missing, "x")], f"{missing}/x: No such file or directory"),
            (["build", self.text, ""], "'': No such file or directory"),
            (["show", missing], f"{missing}: No such file or directory"),
            (["show", bad], f"{bad}: too short for a sheet"),
            (["show", made, missing], f"{missing}: No such file or directory"),
            (["show", made, bad], f"{bad}: line 1: '' is no answer of entry 1, position, of kind 2"),
            (["show", "a\nb\x1b[31m\udcff"], r"'a\nb\x1b[31m\udcff': No such file or directory"),
        ]:
            self.assertEqual(run(*words), (1, b"", message + "\n"))
        self.assertEqual(content(made), self.data)
        self.assertEqual(run("build", "-", "-", input=b"\nstate\n"), (1, b"", f"standard input: {first}\n"))
        self.assertEqual(run("show", "-"), (1, b"", "standard input: too short for a sheet\n"))

    def test_the_text_is_not_overwritten(self):
        text = self.file("text", content(self.text))
        link, twin = self.file("link"), self.file("twin")
        os.symlink(text, link)
        os.link(text, twin)
        for source, target in [(text, text), (text, os.path.join(self.folder, ".", "text")), (text, link), (text, twin),
                               (link, text)]:
            self.assertEqual(run("build", source, target),
                             (1, b"", f"{source}: the sheet would be written over its text\n"))
        with open(text, "rb") as file:
            self.assertEqual(run("build", "-", text, stdin=file),
                             (1, b"", "standard input: the sheet would be written over its text\n"))
        with open(text, "ab") as file:
            self.assertEqual(run("build", text, "-", stdout=file),
                             (1, None, f"{text}: the sheet would be written over its text\n"))
        self.assertEqual(content(text), content(self.text))

    def test_a_device_is_no_source_to_keep(self):
        """As where a terminal is both standard input and standard output."""
        with open(os.devnull, "r+b") as file:
            self.assertEqual(run("build", "-", "-", stdin=file, stdout=file),
                             (1, None, "standard input: there is no start and no filter\n"))

    def test_a_sheet_stays_where_the_build_fails(self):
        for text in [FILTER.encode() + b"\nupdate\n", b"", FILTER.encode() + b"\n\xff", b"#" * (1 << 20) + b"#"]:
            made, fresh = self.file("sheet.bin", b"as it was"), self.file("fresh")
            for target in (made, fresh):
                self.assertEqual(run("build", "-", target, input=text)[0], 1)
            self.assertEqual(content(made), b"as it was")
            self.assertFalse(os.path.exists(fresh))

    def test_messages_are_short(self):
        """Whatever a file holds, a message is one line of printable ASCII, at most 200 characters after the name."""
        made = self.file("sheet.bin", self.data)
        strange = ["w" * 100000, "\x1b[31mred\x07", "\0" * 50, "\u202e\u0301" * 50, "\U0010ffff" * 50, "\\" * 50]
        texts = [before + word + after for word in strange for before, after in
                 [("", ""), ("filter ", ""), ("propagate ", "=1"), (FILTER[:-3], ""),
                  (f"start {AT_REST} gravity=zero sigma=", "")]]
        # The longest message: the kind with the longest names, far down.
        texts.append("\n" * 900000 + "propagate " + strange[0] + "=1")
        texts += [FILTER[:-3] + text for text in
                  ["1" * 100000 + "x", "1" * 100000, "0x" + "0" * 100000, "1," * 100000 + "1"]]
        # In the process: to start the program for each would take long.
        for data in [text.encode() for text in texts] + [b"\xff" * 100000, b"\r" * 1000]:
            with self.assertRaises(sheet.Bad) as raised:
                sheet.parse(data)
            self.assertRegex(str(raised.exception), r"\A[ -~]{1,200}\Z")
        for data in [b"\xff" * 60000, b"\x1b[31m\n", b"1 2 \xe2\x80\xae\n", b"\0" * 60000, b"\n" * 60000]:
            status, out, err = run("show", made, "-", input=data)
            self.assertEqual((status, out), (1, b""))
            self.assertRegex(err, r"\Astandard input: [ -~]{1,200}\n\Z")

    def test_how_text_is_quoted(self):
        for text, shown in [("", "''"), ("it's", '"it\'s"'), ("a" * 38, "'" + "a" * 38 + "'"),
                            ("a" * 39, "'" + "a" * 36 + "..'"), ("a" * 1000, "'" + "a" * 36 + "..'"),
                            ("\x1b[0m", r"'\x1b[0m'"), ("gr\u00fcn", r"'gr\xfcn'"),
                            ("\x1b" * 10, "'" + r"\x1b" * 9 + "..'")]:
            self.assertEqual(sheet.quoted(text), shown)

    def test_no_more_is_read_than_can_count(self):
        made = self.file("sheet.bin", self.data)
        with open(self.file("long"), "wb") as file:
            file.truncate(1 << 24)
        for words, most in [(["show", "-"], 65536), (["show", made, "-"], 65536), (["build", "-", made], 1 << 20)]:
            with open(self.file("long"), "rb") as file:
                self.assertEqual(run(*words, stdin=file), (1, b"", f"standard input: longer than {most} bytes\n"))
                # The program shares the place in the file.
                self.assertEqual(os.lseek(file.fileno(), 0, os.SEEK_CUR), most + 1)

    def test_what_is_longest(self):
        """A sheet and a text of the most bytes are taken."""
        text = "\n".join([FILTER, *[GENERAL] * 101, PROPAGATE, *["state"] * 8])
        data = sheet.pack(parsed(text))
        self.assertEqual(len(data), 65532)
        self.told("line 112: more than 65536 bytes of a sheet", parsed, text, "state")
        made = self.file("sheet.bin")
        text = text.encode().ljust((1 << 20) - 1) + b"\n"
        self.assertEqual(run("build", "-", made, input=text), (0, b"", ""))
        self.assertEqual(content(made), data)
        self.assertEqual(run("show", made)[0], 0)
        self.assertEqual(sheet.read(self.file("most", bytes(65536)), 65536), bytes(65536))

    @unittest.skipUnless(os.path.exists("/dev/zero"), "no /dev/zero")
    def test_an_endless_file(self):
        def little_memory():
            resource.setrlimit(resource.RLIMIT_AS, (1 << 29, 1 << 29))
        made = self.file("sheet.bin", self.data)
        for words, most in [(["show", "/dev/zero"], 65536), (["show", made, "/dev/zero"], 65536),
                            (["build", "/dev/zero", made], 1 << 20)]:
            self.assertEqual(run(*words, preexec_fn=little_memory), (1, b"", f"/dev/zero: longer than {most} bytes\n"))

    def test_an_input_in_pieces(self):
        """A pipe gives what it has: the program reads on to the end."""
        reader, writer = os.pipe()
        with subprocess.Popen([sys.executable, TOOL, "show", "-"], stdin=reader, stdout=subprocess.PIPE) as program:
            os.close(reader)
            for i in range(0, len(self.data), 1000):
                os.write(writer, self.data[i:i + 1000])
            os.close(writer)
            self.assertEqual(program.communicate(timeout=60)[0], run("show", "-", input=self.data)[1])

    @unittest.skipUnless(os.path.exists("/dev/full"), "no /dev/full")
    def test_a_full_disk(self):
        full = "No space left on device\n"
        self.assertEqual(run("build", self.text, "/dev/full"), (1, b"", "/dev/full: " + full))
        made = self.file("sheet.bin", self.data)
        for words in [["show", made], ["show", "--csv", made], ["build", self.text, "-"], ["--help"]]:
            with open("/dev/full", "wb") as file:
                self.assertEqual(run(*words, stdout=file), (1, None, "standard output: " + full))

    def test_a_reader_that_has_gone(self):
        made = self.file("sheet.bin", self.data)
        for words in [["show", made], ["build", self.text, "-"], ["--help"]]:
            reader, writer = os.pipe()
            os.close(reader)
            self.assertEqual(run(*words, stdout=writer), (-signal.SIGPIPE, None, ""))
            os.close(writer)

    def test_closed_descriptors(self):
        def close_both():
            os.close(0)
            os.close(1)
        self.assertEqual(run("build", "-", "-", preexec_fn=close_both),
                         (1, b"", "standard input: Bad file descriptor\n"))
        self.assertEqual(run("build", self.text, "-", preexec_fn=close_both),
                         (1, b"", "standard output: Bad file descriptor\n"))

    def test_an_interrupt(self):
        with subprocess.Popen([sys.executable, TOOL, "build", "-", "-"], stdin=subprocess.PIPE, stdout=subprocess.PIPE,
                              stderr=subprocess.PIPE) as program:
            # More than a pipe holds: once it is written, the program reads, and its handlers are set.
            program.stdin.write(b"#" * (1 << 19))
            program.stdin.flush()
            program.send_signal(signal.SIGINT)
            self.assertEqual((program.wait(60), program.stderr.read()), (-signal.SIGINT, b""))


if __name__ == "__main__":
    unittest.main()
