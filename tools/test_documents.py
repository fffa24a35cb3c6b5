#!/usr/bin/env python3
"""Tests of README.md and docs/MANUAL.md: their commands, programs, tables and links. README's commands come first: they make the library and the
programs in target/ that the rest needs. What lacks its tool (cc, cargo, pkg-config) is left out, and said."""
import math
import os
import platform
import re
import shutil
import struct
import subprocess
import tempfile
import unittest
import xml.etree.ElementTree

from repository import ROOT, TOOL, content, sheet

# What runs these tests is not run by them.
THE_GATE = ".ci/run"

# The library and the programs are for this machine alone.
X86_64_LINUX = platform.system() == "Linux" and platform.machine() == "x86_64"


def documents():
    """Every Markdown file of the repository, by its path from the root."""
    for folder, folders, names in os.walk(ROOT):
        folders[:] = [name for name in folders if name not in ("target", "out", ".git")]
        yield from (os.path.relpath(os.path.join(folder, name), ROOT) for name in names if name.endswith(".md"))


def blocks(text):
    """The language and the content of each fenced block."""
    return re.findall(r"^```(\w+)\n(.*?)^```$", text, re.M | re.S)


def without(*commands):
    """Says what is left out for want of a command, or of the machine that the library is for; true if it is."""
    missing = [f"no {command}" for command in commands if not shutil.which(command)]
    if not X86_64_LINUX:
        missing.append("not x86-64 Linux")
    if missing:
        print(f"tools/test_documents.py: left out: what needs {' and '.join(commands)}: {', '.join(missing)}")
    return bool(missing)


def output(command, folder, **more):
    """What a command prints."""
    done = subprocess.run(command, cwd=folder, stdout=subprocess.PIPE, stderr=subprocess.PIPE, encoding="utf-8", **more)
    if done.returncode:
        raise AssertionError(f"{command}: status {done.returncode}\n{done.stdout}{done.stderr}")
    return done.stdout


class Links(unittest.TestCase):
    def anchors(self, text):
        """The anchors of the headings, as they are made for Markdown."""
        headings = re.findall(r"^#+ (.*)$", re.sub(r"^```.*?^```$", "", text, flags=re.M | re.S), re.M)
        return {re.sub(r"[^\w\- ]", "", heading.lower()).replace(" ", "-") for heading in headings}

    def test_every_link_leads_somewhere(self):
        links = 0
        for document in documents():
            text = content(document)
            plain = re.sub(r"^```.*?^```$", "", text, flags=re.M | re.S)
            for target in re.findall(r"\]\(([^)\s]+)\)", plain) + re.findall(r"^\[[^\]]+\]: (\S+)$", plain, re.M):
                if target.startswith("http"):
                    continue
                links += 1
                path, _, anchor = target.partition("#")
                file = os.path.normpath(os.path.join(os.path.dirname(document), path)) if path else document
                with self.subTest(document=document, target=target):
                    self.assertTrue(os.path.exists(os.path.join(ROOT, file)))
                    if anchor:
                        self.assertIn(anchor, self.anchors(content(file)))
        self.assertGreater(links, 100)


class Manual(unittest.TestCase):
    manual = content("docs/MANUAL.md")

    def table(self, title):
        """The places of the table under a title in bold: each part, its first place and the place after its last."""
        found = re.search(rf"^\*\*{title}(?:.+\n)+\n\| Places \|.*\n\|[-|]+\n((?:\|.*\n)+)", self.manual, re.M)
        self.assertIsNotNone(found, title)
        rows = [[cell.strip() for cell in row.split("|")[1:-1]] for row in found[1].splitlines()]
        return [(row[1], int(row[0].split(" to ")[0]), int(row[0].split(" to ")[-1]) + 1) for row in rows]

    def expected(self, parts):
        """The same from the parts and their rows and columns."""
        places, at = [], 0
        for name, (rows, columns) in parts.items():
            places.append((name, at, at + rows * columns))
            at += rows * columns
        return places

    def test_places(self):
        tables = {"filter": ("A filter", 480), "propagate": ("Propagate", 25), "position": ("Position", 12), "velocity": ("Velocity", 15),
                  "direction": ("Direction", 15), "general": ("General", 75), "scalar": ("Scalar", 23)}
        self.assertEqual([name for name, parts in sheet.KINDS if parts], list(tables))
        for kind, (name, parts) in enumerate(sheet.KINDS):
            if not parts:
                continue
            title, length = tables[name]
            self.assertEqual(self.table(title), self.expected(parts))
            self.assertRegex(self.manual, rf"\*\*{title}, (kind {kind}, )?{length} numbers\.\*\*")
            self.assertEqual(length, self.expected(parts)[-1][2])

    def test_places_of_a_filter_with_one_alpha(self):
        """The parts before the alphas are those of a filter."""
        parts = [part for part in self.expected(sheet.KINDS[0][1]) if part[0] not in sheet.ALPHAS]
        (first, _, _), (last, _, end) = parts[0], parts[-1]
        self.assertEqual(self.table("A filter with one alpha"), [(f"{first} to {last}", 0, end), ("alpha", end, end + 1)])
        self.assertIn(f"**A filter with one alpha, {end + 1} numbers.**", self.manual)

    def test_places_of_several_compasses(self):
        """North and noise are those of a direction, without what is measured."""
        north_noise = {name: size for name, size in dict(sheet.KINDS)["direction"].items() if name != "measured"}
        self.assertEqual(self.table("North and noise of several compasses"), self.expected(north_noise))
        self.assertEqual(self.table("Counts of several compasses"), [("tried", 0, 1), ("chosen", 1, 2)])

    def test_places_of_a_state_a_start_and_the_coordinates(self):
        state = self.expected(sheet.STATE)
        self.assertEqual(self.table("A state"), state)
        filter_parts = self.expected(sheet.KINDS[0][1])
        self.assertEqual(self.table("A start"), [("state", 0, state[-1][2]), *filter_parts[6:8]])
        self.assertEqual(self.table("The 21 coordinates"), [(name, 3 * k, 3 * k + 3) for k, name in enumerate(sheet.STATE)])

    def test_the_table_of_the_simulated_flights(self):
        self.assertIn(content("bindings/examples/simulate.txt"), self.manual)

    def test_the_weights(self):
        """The table of how far one axis moves, from the formula above it."""
        table = self.manual.split("| Σ | N | innovation |")[1].split("\n\n")[0]
        rows = [[float(cell) for cell in row.split("|")[1:-1]] for row in table.splitlines()[2:]]
        self.assertEqual(len(rows), 5)
        for sigma, noise, y, *moves in rows:
            r = y * y / (sigma + noise)
            beta = (1 + r ** 0.5) ** 2 / (1 + r) if r < 1 else 2
            expected = [sigma * y / (beta * (sigma + alpha * y * y) + noise) for alpha in (0, 0.01, 0.1, 0.5)]
            self.assertEqual(moves, [round(move, 3) for move in expected])

    def test_the_limits_of_a_mean_nis(self):
        """99 of 100 means of n lie between them: n times the mean is a chi-squared number of n times 3, 2 or 1 degrees of freedom."""
        def below(x, degrees):
            term = total = 1 / (degrees / 2)
            for i in range(1, 2000):
                term *= (x / 2) / (degrees / 2 + i)
                total += term
            return total * math.exp(-x / 2 + degrees / 2 * math.log(x / 2) - math.lgamma(degrees / 2))

        rows = re.findall(r"^\| (\d+) \|" + r" from ([\d.]+) to ([\d.]+) \|" * 3 + "$", self.manual, re.M)
        self.assertEqual([row[0] for row in rows], ["10", "20", "50", "100"])
        for n, *limits in ([int(row[0]), *map(float, row[1:])] for row in rows):
            for limit, axes, part in zip(limits, (3, 3, 2, 2, 1, 1), (0.005, 0.995) * 3):
                self.assertLess(below(n * (limit - 0.006), n * axes), part)
                self.assertGreater(below(n * (limit + 0.006), n * axes), part)

    def test_the_limits_of_a_norm(self):
        """The square is 0 up to 1.57e-162, and finite up to 1.3e154: it is neither a little above."""
        for largest, above, holds in [("1.57e-162", 1.58e-162, lambda x: x * x == 0), ("1.3e154", 1.4e154, lambda x: x * x < math.inf)]:
            self.assertIn(f"about {largest}", self.manual)
            self.assertTrue(holds(float(largest)))
            self.assertFalse(holds(above))

    def test_the_drawing(self):
        drawing = xml.etree.ElementTree.fromstring(content("docs/frames.svg"))
        words = " ".join(" ".join(text.itertext()) for text in drawing.iter("{http://www.w3.org/2000/svg}text"))
        for word in ("reference", "body frame", "compass frame", "gravity (0, 0, +9.81)", "antenna: p + R t", "(0, 0, -9.81)"):
            self.assertIn(word, words)

    def test_the_programs_in_c(self):
        if without("cc"):
            return
        programs = re.findall(r"^```c\n(.*?)^```\n\nIt prints\n\n```text\n(.*?)^```$", self.manual, re.M | re.S)
        self.assertEqual(len(programs), sum(language == "c" for language, _ in blocks(self.manual)))
        self.assertEqual(len(programs), 5)
        for program, printed in programs:
            self.assertEqual(self.printed(program), printed)

    def test_the_first_covariance(self):
        """first_sigma.h and tools/sheet make the same of the same deviations, at a state that is turned, displaced and moving."""
        if without("cc"):
            return
        state = [0.36, -0.48, 0.8, 0.8, 0.6, 0, -0.48, 0.64, 0.6, 3, -4, 5, 120, -70, -900, *[0] * 9, 1, 0, 0, 0, 1, 0, 0, 0, 1]
        deviations = [0.1, 0.2, 0.3, 0.5, 0.6, 0.7, 2, 3, 4, 0.005, 0.006, 0.007, 0.05, 0.06, 0.07, 0.3, 0.4, 0.5, 0.04, 0.05, 0.06]
        program = f"""
            #include <stdio.h>
            #include "first_sigma.h"
            int main(void)
            {{
                const double state[] = {{{", ".join(map(str, state))}}}, deviations[] = {{{", ".join(map(str, deviations))}}};
                double sigma[DRIFTERS_SIGMA_LENGTH];
                int i;
                first_sigma(sigma, state, deviations);
                for (i = 0; i < DRIFTERS_SIGMA_LENGTH; i++)
                    printf("%.17g\\n", sigma[i]);
                return 0;
            }}"""
        in_c = [float(line) for line in self.printed(program).splitlines()]
        parts = {"attitude": state[:9], "velocity": state[9:12], "position": state[12:15]}
        in_python = sheet.covariance(parts, deviations)
        self.assertEqual(len(in_c), len(in_python))
        for k, (c, python) in enumerate(zip(in_c, in_python)):
            self.assertAlmostEqual(c, python, delta=1e-12 * max(1, abs(python)), msg=f"place {k}")

    def printed(self, program):
        """What a program in C prints."""
        flags = ["-std=c89", "-Wall", "-Wextra", "-Werror", "-pedantic", f"-I{ROOT}/include", f"-I{ROOT}/bindings/examples"]
        with tempfile.TemporaryDirectory() as folder:
            with open(os.path.join(folder, "program.c"), "w", encoding="utf-8") as file:
                file.write(program)
            output(["cc", *flags, "program.c", f"-L{ROOT}/target/staticlib", "-ldrifters_eqf_c", "-o", "program"], folder)
            return output(["./program"], folder)

    def test_the_sheet(self):
        """The sheet's flight has the NIS that the program in C prints."""
        if without("python3"):
            return
        text, = [block for language, block in blocks(self.manual) if language == "sheet"]
        nis = re.findall(r"^(\w+): NIS ([0-9.]+)$", self.manual, re.M)
        self.assertEqual([name for name, _ in nis], ["position", "direction"])
        with tempfile.TemporaryDirectory() as folder:
            with open(os.path.join(folder, "flight.txt"), "w", encoding="utf-8") as file:
                file.write(text)
            output([TOOL, "build", "flight.txt", "sheet.bin"], folder)
            lines = output([os.path.join(ROOT, "target", "bin", "sheet")], folder).splitlines()
        answers = [line.split()[2] for line in lines]
        self.assertEqual([answers[0], answers[3]], ["ok", "ok"])
        for bits, (_, printed) in zip(answers[1:3], nis):
            self.assertEqual(f"{sheet.number(int(bits, 16)):.4f}", printed)

    def test_the_bytes_of_the_whole_case(self):
        """They are those of its text in crates/sheet."""
        entries = sheet.parse(content("crates/sheet/sheet.txt").encode())
        data = sheet.pack(entries)
        *places, last = [f"{struct.unpack_from('<I', data, 8 + 8 * i)[0]:,}" for i in range(len(entries))]
        self.assertIn(f"begin at the bytes {', '.join(places)} and {last} of {len(data):,}.", " ".join(self.manual.split()))

    def test_a_sheet_of_the_old_length(self):
        """Without the bytes that the manual tells to insert, and with the places before them, it is refused for its one alpha."""
        found = re.search(r"8 bytes that\s+begin ([\d,]+)\s+bytes after 4 \+ 8 n.*?add (\d+)", self.manual, re.S)
        alpha, added = (int(number.replace(",", "")) for number in found.groups())
        data = bytearray(sheet.pack(sheet.parse(content("crates/sheet/sheet.txt").encode())))
        count, = struct.unpack_from("<I", data)
        end = 4 + 8 * count + alpha + 8
        self.assertEqual(data[end:end + added], 2 * data[end - 8:end])
        del data[end:end + added]
        for i in range(1, count):
            place, = struct.unpack_from("<I", data, 8 + 8 * i)
            struct.pack_into("<I", data, 8 + 8 * i, place - added)
        self.assertEqual(len(data), 4 + 8 * count + 8 * (478 + 12 * (count - 1)))
        self.assertRaisesRegex(sheet.Bad, "one of 478 has one alpha", sheet.unpack, bytes(data))

    def test_the_line_of_a_scalar_update(self):
        """The manual's line for a sheet has the numbers of its program in C: the row of p = (400, -300, -1500), and a height of 1503."""
        line, = re.findall(r"`(scalar [^`]+)`", self.manual)
        kind, bits = sheet.entry(line)
        self.assertEqual(sheet.KINDS[kind][0], "scalar")
        self.assertEqual([sheet.number(x) for x in bits], [300, 400, *[0] * 6, -1, *[0] * 12, 3, 1])
        self.assertIn("position[3] = {400, -300, -1500}, height = 1503, variance = 1;", self.manual)

    def test_the_line_of_a_chosen_compass(self):
        """The manual's line for a sheet has the numbers of its program in C: the third reading, with north and noise."""
        line, = re.findall(r"`(direction [^`]+)`", self.manual)
        kind, bits = sheet.entry(line)
        self.assertEqual(sheet.KINDS[kind][0], "direction")
        noise = [1e-4, 0, 0, 0, 1e-4, 0, 0, 0, 1e-4]
        self.assertEqual([sheet.number(x) for x in bits], [0.47, -0.03, 0.88, 0.48, 0, 0.88, *noise])
        for part in ("0.47, -0.03, 0.88}; /* as it should be */", "NORTH] = 0.48;", "NORTH + 2] = 0.88;", "NOISE + 4 * i] = 1e-4;"):
            self.assertIn(part, self.manual.split("## Several compasses")[1])


class Readme(unittest.TestCase):
    """The commands of README.md, run as they are printed, one after the other, in a copy of the repository that shares its target/."""
    readme = content("README.md")

    def setUp(self):
        self.home = tempfile.TemporaryDirectory()
        self.addCleanup(self.home.cleanup)
        self.copy = os.path.join(self.home.name, "copy")
        shutil.copytree(ROOT, self.copy, ignore=shutil.ignore_patterns("target", "out", ".git"))
        os.symlink(os.path.join(ROOT, "target"), os.path.join(self.copy, "target"))

    def run_block(self, block):
        """What the commands of a block print; nothing where a tool of theirs is missing."""
        tools = [tool for tool in ("rt", "cc", "cargo", "pkg-config", "python3") if re.search(rf"(^|[ (]){tool} ", block, re.M)]
        if without(*tools):
            return None
        home = os.path.expanduser("~")
        rust = {"CARGO_HOME": f"{home}/.cargo", "RUSTUP_HOME": f"{home}/.rustup", "CARGO_TARGET_DIR": f"{ROOT}/target/bindings/cargo"}
        return output(["sh", "-ec", block], self.copy, env={**rust, **os.environ, "HOME": self.home.name})

    def test_commands(self):
        """A block that opens with the name of a file is that file; a block of text after commands is the end of what they print."""
        printed, ran = None, []
        for language, block in blocks(self.readme):
            name = re.match(r"(?:/\* |# )([\w.]+)(?: \*/)?\n", block)
            if name:
                with open(os.path.join(self.copy, name[1]), "w", encoding="utf-8") as file:
                    file.write(block)
            elif language == "sh" and block.split()[0] != THE_GATE:
                printed = self.run_block(block)
                ran.append(block)
            elif language == "text" and printed is not None:
                self.assertEqual(printed[-len(block):], block)
        self.assertGreater(len(ran), 4)

    def test_the_gate_is_the_second_command(self):
        commands = [block for language, block in blocks(self.readme) if language == "sh"]
        self.assertEqual(commands[1].split()[0], THE_GATE)
        self.assertTrue(os.access(os.path.join(ROOT, THE_GATE), os.X_OK))


def load_tests(loader, tests, pattern):
    """In this order, since README's commands make what the manual's programs link."""
    return unittest.TestSuite(map(loader.loadTestsFromTestCase, [Readme, Manual, Links]))


if __name__ == "__main__":
    unittest.main()
