#!/usr/bin/env python3
"""Tests that files agree: on the version; the header, tools/sheet, the Rust crate and the manual on places and refusals; README.md on refusals."""
import os
import re
import shutil
import subprocess
import tempfile
import unittest

from repository import ROOT, content, sheet

HEADER = "include/drifters_eqf.h"
# The runs whose places have names. The kind `general` is named by its function, update. COMPASSES, and ONE_ALPHA, a
# filter with one alpha, are of no kind.
RUNS = ["FILTER", "STATE", "START", "PROPAGATE", "POSITION", "VELOCITY", "DIRECTION", "UPDATE", "SCALAR", "COMPASSES",
        "ONE_ALPHA"]


def evaluated(expression, value_of):
    """The value of an integer expression over names, in C or Rust."""
    text = re.sub(r"(?<!\w)[A-Za-z_]\w*(::\w+)*", lambda name: str(value_of(name[0])), expression)
    text = re.sub(r"(\d)u\b", r"\1", text)
    if not re.fullmatch(r"[0-9+*() -]+", text):
        raise ValueError(f"no integer expression: {expression}")
    return eval(text)


def header_lines():
    """Each constant of the header: its name, its expression, and the comment behind it ('' where it has none)."""
    return re.findall(r"^#define (DRIFTERS_\w+) (\S.*?)(?: +/\* (.*) \*/)?$", content(HEADER), re.MULTILINE)


def header_constants():
    """The header's integers by their names without DRIFTERS_."""
    values = {}
    for name, expression, _ in header_lines():
        if name not in ("DRIFTERS_VERSION", "DRIFTERS_INLINE"):
            values[name] = evaluated(expression, values.__getitem__)
    return {name[len("DRIFTERS_"):]: value for name, value in values.items()}


def rust_expressions():
    """The Rust crate's integers: the expression of each by its path, as filter::A, or FILTER_LENGTH at the top."""
    found = {}
    for file, module in [("lib", ""), ("kind", "kind::"), ("places", "")]:
        for line in content(f"bindings/src/{file}.rs").splitlines():
            opened = re.fullmatch(r"pub mod (\w+) \{", line)
            constant = re.fullmatch(r" *pub const (\w+): (?:usize|u32) = (.+);", line)
            if opened:
                module = f"{opened[1]}::"
            elif constant:
                found[module + constant[1]] = constant[2]
    return found


def rust_constants():
    """The Rust crate's integers by the header's names without DRIFTERS_: FILTER_A for filter::A."""
    expressions = rust_expressions()

    def value(path):
        module = path.rpartition("::")[0]

        def value_of(name):
            name = re.sub(r"^(crate::)?(places::)?", "", name)
            beside = f"{module}::{name}"
            return value(beside if beside in expressions else name)

        return evaluated(expressions[path], value_of)

    return {path.replace("::", "_").upper(): value(path) for path in expressions}


def sizes(parts):
    """How many numbers each part has."""
    return {name: rows * columns for name, (rows, columns) in parts.items()}


def places(run, sizes_of_parts):
    """What the header must have for a run of these parts: where each begins, and the length."""
    found, at = {}, 0
    for part, size in sizes_of_parts.items():
        found[f"{run}_{constant_name(part)}"] = at
        at += size
    return {**found, f"{run}_LENGTH": at}


def constant_name(part):
    """The name of a part's place: GYRO_DENSITY for density.gyro."""
    group, _, name = part.rpartition(".")
    return f"{name}_{group}".upper() if group else name.upper()


class Version(unittest.TestCase):
    def setUp(self):
        self.version = re.search(r'^#define DRIFTERS_VERSION "(.+)"$', content(HEADER), re.MULTILINE)[1]

    def test_header(self):
        constants = header_constants()
        numbers = [str(constants[f"VERSION_{part}"]) for part in ("MAJOR", "MINOR", "PATCH")]
        self.assertEqual(".".join(numbers), self.version)

    def test_rust_crate(self):
        for name in ["bindings/Cargo.toml", "bindings/Cargo.lock"]:
            with self.subTest(name):
                package = re.search(r'^name = "drifters-port"\nversion = "(.+)"$', content(name), re.MULTILINE)
                self.assertEqual(package[1], self.version)

    def test_changes(self):
        heading = re.search("^## .*$", content("CHANGELOG.md"), re.MULTILINE)[0]
        self.assertRegex(heading, rf"^## {re.escape(self.version)} - \d{{4}}-\d\d-\d\d$")

    def test_pkg_config(self):
        """What tools/install writes, with empty files for those that it finds missing beside the header."""
        with tempfile.TemporaryDirectory() as folder:
            for name in [HEADER, "tools/install"]:
                os.makedirs(os.path.join(folder, os.path.dirname(name)))
                shutil.copy(os.path.join(ROOT, name), os.path.join(folder, name))
            install = [os.path.join(folder, "tools/install"), os.path.join(folder, "prefix")]
            environment = {name: value for name, value in os.environ.items() if name != "DESTDIR"}
            first = subprocess.run(install, stderr=subprocess.PIPE, env=environment, universal_newlines=True)
            for name in re.findall("^tools/install: no (.+?);", first.stderr, re.MULTILINE):
                os.makedirs(os.path.join(folder, os.path.dirname(name)), exist_ok=True)
                open(os.path.join(folder, name), "x").close()
            subprocess.run(install, stdout=subprocess.DEVNULL, env=environment, check=True)
            with open(os.path.join(folder, "prefix/lib/pkgconfig/drifters_eqf.pc"), encoding="utf-8") as file:
                self.assertIn(f"\nVersion: {self.version}\n", file.read())


class Places(unittest.TestCase):
    def setUp(self):
        self.header = header_constants()

    def named(self, prefix):
        """The header's constants of a run."""
        return {name: value for name, value in self.header.items() if name.startswith(f"{prefix}_")}

    def test_comments(self):
        """The number that a comment begins with is the constant's; one that is no plain number has such a comment."""
        for name, expression, comment in header_lines():
            number = re.match(r"(\d+)(:|$)", comment)
            with self.subTest(name):
                if number:
                    self.assertEqual(int(number[1]), self.header[name[len("DRIFTERS_"):]])
                else:
                    self.assertRegex(expression, r'^(\d+u?|".*"|static.*)$')

    def test_kinds(self):
        for number, (kind, parts) in enumerate(sheet.KINDS):
            with self.subTest(kind):
                self.assertEqual(self.header[f"KIND_{kind.upper()}"], number)
                if parts:
                    run = "UPDATE" if kind == "general" else kind.upper()
                    self.assertEqual(self.named(run), places(run, sizes(parts)))
        self.assertEqual(len(self.named("KIND")), len(sheet.KINDS))

    def test_state(self):
        self.assertEqual(self.named("STATE"), places("STATE", sizes(sheet.STATE)))

    def test_start(self):
        of_filter = sizes(sheet.KINDS[0][1])
        state = sum(sizes(sheet.STATE).values())
        start = {"state": state, "sigma": of_filter["sigma"], "gravity": of_filter["gravity"]}
        self.assertEqual(self.named("START"), places("START", start))

    def test_coordinates(self):
        """Each part of a state has three."""
        expected = places("COORDINATE", {part: 3 for part in sheet.STATE})
        self.assertEqual(self.header["STATES"], expected.pop("COORDINATE_LENGTH"))
        self.assertEqual(self.named("COORDINATE"), expected)
        self.assertEqual(sheet.KINDS[0][1]["sigma"], (self.header["STATES"], self.header["STATES"]))

    def test_several_compasses(self):
        """A reading, then north and noise, are the numbers of a direction; no reading has the index of none."""
        measured, *rest = sizes(dict(sheet.KINDS)["direction"]).items()
        self.assertEqual(("measured", self.header["READING_LENGTH"]), measured)
        self.assertEqual(self.named("COMPASSES"), places("COMPASSES", dict(rest)))
        self.assertEqual(self.named("COUNTS"), places("COUNTS", {"tried": 1, "chosen": 1}))
        self.assertEqual(self.header["NONE_CHOSEN"], self.header["MOST_READINGS"])

    def test_one_alpha(self):
        """A filter with one alpha has it in place of the three; its other places have the names of a filter's."""
        others = {name: size for name, size in sizes(sheet.KINDS[0][1]).items() if name not in sheet.ALPHAS}
        expected = places("ONE_ALPHA", {"others": sum(others.values()), "alpha": 1})
        del expected["ONE_ALPHA_OTHERS"]
        self.assertEqual(self.named("ONE_ALPHA"), expected)
        self.assertEqual([*others, *sheet.ALPHAS], list(sheet.KINDS[0][1]))

    def test_limits_of_a_sheet(self):
        self.assertEqual(self.header["SHEET_ENTRIES"], sheet.MOST_ENTRIES)
        self.assertEqual(self.header["SHEET_BYTES"], sheet.MOST_BYTES)

    def test_manual(self):
        """The manual's tables name a constant for each part of a run, with its place."""
        rows = re.findall(r"^\| (\d+)[^|]*\|[^|]*\|[^|]*\| `DRIFTERS_(\w+)` \|$", content("docs/MANUAL.md"), re.MULTILINE)
        expected = [(str(value), name) for run in [*RUNS, "COUNTS", "COORDINATE"]
                    for name, value in self.named(run).items() if not name.endswith("_LENGTH")]
        self.assertEqual(sorted(rows), sorted(expected))

    def test_manual_on_several_compasses(self):
        """The manual's table of that call has its arguments in their order, each run with its length."""
        section = content("docs/MANUAL.md").split("\n## Several compasses\n")[1].split("\n## ")[0]
        rows = re.findall(r"^\| (\w+) \| ([^|]+) \| [^|]+ \| [^|]*`DRIFTERS_(\w+)` \|$", section, re.MULTILINE)
        declared = re.search(r"drifters_update_compasses\(([^)]*)\);", content(HEADER))[1]
        arguments = [argument.split()[-1].lstrip("*") for argument in declared.split(",")]
        self.assertEqual([name for name, _, _ in rows], [name for name in arguments if not name.endswith("_length")])
        most = self.header["READING_LENGTH"] * self.header["MOST_READINGS"]
        others = {"readings": f"3, 6, 9 and so on to {most}", "budget": "no run"}
        for name, length, constant in rows:
            self.assertEqual(length, others.get(name, str(self.header[constant])))

    def test_rust_crate(self):
        """Each constant has the header's value, and none of a run, a coordinate or a kind is missing."""
        rust = rust_constants()
        self.assertEqual(rust, {name: self.header.get(name) for name in rust})
        for prefix in [*RUNS, "COORDINATE", "KIND"]:
            self.assertLessEqual(self.named(prefix).keys(), rust.keys())


def header_refusals(function):
    """What a function of the header gives for each refusal, by its word in capital letters."""
    body = re.search(rf"\*{function}\(uint32_t code\)\n{{(.*?)^}}", content(HEADER), re.DOTALL | re.MULTILINE)[1]
    joined = re.sub(r'"\s+"', "", body)  # C joins strings that follow one another
    cases = re.findall(r'case DRIFTERS_REFUSED_(\w+):\s+return "(.*?)";', joined)
    return dict(cases)


class Declarations(unittest.TestCase):
    def test_manual(self):
        """The manual has the header's declarations, but for those of sine, cosine and root."""
        def declarations(text):
            return [" ".join(found.split()) for found in re.findall(r"^uint32_t drifters_[^;]*;", text, re.MULTILINE)]

        expected = [text for text in declarations(content(HEADER)) if "sin_cos" not in text]
        self.assertEqual(declarations(content("docs/MANUAL.md")), expected)
        self.assertEqual(len(expected), 12)


class Refusals(unittest.TestCase):
    def setUp(self):
        self.meanings = header_refusals("drifters_code_meaning")
        self.numbers = {value: name for name, value in header_constants().items() if name.startswith("REFUSED_")}

    def test_words(self):
        words = [f"REFUSED_{name}" for name in self.meanings]
        self.assertEqual(words, [self.numbers[number] for number in range(1, len(words) + 1)])
        self.assertEqual({name: name.lower() for name in self.meanings}, header_refusals("drifters_code_word"))

    def of_calls(self):
        """The refusals that a call of a sheet can give: it holds no wrong length and no downgrade, and is no call itself."""
        left_out = ("REFUSED_LENGTH", "REFUSED_SHEET", "REFUSED_UNEQUAL")
        return {number: name for number, name in self.numbers.items() if name not in left_out}

    def test_sheet(self):
        found = {int(digit): f"REFUSED_{word.upper()}" for digit, word in sheet.REFUSALS.items()}
        self.assertEqual(found, self.of_calls())

    def test_readme(self):
        """The table of answers has each refusal that a sheet's text can have."""
        table = re.findall(r"^\| `refused (\d)` \| (\w+):", content("README.md"), re.MULTILINE)
        expected = {**self.of_calls(), 6: "REFUSED_SHEET"}
        self.assertEqual([(int(number), f"REFUSED_{word.upper()}") for number, word in table], sorted(expected.items()))

    def test_rust_crate(self):
        """The meanings are the header's, word for word."""
        text = re.sub(r"\\\n\s*", "", content("bindings/src/refusal.rs"))
        body = text[text.index("fn meaning"):]
        found = {name.upper(): meaning for name, meaning in re.findall(r'Refusal::(\w+) => {?\s*"(.*?)"', body)}
        self.assertEqual(found, self.meanings)

    def test_manual(self):
        section = content("docs/MANUAL.md").split("\n## Refusals\n")[1].split("\n## ")[0]
        table = re.findall(r"^\| (\d) \| (\w+) \|", section, re.MULTILINE)
        self.assertEqual([(int(number), f"REFUSED_{word.upper()}") for number, word in table], sorted(self.numbers.items()))


if __name__ == "__main__":
    unittest.main()
