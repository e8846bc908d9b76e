"""The pages that say where things are: the files of calls, the crates of tests, and what runs where."""
import os
import pathlib
import re
import unittest

from aids import loaded_tool
from test_figures import section, table, text_of

TOP = pathlib.Path(__file__).resolve().parents[2]
names = loaded_tool("names")
CALL = re.compile(r"`((?:[A-Z]\w*|laws)::\w+)`")
COMMAND = re.compile(r"\b(?:tests|tools|bench)/[\w/.]+|\brt ci\b")
CODE = re.compile(r"`([^`]+)`")


def programs(folder):
    """Return the programs of a folder."""
    return [f"{folder}/{path.name}" for path in sorted((TOP / folder).iterdir()) if path.is_file() and os.access(path, os.X_OK)]


@unittest.skipUnless((TOP / "crates/roam/src").exists(), "a copy without the crates")
class Architecture(unittest.TestCase):
    """The table of files in docs/ARCHITECTURE.md."""

    text = text_of("docs/ARCHITECTURE.md")
    files = {call: CODE.findall(cells[0])[0] for row, cells in table(section(text, "## The files of the calls")).items()
             for call in CODE.findall(row)}

    def test_all(self):
        """Each call that the page names has a row."""
        before = self.text.partition("## The files of the calls")[0]
        self.assertEqual(set(CALL.findall(before)) - self.files.keys(), set())

    def test_files(self):
        """Each call is in the file of its row, and of the type that it names."""
        for call, file in self.files.items():
            crates = names.Crates({}, {}, {})
            names.add_file(crates, text_of(file))
            owner, _, name = call.rpartition("::")
            self.assertIn(name, crates.members.get(owner, crates.clauses), (call, file))


    def test_python(self):
        """Each Python call is a method of that class in the file of its row."""
        rows = table(section(self.text, "## The files of the calls").partition("The Python calls")[2])
        found = [(call, CODE.findall(cells[0])[0]) for row, cells in rows.items() for call in CODE.findall(row)]
        self.assertGreater(len(found), 10)
        for call, file in found:
            owner, _, name = call.partition(".")
            own = re.search(rf"^class {owner}\b.*?(?=^\S|\Z)", text_of(file), re.MULTILINE | re.DOTALL)
            self.assertTrue(own and f"    def {name}(" in own[0], (call, file))


@unittest.skipUnless((TOP / "crates/roam/src").exists(), "a copy without the crates")
class Tests(unittest.TestCase):
    """The crates of tests in docs/SOURCE_MAP.md; `tools/crate_list` checks the table of crates."""

    def test_minutes(self):
        """Each crate of tests has a row with the minutes that docs/MEASUREMENTS.md has."""
        rows = table(section(text_of("docs/SOURCE_MAP.md"), "## Proofs and tests of a crate").partition("<!-- Up to here. -->\n")[2])
        shown = {CODE.findall(row)[0]: cells[1] for row, cells in rows.items() if CODE.findall(row)}
        measured = dict(re.findall(r"`(test_\w+)`\s+(\d+\.\d)", section(text_of("docs/MEASUREMENTS.md"), "## The gate")))
        self.assertEqual(shown, measured)
        listed = re.findall(r"^(test_\w+):", text_of("crates.txt"), re.MULTILINE)
        self.assertEqual([name for name in listed if name != "test_readme_examples"], list(shown))


class WhatRunsWhere(unittest.TestCase):
    """The table of docs/TESTING.md, beside .ci/run and Makefile."""

    page = text_of("docs/TESTING.md")
    shown = table(section(page, "## What runs where"))
    rows = {CODE.findall(row)[-1]: CODE.findall(cells[0]) for row, cells in shown.items() if "`" in row}

    def test_gate(self):
        """The row of the gate has the commands of .ci/run, in order."""
        lines = [line for line in text_of(".ci/run").splitlines() if not line.startswith("#")]
        self.assertEqual(self.rows[".ci/run"], COMMAND.findall("\n".join(lines)))

    def test_make(self):
        """So have those of `make try` and `make bench`."""
        for target in ("try", "bench"):
            recipe = re.search(rf"^{target}:.*\n((?:\t.*\n)+)", text_of("Makefile"), re.MULTILINE)[1]
            self.assertEqual(self.rows[f"make {target}"], COMMAND.findall(recipe))

    def test_named(self):
        """The page names each tool, each script of tests and each stress test; Measurements names the benches."""
        folders = "tools", "tests", "tests/e2e", "tests/stress", "tests/program", "tests/unit"
        tools = [name for folder in folders for name in programs(folder)]
        self.assertEqual([name for name in tools if name not in self.page], [])
        pages = self.page + text_of("docs/MEASUREMENTS.md")
        self.assertEqual([name for name in programs("bench") if name not in pages], [])


if __name__ == "__main__":
    unittest.main()
