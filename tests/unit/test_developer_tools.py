"""tools/developer_packages and tools/check_types: the list of packages, the missing ones, and the files whose types are checked."""
import collections
import pathlib
import subprocess
import tokenize

from aids import Case, loaded_tool

TOP = pathlib.Path(__file__).resolve().parents[2]
packages, types = loaded_tool("developer_packages"), loaded_tool("check_types")

# The most uses of `Any`, with its imports, and the most comments that silence mypy.
MOST_ANY, MOST_IGNORED = 66, 1


def loose_in(path):
    """Yield each use of `Any` or of typing's `cast` in a file, and each comment that silences mypy."""
    with open(path, "rb") as file:
        for token in tokenize.tokenize(file.readline):
            if token.type == tokenize.NAME and (token.string == "Any" or token.string == "cast" and "memoryview" not in token.line):
                yield token.string
            elif token.type == tokenize.COMMENT and "type: ignore" in token.string:
                yield "type: ignore"


class Packages(Case):
    """The packages of a developer's machine."""

    def test_list(self):
        """The list of this tree can be read: each package has one line, and mypy is one that the gate needs."""
        found = packages.needs(packages.LIST.read_text(encoding="utf-8"))
        names = [need.package for need in found]
        self.assertEqual(len(names), len(set(names)))
        self.assertIn(packages.Need("gate", "mypy", "mypy"), found)

    def test_use(self):
        """A line with another use is refused."""
        with self.assertRaisesRegex(ValueError, "vim: the use is neither gate nor more"):
            packages.needs("# A comment.\nonce vim vim\n")

    def test_missing(self):
        """A package is there if its command, its file or its module is."""
        there = "gate dash sh\ngate base-files /etc\nmore python3 import json\n"
        self.assertEqual(packages.missing(packages.needs(there)), [])
        gone = "gate one no-such-command\ngate two /no/such/file\nmore three import no_such_module\n"
        self.assertEqual(packages.missing(packages.needs(gone)), ["one", "two", "three"])

    def test_install(self):
        """Root reads the lists of apt and installs the packages. Another user runs nothing."""
        run = self.patch("subprocess.run")
        self.patch("shutil.which").return_value = "/usr/bin/apt-get"
        user = self.patch("os.getuid")
        user.return_value = 1000
        packages.install(["vim"])
        self.assertEqual(run.call_count, 0)
        user.return_value = 0
        packages.install(["vim", "mc"])
        self.assertEqual([call[0][0] for call in run.call_args_list],
                         [["apt-get", "-q", "update"], ["apt-get", "-q", "install", "-y", "--no-install-recommends", "vim", "mc"]])

    def test_line(self):
        """The line of missing packages is a command, and the status is 1."""
        listed = self.made_folder() / "list"
        listed.write_text("gate one no-such-command\nmore two no-such-other\n", encoding="utf-8")
        self.patch_of(packages, "LIST", listed)
        for words, line in ((), "apt-get install one\n"), (("--all",), "apt-get install one two\n"):
            self.patch_of(packages.sys, "argv", ["developer_packages", *words])
            said = self.heard()
            self.assertEqual(packages.main(), 1)
            self.assertEqual(said.getvalue(), f"packages are missing; this installs them: {line}")


class Types(Case):
    """The files whose types are checked."""

    def test_sources(self):
        """They are modules, and scripts of Python without a suffix."""
        top = self.made_folder()
        python = "#!/usr/bin/env python3\n"
        for name, text in (("live/one.py", ""), ("live/two", python), ("tools/three", "#!/bin/sh\n"), ("tools/four.sh", ""),
                           ("tools/five", python), ("tests/six.py", "")):
            (top / name).parent.mkdir(exist_ok=True)
            (top / name).write_text(text, encoding="utf-8")
        self.assertEqual(types.sources(top), ["live/one.py", "live/two", "tools/five"])

    def test_loose(self):
        """No more types are unknown, and no more errors are silenced, than when mypy first reported nothing."""
        found = collections.Counter(word for name in types.sources(TOP) for word in loose_in(TOP / name))
        self.assertLessEqual(found["Any"], MOST_ANY)
        self.assertLessEqual(found["type: ignore"], MOST_IGNORED)
        self.assertEqual(found["cast"], 0)

    def test_of_this_tree(self):
        """Every committed Python file of both folders is one of them."""
        listed = subprocess.run(["git", "ls-files", "live", "tools"], cwd=TOP, stdout=subprocess.PIPE, stderr=subprocess.DEVNULL,
                                check=False, text=True).stdout.split()
        there = [name for name in listed if (TOP / name).is_file() and types.is_python(TOP / name)]
        self.assertLessEqual(set(there), set(types.sources(TOP)))
        self.assertIn("tools/check_types", types.sources(TOP))
