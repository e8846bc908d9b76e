"""The build of this roam, by the file of an installed one and in a clone."""
import io
import subprocess
import sys
from contextlib import redirect_stdout
from unittest import mock

from aids import Case
from roam_live.common import build_info, errors
from roam_live.common.build_info import BuildInfo, build, identity, version
from roam_live.protocol.colours import Colours
from roam_live.protocol.queries import query_in

FILE = "version 1.2.3\ncommit 0123456789ab\nkit kit-7 logic ff\ngate 215 passed, 0 failed\n"


class Build(Case):
    """Tests of `build`, `version` and `identity`, with generated files."""

    def setUp(self):
        self.folder = self.made_folder()
        self.patch_of(build_info, "INSTALLED", self.folder / "build_info")
        self.patch_of(build_info, "CLONE", self.folder)

    def test_installed(self):
        """The file contains everything; no program is asked."""
        build_info.INSTALLED.write_text(FILE, encoding="ascii")
        with mock.patch.object(subprocess, "run", side_effect=AssertionError):
            self.assertEqual(build(), BuildInfo("1.2.3", "0123456789ab", "kit-7 logic ff", "215 passed, 0 failed"))
            self.assertEqual(build().line(), "roam 1.2.3 (commit 0123456789ab, kit-7)")
            self.assertEqual((version(), identity()), ("1.2.3", "1.2.3 0123456789ab"))

    def test_odd_file(self):
        """Values are printable and bounded, unknown names are skipped, and missing values are unknown."""
        build_info.INSTALLED.write_bytes(b"version 1\x1b[c\nother x\n\ncommit\nkit " + b"k" * 300 + b"\xff\n")
        found = build()
        self.assertEqual((found.version, found.commit, found.gate), ("1?[c", "unknown", "unknown"))
        self.assertEqual(found.kit, "k" * 100)
        self.assertEqual(identity(), "1?[c")

    def test_clone(self):
        """In a clone the version is in a file; the rest comes from git and the kit, which may be missing."""
        (self.folder / "VERSION").write_text("3.4.5\n", encoding="ascii")
        self.assertEqual((version(), identity()), ("3.4.5", "3.4.5"))
        answers = {"git": b"fedcba987654\n", "rt": b"kit-8 logic ee\n"}
        with mock.patch.object(subprocess, "run", lambda words, **more: mock.Mock(stdout=answers[words[0]])):
            self.assertEqual(build().line(), "roam 3.4.5 (commit fedcba987654, kit-8)")
        for fault in (OSError(), subprocess.TimeoutExpired("git", 1), subprocess.CalledProcessError(1, "git")):
            with mock.patch.object(subprocess, "run", side_effect=fault):
                self.assertEqual(build().line(), "roam 3.4.5 (commit unknown, unknown)")

    def test_nothing(self):
        """Without a file nothing is known."""
        self.assertEqual((version(), identity()), ("unknown", "unknown"))

    def test_tools(self):
        """Each tool prints the line for --version alone, and does nothing else."""
        build_info.INSTALLED.write_text(FILE, encoding="ascii")
        for word in ("--version", "-V"):
            told = io.StringIO()
            with mock.patch.object(sys, "argv", ["mux", word]), redirect_stdout(told), self.assertRaises(SystemExit) as ended:
                errors.run_tool(mock.Mock(side_effect=AssertionError))
            self.assertEqual((told.getvalue(), ended.exception.code), ("roam 1.2.3 (commit 0123456789ab, kit-7)\n", None))
        with mock.patch.object(sys, "argv", ["mux", "--version", "x"]), self.assertRaises(SystemExit) as ended:
            errors.run_tool(lambda: 3)
        self.assertEqual(ended.exception.code, 3)

    def test_terminal(self):
        """A program that queries the terminal's name gets the version."""
        build_info.INSTALLED.write_text(FILE, encoding="ascii")
        found = query_in("query 1 1 version")
        self.assertEqual(found.answer(Colours(), True, (24, 80)), b"\x1bP>|roam 1.2.3\x1b\\")
