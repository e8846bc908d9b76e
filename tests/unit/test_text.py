"""The output to terminals and logs: printable words, and not too many."""
import contextlib
import os
import pathlib
import subprocess
import sys
import tempfile
import unittest
from unittest import mock

from roam_live.common import errors, files
from roam_live.common.file_path import FilePath
from roam_live.common.files import KEPT, LOG_LIMIT, make_room
from roam_live.common.process import TOOLS
from roam_live.common.text import SAID_LIMIT, Said, decimal_in, one_line, printable
from roam_live.session.foreground import foreground
from roam_live.session.processes import Processes

# ECMA-48's controls C0 and C1, DEL, and Unicode's controls, formats, separators, surrogates and unassigned characters.
UNPRINTABLE = [*map(chr, range(0x20)), *map(chr, range(0x7F, 0xA0)), "\u00ad", "\u200b", "\u200e", "\u202e", "\u2028", "\u2029", "\u2066",
               "\ufeff", "\ud800", "\udcff", "\ue000", "\U000e0041"]


class Printable(unittest.TestCase):
    """`printable` and `one_line`."""

    def test_unprintable(self):
        for letter in UNPRINTABLE:
            self.assertEqual(printable(f"a{letter}b"), "a?b", ascii(letter))

    def test_printable(self):
        for text in ("", "sleep", "caf\u00e9 \u4e2d\u6587", "e\u0301", "\u25cf~"):
            self.assertEqual(printable(text), text)

    def test_one_line(self):
        self.assertEqual(one_line("first\nsecond \x1b[c\r\n\n third"), "first; second ?[c; third")
        self.assertEqual(one_line(ValueError("\x1b]0;title\x07")), "?]0;title?")


class Sayings(unittest.TestCase):
    """Messages of another program."""

    def test_cut_anywhere(self):
        text = "caf\u00e9\tis\x1b[2J here\r\n".encode() + b"\xff\n"
        for cut in range(len(text) + 1):
            said = Said()
            self.assertEqual(said.fed(text[:cut]) + said.fed(text[cut:]), "caf\u00e9 is?[2J here\n\ufffd\n", cut)

    def test_limit(self):
        said, shown = Said(), ""
        for _ in range(1000):
            shown += said.fed(b"the far host says so\n" * 500)
        self.assertTrue(shown.endswith(f"[output limited to {SAID_LIMIT} bytes]\n"))
        self.assertEqual(shown.count("["), 1)
        self.assertLess(len(shown), SAID_LIMIT + 100)

    def test_exactly_the_limit(self):
        said = Said()
        self.assertEqual(said.fed(b"x" * SAID_LIMIT), "x" * SAID_LIMIT)
        self.assertIn("output limited", said.fed(b"y"))


class Logs(unittest.TestCase):
    """The limit of a log."""

    def test_newest_stay(self):
        with tempfile.TemporaryDirectory() as folder:
            path = pathlib.Path(folder, "log")
            lines = [b"line %d\n" % number for number in range(140_000)]
            with open(path, "ab") as log:
                log.write(b"".join(lines))
                log.flush()
                self.assertGreater(path.stat().st_size, LOG_LIMIT)
                make_room(path)
                kept = path.read_bytes()
                self.assertLessEqual(len(kept), KEPT)
                self.assertTrue(b"".join(lines).endswith(b"\n" + kept))
                # A writer that had it open continues at its end.
                log.write(b"later\n")
            self.assertEqual(path.read_bytes(), kept + b"later\n")

    def test_little_stays(self):
        with tempfile.TemporaryDirectory() as folder:
            path = pathlib.Path(folder, "log")
            path.write_bytes(b"x" * LOG_LIMIT)
            make_room(path)
            self.assertEqual(path.stat().st_size, LOG_LIMIT)
            make_room(path, 1)
            self.assertLessEqual(path.stat().st_size, KEPT)

    def test_not_there(self):
        make_room("/nonexistent/log", files.LOG_LIMIT)

    def test_appended_meanwhile(self):
        """A line that the program appends while a log is shortened stays, behind the older ones."""
        with tempfile.TemporaryDirectory() as folder:
            path = pathlib.Path(folder, "log")
            path.write_bytes(b"old line\n" * (LOG_LIMIT // 9))
            read = os.pread

            def reads(end, count, place):
                found = read(end, count, place)
                if place < path.stat().st_size - KEPT + 10 and not path.read_bytes().endswith(b"new line\n"):
                    with open(path, "ab") as log:
                        log.write(b"new line\n")
                return found

            with mock.patch.object(files.os, "pread", reads):
                make_room(path, 100)
            kept = path.read_bytes()
            self.assertEqual(kept.count(b"new line\n"), 1)
            self.assertTrue(kept.endswith(b"old line\nnew line\n"))

    def test_writers(self):
        """Three processes that write at once lose none of their newest lines, and each one's stay in order."""
        with tempfile.TemporaryDirectory() as folder:
            path = pathlib.Path(folder, "log")
            path.touch()
            writes = ("import sys; from roam_live.common import errors\nerrors.log_to(sys.argv[1])\nsys.stderr = open(sys.argv[1] + '/log', 'a')\n"
                      "for n in range(6000): errors.say('%s %05d ' % (sys.argv[2], n) + 'x' * 80)")
            going = [subprocess.Popen([sys.executable, "-c", writes, folder, name], cwd=TOOLS) for name in "abc"]
            self.assertEqual([one.wait() for one in going], [0, 0, 0])
            lines = [line.split()[1:3] for line in path.read_text(encoding="utf-8").splitlines()]
            self.assertGreater(path.stat().st_size, KEPT // 2)
            for name in "abc":
                numbers = [int(number) for one, number in lines if one == name]
                self.assertEqual(numbers, list(range(6000 - len(numbers), 6000)), name)

    def test_stopped_writer(self):
        """A writer that was stopped within its turn stops no other one, and the log stays bounded."""
        with tempfile.TemporaryDirectory() as folder, mock.patch.object(files, "TURN_SECONDS", 0.0):
            path = pathlib.Path(folder, "log")
            path.write_bytes(b"a line\n" * (LOG_LIMIT // 6))
            with files.LogTurn(path, -2 * LOG_LIMIT):
                make_room(path)
                self.assertGreater(path.stat().st_size, LOG_LIMIT)
                make_room(path, LOG_LIMIT)
            self.assertLessEqual(path.stat().st_size, KEPT)

    def test_each_writer(self):
        """Each writer to a session's log, by a message, a failure or a started process, keeps it small."""
        def fails():
            with self.assertRaises(SystemExit), mock.patch("_signal.signal"), mock.patch.dict(os.environ):
                errors.run_tool(lambda: [][0])

        def starts():
            there = Processes(folder)
            there.state, there.name = {}, "x"
            there.spawned("server", ["true"]).wait()

        for writes in (lambda: errors.say("x"), fails, starts):
            with tempfile.TemporaryDirectory() as folder, mock.patch.object(errors, "logs", []):
                path = pathlib.Path(folder, "log")
                path.write_bytes(b"a line\n" * (LOG_LIMIT // 3))
                errors.log_to(folder)
                with open(path, "a", encoding="utf-8") as log, contextlib.redirect_stderr(log):
                    writes()
                self.assertLess(path.stat().st_size, KEPT + 10_000)


class Names(unittest.TestCase):
    """Names of programs, which they give themselves."""

    def test_names(self):
        named = ((b"\x1b]0;pwned\x07", "?]0;pwned?"), (b"\xe2\x80\xaex", "?x"), (b"\n\n\n", "???"), (b"", "a program"), (b"vi", "vi"))
        for given, told in named:
            self.assertEqual(self.name_of(given), told)

    @staticmethod
    def name_of(given):
        """Return the reported name of a program with a terminal that named itself so, by the system's data."""
        stat = "7 (sh) S 1 7 7 34816 9 4194304"
        told = mock.patch.object(FilePath, "read_bytes", return_value=given + b"\n")
        with mock.patch.object(FilePath, "read_text", return_value=stat), told:
            return foreground(7)


class Faults(unittest.TestCase):
    """The end of a tool."""

    def test_printable(self):
        """It is printable, also the end of a process."""
        code = "def main(): raise Fault('no \\x1b[c\\nname \\u202e')\nrun_tool(main)"
        words = [sys.executable, "-c", f"import sys; sys.path.insert(0, {str(TOOLS)!r})\nfrom roam_live.common.errors import *\n{code}"]
        run = subprocess.run(words, stderr=subprocess.PIPE, check=False)
        self.assertEqual((run.returncode, run.stderr), (1, b"-c: no ?[c; name ?\n"))

    def test_closed(self):
        """A standard output that is closed from the beginning causes no error."""
        with mock.patch("sys.stdout", None), mock.patch("_signal.signal"), mock.patch.dict(os.environ), self.assertRaises(SystemExit) as way:
            errors.run_tool(lambda: print("x"))
        self.assertIsNone(way.exception.code)


class Numbers(unittest.TestCase):
    """Numbers in words from others."""

    def test_decimal(self):
        """Decimal digits without leading zeros, from 0 to the most, are valid, and nothing else, however long it is."""
        for word, most, found in (("0", 0, 0), ("1", 0, None), ("0", 9, 0), ("9", 9, 9), ("10", 9, None), ("10", 10, 10), ("11", 10, None),
                                  ("99", 99, 99), ("100", 99, None), ("00", 99, None), ("01", 99, None), ("", 9, None), ("-1", 9, None),
                                  ("+1", 9, None), ("1 ", 99, None), ("1_0", 999, None), ("\u0661", 9, None), ("\u00b2", 9, None),
                                  ("a", 9, None), ("9" * 15, 10**15 - 1, 10**15 - 1), ("1" + "0" * 15, 10**15 - 1, None),
                                  ("9" * 100000, 10**15, None), ("20", 9, None), ("19", 20, 19)):
            self.assertEqual(decimal_in(word, most), found, (word[:20], most))


if __name__ == "__main__":
    unittest.main()
