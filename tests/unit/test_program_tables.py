"""tests/program/run: a failed case shows what was expected and seen, and a malformed one is an error of the table."""
import contextlib
import io
import pathlib
import subprocess
import sys
import unittest
from unittest import mock

from aids import module_at

PROGRAM = pathlib.Path(__file__).resolve().parents[1] / "program"
sys.path.insert(0, str(PROGRAM))
tool = module_at("run_tables", str(PROGRAM / "run"))


class Played(unittest.TestCase):
    """Cases that need no built program."""

    def played(self, *lines):
        """Play lines, and return the error."""
        error, note = tool.played("/bin/true", list(enumerate(lines, 1)))
        self.assertEqual(note, "")
        return error

    def test_right(self):
        """A case whose lines are true has no error."""
        self.assertIsNone(self.played("file one a\\n", "there one", "holds one a\\n", "gone two", "files . one"))

    def test_wrong(self):
        """A line that is not true is shown, with what was seen."""
        self.assertEqual(self.played("file one a", "holds one b"), "line 2\n  expected: holds one b\n  seen: b'a'")
        self.assertRegex(self.played("holds none b"), r"^line 1\n  expected: holds none b\n  seen: FileNotFoundError")

    def test_endless(self):
        """A run without an end in time fails its line, and the other cases are played."""
        with mock.patch.object(tool.Stage, "does", side_effect=subprocess.TimeoutExpired("roam", 60)):
            self.assertRegex(self.played("passes attach") or "", r"^line 1\n  expected: passes attach\n  seen: TimeoutExpired")

    def test_malformed(self):
        """A line without meaning, an unknown escape, and an actor that is missing are errors of the table."""
        for line in ("sings a song", r"file one \q", "nobody says a", "mode"):
            error = self.played(line)
            self.assertRegex(error or "", r"^line 1 of the table is wrong\n  line: ", line)


class Again(unittest.TestCase):
    """Cases that fail beside others."""

    def test_again(self):
        """Up to four are played once more, one at a time; the end names those that pass then. More are not."""
        played = []

        def play(program, lines):
            played.append(lines)
            return ("wrong" if lines == "bad" or played.count(lines) == 1 else None), ""

        few = [("a", "slow"), ("b", "bad")]
        with mock.patch.object(tool, "played", play), contextlib.redirect_stdout(io.StringIO()) as said:
            self.assertEqual(tool.play_again("", tool.play_all("", few, 2)), ([("b", "bad")], [("a", "slow")]))
            many = [(str(number), f"slow {number}") for number in range(tool.MOST_AGAIN + 1)]
            still, passed = tool.play_again("", tool.play_all("", many, 2))
        self.assertEqual((len(still), passed, said.getvalue().count("FAILED")), (len(many), [], 2 + 1 + len(many)))


if __name__ == "__main__":
    unittest.main()
