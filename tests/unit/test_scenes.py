"""The runner of the scenes in tests/e2e: which of them are in the gate, their time limit, and messages that are shown for a moment."""
import importlib.machinery
import importlib.util
import io
import pathlib
import subprocess
import sys
import unittest
from contextlib import redirect_stdout
from unittest import mock

E2E = pathlib.Path(__file__).resolve().parents[1] / "e2e"
sys.path.insert(0, str(E2E))

import tried
from emulated import Emulated

loader = importlib.machinery.SourceFileLoader("run_scenes", str(E2E / "run"))
run = importlib.util.module_from_spec(importlib.util.spec_from_loader(loader.name, loader))
loader.exec_module(run)

# The gate has at least so many scenes, and leaves out so many at most.
FEWEST, MOST_OUTSIDE = 100, 30


def output(chunks):
    """Return a terminal without a tool, to which these chunks of output have come."""
    outer = tried.Outer.__new__(tried.Outer)
    outer.emulated, outer.read_to, outer.looked, outer.typed_at = Emulated(2, 20), 0, 0, 0
    outer.written, outer.moments = bytearray(), []
    for chunk in chunks:
        outer.written += chunk
        outer.moments.append((0.0, len(outer.written)))
    return outer


class Scenes(unittest.TestCase):
    """The marks of scenes, and the parts of the runner."""

    def chosen(self, is_gate, *names):
        """Return the chosen scenes."""
        return run.chosen(mock.Mock(gate=is_gate, names=list(names)))

    def test_gate(self):
        """The gate has all scenes but those with a reason."""
        every, gate = set(self.chosen(False)), set(self.chosen(True))
        self.assertEqual(every - gate, set(tried.OUTSIDE_GATE))
        self.assertGreaterEqual(len(gate), FEWEST)
        self.assertLessEqual(len(every - gate), MOST_OUTSIDE)
        self.assertTrue(all(len(reason.split()) > 2 for reason in tried.OUTSIDE_GATE.values()))

    def test_names(self):
        """A part of a name chooses scenes, the long ones first, and no two scenes have the same name."""
        self.assertIn("three_terminals", self.chosen(True, "terminals"))
        self.assertEqual(self.chosen(False, run.LONG[1], run.LONG[0])[:2], list(run.LONG[:2]))
        with self.assertRaises(ValueError), mock.patch.dict(tried.SCENES):
            tried.scene(tried.scene(lambda folder: None))

    def test_limit(self):
        """A scene beyond its time limit is asked to end, and then killed."""
        for ignored, signal in (("", -15), ("trap '' TERM; ", -9)):
            with subprocess.Popen(["sh", "-c", f"{ignored}echo; while :; do sleep 0.01; done"], stdout=subprocess.PIPE) as one:
                one.stdout.readline()
                with mock.patch.object(run, "ENDING", 0.1):
                    self.assertEqual(run.ended(one, 0.01), signal)

    def test_again(self):
        """Failed scenes of the gate run once more, one at a time, unless there are many."""
        with mock.patch.object(run, "run_all", return_value=(["b"], 0)) as ran, redirect_stdout(io.StringIO()):
            self.assertEqual(run.failed_twice(["a", "b"], mock.Mock(gate=True)), ["b"])
            self.assertEqual(ran.call_args.args[2], 1)
            for failed, is_gate in (([], True), (["a", "b"], False), (list("abcdefg"), True)):
                self.assertEqual(run.failed_twice(failed, mock.Mock(gate=is_gate)), failed)
            ran.assert_called_once()

    def test_summary(self):
        """The last line names the scenes that failed, and those that failed only once."""
        self.assertEqual(run.summary([], [], 0), "all pass")
        self.assertEqual(run.summary(["a", "b"], [], 6), "all pass, 6 parts skipped; a, b failed beside others and passed alone")
        self.assertEqual(run.summary(["a", "b"], ["b"], 1), "b failed, 1 parts skipped; a failed beside others and passed alone")
        self.assertEqual(run.summary(["a", "b"], ["a", "b"], 0), "a, b failed")

    def test_variables(self):
        """No variable of the caller changes a tool."""
        with mock.patch.dict("os.environ", {"ROAM_PREFIX": "C-a", "LESS": "-N", "KEPT": "1"}):
            known = run.environment("/program")
        self.assertEqual((known["ROAM"], known["KEPT"], known["SHELL"]), ("/program", "1", "/bin/sh"))
        self.assertFalse({"ROAM_PREFIX", "LESS"} & set(known))

    def test_missing(self):
        """A missing tool is printed, with the skipped part."""
        with redirect_stdout(io.StringIO()) as said:
            self.assertTrue(tried.is_missing("a part", "sh", "no-such-tool", "nor-this"))
            self.assertFalse(tried.is_missing("another", "sh"))
        self.assertEqual(said.getvalue(), "skipped a part: without no-such-tool and nor-this\n")

    def test_moment(self):
        """A message that another chunk replaces is seen if both come before the look, but not after another look or a key."""
        chunks = [b"told", b"\r\x1b[K", b"gone"]
        self.assertEqual([seen.lines()[0].strip() for seen in output(chunks).paintings()], ["told", "", "gone", "gone"])
        outer = output(chunks)
        self.assertTrue(outer.shows("told", 0))
        self.assertTrue(outer.shows("gone", 0))
        self.assertFalse(outer.shows("told", 0))
        outer = output(chunks)
        self.assertEqual(outer.rows()[0].strip(), "gone")
        self.assertFalse(outer.shows("told", 0))
        outer = output(chunks)
        outer.typed_at = 4
        self.assertFalse(outer.shows("told", 0))
        self.assertTrue(outer.shows("gone", 0))

    def test_last_row(self):
        """A message is seen that another last row replaces in the same chunk."""
        puts = [b"\x1b7\x1b[2;1H\x1b[K%s\x1b8" % text for text in (b"told", b"[1]")]
        outer = output([b"a" + b"".join(puts) + b"b"])
        self.assertEqual(["".join(seen.lines()).split() for seen in outer.paintings()],
                         [["a", "told"], ["a", "[1]"], ["ab", "[1]"], ["ab", "[1]"]])
        outer = output([b"a" + puts[0][:-1], puts[0][-1:] + puts[1]])
        self.assertTrue(outer.shows("told", 0))

    def test_known(self):
        """The pty host knows a terminal once it names a window in the last row."""
        for row, is_known in ((" 1 [2] 1*", False), ("[1] 1:sh*", True), ("[1] 1:sh- 2:h c*", True), ("[1] < 12:vim* >", True),
                              ("1:sh*", True), ("12 rows back: C-b", False)):
            self.assertEqual(tried.LABEL.search(row) is not None, is_known, row)


if __name__ == "__main__":
    unittest.main()
