"""Mouse reports: parsed wherever they are cut, and in the form that a program requested."""
import unittest
from unittest import mock

from modes_played import acts_of_bytes
from roam_live.frontend.outer_terminal import OuterModes
from roam_live.input.keys import Key, Keys
from roam_live.input.mouse_reports import ASKED, MOUSE, OFF, MouseReport, is_wanted, report_of, sent, tracking_of

REPORTS = {
    "\x1b[<0;5;7M": MouseReport(0, 7, 5, False), "\x1b[<2;500;200m": MouseReport(2, 200, 500, True),
    "\x1b[<35;1;1M": MouseReport(35, 1, 1, False), "\x1b[<64;80;24M": MouseReport(64, 24, 80, False),
    "\x1b[<255;99999;99999m": MouseReport(255, 99999, 99999, True),
}
NO_REPORTS = ("", "\x1b[<0;5M", "\x1b[<0;5;7;1M", "\x1b[<-1;5;7M", "\x1b[<0;5;7", "\x1b[<1000;1;1M", "\x1b[<0;123456;1M", "\x1b[0;5;7M",
              "\x1b[<\u0661;5;7M", "\x1b[<0;5;7M\n")

# A report, and flags for programs with 1000, 1002 and 1003 that get it.
WANTED = ((0, False, (1, 1, 1)), (0, True, (1, 1, 1)), (66, False, (1, 1, 1)), (128, False, (1, 1, 1)), (32, False, (0, 1, 1)),
          (34 + 16, False, (0, 1, 1)), (35, False, (0, 0, 1)), (35 + 4, False, (0, 0, 1)))

# A report in the old form, or nothing.
OLD = (
    (0, 1, 1, False, "\x1b[M !!"), (2, 1, 1, True, "\x1b[M#!!"), (16, 3, 2, True, "\x1b[M3\"#"), (65, 24, 80, False, "\x1b[Map8"),
    (35, 2, 3, False, "\x1b[MC#\""), (0, 1, 95, False, "\x1b[M \x7f!"), (0, 95, 1, False, "\x1b[M !\x7f"), (0, 1, 96, False, ""),
    (0, 96, 1, False, ""), (64 + 28, 1, 1, False, "\x1b[M|!!"), (128, 1, 1, False, ""),
)


class Reports(unittest.TestCase):
    """A report, and its effect."""

    def test_read(self):
        for text, report in REPORTS.items():
            self.assertEqual(report_of(text), report)
        for text in NO_REPORTS:
            self.assertIsNone(report_of(text), text)

    def test_kinds(self):
        """Buttons, the wheel and motion are distinguished, with any modifiers."""
        for keys in (0, 4, 8, 16, 28):
            kinds = [(report.number(), report.moves(), report.is_wheel(), report.is_held())
                     for report in (MouseReport(button + keys, 1, 1, False) for button in (1, 65, 67, 128, 34, 35))]
            self.assertEqual(kinds, [(1, False, False, True), (65, False, True, True), (67, False, True, True), (128, False, False, True),
                                     (2, True, False, True), (3, True, False, False)])

    def test_wanted(self):
        """A program gets the kinds of its mode, and none without one."""
        for button, is_release, wanted in WANTED:
            found = [is_wanted(MouseReport(button, 1, 1, is_release), [word, "sgr"]) for word in ("buttons", "drags", "motion")]
            self.assertEqual(found, [bool(word) for word in wanted], button)
            self.assertFalse(is_wanted(MouseReport(button, 1, 1, is_release), ["sgr", "paste", "other"]))
        self.assertEqual([tracking_of(words.split()) for words in ("", "sgr", "buttons sgr", "drags", "paste motion")],
                         ["", "", "buttons", "drags", "motion"])

    def test_sent(self):
        """In the old form each number is a character below 80, or the report is dropped; the form of 1006 has all."""
        for *report, text in OLD:
            self.assertEqual(sent(MouseReport(*report), ["buttons"]), text, report)
        for text, report in REPORTS.items():
            self.assertEqual(sent(report, ["sgr", "drags"]), text)


class Among(unittest.TestCase):
    """Reports among keys."""

    def test_cut(self):
        """Wherever a stream is cut its reports are extracted, and its keys are the same as without them; no part of a report waits in vain.
        """
        stream = b"a\x1b[<0;5;7Mb\x1b[A\x1b[<64;80;24M\x1b[<35;500;200m\xc3\xa9"
        wanted = [Key("a", "a"), Key(MOUSE, "\x1b[<0;5;7M"), Key("b", "b"), Key("up", "\x1b[A"), Key(MOUSE, "\x1b[<64;80;24M"),
                  Key(MOUSE, "\x1b[<35;500;200m"), Key("\u00e9", "\u00e9")]
        for cut in range(len(stream) + 1):
            keys = Keys()
            found = [key for chunk in (stream[:cut], stream[cut:]) for key in keys.fed(chunk)]
            self.assertEqual((found, keys.waits()), (wanted, False), cut)
        keys = Keys()
        self.assertEqual([key for byte in stream for key in keys.fed(bytes([byte]))], wanted)

    def test_waits(self):
        """A partial report waits as long as that takes, while an escape is soon a key; another key ends it."""
        for begun, waits in ((b"\x1b", True), (b"\x1b[", True), (b"\x1b[<", False), (b"\x1b[<0;5", False)):
            keys = Keys()
            self.assertEqual((keys.fed(begun), keys.waits()), ([], waits))
        self.assertEqual([key.name for key in keys.fed(b";7M")], [MOUSE])
        self.assertEqual((keys.fed(b"\x1b[<"), [key.name for key in keys.fed(b"x\x1b[<u")]), ([], ["unknown", "unknown"]))

    def test_typed(self):
        """Inside a paste or sent text it is text."""
        self.assertEqual(acts_of_bytes(b"\x1b[<0M"), [f"char {byte:x}" for byte in b"\x1b[<0M"])


class Asked(unittest.TestCase):
    """The mouse modes requested from the outer terminal."""

    def test_asked(self):
        """Each is requested once, none before another, and none when the terminal is restored."""
        with mock.patch.dict("os.environ", TERM="xterm"):
            modes = OuterModes()
        self.assertEqual((modes.asked(""), modes.taken_back()), (b"", b""))
        self.assertEqual([modes.asked(words) for words in ("drags", "drags", "motion", "", "drags")],
                         [OFF + b"\x1b[?1002h\x1b[?1006h", b"", OFF + b"\x1b[?1003h\x1b[?1006h", OFF, ASKED["drags"]])
        self.assertEqual((modes.taken_back(), modes.taken_back(), modes.asked("motion")), (OFF, b"", ASKED["motion"]))

    def test_console(self):
        """A Linux console has another form, and gets no request."""
        with mock.patch.dict("os.environ", TERM="linux"):
            modes = OuterModes()
        self.assertEqual((modes.asked("drags"), modes.taken_back()), (b"", b""))


if __name__ == "__main__":
    unittest.main()
