"""The message if typed lines aren't taken, though the server is alive."""
import unittest

from aids import Case, StillLoop, record
from roam_live.frontend.connection import LOOKS, MOMENT, NOT_TAKEN, NO_KEYS, UNTAKEN, UNTAKEN_SILENTLY, UntakenLines
from test_app import Fronts


class Link:
    """A link with so many sent and taken lines."""

    def __init__(self):
        self.lines, self.taken, self.peer = 5, 4, object()

    def is_done(self):
        """Return True if all are taken."""
        return self.taken >= self.lines


class Display:
    """Records messages."""

    told, silent = "", 0

    def tell(self, text, seconds):
        """Record a message, which stays until it is removed."""
        assert seconds is None
        self.told = text

    def end_told(self):
        """End the message."""
        self.told = ""


class Lines(Case):
    """Lines sent, and the messages about them."""

    def setUp(self):
        self.loop, self.one, self.display = StillLoop(lambda: self.now), Link(), Display()
        self.lines = UntakenLines(lambda: self.one, self.display, self.loop)

    def wait(self, seconds, paints=False):
        """Let seconds pass, each with or without a painting."""
        for _ in range(int(seconds)):
            self.now += LOOKS
            if paints:
                self.lines.painted = self.now
            self.loop.do_due()

    def test_painted(self):
        """After two seconds with paintings the user is informed, until a line is taken."""
        self.lines.note_sent()
        self.wait(1, True)
        self.assertEqual(self.display.told, "")
        self.lines.note_sent()
        self.wait(1, True)
        self.assertEqual((self.display.told, UNTAKEN), (NO_KEYS, 2.0))
        self.wait(30)
        self.one.lines, self.one.taken = 9, 5
        self.wait(1)
        self.assertEqual((self.display.told, MOMENT in self.loop.due), ("", True))
        self.wait(2, True)
        self.assertEqual(self.display.told, NO_KEYS)
        self.one.taken = 9
        self.wait(1)
        self.assertEqual((self.display.told, self.loop.due), ("", {}))

    def test_unpainted(self):
        """Without paintings that is unknown until a silence would have been reported; a painting just before doesn't count."""
        self.lines.note_sent()
        self.lines.painted = self.now
        self.wait(UNTAKEN_SILENTLY - 1)
        self.assertEqual(self.display.told, "")
        self.wait(1)
        self.assertEqual((self.display.told, UNTAKEN_SILENTLY), (NOT_TAKEN, 12.0))

    def test_answered(self):
        """A server that answers while no line is taken reveals that soon; each check asks it again."""
        asked = []
        self.lines.asks = lambda: asked.append(self.now)
        self.lines.note_sent()
        for _ in range(2):
            self.assertEqual(self.display.told, "")
            self.wait(1)
            self.lines.answered()
        self.wait(1)
        self.assertEqual((self.display.told, len(asked)), (NOT_TAKEN, 3))

    def test_silent(self):
        """A silence of the server is reported instead, and so is any other message."""
        self.lines.note_sent()
        self.display.silent = 10
        self.wait(30, True)
        self.assertEqual(self.display.told, "")
        self.display.silent, self.display.told = 0, "bell in pane 2"
        self.wait(30, True)
        self.assertEqual(self.display.told, "bell in pane 2")
        self.display.told = ""
        self.wait(1, True)
        self.assertEqual(self.display.told, NO_KEYS)
        self.display.silent = 10
        self.wait(1, True)
        self.assertEqual(self.display.told, "")

    def test_elsewhere(self):
        """In another window, or without the connection, the count restarts or pauses."""
        self.lines.note_sent()
        self.wait(2, True)
        self.one = Link()
        self.wait(1, True)
        self.assertEqual(self.display.told, "")
        self.wait(2, True)
        self.assertEqual(self.display.told, NO_KEYS)
        self.one.peer = None
        self.wait(1)
        self.assertEqual((self.display.told, self.loop.due), ("", {}))

    def test_progress(self):
        """While lines are taken, however slowly, there is no message."""
        self.one.lines = 99
        self.lines.note_sent()
        for _ in range(20):
            self.wait(1, True)
            self.one.taken += 1
        self.assertEqual(self.display.told, "")


class Keys(Fronts):
    """A front end whose keys aren't taken."""

    def test_told(self):
        """Keys that aren't taken while the session is painted are reported."""
        client = self.connect()
        self.paints()
        client.send(record("taken", self.front.views.link.lines))
        self.turn()
        self.type(b"x")
        for _ in range(3):
            self.now += 1
            client.send(record("paint", data=b"y"))
            self.turn()
        self.assertIn(NO_KEYS.encode(), self.shown())
        client.send(record("taken", self.front.views.link.lines))
        self.turn()
        self.now += 1
        self.turn()
        self.assertEqual(self.front.display.row.told, "")


if __name__ == "__main__":
    unittest.main()
