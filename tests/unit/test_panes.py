"""Pane positions: neighbours, possible splits, and their reports."""
import fcntl
import struct
import termios
import threading
import time
import unittest

from aids import Case, comes
from roam_live.protocol import panes
from roam_live.protocol.panes import PanesState, Places, Rect

# Invalid texts for the clipboard.
NO_CLIPS = ("Y", "YQ", "YQ=", "YQ===", "=", "====", "YQ==YQ==", "Y-==", "YQ==\n", "YQ==\x07", "\x1b\\\\\\", "?", "\u00e9AAA",
            "A" * 131076, "A" * 131071)

# A pane to the left over all rows, and two at its right, one above the other, with borders in between.
THREE = {1: Rect(1, 1, 23, 39), 2: Rect(1, 41, 11, 40), 3: Rect(13, 41, 11, 40)}

# Four in a square, with a lower middle line on the left.
FOUR = {1: Rect(1, 1, 15, 39), 2: Rect(1, 41, 7, 40), 3: Rect(17, 1, 7, 39), 4: Rect(9, 41, 15, 40)}


class Labels(Case):
    """The panes' numbers in the form of a session's status row."""

    def test_labels(self):
        """They are in the order of the layout's tree: by the first cut through all of them, and so on in each part."""
        beside = {1: Rect(1, 1, 11, 39), 4: Rect(13, 1, 11, 39), 2: Rect(1, 41, 11, 40), 3: Rect(13, 41, 11, 40)}
        above = {1: Rect(1, 1, 11, 80), 2: Rect(13, 1, 11, 20), 4: Rect(13, 22, 11, 20), 3: Rect(13, 43, 11, 38)}
        within = {3: Rect(1, 1, 23, 10), 1: Rect(1, 12, 5, 69), 2: Rect(7, 12, 17, 30), 9: Rect(7, 43, 17, 38)}
        for rects, focus, labels in ((THREE, 1, "[1] 2  3 "), (FOUR, 4, " 1  3  2 [4]"), (beside, 4, " 1 [4] 2  3 "),
                                     (above, 0, " 1  2  4  3 "), (within, 2, " 3  1 [2] 9 "), ({7: Rect(1, 1, 5, 9)}, 7, "[7]"),
                                     ({}, 0, "")):
            self.assertEqual(Places(rects, focus).labels(), labels)

    def test_none(self):
        """Rectangles without such a cut, which no session has, are in the order of their numbers."""
        pinwheel = {2: Rect(1, 1, 3, 6), 1: Rect(1, 7, 6, 3), 3: Rect(4, 4, 3, 3), 5: Rect(4, 1, 6, 3), 4: Rect(7, 4, 3, 6)}
        self.assertEqual(panes.in_order(pinwheel), [1, 2, 3, 4, 5])


class Modes(Case):
    """The modes that a pane's program has set."""

    def test_set(self):
        """The newest report of this pane generation counts, whatever came before it."""
        told = PanesState()
        steps = [("modes 1 1 sgr paste", False), ("1 1 1 23 80 1", True), ("focus 1", True), ("modes 1 1 sgr", False),
                 ("modes 1 1 paste", True), ("1 1 1 23 40 1", True), ("1 1 1 23 40 2", False), ("modes 1 1 paste", False),
                 ("modes 1 2 paste", True), ("modes 1 2", False), ("modes 1 2 paste", True), ("1 gone", False)]
        for line, has_set in steps:
            self.assertTrue(told.take(line), line)
            self.assertEqual(told.has_set(1, "paste"), has_set, line)
        self.assertFalse(told.has_set(2, "paste"))

    def test_title_and_shape(self):
        """A title and a shape are the newest ones of this pane generation."""
        told = PanesState()
        steps = [("shape 1 1 4", ("", 0)), ("title 1 1 e697a5", ("", 0)), ("1 1 1 23 80 1", ("\u65e5", 4)), ("focus 1", ("\u65e5", 4)),
                 ("shape 1 1 0", ("\u65e5", 0)), ("title 1 1 ff41", ("\ufffdA", 0)), ("title 1 1 ", ("", 0)),
                 ("title 1 1 1b5d", ("\x1b]", 0)), ("shape 1 1 6", ("\x1b]", 6)), ("1 1 1 23 80 2", ("", 0)), ("title 1 2 41", ("A", 0))]
        for line, title_and_shape in steps:
            self.assertTrue(told.take(line), line)
            self.assertEqual(told.title_and_shape(1), title_and_shape, line)

    def test_bells(self):
        """Each pane with a bell is taken once; a bell of another generation doesn't count."""
        told = PanesState()
        for line in ("bell 2 1", "1 1 1 23 39 7", "2 1 41 23 39 1", "focus 1", "bell 2 1", "bell 1 7", "bell 1 7", "bell 1 6"):
            self.assertTrue(told.take(line), line)
        self.assertEqual((told.taken_bells(), told.taken_bells()), ([1, 2], []))

    def test_malformed(self):
        """Lines that are no metadata are refused."""
        told = PanesState()
        clips = [f"clip 1 1 {text}" for text in NO_CLIPS] + ["clip 1 1", "clip 1 YQ==", "clip 1 1 YQ== YQ==", "clip 0 1 YQ=="]
        for line in ("modes", "modes 1", "modes 0 1", "modes 1 1  paste", "modes 1 1 " + "a" * 17, "title 1 1 xyz", "title 1 1 4",
                     "title 1 1 " + "41" * 801, "shape 1", "shape 1 1 7", "shape 1 1", "bell 1 1 x", "modes 1 1" + " a" * 17, *clips):
            self.assertFalse(told.take(line), line)
        self.assertIsNone(told.places())


    def test_clip(self):
        """A text for the clipboard is base64, of 131,072 characters at most, and taken once; one of another generation is ignored."""
        told = PanesState()
        for line in ("1 1 1 23 80 1", "focus 1", "clip 1 2 YQ==", "clip 2 1 YQ=="):
            self.assertTrue(told.take(line), line)
        self.assertIsNone(told.taken_clip())
        for text in ("", "YQ==", "YWI=", "YWJj", "+/+/", "A" * 131072):
            self.assertTrue(told.take(f"clip 1 1 {text}"), text[:9])
            self.assertEqual((told.taken_clip(), told.taken_clip()), ((1, text), None))
        self.assertEqual((told.lines(), told.metadata_lines()), (["1 1 1 23 80 1", "focus 1"], {}))


class Sides(Case):
    """The pane on a side."""

    def test_three(self):
        steps = {(1, "right"): 2, (2, "down"): 3, (3, "up"): 2, (3, "left"): 1, (2, "left"): 1, (1, "up"): None, (1, "down"): None,
                 (1, "left"): None, (2, "right"): None, (2, "up"): None, (3, "down"): None, (3, "right"): None}
        for (focus, way), pane in steps.items():
            self.assertEqual(Places(THREE, focus).neighbour(way), pane, (focus, way))

    def test_nearest(self):
        """Of two adjacent ones it is the nearest to the middle."""
        steps = {(1, "right"): 2, (1, "down"): 3, (2, "down"): 4, (2, "left"): 1, (3, "right"): 4, (3, "up"): 1, (4, "left"): 1,
                 (4, "up"): 2}
        for (focus, way), pane in steps.items():
            self.assertEqual(Places(FOUR, focus).neighbour(way), pane, (focus, way))
        low = {1: Rect(1, 1, 23, 39), 2: Rect(1, 41, 15, 40), 3: Rect(17, 41, 7, 40)}
        self.assertEqual(Places(low, 1).neighbour("right"), 2)
        high = {1: Rect(1, 1, 23, 39), 2: Rect(1, 41, 7, 40), 3: Rect(9, 41, 15, 40)}
        self.assertEqual(Places(high, 1).neighbour("right"), 3)
        wide = {1: Rect(1, 1, 11, 80), 2: Rect(13, 1, 11, 20), 3: Rect(13, 22, 11, 59)}
        self.assertEqual(Places(wide, 1).neighbour("down"), 3)

    def test_touches(self):
        """One at a distance is no neighbour."""
        row = {1: Rect(1, 1, 23, 20), 2: Rect(1, 22, 23, 20), 3: Rect(1, 43, 23, 38)}
        self.assertEqual([Places(row, pane).neighbour("right") for pane in row], [2, 3, None])
        self.assertEqual([Places(row, pane).neighbour("left") for pane in row], [None, 1, 2])
        column = {1: Rect(1, 1, 7, 80), 2: Rect(9, 1, 7, 80), 3: Rect(17, 1, 7, 80)}
        self.assertEqual([Places(column, pane).neighbour("down") for pane in column], [2, 3, None])
        self.assertEqual([Places(column, pane).neighbour("up") for pane in column], [None, 1, 2])

    def test_size(self):
        """The status row is the session's last."""
        self.assertEqual((Places(THREE, 1).size(), Places(FOUR, 1).size()), ((24, 80), (24, 80)))


class Splits(Case):
    """Possible splits: each part has two rows, or four columns, with the border in between."""

    def test_room(self):
        for rows, cols, way, is_had in ((5, 8, "down", True), (4, 80, "down", False), (2, 9, "right", True), (23, 8, "right", False)):
            why = Places({1: Rect(1, 1, rows, cols)}, 1).unsplit(way)
            self.assertEqual(why, "" if is_had else f"pane 1 is too small to split: {rows} by {cols}")

    def test_nine(self):
        nine = {pane: Rect(1, 1, 99, 99) for pane in range(1, 10)}
        self.assertEqual(Places(nine, 1).unsplit("down"), "a window has at most 9 panes")
        self.assertEqual(Places({pane: nine[pane] for pane in range(1, 9)}, 1).unsplit("down"), "")
        self.assertEqual(Places(THREE, 0).unsplit("right"), "")


class Told(Case):
    """The lines at a socket `panes`."""

    LINES = ["1 1 1 23 39 1", "2 1 41 23 40 7", "focus 2", "clients 3 of 64", "watchers 2 of 16"]

    def told(self, *lines):
        """Return the state after some lines."""
        known = PanesState()
        self.taken_lines = [known.take(line) for line in lines]
        return known

    def test_lines(self):
        """Panes come before the focus, and counts after it; the lines of a known state give the same state."""
        known = self.told(*self.LINES)
        wanted = Places({1: Rect(1, 1, 23, 39), 2: Rect(1, 41, 23, 40)}, 2, 3, 2)
        self.assertEqual((known.places(), known.is_whole(), known.lines(), self.taken_lines), (wanted, True, self.LINES, [True] * 5))
        for count in range(3):
            self.assertEqual((self.told(*self.LINES[:count]).places(), self.told(*self.LINES[:count]).lines()), (None, []))
        self.assertEqual(self.told(*self.LINES[:3]).places(), wanted._replace(clients=0, watchers=0))
        self.assertFalse(self.told(*self.LINES[:4]).is_whole())
        known.take("1 gone")
        known.take("2 2 41 11 40 7")
        self.assertEqual(known.places().rects, {2: Rect(2, 41, 11, 40)})
        known.take("2 gone")
        self.assertEqual((known.places(), known.lines()), (None, []))
        self.assertTrue(known.take("9 gone"))

    def test_forged(self):
        """Invalid lines change nothing: another pane, a number that is large or none, more or fewer, an answer."""
        for line in ("", "0 1 1 23 80 1", "10 1 1 23 80 1", "1 1 1 23 80", "1 1 1 23 80 1 1", "1 1 1 23 12345 1", "1 1 1 23 x 1",
                     "1 1 1 23 80 " + "1" * 20, "focus 0", "focus 10", "focus", "clients 12345 of 64", "clients", "bad line", "last pane",
                     "1 gone ", " 1 gone", "1  1 1 23 80 1", "focus \u0662", "focus 1\x1b[2J"):
            self.assertEqual((self.told(line).lines(), self.taken_lines), ([], [False]), line)

    def asked(self, *chunks, ends=False, seconds=5.0):
        """Query a server that sends these chunks."""
        folder = self.made_folder()
        listener = self.listening(folder / "panes")
        listener.settimeout(5)

        def serve():
            with listener.accept()[0] as peer:
                for chunk in chunks:
                    peer.send(chunk)
                    # The next one comes after this one was read.
                    comes(lambda: struct.unpack("i", fcntl.ioctl(peer, termios.TIOCOUTQ, bytes(4))) == (0,), 1.0)
                while not ends and peer.recv(64):
                    pass

        server = threading.Thread(target=serve, daemon=True)
        server.start()
        found = panes.asked_places(folder / "panes", seconds)
        server.join(5)
        return found

    def test_asked(self):
        """A single query works, whatever chunks the answer comes in; an unreported count is awaited for a moment."""
        text = "".join(f"{line}\n" for line in self.LINES).encode()
        wanted = Places({1: Rect(1, 1, 23, 39), 2: Rect(1, 41, 23, 40)}, 2, 3, 2)
        self.assertEqual(self.asked(text), wanted)
        self.assertEqual(self.asked(text[:5], text[5:40], text[40:]), wanted)
        begun = time.monotonic()
        self.assertEqual(self.asked(text[: text.index(b"clients")]), wanted._replace(clients=0, watchers=0))
        self.assertLess(time.monotonic(), begun + 3)

    def test_not_told(self):
        """One that reports nothing, closes, or isn't there gives nothing in time."""
        self.assertIsNone(self.asked(seconds=0.05))
        self.assertIsNone(self.asked(b"1 1 1 23 80 1\n", ends=True))
        self.assertIsNone(self.asked(b"x" * 4096, seconds=0.05))
        self.assertIsNone(panes.asked_places(self.made_folder() / "panes", 0.05))

    def test_limits(self):
        """A server knows 64 read-write clients, and a window has nine panes."""
        self.assertEqual((panes.MOST_CLIENTS, panes.MOST_PANES), (64, 9))


if __name__ == "__main__":
    unittest.main()
