"""Borders moved by keys, and even sizes, at a simulated session with its layout."""
import copy
import unittest

from lived import Attached, Lived, by_chance
from roam_live.frontend import resize_keys
from roam_live.frontend.borders import Evened, PaneSplit, border_at, end_of, panes_of, splits_of
from roam_live.frontend.resize_keys import NO_PANE
from roam_live.protocol.panes import Places, Rect

KEYS = {"up": b"\x02\x1b[1;5A", "down": b"\x02\x1b[1;5B", "right": b"\x02\x1b[1;5C", "left": b"\x02\x1b[1;5D"}


class Moves(Attached):
    """One border."""

    def ends(self, pane):
        """Return the first and last cell of a pane."""
        rect = self.session.rects()[pane]
        return {"left": rect.col, "right": rect.col + rect.cols, "up": rect.row, "down": rect.row + rect.rows}

    def move(self, pane, side):
        """Return the borders of a focused pane, before a key and after it."""
        self.session.focus = pane
        self.person.tell(self.session.places())
        self.person.display.row.end_told()
        before = self.ends(pane)
        self.types(KEYS[side])
        self.assertIsNone(self.person.commands.border_keys.drag)
        return before, self.ends(pane)

    def each(self, session, size):
        """Move each border of each pane of a session to and fro by keys: it moves by one, or a message gives the reason and nothing
        changes.
        """
        self.attach(session, size)
        moved = stuck = 0
        for pane in session.rects():
            for side, back in (("right", "left"), ("left", "right"), ("down", "up"), ("up", "down")):
                rects = session.rects()
                rect, (rows, cols) = rects[pane], session.places().size()
                at_edge = [rect.col == 1, rect.row == 1, rect.col + rect.cols > cols, rect.row + rect.rows >= rows]
                before, after = self.move(pane, side)
                moves = back if at_edge[("left", "up", "right", "down").index(side)] else side
                step = 1 if side in ("right", "down") else -1
                if self.person.display.row.told:
                    words = {resize_keys.NO_ROOM, NO_PANE, *(words.format(pane) for words in resize_keys.NO_BORDER.values())}
                    self.assertIn(self.person.display.row.told, words)
                    self.assertEqual((session.rects(), session.focus), (rects, pane))
                    stuck += self.person.display.row.told == NO_PANE
                    continue
                moved += 1
                self.assertEqual((after[moves], session.focus), (before[moves] + step, pane), (side, rect, rects))
        return moved, stuck

    def test_grid_of_panes(self):
        """In a grid that was split right and then down each half the rows move, and the middle reports the reason."""
        session = Lived()
        for act in ("split right", "split down", "focus 1", "split down"):
            session.do(act)
        self.assertEqual(self.each(session, (24, 80)), (8, 8))
        session = Lived()
        for act in ("split down", "split right", "focus 1", "split right"):
            session.do(act)
        self.assertEqual(self.each(session, (24, 80)), (8, 8))

    def test_next_behind(self):
        """The effect of a border's first step doesn't show the focus that C-b o set: its second step leaves the focus there."""
        session = Lived()
        for act in ("split right", "split down", "focus 2"):
            session.do(act)
        self.attach(session)
        before = self.ends(2)["down"]
        self.person.keyboard.fed(b"\x02\x1b[1;5A\x1b[1;5A\x02o")
        typed = [act for line in self.person.said() for act in line.split(" ; ")]
        for act in typed[:-1]:
            session.do(act)
        self.person.tell(session.places())
        self.assertEqual(typed[-1], "next")
        session.do("next")
        self.person.tell(session.places())
        self.take()
        self.assertEqual((self.ends(2)["down"], session.focus), (before - 2, 3))

    def test_stuck_at_limit(self):
        """If no pane owns a border that is reported, also for one at its limit."""
        session = Lived()
        for act in ("split down", "split right", "focus 1", "split right"):
            session.do(act)
        session.area = Rect(1, 1, 5, 80)
        self.attach(session, (6, 80))
        self.move(1, "down")
        self.assertEqual(self.person.display.row.told, NO_PANE)

    def test_trees(self):
        """In each of 40 trees whose numbers determine the splits: a border reported as immovable has no owner."""
        moved = 0
        for seed in range(40):
            session = by_chance(seed, *((24, 80), (50, 160))[seed % 2], most=3 + seed % 4)
            self.assertEqual(splits_of(session.rects()), session.parts)
            moved += self.each(session, session.places().size())[0]
        self.assertGreater(moved, 250)

    def test_closed(self):
        """The same if panes were closed, and others have their numbers: a step that moves another border is undone."""
        moved = 0
        for seed in range(12):
            session = by_chance(seed, closes=3)
            moved += self.each(session, (24, 80))[0]
        self.assertGreater(moved, 40)

    def test_missing(self):
        """If a number is missing, and a border's sides look split in two, the panes at this position are tried."""
        for side, pane in (("right", 1), ("right", 3), ("left", 2), ("left", 5)):
            session = Lived()
            session.parts = PaneSplit("down", PaneSplit("right", 1, 2), PaneSplit("right", 3, 5))
            self.attach(session)
            rects = session.rects()
            self.assertEqual(border_at(rects, 5, end_of(rects[1], "right")).leaves, [])
            row = [(1, 1), (2, -1)] if pane in (1, 2) else [(3, 1), (5, -1)]
            border = resize_keys.side_border(rects, pane, side)
            self.assertEqual((border.leaves, border.before, border.behind), (row, row[0][0], row[1][0]))
            before, after = self.move(pane, side)
            self.assertEqual(after[side], before[side] + (1 if side == "right" else -1), pane)
        self.attach(by_chance(3))
        self.assertFalse(resize_keys.is_across(Rect(1, 1, 5, 9), Rect(1, 12, 5, 9), "right"))
        self.assertTrue(resize_keys.is_across(Rect(7, 1, 5, 9), Rect(1, 1, 5, 9), "up"))

    def test_several(self):
        """Keys that arrive while a border moves move it on, each by one; the focus and other borders stay."""
        session = Lived()
        for act in ("split right", "split right", "focus 2"):
            session.do(act)
        self.attach(session)
        cols = session.rects()[2].cols
        self.types(KEYS["right"] + b"\x1b[1;5C" * 9)
        self.take(20)
        self.assertEqual((session.rects()[2].cols, session.focus), (cols + 10, 2))
        self.types(KEYS["left"] + KEYS["left"])
        self.take(20)
        self.assertEqual((session.rects()[1].cols, session.focus), (37, 2))
        self.assertEqual({line for line in self.heard if "grow" not in line}, set())

    def test_at_once(self):
        """After a key that moves the focus it is the border of the newly focused pane, once that is reported."""
        session = Lived()
        for act in ("split right", "split right", "focus 1"):
            session.do(act)
        self.attach(session)
        before = session.rects()[3]
        self.types(b"\x02o\x02o" + KEYS["left"])
        self.take(6)
        self.assertEqual((session.rects()[3].col, session.focus), (before.col - 1, 3))
        session.split = lambda pane, way: None
        self.types(b"\x02%" + KEYS["left"])
        self.assertEqual(session.rects()[3].col, before.col - 1)
        self.now += resize_keys.FOCUS_WAIT
        self.person.loop.do_due()
        self.assertEqual((self.person.said(), self.person.display.row.told), ([], resize_keys.NO_FOCUS))

    def test_limits(self):
        """It moves no further than the panes have room, and that is reported."""
        session = Lived()
        session.do("split right")
        self.attach(session)
        for _ in range(50):
            self.types(KEYS["right"])
            self.take(3)
        self.assertEqual((session.rects()[2].cols, self.person.display.row.told), (4, resize_keys.NO_ROOM))

    def test_untold(self):
        """Without reports of the panes there is a message."""
        self.attach(Lived())
        self.person.place.told = None
        for keys in (KEYS["up"], b"\x02 "):
            self.person.display.row.end_told()
            self.person.keyboard.fed(keys)
            self.assertEqual(self.person.display.row.told, resize_keys.UNTOLD)


class Even(Attached):
    """Even sizes by a key."""

    def test_trees(self):
        """All sizes that can be even are, with the focus restored, and a border without an owner is reported."""
        stuck = 0
        for seed in range(40):
            session = by_chance(seed, *((24, 80), (50, 160))[seed % 2])
            focus = session.focus
            self.attach(session, session.places().size())
            self.types(b"\x02 ")
            self.take(12)
            for _ in range(4):
                self.now += 0.3
                self.person.loop.do_due()
                self.take()
            evened = Evened(session.parts, session.rects())
            self.assertEqual((evened.acts, session.focus), ([], focus), seed)
            self.assertEqual(self.person.display.row.told == resize_keys.STUCK, evened.is_stuck, seed)
            self.assertIsNone(self.person.commands.border_keys.wanted)
            stuck += evened.is_stuck
        self.assertTrue(0 < stuck < 30, stuck)

    def test_told(self):
        """Sizes that are already even give a message, and a successful change gives none."""
        session = Lived()
        for act in ("split right", "grow 9", "split right"):
            session.do(act)
        self.attach(session)
        self.types(b"\x02 ")
        self.assertEqual(([rect.cols for rect in session.rects().values()], self.person.display.row.told), ([26, 26, 26], ""))
        self.types(b"\x02 ")
        self.assertEqual(self.person.display.row.told, resize_keys.EVEN)

    def test_refused(self):
        """A refused change is tried so often and no more."""
        session = by_chance(3)
        self.attach(session)
        session.grow = lambda pane, by: False
        for _ in range(40):
            self.types(b"\x02 " if not self.heard else b"")
            self.now += 0.3
            self.person.loop.do_due()
        self.assertEqual(len(self.heard), resize_keys.MOST_LINES)


if __name__ == "__main__":
    unittest.main()
