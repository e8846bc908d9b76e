"""Borders: their owners, by the rectangles of panes, and drags."""
import random
import unittest

from aids import Case
from roam_live.frontend.borders import LEAST, PaneSplit, border_at, end_of, least_of, panes_of, splits_of, way_between
from roam_live.frontend.resize_keys import NO_PANE
from roam_live.input.mouse_reports import MouseReport, is_wanted, report_of
from roam_live.protocol.panes import Places, Rect
from test_mouse import Pointed

AREA = Rect(1, 1, 23, 80)


class Played:
    """A session's panes with splits, growth and closes by the layout's rules."""

    def __init__(self, area=AREA):
        self.area, self.parts, self.shifts, self.focus = area, 1, {}, 1

    def rects(self):
        """Return the rectangles by pane."""
        return dict(sorted(self.filled(self.parts, self.area)))

    def length(self, split, rect):
        """Return the length of a split's first part: its middle plus its growth, as far as both parts have room."""
        whole = rect.cols if split.way == "right" else rect.rows
        most = whole - 1 - least_of(split.second, split.way)
        return min(max((whole - 1) // 2 + self.shifts.get(split, 0), least_of(split.first, split.way)), most)

    def halves(self, split, rect):
        """Return the rectangles of both parts of a split."""
        first = self.length(split, rect)
        if split.way == "right":
            return rect._replace(cols=first), rect._replace(col=rect.col + first + 1, cols=rect.cols - first - 1)
        return rect._replace(rows=first), rect._replace(row=rect.row + first + 1, rows=rect.rows - first - 1)

    def filled(self, parts, rect):
        """Return the panes of parts that fill a rectangle, and their rectangles."""
        if isinstance(parts, int):
            return [(parts, rect)]
        first, second = self.halves(parts, rect)
        return self.filled(parts.first, first) + self.filled(parts.second, second)

    def changed(self, parts, old, new):
        """Replace one part, and keep the growth."""
        if parts == old:
            return new
        if isinstance(parts, int):
            return parts
        made = parts._replace(first=self.changed(parts.first, old, new), second=self.changed(parts.second, old, new))
        if made != parts and parts in self.shifts:
            self.shifts[made] = self.shifts.pop(parts)
        return made

    def own(self, pane, parts=None):
        """Return a pane's own split."""
        parts = self.parts if parts is None else parts
        if isinstance(parts, int):
            return None
        return parts if pane in (parts.first, parts.second) else self.own(pane, parts.first) or self.own(pane, parts.second)

    def split(self, pane, way):
        """Split a pane if there is room."""
        rect, numbers = self.rects()[pane], panes_of(self.parts)
        if len(numbers) < 9 and (rect.cols if way == "right" else rect.rows) > 2 * LEAST[way]:
            number = next(number for number in range(1, 10) if number not in numbers)
            self.parts = self.changed(self.parts, pane, PaneSplit(way, pane, number))

    def close(self, pane):
        """Close a pane unless it is the last."""
        own = self.own(pane)
        if own:
            self.parts = self.changed(self.parts, own, own.second if own.first == pane else own.first)

    def rect_of(self, split, parts, rect):
        """Return the rectangle of a split inside parts that fill one."""
        if parts is split or isinstance(parts, int):
            return rect if parts is split else None
        first, second = self.halves(parts, rect)
        return self.rect_of(split, parts.first, first) or self.rect_of(split, parts.second, second)

    def grow(self, pane, by):
        """Grow a pane along its own split, and return True if there is room."""
        own = self.own(pane)
        rect = self.rect_of(own, self.parts, self.area) if own else None
        if not rect:
            return False
        whole, first = (rect.cols if own.way == "right" else rect.rows), self.length(own, rect) + (by if own.first == pane else -by)
        if not least_of(own.first, own.way) <= first <= whole - 1 - least_of(own.second, own.way):
            return False
        self.shifts[own] = first - (whole - 1) // 2
        return True


def played(seed, closes=0):
    """Return a random session: some splits and growths, and so many closes among them."""
    chance, session = random.Random(seed), Played()
    steps = ["split"] * chance.randint(1, 10) + ["grow"] * 4
    chance.shuffle(steps)
    for place in range(closes):
        steps.insert(chance.randint(2, len(steps)), "close")
    for step in steps:
        pane = chance.choice(panes_of(session.parts))
        if step == "split":
            session.split(pane, chance.choice(("right", "down")))
        elif step == "grow":
            session.grow(pane, chance.randint(-5, 5))
        else:
            session.close(pane)
    return session


class Splits(unittest.TestCase):
    """The splits of a session."""

    def test_known(self):
        """If no pane was closed, rectangles and numbers determine the splits, whatever grew."""
        for seed in range(60):
            session = played(seed)
            self.assertEqual(splits_of(session.rects()), session.parts, (seed, session.rects()))

    def test_some(self):
        """If some were closed, the determined splits have the same rectangles."""
        for seed in range(60):
            rects = played(seed, 3).rects()
            again = Played()
            again.parts = splits_of(rects)
            self.assertIsNotNone(again.parts, (seed, rects))
            self.assertEqual(sorted(panes_of(again.parts)), sorted(rects))

    def test_none(self):
        """Rectangles without a layout have no splits, and aren't searched for long."""
        wheel = {1: Rect(1, 1, 5, 20), 2: Rect(1, 22, 11, 9), 3: Rect(7, 1, 11, 9), 4: Rect(13, 11, 5, 20), 5: Rect(7, 11, 5, 10)}
        self.assertIsNone(splits_of(wheel))
        self.assertIsNone(splits_of({pane: Rect(pane, pane, 5, 9) for pane in range(1, 10)}))
        grid = {1 + 3 * row + col: Rect(1 + 6 * row, 1 + 10 * col, 5, 9) for row in range(3) for col in range(3)}
        self.assertEqual(sorted(panes_of(splits_of(grid))), list(range(1, 10)))
        self.assertIsNone(splits_of({**grid, 9: Rect(13, 21, 5, 10)}))
        others = Rect(1, 11, 5, 9), Rect(7, 1, 5, 9), Rect(1, 12, 5, 9), Rect(7, 1, 5, 8)
        ways = [way_between(Rect(1, 1, 5, 9), other) for other in others]
        self.assertEqual(ways, ["right", "down", "", ""])

    def test_borders(self):
        """Each position belongs to a pane or a border."""
        for seed in (7, 8):
            session = played(seed)
            rects = session.rects()
            places = Places(rects, 1)
            for row in range(AREA.row, AREA.row + AREA.rows):
                for col in range(AREA.col + row % 5, AREA.col + AREA.cols, 5):
                    border = border_at(rects, row, col)
                    self.assertEqual(border is None, places.pane_at(row, col) > 0, (seed, row, col))
                    if border:
                        self.assertEqual(border.at(rects), col if border.way == "right" else row)

    def test_grown(self):
        """A pane that owns a border moves it by growing, up to the expected position and no further."""
        for seed in range(6):
            for pane, sign, border in borders_of(played(seed).rects()):
                for at in (border.least, border.most, border.least - 1, border.most + 1):
                    session = played(seed)
                    before = border.at(session.rects())
                    fits = session.grow(pane, sign * (at - before))
                    self.assertEqual(fits, border.least <= at <= border.most, (seed, border))
                    self.assertEqual(border.at(session.rects()), at if fits else before)


def borders_of(rects):
    """Return the borders of panes, each with a pane that owns it."""
    places = [place for rect in rects.values() for place in ((rect.row, end_of(rect, "right")), (end_of(rect, "down"), rect.col))]
    found = {str(border): border for border in (border_at(rects, *place) for place in places) if border}
    return [(pane, sign, border) for border in found.values() for pane, sign in border.leaves]


class Dragged(Pointed):
    """A border that is dragged at a terminal."""

    def session(self, played_session, focus=1):
        """Return a user with the mouse at a simulated session."""
        self.played = played_session
        self.played.focus = focus
        self.dragging = self.person({}, Places(self.played.rects(), focus, 1))
        self.dragging.commands.pointing.is_on = True
        self.heard = []
        return self.dragging

    def take(self):
        """Let the session take input, and report."""
        acts = [act for line in self.dragging.said() for act in line.split(" ; ")]
        self.heard += acts
        for act in acts:
            word, _, number = act.partition(" ")
            if word == "focus":
                self.played.focus = int(number)
            elif word == "grow":
                self.played.grow(self.played.focus, int(number))
        self.dragging.tell(Places(self.played.rects(), self.played.focus, 1))

    def drag(self, *reports):
        """Report mouse events, with the session's turns in between, and return all its acts."""
        for one in reports:
            self.dragging.keyboard.fed(f"\x1b[<{one[0]};{one[2]};{one[1]}{'m' if one[3:] else 'M'}".encode())
            for _ in range(3):
                self.take()
            self.now += 0.02
            self.dragging.loop.do_due()
        return self.heard

    def test_moves(self):
        """It follows the mouse by the pane that owns it, and the focus is restored."""
        session = Played()
        session.split(1, "right")
        session.split(2, "down")
        self.session(session, 3)
        self.assertEqual(self.drag((0, 5, 40), (32, 5, 44), (32, 6, 50), (0, 6, 50, True)),
                         ["focus 1", "grow 4", "focus 3", "focus 1", "grow 6", "focus 3"])
        self.assertEqual((session.rects()[1].cols, session.focus, self.dragging.commands.pointing.border), (49, 3, None))
        self.heard.clear()
        self.assertEqual(self.drag((0, 12, 60), (32, 8, 60), (0, 8, 60, True)), ["focus 2", "grow -4", "focus 3"])
        self.assertEqual((session.rects()[2].rows, self.drag((32, 9, 60), (32, 9, 61, True))), (7, self.heard))

    def test_limits(self):
        """It moves as far as the panes have room, even if the mouse continues over the last row and out of the session."""
        session = Played()
        session.split(1, "right")
        session.split(2, "right")
        self.session(session)
        self.drag((0, 5, 40), (32, 24, 80))
        self.assertEqual([rect.cols for rect in session.rects().values()], [70, 4, 4])
        self.drag((32, 5, 1), (0, 5, 1, True))
        self.assertEqual([rect.cols for rect in session.rects().values()][:1], [4])

    def test_each(self):
        """Wherever it is taken, a border of known splits moves to the mouse, and no other does."""
        for seed in range(6):
            for _, _, border in borders_of(played(seed).rects()):
                self.session(played(seed))
                session = self.played
                at, place = border.at(session.rects()), place_of(border, session.rects())
                for aim in (border.least, border.most):
                    aimed = (place[0], aim) if border.way == "right" else (aim, place[1])
                    self.drag((0, *place), (32, *aimed), (0, *aimed, True))
                    self.assertEqual(border.at(session.rects()), aim, (seed, at, border))
                    place = aimed
                self.assertEqual((session.focus, self.dragging.commands.pointing.border), (1, None))

    def test_waits(self):
        """Each growth follows the report of the previous one's effect; the mouse moves on meanwhile."""
        session = Played()
        session.split(1, "right")
        person = self.session(session)
        person.keyboard.fed(b"\x1b[<0;40;5M\x1b[<32;41;5M\x1b[<32;45;5M\x1b[<32;50;5M\x1b[<0;50;5m")
        self.assertEqual(person.link.lines[-1:], ["focus 1 ; grow 1"])
        self.take()
        self.assertEqual(person.link.lines[-1:], ["focus 1 ; grow 9"])
        self.take()
        self.assertEqual((session.rects()[1].cols, person.commands.pointing.border), (49, None))

    def test_refused(self):
        """A step without effect is given up a quarter of a second after it was taken; the drag can continue."""
        session = Played()
        session.split(1, "right")
        person = self.session(session)
        session.grow = lambda pane, by: False
        self.drag((0, 5, 40), (32, 5, 45))
        person.link.has_taken = False
        self.now += 0.25
        person.loop.do_due()
        self.assertIsNotNone(person.commands.pointing.border.grown)
        person.link.has_taken = True
        self.now += 0.25
        person.loop.do_due()
        self.assertIsNone(person.commands.pointing.border.grown)
        del session.grow
        self.drag((32, 5, 46), (0, 5, 46, True))
        self.assertEqual((session.rects()[1].cols, person.commands.pointing.border), (45, None))

    def test_other_splits(self):
        """A growth that moves another border is undone, and the pane on the other side tried; if none moves it, that is reported."""
        session = Played(Rect(1, 1, 23, 79))
        session.parts = PaneSplit("right", PaneSplit("right", PaneSplit("right", 1, 2), 3), 4)
        self.session(session)
        self.assertNotEqual(splits_of(session.rects()), session.parts)
        before = session.rects()
        border = border_at(before, 5, end_of(before[2], "right"))
        at = border.at(before)
        self.drag((0, 5, at), (32, 5, at + 3), (0, 5, at + 3, True))
        self.assertEqual((end_of(session.rects()[2], "right"), session.focus), (at + 3, 1))
        session = Played(Rect(1, 1, 23, 79))
        session.parts = PaneSplit("right", PaneSplit("right", 1, 2), PaneSplit("right", 3, 4))
        person = self.session(session)
        before = session.rects()
        at = end_of(before[2], "right")
        self.drag((0, 5, at), (32, 5, at + 3), (0, 5, at + 3, True))
        self.assertEqual((session.rects(), person.display.row.told, person.commands.pointing.border), (before, NO_PANE, None))

    def test_lost(self):
        """The drag ends if the release was missed, or if a notice covers the session."""
        session = Played()
        session.split(1, "right")
        person = self.session(session)
        self.drag((0, 5, 40))
        self.drag((0, 5, 10))
        self.assertIsNone(person.commands.pointing.border)
        self.drag((0, 5, 40))
        person.display.notice = "help"
        self.drag((0, 5, 45, True))
        self.assertEqual((person.commands.pointing.border, session.rects()[1].cols), (None, 39))


class Anywhere(Pointed):
    """Mouse events at any position, in any order."""

    def test_inside(self):
        """A program gets the reports that it requested, in its form, for positions inside its pane. Without roam's own mouse only the
        focused pane gets some.
        """
        kinds, count = ("", "buttons", "drags sgr", "motion sgr", "motion", "buttons sgr other", "other"), 0
        for seed in range(12):
            chance, rects = random.Random(seed), played(seed).rects()
            modes = {pane: chance.choice(kinds) for pane in rects}
            focus = chance.choice(sorted(rects))
            person = self.person(modes, Places(rects, focus, 1))
            person.commands.pointing.is_on = seed % 2 == 1
            for _ in range(60):
                button = chance.choice((0, 1, 2, 16, 32, 33, 35, 64, 65, 66))
                one = button, chance.randint(0, 26), chance.randint(0, 82), *([True] if button < 32 and chance.random() < 0.4 else [])
                for pane, text in [line for line in self.points(person, one) if len(line) == 2 and line[1].startswith("\x1b")]:
                    number = int(pane.removeprefix("focus "))
                    told, count = self.read(text, modes[number]), count + 1
                    self.assertTrue(1 <= told.row <= rects[number].rows and 1 <= told.col <= rects[number].cols, (seed, one, text))
                    self.assertTrue(is_wanted(told, modes[number].split()), (seed, one, text))
                    self.assertTrue(person.commands.pointing.is_on or number == focus, (seed, one, text))
        self.assertGreater(count, 100)

    def read(self, text, modes):
        """Return the report that a program with these modes reads."""
        if "sgr" in modes:
            return report_of(text)
        self.assertTrue(text.startswith("\x1b[M") and len(text) == 6 and max(text) <= "\x7f", text)
        button, col, row = (ord(letter) - 32 for letter in text[3:])
        return MouseReport(button, row, col, button & 3 == 3 and not button & 32)


def place_of(border, rects):
    """Return a position on a border."""
    rect = rects[border.before]
    return (rect.row, end_of(rect, "right")) if border.way == "right" else (end_of(rect, "down"), rect.col)


if __name__ == "__main__":
    unittest.main()
