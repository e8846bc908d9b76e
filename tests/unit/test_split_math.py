"""The layout's rule of splits: the session's size for a pane's size, pane positions at another size, and acts for even sizes."""
import unittest

from lived import Lived, by_chance
from roam_live.common.tty import MOST
from roam_live.frontend.borders import (Evened, above, area_of, growths, laid, least_of, length_at, length_of, row_of, size_for,
                                        split_sizes, splits_of)
from roam_live.protocol.panes import Rect

SIZES = ((24, 80), (50, 160))


def is_pushed(parts, rects):
    """Return True if a part has its least length: then the border's shift from the middle is unknown."""
    if isinstance(parts, int):
        return False
    halves = [area_of({pane: rects[pane] for pane in row_of_panes(part)}) for part in parts[1:]]
    is_here = any(length_of(box, parts.way) == least_of(part, parts.way) for box, part in zip(halves, parts[1:]))
    return is_here or any(is_pushed(part, rects) for part in parts[1:])


def row_of_panes(parts):
    """Return the panes of parts."""
    return [parts] if isinstance(parts, int) else row_of_panes(parts.first) + row_of_panes(parts.second)


def size_at(size, splits):
    """Return a pane's rows and columns at a size of the session."""
    return length_at(size[0] - 1, splits, "down"), length_at(size[1], splits, "right")


class Rule(unittest.TestCase):
    """The results of the rule."""

    def test_same(self):
        """At the current size, the panes keep their positions."""
        for seed in range(40):
            session = by_chance(seed, *SIZES[seed % 2])
            rects = session.rects()
            self.assertEqual(laid(session.parts, rects, area_of(rects)), rects, seed)
            size = session.places().size()
            for pane, rect in rects.items():
                self.assertEqual(size_at(size, above(pane, session.parts, rects)), (rect.rows, rect.cols), (seed, pane))

    def test_other_size(self):
        """At another size they are at the session's positions, unless those are unreported."""
        count = 0
        for seed in range(40):
            session = by_chance(seed)
            rects = session.rects()
            if not is_pushed(session.parts, rects):
                count += 1
                session.do("size 61 143")
                self.assertEqual(laid(session.parts, rects, Rect(1, 1, 60, 143)), session.rects(), seed)
        self.assertGreater(count, 20)

    def test_size_for(self):
        """A pane has exactly the wanted rows and columns, and one less in a smaller session; or the session has its largest size."""
        for seed in range(40):
            session = by_chance(seed, *SIZES[seed % 2])
            rects, size = session.rects(), session.places().size()
            splits = above(session.focus, session.parts, rects)
            wanted = size[0] - 1, size[1]
            found = size_for(wanted, size, splits)
            has = size_at(found, splits)
            for side in (0, 1):
                self.assertTrue(has[side] == wanted[side] or found[side] == MOST[side] and has[side] < wanted[side], (seed, found, has))
                less = tuple(number - (place == side) for place, number in enumerate(found))
                self.assertTrue(size_at(less, splits)[side] < wanted[side] or found[side] == size[side], (seed, found))

    def test_never_smaller(self):
        """A session larger than wanted stays unchanged."""
        session = Lived(50, 200)
        session.do("split right")
        self.assertEqual(size_for((23, 80), (50, 200), above(2, session.parts, session.rects())), (50, 200))
        self.assertEqual(size_for((23, 120), (50, 200), above(2, session.parts, session.rects())), (50, 240))


class Shares(unittest.TestCase):
    """Even split sizes."""

    def test_shares(self):
        for whole, least, wanted in ((80, [4, 4], [39, 40]), (80, [4, 4, 4], [26, 26, 26]), (81, [4, 4, 4], [26, 26, 27]),
                                     (20, [9, 4, 4], [9, 4, 5]), (14, [4, 4, 4], [4, 4, 4]), (12, [4, 9], [2, 9])):
            found = split_sizes(whole, least)
            if sum(least) + len(least) - 1 <= whole:
                self.assertEqual((found, sum(found) + len(least) - 1), (wanted, whole))

    def test_growths(self):
        for by, acts in ((1, ["grow 1"]), (-100, ["grow -99", "grow -1"]), (198, ["grow 99", "grow 99"])):
            self.assertEqual(growths(3, by), ["focus 3", *acts])

    def test_even(self):
        """The acts give even sizes for each pane with known splits; a border without an owner stays, and is reported."""
        for seed in range(40):
            session = by_chance(seed, *SIZES[seed % 2])
            for _ in range(10):
                evened = Evened(splits_of(session.rects()), session.rects())
                for act in evened.acts:
                    session.do(act)
                if session.rects() == evened.rects:
                    break
            self.assertEqual(session.rects(), evened.rects, seed)
            again = Evened(session.parts, session.rects())
            self.assertEqual((again.acts, again.is_stuck), ([], evened.is_stuck), seed)
            if not evened.is_stuck:
                self.each_even(session.parts, session.rects())

    def each_even(self, parts, rects):
        """Check that adjacent parts differ by one at most, unless one has its least length."""
        if isinstance(parts, int):
            return
        row = row_of(parts, parts.way)
        lengths = [length_of(area_of({pane: rects[pane] for pane in row_of_panes(part)}), parts.way) for part in row]
        free = [length for length, part in zip(lengths, row) if length > least_of(part, parts.way)]
        self.assertLessEqual(max(free, default=0) - min(free, default=0), 1, rects)
        for part in row:
            self.each_even(part, rects)


if __name__ == "__main__":
    unittest.main()
