"""Decisions about size, as tables: the size of a session, the part that a terminal shows, and the size request of a zoom."""
import unittest

from roam_live.common.tty import MOST
from roam_live.frontend import sizes
from roam_live.frontend.sizes import NO_SIZE
from roam_live.protocol.panes import Places, Rect
from roam_live.protocol.zoom_record import MOST_ASKED, ZoomNote

# Two panes side by side in a session of 24 by 80, and the same at 24 by 160.
HALVES = Places({1: Rect(1, 1, 23, 39), 2: Rect(1, 41, 23, 40)}, 2)
WIDE = Places({1: Rect(1, 1, 23, 79), 2: Rect(1, 81, 23, 80)}, 2)
ONE = Places({1: Rect(1, 1, 23, 80)}, 1)
NOTE = ZoomNote((24, 80), ((24, 160),))


class Whose(unittest.TestCase):
    """The size of the session."""

    def test_fitting(self):
        """The first applicable rule decides: a zoom, a session launched just now, an impossible change, the other terminals."""
        session, larger = (24, 80), (30, 100)
        for case, step in (
            ((session, larger, False, True, True, True), sizes.ZOOMS),
            ((session, larger, True, True, False, False), sizes.ZOOMS),
            ((session, larger, False, False, True, True), sizes.TAKES),
            ((NO_SIZE, (2, 2), True, False, True, True), sizes.TAKES),
            ((session, larger, True, False, False, False), sizes.KEEPS),
            ((NO_SIZE, larger, False, False, False, True), sizes.KEEPS),
            ((session, session, False, False, False, True), sizes.KEEPS),
            ((session, (3, 80), False, False, False, True), sizes.KEEPS),
            ((session, (24, 7), False, False, False, True), sizes.KEEPS),
            ((session, (4, 8), False, False, False, True), sizes.WAITS),
            ((session, larger, False, False, False, True), sizes.WAITS),
            ((session, larger, False, False, False, False), sizes.FOLLOWS),
        ):
            self.assertEqual(sizes.fit_step(*case), step, case)

    def test_first(self):
        """Nothing is cut in a new session; otherwise the panes are awaited."""
        for case, step in (((True, True), sizes.IS_NEW), ((True, False), sizes.IS_NEW), ((False, True), sizes.LATER),
                           ((False, False), sizes.FITS)):
            self.assertEqual(sizes.first_step(*case), step, case)

    def test_follows(self):
        """A session grows for a lone user, and shrinks for one who showed all of it and is alone by the pty host's report."""
        size = (24, 80)
        for own, showed_all, has_others, is_told, follows in (
            ((30, 100), False, False, False, True), ((24, 80), False, False, True, True), ((30, 80), True, False, False, True),
            ((30, 100), True, True, True, False), ((30, 100), True, None, False, False),
            ((20, 80), True, False, True, True), ((24, 79), True, False, True, True), ((20, 100), True, False, True, True),
            ((20, 80), False, False, True, False), ((20, 80), True, False, False, False), ((24, 79), True, None, False, False),
            ((20, 100), True, True, True, False), ((30, 79), False, False, True, False),
        ):
            case = size, own, showed_all, has_others, is_told
            self.assertIs(sizes.follows(*case), follows, case)

    def test_latest(self):
        """A session of a known size takes another permitted one."""
        for size, room, takes in (((24, 80), (30, 100), True), ((24, 80), (20, 70), True), ((24, 80), (24, 80), False),
                                  (NO_SIZE, (24, 80), False), ((24, 80), (3, 80), False), ((24, 80), (24, 7), False),
                                  (MOST, (MOST[0] + 9, MOST[1] + 9), False), ((24, 80), (4, 8), True)):
            self.assertIs(sizes.takes_latest(size, room), takes, (size, room))


class Parts(unittest.TestCase):
    """The part that a terminal shows."""

    def test_part(self):
        """The last row is the front end's own; a part has at least a row and four columns, and is no larger than the session."""
        pane = Rect(1, 41, 23, 40)
        for case, part in (
            (((24, 80), True, (24, 80), None, False), (23, 80)),
            (((24, 80), False, (25, 80), None, False), (24, 80)),
            (((24, 80), True, (24, 80), None, True), None),
            (((24, 80), True, (23, 79), None, True), None),
            (((24, 80), True, (25, 80), None, True), (23, 80)),
            (((24, 80), True, (24, 81), None, True), (23, 80)),
            (((24, 80), False, (24, 80), None, True), (23, 80)),
            (((24, 80), True, (10, 40), None, False), (9, 40)),
            (((24, 80), True, NO_SIZE, None, False), (23, 80)),
            (((3, 4), True, (24, 80), None, False), (2, 4)),
            (((24, 80), True, (1, 1), None, False), (2, 4)),
            (((999, 999), True, NO_SIZE, None, False), (MOST[0] - 1, MOST[1])),
            (((999, 999), False, (2000, 2000), None, False), (MOST[0] - 1, MOST[1])),
            (((24, 80), True, (24, 160), pane, False), (23, 40)),
            (((24, 30), True, (24, 160), pane, True), (23, 30)),
            (((20, 80), False, (24, 160), pane, False), (20, 40)),
            (((20, 80), True, (24, 160), pane, False), (19, 40)),
        ):
            self.assertEqual(sizes.part_for(*case), part, case)

    def test_all(self):
        """A part is complete if it omits only the session's status row."""
        for size, part, is_all in (((24, 80), (23, 80), True), ((24, 80), (22, 80), False), ((24, 80), (23, 79), False),
                                   ((24, 80), None, False), (NO_SIZE, (-1, 0), False)):
            self.assertIs(sizes.has_all(size, part), is_all, (size, part))

    def test_places(self):
        """A part that stays in place is within the panes; one that reaches beyond them is detected."""
        for size, part, place, kept, is_beyond in (
            ((24, 80), (10, 40), (0, 0), (0, 0), False), ((24, 80), (10, 40), (13, 40), (13, 40), False),
            ((24, 80), (10, 40), (14, 40), (13, 40), True), ((24, 80), (10, 40), (13, 41), (13, 40), True),
            ((24, 80), (23, 80), (5, 5), (0, 0), True), ((24, 80), (40, 90), (0, 0), (0, 0), True),
        ):
            self.assertEqual((sizes.kept_place(size, part, place), sizes.is_beyond(size, part, place)), (kept, is_beyond), (part, place))
        self.assertIs(sizes.is_beyond(NO_SIZE, (10, 40), (5, 5)), False)

    def test_visible(self):
        """The visible part of a rectangle: whole, cut on each side, or nothing."""
        rect = Rect(5, 11, 10, 20)
        for place, extent, shown in (
            ((0, 0), (23, 80), rect), ((4, 10), (23, 80), Rect(1, 1, 10, 20)), ((6, 12), (23, 80), Rect(1, 1, 8, 18)),
            ((0, 0), (8, 15), Rect(5, 11, 4, 5)), ((6, 12), (3, 4), Rect(1, 1, 3, 4)), ((13, 29), (9, 9), Rect(1, 1, 1, 1)),
            ((14, 0), (23, 80), None), ((0, 30), (23, 80), None), ((0, 0), (4, 80), None), ((0, 0), (23, 10), None),
        ):
            self.assertEqual(sizes.visible(rect, place, extent), shown, (place, extent))

    def test_place_at(self):
        """The cell position at a row and a column of the terminal; the nearest one only on request."""
        for at, place, near in (((1, 1), (4, 6), (4, 6)), ((10, 20), (13, 25), (13, 25)), ((11, 20), None, (13, 25)),
                                ((10, 21), None, (13, 25)), ((0, 5), None, (4, 10)), ((5, 0), None, (8, 6))):
            self.assertEqual([sizes.place_at(at, (3, 5), (10, 20), is_near) for is_near in (False, True)], [place, near], at)
        self.assertIsNone(sizes.place_at((1, 1), (0, 0), NO_SIZE, True))


class Zooms(unittest.TestCase):
    """The size requests of a zoom."""

    def test_places_at(self):
        """Panes keep their share of another size."""
        self.assertEqual([sizes.places_at(HALVES, size) for size in ((24, 160), (24, 80))], [WIDE, HALVES])
        self.assertEqual(sizes.places_at(HALVES, (12, 80)).rects, {1: Rect(1, 1, 11, 39), 2: Rect(1, 41, 11, 40)})

    def test_refusal(self):
        """A pane is zoomed unless it is unknown, the only one, or larger than the terminal."""
        for places, area, why in ((None, (23, 80), sizes.UNTOLD), (ONE, (23, 80), sizes.ONE.format(1)), (HALVES, (23, 40), ""),
                                  (HALVES, (22, 80), sizes.LARGER.format(2, 23, 40)), (HALVES, (23, 39), sizes.LARGER.format(2, 23, 40))):
            self.assertEqual(sizes.zoom_refusal(places, area), why, area)

    def test_unzoomed(self):
        """A size requested by a zoom gives way to the session's own."""
        for size, note, own in (((24, 80), None, (24, 80)), ((24, 160), NOTE, (24, 80)), ((30, 90), NOTE, (30, 90)),
                                ((24, 80), NOTE, (24, 80))):
            self.assertEqual(sizes.unzoomed_size(size, note), own, size)

    def test_size(self):
        """A size is requested until the pane has it, each once, and MOST_ASKED times in all."""
        fresh = ZoomNote((24, 80), ())
        size = sizes.zoom_size(HALVES, 2, (23, 80), fresh)
        self.assertEqual(sizes.places_at(HALVES, size).rects[2], Rect(1, 81, 23, 80))
        full = ZoomNote((24, 80), ((24, 81),) * MOST_ASKED)
        for places, area, note, asked in ((HALVES, (23, 80), fresh, size), (HALVES, (23, 40), fresh, None), (WIDE, (23, 80), NOTE, None),
                                          (HALVES, (23, 80), ZoomNote((24, 80), (size,)), None), (HALVES, (23, 80), full, None),
                                          (HALVES, (23, 80), ZoomNote((24, 80), full.asked[1:]), size)):
            self.assertEqual(sizes.zoom_size(places, 2, area, note), asked, (area, note))

    def test_told(self):
        """A zoom ends with its focus or its panes, is lost by another size, and continues by its own."""
        asked, shown = (HALVES, {}), (None, WIDE.rects)
        partly = WIDE._replace(rects={1: Rect(1, 1, 23, 39), 2: Rect(1, 81, 23, 80)})
        moved = WIDE._replace(rects={1: Rect(1, 1, 23, 78), 2: Rect(1, 80, 23, 81)})
        for (awaited, rects), places, step in (
            (asked, WIDE._replace(focus=1), sizes.ENDS), (asked, ONE._replace(focus=2), sizes.ENDS),
            (asked, partly, sizes.STAYS), (asked, HALVES, sizes.STAYS), (asked, WIDE, sizes.ASKS),
            (asked, sizes.places_at(WIDE, (24, 100)), sizes.LOST), (shown, sizes.places_at(WIDE, (24, 100)), sizes.LOST),
            (shown, HALVES, sizes.LOST), (shown, WIDE, sizes.STAYS), (shown, moved, sizes.ENDS),
            (shown, WIDE._replace(focus=1), sizes.ENDS),
        ):
            self.assertEqual(sizes.zoom_step(2, HALVES, NOTE, awaited, rects, places), step, places)
        # With a second size on its way the first may still be reported.
        note = ZoomNote((24, 80), ((24, 150), (24, 160)))
        self.assertEqual([sizes.zoom_step(2, HALVES, note, HALVES, {}, sizes.places_at(WIDE, (24, cols))) for cols in (150, 160, 155)],
                         [sizes.STAYS, sizes.ASKS, sizes.LOST])

    def test_left(self):
        """An abandoned zoom's session gets its old size back once no other zoom can have requested that."""
        for note, size, was_unseen, has_others, is_late, step in (
            (None, (24, 160), False, False, True, sizes.NOTHING), (NOTE, NO_SIZE, False, False, True, sizes.NOTHING),
            (NOTE, (24, 80), False, False, False, sizes.UNSEEN), (NOTE, (24, 80), True, True, True, sizes.UNSEEN),
            (NOTE, (24, 160), False, False, False, sizes.GIVES), (NOTE, (24, 160), True, True, True, sizes.GIVES),
            (NOTE, (24, 160), True, False, False, sizes.AWAITS), (NOTE, (24, 160), False, True, False, sizes.AWAITS),
            (NOTE, (24, 160), False, None, False, sizes.AWAITS),
        ):
            case = note, size, was_unseen, has_others, is_late
            self.assertEqual(sizes.left_zoom(*case), step, case)
