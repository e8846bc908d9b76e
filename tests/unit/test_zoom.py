"""A pane that fills a user's terminal, and all ends of that: at a simulated session with its layout."""
import copy
import unittest

from lived import Attached, Lived, by_chance
from roam_live.common.tty import MOST
from roam_live.frontend import sizes, zoom
from roam_live.frontend.borders import above, size_for
from roam_live.frontend.session_size import REFUSES
from roam_live.host.state import NotedZoom
from roam_live.protocol.display_records import DisplayRecord
from roam_live.protocol.panes import Places, Rect
from roam_live.protocol.zoom_record import MOST_ASKED, NO_ZOOM, ZoomNote, note_in, zoomed_in
from test_display import Person, PlayedHost

class Zoomed(Attached):
    """A user at a simulated session, with a zoomed pane or without."""

    def grid(self, size=(24, 80)):
        """Return a session of three panes, the second one focused."""
        session = Lived(*size)
        for act in ("split right", "split down", "focus 2"):
            session.do(act)
        return session

    def is_zoomed(self, pane):
        """Check that a pane fills the terminal, and nothing else is visible."""
        rect, (rows, cols) = self.session.rects()[pane], self.person.display.outer.size()
        part = f"part {rect.row - 1} {rect.col - 1} {rect.rows} {rect.cols}"
        return self.shown[-1] == part and (rect.rows, rect.cols) == (rows - 1,
                                                                     cols) and self.person.display.row.line().rstrip().endswith("Z")


class Back(Zoomed):
    """There and back."""

    def test_trees(self):
        """The pane fills the terminal, or has the most that the largest session gives it, and afterwards all panes have exactly their old
        positions.
        """
        full = 0
        for size in ((24, 80), (50, 160)):
            for seed in range(40):
                session = by_chance(seed, *size)
                before = session.rects()
                self.attach(session, size)
                self.types(b"\x02z")
                rect = session.rects()[session.focus]
                self.assertEqual(self.shown[-1], f"part {rect.row - 1} {rect.col - 1} {rect.rows} {rect.cols}", (size, seed))
                for has, wanted, whole, most in zip(rect[2:], (size[0] - 1, size[1]), session.places().size(), MOST):
                    self.assertTrue(has == wanted or whole == most and has < wanted, (size, seed, rect))
                full += (rect.rows, rect.cols) == (size[0] - 1, size[1])
                self.assertTrue(self.person.display.row.line().rstrip().endswith("Z"))
                self.types(b"\x02z")
                self.assertEqual((session.rects(), self.person.display.part.zoomed, self.shown[-1].replace("part 0 0 ", "part ")),
                                 (before, None, "part {} {}".format(size[0] - 1, size[1])), (size, seed))
                self.assertFalse(self.person.display.part.is_held)
        self.assertGreater(full, 50)

    def test_pushed(self):
        """If a border's shift from the middle is unknown, the size is requested again from the next report."""
        session = Lived()
        for act in ("split right", "split right", "focus 1", "grow 35"):
            session.do(act)
        session.do("size 24 140")
        session.do("focus 1")
        session.do("grow 60")
        session.do("size 24 80")
        session.do("focus 3")
        before = session.rects()
        self.attach(session)
        self.types(b"\x02z")
        self.take(9)
        self.assertGreater(sum(line.startswith("size") for line in self.heard), 1)
        self.assertEqual(session.rects()[3][2:], (23, 80))
        self.assertTrue(self.is_zoomed(3))
        self.types(b"\x02z")
        self.assertEqual(session.rects(), before)

    def test_held(self):
        """From the key until the pane alone is painted no painting reaches the terminal, and the same on the way back."""
        self.attach(self.grid())
        person = self.person
        person.paints(23, 80, "before")
        for part in ("23 80", "23 80"):
            person.keyboard.fed(b"\x02z")
            person.paints(23, 80, "between", "paint")
            person.paints(23, 80, "between")
            self.assertEqual(person.shown()[0], "before")
            self.take()
            person.paints(23, 80, "between", "paint")
            self.assertEqual(person.shown()[0], "before")
            self.assertTrue(self.shown[-1].endswith(part))
            person.paints(23, 80, "after")
            self.assertEqual(person.shown()[0], "after")
            person.paints(23, 80, "before")

    def test_clicks(self):
        """A click counts from the pane's corner."""
        self.attach(self.grid())
        person = self.person
        person.panes.modes_of = {2: "buttons sgr"}
        self.types(b"\x02z")
        rect = self.session.rects()[2]
        person.display.take(DisplayRecord("part", (rect.row - 1, rect.col - 1)))
        person.paints(23, 80)
        self.heard.clear()
        self.types(b"\x1b[<0;1;1M\x1b[<0;80;23M\x1b[<0;3;24M")
        texts = ["".join(chr(int(act.split()[1], 16)) for act in line.split(" ; ")[1:]) for line in self.heard]
        self.assertEqual(texts, ["\x1b[<0;1;1M", "\x1b[<0;80;23M"])

    def test_at_once(self):
        """After a key that moves the focus the newly focused pane is zoomed, once that is reported; or the focused one, without reports."""
        for keys, pane in ((b"\x02o\x02z", 3), (b"\x02%\x02z", 4), (b"\x02q1\x02z", 1)):
            self.attach(self.grid())
            self.types(keys)
            self.take(6)
            self.assertTrue(self.is_zoomed(pane), keys)
        self.attach(self.grid())
        self.session.split = lambda pane, way: None
        self.types(b"\x02%\x02z")
        self.now += zoom.FOCUS_WAIT
        self.person.loop.do_due()
        self.take()
        self.assertTrue(self.is_zoomed(2))
        self.attach(self.grid())
        self.person.keyboard.fed(b"\x02q1\x02z")
        self.person.commands.panes_changed()
        self.assertTrue(self.person.commands.zooming.is_on())

    def test_blank(self):
        """A pane that can't fill the terminal is still shown alone."""
        session = Lived(50, 160)
        for act in ("split right", "split right", "split right"):
            session.do(act)
        self.attach(session, (50, 160))
        self.types(b"\x02z")
        rect = session.rects()[4]
        self.assertEqual((session.places().size(), rect.cols, self.shown[-1]), ((50, 500), 62, f"part 0 {rect.col - 1} 49 62"))

    def test_copy_mode(self):
        """Other panes grow too, without input."""
        self.attach(self.grid())
        self.types(b"\x02zls")
        self.assertEqual(self.heard, ["size 48 160", "char 6c", "char 73"])


class Ends(Zoomed):
    """The ends of a zoom."""

    def both(self, keys, *acts):
        """Check that keys in a zoomed pane have the same result as these acts without a zoom, at the session's own size."""
        self.attach(self.grid())
        other = copy.deepcopy(self.session)
        self.types(b"\x02z")
        self.assertTrue(self.is_zoomed(2))
        self.types(keys)
        self.take(12)
        for act in acts:
            other.do(act)
        self.assertEqual((self.session.places(), self.person.commands.zooming.is_on()), (other.places(), False), keys)
        self.assertEqual((self.person.display.part.zoomed, self.person.display.part.is_held, self.person.host.zoom), (None, False, None),
                         keys)

    def test_keys(self):
        """This user's actions on panes are done at the session's own size."""
        for keys, acts in ((b"\x02%", ["split right"]), (b'\x02"', ["split down"]), (b"\x02xy", ["close"]), (b"\x02o", ["next"]),
                           (b"\x02q1", ["focus 1"]), (b"\x02\x1b[D", ["focus 1"]), (b"\x02\x1b[B", ["focus 3"]),
                           (b"\x02\x1b[1;5D", ["focus 1", "grow -1", "focus 2"]), (b"\x02\x1b[1;5B", ["grow 1"]),
                           (b"\x02\x1b[1;5B\x1b[1;5B\x1b[1;5B", ["grow 3"]), (b"\x02 ", []), (b"\x02r", [])):
            self.both(keys, *acts)

    def test_same_focus(self):
        """An act that keeps the focus ends nothing, and neither does a typed key, or one that no pane takes."""
        self.attach(self.grid())
        self.types(b"\x02z\x02q2x\r\x02;")
        self.assertEqual((self.person.commands.zooming.is_on(), self.person.display.row.told), (True, "no other pane was active before"))

    def test_last(self):
        """C-b ; goes to the previously focused pane, by the reported focus."""
        self.attach(self.grid())
        self.types(b"\x02q1")
        self.types(b"\x02z")
        self.types(b"\x02;")
        self.assertEqual((self.session.focus, self.session.places().size()), (2, (24, 80)))
        self.types(b"\x02;\x02;\x02;")
        self.assertEqual(self.session.focus, 1)
        self.by_another("close")
        self.types(b"\x02;")
        self.assertEqual(self.session.focus, 2)

    def test_others(self):
        """Actions of others end it: the size is restored, unless they changed it; then theirs stays."""
        for acts, size in ((["focus 1"], (24, 80)), (["next"], (24, 80)), (["split down"], (24, 80)), (["close"], (24, 80)),
                           (["grow 1"], (24, 80)), (["size 30 90"], (30, 90)), (["size 60 200"], (60, 200))):
            self.attach(self.grid(), host=PlayedHost(True))
            self.types(b"\x02z")
            self.by_another(*acts)
            self.assertEqual((self.session.places().size(), self.person.commands.zooming.is_on()), (size, False), acts)
            self.assertEqual((self.person.display.part.zoomed, self.person.display.part.is_held, self.person.host.zoom),
                             (None, False, None), acts)

    def test_no_room(self):
        """If others have split too much meanwhile for the old size, that is reported, and the record is dropped."""
        self.attach(self.grid())
        self.types(b"\x02z")
        self.session.do("split down")
        self.session.least = None
        for _ in range(3):
            self.session.do("split down")
        self.session.area = self.session.area._replace(rows=47)
        self.session.do = lambda act: None
        self.person.tell(self.session.places())
        self.take()
        self.now += REFUSES
        self.person.loop.do_due()
        self.assertIn("24 by 80 is too small for its panes", self.person.display.row.told)
        self.assertEqual((self.person.host.zoom, self.person.display.part.is_held), (None, False))

    def test_leaving(self):
        """A detach restores the size first."""
        self.attach(self.grid())
        self.types(b"\x02z\x02d")
        self.assertEqual(self.person.left, "[detached]")
        self.person.commands.left()
        self.take()
        self.assertEqual((self.session.places().size(), self.person.commands.zooming.is_on()), ((24, 80), False))

    def test_parts_of_what_is_told(self):
        """A partial report of panes changes nothing."""
        self.attach(self.grid())
        self.person.keyboard.fed(b"\x02z")
        before, heard = self.session.rects(), self.person.said()
        self.session.do(heard[-1])
        after = self.session.rects()
        for told in ({**before, 1: after[1]}, {**before, 1: after[1], 2: after[2]}):
            self.person.tell(Places(told, 2, 1))
            self.assertTrue(self.person.commands.zooming.is_on() and self.person.display.part.is_held)
        self.take()
        self.take()
        self.assertTrue(self.is_zoomed(2))

    def test_never_comes(self):
        """A size that never comes is given up, once all input was taken."""
        self.attach(self.grid())
        self.session.do = lambda act: None
        self.types(b"\x02z")
        self.assertTrue(self.person.display.part.is_held)
        self.person.link.has_taken = False
        self.now += REFUSES + 0.1
        self.person.loop.do_due()
        self.assertTrue(self.person.commands.zooming.is_on())
        self.person.link.has_taken = True
        self.now += REFUSES + 0.1
        self.person.loop.do_due()
        self.assertEqual((self.person.commands.zooming.is_on(), self.person.display.row.told), (False, zoom.REFUSED))
        self.take()
        self.assertFalse(self.person.display.part.is_held)

    def test_again(self):
        """On another connection the pending size is requested again, both for the zoom and its end; without one, none is."""
        self.attach(self.grid())
        for size, keys in (("size 48 160", b"\x02z"), ("size 24 80", b"\x02z")):
            self.person.commands.follower.request_again()
            self.assertEqual(self.person.said(), [])
            self.person.keyboard.fed(keys)
            self.person.said()
            self.person.commands.follower.request_again()
            self.take()
            self.assertEqual(self.heard[-1], size)

    def test_refused(self):
        """An impossible zoom is reported."""
        for session, why in ((Lived(), "pane 1 is the only one, and fills the session"),
                             (self.grid((60, 200)), "cannot zoom: pane 2 has 29 by 100, more than this terminal")):
            self.attach(session, host=PlayedHost(True))
            self.types(b"\x02z")
            self.assertEqual((self.person.display.row.told, self.heard), (why, []))
        person = Person(24, 80)
        person.paints(24, 80)
        person.types(b"\x02z")
        self.assertEqual(person.display.row.told, sizes.UNTOLD)
        watcher = Person(24, 80, is_read_only=True, told=self.grid().places())
        watcher.types(b"\x02z\x02 \x02;\x02\x1b[1;5C")
        self.assertEqual((watcher.sizes(), [line for line in watcher.link.lines if "size" in line]), ([], []))


class Resized(Zoomed):
    """The terminal gets another size."""

    def test_alone(self):
        """The session follows a lone terminal that showed all of it: the pane fills the new size, and later the session has that size."""
        for size in ((40, 132), (20, 60)):
            self.attach(self.grid(), folder=self.made_folder())
            self.types(b"\x02z")
            self.person.resize(*size)
            self.take(6)
            self.assertTrue(self.is_zoomed(2), size)
            other = self.grid()
            other.do("size {} {}".format(*size))
            self.types(b"\x02z")
            self.assertEqual(self.session.places(), other.places(), size)

    def test_others(self):
        """If others type the session gets its old size back; a terminal smaller than the pane then has no zoom."""
        self.attach(self.grid(), host=PlayedHost(True))
        self.types(b"\x02z")
        self.person.resize(40, 132)
        self.take(6)
        self.assertTrue(self.is_zoomed(2))
        self.person.resize(18, 60)
        self.take(6)
        self.assertTrue(self.is_zoomed(2))
        self.person.resize(10, 30)
        self.take(6)
        self.assertEqual((self.session.places().size(), self.person.commands.zooming.is_on()), ((24, 80), False))
        self.assertIn("more than this terminal", self.person.display.row.told)

    def test_grown(self):
        """A session that wasn't shown whole grows to a terminal that has grown meanwhile, if nobody else types."""
        self.attach(self.grid((30, 100)), (24, 80), folder=self.made_folder())
        self.types(b"\x02z")
        self.assertTrue(self.is_zoomed(2))
        self.person.resize(50, 160)
        self.take(6)
        self.assertTrue(self.is_zoomed(2))
        self.types(b"\x02z")
        self.assertEqual(self.session.places().size(), (50, 160))

    def test_behind_a_size(self):
        """After a key that resizes the session a pane is zoomed from that size, whichever report comes first."""
        self.attach(self.grid((24, 80)), (30, 100), PlayedHost(True))
        self.person.keyboard.fed(b"\x02r\x02z")
        for act in [line for line in self.person.said() if line.startswith("size")]:
            self.session.do(act)
            self.person.tell(self.session.places())
            self.assertTrue(self.person.commands.zooming.is_on(), act)
        self.assertEqual((self.person.display.part.zoomed, self.session.rects()[2][2:]), (self.session.rects()[2], (29, 100)))
        self.types(b"\x02z")
        self.assertEqual(self.session.places().size(), (30, 100))

    def test_too_small(self):
        """A terminal too small to show anything changes nothing."""
        self.attach(self.grid())
        self.types(b"\x02z")
        self.person.resize(2, 30)
        self.take()
        self.person.resize(24, 80)
        self.take()
        self.assertTrue(self.is_zoomed(2))


class Noted(Zoomed):
    """The host's records, and the next front end's actions."""

    def test_told(self):
        """It records the size to restore before a larger one is requested, and drops it once that size is back."""
        self.attach(self.grid())
        self.person.keyboard.fed(b"\x02z")
        self.assertEqual((self.person.host.zooms, self.heard), (["24 80 48 160"], []))
        self.take()
        self.person.keyboard.fed(b"\x02z")
        self.assertEqual(self.person.host.zooms, ["24 80 48 160"])
        self.take()
        self.assertEqual(self.person.host.zooms, ["24 80 48 160", "None"])

    def test_killed(self):
        """The next read-write one restores the size, if the session still has one of the zoom; a larger terminal grows it from there."""
        note = ZoomNote((24, 80), ((48, 161), (48, 160)))
        for own, has, types, after in (((24, 80), (48, 160), False, (24, 80)), ((24, 80), (48, 161), True, (24, 80)),
                                       ((24, 80), (48, 162), True, (48, 162)), ((60, 200), (48, 160), False, (60, 200)),
                                       ((60, 200), (48, 160), True, (24, 80)), ((48, 160), (48, 160), True, (24, 80)),
                                       ((48, 160), (48, 160), False, (48, 160)), ((20, 60), (48, 160), False, (24, 80))):
            host = PlayedHost(types)
            host.zoomed = 0, note
            session = self.grid()
            session.do("size {} {}".format(*has))
            self.attach(session, own, host)
            self.take(6)
            self.now += zoom.LEFT
            self.person.loop.do_due()
            self.take()
            self.assertEqual((session.places().size(), host.zooms[-1:]), (after, ["None"]), (own, has))

    def test_there(self):
        """So does one that is attached: at once if nobody else types, and else a moment later. Not while the zoom's owner is there, nor a
        read-only one, nor after another change of the size.
        """
        note = ZoomNote((24, 80), ((48, 160),))
        for maker, is_read_only, types, changed, soon, after in (
                (0, False, False, None, (24, 80), (24, 80)), (0, False, True, None, (48, 160), (24, 80)),
                (0, False, None, None, (24, 80), (24, 80)), (7, False, False, None, (48, 160), (48, 160)),
                (0, True, True, None, (48, 160), (48, 160)), (0, False, True, "size 40 100", (40, 100), (40, 100))):
            session = self.grid()
            session.do("size 48 160")
            self.attach(session, host=PlayedHost(types), is_read_only=is_read_only)
            self.by_another(*filter(None, [changed]))
            self.person.host.zoomed = maker, note
            self.person.commands.follower.others_told()
            self.take()
            self.assertEqual(session.places().size(), soon, (maker, is_read_only, types, changed))
            self.now += zoom.LEFT
            self.person.loop.do_due()
            self.take()
            self.assertEqual(session.places().size(), after, (maker, is_read_only, types, changed))

    def test_anothers_stays(self):
        """A user who arrives while an abandoned zoom is recorded, and sees the size of somebody else's, keeps that size. The host may
        report its owner after the panes.
        """
        note = ZoomNote((24, 80), ((48, 160),))
        for is_told in (True, False):
            session = self.grid()
            session.do("size 48 160")
            self.attach(session, host=PlayedHost(True))
            self.person.host.zoomed = 0, note
            self.person.commands.follower.others_told()
            self.now += zoom.LEFT / 2
            self.person.loop.do_due()
            self.by_another("grow 1")
            self.assertEqual((session.places().size(), self.person.host.zooms), ((48, 160), []))
            self.person.host.zoomed = 9 if is_told else 0, note
            self.person.commands.follower.others_told()
            self.now += zoom.LEFT
            self.person.loop.do_due()
            self.take()
            self.assertEqual((session.places().size(), self.person.host.zooms), ((48, 160), []) if is_told else ((24, 80), ["None"]))

    def test_late(self):
        """The last input of a killed front end may take effect a moment after that report; a size that this user set meanwhile stays."""
        note = ZoomNote((24, 80), ((48, 160),))
        for key, after in ((b"", (24, 80)), (b"\x02r", (48, 160))):
            self.attach(self.grid(), host=PlayedHost(True))
            self.person.host.zoomed = 0, note
            self.person.commands.follower.others_told()
            self.types(key)
            self.by_another("size 48 160")
            self.now += zoom.LEFT
            self.person.loop.do_due()
            self.take()
            self.assertEqual((self.session.places().size(), self.person.host.zooms[-1:]), (after, ["None"]), key)

    def test_anothers(self):
        """Somebody else's zoom to a size of an abandoned one that is still recorded isn't taken for that. The host reports it on another
        connection than the panes, maybe later.
        """
        note = ZoomNote((24, 80), ((48, 160),))
        for told, after in ((False, (24, 80)), (True, (48, 160))):
            self.attach(self.grid(), host=PlayedHost(True))
            self.person.host.zoomed = 0, note
            self.person.commands.follower.others_told()
            self.by_another("size 48 160")
            self.assertEqual(self.session.places().size(), (48, 160))
            self.now += zoom.LEFT / 2
            self.person.loop.do_due()
            self.by_another("grow 1")
            self.person.host.zoomed = 9 if told else 0, note
            self.person.commands.follower.others_told()
            self.now += zoom.LEFT / 2
            self.person.loop.do_due()
            self.take()
            self.assertEqual((self.session.places().size(), self.person.host.zooms), (after, [] if told else ["None"]))
        # Once that one is abandoned too it has the size, at once if nobody else is left.
        self.person.host.zoomed, self.person.host.types = (0, note), False
        self.person.commands.follower.others_told()
        self.take()
        self.assertEqual(self.session.places().size(), (24, 80))

    def test_host_awaited(self):
        """While the host may be about to report another user's zoom none begins: it would restore that one's size."""
        for tells in (True, False):
            session = self.grid()
            session.do("size 48 160")
            self.attach(session, (24, 80), PlayedHost(True, awaited=True))
            self.types(b"\x02z")
            self.assertEqual((self.person.commands.zooming.is_on(), self.person.host.zooms), (False, []))
            self.person.host.zoomed = (9, ZoomNote((24, 80), ((48, 160),))) if tells else (0, None)
            if tells:
                self.person.host.awaited = False
                self.person.commands.follower.others_told()
            else:
                self.now += zoom.FOCUS_WAIT
                self.person.loop.do_due()
            self.take()
            self.assertEqual(self.person.commands.zooming.note.size, (24, 80) if tells else (48, 160))

    def test_lines(self):
        """Lines that report a zoom, and others."""
        note = ZoomNote((24, 80), ((48, 160),))
        for line, found in (("24 80 48 160", note), ("24 80", None), ("24 80 48", None), ("24 80 48 0", None), ("24 80 48 501", None),
                            ("24 80 201 160", None), ("", None), ("24 80 48 +1", None), ("24  48 160", None),
                            ("1 1 1 1", ZoomNote((1, 1), ((1, 1),))),
                            (" ".join(["24 80"] * (MOST_ASKED + 2)), None), ("\u0662 80 48 160", None), ("\x1b[c 80 48 160", None)):
            self.assertEqual(note_in(line.split(" ")), found, line)
            told = zoomed_in(["0", *line.split(" ")])
            self.assertEqual(told, (0, found) if found else None, line)
        for words, found in ((["none"], (0, None)), (["7", "24", "80", "48", "160"], (7, note)), (["-1", "24", "80", "48", "160"], None),
                             ([""], None), (["none", "1"], None)):
            self.assertEqual(zoomed_in(words), found)

    def test_host(self):
        """The last reported one is recorded until its owner, or anybody once the owner has left, reports its end."""
        noted = NotedZoom()
        self.assertEqual((noted.take(1, "zoom"), noted.take(1, "here x"), noted.take(1, "zoom 1"), noted.line()), (False,) * 3 + (NO_ZOOM,))
        self.assertTrue(noted.take(1, "zoom 24 80 48 160"))
        self.assertEqual((noted.line(), noted.leave(2), noted.take(2, "zoom none")), ("zoomed 1 24 80 48 160", False, True))
        self.assertEqual((noted.line(), noted.take(2, "zoom 24 80 50 170")), ("zoomed 1 24 80 48 160", True))
        self.assertTrue(noted.take(1, "zoom none"))
        self.assertEqual((noted.line(), noted.leave(1), noted.leave(2)), ("zoomed 2 24 80 50 170", False, True))
        self.assertEqual((noted.line(), noted.take(3, "zoom none"), noted.line()), ("zoomed 0 24 80 50 170", True, NO_ZOOM))

    def test_host_sees(self):
        """Once all input of a departed owner is taken, the record is dropped if the session has another size, known now or later, than
        requested. Another user's record is dropped too.
        """
        for size, later, line in ((None, None, "zoomed 0 24 80 50 170"), ((50, 170), None, "zoomed 0 24 80 50 170"),
                                  ((24, 80), None, NO_ZOOM), ((50, 170), (24, 80), NO_ZOOM), (None, (30, 90), NO_ZOOM)):
            noted = NotedZoom()
            noted.take(1, "zoom 24 80 50 170")
            self.assertEqual((noted.sized((24, 80)), noted.sized(size), noted.leave(1), noted.sized(size)), (False, False, True, False))
            is_over = noted.end_left()
            self.assertEqual((is_over, noted.sized(later or size)), (size == (24, 80), later is not None), (size, later))
            self.assertEqual(noted.line(), line, (size, later))
            noted.take(2, "zoom 24 80 50 170")
            self.assertEqual((noted.sized((24, 80)), noted.end_left(), noted.line()), (False, False, "zoomed 2 24 80 50 170"))


if __name__ == "__main__":
    unittest.main()
