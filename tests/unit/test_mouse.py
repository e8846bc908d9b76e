"""The mouse: reports as acts for the programs in panes, on a terminal that shows a part of the session."""
from aids import Case
from roam_live.input.mouse_reports import report_of
from roam_live.protocol.display_records import DisplayRecord
from roam_live.protocol.panes import Places, Rect
from test_display import Person

# A pane to the left over all rows, and two at its right, one above the other; 1 is focused.
PANES = Places({1: Rect(1, 1, 23, 39), 2: Rect(1, 41, 11, 40), 3: Rect(13, 41, 11, 40)}, 1, 1)


def report(button, row, col, is_release=False):
    """Return a report of the outer terminal."""
    return f"\x1b[<{button};{col};{row}{'m' if is_release else 'M'}".encode()


def typed(lines):
    """Return for each line its acts without characters, and the text of its characters."""
    found = []
    for line in lines:
        acts = line.split(" ; ")
        text = "".join(chr(int(act.split()[1], 16)) for act in acts if act.startswith("char "))
        found.append((*[act for act in acts if not act.startswith("char ")], *[text] * bool(text)))
    return found


class Pointed(Case):
    """A user at a terminal of 24 by 80, with known panes."""

    def setUp(self):
        self.stop_clock()

    def person(self, modes, told=PANES, size=(24, 80), **more):
        """Return a user who sees the session, whose panes have modes."""
        person = Person(*size, told=told, **more)
        person.panes.modes_of = modes
        person.commands.panes_changed()
        person.answers()
        return person

    def points(self, person, *reports):
        """Return the input typed for reports, each 20 ms after the one before."""
        for one in reports:
            person.keyboard.fed(report(*one) if isinstance(one, tuple) else one)
            self.now += 0.02
            person.loop.do_due()
        return typed(person.said())


class Programs(Pointed):
    """Reports for the focused pane's program."""

    def test_asked(self):
        """The terminal reports the mouse while the focused program wants that, and all motion if the program wants it."""
        person = self.person({2: "buttons sgr", 3: "motion"})
        for focus, modes, asked in ((1, {}, ""), (2, {}, "drags"), (3, {}, "motion"), (1, {}, ""), (2, {2: "sgr paste"}, ""),
                                    (2, {2: "drags"}, "drags")):
            person.panes.modes_of.update(modes)
            person.tell(PANES._replace(focus=focus))
            self.assertEqual(person.display.outer.reports, asked)
        watcher = self.person({1: "motion"}, is_read_only=True)
        self.assertEqual(watcher.display.outer.reports, "")
        self.assertEqual(self.points(watcher, (0, 1, 1), (0, 1, 1, True)), [])

    def test_corner(self):
        """A report counts from the pane's corner, and names the pane in one line of acts, in the form of its program."""
        for modes, press, release in (("buttons sgr", "\x1b[<0;1;1M", "\x1b[<0;40;11m"), ("buttons", "\x1b[M !!", "\x1b[M#H+")):
            person = self.person({2: modes}, PANES._replace(focus=2))
            self.assertEqual(self.points(person, (0, 1, 41), (0, 11, 80, True)), [("focus 2", press), ("focus 2", release)])

    def test_own(self):
        """Events in another pane, on a border, in the last row or outside go to nobody, and so does a release without a press."""
        person = self.person({1: "motion sgr", 2: "motion sgr"}, PANES._replace(focus=2))
        for place in ((1, 39), (1, 40), (12, 41), (13, 41), (24, 41), (25, 41), (1, 81), (0, 41), (1, 0), (99999, 99999)):
            self.assertEqual(self.points(person, (0, *place), (0, *place, True), (35, *place), (64, *place)), [], place)
        self.assertEqual(self.points(person, (0, 1, 41, True), (32, 1, 42), b"\x1b[<0;41M"), [])

    def test_kinds(self):
        """A program gets the kinds of its mode."""
        for modes, kinds in (("buttons", 3), ("drags", 4), ("motion", 5)):
            person = self.person({1: f"{modes} sgr"})
            found = self.points(person, (35, 2, 2), (0, 2, 3), (32, 2, 4), (0, 2, 4, True), (65, 3, 3))
            self.assertEqual(len(found), kinds, modes)
            self.assertEqual(found[-2:], [("focus 1", "\x1b[<0;4;2m"), ("focus 1", "\x1b[<65;3;3M")])

    def test_old(self):
        """Beyond column 95 the old form has no report, even after a press that had one."""
        wide = Places({1: Rect(1, 1, 23, 200)}, 1, 1)
        person = self.person({1: "drags"}, wide, (24, 200))
        found = self.points(person, (0, 1, 96), (0, 1, 96, True), (0, 2, 95), (32, 2, 96), (0, 2, 96, True))
        self.assertEqual(found, [("focus 1", "\x1b[M \x7f\"")])
        person.panes.modes_of = {1: "drags sgr"}
        self.assertEqual(self.points(person, (0, 1, 200)), [("focus 1", "\x1b[<0;200;1M")])

    def test_dragged_out(self):
        """A drag out of a pane stays its program's, at the nearest position; a program that got a press gets the release."""
        person = self.person({2: "drags sgr"}, PANES._replace(focus=2))
        found = self.points(person, (0, 5, 50), (32, 5, 10), (32, 20, 10), (32, 20, 5), (0, 1, 1, True), (0, 1, 1, True))
        self.assertEqual([text for _, text in found], ["\x1b[<0;10;5M", "\x1b[<32;1;5M", "\x1b[<32;1;11M", "\x1b[<0;1;1m"])
        found = self.points(person, (0, 5, 50), (32, 24, 90), (0, 25, 200, True))
        self.assertEqual([text for _, text in found], ["\x1b[<0;10;5M", "\x1b[<32;40;11M", "\x1b[<0;40;11m"])

    def test_forgets(self):
        """A program that gave up the mouse gets no more events of a pressed button, and neither does another pane's."""
        person = self.person({1: "drags sgr", 2: "drags sgr"})
        self.assertEqual(len(self.points(person, (0, 1, 1))), 1)
        person.panes.modes_of[1] = "sgr"
        self.assertEqual(self.points(person, (32, 1, 2), (0, 1, 2, True)), [])
        person.panes.modes_of[1] = "drags sgr"
        self.assertEqual(len(self.points(person, (0, 1, 1))), 1)
        person.tell(PANES._replace(focus=2))
        self.assertEqual(self.points(person, (32, 1, 2), (32, 1, 50), (0, 1, 50, True)), [])
        person.tell(PANES._replace(rects={2: Rect(1, 1, 23, 80)}, focus=2))
        person.answers()
        self.assertEqual(self.points(person, (0, 1, 2, True)), [])

    def test_thinned(self):
        """Motion is reported every 20 ms, the newest, and before later input; the same position isn't repeated. Nothing else waits."""
        person = self.person({1: "motion sgr"})
        person.keyboard.fed(b"".join(report(35, 1, col) for col in range(1, 10)))
        self.assertEqual(typed(person.said()), [("focus 1", "\x1b[<35;1;1M")])
        self.now += 0.0199
        person.loop.do_due()
        self.assertEqual(person.said(), [])
        self.now += 0.0002
        person.loop.do_due()
        self.assertEqual(typed(person.said()), [("focus 1", "\x1b[<35;9;1M")])
        person.keyboard.fed(report(35, 1, 12) + report(0, 1, 12) + report(64, 1, 12) * 3 + report(0, 1, 12, True))
        self.assertEqual([text for _, text in typed(person.said())],
                         ["\x1b[<35;12;1M", "\x1b[<0;12;1M", *["\x1b[<64;12;1M"] * 3, "\x1b[<0;12;1m"])
        self.now += 1
        person.keyboard.fed(report(35, 1, 12) * 2)
        self.assertEqual(len(person.said()), 1)
        self.now += 1
        person.loop.do_due()
        self.assertEqual((person.said(), [name for name in person.loop.due if name == "motion"]), ([], []))

    def test_slow(self):
        """While input is in flight motion waits, and then the newest is sent; a move of the focus takes it along."""
        person = self.person({1: "motion sgr"})
        person.link.has_taken = False
        self.assertEqual(self.points(person, (35, 1, 1), (35, 1, 2), (35, 1, 3)), [])
        self.assertEqual(len(self.points(person, (0, 2, 2))), 2)
        self.assertEqual(self.points(person, (32, 3, 3)), [])
        person.link.has_taken = True
        self.now += 0.02
        person.loop.do_due()
        self.assertEqual(typed(person.said()), [("focus 1", "\x1b[<32;3;3M")])
        person.link.has_taken = False
        self.points(person, (32, 4, 4))
        person.link.has_taken = True
        person.tell(PANES._replace(focus=2))
        self.assertEqual(self.points(person, b""), [])

    def test_part(self):
        """On a terminal that shows a part of the session positions refer to that part, and the last row belongs to nobody."""
        person = self.person({2: "buttons sgr"}, PANES._replace(focus=2), (12, 40))
        person.display.take(DisplayRecord("part", (0, 30)))
        person.answers()
        self.assertEqual(self.points(person, (0, 1, 1), (0, 1, 11), (0, 11, 40), (0, 12, 40)),
                         [("focus 2", "\x1b[<0;1;1M"), ("focus 2", "\x1b[<0;30;11M")])
        person.display.take(DisplayRecord("part", (12, 40)))
        self.assertEqual(self.points(person, (0, 1, 1)), [])
        person.tell(PANES._replace(focus=3))
        person.panes.modes_of[3] = "buttons sgr"
        self.assertEqual(self.points(person, (0, 1, 1), (0, 11, 40), (0, 12, 1)),
                         [("focus 3", "\x1b[<0;1;1M"), ("focus 3", "\x1b[<0;40;11M")])

    def test_whole(self):
        """If the session is shown whole, its own status row belongs to nobody either."""
        person = self.person({1: "buttons sgr"}, Places({1: Rect(1, 1, 9, 30)}, 1, 1), is_whole=True)
        person.paints(10, 30)
        self.assertEqual(self.points(person, (0, 9, 30), (0, 10, 1), (0, 11, 1), (0, 1, 31)), [("focus 1", "\x1b[<0;30;9M")])

    def test_nothing_shown(self):
        """Under the help, in the scroll mode, at a question and before the first painting there are no reports; the help and the question
        stay.
        """
        person = self.person({1: "drags sgr"})
        person.types(b"\x02?")
        self.assertEqual(self.points(person, (0, 1, 1), (0, 1, 1, True)), [])
        self.assertEqual(person.display.notice, person.keyboard.help)
        person.types(b"x")
        person.answers()
        for keys in (b"\x02[", b"q\x02x"):
            person.types(keys)
            person.said()
            self.assertEqual(self.points(person, (0, 1, 1)), [])
        self.assertIn("y closes it", person.display.row.prompt)
        person.types(b"n")
        self.assertEqual(len(self.points(person, (0, 1, 1))), 1)
        person.display.part.is_stale = True
        self.assertEqual(self.points(person, (0, 1, 1)), [])
        person.display.part.is_stale = False
        person.commands.acts.paused = True
        self.assertEqual(self.points(person, (0, 1, 1)), [])

    def test_prefix(self):
        """A report between the prefix and its key is no key."""
        person = self.person({1: "drags sgr"})
        person.types(b"\x02")
        self.assertEqual(len(self.points(person, (0, 1, 1))), 1)
        self.assertEqual(person.types(b"o"), ["next"])

    def test_pasted(self):
        """A report inside a paste is pasted, without its escape if that isn't pasted."""
        person = self.person({1: "drags sgr"})
        acts = person.types(b"\x1b[200~\x1b[<0;1;1M\x1b[201~")
        self.assertTrue("".join(chr(int(act.split()[1], 16)) for act in acts).endswith("[<0;1;1M"))
        self.assertEqual(person.said(), [])

    def test_own_focus(self):
        """If this user moved the focus, and that isn't reported yet, the previous pane gets no reports."""
        person = self.person({1: "drags sgr", 2: "drags sgr"})
        person.types(b"\x02q2")
        self.assertEqual(self.points(person, (0, 1, 1)), [])
        self.assertEqual(self.points(person, (0, 1, 41)), [("focus 2", "\x1b[<0;1;1M")])
        self.assertEqual(report_of(report(0, 1, 41).decode()).col, 41)

    def test_own_focus_kept(self):
        """The size of a pane may come from earlier input, so it does not confirm the focus that this user moved."""
        person = self.person({})
        person.types(b"\x02q2")
        person.tell(PANES._replace(rects={**PANES.rects, 1: PANES.rects[1]._replace(rows=5)}))
        self.assertEqual(person.commands.acts.places().focus, 2)
        person.tell(PANES._replace(focus=2))
        self.assertIsNone(person.commands.acts.moved_to)


class Own(Pointed):
    """Mouse events if roam itself uses the mouse."""

    def having(self, modes=None, told=PANES, **more):
        """Return a user with roam's mouse on."""
        person = self.person(modes or {}, told, **more)
        person.types(b"\x02m")
        person.said()
        return person

    def test_switched(self):
        """C-b m makes the terminal report the mouse, whatever programs want, and again only for theirs; a message says so."""
        person = self.person({2: "motion"})
        self.assertEqual(self.points(person, (0, 1, 50), (64, 1, 1), (0, 1, 40)), [])
        for asked, line in (("drags", "roam has the mouse: click, wheel, drag; C-b m gives it back"),
                            ("", "the mouse selects text, except in programs that use it")):
            person.types(b"\x02m")
            self.assertEqual((person.display.outer.reports, person.display.row.told), (asked, line))
        person.types(b"\x02m")
        person.tell(PANES._replace(focus=2))
        self.assertEqual(person.display.outer.reports, "motion")
        watcher = self.person({}, is_read_only=True)
        watcher.types(b"\x02m")
        self.assertEqual((watcher.display.outer.reports, watcher.display.row.told), ("", ""))
        unknown = Person(24, 80)
        unknown.types(b"\x02m")
        self.assertEqual(unknown.display.outer.reports, "")

    def test_click(self):
        """A click focuses the pane there, whose program gets it if it wants it; later events go to that pane."""
        person = self.having({3: "drags sgr"})
        reports = (0, 3, 3), (0, 3, 3, True), (0, 2, 45), (0, 2, 45, True), (2, 2, 45), (2, 2, 45, True)
        self.assertEqual(self.points(person, *reports), [("focus 2",)])
        self.assertEqual(person.commands.acts.places().focus, 2)
        self.assertEqual(self.points(person, (0, 13, 41), (32, 14, 41), (0, 14, 41, True)),
                         [("focus 3", "\x1b[<0;1;1M"), ("focus 3", "\x1b[<32;1;2M"), ("focus 3", "\x1b[<0;1;2m")])
        self.assertEqual(self.points(person, (0, 1, 1), (32, 13, 41), (0, 13, 41, True)), [("focus 1",)])

    def test_hover(self):
        """Motion without a button focuses nothing."""
        person = self.having({1: "motion sgr", 2: "motion sgr"})
        found = self.points(person, (35, 1, 50), (35, 1, 1), (0, 1, 1), (32, 2, 60), (0, 2, 60, True))
        self.assertEqual(found, [("focus 1", text) for text in ("\x1b[<35;1;1M", "\x1b[<0;1;1M", "\x1b[<32;39;2M", "\x1b[<0;39;2m")])

    def test_wheel(self):
        """The wheel goes to the program under it, which it focuses; on the alternate screen it is arrows, three a notch."""
        person = self.having({2: "buttons sgr other", 3: "other"})
        self.assertEqual(self.points(person, (64, 1, 41), (66, 1, 41)), [("focus 2", "\x1b[<64;1;1M"), ("focus 2", "\x1b[<66;1;1M")])
        self.assertEqual(self.points(person, (64, 13, 41), (65, 13, 41), (66, 13, 41), (128, 13, 41)),
                         [("focus 3", *["key up"] * 3), ("focus 3", *["key down"] * 3)])
        self.assertEqual(person.modes.is_typing(), True)

    def test_scrolls(self):
        """Over a shell's pane the wheel shows the scrollback, three rows a notch, until it is back at the newest."""
        person = self.having()
        self.assertEqual(self.points(person, (65, 1, 41)), [])
        self.assertEqual(self.points(person, (64, 1, 41), (64, 1, 41), (65, 1, 41)),
                         [("focus 2", "view 3"), ("focus 2", "view 3"), ("focus 2", "view -3")])
        self.assertTrue(person.display.row.told.startswith("3 rows back: "))
        self.assertEqual(person.types(b"k"), ["view 1"])
        self.assertEqual(self.points(person, (65, 1, 41), (65, 1, 41)), [("focus 2", "view -3"), ("focus 2", "view -500")])
        self.assertEqual((person.display.row.told, person.types(b"k")), ("", ["char 6b"]))
        for _ in range(200):
            self.points(person, (64, 1, 41))
        self.assertTrue(person.display.row.told.startswith("500 rows back: "))
        self.assertEqual(person.types(b"q"), ["view -500"])

    def test_scrolls_by_keys(self):
        """In the scroll mode of keys the wheel scrolls too, even if a program uses the mouse; a click there does nothing, and one in
        another pane ends it.
        """
        person = self.person({1: "motion sgr"})
        person.types(b"\x02[")
        found = self.points(person, (64, 1, 1), (0, 1, 1), (0, 1, 1, True), (35, 1, 1), (0, 1, 50), (64, 1, 50))
        self.assertEqual(found, [("focus 1", "view 3")])
        person.types(b"q\x02m\x02[kk")
        person.said()
        before = len(person.link.acts)
        self.assertEqual(self.points(person, (0, 1, 50)), [("focus 2",)])
        self.assertEqual((person.link.acts[before:], person.modes.is_typing(), person.display.row.told), (["view -500"], True, ""))

    def test_border(self):
        """A border is dragged only with the first button; from inside a pane nothing happens."""
        person = self.having()
        for button in (1, 2, 4, 64, 65):
            self.assertEqual(self.points(person, (button, 5, 40), (32 + button, 5, 45), (button, 5, 45, True)), [], button)
        self.assertEqual(self.points(person, (0, 5, 40), (32, 5, 45)), [("focus 1", "grow 5")])
        off = self.person({})
        self.assertEqual(self.points(off, (0, 5, 40), (32, 5, 45)), [])
