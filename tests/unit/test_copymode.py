"""Copy mode at a user's terminal, with a simulated host: opening, drawing, input and closing, the copies, and the pasted buffer."""
import base64
from unittest import mock

from aids import Case
from scrollback_played import PlayedScrollback
from roam_live.frontend import lists
from roam_live.frontend.copymode import selection
from roam_live.frontend.copymode.controller import MOST_COPIED, MOST_WAITING, NO_ROOM
from roam_live.frontend.copymode.state import GONE, LENDS, MOST_ASKED, WAITING, WAITS
from roam_live.frontend.line_editor import AskedLine
from roam_live.protocol.display_records import DisplayRecord
from roam_live.protocol.panes import Places, Rect
from roam_live.protocol.paste_text import placeholder_acts
from roam_live.protocol.scrollback_client import Snapshot
from test_display import Person, PlayedHost
from test_mouse import PANES, report

TEXT = "\n".join(f"row {number} of many, the {number}th" for number in range(1, 101))
ONE = Places({1: Rect(1, 1, 23, 80)}, 1, 1)


class CopyHost(PlayedHost):
    """A host that returns rows, and accepts texts and buffers to paste."""

    def __init__(self, scrollback):
        super().__init__()
        self.scrollback, self.stored, self.answers, self.cancelled = scrollback, [], None, []
        self.connects = False

    def takes_texts(self):
        """Return True if it accepts texts."""
        return True

    def is_connecting(self):
        """Return True if it may be connected soon."""
        return self.connects

    def has_room(self, length):
        """Return True if so many more bytes may wait."""
        return True

    def store(self, name, data):
        """Record a stored text: bytes, or the number of a buffer."""
        self.stored.append((name, data))

    def cancel(self, name):
        """Record a cancelled text."""
        self.cancelled.append(name)


class Copied(Case):
    """A user at a terminal of 24 by 80."""

    def setUp(self):
        self.stop_clock()
        self.environment(VISUAL="vi", EDITOR=None, ROAM_CLIPBOARD=None)

    def person(self, text=TEXT, told=ONE, size=(24, 80), opens=True, **more):
        """Return a user with copy mode open in the focused pane."""
        rect = told.rects[told.focus]
        self.scrollback = PlayedScrollback(text, (rect.rows, rect.cols), first=1000)
        self.host = CopyHost(self.scrollback)
        person = Person(*size, told=told, host=self.host, **more)
        person.commands.panes_changed()
        self.settle(person)
        if opens:
            person.types(b"\x02[")
            self.settle(person)
        return person

    def settle(self, person, text="x"):
        """Let the session paint the requested parts, and return the lines sent."""
        said = person.said()
        if said:
            person.paints(*(person.display.part.asked or person.session()), text)
        return said

    def stands(self, person, seconds):
        """Check that the message stays for so many seconds, and no longer."""
        line = person.display.row.told
        self.passes(person, seconds - 0.1)
        self.assertEqual(person.display.row.told, line)
        self.passes(person, 0.2)
        self.assertEqual(person.display.row.told, "")

    def passes(self, person, seconds):
        """Let so many seconds pass."""
        self.now += seconds
        person.loop.do_due()

    def mode(self, person):
        """Return the open copy mode."""
        return person.commands.copying.state.mode

    def position(self, person):
        """Return the position of its cursor."""
        return self.mode(person).view.position


class Opened(Copied):
    """Opening and closing."""

    def test_opened(self):
        """C-b [ requests a snapshot and masks the pane; after the repaint its rows are there in place of the session's."""
        person = self.person(opens=False)
        person.display.outer.waiting.clear()
        self.assertEqual(person.types(b"\x02["), [])
        self.assertEqual(self.scrollback.asked, [("snapshot", 1, 1)])
        self.assertEqual(person.said(), ["part 0 0 23 80", "mask 0 0 23 80"])
        self.assertNotIn(b"row 100", person.display.outer.waiting)
        person.paints(23, 80, "session")
        shown = person.shown()
        self.assertEqual(shown[22], "row 100 of many, the 100th")
        self.assertEqual(shown[23], "[0/77] copy mode")

    def test_cursor(self):
        """After a painting the cursor is at copy mode's position, and before the next at the last painting's."""
        person = self.person()
        person.types(b"gllll")
        outer = person.display.outer
        self.assertTrue(bytes(outer.waiting).endswith(b"\x1b[1;5H\x1b[?25h"))
        before = len(outer.waiting)
        person.display.take(DisplayRecord("paint", (3,), b"abc"))
        self.assertEqual(bytes(outer.waiting[before:]), b"\x1b8abc\x1b7\x1b[1;5H\x1b[?25h")
        before = len(outer.waiting)
        person.display.row.tell("a bell")
        self.assertTrue(bytes(outer.waiting[before:]).startswith(b"\x1b[?7l\x1b[24;1H\x1b[0;7ma bell"))
        self.assertTrue(bytes(outer.waiting[before:]).endswith(b"\x1b[1;5H\x1b[?25h"))

    def test_stale(self):
        """A painting from before the mask doesn't reach the terminal, and a popup isn't drawn before it is ready."""
        person = self.person(opens=False)
        person.types(b"\x02[")
        person.said()
        before = len(person.display.outer.waiting)
        person.display.take(DisplayRecord("paint", (3,), b"abc"))
        person.types(b"k")
        self.assertNotIn(b"abc", person.display.outer.waiting[before:])
        self.assertNotIn(b"row 99", person.display.outer.waiting[before:])
        person.paints(23, 80)
        self.assertIn("row 99 of many, the 99th", person.shown())

    def test_closed(self):
        """q releases the snapshot and requests a full repaint, of the part with the cursor; input then goes to the pane."""
        person = self.person()
        self.assertEqual(person.types(b"q"), [])
        self.assertEqual((person.said(), self.scrollback.released), (["unmask", "part 23 80"], [(1, 1)]))
        person.paints(23, 80, "session")
        self.assertEqual(person.shown()[22:], ["session", "[1]"])
        self.assertEqual(person.types(b"q"), ["char 71"])

    def test_ahead(self):
        """Input before the snapshot arrives is handled after it, in order."""
        person = self.person(opens=False)
        self.scrollback.is_quick = False
        self.assertEqual(person.types(b"\x02[g3j"), [])
        self.scrollback.answers()
        self.scrollback.is_quick = True
        self.scrollback.answers()
        self.assertEqual(self.position(person), (1003, 0))

    def test_page_and_search(self):
        """C-b PgUp opens it a page up, and C-b / in its search; in an open one these keys do the same."""
        person = self.person(opens=False)
        person.types(b"\x02\x1b[5~")
        self.settle(person)
        self.assertEqual(person.display.row.line(), "[21/77] copy mode")
        person.types(b"\x02/")
        self.assertEqual(person.display.row.line(), "(search up) ")
        person.types(b"The 5th")
        self.assertEqual(person.shown()[23], "(search up) The 5th")
        self.assertTrue(bytes(person.display.outer.waiting).endswith(b"\x1b[24;20H\x1b[?25h"))
        person.types(b"\r")
        self.assertIn("'The 5th' not found", person.display.row.line())
        person.types(b"\x02/the 5th\r")
        self.assertEqual(self.position(person), (1004, 15))
        person.types(b"\x02[k")
        self.assertEqual(self.position(person), (1003, 15))
        for keys, position in (("vi", (1008, 15)), ("emacs", (1008, 15))):
            self.environment(VISUAL=keys)
            other = self.person(opens=False)
            other.types(b"\x02/the 9th")
            self.assertEqual(self.position(other) == position, keys == "emacs")
            other.types(b"\r")
            self.assertEqual(self.position(other), position)

    def test_searched(self):
        """The last search continues after it is opened again."""
        person = self.person()
        person.types(b"?the 7th\rq")
        self.settle(person)
        person.types(b"\x02[n")
        self.assertEqual(self.position(person), (1006, 15))

    def test_not_lent(self):
        """Without rows, or after two seconds, the shared view scrolls, also by the input so far."""
        for change in ("none", "no host", "late", "no making"):
            person = self.person(opens=False)
            self.scrollback.lends = change != "none"
            self.scrollback.is_quick = change != "late"
            if change == "no host":
                person.commands.acts.host = PlayedHost()
            if change == "no making":
                person.panes.making = lambda pane: ""
            acts = person.types(b"\x02[kk")
            before = len(person.link.acts)
            if change == "late":
                self.assertEqual(acts, [])
                self.passes(person, WAITS)
                self.assertEqual(person.display.row.told, WAITING)
                self.passes(person, LENDS - WAITS)
                acts = person.link.acts[before:]
            self.assertEqual(acts, ["view 1", "view 1"], change)
            self.assertEqual(person.display.row.told, "2 rows back: PgUp PgDn up down g G scroll, q ends it")
            self.scrollback.answers()
            self.assertFalse(person.commands.copying.state.is_on())
            self.assertEqual(person.types(b"q"), ["view -500"])
            self.assertEqual(person.types(b"\x02\x1b[5~"), ["view 12"] if change != "late" else [])
        person = self.person(opens=False)
        self.scrollback.lends = False
        self.assertEqual(person.types(b"\x02/ab"), ["char 61", "char 62"])
        self.assertEqual(person.display.row.told, "this pane has no stored rows")

    def test_not_lent_late(self):
        """Input for a failed search is not typed anywhere, and neither is input that waited for another snapshot."""
        person = self.person(opens=False)
        self.scrollback.is_quick = self.scrollback.lends = False
        person.types(b"\x02/secret\r")
        self.scrollback.answers()
        self.assertEqual((person.link.acts, person.commands.copying.state.is_on()), ([], False))
        person = self.person()
        self.scrollback.is_quick = self.scrollback.lends = False
        person.types(b"rjjj")
        self.scrollback.answers()
        self.assertEqual((person.link.acts, person.commands.copying.state.is_on(), person.display.row.told), ([], False, GONE))
        self.stands(person, 2.0)

    def test_not_lent_again(self):
        """Input while there were no rows is not repeated once there are some."""
        person = self.person(opens=False)
        self.scrollback.is_quick = self.scrollback.lends = False
        person.types(b"\x02[kkk")
        self.scrollback.answers()
        person.types(b"q")
        self.scrollback.is_quick = self.scrollback.lends = True
        person.types(b"\x02[")
        again = self.person()
        self.assertEqual(self.position(person), self.position(again))

    def test_not_lent_prompt(self):
        """Without rows, input before a prompt isn't typed into it; the prompt stays."""
        person = self.person(opens=False)
        self.scrollback.is_quick = self.scrollback.lends = False
        person.types(b"\x02[kkxq\x02,")
        person.commands.acts.ask_line(AskedLine("name"), "name 1")
        self.assertEqual(person.types(b"ab"), [])
        before = len(person.link.acts)
        self.scrollback.answers()
        self.assertEqual((person.link.acts[before:], person.display.row.prompt), (["view 1", "view 1", "view -500"], "(name) ab"))
        self.assertEqual((person.types(b"c\x1bd"), person.display.row.prompt), (["char 64"], ""))

    def test_connecting(self):
        """A host that may connect soon, such as one launched just before, is awaited; not longer than a snapshot."""
        person = self.person(opens=False)
        self.host.connects = True
        self.assertEqual((person.types(b"\x02[gj"), self.scrollback.asked), ([], []))
        self.passes(person, 0.1)
        self.assertEqual(self.scrollback.asked, [])
        self.host.connects = False
        self.passes(person, 0.1)
        self.assertEqual(self.position(person), (1001, 0))
        person = self.person(opens=False)
        self.host.connects = True
        person.types(b"\x02[k")
        before = len(person.link.acts)
        self.passes(person, LENDS)
        self.assertEqual((person.link.acts[before:], person.commands.copying.state.is_on()), (["view 1"], False))
        self.passes(person, 1)
        self.assertEqual(self.scrollback.asked, [])

    def test_focus_awaited(self):
        """It waits for unreported pane positions, but not longer than for a snapshot."""
        for is_late in (False, True):
            person = self.person(opens=False)
            told, person.panes.place.told, person.panes.awaited = person.panes.place.told, None, True
            self.assertEqual(person.types(b"\x02[gj"), [])
            before = len(person.link.acts)
            self.passes(person, LENDS if is_late else 0.3)
            self.assertEqual(person.commands.copying.state.is_on(), not is_late)
            person.panes.place.told = told
            person.commands.panes_changed()
            self.passes(person, 0.3)
            if is_late:
                self.assertEqual((person.link.acts[before:], person.commands.copying.state.is_on()), (["view 500", "view -1"], False))
            else:
                self.assertEqual((self.position(person), person.link.acts[before:]), ((1001, 0), []))

    def test_connection_cut(self):
        """If the connection is lost before the snapshot the request is repeated on the next one; not longer than for one."""
        for is_late in (False, True):
            person = self.person(opens=False)
            self.scrollback.is_quick = self.scrollback.lends = False
            person.types(b"\x02[gj")
            before = len(person.link.acts)
            self.host.connects = True
            self.scrollback.answers()
            self.passes(person, LENDS if is_late else 0.3)
            self.assertEqual(person.commands.copying.state.is_on(), not is_late)
            self.scrollback.is_quick = self.scrollback.lends = True
            self.host.connects = False
            self.passes(person, 0.3)
            if is_late:
                self.assertEqual((person.link.acts[before:], person.commands.copying.state.is_on()), (["view 500", "view -1"], False))
            else:
                self.assertEqual(self.position(person), (1001, 0))

    def test_odd_snapshot(self):
        """A snapshot without a screen, or with an impossible one, is ignored."""
        for screen in ([], [b" x"] * 201):
            person = self.person(opens=False)
            self.scrollback.snapshot = lambda pane, generation, told, screen=screen: told(Snapshot(pane, generation, 0, 5, screen))
            self.assertEqual(person.types(b"\x02[k"), ["view 1"])
            self.assertFalse(person.commands.copying.state.is_on())

    def test_late_answer(self):
        """A late answer, or one for a closed copy mode, opens nothing."""
        person = self.person(opens=False)
        self.scrollback.is_quick = False
        person.types(b"\x02[")
        person.types(b"\x03")
        self.assertFalse(person.commands.copying.state.is_on())
        self.scrollback.answers()
        self.assertFalse(person.commands.copying.state.is_on())
        self.assertEqual(person.types(b"x"), ["char 78"])

    def test_read_only(self):
        """A read-only user has it too: nothing of it is an act, and a copy is no buffer."""
        person = self.person(is_read_only=True)
        self.assertEqual(person.types(b"g ey"), [])
        self.assertEqual((self.scrollback.texts, person.display.outer.clips), ([], [base64.b64encode(b"row").decode()]))
        self.assertEqual(person.display.row.told, "3 characters copied to the clipboard")

    def test_refreshed(self):
        """r takes a new snapshot."""
        person = self.person()
        self.scrollback.lines.append(b" the newest")
        person.types(b"r")
        self.settle(person)
        self.assertIn("the newest", person.shown())
        self.assertEqual(self.scrollback.asked, [("snapshot", 1, 1), ("snapshot", 1, 1)])

    def test_more(self):
        """The last row shows the number of new rows, but not of another pane."""
        person = self.person()
        self.scrollback.on_more(1, 1, 1)
        self.assertEqual(person.shown()[23], "[0/77] copy mode; 1 new row")
        self.scrollback.on_more(1, 1, 2000)
        self.scrollback.on_more(2, 1, 5)
        self.assertEqual(person.shown()[23], "[0/77] copy mode; 2000 new rows")
        person.types(b"12")
        self.assertEqual(person.shown()[23], "[0/77] copy mode; 2000 new rows; (repeat) 12")


class Fed(Copied):
    """Rows that have to be requested, and keys that wait for them."""

    def test_asks(self):
        """Rows are requested on demand, with a page ahead, and no row twice."""
        person = self.person("\n".join(f"row {number}" for number in range(1, 1001)))
        person.types(b"\x1b[5~")
        self.assertEqual(self.scrollback.asked[1:], [("rows", 1931, 46)])
        person.types(b"\x1b[5~")
        self.assertEqual(len(self.scrollback.asked), 2)
        person.types(b"\x1b[5~")
        self.assertEqual(self.scrollback.asked[2:], [("rows", 1885, 46)])
        person.types(b"g")
        self.assertEqual(self.scrollback.asked[3:], [("rows", 1000, 46)])
        self.assertEqual(person.shown()[0], "row 1")

    def test_ever_more(self):
        """One key that needs many rows requests ever more of them at once, 2,000 at most."""
        person = self.person("x\n" * 9000 + "x")
        person.types(b"{")
        counts = [count for word, _, count in self.scrollback.asked[1:]]
        self.assertEqual(counts, [46, 92, 184, 368, 736, 1472, MOST_ASKED, MOST_ASKED, MOST_ASKED, 80])
        self.assertEqual(self.position(person), (1000, 0))

    def test_cut_answer(self):
        """If fewer rows come than requested the rest is requested."""
        person = self.person("\n".join(f"row {number}" for number in range(1, 1001)))
        self.scrollback.most = 10
        person.types(b"\x1b[5~")
        self.assertEqual(self.scrollback.asked[1:],
                         [("rows", 1931, 46), *(("rows", 1931 + 10 * cut, 46 - 10 * cut) for cut in range(1, 5))])
        self.assertIn("row 957", person.shown())

    def test_waits(self):
        """Keys wait in order after those that wait for rows; after half a second that is reported."""
        person = self.person("\n".join(f"row {number}" for number in range(1, 1001)))
        self.scrollback.is_quick = False
        person.types(b"\x1b[5~\x1b[5~jj0 $y")
        self.assertEqual((self.scrollback.texts, len(self.scrollback.waiting)), ([], 1))
        self.passes(person, WAITS)
        self.assertEqual(person.display.row.told, WAITING)
        while self.scrollback.waiting:
            self.scrollback.answers(1)
        self.assertEqual(self.scrollback.texts, [b"row 960\n"])
        self.assertNotEqual(person.display.row.told, WAITING)

    def test_leaves(self):
        """C-c leaves at once while rows are pending, whatever waits before it, and later answers do nothing."""
        person = self.person("\n".join(f"row {number}" for number in range(1, 1001)))
        self.scrollback.is_quick = False
        person.types(b"\x1b[5~kkk\x03")
        self.assertFalse(person.commands.copying.state.is_on())
        self.scrollback.answers()
        self.assertEqual(person.types(b"x"), ["char 78"])
        self.assertNotIn("copy waits", person.loop.due)

    def test_gone(self):
        """If the rows are gone, for example with the host, it closes with a message."""
        person = self.person("\n".join(f"row {number}" for number in range(1, 1001)))
        self.scrollback.lends = False
        person.types(b"\x1b[5~k")
        self.assertEqual((person.commands.copying.state.is_on(), person.display.row.told), (False, GONE))

    def test_connection_lost(self):
        """After a lost connection to the host rows are requested again on the next one."""
        person = self.person("\n".join(f"row {number}" for number in range(1, 1001)))
        self.scrollback.lends, self.host.connects = False, True
        person.types(b"gj")
        self.passes(person, 0.3)
        self.assertTrue(person.commands.copying.state.is_on())
        self.scrollback.lends, self.host.connects = True, False
        self.passes(person, 0.3)
        self.assertEqual((self.position(person), person.shown()[0]), ((1001, 0), "row 1"))
        find, self.scrollback.find = self.scrollback.find, lambda pane, generation, first, back, text, told: told(None)
        self.host.connects = True
        person.types(b"/row 7\r")
        self.passes(person, 0.3)
        self.scrollback.find, self.host.connects = find, False
        self.passes(person, 0.3)
        self.assertEqual(self.position(person), (1006, 0))
        self.scrollback.lends, self.host.connects = False, True
        person.types(b"500j")
        self.host.connects = False
        self.passes(person, 0.3)
        self.assertEqual((person.commands.copying.state.is_on(), person.display.row.told), (False, GONE))

    def test_full(self):
        """While too much waits no more input is read."""
        person = self.person(opens=False)
        self.scrollback.is_quick = False
        person.types(b"\x02[" + b"k" * (MOST_WAITING - 1))
        self.assertFalse(person.commands.is_full())
        person.types(b"k")
        self.assertTrue(person.commands.is_full())
        self.scrollback.is_quick = True
        self.scrollback.answers()
        self.assertFalse(person.commands.is_full())
        self.assertEqual(self.position(person)[0], 1000)

    def test_finds(self):
        """A search requests the next match after earlier requests, and finishes once the answer is here."""
        person = self.person()
        self.scrollback.is_quick = False
        person.types(b"?row 7 of\rk")
        self.assertEqual(self.scrollback.asked[-1], ("find", 1099, True, "row 7 of"))
        while self.scrollback.waiting:
            self.scrollback.answers(1)
        self.assertEqual(self.position(person), (1005, 0))


class Keeps(Copied):
    """The copied text."""

    def test_copied(self):
        """A text becomes a buffer and is set on the clipboard, with a message."""
        person = self.person()
        person.types(b"gw e\r")
        self.assertEqual((self.scrollback.texts, person.display.outer.clips), ([b"1 of"], [base64.b64encode(b"1 of").decode()]))
        self.assertEqual((person.display.row.told, person.commands.copying.state.is_on()), ("4 characters copied; C-b ] pastes", False))
        self.stands(person, 2.0)

    def test_clipboard(self):
        """If ROAM_CLIPBOARD is off the clipboard isn't set."""
        for word, count in (("off", 0), ("external", 1), ("on", 1)):
            self.environment(ROAM_CLIPBOARD=word)
            person = self.person()
            person.types(b"gVj\r")
            self.assertEqual(self.scrollback.texts, [b"row 1 of many, the 1th\nrow 2 of many, the 2th\n"])
            self.assertEqual(len(person.display.outer.clips), count, word)
            self.assertEqual(person.display.row.told, "2 lines copied; C-b ] pastes")

    def test_not_kept(self):
        """Without a buffer the clipboard is still set, with a message."""
        person = self.person()
        self.scrollback.keeps = False
        person.types(b"g e\r")
        self.assertEqual(person.display.row.told, "3 characters copied to the clipboard only: no buffer was stored")
        self.assertEqual(len(person.display.outer.clips), 1)

    def test_all(self):
        """All rows are copied, requested on demand; above 1 MB nothing is, with a message."""
        person = self.person("\n".join(["yes"] * 3000))
        person.types(b"g G$\r")
        self.assertEqual(self.scrollback.texts[0], b"yes\n" * 3000)
        self.patch_of(selection, "MOST_COPIED", 4 * 3000 - 1)
        person = self.person("\n".join(["yes"] * 3000))
        person.types(b"g G$\r")
        self.assertEqual((self.scrollback.texts, person.display.row.told), ([], "not copied: it exceeds 1 MB"))

    def test_appended(self):
        """A appends a text to the newest buffer as a new one; without a buffer it becomes the first."""
        person = self.person()
        person.types(b"g eA")
        person.types(b"\x02[gw eA")
        self.assertEqual(self.scrollback.texts, [b"row", b"row1 of"])
        self.scrollback.texts.append(b"z" * (MOST_COPIED - 1))
        person.types(b"\x02[g eA")
        self.assertEqual((len(self.scrollback.texts), person.display.row.told), (3, "not copied: it exceeds 1 MB"))

    def test_nothing(self):
        """Without a selection nothing is copied."""
        person = self.person()
        person.types(b"\r")
        self.assertEqual((self.scrollback.texts, person.display.outer.clips, person.commands.copying.state.is_on()), ([], [], False))


class Meanwhile(Copied):
    """Events while it is open."""

    def test_paste(self):
        """A paste ends it and is pasted; into a line it is typed."""
        person = self.person()
        self.assertEqual(person.types(b"\x1b[200~ab\x1b[201~"), ["char 61", "char 62"])
        self.assertFalse(person.commands.copying.state.is_on())
        person = self.person()
        self.assertEqual(person.types(b"?\x1b[200~the 7th\nmore\x1b[201~"), [])
        self.assertEqual(person.display.row.line(), "(search up) the 7th")
        person.types(b"\r")
        self.assertEqual(self.position(person), (1006, 15))
        person.types(b"?\x1b[200~half")
        person.tell(Places({2: Rect(1, 1, 23, 80)}, 2, 1))
        self.assertEqual((person.types(b" of it\x1b[201~x"), person.commands.copying.state.is_on()), (["char 78"], False))

    def test_prefix(self):
        """Keys after the prefix have their usual meanings; the prefix twice is a key of copy mode."""
        person = self.person()
        self.assertEqual(person.types(b"\x02\x02"), [])
        self.assertEqual(person.display.row.line(), "[21/77] copy mode")
        for keys in (b"\x02\x1b[1;5C", b"\x1b[1;5C"):
            person.types(keys)
            self.assertEqual(person.display.row.told, "pane 1 has no border on its left or right")
            person.display.row.end_told()
        self.now += 1
        self.assertEqual(person.types(b"\x1b[1;5A"), [])
        self.assertTrue(person.commands.copying.state.is_on())
        person.types(b"\x02d")
        self.assertEqual(person.left, "[detached]")

    def test_escapes(self):
        """After an escape that arrived with it the prefix is a key with Meta; an escape alone is the key."""
        self.environment(VISUAL="emacs")
        person = self.person("a (b c) d\n" * 30)
        person.types(b"\x1b<\x05")
        self.assertEqual(person.types(b"\x1b\x02"), [])
        self.assertEqual(self.position(person), (1000, 8))
        self.assertEqual(person.types(b"\x02\x02\x1b\x02"), [])
        self.assertEqual(self.position(person), (1000, 2))
        person.types(b"\x1b")
        self.assertTrue(person.commands.copying.state.is_on())
        self.passes(person, 0.03)
        self.assertFalse(person.commands.copying.state.is_on())

    def test_help(self):
        """The help covers it until the next key, which has no other effect; then everything is redrawn."""
        person = self.person()
        person.types(b"g\x02?")
        self.assertIn("copy mode", "\n".join(person.shown()))
        self.assertEqual(person.types(b"j"), [])
        self.settle(person)
        self.assertEqual((self.position(person), person.shown()[0]), ((1000, 0), "row 1 of many, the 1th"))

    def test_focus(self):
        """It stays open if somebody else focuses another pane, and ends if this user does."""
        person = self.person(told=PANES)
        person.tell(PANES._replace(focus=2))
        self.settle(person)
        self.assertEqual((person.types(b"gj"), self.position(person)), ([], (1001, 0)))
        self.assertEqual(person.types(b"\x02q3"), ["focus 3"])
        self.assertFalse(person.commands.copying.state.is_on())
        for keys in (b"\x02o", b"\x02\x1b[C", b"\x02%"):
            person = self.person(told=PANES)
            person.types(keys)
            self.assertFalse(person.commands.copying.state.is_on(), keys)

    def test_pane_ends(self):
        """The pane's end ends it, and so does another generation of its number."""
        person = self.person(told=PANES)
        person.tell(Places({2: Rect(1, 1, 11, 80), 3: Rect(13, 1, 11, 80)}, 2, 1))
        self.assertFalse(person.commands.copying.state.is_on())
        person = self.person(told=PANES)
        person.panes.making = lambda pane: f"{pane} 2"
        person.commands.panes_changed()
        self.assertFalse(person.commands.copying.state.is_on())

    def test_pane_resized(self):
        """If the pane has another size its rows are laid out for that, under another mask."""
        person = self.person("\n".join(f"{number} {'x' * 34} {'y' * 20}" for number in range(1, 51)), PANES)
        person.types(b"gjj")
        self.settle(person)
        person.tell(Places({1: Rect(1, 1, 10, 20), 2: Rect(1, 22, 23, 59)}, 1, 1))
        self.assertEqual(self.settle(person), ["unmask", "mask 0 0 10 20"])
        self.assertEqual(self.mode(person).view.height, 10)
        self.assertEqual([row[:20].rstrip() for row in person.shown()[:4]], ["1 " + "x" * 18, "x" * 16 + " yy", "y" * 18, "2 " + "x" * 18])
        self.assertEqual(person.types(b" $y"), [])
        self.assertEqual(self.scrollback.texts[0].count(b"x"), 34)

    def test_terminal_resized(self):
        """After a resize of the terminal it uses the pane's visible part; without one it ends."""
        person = self.person()
        person.resize(10, 30)
        said = self.settle(person)
        self.assertEqual([line for line in said if line.startswith(("part", "mask"))][-2:], ["part 0 0 9 30", "mask 0 0 9 30"])
        person.types(b"G")
        self.assertEqual(person.shown()[8:], ["row 100 of many, the 100th", "[0/91] copy mode"])

    def test_part(self):
        """On a small terminal it covers the pane's visible part, and the part stays in place."""
        person = self.person(told=PANES._replace(focus=2), size=(12, 50), opens=False)
        person.display.take(DisplayRecord("part", (4, 30)))
        person.types(b"\x02[")
        self.assertEqual(person.said(), ["part 4 30 11 50", "mask 0 10 7 40"])
        person.paints(11, 50, "z" * 50)
        shown = person.shown()
        self.assertEqual(shown[6], "z" * 10 + "row 100 of many, the 100th")
        self.assertEqual(shown[7], "z" * 50)
        person.display.take(DisplayRecord("part", (20, 0)))
        self.assertEqual((person.commands.copying.state.is_on(), person.display.row.told), (False, NO_ROOM))

    def test_client_lost(self):
        """A new client connection gets the mask, and the part is the same."""
        person = self.person(told=PANES._replace(focus=2), size=(12, 50), opens=False)
        person.display.take(DisplayRecord("part", (4, 30)))
        person.types(b"\x02[")
        person.paints(11, 50)
        person.said()
        person.display.begin()
        person.commands.show_known()
        self.assertEqual(sorted(set(person.said())), ["mask 0 10 7 40", "part 4 30 11 50"])
        person.paints(11, 50)
        self.assertIn("row 100 of many, the 100th", person.shown()[6])

    def test_paused(self):
        """Without a connection C-c and q leave, as in other modes."""
        person = self.person()
        person.commands.acts.paused = True
        person.types(b"q")
        self.assertEqual(person.left, "[left]")

    def test_whole(self):
        """In a session shown whole, with its own status row, the line covers that."""
        person = self.person(is_whole=True, opens=False)
        person.paints(24, 80)
        person.types(b"\x02[")
        self.assertEqual(person.said(), ["mask 0 0 23 80"])
        person.paints(24, 80, "session")
        self.assertEqual(person.shown()[22:], ["row 100 of many, the 100th", "[0/77] copy mode"])
        person.types(b"q")
        self.assertEqual(person.said()[0], "unmask")
        person.paints(24, 80, "session")
        self.assertEqual(person.shown()[22:], ["session", "session"])


class Pointed(Copied):
    """The mouse, if roam uses it."""

    def person(self, *words, **more):
        """Return a user with the mouse switched on."""
        person = super().person(*words, **more)
        person.commands.pointing.is_on = True
        return person

    def points(self, person, *reports):
        """Report mouse events, and return the acts."""
        before = len(person.link.lines)
        for one in reports:
            person.keyboard.fed(report(*one))
        return [line for line in person.link.lines[before:] if line.startswith("focus")]

    def test_wheel(self):
        """The first notch of the wheel opens it three rows up, each further one scrolls, and scrolling past the last row closes it."""
        person = self.person(opens=False)
        self.assertEqual(self.points(person, (64, 5, 5)), [])
        self.settle(person)
        self.assertEqual(person.display.row.line(), "[3/77] copy mode")
        self.points(person, (64, 5, 5), (64, 5, 5), (65, 5, 5))
        self.assertEqual(person.display.row.line(), "[6/77] copy mode")
        self.points(person, (65, 5, 5), (65, 5, 5))
        self.assertFalse(person.commands.copying.state.is_on())
        person.types(b"\x02[")
        self.points(person, (64, 5, 5), (65, 5, 5))
        self.assertTrue(person.commands.copying.state.is_on())
        self.points(person, (65, 5, 5))
        self.assertFalse(person.commands.copying.state.is_on())

    def test_wheel_selected(self):
        """With a selection the wheel doesn't close it."""
        person = self.person(opens=False)
        self.points(person, (64, 5, 5))
        self.settle(person)
        person.types(b" ")
        self.points(person, *[(65, 5, 5)] * 5)
        self.assertTrue(person.commands.copying.state.is_on())

    def test_wheel_elsewhere(self):
        """Over another pane the wheel opens it there, and focuses that pane."""
        person = self.person(told=PANES, opens=False)
        self.assertEqual(self.points(person, (64, 5, 50)), ["focus 2"])
        self.assertEqual((person.commands.copying.state.pane, person.said()), (2, ["part 0 0 23 80", "mask 0 40 11 40", "focus 2"]))

    def test_wheel_not_lent(self):
        """Without rows the wheel scrolls the shared view, by each notch that came meanwhile too."""
        person = self.person(opens=False)
        self.scrollback.is_quick, self.scrollback.lends = False, False
        self.points(person, (64, 5, 5), (64, 5, 5))
        self.scrollback.answers()
        self.assertEqual(person.display.row.told.split(":")[0], "6 rows back")

    def test_drag(self):
        """A drag selects, the release copies, and copy mode ends."""
        person = self.person(opens=False)
        self.assertEqual(self.points(person, (0, 23, 5), (32, 23, 6)), [])
        self.settle(person)
        self.points(person, (32, 23, 8), (0, 23, 11, True))
        self.assertEqual((self.scrollback.texts, person.commands.copying.state.is_on()), ([b"100 of "], False))

    def test_drag_out(self):
        """A drag above the pane scrolls, one row each twentieth of a second, until the release."""
        person = self.person(told=PANES._replace(focus=3), opens=False)
        self.points(person, (0, 15, 45), (32, 15, 46))
        self.settle(person)
        self.points(person, (32, 5, 45))
        for _ in range(5):
            self.passes(person, 0.05)
        self.assertEqual(self.mode(person).view.back()[0], 6)
        self.points(person, (32, 14, 45))
        self.passes(person, 1.0)
        self.assertEqual(self.mode(person).view.back()[0], 6)
        self.points(person, (32, 1, 45), (0, 1, 45, True))
        self.assertEqual(self.scrollback.texts[0].count(b"\n"), 9)
        self.assertNotIn("copy drag", person.loop.due)

    def test_clicks(self):
        """A double click copies a word a moment later, and a triple one a line."""
        for count, text in ((2, b"many"), (3, b"row 100 of many, the 100th\n")):
            person = self.person(opens=False)
            for _ in range(count):
                self.points(person, (0, 23, 14), (0, 23, 14, True))
                self.settle(person)
                self.passes(person, 0.1)
            self.assertEqual(self.scrollback.texts, [])
            self.passes(person, 0.3)
            self.assertEqual((self.scrollback.texts, person.commands.copying.state.is_on()), ([text], False))
        person = self.person(opens=False)
        for _ in range(3):
            self.points(person, (0, 23, 14), (0, 23, 14, True))
            self.passes(person, 0.4)
        self.assertEqual((self.scrollback.texts, person.commands.copying.state.is_on()), ([], False))

    def test_click(self):
        """A click moves the cursor there; one in another pane focuses that, which ends it."""
        person = self.person(told=PANES)
        self.points(person, (0, 3, 6), (0, 3, 6, True))
        self.assertEqual(self.position(person), (1079, 5))
        self.assertEqual(self.points(person, (0, 3, 50)), ["focus 2"])
        self.assertFalse(person.commands.copying.state.is_on())

    def test_program(self):
        """A program with the mouse gets reports, but not while copy mode covers its pane."""
        person = self.person(told=PANES, opens=False)
        person.panes.modes_of = {1: "motion sgr", 2: "motion sgr"}
        self.assertEqual(len(self.points(person, (64, 3, 6), (0, 3, 6), (32, 3, 7), (0, 3, 7, True))), 4)
        person.types(b"\x02[")
        self.settle(person)
        self.assertEqual(self.points(person, (64, 3, 6)), [])
        self.assertEqual(person.display.row.line(), "[3/77] copy mode")


class Chosen(Copied):
    """Pasted buffers."""

    def test_newest(self):
        """C-b ] pastes the newest buffer, by a placeholder; without one a message appears."""
        person = self.person(opens=False)
        person.types(b"\x02]")
        self.assertEqual((self.host.stored, person.display.row.told), ([], "there are no buffers"))
        self.scrollback.texts = [b"one", b"two"]
        person.types(b"\x02]x")
        (name, number), = self.host.stored
        self.assertEqual(number, 1)
        person.said()
        person.commands.acts.pastes.answered(name, "stored", "")
        self.assertEqual((person.said(), person.link.acts[-1]), ([" ; ".join(["paste", *placeholder_acts(name)])], "char 78"))

    def test_cut(self):
        """If the connection is cut during the request it is repeated while a new one may come soon; else a message appears."""
        person = self.person(opens=False)
        self.scrollback.texts = [b"one"]
        self.host.connects = True
        with mock.patch.object(self.scrollback, "buffers", lambda told: told(None)):
            person.types(b"\x02]")
            self.pass_time(0.1)
            person.loop.do_due()
        self.assertEqual((self.host.stored, person.display.row.told), ([], ""))
        self.pass_time(0.1)
        person.loop.do_due()
        self.assertEqual([number for _, number in self.host.stored], [0])
        with mock.patch.object(self.scrollback, "buffers", lambda told: told(None)):
            person.types(b"\x02]")
            self.host.connects = False
            self.pass_time(0.1)
            person.loop.do_due()
        self.assertEqual((len(self.host.stored), person.display.row.told), (1, lists.UNTOLD))

    def test_refused(self):
        """A refusal, or a failure to store, is reported, and later input is dropped."""
        for word, more, told in (("refused", "it isn't kept", "not pasted: it isn't kept"),
                                 ("untold", "", "not pasted: the pty host accepts nothing")):
            person = self.person(opens=False)
            self.scrollback.texts = [b"one"]
            person.types(b"\x02]x")
            person.commands.acts.pastes.answered(self.host.stored[0][0], word, more)
            self.assertEqual((person.display.row.told, person.link.acts), (f"{told}; the input behind it was dropped", []))

    def test_ends_copy_mode(self):
        """A paste of a buffer ends copy mode."""
        person = self.person()
        self.scrollback.texts = [b"one"]
        person.types(b"\x02]")
        self.assertEqual((person.commands.copying.state.is_on(), len(self.host.stored)), (False, 1))

    def test_read_only(self):
        """A read-only user pastes nothing."""
        person = self.person(is_read_only=True, opens=False)
        self.scrollback.texts = [b"one"]
        person.types(b"\x02]\x02=")
        self.assertEqual((self.host.stored, person.commands.lists.is_on()), ([], False))

    def test_read(self):
        """Lines to read scroll, until q, Return or the prefix; in the middle of something else they aren't shown."""
        person, lines = self.person(opens=False), [f"row {number}" for number in range(60)]
        for ends, acts in ((b"q", []), (b"\r", []), (b"\x1b", []), (b"\x02o", ["next"])):
            self.assertTrue(person.commands.lists.show_lines(lines))
            self.settle(person)
            self.assertEqual((person.shown()[:2], person.shown()[23]),
                             (["row 0", "row 1"], "line 1 of 60: up, down, PgUp and PgDn scroll, q leaves"))
            self.assertEqual(person.types(b"G"), [])
            self.assertEqual((person.shown()[22], person.shown()[23][:13]), ("row 59", "line 60 of 60"))
            self.assertEqual(person.types(b"\x1b[5~"), [])
            self.assertEqual(person.shown()[23][:13], "line 50 of 60")
            self.assertEqual((person.types(ends), person.keyboard.typed(person.keyboard.keys.ended())), (acts, None))
            self.settle(person)
            self.assertFalse(person.commands.lists.is_on())
        person.types(b"\x02")
        self.assertFalse(person.commands.lists.show_lines(lines))

    def test_list(self):
        """C-b = lists the buffers over the pane, the newest first; the chosen one is pasted."""
        person = self.person(opens=False)
        self.scrollback.texts = [b"first", "\u6f22 \x1b[31m".encode(), b"third"]
        person.types(b"\x02=")
        self.settle(person)
        self.assertEqual(person.shown()[:4], ["2: 5 bytes: third", "1: 9 bytes: \u6f22 ?[31m", "0: 5 bytes: first", ""])
        self.assertEqual(person.shown()[23], "buffer 2 of 3: Return pastes it, up and down choose, q leaves")
        for keys, number in ((b"j", 1), (b"k", 2), (b"k", 2), (b"\x1b[B", 1), (b"\x1b[A", 2), (b"G", 0), (b"j", 0), (b"g", 2), (b"j", 1)):
            self.assertEqual(person.types(keys), [])
            self.assertTrue(person.display.row.line().startswith(f"buffer {number} of 3"), keys)
        self.assertEqual(person.types(b"\r"), [])
        self.assertEqual((self.host.stored[0][1], person.commands.lists.is_on()), (1, False))
        self.assertEqual(self.settle(person), ["unmask", "part 23 80"])
        person.commands.acts.pastes.answered(self.host.stored[0][0], "stored", "")
        person.types(b"\x02=")
        self.settle(person)
        self.assertEqual(person.types(b"Gkkkq"), [])
        self.assertFalse(person.commands.lists.is_on())
        self.assertEqual(person.types(b"x"), ["char 78"])

    def test_list_ends(self):
        """The list ends with its pane, with this user's move of the focus, a paste, and copy mode; another size keeps it."""
        for ends in (lambda person: person.tell(Places({2: Rect(1, 1, 23, 80)}, 2, 1)), lambda person: person.types(b"\x02q2"),
                     lambda person: person.types(b"\x1b[200~x\x1b[201~"), lambda person: person.types(b"\x02[")):
            person = self.person(told=PANES, opens=False)
            self.scrollback.texts = [b"one"]
            person.types(b"\x02=")
            self.settle(person)
            self.assertTrue(person.commands.lists.is_on())
            ends(person)
            self.assertFalse(person.commands.lists.is_on())
        person = self.person(told=PANES, opens=False)
        self.scrollback.texts = [b"one"]
        person.types(b"\x02=")
        self.settle(person)
        person.tell(Places({1: Rect(1, 1, 10, 20), 2: Rect(1, 22, 23, 59)}, 1, 1))
        self.assertEqual((self.settle(person), person.shown()[0][:20].rstrip()), (["unmask", "mask 0 0 10 20"], "0: 3 bytes: one"))

    def test_list_wheeled(self):
        """The list ends if the wheel opens copy mode over it, which then takes the keys."""
        person = self.person(told=ONE, opens=False)
        person.commands.pointing.is_on = True
        self.scrollback.texts = [b"one"]
        person.types(b"\x02=")
        self.settle(person)
        person.types(b"\x1b[<64;2;2M")
        self.assertEqual((person.commands.lists.is_on(), person.commands.copying.state.is_on()), (False, True))
        person.types(b"q")
        self.assertEqual((person.commands.copying.state.is_on(), person.modes.drawn, person.types(b"x")), (False, None, ["char 78"]))

    def test_late_list(self):
        """A list that arrives after the user has continued isn't opened."""
        person = self.person(opens=False)
        self.scrollback.texts, self.scrollback.is_quick = [b"one"], False
        person.types(b"\x02=")
        person.types(b"\x02]")
        self.scrollback.answers()
        self.assertEqual((person.commands.lists.is_on(), len(self.host.stored)), (False, 1))
