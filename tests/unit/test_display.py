"""A user's display: a part of the session, or lines in its place, and a line of its own; and the input meanwhile."""
import os
import pty
import signal
import unittest
from unittest import mock

from aids import Case
from emulated import Emulated
from modes_played import NoWindows
from roam_live.common import tty
from roam_live.common.event_loop import Loop
from roam_live.config import environment
from roam_live.config.environment import PREFIXES
from roam_live.frontend import display, outer_terminal, shown_part
from roam_live.frontend.bindings import HELP, Keymap, help_with
from roam_live.frontend.commands import Commands
from roam_live.frontend.display import Display, wrapped
from roam_live.frontend.interpreter import Interpreter
from roam_live.frontend.modes import ModeStack
from roam_live.input.keys import BRACKETS
from roam_live.protocol.display_records import DisplayRecord
from roam_live.protocol.panes import Places, Rect

FITS = "C-b r fits"


class OuterTerminal:
    """A terminal of a size, and its output."""

    def __init__(self, rows, cols):
        self.rows, self.cols = rows, cols
        self.waiting = bytearray()
        self.is_application = False
        self.title_and_shape, self.reports, self.clips = ("", 0), "", []

    def size(self):
        """Return its rows and columns."""
        return self.rows, self.cols

    def set_title_and_shape(self, title, shape):
        """Record a title and a shape."""
        self.title_and_shape = title, shape

    def ask(self, reports):
        """Record the requested mouse reports."""
        self.reports = reports

    set_keypad, ring = outer_terminal.OuterTerminal.set_keypad, outer_terminal.OuterTerminal.ring
    write = outer_terminal.OuterTerminal.write
    fewer_colours = None

    def set_clip(self, text):
        """Record a text for the clipboard."""
        self.clips.append(text)

    def shown(self):
        """Return its visible rows, without trailing spaces."""
        emulated = Emulated(self.rows, self.cols)
        emulated.fed(bytes(self.waiting))
        return [line.rstrip() for line in emulated.lines()]


class ClientLink:
    """The lines and the input sent."""

    def __init__(self, is_read_only=False):
        self.is_read_only, self.has_taken = is_read_only, True
        self.acts, self.lines = [], []

    def is_done(self):
        """Return True if the session has taken everything."""
        return self.has_taken

    def untaken(self):
        """Return the number of untaken lines."""
        return 0 if self.has_taken else 99

    def type(self, *acts, is_pasted=False):
        """Record acts."""
        self.acts += acts

    def say(self, line):
        """Record a line."""
        self.lines.append(line)

    def drop_pasted(self):
        """Return no lines: nothing waits."""
        return []

    def is_full_behind(self):
        """Return False: nothing waits."""
        return False


class AnySession:
    """A session's folder, and its pane positions."""

    served, number = "server", 0

    def __init__(self, folder=None):
        self.folder = self.common = folder or "/nowhere"
        self.told = None

    def busy(self):
        """Return the programs there."""
        return {1: "vi", 2: "vi"}


class PlayedPanes:
    """The reports of a session's panes."""

    awaited = full = brackets = False
    knows = True
    title_and_shape = ("", 0)

    def __init__(self, place):
        self.place = place
        self.modes_of = {}

    def probe(self, answered):
        """Do nothing: nobody answers."""

    @property
    def places(self):
        """Return their positions."""
        return self.place.told

    def is_awaited(self):
        """Return True if a report may come soon."""
        return self.awaited and self.places is None

    def is_untold(self):
        """Return True if no report will come."""
        return self.places is None and not self.awaited

    def is_full(self):
        """Return True if the server accepts no more clients."""
        return self.full

    def knows_modes(self):
        """Return True if the programs' modes are reported."""
        return self.knows

    @property
    def focus_modes(self):
        """Return the modes of the focused program."""
        return self.modes(self.places.focus) if self.places else []

    @property
    def has_application_keypad(self):
        """Return True if the focused program set the keypad's application mode."""
        return "keypad" in self.focus_modes

    @property
    def wants_focus(self):
        """Return True if the focused program wants focus reports."""
        return "focus" in self.focus_modes

    def making(self, pane):
        """Return the generation of a pane."""
        return f"{pane} 1" if self.places and pane in self.places.rects else ""

    def follow_clips(self, clipped):
        """Record the call for clipboard texts."""
        self.clipped = clipped

    def modes(self, pane):
        """Return those of a pane."""
        return self.modes_of.get(pane, "").split()

    def wants_brackets(self):
        """Return True if the focused program uses bracketed paste."""
        return self.brackets


def painting(rows, cols, text="x"):
    """Return a painting of so many rows and columns, from a reset on: a text in each row."""
    return b"\x1bc\x1b[?25l\x1b[2J" + b"".join(f"\x1b[{row};1H{text[:cols]}".encode() for row in range(1, rows + 1)) + b"\x1b[1;1H\x1b[?25h"


class PlayedHost:
    """The pty host's reports of the other terminals."""

    is_known = is_there = False
    peer = answers = None

    def __init__(self, types=None, awaited=False):
        self.types, self.awaited, self.said = types, awaited, 0
        self.scrollback = NoScrollback()
        # The zoom of this terminal, all its reports, and the reported one.
        self.zoom, self.zooms, self.zoomed = None, [], (0, None)

    def note_zoom(self, note):
        """Record a reported zoom."""
        self.zoom = note
        self.zooms.append(str(note))

    def say_here(self):
        """Count the checks of the terminal's size."""
        self.said += 1

    def is_awaited(self):
        """Return True if they may be known soon."""
        return self.awaited

    def has_others(self):
        """Return True if somebody else types; None if unknown."""
        return self.types

    def is_connecting(self):
        """Return False: no connection comes."""
        return False

    takes_texts = is_connecting

    def ask_with(self, *_):
        """Return False: nobody takes it."""
        return False


class NoScrollback:
    """A host without scrollback and buffers."""

    def snapshot(self, pane, generation, answered):
        """Return no snapshot."""
        answered(None)

    def buffers(self, answered):
        """Report none."""
        answered([])


class Person:
    """A user at a terminal, without the processes. The session shows a text at its size if the front end requests it."""

    def __init__(self, rows, cols, is_read_only=False, is_new=False, told=None, folder=None, is_whole=False, host=None):
        self.loop, self.link, self.place = Loop(), ClientLink(is_read_only), AnySession(folder)
        self.place.told = told
        self.left, self.heard = None, 0
        with mock.patch.object(display, "OuterTerminal", lambda: OuterTerminal(rows, cols)):
            self.display = Display(self.loop, self.link.say)
        self.panes = PlayedPanes(self.place)
        self.host = host or PlayedHost()
        self.modes, self.windows = ModeStack(Keymap()), NoWindows
        self.commands = Commands(self.place, self.panes, self.link, self.display, self.loop, self.leave, self.modes,
                                 lambda key: self.keyboard.take_back(key), self.windows, self.host, lambda places: is_new, is_whole)
        self.keyboard = Interpreter(self.modes, self.display, self.loop, lambda: self.commands, self.windows)
        self.keyboard.choose("C-b")
        self.display.begin()
        self.commands.show_known()
        self.commands.follower.fit_first()

    def leave(self, line):
        """Record the line with which the user leaves."""
        self.left = line if line is not None else self.left

    def types(self, text):
        """Type a text, and return its acts."""
        before = len(self.link.acts)
        self.keyboard.fed(text)
        return self.link.acts[before:]

    def sizes(self):
        """Return the sizes requested of the session."""
        return [act for act in self.link.acts if act.startswith("size")]

    def said(self):
        """Return the new lines about the view."""
        lines = self.link.lines[self.heard :]
        self.heard = len(self.link.lines)
        return lines

    def paints(self, rows, cols, text="x", word="anew"):
        """Paint so many rows and columns."""
        data = painting(rows, cols, text)
        self.display.take(DisplayRecord("size", (rows, cols)))
        self.display.take(DisplayRecord(word, (len(data),), data))

    def answers(self, text="x"):
        """Let the session paint the parts requested since the last call."""
        for line in self.said():
            word, *numbers = line.split()
            size = self.display.part.painted_size if word == "repaint" else tuple(map(int, numbers[-2:]))
            self.paints(*(size if word != "whole" else self.session()), text)

    def session(self):
        """Return the session's size."""
        return self.place.told.size() if self.place.told else (24, 80)

    def tell(self, told):
        """Report pane positions."""
        self.place.told = told
        self.commands.panes_changed()

    def resize(self, rows, cols):
        """Change the terminal's size for good."""
        self.display.outer.rows, self.display.outer.cols = rows, cols
        self.commands.follower.resized()
        self.display.resized()
        self.display.choose(is_painted=True)
        self.commands.follower.fit()

    def shown(self):
        """Return the visible rows of the terminal."""
        return self.display.outer.shown()


def places(rows, cols):
    """Return the positions of a session of one pane."""
    return Places({1: Rect(1, 1, rows - 1, cols)}, 1, 1)


class Sizes(unittest.TestCase):
    """The session's size relative to a terminal's."""

    def test_new(self):
        for size in ((50, 132), (20, 60)):
            self.assertEqual(Person(*size, is_new=True).sizes(), ["size {} {}".format(*size)])

    def test_new_for_a_moment(self):
        """A session follows a window that gets its size only after its start; an unreported size isn't requested."""
        person = Person(24, 80, is_new=True, told=places(24, 80))
        self.assertEqual(person.said(), ["part 23 80"])
        person.resize(15, 120)
        self.assertEqual(person.sizes(), ["size 24 80", "size 15 120"])
        person.said()
        person.tell(places(15, 120))
        self.assertEqual(person.said(), [])
        person.paints(14, 120)
        self.assertEqual(person.shown(), ["x"] * 14 + ["[1]"])

    def test_awaited(self):
        """While pane positions are pending, a session isn't fitted by the painting so far, whose size may be outdated."""
        with mock.patch.object(PlayedPanes, "awaited", True):
            person = Person(30, 100)
            person.paints(10, 40)
            person.commands.follower.fit_first()
            self.assertEqual((person.sizes(), person.commands.follower.is_fitted, "fit" in person.loop.due), ([], False, True))
            person.tell(places(40, 80))
            self.assertEqual((person.sizes(), person.commands.follower.is_fitted), ([], True))
        with mock.patch.object(PlayedPanes, "awaited", True):
            person = Person(30, 100)
            person.paints(10, 40)
            person.tell(places(24, 80))
            self.assertEqual(person.sizes(), ["size 30 100"])
        self.assertEqual(Person(30, 100, told=places(24, 80)).sizes(), ["size 30 100"])

    def test_larger_alone(self):
        person = Person(50, 132, told=places(24, 80))
        self.assertEqual(person.sizes(), ["size 50 132"])
        self.assertEqual(Person(300, 600, told=places(24, 80)).sizes(), ["size 200 500"])

    def test_same(self):
        self.assertEqual(Person(24, 80, told=places(24, 80)).sizes(), [])

    def test_unknown_at_first(self):
        """Without reports of its panes its size is that of the whole painting."""
        person = Person(50, 132)
        self.assertEqual((person.sizes(), person.commands.follower.is_fitted), ([], False))
        person.paints(24, 80)
        person.commands.follower.fit_first()
        self.assertEqual((person.sizes(), person.commands.follower.is_fitted), (["size 50 132"], True))

    def test_smaller_shows_a_part(self):
        """A smaller terminal shows the part with the cursor, and the key; the session's size stays."""
        person = Person(12, 40, told=places(24, 100))
        self.assertEqual((person.said(), person.sizes()), (["part 11 40"], []))
        person.paints(11, 40, "part")
        self.assertEqual(person.shown(), ["part"] * 11 + ["[1]" + " " * 27 + FITS])
        self.assertEqual(person.types(b"ls"), ["char 6c", "char 73"])

    def test_smaller_unknown(self):
        """So does one without pane reports, once the whole was painted, which does not fit and isn't shown."""
        person = Person(12, 40)
        self.assertEqual(person.said(), [])
        person.paints(24, 100, "secret")
        self.assertEqual(person.said(), ["part 11 40"])
        person.commands.follower.fit_first()
        self.assertEqual(person.sizes(), [])
        self.assertNotIn(b"secret", person.display.outer.waiting)
        person.paints(11, 40, "part")
        self.assertEqual(person.shown()[10:], ["part", " " * 30 + FITS])

    def test_smaller_anew(self):
        """After this user made a session smaller the view is requested anew if it began further on."""
        person = Person(12, 60, told=places(13, 60))
        person.commands.size.requested = 12, 60
        person.commands.show_known()
        person.answers()
        person.display.part.place = 1, 0
        person.tell(places(12, 60))
        self.assertEqual((person.said(), person.commands.size.requested), (["part 0 0 11 60"], None))

    def test_chosen_before(self):
        """The client may choose the part with all panes on an earlier, larger screen. Whatever it reports, and whenever the smaller size
        comes, the first row stays first. In a larger session the part follows the cursor again.
        """
        for is_told_before in (True, False):
            person = Person(24, 80, told=places(65, 80))
            person.answers()
            if is_told_before:
                person.tell(places(24, 80))
                person.said()
            person.display.take(DisplayRecord("part", (41, 0)))
            person.display.take(DisplayRecord("part", (1, 0)))
            person.tell(places(24, 80))
            self.assertEqual(person.said(), ["part 0 0 23 80"], is_told_before)
            person.display.take(DisplayRecord("part", (0, 0)))
            person.tell(places(24, 80))
            self.assertEqual(person.said(), [])
            person.tell(places(40, 80))
            self.assertEqual(person.said(), ["part 23 80"])
            person.display.take(DisplayRecord("part", (16, 0)))
            self.assertEqual((person.said(), person.loop.due.get("part")), ([], None))

    def test_chosen_again(self):
        """In a session larger than the terminal, the client chooses a part with the status row again until it has the smaller screen. The
        number of tries is limited.
        """
        clock = mock.Mock(return_value=100.0)
        for tries in (0, 3, 20):
            person = Person(12, 40, told=places(60, 100))
            person.loop.clock = clock
            person.answers()
            person.display.take(DisplayRecord("part", (40, 0)))
            person.tell(places(24, 100))
            self.assertEqual((person.said(), "part" in person.loop.due), (["part 11 40"], False))
            for _ in range(tries):
                person.display.take(DisplayRecord("part", (13, 0)))
                clock.return_value += 30
                person.loop.do_due()
            self.assertEqual(len(person.said()), min(tries, shown_part.MOST_CHOSEN))
            person.display.take(DisplayRecord("part", (12, 0)))
            clock.return_value += 30
            person.loop.do_due()
            self.assertEqual((person.said(), person.display.part.chosen), ([], 0))

    def test_wider_and_lower(self):
        """Neither side is cut."""
        for size, part in (((20, 200), "part 19 80"), ((60, 70), "part 23 70")):
            person = Person(*size, told=places(24, 80))
            self.assertEqual((person.sizes(), person.said()), ([], [part]))
            self.assertTrue(person.display.row.line().endswith(FITS))

    def test_key_fits(self):
        person = Person(12, 40, told=places(24, 100))
        person.answers()
        self.assertEqual(person.types(b"\x02r"), ["size 12 40"])
        self.assertEqual(person.display.row.line().rstrip(), "[1]")
        self.assertEqual(person.said(), ["repaint"])
        person.tell(places(12, 40))
        person.paints(11, 40, "here")
        self.assertEqual(person.shown(), ["here"] * 11 + ["[1]"])

    def test_beside_another(self):
        """A larger terminal leaves the size to another user, and shows the key."""
        person = Person(50, 132, told=places(24, 80), host=PlayedHost(True))
        self.assertEqual((person.sizes(), person.said()), ([], ["part 23 80"]))
        self.assertEqual(person.display.row.told, "24 by 80, the size of another terminal; C-b r fits this one")
        self.assertEqual(person.types(b"\x02r"), ["size 50 132"])
        # A resize of one of several terminals never makes the session smaller.
        other_one = Person(24, 80, told=places(24, 80), host=PlayedHost(True))
        other_one.resize(20, 70)
        self.assertEqual((other_one.sizes(), other_one.display.row.line().endswith(FITS)), ([], True))
        self.assertEqual(Person(50, 132, told=places(24, 80), host=PlayedHost(False)).sizes(), ["size 50 132"])

    def test_resized(self):
        """A session follows a lone terminal that showed all of it to a smaller size, and back; one shown in part doesn't."""
        person = Person(24, 80, told=places(24, 80), host=PlayedHost(False))
        person.answers()
        person.resize(20, 70)
        self.assertEqual((person.sizes(), person.said()), (["size 20 70"], ["part 19 70"]))
        # It follows one that comes before the report too.
        person.resize(18, 60)
        self.assertEqual((person.sizes()[1:], person.said()), (["size 18 60"], ["part 17 60"]))
        person.tell(places(18, 60))
        person.answers()
        self.assertEqual(person.said(), [])
        person.resize(30, 90)
        self.assertEqual(person.sizes()[2:], ["size 30 90"])
        # Without a pty host that knows the terminals there is no other.
        for host in (None, PlayedHost(None)):
            person = Person(24, 80, told=places(24, 80), host=host)
            person.resize(20, 70)
            self.assertEqual((person.sizes(), person.said()), ([], ["part 23 80", "part 19 70"]))
        small = Person(12, 40, told=places(24, 80))
        small.answers()
        small.resize(10, 30)
        self.assertEqual((small.sizes(), small.said()), ([], ["part 9 30"]))
        small.resize(30, 90)
        self.assertEqual(small.sizes(), ["size 30 90"])

    def test_latest(self):
        """With window-size latest the session takes the size of the terminal with the latest input, but not of a read-only one."""
        self.addCleanup(environment.choose_by_file, {})
        for is_read_only, chosen, sizes in ((False, "latest", ["size 24 80"]), (True, "latest", []), (False, "largest", [])):
            environment.choose_by_file({"window-size": chosen})
            person = Person(24, 80, told=places(30, 100), host=PlayedHost(True), is_read_only=is_read_only)
            before = len(person.link.acts)
            self.assertEqual(person.types(b"x")[:-1] if not is_read_only else person.link.acts[before:], sizes, chosen)
            person.tell(places(24, 80))
            self.assertEqual(person.types(b"x"), [] if is_read_only else ["char 78"])

    def test_resized_as_told(self):
        """If the pty host reports another typing user, only that counts, for a remote session too."""
        for types, sizes in ((False, ["size 20 70"]), (True, []), (None, [])):
            person = Person(24, 80, told=places(24, 80), host=PlayedHost(types))
            person.place.served = "relay"
            person.answers()
            person.resize(20, 70)
            self.assertEqual((person.sizes(), person.host.said > 1), (sizes, True), types)
            # Nor does it grow if that is unknown.
            person = Person(24, 80, told=places(24, 80), host=PlayedHost(types))
            person.place.served = "relay"
            person.answers()
            person.resize(30, 90)
            self.assertEqual(person.sizes(), ["size 30 90"] if types is False else [], types)
        # It grows without any pty host, but not if one may report later.
        for is_known, is_there, sizes in ((True, False, []), (False, True, []), (False, False, ["size 50 132"])):
            host = PlayedHost(None)
            host.is_known, host.is_there = is_known, is_there
            self.assertEqual(Person(50, 132, told=places(24, 80), host=host).sizes(), sizes, (is_known, is_there))
        self.assertEqual(Person(50, 132, told=places(24, 80)).sizes(), ["size 50 132"])
        person = Person(50, 132, told=places(24, 80), host=PlayedHost(True))
        self.assertEqual((person.sizes(), person.display.row.told), ([], "24 by 80, the size of another terminal; C-b r fits this one"))
        small = Person(12, 40, told=places(24, 80), host=PlayedHost(False))
        small.answers()
        small.resize(10, 30)
        self.assertEqual(small.sizes(), [])

    def test_resized_before_told(self):
        """Steps that depend on the other terminals wait for the report, but for a new session, and no longer than it may take."""
        host = PlayedHost(awaited=True)
        person = Person(24, 80, told=places(24, 80), host=host)
        person.answers()
        person.resize(20, 70)
        self.assertEqual((person.sizes(), "others" in person.loop.due), ([], True))
        person.resize(18, 60)
        host.awaited, host.types = False, False
        person.commands.follower.others_told()
        self.assertEqual((person.sizes(), "others" in person.loop.due), (["size 18 60"], False))
        person.commands.follower.others_told()
        self.assertEqual(person.sizes(), ["size 18 60"])
        host.awaited = True
        self.assertEqual(Person(20, 60, is_new=True, host=host).sizes(), ["size 20 60"])
        late = Person(50, 132, told=places(24, 80), host=host)
        self.assertEqual(late.sizes(), [])
        host.awaited, host.types = False, None
        late.loop.due["others"][1]()
        self.assertEqual(late.sizes(), ["size 50 132"])

    def test_left_and_shown_small(self):
        """A session of 24 by 100 that is left, shown by 12 by 40 alone and then by 24 by 100 keeps its size."""
        for size in ((12, 40), (24, 100)):
            self.assertEqual(Person(*size, told=places(24, 100)).sizes(), [])

    def test_less_than_any(self):
        """A terminal too small for any part shows a message. A larger one shows a part, and never requests an invalid size."""
        person = Person(2, 30, told=places(24, 80))
        self.assertEqual((person.shown(), person.said()), (["too small: 3 by 4 is needed", "C-b d leaves"], []))
        self.assertEqual(person.types(b"\x02r"), [])
        self.assertEqual(Person(24, 3, told=places(24, 80)).said(), [])
        person = Person(3, 30, told=places(24, 80))
        self.assertEqual((person.types(b"\x02r"), person.said()), ([], ["part 2 30", "repaint"]))
        self.assertEqual(person.display.row.told, "a session has at least 4 rows and 8 columns")
        person.resize(24, 80)
        self.assertEqual((person.said(), person.sizes()), (["part 23 80"], []))

    def test_refused(self):
        """A session whose panes do not fit a size keeps its own, and that is reported."""
        person = Person(5, 8, told=places(24, 80))
        person.types(b"\x02r")
        self.assertEqual((person.sizes(), person.commands.size.requested), (["size 5 8"], (5, 8)))
        # A session that hasn't taken it yet may still get it.
        person.link.has_taken = False
        person.commands.size.refused()
        self.assertEqual((person.display.row.told, person.commands.size.requested, "requested size" in person.loop.due), ("", (5, 8), True))
        person.link.has_taken = True
        person.commands.size.refused()
        self.assertEqual((person.display.row.told, person.commands.size.requested), ("5 by 8 is too small for its panes", None))
        person.display.row.end_told()
        self.assertTrue(person.display.part.shows_all() is False)

    def test_given_and_had(self):
        """A size that was reached isn't reported as refused after somebody enlarges the session."""
        person = Person(24, 100, is_new=True, told=places(24, 80))
        self.assertIn("requested size", person.loop.due)
        person.tell(places(24, 100))
        self.assertNotIn("requested size", person.loop.due)
        person.answers()
        person.tell(places(40, 120))
        self.assertEqual((person.display.row.told, person.display.row.line()), ("", "[1]" + " " * 87 + FITS))

    def test_watcher(self):
        person = Person(12, 40, is_read_only=True, told=places(24, 100))
        self.assertEqual((person.said(), person.display.row.line().rstrip()), (["part 11 40"], "[1]"))
        person.types(b"\x02r")
        self.assertEqual(person.link.acts, [])
        person.resize(30, 120)
        self.assertEqual((person.link.acts, person.said()), ([], ["repaint", "part 23 100"]))

    def test_given_size_comes(self):
        """A temporarily larger session isn't shown while a requested size is pending."""
        person = Person(20, 60, is_new=True, told=places(24, 80))
        person.paints(24, 80, "early")
        self.assertEqual(person.display.notice, "")
        self.assertNotIn(b"early", person.display.outer.waiting)
        self.assertEqual(person.types(b"ls"), ["char 6c", "char 73"])
        person.tell(places(20, 60))
        person.paints(19, 60, "now")
        self.assertEqual(person.shown(), ["now"] * 19 + ["[1]"])


def signal_pause():
    """Wait for the end."""
    while True:
        signal.pause()


class Parts(unittest.TestCase):
    """The requested part of a session, and repeated requests."""

    def test_grown(self):
        """A session that somebody enlarged is shown in part from then on, and its beginning stays if it fits."""
        person = Person(24, 80, told=places(24, 80))
        person.answers()
        person.tell(places(24, 100))
        self.assertEqual((person.said(), person.display.part.shows_all()), ([], False))
        self.assertEqual(person.shown()[23], "[1]" + " " * 67 + FITS)

    def test_shrunk(self):
        """In one that somebody shrank the view begins at the first row again, so that no row below its panes is visible."""
        for place in ((12, 50), (12, 0), (0, 50), (1, 0), (0, 1)):
            for size in ((14, 60), (14, 100), (24, 60), (23, 100), (24, 99), (14, 120), (30, 60)):
                person = Person(12, 40, told=places(24, 100))
                person.answers()
                person.display.take(DisplayRecord("part", place))
                person.tell(places(*size))
                self.assertEqual(person.said(), ["part 11 40"], (place, size))
        person.display.take(DisplayRecord("part", (0, 0)))
        person.tell(places(13, 50))
        self.assertEqual(person.said(), [])
        # A larger session, or one with the same size, continues as before.
        for size in ((24, 100), (24, 101), (25, 100), (60, 200)):
            person = Person(12, 40, told=places(24, 100))
            person.answers()
            person.display.take(DisplayRecord("part", (12, 50)))
            person.tell(places(*size))
            self.assertEqual(person.said(), [], size)
        # A newly connected client does not know the earlier position.
        person.display.begin()
        person.commands.show_known()
        self.assertEqual((person.said(), person.display.part.place, person.display.row.silent), (["part 11 40"], (0, 0), 0))

    def test_larger_terminal(self):
        """A terminal with more room than the session shows only its panes, and blanks beside them."""
        person = Person(50, 200, is_read_only=True, told=places(24, 80))
        self.assertEqual(person.said(), ["part 23 80"])
        person.paints(23, 80, "here")
        self.assertEqual(person.shown(), ["here"] * 23 + [""] * 26 + ["[1]"])

    def test_any_told(self):
        """Whatever size is reported, the requested part is valid."""
        for told, part in ((Rect(0, 0, 0, 0), (2, 4)), (Rect(1, 1, 1, 1), (2, 4)), (Rect(9999, 9999, 9999, 9999), (199, 500)),
                           (Rect(1, 1, 9999, 3), (199, 4)), (Rect(1, 1, 2, 9999), (2, 500))):
            person = Person(300, 600, is_read_only=True, told=Places({1: told}, 1, 1))
            self.assertEqual(person.said(), ["part {} {}".format(*part)], told)

    def test_whole(self):
        """On request the whole session is shown with its own status row if it fits, else a part; so is an unreported one."""
        for person in (Person(24, 80, True, told=places(24, 80), is_whole=True), Person(24, 80, True)):
            self.assertEqual(person.said(), [])
            person.paints(24, 80, "all")
            self.assertEqual(person.shown(), ["all"] * 24)
            person.resize(12, 40)
            self.assertEqual(person.said(), ["part 11 40"])
            person.paints(11, 40, "part")
            self.assertEqual(person.shown()[:11], ["part"] * 11)
            person.display.take(DisplayRecord("part", (3, 0)))
            person.resize(24, 80)
            self.assertEqual(person.said(), ["whole"])
            person.paints(24, 80, "all")
            self.assertEqual(person.shown(), ["all"] * 24)

    def test_whole_of_a_parts_size(self):
        """A session that took the size of the visible part is known to have it, though that isn't reported again."""
        person = Person(12, 40, is_read_only=True)
        person.paints(24, 80)
        self.assertEqual(person.said(), ["part 11 40"])
        person.paints(11, 40)
        person.resize(30, 100)
        self.assertEqual(person.said(), ["whole"])
        person.display.take(DisplayRecord("anew", (1,), painting(11, 40, "all")))
        self.assertEqual((person.display.part.whole_size, person.shown()[:11]), ((11, 40), ["all"] * 11))

    def test_told_later(self):
        """Once pane positions are reported a part is shown, and once they are no longer, the whole."""
        person = Person(24, 80)
        person.paints(24, 80, "all")
        person.tell(places(24, 80))
        self.assertEqual(person.said(), ["part 23 80"])
        person.paints(23, 80, "part")
        self.assertEqual(person.shown(), ["part"] * 23 + ["[1]"])
        with mock.patch.object(PlayedPanes, "awaited", True):
            person.tell(None)
            self.assertEqual((person.said(), person.display.row.line().rstrip()), ([], "[1]"))
        person.tell(None)
        self.assertEqual(person.said(), ["whole"])

    def test_stale(self):
        """Paintings from before the requested part are dropped, and so are changes until a full repaint."""
        person = Person(24, 80, told=places(24, 80))
        person.paints(24, 80, "whole")
        person.display.take(DisplayRecord("size", (23, 80)))
        person.display.take(DisplayRecord("paint", (1,), b"change"))
        self.assertEqual(person.shown()[:23], [""] * 23)
        person.paints(23, 80, "anew")
        person.display.take(DisplayRecord("paint", (1,), b"\x1b[2;1Hmore"))
        self.assertEqual(person.shown(), ["anew", "more", *["anew"] * 21, "[1]"])

    def test_size_within(self):
        """A painting of another size that isn't a repaint may erase the last row, whose line follows it."""
        person = Person(24, 80, told=places(24, 80))
        person.answers()
        person.display.take(DisplayRecord("size", (20, 60)))
        person.display.take(DisplayRecord("paint", (1,), b"\x1b[2J"))
        self.assertEqual(person.shown(), [""] * 23 + ["[1]"])

    def test_drawn(self):
        """During a resize by mouse nothing that does not fit is written, and a part is requested once in 0.05 s."""
        person = Person(24, 80, told=places(24, 80))
        person.answers()
        person.display.outer.cols = 90
        person.display.resized()
        person.display.take(DisplayRecord("paint", (1,), b"still"))
        self.assertTrue(b"still" in person.display.outer.waiting and not person.display.part.is_stale)
        person.loop.due.clear()
        person.display.outer.cols = 80
        for rows in range(23, 10, -1):
            person.display.outer.rows = rows
            person.display.resized()
        before = len(person.display.outer.waiting)
        person.display.take(DisplayRecord("paint", (1,), b"x"))
        self.assertEqual((person.said(), len(person.display.outer.waiting), "paint" in person.loop.due), ([], before, True))
        person.loop.due.pop("paint")[1]()
        self.assertEqual(person.said(), ["part 10 80"])


class UnderNotice(unittest.TestCase):
    """Nothing is typed while the user could not see it."""

    def covered(self):
        """Return a user whose terminal is too small."""
        person = Person(2, 40, told=places(24, 100))
        self.assertTrue(person.display.notice.startswith("too small"))
        return person

    def test_nothing_is_typed(self):
        for text in (b"rm -rf x\r", b"\x1b[A\r", b"\x1b[200~pasted\r\x1b[201~", b"\x02%", b"\x02x", b"\x02\x02", b"\x023", b"\x02\x1b[1;5C",
                     b"\x02[g", b"\x02xy"):
            self.assertEqual(self.covered().types(text), [], text)

    def test_keys_for_the_terminal(self):
        person = self.covered()
        person.types(b"\x02d")
        self.assertEqual(person.left, "[detached]")
        person = self.covered()
        person.types(b"\x02?")
        self.assertEqual(person.display.notice, HELP)
        person.types(b"q")
        self.assertTrue(person.display.notice.startswith("too small"))

    def test_help_stays(self):
        """The help stays while the session gets another size."""
        person = Person(12, 40, told=places(24, 100))
        person.types(b"\x02?")
        person.tell(places(12, 40))
        person.answers("behind")
        self.assertEqual(person.display.notice, HELP)
        self.assertNotIn(b"behind", person.display.outer.waiting)
        person.types(b"q")
        self.assertEqual(person.said(), ["repaint"])
        person.paints(11, 40, "here")
        self.assertEqual(person.display.notice, "")
        self.assertEqual(person.shown(), ["here"] * 11 + ["[1]"])

    def test_scrolled(self):
        """An earlier scroll mode ends as usual."""
        person = Person(24, 80, told=places(24, 80))
        person.answers()
        person.types(b"\x02[")
        person.resize(2, 80)
        self.assertEqual(person.types(b"k"), [])
        self.assertEqual(person.types(b"q"), ["view -500"])

    def test_pasted_before(self):
        """Nothing of a paste under a notice is typed, and later input is typed again once the session is shown."""
        person = self.covered()
        person.types(b"\x1b[200~pas")
        person.resize(24, 100)
        person.answers()
        self.assertEqual((person.display.notice, person.types(b"\x1b[201~x")), ("", ["char 78"]))

    def test_brackets(self):
        """A paste is bracketed if the focused program wants that at its end, and nothing in it ends the brackets."""
        begin, end = BRACKETS
        person = Person(24, 80, told=places(24, 80))
        person.answers()
        person.commands.acts.panes.brackets = True
        self.assertEqual(person.types(b"\x1b[200~a\r\nb\nc\x1b[201~d"),
                         [*begin, "char 61", "char d", "char 62", "char d", "char 63", *end, "char 64"])
        self.assertEqual(person.types(b"\x1b[200~\x9b201~\xc2\x9b201~\x1b\x7f\x07\t\x1b[201~"),
                         [*begin, "char fffd", *[f"char {ord(letter):x}" for letter in "201~201~"], "char 9", *end])
        self.assertEqual(person.types(b"\x1b[200~\x1b[A\x1b[201~"), [*begin, "char 5b", "char 41", *end])
        self.assertEqual(person.types(b"\x1b[200~x"), [])
        self.assertEqual(person.types(b"y\x1b[201~"), [*begin, "char 78", "char 79", *end])
        person.commands.acts.panes.brackets = False
        self.assertEqual(person.types(b"\x1b[200~a\r\x1b[201~"), ["char 61", "key return"])
        # An end without a beginning is ignored, and so is an empty paste.
        self.assertEqual(person.types(b"a\x1b[201~b\x1b[200~\x1b[201~\x1b[200~\x03\x1b[201~c"), ["char 61", "char 62", "char 63"])

    def test_brackets_end(self):
        """If a notice covers a paste, neither it nor its brackets are typed; the same for one that begins there."""
        person = Person(24, 80, told=places(24, 80))
        person.answers()
        person.commands.acts.panes.brackets = True
        self.assertEqual(person.types(b"\x1b[200~a"), [])
        person.resize(2, 80)
        self.assertEqual(person.types(b"b\x1b[201~"), [])
        self.assertEqual(person.types(b"\x1b[200~a\x1b[201~"), [])
        self.assertEqual(person.display.row.told, "not pasted: the session is not shown")

    def test_help(self):
        person = Person(24, 80, told=places(24, 80))
        person.answers()
        person.types(b"\x02?")
        self.assertEqual(person.types(b"x"), [])
        self.assertEqual(person.display.notice, "")
        person.types(b"\x02?")
        person.types(b"\x02d")
        self.assertEqual((person.left, person.link.acts), ("[detached]", []))
        person.types(b"\x02?")
        self.assertEqual(person.types(b"\x1b[200~a\x02x\x1b[201~"), ["char 61", "char 78"])

    def test_paused(self):
        person = Person(24, 80, told=places(24, 80))
        person.commands.acts.paused = True
        person.display.show("no server is there")
        self.assertEqual(person.types(b"ls\r\x1b[200~q\x1b[201~"), [])
        self.assertIsNone(person.left)
        person.types(b"q")
        self.assertEqual(person.left, "[left]")


class Words(unittest.TestCase):
    """Text on a terminal."""

    def test_help_fits(self):
        for prefix in PREFIXES:
            lines = help_with(prefix).split("\n")
            self.assertLessEqual(len(lines), 23)
            self.assertTrue(all(len(line) < 80 for line in lines), lines)
        self.assertIn("  ? R :    list the keys; read the settings file again; ask for a command", HELP)

    def test_wrapped(self):
        for line, width, rows in (("C-b r fits this", 8, ["C-b r", "fits", "this"]), ("abcdefghij", 4, ["abcd", "efgh", "ij"]),
                                  ("", 4, [""]), ("  ?        these keys", 12, ["  ?", "these keys"]), ("ab cd", 5, ["ab cd"])):
            self.assertEqual(wrapped(line, width), rows)

    def test_printable(self):
        person = Person(24, 80)
        person.paints(24, 80)
        before = len(person.display.outer.waiting)
        person.display.row.tell("close \x1b]0;pwned\x07\u202e\n in pane 1? y closes it", None)
        person.display.show("no \x1b[c\x9b6n\u2066 end\nnext")
        written = person.display.outer.waiting[before:].replace(tty.CLEARED, b"")
        self.assertIn("close ?]0;pwned??? in pane 1?".encode(), written)
        self.assertIn(b"no ?[c?6n? end\r\nnext", written)
        for odd in (b"\x1b]", b"\x07", b"\x1b[c", "\u202e".encode(), "\x9b".encode(), "\u2066".encode()):
            self.assertNotIn(odd, written)

    def test_wide_words(self):
        """A line of wide characters doesn't wrap into another row."""
        person = Person(24, 80)
        person.paints(24, 80)
        before = len(person.display.outer.waiting)
        person.display.row.tell("\u4e2d" * 200)
        written = bytes(person.display.outer.waiting[before:])
        self.assertTrue(written.startswith(b"\x1b7\x1b[?7l\x1b[24;1H") and written.endswith(b"\x1b[0m\x1b[?7h\x1b8"), written)

    def test_left(self):
        """The last message is printable."""
        master, slave = pty.openpty()
        ends = os.dup(0), os.dup(1)
        os.dup2(slave, 0), os.dup2(slave, 1)
        try:
            outer = outer_terminal.OuterTerminal()
            outer.enter()
            outer.leave("[the relay has ended; see \x1b[c/log]")
        finally:
            os.dup2(ends[0], 0), os.dup2(ends[1], 1)
        written = os.read(master, 65536)
        self.assertTrue(written.endswith(b"[the relay has ended; see ?[c/log]\r\n"), written)


class Lines(Case):
    """The line in the last row."""

    def setUp(self):
        self.stop_clock()

    def test_labels(self):
        """The panes in the layout's order, the focused one in brackets, and at the end the key that fits, if not all is visible."""
        two = Places({1: Rect(1, 1, 23, 50), 2: Rect(1, 52, 23, 49)}, 2, 1)
        for size, line in (((24, 100), " 1 [2]".ljust(100)), ((24, 80), " 1 [2]".ljust(70) + FITS), ((24, 17), f" 1 [2] {FITS}"),
                           ((24, 16), f"      {FITS}"), ((24, 10), FITS), ((24, 9), " 1 [2]   ")):
            self.assertEqual(Person(*size, told=two).display.row.line(), line, size)

    def test_starts(self):
        """From 48 starts on their number is at the end."""
        person = Person(24, 80, told=places(24, 80))
        ends = []
        for clients in (47, 48, 64):
            person.tell(places(24, 80)._replace(clients=clients))
            ends.append(person.display.row.line()[3:].strip())
        person.tell(places(24, 100)._replace(clients=50))
        self.assertEqual([*ends, person.display.row.line()[-28:]],
                         ["", "48 of 64 clients", "64 of 64 clients", f" 50 of 64 clients {FITS}"])

    def test_same(self):
        """An unchanged row isn't written again."""
        person = Person(24, 80, told=places(24, 80))
        person.answers()
        before = len(person.display.outer.waiting)
        person.tell(places(24, 80)._replace(clients=2))
        person.display.take(DisplayRecord("paint", (1,), b"x"))
        self.assertEqual(len(person.display.outer.waiting), before + 1)

    def test_silent(self):
        """The seconds of a server's silence are shown with the key that leaves, and afterwards the panes again."""
        person = Person(24, 80, told=places(24, 80))
        person.answers("here")
        for seconds in (10, 11):
            person.display.take(DisplayRecord("silent", (seconds,)))
            self.assertEqual(person.shown(), ["here"] * 23 + [f"roam: no answer for {seconds} s; C-b d leaves"])
        person.display.take(DisplayRecord("heard"))
        self.assertEqual((person.shown(), person.said()), (["here"] * 23 + ["[1]"], []))

    def test_silent_whole(self):
        """Over a session's own status row it is written after each painting, and then everything is repainted."""
        person = Person(24, 80)
        person.paints(24, 80, "here")
        person.display.take(DisplayRecord("silent", (10,)))
        person.display.take(DisplayRecord("paint", (1,), b"\x1b[24;1Hrow"))
        self.assertEqual(person.shown()[22:], ["here", "roam: no answer for 10 s; C-b d leaves"])
        person.display.take(DisplayRecord("heard"))
        self.assertEqual(person.said(), ["repaint"])

    def test_silent_and_told(self):
        """Messages and prompts have precedence, and a silence under a notice is shown once that goes."""
        person = Person(24, 80, told=places(24, 80))
        person.answers()
        person.display.row.tell("told", 1.0)
        person.display.take(DisplayRecord("silent", (10,)))
        self.assertEqual(person.shown()[23], "told")
        person.display.row.end_told()
        self.assertTrue(person.shown()[23].startswith("roam: no answer for 10 s"))
        person.display.show("help")
        person.display.take(DisplayRecord("silent", (12,)))
        self.assertEqual(person.shown()[:1], ["help"])
        person.display.uncover()
        person.answers()
        self.assertTrue(person.shown()[23].startswith("roam: no answer for 12 s"))

    def test_shown_by_a_pane(self):
        """A pane's own contents are never changed: a painting with the words of a silence, in any style and position."""
        for style in (b"0;7", b"0", b"0;1", b"7"):
            for row in (1, 24, 999):
                text = b"\x1b7\x1b[?7l\x1b[%d;1H\x1b[%smroam: no answer for 12 s\x1b[0mthe rest of the row|" % (row, style)
                person = Person(24, 80, told=places(24, 80))
                person.answers()
                before = len(person.display.outer.waiting)
                person.display.take(DisplayRecord("paint", (len(text),), text))
                self.assertEqual(person.display.outer.waiting[before:], text)


if __name__ == "__main__":
    unittest.main()
