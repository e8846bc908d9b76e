"""The windows of a session at one front end.

It has their list from the pty host, the current and previous one, requests to the host, and input for a window that isn't there yet.
"""
from __future__ import annotations

from roam_live.common.errors import Fault, reason
from roam_live.common.suppress import suppress
from roam_live.common.text import decimal_in, printable
from roam_live.common.tty import LEAST, is_large_enough, largest
from roam_live.frontend.effects import SendRequest
from roam_live.frontend.line_editor import AskedLine
from roam_live.frontend.modes import HoldMode
from roam_live.frontend.window_views import WindowViews
from roam_live.frontend.windows_client import WindowsState
from roam_live.input.keys import INTERRUPT, Key
from roam_live.input.mouse_reports import MOUSE
from roam_live.protocol.host_lines import SESSION
from roam_live.protocol.host_link import HostLink
from roam_live.protocol.window_lines import BELL, LONGEST_BYTES, LONGEST_NAME, MOST_WINDOWS, OPENED
from roam_live.session.foreground import told

TYPE_CHECKING = False
if TYPE_CHECKING:
    from collections.abc import Callable

# Seconds for a window to open; seconds between checks for it; seconds until the user is informed of a delay; and the most keys and
# characters of input for it.
OPENS = 3.0
COMES = 0.02
TAKES_LONG = 0.5
MOST_KEYS = 4096
MOST_TEXT = 1 << 20

# Seconds for which a list of windows waits for the positions of the panes, since it covers one of them.
LISTS = 1.0
NO_ROOM = "there is no room for the list of windows"

# Seconds for which a message is shown.
SAID = 2.0
LATE = "no window is open yet: the pty host does not answer"
DROPPED = "; keys for it were dropped"
OPENING = "opening a window; C-c stops waiting"
NOT_AWAITED = "a window may still open; roam no longer waits for it"
SMALL = "a window has at least {} rows and {} columns".format(*LEAST)
MANY = f"a session has at most {MOST_WINDOWS} windows"


class WindowOpening:
    """Input at one front end for a window that isn't there yet.

    Calls return the numbers of the windows, go to one, send a line to a connected host, and show a list; the last two return True if they
    succeed.
    """

    def __init__(self, views: WindowViews, numbers: Callable[[], list[int]], go_to: Callable[[int], object], asks: Callable[[str], bool],
                 shows: Callable[[], bool]) -> None:
        self.views, self.display, self.loop = views, views.display, views.loop
        self.numbers, self.go_to, self.asks, self.shows = numbers, go_to, asks, shows
        # Takes the keys that waited.
        self.types: Callable[[list[Key]], object] = lambda keys: None
        # True while a window opens; True if the user was informed of a delay; True while a list of windows is about to open; and the input
        # for either.
        self.is_opening = self.is_late = self.is_listing = False
        self.mode = HoldMode()
        self.held: list[Key] = []
        self.held_size = 0
        # The unanswered request for a window; and the unsent one while the host isn't connected yet, as shortly after its launch.
        self.opens = self.unsaid = ""
        # True if the user stays in the current window once another is opened.
        self.stays = False

    def say_unsaid(self) -> None:
        """Send an unsent request for a window, once there is a connection."""
        if self.unsaid and self.asks(self.unsaid):
            self.unsaid = ""

    def lose(self, why: str) -> None:
        """Continue without the connection. The request for a window is repeated on the next one, and then means the same window.

        The connection of a remote session is cut whenever its relay changes its transport.
        """
        if self.is_opening and self.views.view.session.served == "relay":
            self.unsaid = self.opens
        elif self.is_opening and not self.unsaid:
            self.end_opening(why)

    # ---- a list

    def list_all(self) -> None:
        """Open a list of the windows over the focused pane.

        While the focus is unknown, as right after the user's arrival, the list and keys for it wait, but only for a moment.
        """
        acts, waited = self.views.acts, self.is_listing
        self.is_listing = not waited and acts.awaits_focus()
        acts.modes.remove(self.mode)
        if self.is_listing:
            acts.modes.push(self.mode)
            self.loop.later("list waits", LISTS, self.list_all)
            return
        self.loop.drop("list waits")
        if not self.shows():
            self.display.row.tell(NO_ROOM, SAID)
        if waited:
            self.types(self.held_keys())

    def told_panes(self) -> None:
        """Open a list that waits for a report about the panes."""
        if self.is_listing and not self.views.acts.awaits_focus():
            self.list_all()

    # ---- a new window

    def open(self, handed: str = "", stays: bool = False) -> None:
        """Open a window of the largest size that this terminal shows whole, with uploaded start options if named. The user goes there, or
        stays.
        """
        size, self.is_opening, self.stays = self.display.part.room(), True, stays
        self.views.acts.modes.push(self.mode)
        why = SMALL if not is_large_enough(size) else MANY if len(self.numbers()) >= MOST_WINDOWS else ""
        if why:
            # Later input of the same read was for the window too.
            self.loop.later("window opens", 0.0, lambda: self.end_opening(why))
            return
        self.opens = "open {} {}".format(*largest(size)) + (f" {handed}" if handed else "")
        self.unsaid = "" if self.asks(self.opens) else self.opens
        self.loop.later("window opens", OPENS, lambda: self.end_opening(LATE))
        self.loop.later("window waits", TAKES_LONG, self.tell_late)

    def tell_late(self) -> None:
        """Report that a window takes long, and the keys that do not wait for it."""
        self.is_late = True
        self.display.row.tell(OPENING, OPENS)

    def opened(self, number: int, why: str) -> None:
        """Go to an opened window with the input for it; 0 if it failed."""
        if not self.is_opening:
            # Nobody waits for it any more.
            self.display.row.tell(f"window {number} is open now" if number else f"cannot open a window: {why}", SAID)
            return
        if not number:
            self.end_opening(f"cannot open a window: {why}")
            return
        # It isn't requested again.
        self.opens = ""
        if self.views.reached(number) is None and "window opens" in self.loop.due:
            # For a remote session this report comes a moment later, by another connection.
            self.loop.later("window comes", COMES, lambda: self.opened(number, why))
            return
        held = self.held_keys()
        self.end_opening("")
        if self.stays:
            self.display.row.tell(f"window {number} is open now", SAID)
        else:
            self.go_to(number)
        if self.stays or self.views.number == number:
            self.types(held)
        elif held:
            self.display.row.tell(f"cannot show window {number}{DROPPED}", SAID)

    def end_opening(self, why: str) -> None:
        """Stop waiting for a window, and drop the input for it: elsewhere it would mean something else."""
        for name in ("window opens", "window waits"):
            self.loop.drop(name)
        was_told = self.display.row.told == OPENING
        dropped, self.unsaid = self.held_keys(), ""
        self.is_opening = self.is_late = False
        self.views.acts.modes.remove(self.mode)
        if [key.name for key in dropped if key.name in ("paste", "pasted")][-1:] == ["paste"]:
            # The rest of it isn't typed either.
            self.views.acts.refuse_paste(why + DROPPED)
        if why:
            self.display.row.tell(why + DROPPED * bool(dropped), SAID)
        elif was_told:
            self.display.row.end_told()

    def hold(self, key: Key) -> bool:
        """Queue a key, and return True if it has to wait.

        Once the user was informed of a delay, C-c no longer waits. Mouse events never wait.
        """
        if key.name == INTERRUPT and self.is_late:
            self.end_opening(NOT_AWAITED)
            return False
        if key.name != MOUSE:
            self.held.append(key)
            self.held_size += len(key.text)
        return key.name != MOUSE

    def held_keys(self) -> list[Key]:
        """Remove and return the waiting keys."""
        held, self.held, self.held_size = self.held, [], 0
        return held

    def is_full(self) -> bool:
        """Return True if too much input waits to accept more."""
        return len(self.held) >= MOST_KEYS or self.held_size >= MOST_TEXT


# The most characters of the reason that no window was opened.
LONGEST_WHY = 200


def opened_by(line: str) -> tuple[int, str] | None:
    """Return the window that a line reports as opened for this terminal, or 0 and a reason; None if it is another line."""
    word, _, rest = line.partition(" ")
    if word != OPENED:
        return None
    if rest.startswith("none "):
        why = rest[len("none ") :]
        return (0, printable(why)) if 0 < len(why) <= LONGEST_WHY and "\n" not in why else None
    number = decimal_in(rest, MOST_WINDOWS)
    return (number, "") if number else None


ONE = "there is only one window"
FAR = f"{ONE}: the session there was started by hand"
BY_HAND = f"{ONE}: the session was started by hand"
NOBODY = "the pty host is not connected"


class AskedName(AskedLine):
    """The name that a user enters for a window."""

    def __init__(self, number: int, name: str) -> None:
        super().__init__(f"name of window {number}", name, LONGEST_NAME)

    def bounded(self, text: str) -> str:
        """Return the part of a text that fits a name."""
        return text[: self.most].encode("utf-8", "replace")[:LONGEST_BYTES].decode("utf-8", "ignore")


class WindowWishes:
    """The windows of a session at one front end. A session limited to one window has none here."""

    def __init__(self, views: WindowViews, link: HostLink) -> None:
        self.views, self.link, self.display, self.loop = views, link, views.display, views.loop
        self.told = WindowsState()
        # The previous windows, the last one at the end.
        self.visited: list[int] = []
        # The numbers of the windows whose labels are in the last row.
        self.shown: list[int] = []
        self.waiting = WindowOpening(views, self.numbers, self.go_to, lambda line: self.asks(line, self.here()),
                                     lambda: views.commands.lists.show_windows(self.all_described(), self.here()))

    def begin(self) -> None:
        """Subscribe to windows, if there may be some."""
        if self.views.number:
            self.link.follow_windows(self.take, self.told.begin, self.lose)
            self.show()

    # ---- current windows

    def here(self) -> int:
        """Return the current window."""
        return self.views.number

    def numbers(self) -> list[int]:
        """Return the numbers of the windows; those in the session's folder until a report comes."""
        if self.told.is_whole:
            return self.told.numbers()
        with suppress(Fault):
            return [window.number for window in self.views.acts.session.windows() if window.number]
        # They are unreadable now.
        return [self.here()]

    def last(self) -> int:
        """Return the previous window; 0 if it is gone, or there was none."""
        numbers = self.numbers()
        return next((number for number in reversed(self.visited) if number in numbers and number != self.here()), 0)

    def described(self, number: int) -> str:
        """Return a window's line in a list: its label, and its program."""
        runs = self.told.runs.get(number, "")
        label = self.told.label(number, self.here(), self.last())
        return f"{label}  {runs}" if runs and self.told.names.get(number) else label

    def all_described(self) -> dict[int, str]:
        """Return the lines of all windows in a list."""
        return {number: self.described(number) for number in self.numbers()}

    def why_one(self) -> str:
        """Return the reason that this session has only one window; nothing if it may have others."""
        if not self.views.number:
            return FAR if self.views.view.session.served == "relay" else BY_HAND
        return ""

    # ---- reports

    def take(self, lines: list[str]) -> None:
        """Take the host's lines."""
        self.waiting.say_unsaid()
        for line in lines:
            opened = opened_by(line)
            if opened:
                self.waiting.opened(*opened)
                continue
            gone = self.told.take(line)
            if gone is not None and line.startswith(f"{BELL} ") and not line.startswith(f"{BELL} {self.here()} "):
                self.display.outer.ring()
            for number in gone or ():
                self.gone(number)
        self.show()

    def lose(self) -> None:
        """Continue with the last reports until the next connection. The request for a window is repeated then, and means the same window.

        The connection of a remote session is cut whenever its relay changes its transport.
        """
        self.waiting.lose(NOBODY)

    def show(self) -> None:
        """Show the windows in the last row, and in an open list of them."""
        self.told.seen(self.here())
        numbers, here, last = self.numbers() if self.views.number else [], self.here(), self.last()
        self.shown = numbers
        labels = [self.told.label(number, here, last) for number in numbers]
        place = numbers.index(here) if here in numbers else 0
        display = self.display
        if display.row.windows != (labels, place) or display.row.status:
            # A settings file may show more of a name than a label does.
            display.row.windows = labels, place
            display.row.put()
        lists = self.views.commands.lists
        if lists.kind == "windows":
            lists.refresh_windows(self.all_described())

    def gone(self, number: int) -> None:
        """If the current window is gone, go to the previous one, else to the one with the nearest number. The last one's end is the
        session's.
        """
        self.visited = [one for one in self.visited if one in self.numbers()]
        if number == self.here():
            self.leave(number)
        self.views.forget(number)

    def leave(self, number: int) -> bool:
        """Go to the window before one that is gone, or to the one with the nearest number; return True if there is one."""
        others = [one for one in self.numbers() if one != number]
        nearest = sorted(others, key=lambda one: (abs(one - number), one))
        for one in [*(one for one in reversed(self.visited) if one in others), *nearest]:
            if self.views.reached(one):
                self.go_to(one)
                self.visited = [before for before in self.visited if before != number]
                self.display.row.tell(f"window {number} is gone", SAID)
                return True
        return False

    # ---- requests

    def grant(self, wish: str) -> None:
        """Carry out a user's request about windows: to go to one, or a change that a read-only user may not make."""
        word, _, what = wish.partition(" ")
        does: dict[str, Callable[[], object]] = {
            "list": self.waiting.list_all, "new": self.waiting.open, "name": self.ask_name, "shut": self.ask_shut}
        why = self.why_one()
        if why:
            self.display.row.tell(why, SAID)
        elif word == "go":
            self.go_by(what)
        elif what in does and (what == "list" or not self.views.link.is_read_only):
            does[what]()

    def go_by(self, what: str) -> None:
        """Go to the next window, the previous one in order, the last one, or one by number."""
        numbers, here = self.numbers(), self.here()
        if what == "last":
            self.go_to(self.last(), "there is no last window")
        elif what == "asked":
            self.views.acts.ask_line(AskedLine("window", most=2), "window")
        elif what in ("next", "previous"):
            others = [number for number in numbers if number != here]
            others = [number for number in others if (number > here) == (what == "next")] or others
            self.go_to((others[0] if what == "next" else others[-1]) if others else 0, "there is no other window")
        else:
            number = int(what) if what.isascii() and what.isdigit() else 0
            self.go_to(number if number in numbers else 0, f"there is no window {what}")

    def go_to(self, number: int, why: str = "") -> None:
        """Go to a window, or show the reason for 0."""
        here = self.here()
        if number == here:
            return
        try:
            if not number:
                raise Fault(why)
            self.views.go(number)
        except (Fault, OSError) as fault:
            self.display.row.tell(printable(reason(fault)), SAID)
            return
        self.visited = [*(one for one in self.visited if one not in (here, number)), here]
        self.show()

    def go_to_shown(self, place: int) -> None:
        """Go to the window whose label is at a position in the last row."""
        self.go_to(self.shown[place])

    def asks(self, line: str, number: int = SESSION) -> bool:
        """Send a line about a window, or about the session, to the host, and return True if it is connected."""
        if self.link.peer:
            self.link.ask(line, number)
        return self.link.peer is not None

    def say(self, line: str) -> bool:
        """Send a line to the host, and return True if it is connected; else show a message."""
        is_there = self.asks(line)
        if not is_there:
            self.display.row.tell(NOBODY, SAID)
        return is_there

    # ---- names, and closing

    def ask_name(self) -> None:
        """Ask for the name of the current window."""
        number = self.here()
        asked = AskedName(number, self.told.names.get(number, ""))
        self.views.acts.ask_line(asked, f"name {number}")

    def ask_shut(self) -> None:
        """Close the current window. If a program runs there, or it is the last one, ask first."""
        number, busy = self.here(), self.views.acts.session.busy()
        is_last = self.numbers() in ([], [number])
        runs = "" if busy == {} else f", with {told(busy)}" if busy else ", with its programs"
        if not runs and not is_last:
            self.say(f"shut {number}")
            return
        end = " and the session, whose last it is" if is_last else ""
        self.views.acts.ask(f"close window {number}{runs}{end}? y closes it", SendRequest(f"shut {number}"))
