"""A front end's connection to the client process of the user's window.

It reconnects after a loss, and the user gets a message if typed lines are not taken.
"""
from __future__ import annotations

import os

from roam_live.common.event_loop import Loop
from roam_live.frontend.bindings import NEWEST
from roam_live.frontend.last_row import LastRow
from roam_live.frontend.modes import ScrollMode
from roam_live.frontend.window_views import WindowViews
from roam_live.protocol.client_link import ClientLink
from roam_live.protocol.display_records import DisplayRecord

TYPE_CHECKING = False
if TYPE_CHECKING:
    from collections.abc import Callable

# The name of the timer for the check, and the seconds between checks.
MOMENT = "untaken"
LOOKS = 1.0

# No line was taken for so many seconds although the server is alive: it keeps acts for which it has no memory, and all later ones. A
# painting or an answer shows that it is alive. A server on this machine is asked. Otherwise the front end waits until a silence of the
# server would have been reported, after ten seconds.
UNTAKEN = 2.0
UNTAKEN_SILENTLY = 12.0

NO_KEYS = "the server accepts no keys; it may be out of memory"
NOT_TAKEN = "no keys are accepted: the server may be out of memory, or the client process stopped"


class UntakenLines:
    """Checks how long no line was taken while some wait.

    `link` returns the link to the client process of the user's window. `asks` asks the server for a sign of life, and `answered` takes it.
    """

    def __init__(self, link: Callable[[], ClientLink], row: LastRow, loop: Loop, asks: Callable[[], object] = lambda: None) -> None:
        self.link, self.row, self.loop, self.asks = link, row, loop, asks
        # The observed link, the number of lines taken, the start of the current pause, and the moment of the last painting or answer.
        self.counted: ClientLink | None = None
        self.taken = 0
        self.since = self.painted = self.alive = 0.0

    def note_sent(self) -> None:
        """Record that a line is sent."""
        if MOMENT not in self.loop.due:
            self.count()
            self.loop.later(MOMENT, LOOKS, self.look)

    def answered(self) -> None:
        """Record that the server answered."""
        self.alive = self.loop.clock()

    def count(self) -> None:
        """Start counting now."""
        self.counted, self.taken, self.since = self.link(), self.link().taken, self.loop.clock()

    def look(self) -> None:
        """Inform the user if no line was taken for long, until one is; check again while lines aren't taken."""
        link = self.link()
        if link is not self.counted or link.taken != self.taken:
            self.count()
        why = self.why()
        if why and self.row.told in ("", NO_KEYS, NOT_TAKEN):
            self.row.tell(why, None)
        elif not why and self.row.told in (NO_KEYS, NOT_TAKEN):
            self.row.end_told()
        if link.peer and not link.is_done():
            self.asks()
            self.loop.later(MOMENT, LOOKS, self.look)

    def why(self) -> str:
        """Return the reason that no line is taken; "" if lines are taken, or if a silence of the server explains it."""
        link, waits = self.link(), self.loop.clock() - self.since
        if not link.peer or link.is_done() or self.row.silent:
            return ""
        if waits >= UNTAKEN and self.painted >= self.since + LOOKS:
            return NO_KEYS
        is_alive = waits >= UNTAKEN and self.alive >= self.since + LOOKS
        return NOT_TAKEN if is_alive or waits >= UNTAKEN_SILENTLY else ""


# Bytes that may wait for the terminal before paintings stay unread.
PAINTED_LIMIT = 1 << 16

# During a resize by mouse a terminal has hundreds of sizes. The session gets one that has lasted for so many seconds. A smaller size in
# between would cut its lines.
SIZES = 0.3

# Seconds between checks for a server whose process is unknown.
PROBES = 2.0

# Seconds for which a message about lost input is shown.
LOSS_TOLD = 3.0


class Connecting:
    """The connection of one front end. A call moves to another window if the user's window has gone, and returns True if it does."""

    def __init__(self, views: WindowViews, leaves_window: Callable[[int], bool]) -> None:
        self.views, self.leaves_window, self.display, self.loop = views, leaves_window, views.display, views.loop
        self.untaken = UntakenLines(lambda: views.link, self.display.row, self.loop, self.ask_server)

    def begin(self, records: list[DisplayRecord]) -> None:
        """Continue with the connection of the first painting and its records; without one, connect."""
        if not self.views.link.peer:
            self.connect()
            return
        self.views.view.reconnector.connected()
        self.follow_window()
        for record in records:
            self.note(record)

    def connect(self) -> None:
        """Connect to the client. If that fails now, retry later, and let the user detach."""
        view = self.views.view
        failed = view.reconnector.connect()
        if failed and self.is_window_gone() and self.leaves_window(view.number):
            return
        if failed:
            wait, said = failed
            self.loop.later("connect", wait, self.connect)
            if said:
                self.pause(said, wait)
            return
        loss = view.reconnector.connected()
        self.show_window()
        if loss:
            view.commands.follower.request_again()
            self.display.row.tell(loss, LOSS_TOLD)

    def is_window_gone(self) -> bool:
        """Return True if the folder of the user's window is gone. For a remote window the report may come too late."""
        folder = self.views.view.session.folder
        return bool(self.views.number and folder and not os.path.isdir(folder))

    def show(self) -> None:
        """Request a painting of the user's window once there is a connection."""
        if self.views.link.peer:
            self.show_window()
        else:
            self.connect()

    def show_window(self) -> None:
        """Request the wanted painting from a connected client."""
        self.display.notice = ""
        self.display.begin()
        self.follow_window()

    def follow_window(self) -> None:
        """Subscribe to the reports of a connected client, and request the view."""
        link, commands = self.views.link, self.views.commands
        self.loop.add(link, self.hear, self.send, hears=lambda: len(self.display.outer.waiting) < PAINTED_LIMIT,
                      has_more=lambda: link.waiting)
        commands.acts.paused = False
        commands.show_known()
        commands.follower.fit_first()
        commands.acts.act(*([] if commands.modes.has(ScrollMode) else [NEWEST]))

    def pause(self, said: str, wait: float) -> None:
        """Show the reason for the interruption for so many seconds."""
        self.views.acts.paused = wait >= 1
        self.display.show(f"{said}; next try in {wait} s" + ("; C-c or q leaves" if wait >= 1 else ""))

    def lost(self) -> None:
        """Continue without the connection, and reconnect: at once the first time, else after a growing pause."""
        reconnector = self.views.view.reconnector
        self.loop.remove(self.views.link)
        said, wait = reconnector.lost(), reconnector.pause()
        self.loop.later("connect", wait, self.connect)
        if reconnector.retry.faults > 1:
            self.pause(said, wait)

    def probe(self) -> None:
        """Check that the server is there; without it the client ends."""
        self.loop.later("probe", PROBES, self.probe)
        self.views.view.session.is_served()

    # ---- input and output

    def say(self, line: str) -> None:
        """Send a line about the view if there is a client. Every new connection gets it anew."""
        if self.views.link.peer:
            self.views.link.say(line)

    def hear(self) -> None:
        """Read the client's reports."""
        records = self.views.link.read_events()
        if records is None:
            self.lost()
            return
        for record in records:
            self.take(record)

    def take(self, record: DisplayRecord) -> None:
        """Take a record."""
        self.display.take(record)
        self.note(record)

    def note(self, record: DisplayRecord) -> None:
        """Take a record. Without other reports, the size of the painting may reveal that of the session."""
        if record.word in ("paint", "anew"):
            self.untaken.painted = self.loop.clock()
        elif record.word == "size":
            follower = self.views.commands.follower
            if not follower.is_fitted and "size" not in self.loop.due:
                self.loop.later("size", SIZES, follower.fit_first)

    def send(self) -> None:
        """Send as much as the client accepts."""
        self.untaken.note_sent()
        if not self.views.link.send():
            self.views.link.hear_last()
            self.lost()

    def ask_server(self) -> None:
        """Ask the server for a sign of life, if it runs on this machine: a relay would answer in its place."""
        if self.views.view.session.served != "relay":
            self.views.view.panes.probe(self.untaken.answered)
