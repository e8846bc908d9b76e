"""A user's front end of a session: a terminal connected to the session's client process, until the user leaves or the session ends."""
from __future__ import annotations

import time

from roam_live.common.errors import all_done
from roam_live.common.io import read
from roam_live.common.late_modules import LateModules
from roam_live.common.process import unwoken
from roam_live.common.signals import signal
from roam_live.frontend.bindings import Keymap, defaults
from roam_live.frontend.connection import PROBES, SIZES, Connecting
from roam_live.frontend.first_painting import LEAVING, FirstPainting
from roam_live.frontend.interpreter import Interpreter
from roam_live.frontend.modes import ModeStack
from roam_live.frontend.settings import FrontSettings, StatusRow, format_values
from roam_live.frontend.surroundings import advice
from roam_live.frontend.window_views import LOSS_TOLD, ViewMaker, WindowView, WindowViews
from roam_live.frontend.windows import WindowWishes
from roam_live.protocol.client_link import LAST_WAIT
from roam_live.protocol.host_link import HostLink
from roam_live.protocol.panes import Places
from roam_live.session.environment import environment_lines
from roam_live.session.host_watchdog import HostWatchdog

TYPE_CHECKING = False
if TYPE_CHECKING:
    from collections.abc import Callable

    from roam_live.frontend.command_line import CommandRunner
    from roam_live.protocol.session_interface import AnySession

# Seconds after its start until a front end opens the modules that it imports later.
LATE = 0.2

# The least seconds for each of several clients to take the input typed before a detach.
LEAST_WAIT = 0.1

# Seconds until a front end looks again if it may give way to one of the build that runs the session.
LOOKS_AGAIN = 1.0

# The message of a front end that another one detached.
DETACHED = "[detached by another terminal]"

# This is added for a paste that could not be stored any more.
UNPASTED = " the last paste was not typed"


class FrontEnd:
    """A user at a terminal, and the session there: at one of its windows if it has several."""

    def __init__(self, session: AnySession, is_read_only: bool, prefix: str, prediction: str, is_new: Callable[[Places | None], bool],
                 first: FirstPainting, has_mouse: bool = False, has_clips: bool = False) -> None:
        self.session, self.first, self.loop = session, first, first.loop
        self.left: str | None = None
        self.left_at: float | None = None
        self.status = 0
        # True once something was typed, and once the session has ended.
        self.has_typed = self.has_ended = False
        # True once a front end of another build follows this one, at the same window.
        self.gives_way = False
        self.command_runner: CommandRunner | None = None
        self.wakeup, self.display = first.wakeup, first.display
        self.late = LateModules()
        self.watchdog = HostWatchdog(session, self.loop, lambda line: self.display.row.tell(line, LOSS_TOLD))
        self.keyboard = Interpreter(ModeStack(Keymap()), self.display, self.loop, lambda: self.views.view.commands, lambda: self.windows)
        # The name of a session without its window, which changes.
        self.name = session.name.removesuffix(f":{session.number}")
        status_row = StatusRow(self.display, self.loop, self.values, self.name if session.number else "")
        self.settings = FrontSettings(self.keyboard, status_row, prefix, prediction)
        self.host_link = HostLink(session.common, self.loop, self.display.outer.size, is_read_only,
                                  lambda process: session.is_peer("host", process))
        self.host_link.environment = environment_lines(session, is_read_only)
        maker = ViewMaker(self.keyboard, self.settings, self.host_link, self.leave, is_read_only, first.is_whole,
                          has_clips and not is_read_only)
        self.views = WindowViews(maker, session, is_new, first.link)
        self.windows = WindowWishes(self.views, self.host_link)
        self.connection = Connecting(self.views, self.windows.leave)
        first.says = self.connection.say
        self.join_parts()
        self.keyboard.choose(prefix)
        self.views.commands.pointing.is_on = has_mouse
        self.windows.begin()
        self.join()

    def join_parts(self) -> None:
        """Connect the parts' calls to one another."""
        views, keyboard, windows = self.views, self.keyboard, self.windows
        views.server_ends, views.shows = self.server_ended, self.connection.show
        self.host_link.leaves, self.host_link.shows = lambda: self.leave(DETACHED), windows.go_to
        self.host_link.others_left, self.host_link.upgraded = keyboard.others_left, self.give_way
        windows.waiting.types = keyboard.typed
        keyboard.left_window = views.left_commands
        keyboard.enters, keyboard.runs = lambda text: self.runner.typed(text), lambda wish: self.runner.run_wish(wish)
        self.settings.all_commands, self.settings.runs = views.all_commands, lambda commands: self.runner.run_all(commands)

    @property
    def runner(self) -> CommandRunner:
        """Return the command runner, which is loaded on first use."""
        if not self.command_runner:
            from roam_live.frontend.command_line import CommandRunner

            self.command_runner = CommandRunner(self.keyboard, self.settings)
        return self.command_runner

    def values(self) -> dict[str, str]:
        """Return the values of the words in formats."""
        views, is_zoomed = self.views, self.display.part.zoomed is not None
        return format_values(self.name, views.number, self.windows.told, views.view.panes, is_zoomed)

    def server_ended(self, view: WindowView) -> None:
        """Continue in another window after the end of this one's server; without another one the session has ended."""
        view.watch_no_more(self.loop)
        # For a remote session the relay is the server, which all windows share.
        if view.session.served == "relay" or not (view.number and self.windows.leave(view.number)):
            self.has_ended = True
            self.leave(*view.session.ending())

    def has_ended_unmet(self) -> bool:
        """Return True if the session ended as intended before its host reported anything here, and before anything was typed."""
        return self.has_ended and not (self.status or self.has_typed or self.host_link.host_name)

    def join(self) -> None:
        """Add signals, input, and the terminal's output to the loop."""
        outer = self.display.outer
        self.loop.add(self.wakeup, self.signalled)
        self.loop.add(0, self.typed, hears=lambda: not (self.views.link.is_stuffed() or self.views.commands.is_full()))
        self.loop.add(outer.end, None, self.show, has_more=outer.has_more)

    def leave(self, line: str | None, status: int = 0) -> None:
        """End with a line; None continues."""
        if line is not None and self.left is None:
            self.left, self.status = line, status
            self.watchdog.stop()

    def give_way(self) -> None:
        """Leave for a front end of the build that now runs this machine's session, once nothing is open here that it would not show."""
        if not self.session.tools_folder():
            return
        view = self.views.commands
        if view.copy_mode or self.display.part.popup or self.display.part.zoomed is not None or self.display.notice:
            self.loop.later("give way", LOOKS_AGAIN, self.give_way)
        elif self.left is None:
            self.gives_way = True
            self.leave("")

    # ---- the terminal

    def resized(self) -> None:
        """Handle a new size of the terminal."""
        self.display.outer.is_known = False
        self.views.commands.follower.resized()
        self.display.resized()
        self.loop.later("size", 0.0 if self.views.commands.follower.is_fresh() else SIZES, self.views.commands.follower.fit)

    def continued(self) -> None:
        """Take the terminal again, which another process may have used."""
        self.display.enter_again()
        self.views.commands.show_metadata()
        self.resized()

    def suspended(self, numbers: bytes) -> bytes:
        """Release the terminal, stop, and take it again, unless a signal ends this process.

        Return the unhandled signals, of these and of those that arrived meanwhile.
        """
        self.display.outer.suspend()
        numbers += read(self.wakeup) or b""
        # A process ended while it is stopped may be in the background. To take the terminal there would stop it again.
        if not any(number in LEAVING for number in numbers):
            self.continued()
        return bytes(number for number in numbers if number not in (signal.SIGTSTP, signal.SIGCONT))

    def signalled(self) -> None:
        """Handle the signals that arrived."""
        numbers = read(self.wakeup) or b""
        if signal.SIGTSTP in numbers and self.left is None:
            numbers = self.suspended(numbers)
        for number in numbers:
            if number == signal.SIGWINCH:
                self.resized()
            elif number == signal.SIGCONT:
                self.continued()
            elif number in LEAVING:
                self.leave("[terminated]", 128 + number)

    # ---- the loop

    def turn(self) -> None:
        """Wait until something is ready, and handle it. Send results at once if possible, since the user waits for each key."""
        try:
            self.loop.turn()
        except ImportError:
            self.views.commands.tell_replaced()
        view, outer = self.views.view, self.display.outer
        if view.panes.has_application_keypad != outer.is_application:
            outer.set_keypad(view.panes.has_application_keypad)
        if view.panes.wants_focus != outer.outer_modes.has_focus:
            outer.ask_focus(view.panes.wants_focus and not view.link.is_read_only)
        if view.link.waiting and view.link.peer:
            self.connection.send()
        if outer.waiting or outer.clip.newest:
            self.show()
        if self.views.draining.views and not self.display.part.is_stale:
            self.views.draining.settle()

    def typed(self) -> None:
        """Read input."""
        chunk = read(0)
        if chunk == b"":
            self.leave("", 1)
        self.has_typed = self.has_typed or bool(chunk)
        self.keyboard.fed(chunk or b"")
        self.watchdog.typed()

    def show(self) -> None:
        """Write as much as the terminal accepts. If it is gone, this front end ends."""
        if not self.display.outer.put():
            self.leave("", 1)

    def ask_colours(self) -> None:
        """Query the terminal's colours if a host may need them."""
        if self.session.folder and not self.views.link.is_read_only:
            self.display.outer.ask_colours()

    def part(self) -> None:
        """Close the connections. After a detach the clients get the typed input, all of them within so many seconds."""
        links = [self.views.link, *(view.link for view in self.views.draining.views.values())]
        end = time.monotonic() + LAST_WAIT
        for link in links if self.left is not None else []:
            if link.part(max(LEAST_WAIT, end - time.monotonic())) and link is self.views.link:
                self.views.commands.zooming.drop_note()
        for link in links:
            link.close()

    def hands_over(self) -> bool:
        """Return True if a paste is still being stored after a detach. The front end waits for that, as for the last input."""
        if self.left_at is None:
            self.left_at = self.loop.clock()
            self.loop.later("left", LAST_WAIT, lambda: None)
        return self.views.hands_over() and self.loop.clock() < self.left_at + LAST_WAIT

    def begin_late(self) -> None:
        """Import the late modules now, in case roam's files change. Keys after the prefix need some of them anyway."""
        self.late.begin()
        if not self.late.bundle:
            defaults()

    def run(self) -> int:
        """Follow the session until the user detaches or it ends, and return the status."""
        try:
            self.loop.later("late", LATE, self.begin_late)
            self.ask_colours()
            self.settings.tell(advice(self.settings.prefix))
            self.connection.begin(self.first.records)
            if self.views.view.server is None:
                self.loop.later("probe", PROBES, self.connection.probe)
            while self.left is None or self.hands_over():
                self.turn()
        finally:
            self.end()
        return self.status

    def end(self) -> None:
        """Release the terminal and the session.

        The typed input is sent first, in case the terminal accepts nothing. A signal ends whatever hangs afterwards.
        """
        outer, left = self.display.outer, self.left
        all_done(self.views.commands.left, lambda: outer.begin_leave(left and left + UNPASTED * self.views.hands_over()), self.part,
                 outer.end_leave, self.late.end, lambda: unwoken(*LEAVING))
