"""The windows of a session at its host: each is a server with its client, in a folder of its own, and shells in its panes."""
from __future__ import annotations

import functools
import os

from roam_live.common.build_info import identity
from roam_live.common.errors import Fault, reason, say
from roam_live.common.files import replace_text
from roam_live.common.process import note_ends
from roam_live.common.signals import signal
from roam_live.common.suppress import suppress
from roam_live.common.tty import LEAST
from roam_live.common.unix_socket import connected_now
from roam_live.config.user_file import OWN
from roam_live.host.common import Common
from roam_live.host.hosted_window import ENDING, OPENING, OPENS, THERE, HostedWindow, SizeAct, WindowProcesses
from roam_live.host.options import Options
from roam_live.host.pane_hold import drop_left
from roam_live.host.repair import Mending
from roam_live.host.scrollback import pane_of_key
from roam_live.host.socket_server import RECONNECTS
from roam_live.host.state import WindowState
from roam_live.host.upgrade import HostUpgrade
from roam_live.host.window import WindowHost
from roam_live.host.window_commands import WindowLines
from roam_live.protocol.spawn_request import of_first_window, unpacked
from roam_live.protocol.window_lines import ACTIVITY, BELL, GONE, MOST_WINDOWS, RUNS
from roam_live.session.foreground import working_folder
from roam_live.session.names import numbers_in, windows_folder
from roam_live.session.roles import CLIENT, SERVER
from roam_live.session.tmp_keepalive import Lasting

TYPE_CHECKING = False
if TYPE_CHECKING:
    from collections.abc import Callable

    from roam_live.common.tty import Size
    from roam_live.protocol.spawn_request import Begins

# Seconds between two checks of a starting or ending window; until a window has to be gone; and for all windows together.
STEP = 0.004
ENDS = 1.0
ALL_END = 1.5 * ENDS

# Seconds from a subscription to windows, or an opened window, to the spawn of a spare server for the next one.
READY = 1.0
AGAIN = 1.0

# Seconds between two activity reports of a window. The server reports a pane's bell once a second at most.
APART = 1.0

# The errors of a socket at which somebody may soon listen.
SOON_THERE = (FileNotFoundError, ConnectionRefusedError, BlockingIOError)
FULL = f"a session has at most {MOST_WINDOWS} windows"
OVER = "the session ends"


class Windows:
    """All windows of a session. The last one's end is the session's."""

    def __init__(self, asked: Options, common: Common) -> None:
        self.asked, self.common, self.loop = asked, common, common.loop
        self.folder = windows_folder(asked.common)
        self.state = common.state
        self.windows: dict[int, HostedWindow] = {}
        # The reason that there is no first window.
        self.refusal = ""
        # A spare server for the next window, and the moment of its spawn. It has no client, so it sleeps, and nobody sees it.
        self.spare: WindowProcesses | None = None
        self.spared_at = 0.0
        self.lasting = Lasting(asked.common)
        mending = Mending(self)
        common.see_to(mending.look)
        common.link.notes = mending.note_holder
        mending.note_holder()
        common.see_to(self.make_last)
        self.lines = common.socket.lines = WindowLines(self, common.socket)
        self.upgrade = HostUpgrade(self)
        # No pane may inherit them, also those of a later host.
        begins = of_first_window()
        if asked.is_first:
            self.await_first(begins)
        else:
            self.take_over()

    # ---- requests

    def named(self) -> dict[int, str]:
        """Return the open windows, and their names."""
        return {number: one.state.name for number, one in self.windows.items() if one.stage == THERE}

    def open(self, size: Size | None, beside: int, told: Callable[[int, str], object], begins: Begins | None = None,
             request: str = "") -> None:
        """Open a window, optionally of a size, beside another, with start options. The callback gets its number, or 0 and a reason.

        The name of the request, if it has one, and the options are in the state before anything is started.
        """
        number = self.free_number()
        if not number or self.common.is_over:
            told(0, OVER if number else FULL)
            return
        window = self.add(self.taken_spare(number) or WindowProcesses(self.asked.common, WindowState(number=number)), told)
        window.has_client = size is not None
        window.size = (max(size[0], LEAST[0]), max(size[1], LEAST[1])) if size else None
        window.begins, window.begins_in = begins, begins and begins.folder or self.folder_beside(beside)
        window.state.request = request
        if request:
            window.state.begins = begins.packed() if begins else b""
            self.common.kept.write()
        self.begin(window)

    def add(self, processes: WindowProcesses, told: Callable[[int, str], object]) -> HostedWindow:
        """Add a window. A call reports that it is open."""
        window = self.windows[processes.number] = HostedWindow(processes, told)
        self.state.windows[processes.number] = processes.state
        return window

    def of_request(self, request: str) -> HostedWindow | None:
        """Return the window that a request has opened, or is opening; None if there is none."""
        return next((window for window in self.windows.values() if request and window.state.request == request), None)

    # ---- the spare server

    def await_spare(self) -> None:
        """Schedule a spare server if somebody may open a window."""
        self.loop.later("spare window", READY, self.prepare)

    def prepare(self) -> None:
        """Spawn a spare server in the folder of the next window. If that fails, the next request spawns one."""
        if self.spare and not self.spare.runs(SERVER):
            self.spare.clean()
            self.spare = None
        number = self.free_number()
        if self.spare or not number or self.common.is_over or not self.lines.has_asked():
            return
        spare = WindowProcesses(self.asked.common, WindowState(number=number))
        try:
            self.lasting.demand()
            spare.make_folder()
            spare.mark_spare(True)
            self.common.hung.append(spare.spawn_server())
        except (OSError, Fault):
            spare.clean()
            return
        self.spare, self.spared_at = spare, self.loop.clock()

    def free_number(self) -> int:
        """Return the smallest unused window number; 0 if there is none."""
        return next((one for one in range(1, MOST_WINDOWS + 1) if one not in self.windows), 0)

    def taken_spare(self, number: int) -> WindowProcesses | None:
        """Return the spare server for a window of this number and turn it into that window's; None without a spare."""
        spare = self.spare
        if not spare or spare.number != number:
            return None
        self.spare = None
        is_there = os.path.exists(spare.path("session")) and os.path.exists(spare.path("panes"))
        if spare.runs(SERVER) and (is_there or self.loop.clock() < self.spared_at + OPENS):
            with suppress(OSError):
                spare.mark_spare(False)
                return spare
        # A cleaner of old files may have removed its files.
        spare.end(signal.SIGKILL)
        spare.clean()
        return None

    def end_spare(self) -> None:
        """End the spare server in the manner of a window."""
        if self.spare:
            spare, self.spare = self.spare, None
            self.end(self.add(spare, lambda number, why: None), is_meant=True)

    def folder_beside(self, number: int) -> str:
        """Return the folder for a window's first command: that of the foreground program in another window's focused pane."""
        host = self.windows[number].host if number in self.windows else None
        pane = host.panes.get(host.state.focus) if host else None
        return working_folder(pane.in_front()) if pane else ""

    def rename(self, number: int, name: str) -> bool:
        """Name a window; return False if it does not exist."""
        window = self.windows.get(number)
        if not window or window.stage != THERE:
            return False
        window.state.name = name
        try:
            window.processes.note_name()
        except OSError as fault:
            say(f"window {number}: its name cannot be stored: {reason(fault)}")
        self.lines.tell_window(number)
        return True

    def shut(self, number: int) -> bool:
        """End a window; return False if it does not exist."""
        window = self.windows.get(number)
        if not window or window.stage != THERE:
            return False
        self.end(window, is_meant=True)
        return True

    def in_front(self) -> dict[int, str]:
        """Return the foreground programs of the windows' focused panes, as far as known, and look them up from now on."""
        self.await_spare()
        for window in self.windows.values():
            if window.host:
                window.host.look_at_fronts()
        return {number: one.state.program for number, one in sorted(self.windows.items()) if one.state.program and one.stage == THERE}

    def came(self, number: int) -> None:
        """Record the window that a terminal visits, which is the default of later attaches."""
        if number != self.state.last_window:
            self.state.last_window = number
            with suppress(OSError):
                self.note_last()

    def note_last(self) -> None:
        """Record the window used last."""
        replace_text(os.path.join(self.folder, "last"), f"{self.state.last_window}\n")

    # ---- opening

    def take_over(self) -> None:
        """Adopt the windows of an ended host whose servers run, and remove the rest of the others."""
        for number in numbers_in(self.folder):
            processes = WindowProcesses(self.asked.common, self.state.windows.get(number) or WindowState(number=number))
            processes.find()
            if not processes.runs(SERVER) or processes.is_spare():
                self.drop_panes(processes.state)
                self.state.windows.pop(number, None)
                processes.end(signal.SIGKILL)
                processes.clean()
                continue
            window = self.add(processes, self.taken)
            window.is_again, window.has_client = True, False
            window.begins = unpacked(bytes(window.state.begins)) if window.state.begins else None
            self.common.socket.await_terminals()
            self.await_(window, OPENS)
        for number in self.state.windows.keys() - self.windows.keys():
            self.drop_panes(self.state.windows.pop(number))

    def drop_panes(self, window: WindowState) -> None:
        """Hang up the programs of a window that ended while there was no host."""
        for pane in window.panes.values():
            drop_left(self.common.link, pane.id)

    def await_first(self, begins: Begins | None) -> None:
        """Wait for the first window, whose server another process is about to spawn, with start options for its first pane."""
        window = self.add(WindowProcesses(self.asked.common, WindowState(number=1)), self.first)
        window.has_client, window.is_given = False, True
        window.begins, window.begins_in = begins, begins.folder if begins else ""
        self.await_(window, OPENS)

    def taken(self, number: int, why: str) -> None:
        """Handle an adopted window, or a failure."""
        if not number:
            say(f"cannot take over a window of the previous pty host: {why}")

    def begin(self, window: HostedWindow) -> None:
        """Open a window with its server."""
        try:
            self.lasting.demand()
            window.processes.make_folder()
            if not window.processes.runs(SERVER):
                self.common.hung.append(window.processes.spawn_server())
        except (OSError, Fault) as fault:
            self.fail(window, reason(fault))
            return
        self.await_(window, OPENS)

    def await_(self, window: HostedWindow, seconds: float) -> None:
        """Try the next step of a window until a deadline."""
        window.until = self.loop.clock() + seconds
        self.step(window)

    def step(self, window: HostedWindow) -> None:
        """Do the next steps of an opening window."""
        if window.stage != OPENING:
            return
        processes = window.processes
        if window.is_given:
            processes.read()
            window.is_given = SERVER not in processes.noted
        try:
            is_there = self.follow(window) and (window.is_again or self.has_come(window))
        except (OSError, Fault) as fault:
            self.fail(window, reason(fault))
            return
        if is_there:
            self.opened(window)
        elif not window.is_given and not processes.runs(SERVER):
            self.fail(window, "its server has ended")
        elif self.loop.clock() < window.until:
            self.loop.later(f"window {window.number} begins", STEP, lambda: self.step(window))
        elif window.is_again:
            # Its server may have been stopped.
            self.loop.later(f"window {window.number} begins", AGAIN, lambda: self.step(window))
        else:
            self.fail(window, "its server or its client process did not start")

    def follow(self, window: HostedWindow) -> bool:
        """Follow a window's panes, and spawn its client, once its server is there; return False until then."""
        processes = window.processes
        if window.host:
            return True
        if window.is_given:
            return False
        if not window.is_again and not os.path.exists(processes.path("session")):
            return False
        if window.has_client and not self.has_client(processes):
            return False
        try:
            peer = connected_now(processes.path("panes"))
        except SOON_THERE:
            return False
        try:
            asked = self.asked.of_window(window.number, processes.folder, processes.server(), window.is_again)
            size = (window.size[0] - 1, window.size[1]) if window.size else None
            window.host = WindowHost(asked, self.common, peer, size, window.begins_in, window.begins)
            window.host.tended = functools.partial(self.tell_news, window)
        except BaseException:
            peer.close()
            raise
        return True

    def has_client(self, processes: WindowProcesses) -> bool:
        """Return True if a window's client process runs. It is spawned under the session's lock, since `mux attach` may do that too."""
        if processes.runs(CLIENT):
            return True
        try:
            from roam_live.session.local import LocalSession

            lock = LocalSession(self.asked.common).taken_lock(may_wait=False)
        except BlockingIOError:
            return False
        except ImportError:
            # The files of roam were removed: no other process starts one either.
            lock = -1
        try:
            if not processes.runs(CLIENT):
                self.common.hung.append(processes.spawn_client())
        finally:
            if lock >= 0:
                os.close(lock)
        return True

    def has_come(self, window: HostedWindow) -> bool:
        """Return True if a window's client process accepts terminals, has got the window's size, and the first command runs."""
        if window.has_client and not self.is_sized(window):
            return False
        return window.host is not None and window.host.has_begun()

    def is_sized(self, window: HostedWindow) -> bool:
        """Return True if a window's client process accepts terminals. It then gets the requested size, once."""
        try:
            peer = connected_now(window.processes.path("terminals"))
        except SOON_THERE:
            if not window.processes.runs(CLIENT):
                raise Fault("its client process has ended") from None
            return False
        if window.size:
            window.sizes, window.size = SizeAct(self.loop, peer, window.size), None
        else:
            peer.close()
        return True

    def opened(self, window: HostedWindow) -> None:
        """Report an open window."""
        window.stage, window.state.begins = THERE, b""
        if window.host and window.host.awaited:
            self.loop.later(f"window {window.number} has its size", OPENS, window.host.await_no_more)
        if window.host:
            self.loop.soon(window.host.tend)
        if window.begins and window.begins.title:
            self.rename(window.number, window.begins.title)
        else:
            self.lines.tell_window(window.number)
        window.told(window.number, "")
        self.await_spare()

    def fail(self, window: HostedWindow, why: str) -> None:
        """Remove a window that failed to open, and report the reason."""
        say(f"cannot open window {window.number}: {why}")
        told, window.told = window.told, lambda number, why: None
        self.end(window, is_meant=True)
        told(0, why)

    # ---- closing

    def end(self, window: HostedWindow, is_meant: bool) -> None:
        """End a window: hang up its programs, and end its server and client, by force if they are late."""
        was_there = window.stage == THERE
        window.stage = ENDING
        for moment in (f"window {window.number} begins", f"news of window {window.number}"):
            self.loop.drop(moment)
        if is_meant and window.processes.server():
            note_ends(self.asked.common, [window.processes.ending()])
        if was_there:
            self.lines.tell(f"{GONE} {window.number}")
        if window.host:
            window.host.hang_up()
        if window.sizes:
            window.sizes.close()
        window.processes.end(signal.SIGTERM, SERVER)
        window.until = self.loop.clock() + ENDS
        self.step_end(window)

    def step_end(self, window: HostedWindow) -> None:
        """Wait for the end of a window's processes, and for its last output."""
        now, processes = self.loop.clock(), window.processes
        waits = [role for role in (SERVER, CLIENT) if processes.runs(role)]
        if waits and now >= window.until - ENDS / 2:
            processes.end(signal.SIGKILL if now >= window.until else signal.SIGTERM)
        leaves = any(pane_of_key(pane.rows.pane)[0] == window.number for pane in self.common.rows.leaving)
        if waits or leaves and now < window.until - ENDS / 2:
            self.loop.later(f"window {window.number} ends", STEP * 2, lambda: self.step_end(window))
            return
        if window.host:
            window.host.close()
        processes.clean()
        del self.windows[window.number], self.state.windows[window.number]
        self.common.is_over = self.common.is_over or not self.windows

    def end_all(self) -> None:
        """End all windows, and wait for that, up to their limit."""
        self.end_spare()
        for window in [one for one in self.windows.values() if one.stage != ENDING]:
            self.end(window, is_meant=True)
        end = self.loop.clock() + ALL_END
        while self.windows and self.loop.clock() < end:
            self.loop.turn()
        with suppress(OSError):
            os.unlink(os.path.join(self.folder, "last"))
        with suppress(OSError):
            os.rmdir(self.folder)

    # ---- news

    def tell_news(self, window: HostedWindow) -> None:
        """Report the news of a window: bells of panes, output without a terminal there, and its end."""
        host, now = window.host, self.loop.clock()
        if not host or window.stage != THERE:
            return
        for pane in sorted(host.rung):
            self.lines.tell(f"{BELL} {window.number} {pane}")
        host.rung.clear()
        state, in_focus = window.state, window.state.panes.get(window.state.focus)
        if in_focus and in_focus.program not in ("", state.program):
            state.program = in_focus.program
            self.lines.tell(f"{RUNS} {window.number} {state.program}")
        if host.has_news and window.has_terminals():
            # A terminal there has seen it.
            host.has_news = False
        elif host.has_news and now >= window.active_at:
            host.has_news, window.active_at = False, now + APART
            self.lines.tell(f"{ACTIVITY} {window.number}")
        elif host.has_news:
            self.loop.at(f"news of window {window.number}", window.active_at, functools.partial(self.tell_news, window))
        if host.is_over:
            if not host.is_meant:
                self.common.tell(f"window {window.number}: its server was killed, or has failed")
            self.end(window, is_meant=host.is_meant)

    def make_last(self) -> None:
        """Protect the session's folder from cleaners of old files."""
        self.lasting.look()

    def run(self) -> int:
        """Run the windows until the last of them ends. After a failure they go on, and another host takes them over."""
        if self.common.link.is_upgraded:
            self.common.take_children()
            self.common.tell(f"the session runs roam {identity()} now")
        elif self.common.link.is_resumed:
            say("this pty host replaces one that ended; the programs continue")
        if self.common.kept.notices:
            # The terminals have reconnected by then.
            self.loop.later("notices", RECONNECTS, self.tell_notices)
        if not self.windows and self.common.link.is_resumed:
            # The last window ended while there was no host.
            self.common.is_over = True
        elif not self.windows:
            self.open(None, 0, self.first)
        self.run_settings()
        self.common.link.guarded()
        while not self.common.is_over:
            self.loop.turn()
        self.end_all()
        self.common.close()
        if self.refusal:
            raise Fault(f"cannot open a window: {self.refusal}")
        return 0

    def tell_notices(self) -> None:
        """Tell what the end of an earlier host has cost."""
        for notice in self.common.kept.notices:
            self.common.tell(notice)

    def run_settings(self) -> None:
        """Run the shell commands of the settings file, once in a session's life."""
        is_new, self.state.has_run_settings = self.asked.is_first and not self.state.has_run_settings, True
        if is_new and OWN.found and OWN.found.runs:
            from roam_live.host.start_commands import StartCommands

            StartCommands(self.loop, OWN.found.runs, self.common.tell, self.common.link.most_files)

    def first(self, number: int, why: str) -> None:
        """Handle the first window, without which there is no session."""
        self.refusal = "" if number else why
