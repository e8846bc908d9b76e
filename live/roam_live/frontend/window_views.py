"""The windows of a session at one front end: the view of the current one, and earlier views until their input is taken."""
from __future__ import annotations

import os

from roam_live.common import tty
from roam_live.common.errors import Fault
from roam_live.common.event_loop import Loop
from roam_live.common.process import opened_process
from roam_live.frontend.commands import Commands
from roam_live.frontend.interpreter import Interpreter
from roam_live.frontend.settings import FrontSettings
from roam_live.frontend.sizes import NO_SIZE
from roam_live.frontend.window_acts import WindowActs
from roam_live.protocol.client_link import ClientLink, Reconnector
from roam_live.protocol.host_client import HostClient
from roam_live.protocol.host_link import HostLink
from roam_live.protocol.panes import Places
from roam_live.protocol.panes_client import AWAITED, PanesSubscriber

TYPE_CHECKING = False
if TYPE_CHECKING:
    from collections.abc import Callable

    from roam_live.protocol.session_interface import AnySession

# Seconds for which a message about lost input is shown.
LOSS_TOLD = 3.0

# The timer for the end of a server that had ended before it could be watched.
ENDED_BEFORE = "server has ended"


def opened_server(session: AnySession) -> int | None:
    """Return a pidfd of the process whose end is a window's; None if it has ended, or is unknown. Fault gives the reason of a failure."""
    process = session.process(session.served)
    return opened_process(process) if process else None


class WindowView:
    """The connections of a front end to one window."""

    def __init__(self, session: AnySession, link: ClientLink, reconnector: Reconnector, panes: PanesSubscriber, host: HostClient,
                 commands: Commands) -> None:
        self.session, self.link, self.reconnector, self.panes = session, link, reconnector, panes
        self.host, self.commands = host, commands
        self.number = session.number
        # The pidfd of the server, if its process is known.
        self.server: int | None = None

    # ---- the server

    def watch(self, loop: Loop, server: int | None, ends: Callable[[], object]) -> None:
        """Watch for the end of the window's server, by its pidfd. An end before this call counts as one now."""
        self.server = server
        if server is not None:
            loop.add(server, ends)
        elif self.session.has_met():
            loop.later(ENDED_BEFORE, 0.0, ends)

    def watch_no_more(self, loop: Loop) -> None:
        """Stop watching for that end."""
        loop.drop(ENDED_BEFORE)
        if self.server is not None:
            loop.remove(self.server)
            os.close(self.server)
            self.server = None

    # ---- leaving, and returning

    def part(self, loop: Loop) -> None:
        """Stop following the window, except for its pending input."""
        self.commands.part()
        self.watch_no_more(loop)
        self.panes.close()
        loop.drop("connect")
        if self.link.peer:
            loop.remove(self.link)

    def take_up(self, panes: PanesSubscriber) -> None:
        """Follow the window again, with another subscription to its panes."""
        acts = self.commands.acts
        self.panes = acts.panes = acts.intake.panes = panes
        self.reconnector.is_full = panes.is_full

    def is_over(self) -> bool:
        """Return True if all input typed there is taken."""
        link, host = self.link, self.host
        is_taken = link.is_done() if link.peer else not link.waiting
        if is_taken:
            # The session has its old size again.
            self.commands.zooming.drop_note()
        return is_taken and not link.waiting and not self.commands.acts.pastes.hands_over() and not (host.peer and host.waiting)

    def close(self, loop: Loop) -> None:
        """Close all connections."""
        if self.link.peer:
            loop.remove(self.link)
        self.link.close()
        self.host.end()
        loop.drop(self.again())

    def again(self) -> str:
        """Return the name of the timer that reconnects to the client of an earlier window."""
        return f"connect {self.number}"


class DrainingViews:
    """The earlier views of a front end that still drain. Nobody sees the paintings of their clients."""

    def __init__(self, loop: Loop) -> None:
        self.loop = loop
        self.views: dict[int, WindowView] = {}

    def add(self, view: WindowView) -> None:
        """Let an earlier view drain."""
        view.part(self.loop)
        self.views[view.number] = view
        if view.link.peer:
            self.join(view)
        elif view.link.waiting:
            self.connect(view)

    def taken(self, number: int) -> WindowView | None:
        """Remove and return the view of a window that becomes current again; None if there is none."""
        view = self.views.pop(number, None)
        if view:
            self.loop.drop(view.again())
            if view.link.peer:
                self.loop.remove(view.link)
        return view

    def join(self, view: WindowView) -> None:
        """Let the loop read and write a view's connection."""
        link = view.link
        self.loop.add(link, lambda: self.hear(view), lambda: self.send(view), has_more=lambda: link.waiting)

    def hear(self, view: WindowView) -> None:
        """Read the acknowledgements of input, and ignore paintings."""
        if view.link.read_events() is None:
            self.lost(view)

    def send(self, view: WindowView) -> None:
        """Send as much as the client accepts."""
        if not view.link.send():
            view.link.hear_last()
            self.lost(view)

    def lost(self, view: WindowView) -> None:
        """Continue without the connection. If input is still unsent, reconnect."""
        self.loop.remove(view.link)
        view.reconnector.lost()
        if view.link.waiting:
            self.loop.later(view.again(), view.reconnector.pause(), lambda: self.connect(view))

    def connect(self, view: WindowView) -> None:
        """Connect to the client of a view, and retry later if that fails."""
        failed = view.reconnector.connect()
        if failed:
            self.loop.later(view.again(), failed[0], lambda: self.connect(view))
        else:
            view.reconnector.connected()
            self.join(view)

    def settle(self) -> None:
        """Drop the views whose input is all taken."""
        for view in [view for view in self.views.values() if view.is_over()]:
            self.forget(view.number)

    def forget(self, number: int) -> None:
        """Drop a view, for example of a window that is gone."""
        view = self.views.pop(number, None)
        if view:
            view.close(self.loop)

    def hands_over(self) -> bool:
        """Return True if one of them still stores a paste."""
        return any(view.commands.acts.pastes.hands_over() for view in self.views.values())


class ViewMaker:
    """Makes views of windows."""

    def __init__(self, keyboard: Interpreter, settings: FrontSettings, host_link: HostLink, leave: Callable[[str | None], None],
                 is_read_only: bool, is_whole: bool, has_clips: bool) -> None:
        self.keyboard, self.settings, self.host_link, self.leave = keyboard, settings, host_link, leave
        # Flags of the front end: read-only, sessions shown whole if they fit, and clipboard texts from programs.
        self.is_read_only, self.is_whole, self.has_clips = is_read_only, is_whole, has_clips
        self.display, self.loop, self.here = keyboard.display, keyboard.loop, keyboard.commands
        # By number, the windows whose switch for keys to all panes was used.
        self.synchronized: dict[int, bool] = {}

    def followed(self, session: AnySession) -> PanesSubscriber:
        """Return the subscription to a window's panes."""
        panes = PanesSubscriber(session.folder, self.loop, lambda: self.here().panes_changed(), self.untold,
                                lambda process: session.is_peer("panes", process))
        panes.rings = lambda pane: self.here().panes.ring(pane)
        if self.has_clips:
            panes.follow_clips(lambda text, making: self.here().acts.set_clip(text, making))
        self.loop.later("untold", AWAITED, lambda: self.here().show_known())
        return panes

    def untold(self, line: str) -> None:
        """Continue without reports of the panes, and show a line about that."""
        self.display.row.tell(line, LOSS_TOLD)
        self.here().show_known()

    def begun(self, session: AnySession, is_new: Callable[[Places | None], bool] = lambda places: False,
              link: ClientLink | None = None) -> WindowView:
        """Return a view of a window, by an existing connection to its client process, or by a new one."""
        loop, display, panes = self.loop, self.display, self.followed(session)
        link = link or ClientLink(session.terminals, self.is_read_only, self.settings.prediction)
        host = HostClient(self.host_link, session.number, lambda: commands.follower.others_told())
        host.notices = lambda words: display.row.tell(words, LOSS_TOLD)
        commands = Commands(session, panes, link, display, loop, self.leave, self.keyboard.modes, self.keyboard.take_back,
                            self.keyboard.windows, host, is_new, self.is_whole)
        commands.synchronizing.remember(self.synchronized, session.number, lambda: self.settings.prediction)
        return WindowView(session, link, Reconnector(session, link, panes.is_full), panes, host, commands)


class WindowViews:
    """The view of the current window, and earlier ones.

    Its owner sets two calls: `server_ends`, for the end of the current window's server, and `shows`, for a move to another window.
    """

    def __init__(self, maker: ViewMaker, session: AnySession, is_new: Callable[[Places | None], bool],
                 link: ClientLink | None = None) -> None:
        self.maker, self.loop, self.display = maker, maker.loop, maker.display
        self.draining = DrainingViews(maker.loop)
        # By number, the sizes of windows that were shown whole when the user left.
        self.shown_whole: dict[int, tty.Size] = {}
        self.server_ends: Callable[[WindowView], object] = lambda view: None
        self.shows: Callable[[], object] = lambda: None
        server = opened_server(session)
        self.enter(maker.begun(session, is_new, link), server)

    # ---- the current window

    @property
    def number(self) -> int:
        """Return the window's number, 0 in a session without windows."""
        return self.view.number

    @property
    def link(self) -> ClientLink:
        """Return the connection to the window's client process."""
        return self.view.link

    @property
    def commands(self) -> Commands:
        """Return the commands of the window."""
        return self.view.commands

    @property
    def acts(self) -> WindowActs:
        """Return the user's acts in the window."""
        return self.view.commands.acts

    def all_commands(self) -> list[Commands]:
        """Return the commands of each window, those of the current one first."""
        return [view.commands for view in (self.view, *self.draining.views.values())]

    def left_commands(self, number: int) -> Commands | None:
        """Return the commands of a window that the user left, None if nothing of it continues."""
        view = self.draining.views.get(number)
        return view.commands if view else None

    def enter(self, view: WindowView, server: int | None) -> None:
        """Make a window the user's current one, and watch for the end of its server by its pidfd."""
        self.view = view
        self.maker.host_link.go(view.host)
        view.watch(self.loop, server, lambda: self.server_ends(view))

    # ---- other windows

    def reached(self, number: int) -> AnySession | None:
        """Return the window of a number, None unless it exists and isn't about to end."""
        try:
            window = self.view.session.window(number)
        except Fault:
            return None
        return window if window.ending()[1] else None

    def forget(self, number: int) -> None:
        """Stop draining a window that is gone."""
        self.draining.forget(number)
        self.shown_whole.pop(number, None)
        self.maker.synchronized.pop(number, None)

    def go(self, number: int) -> None:
        """Show another window in place of this one. Input typed here is still sent. Fault gives the reason of a failure."""
        session = self.view.session.window(number)
        server = opened_server(session)
        before, view = self.view, self.draining.taken(number)
        self.shown_whole[before.number] = before.commands.size.now() if self.display.part.shows_all() else NO_SIZE
        self.draining.add(before)
        if view:
            view.take_up(self.maker.followed(session))
        else:
            view = self.maker.begun(session)
        self.enter(view, server)
        view.commands.follow_on(before.commands, self.shown_whole.get(number, NO_SIZE))
        self.display.begin_window()
        self.shows()

    def hands_over(self) -> bool:
        """Return True if a window still stores a paste."""
        return self.acts.pastes.hands_over() or self.draining.hands_over()
