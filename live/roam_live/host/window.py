"""The panes of one window at the pty host, as its server reports them."""
from __future__ import annotations

import functools
import os
import time

from roam_live.common.errors import Fault, reason, say
from roam_live.common.process import begun, is_running, note_end
from roam_live.common.signals import signal
from roam_live.common.suppress import suppress
from roam_live.host.common import Common
from roam_live.host.foreground_watch import Fronts
from roam_live.host.input_queue import TypedQueue
from roam_live.host.options import Options
from roam_live.host.pane import PaneCommand, say_in
from roam_live.host.pane_hold import TERMINAL, PaneHold, drop_left
from roam_live.host.rewrap import PaneResizer
from roam_live.host.scrollback import pane_key
from roam_live.host.state import PaneState
from roam_live.host.window_channel import WindowChannel
from roam_live.protocol.panes import BRACKETED, FOCUS, MODES, OTHER, PanesState, Rect
from roam_live.protocol.panes_client import PROBE, HostSubscription
from roam_live.protocol.queries import holds_frames, query_in
from roam_live.session.foreground import pane_of, working_folder
from roam_live.session.roles import SERVER
from roam_live.session.tmp_keepalive import Lasting

TYPE_CHECKING = False
if TYPE_CHECKING:
    import socket
    from collections.abc import Callable

    from roam_live.common.tty import Size
    from roam_live.host.pane_pipe import PanePipe
    from roam_live.protocol.spawn_request import Begins

# Seconds until an unanswered request to close a pane is repeated.
CLOSE_WAIT = 3.0

# The server's socket for clients. If its file was removed, the host has the server take so many turns, so many seconds apart.
CLIENTS = "clients"
ROUSED, ROUSED_EACH = 2, 1.0

# Messages after the host's socket was removed.
MENDED = "the session's socket was removed, as by a cleaner of old files, and has been restored"
UNMENDED = "the session's socket was removed and cannot be restored: {}"
UNREAD = "{} is not shown: the server does not read it; it may have no free descriptor"
NOT_CONNECTED = "[not run: {}; tried again]\r\n"
NOT_FOLLOWED = "[no shell: the server's panes are not reported: {}; tried again]\r\n"

# The input of a program with focus reports (xterm, 1004) if its pane gets or loses the focus.
FOCUS_IN, FOCUS_OUT = b"\x1b[I", b"\x1b[O"


class WindowHost:
    """The panes of a window with their commands."""

    def __init__(self, asked: Options, common: Common, peer: socket.socket | None = None, size: Size | None = None,
                 folder: str = "", first: Begins | None = None) -> None:
        self.asked, self.common, self.loop, self.rows = asked, common, common.loop, common.rows
        self.state = common.state.window(asked.window)
        self.lasting = Lasting(asked.dir)
        self.panes: dict[int, PaneCommand] = {}
        # The panes of an earlier host that the server hasn't reported yet.
        self.left = set(self.state.panes)
        self.resizers: dict[int, PaneResizer] = {}
        # The commands that get a copy of a pane's output.
        self.pipes: dict[int, PanePipe] = {}
        # The panes without a report since the last subscription.
        self.untold: set[int] = set()
        # The reported state of the panes since the subscription, including modes of their programs.
        self.panes_state, self.is_new = PanesState(), False
        # True once the window is over, and if that was intended because its last command ended.
        self.is_over = self.is_meant = False
        # Since the last report: panes with a bell, and a flag for output. Then panes with news, and a call after `tend`.
        self.rung: set[int] = set()
        self.has_news = False
        self.touched: dict[int, PaneCommand] = {}
        self.tended: Callable[[], object] = lambda: None
        # The initial panes, if an earlier host had their shells, are complete with the first focus.
        self.is_again = asked.again
        # True once a pane printed that its server's reports are unavailable.
        self.has_said = False
        # The expected size of its first pane, which begins with it.
        self.awaited = size
        # The folder of its first command, if another window determines it.
        self.folder = folder
        # The requested start options of its first pane, if any.
        self.first = first
        # True once it was reported that its socket can't be restored; and once the server's socket for clients was there.
        self.has_missed = self.had_clients = False
        common.see_to(self.last)
        self.subscription = HostSubscription(f"{asked.dir}/panes", self.loop, self.hear, self.lost, self.tell, peer)
        # The process whose end is the window's: by default the listener there.
        server = asked.server or self.subscription.server
        if server and self.server() != server:
            self.state.processes[SERVER] = server, begun(server)
        if asked.again and not asked.window:
            common.socket.await_terminals()
        self.channel = WindowChannel(common.socket, asked.window, self)
        common.socket.listen(asked.common)
        self.channel.handed.rect_of, self.channel.handed.folder_beside = self.rect_of, self.folder_beside
        self.fronts = Fronts(self.loop, self.tell_front, f"window {asked.window} " if asked.window else "")
        if not asked.window:
            common.see_to(self.listen_again)
        common.keep_spares()

    def tell(self, text: str) -> None:
        """Log a message for the user, and send it to the terminals at this window."""
        say(f"window {self.asked.window}: {text}" if self.asked.window else text)
        self.channel.standing = self.subscription.told
        self.channel.notify(text)

    def told(self, line: str) -> None:
        """Take a line of D/panes: a pane's position or end, the focus, or metadata.

        Counts of clients are ignored here, and queries are answered elsewhere.
        """
        words, is_known = line.split(), self.panes_state.take(line)
        if not is_known:
            self.answer(line)
        elif words[0] == MODES:
            self.leave_other(int(words[1]))
        elif words[0] == "focus":
            before, self.state.focus, self.is_again = self.state.focus, int(words[1]), False
            self.report_focus(before)
            self.state.history = [self.state.focus] + [pane for pane in self.state.history if pane != self.state.focus]
            self.common.kept.touch()
            # The focus follows the reports of all panes.
            for number in self.untold & self.panes.keys():
                self.drop(number)
            self.untold.clear()
            self.drop_left()
        elif words[1:] == ["gone"]:
            self.drop(int(words[0]))
        elif words[0].isdigit() and len(words) == 6:
            number, *rect, generation = map(int, words)
            self.there_is(number, Rect(*rect), generation)

    def leave_other(self, number: int) -> None:
        """Wrap the lines of a pane whose programs show the main screen again."""
        if number in self.resizers and not self.panes_state.has_set(number, OTHER):
            self.resizers[number].leave_other()

    def answer(self, line: str) -> None:
        """Type the answer to a program's terminal query, if the host knows one."""
        query = query_in(line)
        pane = self.panes.get(query.pane) if query else None
        if query and pane and pane.state.generation == query.generation and pane.is_typed_into():
            pane.type(query.answer(self.common.socket.colours, holds_frames(self.server()), pane.state.size))

    def respawn(self, number: int, generation: int, begins: Begins) -> bool:
        """End the programs of that pane generation, and start it anew; return False if it is gone."""
        pane = self.panes.get(number)
        if not pane or pane.state.generation != generation or not pane.is_connected:
            return False
        pane.respawn(begins.folder, begins.command())
        return True

    def pipe(self, number: int, generation: int, command: str) -> str:
        """Give a copy of a pane's output to a shell command, or to none any more. Return `begun`, `ended`, or nothing without an effect."""
        pane, key = self.panes.get(number), self.key(number)
        if not pane or pane.state.generation != generation:
            return ""
        fate = "ended" if self.end_pipe(number) else ""
        pane.keeps = lambda data: self.rows.feed(key, data)
        if command:
            from roam_live.host.pane_pipe import PanePipe

            try:
                pipe = PanePipe.spawned(self.loop, command, self.channel.notify, self.common.link.most_files)
            except OSError as fault:
                self.channel.notify(f"pipe-pane: {reason(fault)}")
                return ""
            self.common.hung.append(pipe.process)
            pane.held.link.put(pane.held.pipe, [pipe.end])
            self.copy_to(pane, pipe)
            fate = "begun"
        return fate

    def copy_to(self, pane: PaneCommand, pipe: PanePipe) -> None:
        """Copy a pane's output to a command from now on."""
        self.pipes[pane.state.number], pane.state.pipe = pipe, pipe.command
        key = self.key(pane.state.number)

        def keep(data: bytes) -> None:
            """Store output, and copy it to the command."""
            self.rows.feed(key, data)
            pipe.feed(data)

        pane.keeps = keep

    def claim_pipe(self, pane: PaneCommand) -> None:
        """Go on with the command to which an earlier host copied a pane's output, if it still reads."""
        kept = pane.held.link.claim(pane.held.pipe) if pane.state.pipe else None
        if kept and kept.ends:
            from roam_live.host.pane_pipe import PanePipe

            self.copy_to(pane, PanePipe(self.loop, pane.state.pipe, self.channel.notify, kept.ends[0]))
        else:
            pane.state.pipe = ""

    def end_pipe(self, number: int) -> bool:
        """End the copying of a pane's output, and return True if there was one."""
        pipe, pane = self.pipes.pop(number, None), self.panes.get(number)
        if pipe:
            pipe.close()
        if pipe and pane:
            pane.state.pipe = ""
            pane.held.drop(pane.held.pipe)
        return pipe is not None

    def report_focus(self, before: int) -> None:
        """Send focus reports to the programs of the pane that lost the focus and the one that got it, if they requested them."""
        for number, report in ((before, FOCUS_OUT), (self.state.focus, FOCUS_IN)):
            pane = self.panes.get(number)
            if before != self.state.focus and pane and pane.is_typed_into() and self.panes_state.has_set(number, FOCUS):
                pane.type(report)

    def there_is(self, number: int, rect: Rect, generation: int) -> None:
        """Create, move or resize a pane."""
        pane, size = self.panes.get(number), self.awaited_size((rect.rows, rect.cols))
        self.untold.discard(number)
        if pane and pane.state.generation == generation:
            self.channel.handed.moved(number, rect)
            self.resizers[number].resize(size)
        else:
            folder, begins = self.folder_of_new(), self.handed_to(rect)
            self.drop(number)
            typed = TypedQueue(self.common.socket.uploads.texts, lambda: self.panes_state.has_set(number, BRACKETED))
            state = self.left_at(number, generation) or PaneState(
                id=self.id_for(number), number=number, generation=generation, size=size, folder=begins and begins.folder or folder,
                command=begins.command() if begins else [])
            self.state.panes[number] = state
            hold = PaneHold(self.common.link, self.common.transit, state.id)
            pane = self.panes[number] = PaneCommand(self.asked, self.loop, state, self.is_again, typed, hold)
            pane.follows, pane.pane_environment = self.follow_now, self.common.socket.pane_environment
            pane.gives_up, pane.touches = functools.partial(self.give_up, pane), functools.partial(self.note, pane)
            pane.changes = self.common.kept.write
            key = self.key(number)
            self.rows.begin(key, generation, size)
            pane.keeps, pane.hears = lambda data: self.rows.feed(key, data), self.rows.hears
            self.claim_pipe(pane)
            self.resizers[number] = PaneResizer(self.loop, self.rows, key, pane)
            # Another host finds the pane's program by this.
            self.common.kept.write()
            self.begin(pane)
            if pane.state.size != size:
                self.resizers[number].resize(size)

    def left_at(self, number: int, generation: int) -> PaneState | None:
        """Return the state of a pane generation that an earlier host had. Drop what is left of another generation."""
        if number not in self.left:
            return None
        self.left.remove(number)
        state = self.state.panes[number]
        if state.generation != generation:
            self.hang_up_left(number)
            return None
        state.process = None
        return state

    def id_for(self, number: int) -> int:
        """Return the id of a pane without a state. If that is lost, a program that is left there shows the id in its environment."""
        if self.common.kept.is_lost:
            for name, kept in self.common.link.left.items():
                kind, _, found = name.partition(":%")
                if kind == TERMINAL and pane_of(str(kept.process)) == (self.asked.dir, number):
                    return int(found)
        return self.common.kept.next_id()

    def drop_left(self) -> None:
        """Hang up the programs of panes that closed while there was no host."""
        for number in self.left:
            self.hang_up_left(number)
        self.left.clear()

    def hang_up_left(self, number: int) -> None:
        """Hang up the programs of a pane of an earlier host."""
        process = drop_left(self.common.link, self.state.panes.pop(number).id)
        if process:
            for sent in (signal.SIGHUP, signal.SIGCONT):
                with suppress(OSError):
                    os.kill(process, sent)

    def awaited_size(self, told: Size) -> Size:
        """Return the size of a reported pane, or the awaited one until it is reported."""
        if self.awaited in (None, told):
            self.awaited = None
        return self.awaited or told

    def await_no_more(self) -> None:
        """Use the reported sizes, since the awaited one has not come."""
        self.awaited = None
        for number, rect in self.panes_state.rects.items():
            if number in self.panes:
                self.resizers[number].resize((rect.rows, rect.cols))

    def has_begun(self) -> bool:
        """Return True if a pane's command was run, even if it has ended, or the pane shows the reason of a failure."""
        return any(pane.is_connected and (pane.state.process is not None or pane.is_again or pane.waits() or pane.written())
                   for pane in self.panes.values())

    def folder_of_new(self) -> str:
        """Return the folder of a new pane's command: that of the focused pane's foreground program, else the server's."""
        return self.folder if self.folder and not self.panes else self.folder_beside(0)

    def folder_beside(self, number: int) -> str:
        """Return the working folder of the foreground program in a pane, by default the focused one."""
        pane = self.panes.get(number or self.state.focus)
        return working_folder([*(pane.in_front() if pane else []), self.asked.server])

    def rect_of(self, number: int, generation: int) -> Rect | None:
        """Return the rectangle of that pane generation; None if it is gone."""
        pane = self.panes.get(number)
        return self.panes_state.rects.get(number) if pane and pane.state.generation == generation else None

    def handed_to(self, rect: Rect) -> Begins | None:
        """Return the start options that wait for a new pane, if any."""
        if self.panes or not self.first:
            return self.channel.handed.for_pane(rect)
        first, self.first = self.first, None
        return first

    def begin(self, pane: PaneCommand) -> None:
        """Connect to a pane and run its command there. The spare descriptor is for the pane's message about a refusal."""
        self.common.spare.free()
        try:
            self.lasting.demand()
            pane.connect(lambda: self.look(pane))
        except OSError as fault:
            self.common.refuse(pane.named, fault)
            self.common.voice.free()
            if not pane.is_told and not isinstance(fault, FileNotFoundError):
                pane.is_told = True
                say_in(pane.path, NOT_CONNECTED.format(reason(fault)))
        else:
            if pane.adopt():
                self.rows.miss(self.key(pane.state.number))
            elif pane.is_again:
                pane.settle()
            else:
                pane.run()
        self.common.keep_spares()

    def begin_again(self) -> None:
        """Retry the steps that the system refused."""
        for pane in list(self.panes.values()):
            if not pane.is_connected:
                self.begin(pane)

    def key(self, number: int) -> int:
        """Return the number of a pane among those of all windows."""
        return pane_key(self.asked.window, number)

    def drop(self, number: int) -> None:
        """Hang up the programs of a pane that is gone."""
        self.end_pipe(number)
        pane = self.panes.pop(number, None)
        self.state.history = [other for other in self.state.history if other != number]
        if pane:
            del self.state.panes[number]
            self.fronts.drop(number)
            self.resizers.pop(number).close()
            self.rows.drop(self.key(number))
            pane.hang_up()
            self.common.kept.touch()

    def give_up(self, pane: PaneCommand) -> None:
        """End the programs of a pane after too many exceptions, and close it. The only pane of a window stays and shows a line instead."""
        if self.panes.get(pane.state.number) is not pane:
            return
        pane.give_up()
        pane.state.has_ended = self.asked.close and len(self.panes) > 1
        self.note(pane)

    def hear(self, lines: list[str]) -> None:
        """Take lines from D/panes."""
        if self.is_new:
            self.panes_state, self.is_new = PanesState(), False
        for line in lines:
            self.told(line)
        self.rung.update(self.panes_state.taken_bells())
        self.loop.soon(self.tend)
        places = self.panes_state.places() if any(line[:1].isdigit() for line in lines) else None
        if places and places.is_covered():
            self.channel.sized(places.size())

    def follow_now(self) -> None:
        """Take the available lines from D/panes."""
        if self.subscription.peer:
            self.loop.hear(self.subscription.peer)

    def lost(self) -> None:
        """Continue without D/panes and reconnect. The session has ended if the server's process has."""
        self.untold, self.is_new = set(self.panes), True
        self.channel.sized(None)
        self.goes_on()

    def has_server(self) -> bool:
        """Return True if the server's process runs; if it is unknown, if somebody listens at its socket."""
        noted = self.state.processes.get(SERVER)
        return is_running(*noted) if noted else not self.subscription.is_gone

    def server(self) -> int | None:
        """Return the server's process, None if unknown."""
        return self.state.processes[SERVER][0] if SERVER in self.state.processes else None

    def goes_on(self) -> None:
        """Arrange that the session ends with the server. If its reports never come, print that in a pane."""
        subscription = self.subscription
        self.loop.soon(self.tend)
        if not self.has_server():
            self.is_over = True
            return
        if subscription.is_gone:
            subscription.tell(subscription.why)
        if subscription.told and not self.panes and not self.has_said:
            self.has_said = True
            say_in(f"{self.asked.dir}/p1", NOT_FOLLOWED.format(subscription.why))
        for pane in self.panes.values():
            pane.asked_until = 0.0

    def done(self) -> list[PaneCommand]:
        """Return the panes whose command has ended, and whose last output is written."""
        return [pane for pane in self.panes.values() if pane.state.has_ended and pane.terminal is None and not pane.waits()]

    def close_ended(self) -> None:
        """Close the panes whose commands have ended; the last one's end is the session's."""
        done, now = self.done(), time.monotonic()
        if done and len(self.panes) == 1:
            self.is_over = self.is_meant = True
            if self.asked.server and not self.asked.window:
                note_end(self.asked.common, *self.state.processes[SERVER])
                with suppress(ProcessLookupError):
                    os.kill(self.asked.server, signal.SIGTERM)
            return
        for pane in done:
            if now >= pane.asked_until:
                pane.asked_until = now + CLOSE_WAIT
                self.loop.later(f"close {pane.named}", CLOSE_WAIT, functools.partial(self.note, pane))
                self.subscription.ask(self.close_line(pane))

    def close_line(self, pane: PaneCommand) -> str:
        """Return the line that closes a pane. If the pane has the focus, the line names the previously focused remaining pane."""
        others = [number for number in self.state.history if number in self.panes and not self.panes[number].state.has_ended]
        heir = f" {others[0]}" if pane.state.number == self.state.focus and others else ""
        return f"close {pane.state.number} {pane.state.generation}{heir}"

    def last(self) -> None:
        """Protect the folder from cleaners of old files."""
        self.lasting.look()
        is_there = not self.lasting.is_missing(CLIENTS)
        if self.had_clients and not is_there:
            self.rouse()
        self.had_clients = self.had_clients or is_there

    def rouse(self) -> None:
        """Make the server take turns.

        In a turn it binds removed sockets anew, by the clock of the turn before. It takes none while all its clients sleep.
        """
        for again in range(ROUSED):
            self.loop.later(f"rouse {again} {self.asked.dir}", again * ROUSED_EACH, lambda: self.subscription.ask(PROBE))

    def note(self, pane: PaneCommand) -> None:
        """Record that a pane has news; `tend` handles it before the next wait."""
        self.touched[pane.state.number] = pane
        self.loop.soon(self.tend)

    def listen_again(self) -> None:
        """Restore the removed socket in this session's own folder, unless somebody else listens there."""
        if self.common.socket.is_found():
            return
        try:
            self.lasting.demand()
            self.common.socket.listen_again(self.asked.dir)
        except (Fault, OSError) as fault:
            if not self.has_missed:
                say(UNMENDED.format(reason(fault)))
            self.has_missed = True
        else:
            self.has_missed = False
            self.tell(MENDED)

    def is_followed(self) -> bool:
        """Return True if the current panes are known."""
        return bool(self.subscription.peer) and not self.untold

    def tend(self) -> None:
        """Handle the news of panes."""
        touched, self.touched = self.touched, {}
        for pane in touched.values():
            if self.panes.get(pane.state.number) is pane:
                self.touch(pane)
        if self.asked.close and not self.is_over and self.is_followed():
            self.close_ended()
        self.tended()

    def look(self, pane: PaneCommand) -> None:
        """Report a pane whose output the server has not read for a while."""
        if pane.is_unread():
            self.tell(UNREAD.format(f"pane {pane.state.number}"))

    def tell_front(self, number: int, generation: int, name: str) -> None:
        """Report the foreground program of that pane generation."""
        self.state.panes[number].program = name
        self.channel.tell_command(number, generation, name)
        self.loop.soon(self.tend)

    def look_at_fronts(self) -> None:
        """Look up the foreground programs of all panes for a new subscriber."""
        self.fronts.is_wanted = True
        for pane in self.panes.values():
            self.fronts.touched(pane, 0.0)

    def touch(self, pane: PaneCommand) -> None:
        """Look up the foreground program of a pane after input or output, while somebody subscribes."""
        self.has_news, pane.has_news = self.has_news or pane.has_news, False
        if pane.is_touched:
            pane.is_touched, self.fronts.is_wanted = False, self.channel.has_asked_commands() or self.common.socket.has_asked_windows()
            self.fronts.touched(pane)

    def hang_up(self) -> None:
        """End the programs of all panes."""
        for number in list(self.panes):
            self.drop(number)
        self.subscription.end()

    def close(self) -> None:
        """Close the sockets, and forget the window."""
        self.channel.close()
        for lasts in (self.last, self.listen_again):
            self.common.see_no_more(lasts)
