"""A pane of a session at the pty host: the command on its pseudo-terminal, the pane's socket, and the bytes for both."""
from __future__ import annotations

import fcntl
import math
import os
import struct
import termios

from roam_live.common import tty
from roam_live.common.errors import say
from roam_live.common.event_loop import Loop, always, comes
from roam_live.common.fault_log import SoonFaults
from roam_live.common.io import UNREAD_LIMIT, read
from roam_live.common.signals import signal
from roam_live.common.suppress import suppress
from roam_live.common.unix_socket import MSG_PEEK, SO_SNDBUF, SOL_SOCKET, UnixSocket, connected_now
from roam_live.host.holder_link import RUNS, Kept
from roam_live.host.input_queue import INTERRUPT, TypedQueue
from roam_live.host.options import Options, surroundings
from roam_live.host.pane_hold import PaneHold
from roam_live.host.pump import ByteLog
from roam_live.host.state import PaneState
from roam_live.session.environment import PaneEnvironment
from roam_live.session.foreground import group_in_front

TYPE_CHECKING = False
if TYPE_CHECKING:
    import socket
    from collections.abc import Callable


# Bytes that may wait for a pane; above that the command's output stays unread. The user still sees these bytes and those in the socket
# after an interrupt, so the limit is low.
LIMIT = 16384
SOCKET_LIMIT = 8192

# The most bytes of input that are looked at, and then passed on, at once.
MOST_PEEKED = 4096

# Input typed before a shell is back has all arrived once nothing comes for so many seconds. A client repeats unaccepted input.
SETTLES = 0.5

# TIOCGPTPEER (Linux): opens the slave of a pseudo-terminal by its master. Python has no name for it before 3.13.
OPENS_THEIRS = 0x5441

# Seconds for a server to read the output of a pane's programs.
READ_WAIT = 3.0

# After a command has ended, its terminal is read until end of file. If another process still has the terminal open, reading stops once it
# was empty twice, LAST_WAIT seconds apart, or once MOST_LAST bytes were read: a terminal buffers less. If the pane takes nothing now, the
# host looks again after LAST_LATER seconds.
LAST_WAIT = 0.02
MOST_LAST = 1 << 16
LAST_LATER = 0.25
GIVEN_UP = b"\r\n[closed after internal errors; a key starts the command again]\r\n"
# What clears a pane before a command is started there anew (RIS).
CLEARED = b"\x1bc"

DROPPED = b"\r\n[a new shell; what was typed since the last one ended is dropped]\r\n"
ENDED = b"\r\n[ended]"
NOT_RUN = "[not run: {}; a key tries again]\r\n"


def say_in(path: str, text: str) -> None:
    """Print a line in a pane without a shell. Give up if another process is connected there, or no descriptor is free."""
    with suppress(OSError), connected_now(path) as peer:
        peer.send(text.encode("utf-8", "replace"))


class PaneCommand:
    """A pane: its command on a pseudo-terminal, the pane's socket, and the bytes for both.

    It has no socket and no logs before it is connected, and no terminal before its command is run. The holder has all of them, too.
    """

    def __init__(self, asked: Options, loop: Loop, state: PaneState, is_again: bool, typed: TypedQueue, hold: PaneHold) -> None:
        self.asked, self.loop, self.state, self.is_again, self.held = asked, loop, state, is_again, hold
        self.path = f"{asked.dir}/p{state.number}"
        self.named = asked.named(state.number)
        self.peer: socket.socket | None = None
        self.terminal: int | None = None
        # A descriptor of the command's process, which the holder gets with the terminal; and true while the holder starts the command.
        self.file: int | None = None
        self.is_starting = False
        self.is_connected = self.is_told = False
        # The bytes for the pane, and those that were typed. Behind these come texts, and what is typed after them.
        self.output: ByteLog | None = None
        self.typed: ByteLog | None = None
        self.to_terminal = typed
        typed.drops_unread = self.drops_unread
        # True if input was dropped since its programs last read all.
        self.is_dropping = False
        # The bytes read since the command has ended, the moment when the terminal was first empty, and a last line to show.
        self.last_read, self.empty_at, self.last_words = 0, math.inf, b""
        # True while input for an earlier host may still arrive.
        self.is_settling = False
        # The moment of the next request to close it.
        self.asked_until = 0.0
        # Flags for input or output, and for output, since the last check. `touches` is called then, and at the end of a command.
        self.is_touched = self.has_news = False
        self.touches: Callable[[], object] = lambda: None
        # Called once its command is started, or has ended: that is part of the host's state.
        self.changes: Callable[[], object] = lambda: None
        # The environment that attaching front ends sent, for new panes.
        self.pane_environment = PaneEnvironment()
        # Applies the server's reports on the panes that preceded the input.
        self.follows: Callable[[], object] = lambda: None
        # Takes all output of the pane, for the scrollback, and returns True if it accepts more now.
        self.keeps: Callable[[bytes], object] = lambda data: None
        self.hears: Callable[[], bool] = always
        # The number of further bytes to read while a new size is in progress, None for any number; and the call once some were read.
        self.quota: int | None = None
        self.passed_on: Callable[[], object] = lambda: None
        # Exceptions in callbacks of this pane, and a call after too many.
        self.faults = SoonFaults(loop.clock)
        self.gives_up: Callable[[], object] = lambda: None

    def connect(self, look: Callable[[], object]) -> None:
        """Connect to the pane, or take over the connection of an earlier host. A call checks later whether the server reads the output."""
        if not self.output or not self.typed:
            self.output, self.typed = self.held.opened_logs()
        kept = self.held.link.claim(self.held.socket)
        peer = self.peer = UnixSocket(kept.ends[0]) if kept else connected_now(self.path)
        peer.setblocking(False)
        peer.setsockopt(SOL_SOCKET, SO_SNDBUF, SOCKET_LIMIT)
        if not kept:
            self.held.link.put(self.held.socket, [peer.fileno()])
        self.is_connected = True
        # Input is read however much waits. Otherwise a command that does not read would stop the server.
        self.loop.add(peer, self.hear, self.write_pane, has_more=self.waits, fails=self.fail, is_told=True)
        self.loop.later(f"look at {self.named}", READ_WAIT, look)

    def waits(self) -> int:
        """Return the number of bytes that wait for the pane."""
        return self.output.waits() if self.output else 0

    def written(self) -> int:
        """Return the number of bytes that the pane has accepted."""
        return self.output.sent + self.output.passed if self.output else 0

    def settle(self) -> None:
        """Wait until earlier input has arrived, and drop it."""
        self.is_settling = True
        self.loop.later(f"settle {self.named}", SETTLES, self.settled)

    def settled(self) -> None:
        """Run the command, now that earlier input has arrived."""
        self.is_settling = False
        self.show(DROPPED)
        self.run()

    def show(self, text: bytes) -> None:
        """Send output to the pane, at once as far as it accepts it, and to the scrollback."""
        self.keeps(text)
        self.show_alone(text)

    def show_alone(self, text: bytes) -> None:
        """Send text to the pane, and not to the scrollback rows."""
        if not self.output:
            return
        is_first = not self.output.waits()
        self.output.append(text)
        if is_first:
            self.write_pane()
        if self.output.waits():
            self.see_to_ends()

    def see_to_ends(self) -> None:
        """Let the loop ask both ends for the events that they wait for."""
        for end in (self.peer, self.terminal):
            if end is not None:
                self.loop.changed(end)

    def run(self) -> None:
        """Have the holder run the command. If that fails, print the reason in the pane."""
        environment = surroundings(self.asked, self.state.number, self.pane_environment)
        words = self.state.command or self.asked.command
        instead = "" if self.state.command else self.asked.instead or ""
        text = [self.state.folder, instead, str(len(words)), *words, *(f"{name}={value}" for name, value in environment.items())]
        self.is_starting = True
        size = self.state.size
        self.held.spawn(size, b"\0".join(map(os.fsencode, text)), lambda kept, why: self.started(size, kept, why), self.ended)

    def started(self, size: tty.Size, kept: Kept | None, why: str) -> None:
        """Continue with the command that the holder has started at a size."""
        self.is_starting = False
        if not kept:
            self.end_programs()
            self.show(NOT_RUN.format(why).encode())
            return
        self.follow(kept)
        if self.terminal is not None and size != self.state.size:
            with suppress(OSError):
                tty.set_size(self.terminal, *self.state.size)
        self.write_terminal()
        self.changes()
        self.touches()

    def adopt(self) -> bool:
        """Continue with the command that an earlier host had here, and return True if there is one, or if it has ended."""
        kept = self.held.claimed_program(self.ended)
        if not kept:
            return self.state.has_ended
        self.state.has_ended = False
        with suppress(OSError):
            rows, cols, _, _ = struct.unpack("HHHH", fcntl.ioctl(kept.ends[0], termios.TIOCGWINSZ, bytes(8)))
            self.state.size = rows, cols
        self.follow(kept)
        self.write_terminal()
        self.see_to_ends()
        return True

    def follow(self, kept: Kept) -> None:
        """Follow the terminal of a command, unless that is closed, and its process."""
        self.state.process, self.file = kept.process, kept.ends[-1]
        if len(kept.ends) > 1:
            self.terminal = kept.ends[0]
            self.loop.add(self.terminal, self.hear_terminal, self.write_terminal, has_more=self.is_typed, hears=self.has_room,
                          fails=self.fail, is_told=True)
        if kept.end != RUNS:
            self.ended(kept.end)

    def is_typed(self) -> bool:
        """Return True if input waits for the programs."""
        return bool(self.to_terminal.parts) or self.typed is not None and self.typed.waits() > 0

    def ended(self, end: str) -> None:
        """Record the end of the command's process: `unknown`, or its wait status."""
        if self.runs():
            self.ends(b"" if self.asked.close else ENDED)
            self.changes()
            self.touches()

    def has_room(self) -> bool:
        """Return True if more output is read now."""
        return self.waits() < LIMIT and self.quota != 0 and self.hears()

    def hold(self, quota: int, passed_on: Callable[[], object] = lambda: None) -> None:
        """Read at most `quota` more bytes of output until `release`; call `passed_on` once some were read."""
        self.quota, self.passed_on = quota, passed_on
        self.see_to_ends()

    def release(self) -> None:
        """Read output without a limit again."""
        self.quota = None
        self.see_to_ends()

    def resize(self, size: tty.Size) -> None:
        """Set the programs' terminal to a new size."""
        if size != self.state.size and self.terminal is not None:
            with suppress(OSError):
                tty.set_size(self.terminal, *size)
        self.state.size = size

    def close_terminal(self) -> None:
        """Close the terminal, which hangs up the remaining programs."""
        self.is_starting = False
        if self.terminal is not None:
            self.held.close(self.held.terminal)
            self.loop.remove(self.terminal)
            os.close(self.terminal)
            self.terminal = None
        self.to_terminal.clear()
        if self.typed:
            self.typed.drop()

    def close_program(self) -> None:
        """Follow the command's process no longer."""
        self.held.drop(self.held.terminal)
        if self.file is not None:
            os.close(self.file)
            self.file = None

    def close_peer(self) -> None:
        """Close the connection to the pane, which accepts no more."""
        self.held.drop(self.held.socket)
        if self.peer:
            self.loop.remove(self.peer)
            self.peer.close()
            self.peer = None
        if self.output:
            self.output.drop()
        self.see_to_ends()

    def fail(self, fault: Exception) -> None:
        """Drop the chunk whose callback failed, and give up after too many failures. If memory is short, only pause."""
        is_last = not isinstance(fault, MemoryError) and self.faults.is_last()
        if is_last:
            self.gives_up()
        if is_last or isinstance(fault, MemoryError):
            # A callback that fails before it has read anything would be called again at once.
            for end in (self.peer, self.terminal):
                if end is not None:
                    self.loop.pause(end)

    def give_up(self) -> None:
        """End the programs after too many failures. The next key restarts the command."""
        self.end_programs()
        if self.output:
            self.output.drop()
        self.state.process, self.state.has_ended = None, False
        self.show(GIVEN_UP)

    def respawn(self, folder: str, command: list[str]) -> None:
        """End the pane's programs, and run a command in the cleared pane; an empty folder or command stays the earlier one."""
        self.end_programs()
        self.loop.drop(f"last of {self.named}")
        self.state.process, self.state.has_ended = None, False
        self.state.folder, self.state.command = folder or self.state.folder, command or self.state.command
        self.show(CLEARED)
        self.run()
        self.changes()

    def hang_up(self) -> None:
        """End the pane's programs, and the connection to the pane."""
        for what in ("look at", "settle", "close", "last of"):
            self.loop.drop(f"{what} {self.named}")
        self.close_peer()
        self.end_programs()
        self.held.drop(self.held.logs)
        for log in (self.output, self.typed):
            if log:
                log.close()
        self.output = self.typed = None

    def end_programs(self) -> None:
        """End the pane's programs."""
        if self.file is not None and self.runs():
            for number in (signal.SIGHUP, signal.SIGCONT):
                # A process that now belongs to another user gets only the terminal's hangup.
                with suppress(OSError):
                    signal.pidfd_send_signal(self.file, number)
        self.close_terminal()
        self.close_program()

    def runs(self) -> bool:
        """Return True if its command was spawned and has not ended."""
        return self.state.process is not None and not self.state.has_ended

    def is_typed_into(self) -> bool:
        """Return True if a program reads the input, or will."""
        return (self.terminal is not None or self.is_starting) and not self.state.has_ended

    def ends(self, words: bytes = b"") -> None:
        """Record that the command has ended: type nothing more, and read its last output as the pane takes it. `words` are shown after it.

        Remaining processes get a hangup once that output is read.
        """
        self.state.has_ended, self.last_words = True, words
        self.to_terminal.clear()
        if self.terminal is None:
            self.finish()
        else:
            self.read_last()

    def read_last(self) -> None:
        """Continue to read after the end of the command, if the pane accepts more."""
        if self.terminal is not None and self.has_room():
            self.hear_terminal()
        elif self.terminal is not None:
            self.loop.later(f"last of {self.named}", LAST_LATER, self.read_last)

    def note_last(self, count: int, is_empty: bool) -> None:
        """Count the bytes read since the command ended, and close the terminal if those are all."""
        now = self.loop.clock()
        self.last_read += count
        self.empty_at = min(self.empty_at, now) if is_empty else self.empty_at
        if self.last_read >= MOST_LAST or is_empty and now >= self.empty_at + LAST_WAIT:
            self.close_terminal()
            self.finish()
        elif is_empty:
            self.loop.at(f"last of {self.named}", self.empty_at + LAST_WAIT, self.read_last)
        else:
            self.loop.soon(self.read_last)

    def finish(self) -> None:
        """Show the last line, after all output of an ended command."""
        self.loop.drop(f"last of {self.named}")
        self.close_program()
        self.show(self.last_words)
        self.last_words = b""
        self.touches()

    def hear(self) -> None:
        """Take input. If no command could be started, a key tries again."""
        self.follows()
        if not self.peer or self.is_passed_on():
            # According to the reports, the pane may be gone.
            return
        typed = read(self.peer.fileno(), MOST_PEEKED)
        if typed:
            self.touch()
        if typed == b"":
            self.close_peer()
        elif self.is_settling:
            self.settle()
        elif self.is_typed_into():
            self.wait_typed(typed or b"")
        elif typed and self.state.process is None:
            self.run()

    def is_passed_on(self) -> bool:
        """Pass on input that has no placeholder and is not behind a text, and return True if that is done."""
        queue, log = self.to_terminal, self.typed
        if not self.peer or not log or not self.is_typed_into() or self.is_settling or queue.waits_for_more():
            return False
        try:
            typed = self.peer.recv(MOST_PEEKED, MSG_PEEK)
        except OSError:
            return False
        if not typed or queue.is_meant(typed) or log.waits() + len(typed) > UNREAD_LIMIT:
            return False
        left = len(typed)
        while left and (count := log.take(self.held.transit, self.peer.fileno(), left)):
            left -= count
        queue.behind += len(typed) - left
        self.touch()
        self.write_terminal()
        return True

    def touch(self) -> None:
        """Record input or output."""
        self.is_touched = True
        self.touches()

    def hear_terminal(self) -> None:
        """Take the programs' output up to the limit. A program that writes line by line produces little at once."""
        if not self.output:
            return
        room, start = LIMIT - self.output.waits(), self.output.position()
        if self.quota is not None:
            room = min(room, self.quota)
        if self.terminal is None or room <= 0:
            return
        count = self.output.take(self.held.transit, self.terminal, room)
        if count:
            self.take(self.output.copy(start))
        if count and self.quota:
            self.quota = 0
            self.passed_on()
        if count == 0:
            self.close_terminal()
            if self.state.has_ended:
                self.finish()
        elif self.state.has_ended:
            self.note_last(count or 0, self.output.is_drained)

    def take(self, written: bytes) -> None:
        """Send output on, which is in the log, and hand a copy to the scrollback."""
        self.has_news = True
        self.write_pane()
        self.touch()
        self.keeps(written)

    def write_terminal(self) -> None:
        """Type as much as the programs accept. If the terminal is gone, drop the rest."""
        if self.terminal is None or not self.typed:
            return
        try:
            if self.typed.waits():
                self.typed.send(self.terminal, UNREAD_LIMIT)
        except OSError:
            self.typed.drop()
        if not self.typed.waits():
            self.to_terminal.write(self.terminal)
        self.is_dropping = self.is_dropping and self.is_typed()
        if self.is_typed():
            self.loop.changed(self.terminal)

    def write_pane(self) -> None:
        """Send as much as the pane accepts now. At most twice SOCKET_LIMIT bytes are unread in its socket, as the system counts them."""
        waiting = self.waits()
        if self.peer and self.output and waiting:
            try:
                self.output.send(self.peer.fileno(), max(0, 2 * SOCKET_LIMIT - self.unread()))
            except OSError:
                self.close_peer()
        if waiting >= LIMIT > self.waits() or self.waits():
            self.see_to_ends()
        if self.state.has_ended and not self.waits():
            self.touches()

    def unread(self) -> int:
        """Return the number of bytes in the pane's socket that the server has not read."""
        with suppress(OSError):
            count: int = struct.unpack("i", fcntl.ioctl(self.peer.fileno() if self.peer else -1, termios.TIOCOUTQ, bytes(4)))[0]
            return count
        return 0

    def is_unread(self) -> bool:
        """Return True if output in the pane's socket, no more than it buffers, is still unread."""
        return self.peer is not None and 0 < self.written() <= 2 * SOCKET_LIMIT and self.unread() > 0

    def wait_typed(self, typed: bytes) -> None:
        """Queue input for the programs. Beyond the limit it is dropped, which is reported once until they have read all."""
        before = self.typed.waits() if self.typed else 0
        if not self.to_terminal.take(typed, before) and not self.is_dropping:
            self.is_dropping = True
            say(f"{self.named}: its program does not read input; above {UNREAD_LIMIT} bytes it is dropped")
        if self.to_terminal.parts:
            self.write_terminal()

    def drops_unread(self, behind: int) -> bool:
        """Flush the terminal's input if more than `behind` bytes of it are unread, and return True if so.

        The slave is opened for this alone: a flush of the master would drop the programs' output.
        """
        with suppress(OSError, termios.error):
            assert self.terminal is not None
            theirs = fcntl.ioctl(self.terminal, OPENS_THEIRS, os.O_RDWR | os.O_NOCTTY | os.O_CLOEXEC)
            try:
                # Polling moves bytes that the kernel still buffers into the input queue.
                comes(theirs, 0)
                if struct.unpack("i", fcntl.ioctl(theirs, termios.FIONREAD, bytes(4)))[0] > behind:
                    termios.tcflush(theirs, termios.TCIFLUSH)
                    return True
            finally:
                os.close(theirs)
        return False

    def type(self, answer: bytes) -> None:
        """Type an answer to the program, if it may read one."""
        if self.is_typed_into():
            self.to_terminal.add(answer)
            self.write_terminal()

    def in_front(self) -> list[int | None]:
        """Return the processes whose working folder is the default of a new pane: the first foreground one, and this pane's command."""
        return [group_in_front(self.terminal), self.state.process] if self.terminal is not None else []
