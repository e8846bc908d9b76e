"""The replacement of a running pty host, and of its holder, by another build of roam.

`mux upgrade` passes an open descriptor of its own folder of tools. A child of that build reads the host's state (`pane_shells --check`).
If it can, this process executes the new host in place, with the same pid, children and descriptors of programs. The holder keeps these,
too. Until then nothing has changed, and each refusal says why.
"""
from __future__ import annotations

import os
import sys

from roam_live.common.build_info import PROTOCOL, identity
from roam_live.common.errors import Fault, reason, say
from roam_live.common.io import read
from roam_live.common.patterns import LazyPattern
from roam_live.common.process import TOOLS, program
from roam_live.common.signals import signal
from roam_live.common.suppress import suppress
from roam_live.common.text import printable
from roam_live.host.common import ROWS
from roam_live.host.handed_rows import SCROLLBACK, text_of
from roam_live.host.holder_link import PAIR, UPGRADED, memfd_of
from roam_live.host.hosted_window import THERE
from roam_live.host.state import MOST_STATE, state_in
from roam_live.protocol.host_lines import SESSION
from roam_live.protocol.upgrade_lines import BEGINS, LONGEST_REASON, REFUSED, UPGRADE
from roam_live.session.tools_folder import HOST, build_sum, demand_safe, demand_safe_tools

TYPE_CHECKING = False
if TYPE_CHECKING:
    from roam_live.host.socket_peer import HostPeer
    from roam_live.host.windows import Windows

# The option of the new build's host that makes it read a state, and nothing else; and the most bytes that it answers.
CHECK = "--check"
MOST_ANSWER = 4096

# Seconds for that check, for the host to have nothing under way, and between two looks.
CHECK_SECONDS = 5.0
QUIET_SECONDS = 5.0
LOOK_SECONDS = 0.02

# The part of these seconds for unread answers. A peer that reads too slowly is disconnected then.
READ_SECONDS = 2.0

# The words of the check's lines.
PROTOCOL_WORD, SUM_WORD, NAME_WORD, PROGRAM_WORD = "protocol", "sum", "name", "program"
# The sum of a build, which goes into a line and into the new host's variable.
SUM = LazyPattern(r"[0-9a-f]{8}")

# Seconds after the start until the sum of the own build is computed, which nobody waits for.
KNOWN_SECONDS = 1.0

IS_CHECKED, IS_QUIET = "the upgrade is checked", "the upgrade waits"


class BuildAnswer:
    """What the check of a build printed: its protocol, the sum of its files, its name, and the path of its program."""

    def __init__(self, text: str) -> None:
        words = dict(line.split(" ", 1) for line in text.splitlines() if " " in line)
        try:
            self.protocol, self.sum, self.name, self.program = (words[word] for word in (PROTOCOL_WORD, SUM_WORD, NAME_WORD, PROGRAM_WORD))
        except KeyError:
            raise Fault("its check printed no build") from None
        if not SUM.fullmatch(self.sum):
            raise Fault("its check printed no build")


def checked() -> int:
    """Check that this build can go on with the state on standard input, and print its lines; return the status."""
    state_in(sys.stdin.read(MOST_STATE))
    path = program()
    for word, value in ((PROTOCOL_WORD, PROTOCOL), (SUM_WORD, build_sum(str(TOOLS), path)), (NAME_WORD, identity()), (PROGRAM_WORD, path)):
        print(word, value)
    return 0


class HostUpgrade:
    """The upgrade of a session's host: at most one at a time."""

    def __init__(self, windows: Windows) -> None:
        self.windows, self.common, self.loop, self.link = windows, windows.common, windows.loop, windows.common.link
        self.peer: HostPeer | None = None
        self.folder = ""
        # The check's process and its output; 0 and -1 without one.
        self.process, self.output = 0, -1
        self.answer = b""
        self.until = 0.0
        # Files may be replaced at any time, so this is known soon after the start.
        self.own_sum = ""
        self.loop.later("own build", KNOWN_SECONDS, self.sum)

    def sum(self) -> str:
        """Return the sum of this host's own build, as its files were soon after its start."""
        if not self.own_sum:
            with suppress(OSError, Fault):
                self.own_sum = build_sum(str(TOOLS), program())
        return self.own_sum or "unknown"

    # ---- the request

    def take(self, peer: HostPeer) -> None:
        """Take a request, whose descriptor arrived before it."""
        lent, peer.lent = peer.lent, -1
        try:
            if self.peer:
                raise Fault("another upgrade of this session is under way")
            if not peer.is_own():
                raise Fault("only a process of the session's user may upgrade it")
            if lent < 0:
                raise Fault("no folder of tools was passed; run `mux upgrade` on the session's machine")
            self.peer, self.folder = peer, folder_of(lent)
            self.check()
        except (Fault, OSError) as fault:
            self.refuse(fault if isinstance(fault, Fault) else reason(fault), peer)
        finally:
            if lent >= 0:
                os.close(lent)

    def refuse(self, why: object, peer: HostPeer | None = None) -> None:
        """Answer why nothing is replaced, and be ready for another request."""
        asker, self.peer = peer or self.peer, None if peer in (None, self.peer) else self.peer
        if not self.peer:
            self.loop.drop(IS_QUIET)
            self.common.rows.pause(False)
        text = printable(str(why))[:LONGEST_REASON]
        say(f"this pty host is not replaced: {text}")
        if asker:
            self.common.socket.send(asker, [f"{REFUSED} {text}"], SESSION)

    # ---- the check by the new build

    def check(self) -> None:
        """Run the check of the new build on this host's state."""
        demand_safe_tools(self.folder)
        self.common.kept.write()
        if not self.common.kept.held:
            raise Fault("there is no memory for its state")
        reader, writer = os.pipe2(os.O_CLOEXEC | os.O_NONBLOCK)
        state = memfd_of(self.common.kept.held.encode())
        os.lseek(state, 0, os.SEEK_SET)
        words = [sys.executable, os.path.join(self.folder, HOST), CHECK]
        actions = [(os.POSIX_SPAWN_DUP2, state, 0), (os.POSIX_SPAWN_DUP2, writer, 1)]
        try:
            self.process = os.posix_spawn(words[0], words, os.environ, file_actions=actions, setsigmask=[],
                                          setsigdef=[signal.SIGPIPE, signal.SIGCHLD, signal.SIGTERM, signal.SIGHUP])
        except OSError:
            os.close(reader)
            raise
        finally:
            os.close(writer)
            os.close(state)
        self.output, self.answer = reader, b""
        self.loop.add(reader, self.hear_check)
        self.loop.later(IS_CHECKED, CHECK_SECONDS, self.end_check)

    def hear_check(self) -> None:
        """Take what the check prints, until its end."""
        chunk = read(self.output)
        self.answer += chunk or b""
        if chunk == b"" or len(self.answer) > MOST_ANSWER:
            self.end_check()

    def end_check(self) -> None:
        """End the check, and go on with its answer."""
        self.loop.drop(IS_CHECKED)
        self.loop.remove(self.output)
        os.close(self.output)
        with suppress(OSError):
            os.kill(self.process, signal.SIGKILL)
        with suppress(ChildProcessError):
            os.waitpid(self.process, 0)
        try:
            build = BuildAnswer(self.answer[:MOST_ANSWER].decode("utf-8", "replace"))
            if build.protocol != str(PROTOCOL):
                raise Fault(f"it speaks protocol {build.protocol[:20]}, and the servers of this session {PROTOCOL}; "
                            "end the session and start it again")
            demand_safe(os.path.realpath(build.program))
        except (Fault, OSError) as fault:
            why = fault if isinstance(fault, Fault) else reason(fault)
            self.refuse(f"the build in {self.folder} cannot go on with this session: {why}")
            return
        self.until = self.loop.clock() + QUIET_SECONDS
        self.common.rows.pause(True)
        self.await_quiet(build)

    # ---- the replacement

    def await_quiet(self, build: BuildAnswer) -> None:
        """Replace this host as soon as nothing is under way that only this process knows."""
        busy = self.under_way()
        if not busy:
            self.replace(build)
        elif self.loop.clock() >= self.until:
            self.refuse(f"{busy}; try again")
        else:
            self.loop.later(IS_QUIET, LOOK_SECONDS, lambda: self.await_quiet(build))

    def under_way(self) -> str:
        """Return what would be lost with this process, or nothing."""
        hosts = [window.host for window in self.windows.windows.values() if window.host]
        panes = [pane for host in hosts for pane in host.panes.values()]
        if any(window.stage != THERE for window in self.windows.windows.values()) or self.link.asked:
            return "a window or a pane is being opened or closed"
        if any(peer.upload for peer in self.common.socket.peers):
            return "a text is being stored"
        if any(pane.to_terminal.waits_for_more() for pane in panes):
            return "a paste is being typed, or a program does not read its input"
        if any(pane.state.has_ended for pane in panes):
            return "a program has just ended"
        if any(pipe.waiting for host in hosts for pipe in host.pipes.values()) and self.is_early():
            return "a command of pipe-pane does not read its input"
        if not self.common.rows.is_quiet():
            return "the scrollback process does not read its output"
        if self.is_early() and any(peer.waiting and peer.answers for peer in self.common.socket.peers):
            return "an answer is being read"
        return "" if self.link.is_there() else "the holder is being replaced"

    def is_early(self) -> bool:
        """Return True while others have time to read what waits for them."""
        return self.loop.clock() < self.until - QUIET_SECONDS + READ_SECONDS

    def replace(self, build: BuildAnswer) -> None:
        """Execute the new host in this process. If the system refuses, go on as before."""
        assert self.peer
        say(f"this pty host is replaced by roam {printable(build.name)} in {printable(self.folder)}")
        self.peer.put([f"{SESSION} {BEGINS} {build.sum} {printable(build.name)}"])
        self.peer.write()
        self.give_rows()
        words = [sys.executable, os.path.join(self.folder, HOST), *later_words()]
        ends: list[int] = []
        try:
            handed, ends = self.link.handed_over(build.sum)
            for end in ends:
                os.set_inheritable(end, True)
            os.execve(words[0], words, {**os.environ, PAIR: handed})
        except OSError as fault:
            for end in ends:
                os.set_inheritable(end, False)
            for table in ends[1:2]:
                os.close(table)
            self.link.drop(ROWS)
            self.link.drop(SCROLLBACK)
            self.refuse(reason(fault))

    def give_rows(self) -> None:
        """Give the holder the stored rows and the scrollback process, with the state as it is now."""
        rows = self.common.rows
        self.common.kept.write()
        with suppress(OSError, MemoryError):
            self.link.put(ROWS, [memfd_of(rows.room.written())])
            if rows.process:
                process = rows.process
                self.link.put(SCROLLBACK, [process.input, process.output, process.error, memfd_of(text_of(rows))])
        self.link.flush()


def later_words() -> list[str]:
    """Return the command line of a host that follows this one, which waits for no first window."""
    return [word for place, word in enumerate(sys.argv[1:]) if (place, word) != (1, "--first")]


def folder_of(lent: int) -> str:
    """Return the path of an open folder; Fault if it is none, or was removed."""
    path = os.readlink(f"/proc/self/fd/{lent}")
    found, own = os.fstat(lent), os.stat(path)
    if (found.st_dev, found.st_ino) != (own.st_dev, own.st_ino) or not os.path.isdir(path):
        raise Fault("the folder of tools was moved or removed")
    return path
