"""The pty host's end of the pair with its session's holder, which keeps terminals and sockets, forks programs and restarts the host."""
from __future__ import annotations

import array
import errno
import os
import resource
import sys
import time

from roam_live.common.errors import Fault, say
from roam_live.common.event_loop import Loop, comes
from roam_live.common.json_reader import read_json
from roam_live.common.process import TOOLS, program
from roam_live.common.signals import signal
from roam_live.common.suppress import suppress

TYPE_CHECKING = False
if TYPE_CHECKING:
    from collections.abc import Callable
    from socket import AF_UNIX, CMSG_SPACE, MSG_CMSG_CLOEXEC, SCM_RIGHTS, SOCK_SEQPACKET, SOL_SOCKET, socket, socketpair

    from roam_live.common.tty import Size
else:
    from _socket import AF_UNIX, CMSG_SPACE, MSG_CMSG_CLOEXEC, SCM_RIGHTS, SOCK_SEQPACKET, SOL_SOCKET, socket, socketpair

# The variable by which a host gets its end of the pair. After it `bare` follows if hosts failed too often with their state; or `upgraded`
# if a host of another build has executed this one: the sum of this build's files, the limit of open files of programs, and a memfd with the
# entries of that host, whose descriptors stay open in this process. So it needs no answer of the holder, which may end meanwhile.
PAIR = "ROAM_HOLDER"
BARE, UPGRADED = "bare", "upgraded"

# The most bytes and descriptors of a message.
MOST, MOST_ENDS = 4096, 8

# Seconds for the holder to send all that it keeps, and the least seconds between two starts of a holder.
TOLD_IN = 5.0
APART = 0.5

# The descriptor of a new holder's end of the pair.
ITS_END = 9

# The end of a program that still runs, in the words of a holder.
RUNS = "runs"


class Kept:
    """The descriptors that the holder keeps under a name, and a program's process and end; 0 and RUNS without one."""

    def __init__(self, ends: list[int], process: int = 0, end: str = RUNS) -> None:
        self.ends, self.process, self.end = ends, process, end


def memfd_of(text: bytes) -> int:
    """Return a memfd with a text."""
    end = os.memfd_create("roam")
    try:
        with os.fdopen(os.dup(end), "wb", 0) as file:
            while text:
                text = text[file.write(text) :]
    except OSError:
        os.close(end)
        raise
    return end


def text_file(text: bytes) -> int:
    """Return a descriptor from which a holder reads a text: a memfd, or a pipe if the system refuses to write that and the pipe takes all."""
    with suppress(OSError):
        return memfd_of(text)
    reader, writer = os.pipe2(os.O_CLOEXEC)
    try:
        os.set_blocking(writer, False)
        if os.write(writer, text) < len(text):
            raise OSError(errno.EFBIG, os.strerror(errno.EFBIG))
    except OSError:
        os.close(reader)
        raise
    finally:
        os.close(writer)
    return reader


def host_words() -> bytes:
    """Return the words that run this host again, separated by NUL. A later host waits for no first window."""
    own = [word for place, word in enumerate(sys.argv[1:]) if (place, word) != (1, "--first")]
    return b"\0".join(map(os.fsencode, [sys.executable, str(TOOLS / "pane_shells"), *own]))


def holder_words() -> list[str]:
    """Return the words that run a holder of this build, without its end of the pair."""
    return [sys.executable, "-IS", str(TOOLS / "holder")]


def demand_sum(told: str) -> None:
    """Refuse to go on if the files of this build are not those that were checked."""
    from roam_live.session.tools_folder import build_sum

    if build_sum(str(TOOLS), program()) != told:
        raise Fault("the files of this build have changed since they were checked")


class HolderLink:
    """The holder of a session: its descriptors by name, and requests to it. If it ends, the host starts another one."""

    def __init__(self, loop: Loop) -> None:
        self.loop, self.process, self.begun_at = loop, 0, 0.0
        self.pair: socket | None = None
        # Unsent messages: a line, its descriptors, and the memfd to close afterwards, -1 without one.
        self.waiting: list[tuple[bytes, list[int], int]] = []
        # The programs that the holder still has to start: the line, its text, and the call with the program, or with a reason.
        self.asked: dict[str, tuple[bytes, bytes, Callable[[Kept | None, str], object]]] = {}
        # The entries of this host, with its own descriptors; those of an earlier host that this one has not claimed; and the calls with the
        # ends of programs.
        self.own: dict[str, Kept] = {}
        self.left: dict[str, Kept] = {}
        self.hears_end: dict[str, Callable[[str], object]] = {}
        # True if this host follows another one; if it may not use the state; if it was executed by one of another build; and if the session
        # ends.
        self.is_resumed = self.is_bare = self.is_upgraded = self.is_over = False
        # The limit of open files of programs: this process raises its own later.
        self.most_files = resource.getrlimit(resource.RLIMIT_NOFILE)[0]
        # Called after the start of a holder, to note its process.
        self.notes: Callable[[], object] = lambda: None
        given, *more = os.environ.pop(PAIR, "").split(" ")
        if given:
            self.is_resumed, self.is_bare, self.is_upgraded = True, more[:1] == [BARE], more[:1] == [UPGRADED]
            self.begin(int(given), more[1:])
        else:
            self.start()

    # ---- the holder

    def start(self) -> None:
        """Start a holder, and give it everything."""
        ours, theirs = socketpair(AF_UNIX, SOCK_SEQPACKET)
        words = [*holder_words(), str(ITS_END)]
        self.begun_at = self.loop.clock()
        try:
            self.process = os.posix_spawn(words[0], words, os.environ, setsid=True, setsigmask=[],
                                          file_actions=[(os.POSIX_SPAWN_DUP2, theirs.fileno(), ITS_END)],
                                          setsigdef=[signal.SIGPIPE, signal.SIGCHLD, signal.SIGTERM, signal.SIGHUP])
        except OSError:
            ours.close()
            raise
        finally:
            theirs.close()
        self.join(ours)
        for name, kept in {**self.left, **self.own}.items():
            self.send(b"put %s %d" % (name.encode(), kept.process), kept.ends)
        for line, text, _ in self.asked.values():
            self.send(line, text=text)
        self.notes()

    def begin(self, end: int, handed: list[str]) -> None:
        """Follow another host. One of another build handed over some words; the files must be those that its check read."""
        if not self.is_upgraded:
            self.resume(end)
            return
        demand_sum(handed[0])
        self.most_files = int(handed[1])
        self.take_table(int(handed[2]))
        os.set_inheritable(end, False)
        self.join(socket(AF_UNIX, SOCK_SEQPACKET, 0, end))

    def resume(self, end: int) -> None:
        """Take everything that the holder keeps from an earlier host."""
        os.set_inheritable(end, False)
        self.join(socket(AF_UNIX, SOCK_SEQPACKET, 0, end))
        self.send(b"hello")
        until = time.monotonic() + TOLD_IN
        while not self.process and self.pair and comes(self.pair, until - time.monotonic()):
            for line, ends in self.heard():
                word, *rest = line.split(" ")
                if word == "held":
                    self.left[rest[0]] = Kept(ends, int(rest[1]), rest[2])
                elif word == "end":
                    self.process = int(rest[0])
        if not self.process:
            say("the holder does not answer")

    def join(self, pair: socket) -> None:
        """Talk to a holder over a pair."""
        self.pair = pair
        pair.setblocking(False)
        self.loop.add(pair, self.hear, self.write, has_more=lambda: self.waiting, is_told=True)
        if not self.is_upgraded:
            self.send(b"run %d" % os.getpid(), text=host_words())

    def lost(self) -> None:
        """Start another holder, since this one has ended. Until then this process alone has the terminals."""
        if self.pair:
            self.loop.remove(self.pair)
            self.pair.close()
            self.pair = None
        if self.process:
            with suppress(ChildProcessError):
                os.waitpid(self.process, os.WNOHANG)
        for _, _, memory in self.waiting:
            if memory >= 0:
                os.close(memory)
        self.waiting.clear()
        if not self.is_over:
            say("the holder has ended; another one is started")
            self.loop.at("holder", max(self.loop.clock(), self.begun_at + APART), self.start_again)

    def start_again(self) -> None:
        """Start another holder; if the system refuses, later."""
        try:
            self.start()
        except OSError as fault:
            say(f"the holder cannot be started: {fault.strerror}; tried again")
            self.loop.later("holder", APART, self.start_again)

    # ---- messages

    def send(self, line: bytes, ends: list[int] | tuple[()] = (), text: bytes | None = None) -> None:
        """Send the holder a message; a text goes in a memfd. Without a holder nothing is sent: the next one gets everything."""
        if self.pair:
            end = -1 if text is None else text_file(text)
            self.waiting.append((line, [*ends] if text is None else [end], end))
            self.write()

    def write(self) -> None:
        """Send as many messages as the holder accepts."""
        while self.waiting and self.pair:
            line, ends, memory = self.waiting[0]
            try:
                self.pair.sendmsg([line], [(SOL_SOCKET, SCM_RIGHTS, array.array("i", ends))] if ends else [])
            except BlockingIOError:
                self.loop.changed(self.pair)
                return
            except OSError:
                # Its end is heard in the next turn.
                pass
            self.waiting.pop(0)
            if memory >= 0:
                os.close(memory)

    def heard(self) -> list[tuple[str, list[int]]]:
        """Return the messages that arrived, with their descriptors."""
        found: list[tuple[str, list[int]]] = []
        while self.pair:
            ends = array.array("i")
            try:
                line, control, _, _ = self.pair.recvmsg(MOST, CMSG_SPACE(ends.itemsize * MOST_ENDS), MSG_CMSG_CLOEXEC)
            except BlockingIOError:
                break
            except OSError:
                line, control = b"", []
            if not line:
                self.lost()
                break
            for _, _, data in control:
                ends.frombytes(data)
            found.append((line.decode("utf-8", "replace"), list(ends)))
        return found

    def hear(self) -> None:
        """Take the messages that arrived."""
        for line, ends in self.heard():
            word, name, more = [*line.split(" ", 2), "", ""][:3]
            if word == "ended":
                self.take_end(name, more)
            elif word in ("held", "failed"):
                self.take_answer(name, word == "held", more, ends)

    def take_answer(self, name: str, is_held: bool, more: str, ends: list[int]) -> None:
        """Take the answer to a request: a program, or the reason that it was not started or that descriptors are not kept."""
        asked = self.asked.pop(name, None)
        if not is_held and not asked:
            say(f"{name} does not outlive this pty host: {more}")
        elif not is_held and asked:
            asked[2](None, more)
        elif asked and len(ends) == 2:
            process, _, end = more.partition(" ")
            kept = self.own[name] = Kept(ends, int(process), end)
            asked[2](kept, "")
        else:
            # The pane has gone meanwhile, or there was no free descriptor here.
            for end_of_it in ends:
                os.close(end_of_it)
            if asked:
                self.send(b"drop %s" % name.encode())
                asked[2](None, "no free descriptor")

    def take_end(self, name: str, end: str) -> None:
        """Take the end of a program, once."""
        kept = self.own.get(name) or self.left.get(name)
        if kept and kept.end == RUNS:
            kept.end = end
            if name in self.hears_end:
                self.hears_end[name](end)

    # ---- requests

    def spawn(self, name: str, size: Size, text: bytes, started: Callable[[Kept | None, str], object]) -> None:
        """Run a program on a new terminal. `text` has the folder, the shell instead, the words and the environment."""
        line = b"spawn %s %d %d" % (name.encode(), *size)
        self.asked[name] = line, text, started
        self.send(line, text=text)

    def put(self, name: str, ends: list[int]) -> None:
        """Keep descriptors there, in place of others of this name."""
        self.unsend(name)
        self.own[name] = Kept(ends)
        self.send(b"put %s 0" % name.encode(), ends)

    def unsend(self, name: str) -> None:
        """Forget an unsent message about descriptors that are closed soon."""
        put = b"put %s " % name.encode()
        self.waiting = [one for one in self.waiting if not one[0].startswith(put)]

    def claim(self, name: str) -> Kept | None:
        """Return the entry of an earlier host under a name. It belongs to this one from now on."""
        found = self.left.pop(name, None)
        if found:
            self.own[name] = found
        return found

    def close(self, name: str) -> None:
        """Keep the pidfd of a program alone. The caller closes its own terminal."""
        kept = self.own.get(name)
        if kept and len(kept.ends) > 1:
            kept.ends = kept.ends[-1:]
            self.send(b"close %s" % name.encode())

    def drop(self, name: str) -> None:
        """Keep something no longer. The caller closes its own descriptors."""
        self.unsend(name)
        self.hears_end.pop(name, None)
        if self.asked.pop(name, None) or self.own.pop(name, None):
            self.send(b"drop %s" % name.encode())

    def drop_left(self, name: str) -> int:
        """Drop the entry of an earlier host under a name, and return its running process; 0 if there is none."""
        kept = self.left.pop(name, None)
        if not kept:
            return 0
        for end in kept.ends:
            os.close(end)
        self.send(b"drop %s" % name.encode())
        return kept.process if kept.end == RUNS else 0

    def guarded(self) -> None:
        """Say that this host has its state: if it ends now, another one continues with everything.

        After an upgrade the holder runs the build before until now. From now on it runs this one, and becomes it itself.
        """
        if self.is_upgraded:
            self.send(b"run %d" % os.getpid(), text=host_words())
        self.send(b"guarded")
        if self.is_upgraded:
            self.is_upgraded = False
            self.send(b"become holder", text=b"\0".join(map(os.fsencode, holder_words())))

    def is_there(self) -> bool:
        """Return True if a holder runs that has got all messages."""
        return self.pair is not None and self.process != 0 and not self.waiting

    def number(self) -> int:
        """Return the descriptor of the pair; -1 without a holder."""
        return self.pair.fileno() if self.pair else -1

    def handed_over(self, build: str) -> tuple[str, list[int]]:
        """Return the variable for a host of another build that this process executes, and the descriptors that it inherits."""
        import json

        kept = {**self.left, **self.own}
        table = memfd_of(json.dumps([self.process, [[name, one.process, one.end, one.ends] for name, one in kept.items()]]).encode())
        ends = [self.number(), table, *(end for one in kept.values() for end in one.ends)]
        return f"{self.number()} {UPGRADED} {build} {self.most_files} {table}", ends

    def take_table(self, table: int) -> None:
        """Take the entries of the host that has executed this one, and the process of the holder."""
        self.process, kept = read_json(os.pread(table, os.fstat(table).st_size, 0).decode())
        os.close(table)
        for name, process, told, ends in kept:
            for end in ends:
                os.set_inheritable(end, False)
            self.left[name] = Kept(ends, process, told)

    def flush(self) -> None:
        """Send all messages; this waits for the holder."""
        if self.pair:
            self.pair.setblocking(True)
            self.write()
            if self.pair:
                self.pair.setblocking(False)

    def bye(self) -> None:
        """End the holder, since the session ends."""
        self.is_over = True
        self.loop.drop("holder")
        if self.pair:
            self.pair.setblocking(True)
            self.send(b"bye")
            self.lost()
