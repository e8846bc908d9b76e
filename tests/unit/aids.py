"""Common parts of unit tests: tools as modules, a manual clock, and folders and sockets that are removed with the test."""
import contextlib
import functools
import importlib.machinery
import importlib.util
import io
import itertools
import os
import pathlib
import re
import socket
import subprocess
import sys
import tempfile
import time
import types
import typing
import unittest
from unittest import mock

from roam_live.common.event_loop import Loop
from roam_live.common.process import TOOLS
from roam_live.host.holder_link import HolderLink, Kept
from roam_live.host.kept_state import KeptState
from roam_live.protocol.host_client import HostClient
from roam_live.protocol.host_link import HostLink


@functools.lru_cache()
def loaded(name: str) -> types.ModuleType:
    """Return a tool of live/ as a module."""
    return module_at(name, str(TOOLS / name))


@functools.lru_cache()
def loaded_tool(name: str) -> types.ModuleType:
    """Return a tool of tools/ as a module."""
    return module_at(f"tool_{name}", str(TOOLS.parent / "tools" / name))


def module_at(name: str, path: str) -> types.ModuleType:
    """Return a script as a module of this name."""
    loader = importlib.machinery.SourceFileLoader(name, path)
    spec = importlib.util.spec_from_loader(name, loader)
    assert spec
    module = importlib.util.module_from_spec(spec)
    loader.exec_module(module)
    return module


def plain_environment(**more: str) -> "dict[str, str]":
    """Return this process's environment without the variables that affect Python or roam, and with these."""
    return {**{name: value for name, value in os.environ.items() if not name.startswith(("PYTHON", "ROAM"))}, **more}


class StillLoop(Loop):
    """A loop that does not wait. It records the time that it would wait, and the number of ready ends."""

    waited: "float | None" = None
    found = 0

    def ready(self, seconds: "float | None") -> "dict[int, int]":
        """Return the ready ends."""
        self.waited = seconds
        ready = super().ready(0)
        self.found += len(ready)
        return ready

    def turns(self, count: int = 1) -> None:
        """Take so many turns."""
        for _ in range(count):
            self.turn()


class PlayedHolder(HolderLink):
    """The host's end of a holder that doesn't exist. A call returns the process and the terminal of each program, or raises OSError.

    It records the lines to the holder, and the process of each pidfd, which is another file here.
    """

    def __init__(self, loop: Loop, forked: "typing.Callable[[tuple[int, int]], tuple[int, int]]") -> None:
        self.forked = forked
        self.lines: "list[str]" = []
        self.files: "dict[int, int]" = {}
        super().__init__(loop)

    def start(self) -> None:
        """Start none."""
        self.process = 17

    def send(self, line: bytes, ends: object = (), text: "bytes | None" = None) -> None:
        """Record a line."""
        self.lines.append(line.decode())

    def spawn(self, name: str, size: "tuple[int, int]", text: bytes, started: "typing.Callable[[Kept | None, str], object]") -> None:
        """Start a program at once."""
        self.lines.append(f"spawn {name}")
        try:
            process, terminal = self.forked(size)
        except OSError as fault:
            started(None, fault.strerror)
            return
        file = os.open(os.devnull, os.O_RDONLY)
        self.files[file] = process
        self.own[name] = Kept([terminal, file], process)
        started(self.own[name], "")

    def ends(self, process: int, end: str = "0") -> None:
        """End a program."""
        for name in [name for name, kept in self.own.items() if kept.process == process]:
            self.take_end(name, end)


def kept_by(folder: "str | os.PathLike[str]", loop: Loop, forked: "typing.Callable[[tuple[int, int]], tuple[int, int]]") -> KeptState:
    """Return the state of a host whose programs come from a call. The ids of its panes are 1, 2 and so on."""
    kept = KeptState(str(folder), PlayedHolder(loop, forked), loop)
    kept.next_id = itertools.count(1).__next__  # type: ignore[method-assign]
    return kept


class Case(unittest.TestCase):
    """A test that removes everything it creates."""

    now = 100.0

    def made_folder(self) -> pathlib.Path:
        """Return a folder of its own."""
        made = tempfile.TemporaryDirectory()
        self.addCleanup(made.cleanup)
        return pathlib.Path(os.path.realpath(made.name))

    def patch(self, *words: object, **more: object) -> mock.Mock:
        """Patch an object while the test runs, and return the mock."""
        patched = mock.patch(*words, **more)
        self.addCleanup(patched.stop)
        return patched.start()

    def patch_of(self, target: object, name: str, *words: object, **more: object) -> mock.Mock:
        """Patch an attribute while the test runs, and return the mock."""
        patched = mock.patch.object(target, name, *words, **more)
        self.addCleanup(patched.stop)
        return patched.start()

    def stop_clock(self) -> None:
        """Stop the clock at `now`, which only sleeps advance."""
        self.patch("time.monotonic", lambda: self.now)
        self.patch("time.sleep", self.pass_time)

    def pass_time(self, seconds: float) -> None:
        """Let so many seconds pass."""
        self.now += seconds

    def pair(self) -> "tuple[socket.socket, socket.socket]":
        """Return both ends of a non-blocking stream."""
        ends = socket.socketpair()
        for end in ends:
            end.setblocking(False)
            self.addCleanup(end.close)
        return ends

    def pipe(self) -> "tuple[int, int]":
        """Return a non-blocking pipe."""
        ends = os.pipe2(os.O_NONBLOCK | os.O_CLOEXEC)
        for end in ends:
            self.addCleanup(closed, end)
        return ends

    def listening(self, path: "str | os.PathLike[str]") -> socket.socket:
        """Return a listening socket."""
        one = socket.socket(socket.AF_UNIX, socket.SOCK_STREAM)
        self.addCleanup(one.close)
        one.bind(str(path))
        one.listen()
        one.setblocking(False)
        return one

    def taken(self, listener: socket.socket) -> socket.socket:
        """Return the accepted connection."""
        one = listener.accept()[0]
        self.addCleanup(one.close)
        one.setblocking(False)
        return one

    def process(self, *words: str, **more: object) -> subprocess.Popen:
        """Return a new process, which sleeps by default."""
        process = subprocess.Popen(words or ("sleep", "60"), **more)
        self.addCleanup(process.wait)
        self.addCleanup(process.kill)
        return process

    def heard(self) -> io.StringIO:
        """Capture standard error from now on."""
        said = io.StringIO()
        held = contextlib.redirect_stderr(said)
        held.__enter__()
        self.addCleanup(held.__exit__, None, None, None)
        return said

    def printed(self) -> io.StringIO:
        """Capture standard output from now on."""
        text = io.StringIO()
        held = contextlib.redirect_stdout(text)
        held.__enter__()
        self.addCleanup(held.__exit__, None, None, None)
        return text

    def environment(self, **words: "str | None") -> None:
        """Set variables of the environment, and remove those that are None."""
        held = mock.patch.dict(os.environ, {name: word for name, word in words.items() if word is not None})
        held.start()
        self.addCleanup(held.stop)
        for name in [name for name, word in words.items() if word is None]:
            os.environ.pop(name, None)

    def words(self, *words: str) -> None:
        """Set the arguments of a tool."""
        self.patch_of(sys, "argv", [*words])


def led_text(text: bytes, number: int) -> bytes:
    """Return lines in the form for the socket `host`, about a window or the session."""
    return b"".join(b"%d %s" % (number, line) for line in text.splitlines(True))


def parted_text(data: bytes, number: int) -> bytes:
    """Return the lines sent about a window, or the session, without their numbers."""
    lead = b"%d " % number
    return b"".join(line[len(lead) :] for line in data.splitlines(True) if line.startswith(lead))


def unled(data: bytes) -> bytes:
    """Return the lines sent at the socket `host`, without the numbers at their start."""
    return re.sub(rb"(?m)^\d{1,2} ", b"", data)


class Asker:
    """A peer at a socket `host` that sends lines about a window."""

    def __init__(self, case: "Case", folder: "str | os.PathLike[str]", number: int = 0) -> None:
        self.end, self.number = socket.socket(socket.AF_UNIX, socket.SOCK_STREAM), number
        case.addCleanup(self.end.close)
        self.end.connect(os.path.join(folder, "host"))
        self.end.setblocking(False)
        self.fileno, self.close, self.recv = self.end.fileno, self.end.close, self.end.recv

    def send(self, text: bytes) -> None:
        """Send lines."""
        self.end.send(led_text(text, self.number))


def without_numbers(case: "Case") -> None:
    """Omit the window numbers of lines at the socket `host`, for tests of one window that write and read them by hand."""
    for module in ("host.socket_server", "host.uploads", "host.scrollback_queries", "protocol.host_link"):
        case.patch(f"roam_live.{module}.led", lambda number, line: line)
    for module in ("host.socket_server", "protocol.scrollback_client"):
        case.patch(f"roam_live.{module}.parted", lambda line: (0, line))


class LinkedClient(HostClient):
    """The view of a session's only window on a connection of its own, and that connection."""

    def __init__(self, folder, loop, size=lambda: (24, 80), is_read_only=False, knows=lambda: None) -> None:
        link = HostLink(folder, loop, size, is_read_only)
        super().__init__(link, 0, knows)
        link.go(self)

    def __getattr__(self, name: str) -> object:
        return getattr(self.__dict__["link"], name)


class PlayedSurvey:
    """The answers of session sockets: a folder's pane positions, from a call, and the number of terminals."""

    def __init__(self, places: "object" = None, terminals: "int | None" = 0) -> None:
        self.places = places if callable(places) else lambda folder: places
        self.terminals = lambda folder: terminals


def line_of(session: "object", places: "object" = None, terminals: "int | None" = 0) -> str:
    """Return the line of `mux ls` for a session."""
    return session.line(PlayedSurvey(places, terminals), session.windows())


def record(word: str, *numbers: int, data: "bytes | None" = None, words: str = "") -> bytes:
    """Return a record in a client process's form. With data, the record contains the length."""
    counts = [*numbers, *([len(data)] if data is not None else [])]
    line = " ".join([word, *map(str, counts), *([words] if words else [])])
    return f"{line}\n".encode() + (data or b"")


def comes(test: "typing.Callable[[], object]", seconds: float = 10.0) -> bool:
    """Return True if a condition becomes true in time. Other processes run between two checks."""
    end = time.monotonic() + seconds
    while not test() and time.monotonic() < end:
        os.sched_yield()
    return bool(test())


def closed(end: int) -> None:
    """Close a descriptor, which may be closed already."""
    with contextlib.suppress(OSError):
        os.close(end)


def ended(end: int) -> None:
    """Shut down a descriptor, but keep its number in use, so that nothing else is closed by it later."""
    nothing = os.open(os.devnull, os.O_RDWR | os.O_CLOEXEC)
    os.dup2(nothing, end)
    os.close(nothing)


def read_now(end: "socket.socket | int") -> bytes:
    """Return all available data at an end."""
    text = b""
    with contextlib.suppress(BlockingIOError):
        while True:
            chunk = os.read(end if isinstance(end, int) else end.fileno(), 65536)
            if not chunk:
                break
            text += chunk
    return text
