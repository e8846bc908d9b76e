"""The setup of an encrypted path in addition to a relay's command.

The near end requests one, with its name. The far end makes a key and a port, sends them over the command alone, and continues in a process
that outlives it. The near end looks up the possible addresses.
"""
from __future__ import annotations

import contextlib
import ipaddress
import math
import os
import pathlib
import resource
import socket
import struct
import threading
import time
from collections.abc import Iterable

from roam_live.common.errors import reason, say
from roam_live.common.files import replace_text
from roam_live.common.process import begun, is_running
from roam_live.common.signals import signal
from roam_live.config.environment import wants_udp
from roam_live.relay.aead_packets import KEY_LENGTH, PORTS, AeadPackets, cipher, places_of, random_key, udp_end
from roam_live.relay.batches import has_lzma
from roam_live.relay.frames import ENCRYPTED, WANTS
from roam_live.relay.udp_path import Path

# The version of a request, and the length of its name.
VERSION = 1
NAME_LENGTH = 8

# The far end's answer: the version, the port and the key; then the address that the command came to.
AEAD_HEAD = struct.Struct(f">cBH{KEY_LENGTH}s")

# The prctl that permits or forbids core dumps and reads of this process's memory.
PR_SET_DUMPABLE = 4

# The mount options of a /proc that hides nothing.
SHOWN = ("hidepid=0", "hidepid=off")

# Seconds between lookups of a silent path's other end, and between requests for another path; and the most addresses to call.
ASKS_AGAIN = 30.0
ASKS_FOR_ANOTHER = 1.0
MOST_PLACES = 16


def is_wanted() -> bool:
    """Return True if an encrypted path is wanted and possible here."""
    return wants_udp() and has_lzma() and cipher() is not None


def hide_memory() -> None:
    """Protect this process's memory from core files and from the user's other programs.

    If /proc hides unreadable processes, this process would be invisible to its own user, whose tools find relays there. Then only core
    files are turned off.
    """
    if hides_processes():
        limit_core()
        return
    with contextlib.suppress(ImportError, OSError, AttributeError):
        import ctypes

        ctypes.CDLL(None).prctl(PR_SET_DUMPABLE, 0, 0, 0, 0)


def hides_processes(mounts: str = "/proc/self/mountinfo") -> bool:
    """Return True if /proc is mounted so that it hides processes that a user may not read."""
    with contextlib.suppress(OSError), open(mounts, encoding="utf-8", errors="replace") as lines:
        options = [option for line in lines if " /proc " in line for option in line.split()[-1].split(",")]
        return any(option.startswith("hidepid=") and option not in SHOWN for option in options)
    return False


def limit_core() -> None:
    """Let the system write no core file of this process, or of its children that don't request one."""
    with contextlib.suppress(OSError, ValueError):
        resource.setrlimit(resource.RLIMIT_CORE, (0, resource.getrlimit(resource.RLIMIT_CORE)[1]))


def aead_of(key: bytes, is_near: bool) -> AeadPackets | None:
    """Return the encryption under a key; None if the library is missing."""
    kind = cipher()
    return AeadPackets(kind(key), is_near) if kind else None


# ---- the near end's request


def kept_name(folder: str | None) -> bytes:
    """Return the name of a folder's near end, which is stored there.

    By it the far end of a killed near end is found again and ended. It is no secret.
    """
    note = pathlib.Path(folder or "", "name")
    with contextlib.suppress(OSError, ValueError):
        name = bytes.fromhex(note.read_text(encoding="ascii")) if folder else b""
        if len(name) == NAME_LENGTH:
            return name
    name = os.urandom(NAME_LENGTH)
    with contextlib.suppress(OSError):
        if folder:
            replace_text(note, name.hex())
    return name


def wish(name: bytes) -> bytes:
    """Return the request of a near end."""
    return WANTS + bytes([VERSION]) + name


def name_in(text: bytes) -> str:
    """Return the name in a near end's request; nothing if this roam does not support it."""
    return text[2:].hex() if text[1:2] == bytes([VERSION]) and len(text) == 2 + NAME_LENGTH else ""


# ---- the far end's path


def made_path(end: socket.socket) -> tuple[Path, bytes] | None:
    """Return a path on a socket under a new key, and the answer for the near end; None if the library is missing.

    The process that makes a key is never forked afterwards.
    """
    hide_memory()
    key = random_key()
    aead = aead_of(key, False)
    if not aead:
        end.close()
        return None
    words = os.environ.get("SSH_CONNECTION", "").split()
    address = words[2].encode("ascii", "replace") if len(words) == 4 else b""
    return Path(aead, end), AEAD_HEAD.pack(ENCRYPTED, VERSION, end.getsockname()[1], key) + address


def take_over(folder: str, name: str) -> pathlib.Path | None:
    """Record this far end as that of a near end, and end the previous one. Return the note if it can be written."""
    notes = pathlib.Path(folder, "relays")
    note = notes / name
    try:
        notes.mkdir(mode=0o700, exist_ok=True)
        end_noted(note)
        for other in notes.iterdir():
            if not noted(other):
                other.unlink(missing_ok=True)
        replace_text(note, f"{os.getpid()} {begun(os.getpid())}\n")
    except OSError as fault:
        say(f"{note}: {reason(fault)}")
        return None
    return note


def noted(note: pathlib.Path) -> int:
    """Return the running far end that a note records; 0 if there is none."""
    with contextlib.suppress(OSError, ValueError):
        process, moment = map(int, note.read_text(encoding="ascii").split())
        return process if is_running(process, moment) else 0
    return 0


def end_noted(note: pathlib.Path) -> None:
    """End the far end that a file records."""
    process = noted(note)
    if process in (0, os.getpid()):
        return
    with contextlib.suppress(OSError):
        opened = os.pidfd_open(process)
        try:
            # Its pid may have been reused before it was opened.
            if noted(note) == process:
                signal.pidfd_send_signal(opened, signal.SIGTERM)
        finally:
            os.close(opened)


def forget_note(note: pathlib.Path | None) -> None:
    """Remove a note of this process."""
    if note and noted(note) == os.getpid():
        with contextlib.suppress(OSError):
            note.unlink()


def part_from_command(signals: Iterable[int]) -> int | None:
    """Continue in a new process that outlives the command. Return a descriptor that releases the command once it is closed.

    Return None if the system refuses a new process; then the original one continues.
    """
    try:
        reader, writer = os.pipe()
    except OSError:
        return None
    try:
        child = os.fork()
    except OSError:
        os.close(reader)
        os.close(writer)
        return None
    if child:
        hold_command(reader, signals)
    os.close(reader)
    os.setsid()
    return writer


def hold_command(reader: int, signals: Iterable[int]) -> None:
    """Keep the command open until the other process releases it, and then end.

    The parent takes the end of this process for the end of the command, and then drops its input.
    """
    signal.set_wakeup_fd(-1)
    for number in signals:
        signal.signal(number, signal.SIG_DFL)
    with contextlib.suppress(OSError):
        close_standard()
        close_others((0, 1, 2, reader))
        os.read(reader, 1)
    os._exit(0)


def close_others(kept: tuple[int, ...]) -> None:
    """Close all descriptors except these."""
    for end in [int(name) for name in os.listdir("/proc/self/fd") if int(name) not in kept]:
        with contextlib.suppress(OSError):
            os.close(end)


def close_standard() -> None:
    """Close standard input, output and error."""
    nothing = os.open(os.devnull, os.O_RDWR | os.O_CLOEXEC)
    for end in (0, 1, 2):
        os.dup2(nothing, end)
    os.close(nothing)


# ---- the near end's path


class NearPath(Path):
    """The near end's path: the port of the other end, and the address that the command came to there."""

    def __init__(self, aead: AeadPackets, end: socket.socket, port: int, address: str) -> None:
        super().__init__(aead, end)
        self.port, self.address = port, address


def address_in(text: bytes) -> str:
    """Return the address that the other end reports; nothing if it is none, so that no name chosen by another machine is looked up."""
    word = text.decode("ascii", "replace")
    with contextlib.suppress(ValueError):
        ipaddress.ip_address(word.partition("%")[0])
        return word
    return ""


def near_path(text: bytes) -> NearPath | None:
    """Return the path that the far end offers; None if it is invalid or unsupported here."""
    if len(text) < AEAD_HEAD.size or not is_wanted():
        return None
    _, version, port, key = AEAD_HEAD.unpack_from(text)
    if version != VERSION or port not in PORTS:
        return None
    hide_memory()
    aead, end = aead_of(key, True), udp_end()
    return NearPath(aead, end, port, address_in(text[AEAD_HEAD.size :])) if aead and end else None


class Finder:
    """Looks up the possible addresses of a path's other end: the command's destination, and the address that the other end reports.

    A name lookup may take long, so it runs in parallel, one at a time.
    """

    def __init__(self, host: str) -> None:
        self.host = host
        self.path: NearPath | None = None
        self.asked_at = -math.inf
        self.search: threading.Thread | None = None

    def look(self, path: NearPath) -> None:
        """Begin a lookup if one is due."""
        now = time.monotonic()
        pause = ASKS_AGAIN if path is self.path else ASKS_FOR_ANOTHER
        if path.is_validated() or now < self.asked_at + pause or self.search and self.search.is_alive():
            return
        self.path, self.asked_at = path, now
        self.search = threading.Thread(target=self.find, args=(path,), daemon=True)
        # If the system refuses a thread it is tried again.
        with contextlib.suppress(RuntimeError):
            self.search.start()

    def find(self, path: NearPath) -> None:
        """Look up the possible addresses of a path's other end."""
        hosts = [host for host in (self.host, path.address) if host]
        places = dict.fromkeys(place for host in hosts for place in places_of(host, path.port, path.end.family))
        path.places = list(places)[:MOST_PLACES]
