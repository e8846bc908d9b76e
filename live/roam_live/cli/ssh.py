"""Sessions of other machines: `mux ssh` here, and its command there."""
from __future__ import annotations

import contextlib
import os
import re
import shlex
import subprocess
import zlib

from roam_live.cli.targets import session_of, target_of
from roam_live.common.process import TOOLS
from roam_live.config.environment import wants_udp
from roam_live.relay.frames import greeting, read_greeting
from roam_live.session.environment import send_environment
from roam_live.session.folder import SessionFolder
from roam_live.session.names import base, check_name
from roam_live.session.remote import RemoteSession

TYPE_CHECKING = False
if TYPE_CHECKING:
    from collections.abc import Callable

    from roam_live.cli.args import Asked
    from roam_live.protocol.panes import Places

# The options of ssh with a value, and those of `mux ssh` itself.
SSH_PAIRS = "BbcDEeFIiJLlmOoPpQRSWw"
OWN_PAIRS = ("--ssh", "--far", "--predict")

# Seconds for the other machine to report its windows. A session started there by hand never reports any.
TOLD_WAIT = 1.5

# Seconds for ssh to report its destination.
HOST_WAIT = 5.0


def parted_options(words: list[str]) -> tuple[list[str], list[str]]:
    """Return the words of `mux ssh` without the ssh options before the host, and these options."""
    own: list[str] = []
    options: list[str] = []
    rest = list(words)
    while rest and rest[0].startswith("-"):
        word = rest.pop(0)
        is_own = word.startswith("--") or word == "-h"
        # An option letter with a value may include it, as in -p22, and may follow other letters.
        first = next((place for place, letter in enumerate(word) if letter in SSH_PAIRS), len(word))
        is_pair = word in OWN_PAIRS if is_own else first == len(word) - 1
        found = own if is_own else options
        found += [word, *rest[:1]] if is_pair else [word]
        del rest[: int(is_pair)]
    return own + rest, options


def command_of(asked: Asked) -> list[str]:
    """Return the command over which a session is relayed, from the arguments of `mux ssh`."""
    return [*shlex.split(asked.ssh), *asked.options, asked.host, f"{asked.far} far {asked.name}"]


def host_of(asked: Asked) -> str:
    """Return the name or address of the other machine according to ssh.

    Return the word itself without its user if ssh is late, and nothing if UDP is off, since only UDP needs it.
    """
    if not wants_udp():
        return ""
    words = [*shlex.split(asked.ssh), "-G", *asked.options, asked.host]
    with contextlib.suppress(OSError, subprocess.SubprocessError):
        told = subprocess.run(words, stdin=subprocess.DEVNULL, stdout=subprocess.PIPE, stderr=subprocess.DEVNULL, timeout=HOST_WAIT,
                              check=True)
        found = re.search(rb"^hostname ([!-~]+)$", told.stdout, re.MULTILINE)
        if found:
            return found[1].decode("ascii")
    return str(asked.host).rpartition("@")[2]


def near_session(asked: Asked, command: list[str]) -> RemoteSession:
    """Return the local end of a remote session: one for each host, session, and ssh command."""
    place = f"ssh:{re.sub('[^A-Za-z0-9_.@-]', '_', asked.host)}:{asked.name}"
    plain = ["ssh", asked.host, f"roam-mux far {asked.name}"]
    if command != plain:
        place += f":{zlib.crc32(os.fsencode(chr(0).join(command))):08x}"
    return RemoteSession(base() / place, asked.name)


def is_first_client(places: Places | None) -> bool:
    """Return True if a session, as far as is reported, had no client process before this machine's."""
    return places is not None and places.clients <= 1


def carry(name: str, launched: Callable[[SessionFolder], bool]) -> int:
    """Relay a session's datagrams over standard input and output.

    If the near end knew a session that has ended, it is not started anew. Under the session's lock, a call checks whether another runs or
    is half started. The session gets the environment that sshd set.
    """
    wanted, target = read_greeting(0), target_of(name)
    check_name(target.name)
    session = session_of(target)
    if wanted == "-":
        with session.locked():
            if not launched(session):
                session.launch()
    elif not session.find() or all(window.id() != wanted for window in session.windows()):
        os.write(1, greeting("0"))
        return 0
    window = next((one for one in session.windows() if one.id() == wanted), None) or session.window(target.window)
    send_environment(window)
    words = [str(TOOLS / "relay"), "--far", "--greeted", "--server", str(window.process("server")), "--dir", str(window.folder), "-"]
    return os.execv(words[0], words)
