"""`mux upgrade`: has running sessions go on with this build of roam, or lists those that run another one."""
from __future__ import annotations

import os
import time

from roam_live.common.build_info import build, identity
from roam_live.common.errors import Fault, reason, say
from roam_live.common.io import LineReader
from roam_live.common.process import TOOLS, is_stopped, program
from roam_live.common.signals import signal
from roam_live.common.suppress import suppress
from roam_live.common.text import printable
from roam_live.common.unix_socket import SCM_RIGHTS, SOL_SOCKET, UnixSocket, connected_in
from roam_live.protocol.host_lines import BAD_LINE, SESSION, led, parted
from roam_live.protocol.upgrade_lines import BEGINS, BUILD, REFUSED, UPGRADE
from roam_live.session.tools_folder import build_sum

TYPE_CHECKING = False
if TYPE_CHECKING:
    from collections.abc import Iterable, Iterator

    from roam_live.cli.args import Asked
    from roam_live.session.folder import SessionFolder

SAME = "all sessions run this build"
ADVICE = "`mux upgrade NAME` has a session go on with this build, `mux upgrade --all` all of them. Programs keep running."
FAR = "it runs on another machine; run `mux upgrade` there"

# Seconds for a pty host to answer a question, to check the new build and wait until nothing is under way, and to run again.
ANSWERS_SECONDS = 10.0
BEGINS_SECONDS = 15.0
RUNS_SECONDS = 15.0
LOOK_SECONDS = 0.05


class NoAnswer(Exception):
    """A pty host that does not answer in time."""


def upgrade(asked: Asked) -> int:
    """Have one or all sessions go on with this build, or list those that run another one; return the status."""
    from roam_live.cli.targets import running
    from roam_live.session.lookup import sessions_here

    here = [session for session in sessions_here() if session.is_listed()]
    if asked.name and asked.is_all:
        raise Fault("name a session, or use --all")
    if not asked.name and not asked.is_all:
        print("\n".join(report(here)))
        return 0
    status = 0
    own = [session for session in here if session.served != "relay"]
    for session in own if asked.is_all else [running(asked.name).whole_session()]:
        try:
            print(printable(f"{session.name}: {upgraded(session)}"))
        except Fault as fault:
            say(f"session {session.name} is not upgraded: {fault}")
            status = 1
    return status


def line_of(session: SessionFolder, told: str) -> str:
    """Return the line about a session that runs another build."""
    if session.served != "relay":
        return f"{session.name} runs roam {told}"
    return f"{session.name} has a relay of roam {told}; `mux kill {session.name}`, then `mux ssh` again, replaces it"


def report(sessions: Iterable[SessionFolder]) -> list[str]:
    """Return the lines that `mux upgrade` prints for running sessions."""
    others = [(session, session.other_build()) for session in sessions]
    lines = [f"this is {build().line()}"]
    lines += [printable(line_of(session, told)) for session, told in others if told]
    return [*lines, SAME if len(lines) == 1 else ADVICE]


def upgraded(session: SessionFolder) -> str:
    """Have a session go on with this build, and return a message; Fault if it does not."""
    if session.served == "relay":
        raise Fault(FAR)
    path = os.path.join(session.common, "host")
    own = build_sum(str(TOOLS), program())
    try:
        before = running_sum(path)
    except NoAnswer:
        return replaced_hung(session, path)
    if before == own and not session.other_build():
        return "runs this build already"
    request(path)
    if awaited_sum(path) != own:
        raise Fault(f"its new pty host failed, and the one before goes on; {session.log} says why")
    return f"runs roam {identity()} now; the servers of its windows stay as they are until the windows end"


def replaced_hung(session: SessionFolder, path: str) -> str:
    """End a pty host that does not answer, so that the holder starts another one, and return a message."""
    host = session.process("host")
    if host is None:
        raise Fault("its pty host is not running")
    if is_stopped(host):
        raise Fault(f"its pty host is stopped; `kill -CONT {host}` continues it")
    with suppress(ProcessLookupError):
        os.kill(host, signal.SIGKILL)
    awaited_sum(path)
    return "its pty host did not answer, and was replaced by another one of the same build; `mux upgrade` again moves it to this build"


# ---- questions to a pty host

def asked_lines(peer: UnixSocket, seconds: float) -> Iterator[str]:
    """Yield the lines about the session from a pty host, until its connection ends; NoAnswer after so many seconds."""
    end, reader = time.monotonic() + seconds, LineReader()
    while True:
        peer.settimeout(max(0.001, end - time.monotonic()))
        try:
            chunk = peer.recv(4096)
        except TimeoutError:
            raise NoAnswer from None
        except OSError:
            return
        if not chunk:
            return
        yield from (parted(line)[1] for line in reader.fed(chunk))


def running_sum(path: str, seconds: float = ANSWERS_SECONDS) -> str:
    """Return the sum of the files that a pty host runs; Fault if it is too old to know."""
    with connected(path, seconds) as peer:
        peer.sendall(f"{led(SESSION, BUILD)}\n".encode())
        for line in asked_lines(peer, seconds):
            words = line.split(" ")
            if line == BAD_LINE:
                raise Fault("its pty host is of a build that cannot be replaced; end the session and start it again")
            if words[0] == BUILD and len(words) > 1:
                return words[1]
    raise NoAnswer


def connected(path: str, seconds: float) -> UnixSocket:
    """Return a connection to a pty host; Fault without one."""
    try:
        return connected_in(path, seconds)
    except BlockingIOError:
        raise NoAnswer from None
    except OSError as fault:
        raise Fault(f"its pty host cannot be reached: {reason(fault)}") from fault


def request(path: str) -> None:
    """Pass a pty host this build's folder of tools, and wait until it begins to run it; Fault with its reason otherwise."""
    with connected(path, ANSWERS_SECONDS) as peer:
        folder = os.open(TOOLS, os.O_RDONLY | os.O_DIRECTORY | os.O_CLOEXEC)
        try:
            peer.sendmsg([f"{led(SESSION, UPGRADE)}\n".encode()], [(SOL_SOCKET, SCM_RIGHTS, folder.to_bytes(4, "little"))])
        finally:
            os.close(folder)
        try:
            for line in asked_lines(peer, BEGINS_SECONDS):
                if line.startswith(REFUSED):
                    raise Fault(printable(line[len(REFUSED) + 1 :]))
                if line.startswith(f"{BEGINS} "):
                    return
        except NoAnswer:
            raise Fault("its pty host does not answer") from None
    raise Fault("its pty host has ended the connection")


def awaited_sum(path: str) -> str:
    """Return the sum of the files that the next pty host runs; Fault if none answers in time."""
    end = time.monotonic() + RUNS_SECONDS
    while time.monotonic() < end:
        try:
            return running_sum(path, 1.0)
        except (NoAnswer, Fault):
            time.sleep(LOOK_SECONDS)
    raise Fault("no pty host answers; the session's log may say why")
