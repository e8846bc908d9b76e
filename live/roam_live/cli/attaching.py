"""Commands of `mux` that start a session and attach to one: of this machine, or of another over ssh."""
from __future__ import annotations

import os
import time

import roam_bundle

from roam_live.cli.targets import is_in, running, session_of, target_of
from roam_live.common.errors import Fault, say
from roam_live.config.environment import chosen_history, chosen_prediction, chosen_prefix, sets_clipboard, wants_mouse
from roam_live.config.user_file import OWN
from roam_live.session.foreground import own_pane
from roam_live.session.local import SessionEnded
from roam_live.session.lookup import session_named, sweep
from roam_live.session.names import check_name

TYPE_CHECKING = False
if TYPE_CHECKING:
    from collections.abc import Callable

    from roam_live.cli.args import Asked
    from roam_live.protocol.panes import Places
    from roam_live.session.folder import SessionFolder


# The end of a remote session may be reported so many seconds after an attach by the relay that exists.
JUST_ENDED_SECONDS = 10.0

# Seconds for a relay to end once its files are gone.
RELAY_ENDS_SECONDS = 1.0


class RelayEnded(Fault):
    """The existing relay of a remote session ended before its window was ready."""


def launched(session: SessionFolder) -> bool:
    """Check that a session runs with its pty host, and return False if it has to be started. The caller has its lock."""
    if not session.find():
        session.kill()
        return False
    session.note_found()
    session.demand_host()
    return True


def begin(session: SessionFolder, command: list[str] | None = None) -> None:
    """Start all processes of a session, or none of them. The caller has its lock. Invalid settings in the environment raise Fault."""
    OWN.read()
    chosen_history()
    with session.whole():
        session.launch(command or ())
        session.demand_client()


def demand_terminal() -> None:
    """Refuse to attach without a terminal, or with invalid settings in the environment."""
    # Everything that shows a window needs this terminal.
    roam_bundle.load("first_painting")
    from roam_live.common.tty import demand_able

    OWN.read()
    chosen_prefix()
    chosen_prediction()
    wants_mouse()
    sets_clipboard()
    if not (os.isatty(0) and os.isatty(1)):
        raise Fault("standard input and output must be a terminal")

    demand_able()


def demand_outside(session: SessionFolder) -> None:
    """Refuse to show a session in one of its own panes, in any window."""
    folder = own_pane()[0]
    if folder and is_in(folder, session):
        raise Fault(f"this is a pane of session {session.name}; a session cannot show itself")


def enter(name: str, is_read_only: bool = False, prediction: str | None = None, may_begin: bool = True) -> int:
    """Attach to a session. If it isn't running, start it, or refuse unless that is wanted."""
    demand_terminal()
    target = target_of(name)
    session = session_of(target)
    demand_outside(session)
    with session.locked():
        was_there = launched(session)
        if not was_there and not may_begin:
            raise SessionEnded(f"session {session.name} has ended")
        if not was_there:
            begin(session)
        window = session.window(target.window)
        if was_there:
            window.demand_client()
    return follow(window, is_read_only, prediction, lambda places: not was_there)


def follow(session: SessionFolder, is_read_only: bool, prediction: str | None, is_new: Callable[[Places | None], bool],
           ends_unmet: Callable[[], object] = lambda: None) -> int:
    """Run the front end of a session, and return its status. Clean up if the session ended meanwhile, and call `ends_unmet` if it had ended
    before this terminal met it.
    """
    from roam_live.frontend import follow as frontend

    status = frontend.follow(session, is_read_only, chosen_prefix(), chosen_prediction(prediction), is_new, ends_unmet=ends_unmet)
    session.whole_session().await_end()
    sweep()
    return status


def attach(asked: Asked) -> int:
    """Attach to a running session; on request detach all other terminals first."""
    session = running(asked.name)
    if asked.is_alone:
        from roam_live.cli import windows

        demand_terminal()
        demand_outside(session)
        stay = windows.detach_others(session.window(target_of(asked.name).window))
        if stay:
            say(f"session {session.name}: {stay} of its terminals did not detach; they may be stopped")
    return enter(asked.name, prediction=asked.predict, may_begin=False)


def demand_command(word: str) -> None:
    """Refuse a word that is no command."""
    import shutil

    if not shutil.which(word):
        raise Fault(f"{word!r} is not a command; put the options of new before NAME")


def new(asked: Asked) -> int:
    """Start a session that isn't running, and attach to it unless it is to stay detached."""
    check_name(asked.name)
    if asked.command:
        demand_command(asked.command[0])
    if not asked.is_detached:
        demand_terminal()
    session = session_named(asked.name)
    with session.locked():
        if session.find():
            raise Fault(f"session {asked.name} is running; `mux attach {asked.name}` attaches to it")
        session.kill()
        begin(session, asked.command)
        if asked.is_detached:
            session.demand_ready()
    if asked.is_detached:
        sweep()
        return 0
    try:
        window = session.window()
    except SessionEnded:
        # Its command has ended already.
        print("[the session has ended]")
        return 0
    return follow(window, False, asked.predict, lambda places: True)


def refuse_detach(asked: Asked) -> int:
    """Refuse with the key that detaches."""
    raise Fault(f"press {chosen_prefix()} d in the front end to detach; the session keeps running")


def watch(asked: Asked) -> int:
    """Show a session read-only."""
    running(asked.name)
    return enter(asked.name, True, may_begin=False)


def enter_far(asked: Asked) -> int:
    """Attach to a remote session over ssh, by the existing relay and client process, or by new ones."""
    target = target_of(asked.name)
    check_name(asked.name if target.pane else target.name)
    demand_terminal()
    asked.name = target.name
    unmet: list[float] = []
    begun = time.monotonic()
    try:
        status = follow_far(asked, target.window, lambda: unmet.append(time.monotonic()))
    except RelayEnded:
        return follow_far(asked, target.window)
    # The existing relay led to a session that had just ended. The user wants the next one.
    return follow_far(asked, target.window) if unmet and unmet[0] < begun + JUST_ENDED_SECONDS else status


def follow_far(asked: Asked, number: int | None, ends_unmet: Callable[[], object] = lambda: None) -> int:
    """Attach to a remote session once, and return the status. `ends_unmet` is called if an existing one had ended before."""
    from roam_live.cli import ssh

    command = ssh.command_of(asked)
    session = ssh.near_session(asked, command)
    with session.locked():
        has_begun = not session.find()
        if has_begun:
            session.kill()
            status = session.launch_relay(command, ssh.host_of(asked))
            if status:
                return status
            session.await_windows(number, ssh.TOLD_WAIT)
        try:
            window = session.window(number)
            window.demand_client()
        except Fault as fault:
            if has_begun or not ends_soon(session):
                raise
            raise RelayEnded(str(fault)) from fault
    is_first: Callable[[Places | None], bool] = lambda places: has_begun and ssh.is_first_client(places)
    return follow(window, False, asked.predict, is_first, (lambda: None) if has_begun else ends_unmet)


def ends_soon(session: SessionFolder) -> bool:
    """Return True if the relay of a remote session has ended, or does soon."""
    end = time.monotonic() + RELAY_ENDS_SECONDS
    while session.runs() and time.monotonic() < end:
        time.sleep(0.01)
    return not session.runs()


def carry(asked: Asked) -> int:
    """Relay a session's datagrams over standard input and output."""
    from roam_live.cli import ssh

    if os.isatty(0):
        raise Fault("standard input is a terminal; `mux ssh` on another machine starts this end")
    return ssh.carry(asked.name, launched)
