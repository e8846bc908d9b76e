"""Commands of `mux` on all sessions of this machine, and on roam itself."""
from __future__ import annotations

from roam_live.common.errors import Fault, say
from roam_live.common.text import printable
from roam_live.session.lookup import sessions_here

TYPE_CHECKING = False
if TYPE_CHECKING:
    from roam_live.cli.args import Asked
    from roam_live.session.folder import SessionFolder


def list_sessions(asked: Asked) -> int:
    """Print a line for each running session, and clean up after ended ones."""
    from roam_live.session.survey import surveyed

    status = 0
    running_here: list[tuple[SessionFolder, list[SessionFolder]]] = []
    for session in sessions_here():
        try:
            running_here += [(session, session.windows())] if session.is_listed() else []
        except Fault as fault:
            say(f"session {session.name}: {fault}")
            status = 1
    for line in surveyed(running_here):
        print(printable(line))
    if not running_here and not status:
        say("no session is running")
    return status


def print_settings(asked: Asked) -> int:
    """Print the path of the settings file, and its unsupported parts. Return status 1 if there are some."""
    from roam_live.config.user_file import OWN, settings_path, undone

    OWN.read()
    print(printable(settings_path()) + ("" if OWN.found else ", which does not exist"))
    lines = undone(OWN.found) if OWN.found else []
    print("".join(f"{line}\n" for line in lines), end="")
    return 1 if lines else 0
