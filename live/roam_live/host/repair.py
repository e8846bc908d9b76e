"""Restores files that a cleaner of old files removed from a session with windows: the pty host's socket, and the notes of its processes.

Without them the session would run on, but nobody could find it or end it.
"""
from __future__ import annotations

import os
import stat

from roam_live.common.build_info import identity
from roam_live.common.errors import Fault, log_to, reason
from roam_live.common.files import replace_text
from roam_live.common.process import TOOLS, begun
from roam_live.host.window import MENDED, UNMENDED
from roam_live.session.names import BUILD, REPLACED, TOOLS_FOLDER, WINDOWS_VERSION, windows_folder
from roam_live.session.processes import noted_in
from roam_live.session.roles import HOLDER, ROLES

TYPE_CHECKING = False
if TYPE_CHECKING:
    from roam_live.host.hosted_window import HostedWindow
    from roam_live.host.windows import Windows
    from roam_live.session.local import LocalSession

# The reason that nothing is restored.
TAKEN = "another session has this session's name by now; `mux kill {}` ends that one"


def renew_log(folder: str) -> None:
    """Open a new log in a folder if the log of this process was removed."""
    found = os.fstat(2)
    if stat.S_ISREG(found.st_mode) and not found.st_nlink:
        log = os.open(os.path.join(folder, "log"), os.O_WRONLY | os.O_APPEND | os.O_CREAT | os.O_CLOEXEC | os.O_NOFOLLOW, 0o600)
        os.dup2(log, 2)
        os.close(log)
    log_to(folder)


class Mending:
    """Checks that others can find a pty host with windows."""

    def __init__(self, windows: Windows) -> None:
        self.windows = windows
        # The build of this process, before roam is upgraded.
        self.build = identity()
        # The last message about a failure, which isn't repeated.
        self.said = ""

    def there(self) -> list[HostedWindow]:
        """Return the windows that have sockets."""
        return [window for window in self.windows.windows.values() if window.host]

    def look(self) -> None:
        """Restore missing files, unless another process has the session's lock, for example to start one there."""
        if self.windows.common.socket.is_found():
            return
        try:
            from roam_live.session.local import LocalSession

            session = LocalSession(self.windows.asked.common)
            with session.locked(may_wait=False):
                self.mend(session)
                self.said = ""
        except BlockingIOError:
            # The next check tries again.
            pass
        except ImportError as fault:
            # The files of roam were removed or replaced.
            self.tell(UNMENDED.format(fault))
        except (Fault, OSError) as fault:
            self.tell(UNMENDED.format(reason(fault)))

    def tell(self, words: str) -> None:
        """Report a failure once."""
        if words != self.said:
            self.said = words
            self.windows.common.tell(words)

    def mend(self, session: LocalSession) -> None:
        """Restore everything, unless another session has the name. The caller has the session's lock."""
        common = self.windows.asked.common
        if self.is_taken(session):
            raise Fault(TAKEN.format(os.path.basename(common)))
        renew_log(common)
        self.note(common)
        self.windows.common.kept.settle()
        for window in self.there():
            window.processes.make_folder()
            window.processes.note()
            if window.state.name:
                window.processes.note_name()
            if window.host and window.processes.folder == window.host.asked.dir:
                window.host.lasting.own = window.host.lasting.found()
        self.windows.common.socket.listen_again(common)
        self.windows.common.tell(MENDED)

    @staticmethod
    def is_taken(session: LocalSession) -> bool:
        """Return True if another session has the name by now."""
        # The host's loop waits for nobody: one that accepts no connection now counts as another session.
        found = (session.process(session.served), session.listener(ROLES[session.served].socket, 0.0))
        return any(process not in (None, os.getpid()) for process in found)

    def note(self, common: str) -> None:
        """Write the note of this process, and the window used last."""
        asked = self.windows.asked
        command = [] if asked.instead else asked.command
        import json

        from roam_live.session.start_limits import current_limits

        state = {"version": WINDOWS_VERSION, "command": command, **current_limits(), **self.own()}

        replace_text(os.path.join(common, "state.json"), json.dumps(state))
        os.makedirs(windows_folder(common), 0o700, exist_ok=True)
        if self.windows.state.last_window:
            self.windows.note_last()
        self.windows.lasting.own = self.windows.lasting.found()

    def own(self) -> dict[str, object]:
        """Return this process, the holder, its build and tools, and the number of replaced hosts, in the form of a note."""
        link = self.windows.common.link
        found: dict[str, object] = {BUILD: self.build, TOOLS_FOLDER: str(TOOLS)}
        for role, process in (("host", os.getpid()), (HOLDER, link.process)):
            if process:
                found[role] = [process, begun(process)]
        return {**found, REPLACED: self.windows.state.replaced} if self.windows.state.replaced else found

    def note_holder(self) -> None:
        """Add the holder, and this process if the holder has started it, to the note."""
        path = os.path.join(self.windows.asked.common, "state.json")
        import json

        try:
            replace_text(path, json.dumps({**(noted_in(path) or {"version": WINDOWS_VERSION, "command": []}), **self.own()}))
        except OSError as fault:
            self.tell(f"the holder cannot be recorded: {reason(fault)}")
