"""Sessions of other machines: a local relay replaces the server."""
from __future__ import annotations

import os
import time

from roam_live.common.build_info import identity
from roam_live.common.errors import Fault
from roam_live.common.process import end_words, holder_of
from roam_live.common.signals import signal
from roam_live.common.suppress import suppress
from roam_live.session.folder import SessionFolder
from roam_live.session.names import BUILD, WINDOWS, WINDOWS_VERSION, numbers_in
from roam_live.session.roles import relay_words

TYPE_CHECKING = False
if TYPE_CHECKING:
    from collections.abc import Iterable

# Seconds after its last terminal until a relay ends.
ALONE = 3600


class RemoteSession(SessionFolder):
    """A session of another machine, or a window of it. A local relay replaces its server.

    Each window has its sockets in a folder of its own; the lock, the log and the relay are the session's.
    """

    served = "relay"
    roles = ("relay", "client")

    def __init__(self, folder: str | os.PathLike[str], name: str | None = None, session: RemoteSession | None = None,
                 number: int = 0) -> None:
        super().__init__(folder, name)
        self.session, self.number = session, number
        if session:
            self.common, self.log = session.folder, session.log

    def whole_session(self) -> RemoteSession:
        """Return the session of this window, or itself."""
        return self.session or self

    def roles_known(self) -> tuple[str, ...]:
        """Return the roles of the processes on this machine."""
        return self.roles

    def holder(self) -> int | None:
        """Return the relay from the lock on its folder."""
        return holder_of(self.folder)

    # ---- its windows

    def windows(self) -> list[SessionFolder]:
        """Return the windows reported by the far end, in order; itself without a report, as for a session started there by hand."""
        whole, folder = self.whole_session(), self.common / WINDOWS
        numbers = [number for number in numbers_in(str(folder)) if (folder / str(number) / "session").exists()]
        return [RemoteSession(folder / str(number), f"{whole.name}:{number}", whole, number) for number in numbers] or [whole]

    def window(self, number: int | None = None) -> SessionFolder:
        """Return a window by its number; else this one, or the one with the session's own id, which the relay's own window has, or the
        first.
        """
        if self.session and number in (None, self.number):
            return self
        there = self.windows()
        named = [window for window in there if window.number == number or number is None and self.is_own(window)]
        if not named and number is not None:
            one = "was started by hand there and has one window; there is no window"
            why = f"has no window {number}" if there[0].number else f"{one} {number}"
            raise Fault(f"session {self.whole_session().name} {why}")
        return (named or there)[0]

    def is_own(self, window: SessionFolder) -> bool:
        """Return True if a window is the relay's own."""
        return window.id() == self.id()

    def await_windows(self, number: int | None, seconds: float) -> None:
        """Wait until the far end reports its windows, and the one of a number if set, or until the time is up.

        A session started there by hand never reports any.
        """
        end = time.monotonic() + seconds
        while time.monotonic() < end:
            there = [window.number for window in self.windows()]
            if there[0] and (number is None or number in there):
                return
            time.sleep(0.01)

    def shown_window(self, windows: list[SessionFolder]) -> SessionFolder:
        """Return the window that is the relay's own."""
        return next((window for window in windows if self.is_own(window)), windows[0])

    # ---- its known state and its processes

    def process(self, role: str) -> int | None:
        """Return the process of a role: the relay is the session's."""
        return self.session.process(role) if self.session and role == self.served else super().process(role)

    def has_met(self) -> bool:
        """Return True if the relay was seen to run, which is the session's."""
        return self.session.has_met() if self.session else super().has_met()

    def find(self) -> bool:
        """Return True if it runs."""
        return self.session.find() and (self.folder / "session").exists() if self.session else super().find()

    def taken_lock(self, may_wait: bool) -> int:
        """Take and return the session's lock."""
        return self.session.taken_lock(may_wait) if self.session else super().taken_lock(may_wait)

    def lacking(self, answers: bool) -> str:
        """Return nothing about the shells, which belong to the other machine."""
        return ""

    def launch(self, command: Iterable[str] = ()) -> None:
        """Refuse: the ssh command is unknown."""
        raise Fault(f"no relay to {self.whole_session().name} is running; `mux ssh` starts one")

    def launch_relay(self, command: list[str], host: str = "") -> int:
        """Start a relay over a command, and over UDP to a host if one is named. The command may use this terminal until it has answered.

        Return its exit status if it did not answer; then no folder remains.
        """
        self.clean()
        (self.folder / "ended").unlink(missing_ok=True)
        self.state = {"version": WINDOWS_VERSION, BUILD: identity()}
        with self.whole():
            relay = self.spawned("relay", relay_words(self.folder, self.log, ALONE, host, command), in_front, is_heard=True)
            try:
                has_answered = bool(relay.stdout and relay.stdout.readline())
            finally:
                take_front(os.getpgrp())
        status = 0 if has_answered else relay.wait()
        if status:
            self.clean()
            self.forget()
        return status

    # ---- its end

    def ending(self) -> tuple[str, int]:
        """Return the message and exit status after the relay's end."""
        if self.session:
            return self.session.ending()
        if self.met and end_words(*self.met) in self.ended().splitlines():
            return "[the relay was ended; the session keeps running on the other machine]", 0
        if self.ended() == "killed":
            return "[the server was killed or failed, and its session is gone]", 1
        if (self.folder / "ended").exists():
            return "[the session has ended]", 0
        return f"[the relay has ended; see {self.log}]", 1

    def end_all(self) -> None:
        """End the relay, and the client processes of all windows."""
        windows = [window for window in self.windows() if window is not self]
        super().end_all()
        for window in windows:
            window.end("client")

    def clean(self) -> None:
        """Remove the files of a relay that has ended, with its windows."""
        import shutil

        super().clean()
        shutil.rmtree(self.folder / WINDOWS, ignore_errors=True)


def in_front() -> None:
    """Make this process a process group in the foreground, out of reach of a terminal's hangup."""
    os.setpgid(0, 0)
    signal.signal(signal.SIGTSTP, signal.SIG_IGN)
    take_front(os.getpgrp())


def take_front(group: int) -> None:
    """Make a process group the foreground one of this process's terminal, if it has one."""
    before = signal.signal(signal.SIGTTOU, signal.SIG_IGN)
    with suppress(OSError):
        own = os.open("/dev/tty", os.O_RDWR | os.O_CLOEXEC)
        try:
            os.tcsetpgrp(own, group)
        finally:
            os.close(own)
    signal.signal(signal.SIGTTOU, before)
