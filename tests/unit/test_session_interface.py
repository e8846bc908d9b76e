"""A session as a front end needs it, in each kind: unknown values are None, and then the user is asked."""
import json
import os
import pathlib
import socket
import subprocess
import tempfile
import unittest
from unittest import mock

from aids import comes
from modes_played import NoWindows
from roam_live.cli import ending
from roam_live.common.event_loop import Loop
from roam_live.common.process import TOOLS
from roam_live.frontend import display
from roam_live.frontend.bindings import Keymap
from roam_live.frontend.commands import Commands
from roam_live.frontend.display import Display
from roam_live.frontend.interpreter import Interpreter
from roam_live.frontend.modes import ModeStack
from roam_live.protocol.panes import Places, Rect
from roam_live.protocol.server_address import Home
from roam_live.protocol.session_interface import AnySession, HostedSession
from roam_live.session.foreground import busy_panes
from roam_live.session.local import Window
from roam_live.session.port_session import PortSession
from roam_live.session.remote import RemoteSession
from test_display import PlayedHost, PlayedPanes

# An ended process: no process has this start time.
ENDED = [1, 1]

TWO = Places({1: Rect(1, 1, 23, 39), 2: Rect(1, 41, 23, 40)}, 1, 1)


class Folder(unittest.TestCase):
    """A folder of a session whose server was started by hand; this process plays the server."""

    def setUp(self):
        made = tempfile.TemporaryDirectory()
        self.addCleanup(made.cleanup)
        self.folder = pathlib.Path(made.name)

    def by_hand(self, **noted):
        """Return the session, with some recorded processes."""
        if noted:
            (self.folder / "state.json").write_text(json.dumps({"version": 3, **noted}), encoding="utf-8")
        return Window(self.folder, server=os.getpid())

    def keep_host(self):
        """Let this process listen at the socket of a pty host."""
        listener = socket.socket(socket.AF_UNIX, socket.SOCK_STREAM)
        self.addCleanup(listener.close)
        listener.bind(str(self.folder / "host"))
        listener.listen()
        self.keep_state()

    def keep_state(self, *processes):
        """Write the state of a pty host whose panes run these processes."""
        panes = {one: {"process": process.pid, "has_ended": False} for one, process in enumerate(processes, 1)}
        (self.folder / "host.json").write_text(json.dumps({"windows": {"0": {"panes": panes}}}), encoding="ascii")

    def child(self, **environment):
        """Return a child of this process that isn't a shell."""
        process = subprocess.Popen(["sleep", "60"], env=environment)
        self.addCleanup(process.wait)
        self.addCleanup(process.kill)
        # It is recognized once the system shows its new arguments.
        comes(lambda: pathlib.Path(f"/proc/{process.pid}/cmdline").read_bytes() == b"sleep\x0060\x00")
        return process


class Busy(Folder):
    """The programs in the panes."""

    def test_nothing_noted(self):
        self.assertIsNone(self.by_hand().busy())
        self.assertIsNone(Window(self.folder).busy())

    def test_client_noted(self):
        """A front end started by hand records only the client process, which says nothing of shells."""
        self.assertIsNone(self.by_hand(client=ENDED).busy())

    def test_ended(self):
        """If the pty host has ended the programs got a hangup."""
        self.assertEqual(self.by_hand(host=ENDED).busy(), {})

    def test_found(self):
        """The pty host is found by its socket."""
        self.keep_host()
        self.assertEqual(self.by_hand().busy(), {})
        self.keep_state(self.child(ROAM_PANE=f"{self.folder}:2"))
        self.assertEqual(self.by_hand().busy(), {2: "a program"})

    def test_untold(self):
        """The state of the host may be unreadable or malformed, and the system may hide the pane of a program."""
        self.assertIsNone(busy_panes(str(self.folder)))
        for text in ("{", "[]", "{}", '{"windows": 1}', '{"windows": {"1": {"panes": {"1": {}}}}}'):
            (self.folder / "host.json").write_text(text, encoding="ascii")
            self.assertIsNone(busy_panes(str(self.folder)), text)
        self.keep_state(self.child(ROAM_PANE=f"{self.folder}:2"))
        with mock.patch("roam_live.common.file_path.FilePath.read_bytes", side_effect=PermissionError):
            self.assertIsNone(busy_panes(str(self.folder)))

    def test_no_pane_yet(self):
        """A process about to execute a pane's command, and an ended one, are in no pane."""
        ended = self.child(ROAM_PANE=f"{self.folder}:2")
        ended.kill()
        os.waitid(os.P_PID, ended.pid, os.WEXITED | os.WNOWAIT)
        self.keep_state(self.child(), ended)
        self.assertEqual(busy_panes(str(self.folder)), {})

    def test_elsewhere(self):
        """The programs of a remote session, or one at a port, are unknown."""
        self.assertIsNone(RemoteSession(self.folder, "main").busy())
        session = PortSession(Home(port=1, session="1"), None)
        self.addCleanup(session.close)
        self.assertIsNone(session.busy())


class Known(Folder):
    """Other knowledge about a session."""

    def sessions(self):
        """Return one of each kind."""
        at_port = PortSession(Home(port=1, session="1"), str(self.folder))
        self.addCleanup(at_port.close)
        return Window(self.folder), RemoteSession(self.folder, "main"), self.by_hand(), at_port

    def test_all_there(self):
        """Each has everything that a front end needs."""
        needed = {name for kind in (HostedSession, AnySession) for name in (*vars(kind), *kind.__annotations__) if not name.startswith("_")}
        self.assertGreaterEqual(len(needed), 12)
        for session in self.sessions():
            self.assertEqual({name for name in needed if not hasattr(session, name)}, set(), type(session))


class Kill(Folder):
    """The questions before a session is ended."""

    def test_told(self):
        """Programs are named; if none is known, there may still be some. Of a remote session only a relay ends."""
        session = self.by_hand()
        for busy, told in (({}, ""), ({2: "vi", 1: "less"}, "less in pane 1 and vi in pane 2"), (None, "unknown programs")):
            with mock.patch.object(session, "busy", lambda busy=busy: busy):
                self.assertEqual(ending.lost_with(session), told)
        self.assertEqual(ending.lost_with(RemoteSession(self.folder, "main")), "")


class ClientLink:
    """Records the input."""

    is_read_only = False

    def __init__(self):
        self.acts = []

    def type(self, *acts, is_pasted=False):
        """Record acts."""
        self.acts += acts

    def say(self, line):
        """Do nothing: nothing is shown here."""

    def is_full_behind(self):
        """Return False: nothing waits."""
        return False


class OuterTerminal:
    """A terminal of 24 rows and 80 columns."""

    def __init__(self):
        self.waiting = bytearray()

    def size(self):
        """Return its rows and columns."""
        return 24, 80

    def write(self, text):
        """Record the output."""
        self.waiting += text

    def set_title_and_shape(self, title, shape):
        """Ignore metadata here."""


class Close(Folder):
    """A user who closes a pane of a session that was started by hand."""

    def person(self, session, places):
        """Return the user's keys, their effects, and the display."""
        link, loop = ClientLink(), Loop()
        with mock.patch.object(display, "OuterTerminal", OuterTerminal):
            shown = Display(loop, lambda line: None)
        modes = ModeStack(Keymap())
        commands = Commands(session, PlayedPanes(mock.Mock(told=places)), link, shown, loop, lambda line: None, modes, lambda key: None,
                            NoWindows, PlayedHost())
        keyboard = Interpreter(modes, shown, loop, lambda: commands, NoWindows)
        keyboard.fed(b"\x02x")
        return keyboard, link, shown

    def test_asked(self):
        """If the programs are unknown the user is asked, and only y closes the pane."""
        for places, named in ((TWO, "pane 1"), (None, "this pane")):
            for key, acts in ((b"y", ["close"]), (b"n", [])):
                keyboard, link, shown = self.person(self.by_hand(), places)
                self.assertEqual((link.acts, shown.row.prompt), ([], f"close the program in {named}? y closes it"))
                keyboard.fed(key)
                self.assertEqual((link.acts, shown.row.told), (acts, ""))

    def test_unasked(self):
        """If only shells are known to run it closes at once."""
        self.keep_host()
        _, link, shown = self.person(self.by_hand(), TWO)
        self.assertEqual((link.acts, shown.row.told), (["close"], ""))


if __name__ == "__main__":
    unittest.main()
