"""live/pane_shell and live/attach, made by hand."""
import os
import socket
from unittest import mock

from aids import Case, StillLoop, loaded, read_now
from roam_live.common.errors import Fault
from roam_live.common.event_loop import READ
from roam_live.session.local import Window
from roam_live.session.port_session import PortSession

shell, attach = loaded("pane_shell"), loaded("attach")


class Shell(Case):
    """One pane's command, and bytes both ways."""

    def setUp(self):
        self.said = self.heard()
        self.pane, self.server = self.pair()
        self.master, self.command = self.pair()

    def joined(self):
        """Return a command's terminal and a pane, joined."""
        return shell.JoinedCommand(self.master.fileno(), self.pane.fileno(), StillLoop())

    def test_carried(self):
        """Bytes go both ways until the command's end, whose last output is written."""
        self.command.send(b"out")
        self.server.send(b"in")
        joined = self.joined()
        joined.loop.turns(2)
        self.assertEqual((read_now(self.server), read_now(self.command)), (b"out", b"in"))
        self.command.send(b"last")
        self.command.close()
        self.assertTrue(joined.run())
        self.assertEqual(read_now(self.server), b"last")

    def test_pane_first(self):
        """If the pane ends first the command gets a hangup, even if it accepts nothing more."""
        self.server.close()
        self.assertFalse(self.joined().run())
        self.command.send(b"x")
        self.pane, self.server = self.pair()
        with mock.patch.object(shell, "write", return_value=False):
            self.assertFalse(self.joined().run())

    def test_first_end(self):
        """If both have ended the command's status counts."""
        for end in (self.server, self.command):
            end.close()
        self.assertTrue(self.joined().run())

    def test_limits(self):
        """A command's output stays unread while 65,536 bytes wait for the pane; input above as many is dropped, which is reported once."""
        joined = self.joined()
        command = joined.loop.sources[self.master.fileno()]
        joined.to_pane += bytes(65535)
        self.assertEqual(command.events(), READ)
        joined.to_pane += b"x"
        self.assertEqual(command.events(), 0)
        joined.to_terminal += bytes(65530)
        for _ in range(2):
            self.server.send(b"0123456789")
            joined.hear_pane()
        self.assertEqual(joined.to_terminal, bytes(65530) + b"012345")
        self.assertEqual(self.said.getvalue().count("the program does not read input; above 65536 bytes it is dropped\n"), 1)

    def test_words(self):
        """Its size and command are as requested, and its status is the command's; 0 if the pane ended first."""
        self.environment(SHELL="/bin/zsh")
        self.patch_of(shell, "connected", return_value=self.pane)
        starts, joins = self.patch_of(shell, "spawned", return_value=(7, 8)), self.patch_of(shell, "JoinedCommand")
        ends = joins.return_value.run
        ends.return_value = True
        waits = self.patch_of(shell.os, "waitpid", return_value=(7, 3 << 8))
        self.words("pane_shell", "--rows", "9", "--cols", "9999", "p1", "vi", "-R")
        self.assertEqual((shell.main(), starts.call_args[0], joins.call_args[0]), (3, (["vi", "-R"], (9, 9999)), (8, self.pane.fileno())))
        waits.assert_called_once_with(7, 0)
        waits.return_value = (7, 9)
        self.words("pane_shell", "p1")
        self.assertEqual((shell.main(), starts.call_args[0]), (137, (["/bin/zsh"], (23, 80))))
        ends.return_value = False
        self.assertEqual(shell.main(), 0)
        self.environment(SHELL=None)
        shell.main()
        self.assertEqual(starts.call_args[0][0], ["/bin/sh"])
        for words in ((), ("--rows", "0", "p1"), ("--rows", "10000", "p1"), ("--cols", "x", "p1")):
            self.words("pane_shell", *words)
            with self.assertRaises(SystemExit) as way:
                shell.main()
            self.assertEqual(way.exception.code, 2)
        self.assertIn("the pane's socket is missing", self.said.getvalue())

    def test_started(self):
        """The command has TERM of a VT220, and no variable of another terminal."""
        self.environment(LINES="5", COLORTERM="x", ROAM_WHY="1", KEPT="one")
        with mock.patch.object(shell.spawn, "forked", return_value=(0, 0)), mock.patch.object(shell.spawn, "become") as becomes, \
                mock.patch.object(shell.os, "_exit", side_effect=InterruptedError) as exits:
            with self.assertRaises(InterruptedError):
                shell.spawned(["vi"], (5, 40))
        exits.assert_called_once_with(127)
        command, environment = becomes.call_args[0]
        self.assertEqual((command, environment["TERM"], environment["KEPT"]), (["vi"], "vt220", "one"))
        self.assertFalse({"LINES", "COLORTERM", "ROAM_WHY"} & environment.keys())
        with mock.patch.object(shell.spawn, "forked", return_value=(7, self.master.fileno())) as forks:
            self.master.setblocking(True)
            self.assertEqual(shell.spawned(["vi"], (5, 40)), (7, self.master.fileno()))
        forks.assert_called_once_with((5, 40))
        self.assertFalse(os.get_blocking(self.master.fileno()))

    def test_rest(self):
        """All waiting output is written at the end, however slow the pane is."""
        waiting = bytearray(b"abc")
        shell.write_rest(self.pane.fileno(), waiting)
        self.assertEqual((waiting, read_now(self.server), os.get_blocking(self.pane.fileno())), (b"", b"abc", True))


class Attach(Case):
    """A front end by a folder or a port."""

    def setUp(self):
        self.environment(ROAM_PREFIX=None, ROAM_PREDICT=None)
        self.follows = self.patch_of(attach, "follow", return_value=5)
        self.patch_of(attach, "program", return_value="/roam")
        self.folder = self.made_folder()
        self.said = self.heard()

    def attach(self, *words):
        """Run it with these words."""
        self.words("attach", *words)
        return attach.main()

    def test_folder(self):
        with self.assertRaisesRegex(Fault, f"^no server is in {self.folder}$"):
            self.attach(str(self.folder))
        self.listening(self.folder / "clients")
        self.assertEqual(self.attach(str(self.folder)), 5)
        place, is_read_only, prefix, prediction = self.follows.call_args[0]
        self.assertEqual((type(place), place.folder, place.by_hand), (Window, str(self.folder), None))
        self.assertEqual((is_read_only, prefix, prediction), (False, "C-b", "adaptive"))
        self.assertEqual(self.attach("--watch", "--predict", "never", "--server", "7", str(self.folder)), 5)
        place, is_read_only, _, prediction = self.follows.call_args[0]
        self.assertEqual((place.by_hand, is_read_only, prediction), (7, True, "never"))

    def test_known_server(self):
        """If its process is named the server need not listen yet."""
        self.assertEqual(self.attach("--server", str(os.getpid()), str(self.folder)), 5)

    def test_port(self):
        with socket.socket(socket.AF_INET, socket.SOCK_DGRAM) as one:
            one.bind(("127.0.0.1", 0))
            port = str(one.getsockname()[1])
            self.assertEqual(self.attach("--dir", str(self.folder), port, "5e55"), 5)
        place = self.follows.call_args[0][0]
        self.addCleanup(place.close)
        self.assertEqual((type(place), place.folder, place.name), (PortSession, str(self.folder), f"at port {port}"))
        with self.assertRaisesRegex(Fault, f"^no server is at port {port}$"):
            self.attach(port, "5e55")

    def test_wrong(self):
        for words in (("a", "b", "c"), ("0", "5e55"), ()):
            with self.assertRaises(SystemExit) as way:
                self.attach(*words)
            self.assertEqual(way.exception.code, 2)
        self.assertIn("name a server by its directory, or by its port, 1 to 65535", self.said.getvalue())
        self.environment(ROAM_PREFIX="x")
        with self.assertRaisesRegex(Fault, "^ROAM_PREFIX is 'x'"):
            self.attach(str(self.folder))
