"""Start options of new panes and windows: at the host's socket, at a front end, and from outside."""
import os
import unittest
from unittest import mock

from aids import Case, StillLoop
from roam_live.cli import cmd, send, targets, windows
from roam_live.cli.windows import WindowsAsked
from roam_live.common.errors import Fault
from roam_live.frontend import spawn_commands
from roam_live.frontend.command_line import CommandRunner
from roam_live.frontend.spawn_commands import Handing
from roam_live.protocol.panes import Places, Rect
from roam_live.protocol.spawn_request import Begins, unpacked
from test_display import Person
from test_socket_server import Sockets, read_now

NAME, OTHER = "0123456789abcdef", "fedcba9876543210"
FIRST = Rect(1, 1, 23, 80)
RIGHT, BELOW, ELSEWHERE = Rect(1, 42, 23, 39), Rect(13, 1, 11, 80), Rect(1, 90, 23, 10)


class Packed(unittest.TestCase):
    """The bytes of one upload."""

    def test_packed(self):
        for begins in (Begins(["htop"]), Begins([], "/tmp", "name"), Begins(["a b", "", "\udcff"], "~", "")):
            self.assertEqual(unpacked(begins.packed()), begins)
        self.assertEqual([unpacked(data) for data in (b"", b"a", b"a\0b\x1b", b"\0\0")], [None] * 4)

    def test_command(self):
        """A single word is a shell command."""
        with mock.patch.dict(os.environ, {"SHELL": "/bin/zsh"}):
            self.assertEqual(Begins(["htop -d 5"]).command(), ["/bin/zsh", "-c", "htop -d 5"])
        self.assertEqual((Begins(["htop", "-d"]).command(), Begins([]).command()), (["htop", "-d"], []))


class AtHost(Sockets):
    """The socket for uploads."""

    def setUp(self):
        super().setUp()
        self.channel.handed.rect_of = lambda pane, generation: FIRST if (pane, generation) == (1, 7) else None
        self.channel.handed.folder_beside = lambda pane: str(self.folder)

    def hand(self, beside, begins, name=NAME, one=None):
        """Upload start options, and return the peer and its answers."""
        data = begins.packed()
        text = f"run {name} {beside} {len(data)}\n".encode() + data
        if one:
            self.say(one, text)
        else:
            one = self.connect(text)
        return one, read_now(one).decode()

    def test_pane(self):
        """The next pane beside the named one gets it, once."""
        for rect in (RIGHT, BELOW):
            one, told = self.hand("1 7", Begins(["htop"], "src"))
            self.assertEqual(told, f"run {NAME} refused the directory does not exist\n")
            os.makedirs(self.folder / "src", exist_ok=True)
            self.assertEqual(self.hand("1 7", Begins(["htop"], "src"), one=one)[1], f"run {NAME} ready\n")
            self.assertIsNone(self.channel.handed.for_pane(ELSEWHERE))
            self.assertEqual(self.channel.handed.for_pane(rect), Begins(["htop"], str(self.folder / "src")))
            self.loop.turns(2)
            self.assertEqual(read_now(one).decode(), f"run {NAME} done\n")
            self.assertIsNone(self.channel.handed.for_pane(rect))
            os.rmdir(self.folder / "src")

    def test_side_of_a_pane(self):
        """So has one along a side that the pane got since, for example after a zoom's end."""
        self.hand("1 7", Begins(["htop"]))
        beside = Rect(1, 101, 40, 50)
        self.assertIsNone(self.channel.handed.for_pane(beside))
        self.channel.handed.moved(1, Rect(1, 50, 40, 50))
        self.assertTrue(self.channel.handed.for_pane(beside))

    def test_late(self):
        """If none comes in two seconds that is reported, and a later one doesn't get it."""
        one, _ = self.hand("1 7", Begins(["htop"]))
        self.now += 2.1
        self.loop.turns(3)
        self.assertEqual(read_now(one).decode(), f"run {NAME} late\n")
        self.assertIsNone(self.channel.handed.for_pane(RIGHT))

    def test_window(self):
        """One for a window goes to that of its name, and to no pane."""
        one, told = self.hand("window", Begins(["htop"], "", "logs"))
        self.assertEqual(told, f"run {NAME} ready\n")
        self.assertIsNone(self.channel.handed.for_pane(RIGHT))
        self.assertIsNone(self.channel.handed.for_window(OTHER))
        self.assertEqual(self.channel.handed.for_window(NAME), Begins(["htop"], "", "logs"))
        self.hand("1 7", Begins(["htop"]), one=one)
        self.assertIsNone(self.channel.handed.for_window(NAME))

    def test_refused(self):
        """A missing pane, too many, too long ones, and those of a read-only peer are refused; a disconnected peer has none any more."""
        self.assertEqual(self.hand("1 8", Begins(["htop"]))[1], f"run {NAME} refused the pane does not exist\n")
        data = b"x" * 70000
        one = self.connect(f"run {NAME} 1 7 {len(data)}\n".encode() + data[:60000])
        self.say(one, data[60000:] + b"who\n")
        told = read_now(one).decode()
        self.assertIn(f"run {NAME} refused a command has at most 65536 bytes\n", told)
        self.assertIn("host", told)
        one = self.connect(f"run {NAME} 1 7 2\n\0\x1b".encode())
        self.assertEqual(read_now(one).decode(), f"run {NAME} refused its words are invalid\n")
        one = self.connect(b"here test:/dev/pts/1 24 80 read-only\n")
        self.assertEqual(self.hand("1 7", Begins(["a"]), one=one)[1].split("\n")[0], "bad line")
        one, _ = self.hand("1 7", Begins(["htop"]))
        for number in range(8):
            _, told = self.hand("1 7", Begins(["htop"]), f"{number:016x}", one)
        self.assertEqual(told, f"run {7:016x} refused 8 commands wait for their panes\n")
        one.close()
        self.loop.turns(3)
        self.assertFalse(self.channel.handed.waiting)


class InWindow(Case):
    """A command that a user types in a window."""

    def test_split(self):
        """The window's own part, made on first use, uploads it, and then the pane is split."""
        self.stop_clock()
        self.patch_of(spawn_commands, "random_name", return_value=NAME)
        person = Person(24, 80, told=Places({1: FIRST}, 1))
        handed = []
        person.host.ask_with = lambda line, data: handed.append((line, data)) or True
        runner = CommandRunner(person.keyboard, None)
        self.assertNotIn("handing", vars(person.commands))
        runner.typed("split-window -h htop ; send-keys x")
        data = Begins(["htop"]).packed()
        self.assertEqual(handed, [(f"run {NAME} 1 1 {len(data)}", data)])
        person.said()
        person.host.ran(f"{NAME} ready")
        self.assertEqual((person.said(), person.link.acts[-1]), (["split right"], "char 78"))


class AtFrontEnd(Case):
    """A user's front end."""

    def setUp(self):
        self.loop, self.commands, self.acts = StillLoop(lambda: self.now), mock.Mock(), mock.Mock()
        self.commands.acts, self.commands.display, self.commands.link = self.acts, self.acts.display, self.acts.link
        self.acts.loop, self.acts.link.is_read_only = self.loop, False
        self.acts.awaits_focus.return_value = self.acts.host.is_connecting.return_value = False
        self.acts.places.return_value = self.commands.zooming.unzoomed.return_value = Places({1: FIRST}, 1)
        self.acts.panes.making.return_value = "1 7"
        self.windows = mock.Mock(**{"why_one.return_value": ""})
        self.patch_of(spawn_commands, "random_name", return_value=NAME)
        self.commands.handing = Handing(self.acts, self.commands.zooming, lambda: self.windows)
        self.runner = CommandRunner(mock.Mock(loop=self.loop, **{"commands.return_value": self.commands}), mock.Mock())

    def told(self):
        """Return the messages to the user."""
        return [one.args[0] for one in self.commands.display.row.tell.call_args_list]

    def test_split(self):
        """The pane is split once the command waits; later commands of the line follow then."""
        self.runner.typed("split-window -h htop -d 5; send-keys x")
        data = Begins(["htop", "-d", "5"]).packed()
        self.acts.host.ask_with.assert_called_once_with(f"run {NAME} 1 7 {len(data)}", data)
        self.assertFalse(self.acts.act_together.called or self.commands.type_key.called)
        self.acts.host.ran(f"{NAME} ready")
        self.acts.act_together.assert_called_once_with("split right")
        self.commands.type_key.assert_called_once_with(["char 78"])
        self.acts.host.ran(f"{NAME} done")
        self.now += 3
        self.loop.turns(2)
        self.assertEqual(self.told(), [])
        self.acts.host.ran(f"{NAME} late")
        self.assertEqual(self.told(), ["not run: no pane was created"])

    def test_split_pane(self):
        """It is split at the user's pane of the request, and with -d the focus is restored."""
        self.runner.typed("splitw -d htop")
        self.acts.places.return_value = Places({1: FIRST, 2: RIGHT}, 2)
        self.acts.host.ran(f"{NAME} ready")
        self.acts.act_together.assert_called_once_with("focus 1", "split down", "focus 1")

    def test_window(self):
        for line, stays in (("neww -n logs htop", False), ("neww -d", True)):
            self.windows.waiting.open.reset_mock()
            self.runner.typed(line)
            self.acts.host.ran(f"{NAME} ready")
            self.windows.waiting.open.assert_called_once_with(NAME, stays)

    def test_awaited(self):
        """An unknown focus, or a missing connection, is awaited, no longer than two seconds."""
        self.acts.awaits_focus.return_value = True
        self.runner.typed("splitw htop")
        self.now += 0.1
        self.loop.turns(2)
        self.assertFalse(self.acts.host.ask_with.called)
        self.acts.awaits_focus.return_value = False
        self.now += 0.1
        self.loop.turns(2)
        self.assertTrue(self.acts.host.ask_with.called)
        self.acts.host.ask_with.return_value, self.acts.host.is_connecting.return_value = False, True
        self.runner.typed("splitw htop")
        for _ in range(3):
            self.now += 0.9
            self.loop.turns(2)
        self.assertEqual(self.told()[-1], "not run: the pty host is not connected")

    def test_refused(self):
        """The reason of a failure is reported, and nothing is split then."""
        self.runner.typed("splitw htop; send-keys x")
        self.acts.host.ran(f"{NAME} refused the folder \x1b isn't there")
        self.runner.typed("splitw htop; send-keys x")
        self.now += 2.1
        self.loop.turns(2)
        self.acts.host.ran(f"{NAME} ready")
        self.acts.host.ask_with.return_value = False
        self.runner.typed("splitw htop")
        self.acts.link.is_read_only = True
        self.runner.typed("splitw htop")
        self.assertEqual(self.told(), ["not run: the folder ? isn't there", "not run: the pty host does not answer",
                                       "not run: the pty host is not connected",
                                       "a read-only terminal runs no commands"])
        self.assertFalse(self.acts.act_together.called or self.commands.type_key.called)


class Outside(Case):
    """`mux cmd`."""

    def asked(self, *told):
        """Return a connection that gets these lines."""
        asked = WindowsAsked.__new__(WindowsAsked)
        asked.session, asked.told, asked.said = mock.Mock(), list(told), []
        asked.session.name = "main"
        asked.say = lambda line, data=b"": asked.said.append((line, data))
        self.patch_of(windows, "random_name", return_value=NAME)
        self.patch_of(windows, "WindowsAsked", lambda session: asked)
        return asked

    def test_split(self):
        self.patch_of(targets, "making_of", return_value=(2, 9))
        self.patch_of(targets, "pane_places", return_value=Places({1: FIRST, 2: RIGHT}, 1))
        sends = self.patch_of(send, "send", return_value=0)
        window = mock.Mock()
        window.name = "main"
        for words, acts, folder in (("splitw -h htop", ["split right"], ""), ("splitw -d -c src htop", ["split down", "focus 1"], "src")):
            asked = self.asked(f"run {NAME} ready", f"run {NAME} done")
            self.assertEqual(cmd.run(window, 2, words.split(" ")), 0)
            data = Begins(["htop"], os.path.abspath(folder) if folder else "").packed()
            self.assertEqual(asked.said, [(f"run {NAME} 2 9 {len(data)}", data)])
            sends.assert_called_with(window, acts, 2)
        for told, why in (((f"run {NAME} refused no \x1b",), "session main: not run: no ?"),
                          ((f"run {NAME} ready", f"run {NAME} late"),
                           "session main: no pane was created, so the command did not run")):
            self.asked(*told)
            with self.assertRaises(Fault) as fault:
                cmd.run(window, 2, ["splitw", "htop"])
            self.assertEqual(str(fault.exception), why)

    def test_window(self):
        asked = self.asked(f"run {NAME} ready", "opened 3")
        session = mock.Mock()
        session.places.return_value = None
        self.patch_of(windows, "print", create=True)
        cmd.run(session, 0, ["neww", "-n", "logs", "htop"])
        self.assertEqual([line for line, _ in asked.said], [f"run {NAME} window {len(Begins(['htop'], '', 'logs').packed())}",
                                                           f"open 24 80 {NAME} for {NAME}"])


if __name__ == "__main__":
    unittest.main()
