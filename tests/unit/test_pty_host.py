"""The pty host, made by hand: panes over sockets, commands that never run, and a simulated server."""
import os
import shutil
import signal
import socket
import struct
from unittest import mock

from aids import Asker, Case, PlayedHolder, StillLoop, kept_by, led_text, loaded, read_now, unled
from filtered import played
from roam_live.common.errors import Fault
from roam_live.common.event_loop import READ, WRITE
from roam_live.common.process import begun
from roam_live.common.record import written
from roam_live.host import options, pane as host_pane, scrollback, window
from roam_live.host.input_queue import TypedQueue
from roam_live.host.pane_hold import PaneHold
from roam_live.host.state import PaneState, SessionState, state_in
from roam_live.host.uploads import PendingPastes
from roam_live.session import tmp_keepalive

def queue():
    """Return an input queue of a pane without texts."""
    return TypedQueue(PendingPastes(SessionState(), StillLoop(), lambda name, word: None), lambda: False)


tool = loaded("pane_shells")

# The line that reports a terminal.
PERSON = "a:/dev/pts/1 24 80 read-write"


class Host(Case):
    """A host that subscribes to a socket `panes` of its own, and stores no rows."""

    history = "0"

    def setUp(self):
        self.stop_clock()
        self.environment(ROAM_HISTORY=self.history)
        self.folder = self.made_folder()
        self.listeners = {name: self.listening(self.folder / name) for name in ("panes", "p1", "p2", "p3")}
        self.wakeup, self.wakes = self.pipe()
        self.said = self.heard()
        self.made = []
        self.kills = self.patch("os.kill")
        self.patch_of(host_pane.signal, "pidfd_send_signal", side_effect=lambda file, number: os.kill(self.link.files[file], number))
        self.host = self.kept()
        self.server = self.taken(self.listeners["panes"])

    def kept(self, **more):
        """Return a host."""
        asked = host_pane.Options(folder=str(self.folder), command=["sh"], **more)
        kept = kept_by(self.folder, StillLoop(), lambda size: self.forked(size))
        self.link = kept.link
        host = window.WindowHost(asked, window.Common(self.wakeup, kept))
        self.addCleanup(self.leave, host)
        return host

    def leave(self, host):
        """Close a host, and check that its state survives JSON."""
        self.assertEqual(state_in(written(host.common.state)), host.common.state)
        host.common.socket.close()
        for number in list(host.panes):
            host.drop(number)
        host.rows.close()
        for spare in (host.common.spare, host.common.voice):
            spare.free()
        if host.subscription.peer:
            host.subscription.peer.close()

    def forked(self, size):
        """Return a command's process and terminal: a socket here."""
        one, other = self.pair()
        self.made.append(other)
        return 70 + len(self.made), os.dup(one.fileno())

    def turn(self, count=3):
        """Take so many turns without waits."""
        for _ in range(count):
            self.host.common.turn()

    def tell(self, *lines):
        """Send the server's lines about its panes."""
        self.server.send("".join(f"{line}\n" for line in lines).encode())
        self.turn()

    def begin(self, *lines):
        """Begin with two panes, and return the ends of their connections at the server."""
        self.tell("1 1 1 23 39 4", "2 1 41 23 40 5", "focus 1", "clients 3 of 64", *lines)
        # The requests on each connection.
        self.assertEqual(read_now(self.server), b"host\nmetadata\nqueries\n")
        return [self.taken(self.listeners[name]) for name in ("p1", "p2")]


class Panes(Host):
    """Reports of panes, and their effects."""

    def test_begun(self):
        """Each pane has a command of its size, and bytes go both ways."""
        panes = self.begin()
        self.assertEqual([pane.state.size for pane in self.host.panes.values()], [(23, 39), (23, 40)])
        self.made[0].send(b"out")
        panes[0].send(b"in")
        self.made[1].send(b"two")
        self.turn()
        self.assertEqual([read_now(end) for end in (panes[0], self.made[0], panes[1])], [b"out", b"in", b"two"])
        self.assertEqual(self.said.getvalue(), "")

    def test_sizes(self):
        """A new size reaches the programs, and an equal one doesn't."""
        self.begin()
        sizes = self.patch_of(host_pane.tty, "set_size")
        self.tell("1 1 1 23 39 4", "2 1 41 11 40 5", "focus 2")
        sizes.assert_called_once_with(self.host.panes[2].terminal, 11, 40)
        sizes.side_effect = OSError(5, "gone")
        self.tell("1 1 1 20 39 4")
        self.assertEqual(self.host.panes[1].state.size, (20, 39))

    def test_gone(self):
        """A pane that is gone gets a hangup, and one of another generation replaces it."""
        panes = self.begin()
        self.tell("2 gone", "focus 1")
        self.assertEqual([call[0] for call in self.kills.call_args_list], [(72, signal.SIGHUP), (72, signal.SIGCONT)])
        self.assertEqual((panes[1].recv(1), list(self.host.panes)), (b"", [1]))
        self.assertEqual(self.link.lines[-3:], ["close terminal:%2", "drop terminal:%2", "drop logs:%2"])
        self.tell("1 1 1 23 80 6", "focus 1")
        self.assertEqual((panes[0].recv(1), self.host.panes[1].state.process, self.host.panes[1].state.generation), (b"", 73, 6))
        self.kills.side_effect = PermissionError(1, "another's")
        self.tell("1 gone")
        self.assertEqual(self.host.panes, {})

    def test_there(self):
        """The socket `host` reports the attached terminals."""
        one = Asker(self, self.folder)
        one.send(b"here a:/dev/pts/1 24 80 read-write\nwho\n")
        self.turn()
        self.assertEqual(unled(read_now(one)), f"host {self.host.common.state.name}\nothers 0\n".encode())

    def test_commands(self):
        """It reports foreground programs, and looks them up again after input or output."""
        names = {1: "sh", 2: "vi"}
        self.patch_of(window.Fronts, "look",
                      lambda fronts, pane: fronts.tells(pane.state.number, pane.state.generation, names[pane.state.number]))
        panes = self.begin()
        one = Asker(self, self.folder)
        one.send(b"commands\n")
        self.turn(4)
        self.assertEqual(unled(read_now(one)), b"command 1 4 sh\ncommand 2 5 vi\n")
        names.update({1: "less", 2: "mc"})
        self.turn()
        panes[0].send(b"x")
        self.made[1].send(b"y")
        self.turn()
        self.now += 0.1
        self.turn()
        self.assertEqual(sorted(unled(read_now(one)).splitlines()), [b"command 1 4 less", b"command 2 5 mc"])

    def test_pasted(self):
        """A stored text is inserted at its placeholder, bracketed if the server reported that the program wants that before the
        placeholder. For another generation, or once the program no longer wants it, it isn't bracketed.
        """
        panes, names = self.begin(), [f"{number:016x}" for number in range(5)]
        one = Asker(self, self.folder)
        one.end.send("".join(f"0 paste {name} 4\ntext" for name in names).encode())
        self.turn(4)
        plain, bracketed = b"text", b"\x1b[200~text\x1b[201~"
        told = (("", plain), ("modes 1 4 paste\n", bracketed), ("modes 1 4 sgr\n", plain),
                ("modes 1 4 sgr buttons focus paste keys1\n", bracketed), ("modes 1 3 paste\n", plain))
        for number, (lines, wanted) in enumerate(told):
            # Both are there at once; the reports of the panes are read first, wherever they are in the list of events.
            self.server.send(lines.encode())
            panes[0].send(f"a\u009f{names[number]}\u009cb".encode())
            self.host.panes[1].hear()
            self.turn()
            self.assertEqual(read_now(self.made[0]), b"a" + wanted + b"b", lines)
        self.assertEqual(unled(read_now(one)).decode(),
                         "".join(f"stored {name}\n" for name in names) + "".join(f"inserted {name}\n" for name in names))

    def test_answered(self):
        """A program's query is answered there, before later input from the server; a colour once a terminal has reported it, and never a
        query of another generation.
        """
        panes = self.begin()
        self.host.common.socket.colours.take("colour foreground ffff/ffff/ffff")
        told = (("query 1 4 foreground bell\nquery 1 4 background\nquery 1 4 pastes set\n",
                 b"\x1b]10;rgb:ffff/ffff/ffff\x07\x1b[?2004;1$y"),
                ("query 1 3 version\nquery 9 4 version\nquery 1 4\nquery 1 4 name\n", b""), ("query 1 4 frames\n", b"\x1b[?2026;0$y"),
                ("query 1 4 size\n", b"\x1b[8;23;39t"), ("query 1 4 mode 1004 set\n", b"\x1b[?1004;1$y"))
        for lines, wanted in told:
            self.server.send(lines.encode())
            panes[0].send(b"\x1b[?62c")
            self.host.panes[1].hear()
            self.turn()
            self.assertEqual(read_now(self.made[0]), wanted + b"\x1b[?62c", lines)
        self.host.panes[2].close_terminal()
        self.tell("query 2 5 version")
        self.assertEqual(read_now(self.made[1]), b"")

    def test_gone_while_typed(self):
        """Input for a pane that is reported gone is dropped."""
        panes = self.begin()
        pane = self.host.panes[1]
        pane.is_settling = True
        panes[0].send(b"typed")
        self.server.send(b"1 gone\nfocus 2\n")
        pane.hear()
        self.assertEqual((list(self.host.panes), pane.terminal, [name for name in self.host.loop.due if "1" in name]), ([2], None, []))

    def test_focus_reported(self):
        """A program with focus reports gets each focus change once; metadata lines are no panes."""
        panes = self.begin("modes 1 4 focus", "modes 2 5 focus sgr paste drags other", "title 1 4 6162", "shape 1 4 5", "bell 1 4")
        self.tell("focus 2")
        self.tell("focus 2")
        self.assertEqual([read_now(end) for end in self.made], [b"\x1b[O", b"\x1b[I"])
        self.tell("modes 1 4", "focus 1", "modes 2 5")
        self.assertEqual([read_now(end) for end in self.made], [b"", b"\x1b[O"])
        self.tell("focus 2", "2 gone", "focus 1")
        self.assertEqual((read_now(self.made[0]), list(self.host.panes)), (b"", [1]))
        self.assertTrue(panes)

    def test_rung(self):
        """A bell is known from the server, for an existing pane."""
        self.begin()
        self.made[0].send(b"\x07")
        self.tell("bell 2 5", "bell 1 3")
        self.assertEqual(self.host.rung, {2})

    def test_notices(self):
        """Each terminal gets notices; a later one gets the current notice."""
        self.begin()
        ends = []
        for line in (b"commands\n", f"here {PERSON}\n".encode()):
            ends.append(Asker(self, self.folder))
            ends[-1].send(line)
        self.turn()
        read_now(ends[0])
        self.host.tell("pane 3 isn't sh\u00f6wn\x1b[2J" + "x" * 300)
        self.host.common.tell("of all windows")
        self.turn()
        self.assertEqual((unled(read_now(ends[0])), unled(read_now(ends[1]))), (
            b"", b"say pane 3 isn't sh?wn?[2J" + b"x" * 178 + b"\nsay of all windows\n"))
        self.host.channel.standing = "for who comes"
        ends[0].send(f"here {PERSON}\nhere {PERSON}\n".encode())
        self.turn()
        self.assertEqual(unled(read_now(ends[0])), b"say for who comes\n")

    def test_limits(self):
        """A pane that takes nothing has 16,384 bytes wait, and then its program waits; one that reads nothing 65,536."""
        pane = self.host.panes.get(1) or (self.begin(), self.host.panes[1])[1]
        peer, terminal = (self.host.loop.sources[end] for end in (pane.peer.fileno(), pane.terminal))
        pane.output.append(bytes(16383))
        self.assertEqual((peer.events(), terminal.events()), (READ | WRITE, READ))
        pane.output.append(b"x")
        self.assertEqual((peer.events(), terminal.events()), (READ | WRITE, 0))
        pane.output.drop()
        self.assertEqual((peer.events(), terminal.events()), (READ, READ))
        pane.to_terminal.take(b"x")
        self.assertEqual((peer.events(), terminal.events()), (READ, READ | WRITE))
        pane.output.append(b"x")
        self.assertEqual((peer.events(), terminal.events()), (READ | WRITE, READ | WRITE))
        pane.is_dropping = True
        pane.see_to_ends()
        self.turn(1)
        self.assertEqual((len(pane.to_terminal), pane.is_dropping, pane.written()), (0, False, 16385))

    def test_no_reader(self):
        """Input that a pane's program doesn't read is still taken from the server, and dropped above a limit; other panes continue."""
        panes = self.begin()
        for _ in range(200):
            panes[0].send(b"x" * 4000)
            self.turn(2)
        pane = self.host.panes[1]
        self.assertEqual(pane.typed.waits() + len(pane.to_terminal), 65536)
        panes[1].send(b"goes on")
        self.turn()
        self.assertEqual(read_now(self.made[1]), b"goes on")
        self.assertEqual(self.said.getvalue().count("pane 1: its program does not read input; above 65536 bytes it is dropped\n"), 1)
        self.assertTrue(pane.is_dropping)
        while pane.is_typed():
            read_now(self.made[0])
            self.turn()
        self.assertFalse(pane.is_dropping)

    def test_folder(self):
        """A new pane's command starts in the folder of the focused pane's foreground program, else of its command; the first one's in the
        server's.
        """
        self.host.asked.server = 4711
        works = self.patch_of(window, "working_folder", return_value="/there")
        self.patch_of(host_pane, "group_in_front", return_value=99)
        self.begin()
        self.assertEqual([call[0][0] for call in works.call_args_list], [[4711], [4711]])
        self.tell("3 1 1 5 5 1", "focus 3")
        self.assertEqual((works.call_args[0][0], self.host.panes[3].state.folder), ([99, 71, 4711], "/there"))

    def test_folder_taken(self):
        """A host whose folder was removed and created anew by another session uses none of its sockets, and writes nothing there."""
        self.begin()
        self.folder.rename(self.folder.with_name(self.folder.name + "-old"))
        self.addCleanup(shutil.rmtree, str(self.folder) + "-old")
        self.folder.mkdir()
        other = self.listening(self.folder / "p3")
        self.tell("3 1 1 5 5 1", "focus 3")
        self.assertIn("pane 3: the session's folder was removed; tried again\n", self.said.getvalue())
        with self.assertRaises(BlockingIOError):
            other.accept()
        self.assertEqual(os.listdir(self.folder), ["p3"])

    def test_sockets_removed(self):
        """Its removed sockets are restored a minute later, unless somebody else listens there; that is reported once."""
        self.begin()
        (self.folder / "host").unlink()
        other = self.listening(self.folder / "host")
        for _ in range(3):
            self.now += tmp_keepalive.LOOKS
            self.turn(1)
        self.assertEqual(self.said.getvalue().count("the session's socket was removed and cannot be restored: another process already listens at "), 1)
        other.close()
        self.now += tmp_keepalive.LOOKS
        self.turn(1)
        self.assertTrue(self.host.common.socket.is_found())
        self.assertIn(window.MENDED, self.said.getvalue())

    def test_terminal_gone(self):
        """A terminal without programs is closed, and so is a connection that the server ends."""
        panes = self.begin()
        self.made[0].close()
        panes[1].close()
        self.turn()
        self.assertEqual((self.host.panes[1].terminal, self.host.panes[2].peer), (None, None))
        self.assertEqual((self.host.panes[1].in_front(), self.host.panes[2].is_unread()), ([], False))
        panes[0].send(b"x")
        self.turn()
        self.assertEqual(len(self.host.panes[1].to_terminal), 0)

    def test_unread(self):
        """Output that the server doesn't read for three seconds is reported once."""
        panes = self.begin()
        for end in self.made:
            end.send(b"hello")
        self.turn()
        read_now(panes[1])
        self.now += 2.9
        self.turn()
        self.assertEqual(self.said.getvalue(), "")
        self.now += 0.1
        with mock.patch.object(host_pane.fcntl, "ioctl", side_effect=[struct.pack("i", 5), struct.pack("i", 0)]):
            self.turn()
        told = "pane 1 is not shown: the server does not read it; it may have no free descriptor\n"
        self.assertTrue(self.said.getvalue().endswith(told))
        self.assertEqual(self.said.getvalue().count("is not shown"), 1)
        pane = self.host.panes[1]
        for written, unread in ((0, False), (1, True), (16384, True), (16385, False)):
            pane.output.sent = written
            with mock.patch.object(host_pane.fcntl, "ioctl", return_value=struct.pack("i", 1)):
                self.assertEqual(pane.is_unread(), unread, written)


class Refused(Host):
    """Refusals of the system are reported and retried."""

    def test_command(self):
        """A command that fails to start is reported in its pane, and a key retries it."""
        self.link.forked = mock.Mock(side_effect=OSError(11, "Resource temporarily unavailable"))
        panes = self.begin()
        self.turn()
        self.assertEqual(read_now(panes[0]), b"[not run: Resource temporarily unavailable; a key tries again]\r\n")
        self.link.forked = self.forked
        panes[0].send(b"x")
        self.turn()
        self.assertEqual((self.host.panes[1].state.process, self.host.panes[2].state.process, read_now(self.made[0])), (71, None, b""))

    def test_connection(self):
        """A pane that fails to connect shows that, is reported once, and is retried each quarter of a second."""
        with mock.patch.object(host_pane, "connected_now", side_effect=OSError(24, "Too many open files")) as connects:
            says = self.patch_of(window, "say_in")
            self.tell("1 1 1 23 80 4", "focus 1")
            says.assert_called_once_with(f"{self.folder}/p1", "[not run: Too many open files; tried again]\r\n")
            self.assertEqual(self.host.loop.due["again"][0], 100.25)
            self.now += 0.24
            self.turn()
            self.assertEqual(connects.call_count, 1)
            self.now += 0.01
            self.turn()
            self.assertEqual((connects.call_count, says.call_count), (2, 1))
            self.now += 0.25
            self.turn()
        self.assertEqual(self.said.getvalue().count("pane 1: Too many open files; tried again\n"), 1)
        self.now += 0.25
        self.turn()
        self.assertEqual(("again" in self.host.loop.due, self.host.common.refused, self.host.panes[1].state.process), (False, set(), 71))

    def test_not_there(self):
        """A pane without a socket can't show a message."""
        says = self.patch_of(window, "say_in")
        self.tell("9 1 1 23 80 4", "focus 9")
        says.assert_not_called()
        self.assertIn("pane 9: No such file or directory; tried again\n", self.said.getvalue())

    def test_spares(self):
        """Descriptors are reserved for indispensable steps."""
        self.assertTrue(self.host.common.spare.end is not None and self.host.common.voice.end is not None)
        self.host.common.spare.free()
        self.host.common.spare.free()
        with mock.patch.object(host_pane.os, "open", side_effect=OSError(24, "Too many open files")):
            self.host.common.keep_spares()
        self.assertIn("a spare descriptor: Too many open files; tried again\n", self.said.getvalue())
        self.now += 0.25
        self.turn()
        self.assertIsNotNone(self.host.common.spare.end)

    def test_said(self):
        """A pane without a shell shows a line."""
        host_pane.say_in(self.folder / "p3", "why\ud800\r\n")
        self.assertEqual(self.taken(self.listeners["p3"]).recv(16), b"why?\r\n")
        host_pane.say_in(self.folder / "none", "why")


class Ended(Host):
    """Commands that end, and the session's end."""

    def end(self, process, is_left=False):
        """End a command, with nobody else at its terminal."""
        if not is_left:
            self.made[process - 71].close()
        self.link.ends(process)
        self.turn()

    def test_stays(self):
        """Without --close a pane whose command ended shows that after its last output, and stays."""
        panes = self.begin()
        self.made[0].send(b"bye")
        self.end(71)
        self.assertEqual(read_now(panes[0]), b"bye\r\n[ended]")
        self.assertEqual((self.host.panes[1].terminal, self.host.panes[1].runs(), self.host.is_over), (None, False, False))

    def test_last_words(self):
        """All its output arrives, as the pane takes it, however much it is; input after its end doesn't."""
        panes = self.begin()
        for _ in range(6):
            self.made[0].send(b"x" * 10_000)
        self.end(71)
        pane, got = self.host.panes[1], b""
        panes[0].send(b"typed")
        self.assertEqual((pane.state.has_ended, self.host.done()), (True, []))
        for _ in range(100):
            got += read_now(panes[0])
            self.turn(1)
        self.assertEqual((got, pane.terminal, len(pane.to_terminal)), (b"x" * 60_000 + b"\r\n[ended]", None, 0))
        self.assertEqual([name for name in self.host.loop.due if name.startswith("last")], [])

    def test_left(self):
        """If another process still has the terminal open, it is read until it is empty twice, 20 ms apart, or 64 kB came, which no terminal
        buffers. Then that process gets a hangup.
        """
        panes = self.begin()
        self.made[0].send(b"bye")
        self.end(71, True)
        pane = self.host.panes[1]
        self.now += 0.01
        self.made[0].send(b" and more")
        self.turn()
        self.assertIsNotNone(pane.terminal)
        self.now += 0.01
        self.turn()
        self.assertEqual((read_now(panes[0]), pane.terminal), (b"bye and more\r\n[ended]", None))
        self.end(72, True)
        pane = self.host.panes[2]
        for count in range(8):
            self.assertIsNotNone(pane.terminal, count)
            self.made[1].send(b"x" * 8192)
            self.turn()
            read_now(panes[1])
        self.assertIsNone(pane.terminal)

    def test_last_waits(self):
        """If the pane takes nothing of an ended command's output now nothing is read, with occasional checks."""
        self.begin()
        pane = self.host.panes[1]
        pane.hears = lambda: False
        pane.see_to_ends()
        self.made[0].send(b"bye")
        self.end(71)
        self.assertEqual((self.host.loop.due["last of pane 1"][0], pane.terminal is None), (self.now + 0.25, False))
        pane.hears = lambda: True
        self.now += 0.25
        self.turn(2)
        self.assertIsNone(pane.terminal)
        self.assertNotIn("last of pane 1", self.host.loop.due)

    def test_closes(self):
        """With --close the server is asked to close it, and again after three seconds; the focus goes to the previous pane."""
        self.host.asked.close = True
        self.begin("focus 2", "focus 1")
        self.end(71)
        self.assertEqual(read_now(self.server), b"close 1 4 2\n")
        self.now += 2.9
        self.turn()
        self.assertEqual(read_now(self.server), b"")
        self.now += 0.1
        self.turn()
        self.assertEqual(read_now(self.server), b"close 1 4 2\n")
        self.tell("1 gone", "focus 2")
        self.assertEqual((self.host.is_over, self.host.state.history), (False, [2]))

    def test_other(self):
        """An unfocused pane keeps the focus in place, which never goes to a pane whose command has ended."""
        self.host.asked.close = True
        self.begin()
        self.end(72)
        self.assertEqual(read_now(self.server), b"close 2 5\n")
        self.tell("focus 2", "focus 1")
        self.end(71)
        self.assertIn(b"close 1 4\n", read_now(self.server))

    def test_last(self):
        """The end of the last one is the session's: it is recorded, and the server is asked to end."""
        self.host.asked.close, self.host.asked.server, self.host.state.processes["server"] = True, 4711, (4711, 17)
        self.tell("1 1 1 23 80 4", "focus 1")
        self.kills.side_effect = ProcessLookupError(3, "none")
        self.end(71)
        self.assertEqual((self.host.is_over, self.kills.call_args_list), (True, [mock.call(4711, signal.SIGTERM)]))
        self.assertEqual((self.folder / "ended").read_text(encoding="utf-8"), "4711 17\n")

    def test_signals(self):
        """SIGTERM and SIGHUP end it, and its shells hang up."""
        for number in (signal.SIGTERM, signal.SIGHUP):
            self.host.common.is_over = False
            os.write(self.wakes, bytes([number]))
            self.turn(1)
            self.assertTrue(self.host.common.is_over)
        panes = self.begin()
        self.assertEqual(self.host.common.run(), 0)
        self.assertEqual((self.host.panes, panes[0].recv(1), (self.folder / "host").exists()), ({}, b"", False))

    def test_hung(self):
        """The processes of panes that are gone are reaped."""
        self.begin()
        self.tell("2 gone")
        self.end(72)
        self.assertEqual(self.host.common.hung, [])

    def test_server_gone(self):
        """The server's end is the session's; one that runs without listening is awaited."""
        self.begin()
        for end in (self.server, self.listeners["panes"]):
            end.close()
        self.turn()
        self.assertFalse(self.host.is_over)
        began = begun(os.getpid())
        self.host.state.processes["server"] = os.getpid(), began
        self.now += 0.1
        self.turn()
        self.assertFalse(self.host.is_over)
        self.host.state.processes["server"] = os.getpid(), began - 1
        self.now += 1
        self.turn()
        self.assertTrue(self.host.is_over)

    def test_let_go(self):
        """Panes without a report after a new subscription are gone, from the first focus on."""
        panes = self.begin()
        self.server.close()
        self.turn()
        self.assertEqual((self.host.untold, self.host.is_followed()), ({1, 2}, False))
        self.now += 0.1
        self.turn()
        self.server = self.taken(self.listeners["panes"])
        self.tell("1 1 1 23 80 4")
        self.assertEqual((self.host.untold, panes[0].fileno() > 0, self.host.is_followed()), ({2}, True, False))
        self.tell("focus 1")
        self.assertEqual((list(self.host.panes), panes[1].recv(1), self.host.is_followed()), ([1], b"", True))

    def test_not_followed(self):
        """A pane reports once that the panes can't be followed from the start."""
        says = self.patch_of(window, "say_in")
        for _ in range(3):
            self.server.close()
            self.turn(2)
            self.now = self.host.loop.due["follow panes"][0]
            self.turn(1)
            self.server = self.taken(self.listeners["panes"])
        self.assertEqual(says.call_count, 1)
        self.assertTrue(says.call_args[0][1].startswith("[no shell: the server's panes are not reported: the server closed the connection"))
        self.assertTrue(self.host.channel.standing.startswith("the server's panes are not reported: "))


class Again(Host):
    """Shells that an earlier host had."""

    def test_dropped(self):
        """Input since then is dropped before a shell runs, half a second after the last of it."""
        self.host = self.kept(again=True)
        self.server = self.taken(self.listeners["panes"])
        panes = self.begin()
        self.assertEqual(self.made, [])
        self.now += 0.4
        panes[0].send(b"rm -rf x\r")
        self.turn()
        self.now += 0.1
        self.turn()
        self.assertEqual(len(self.made), 1)
        self.assertEqual(read_now(panes[1]), b"\r\n[a new shell; what was typed since the last one ended is dropped]\r\n")
        self.now += 0.4
        self.turn()
        self.assertEqual((len(self.made), read_now(self.made[0]), read_now(self.made[1])), (2, b"", b""))
        self.tell("3 1 1 5 5 1", "focus 3")
        self.assertEqual(len(self.made), 3)


class Waits(Host):
    """The time until the next timer."""

    def wait_time(self):
        """Return its waiting time."""
        self.turn(1)
        return self.host.loop.waited

    def test_moments(self):
        self.begin()
        self.host.common.kept.write()
        self.host.lasting.due = 160.0
        self.assertAlmostEqual(self.wait_time(), 3.0)
        self.now += 3.0
        self.assertEqual(self.wait_time(), 0.0)
        self.assertAlmostEqual(self.wait_time(), 57.0)
        self.host.common.refuse("x", OSError(24, "Too many open files"))
        self.assertAlmostEqual(self.wait_time(), 0.25)
        self.now += 0.25
        self.turn()
        self.host.asked.close = True
        self.host.panes[1].close_terminal()
        self.host.panes[1].ends()
        self.turn()
        self.now += 1.0
        self.assertAlmostEqual(self.wait_time(), 2.0)
        self.now += 2.0
        self.turn()
        self.assertEqual(read_now(self.server), b"close 1 4\n" * 2)


class Rows(Host):
    """The output of panes to the scrollback process, which is played by hand."""

    history = "100"

    def setUp(self):
        self.fake = played(self)[0]
        self.patch_of(scrollback, "program", lambda: "/roam")
        super().setUp()

    def handed(self):
        """Return the records to the scrollback process."""
        self.turn()
        self.now += scrollback.WAITS / 2
        self.turn()
        return self.fake.taken()

    def test_handed(self):
        """It gets the output to panes, their sizes and their ends, and the host's own text there."""
        panes = self.begin()
        self.made[0].send(b"out")
        self.made[1].send(b"two")
        self.assertEqual(self.handed(), b"pane 0 23 39\nbytes 0 3\noutpane 1 23 40\nbytes 1 3\ntwo")
        self.patch_of(host_pane.tty, "set_size")
        self.tell("1 1 1 10 39 4", "2 gone", "focus 1")
        self.turn()
        self.assertEqual(self.fake.taken(), b"rewrap 0 10 39\ngone 1\n")
        self.fake.prints(b"none 0\n")
        self.assertEqual(self.handed(), b"size 0 10 39\n")
        self.made[0].send(b"last")
        self.turn()
        self.link.ends(71)
        self.assertEqual(self.handed(), b"bytes 0 %d\nlast%s" % (4 + len(host_pane.ENDED), host_pane.ENDED))
        self.assertEqual(read_now(panes[0]), b"outlast" + host_pane.ENDED)

    def test_behind(self):
        """A pane isn't read while the scrollback process is behind, for a second at most."""
        pane = self.begin()[0]
        self.host.rows.set_behind(True)
        self.host.loop.later("rows are behind", scrollback.WAITS, self.host.rows.lose)
        self.made[0].send(b"out")
        self.turn()
        self.assertEqual(read_now(pane), b"")
        self.now += scrollback.WAITS
        self.turn()
        self.assertEqual(read_now(pane), b"out")
        self.assertIn(scrollback.BEHIND, self.said.getvalue())

    def test_last_logged(self):
        """At the session's end log readers get the last contents of a pane."""
        self.begin()
        self.made[0].send(b"out")
        one = self.connected("host", b"log 1 4 0\n")
        self.turn()
        self.assertEqual(self.fake.taken(), b"pane 0 23 39\nbytes 0 3\nout")
        self.host.is_over = True
        self.fake.prints(b"screen 0 2 7\n out\n \n")
        self.assertEqual(self.host.common.run(), 0)
        self.assertEqual(read_now(one), b"0 rows 1 4 0 1 5\n out\n0 log 1 4 end\n")

    def test_last_blank(self):
        """For a blank pane the reader gets its end, although nothing follows that screen."""
        self.begin()
        self.made[0].send(b"out")
        one = self.connected("host", b"log 1 4 0\n")
        self.turn()
        self.host.is_over = True
        self.fake.prints(b"screen 0 2 4\n \n \n")
        self.assertEqual(self.host.common.run(), 0)
        self.assertEqual(read_now(one), b"0 log 1 4 end\n")

    def test_last_waits(self):
        """A late answer of the scrollback process does not delay the end for long."""
        self.begin()
        self.made[0].send(b"out")
        one = self.connected("host", b"log 1 4 0\n")
        self.host.is_over = True
        turn = self.host.loop.turn

        def passed():
            self.now += 0.1
            turn()

        self.patch_of(self.host.loop, "turn", passed)
        self.assertEqual(self.host.common.run(), 0)
        self.assertEqual(one.recv(64), b"")

    def connected(self, name, text):
        """Connect to a socket of the host's, and send this."""
        one = socket.socket(socket.AF_UNIX, socket.SOCK_STREAM)
        self.addCleanup(one.close)
        one.connect(str(self.folder / name))
        one.send(led_text(text, 0))
        self.turn()
        return one


class Words(Case):
    """The options of the command line."""

    def test_plain(self):
        """Words from mux are parsed as by argparse; others don't have that form."""
        for words in (["--windows", "d"], ["--windows", "--first", "d"], ["--windows", "d", "vi", "-x"], ["--windows", "--first", "d", "--first"],
                      ["--windows", "d", "--"], ["--windows", "d", "--windows"]):
            self.assertTrue(tool.Words.are_plain(words), words)
            with mock.patch("sys.argv", ["pane_shells", *words]):
                plain, parsed = tool.Words(words), tool.parsed_words()
            for name in ("windows", "first", "dir", "server", "close", "again", "command"):
                self.assertEqual(getattr(plain, name), getattr(parsed, name), (words, name))
        for words in ([], ["--windows"], ["--windows", "--first"], ["--windows", "--close", "d"], ["d"], ["--close", "d"],
                      ["--first", "--windows", "d"]):
            self.assertFalse(tool.Words.are_plain(words), words)

    def test_words(self):
        self.environment(SHELL="/bin/zsh")
        self.words("pane_shells", "--close", "--server", "7", "d", "vi", "-R", "x")
        asked = tool.read_words()
        self.assertEqual((asked.close, asked.server, asked.again, asked.dir, asked.command, asked.instead),
                         (True, 7, False, "d", ["vi", "-R", "x"], None))
        self.words("pane_shells", "--again", "d")
        asked = tool.read_words()
        self.assertEqual((asked.close, asked.again, asked.command, asked.instead), (False, True, ["/bin/zsh"], "/bin/sh"))
        self.environment(SHELL=None)
        self.assertEqual(tool.read_words().command, ["/bin/sh"])

    def test_main(self):
        folder = self.made_folder()
        self.words("pane_shells", str(folder))
        made, woken = self.patch_of(tool, "kept", return_value=0), self.patch_of(tool, "woken", return_value=self.pipe()[0])
        self.patch_of(tool, "HolderLink", lambda loop: PlayedHolder(loop, mock.Mock()))
        self.assertEqual(tool.main(), 0)
        self.assertEqual(os.listdir(folder), [])
        self.assertEqual((made.call_args[0][0].dir, woken.call_args[0]), (str(folder), (signal.SIGCHLD, signal.SIGTERM, signal.SIGHUP)))
        self.words("pane_shells", str(folder / "none"))
        with self.assertRaisesRegex(Fault, "/none is not a directory$"):
            tool.main()

    def test_has_ended(self):
        process = self.process("true")
        self.assertTrue(os.waitid(os.P_PID, process.pid, os.WEXITED | os.WNOWAIT))
        self.assertTrue(options.has_ended(process.pid))
        self.assertTrue(options.has_ended(process.pid))
        self.assertFalse(options.has_ended(self.process().pid))

    def test_spawned(self):
        """The holder gets the pane's size and folder, the command with the shell instead, and the environment."""
        for command, folder, expected in ((["vi"], "/tmp", ["/tmp", "", "1", "vi"]), ([], "", ["", "/bin/sh", "1", "/bin/zsh"])):
            with mock.patch.dict(os.environ, {"SHELL": "/bin/zsh"}):
                asked = host_pane.Options(folder="/d", command=command)
            link = PlayedHolder(StillLoop(), lambda size: (70, 71))
            state = PaneState(id=7, number=3, generation=1, size=(5, 40), folder=folder)
            pane = host_pane.PaneCommand(asked, StillLoop(), state, False, queue(), PaneHold(link, mock.Mock(), 7))
            with mock.patch.object(link, "spawn") as spawns:
                pane.run()
            name, size, text, _ = spawns.call_args[0]
            *words, environment = text.decode().split("\0", 4)
            self.assertEqual((name, size, words), ("terminal:%7", (5, 40), expected))
            self.assertIn("ROAM_PANE=/d:3", environment.split("\0"))
