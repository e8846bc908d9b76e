"""Windows at the host: opening, names, reports, closing and adoption, with simulated processes and servers."""
import contextlib
import fcntl
import json
import os
import select
import shutil
import signal
import socket
import subprocess
import sys
from unittest import mock

import aids
from aids import Asker, Case, StillLoop, kept_by, unled
from roam_live.common import files, process as common_process
from roam_live.common.errors import Fault
from roam_live.common.process import begun, note_ends
from roam_live.common.unix_socket import connected_now
from roam_live.common.record import written
from roam_live.host import common as host_common, pane as host_pane, hosted_window, repair, window as host_window, windows
from roam_live.host.hosted_window import WindowProcesses
from roam_live.host.state import WindowState, state_in
from roam_live.host.window import WindowHost
from roam_live.host.window_commands import ASKED_AGAIN
from roam_live.host.windows import ENDING, ENDS, FULL, OPENS, OVER, THERE, Windows
from roam_live.protocol.panes import Rect
from roam_live.protocol.spawn_request import Begins, unpacked
from roam_live.protocol.window_lines import MOST_WINDOWS, name_in, name_word
from roam_live.session import roles
from roam_live.session.names import is_spare_server, numbers_in
from roam_live.session.processes import noted_in
from roam_live.session.roles import CLIENT, SERVER


def read_now(one):
    """Return a peer's new lines without their numbers, or other new output."""
    return unled(aids.read_now(one)) if isinstance(one, Asker) else aids.read_now(one)


class Played(Case):
    """A host of windows with servers, clients and commands that sockets and pipes simulate."""

    def setUp(self):
        self.stop_clock()
        self.environment(ROAM_HISTORY="0", ROAM_PANE=None)
        self.folder, self.said = self.made_folder(), self.heard()
        self.wakeup = self.pipe()[0]
        self.made, self.spawned, self.killed = [], [], []
        self.patch_of(host_common, "has_ended", return_value=False)
        self.patch_of(host_pane.signal, "pidfd_send_signal", side_effect=lambda file, number: os.kill(self.common.link.files[file], number))
        self.patch_of(WindowProcesses, "spawn", lambda processes, role, words: self.spawn(processes, role))
        self.patch_of(roles, "program", lambda: "/roam")
        self.patch_of(hosted_window, "is_running", lambda process, moment: process in self.alive)
        self.patch("os.kill", self.kill)
        self.alive, self.servers = set(), {}
        self.common = host_window.Common(self.wakeup, kept_by(self.folder, StillLoop(lambda: self.now), self.forked))
        self.windows = Windows(host_pane.Options(folder=str(self.folder), command=["sh"]), self.common)
        self.addCleanup(self.leave)

    def leave(self):
        """Close a host, and check that its state has its windows and survives JSON."""
        self.assertEqual(state_in(written(self.common.state)), self.common.state)
        self.assertEqual(list(self.common.state.windows), list(self.windows.windows))
        for window in self.windows.windows.values():
            if isinstance(window.sizes, windows.SizeAct):
                window.sizes.close()
        self.common.close()
        for one in (self.common.spare, self.common.voice):
            one.free()

    def forked(self, size):
        """Return a command's process and terminal: a socket here."""
        one, other = self.pair()
        self.made.append((size, other))
        return 70 + len(self.made), os.dup(one.fileno())

    def spawn(self, processes, role):
        """Return a process of a simulated window."""
        self.spawned.append((processes.number, role))
        number = 1000 * processes.number + (role == CLIENT)
        processes.noted[role] = number, 1
        self.alive.add(number)
        return number

    def kill(self, process, number):
        """Send a signal that ends a simulated process, or doesn't."""
        self.killed.append((process, number))
        if process < 1000 or process in self.stubborn and number != signal.SIGKILL:
            return
        self.alive.discard(process)

    stubborn = ()

    def path(self, number, name):
        """Return the path of a file in a window's folder."""
        return self.folder / f"w/{number}/{name}"

    def comes_up(self, number):
        """Simulate a window's server and client."""
        for name in ("panes", "p1"):
            self.servers[number, name] = self.listening(self.path(number, name))
        self.path(number, "session").touch()
        self.now += 0.01
        self.common.turn()
        server = self.servers[number] = self.taken(self.servers[number, "panes"])
        server.send(b"1 1 1 23 80 4\nfocus 1\nclients 1 of 64\n")
        self.servers[number, "terminals"] = self.listening(self.path(number, "terminals"))
        self.turns(3)

    def turns(self, count=1):
        """Take so many turns, each a moment after the one before."""
        for _ in range(count):
            self.now += 0.01
            self.common.turn()

    def opened(self, size=None):
        """Open a window, and return the report."""
        told = []
        self.windows.open(size, 0, lambda *words: told.append(words))
        number = max(number for number, _ in self.spawned)
        self.comes_up(number)
        return told

    def asker(self, number, text=b"windows\n"):
        """Return a peer at a window that sends this text."""
        one = Asker(self, self.folder, number)
        one.send(text)
        self.turns(3)
        return one

    def said_by(self, one, text):
        """Return the answers to a line."""
        one.send(text)
        self.turns(3)
        return read_now(one)


class Fronts(Played):
    """Programs in windows, and requests to detach."""

    def test_runs(self):
        """Subscribers of windows get the foreground program of the focused pane, and its changes."""
        self.opened()
        self.patch("roam_live.host.foreground_watch.group_in_front", lambda terminal: 5)
        name = self.patch("roam_live.host.foreground_watch.name_of", return_value="vim")
        one = self.asker(1)
        self.turns(3)
        self.assertEqual(read_now(one), b"window 1 -\nwindows 1\nruns 1 vim\n")
        self.assertEqual(self.said_by(one, b"windows\n"), b"window 1 -\nwindows 1\nruns 1 vim\n")
        name.return_value = "sh"
        self.made[0][1].send(b"$ ")
        self.turns(2)
        self.now += 1
        self.turns(2)
        self.assertIn(b"runs 1 sh\n", read_now(one))

    def test_leave_others(self):
        """All terminals of each window but the requesting one are asked to detach; a read-only terminal can't request that."""
        self.opened()
        self.opened((24, 80))
        there = ((1, "a", "read-write"), (2, "a", "read-write"), (2, "b", "read-write"), (1, "c", "read-only"))
        own, also, other, watcher = (self.asker(window, f"here {name} 24 80 {kind}\n".encode()) for window, name, kind in there)
        for one in (own, also, other, watcher):
            read_now(one)
        self.assertEqual(self.said_by(watcher, b"leave others\n"), b"bad line\n")
        self.assertEqual(self.said_by(own, b"leave others\n"), b"left 3\n")
        self.assertEqual([read_now(one) for one in (also, other, watcher)], [b"leave\n"] * 3)


class Opened(Played):
    """Opening windows."""

    def test_first(self):
        """The first window has no size and no client: the launcher of the session provides them."""
        self.assertEqual(self.opened(), [(1, "")])
        self.assertEqual((self.spawned, self.windows.named(), self.made[0][0]), ([(1, SERVER)], {1: ""}, (23, 80)))
        self.assertEqual(os.stat(self.path(1, "")).st_mode & 0o777, 0o700)

    def test_sized(self):
        """Another window has its client, which types its size once, and its first command starts with that size."""
        self.opened()
        self.assertEqual(self.opened((40, 120)), [(2, "")])
        self.assertEqual((self.spawned[1:], self.made[1][0]), ([(2, SERVER), (2, CLIENT)], (39, 120)))
        client = self.taken(self.servers[2, "terminals"])
        self.assertEqual(client.recv(100), b"size 40 120\n")
        client.close()
        self.turns(2)
        sizes = self.patch_of(host_pane.tty, "set_size")
        self.servers[2].send(b"1 1 1 39 120 4\n")
        self.turns()
        sizes.assert_not_called()
        self.servers[2].send(b"1 1 1 30 100 4\n")
        self.turns()
        self.assertEqual(sizes.call_args[0][1:], (30, 100))

    def test_small(self):
        """No window is opened below the smallest size of a session."""
        self.opened()
        for place, (size, least) in enumerate((((1, 120), (4, 120)), ((40, 1), (40, 8))), 2):
            self.opened(size)
            self.assertEqual(self.taken(self.servers[place, "terminals"]).recv(100), "size {} {}\n".format(*least).encode())

    def test_seen_size(self):
        """The host knows a window's size from its panes, while it follows them."""
        self.opened()
        zoom = self.windows.windows[1].host.channel.zoom
        self.assertEqual(zoom.size, (24, 80))
        for text, size in ((b"1 1 1 23 60 4\n", (24, 60)), (b"1 1 1 23 40 4\n2 1 42 23 40 5\n", (24, 81)), (b"2 1 42 23 41 5\n", (24, 82)),
                           (b"1 1 1 20 40 4\n", (24, 82)), (b"2 1 42 20 41 5\n", (21, 82)), (b"2 gone\n", (21, 40))):
            self.servers[1].send(text)
            self.turns(2)
            self.assertEqual(zoom.size, size, text)
        self.servers[1].close()
        self.turns(2)
        self.assertIsNone(zoom.size)

    def test_untold_size(self):
        """A size that is never reached gives way to the reported one."""
        self.opened()
        self.opened((40, 120))
        sizes = self.patch_of(host_pane.tty, "set_size")
        self.now += OPENS
        self.turns()
        self.assertEqual(sizes.call_args[0][1:], (23, 80))

    def test_smallest(self):
        """A window has the smallest free number, and there are 99 at most."""
        for _ in range(3):
            self.opened()
        self.windows.shut(2)
        self.turns(3)
        self.assertEqual(sorted(self.windows.windows), [1, 3])
        told = []
        self.windows.open(None, 0, lambda *words: told.append(words))
        self.assertEqual(self.spawned[-1], (2, SERVER))
        with mock.patch.dict(self.windows.windows, {number: mock.Mock(stage=ENDING, host=None) for number in range(4, MOST_WINDOWS + 1)}):
            self.windows.open(None, 0, lambda *words: told.append(words))
        self.assertEqual(told, [(0, FULL)])
        self.common.is_over = True
        self.windows.open(None, 0, lambda *words: told.append(words))
        self.assertEqual(told[1:], [(0, OVER)])

    def test_fails(self):
        """A process that fails to start, ends, is late or is unreachable is reported, and leaves nothing."""
        self.opened()

        def never(number):
            """Do nothing: no process is ready in time."""
            self.now += OPENS

        def ends(number):
            """End the server."""
            self.alive &= {1000}

        def client_ends(number):
            """End the client, once the server is there."""
            for name in ("panes", "p1"):
                self.listening(self.path(number, name))
            self.path(number, "session").touch()
            self.turns()
            self.alive.discard(1000 * number + 1)

        for does, why in ((never, "its server or its client process did not start"), (ends, "its server has ended"),
                          (client_ends, "its client process has ended")):
            told = []
            self.opened_by(told)
            number = self.spawned[-1][0]
            does(number)
            self.turns(3)
            self.assertEqual(told, [(0, why)])
            self.now += 2 * ENDS
            self.turns(3)
            self.assertEqual((numbers_in(str(self.folder / "w")), self.windows.named()), ([1], {1: ""}), why)
        with mock.patch.object(WindowProcesses, "spawn", side_effect=OSError(11, "Resource temporarily unavailable")):
            told = []
            self.opened_by(told)
        self.assertEqual(told, [(0, "Resource temporarily unavailable")])
        with mock.patch.object(windows, "connected_now", side_effect=OSError(24, "Too many open files")):
            told = []
            self.opened_by(told)
            self.path(self.spawned[-1][0], "session").touch()
            self.turns()
        self.assertEqual(told, [(0, "Too many open files")])

    def opened_by(self, told):
        """Open a window of a size."""
        self.windows.open((24, 80), 0, lambda *words: told.append(words))

    def test_client_of_another(self):
        """While another process has the session's lock, for example to attach there, the client is its own; a window has one client."""
        told = []
        self.opened()
        lock = os.open(self.folder / "lock", os.O_RDWR | os.O_CREAT)
        fcntl.flock(lock, fcntl.LOCK_EX)
        self.windows.open((40, 120), 0, lambda *words: told.append(words))
        for name in ("panes", "p1"):
            self.servers[2, name] = self.listening(self.path(2, name))
        self.path(2, "session").touch()
        self.turns(3)
        self.assertEqual(self.spawned[-1], (2, SERVER))
        self.alive.add(2001)
        processes = self.windows.windows[2].processes
        (self.path(2, "state.json")).write_text(json.dumps({"version": 4, SERVER: list(processes.noted[SERVER]), CLIENT: [2001, 1]}))
        os.close(lock)
        self.turns(3)
        self.assertEqual((self.spawned[-1], processes.noted[CLIENT]), ((2, SERVER), (2001, 1)))

    def test_over_at_once(self):
        """A window whose first command ends before the host has looked is opened, and ends as intended."""
        told = []
        self.windows.open(None, 0, lambda *words: told.append(words))
        with mock.patch.object(WindowHost, "has_begun", return_value=False):
            self.comes_up(1)
        self.assertEqual(self.windows.windows[1].host.panes[1].written(), 0)
        os.close(self.made[0][1].detach())
        self.common.link.ends(71)
        self.turns(6)
        self.assertEqual((told, self.common.is_over), ([(1, "")], True))

    def test_given_and_ended(self):
        """A session whose first server ends before the host has seen it fails at once, and not after ten seconds."""
        self.windows.refusal, told = "", []
        window = self.windows.add(WindowProcesses(str(self.folder), WindowState(number=1)), lambda *words: told.append(words))
        window.is_given, window.has_client = True, False
        with mock.patch.object(WindowProcesses, "read", lambda processes: processes.noted.update(server=(1000, 1))):
            self.windows.await_(window, windows.OPENS)
        self.assertEqual(told, [(0, "its server has ended")])

    def test_no_first(self):
        """A session whose first window fails to open is none."""
        with mock.patch.object(WindowProcesses, "make_folder", side_effect=OSError(28, "No space left on device")):
            with self.assertRaisesRegex(Fault, "^cannot open a window: No space left on device$"):
                self.windows.run()


class Ready(Played):
    """The spare server for the next window."""

    def spare(self):
        """Create a spare server by a subscription to windows."""
        self.opened()
        one = self.asker(1)
        self.now += windows.READY
        self.turns(2)
        return one

    def test_taken(self):
        """It is spawned after the first subscription to windows, is reported to nobody, and has no client; the next window takes it, and
        another follows.
        """
        self.opened()
        self.now += windows.READY
        self.turns(2)
        self.assertEqual(self.spawned, [(1, SERVER)])
        one = self.asker(1)
        self.now += windows.READY
        self.turns(2)
        self.assertEqual((self.spawned[1:], self.path(2, "spare").exists(), self.windows.named()), ([(2, SERVER)], True, {1: ""}))
        self.assertEqual(read_now(one), b"window 1 -\nwindows 1\n")
        told = []
        self.windows.open((24, 80), 1, lambda *words: told.append(words))
        self.comes_up(2)
        self.assertEqual((told, self.spawned[2:], self.path(2, "spare").exists()), ([(2, "")], [(2, CLIENT)], False))
        self.now += windows.READY
        self.turns(2)
        self.assertEqual(self.spawned[3:], [(3, SERVER)])

    def test_broken(self):
        """A spare that has ended, or whose files a cleaner removed, isn't used."""
        self.spare()
        told = []
        self.now += OPENS
        self.windows.open((24, 80), 1, lambda *words: told.append(words))
        self.assertEqual((self.killed, self.spawned[2:]), ([(2000, signal.SIGKILL)], [(2, SERVER)]))
        self.comes_up(2)
        self.assertEqual(told, [(2, "")])
        self.now += windows.READY
        self.turns(2)
        self.alive.discard(3000)
        self.windows.await_spare()
        self.now += windows.READY
        self.turns(2)
        self.assertEqual(self.spawned[-2:], [(3, SERVER), (3, SERVER)])

    def test_smaller(self):
        """A smaller free number goes first, and has no spare."""
        self.spare()
        self.assertIsNone(self.windows.taken_spare(1))
        self.assertEqual((self.windows.spare.number, self.windows.free_number()), (2, 2))

    def test_ended(self):
        """It ends with the session, and the next host adopts none."""
        self.spare()
        self.windows.end_spare()
        self.turns(3)
        self.assertEqual((self.killed[0], self.alive, numbers_in(str(self.folder / "w"))), ((2000, signal.SIGTERM), {1000}, [1]))
        other = WindowProcesses(str(self.folder), WindowState(number=6))
        other.make_folder()
        other.mark_spare(True)
        other.noted.update({SERVER: (6000, 1)})
        other.note()
        self.alive.add(6000)
        self.windows.take_over()
        self.assertEqual((self.killed[-1], 6 in self.windows.windows, self.path(6, "").exists()), ((6000, signal.SIGKILL), False, False))


class Told(Played):
    """Input and output at the sockets."""

    def test_lines(self):
        """Windows are reported in order, with each change; a read-only peer can't change any."""
        self.opened()
        one = self.asker(1)
        self.assertEqual(read_now(one), b"window 1 -\nwindows 1\n")
        self.opened((24, 80))
        self.assertEqual(read_now(one), b"window 2 -\nactivity 2\n".replace(b"activity 2\n", b""))
        for line, wanted in ((b"name 2 6162\n", b"window 2 6162\n"), (b"name 2 -\n", b"window 2 -\n"), (b"name 7 61\n", b"gone 7\n"),
                             (b"name 2 1b\n", b"bad line\n"), (b"name 2 ff\n", b"bad line\n"), (b"name 0 61\n", b"bad line\n"),
                             (b"shut 7\n", b"gone 7\n"), (b"shut 100\n", b"bad line\n"), (b"open 0 80\n", b"bad line\n"),
                             (b"open 24\n", b"bad line\n"), (b"windows 2\n", b"bad line\n")):
            self.assertEqual(self.said_by(one, line), wanted, line)
        self.assertEqual(self.said_by(one, b"name 1 " + "\u00e9\u4e2d".encode().hex().encode() + b"\n"), b"window 1 c3a9e4b8ad\n")
        self.assertEqual(self.path(1, "name").read_text(encoding="ascii"), "c3a9e4b8ad\n")
        self.assertEqual(self.said_by(one, b"shut 2\n"), b"gone 2\n")
        watcher = self.asker(1, b"here a:/dev/pts/1 24 80 read-only\n")
        for line in (b"name 1 61\n", b"shut 1\n", b"leave 1\n"):
            self.assertEqual(self.said_by(watcher, line), b"bad line\n")
        self.assertEqual(self.said_by(watcher, b"open 24 80\n"), b"opened none a read-only terminal opens none\n")

    def test_opened(self):
        """The peer is answered once a window is open, after the report of it, and may request four at once."""
        self.opened()
        one = self.asker(1, b"windows\nopen 30 90\n")
        read_now(one)
        self.comes_up(2)
        self.assertEqual(read_now(one).replace(b"activity 2\n", b""), b"window 2 -\nopened 2\n")
        self.assertEqual(self.said_by(one, b"open 30 90\n" * 5), b"opened none 4 windows are being opened\n")
        one.close()
        self.turns(2)
        self.comes_up(3)
        self.assertIn(3, self.windows.named())

    def test_begins(self):
        """A window gets the uploaded start options of its name: a command in its first pane alone, a folder and a name. With an unknown
        name it isn't opened.
        """
        self.opened()
        name, data = "0123456789abcdef", Begins(["htop", "-d"], "/", "logs").packed()
        one = self.asker(1, b"windows\n")
        one.end.send(f"1 run {name} window {len(data)}\n".encode() + data + f"1 open 30 90 {name}\n".encode())
        self.turns(3)
        self.assertIn(f"run {name} ready\nrun {name} done\n".encode(), read_now(one))
        self.comes_up(2)
        self.assertIn(b"window 2 " + b"logs".hex().encode() + b"\nopened 2\n", read_now(one).replace(b"activity 2\n", b""))
        panes = self.windows.windows[2].host.panes
        self.assertEqual([(pane.state.command, pane.state.folder) for pane in panes.values()], [(["htop", "-d"], "/")])
        self.assertEqual(self.windows.windows[2].host.handed_to(Rect(1, 1, 9, 9)), None)
        # Another peer may upload it, at another window.
        self.asker(2, b"").end.send(f"2 run {'a' * 16} window {len(data)}\n".encode() + data)
        self.turns(3)
        one.send(f"open 30 90 {'a' * 16}\n".encode())
        self.turns(3)
        self.comes_up(3)
        self.assertEqual([pane.state.command for pane in self.windows.windows[3].host.panes.values()], [["htop", "-d"]])
        read_now(one)
        self.assertEqual(self.said_by(one, f"open 30 90 {name}\n".encode()).replace(b"activity 2\n", b""),
                         b"opened none its command is missing\n")

    def asks_again(self, size):
        """Return the answers to a front end that repeats its request for a window of a size after a cut, and the number of spawned servers.
        """
        one = self.asker(1, b"windows\n")
        read_now(one)
        told = self.said_by(one, b"open %d %d\n" % size)
        one.close()
        self.turns(2)
        return told, sum(role == SERVER for _, role in self.spawned)

    def test_asked_again(self):
        """A front end that lost its connection before it went to its window repeats the request and gets the same window, for five seconds.
        Another size, or another window, gets its own.
        """
        self.opened()
        self.patch_of(windows.Windows, "prepare")
        self.assertEqual([self.asks_again((30, 90)) for _ in range(3)], [(b"", 2)] * 3)
        self.comes_up(2)
        self.assertEqual(self.asks_again((30, 90)), (b"opened 2\n", 2))
        self.now += ASKED_AGAIN - 1
        self.assertEqual(self.asks_again((30, 90)), (b"opened 2\n", 2))
        self.assertEqual(self.asks_again((20, 90)), (b"", 3))
        self.assertEqual(self.said_by(self.asker(2, b""), b"open 30 90\n"), b"")
        self.assertEqual(sum(role == SERVER for _, role in self.spawned), 4)
        self.asker(2, b"here a:/dev/pts/1 24 80 read-write\n").close()
        self.assertEqual(self.asks_again((30, 90)), (b"", 5))
        self.comes_up(3)
        self.now += ASKED_AGAIN
        self.assertEqual(self.asks_again((20, 90)), (b"", 6))

    def test_named_request(self):
        """A request that is repeated by its name opens no second window, and is answered once the window is there. Its start options are in
        the state until then, for another host.
        """
        self.opened()
        self.patch_of(windows.Windows, "prepare")
        name, request, data = "0123456789abcdef", "f" * 16, Begins(["htop"], "/", "").packed()
        one = self.asker(1, b"")
        one.end.send(f"1 run {name} window {len(data)}\n".encode() + data + f"1 open 30 90 {name} for {request}\n".encode())
        self.turns(3)
        self.assertEqual(read_now(one), f"run {name} ready\nrun {name} done\n".encode())
        kept = self.windows.windows[2].state
        self.assertEqual((kept.request, unpacked(kept.begins).words), (request, ["htop"]))
        two = self.asker(1, b"")
        again = f"open 30 90 for {request}\n".encode()
        self.assertEqual(self.said_by(two, again), b"opened none its window is being opened\n")
        self.comes_up(2)
        self.assertEqual((read_now(one), self.said_by(two, again), kept.begins), (b"opened 2\n", b"opened 2\n", b""))
        self.assertEqual(sum(role == SERVER for _, role in self.spawned), 2)
        watcher = self.asker(1, b"here a:/dev/pts/1 24 80 read-only\n")
        self.assertEqual(self.said_by(watcher, again), b"opened none a read-only terminal opens none\n")
        self.assertEqual(self.said_by(two, b"open 30 90 for x\n"), b"bad line\n")

    def test_asked_once(self):
        """A command that requests a window and ends after the answer claims it for nobody; neither does a failed one."""
        self.opened()
        self.patch_of(windows.Windows, "prepare")
        self.assertEqual(self.said_by(self.asker(1, b""), b"open 30 90\n"), b"")
        self.comes_up(2)
        self.assertEqual(self.asks_again((30, 90)), (b"", 3))
        self.now += OPENS
        self.turns(2)
        self.assertEqual(self.asks_again((30, 90)), (b"", 4))

    def test_clients(self):
        """Terminals of all windows are reported, each with its window; one, or all others, are asked to detach."""
        self.opened()
        self.opened((24, 80))
        self.patch_of(self.common.socket.attended, "clock", lambda: 1000.5)
        one, two = self.asker(1, b"here a:/dev/pts/1 24 80 read-write\n"), self.asker(2, b"here b:/dev/pts/2 30 90 read-only\n")
        self.assertEqual((self.folder / "w/last").read_text(encoding="ascii"), "2\n")
        self.assertEqual(self.said_by(one, b"clients\n"), b"client 1 a:/dev/pts/1 24 80 1 1000 read-write\n"
                         b"client 2 b:/dev/pts/2 30 90 2 1000 read-only\nclients 2\n")
        self.assertEqual((self.said_by(one, b"leave 2\n"), read_now(two)), (b"left 2\n", b"leave\n"))
        self.assertEqual(self.said_by(one, b"leave 9\n"), b"left none\n")
        self.assertEqual((self.said_by(one, b"show 2 1\n"), read_now(two)), (b"shown 2\n", b"show 1\n"))
        self.assertEqual((self.said_by(one, b"show 9 1\n"), self.said_by(two, b"show 1 2\n")), (b"shown none\n", b"bad line\n"))
        self.assertEqual((self.said_by(one, b"leave others\n"), read_now(two)), (b"left 1\n", b"leave\n"))
        # A terminal that goes to another window keeps its arrival; one that comes later gets a new one.
        one.close()
        self.turns()
        self.patch_of(self.common.socket.attended, "clock", lambda: 1060.5)
        again = self.asker(2, b"here a:/dev/pts/1 24 80 read-write\n")
        self.assertIn(b" 24 80 2 1000 read-write\n", self.said_by(again, b"clients\n"))
        again.close()
        self.turns()
        self.now += 10
        later = self.asker(2, b"here a:/dev/pts/1 24 80 read-write\n")
        self.assertIn(b" 24 80 2 1060 read-write\n", self.said_by(later, b"clients\n"))

    def test_news(self):
        """Output without a terminal there is reported once a second at most; bells are reported as the server sends them."""
        self.opened()
        self.opened((24, 80))
        one = self.asker(1)
        self.now += 2
        self.turns(2)
        read_now(one)
        rows = ((b"x", b"", 0, b"activity 2\n"), (b"\x07", b"bell 1 4\n", 0, b"bell 2 1\n"), (b"", b"", 1, b"activity 2\n"),
                (b"", b"bell 1 5\nbell 9 4\n", 0, b""), (b"y", b"bell 1 4\n", 1.1, b"bell 2 1\nactivity 2\n"))
        for text, bell, passed, wanted in rows:
            self.now += passed
            self.made[1][1].send(text)
            self.servers[2].send(bell)
            self.turns(2)
            self.assertEqual(read_now(one), wanted, text)
        self.asker(2, b"here a:/dev/pts/1 24 80 read-write\n")
        self.now += 2
        self.made[1][1].send(b"z")
        self.turns(2)
        self.assertEqual(read_now(one), b"")

    def test_common(self):
        """Texts, buffers and the environment are shared by all windows; panes and rows belong to the window of the request."""
        self.opened()
        self.opened((24, 80))
        one, two = self.asker(1, b""), self.asker(2, b"")
        name = "0123456789abcdef"
        one.end.send(f"1 paste {name} 4\ntext".encode())
        self.turns(3)
        self.assertEqual(read_now(one), f"stored {name}\n".encode())
        self.assertEqual(self.said_by(two, f"status {name}\n".encode()), f"stored {name}\n".encode())
        one.end.send(b"1 buffer add 2\nab")
        self.turns(3)
        self.assertEqual(read_now(one), b"buffer add 1 2\n")
        self.assertEqual(self.said_by(two, b"buffer show 1\n"), b"buffer show 1 2\nab")
        self.assertEqual(self.said_by(one, b"environment DISPLAY 3a37\n"), b"")
        self.assertIn(b"environment DISPLAY 3a37\n", self.said_by(two, b"environment\n"))
        one.send(b"who\nhere a:/dev/pts/1 24 80 read-write\n")
        two.send(b"who\nhere b:/dev/pts/2 24 80 read-write\n")
        self.turns(2)
        told = f"host {self.common.state.name}\nothers 0\n".encode()
        self.assertEqual([read_now(one), read_now(two)], [told, told])
        self.assertEqual(host_pane.surroundings(self.windows.windows[2].host.asked, 3, mock.Mock(set_values=dict))["ROAM_PANE"],
                         f"{self.folder}/w/2:3")

    def test_numbers(self):
        """A line is about the window that it names; one about a missing window is bad, and so is one without a number."""
        self.opened()
        self.opened((24, 80))
        one = self.asker(2, b"")
        for line in (b"here a 24 80 read-write", b"", b"x who", b"100 who", b"02 who", b"3 count 1 5", b"3 zoom none",
                     b"3 run " + b"0" * 16):
            one.end.send(line + b"\n")
        self.turns(3)
        self.assertEqual(aids.read_now(one), b"0 bad line\n" * 5 + b"3 bad line\n" * 3)
        self.assertEqual(self.common.socket.clients(), ["clients 0"])

    def test_moves(self):
        """A terminal is at the window that it reported last; those at each are informed, with the window's number."""
        self.opened()
        self.opened((24, 80))
        mover = self.asker(1, b"here a:/dev/pts/1 24 80 read-write\n")
        first, second = self.asker(1, b"who\ncommands\n"), self.asker(2, b"who\n")
        for one in (first, second):
            aids.read_now(one)
        mover.number = 2
        mover.send(b"here a:/dev/pts/1 24 80 read-write\nwho\n")
        self.turns(2)
        number = self.common.socket.peers[0].number
        self.assertEqual((aids.read_now(first), aids.read_now(second)),
                         (b"1 gone %d\n1 others 0\n" % number, b"2 there %d a:/dev/pts/1 24 80 read-write\n2 others 1\n" % number))
        self.assertTrue(aids.read_now(mover).endswith(b"2 others 0\n"))
        self.assertEqual(self.windows.state.last_window, 2)
        # A line about another window doesn't move it.
        mover.number = 1
        mover.send(b"zoom 24 80 48 160\n")
        self.turns(2)
        self.assertEqual(aids.read_now(first), b"1 zoomed %d 24 80 48 160\n1 others 0\n" % number)
        mover.close()
        self.turns(2)
        self.assertEqual((aids.read_now(first), aids.read_now(second)),
                         (b"1 zoomed 0 24 80 48 160\n1 others 0\n", b"2 gone %d\n2 others 0\n" % number))

    def test_comes_before(self):
        """A terminal that comes before its window is there once that opens; without a number it goes to the one used last."""
        self.opened()
        early = self.asker(2, b"here a:/dev/pts/1 24 80 read-write\nwho\n")
        self.assertEqual(aids.read_now(early), f"0 host {self.common.state.name}\n".encode())
        self.opened((24, 80))
        self.assertTrue(self.windows.windows[2].has_terminals())
        nameless = self.asker(0, b"here b:/dev/pts/2 24 80 read-write\nwho\n")
        self.assertIn(b"0 others 1\n", aids.read_now(nameless))
        self.windows.windows[2].host.channel.notify("well")
        self.turns(2)
        self.assertEqual(aids.read_now(nameless), b"0 say well\n")

    def test_joined(self):
        """A window's note says that it is one; that of a spare server doesn't."""
        self.opened()
        self.asker(1)
        self.now += windows.READY
        self.turns(2)
        spare = self.windows.spare
        spare.note()
        self.assertNotIn("joined", json.loads(self.path(2, "state.json").read_text()))
        self.windows.open((24, 80), 1, lambda *words: None)
        self.assertIs(json.loads(self.path(2, "state.json").read_text())["joined"], True)

    def test_names(self):
        """A name is printable, of 64 characters and 119 bytes."""
        for name in ("a", "\u00e9 b", "x" * 64, "-"):
            self.assertEqual(name_in(name_word(name)), name)
        for word in ("", "zz", "6", "ff", "1b", "c2", name_word("x" * 65), name_word("a\nb"), name_word("\u202e")):
            self.assertIsNone(name_in(word), word)
        self.assertEqual((name_word(""), name_in("-")), ("-", ""))


class Ended(Played):
    """Closing windows."""

    def test_shut(self):
        """Its shells get a hangup, its server is ended, and nothing of it remains; the end is recorded as intended."""
        self.opened()
        self.opened((24, 80))
        self.assertTrue(self.windows.shut(2))
        self.assertFalse(self.windows.shut(2))
        self.turns()
        self.alive.discard(2001)
        self.turns(3)
        first = [(2000, signal.SIGTERM)] if self.killed[0][0] == 2000 else []
        hung_up = [(72, signal.SIGHUP), (72, signal.SIGCONT)]
        self.assertEqual((self.killed[:3], sorted(self.windows.windows)), ([*first, *hung_up, (2000, signal.SIGTERM)][:3], [1]))
        self.assertEqual((self.path(2, "").exists(), (self.folder / "ended").read_text(encoding="ascii")), (False, "2000 1\n"))
        self.assertFalse(self.common.is_over)

    def test_by_force(self):
        """A process that doesn't end is killed a second later."""
        self.opened()
        self.opened((24, 80))
        self.stubborn = {2000, 2001}
        self.windows.shut(2)
        self.now += ENDS / 2
        self.turns(2)
        self.assertEqual(self.windows.windows[2].stage, ENDING)
        self.now += ENDS / 2
        self.turns(3)
        self.assertIn((2000, signal.SIGKILL), self.killed)
        self.assertIn((2001, signal.SIGKILL), self.killed)
        self.assertNotIn(2, self.windows.windows)

    def test_last_command(self):
        """The end of a window's last command is the window's, and the last window's end the session's."""
        self.opened()
        self.opened((24, 80))
        one = self.asker(1)
        read_now(one)
        for number, process in ((2, 72), (1, 71)):
            pane = self.windows.windows[number].host.panes[1]
            pane.close_terminal()
            pane.ends()
            self.turns()
            self.alive.clear() if number == 1 else self.alive.discard(2001)
            self.turns(4)
            self.assertEqual(number in self.windows.windows, False, process)
        self.assertTrue(self.common.is_over)
        self.assertEqual((self.folder / "ended").read_text(encoding="ascii"), "2000 1\n1000 1\n")

    def test_server_gone(self):
        """A server's end is its window's, and isn't recorded as intended."""
        self.opened()
        self.opened((24, 80))
        one = self.asker(1)
        read_now(one)
        self.patch_of(host_window, "is_running", lambda process, moment: process in self.alive)
        self.alive -= {2000, 2001}
        self.servers[2].close()
        self.turns(4)
        self.assertEqual((read_now(one), sorted(self.windows.windows)), (b"gone 2\n", [1]))
        self.assertFalse((self.folder / "ended").exists())
        self.assertIn("window 2: its server was killed, or has failed\n", self.said.getvalue())

    def test_all(self):
        """A request to end the host ends all windows, and removes their folders."""
        self.opened()
        self.opened((24, 80))
        self.common.is_over = True
        turn = self.common.loop.turn

        def passed():
            self.now += 0.01
            turn()

        self.patch_of(self.common.loop, "turn", passed)
        self.assertEqual(self.windows.run(), 0)
        self.assertEqual((self.windows.windows, self.alive, (self.folder / "w").exists()), ({}, set(), False))


class TakenOver(Played):
    """The windows of an earlier host."""

    def test_taken_over(self):
        """Windows whose servers run are adopted, by name, with new shells; the rest of others is removed."""
        for number in (2, 5, 7):
            os.makedirs(self.path(number, ""), 0o700)
            processes = WindowProcesses(str(self.folder), WindowState(number=number))
            processes.noted.update({SERVER: (1000 * number, 1), CLIENT: (1000 * number + 1, 1)})
            processes.note()
        self.path(5, "name").write_text("6162\n", encoding="ascii")
        self.alive |= {5000, 7001}
        self.windows.take_over()
        numbers = numbers_in(str(self.folder / "w"))
        self.assertEqual((sorted(self.windows.windows), numbers, self.killed), ([5], [5], [(7001, signal.SIGKILL)]))
        for name in ("panes", "p1"):
            self.servers[name] = self.listening(self.path(5, name))
        self.turns(2)
        self.now += 1
        self.turns(2)
        self.assertEqual((self.windows.named(), self.spawned), ({5: "ab"}, []))
        server = self.taken(self.servers["panes"])
        server.send(b"1 1 1 23 80 4\nfocus 1\nclients 1 of 64\n")
        self.turns(2)
        self.assertEqual(self.made, [])
        self.now += 0.5
        self.turns(2)
        self.assertEqual(len(self.made), 1)

    def test_unnoted(self):
        """If the note is lost the listener at the socket identifies the process."""
        os.makedirs(self.path(3, ""), 0o700)
        self.path(3, "state.json").write_text("[", encoding="ascii")
        self.listening(self.path(3, "clients"))
        processes = WindowProcesses(str(self.folder), WindowState(number=3))
        processes.find()
        self.assertEqual(processes.noted, {SERVER: (os.getpid(), begun(os.getpid()))})

    def test_state(self):
        """An adopted window is open at once, even without a client here."""
        self.assertEqual((windows.OPENING, THERE, ENDING), ("opening", "there", "ending"))


class Noted(Case):
    """The notes about windows."""

    def test_ends(self):
        """The last 128 intended ends are recorded, each once; an error there is silent."""
        folder = self.made_folder()
        note_ends(str(folder), [])
        self.assertEqual(os.listdir(folder), [])
        (folder / "ended").write_text("".join(f"{number} 1\n" for number in range(199)), encoding="ascii")
        note_ends(str(folder), ["199 1"])
        note_ends(str(folder), ["100 1", "199 1"])
        lines = (folder / "ended").read_text(encoding="ascii").splitlines()
        self.assertEqual((len(lines), lines[0], lines[-3:]), (128, "72 1", ["198 1", "100 1", "199 1"]))
        note_ends(str(folder / "none"), ["1 1"])

    def test_ends_at_once(self):
        """Two processes that record ends at the same moment both do."""
        folder = self.made_folder()
        notes = ("import sys; from roam_live.common.process import note_ends; print('ready', flush=True); sys.stdin.readline(); "
                 "note_ends(sys.argv[1], ['2 1']); print('done', flush=True)")
        with subprocess.Popen([sys.executable, "-c", notes, str(folder)], cwd=common_process.TOOLS, text=True,
                              stdin=subprocess.PIPE, stdout=subprocess.PIPE) as other:
            replaces = files.replace_text

            def replace(path, text):
                other.stdin.write("now\n")
                other.stdin.flush()
                # Without turns the other one has added its line by then.
                select.select([other.stdout], [], [], 0.2)
                replaces(path, text)

            self.assertEqual(other.stdout.readline(), "ready\n")
            with mock.patch.object(files, "replace_text", replace):
                note_ends(str(folder), ["1 1"])
            self.assertEqual(other.stdout.readline(), "done\n")
        self.assertEqual((folder / "ended").read_text(encoding="ascii"), "1 1\n2 1\n")

    def test_spawned(self):
        """A process records itself before it executes its words, has a session of its own, and no pane's name."""
        folder = self.made_folder()
        self.environment(ROAM_PANE="/x:1")
        processes = WindowProcesses(str(folder), WindowState(number=4))
        processes.make_folder()
        told = folder / "told"
        does = f"echo $ROAM_PANE. > {told}.new; mv {told}.new {told}; cat {processes.path('state.json')} > {told}; exec sleep 60"
        process = processes.spawn(SERVER, ["/bin/sh", "-c", does])
        self.addCleanup(os.waitpid, process, 0)
        self.addCleanup(os.kill, process, signal.SIGKILL)
        while not told.exists() or b"}" not in told.read_bytes():
            pass
        self.assertEqual(((noted_in(processes.path("state.json")) or {})[SERVER], os.getsid(process)), ([process, begun(process)], process))
        self.assertTrue(processes.runs(SERVER))
        self.assertFalse(is_spare_server(process))

    def test_stands_ready(self):
        """A spare server is known by its environment too, which no other process inherits."""
        self.environment(ROAM_SPARE="1")
        processes = WindowProcesses(str(self.made_folder()), WindowState(number=4))
        processes.make_folder()
        for is_spare in (False, True):
            if is_spare:
                processes.mark_spare(True)
            told = self.made_folder() / "told"
            process = processes.spawn(SERVER, ["/bin/sh", "-c", f"echo > {told}; while :; do sleep 1; done"])
            self.addCleanup(os.waitpid, process, 0)
            self.addCleanup(os.kill, process, signal.SIGKILL)
            while not told.exists():
                pass
            self.assertEqual(is_spare_server(process), is_spare)
        self.assertFalse(is_spare_server(None))

    def test_ended_at_once(self):
        """A process that is ended before it executes its words does end, and the host's own signals do not report it."""
        reader, writer = self.pipe()
        before = signal.signal(signal.SIGTERM, lambda number, frame: None), signal.set_wakeup_fd(writer, warn_on_full_buffer=False)
        self.addCleanup(lambda: (signal.set_wakeup_fd(before[1]), signal.signal(signal.SIGTERM, before[0])))
        processes = WindowProcesses(str(self.made_folder()), WindowState(number=4))
        self.patch_of(processes, "become", lambda role, words: (signal.pause(), os._exit(0)))
        process = processes.spawn(SERVER, [])
        os.kill(process, signal.SIGTERM)
        self.assertEqual((os.waitpid(process, 0)[1], read_now(reader)), (signal.SIGTERM, b""))


class Mended(Played):
    """Files that a cleaner of old files removed are restored."""

    def setUp(self):
        super().setUp()
        self.opened()
        self.opened((24, 80))
        self.windows.rename(2, "two")
        self.windows.came(2)
        self.one = self.asker(1)
        read_now(self.one)

    def clean(self, everything=False):
        """Remove the sockets, or the whole folder with its contents."""
        if everything:
            shutil.rmtree(self.folder)
        else:
            for path in [path for path in self.folder.rglob("*") if path.is_socket()]:
                path.unlink()

    def minutes(self, count=1):
        """Let so many minutes pass."""
        for _ in range(count):
            self.now += 60
            self.turns(3)

    def names(self):
        """Return the processes found at the sockets of the windows."""
        return [self.said_by(self.asker(number, b""), b"windows\n") for number in (1, 2)]

    def test_sockets(self):
        """The sockets are back a minute later; connected peers stay."""
        told = b"window 1 -\nwindow 2 74776f\nwindows 2\n"
        self.clean()
        self.minutes()
        self.assertEqual(self.names(), [told] * 2)
        self.assertEqual(self.said_by(self.one, b"windows\n"), told)
        self.assertIn(host_window.MENDED, self.said.getvalue())
        before = self.common.socket.listener.made
        self.minutes(3)
        self.assertEqual(self.common.socket.listener.made, before)
        self.assertEqual((self.said.getvalue().count(host_window.MENDED), self.common.faults.count), (1, 0))

    def test_folder(self):
        """So is the folder, with the notes of its processes, and each window's id, by which its server knows the folder."""
        self.path(1, "session").write_text("123456789abcdef\n")
        self.minutes()
        self.clean(True)
        self.minutes()
        self.assertEqual(self.path(1, "session").read_text(), "123456789abcdef\n")
        self.assertEqual(self.names(), [b"window 1 -\nwindow 2 74776f\nwindows 2\n"] * 2)
        state = json.loads((self.folder / "state.json").read_text())
        self.assertEqual((state["host"][0], state["command"]), (os.getpid(), ["sh"]))
        self.assertEqual(json.loads((self.folder / "w/2/state.json").read_text())["server"][0], 2000)
        self.assertEqual(((self.folder / "w/2/name").read_text(), (self.folder / "w/last").read_text()), ("74776f\n", "2\n"))
        self.assertEqual((self.folder.stat().st_mode & 0o777, self.windows.lasting.own is not None), (0o700, True))
        self.windows.windows[1].host.lasting.demand()

    def test_server(self):
        """A server whose own socket was removed has to take two turns a minute, in which it restores that; otherwise it gets no request."""
        for number in (1, 2):
            self.path(number, "clients").touch()
        self.minutes()
        self.path(2, "clients").unlink()
        for number, asked in ((1, []), (2, ["alive", "alive"])):
            read_now(self.servers[number])
            self.minutes()
            self.now += 1
            self.turns(2)
            self.assertEqual(read_now(self.servers[number]).decode().split(), asked)
        self.servers[2].send(b"bad line\nbad line\n")
        self.turns(3)
        self.assertEqual((set(self.windows.windows), self.common.faults.count), ({1, 2}, 0))

    def test_locked(self):
        """While another process has the lock nothing is done."""
        self.clean()
        lock = os.open(self.folder / "lock", os.O_RDWR | os.O_CREAT)
        fcntl.flock(lock, fcntl.LOCK_EX)
        self.minutes()
        self.assertFalse(self.path(1, "host").exists())
        os.close(lock)
        self.minutes()
        self.assertEqual(len(self.names()), 2)

    def test_taken(self):
        """Another session with the name is left alone, and a message names the command that ends it; then everything is restored."""
        person = self.asker(2, b"here a:/dev/pts/1 24 80 read-write\n")
        self.clean(True)
        self.folder.mkdir(0o700)
        state = {"version": 4, "command": [], "host": [1, common_process.begun(1)]}
        self.alive.add(1)
        with mock.patch("roam_live.session.processes.is_running", lambda process, moment: process == 1):
            (self.folder / "state.json").write_text(json.dumps(state))
            self.minutes(3)
        self.assertEqual(sorted(path.name for path in self.folder.iterdir()), ["lock", "state.json"])
        words = host_window.UNMENDED.format(repair.TAKEN.format(self.folder.name))
        self.assertEqual(self.said.getvalue().count(words), 1)
        self.assertIn(f"say {words}\n".encode(), read_now(person))
        shutil.rmtree(self.folder)
        self.minutes()
        self.assertEqual(self.names(), [b"window 1 -\nwindow 2 74776f\nwindows 2\n"] * 2)

    def test_busy(self):
        """A listener that accepts nothing stops the host's loop for no moment."""
        self.clean()
        busy = self.listening(self.folder / "host")
        filled = []
        with contextlib.suppress(BlockingIOError):
            while True:
                filled.append(connected_now(self.folder / "host"))
        self.addCleanup(lambda: [one.close() for one in filled])
        self.patch("time.sleep", side_effect=AssertionError)
        self.patch_of(self.common.socket, "is_found", return_value=False)
        self.minutes(2)
        self.assertEqual(self.said.getvalue().count("accepts no connection"), 1)
        self.assertIsNotNone(busy)

    def test_refused(self):
        """A failure to restore them is reported once, and retried."""
        self.clean()
        with mock.patch("roam_live.common.unix_socket.listening", side_effect=OSError(28, "No space left on device")):
            self.minutes(3)
        self.assertEqual(self.said.getvalue().count(host_window.UNMENDED.format("No space left on device")), 1)
        self.minutes()
        self.assertEqual(len(self.names()), 2)

    def test_removed(self):
        """Nor if the files of roam were removed; all continues, and they are restored once those are back."""
        self.clean()
        with mock.patch.dict(sys.modules, {"roam_live.session.local": None}):
            self.minutes(3)
        self.assertEqual(self.said.getvalue().count("the session's socket was removed and cannot be restored: import of "), 1)
        self.minutes()
        self.assertEqual(len(self.names()), 2)
