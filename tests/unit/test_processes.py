"""The state of a session from its folder, its processes, and the input and output of commands."""
import json
import os
import pathlib
import signal
import socket
import subprocess
import sys
import unittest
from unittest import mock

from aids import Case, comes, line_of, read_now, record
from roam_live.cli import capture, send
from roam_live.cli.args import WordParser
from roam_live.common.errors import Fault
from roam_live.common.event_loop import READ, WRITE
from roam_live.common.process import begun
from roam_live.host import common, windows
from roam_live.protocol import datagram_stream
from roam_live.protocol.client_link import ClientLink
from roam_live.protocol.datagram_stream import LONGEST, SHORTEST, Carrier
from roam_live.protocol.panes import Places, Rect
from roam_live.protocol.server_address import Home
from roam_live.relay.frames import greeting, read_greeting
from roam_live.session import local, lookup, names as session_names, port_session, processes, remote, roles
from roam_live.session.folder import SessionFolder
from roam_live.session.local import Window
from roam_live.session.names import WINDOWS_VERSION
from roam_live.session.port_session import PortSession
from roam_live.session.processes import Processes, is_note
from roam_live.session.remote import RemoteSession

OWN = [os.getpid(), begun(os.getpid())]


class Based(Case):
    """A folder of sessions, with a stopped clock."""

    def setUp(self):
        self.base = self.made_folder() / "roam"
        self.base.mkdir(mode=0o700)
        for module in (local, lookup):
            self.patch_of(module, "base", lambda: self.base)
        self.folder = self.base / "main"
        self.folder.mkdir()
        self.said = self.heard()

    def note(self, **noted):
        """Write a note."""
        (self.folder / "state.json").write_text(json.dumps({"version": WINDOWS_VERSION, "command": [], **noted}), encoding="utf-8")

    def session(self):
        """Return the session."""
        return Window(self.base / "main")


class Read(Based):
    """Notes, complete and not."""

    def test_cut(self):
        """An incomplete note is none, wherever it is cut."""
        self.note(server=OWN, host=[1, None])
        whole = (self.folder / "state.json").read_bytes()
        self.assertEqual(self.session().process("server"), os.getpid())
        for cut in range(len(whole)):
            (self.folder / "state.json").write_bytes(whole[:cut])
            self.assertIsNone(self.session().state, cut)
            self.assertIsNone(self.session().process("server"))

    def test_notes(self):
        """A note has two numbers for a process, and its start time may be unknown."""
        for state, is_one in (({}, True), ({"server": [1, 2]}, True), ({"host": [1, None]}, True), ({"relay": [1.0, 2]}, False),
                              ({"server": [True, 2]}, False), ({"server": [1, "2"]}, False), ({"client": [1]}, False),
                              ({"server": [1, 2, 3]}, False), ({"x": 1}, True), ([], False), (None, False), ({"server": {}}, False)):
            self.assertEqual(is_note(state), is_one, state)

    def test_deep(self):
        """An endlessly nested note is invalid, and fails alone."""
        for text in ("[" * 100_000, '{"server": ' * 100_000):
            (self.folder / "state.json").write_text(text, encoding="utf-8")
            self.assertIsNone(self.session().state)

    def test_runs(self):
        """A process runs if it began at the recorded moment."""
        self.note(server=[OWN[0], OWN[1] + 1], host=OWN)
        session = self.session()
        self.assertEqual((session.process("server"), session.process("host"), session.process("client")), (None, os.getpid(), None))
        self.assertEqual((session.runs(), session.runs("host"), session.met), (False, True, None))
        self.note(server=OWN)
        session.read()
        self.assertTrue(session.runs())
        self.assertEqual(session.met, tuple(OWN))

    def test_missing(self):
        """Each missing file, or folder in its place, means unknown."""
        session = self.session()
        self.assertEqual((session.id(), session.places(), session.ended(), session.logged(), session.said(0)), ("", None, "", 0, ""))
        for name in ("session", "panes", "ended", "state.json"):
            (self.folder / name).mkdir()
        session = self.session()
        self.assertEqual((session.id(), session.places(), session.ended(), session.state), ("", None, "", None))

    def test_known(self):
        (self.folder / "session").write_text("5e55\n", encoding="utf-8")
        session = self.session()
        self.assertEqual((session.id(), str(session)), ("5e55", f"in {self.folder}"))
        (self.folder / "ended").write_bytes(b"\xff")
        self.assertEqual(session.ended(), "")

    def test_busy(self):
        """The programs are known from the pty host."""
        busy = self.patch("roam_live.session.foreground.busy_panes", return_value={1: "vi"})
        self.note(server=OWN, host=OWN)
        self.assertEqual(self.session().busy(), {1: "vi"})
        busy.assert_called_once_with(str(self.folder))
        self.assertIsNone(RemoteSession(self.base / "ssh:a:b").busy())

    def test_busy_unknown(self):
        """Without a known pty host it is unknown too."""
        self.assertIsNone(Window(self.folder, server=os.getpid()).busy())

    def test_busy_half(self):
        """A client killed before its shells began has no programs."""
        self.note(server=OWN)
        self.assertEqual(self.session().busy(), {})

    def test_line(self):
        """A line of `ls`: name, rows and columns, panes, terminals, and the clients from 33 on, with a warning from 48 on."""
        self.note(server=OWN, host=OWN)
        session = self.session()
        self.assertEqual(line_of(session).split(), ["main", "-", "?", "panes", "0", "terminals"])
        one, two = Places({1: Rect(1, 1, 23, 80)}, 1, 32), Places({1: Rect(1, 1, 23, 39), 2: Rect(1, 41, 23, 40)}, 1, 33)
        for places, told in ((one, "main         23 by 80     1 pane   0 terminals"),
                             (two, "main         23 by 80     2 panes  0 terminals, 33 of 64 clients"),
                             (one._replace(clients=47), "main         23 by 80     1 pane   0 terminals, 47 of 64 clients"),
                             (one._replace(clients=48),
                              "main         23 by 80     1 pane   0 terminals, 48 of 64 clients, "
                                                       "only this machine gets new ones"),
                             (one._replace(clients=64), "main         23 by 80     1 pane   0 terminals, 64 of 64 clients, "
                                                       "no more are accepted")):
            self.assertEqual(line_of(session, places), told)
        self.assertIn(" 1 terminal,", line_of(session, one._replace(clients=64), 1))
        self.assertTrue(line_of(session, one, None).endswith("1 pane   ? terminals, its pty host does not answer"))

    def test_lacking(self):
        """A line of `ls` shows a missing or stopped pty host, but not for a remote session, nor if one answers that isn't noted."""
        self.note(server=OWN)
        self.assertTrue(line_of(self.session(), None, None).endswith(" ? terminals, its pty host is not running"))
        self.assertTrue(line_of(self.session()).endswith(" 0 terminals"))
        host = self.process()
        self.note(server=OWN, host=[host.pid, begun(host.pid)])
        self.assertTrue(line_of(self.session()).endswith(" 0 terminals"))
        host.send_signal(signal.SIGSTOP)
        os.waitid(os.P_PID, host.pid, os.WSTOPPED | os.WNOWAIT)
        self.assertTrue(line_of(self.session(), None, None).endswith(" ? terminals, the pty host is stopped"))
        self.assertEqual(RemoteSession(self.base / "ssh:a:b").lacking(False), "")

    def test_far_met(self):
        """A window of a remote session has met its relay if the session has."""
        whole = RemoteSession(self.base / "ssh:a:b")
        window = RemoteSession(self.base / "ssh:a:b/w/1", "ssh:a:b:1", whole, 1)
        self.assertEqual((whole.has_met(), window.has_met()), (False, False))
        whole.met = OWN[0], OWN[1]
        self.assertEqual((whole.has_met(), window.has_met()), (True, True))

    def test_command_found(self):
        """One with a lost note is found by its sockets."""
        session = self.session()
        self.patch_of(SessionFolder, "listener", lambda _, name: {"clients": OWN[0], "host": OWN[0]}.get(name))
        self.assertTrue(session.find())
        self.assertEqual(session.state, {"version": WINDOWS_VERSION, "server": OWN, "host": OWN})
        session.note_found()
        self.assertEqual(json.loads((self.folder / "state.json").read_text(encoding="utf-8")), session.state)

    def test_holder_beside(self):
        """The holder of a host that was found by its command may be its child; a process of another command is none."""
        for word, is_holder in (("/a/holder", True), ("/a/other", False)):
            one = subprocess.Popen([sys.executable, "-c", "import time; time.sleep(60)", word])
            self.addCleanup(one.wait)
            self.addCleanup(one.kill)
            words = pathlib.Path(f"/proc/{one.pid}/cmdline")
            self.assertTrue(comes(lambda words=words, word=word: word.encode() in words.read_bytes()))
            self.assertEqual(local.holder_beside(os.getpid()), one.pid if is_holder else None)
            one.kill()
            one.wait()

    def test_names(self):
        for name, is_one in (("main", True), ("a-b_9", True), ("x" * 32, True), ("x" * 33, False), ("", False), ("a.b", False),
                             ("\u00e9", False)):
            if is_one:
                session_names.check_name(name)
            else:
                with self.assertRaisesRegex(Fault, "is not a valid name: use at most 32 letters, digits, - and _$"):
                    session_names.check_name(name)
        with self.assertRaisesRegex(Fault, "is too long for a socket's path$"):
            Window(self.base / ("x" * (108 - len(str(self.base)) - len("//terminals"))))
        Window(self.base / ("x" * (107 - len(str(self.base)) - len("//terminals"))))


class Bases(Case):
    """The place of sessions: XDG_RUNTIME_DIR or /tmp, in a folder that only the user may enter."""

    def setUp(self):
        self.folder, self.said = self.made_folder(), self.heard()
        self.patch_of(session_names, "TMP", str(self.folder))
        self.patch_of(session_names, "bases", [])

    def test_runtime(self):
        self.environment(XDG_RUNTIME_DIR=str(self.folder))
        self.assertEqual(session_names.base(), str(self.folder / "roam"))
        self.assertEqual((self.folder / "roam").stat().st_mode & 0o777, 0o700)

    def test_tmp(self):
        self.environment(XDG_RUNTIME_DIR=None)
        self.assertEqual(session_names.base(), str(self.folder / f"roam-{os.getuid()}"))
        self.assertEqual(self.said.getvalue(), "")

    def test_not_own(self):
        """One of another user is reported and not used."""
        self.environment(XDG_RUNTIME_DIR=str(self.folder / "none"))
        self.assertEqual(session_names.base().name, f"roam-{os.getuid()}")
        self.assertIn("none, which is not a directory of yours; using /tmp instead\n", self.said.getvalue())

    def test_written(self):
        """A folder that others may write is refused."""
        self.environment(XDG_RUNTIME_DIR=str(self.folder))
        for mode in (0o777, 0o1777, 0o770, 0o702):
            self.folder.chmod(mode)
            session_names.bases.clear()
            with self.assertRaisesRegex(Fault, "^other users may write to XDG_RUNTIME_DIR, /"):
                session_names.base()
        self.folder.chmod(0o755)
        self.assertEqual(session_names.base(), str(self.folder / "roam"))

    def test_open(self):
        """A folder that others may enter, a link and a file are refused with a line that names the requirement."""
        self.environment(XDG_RUNTIME_DIR=None)
        there = self.folder / f"roam-{os.getuid()}"
        for made in (lambda: (there.mkdir(), there.chmod(0o750)), lambda: there.symlink_to(self.folder), lambda: there.touch(),
                     lambda: os.mkfifo(there), lambda: self.listening(there), lambda: there.symlink_to(self.folder / "none")):
            session_names.bases.clear()
            made()
            with self.assertRaisesRegex(Fault, "must be a directory of yours that nobody else may enter$"):
                session_names.base()
            there.rmdir() if there.is_dir() and not there.is_symlink() else there.unlink()
        with mock.patch("os.getuid", return_value=os.getuid() + 1):
            (self.folder / f"roam-{os.getuid()}").mkdir(mode=0o700)
            with self.assertRaisesRegex(Fault, "must be a directory of yours"):
                session_names.base()


class Starts(Based):
    """The processes that a session starts, with words that don't run here."""

    def setUp(self):
        super().setUp()
        self.patch_of(roles, "program", return_value="/roam")
        self.patch_of(SessionFolder, "spawned", lambda session, role, words, *_, **__: self.spawn(session, role, words))
        self.patch_of(SessionFolder, "wait_for", lambda session, role, before, test: self.waits.append((role, before, test)))
        self.words, self.waits = [], []

    def spawn(self, session, role, words):
        """Record the started process."""
        self.words.append((role, words))
        session.state[role] = OWN
        return mock.Mock()

    def test_by_hand(self):
        """For a window whose server was started by hand neither a server nor a pty host is started."""
        session = self.session()
        with self.assertRaisesRegex(Fault, "^session main: only its pty host opens windows$"):
            session.launch(["vi"])
        session.demand_host()
        self.assertEqual((session.revive_host(), self.words), (False, []))

    def test_words(self):
        """The words of each role's process, and its socket."""
        self.assertEqual(roles.server_words("d"), ["/roam", "serve", "--normalize", "--dir", "d"])
        self.assertEqual(roles.client_words("d"), ["/roam", "attach", "--dir", "d", "--terminals", "d/terminals"])
        tools = str(roles.TOOLS)
        self.assertEqual(roles.host_words("d", ["vi"], ["--first"]), [f"{tools}/pane_shells", "--windows", "--first", "d", "vi"])
        self.assertEqual(roles.relay_words("d", "l", 5, "h", ["ssh"]),
                         [f"{tools}/relay", "--alone", "5", "--log", "l", "--host=h", "--dir", "d", "-", "ssh"])
        self.assertEqual({name: role.socket for name, role in roles.ROLES.items()},
                         {"server": "clients", "client": "terminals", "host": "host", "holder": "", "relay": "clients", "rows": ""})

    def test_terminals(self):
        """The client process is started if it is missing, and awaited."""
        session = self.session()
        (self.folder / "terminals").touch()
        session.demand_client()
        words = ["/roam", "attach", "--dir", str(self.folder), "--terminals", str(self.folder / "terminals")]
        self.assertEqual(self.words, [("client", words)])
        self.assertFalse((self.folder / "terminals").exists())
        self.assertEqual((self.waits[0][0], self.waits[0][2]()), ("client", False))
        self.listening(self.folder / "terminals")
        self.assertTrue(self.waits[0][2]() and session.has_client())
        session.demand_client()
        session.revive()
        self.assertEqual(len(self.words), 1)

    def test_full(self):
        """A server that has had its 64 clients accepts no other, which is reported."""
        self.patch_of(SessionFolder, "places", lambda _, seconds: Places({1: Rect(1, 1, 23, 80)}, 1, 64, 0))
        told = ("session main has used its 64 clients and accepts no more; its programs keep running, and `mux kill main` "
                "ends it")
        with self.assertRaises(Fault) as fault:
            self.session().demand_client()
        self.assertEqual(str(fault.exception), told)

    def test_revived(self):
        """Nobody waits for another process that starts it just now."""
        session = self.session()
        lock = session.taken_lock(True)
        session.revive()
        self.assertFalse(session.revive_host())
        os.close(lock)
        self.assertEqual(self.words, [])
        session.revive()
        self.assertEqual([role for role, _ in self.words], ["client"])

    def test_near(self):
        """The ssh command of a remote session's local end is unknown; its shells are left to that machine."""
        near = RemoteSession(self.base / "ssh:a:main", "main")
        with self.assertRaisesRegex(Fault, "^no relay to main is running; `mux ssh` starts one$"):
            near.launch()
        near.demand_host()
        near.close()
        self.assertEqual(self.words, [])


class Spawned(Based):
    """Processes that are really started."""

    def setUp(self):
        super().setUp()
        self.session_here = self.session()
        self.session_here.state = {"version": WINDOWS_VERSION}

    def test_noted(self):
        """A process records itself, detaches from the terminal, and logs its output."""
        process = self.session_here.spawned("server", ["sh", "-c", "echo said; echo more >&2; exec sleep 60"])
        self.addCleanup(process.wait)
        self.addCleanup(process.kill)
        noted = json.loads((self.folder / "state.json").read_text(encoding="utf-8"))["server"]
        self.assertEqual((noted, self.session_here.state["server"]), ([process.pid, begun(process.pid)],) * 2)
        self.assertEqual(os.getsid(process.pid), process.pid)
        while self.session_here.logged() < 10:
            os.sched_yield()
        self.assertEqual((self.session_here.said(0), self.session_here.said(5)), ("said; more", "more"))

    def test_waited(self):
        """A process that isn't ready in ten seconds is ended, with a message."""
        process = self.session_here.spawned("server", ["sleep", "60"])
        self.stop_clock()
        self.session_here.wait_for("server", 0, lambda: True)
        with self.assertRaisesRegex(Fault, "^session main: the server did not start: no message; see .*/main/log$"):
            self.session_here.wait_for("server", 0, lambda: False)
        self.assertTrue(110.0 <= self.now < 110.1)
        self.assertEqual(process.returncode, -9)

    def test_said(self):
        """The message has 500 letters of its output."""
        (self.folder / "log").write_bytes(b"before\n" + b"x" * 2000 + b"\n")
        self.assertEqual(self.session_here.said(7), "x" * 500)

    def test_ended(self):
        """SIGTERM ends a process, and SIGKILL one that doesn't end in three seconds, which is more than a host needs."""
        self.assertGreater(processes.END_WAIT, windows.ALL_END + common.LOGS_END)
        self.stop_clock()
        kills, left = self.patch("os.kill"), [7, 7, 7]
        self.patch_of(Processes, "process", lambda session, role: left[0] if left else None)
        kills.side_effect = lambda process, number: left.clear() if number == signal.SIGKILL else None
        self.session_here.end("server")
        # A stopped one is continued, so that it ends.
        self.assertEqual(kills.call_args_list, [mock.call(7, number) for number in (signal.SIGTERM, signal.SIGCONT, signal.SIGKILL,
                                                                                    signal.SIGCONT)])
        self.assertTrue(103.0 <= self.now < 103.1)
        kills.reset_mock()
        self.session_here.end("server")
        kills.assert_not_called()
        left[:] = [8]
        kills.side_effect = ProcessLookupError(3, "none")
        self.session_here.end("server")

    def test_stopped(self):
        """A stopped one ends as soon as another."""
        process = self.process()
        self.session_here.state = {"server": [process.pid, begun(process.pid)]}
        process.send_signal(signal.SIGSTOP)
        os.waitid(os.P_PID, process.pid, os.WSTOPPED | os.WNOWAIT)
        self.session_here.end("server")
        self.assertEqual(-process.wait(), signal.SIGTERM)

    def test_scrollback_processes(self):
        """Stopped scrollback processes of the pty host are ended with it, but no other of its children."""
        self.patch_of(processes, "LEFT_WAIT", 0.05)
        one, other = self.process(), self.process()
        self.patch_of(processes, "children_of", return_value=[one.pid, other.pid])
        self.patch_of(processes, "is_scrollback_process", side_effect=lambda process: process == one.pid)
        self.session_here.state = {"host": OWN}
        self.assertEqual(self.session_here.scrollback_processes(), [(one.pid, begun(one.pid))])
        one.send_signal(signal.SIGSTOP)
        os.waitid(os.P_PID, one.pid, os.WSTOPPED | os.WNOWAIT)
        processes.end_left(self.session_here.scrollback_processes())
        self.assertEqual((-one.wait(), other.poll()), (signal.SIGTERM, None))

    def test_is_scrollback_process(self):
        """A scrollback process is known by its arguments."""
        texts = {"5": b"/x/roam\0rows\0--normalize\0", "6": b"/x/roam\0serve\0rows\0", "7": b"vi\0rows\0", "8": b""}
        self.patch_of(processes, "FilePath", side_effect=lambda path: mock.Mock(read_bytes=lambda: texts[path.split("/")[2]]))
        self.assertEqual([processes.is_scrollback_process(int(number)) for number in texts], [True, False, False, False])

    def test_lock(self):
        """A wait for another process of more than half a second is reported."""
        self.stop_clock()
        locks = self.patch_of(processes.fcntl, "flock", side_effect=self.lock_taken)
        lock = self.session_here.taken_lock(True)
        self.addCleanup(os.close, lock)
        self.assertIn(f"waiting for another process that starts parts of {self.folder}\n", self.said.getvalue())
        self.assertTrue(100.5 < self.now < 100.6)
        self.assertEqual(locks.call_args_list[0][0][1], processes.fcntl.LOCK_EX | processes.fcntl.LOCK_NB)
        self.assertEqual(locks.call_args[0], (lock, processes.fcntl.LOCK_EX))
        with self.assertRaises(BlockingIOError):
            self.session_here.taken_lock(False)

    @staticmethod
    def lock_taken(_, how):
        """Simulate a lock of another process, for a call that doesn't wait."""
        if how & processes.fcntl.LOCK_NB:
            raise BlockingIOError(11, "taken")

    def test_forgotten(self):
        """The folder is removed if its log is empty."""
        for name in ("log", "lock", "front_ends"):
            (self.folder / name).touch()
        self.session_here.forget()
        self.assertFalse(self.folder.exists())
        self.folder.mkdir()
        (self.folder / "log").write_bytes(b"x")
        self.session_here.forget()
        self.assertEqual([path.name for path in self.folder.iterdir()], ["log"])

    def test_cleaned(self):
        """The rest is removed, except for the log and the record of its end."""
        panes = [f"p{pane}" for pane in range(1, 10)]
        names = ["clients", "panes", "terminals", "host", *panes, "session", "session.new", "state.json"]
        for name in [*names, "log", "lock", "ended", "own", "p0", "p10"]:
            (self.folder / name).touch()
        (self.folder / "front_ends").touch()
        self.session_here.clean()
        self.assertEqual(sorted(path.name for path in self.folder.rglob("*")), ["ended", "front_ends", "lock", "log", "own", "p0", "p10"])

    def test_front(self):
        """A command that may ask is in the foreground of the terminal meanwhile; without a terminal there is no error."""
        opens, sets = self.patch("os.open", return_value=55), self.patch("os.tcsetpgrp")
        closes, handles = self.patch("os.close"), self.patch("_signal.signal", return_value="before")
        remote.take_front(9)
        self.assertEqual((opens.call_args[0][0], sets.call_args[0], closes.call_args[0]), ("/dev/tty", (55, 9), (55,)))
        self.assertEqual(handles.call_args_list, [mock.call(signal.SIGTTOU, signal.SIG_IGN), mock.call(signal.SIGTTOU, "before")])
        opens.side_effect = OSError(6, "No such device or address")
        remote.take_front(9)
        self.patch("os.getpgrp", return_value=3)
        with mock.patch("os.setpgid") as parts, mock.patch.object(remote, "take_front") as takes:
            remote.in_front()
        self.assertEqual((parts.call_args[0], takes.call_args[0]), ((0, 0), (3,)))
        self.assertIn(mock.call(signal.SIGTSTP, signal.SIG_IGN), handles.call_args_list)

    def test_relay(self):
        """A relay that answers stays; its words name the log, and the time after which it ends alone."""
        near = RemoteSession(self.base / "ssh:there:main", "main")
        near.folder.mkdir()
        (self.base / "ssh:there:main/ended").touch()
        with mock.patch.object(remote, "take_front") as takes, mock.patch.object(RemoteSession, "spawned") as spawns:
            spawns.return_value.stdout.readline.return_value = b"port - session abc\n"
            self.assertEqual(near.launch_relay(["ssh", "there"]), 0)
        words = [str(roles.TOOLS / "relay"), "--alone", "3600", "--log", str(near.log), "--dir", str(near.folder), "-", "ssh", "there"]
        self.assertEqual(spawns.call_args, mock.call("relay", words, remote.in_front, is_heard=True))
        takes.assert_called_once_with(os.getpgrp())
        self.assertFalse((near.folder / "ended").exists())


class Ports(Case):
    """A session at a port."""

    def setUp(self):
        self.session = PortSession(Home(port=9, session="5e55"), None)
        self.addCleanup(self.session.close)

    def test_known(self):
        """Little is known of it, and pane positions only if a folder has their socket."""
        self.session.read()
        self.assertIsNone(self.session.busy())
        self.assertEqual(str(self.session), "at port 9")
        self.assertEqual((self.session.process("server"), self.session.process("host"), self.session.runs()), (None, None, False))
        self.assertEqual(self.session.ending(), ("[the session has ended]", 0))
        folder = self.made_folder()
        other = PortSession(Home(port=9, session="5e55"), str(folder))
        self.addCleanup(other.close)
        self.assertEqual((other.folder, other.name), (str(folder), "at port 9"))

    def test_stopped(self):
        """A stopped client is killed, without an endless wait."""
        client = self.process()
        client.send_signal(signal.SIGSTOP)
        os.waitid(os.P_PID, client.pid, os.WSTOPPED | os.WNOWAIT)
        self.session.client = client
        self.patch_of(port_session, "END_WAIT", 0.05)
        self.session.close()
        self.assertEqual(client.returncode, -signal.SIGKILL)

    def test_revived(self):
        """Its client is started if it doesn't run, and ends with the server or the session."""
        started = self.patch_of(port_session.subprocess, "Popen", return_value=self.process())
        with mock.patch.object(Home, "attach_words", lambda _, more: ["roam", *more]):
            self.session.revive()
            self.session.revive()
        self.assertEqual((started.call_count, started.call_args[0][0]), (1, ["roam", "--terminals", str(self.session.terminals)]))
        self.assertEqual((self.session.process("client"), self.session.process("server")), (self.session.client.pid, None))
        with mock.patch.object(Home, "is_served", side_effect=[True, False]):
            self.assertTrue(self.session.is_served())
            self.assertTrue(self.session.runs("client"))
            self.assertFalse(self.session.is_served())
        self.assertEqual(self.session.client.wait(10), -15)
        self.assertFalse(self.session.runs("client"))
        own = pathlib.Path(self.session.own)
        self.assertTrue(own.is_dir())
        self.session.close()
        self.assertFalse(own.exists())


class Sends(Based):
    """Acts that a command types."""

    def setUp(self):
        super().setUp()
        self.stop_clock()
        self.opens = self.patch_of(send, "opened")
        self.link = self.opens.return_value = ClientLink(self.folder / "terminals", False)
        self.link.peer, self.client = self.pair()
        self.link.records.begun = True
        self.runs = self.patch_of(subprocess, "run", return_value=mock.Mock(returncode=0))
        self.patch("roam_live.protocol.server_address.program", return_value="/roam")
        self.answers, self.asked = [], []
        self.patch("roam_live.protocol.client_link.ready", self.ready)

    def ready(self, link, events, seconds):
        """Simulate a client during a wait: it takes input, and sends the next of its answers."""
        self.asked.append(seconds)
        if events & WRITE:
            return WRITE
        self.pass_time(seconds)
        answer = self.answers.pop(0) if self.answers else b""
        if answer is None:
            self.client.shutdown(socket.SHUT_WR)
        else:
            self.client.send(answer)
        return READ if answer is None or answer else 0

    def test_sent(self):
        """They are parsed by a client that takes no turn, and typed once all are possible; it ends once the session has taken all of them.
        """
        self.answers = [record("paint", data=b"x"), b"", record("taken", 1), record("taken", 2)]
        self.link.lines = 1
        self.assertEqual(send.send(self.session(), ["a", "Up"]), 0)
        words = ["/roam", "attach", "--dir", str(self.folder), "--keys", "/dev/stdin", "--turns", "0"]
        self.assertEqual((self.runs.call_args[0][0], self.runs.call_args[1]["input"]), (words, b"char 61\nkey up\n"))
        self.assertFalse(self.opens.call_args[0][1])
        self.assertEqual((read_now(self.client), self.answers, self.link.peer), (b"char 61 ; key up\n", [], None))

    def test_slow(self):
        """Ten seconds may pass between two acknowledgements."""
        self.link.lines, self.answers = 2, [b""] * 90 + [record("taken", 1)] + [b""] * 90 + [record("taken", 3)]
        self.assertEqual((send.send(self.session(), ["char 61"]), send.SEND_WAIT), (0, 10.0))

    def test_no_act(self):
        """An invalid act is named, and none is typed."""
        self.runs.return_value = mock.Mock(returncode=1, stderr=b"roam: line 2: what is this\nmore\n")
        with self.assertRaisesRegex(Fault, r"^'b\\\\nc' is neither an act of roam\(1\) nor a key; nothing was typed$"):
            send.send(self.session(), ["a", "b\nc"])
        self.runs.return_value.stderr = b"roam: no server\nx\n"
        with self.assertRaisesRegex(Fault, "^roam: no server$"):
            send.send(self.session(), ["a"])
        self.opens.assert_not_called()

    def test_not_done(self):
        """An impossible act is checked again for a second, since reports of earlier requests may be late."""
        told = [Places({1: Rect(1, 1, 23, 80)}, 1, 1)]
        self.patch_of(SessionFolder, "places", lambda _: told[0])
        with self.assertRaisesRegex(Fault, "^cannot do 'focus 2': there is no pane 2; nothing was typed$"):
            send.send(self.session(), ["focus 2"])
        self.assertTrue(101.0 < self.now <= 101.1)
        self.opens.assert_not_called()
        self.answers = [record("taken", 1)]
        self.patch("time.sleep", lambda _: told.insert(0, Places({1: Rect(1, 1, 9, 9), 2: Rect(1, 11, 9, 9)}, 1, 1)))
        self.assertEqual(send.send(self.session(), ["focus 2"]), 0)

    def test_refused(self):
        """The reason of an incomplete input is reported: a refused line, the client's end, a stall; not if the input ended the session."""
        refused, let_go = "the client process refused a line: out of memory", "this terminal was disconnected; the last keys may be lost"
        for answers, runs, told in (([record("refused", 1, words="out of memory"), None], True, refused), ([None], True, let_go),
                                    ([], True, ""), ([None], False, None)):
            self.link.peer, self.client = self.pair()
            self.link.forget()
            self.link.has_come = self.link.records.begun = True
            self.answers, session = answers, self.session()
            words = f"session main: {told}" if told else "session main accepts no more acts; some may have been typed"
            with mock.patch.object(SessionFolder, "runs", return_value=runs):
                if told is None:
                    self.assertEqual(send.send(session, ["char 61"]), 0)
                    continue
                with self.assertRaisesRegex(Fault, f"^{words}$"):
                    send.send(session, ["char 61"])
        self.opens.side_effect = Fault("at most 16 terminals may attach")
        with self.assertRaisesRegex(Fault, "^at most 16 terminals may attach$"):
            send.send(self.session(), ["char 61"])


class Captures(Based):
    """The rows of a session."""

    SCREEN = "3 6 1 1 visible\na\x1fb\x1f \x1f \x1fc\x1f \n \x1f \x1f \x1f \x1f \x1f \n \x1f\u4e2d\x1f\x1fx\x1f \x1f \n".encode()

    def setUp(self):
        super().setUp()
        self.stop_clock()
        self.opens = self.patch_of(capture, "opened")
        self.link = self.opens.return_value = ClientLink(self.folder / "terminals", True)
        self.link.peer, self.client = self.pair()
        self.link.has_come = self.link.records.begun = True

    def capture(self, told, is_drawn=False):
        """Run capture with a client that sends these records."""
        self.client.send(told)
        return capture.capture(self.session(), is_drawn)

    def test_printed(self):
        """They have no trailing spaces, and wide characters in their columns."""
        told = record("paint", data=b"x" * 100) + record("screen", data=self.SCREEN)
        with mock.patch("sys.stdout") as printed:
            self.assertEqual(self.capture(told), 0)
        printed.buffer.write.assert_called_once_with("ab  c\n\n \u4e2dx\n".encode())
        self.assertEqual((read_now(self.client), self.link.peer, self.opens.call_args[0][1]), (b"look\n", None, True))

    def test_decomposed(self):
        """All characters of a cell are printed, such as the parts of a Hangul syllable."""
        syllable = "\u1112\u1161\u11ab"
        with mock.patch("sys.stdout") as printed:
            self.capture(record("screen", data=f"1 4 1 1 visible\n{syllable}\x1f\x1fx\x1f \n".encode()))
        printed.buffer.write.assert_called_once_with(f"{syllable}x\n".encode())

    def test_drawn(self):
        with mock.patch.object(subprocess, "run", return_value=mock.Mock(returncode=3)) as runs:
            self.assertEqual(self.capture(record("screen", data=self.SCREEN), True), 3)
        self.assertEqual((runs.call_args[0][0], runs.call_args[1]["input"]), ([str(capture.TOOLS / "picture")], self.SCREEN))
        self.assertEqual(read_now(self.client), b"look sgr\n")

    def test_none(self):
        with self.assertRaisesRegex(Fault, "^the client process sent no valid screen: "):
            self.capture(record("screen", data=b"x"))

    def test_early(self):
        """A client without contact to the session sends a blank screen, and is asked again, for five seconds at most."""
        blank = record("screen", data=b"1 4 1 1 visible\n \x1f \x1f \x1f \n")
        told = [blank, blank, record("screen", data=self.SCREEN)]

        def ready(link, events, seconds):
            if events & WRITE:
                self.client.send(told.pop(0))
                return READ | WRITE
            self.pass_time(seconds)
            return 0

        with mock.patch("sys.stdout") as printed, mock.patch("roam_live.protocol.client_link.ready", ready):
            capture.capture(self.session(), False)
            printed.buffer.write.assert_called_once_with("ab  c\n\n \u4e2dx\n".encode())
            self.assertEqual((round(self.now, 3), read_now(self.client)), (100.04, b"look\n" * 3))
            self.link.peer, self.client = self.pair()
            told += [blank] * 1000
            capture.capture(self.session(), False)
            self.assertTrue(105 <= self.now < 105.1, self.now)
            printed.buffer.write.assert_called_with(b"\n")

    def test_ended(self):
        """The reason of a missing screen is reported, such as no answer in five seconds."""
        self.client.send(record("refused", 3, words="bad act"))
        self.client.close()
        with self.assertRaisesRegex(Fault, "^the client process refused a line: bad act$"):
            capture.capture(self.session(), False)
        self.link.peer, self.client = self.pair()
        self.link.forget()
        with mock.patch("roam_live.protocol.client_link.ready", lambda *_: self.pass_time(1) or 0):
            with self.assertRaisesRegex(Fault, "^the client process does not answer$"):
                capture.capture(self.session(), False)
        self.assertEqual(self.now, 105.0)
        self.assertIsNone(self.link.peer)


class Carried(Case):
    """Datagrams over a stream."""

    def setUp(self):
        one, self.other = self.pair()
        self.carrier = Carrier(one)

    @staticmethod
    def datagram(length, index=0):
        """Return a datagram of so many bytes, with an index in its instruction."""
        return (b"RM" + bytes(34) + index.to_bytes(2, "big")).ljust(length, b"x")

    def framed(self, *texts):
        """Return texts, each after its length in two bytes."""
        return b"".join(len(text).to_bytes(2, "big") + text for text in texts)

    def test_cut(self):
        """They arrive whole, wherever the stream is cut."""
        texts = [self.datagram(SHORTEST), self.datagram(60)]
        stream = self.framed(*texts)
        for cut in range(len(stream) + 1):
            found = []
            for chunk in (stream[:cut], stream[cut:]):
                if chunk:
                    self.other.send(chunk)
                found += self.carrier.received()
            self.assertEqual(found, texts, cut)

    def test_lengths(self):
        """A length is 43 to 1,242 bytes; another one is no datagram, and ends the stream."""
        self.assertEqual((SHORTEST, LONGEST), (43, 1242))
        for length, is_one in ((43, True), (1242, True), (42, False), (1243, False), (0, False)):
            one, other = self.pair()
            other.send(length.to_bytes(2, "big") + bytes(length))
            self.assertEqual(Carrier(one).received(), [bytes(length)] if is_one else None, length)
            self.assertEqual(datagram_stream.is_datagram(self.datagram(length)[:length]), is_one, length)
        self.assertFalse(datagram_stream.is_datagram(b"RX" + bytes(60)))
        self.other.close()
        self.assertIsNone(self.carrier.received())

    def test_queued(self):
        """An instruction is queued whole or not at all: while 65,536 bytes wait one more is."""
        self.carrier.going += bytes(65536)
        for length, index in ((100, 0), (200, 1)):
            self.carrier.send(self.datagram(length, index))
        size = 65536 + 102 + 202
        self.assertEqual(len(self.carrier.going), size)
        for index in (0, 1):
            self.carrier.send(self.datagram(100, index))
        self.assertEqual(len(self.carrier.going), size)
        self.carrier.going.clear()
        self.carrier.send(self.datagram(100, 1))
        self.assertEqual(len(self.carrier.going), 0)
        self.carrier.send(self.datagram(100, 0))
        self.carrier.going += bytes(datagram_stream.MOST)
        before = len(self.carrier.going)
        self.carrier.send(self.datagram(100, 1))
        self.assertEqual(len(self.carrier.going), before)

    def test_flushed(self):
        self.carrier.send(self.datagram(50))
        self.assertTrue(self.carrier.flush())
        self.assertEqual(self.other.recv(99), self.framed(self.datagram(50)))
        self.other.close()
        self.carrier.send(self.datagram(50))
        self.assertFalse(self.carrier.flush())
        self.carrier.close()
        self.assertEqual(self.carrier.fileno(), -1)

    def test_greeting(self):
        """A relay's greeting is read byte by byte: the rest is for the next reader."""
        reader, writer = self.pipe()
        os.write(writer, greeting("5e55") + b"more")
        self.assertEqual((read_greeting(reader), os.read(reader, 9)), ("5e55", b"more"))
        for text, told in ((b"x" * 80, "the other end is not a relay"), (b"roam-relay 1 -\n", "of an older roam"), (b"roam-r", "has left")):
            reader, writer = self.pipe()
            os.write(writer, text)
            os.close(writer)
            with self.assertRaisesRegex(Fault, told):
                read_greeting(reader)

    def test_words(self):
        """Errors of a command line are printable."""
        said = self.heard()
        with self.assertRaises(SystemExit):
            WordParser(prog="x").parse_args(["\x1b[c"])
        self.assertIn("unrecognized arguments: ?[c\n", said.getvalue())
