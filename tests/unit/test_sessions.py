"""Sessions: their lookup, their clean-up, and a start that fails half-way."""
import contextlib
import fcntl
import json
import os
import pathlib
import socket
import subprocess
import sys
import tempfile
import time
import unittest
from unittest import mock

from roam_live.common.errors import Fault
from roam_live.common.process import begun, note_end
from roam_live.session import local, lookup, processes as session_processes, survey
from roam_live.session.front_end_lock import FrontEndLock
from roam_live.session.local import LocalSession, Window
from roam_live.session.names import WINDOWS_VERSION
from roam_live.session.remote import RemoteSession

# An ended process: no process has this start time.
ENDED = [1, 1]

# Listens at sockets of a folder, and prints that.
LISTENS = """
import socket, sys, time
ends = []
for path in sys.argv[1:]:
    one = socket.socket(socket.AF_UNIX, socket.SOCK_STREAM)
    one.bind(path)
    one.listen()
    ends.append(one)
print("ready", flush=True)
time.sleep(60)
"""


class Sessions(unittest.TestCase):
    """A folder of sessions, with an ended one: its files exist, and its processes don't."""

    def setUp(self):
        made = tempfile.TemporaryDirectory()
        self.addCleanup(made.cleanup)
        self.base = pathlib.Path(made.name, "roam")
        self.base.mkdir(mode=0o700)
        for module in (local, lookup):
            patched = mock.patch.object(module, "base", lambda: self.base)
            patched.start()
            self.addCleanup(patched.stop)
        self.folder = self.base / "main"
        self.folder.mkdir()
        for name in ("session", "log"):
            (self.folder / name).touch()
        self.note(server=ENDED, host=ENDED)

    def note(self, folder=None, **processes):
        """Record processes."""
        note = {"version": WINDOWS_VERSION, "command": [], **processes}
        ((folder or self.folder) / "state.json").write_text(json.dumps(note), encoding="utf-8")

    def listening(self, *names, folder=None):
        """Return a process that listens at sockets of the folder."""
        words = [sys.executable, "-c", LISTENS, *(str((folder or self.folder) / name) for name in names)]
        process = subprocess.Popen(words, stdout=subprocess.PIPE)
        self.addCleanup(process.wait)
        self.addCleanup(process.kill)
        self.addCleanup(process.stdout.close)
        self.assertEqual(process.stdout.readline(), b"ready\n")
        return process

    def names(self, folder=None):
        """Return the contents of the folder."""
        return sorted(path.name for path in (folder or self.folder).iterdir())


class Listed(Sessions):
    """The list of sessions and its clean-up, for sessions of one window, whose sockets are in the folder itself."""

    def setUp(self):
        super().setUp()
        (self.folder / "clients").touch()

    def test_ended(self):
        """An ended one isn't listed, and its rest is removed, with its folder."""
        for name in ("state.json.77", "ended.8", "front_ends"):
            (self.folder / name).touch()
        (self.folder / "log").write_text("[the server has ended]\n" * 2, encoding="utf-8")
        self.assertFalse(Window(self.base / "main").is_listed())
        self.assertFalse(self.folder.exists())

    def test_log_kept(self):
        """A log with contents stays for a day after its end."""
        (self.folder / "log").write_text("[the server has ended]\nwhy\n", encoding="utf-8")
        os.utime(self.folder / "log", (5.0, 5.0))
        (self.folder / "ended").touch()
        for seconds, names in ((0, ["log"]), (86390, ["log"]), (86410, [])):
            with mock.patch("time.time", return_value=time.time() + seconds):
                lookup.sweep()
            self.assertEqual(self.names() if self.folder.exists() else [], names)

    def test_followed(self):
        """While a front end still reads how it ended, its folder stays; then everything goes."""
        (self.folder / "ended").touch()
        with mock.patch("roam_live.common.errors.logs", []), FrontEndLock(self.folder), FrontEndLock(self.folder):
            lookup.sweep()
            self.assertEqual(self.names(), ["ended", "front_ends", "lock", "log"])
        lookup.sweep()
        self.assertFalse(self.folder.exists())

    def test_held(self):
        """The same while a process that nobody finds has the folder locked."""
        held = os.open(self.folder, os.O_RDONLY)
        fcntl.flock(held, fcntl.LOCK_SH)
        with mock.patch.object(local, "holder_of", return_value=None):
            lookup.sweep()
        self.assertEqual(self.names(), ["lock", "log"])
        os.close(held)
        lookup.sweep()
        self.assertFalse(self.folder.exists())

    def test_begun_anew(self):
        """One that starts anew after its old note was read is listed, and nothing of it is removed."""
        session = Window(self.base / "main")
        own = [os.getpid(), begun(os.getpid())]
        self.note(server=own)
        before = self.names()
        self.assertTrue(session.is_listed())
        self.assertEqual(self.names(), sorted([*before, "lock"]))
        self.assertEqual(json.loads((self.folder / "state.json").read_text(encoding="utf-8"))["server"], own)

    def test_being_started(self):
        """While another process has its lock nothing is removed, and nobody waits."""
        before = self.names()
        with open(self.folder / "lock", "wb") as lock:
            fcntl.flock(lock, fcntl.LOCK_EX)
            self.assertFalse(Window(self.base / "main").is_listed())
        self.assertEqual(self.names(), sorted([*before, "lock"]))

    def test_other_machines(self):
        """Remote ones are listed after local ones, under the name that `mux kill` takes."""
        for name in ("ssh:there:main", "ssh:me@there.example:work:0badcafe", "none ssh:x:y", "ssh:a:b:c", "ssh::main"):
            (self.base / name).mkdir()
            self.note(self.base / name, relay=[os.getpid(), begun(os.getpid())])
        self.note(server=[os.getpid(), begun(os.getpid())])
        found = lookup.sessions_here()
        wanted = ["main", "ssh:me@there.example:work:0badcafe", "ssh:there:main"]
        self.assertEqual([session.name for session in found], wanted)
        lines = survey.surveyed([(one, one.windows()) for one in found])
        self.assertEqual([line.split()[0] for line in lines], wanted)
        # The other columns are aligned, however long a name is.
        self.assertEqual({line.index(" terminals") - len(" ?") for line in lines}, {lines[1].index(" terminals") - 2})
        self.assertIsInstance(lookup.session_named("ssh:there:main"), RemoteSession)
        for name in ("ssh:none:main", "ssh:there/../x:main", "../main", "ssh:there:main:1"):
            with self.assertRaises(Fault):
                lookup.session_named(name)


class Found(Sessions):
    """A session whose note is lost."""

    def test_found(self):
        """Its processes are the listeners at its sockets; the pty host shows the command."""
        server, host = self.listening("clients"), self.listening("host")
        for text in (None, "", "{", "[]", '{"server": 1}', '{"server": [1]}', '{"server": ["a", "b"]}', "\xff"):
            (self.folder / "state.json").unlink(missing_ok=True)
            if text is not None:
                (self.folder / "state.json").write_text(text, encoding="latin-1")
            session = Window(self.base / "main")
            self.assertTrue(session.find(), text)
            found = [session.process(role) for role in ("server", "host", "client")]
            self.assertEqual(found, [server.pid, host.pid, None])
        with session.locked():
            self.assertTrue(session.find())
            session.note_found()
        self.assertEqual(Window(self.base / "main").process("server"), server.pid)

    def test_command(self):
        """The command of a pty host follows the folder in its words."""
        words = [sys.executable, "-c", "import time; print(flush=True); time.sleep(60)", "--close", str(self.folder), "sh", "-c", "a b"]
        process = subprocess.Popen(words, stdout=subprocess.PIPE)
        self.addCleanup(process.wait)
        self.addCleanup(process.kill)
        self.addCleanup(process.stdout.close)
        process.stdout.readline()
        self.assertEqual(local.command_of(process.pid, self.folder), ["sh", "-c", "a b"])
        self.assertEqual(local.command_of(None, self.folder), [])
        self.assertEqual(local.command_of(process.pid, self.base), [])

    def test_answers(self):
        """If a process answers nothing is removed, whatever the notes say."""
        self.listening("clients", "terminals")
        for note in (True, False):
            if not note:
                (self.folder / "state.json").unlink()
            before = self.names()
            session = Window(self.base / "main")
            self.assertTrue(session.is_listed())
            with self.assertRaisesRegex(Fault, "a process answers at"):
                session.clean()
            self.assertEqual(self.names(), before)
            self.assertTrue(session.has_client())

    def test_takes_none(self):
        """If a listener accepts no connection nothing is done, and that is reported."""
        patched = mock.patch.object(session_processes, "ASK_WAIT", 0.02)
        patched.start()
        self.addCleanup(patched.stop)
        (self.folder / "state.json").unlink()
        with socket.socket(socket.AF_UNIX, socket.SOCK_STREAM) as listener, contextlib.ExitStack() as held:
            listener.bind(str(self.folder / "clients"))
            listener.listen(0)
            held.enter_context(socket.socket(socket.AF_UNIX, socket.SOCK_STREAM)).connect(str(self.folder / "clients"))
            before = self.names()
            def named(name):
                return Window(self.base / name)

            for does in (lambda: named("main").is_listed(), lambda: named("main").demand(), named("main").clean):
                with self.assertRaisesRegex(Fault, "accepts no connection|a process answers at"):
                    does()
            self.assertEqual(self.names(), before)

    def test_killed(self):
        """It is ended like any other."""
        server = self.listening("clients")
        (self.folder / "state.json").unlink()
        session = Window(self.base / "main")
        session.demand()
        session.end_all()
        self.assertEqual(server.wait(10), -15)
        with session.locked():
            session.tidy()
        self.assertFalse(self.folder.exists())


class Starts(Sessions):
    """Starts of a session's processes."""

    def setUp(self):
        super().setUp()
        self.session = Window(self.base / "new")

    def test_half_way(self):
        """Started processes end again if the rest fails, and no folder remains without a log."""
        with self.session.locked():
            self.session.state = {"version": WINDOWS_VERSION}
            with self.assertRaisesRegex(Fault, "^session new: the pty host cannot be started: /no/such: No such file"):
                with self.session.whole():
                    server = self.session.spawned("server", ["sleep", "60"])
                    self.session.spawned("host", ["/no/such"])
        self.assertIsNotNone(server.poll())
        self.assertFalse(self.session.folder.exists())

    def test_logged(self):
        """With a log the folder stays with its log alone, and the error quotes the output in one line."""
        with self.session.locked():
            self.session.state = {"version": WINDOWS_VERSION}
            with self.assertRaisesRegex(Fault, "^session new: the client process did not start: one; two$"):
                with self.session.whole():
                    self.session.spawned("client", ["sh", "-c", "echo one >&2; echo; echo two >&2"])
                    self.session.wait_for("client", 0, lambda: False)
        self.assertEqual(self.names(self.session.folder), ["lock", "log"])

    def test_unnoted(self):
        """A process that can't be recorded isn't started, and the error names it and the reason."""
        with self.session.locked():
            self.session.state = {"version": WINDOWS_VERSION}
            with mock.patch.object(self.session, "note_own", side_effect=OSError(28, "No space left on device")):
                with self.assertRaisesRegex(Fault, "^session new: the server cannot be started: it cannot be recorded in "):
                    self.session.spawned("server", ["sleep", "60"])
            with mock.patch("roam_live.session.processes.replace_text", side_effect=OSError(28, "No space left on device")):
                with self.assertRaisesRegex(Fault, "^session new: the server cannot be started: No space left on device"):
                    self.session.spawned("server", ["sleep", "60"])
            with mock.patch("subprocess.Popen", side_effect=BlockingIOError(11, "Resource temporarily unavailable")):
                with self.assertRaisesRegex(Fault, "^session new: the relay cannot be started: Resource temporarily unavailable"):
                    self.session.spawned("relay", ["sleep", "60"])

    def test_relay(self):
        """A failed connection to another machine leaves no folder; with a log it leaves the log."""
        for logged in (False, True):
            near = RemoteSession(self.base / "ssh:there:main", "main")
            with near.locked(), mock.patch("roam_live.session.roles.TOOLS", self.base), mock.patch("roam_live.session.remote.in_front"):
                relay = self.base / "relay"
                relay.write_text(f"#!/bin/sh\n{'echo said >> $4' if logged else ''}\nexit 3\n", encoding="utf-8")
                relay.chmod(0o700)
                self.assertEqual(near.launch_relay(["ssh", "there"]), 3)
            self.assertEqual(near.folder.exists() and self.names(near.folder), logged and ["lock", "log"])

    def test_lock(self):
        """A lock whose file was removed, with the folder, is not the current one."""
        with self.session.locked():
            other = Window(self.session.folder)
            self.session.forget()
            with other.locked(may_wait=False):
                self.assertTrue((other.folder / "lock").exists())
                with self.assertRaises(BlockingIOError), Window(other.folder).locked(may_wait=False):
                    pass

    def test_folder_of_another(self):
        """Nothing is created in a folder of another user."""
        with mock.patch("os.getuid", return_value=os.getuid() + 1):
            with self.assertRaisesRegex(Fault, "is not a directory of yours"), Window(self.base / "main").locked():
                pass
            self.assertEqual(Window(self.base / "main").places(), None)
        self.assertNotIn("lock", self.names())


class Ends(Sessions):
    """The messages after the end of a session's serving process."""

    def met(self, near=False):
        """Return a session whose server ran, and has ended."""
        process = subprocess.Popen(["sleep", "60"])
        self.addCleanup(process.wait)
        moment = begun(process.pid)
        self.note(**{"relay" if near else "server": [process.pid, moment]})
        session = (RemoteSession if near else Window)(self.folder)
        self.assertTrue(session.runs())
        return session, process

    def test_killed(self):
        """A killed one isn't reported as the session's end."""
        session, process = self.met()
        process.kill()
        process.wait()
        said, status = session.ending()
        self.assertEqual(status, 1)
        self.assertTrue(said.startswith("[the server was killed or failed, and its session is gone; "))

    def test_ended(self):
        """An intended end is; a record of another process is not."""
        session, process = self.met()
        note_end(self.folder, process.pid, 1)
        self.assertEqual(session.ending()[1], 1)
        session.end_all()
        process.wait()
        self.assertEqual(session.ending(), ("[the session has ended]", 0))

    def test_by_hand(self):
        """The same for a server that was started by hand."""
        process = subprocess.Popen(["sleep", "60"])
        self.addCleanup(process.wait)
        session = Window(self.folder, server=process.pid)
        self.assertEqual(session.process("server"), process.pid)
        note_end(self.folder, process.pid, begun(process.pid))
        process.kill()
        self.assertEqual(session.ending(), ("[the session has ended]", 0))
        self.assertEqual(Window(self.folder, server=os.getpid()).ending()[1], 1)

    def test_relay(self):
        """A relay that was ended leaves the session; one that got the end reports it; otherwise its log gives the reason."""
        session, process = self.met(near=True)
        self.assertEqual(session.ending()[1], 1)
        session.end_all()
        process.wait()
        self.assertEqual(session.ending(), ("[the relay was ended; the session keeps running on the other machine]", 0))
        (self.folder / "ended").write_text("", encoding="utf-8")
        self.assertEqual(session.ending(), ("[the session has ended]", 0))
        (self.folder / "ended").write_text("killed", encoding="utf-8")
        self.assertEqual(session.ending(), ("[the server was killed or failed, and its session is gone]", 1))
