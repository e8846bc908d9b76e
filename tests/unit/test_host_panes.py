"""The pty host of a session: its processes and their folders, the queue of a program that doesn't read, and its reports."""
import contextlib
import io
import json
import os
import pathlib
import pty
import signal
import socket
import subprocess
import sys
import tempfile
import unittest
import unittest.mock

from aids import PlayedHolder, StillLoop, comes
from roam_live.common.process import TOOLS
from roam_live.host import pane as host_pane
from roam_live.host.input_queue import TypedQueue
from roam_live.host.pane_hold import PaneHold
from roam_live.host.state import PaneState, SessionState
from roam_live.host.uploads import PendingPastes
from roam_live.protocol.spawn_request import Begins
from roam_live.session.environment import PaneEnvironment
from roam_live.session.foreground import group_in_front, working_folder


class Surroundings(unittest.TestCase):
    """The environment of a pane's command."""

    def test_not_asked(self):
        """It has the pane's name, and no variable of another terminal. Nothing asks the programs of a session to print why they ended."""
        with unittest.mock.patch.dict(os.environ, {"ROAM_WHY": "1", "TMUX": "another", "KEPT": "one"}):
            found = host_pane.surroundings(host_pane.Options(folder="folder"), 3, PaneEnvironment())
        self.assertEqual((found.get("ROAM_WHY"), found.get("TMUX"), found["KEPT"], found["ROAM_PANE"]), (None, None, "one", "folder:3"))


class Working(unittest.TestCase):
    """The folder of a new pane's command."""

    def setUp(self):
        made = tempfile.TemporaryDirectory()
        self.addCleanup(made.cleanup)
        self.folder = pathlib.Path(os.path.realpath(made.name))

    def process(self, folder):
        """Return a process in a folder."""
        folder.mkdir(exist_ok=True)
        process = subprocess.Popen(["sleep", "60"], cwd=folder)
        self.addCleanup(process.wait)
        self.addCleanup(process.kill)
        return process.pid

    def test_first(self):
        """It is the first process's folder that is readable and exists."""
        one, other = self.process(self.folder / "one"), self.process(self.folder / "o\u00e9\n\udcff")
        self.assertEqual(working_folder([None, one, other]), str(self.folder / "one"))
        (self.folder / "one").rmdir()
        self.assertEqual(working_folder([one, 1 << 30, other]), str(self.folder / "o\u00e9\n\udcff"))
        self.assertEqual(working_folder([one, None]), "")
        self.assertEqual(working_folder([]), "")

    def test_in_front(self):
        """The foreground process group of a pseudo-terminal is known at its master."""
        process, master = pty.fork()
        if process == 0:
            os.execvp("sleep", ["sleep", "60"])
        try:
            self.assertTrue(comes(lambda: group_in_front(master) == process))
        finally:
            os.kill(process, 9)
            os.waitpid(process, 0)
            os.close(master)
        self.assertIsNone(group_in_front(1 << 20))


class Typed(unittest.TestCase):
    """Input that a pane's programs do not read."""

    def test_dropped(self):
        """65,536 bytes wait; more is dropped, which is reported once until all is read."""
        typed = TypedQueue(PendingPastes(SessionState(), StillLoop(), lambda name, word: None), lambda: False)
        state = PaneState(id=7, number=4, generation=1, size=(23, 80))
        hold = PaneHold(PlayedHolder(StillLoop(), lambda size: (70, 71)), unittest.mock.Mock(), 7)
        pane = host_pane.PaneCommand(host_pane.Options(folder="/no"), StillLoop(), state, False, typed, hold)
        said = io.StringIO()
        with contextlib.redirect_stderr(said):
            for _ in range(3):
                pane.wait_typed(b"x" * 65536)
            self.assertEqual(len(pane.to_terminal), 65536)
            self.assertEqual(said.getvalue().count("\n"), 1)
            self.assertIn("pane 4: its program does not read input; above 65536 bytes it is dropped", said.getvalue())
            pane.to_terminal.clear()
            pane.is_dropping = False
            pane.wait_typed(b"y")
            self.assertEqual(said.getvalue().count("\n"), 1)
        self.assertEqual(list(pane.to_terminal.parts), [b"y"])


class Server:
    """A server's sockets for panes, played by hand."""

    def __init__(self, folder):
        self.folder = folder
        self.listeners = {name: self.listens(name) for name in ("panes", "clients", "p1", "p2")}
        self.subscriber = None

    def listens(self, name):
        """Return a listening socket."""
        one = socket.socket(socket.AF_UNIX, socket.SOCK_STREAM)
        one.bind(str(self.folder / name))
        one.listen()
        one.settimeout(30)
        return one

    def taken(self, name):
        """Return the connection at a socket."""
        one = self.listeners[name].accept()[0]
        one.settimeout(30)
        return one

    def close(self):
        """End all."""
        for one in self.listeners.values():
            one.close()


class Kept(unittest.TestCase):
    """The tool with a server that is played by hand."""

    def setUp(self):
        made = tempfile.TemporaryDirectory()
        self.addCleanup(made.cleanup)
        self.folder = pathlib.Path(made.name)
        self.server = Server(self.folder)
        self.addCleanup(self.server.close)
        self.held = []

    def run_tool(self, *words):
        """Run the tool, with a command in each pane. It stores no rows, which would need the built program."""
        words, known = [sys.executable, "-B", str(TOOLS / "pane_shells"), *words], {**os.environ, "ROAM_HISTORY": "0"}
        with open(self.folder / "said", "wb") as said:
            process = subprocess.Popen(words, stdout=said, stderr=said, env=known)
        self.addCleanup(process.wait)
        # It ends its holder, too.
        self.addCleanup(process.terminate)
        return process

    def said(self):
        """Return the messages of the tool."""
        return (self.folder / "said").read_text(encoding="utf-8")

    def told(self, lines):
        """Send lines about panes to the subscriber."""
        subscriber = self.server.taken("panes")
        subscriber.send(lines)
        self.held.append(subscriber)
        return subscriber

    def shows(self, pane, text):
        """Return True if a pane gets a text."""
        found = b""
        with contextlib.suppress(OSError):
            while text not in found:
                chunk = pane.recv(4096)
                if not chunk:
                    break
                found += chunk
        return text in found

    def test_let_go(self):
        """A host that the server disconnects keeps its shells, subscribes again, and then knows the remaining panes."""
        server = subprocess.Popen(["sleep", "60"])
        self.addCleanup(server.wait)
        self.addCleanup(server.kill)
        process = self.run_tool("--server", str(server.pid), str(self.folder), "sh", "-c", "echo here; exec cat")
        subscriber = self.told(b"1 1 1 23 39 1\n2 1 41 23 39 1\nfocus 1\nclients 1 of 64\n")
        panes = [self.server.taken(name) for name in ("p1", "p2")]
        for pane in panes:
            self.assertTrue(self.shows(pane, b"here"))
        subscriber.close()
        subscriber = self.told(b"1 1 1 23 80 1\nfocus 1\n")
        self.assertEqual(panes[1].recv(16), b"")
        panes[0].send(b"still\n")
        self.assertTrue(self.shows(panes[0], b"still"))
        self.assertIsNone(process.poll())
        self.assertEqual(self.said(), "")
        self.server.close()
        subscriber.close()
        with self.assertRaises(subprocess.TimeoutExpired):
            process.wait(0.1)
        panes[0].send(b"and still\n")
        self.assertTrue(self.shows(panes[0], b"and still"))
        server.kill()
        server.wait()
        self.assertEqual(process.wait(10), 0)

    def test_last(self):
        """The end of the last shell is recorded before the server is ended."""
        server = subprocess.Popen(["sleep", "60"])
        self.addCleanup(server.wait)
        self.addCleanup(server.kill)
        process = self.run_tool("--close", "--server", str(server.pid), str(self.folder), "true")
        moment = pathlib.Path(f"/proc/{server.pid}/stat").read_text(encoding="utf-8").rpartition(")")[2].split()[19]
        self.told(b"1 1 1 23 80 1\nfocus 1\n")
        pane = self.server.taken("p1")
        pane.setblocking(True)
        self.assertEqual(server.wait(10), -15)
        self.assertEqual((self.folder / "ended").read_text(encoding="utf-8"), f"{server.pid} {moment}\n")
        self.assertEqual(process.wait(10), 0)
        pane.close()

    def test_respawned(self):
        """A pane that is started anew is cleared, and has the new command; without one it has the earlier command again."""
        process = self.run_tool("--close", "--server", str(os.getpid()), str(self.folder), "sh", "-c", "echo here; exec cat")
        self.told(b"1 1 1 23 80 1\nfocus 1\n")
        pane = self.server.taken("p1")
        self.assertTrue(self.shows(pane, b"here"))
        host = socket.socket(socket.AF_UNIX, socket.SOCK_STREAM)
        self.addCleanup(host.close)
        host.settimeout(30)
        host.connect(str(self.folder / "host"))
        name = "0123456789abcdef"
        for begins in (Begins(["echo $((40+2)); exec cat"], str(self.folder)), Begins([])):
            data = begins.packed()
            host.send(f"0 run {name} window {len(data)}\n".encode() + data + f"0 respawn 1 1 {name}\n".encode())
            self.assertTrue(self.shows(pane, b"\x1bc42"), begins)
        host.send(f"0 respawn 1 1 {name}\n0 respawn 1 2 {name}\n".encode())
        told = b""
        while told.count(b"respawned") < 4 and (chunk := host.recv(4096)):
            told += chunk
        self.assertEqual([line for line in told.decode().split("\n") if "respawned" in line],
                         ["0 respawned 1"] * 2 + ["0 respawned none"] * 2)
        child = json.loads((self.folder / "host.json").read_text(encoding="utf-8"))["windows"]["0"]["panes"]["1"]
        self.assertEqual((child["command"][2:], child["has_ended"]), (["echo $((40+2)); exec cat"], False))
        self.assertEqual(os.readlink(f"/proc/{child['process']}/cwd"), os.path.realpath(self.folder))
        self.assertIsNone(process.poll())

    def test_piped(self):
        """A command gets a copy of a pane's output until that is ended; another one replaces it; one that does not read delays nothing."""
        self.run_tool("--close", "--server", str(os.getpid()), str(self.folder), "cat")
        self.told(b"1 1 1 23 80 1\nfocus 1\n")
        pane = self.server.taken("p1")
        host = socket.socket(socket.AF_UNIX, socket.SOCK_STREAM)
        self.addCleanup(host.close)
        host.settimeout(30)
        host.connect(str(self.folder / "host"))
        host.send(b"0 here test:/dev/pts/1 24 80 read-write\n")
        told = []

        def piped(command):
            """Request a pipe, and return the answer."""
            data, text = Begins([command]).packed(), b""
            upload = f"0 run 0123456789abcdef window {len(data)}\n".encode() + data if command else b""
            host.send(upload + f"0 pipe 1 1 {'0123456789abcdef' if command else 'none'}\n".encode())
            while b"piped" not in text and (chunk := host.recv(4096)):
                text += chunk
            lines = text.decode().strip().split("\n")
            told.extend(line for line in lines if "say " in line)
            return next(line for line in lines if "piped" in line)

        out = self.folder / "out"
        self.assertEqual(piped(f"cat >> {out}"), "0 piped 1 begun")
        pane.send(b"one\n")
        self.assertTrue(comes(lambda: out.exists() and b"one" in out.read_bytes()))
        self.assertEqual(piped("sleep 60"), "0 piped 1 begun")
        for count in range(40):
            # More than 64 kB of unread input would be dropped.
            pane.send(b"x" * 4000 + b"%03d\n" % count)
            self.assertTrue(self.shows(pane, b"xxx%03d" % count))
        pane.send(b"end of it\n")
        self.assertTrue(self.shows(pane, b"end of it"))
        self.assertEqual([piped(""), piped("")], ["0 piped 1 ended", "0 piped 1 none"])
        self.assertNotIn(b"xxx", out.read_bytes())
        self.assertRegex(told[0], r"^0 say pipe-pane: \d+ bytes were lost, since 'sleep 60' did not read them$")

    def test_piped_on(self):
        """A command that gets a copy of the output goes on with the next host, after a kill of this one, until it is ended."""
        process = self.run_tool("--server", str(os.getpid()), str(self.folder), "cat")
        self.told(b"1 1 1 23 80 1\nfocus 1\n")
        pane, out = self.server.taken("p1"), self.folder / "out"
        data = Begins([f"cat >> {out}"]).packed()

        def asked(text, answer):
            """Send the host a request, and return True if it answers so."""
            with socket.socket(socket.AF_UNIX, socket.SOCK_STREAM) as asker:
                asker.settimeout(30)
                asker.connect(str(self.folder / "host"))
                asker.send(text)
                told = b""
                while answer not in told and (chunk := asker.recv(4096)):
                    told += chunk
                return answer in told

        self.assertTrue(asked(b"0 run 0123456789abcdef window %d\n%s0 pipe 1 1 0123456789abcdef\n" % (len(data), data), b"piped 1 begun"))
        pane.send(b"one\n")
        self.assertTrue(comes(lambda: out.exists() and b"one" in out.read_bytes()))
        os.kill(process.pid, signal.SIGKILL)
        process.wait()
        self.told(b"1 1 1 23 80 1\nfocus 1\n")
        self.assertTrue(asked(b"0 clients\n", b"clients 0"))
        pane.send(b"two\n")
        self.assertTrue(comes(lambda: b"two" in out.read_bytes()))
        self.assertTrue(asked(b"0 pipe 1 1 none\n", b"piped 1 ended"))
        self.assertTrue(asked(b"0 pipe 1 1 none\n", b"piped 1 none"))

    def test_folder(self):
        """A new pane's command starts in the folder of the focused pane's foreground program; the first one's in the server's."""
        (self.folder / "there").mkdir()
        server = subprocess.Popen(["sleep", "60"], cwd=self.folder / "there")
        self.addCleanup(server.wait)
        self.addCleanup(server.kill)
        self.run_tool("--server", str(server.pid), str(self.folder), "sh", "-c", 'echo "$PWD=$(pwd)."; cd /usr; exec cat')
        subscriber = self.told(b"1 1 1 23 80 1\nfocus 1\n")
        there = os.fsencode(os.path.realpath(self.folder / "there"))
        self.assertTrue(self.shows(self.server.taken("p1"), there + b"=" + there + b"."))
        child = json.loads((self.folder / "host.json").read_text(encoding="utf-8"))["windows"]["0"]["panes"]["1"]["process"]
        self.assertTrue(comes(lambda: os.readlink(f"/proc/{child}/cwd") == "/usr"))
        subscriber.send(b"1 1 1 23 39 1\n2 1 41 23 39 1\nfocus 2\n")
        self.assertTrue(self.shows(self.server.taken("p2"), b"/usr=/usr."))

    def host(self):
        """Return the pty host that the state of its programs' holder belongs to: the newest one."""
        own = [int(name) for name in os.listdir("/proc") if name.isdigit()]
        return max((one for one in own if is_tool(one, str(self.folder))), default=0)

    def test_killed(self):
        """A host that is killed ends no program: another one has its terminal, its connection, and what was printed and typed meanwhile."""
        process = self.run_tool("--server", str(os.getpid()), str(self.folder), "sh", "-c", "stty raw -echo; echo here; exec cat")
        subscriber = self.told(b"1 1 1 23 80 1\nfocus 1\n")
        pane = self.server.taken("p1")
        self.assertTrue(self.shows(pane, b"here"))
        for count in range(5):
            before = self.host()
            pane.send(b"before%d " % count)
            if count == 3:
                # The file is for other tools; the state is at the holder.
                (self.folder / "host.json").write_text("{", encoding="ascii")
            os.kill(before, signal.SIGKILL)
            if before == process.pid:
                process.wait()
            pane.send(b"between%d " % count)
            subscriber = self.told(b"1 1 1 23 80 1\nfocus 1\n")
            pane.send(b"after%d." % count)
            self.assertTrue(self.shows(pane, b"before%d between%d after%d." % (count, count, count)), count)
            self.assertTrue(comes(lambda: self.host() not in (0, before)))
        # A host that answers handles signals.
        with socket.socket(socket.AF_UNIX, socket.SOCK_STREAM) as asker:
            asker.settimeout(30)
            asker.connect(str(self.folder / "host"))
            asker.send(b"0 clients\n")
            self.assertEqual(asker.recv(99), b"0 clients 0\n")
        subscriber.close()
        os.kill(self.host(), signal.SIGTERM)
        self.assertEqual(pane.recv(16), b"")
        self.assertTrue(comes(lambda: not self.host() and not (self.folder / "host.json").exists()))


def is_tool(process, folder):
    """Return True if a process is the pty host of a folder."""
    try:
        words = pathlib.Path(f"/proc/{process}/cmdline").read_bytes().split(b"\0")
    except OSError:
        return False
    return any(word.endswith(b"/pane_shells") for word in words[:4]) and os.fsencode(folder) in words
