"""The common code of the tools for programs, sockets and processes: server addresses, presence notes, and the ends of tools."""
import fcntl
import json
import os
import pathlib
import signal
import subprocess
import sys
import socket
from unittest import mock

from aids import Case, read_now
from roam_live.common import (errors, event_loop, files as common_files, io, process as common_process, retry, text as common_text,
                              unix_socket)
from roam_live.common.errors import Fault
from roam_live.common.event_loop import Loop
from roam_live.common.file_path import FilePath
from roam_live.config import environment
from roam_live.protocol import datagram_stream, panes_client, server_address
from roam_live.protocol.server_address import Home
from roam_live.relay import common, far, frames, near
from roam_live.session import foreground, front_end_lock, host_watchdog, folder as session_folder, remote, tmp_keepalive


class Programs(Case):
    """The path of the program."""

    def test_places(self):
        """It is that of ROAM, else the first executable one."""
        folder = self.made_folder()
        files = [folder / name for name in ("none", "text", "one", "two")]
        for path in files[1:]:
            path.touch()
        for path in files[2:]:
            path.chmod(0o755)
        self.patch_of(common_process, "PLACES", tuple(files))
        self.environment(ROAM=None)
        self.assertEqual(common_process.program(), str(files[2]))
        self.environment(ROAM=str(files[3]))
        self.assertEqual(common_process.program(), str(files[3]))
        for named in (files[0], files[1], folder):
            self.environment(ROAM=str(named))
            with self.assertRaisesRegex(Fault, f"^{named} is no program; the variable ROAM names it$"):
                common_process.program()
        self.environment(ROAM=None)
        self.patch_of(common_process, "PLACES", tuple(files[:2]))
        with self.assertRaisesRegex(Fault, f"^{files[0]} does not exist; `make` builds it$"):
            common_process.program()
        # Beside installed tools there are no sources.
        self.patch_of(common_process, "TOOLS", FilePath(folder / "lib"))
        with self.assertRaisesRegex(Fault, "^the program roam was removed or moved; install roam again$"):
            common_process.program()

    def test_ids(self):
        """An id is 1 to 16 hexadecimal digits; a new one has 15, and the first is not zero."""
        for word, is_one in (("5e55", True), ("0", True), ("ABCdef0123456789", True), ("ABCdef01234567890", False), ("", False),
                             ("g", False), ("\u0663", False)):
            self.assertEqual(server_address.is_id(word), is_one, word)
        found = {server_address.random_id() for _ in range(200)}
        self.assertEqual((len(found), {len(one) for one in found}), (200, {15}))
        self.assertFalse([one for one in found if one[0] in "01234567"])


class Homes(Case):
    """The address of a server."""

    def test_words(self):
        """DIR, or PORT SESSION; ports are 1 to 65535."""
        for words, told in ((["d"], f"in {os.getcwd()}/d"), (["/x/../y"], "in /y"), (["1", "5e55"], "at port 1"),
                            (["65535", "0"], "at port 65535"), (["0", "5e55"], None), (["65536", "5e55"], None), (["x", "5e55"], None),
                            (["\u00b2", "5e55"], None), (["9" * 5000, "5e55"], None), (["7", "xyz"], None), ([], None),
                            (["7", "1", "2"], None)):
            home = Home.of(words)
            self.assertEqual(home and str(home), told, words)
        home = Home.of(["9", "5e55"])
        self.assertEqual((home.port, home.session, home.folder), (9, "5e55", None))

    def test_attach_words(self):
        """A process's arguments omit the id if the folder keeps others out."""
        self.patch_of(server_address, "program", return_value="/roam")
        self.assertEqual(Home(folder="/d").attach_words(["--watch"]), ["/roam", "attach", "--dir", "/d", "--watch"])
        words = Home(port=9, session="5e55").attach_words(["--watch"])
        self.assertEqual((words[:7], len(words[7]), words[8:]),
                         (["/roam", "attach", "--port", "9", "--session", "5e55", "--client"], 15, ["--watch"]))

    def test_served(self):
        folder = self.made_folder()
        home = Home(folder=str(folder))
        self.assertEqual((home.is_served(), home.why_unserved()), (False, ""))
        listener = self.listening(folder / "clients")
        self.assertTrue(home.is_served())
        with mock.patch("os.getuid", return_value=os.getuid() + 1):
            self.assertEqual(home.why_unserved(), f": user {os.getuid() - 1} listens there instead of you")
        listener.close()
        self.assertEqual((home.is_served(), home.why_unserved()), (False, ""))

    def test_port(self):
        """A port is served if a process has bound it."""
        with socket.socket(socket.AF_INET, socket.SOCK_DGRAM) as one:
            one.bind(("127.0.0.1", 0))
            port = one.getsockname()[1]
            self.assertTrue(Home(port=port, session="0").is_served())
            self.assertEqual(one.recv(10), b"\0")
        self.assertFalse(server_address.is_port_served(port))
        self.assertEqual(Home(port=port, session="0").why_unserved(), "")


class Waits(Case):
    """Connections that are awaited."""

    def setUp(self):
        self.stop_clock()
        self.said = self.heard()

    def test_waited(self):
        """A missing socket is awaited for ten seconds, which is reported once after half a second."""
        path = self.made_folder() / "clients"
        with self.assertRaisesRegex(Fault, f"^{path}: No such file or directory$"):
            unix_socket.connected(path)
        self.assertTrue(110.0 <= self.now < 110.1)
        self.assertEqual(self.said.getvalue().count(f"waiting for {path}\n"), 1)
        self.now = 100.0
        self.said.truncate(0)
        tries = [FileNotFoundError(2, "none")] * 20 + [ConnectionRefusedError(111, "none"), BlockingIOError(11, "full"), mock.sentinel.peer]
        with mock.patch.object(unix_socket, "connected_now", side_effect=tries):
            self.assertIs(unix_socket.connected(path), mock.sentinel.peer)
        self.assertEqual(self.said.getvalue(), "")

    def test_refused(self):
        """It doesn't wait for impossible events."""
        with mock.patch.object(unix_socket, "connected_now", side_effect=OSError(24, "Too many open files")):
            with self.assertRaisesRegex(Fault, "^x: Too many open files$"):
                unix_socket.connected("x")
        self.assertEqual(self.now, 100.0)

    def test_in(self):
        with mock.patch.object(unix_socket, "connected_now", side_effect=BlockingIOError(11, "full")) as connects:
            with self.assertRaises(BlockingIOError):
                unix_socket.connected_in("x", 0.5)
        self.assertTrue(0.5 <= self.now - 100 <= 0.52 and connects.call_count >= 50)
        with mock.patch.object(unix_socket, "connected_now", side_effect=[BlockingIOError(11, "full"), 5]):
            self.assertEqual(unix_socket.connected_in("x", 0.5), 5)


class Begun(Case):
    """Processes by their start times."""

    def test_own(self):
        own = common_process.begun(os.getpid())
        self.assertEqual(own, int(pathlib.Path("/proc/self/stat").read_text(encoding="utf-8").rpartition(")")[2].split()[19]))
        self.assertTrue(common_process.is_running(os.getpid(), own))
        self.assertFalse(common_process.is_running(os.getpid(), own + 1) or common_process.is_running(os.getpid(), None))
        self.assertIsNone(common_process.begun(1 << 30))

    def test_ended(self):
        """A zombie has no start time."""
        process = self.process("true")
        os.waitid(os.P_PID, process.pid, os.WEXITED | os.WNOWAIT)
        self.assertIsNone(common_process.begun(process.pid))
        self.assertFalse(common_process.is_running(process.pid, None))

    def test_opened(self):
        """A process is readable once it has ended."""
        process = self.process("cat", stdin=-1)
        end = common_process.opened_process(process.pid)
        self.addCleanup(os.close, end)
        self.assertEqual(event_loop.comes(end, 0), False)
        process.stdin.close()
        self.assertEqual(event_loop.comes(end, 10), True)
        process.wait()
        with self.assertRaisesRegex(Fault, "^the session has ended$"):
            common_process.opened_process(process.pid)

    def test_end(self):
        """A record of an end has the process and its start; on a write error nothing is recorded."""
        folder = self.made_folder()
        common_process.note_end(folder, 17, 99)
        self.assertEqual((folder / "ended").read_text(encoding="utf-8"), "17 99\n")
        common_process.note_end(folder / "none", 17, 99)


class Buffers(Case):
    """Lines and bytes of a stream, and the queue of a connection."""

    def test_records(self):
        """Lines and bytes are returned once complete; one above the limit is invalid, wherever it is cut."""
        buffer = io.LineReader(8)
        for byte in b"ab\n\xff\n12":
            buffer.kept.append(byte)
        self.assertEqual([buffer.line(), buffer.line(), buffer.line(), buffer.data(3)], [b"ab", b"\xff", None, None])
        buffer.kept += b"34567"
        self.assertEqual((buffer.data(3), bytes(buffer.kept)), (b"123", b"4567"))
        buffer.kept += b"89a"
        self.assertIsNone(buffer.line())
        buffer.kept += b"b"
        self.assertRaises(io.LongLine, buffer.line)
        buffer.kept[7:] = b"\n"
        self.assertEqual((buffer.line(), buffer.kept), (b"456789a", b""))
        buffer.kept += b"12345678\n"
        self.assertRaises(io.LongLine, buffer.line)

    def test_read(self):
        """It returns lines as they arrive: an empty list without data, and None at the end."""
        reader, (source, target) = io.LineReader(), self.pipe()
        os.set_blocking(source, False)
        self.assertEqual(reader.read(source), [])
        os.write(target, b"one\ntw")
        self.assertEqual((reader.read(source), reader.read(source)), (["one"], []))
        os.write(target, b"o\n\nx")
        self.assertEqual(reader.read(source), ["two", ""])
        end = os.open(os.devnull, os.O_RDONLY)
        self.addCleanup(os.close, end)
        self.assertEqual((reader.read(end), bytes(reader.kept)), (None, b"x"))

    def test_peer(self):
        """Unrequested lines are bounded beside answers, until the peer has read all."""
        ours, theirs = self.pair()
        peer = io.LinePeer(ours)
        peer.most = 10
        self.assertEqual((peer.put(["abc", "\ud800"]), peer.put(["abc"])), (True, True))
        peer.put_answer(b"12345")
        self.assertEqual((peer.put([]), peer.put([""])), (True, False))
        self.assertTrue(peer.write())
        self.assertEqual((theirs.recv(99), peer.answers), (b"abc\n?\nabc\n12345\n", 0))
        theirs.close()
        peer.put(["a"])
        self.assertEqual((peer.write(), bytes(peer.waiting)), (False, b""))


class Notes(Case):
    """The lock by which front ends keep a session's folder."""

    def setUp(self):
        self.folder = self.made_folder()
        self.said = self.heard()

    def test_kept(self):
        """A session's folder stays while a front end is there; unexpected errors are logged there."""
        self.assertFalse(front_end_lock.has_front_ends(self.folder))
        self.patch_of(errors, "logs", [])
        (self.folder / "log").touch()
        with front_end_lock.FrontEndLock(self.folder):
            with front_end_lock.FrontEndLock(self.folder):
                self.assertTrue(front_end_lock.has_front_ends(self.folder))
            self.assertTrue(front_end_lock.has_front_ends(self.folder))
            self.assertEqual(errors.logs, [str(self.folder / "log")])
        self.assertFalse(front_end_lock.has_front_ends(self.folder))
        self.assertEqual((self.folder / "front_ends").stat().st_mode & 0o777, 0o600)

    def test_beside_a_look(self):
        """A process that looks whether somebody is there has the lock for a moment: a front end gets it all the same."""
        (self.folder / "front_ends").touch()
        look = os.open(self.folder / "front_ends", os.O_RDONLY)
        fcntl.flock(look, fcntl.LOCK_EX)
        self.patch_of(common_files.time, "sleep", side_effect=lambda seconds: os.close(look))
        with front_end_lock.FrontEndLock(self.folder):
            self.assertTrue(front_end_lock.has_front_ends(self.folder))

    def test_beside_a_removal(self):
        """A front end whose file is removed before it has the lock takes a new one."""
        found = front_end_lock.opened

        def opened(folder):
            end = found(folder)
            if not removed:
                removed.append(os.unlink(self.folder / "front_ends"))
            return end

        removed = []
        with mock.patch.object(front_end_lock, "opened", opened), front_end_lock.FrontEndLock(self.folder):
            self.assertTrue(front_end_lock.has_front_ends(self.folder))
        self.assertEqual(len(removed), 1)

    def test_none(self):
        """Without a folder nothing stays; a lock that fails is reported, and one with an unknown state may be taken."""
        with front_end_lock.FrontEndLock(None):
            pass
        with self.assertRaisesRegex(Fault, "/none is not a directory$"), front_end_lock.FrontEndLock(self.folder / "none"):
            pass
        (self.folder / "front_ends").symlink_to("elsewhere")
        with front_end_lock.FrontEndLock(self.folder):
            self.assertIn("front_ends cannot be locked: ", self.said.getvalue())
        self.assertTrue(front_end_lock.has_front_ends(self.folder))

    def test_replaced(self):
        """A reader of a file gets the whole old or new text; after a write error the old one stays, without a temporary file."""
        path = self.folder / "note"
        common_files.replace_text(path, "one")
        common_files.replace_text(path, "two", f"{path}.new")
        self.assertEqual([one.name for one in self.folder.iterdir()], ["note"])
        with mock.patch("os.replace", side_effect=OSError(28, "full")), self.assertRaises(OSError):
            common_files.replace_text(path, "three")
        self.assertEqual((path.read_text(encoding="utf-8"), [one.name for one in self.folder.iterdir()]), ("two", ["note"]))
        with self.assertRaises(OSError):
            common_files.replace_text(self.folder / "none/x", "y")


class Ends(Case):
    """Reads, writes, and the end of a tool."""

    def test_read(self):
        """No data now is None, and the end of file is empty; at most 65,536 bytes are returned at once."""
        one, other = self.pair()
        self.assertIsNone(io.read(one.fileno()))
        other.send(b"ab")
        self.assertEqual(io.read(one.fileno()), b"ab")
        other.close()
        self.assertEqual((io.read(one.fileno()), io.read(1 << 20)), (b"", b""))
        with mock.patch("os.read", return_value=b"x") as reads:
            io.read(7)
        reads.assert_called_once_with(7, 65536)

    def test_write(self):
        one, other = self.pair()
        waiting = bytearray(b"abc")
        self.assertTrue(io.write(one.fileno(), waiting))
        self.assertEqual((waiting, read_now(other)), (b"", b"abc"))
        waiting += bytes(100_000)
        with mock.patch("os.write", side_effect=[65536, BlockingIOError(11, "full")]) as writes:
            self.assertTrue(io.write(7, waiting) and io.write(7, waiting))
            self.assertEqual((len(writes.call_args_list[0][0][1]), len(waiting)), (65536, 34464))
        other.close()
        self.assertFalse(io.write(one.fileno(), waiting))
        self.assertEqual(waiting, b"")

    def test_woken(self):
        """Signals arrive over a pipe."""
        before = signal.getsignal(signal.SIGUSR2)
        reader = common_process.woken(signal.SIGUSR2)
        try:
            os.kill(os.getpid(), signal.SIGUSR2)
            self.assertEqual(os.read(reader, 9), bytes([signal.SIGUSR2]))
            self.assertFalse(os.get_blocking(reader))
        finally:
            os.close(signal.set_wakeup_fd(-1))
            signal.signal(signal.SIGUSR2, before)
            os.close(reader)

    def run_with(self, main):
        """Return the status with which a tool ends, or its line."""
        self.words("/x/tool")
        with mock.patch("_signal.signal"), mock.patch.dict(os.environ), self.assertRaises(SystemExit) as way:
            errors.run_tool(main)
        return way.exception.code

    def test_ends(self):
        """A Fault is one printable line and status 1."""
        for fault, code in ((Fault("no\x1b[c\n room"), "tool: no?[c; room"), (OSError(28, "full"), "tool: full"),
                            (KeyboardInterrupt(), 130), (FileNotFoundError(2, "No such file", "/x"), "tool: /x: No such file"),
                            (BrokenPipeError(32, "Broken pipe"), "tool: Broken pipe"),
                            (ValueError("\x1b"), "roam: tool failed: ValueError: ?"), (SystemExit(5), 5)):
            self.assertEqual(self.run_with(mock.Mock(side_effect=fault)), code)
        self.assertEqual((self.run_with(lambda: 3), self.run_with(lambda: None)), (3, None))

    def test_asks(self):
        """Child programs print why they ended, unless the environment already decides."""
        seen = []
        for before, asked in ((None, "1"), ("0", "0")):
            self.environment(ROAM_WHY=before)
            self.run_with(lambda: seen.append(os.environ["ROAM_WHY"]))
            self.assertEqual(seen.pop(), asked)

    def test_nobody_reads(self):
        """Without a reader of its output it ends as if by SIGPIPE."""
        with mock.patch.object(errors, "nobody_reads", return_value=True):
            self.assertEqual(self.run_with(mock.Mock(side_effect=BrokenPipeError(32, "Broken pipe"))), 141)
            self.assertEqual(self.run_with(mock.Mock(side_effect=OSError(28, "full"))), "tool: full")

    def test_dropped(self):
        """The rest of the output is discarded then."""
        reader, writer = os.pipe()
        kept = os.dup(1)
        try:
            os.dup2(writer, 1)
            self.assertFalse(errors.nobody_reads())
            os.close(reader)
            self.assertTrue(errors.nobody_reads())
            os.write(1, b"x")
        finally:
            os.dup2(kept, 1)
            os.close(kept)
            os.close(writer)

    def test_logged(self):
        """An unexpected error is logged in full in the session's folder, if it has a log, and printed in one line."""
        folder = self.made_folder()
        log = folder / "log"
        self.addCleanup(errors.logs.clear)
        errors.log_to(folder)
        self.assertEqual(errors.logs, [])
        log.touch()
        errors.log_to(folder)
        code = self.run_with(lambda: [][0])
        self.assertEqual(code, f"roam: tool failed: IndexError: list index out of range; {log} has more")
        text = log.read_text(encoding="utf-8")
        self.assertTrue(text.startswith(f"tool, process {os.getpid()}:\nTraceback ") and "IndexError: list index out of range\n" in text)

    def test_said(self):
        """A failed message is no error."""
        self.words("/x/tool")
        said = self.heard()
        errors.say("a\x1bb")
        self.assertEqual(said.getvalue(), "tool: a?b\n")
        with mock.patch("sys.stderr", mock.Mock(write=mock.Mock(side_effect=OSError(28, "full")))):
            errors.say("x")
        self.assertEqual(errors.reason(OSError(28, "full")), "full")
        self.assertEqual(errors.reason(Fault("why")), "why")

    def test_lines(self):
        """Lines arrive whole, wherever they are cut."""
        for cut in range(26):
            lines = io.LineReader()
            text = b"1 23 80 1\nfocus 1\n\xc3\xa9\xff\n2 "
            self.assertEqual(lines.fed(text[:cut]) + lines.fed(text[cut:]), ["1 23 80 1", "focus 1", "\u00e9\ufffd"], cut)
        lines = io.LineReader()
        self.assertEqual((lines.fed(b"x" * 65535), lines.fed(b"\n")), ([], ["x" * 65535]))
        self.assertEqual((lines.fed(b"x" * 65536), lines.fed(b"y\nz\n")), ([], ["z"]))
        self.assertEqual((lines.fed(b"x" * 65535), lines.fed(b"y"), lines.fed(b"y" * 70000), lines.fed(b"\n\nz\n")),
                         ([], [], [], ["", "z"]))
        self.assertEqual(lines.fed(b"a\n" + b"x" * 65536 + b"\nb\n"), ["a", "b"])


class Due(Case):
    """Timers that are due."""

    def setUp(self):
        self.stop_clock()

    def test_due(self):
        """A due timer runs once, in any order; a cancelled or postponed one doesn't."""
        moments, done = Loop(), []
        self.assertIsNone(moments.wait_time())
        moments.later("a", 2.0, lambda: done.append("a"))
        moments.later("b", 1.0, lambda: (done.append("b"), moments.drop("c"), moments.later("d", 1.0, lambda: done.append("late"))))
        moments.later("c", 1.5, lambda: done.append("c"))
        moments.later("d", 1.5, lambda: done.append("d"))
        self.assertEqual(moments.wait_time(), 1.0)
        self.now += 0.875
        moments.do_due()
        self.assertEqual(done, [])
        self.now += 0.75
        moments.do_due()
        self.assertEqual((done, moments.wait_time()), (["b"], 0.375))
        self.now += 5
        self.assertEqual(moments.wait_time(), 0.0)
        moments.do_due()
        self.assertEqual((done, moments.wait_time()), (["b", "a", "late"], None))
        moments.drop("none")

    def test_replaced(self):
        moments, done = Loop(), []
        moments.later("a", 1.0, lambda: done.append(1))
        moments.later("a", 3.0, lambda: done.append(2))
        self.now += 1.0
        moments.do_due()
        self.now += 2.0
        moments.do_due()
        self.assertEqual(done, [2])


class Steps(Case):
    """Steps that all run."""

    def test_all(self):
        """All steps run, whatever the others raise, and the first error is raised; but it replaces no exception in flight."""
        done = []

        def fails(name):
            done.append(name)
            raise ValueError(name)

        with self.assertRaisesRegex(ValueError, "^a$"):
            errors.all_done(lambda: fails("a"), lambda: done.append("b"), lambda: fails("c"), lambda: done.append("d"))
        self.assertEqual(done, ["a", "b", "c", "d"])
        with self.assertRaisesRegex(KeyError, "before"):
            try:
                raise KeyError("before")
            finally:
                errors.all_done(lambda: fails("e"), lambda: done.append("f"))
        self.assertEqual(done[4:], ["e", "f"])
        errors.all_done(lambda: done.append("g"))

    def test_unwoken(self):
        """Signals have their default action again."""
        before = {number: signal.getsignal(number) for number in (signal.SIGUSR1, signal.SIGUSR2)}
        self.addCleanup(lambda: [signal.signal(number, action) for number, action in before.items()])
        for number in before:
            signal.signal(number, lambda number, frame: None)
        common_process.unwoken(*before)
        self.assertEqual({signal.getsignal(number) for number in before}, {signal.SIG_DFL})


def state_of(*processes):
    """Return the state of a pty host whose panes run these processes, and one whose command has ended."""
    found = [(one, False) for one in processes] + [(None, False), (8, True)]
    panes = [{"process": process, "has_ended": has_ended} for process, has_ended in found]
    return json.dumps({"windows": {"1": {"panes": dict(enumerate(panes))}}})


class Running(Case):
    """The programs in panes."""

    def proc(self, files):
        """Replace /proc by these files alone."""
        def read(path, *_, **__):
            text = files.get(str(path).removeprefix("/proc/"))
            if text is None:
                raise FileNotFoundError(2, "none")
            return text

        self.patch_of(FilePath, "read_text", read)
        self.patch_of(FilePath, "read_bytes", lambda path: (lambda text: text.encode() if isinstance(text, str) else text)(read(path)))

    def test_busy(self):
        """The panes with a program other than a shell in the foreground, among those of the pty host's state."""
        stat = "({0}) S 1 {1} {1} 34816 {2} 4194304"
        panes = {f"{one}0/environ": f"A=b\0ROAM_PANE=/x:y/main:{one}\0" for one in range(1, 5)}
        self.proc({"/s/host.json": state_of(10, 20, 30, 40, 50), **panes,
                   "10/stat": "10 " + stat.format("sh", 10, 10), "10/comm": "bash\n", "20/stat": "20 " + stat.format("a) (b", 20, 21),
                   "21/comm": "vi\n", "30/stat": "30 " + stat.format("-zsh", 30, 30), "30/comm": "-zsh\n",
                   "40/stat": "40 " + stat.format("sh", 40, 41), "50/stat": "50 " + stat.format("sh", 50, 50), "50/comm": "vi\n"})
        self.environment(SHELL="/opt/mine")
        self.assertEqual(foreground.busy_panes("/s"), {2: "vi", 4: "a program"})
        self.assertIsNone(foreground.busy_panes("/other"))
        self.assertEqual((foreground.foreground(10), foreground.foreground(99)), ("bash", ""))
        self.assertEqual((foreground.pane_of(30), foreground.pane_of(50)), (("/x:y/main", 3), ("", 0)))

    def test_jobs(self):
        """A shell with a stopped job, one in the background or another foreground program is busy, and one alone isn't. Ended processes
        don't count, nor do those that left the session.
        """
        self.environment(SHELL="/opt/mine")
        panes = {f"{one}0/environ": f"ROAM_PANE=/w:{one}\0" for one in range(1, 7)}
        numbers = "7 10 11 12 20 21 22 23 30 31 40 41 42 50 51 60 62 self 99"
        self.patch_of(foreground.os, "listdir", return_value=numbers.split())
        stats = {10: "bash S 10 10 10", 11: "vim T 11 10 10", 12: "rg T 11 10 10", 20: "zsh S 20 20 20", 21: "(a) S 21 20 20",
                 22: "make S 22 20 20", 23: "cc Z 23 20 20", 30: "bash S 30 30 30", 31: "old Z 31 30 30", 40: "sh S 40 40 41",
                 41: "fish S 41 40 41", 42: "vi T 42 40 41", 50: "sh S 50 50 50", 51: "apart S 51 51 51", 60: "htop S 60 60 60",
                 62: "cat S 61 60 60", 99: "other S 99 98 -1"}
        for number, text in stats.items():
            name, state, group, session, front = text.split()
            stats[number] = f"{number} ({name}) {state} 7 {group} {session} 34817 {front} 4194304 1 0"
        names = {f"{number}/comm": text.partition("(")[2].rpartition(")")[0] + "\n" for number, text in stats.items()}
        texts = {f"{number}/stat": text for number, text in stats.items()}
        self.proc({"/s/host.json": state_of(10, 20, 30, 40, 50, 60), **panes, **texts, **names})
        self.assertEqual([foreground.jobs_of([leader])[leader] for leader in (10, 20, 30, 40, 50, 60, 70)],
                         [["vim (stopped)"], ["(a) (background)", "make (background)"], [], ["fish", "vi (stopped)"], [],
                          ["cat (background)"], []])
        self.assertEqual(foreground.busy_panes("/s"), {1: "vim (stopped)", 2: "(a) (background), make (background)",
                                                       4: "fish, vi (stopped)", 6: "htop, cat (background)"})

    def test_many_jobs(self):
        """A question names three jobs of a pane, and the number of further ones."""
        self.proc({"10/stat": "10 (bash) S 7 10 10 34817 10 4194304", "10/comm": "bash\n"})
        for count, told in ((1, "a0"), (3, "a0, a1, a2"), (5, "a0, a1, a2 and 2 more")):
            self.assertEqual(foreground.running("10", [f"a{place}" for place in range(count)]), told)
        self.assertEqual(foreground.running("11", ["vi"]), "")

    def test_host(self):
        self.environment(SHELL="/opt/mine")
        found = [foreground.is_shell(name) for name in ("sh", "-bash", "fish", "mine", "vi", "shx", "")]
        self.assertEqual(found, [True, True, True, True, False, False, False])

    def test_told(self):
        self.assertEqual(foreground.told({2: "vi", 1: "less"}), "less in pane 1 and vi in pane 2")

    def test_cut_stat(self):
        """A process with an incomplete stat file counts as none."""
        self.proc({"10/stat": "10 (sh) S 1"})
        self.assertEqual(foreground.foreground(10), "")


class Numbers(Case):
    """The numbers in the documents: README, roam-mux(1), PROTOCOL and the help texts."""

    def test_holder(self):
        """The process that locked a folder is known from the system's list of locks."""
        folder = self.made_folder()
        self.assertEqual((common_process.holder_of(folder), common_process.holder_of(folder / "none")), (None, None))
        holds = "import fcntl, os, sys, time; fcntl.flock(os.open(sys.argv[1], 0), 2); print(flush=True); time.sleep(60)"
        other = self.process(sys.executable, "-c", holds, str(folder), stdout=subprocess.PIPE)
        self.addCleanup(other.stdout.close)
        other.stdout.readline()
        self.assertEqual((common_process.holder_of(folder), common_files.is_locked(folder)), (other.pid, True))
        other.kill()
        other.wait()
        self.assertEqual((common_process.holder_of(folder), common_files.is_locked(folder)), (None, False))

    def test_age(self):
        """The age of a process."""
        self.assertTrue(0 <= common_process.age_of(self.process().pid) < 30)
        self.assertEqual(common_process.age_of(0), 0.0)

    def test_full(self):
        """A disk is full if it has no blocks or no inodes left; one that counts neither never is."""
        for blocks, left, files, free, wanted in ((9, 0, 9, 9, True), (9, 9, 9, 0, True), (9, 1, 9, 1, False), (0, 0, 0, 0, False)):
            found = mock.Mock(f_blocks=blocks, f_bavail=left, f_files=files, f_favail=free)
            with mock.patch("os.statvfs", return_value=found) as asked:
                self.assertIs(common_files.is_disk_full("/x/y/terminals"), wanted)
            asked.assert_called_once_with("/x/y")
        self.assertFalse(common_files.is_disk_full("/nowhere/at/all"))

    def test_limits(self):
        self.assertEqual((unix_socket.LONGEST_WAIT, unix_socket.SAID_AFTER, io.UNREAD_LIMIT, io.LONGEST_LINE), (10.0, 0.5, 65536, 65536))
        self.assertEqual((common_files.LOG_LIMIT, common_files.KEPT, common_text.SAID_LIMIT), (1 << 20, 1 << 19, 64 * 1024))
        self.assertEqual((environment.PREFIX, environment.PREDICTION), ("C-b", ("adaptive", "always", "never")))
        codes = {"C-a": 1, "C-z": 26, "C-]": 29, "C-\\": 28, "C-^": 30, "C-_": 31}
        self.assertEqual({name: ord(environment.PREFIXES[name]) for name in codes}, codes)

    def test_pauses(self):
        """A client is restarted after 0.1 s, a pty host after 0.3 s, and then after growing pauses; a folder is marked as used every six
        hours.
        """
        self.assertEqual(retry.PAUSES, (0.1, 1, 2, 4, 8, 15))
        self.assertEqual((host_watchdog.PAUSES, retry.SOUND, panes_client.QUIET), ((0.3, 1, 2, 4, 8, 15), 5.0, 3.0))
        self.assertEqual((tmp_keepalive.USED_EACH, tmp_keepalive.LOOKS), (6 * 60 * 60, 60))

    def test_relay(self):
        """A relay stays alone for an hour, its far end for half a minute; seven seconds are silence; `ls` reports more than 32 starts."""
        self.assertEqual((remote.ALONE, session_folder.MANY_CLIENTS), (3600, 32))
        self.assertEqual((near.SILENT, far.ALONE, common.PEER_LIMIT, frames.HEARTBEAT), (7.0, 30.0, 256, 3.0))
        self.assertEqual((frames.VERSION, frames.NOISE_LIMIT, frames.MOST_TOLD, frames.WAITING_LIMIT), (2, 65536, 4097, 4 << 20))

    def test_wide(self):
        """A datagram has 43 to 1,242 bytes: a header of 42, and 1 to 1,200 after it."""
        self.assertEqual((datagram_stream.SHORTEST, datagram_stream.LONGEST), (42 + 1, 42 + 1200))
