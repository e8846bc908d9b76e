"""The outer terminal: its modes, sizes and names, and its output."""
import contextlib
import errno
import fcntl
import gc
import os
import pty
import select
import signal
import struct
import termios
from unittest import mock

from aids import Case, read_now
from roam_live.common import spawn, tty


class Resets(Case):
    """The replacement of a reset."""

    def test_erases(self):
        """It has no reset, which would erase the user's own scrollback, and ends with everything erased and the cursor at home."""
        for text in (tty.CLEARED, tty.ENTERED, tty.LEFT):
            self.assertNotIn(b"\x1bc", text)
            self.assertNotIn(b"\x1b[3J", text)
        self.assertTrue(tty.CLEARED.endswith(b"\x1b[2J\x1b[H"))
        self.assertTrue(tty.ENTERED.startswith(b"\x1b[?1049h\x1b[?2004h"))
        self.assertTrue(tty.LEFT.endswith(b"\x1b[?1049l") and b"\x1b[?2004l" in tty.LEFT)

    def test_unwrapped(self):
        self.assertEqual(tty.unwrapped("a\ud800"), b"\x1b[?7la?\x1b[?7h")


class Sizes(Case):
    """The sizes of a session, and a terminal that shows a part of it."""

    def test_limits(self):
        """A session has 4 to 200 rows and 8 to 500 columns."""
        for size, is_large in (((4, 8), True), ((3, 8), False), ((4, 7), False), ((300, 7), False), ((300, 600), True)):
            self.assertEqual(tty.is_large_enough(size), is_large, size)
        self.assertEqual(tty.largest((300, 600)), (200, 500))
        self.assertEqual(tty.largest((24, 80)), (24, 80))
        self.assertEqual(tty.size_act((300, 80)), "size 200 80")
        self.assertEqual((tty.LEAST, tty.MOST, tty.LEAST_SHOWN), ((4, 8), (200, 500), (3, 4)))


class Modes(Case):
    """The modes of a pseudo-terminal."""

    def setUp(self):
        self.master, self.slave = pty.openpty()
        for end in (self.master, self.slave):
            self.addCleanup(os.close, end)

    def test_raw(self):
        """Each byte arrives unchanged, and finally the modes are restored."""
        before = termios.tcgetattr(self.slave)
        self.assertEqual(tty.make_raw(self.slave), before)
        os.write(self.master, b"\x03\x1a\r\x13\x04x\x7f\x16\x0f")
        self.assertEqual(os.read(self.slave, 64), b"\x03\x1a\r\x13\x04x\x7f\x16\x0f")
        os.write(self.slave, b"a\nb")
        self.assertEqual(os.read(self.master, 64), b"a\nb")
        os.write(self.master, b"rm -rf x\n")
        select.select([self.slave], [], [], 10)
        tty.restore(self.slave, before)
        self.assertEqual(termios.tcgetattr(self.slave), before)
        os.set_blocking(self.slave, False)
        with self.assertRaises(BlockingIOError):
            os.read(self.slave, 64)

    def test_bits(self):
        """It changes the modes that POSIX names for it, and no others."""
        modes = [-1, -1, -1 & ~termios.CSIZE | termios.CS7, -1, 1, 2, [b"\x09"] * 32]
        found = tty.raw(list(modes))
        off = termios.BRKINT | termios.ICRNL | termios.INLCR | termios.IGNCR | termios.INPCK | termios.ISTRIP | termios.IXON
        self.assertEqual(found[0], ~off)
        self.assertEqual(found[1], ~termios.OPOST)
        self.assertEqual(found[2] & (termios.CSIZE | termios.PARENB), termios.CS8)
        self.assertEqual(found[3], ~(termios.ECHO | termios.ICANON | termios.IEXTEN | termios.ISIG))
        self.assertEqual((found[6][termios.VMIN], found[6][termios.VTIME], found[4:6]), (1, 0, [1, 2]))

    def test_no_terminal(self):
        """A file that is no terminal can't be made raw, and its restoration is no error."""
        reader, _ = self.pipe()
        self.assertIsNone(tty.make_raw(reader))
        tty.restore(reader, [0] * 6 + [[b"\0"] * 32])

    def test_interrupted(self):
        """After an interrupting signal it tries again; another error is raised."""
        interrupted = termios.error(errno.EINTR, "Interrupted")
        with mock.patch("termios.tcsetattr", side_effect=[interrupted, interrupted, None]) as sets:
            tty.set_modes(self.slave, termios.TCSADRAIN, [])
            self.assertEqual(sets.call_args_list, [mock.call(self.slave, termios.TCSADRAIN, [])] * 3)
        with mock.patch("termios.tcsetattr", side_effect=termios.error(errno.EIO, "gone")), self.assertRaises(termios.error):
            tty.set_modes(self.slave, termios.TCSADRAIN, [])

    def test_size(self):
        """A size is set and returned; a terminal without one has 24 by 80."""
        tty.set_size(self.slave, 33, 101)
        self.assertEqual(tty.size_of(self.master), (33, 101))
        self.assertEqual(struct.unpack("HHHH", fcntl.ioctl(self.slave, termios.TIOCGWINSZ, bytes(8))), (33, 101, 0, 0))
        tty.set_size(self.slave, 0, 0)
        self.assertEqual(tty.size_of(self.slave), (24, 80))

    def test_opened(self):
        """A second descriptor of a terminal doesn't block; one without a name is duplicated."""
        for end in (self.slave, self.pipe()[1]):
            opened = tty.opened_for_writing(end)
            self.addCleanup(os.close, opened)
            self.assertNotEqual(opened, end)
        again = tty.opened_for_writing(self.slave)
        self.addCleanup(os.close, again)
        self.assertFalse(os.get_blocking(again))
        self.assertTrue(os.get_blocking(self.slave))

    def test_opened_controlling(self):
        """If its name can't be opened, the controlling terminal of this process is used."""
        opened, flags = [], os.O_WRONLY | os.O_NOCTTY | os.O_NONBLOCK
        self.patch("os.ttyname", return_value="/dev/pts/9")
        dups = self.patch("os.dup", return_value=7)
        for is_controlling, names in ((True, ["/dev/pts/9", "/dev/tty"]), (False, ["/dev/pts/9"])):
            opened.clear()

            def opens(name, found):
                opened.append(name)
                self.assertEqual(found, flags)
                if name == "/dev/pts/9":
                    raise PermissionError(errno.EACCES, "denied")
                return 8

            with mock.patch("os.open", opens), mock.patch("os.tcgetpgrp", side_effect=None if is_controlling else OSError(25, "none")):
                self.assertEqual(tty.opened_for_writing(3), 8 if is_controlling else 7)
            self.assertEqual((opened, dups.call_count), (names, not is_controlling))

    def test_frozen(self):
        """Neither raw mode nor its end waits until the terminal has shown all output."""
        with mock.patch("termios.tcsetattr") as sets:
            before = tty.make_raw(self.slave)
            tty.restore(self.slave, before)
        self.assertEqual([call[0][1] for call in sets.call_args_list], [termios.TCSANOW] * 2)


class Commands(Case):
    """The execution of a command."""

    def test_become(self):
        """It erases UTF-8 characters, and receives all signals."""
        master, slave = pty.openpty()
        for end in (master, slave):
            self.addCleanup(os.close, end)
        wakes, handles = self.patch("_signal.set_wakeup_fd"), self.patch("_signal.signal")
        runs = self.patch("os.execvpe")
        gets = self.patch("termios.tcgetattr", return_value=[0, 1, 2])
        sets = self.patch("termios.tcsetattr")
        spawn.become(["sh", "-c", "x"], {"A": "b"})
        gets.assert_called_once_with(0)
        sets.assert_called_once_with(0, termios.TCSANOW, [0o40000, 1, 2])
        wakes.assert_called_once_with(-1)
        self.assertEqual({call[0] for call in handles.call_args_list}, {(number, signal.SIG_DFL) for number in spawn.SIGNALS})
        for number in (signal.SIGCHLD, signal.SIGTERM, signal.SIGHUP, signal.SIGINT, signal.SIGPIPE):
            self.assertIn(number, spawn.SIGNALS)
        self.assertEqual(runs.call_args_list[0][0], ("sh", ["sh", "-c", "x"], {"A": "b"}))

    def test_instead(self):
        """A failure is reported, and another shell runs, under its name as the shell."""
        for name in ("_signal.set_wakeup_fd", "_signal.signal"):
            self.patch(name)
        self.patch("termios.tcgetattr", side_effect=termios.error(5, "gone"))
        runs = self.patch("os.execvpe", side_effect=[FileNotFoundError(2, "No such file or directory"), None])
        writes = self.patch("os.write")
        spawn.become(["/no\x1b[c"], {"A": "b"}, "/bin/sh")
        self.assertEqual(writes.call_args[0], (2, b"/no?[c: No such file or directory; this is /bin/sh\n"))
        self.assertEqual(runs.call_args[0], ("/bin/sh", ["/bin/sh"], {"A": "b", "SHELL": "/bin/sh"}))

    def forked(self, size):
        """Return the terminal that a forked shell reports, and its process."""
        process, master = spawn.forked(size)
        if process == 0:
            os.execvp("sh", ["sh", "-c", "stty size; tty; ps -o sid= -p $$; ls -l /proc/$$/fd | grep -c ptmx"])
        text = b""
        with contextlib.suppress(OSError):
            while True:
                text += os.read(master, 65536)
        os.close(master)
        os.waitpid(process, 0)
        return process, text.decode().split()

    def test_forked(self):
        """A process on a terminal of its own has its size from the start, and no descriptor of the other end."""
        process, words = self.forked((7, 33))
        self.assertEqual((words[:2], words[2].startswith("/dev/pts/"), int(words[3])), (["7", "33"], True, process))
        self.assertEqual(words[4], "0")

    def test_signalled(self):
        """A signal to a just forked process ends that one, and does not reach this one's own pipe, for example if a new pane is closed at
        once.
        """
        reader, writer = self.pipe()
        before = signal.signal(signal.SIGHUP, lambda number, frame: None), signal.set_wakeup_fd(writer, warn_on_full_buffer=False)
        self.addCleanup(lambda: (signal.set_wakeup_fd(before[1]), signal.signal(signal.SIGHUP, before[0])))
        for takes in (lambda slave: os.kill(os.getpid(), signal.SIGHUP), lambda slave: signal.pause()):
            with mock.patch.object(spawn, "take", takes):
                process, master = spawn.forked((7, 33))
            if process == 0:
                os._exit(0)
            os.kill(process, signal.SIGHUP)
            self.assertEqual(os.waitpid(process, 0)[1], signal.SIGHUP)
            os.close(master)
            self.assertEqual(read_now(reader), b"")
        os.kill(os.getpid(), signal.SIGHUP)
        self.assertEqual(read_now(reader), bytes([signal.SIGHUP]))

    def test_not_forked(self):
        """Without a process or a size no descriptor leaks."""
        # Leftovers of other tests are closed first.
        gc.collect()
        before = sorted(os.listdir("/proc/self/fd"))
        for name in ("os.fork", "roam_live.common.spawn.set_size"):
            with mock.patch(name, side_effect=OSError(11, "none")), self.assertRaises(OSError):
                spawn.forked((7, 33))
        self.assertEqual(sorted(os.listdir("/proc/self/fd")), before)

    def test_not_run(self):
        writes, runs = self.patch("os.write"), self.patch("os.execvpe", side_effect=PermissionError(13, "Permission denied"))
        spawn.execute(["x", "y"], {})
        self.assertEqual(writes.call_args[0], (2, b"x: Permission denied\n"))
        runs.assert_called_once_with("x", ["x", "y"], {})


class Names(Case):
    """TERM of a pane: tmux-256color, else screen-256color, else vt220, the first that this machine has."""

    def setUp(self):
        self.folder = self.made_folder()
        self.patch_of(spawn, "FOLDERS", (str(self.folder / "system"),))
        self.environment(HOME=str(self.folder / "home"), TERMINFO=None, TERMINFO_DIRS=None)

    def enter(self, place, name):
        """Create an entry in a folder, below its first letter or that letter's number."""
        path = self.folder / place / name
        path.parent.mkdir(parents=True, exist_ok=True)
        path.touch()

    def test_first(self):
        self.assertEqual(spawn.names(), {"TERM": "vt220", "COLORTERM": "truecolor"})
        self.enter("system/s", "screen-256color")
        self.assertEqual(spawn.names()["TERM"], "screen-256color")
        self.enter("system/t", "tmux-256color")
        self.assertEqual(spawn.names()["TERM"], "tmux-256color")

    def test_places(self):
        """It is searched in the folders of terminfo: in TERMINFO, the home, TERMINFO_DIRS, and by a letter or its number."""
        places = (("own/74", {"TERMINFO": "own"}), ("home/.terminfo/t", {}), ("b/t", {"TERMINFO_DIRS": "a:b"}))
        for place, words in places:
            with self.subTest(place):
                self.enter(place, "tmux-256color")
                more = {name: ":".join(str(self.folder / word) for word in text.split(":")) for name, text in words.items()}
                with mock.patch.dict(os.environ, more):
                    self.assertTrue(spawn.has_entry("tmux-256color"))
                    self.assertFalse(spawn.has_entry("tmux"))
                (self.folder / place / "tmux-256color").unlink()
                self.assertFalse(spawn.has_entry("tmux-256color"))

    def test_empty(self):
        """An empty folder name isn't the root."""
        self.environment(TERMINFO="", TERMINFO_DIRS="::")
        with mock.patch("os.path.exists", return_value=False) as looks:
            self.assertFalse(spawn.has_entry("vt220"))
        self.assertFalse([call for call in looks.call_args_list if call[0][0].startswith("/v/") or call[0][0].startswith("/76/")])
