"""Connections of the tools: the peer's user, and no wait for a listener that accepts nothing."""
import contextlib
import io
import os
import pathlib
import socket
import tempfile
import time
import unittest
from unittest import mock

from roam_live.common import errors, files, io as common_io, unix_socket
from roam_live.common.unix_socket import listening
from roam_live.session import front_end_lock


class Connections(unittest.TestCase):
    """A socket in a folder of its own."""

    def setUp(self):
        made = tempfile.TemporaryDirectory()
        self.addCleanup(made.cleanup)
        self.path = pathlib.Path(made.name, "here")
        self.listener = socket.socket(socket.AF_UNIX, socket.SOCK_STREAM)
        self.addCleanup(self.listener.close)
        self.listener.bind(str(self.path))

    def fill(self):
        """Fill the listener's queue with connections that stay until the test ends."""
        self.listener.listen(1)
        with self.assertRaises(BlockingIOError):
            while True:
                self.addCleanup(unix_socket.connected_now(self.path).close)

    def test_own(self):
        """The listener is known: this process, of this user."""
        self.listener.listen()
        with unix_socket.connected_now(self.path) as end:
            self.assertEqual(unix_socket.SocketPeer.of(end), (os.getpid(), os.getuid()))
            with self.listener.accept()[0] as taken:
                self.assertTrue(unix_socket.is_own_peer(taken))
                self.assertEqual(unix_socket.SocketPeer.of(taken).process, os.getpid())

    def test_another_user(self):
        """Another user's socket is refused with that user's name, also for the superuser and for a socket of the superuser."""
        self.listener.listen()
        there = os.getuid()
        for own in {0, 1, 54321} - {there}:
            with mock.patch("os.getuid", return_value=own):
                with self.assertRaises(PermissionError) as refused:
                    unix_socket.connected_now(self.path)
                self.assertEqual(errors.reason(refused.exception), f"user {there} listens there instead of you")
                self.assertFalse(unix_socket.is_listened(self.path))
                self.assertEqual(unix_socket.unheard(self.path), f"user {there} listens there instead of you")
                with self.assertRaisesRegex(errors.Fault, f"user {there} listens there"):
                    unix_socket.connected(self.path)

    def test_one_who_connects(self):
        """A peer of another user is recognized, and so is a socket that isn't a Unix one."""
        one, other = socket.socketpair()
        with one, other, mock.patch("os.getuid", return_value=54321):
            self.assertFalse(unix_socket.is_own_peer(one))
        with socket.socket(socket.AF_INET, socket.SOCK_DGRAM) as end:
            self.assertFalse(unix_socket.is_own_peer(end))

    def test_full(self):
        """A busy listener counts as present, and nobody waits for it longer than requested."""
        self.fill()
        before = time.monotonic()
        self.assertTrue(unix_socket.is_listened(self.path))
        with self.assertRaises(BlockingIOError):
            unix_socket.connected_now(self.path)
        self.assertLess(time.monotonic() - before, 1)
        with self.assertRaises(BlockingIOError):
            unix_socket.connected_in(self.path, 0.05)
        self.assertGreaterEqual(time.monotonic() - before, 0.05)

    def test_nobody(self):
        """Nobody listens if there is no file, or a stale one."""
        self.assertFalse(unix_socket.is_listened(self.path.with_name("none")))
        self.listener.listen()
        self.listener.close()
        self.assertFalse(unix_socket.is_listened(self.path))

    def test_listening(self):
        """A socket's file is never taken from a listener."""
        self.listener.listen()
        with self.assertRaisesRegex(errors.Fault, "another process already listens at "):
            listening(str(self.path))
        self.assertTrue(unix_socket.is_listened(self.path))
        self.listener.close()
        with listening(str(self.path)):
            self.assertTrue(unix_socket.is_listened(self.path))


class Lines(unittest.TestCase):
    """Lines of a stream."""

    def test_bounded(self):
        """A line without an end isn't stored forever, and the next one is read."""
        lines = common_io.LineReader()
        for _ in range(40):
            self.assertEqual(lines.fed(b"x" * 4096), [])
        self.assertLess(len(lines.kept), common_io.LONGEST_LINE)
        self.assertEqual(lines.fed(b"\nfocus 1\n")[-1], "focus 1")


class Kept(unittest.TestCase):
    """Unread input."""

    def test_limit(self):
        """65,536 bytes wait, and no more."""
        waiting = bytearray()
        self.assertTrue(common_io.keep(waiting, b"x" * 65536))
        self.assertFalse(common_io.keep(waiting, b"y"))
        self.assertEqual(waiting, b"x" * 65536)
        del waiting[:2]
        self.assertTrue(common_io.keep(waiting, b"yz"))
        self.assertEqual(waiting[-3:], b"xyz")
        self.assertTrue(common_io.keep(waiting, b""))

    def test_characters(self):
        """A character that doesn't fit is not stored in part."""
        for room in range(5):
            waiting = bytearray(65536 - room)
            self.assertEqual(common_io.keep(waiting, "\u20ac".encode()), room >= 3)
            self.assertEqual(len(waiting), 65536 - room + (3 if room >= 3 else 0))


class Folders(unittest.TestCase):
    """The owners of folders."""

    def test_own(self):
        """A folder of this user is its own, also by its own link; a missing one, a file, and another user's are not."""
        with tempfile.TemporaryDirectory() as made:
            link, file = pathlib.Path(made, "link"), pathlib.Path(made, "file")
            link.symlink_to(made)
            file.touch()
            self.assertEqual([files.is_own_folder(path) for path in (made, link, file, f"{made}/none")], [True, True, False, False])
            with mock.patch("os.getuid", return_value=54321):
                self.assertFalse(files.is_own_folder(made))
                said = io.StringIO()
                with contextlib.redirect_stderr(said):
                    self.assertIsNone(front_end_lock.opened(made))
                self.assertIn("is not a directory of yours: nothing is logged there", said.getvalue())
                self.assertEqual(sorted(path.name for path in pathlib.Path(made).iterdir()), ["file", "link"])
