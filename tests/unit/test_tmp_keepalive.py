"""The protection of a session's folder from a cleaner of old files."""
import os
import pathlib
import socket
import stat
import tempfile
import unittest

from roam_live.common.files import is_locked
from roam_live.session.tmp_keepalive import USED_EACH, Lasting

OLD = 1_000_000.0


class Lasts(unittest.TestCase):
    """A folder with a session's files, all of them old."""

    def setUp(self):
        made = tempfile.TemporaryDirectory()
        self.addCleanup(made.cleanup)
        self.folder = pathlib.Path(made.name, "main")
        self.fill()
        self.now = 5 * OLD
        self.lasting = Lasting(str(self.folder), lambda: self.now)

    def fill(self):
        """Create the folder."""
        (self.folder / "relays").mkdir(parents=True)
        (self.folder / "w/2").mkdir(parents=True)
        for name in ("state.json", "log", "lock", "front_ends", "relays/ab", "w/last", "w/2/name"):
            (self.folder / name).touch()
        (self.folder / "session").write_text("5e55\n", encoding="utf-8")
        listener = socket.socket(socket.AF_UNIX, socket.SOCK_STREAM)
        listener.bind(str(self.folder / "clients"))
        self.addCleanup(listener.close)
        self.age()

    def age(self):
        """Make all of it old."""
        for path in [self.folder, *self.folder.rglob("*")]:
            os.utime(path, (OLD, OLD), follow_symlinks=False)

    def old(self):
        """Return the old files."""
        paths = [self.folder, *self.folder.rglob("*")]
        return [path.name for path in paths if path.lstat().st_mtime == OLD or path.lstat().st_atime == OLD]

    def look(self):
        """Check now."""
        self.lasting.due = 0.0
        return self.lasting.turn()

    def test_used(self):
        """All of it is marked as used, at first and then every six hours: the folder, its sockets, the notes of clients, and windows."""
        self.assertTrue(self.look())
        self.assertEqual(self.old(), [])
        self.age()
        self.now += USED_EACH - 1
        self.look()
        self.assertIn("state.json", self.old())
        self.now += 1
        self.look()
        self.assertEqual(self.old(), [])

    def test_held(self):
        """It is locked while the process is there, even if another process had the lock at first, and so is its own replacement; a window's
        folder isn't. No descriptor leaks.
        """
        before = os.listdir("/proc/self/fd")
        other = Lasting(str(self.folder))
        other.hold()
        self.look()
        self.assertTrue(is_locked(self.folder))
        self.assertLess(self.lasting.held, 0)
        other.let_go()
        self.assertFalse(is_locked(self.folder))
        self.look()
        self.assertTrue(is_locked(self.folder))
        self.folder.rename(self.folder.with_name("kept"))
        self.folder.mkdir()
        self.assertEqual((self.look(), is_locked(self.folder)), (False, False))
        self.lasting.own = self.lasting.found()
        self.assertEqual((self.look(), is_locked(self.folder), is_locked(self.folder.with_name("kept"))), (True, True, False))
        (self.folder / "w/2").mkdir(parents=True)
        window = Lasting(str(self.folder / "w/2"))
        self.assertEqual((window.turn(), is_locked(self.folder / "w/2")), (True, False))
        self.lasting.let_go()
        self.assertEqual((os.listdir("/proc/self/fd"), is_locked(self.folder)), (before, False))
        Lasting("/no/such/folder").hold()

    def test_clock(self):
        """The same if the wall clock was set back."""
        self.look()
        self.age()
        self.now -= 400 * USED_EACH
        self.look()
        self.assertEqual(self.old(), [])

    def test_session_id(self):
        """The session's id is restored, for this user alone."""
        self.look()
        (self.folder / "session").unlink()
        self.look()
        self.assertEqual((self.folder / "session").read_text(encoding="utf-8"), "5e55\n")
        self.assertEqual(stat.S_IMODE((self.folder / "session").stat().st_mode), 0o600)
        self.assertEqual([path.name for path in self.folder.iterdir() if path.name.startswith("session.")], [])

    def test_another_folder(self):
        """A replacement of the folder by another session is left alone."""
        self.look()
        kept = self.folder.with_name("kept")
        self.folder.rename(kept)
        self.fill()
        (self.folder / "session").unlink()
        self.age()
        self.now += USED_EACH
        self.assertFalse(self.look())
        self.assertIn("state.json", self.old())
        self.assertFalse((self.folder / "session").exists())
        with self.assertRaisesRegex(FileNotFoundError, "the session's folder was removed"):
            self.lasting.demand()

    def test_gone(self):
        """A missing folder is no error."""
        self.lasting.demand()
        self.folder.rename(self.folder.with_name("away"))
        self.assertFalse(self.look())
        with self.assertRaisesRegex(FileNotFoundError, "the session's folder was removed"):
            self.lasting.demand()
        self.assertFalse(Lasting("/no/such/folder").turn())
