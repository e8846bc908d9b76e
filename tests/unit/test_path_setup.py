"""The setup of an encrypted path: names, keys and notes; a process that outlives its command; and lookups of the other end."""
import errno
import gc
import os
import pathlib
import signal
import socket
import subprocess
import sys
import threading
import unittest
from unittest import mock

from aids import Case, comes
from roam_live.common.process import TOOLS, begun
from roam_live.relay import path_setup
from roam_live.relay.aead_packets import AeadPackets, udp_end
from roam_live.relay.path_setup import (AEAD_HEAD, ASKS_AGAIN, Finder, NearPath, address_in, forget_note, is_wanted, kept_name, made_path,
                                        name_in, near_path, noted, part_from_command, take_over, wish)
from test_aead_packets import Foolish


class Asks(Case):
    """A near end's requests, and the answers about a path."""

    def setUp(self):
        self.environment(ROAM_UDP=None, SSH_CONNECTION=None)
        self.patch_of(path_setup, "hide_memory")
        self.patch_of(path_setup, "cipher", return_value=Foolish)
        self.folder = self.made_folder()

    def end(self):
        """Return a UDP socket."""
        end = udp_end()
        self.addCleanup(end.close)
        return end

    def test_wanted(self):
        """A path is wanted unless the environment says never or the library is missing."""
        self.assertTrue(is_wanted())
        for word, wanted in (("never", False), ("", True), ("always", True)):
            self.environment(ROAM_UDP=word)
            self.assertEqual(is_wanted(), wanted, word)
        self.environment(ROAM_UDP=None)
        self.patch_of(path_setup, "cipher", return_value=None)
        self.assertFalse(is_wanted())
        self.assertIsNone(near_path(AEAD_HEAD.pack(b"s", 1, 60000, bytes(32))))
        end = udp_end()
        self.assertIsNone(made_path(end))
        self.assertEqual(end.fileno(), -1)

    def test_name(self):
        """A name is 8 random bytes, stored in the folder; an unreadable one is replaced; if none can be written there still is one."""
        name = kept_name(str(self.folder))
        self.assertEqual((len(name), kept_name(str(self.folder))), (8, name))
        self.assertEqual((self.folder / "name").read_text(encoding="ascii"), name.hex())
        for wrong in ("", "zz", "00", "\xff"):
            (self.folder / "name").write_text(wrong, encoding="latin-1")
            name = kept_name(str(self.folder))
            self.assertEqual((len(name), kept_name(str(self.folder))), (8, name))
        with mock.patch.object(path_setup, "replace_text", side_effect=OSError(errno.ENOSPC, "full")):
            (self.folder / "name").unlink()
            self.assertEqual(len(kept_name(str(self.folder))), 8)
        self.assertNotEqual(kept_name(None), kept_name(None))

    def test_wish(self):
        """A request has a version and a name; another version is no request."""
        self.assertEqual(wish(b"12345678"), b"w\x0112345678")
        self.assertEqual(name_in(wish(b"12345678")), b"12345678".hex())
        for text in (b"w", b"w\x02" + bytes(8), b"w\x01" + bytes(7), b"w\x01" + bytes(9), b"w" + bytes(9)):
            self.assertEqual(name_in(text), "", text)

    def test_told(self):
        """The far end reports version, port, key and the address that the command came to; the near end's path goes there."""
        self.environment(SSH_CONNECTION="10.0.0.1 4000 10.0.0.2 22")
        end = udp_end((60999, 60998, 60997))
        self.addCleanup(end.close)
        path, told = made_path(end)
        kind, version, port, key = AEAD_HEAD.unpack_from(told)
        self.assertEqual((kind, version, port, told[AEAD_HEAD.size :]), (b"s", 1, end.getsockname()[1], b"10.0.0.2"))
        self.assertEqual((path.aead.cipher.key, path.aead.is_near), (key, False))
        near = near_path(told)
        self.addCleanup(near.close)
        self.assertEqual((near.aead.cipher.key, near.aead.is_near, near.port, near.address), (key, True, port, "10.0.0.2"))
        for words, address in (("", b""), ("only three words", b""), ("a b fe80::1%eth0 22", b"fe80::1%eth0")):
            self.environment(SSH_CONNECTION=words)
            self.assertEqual(made_path(end)[1][AEAD_HEAD.size :], address)
        self.assertNotEqual(made_path(end)[1], made_path(end)[1])

    def test_told_wrong(self):
        """A path of another version, of an invalid port, or cut, is none; nor is one without a socket."""
        right = AEAD_HEAD.pack(b"s", 1, 60000, bytes(32))
        for text in (b"s", right[:-1], AEAD_HEAD.pack(b"s", 2, 60000, bytes(32)), AEAD_HEAD.pack(b"s", 1, 53, bytes(32)),
                     AEAD_HEAD.pack(b"s", 1, 61001, bytes(32))):
            self.assertIsNone(near_path(text), text)
        with mock.patch.object(path_setup, "udp_end", return_value=None):
            self.assertIsNone(near_path(right))
        near = near_path(right + b"evil.example")
        self.addCleanup(near.close)
        self.assertEqual(near.address, "")

    def test_address(self):
        """An address is one of either family; a name chosen by another machine is none."""
        for word in ("10.0.0.2", "::1", "fe80::1%eth0"):
            self.assertEqual(address_in(word.encode()), word)
        for word in (b"", b"host.example", b"10.0.0", b"\xff\xfe", b"::1 ", b"%eth0"):
            self.assertEqual(address_in(word), "", word)

    def test_takes_over(self):
        """A newer far end of a near end ends the one before, and records itself; notes of ended ones are removed."""
        notes = self.folder / "relays"
        before, other = self.process(), self.process()
        notes.mkdir()
        (notes / "ab").write_text(f"{before.pid} {begun(before.pid)}\n", encoding="ascii")
        (notes / "cd").write_text(f"{other.pid} {begun(other.pid)}\n", encoding="ascii")
        (notes / "ef").write_text("1 1\n", encoding="ascii")
        note = take_over(str(self.folder), "ab")
        self.assertEqual(before.wait(10), -signal.SIGTERM)
        self.assertEqual((noted(note), sorted(path.name for path in notes.iterdir()), other.poll()), (os.getpid(), ["ab", "cd"], None))
        self.assertEqual(take_over(str(self.folder), "ab"), note)
        forget_note(note)
        forget_note(None)
        self.assertFalse(note.exists())
        forget_note(notes / "cd")
        self.assertTrue((notes / "cd").exists())

    def test_takes_over_refused(self):
        """A process with another start time isn't ended, nor is one that can't be opened; a failed write is reported."""
        notes = self.folder / "relays"
        other = self.process()
        notes.mkdir()
        for text in (f"{other.pid} 1\n", "x\n", "", "\xff", "1 2 3\n"):
            (notes / "ab").write_text(text, encoding="latin-1")
            self.assertEqual(noted(notes / "ab"), 0)
            self.assertTrue(take_over(str(self.folder), "ab"))
        (notes / "ab").write_text(f"{other.pid} {begun(other.pid)}\n", encoding="ascii")
        with mock.patch("os.pidfd_open", side_effect=OSError(errno.ESRCH, "no")):
            self.assertTrue(take_over(str(self.folder), "ab"))
        self.assertIsNone(other.poll())
        said = self.heard()
        with mock.patch.object(path_setup, "replace_text", side_effect=OSError(errno.ENOSPC, os.strerror(errno.ENOSPC))):
            self.assertIsNone(take_over(str(self.folder), "ab"))
        self.assertIn("ab: No space left on device", said.getvalue())


# A process that detaches from its command, and prints its pid, until it is asked to release the command.
PARTS = """
import os, signal, sys
sys.path.insert(0, sys.argv[1])
from roam_live.relay.path_setup import close_standard, part_from_command
secret = os.open("/dev/null", os.O_RDONLY)
held = part_from_command((signal.SIGTERM,))
os.write(1, b"%d %d\\n" % (os.getpid(), os.getsid(0)))
os.read(0, 1)
close_standard()
os.close(held)
signal.pause()
"""


class Parted(Case):
    """A process that continues after the command's end."""

    def test_parted(self):
        """The other one continues in a session of its own, and the first ends once it is released, and not before."""
        first = self.process(sys.executable, "-c", PARTS, str(TOOLS), stdin=subprocess.PIPE, stdout=subprocess.PIPE)
        self.addCleanup(first.stdin.close)
        self.addCleanup(first.stdout.close)
        process, session = map(int, first.stdout.readline().split())
        self.addCleanup(os.kill, process, signal.SIGKILL)
        self.assertEqual((process, process == first.pid), (session, False))
        self.assertEqual(sorted(os.listdir(f"/proc/{first.pid}/fd"))[:3], ["0", "1", "2"])
        # The other may print its pid before the first has closed its descriptors.
        self.assertTrue(comes(lambda: len(os.listdir(f"/proc/{first.pid}/fd")) == 4))
        self.assertIsNone(first.poll())
        first.stdin.write(b"x")
        first.stdin.flush()
        self.assertEqual(first.wait(10), 0)
        self.assertTrue(pathlib.Path(f"/proc/{process}").exists())

    def test_killed(self):
        """If the other one is killed the first ends too."""
        first = self.process(sys.executable, "-c", PARTS, str(TOOLS), stdin=subprocess.PIPE, stdout=subprocess.PIPE)
        self.addCleanup(first.stdin.close)
        self.addCleanup(first.stdout.close)
        os.kill(int(first.stdout.readline().split()[0]), signal.SIGKILL)
        self.assertEqual(first.wait(10), 0)

    def test_refused(self):
        """If the system refuses a pipe or a process, there is none."""
        # Leftovers of other tests are closed first.
        gc.collect()
        before = len(os.listdir("/proc/self/fd"))
        with mock.patch("os.pipe", side_effect=OSError(errno.EMFILE, "no")):
            self.assertIsNone(part_from_command(()))
        with mock.patch("os.fork", side_effect=OSError(errno.EAGAIN, "no")):
            self.assertIsNone(part_from_command(()))
        self.assertEqual(len(os.listdir("/proc/self/fd")), before)

    def test_hidden(self):
        """The user's other programs can't read the memory of a process with a key."""
        text = "import sys; sys.path.insert(0, sys.argv[1]); from roam_live.relay.path_setup import hide_memory; hide_memory(); " \
               "import ctypes; print(ctypes.CDLL(None).prctl(3, 0, 0, 0, 0))"
        ran = subprocess.run([sys.executable, "-c", text, str(TOOLS)], stdout=subprocess.PIPE, check=True)
        self.assertEqual(ran.stdout, b"0\n")
        with mock.patch.dict(sys.modules, {"ctypes": None}):
            path_setup.hide_memory()

    def test_hidden_where_processes_are(self):
        """If /proc hides unreadable processes only core files are turned off, since its user has to find it there."""
        mounts = self.made_folder() / "mountinfo"
        for options, hides in (("rw", False), ("rw,hidepid=0", False), ("rw,hidepid=off", False), ("rw,gid=9,hidepid=2", True),
                               ("rw,hidepid=invisible", True)):
            lines = ["21 1 0:20 / /sys rw - sysfs sysfs rw,hidepid=2", f"22 1 0:21 / /proc rw,nosuid shared:5 - proc proc {options}"]
            mounts.write_text("\n".join(lines), encoding="utf-8")
            self.assertEqual(path_setup.hides_processes(str(mounts)), hides, options)
        self.assertFalse(path_setup.hides_processes(str(mounts.parent / "none")))
        limits = self.patch_of(path_setup.resource, "setrlimit")
        library = self.patch("ctypes.CDLL")
        with mock.patch.object(path_setup, "hides_processes", return_value=True):
            path_setup.hide_memory()
        self.assertEqual((limits.call_args[0][1][0], library.call_count), (0, 0))
        limits.side_effect = ValueError("no")
        path_setup.limit_core()


class Finds(Case):
    """Lookups of the other end."""

    def setUp(self):
        self.stop_clock()
        self.asked = []
        self.held = threading.Event()
        self.held.set()
        self.patch_of(path_setup, "places_of", side_effect=self.places_of)
        self.finder = Finder("host")

    def places_of(self, host, port, family):
        """Return the simulated addresses of a host."""
        self.held.wait(10)
        self.asked.append((host, port, family))
        return [(host, port), ("both", port)]

    def path(self, address="10.0.0.2"):
        """Return a near end's path."""
        end = udp_end()
        self.addCleanup(end.close)
        return NearPath(AeadPackets(Foolish(b""), True), end, 60000, address)

    def look(self, path):
        """Begin a lookup, and wait for the result."""
        self.finder.look(path)
        self.finder.search.join(10)

    def test_found(self):
        """All addresses of both words are known, each once; the lookup repeats every 30 s while the path is silent."""
        path = self.path()
        self.look(path)
        self.assertEqual(path.places, [("host", 60000), ("both", 60000), ("10.0.0.2", 60000)])
        self.assertEqual([host for host, _, _ in self.asked], ["host", "10.0.0.2"])
        self.now += ASKS_AGAIN - 1
        self.look(path)
        self.assertEqual(len(self.asked), 2)
        self.now += 2
        self.look(path)
        self.assertEqual(len(self.asked), 4)
        self.now += 60
        with mock.patch.object(path, "is_validated", return_value=True):
            self.look(path)
        self.assertEqual(len(self.asked), 4)

    def test_one_at_a_time(self):
        """During a lookup no other begins, however many paths another machine reports; and each costs a second."""
        self.held.clear()
        path = self.path("")
        self.finder.look(path)
        first = self.finder.search
        for _ in range(9):
            self.now += 60
            self.finder.look(self.path(""))
        self.assertIs(self.finder.search, first)
        self.held.set()
        first.join(10)
        self.look(self.path(""))
        for _ in range(9):
            self.now += 0.1
            self.look(self.path(""))
        self.assertEqual(len(self.asked), 2)

    def test_refused(self):
        """If the system refuses a thread it is tried again."""
        with mock.patch("threading.Thread.start", side_effect=RuntimeError("can't start new thread")):
            self.finder.look(self.path())
        self.assertEqual(self.asked, [])
        path = self.path()
        self.now += 60
        self.look(path)
        self.assertTrue(path.places)

    def test_many(self):
        """Of many addresses some are called."""
        self.patch_of(path_setup, "places_of", side_effect=lambda host, port, family: [(str(number), port) for number in range(999)])
        path = self.path()
        self.look(path)
        self.assertEqual(len(path.places), path_setup.MOST_PLACES)


if __name__ == "__main__":
    unittest.main()
