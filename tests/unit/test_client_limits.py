"""New client processes of other machines at a server: over all far ends together, with a simulated clock."""
import itertools
import os
import struct

from aids import Case
from roam_live.relay.client_limits import READ_ONLY, READ_WRITE, ClientLimit, RemoteClient, remote_client_in, room_at

SESSION = 0x5E55


def datagram(name, kind=READ_WRITE, session=SESSION, version=2):
    """Return a datagram of a client."""
    return struct.pack(">2sBBQQ", b"RM", version, kind, session, name) + bytes(23)


class Served(Case):
    """A window with a simulated server: it knows each client whose datagram arrives."""

    def setUp(self):
        self.folder, self.now = self.made_folder(), 1000.0
        (self.folder / "session").write_text(f"{SESSION:x}\n", encoding="ascii")
        self.known = {READ_WRITE: set(), READ_ONLY: set()}
        self.tells = True

    def counts(self, folder):
        """Set the number of clients that the server reports."""
        self.assertEqual(folder, str(self.folder))
        return {kind: len(names) for kind, names in self.known.items()} if self.tells else None

    def far_end(self, folder=None):
        """Return the limit of a far end, in a process of its own."""
        return ClientLimit(str(folder or self.folder), lambda: self.now, self.counts)

    def says(self, far, name, kind=READ_WRITE):
        """Return True if a client's datagram reaches the server."""
        if far.passes(datagram(name, kind)):
            self.known[kind].add(name)
            return True
        return False


class Passes(Served):
    """The starts that pass."""

    def test_known(self):
        """Two new ones pass at once, then one every ten seconds, over all far ends together; a known one always passes, at any of them."""
        one, other = self.far_end(), self.far_end()
        self.assertEqual([self.says(far, name) for far, name in ((one, 1), (other, 2), (one, 3), (other, 4))], [True, True, False, False])
        self.now += 9.9
        self.assertFalse(self.says(one, 3))
        self.now += 0.1
        self.assertEqual([self.says(far, name) for far, name in ((other, 3), (one, 4), (one, 3), (self.far_end(), 3))],
                         [True, False, True, True])
        self.now += 3600
        self.assertEqual([self.says(one, name) for name in range(10, 14)], [True, True, False, False])
        self.assertEqual([self.says(far, name) for far in (one, other, self.far_end()) for name in (1, 2, 3, 10, 11)], [True] * 15)

    def test_spent(self):
        """A connection that brings starts without end leaves the last 16 of 64, and known ones continue."""
        names = itertools.count(1)
        self.known[READ_WRITE].update(range(1000, 1010))
        for _ in range(500):
            far = self.far_end()
            for _ in range(5):
                self.says(far, next(names))
            self.now += 10
        self.assertEqual(len(self.known[READ_WRITE]), 48)
        self.assertTrue(self.says(self.far_end(), 1))
        self.assertFalse(self.says(self.far_end(), 9999))

    def test_late(self):
        """A server that hasn't counted a recent client yet is treated as if it had."""
        self.known[READ_WRITE].update(range(1000, 1047))
        self.assertEqual([self.far_end().passes(datagram(name)) for name in (1, 2)], [True, False])

    def test_untold(self):
        """If the server reports no count, the passed clients count."""
        self.tells = False
        for name in range(100):
            self.says(self.far_end(), name)
            self.now += 10
        self.assertEqual(len(self.known[READ_WRITE]), 48)

    def test_watchers(self):
        """Read-only ones count separately, and 4 of 16 are left."""
        self.assertEqual([self.says(self.far_end(), name) for name in (1, 2, 3)], [True, True, False])
        for name in range(1, 50):
            self.says(self.far_end(), name, READ_ONLY)
            self.now += 5
        self.assertEqual(len(self.known[READ_ONLY]), 12)

    def test_refused(self):
        """Datagrams that the server always refuses pass, and use nothing up."""
        far = self.far_end()
        for text in (datagram(1, session=7), datagram(1, kind=1), datagram(1, version=3), datagram(1, kind=9)):
            self.assertTrue(far.passes(text))
        self.assertEqual(os.listdir(self.folder), ["session"])


class Noted(Served):
    """The file in the folder."""

    def test_server(self):
        """A server that replaced another in the folder starts at zero."""
        self.assertEqual([self.says(self.far_end(), name) for name in (1, 2, 3)], [True, True, False])
        (self.folder / "session").write_text("abc\n", encoding="ascii")
        far = self.far_end()
        self.assertEqual([far.passes(datagram(name, session=0xABC)) for name in (1, 2, 3)], [True, True, False])
        self.assertEqual((self.folder / "remote_clients").read_text(encoding="ascii").count("5e55"), 0)

    def test_cut(self):
        """A cut or invalid line is skipped, and the next one is complete."""
        note = self.folder / "remote_clients"
        note.write_bytes(b"5e55 2 1 5.0 0\n\xff\n5e55 2 1 nan\n5e55 2 7 9")
        self.assertEqual([self.says(self.far_end(), name) for name in (1, 7, 8, 9)], [True, True, True, False])
        self.assertEqual([one.name for one in map(remote_client_in, note.read_text(encoding="ascii", errors="replace").split("\n")) if one],
                         [1, 7, 8])
        for line in ("", "5e55 2 1 5.0", "x 2 1 5.0 0", "5e55 2 1 5.0 0 ", "5e55 a 1 5.0 0"):
            self.assertIsNone(remote_client_in(line), line)
        self.assertEqual(remote_client_in(str(RemoteClient(1, 2, 3, 4.5, 6))), RemoteClient(1, 2, 3, 4.5, 6))

    def test_unnoted(self):
        """If nothing can be recorded an end counts alone."""
        (self.folder / "remote_clients").mkdir()
        far = self.far_end()
        self.assertEqual([self.says(far, name) for name in (1, 2, 3, 1)], [True, True, False, True])
        self.now += 10
        self.assertEqual([self.says(far, name) for name in (3, 4)], [True, False])

    def test_no_folder(self):
        """At a port there is no file."""
        far = ClientLimit("", lambda: self.now, lambda folder: None)
        self.assertEqual([far.passes(datagram(name)) for name in (1, 2, 3, 1)], [True, True, False, True])
        self.assertFalse(far.passes(datagram(3, session=8)))

    def test_lost(self):
        """If the session's id is lost for a time the records stay."""
        self.assertTrue(self.says(self.far_end(), 1))
        (self.folder / "session").unlink()
        self.assertTrue(self.says(self.far_end(), 2))
        (self.folder / "session").write_text(f"{SESSION:x}\n", encoding="ascii")
        self.assertEqual([self.says(self.far_end(), name) for name in (1, 5, 6)], [True, True, False])

    def test_room(self):
        """A restarted clock lets no more clients pass than a continuous one."""
        for moments, now, room in (([], 5, 2), ([5], 5, 1), ([5, 5], 5, 0), ([5, 5], 10, 0.5), ([5, 5], 100, 2), ([900, 900], 5, 0)):
            self.assertAlmostEqual(room_at(moments, now), room, msg=(moments, now))


class Nights(Case):
    """Two machines at a session of 40 windows, for ten days."""

    def test_nights(self):
        """A client that returns with its id after each night uses nothing up. A new one for each window and night passes at once."""
        for is_new in (False, True):
            windows = [Served() for _ in range(40)]
            for window in windows:
                window.setUp()
                self.addCleanup(window.doCleanups)
                window.known[READ_WRITE].add(99)
            for night in range(10):
                for machine in (1, 2):
                    for window in windows:
                        window.now = 1000.0 + 43200 * night + machine
                        far = window.far_end()
                        name = 100 * machine + (night if is_new else 0)
                        # The command breaks, and another far end replaces it.
                        self.assertEqual([window.says(one, name) for one in (far, far, window.far_end())], [True] * 3)
            self.assertEqual({len(window.known[READ_WRITE]) for window in windows}, {1 + 2 * (10 if is_new else 1)})
