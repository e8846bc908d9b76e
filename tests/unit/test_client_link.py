"""A terminal's connection to the client process, and its reconnection."""
import errno
import os
import socket
from unittest import mock

from aids import Case, read_now, record
from roam_live.cli.connection import opened
from roam_live.common.errors import Fault
from roam_live.common.event_loop import READ, WRITE
from roam_live.protocol.client_link import FIRST_WAIT, LET_GO, LOST, MOST_ACTS, NO_MORE, NO_RECORDS, SILENT, ClientLink, Reconnector


class SocketPeer:
    """The client's end, which takes so many bytes each time, or refuses with an error's number, below 0."""

    def __init__(self, *answers):
        self.answers, self.taken = list(answers), []

    def send(self, chunk):
        """Return the next answer."""
        answer = self.answers.pop(0)
        self.taken.append(len(chunk))
        if answer < 0:
            raise OSError(-answer, "refused")
        return answer


class Linked(Case):
    """A link to a socket of its own, with a stopped clock."""

    def setUp(self):
        self.stop_clock()
        self.path = self.made_folder() / "terminals"
        self.listener = self.listening(self.path)

    def link(self, *words):
        """Return a connected link, and its other end."""
        link = ClientLink(self.path, *words)
        link.connect()
        self.addCleanup(link.close)
        return link, self.taken(self.listener)


class Lines(Linked):
    """The lines to the client."""

    def test_greeting(self):
        """The subscription to records comes first; then the read-only mark, or the prediction setting unless it is never; all again on each
        connection.
        """
        for words, more in (((True,), b"watch\n"), ((False,), b""), ((False, "adaptive"), b"predict adaptive\n"),
                            ((False, "always"), b"predict always\n"), ((True, "always"), b"watch\n")):
            said = b"events\n" + more
            link, other = self.link(*words)
            self.assertTrue(link.send())
            self.assertEqual((read_now(other), link.waiting, link.lines), (said, b"", said.count(b"\n")))
            link.close()
            link.connect()
            other = self.taken(self.listener)
            link.send()
            self.assertEqual(read_now(other), said)

    def test_kept(self):
        """Unsent lines go to the next connection, after one greeting; those of a read-only user don't."""
        link = ClientLink(self.path, False, "always")
        link.type("char 61")
        for _ in range(2):
            link.connect()
            self.addCleanup(link.close)
            other = self.taken(self.listener)
        link.send()
        self.assertEqual((read_now(other), link.lines), (b"events\npredict always\nchar 61\n", 3))
        watcher = ClientLink(self.path, True)
        watcher.say("repaint")
        watcher.connect()
        self.assertEqual((watcher.waiting, watcher.lines), (b"events\nwatch\n", 2))
        watcher.close()

    def test_joined(self):
        """Acts that arrive at once share lines of 32, and later ones have lines of their own."""
        link, other = self.link(False)
        link.type(*["char 61"] * 70)
        _, *lines = link.waiting.decode().splitlines()
        self.assertEqual([line.count("char 61") for line in lines], [32, 32, 6])
        self.assertEqual((lines[2], link.lines), (" ; ".join(["char 61"] * 6), 4))
        link.type("key up")
        self.assertTrue(link.waiting.endswith(b"char 61 ; key up\n"))
        link.send()
        link.type("key down")
        link.say("repaint")
        link.type("key left", "key right")
        link.send()
        text = read_now(other).decode().splitlines()[4:]
        self.assertEqual((text, link.lines), (["key down", "repaint", "key left ; key right"], 7))
        self.assertEqual(MOST_ACTS, 32)

    def test_pasted(self):
        """A paste has lines of its own, marked as such."""
        link, other = self.link(False)
        link.type("char 61")
        link.type("char 62", "char 63", is_pasted=True)
        link.type("char 64", is_pasted=True)
        link.type("char 65")
        link.type(*["char 66"] * 33, is_pasted=True)
        link.send()
        _, *lines = read_now(other).decode().splitlines()
        self.assertEqual(lines[:3], ["char 61", "paste ; char 62 ; char 63 ; char 64", "char 65"])
        self.assertEqual([line.count("char 66") for line in lines[3:]], [32, 1])
        self.assertTrue(all(line.startswith("paste ; char 66") for line in lines[3:]))

    def test_cut(self):
        """A half-sent line is sent whole on the next connection."""
        link, other = self.link(False)
        link.type("char 61")
        link.say("repaint")
        whole = bytes(link.waiting)
        for cut in range(1, len(whole)):
            link.waiting[:], link.sent = whole, 0
            with mock.patch.object(link, "peer", SocketPeer(cut)):
                self.assertTrue(link.send())
            rest = whole[whole.rfind(b"\n", 0, cut) + 1 :]
            self.assertEqual((bytes(link.waiting), link.sent), (rest, cut - (len(whole) - len(rest))), cut)
            link.connect()
            self.taken(self.listener)
            again = rest if rest.startswith(b"events\n") else b"events\n" + rest
            self.assertEqual((link.sent, bytes(link.waiting), link.lines), (0, again, again.count(b"\n")))

    def test_full(self):
        """Unaccepted data waits, in chunks of 65,536 bytes; the end of the peer is reported."""
        link, other = self.link(False)
        link.waiting[:] = b"x" * 100_000 + b"\n"
        peer = SocketPeer(65536, -errno.EAGAIN, 34465, -errno.EPIPE)
        with mock.patch.object(link, "peer", peer):
            self.assertTrue(link.send())
            self.assertEqual((link.sent, peer.taken), (65536, [65536]))
            self.assertTrue(link.send())
            self.assertEqual(link.sent, 65536)
            self.assertTrue(link.send())
            self.assertEqual((link.sent, link.waiting), (0, b""))
            self.assertFalse(link.send())

    def test_told(self):
        """It returns records, applies their reports on the connection, and detects its end, as by an invalid record."""
        link, other = self.link(False)
        self.assertEqual((link.read_events(), link.has_come, link.is_done()), ([], False, False))
        link.type("char 61")
        other.send(b"painted\nevents\n" + record("taken", 1) + record("paint", data=b"x"))
        self.assertEqual([one.word for one in link.read_events()], ["events", "taken", "paint"])
        self.assertEqual((link.has_come, link.taken, link.lines, link.is_done(), link.fileno()), (True, 1, 2, False, link.peer.fileno()))
        other.send(record("taken", 2))
        link.read_events()
        self.assertTrue(link.is_done())
        other.close()
        self.assertEqual((link.read_events(), link.has_ended, link.loss()), (None, True, LET_GO))
        link.close()
        link.close()
        self.assertIsNone(link.peer)
        for text, why in ((b"\nevents\nwhat\n", LET_GO), (b"full\n", NO_MORE), (b"", NO_MORE), (b"\x1bcroam: line 1: bad act", NO_RECORDS),
                          (b"\nevents\nrefused 3 bad act\n", "the client process refused a line: bad act")):
            link, other = self.link(False)
            other.send(text)
            other.close()
            while link.read_events() is not None:
                pass
            self.assertEqual((link.loss(), link.has_ended), (why, True), text)
            link.close()

    def test_begins(self):
        """A client has five seconds for its first record, and waiting lines are sent meanwhile."""
        link, other = self.link(True)
        other.send(b"\nevents\n")
        self.assertTrue(link.begins(5.0))
        self.assertTrue(link.records.begun)
        link, other = self.link(True)
        with mock.patch("roam_live.protocol.client_link.ready", lambda *_: self.pass_time(0.1) or WRITE):
            self.assertFalse(link.begins(5.0))
        self.assertEqual((105 <= self.now < 105.2, read_now(other), link.has_ended), (True, b"events\nwatch\n", False))
        other.close()
        self.assertFalse(link.begins(5.0))
        self.assertTrue(link.has_ended)

    def test_part(self):
        """A user who leaves sends the remaining input and the end of file; the client's own end confirms it."""
        link, other = self.link(False)
        link.type("char 61")
        answers = iter([WRITE, 0, READ])

        def waits(end, events, seconds):
            self.assertEqual((end, events, seconds), (link.peer, READ | WRITE if link.waiting else READ, 0.1))
            found = next(answers)
            if found == READ:
                self.assertEqual(other.recv(64), b"events\nchar 61\n")
                self.assertEqual(other.recv(64), b"")
                other.close()
            return found

        with mock.patch("roam_live.protocol.client_link.ready", waits):
            self.assertTrue(link.part())
        self.assertIsNone(link.peer)
        self.assertTrue(link.part())

    def test_part_late(self):
        """A client that doesn't take it in time is dropped, and the result says so."""
        link, _ = self.link(False)
        link.type("char 61")
        with mock.patch("roam_live.protocol.client_link.ready", lambda *_: self.pass_time(0.5) or 0):
            self.assertFalse(link.part())
        self.assertEqual(self.now, 101.5)
        self.assertIsNone(link.peer)
        self.assertFalse(link.part())


class AnySession:
    """A session with a client, in a given state."""

    name = "main"

    def __init__(self):
        self.client = self.noted = 1
        self.served, self.full = True, False
        self.revived, self.fault, self.reads, self.is_foreign = 0, None, 0, False

    def __str__(self):
        return "in /folder"

    def read(self):
        """Reload the state."""
        self.reads += 1
        self.noted = self.client

    def process(self, role):
        """Return the client process."""
        assert role == "client"
        return self.noted

    def runs(self, role):
        """Return True if the role runs."""
        return self.process(role) is not None

    def is_replaced(self):
        """Return True if another session has its folder."""
        return self.is_foreign

    def is_peer(self, name, process):
        """Return True unless another session has its folder."""
        return not self.is_foreign

    def is_served(self):
        """Return True if a server is there."""
        return self.served

    def is_full(self):
        """Return True if the server accepts no more clients."""
        return self.full

    def revive(self):
        """Start it."""
        if self.fault:
            raise self.fault
        self.revived += 1
        self.noted = 2


class Dropped(Linked):
    """The input dropped by C-c."""

    def test_pastes(self):
        """Waiting pastes go, with the keys after them. Earlier keys, acts that are no keys, and a half-sent line stay, and the lines are
        counted as they are sent then.
        """
        link, other = self.link(False)
        link.send()
        link.type("char 61", "key up")
        link.type("char 62", is_pasted=True)
        link.say("paste ; focus 2 ; char 9f ; char 61 ; char 9c ; focus 1")
        link.type("char 63", "next", "char 64")
        link.type("key return")
        link.say("part 23 80")
        link.type("size 24 80")
        sent = link.lines
        self.assertEqual(link.drop_pasted(), ["paste ; char 62", "paste ; focus 2 ; char 9f ; char 61 ; char 9c ; focus 1",
                                              "char 63 ; next ; char 64 ; key return"])
        link.type("char 3")
        link.send()
        self.assertEqual(read_now(other), b"events\nchar 61 ; key up\nnext\npart 23 80\nsize 24 80\nchar 3\n")
        self.assertEqual((link.lines, link.drop_pasted()), (sent - 2 + 1, []))

    def test_half_sent(self):
        """The line of a half-sent paste is sent whole, and the others are dropped."""
        link, _ = self.link(False)
        link.waiting[:] = b"paste ; char 61\npaste ; char 62\nchar 63\n"
        link.sent, link.lines = 4, 3
        self.assertEqual(link.drop_pasted(), ["paste ; char 62", "char 63"])
        self.assertEqual((link.waiting, link.lines, link.sent), (b"paste ; char 61\n", 1, 4))

    def test_none(self):
        """Without pastes nothing is dropped."""
        link, _ = self.link(False)
        link.type("char 61", "char 62")
        self.assertEqual((link.drop_pasted(), link.waiting), ([], b"events\nchar 61 ; char 62\n"))


class Kept(Linked):
    """A link that reconnects."""

    def setUp(self):
        super().setUp()
        self.place = AnySession()
        self.link = ClientLink(self.path, False)
        self.reconnector = Reconnector(self.place, self.link, lambda: self.place.is_full())
        self.addCleanup(self.link.close)

    def gone(self):
        """Remove the listener."""
        self.listener.close()
        os.unlink(self.path)

    def test_there(self):
        self.assertIsNone(self.reconnector.connect())
        self.assertEqual((self.reconnector.connected(), self.reconnector.client), ("", 1))

    def test_losses(self):
        """A loss is reported: of the client, of this terminal's connection alone, or a refusal of more."""
        self.reconnector.connect()
        self.reconnector.connected()
        self.place.client = None
        self.assertEqual(self.reconnector.lost(), LOST)
        self.assertIsNone(self.link.peer)
        self.place.client = 3
        self.assertEqual((self.reconnector.connect(), self.reconnector.connected()), (None, LOST))
        self.assertEqual(self.reconnector.lost(), NO_MORE)
        self.link.connect()
        self.assertEqual(self.reconnector.connected(), LET_GO)
        self.link.has_come = self.link.records.begun = True
        self.assertEqual(self.reconnector.lost(), LET_GO)

    def test_replaced(self):
        """A link never follows a client of another session that has the folder by now, and starts none there."""
        self.place.is_foreign = True
        self.assertEqual(self.reconnector.connect()[1], "another session has the name of this one by now")
        self.assertEqual((self.link.peer, self.place.revived), (None, 0))
        self.place.is_foreign = False
        self.assertIsNone(self.reconnector.connect())

    def test_pauses(self):
        """The pause is 0.1 s, and longer with each early end; a connection of 5 s counts as no failure."""
        self.assertEqual(self.reconnector.pause(), 0.0)
        found = []
        for _ in range(8):
            self.link.since = self.now - 4.99
            self.reconnector.lost()
            found.append(self.reconnector.pause())
        self.assertEqual(found, [0.1, 1, 2, 4, 8, 15, 15, 15])
        self.link.since = self.now - 5.0
        self.reconnector.lost()
        self.assertEqual((self.reconnector.pause(), self.reconnector.retry.faults), (0.1, 1))

    def test_full(self):
        """On a full disk there is one attempt a second."""
        full = self.patch("roam_live.protocol.client_link.is_disk_full", return_value=True)
        found = []
        for _ in range(8):
            self.link.since = self.now - 1
            self.reconnector.lost()
            found.append(self.reconnector.pause())
        full.return_value = False
        self.assertEqual((found, self.reconnector.pause()), ([0.1, *[1.0] * 7], 15))
        full.assert_called_with(self.link.path)

    def test_revived(self):
        """If nobody listens a client is started, which has ten seconds; then the reason of the failure is reported."""
        self.gone()
        self.assertEqual(self.reconnector.connect(), (0.02, ""))
        self.assertEqual((self.place.revived, self.reconnector.begun_at), (1, 100.0))
        self.now += 9.9
        self.assertEqual(self.reconnector.connect(), (0.02, ""))
        self.now += 0.1
        self.assertEqual(self.reconnector.connect(), (0.1, "no client process is ready: No such file or directory"))
        self.assertEqual((self.place.revived, self.reconnector.begun_at), (1, 0.0))
        self.assertEqual(self.reconnector.connect(), (0.02, ""))
        self.place.noted = None
        self.assertEqual(self.reconnector.connect(), (1, "no client process is ready: No such file or directory"))
        self.listener = self.listening(self.path)
        self.assertIsNone(self.reconnector.connect())
        self.reconnector.begun_at = 5.0
        self.reconnector.connected()
        self.assertEqual(self.reconnector.begun_at, 0.0)

    def test_refused(self):
        """The reason of a failed start is reported: no server, its 64 clients, an error, another user's socket."""
        self.gone()
        self.place.served = False
        self.assertEqual(self.reconnector.connect()[1], "no server is in /folder")
        self.place.served, self.place.full = True, True
        self.assertEqual(self.reconnector.connect()[1], "the server has used its 64 clients and accepts no more")
        self.place.full = False
        for fault in (Fault("session main: no room"), OSError(28, "no room")):
            self.place.fault = fault
            self.assertEqual(self.reconnector.connect()[1], "no room")
        self.assertEqual((self.place.revived, self.reconnector.retry.faults), (0, 4))
        with mock.patch.object(self.link, "connect", side_effect=PermissionError(1, "user 7 listens there instead of you")):
            self.assertEqual(self.reconnector.connect(), (8, f"{self.path}: user 7 listens there instead of you"))


class Opened(Linked):
    """A connection with records, for a single request."""

    def setUp(self):
        super().setUp()
        self.place = AnySession()
        self.place.terminals = self.path

    def opened(self, *texts):
        """Return the connection to a client that sends one of these texts on each connection, and then closes it."""
        texts = list(texts)

        def waits(end, events, seconds):
            if not events & WRITE:
                return READ
            other = self.taken(self.listener)
            other.send(texts.pop(0))
            self.addCleanup(other.close)
            # Its input may arrive after this much output.
            other.shutdown(socket.SHUT_WR)
            return WRITE

        with mock.patch("roam_live.protocol.client_link.ready", waits):
            link = opened(self.place, True)
        self.addCleanup(link.close)
        return link

    def test_there(self):
        self.assertEqual(FIRST_WAIT, 5.0)
        link = self.opened(b"\x1bc\nevents\n")
        self.assertEqual((link.records.begun, link.is_read_only), (True, True))

    def test_refused(self):
        with self.assertRaisesRegex(Fault, f"^{NO_MORE}$"):
            self.opened(b"full\n")
        with self.assertRaisesRegex(Fault, f"^{NO_RECORDS}$"):
            self.opened(b"\x1bc")
        waits = mock.patch("roam_live.protocol.client_link.ready", lambda *_: self.pass_time(1) or 0)
        with waits, self.assertRaisesRegex(Fault, f"^{SILENT}$"):
            opened(self.place, False)
