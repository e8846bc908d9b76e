"""Subscribers of a server's panes: they reconnect after pauses if the server ends the connection, and report that."""
import contextlib
import io
import os
import pathlib
import socket
import tempfile
import unittest
from unittest import mock

from aids import StillLoop
from roam_live.common.retry import PAUSES
from roam_live.protocol.panes import Places, Rect
from roam_live.protocol.panes_client import (AWAITED, LET_GO, NO_PANES, NO_PLACE, QUIET, TELLS_NOTHING, HostSubscription,
                                             PanesSubscriber)


class Played(unittest.TestCase):
    """A server of panes in a folder of its own, with a manual clock."""

    def setUp(self):
        made = tempfile.TemporaryDirectory()
        self.addCleanup(made.cleanup)
        self.path = pathlib.Path(made.name, "panes")
        self.listener = self.listens()
        self.now = 100.0
        self.said = io.StringIO()
        for patched in (mock.patch("time.monotonic", lambda: self.now), contextlib.redirect_stderr(self.said)):
            patched.__enter__()
            self.addCleanup(patched.__exit__, None, None, None)
        self.loop, self.heard, self.losses = StillLoop(), [], 0
        self.subscription = self.follows()
        self.addCleanup(lambda: self.subscription.peer and self.subscription.peer.close())
        self.server = self.taken()

    def follows(self):
        """Return a subscriber like the pty host's."""
        return HostSubscription(str(self.path), self.loop, self.heard.extend, self.lose)

    def listens(self):
        """Return a listening socket."""
        one = socket.socket(socket.AF_UNIX, socket.SOCK_STREAM)
        one.bind(str(self.path))
        one.listen()
        one.settimeout(5)
        self.addCleanup(one.close)
        return one

    def taken(self):
        """Return the server's end of the next connection."""
        one = self.listener.accept()[0]
        self.addCleanup(one.close)
        return one

    def lose(self):
        """Record a lost connection."""
        self.losses += 1

    def turn(self):
        """Return the lines of a turn."""
        self.heard.clear()
        self.loop.turn()
        return list(self.heard)

    def wait_again(self):
        """Wait for the reconnection, and return the delay."""
        wait = self.loop.due["follow panes"][0] - self.now
        self.now = self.loop.due["follow panes"][0]
        return round(wait, 3)


class Follows(Played):
    """The pty host's subscription."""

    def test_lines(self):
        """Lines come in any chunks, and requests are sent."""
        self.server.send(b"1 1 1 23 80 1\nfoc")
        self.assertEqual(self.turn(), ["1 1 1 23 80 1"])
        self.server.send(b"us 1\n")
        self.subscription.ask("close 1 1")
        self.assertEqual(self.turn(), ["focus 1"])
        self.assertEqual(self.server.recv(64), b"host\nmetadata\nqueries\nclose 1 1\n")
        self.assertEqual(self.loop.due, {})

    def test_quiet(self):
        """A server that accepts the connection and reports nothing is reported once, and so is its recovery."""
        self.assertEqual([moment for moment, _ in self.loop.due.values()], [self.now + QUIET])
        self.now += QUIET
        for _ in range(3):
            self.assertEqual(self.turn(), [])
        self.assertEqual(self.said.getvalue().count(f"the server's panes are not reported: {TELLS_NOTHING}\n"), 1)
        self.assertEqual(self.loop.due, {})
        self.server.send(b"focus 1\n")
        self.turn()
        self.assertEqual((self.subscription.told, self.said.getvalue().count("the server reports its panes again\n")), ("", 1))

    def test_let_go(self):
        """A server that ends each connection is retried after growing pauses, and that is reported once, and so is its recovery."""
        tried = []
        for number in range(9):
            self.server.close()
            self.assertEqual(self.turn(), [])
            self.assertEqual(LET_GO in self.said.getvalue(), number > 0)
            self.assertIsNone(self.subscription.peer)
            self.assertEqual(self.turn(), [])
            self.assertIsNone(self.subscription.peer)
            tried.append(self.wait_again())
            self.turn()
            self.server = self.taken()
        self.assertEqual(self.losses, 9)
        self.assertEqual(tried, [*PAUSES, *[PAUSES[-1]] * 3])
        self.assertFalse(self.subscription.is_gone)
        self.assertEqual(self.said.getvalue().count(f"the server's panes are not reported: {LET_GO}\n"), 1)
        self.server.send(b"focus 1\n")
        self.assertEqual(self.turn(), ["focus 1"])
        self.assertEqual(self.said.getvalue().count("the server reports its panes again\n"), 1)
        self.assertEqual(self.subscription.faults, 0)

    def test_once(self):
        """A single end of a good connection causes no message."""
        self.server.send(b"focus 1\n")
        self.turn()
        self.server.close()
        self.turn()
        self.wait_again()
        self.turn()
        self.taken().send(b"focus 2\n")
        self.assertEqual(self.turn(), ["focus 2"])
        self.assertEqual(self.said.getvalue(), "")

    def test_gone(self):
        """A server that is gone is known; a busy one, or one without a free descriptor, isn't gone."""
        self.server.close()
        self.turn()
        for fault, is_gone in ((BlockingIOError(11, "full"), False), (OSError(24, "Too many open files"), False), (None, True)):
            self.wait_again()
            with contextlib.ExitStack() as held:
                if fault:
                    held.enter_context(mock.patch("roam_live.protocol.panes_client.connected_now", side_effect=fault))
                else:
                    self.listener.close()
                self.turn()
            self.assertEqual(self.subscription.is_gone, is_gone)
        self.wait_again()
        self.path.unlink()
        self.turn()
        self.assertTrue(self.subscription.is_gone)
        self.listener = self.listens()
        self.wait_again()
        self.turn()
        self.assertFalse(self.subscription.is_gone)

    def test_put_out(self):
        """A subscriber whose connection ended soon after some lines reconnects after growing pauses: another host may have displaced it."""
        waits = []
        for seconds in (0, 1, 2, 6, 0):
            self.server.send(b"focus 1\n")
            self.turn()
            self.now += seconds
            self.server.close()
            self.turn()
            waits.append(self.wait_again())
            self.turn()
            self.server = self.taken()
        self.assertEqual(waits, [0.1, 1, 2, 0.1, 1])

    def test_host(self):
        """The pty host announces itself on each connection, before everything else."""
        self.turn()
        self.server.setblocking(False)
        self.assertEqual(self.server.recv(64), b"host\nmetadata\nqueries\n")
        self.server.close()
        self.turn()
        self.wait_again()
        self.turn()
        self.subscription.ask("close 1 1")
        self.turn()
        self.assertEqual(self.taken().recv(64), b"host\nmetadata\nqueries\nclose 1 1\n")
        self.assertEqual(self.subscription.server, os.getpid())


class FrontEnds(Played):
    """A front end's knowledge of the panes."""

    def follows(self):
        """Return a front end's subscriber, which reports missing knowledge."""
        self.words, self.changes = [], 0
        self.panes = PanesSubscriber(self.path.parent, self.loop, self.change, self.words.append)
        return self.panes.subscription

    def change(self):
        """Record news."""
        self.changes += 1

    def told(self, text):
        """Return the state after the server's text."""
        self.server.send(text)
        self.loop.turns(2)
        return self.panes.places

    def test_probed(self):
        """A refused probe is an answer; one that is lost with its connection gets none."""
        answers = []
        self.told(b"1 1 23 80 1\nfocus 1\n")
        self.panes.probe(lambda: answers.append(1))
        self.loop.turns(2)
        self.assertIn(b"alive\n", self.server.recv(256))
        self.told(b"bad line\n")
        self.assertEqual(answers, [1])
        self.told(b"bad line\n")
        self.assertEqual(answers, [1])
        for _ in range(9):
            self.panes.probe(lambda: answers.append(2))
        self.assertEqual(len(self.panes.probes), 4)

    def lose_again(self, words=()):
        """Let the server end the connection after these words, and wait for the next one."""
        self.server.close()
        self.loop.turns(2)
        self.assertEqual(self.words, list(words))
        self.wait_again()
        self.loop.turns(2)
        self.server = self.taken()

    def test_lines(self):
        """Positions are known once the focus is, and each new one is a change; the front end subscribes to metadata, and no more."""
        self.assertTrue(self.panes.is_awaited())
        self.loop.turns(1)
        self.assertEqual(self.server.recv(64), b"metadata\n")
        self.assertIsNone(self.told(b"1 1 1 23 80 1\nfoc"))
        wanted = Places({1: Rect(1, 1, 23, 80)}, 1, 64, 2)
        self.assertEqual(self.told(b"us 1\nclients 64 of 64\nwatchers 2 of 16\n"), wanted)
        self.assertEqual((self.changes, self.panes.is_awaited(), self.panes.is_full()), (1, False, True))
        self.assertEqual(self.told(b"focus 1\nbad line\n"), wanted)
        self.assertEqual(self.changes, 1)
        self.server.setblocking(False)
        with self.assertRaises(BlockingIOError):
            self.server.recv(64)
        self.assertEqual(self.words, [])

    def test_beside(self):
        """A front end subscribes to pane metadata on each connection, which determines the brackets of a paste."""
        self.lose_again()
        self.loop.turns(2)
        self.assertEqual(self.server.recv(64), b"metadata\n")
        self.assertEqual((self.panes.wants_brackets(), self.panes.knows_modes()), (False, False))
        self.told(b"1 1 1 23 80 1\n2 1 1 23 80 1\nfocus 1\nmodes 1 1 paste\n")
        self.assertEqual((self.panes.wants_brackets(), self.panes.knows_modes()), (True, True))
        self.told(b"focus 2\n")
        self.assertFalse(self.panes.wants_brackets())
        before = self.changes
        self.told(b"title 2 1 41\nshape 2 1 6\ntitle 1 1 42\n")
        self.assertEqual((self.panes.title_and_shape, self.changes), (("A", 6), before + 1))
        self.told(b"title 1 1 43\n")
        self.assertEqual(self.changes, before + 1)
        self.lose_again()
        self.assertFalse(self.panes.wants_brackets())
        self.told(b"1 1 1 23 80 1\nfocus 1\n")
        self.assertTrue(self.panes.knows_modes())

    def follow_clips(self):
        """Subscribe to clipboard texts, over a new connection."""
        self.clips = []
        self.panes.follow_clips(lambda text, making: self.clips.append((text, making)))
        self.lose_again()
        self.loop.turns(1)
        return self.server.recv(64)

    def test_clips(self):
        """A front end that sets a clipboard subscribes to texts too, on each connection; one of the focused pane is passed on once, with
        its generation.
        """
        self.panes.subscription.ask("before")
        self.assertEqual(self.follow_clips(), b"metadata\nclipboard\n")
        self.told(b"1 1 1 23 40 7\n2 1 42 23 39 1\nfocus 1\nclip 1 7 YQ==\n")
        self.told(b"clip 1 6 YWI=\nclip 2 1 YWI=\n")
        self.told(b"focus 2\n")
        self.told(b"clip 1 7 YWI=\nclip 2 1 YWI=\n")
        self.assertEqual(self.clips, [("YQ==", "1 7"), ("YWI=", "2 1")])
        long = "A" * 131072
        for begin in range(0, 131072, 16384):
            self.told(b"clip 2 1 " * (begin == 0) + long[begin : begin + 16384].encode())
        self.told(b"\n")
        self.assertEqual(self.clips[2:], [(long, "2 1")])
        self.told(b"x" * 70000)
        self.assertLessEqual(len(self.panes.subscription.lines.kept), 131072 + 64)
        self.now += 6
        self.lose_again()
        self.loop.turns(1)
        self.assertEqual((self.server.recv(64), self.panes.making(1)), (b"metadata\nclipboard\n", ""))

    def test_clips_refused(self):
        """If clipboard texts cause disconnects, they are left out, and requested again a minute later."""
        self.follow_clips()
        self.lose_again()
        self.loop.turns(1)
        self.assertEqual(self.server.recv(64), b"metadata\n")
        self.told(b"1 1 1 23 80 1\nfocus 1\n")
        self.now += 60
        self.loop.turns(2)
        self.assertEqual(self.server.recv(64), b"clipboard\n")

    def test_bells(self):
        """Each pane with a bell is passed on, focused or not; a bell of another generation isn't."""
        rung = []
        self.panes.rings = rung.append
        self.told(b"1 1 1 23 40 7\n2 1 42 23 39 1\nfocus 1\nbell 1 7\nbell 2 1\nbell 2 2\n")
        self.assertEqual(rung, [1, 2])
        self.told(b"bell 2 1\nbell 9 1\n")
        self.assertEqual(rung, [1, 2, 2])

    def test_let_go(self):
        """Without reports the positions are unknown; the next connection reports everything anew."""
        self.told(b"1 1 1 23 80 1\nfocus 1\n")
        self.lose_again()
        self.assertEqual((self.panes.places, self.changes, self.panes.is_full()), (None, 2, False))
        self.assertEqual(self.told(b"2 1 1 23 80 1\nfocus 2\n"), Places({2: Rect(1, 1, 23, 80)}, 2))
        self.assertEqual(self.words, [])

    def test_quiet(self):
        """A server without reports is awaited silently; for ten seconds a report is expected."""
        self.now += AWAITED - 0.1
        self.assertTrue(self.panes.is_awaited())
        self.now += 0.2
        self.loop.turns(2)
        self.assertEqual((self.panes.is_awaited(), self.words, self.loop.due), (False, [], {}))

    def test_once(self):
        """A refused subscriber reports that once, and retries after pauses."""
        for number in range(6):
            self.lose_again([NO_PLACE] * (number >= 2))
        self.assertFalse(self.panes.is_awaited())
        self.assertIsNone(self.told(b"1 1 1 23 80 1\nfocus 1\n"))
        self.now += 1.0
        self.loop.turns(2)
        self.assertIsNotNone(self.panes.places)

    def test_told_and_let_go(self):
        """A full server sends everything and then disconnects: after that a connection is trusted once it has lasted for a second."""
        for number in range(5):
            self.server.send(b"1 1 1 23 80 1\nfocus 1\n")
            self.loop.turns(1)
            self.assertEqual((self.panes.places is not None, self.panes.is_untold()), (number < 3, number >= 3))
            self.lose_again([NO_PLACE] * (number >= 2))
        self.told(b"1 1 1 23 80 1\nfocus 1\n")
        changes = self.changes
        self.now += 1.0
        self.loop.turns(2)
        self.assertEqual((self.panes.places is not None, self.changes), (True, changes + 1))
        self.assertIsNotNone(self.told(b"2 1 41 23 40 1\n"))
        self.assertEqual(len(self.panes.places.rects), 2)

    def test_gone(self):
        """If nobody reports the panes that is reported once; the same for unreadable reports."""
        self.listener.close()
        self.server.close()
        self.loop.turns(2)
        for _ in range(5):
            self.wait_again()
            self.loop.turns(2)
        self.assertEqual(self.words, [NO_PANES])
        self.path.unlink()
        self.listener = self.listens()
        self.words, self.panes = [], PanesSubscriber(self.path.parent, self.loop, self.change, lambda line: self.words.append(line))
        self.server = self.taken()
        self.told(b"1 23 80\nfocus\n")
        self.assertEqual((self.words, self.panes.places), ([], None))

    def test_nowhere(self):
        """Without a folder there is no subscription, and nothing is awaited."""
        alone = PanesSubscriber(None, self.loop, self.change, self.words.append)
        self.assertEqual((alone.is_awaited(), alone.places, alone.subscription.peer, self.words), (False, None, None, []))
