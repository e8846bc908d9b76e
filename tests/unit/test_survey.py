"""The parallel queries of `mux ls` to all sessions' sockets."""
import socket
import threading
import time
import unittest
from unittest import mock

from aids import Case
from roam_live.session.survey import ANSWERS, Survey

LINES = b"1 1 1 23 39 1\n2 1 41 23 40 1\nfocus 1\nclients 1 of 64\nwatchers 0 of 16\n"


class Surveys(Case):
    """Sockets played by a thread, each with its immediate answer; None accepts nobody."""

    def setUp(self):
        self.base = self.made_folder()
        self.asked = {}

    def serve(self, name, panes=None, host=None):
        """Create a folder with sockets that give these answers."""
        folder = self.base / name
        folder.mkdir()
        for socket_name, answer in (("panes", panes), ("host", host)):
            if answer is None:
                continue
            listener = self.listening(folder / socket_name)
            listener.setblocking(True)
            thread = threading.Thread(target=self.answer, args=(listener, f"{name}/{socket_name}", answer), daemon=True)
            thread.start()
            self.addCleanup(thread.join, 5)
            self.addCleanup(listener.shutdown, socket.SHUT_RDWR)
        return str(folder)

    def answer(self, listener, name, answer):
        """Accept a connection, and answer its request."""
        try:
            peer = listener.accept()[0]
        except OSError:
            return
        with peer:
            peer.settimeout(5)
            if name.endswith("host"):
                self.asked[name] = peer.recv(100)
            for chunk in answer:
                peer.sendall(chunk)
            peer.recv(1)

    def test_answers(self):
        """Each is queried at its own sockets, in any chunks; a session without a host is known by its panes."""
        one = self.serve("one", [LINES[:20], LINES[20:]], [b"0 client 3 a:/b 24 80 1 5 read-write\n0 cli", b"ents 1\n"])
        two = self.serve("two", [LINES], None)
        found = Survey([one, two], [one, two], 5)
        self.assertEqual((found.places(one).focus, found.terminals(one), found.terminals(two)), (1, 1, None))
        self.assertEqual((found.places(two).size(), self.asked), ((24, 80), {"one/host": b"0 clients\n"}))
        self.assertEqual((found.places(self.base / "three"), found.terminals(self.base / "three")), (None, None))

    def test_silent(self):
        """Silent ones take so many seconds in all, however many they are; the answers of others are known."""
        silent = [self.serve(f"silent{number}", [b""], [b"0 clients\n"]) for number in range(4)]
        good = self.serve("good", [LINES], [b"0 clients 7\n"])
        none = self.serve("none", [LINES[:9]])
        before = time.monotonic()
        found = Survey([*silent, good, none], [*silent, good], 0.05)
        self.assertLess(time.monotonic() - before, 0.5)
        self.assertEqual([found.terminals(folder) for folder in (*silent, good)], [None] * 4 + [7])
        self.assertEqual([found.places(folder) is None for folder in (silent[0], none, good)], [True, True, False])
        self.assertEqual(ANSWERS, 0.3)

    def test_hostile(self):
        """An invalid answer is none, and one that ends at once causes no wait."""
        odd = self.serve("odd", None, [
            b"0 clients 99999\n0 clients x\n1 clients 1\nclients 1\n0 clients 1 2\n\xff\n" + b"9" * 70000 + b"\n0 clients 2\n"])
        self.assertEqual(Survey([], [odd], 5).terminals(odd), 2)
        ended = self.base / "ended"
        ended.mkdir()
        listener = self.listening(ended / "panes")
        with mock.patch("roam_live.session.survey.PanesQuestion.words", b"x"):
            threading.Thread(target=lambda: (listener.setblocking(True), listener.accept()[0].close()), daemon=True).start()
            before = time.monotonic()
            self.assertIsNone(Survey([str(ended)], [], 5).places(ended))
            self.assertLess(time.monotonic() - before, 4)


if __name__ == "__main__":
    unittest.main()
