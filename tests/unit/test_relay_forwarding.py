"""Both ends of a relay in one process, and the forwarded sockets of a session's folder: over a command, and over a path."""
import os
import socket
import unittest

from aids import StillLoop, ended, read_now
from roam_live.relay import far, near, path_setup
from roam_live.relay.frames import RelayStream
from test_relay import FakeLink
from test_transport_switch import KEY, Both

LINES = b"1 1 1 23 80 1\nfocus 1\nclients 1 of 64\nwatchers 0 of 16\n"


class Joined(Both):
    """A near and a far end, joined by pipes in place of a command, and by ports of loopback if UDP is wanted."""

    udp = "never"

    def setUp(self):
        super().setUp()
        self.environment(ROAM_UDP=self.udp)
        self.printed()
        self.family = self.end().family
        self.here, self.there = self.folder, self.made_folder()
        self.listeners = {name: self.listening(self.there / name) for name in ("panes", "host", "clients")}
        self.served = {"panes": [], "host": []}
        self.patch_of(near, "RunningCommand", side_effect=self.new_link)
        self.patch_of(path_setup, "random_key", return_value=KEY)
        self.patch_of(path_setup.Finder, "look", lambda _, path: setattr(path, "places", [self.place(path.port)]))
        self.patch_of(far.os, "set_blocking")
        self.patch_of(far, "close_standard")
        self.patch_of(far, "part_from_command", side_effect=self.part)
        self.links, self.fars, self.stuck = [], [], set()
        self.near = near.Near(self.asked(), self.wakeup, StillLoop())
        self.addCleanup(self.leave)

    def leave(self):
        """End both."""
        self.patch_of(near, "finish")
        self.near.close()
        for one in self.fars:
            one.close()

    def part(self, signals):
        """Return the descriptor that would release the command, in this same process."""
        letting_go, held = os.pipe()
        self.addCleanup(os.close, letting_go)
        return held

    def new_link(self, command, session, may_ask):
        """Return a simulated command with a far end."""
        link = FakeLink(self, session)
        self.patch_of(far, "RelayStream", side_effect=lambda _, __, own: RelayStream(link.other.end, link.said, own))
        one = far.Far(self.asked(far=True, command=[], dir=str(self.there), session="5e55"), self.wakeup, StillLoop())
        for number, end in ((0, link.other.end), (1, link.said)):
            known = one.loop.sources[number]
            one.loop.remove(number)
            one.loop.add(end, known.reads, known.writes, hears=known.hears, has_more=known.has_more)
        self.links.append(link)
        self.fars.append(one)
        return link

    def run_for(self, seconds=0.3):
        """Let so many seconds pass, in small steps; the servers accept connections."""
        end = self.now + seconds
        while self.now < end:
            self.now += 0.05
            for _ in range(2):
                self.near.turn()
                for one in self.fars:
                    if one not in self.stuck:
                        one.turn()
            for name, held in self.served.items():
                while True:
                    try:
                        held.append(self.taken(self.listeners[name]))
                    except BlockingIOError:
                        break
                    if name == "panes":
                        held[-1].send(LINES)

    def connect(self, name="panes"):
        """Connect in the near folder; None if nothing listens there."""
        one = socket.socket(socket.AF_UNIX, socket.SOCK_STREAM)
        self.addCleanup(one.close)
        try:
            one.connect(str(self.here / name))
        except FileNotFoundError:
            return None
        one.setblocking(False)
        return one


class ByCommand(Joined):
    """Over the command alone."""

    def test_told(self):
        """Panes and bells are reported here as there; many subscribers here are one there."""
        self.run_for(0.5)
        held = [self.connect() for _ in range(3)]
        self.run_for()
        self.assertEqual(([read_now(one) for one in held], len(self.served["panes"])), ([LINES] * 3, 1))
        host = self.connect("host")
        self.run_for()
        self.served["host"][0].send(b"bell 3\nsay words\n")
        self.served["panes"][0].send(b"2 1 41 23 39 1\nfocus 2\n")
        self.run_for()
        self.assertEqual((read_now(host), read_now(held[2])), (b"bell 3\nsay words\n", b"2 1 41 23 39 1\nfocus 2\n"))
        self.assertIsNotNone(self.connect("host"))

    def test_cut(self):
        """The end of the command ends all connections, and everything is reported anew on the next one."""
        self.run_for(0.5)
        panes, host = self.connect(), self.connect("host")
        self.run_for()
        self.assertEqual(read_now(panes), LINES)
        self.fars.pop().close()
        ended(self.links[0].said)
        self.run_for()
        self.assertEqual((panes.recv(1), host.recv(1)), (b"", b""))
        self.run_for(2)
        self.assertEqual(len(self.links), 2)
        again = self.connect()
        self.run_for(1)
        self.assertEqual((read_now(again), len(self.served["panes"])), (LINES, 2))

    def test_server_gone(self):
        """If the server there disconnects, subscribers here are disconnected, and its new reports arrive here."""
        self.run_for(0.5)
        panes = self.connect()
        self.run_for()
        self.served["panes"][0].close()
        self.run_for(0.1)
        self.assertEqual((read_now(panes), panes.recv(1)), (LINES, b""))
        again = self.connect()
        self.run_for(0.5)
        self.assertEqual(read_now(again), LINES)

    def test_much(self):
        """Large data arrives whole beside datagrams, and 65,536 bytes wait at most."""
        self.run_for(0.5)
        host = self.connect("host")
        self.run_for()
        wanted, sent, got = os.urandom(300_000), 0, b""
        while len(got) < len(wanted):
            try:
                sent += self.served["host"][0].send(wanted[sent : sent + 20000]) if sent < len(wanted) else 0
            except BlockingIOError:
                pass
            self.run_for(0.05)
            got += read_now(host)
        self.assertEqual(got, wanted)
        self.assertIs(self.near.link, self.links[0])


class ByPath(Joined):
    """The same over a validated path."""

    udp = None

    def validate(self):
        """Validate the path."""
        self.run_for(4)
        self.assertTrue(self.near.ways.is_validated() and self.fars[0].ways.is_validated())

    def test_changes(self):
        """Once the path is validated they end and begin anew over it; once it is silent they do so over the command."""
        self.run_for(0.1)
        self.validate()
        self.assertEqual(len(self.served["panes"]), 2)
        panes, host = self.connect(), self.connect("host")
        self.run_for()
        self.assertEqual((read_now(panes), len(self.served["panes"])), (LINES, 2))
        self.assertIs(self.near.carrying(), self.near.ways.path.streams)
        self.assertEqual((self.links[0].stream.streams.all, self.fars[0].stream.streams.all), ({}, {}))
        self.served["host"][0].send(b"bell 1\n")
        self.served["panes"][1].send(b"focus 1\n" * 3)
        self.run_for()
        self.assertEqual((read_now(host), read_now(panes)), (b"bell 1\n", b"focus 1\n" * 3))
        # UDP is blocked, and the command still works.
        blocked = self.patch_of(self.near.ways.path.aead, "counter_of", lambda packet: 0)
        self.patch_of(self.fars[0].ways.path.aead, "counter_of", lambda packet: 0)
        self.run_for(12)
        self.assertEqual((panes.recv(1), host.recv(1)), (b"", b""))
        again = self.connect()
        self.run_for(2)
        self.assertIs(self.near.carrying(), self.links[0].stream.streams)
        self.assertEqual(read_now(again), LINES)
        self.assertTrue(blocked)

    def test_alone(self):
        """After the command's end they continue over the path without a change."""
        self.validate()
        panes = self.connect()
        self.run_for()
        self.assertEqual(read_now(panes), LINES)
        ended(self.links[0].said)
        self.links[0].hang_up()
        ended(self.links[0].target)
        self.run_for(5)
        self.served["panes"][-1].send(b"2 1 41 23 39 1\n")
        self.run_for()
        self.assertEqual((read_now(panes), self.near.link), (b"2 1 41 23 39 1\n", None))

    def test_much(self):
        """Large data arrives whole over a path, both ways."""
        self.validate()
        one = self.connect("host")
        self.run_for()
        server = self.served["host"][0]
        for writer, reader in ((server, one), (one, server)):
            wanted, sent, got = os.urandom(200_000), 0, b""
            while len(got) < len(wanted):
                try:
                    sent += writer.send(wanted[sent : sent + 20000]) if sent < len(wanted) else 0
                except BlockingIOError:
                    pass
                self.run_for(0.05)
                got += read_now(reader)
            self.assertEqual(got, wanted)


if __name__ == "__main__":
    unittest.main()
