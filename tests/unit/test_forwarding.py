"""Forwarded connections of a relay: both ends over frames of a command, and over lost and reordered chunks of a path."""
import random
import socket
import unittest

from aids import Case, StillLoop, read_now
from roam_live.relay import forwarding, path_forwarding
from roam_live.relay.forwarding import (BYTES, CREDIT, END, HOST, MOST_FORWARDED, NUMBER, OPEN, PANES, TAKEN, TAKEN_AFTER, TAKEN_COUNT,
                                        BadStream, PipeStreams)
from roam_live.relay.path_forwarding import LONGEST_CHUNK, MOST_CHUNKS, STREAM, STREAM_KIND, TAKEN_KIND, PathStreams, StreamChunk

ROOM = 1137


class Both(Case):
    """Two ends of a transport, and a folder of the far one with simulated sockets."""

    def setUp(self):
        self.loop = StillLoop()
        self.servers, self.names, self.by_name = [], [], {}
        self.make()

    def opens(self, name):
        """Return a connection to a socket of the far folder; its other end is the server's."""
        self.names.append(name)
        if name == "w/3/panes":
            raise ConnectionRefusedError("nobody keeps shells")
        ours, theirs = self.pair()
        self.servers.append(theirs)
        self.by_name[name] = theirs
        return ours

    def client(self, name="panes", said=b""):
        """Connect at the near end, and return the connection's other end; None if there is no room."""
        ours, theirs = self.pair()
        return ours if self.near.begin(name, theirs, said) else None

    def turn(self, count=1):
        """Pass all data on, so many times."""
        for _ in range(count):
            self.loop.turn()
            self.carry()


class Carries:
    """Properties of both transports."""

    def test_both_ways(self):
        """Bytes go both ways, in order, to the socket of that name; bytes read earlier go first."""
        client, other = self.client("panes", b"host\n"), self.client("host")
        self.turn(2)
        self.assertEqual(sorted(self.names), ["host", "panes"])
        panes, host = self.by_name["panes"], self.by_name["host"]
        client.send(b"close 1 1\n")
        panes.send(b"1 1 1 23 80 1\n")
        host.send(b"others 0\n")
        self.turn(4)
        self.assertEqual((read_now(panes), read_now(host)), (b"host\nclose 1 1\n", b""))
        self.assertEqual((read_now(client), read_now(other)), (b"1 1 1 23 80 1\n", b"others 0\n"))

    def test_ends(self):
        """An end of either side ends both, after the earlier bytes; nothing of it remains at either end."""
        for is_near in (True, False):
            client = self.client()
            self.turn(2)
            first, second = (client, self.servers[-1])[:: 1 if is_near else -1]
            first.send(b"x" * 5000)
            first.close()
            self.turn(8)
            self.assertEqual(read_now(second), b"x" * 5000)
            self.assertEqual(second.recv(1), b"")
            self.assertEqual((self.near.all, self.far.all), ({}, {}))

    def test_names(self):
        """There are two valid names, and no other, nor a path; without a listener the connection ends."""
        self.assertEqual((HOST, PANES), ("host", "panes"))
        clients = [self.client(name) for name in ("clients", "p1", "terminals", "../panes", "panes\0", "w/3/host", "w/3/panes", "x" * 32)]
        self.turn(6)
        self.assertEqual((self.names, self.servers), (["w/3/panes"], []))
        for client in clients:
            self.assertEqual(client.recv(1), b"")
        self.assertEqual((self.near.all, self.far.all), ({}, {}))

    def test_most(self):
        """64 connections are forwarded, and no more; the end of one makes room for another."""
        clients = [self.client() for _ in range(MOST_FORWARDED)]
        self.assertEqual(MOST_FORWARDED, 64)
        self.assertNotIn(None, clients)
        self.assertIsNone(self.client())
        self.turn(3)
        self.assertEqual((len(self.servers), len(self.far.all)), (64, 64))
        clients[5].close()
        self.turn(6)
        self.assertEqual((len(self.near.all), len(self.far.all)), (63, 63))
        again = self.client()
        self.turn(3)
        self.servers[-1].send(b"y")
        self.turn(3)
        self.assertEqual((len(self.servers), read_now(again)), (65, b"y"))

    def test_credit(self):
        """If a reader takes nothing, 65,536 bytes are taken beyond its consumption, and then the writer waits. Once it reads, everything
        arrives, and a slow reader loses nothing.
        """
        client = self.client()
        self.turn(2)
        server, (one,) = self.servers[0], self.near.all.values()
        there = self.far.all[one.number]
        one.peer.setsockopt(socket.SOL_SOCKET, socket.SO_SNDBUF, 4096)
        wanted, sent = bytes(range(256)) * 4096, 0
        for _ in range(200):
            try:
                sent += server.send(wanted[sent : sent + 8192])
            except BlockingIOError:
                pass
            self.turn()
            self.assertLessEqual(there.went - max(0, one.taken), CREDIT)
            self.assertLessEqual(len(one.coming), CREDIT)
            self.assertLess(len(there.going), 3 * CREDIT)
        self.assertLess(sent, len(wanted))
        self.assertEqual(there.room(), 0)
        got = b""
        while len(got) < len(wanted):
            got += read_now(client)
            try:
                sent += server.send(wanted[sent : sent + 8192]) if sent < len(wanted) else 0
            except BlockingIOError:
                pass
            self.turn()
        self.assertEqual(got, wanted)

    def test_end_all(self):
        """After a change of transport they all end, at both ends."""
        clients = [self.client(name) for name in ("panes", "host")]
        self.turn(2)
        self.near.end_all()
        self.turn(4)
        for end in (*clients, *self.servers):
            self.assertEqual(end.recv(1), b"")
        self.assertEqual((self.near.all, self.far.all), ({}, {}))
        self.client()
        self.turn(2)
        self.far.end_all()
        self.turn(4)
        self.assertEqual((self.near.all, self.far.all), ({}, {}))

    def test_close(self):
        """A transport that is gone ends them."""
        client = self.client()
        self.turn(2)
        self.near.close()
        self.far.close()
        self.assertEqual((client.recv(1), self.servers[0].recv(1), self.near.all, self.far.all, self.loop.sources), (b"", b"", {}, {}, {}))

    def test_numbers(self):
        """A number isn't reused while it is in use, and after the last comes the first."""
        self.near.last = forwarding.MOST_NUMBER - 1
        for _ in range(2):
            self.client()
        self.near.last = forwarding.MOST_NUMBER - 1
        self.client()
        self.assertEqual(list(self.near.all), [65535, 1, 2])
        self.turn(3)
        self.assertEqual(len(self.servers), 3)

    def test_ending(self):
        """Those whose end the other end never acknowledges are remembered for a while, 64 at most."""
        self.is_cut = True
        for _ in range(300):
            client = self.client()
            client.send(b"x")
            self.turn()
            client.close()
            self.turn()
        self.assertLessEqual(len(self.near.all), 64)


class Limits(Case):
    """The limits of forwarded data."""

    def test_limits(self):
        """The credit is 65,536 bytes beyond the consumption, acknowledged every 16,384 bytes; as many are read ahead."""
        self.assertEqual((forwarding.CREDIT, forwarding.TAKEN_AFTER, forwarding.READ_AHEAD), (65536, 16384, 16384))
        self.assertEqual((forwarding.MOST_ENDING, forwarding.LONGEST_NAME, path_forwarding.MOST_CHUNKS), (64, 32, 64))


class Pipes(Both, Carries):
    """Over the frames of a command, which arrive whole and in order."""

    is_cut = False

    def make(self):
        """Return both ends."""
        self.going = {"near": [], "far": []}
        self.near = PipeStreams(self.loop, lambda text, is_counted: self.going["near"].append((text, is_counted)))
        self.far = PipeStreams(self.loop, lambda text, is_counted: self.going["far"].append((text, is_counted)), self.opens)

    def carry(self):
        """Pass each end the other's frames."""
        if self.is_cut:
            self.near.fill(0)
            return
        for name, end, other in (("near", self.near, self.far), ("far", self.far, self.near)):
            end.fill(1 << 16)
            texts, self.going[name] = self.going[name], []
            for text, is_counted in texts:
                self.assertEqual(is_counted, text[:1] == BYTES)
                self.assertTrue(other.take(text))

    def refused(self, end, text, words):
        """Check that a frame is refused."""
        with self.assertRaisesRegex(BadStream, words):
            end.take(text)

    def test_frames(self):
        """The frames are these."""
        client = self.client("panes", b"ab")
        self.near.fill(100)
        client.close()
        self.loop.turn()
        self.near.fill(100)
        self.assertEqual([text for text, _ in self.going["near"]], [b"o\0\1panes", b"d\0\1ab", b"q\0\1"])
        self.assertFalse(self.far.take(b"z"))

    def test_fill(self):
        """So many bytes are sent at once, and each connection has its turn."""
        for _ in range(2):
            self.client("panes", b"x" * 9000)
        self.going["near"].clear()
        for _ in range(4):
            self.assertLessEqual(self.near.fill(4097), 4)
        numbers = [NUMBER.unpack_from(text)[1] for text, _ in self.going["near"] if len(text) > 1000]
        self.assertEqual(numbers, [1, 2, 1, 2])
        self.assertTrue(all(len(text) <= 4096 for text, _ in self.going["near"]))

    def test_forged(self):
        """Invalid frames are refused: cut ones, wrong lengths, more than the credit, more consumed than sent."""
        for kind in (OPEN, BYTES, END, TAKEN):
            for length in range(1, NUMBER.size):
                self.refused(self.far, NUMBER.pack(kind, 1)[:length], "is truncated")
        count = TAKEN_COUNT.pack(TAKEN, 1, 1)
        for text in (NUMBER.pack(BYTES, 1), NUMBER.pack(END, 1) + b"x", count[:-1], count + b"x"):
            self.refused(self.far, text, "an invalid length")
        self.refused(self.near, NUMBER.pack(OPEN, 1) + b"panes", "the far end opened a connection")
        self.far.take(NUMBER.pack(OPEN, 1) + b"panes")
        for number, name in ((1, b"panes"), (0, b"panes"), (2, b""), (2, b"x" * 33)):
            self.refused(self.far, NUMBER.pack(OPEN, number) + name, "an invalid connection")
        for _ in range(16):
            self.far.take(NUMBER.pack(BYTES, 1) + bytes(4096))
        self.refused(self.far, NUMBER.pack(BYTES, 1) + b"x", "exceeded a connection's window")
        self.refused(self.far, TAKEN_COUNT.pack(TAKEN, 1, 1), "acknowledged 1 bytes of a connection's 0")

    def test_65(self):
        """A far end ends the 65th at once, and ignores frames of unknown connections."""
        for number in range(1, 66):
            self.far.take(NUMBER.pack(OPEN, number) + b"panes")
        self.assertEqual((len(self.servers), len(self.far.all)), (64, 64))
        self.assertEqual(self.going["far"], [(NUMBER.pack(END, 65), False)])
        for text in (NUMBER.pack(BYTES, 65) + b"x", NUMBER.pack(END, 65), TAKEN_COUNT.pack(TAKEN, 65, 9)):
            self.assertTrue(self.far.take(text))
        # Too many ending connections with stalled readers are dropped.
        for number in range(1, 65):
            self.far.take(NUMBER.pack(BYTES, number) + b"x")
            self.far.take(NUMBER.pack(END, number))
        for number in range(100, 1000):
            self.far.take(NUMBER.pack(OPEN, number) + b"panes")
            self.far.take(NUMBER.pack(BYTES, number) + b"x")
            self.far.take(NUMBER.pack(END, number))
        self.assertLessEqual(len(self.far.all), 64)


class Paths(Both, Carries):
    """Over chunks of a path, some of which are lost and sent again."""

    is_cut = False

    def make(self):
        """Return both ends, and the chunks in flight of each."""
        self.near, self.far = PathStreams(self.loop), PathStreams(self.loop, self.opens)
        self.chance, self.lost = random.Random(1), 0.0

    def chunks(self, end):
        """Return the chunks that an end sends now: lost ones, and as many more as permitted."""
        found = []
        while len(found) < 200:
            chunk = end.next_chunk(ROOM)
            if not chunk:
                break
            found.append(chunk)
        self.chance.shuffle(found)
        return found

    def carry(self):
        """Pass each end the other's chunks, some of them twice, and acknowledge those that arrived."""
        for end, other in ((self.near, self.far), (self.far, self.near)):
            for chunk in self.chunks(end):
                if self.is_cut or self.chance.random() < self.lost:
                    end.lost(chunk)
                    continue
                frame = end.frame(chunk)
                self.assertEqual(len(frame), end.length(chunk))
                self.assertLessEqual(len(frame), ROOM)
                for _ in range(2):
                    self.give(other, frame)
                end.arrived(chunk)

    def give(self, end, frame):
        """Pass a frame to an end."""
        layout = STREAM if frame[:1] == STREAM_KIND else TAKEN_COUNT
        kind, number, offset = layout.unpack_from(frame)[:3]
        end.take(kind, number, offset, frame[layout.size :])

    def test_lost(self):
        """If every third chunk is lost, and all are reordered, each byte arrives once and in order, and so does the end."""
        self.lost = 1 / 3
        client = self.client()
        wanted = bytes(self.chance.randrange(256) for _ in range(200_000))
        sent, got = 0, b""
        for _ in range(2000):
            if sent < len(wanted):
                sent += client.send(wanted[sent : sent + self.chance.randint(1, 5000)])
            elif client.fileno() >= 0:
                client.close()
            self.turn()
            got += read_now(self.servers[0]) if self.servers else b""
            for one in (*self.near.all.values(), *self.far.all.values()):
                self.assertLess(len(one.parts), MOST_CHUNKS)
                self.assertLessEqual(len(one.sent), MOST_CHUNKS)
        self.assertEqual(got, wanted)
        self.assertEqual((self.servers[0].recv(1), self.near.all, self.far.all), (b"", {}, {}))

    def test_chunks(self):
        """The first bytes are the name and LF; chunks have 1,080 bytes at most, and the last is empty."""
        client = self.client("panes", b"x" * 2000)
        found = [self.near.next_chunk(ROOM) for _ in range(2)]
        client.close()
        self.loop.turn()
        found += [self.near.next_chunk(ROOM) for _ in range(2)]
        self.assertEqual(found, [StreamChunk(b"s", 1, 0), StreamChunk(b"s", 1, 1080), StreamChunk(b"s", 1, 2006), None])
        self.assertEqual(self.near.frame(found[0]), STREAM.pack(b"s", 1, 0, 1080) + b"panes\n" + b"x" * 1074)
        self.assertEqual(self.near.frame(found[2]), b"s\0\1" + (2006).to_bytes(8, "big") + b"\0\0")
        self.assertEqual((LONGEST_CHUNK, STREAM.size, TAKEN_COUNT.size), (1080, 13, 11))
        self.near.arrived(found[1])
        self.assertEqual([self.near.length(chunk) for chunk in found[:3]], [1093, 0, 13])
        self.assertEqual(self.near.next_chunk(13), None)

    def test_little_room(self):
        """A chunk fits the room in the packet; without room there is none."""
        self.client("panes")
        self.assertFalse(self.near.next_chunk(13))
        chunk = self.near.next_chunk(15)
        self.assertEqual(self.near.frame(chunk)[13:], b"pa")
        self.assertTrue(self.near.waits())
        self.assertEqual(self.near.frame(self.near.next_chunk(ROOM))[13:], b"nes\n")
        self.assertFalse(self.near.waits())

    def test_unsent(self):
        """One that ends before anything of it was sent is unknown to the other end."""
        client = self.client()
        client.close()
        self.loop.turn()
        self.assertEqual((self.near.all, self.near.waits()), ({}, False))

    def test_forged(self):
        """Invalid chunks are dropped: bytes beyond the limit, duplicates, another's credit; memory is bounded."""
        self.turn()
        for number, offset, text in ((0, 0, b"panes\n"), (1, CREDIT, b"x"), (1, 1 << 63, b"x"), (1, CREDIT - 1, b"xy")):
            self.far.take(STREAM_KIND, number, offset, text)
        self.assertEqual((self.names, sum(len(one.parts) for one in self.far.all.values())), ([], 0))
        for offset in range(2, 60000):
            self.far.take(STREAM_KIND, 1, offset, b"x")
        self.assertEqual(len(self.far.all[1].parts), MOST_CHUNKS)
        self.far.take(TAKEN_KIND, 1, 5, b"")
        self.far.take(TAKEN_KIND, 99, 5, b"")
        self.assertEqual(self.far.all[1].allowed, CREDIT)
        self.near.take(STREAM_KIND, 7, 0, b"panes\n")
        self.assertEqual(self.near.all, {})

    def test_nameless(self):
        """Those without a name are dropped for others, and one with a too long name is ended."""
        for number in range(1, 1000):
            self.far.take(STREAM_KIND, number, 5, b"x")
        self.assertEqual(len(self.far.all), 64)
        self.far.take(STREAM_KIND, 2000, 0, b"panes\n")
        self.assertEqual(self.names, ["panes"])
        self.far.take(STREAM_KIND, 2001, 0, b"x" * 33)
        self.assertTrue(self.far.all[2001].has_ended)
        self.assertEqual(self.names, ["panes"])

    def test_65(self):
        """A far end ends the 65th at once."""
        for number in range(1, 66):
            self.far.take(STREAM_KIND, number, 0, b"panes\n")
        self.assertEqual((len(self.servers), self.far.all[65].has_ended), (64, True))
        self.assertEqual(self.far.next_chunk(ROOM), StreamChunk(STREAM_KIND, 65, 0))

    def test_late(self):
        """A chunk of an ended one is ignored, and begins no new one."""
        client = self.client()
        self.turn(2)
        client.close()
        self.turn(4)
        self.assertEqual(self.far.all, {})
        self.far.take(STREAM_KIND, 1, 0, b"panes\n")
        self.assertEqual((self.far.all, len(self.servers)), ({}, 1))
        for number in range(2, path_forwarding.MOST_ENDED + 10):
            self.far.take(STREAM_KIND, number, 0, b"panes\n")
            self.far.take(STREAM_KIND, number, 6, b"")
        self.assertEqual(len(self.far.ended), path_forwarding.MOST_ENDED)

    def test_taken_again(self):
        """A lost acknowledgement of consumption is sent again, with the newest count."""
        client = self.client()
        self.turn(2)
        for _ in range(3):
            self.servers[0].send(b"x" * TAKEN_AFTER)
            self.turn(2)
            read_now(client)
        self.turn(2)
        (one,) = self.near.all.values()
        self.assertGreaterEqual(one.told, TAKEN_AFTER)
        self.assertEqual((one.known, self.far.all[1].allowed), (one.told, one.told + CREDIT))
        old = StreamChunk(TAKEN_KIND, 1, one.told - 1)
        self.assertEqual((self.near.length(old), self.near.length(StreamChunk(TAKEN_KIND, 1, one.told))), (0, 0))
        one.known = 0
        self.assertEqual(self.near.length(StreamChunk(TAKEN_KIND, 1, one.told)), TAKEN_COUNT.size)


if __name__ == "__main__":
    unittest.main()
