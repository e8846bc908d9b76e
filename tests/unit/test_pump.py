"""The pump of the pty host: logs of bytes, and the pipe between their source and them."""
import os
import random
from unittest import mock

from aids import Case
from roam_live.host import pump
from roam_live.host.pump import ByteLog, Transit

TEXT = bytes(random.Random(7).randbytes(700_000))


class Pumped(Case):
    """A log between two connections."""

    def setUp(self):
        self.transit = Transit.made()
        self.log = ByteLog("%7 output")
        for end in (*self.transit.ends(), self.log.end):
            self.addCleanup(os.close, end)
        self.source, self.theirs = self.pair()
        self.target, self.reader = self.pair()

    def taken(self, most=1 << 16):
        """Take bytes from the source."""
        return self.log.take(self.transit, self.theirs.fileno(), most)

    def send(self, most=1 << 16):
        """Send bytes to the target."""
        return self.log.send(self.target.fileno(), most)

    def read(self):
        """Return the bytes that came to the target."""
        try:
            return self.reader.recv(1 << 20)
        except BlockingIOError:
            return b""

    def test_passed_on(self):
        """All bytes pass in their order, however they are cut, with and without splice, and the log frees its sent bytes."""
        for splice in (pump.SPLICE, None):
            self.transit.splice, chance = splice, random.Random(8)
            left, got, copied = memoryview(TEXT), bytearray(), bytearray()
            while len(got) < len(TEXT):
                left = left[self.source.send(left[: chance.randrange(1, 9000)]) if left else 0 :]
                start = self.log.size
                self.taken(chance.randrange(1, 20_000))
                copied += self.log.copy(start)
                self.send(chance.randrange(1, 9000))
                got += self.read()
                self.assertLessEqual(os.fstat(self.log.end).st_blocks * 512, self.log.waits() + 4 * pump.STEP)
            self.assertEqual((bytes(got), bytes(copied), self.log.waits()), (TEXT, TEXT, 0))

    def test_ends(self):
        """Nothing that came yet is None, and the end of file is 0. A target that takes nothing takes 0 bytes; one that is gone is an error.
        """
        self.assertIsNone(self.taken())
        self.log.append(b"x" * 1_000_000)
        while self.send():
            pass
        self.assertGreater(self.log.waits(), 0)
        self.log.drop()
        self.assertEqual((self.log.waits(), self.send()), (0, 0))
        self.reader.close()
        self.log.append(b"y")
        with self.assertRaises(OSError):
            self.send()
        self.source.close()
        self.assertEqual(self.taken(), 0)

    def test_refused(self):
        """If the system refuses splice, read and write do it. Another error is the end of file."""
        self.source.send(b"x" * 9000)
        for number, most, count in ((1, 5000, 5000), (22, 9000, 4000), (1, 9000, None), (5, 9000, 0)):
            self.transit.splice = mock.Mock(side_effect=OSError(number, "refused"))
            self.assertEqual(self.taken(most), count)

    def test_no_room(self):
        """If the system refuses to write more, the bytes wait in this process alone, in their order, and later ones are stored again."""

        def refuses(source, target, count, **more):
            if "offset_dst" in more:
                raise OSError(27, "File too large")
            return pump.SPLICE(source, target, count, **more)

        got = bytearray()
        self.log.append(b"one ")
        self.transit.splice, start = refuses, self.log.position()
        self.source.send(b"two ")
        self.assertEqual(self.taken(), 4)
        with mock.patch.object(pump.os, "pwrite", side_effect=OSError(27, "File too large")):
            self.transit.noted = b"another"
            self.source.send(b"three ")
            self.assertEqual((self.taken(), self.log.copy(start), self.log.waits()), (6, b"two three ", 14))
        while self.send(3):
            got += self.read()
        self.assertEqual((bytes(got), self.log.waits(), self.log.position()), (b"one two three ", 0, 14))
        self.transit.splice = pump.SPLICE
        self.source.send(b"four")
        self.assertEqual((self.taken(), self.log.size, self.send(9), self.read()), (4, 8, 4, b"four"))

    def test_killed(self):
        """A host that is killed between two steps loses no byte and doubles none: another one goes on with the same descriptors."""
        for place in range(3):
            text = bytes([0x61 + place]) * 100
            self.source.send(text)
            kept = self.transit.splice

            def steps(*words, place=place, count=iter(range(9)), kept=kept, **more):
                if next(count) == place:
                    raise KeyboardInterrupt
                return kept(*words, **more)

            self.transit.splice = steps
            with mock.patch.object(self.transit, "splice", steps):
                try:
                    self.taken()
                except KeyboardInterrupt:
                    pass
            self.transit, self.log = Transit(*self.transit.ends()), ByteLog("%7 output", self.log.end)
            self.transit.empty({self.log.name: self.log})
            if place == 0:
                self.assertEqual(self.log.waits(), 0)
                self.taken()
            self.send()
            self.assertEqual(self.read(), text, place)

    def test_left(self):
        """Bytes in the pipe go to the noted log. They are dropped if that is gone."""
        os.write(self.transit.writer, b"left")
        self.transit.goes_to(b"%8 typed")
        other = ByteLog("%8 typed")
        self.addCleanup(other.close)
        self.transit.empty({log.name: log for log in (self.log, other)})
        self.assertEqual((other.copy(0), self.log.size), (b"left", 0))
        os.write(self.transit.writer, b"gone")
        self.transit.empty({self.log.name: self.log})
        self.assertIsNone(self.taken())
        self.source.send(b"new")
        self.assertEqual((self.taken(), self.log.copy(0)), (3, b"new"))


class Positions(Case):
    """The positions of a log."""

    def test_heir(self):
        """The size and the position are those of the file, also for another process."""
        one, (end, other) = ByteLog("%1 output"), self.pair()
        self.addCleanup(one.close)
        one.append(b"0123456789")
        one.send(end.fileno(), 4)
        heir = ByteLog("%1 output", one.end)
        self.assertEqual((heir.size, heir.sent, heir.waits(), heir.copy(8), other.recv(9)), (10, 4, 6, b"89", b"0123"))
        self.assertEqual((heir.send(end.fileno(), 99), other.recv(9)), (6, b"456789"))

    def test_no_descriptor(self):
        """Without a free descriptor a pipe isn't half made."""
        with mock.patch.object(pump.os, "memfd_create", side_effect=OSError(24, "Too many open files")):
            before = len(os.listdir("/proc/self/fd"))
            with self.assertRaises(OSError):
                Transit.made()
            self.assertEqual(len(os.listdir("/proc/self/fd")), before)
