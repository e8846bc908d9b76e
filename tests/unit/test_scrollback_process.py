"""The scrollback process as a process: records to it and from it, cut anywhere, and all its ends."""
import fcntl
import gc
import os
import signal
import sys
import time
import types

from aids import Case, StillLoop
from filtered import FAKE, played
from roam_live.common.event_loop import Loop
from roam_live.host import scrollback_process
from roam_live.host.scrollback_process import (BATCH, GATHERS, LONGEST_LINE, MOST_RECORD, PIPE_SIZE, SAID_SIZE, BadRecord,
                                               ScrollbackProcess,
                                               ScrollbackRecords, spawned)

PRINTED = b"rows 0 2 7\n a\n+bc\nlost 3 17\ncleared 1023\nscreen 2 0 0\nrows 1 1 2\n \nscreen 4 1 9\n \x1b[1mrow\n"
RECORDS = [("rows", 0, 2, b" a\n+bc\n"), ("lost", 3, 17, b""), ("cleared", 1023, 0, b""), ("screen", 2, 0, b""), ("rows", 1, 1, b" \n"),
           ("screen", 4, 1, b" \x1b[1mrow\n")]


class Printed(Case):
    """Records that it prints."""

    def test_cut(self):
        """They come in any chunks."""
        for cut in range(len(PRINTED) + 1):
            records = ScrollbackRecords()
            self.assertEqual([tuple(one) for one in records.fed(PRINTED[:cut]) + records.fed(PRINTED[cut:])], RECORDS, cut)
        records = ScrollbackRecords()
        self.assertEqual([tuple(one) for at in range(len(PRINTED)) for one in records.fed(PRINTED[at : at + 1])], RECORDS)

    def test_nonsense(self):
        """Invalid and impossible records."""
        for printed in (b"\n", b"hello\n", b"rows 1 2\n", b"rows 1 2 3 4\n", b"rows 1024 1 2\n \n", b"rows -1 1 2\n \n", b"lost 1\n",
                        b"cleared 1 2\n", b"cleared  1\n", b"rows 1 1 1\n ", b"rows 1 2 3\n  \n", b"rows 1 1 3\n \n ", b"lost 1 x\n",
                        b"rows 1 0 1\nx", f"rows 1 1 {MOST_RECORD + 1}\n".encode(), b"lost 1 " + b"9" * 16 + b"\n", b"lost " * 30,
                        b"\xff" * LONGEST_LINE, "rows \u0661 1 2\n".encode(), b"ROWS 1 1 2\n \n"):
            with self.assertRaises(BadRecord, msg=printed):
                records = ScrollbackRecords()
                records.fed(printed[:5])
                records.fed(printed[5:])


class Handed(Case):
    """Its input records, and the ends of one that is played by hand."""

    def setUp(self):
        self.loop = StillLoop(lambda: self.now)
        self.fake = played(self)[0]
        self.records, self.ends, self.writes = [], [], 0
        self.process = ScrollbackProcess(self.loop, ["none"], lambda record: self.records.append(tuple(record)), self.wrote,
                                         lambda why, status: self.ends.append((why, status)))
        self.addCleanup(self.process.end, "the test ends")

    def wrote(self):
        """Count a write."""
        self.writes += 1

    def test_joined(self):
        """Output for one terminal forms one record, and stays before later ones."""
        self.process.add("pane 1 2 4")
        for data in (b"ab", b"c\n"):
            self.process.add_bytes(1, data)
        self.process.add_bytes(2, b"d")
        self.process.add("screen 2")
        self.process.add_bytes(1, b"e")
        self.assertEqual(self.process.size(), len(b"pane 1 2 4\nbytes 1 4\nabc\nbytes 2 1\ndscreen 2\n" + b"e"))
        self.loop.turns(2)
        self.assertEqual(self.fake.taken(), b"pane 1 2 4\nbytes 1 4\nabc\nbytes 2 1\ndscreen 2\nbytes 1 1\ne")
        self.assertEqual((self.process.size(), self.writes), (0, 1))

    def test_full(self):
        """Unaccepted records wait, and go in order."""
        data = bytes(range(256)) * 4096
        for at in range(0, len(data), 4096):
            self.process.add_bytes(1, data[at : at + 4096])
        self.loop.turns(40)
        self.assertGreater(self.process.size(), 0)
        found = b""
        for _ in range(60):
            found += self.fake.taken()
            self.now += GATHERS
            self.loop.turns(2)
        self.assertTrue(found == b"bytes 1 %d\n" % len(data) + data)

    def test_gathered(self):
        """Output waits a little for more; not if there is much of it, or another record follows."""
        self.process.add_bytes(1, b"a")
        self.loop.turns(2)
        self.assertEqual(self.fake.taken(), b"")
        self.assertAlmostEqual(self.loop.waited, GATHERS)
        self.process.add_bytes(1, b"b")
        self.now += GATHERS
        self.loop.turns(2)
        self.assertEqual(self.fake.taken(), b"bytes 1 2\nab")
        self.process.add_bytes(1, b"x" * BATCH)
        self.loop.turns(2)
        self.assertEqual(len(self.fake.taken()), len(f"bytes 1 {BATCH}\n") + BATCH)
        self.now += GATHERS
        self.loop.turns(2)
        self.process.add_bytes(1, b"c")
        self.process.add("screen 1")
        self.loop.turns(2)
        self.assertEqual(self.fake.taken(), b"bytes 1 1\ncscreen 1\n")

    def test_printed(self):
        """Its output arrives."""
        self.fake.prints(PRINTED[:50])
        self.loop.turns()
        self.fake.prints(PRINTED[50:])
        self.loop.turns()
        self.assertEqual(self.records, RECORDS)

    def test_nonsense(self):
        """One that prints an invalid record is ended, and earlier records are passed on."""
        self.fake.prints(b"rows 1 1 2\n \nnonsense\nrows 1 1 2\n \n")
        self.loop.turns()
        self.assertEqual(self.records, [])
        self.assertEqual(self.ends, [("it printed an invalid record", None)])
        self.process.write = self.fail
        self.loop.turns(3)

    def test_ended(self):
        """One whose output ends has ended; one that accepts no more too, and its message is reported."""
        self.fake.end()
        self.loop.turns(2)
        self.assertEqual(self.ends, [("it ended", None)])
        other = played(self, 1, b"roam: line 3: bad record\x1b[2J\nmore\n")[0]
        one = ScrollbackProcess(self.loop, ["none"], self.fail, self.wrote, lambda why, status: self.ends.append((why, status)))
        os.close(other.input)
        other.open.discard(other.input)
        one.add("pane 1 2 4")
        self.loop.turns(2)
        self.assertEqual(self.ends[1:], [("roam: line 3: bad record?[2J; more", None)])


def open_ends():
    """Return this process's descriptors, without those of loops of earlier tests."""
    gc.collect()
    return os.listdir("/proc/self/fd")


class Spawned(Case):
    """A real process."""

    def setUp(self):
        self.loop = Loop()
        self.loop.each(lambda: self.loop.clock() + 0.02)

    def until(self, test):
        """Take turns until a condition is true."""
        end = time.monotonic() + 10
        while not test() and time.monotonic() < end:
            self.loop.turn()
        self.assertTrue(test())

    def spawn(self, words):
        """Return a scrollback process."""
        self.records, self.ends = [], []
        one = ScrollbackProcess(self.loop, words, lambda record: self.records.append(tuple(record)), lambda: None,
                                lambda why, status: self.ends.append((why, status)))
        self.addCleanup(one.signal_kill)
        return one

    def test_filters(self):
        """Scrolled-off rows are printed; it ends with its input, and nothing of it remains."""
        ends = open_ends()
        one = self.spawn(FAKE)
        one.add("pane 7 2 4")
        one.add_bytes(7, b"a\r\nb\r\nc\r\nd")
        one.add("screen 7")
        self.until(lambda: len(self.records) == 2)
        self.assertEqual(self.records, [("rows", 7, 2, b" a\n b\n"), ("screen", 7, 2, b" c\n d\n")])
        one.end("it is needed no more")
        self.until(lambda: self.ends)
        self.assertEqual(self.ends, [("it is needed no more", 0)])
        self.assertEqual(open_ends(), ends)

    def test_killed(self):
        """One that is killed, one that ends by itself with a message, one that prints no more and stays, and a missing one are handled."""
        self.patch_of(scrollback_process, "ENDS", 0.05)
        self.patch_of(scrollback_process, "REAPS", 0.005)
        one = self.spawn(FAKE)
        os.kill(one.process, signal.SIGKILL)
        self.until(lambda: self.ends)
        self.assertEqual(self.ends, [("it ended", -signal.SIGKILL)])
        self.spawn([sys.executable, "-S", "-E", "-c", "import sys; sys.exit('no such command')"])
        self.until(lambda: self.ends)
        self.assertEqual(self.ends, [("no such command", 1)])
        one = self.spawn([sys.executable, "-S", "-E", "-c", "import os, time; os.close(1); time.sleep(60)"])
        self.until(lambda: self.ends)
        self.assertEqual(self.ends, [("it ended", -signal.SIGKILL)])
        before = open_ends()
        with self.assertRaises(OSError):
            self.spawn(["/no/such/program"])
        self.assertEqual(open_ends(), before)

    def test_pipes(self):
        """Its pipes have the given sizes, also in a Python without that call's name."""
        self.patch_of(scrollback_process, "fcntl", types.SimpleNamespace(fcntl=fcntl.fcntl))
        process, ends = spawned([sys.executable, "-S", "-E", "-c", ""])
        os.waitpid(process, 0)
        # F_GETPIPE_SZ of Linux.
        sizes = [fcntl.fcntl(end, 1032) for end in ends]
        for end in ends:
            os.close(end)
        self.assertEqual((sizes[2], max(sizes[:2]) <= PIPE_SIZE), (SAID_SIZE, True))

    def test_much_said(self):
        """One that prints more messages than a pipe holds is read on, and its end is reported with the newest of them."""
        says = "import sys; sys.stderr.write('x' * 100000 + ' the last words'); sys.stderr.flush(); sys.stdout.write('lost 1 1\\n')"
        records, ends, loop = [], [], Loop()
        real = ScrollbackProcess(loop, [sys.executable, "-S", "-E", "-c", says], records.append, lambda: None, lambda *end: ends.append(end))
        until = time.monotonic() + 10
        while not ends and time.monotonic() < until:
            loop.later("look", 0.01, lambda: None)
            loop.turn()
        real.end("the test ends")
        self.assertEqual([tuple(one) for one in records], [("lost", 1, 1, b"")])
        self.assertTrue(ends and ends[0][0].endswith("x the last words") and len(ends[0][0]) <= scrollback_process.MOST_SAID)

    def test_descriptors(self):
        """A process has its three ends and no other of this one, and doesn't count as a program of a pane."""
        self.environment(ROAM_PANE="other:3", KEPT="one")
        told = "import os; print(os.environ.get('ROAM_PANE'), os.environ['KEPT'], *os.listdir('/proc/self/fd'))"
        process, ends = spawned([sys.executable, "-S", "-E", "-c", told])
        os.waitpid(process, 0)
        pane, kept, *said = os.read(ends[1], 4096).split()
        self.assertEqual((pane, kept), (b"None", b"one"))
        self.assertFalse({str(end).encode() for end in ends} & set(said), said)
        for end in ends:
            self.assertFalse(os.get_inheritable(end))
            os.close(end)
