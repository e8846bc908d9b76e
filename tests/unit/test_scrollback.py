"""The input of the scrollback process, the stored part of its output, and the loss if it is slow or ends."""
import os
import signal
import time
from unittest import mock

from aids import Case, StillLoop
from filtered import FAKE, played
from roam_live.common.event_loop import Loop
from roam_live.host import scrollback
from roam_live.host.scrollback import BEHIND, LAST_WAIT, PAUSES, QUEUE, SCREEN_WAIT, TOLD_FOR, WAITS, Scrollback, chosen_rows
from roam_live.host.scrollback_store import LOST_ROWS, LOST_SOME

SIZE = (23, 80)
LOST = LOST_SOME[:-1].encode()


class Keeping(Case):
    """A host of rows whose scrollback processes are played by hand."""

    processes = 1

    def setUp(self):
        self.loop = StillLoop(lambda: self.now)
        self.fakes = played(self, self.processes)
        self.fake = self.fakes[0]
        self.said, self.told = [], []
        patch = mock.patch.object(scrollback, "program", lambda: "/roam")
        patch.start()
        self.addCleanup(patch.stop)
        self.scrollback = Scrollback(self.loop, self.said.append, 100)
        self.addCleanup(self.scrollback.close)

    def rows(self, pane=1, generation=5):
        """Return the scrollback rows of a pane."""
        return self.scrollback.pane(pane, generation).rows.range().rows(0, 999)[1]

    def ask(self, pane=1, generation=5):
        """Request a snapshot."""
        self.scrollback.ask_snapshot(pane, generation, self.told.append)

    def prints(self, data):
        """Print as the scrollback process."""
        self.fake.prints(data)
        self.loop.turns(2)

    def handed(self):
        """Return the input of the scrollback process."""
        self.loop.turns(2)
        return self.fake.taken()

    def pass_time(self, seconds):
        """Let so much time pass."""
        self.now += seconds
        self.loop.turns(2)


class Handed(Keeping):
    """The input of the scrollback process."""

    def test_panes(self):
        """A pane gets a terminal at its first output, with its size then; another generation has another."""
        self.scrollback.begin(1, 5, SIZE)
        self.scrollback.resize(1, (10, 40))
        self.assertEqual(self.handed(), b"")
        self.scrollback.feed(1, b"a")
        self.scrollback.feed(1, b"")
        self.scrollback.feed(9, b"none")
        self.scrollback.resize(1, (10, 40))
        self.scrollback.resize(1, (1, 900))
        self.scrollback.feed(1, b"b")
        self.assertEqual(self.handed(), b"pane 0 10 40\nbytes 0 1\nasize 0 2 500\nbytes 0 1\nb")
        self.scrollback.begin(1, 6, SIZE)
        self.scrollback.feed(1, b"c")
        self.assertEqual(self.handed(), b"gone 0\npane 1 23 80\nbytes 1 1\nc")
        self.prints(b"rows 0 1 3\n a\nrows 1 1 3\n c\n")
        self.assertEqual(self.rows(generation=6), [b" c"])
        self.assertIsNone(self.scrollback.pane(1, 5))

    def test_printed(self):
        """Its rows are stored, lost ones are marked among them, and cleared ones are dropped."""
        self.scrollback.begin(1, 5, SIZE)
        self.scrollback.feed(1, b"a")
        self.prints(b"rows 0 2 7\n a\n+bc\nlost 0 9\nrows 0 1 3\n d\n")
        self.assertEqual(self.rows(), [b" a", b"+bc", LOST_ROWS.format(9)[:-1].encode(), b" d"])
        self.prints(b"cleared 0\nrows 0 1 3\n e\nrows 77 1 3\n e\n")
        self.assertEqual(self.rows(), [b" e"])

    def test_snapshot(self):
        """The stored rows when the scrollback process reports the screen, and the screen."""
        self.scrollback.begin(1, 5, SIZE)
        self.scrollback.feed(1, b"a")
        self.ask()
        self.ask(2, 5)
        self.ask(1, 6)
        self.assertEqual(self.told, [None, None])
        self.assertEqual(self.handed(), b"pane 0 23 80\nbytes 0 1\nascreen 0\n")
        self.prints(b"rows 0 1 3\n a\nscreen 0 2 6\n s\n t\nrows 0 1 3\n b\nscreen 0 1 3\n x\n")
        snapshot = self.told[2]
        self.assertEqual(snapshot.rows(0, 9), (0, [b" a", b" s", b" t"]))
        self.assertEqual(self.rows(), [b" a", b" b"])

    def test_late(self):
        """A late screen answers nobody, and each further one its own request."""
        self.scrollback.begin(1, 5, SIZE)
        self.ask()
        self.pass_time(SCREEN_WAIT + 0.1)
        self.assertEqual(self.told, [None])
        self.ask()
        self.prints(b"screen 0 1 3\n x\n")
        self.assertEqual(self.told, [None])
        self.prints(b"screen 0 1 3\n y\n")
        self.assertEqual(self.told[1].rows(0, 9)[1], [b" y"])

    def test_last(self):
        """A log reader gets an ended pane's last screen, without the blank rows at its end, before it is forgotten."""
        self.scrollback.begin(1, 5, SIZE)
        self.scrollback.feed(1, b"a")
        pane = self.scrollback.pane(1, 5)
        pane.logs += 1
        self.scrollback.begin(1, 6, SIZE)
        self.prints(b"rows 0 1 3\n a\nscreen 0 3 9\n s\n t\n  \n")
        self.assertEqual(pane.rows.range().rows(0, 9)[1], [b" a", b" s", b" t"])
        self.assertIs(self.scrollback.pane(1, 5), pane)
        self.assertEqual(self.scrollback.pane(1, 6).rows.end, 0)
        pane.logs -= 1
        self.scrollback.unlogged(pane)
        self.assertIsNone(self.scrollback.pane(1, 5))
        pane = self.scrollback.pane(1, 6)
        pane.logs += 1
        self.scrollback.drop(1)
        self.pass_time(SCREEN_WAIT + 0.1)
        self.pass_time(LAST_WAIT + 0.1)
        self.assertTrue(pane.is_gone)
        self.assertEqual((self.scrollback.leaving, self.scrollback.room.panes), ([], []))


class Behind(Keeping):
    """A slow scrollback process."""

    def fill(self):
        """Write to a pane while it is read."""
        for _ in range(1000):
            if not self.scrollback.hears():
                return
            self.scrollback.feed(1, b"x" * 4096)
            self.loop.turns()

    def test_waits(self):
        """Panes aren't read while too much waits, until half of it is taken; nothing is lost then."""
        self.scrollback.begin(1, 5, SIZE)
        self.fill()
        size = self.scrollback.process.size()
        self.assertGreaterEqual(size, QUEUE)
        self.assertFalse(self.scrollback.hears())
        found = b""
        while not self.scrollback.hears():
            found += self.fake.taken()
            self.loop.turns()
        self.assertLessEqual(self.scrollback.process.size(), QUEUE // 2)
        self.pass_time(WAITS + 1)
        while self.scrollback.process.size():
            found += self.fake.taken()
            self.loop.turns()
        self.assertEqual((self.said, found.count(b"pane")), ([], 1))

    def test_lost(self):
        """After a second panes are read again; then rows are lost, which is reported and marked among the stored ones."""
        self.scrollback.begin(1, 5, SIZE)
        self.scrollback.begin(2, 5, SIZE)
        self.scrollback.feed(2, b"quiet")
        self.fill()
        self.pass_time(WAITS - 0.1)
        self.assertFalse(self.scrollback.hears())
        self.pass_time(0.2)
        self.assertTrue(self.scrollback.hears())
        self.assertEqual(self.said, [BEHIND])
        size = self.scrollback.process.size()
        for number in range(1000):
            self.scrollback.feed(1, b"y" * 4096)
            self.scrollback.resize(1, (10, 40 + number % 2))
            self.ask()
        self.assertEqual(self.scrollback.process.size(), size)
        self.assertEqual(set(self.told), {None})
        self.fake.taken()
        self.loop.turns()
        self.assertGreater(self.scrollback.process.size(), 0)
        self.scrollback.feed(1, b"y" * 4096)
        found = b""
        for _ in range(100):
            found += self.fake.taken()
            self.loop.turns()
        self.assertFalse(b"yy" in found)
        self.prints(b"rows 1 1 3\n a\n")
        self.scrollback.feed(1, b"z")
        self.scrollback.feed(2, b"z")
        self.assertEqual(self.handed(), b"pane 2 10 41\nbytes 2 1\nzbytes 0 1\nz")
        self.prints(b"rows 1 1 3\n b\nrows 2 1 3\n z\nrows 0 1 3\n q\n")
        self.assertEqual(self.rows(), [b" a", b" b", LOST, b" z"])
        self.assertEqual(self.rows(2), [b" q"])

    def test_told(self):
        """It is reported once in a while, however often it happens."""
        self.scrollback.begin(1, 5, SIZE)
        for _ in range(3):
            self.fill()
            self.pass_time(WAITS + 0.1)
            while self.scrollback.process.size():
                self.fake.taken()
                self.loop.turns()
        self.assertEqual(self.said, [BEHIND])
        self.pass_time(TOLD_FOR)
        self.fill()
        self.pass_time(WAITS + 0.1)
        self.assertEqual(self.said, [BEHIND, BEHIND])

    def test_bounded(self):
        """Requests and sizes for a stalled process have a bounded queue."""
        self.scrollback.begin(1, 5, SIZE)
        self.scrollback.feed(1, b"a")
        for number in range(60_000):
            self.scrollback.resize(1, (10, 40 + number % 2))
            self.ask()
        self.assertLess(self.scrollback.process.size(), 3 * QUEUE)
        self.assertLess(len(self.scrollback.ending), 2)


class Ended(Keeping):
    """A scrollback process that ends repeatedly."""

    processes = 3

    def end(self):
        """End the current scrollback process."""
        self.fakes.pop(0).end()
        self.fake = self.fakes[0] if self.fakes else None
        self.loop.turns(2)

    def test_again(self):
        """Another is spawned after a growing pause, and each pane has a new terminal there; the loss is reported and marked."""
        self.scrollback.begin(1, 5, SIZE)
        self.scrollback.begin(2, 5, SIZE)
        self.scrollback.feed(1, b"a")
        self.prints(b"rows 0 1 3\n a\n")
        self.ask()
        self.end()
        self.assertEqual(self.said, [scrollback.ENDED.format("it stopped reading")])
        self.scrollback.feed(1, b"lost")
        self.ask()
        # Rows that are stored are answered all the same, with the reason in place of the screen.
        told = [b" a", b" [the screen is missing here: the scrollback process ended, and is restarted soon]"]
        self.assertEqual([snapshot.rows(0, 9)[1] for snapshot in self.told], [told, told])
        self.pass_time(PAUSES[0])
        self.scrollback.feed(1, b"b")
        self.scrollback.feed(2, b"c")
        self.assertEqual(self.handed(), b"pane 1 23 80\nbytes 1 1\nbpane 2 23 80\nbytes 2 1\nc")
        self.prints(b"rows 1 1 3\n b\nrows 2 1 3\n c\n")
        self.assertEqual((self.rows(), self.rows(2)), ([b" a", LOST, b" b"], [b" c"]))
        self.end()
        self.pass_time(PAUSES[0])
        self.assertIsNone(self.scrollback.process)
        self.pass_time(PAUSES[1])
        self.assertIsNotNone(self.scrollback.process)
        self.end()
        self.pass_time(PAUSES[2])
        self.assertEqual(self.said[-1], "no scrollback is stored: no process is left; tried again")
        self.pass_time(PAUSES[3])
        self.assertIsNone(self.scrollback.process)
        self.assertTrue(self.scrollback.hears())

    def test_other(self):
        """A new terminal after a loss shows the alternate screen if the pane's program does, so that no row scrolls off; a first one
        doesn't.
        """
        self.scrollback.is_other = lambda number: number == 1
        for number in (1, 2):
            self.scrollback.begin(number, 5, SIZE)
            self.scrollback.feed(number, b"a")
        self.assertEqual(self.handed(), b"pane 0 23 80\nbytes 0 1\napane 1 23 80\nbytes 1 1\na")
        self.end()
        self.pass_time(PAUSES[0])
        for number in (1, 2):
            self.scrollback.feed(number, b"b")
        self.assertEqual(self.handed(), b"pane 2 23 80\nbytes 2 9\n\x1b[?1049hbpane 3 23 80\nbytes 3 1\nb")

    def test_nonsense(self):
        """One that prints an invalid record is ended."""
        self.scrollback.begin(1, 5, SIZE)
        self.scrollback.feed(1, b"a")
        self.prints(b"rows 0 1 3\n a\n")
        self.prints(b"rows 0 2 3\n a\n")
        self.assertIsNone(self.scrollback.process)
        self.assertEqual(self.said, [scrollback.ENDED.format("it printed a wrong number of rows")])
        self.assertEqual(self.rows(), [b" a"])

    def test_sound(self):
        """One that was healthy for a while is replaced at once."""
        for _ in range(2):
            self.pass_time(scrollback.SOUND)
            self.end()
            self.pass_time(PAUSES[0])
            self.assertIsNotNone(self.scrollback.process)


class Chosen(Case):
    """The limit on stored rows."""

    def test_chosen(self):
        """The limit is ROAM_HISTORY; an invalid one, which is reported, means 10,000."""
        for word, count in (("", 10000), ("0", 0), ("500", 500), ("1000000", 1000000), ("-1", None), ("1000001", None), ("many", None),
                            ("\u0663", None), ("9" * 30, None)):
            with mock.patch.dict(os.environ, {"ROAM_HISTORY": word}):
                chosen, wrong = chosen_rows()
            self.assertEqual((chosen, bool(wrong)), (10000 if count is None else count, count is None), word)

    def test_none(self):
        """With a limit of zero no scrollback process runs."""
        said = []
        with mock.patch.object(Scrollback, "words", side_effect=AssertionError):
            scrollback = Scrollback(StillLoop(lambda: self.now), said.append, 0)
        scrollback.begin(1, 5, SIZE)
        scrollback.feed(1, b"a\n" * 100)
        self.assertEqual((said, scrollback.pane(1, 5)), ([], None))
        scrollback.close()

    def test_absent(self):
        """If the program is missing it is tried again."""
        said = []
        loop = StillLoop(lambda: self.now)
        with mock.patch.dict(os.environ, {"ROAM": "/no/such/roam"}):
            scrollback = Scrollback(loop, said.append, 10)
            for pause in (*PAUSES, PAUSES[-1]):
                self.now += pause
                loop.turns()
        self.assertEqual(said, ["no scrollback is stored: /no/such/roam is no program; the variable ROAM names it; tried again"] * 3)
        scrollback.close()


class Real(Case):
    """Real processes of a small script."""

    def until(self, test):
        """Take turns until a condition is true."""
        end = time.monotonic() + 10
        while not test() and time.monotonic() < end:
            self.loop.turn()
        self.assertTrue(test())

    def test_killed(self):
        """The last rows are stored, whole and in order; after a kill, those before it and the later ones."""
        self.loop, said = Loop(), []
        self.loop.each(lambda: self.loop.clock() + 0.02)
        with mock.patch.object(Scrollback, "words", lambda self: FAKE):
            scrollback = Scrollback(self.loop, said.append, 1000)
            self.addCleanup(scrollback.close)
            scrollback.begin(1, 5, (2, 80))
            for number in range(0, 5000, 100):
                scrollback.feed(1, b"".join(b"%d\r\n" % one for one in range(number, number + 100)))
            rows = scrollback.pane(1, 5).rows
            self.until(lambda: rows.end == 4999)
            self.assertEqual(rows.range().rows(0, 2000), (3999, [b" %d" % one for one in range(3999, 4999)]))
            os.kill(scrollback.process.process, signal.SIGKILL)
            self.until(lambda: said)
            self.until(lambda: scrollback.process)
            scrollback.feed(1, b"a\r\nb\r\n")
            self.until(lambda: rows.end == 5001)
            self.assertEqual(rows.range().rows(4998, 9), (4998, [b" 4998", LOST, b" a"]))
            scrollback.feed(1, b"\x1b[3J")
            self.until(lambda: rows.first == rows.end)
