"""A new size of a pane: the question to the scrollback process, its answers, and the moment at which the programs learn the size."""
from unittest import mock

from aids import StillLoop
from roam_live.host import scrollback
from roam_live.host.pane import PaneCommand
from roam_live.host.rewrap import ANSWER_WAIT, BEGINS_UPDATE, ENDS_UPDATE, MOST_LATE, PASSED_ON, PaneResizer
from roam_live.host.scrollback_process import GATHERS, MOST_TERMINALS, BadRecord, ScrollbackRecords
from roam_live.host.scrollback_store import RowsRoom
from roam_live.host.state import PaneState
from test_scrollback import Keeping
from test_scrollback_store import all_rows, kept, rows_of

NARROW, WIDE = (23, 39), (23, 80)
UPDATE = BEGINS_UPDATE + b"%s" + ENDS_UPDATE


class PlayedPane(PaneCommand):
    """A pane without a terminal and a socket, which records its calls."""

    def __init__(self, loop):
        asked = mock.Mock(dir="/none")
        asked.named.return_value = "pane 1"
        super().__init__(asked, loop, PaneState(id=7, number=1, generation=5, size=WIDE), False, mock.Mock(),
                         mock.Mock())
        self.sizes, self.shown = [], []

    def resize(self, size):
        """Note a size that the programs learn."""
        if size != self.state.size:
            self.sizes.append(size)
        self.state.size = size

    def show_alone(self, text):
        """Note text that goes to the pane alone."""
        self.shown.append(text)


class Resized(Keeping):
    """A pane that has written something, and its sizes."""

    def setUp(self):
        super().setUp()
        self.pane = PlayedPane(self.loop)
        self.scrollback.begin(1, 5, WIDE)
        self.resizer = PaneResizer(self.loop, self.scrollback, 1, self.pane)

    def write(self):
        """Have the pane write something, which the scrollback process reads."""
        self.scrollback.feed(1, b"a")
        self.assertEqual(self.handed(), b"pane 0 23 80\nbytes 0 1\na")

    def test_new(self):
        """A pane that has written nothing has no lines: its programs learn the size at once."""
        self.resizer.resize(NARROW)
        self.assertEqual((self.handed(), self.pane.sizes, self.pane.quota), (b"", [NARROW], None))

    def test_text(self):
        """The text goes to the pane in one update, and not to the scrollback process; then the programs learn the size."""
        self.write()
        self.resizer.resize(NARROW)
        self.assertEqual((self.handed(), self.pane.sizes, self.pane.quota), (b"rewrap 0 23 39\n", [], 0))
        self.prints(b"rows 0 1 3\n r\ntext 0 4\npain")
        self.assertEqual((self.pane.shown, self.pane.sizes, self.pane.quota), ([UPDATE % b"pain"], [NARROW], None))
        self.assertEqual((self.handed(), self.rows()), (b"", [b" r"]))
        self.resizer.resize(NARROW)
        self.assertEqual(self.handed(), b"")

    def test_back(self):
        """Rows that are on the screen again are kept no longer; those that leave again are."""
        self.write()
        self.prints(b"rows 0 3 9\n a\n b\n c\n")
        self.resizer.resize(NARROW)
        self.prints(b"back 0 2\nrows 0 1 4\n cd\ntext 0 1\nx")
        self.assertEqual(self.rows(), [b" a", b" cd"])

    def test_newest(self):
        """Of several sizes the newest wins: the text of an older one is dropped."""
        self.write()
        for size in (NARROW, (10, 20), (11, 21)):
            self.resizer.resize(size)
        self.assertEqual(self.handed(), b"rewrap 0 23 39\n")
        self.prints(b"text 0 1\nx")
        self.assertEqual((self.handed(), self.pane.shown), (b"rewrap 0 11 21\n", []))
        self.prints(b"text 0 1\ny")
        self.assertEqual((self.pane.shown, self.pane.sizes), ([UPDATE % b"y"], [(11, 21)]))

    def test_later(self):
        """Within a sequence some output is passed on before the next question."""
        self.write()
        self.resizer.resize(NARROW)
        self.handed()
        self.prints(b"later 0\n")
        self.assertEqual((self.pane.quota, self.handed()), (PASSED_ON, b""))
        self.pane.passed_on()
        self.assertEqual((self.pane.quota, self.handed()), (0, b"rewrap 0 23 39\n"))
        self.prints(b"text 0 1\nx")
        self.assertEqual(self.pane.sizes, [NARROW])

    def test_later_without_output(self):
        """If no output comes, the size cuts the rows, and the terminal of the scrollback process stays."""
        self.write()
        self.resizer.resize(NARROW)
        self.handed()
        self.prints(b"later 0\n")
        self.pass_time(ANSWER_WAIT + 0.01)
        self.assertEqual((self.handed(), self.pane.sizes, self.pane.quota), (b"size 0 23 39\n", [NARROW], None))

    def test_none(self):
        """If the scrollback process can't, the size cuts the rows."""
        self.write()
        self.resizer.resize(NARROW)
        self.handed()
        self.prints(b"none 0\n")
        self.assertEqual((self.handed(), self.pane.sizes, self.pane.shown), (b"size 0 23 39\n", [NARROW], []))

    def test_other(self):
        """Meanwhile the main screen keeps its size, and a second terminal shows the alternate screen at each new size."""
        self.write()
        self.resizer.leave_other()
        self.resizer.resize(NARROW)
        self.handed()
        self.prints(b"other 0\n")
        self.assertEqual((self.handed(), self.pane.sizes), (b"pane 1 23 39\nbytes 1 8\n\x1b[?1049h", [NARROW]))
        self.scrollback.feed(1, b"v")
        self.pass_time(GATHERS)
        self.assertEqual(self.handed(), b"bytes 0 1\nvbytes 1 1\nv")
        self.resizer.resize(WIDE)
        self.handed()
        self.prints(b"other 0\n")
        self.assertEqual((self.handed(), self.pane.sizes), (b"size 1 23 80\n", [NARROW, WIDE]))
        self.resizer.leave_other()
        self.assertEqual(self.handed(), b"rewrap 0 23 80\n")
        self.prints(b"text 0 1\nx")
        self.assertEqual((self.pane.shown, self.pane.sizes, self.pane.quota), ([UPDATE % b"x"], [NARROW, WIDE], None))
        self.assertEqual(self.handed(), b"gone 1\n")
        self.resizer.leave_other()
        self.assertEqual(self.handed(), b"")

    def own_main(self):
        """Have a size come while the alternate screen is shown."""
        self.write()
        self.resizer.resize(NARROW)
        self.handed()
        self.prints(b"other 0\n")
        self.handed()

    def test_alternate_screen(self):
        """A request for the screen gets the alternate one, and the rows of the second terminal are no rows of the pane."""
        self.own_main()
        found = []
        self.scrollback.ask_snapshot(1, 5, found.append)
        self.assertEqual(self.handed(), b"screen 1\n")
        self.prints(b"rows 1 1 3\n x\nscreen 1 1 4\n vi\n")
        self.assertEqual(([snapshot.screen.data for snapshot in found], self.scrollback.panes[1].rows.end), ([b" vi\n"], 0))

    def test_numbers(self):
        """A new terminal gets a number that no pane uses, and not every pane gets a second one."""
        self.own_main()
        self.scrollback.last = MOST_TERMINALS - 1
        self.scrollback.begin(2, 1, WIDE)
        self.scrollback.feed(2, b"b")
        self.assertEqual(self.handed(), b"pane 2 23 80\nbytes 2 1\nb")
        self.patch_of(scrollback, "MOST_SECONDS", 1)
        self.scrollback.keep_main(2, NARROW)
        self.assertEqual((self.handed(), self.scrollback.panes[2].second), (b"", -1))

    def test_alternate_cut(self):
        """If the main screen can't be wrapped after all, the size cuts it; so does a missing answer."""
        self.own_main()
        self.resizer.leave_other()
        self.handed()
        self.prints(b"none 0\n")
        self.assertEqual((self.handed(), self.pane.quota), (b"gone 1\nsize 0 23 39\n", None))
        self.resizer.resize(WIDE)
        self.handed()
        self.prints(b"other 0\n")
        self.handed()
        self.resizer.leave_other()
        self.answer_late(b"none 0\n")
        self.pass_time(ANSWER_WAIT + 0.01)
        self.assertTrue(self.handed().endswith(b"gone 2\ngone 0\n"))

    def answer_late(self, answer):
        """Have each answer be too late, as often as the host asks again."""
        for _ in range(MOST_LATE):
            self.handed()
            self.pass_time(ANSWER_WAIT + 0.01)
            self.assertEqual((self.handed(), self.pane.quota), (b"", None))
            self.prints(answer)

    def test_late(self):
        """Programs wait no longer for an answer that is late. The host drops its text, and asks again once it has come."""
        self.write()
        self.resizer.resize(NARROW)
        self.handed()
        self.pass_time(ANSWER_WAIT + 0.01)
        self.assertEqual((self.handed(), self.pane.sizes, self.pane.quota), (b"", [NARROW], None))
        self.scrollback.feed(1, b"b")
        self.pass_time(GATHERS)
        self.assertEqual(self.handed(), b"bytes 0 1\nb")
        self.prints(b"text 0 1\nx")
        self.assertEqual((self.handed(), self.pane.shown, self.pane.quota), (b"rewrap 0 23 39\n", [], 0))
        self.prints(b"text 0 1\ny")
        self.assertEqual((self.pane.shown, self.pane.sizes[-1], self.pane.quota), ([UPDATE % b"y"], NARROW, None))

    def test_late_sizes(self):
        """Of two questions the late answer of the first is dropped, and that of the second counts."""
        self.write()
        self.resizer.resize(NARROW)
        self.pass_time(ANSWER_WAIT + 0.01)
        self.resizer.resize(WIDE)
        self.assertEqual(self.handed(), b"rewrap 0 23 39\nrewrap 0 23 80\n")
        self.prints(b"text 0 1\nx")
        self.prints(b"text 0 1\ny")
        self.assertEqual((self.pane.shown, self.pane.sizes[-1], self.handed()), ([UPDATE % b"y"], WIDE, b""))

    def test_late_closed(self):
        """A late answer for a pane that is gone asks for nothing."""
        self.write()
        self.resizer.resize(NARROW)
        self.pass_time(ANSWER_WAIT + 0.01)
        self.handed()
        self.resizer.close()
        self.prints(b"text 0 1\nx")
        self.assertEqual((self.handed(), self.pane.shown), (b"", []))

    def test_silent(self):
        """After many late answers another terminal begins, since it isn't known how the one before was resized."""
        self.write()
        self.resizer.resize(NARROW)
        self.answer_late(b"text 0 1\nx")
        self.handed()
        self.pass_time(ANSWER_WAIT + 0.01)
        self.assertEqual((self.handed(), self.pane.sizes[-1], self.pane.quota), (b"gone 0\n", NARROW, None))
        self.prints(b"text 0 1\nx")
        self.scrollback.feed(1, b"b")
        self.assertEqual((self.handed(), self.pane.shown), (b"pane 1 23 39\nbytes 1 1\nb", []))
        self.resizer.resize(WIDE)
        self.assertEqual((self.handed(), self.pane.sizes[-1]), (b"size 1 23 80\n", WIDE))

    def test_losing(self):
        """While output for the scrollback process is lost, the size cuts at once, and the pane's rows say that some were lost."""
        self.write()
        self.scrollback.is_losing = True
        self.resizer.resize(NARROW)
        self.assertEqual((self.pane.sizes, self.pane.quota, self.handed()), ([NARROW], None, b""))
        self.scrollback.feed(1, b"b")
        self.scrollback.is_losing = False
        self.scrollback.feed(1, b"c")
        self.assertEqual(self.handed(), b"pane 1 23 39\nbytes 1 1\ncgone 0\n")
        self.prints(b"rows 1 1 3\n d\n")
        self.assertEqual(all_rows(self.scrollback.panes[1].rows)[1], [" [rows were lost here]", " d"])

    def test_ended(self):
        """If the scrollback process ends meanwhile, the programs learn the size at once."""
        self.write()
        self.resizer.resize(NARROW)
        self.scrollback.cut(self.scrollback.panes[1])
        self.assertEqual((self.pane.sizes, self.pane.quota), ([NARROW], None))

    def test_closed(self):
        """A pane that is gone is asked for no more."""
        self.write()
        self.resizer.resize(NARROW)
        self.resizer.close()
        self.prints(b"text 0 1\nx")
        self.pass_time(ANSWER_WAIT + 0.01)
        self.assertEqual((self.pane.sizes, self.pane.shown), ([], []))

    def test_size_of_no_screen(self):
        """A size that no screen of the scrollback process has cuts."""
        self.write()
        self.resizer.resize((1, 900))
        self.assertEqual((self.handed(), self.pane.sizes), (b"size 0 2 500\n", [(1, 900)]))


class Withdrawn(Keeping):
    """Rows that are removed at the end."""

    def test_withdrawn(self):
        """The newest rows go, within a chunk too; numbers of later rows begin there."""
        for count in range(7):
            rows = kept(RowsRoom(100), ["a", "b"], ["x" * 9000], ["c"], ["d"])
            rows.withdraw(count)
            texts = [" a", " b", " " + "x" * 9000, " c", " d"][: max(0, 5 - count)]
            self.assertEqual((all_rows(rows), rows.end), ((0, texts), len(texts)), count)
            self.assertEqual(rows.room.kept, sum(chunk.charge() for chunk in rows.chunks))
            rows.add(1, rows_of("e"))
            self.assertEqual(all_rows(rows), (0, [*texts, " e"]))

    def test_first(self):
        """No row goes that isn't kept any more."""
        rows = kept(RowsRoom(3), ["a"], ["x" * 9000], ["y" * 9000], ["d"])
        rows.withdraw(9)
        self.assertEqual((rows.first, rows.end), (1, 1))

    def test_held(self):
        """A snapshot has its rows still."""
        room = RowsRoom(100)
        rows = kept(room, ["a", "b", "c"])
        snapshot = room.snapshot(rows, 1, rows_of("s"))
        rows.withdraw(2)
        rows.add(1, rows_of("d"))
        self.assertEqual(all_rows(rows), (0, [" a", " d"]))
        self.assertEqual(snapshot.rows(0, 9), (0, [b" a", b" b", b" c", b" s"]))
        room.release(snapshot)
        self.assertEqual((room.held, room.kept), (0, sum(chunk.charge() for chunk in rows.chunks)))


class Printed(Keeping):
    """The answers as the scrollback process prints them."""

    def test_records(self):
        """Each has its own form, however it is cut."""
        data = b"back 3 200\nlater 3\nother 3\nnone 3\ntext 3 5\n\n\x1b[Hxrows 3 1 3\n a\n"
        wanted = [("back", 3, 200, b""), ("later", 3, 0, b""), ("other", 3, 0, b""), ("none", 3, 0, b""), ("text", 3, 0, b"\n\x1b[Hx"),
                  ("rows", 3, 1, b" a\n")]
        for cut in range(len(data)):
            records = ScrollbackRecords()
            found = records.fed(data[:cut]) + records.fed(data[cut:])
            self.assertEqual([(one.word, one.terminal, one.rows, one.data) for one in found], wanted)

    def test_nonsense(self):
        """Others are none."""
        for line in (b"back 3\n", b"later 3 1\n", b"text 3 5 1\n", b"text 1024 5\n", b"text 3 99999999\n", b"none\n"):
            with self.assertRaises(BadRecord):
                ScrollbackRecords().fed(line)
