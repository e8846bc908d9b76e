"""`mux capture` of rows, `mux log` and `mux buffer`: their requests to a simulated host, and their output."""
import io
import sys
import types
from unittest import mock

from aids import Case
from roam_live.cli import paste, scrollback
from roam_live.cli.scrollback import RowWriter, text_of
from roam_live.common.errors import Fault
from roam_live.common.event_loop import ready
from roam_live.protocol.paste_text import BUFFER_EMPTY, BUFFER_TOO_LONG, MOST_BUFFER
from test_scrollback_queries import Rows


class Texts(Case):
    """Rows as texts."""

    def test_text(self):
        """The text has characters alone, or with styles; nothing else reaches a terminal, whatever its source."""
        row = b" a\x1b[1;38:2::1:2:3mb\xc3\xa9\x1b[0m c"
        self.assertEqual(text_of(row, False), "ab\u00e9 c")
        self.assertEqual(text_of(row, True), "a\x1b[1;38:2::1:2:3mb\u00e9\x1b[0m c")
        for has_styles in (False, True):
            for one in (b"+a\x1b]0;t\x07b\x1b[2Jc\x1b[?1049hd\x1b[31", b" \x9b31m\xc2\x9bm\r\n\x1b", b" \x1b[\x1b[mm"):
                found = text_of(one, has_styles).replace("\x1b[m", "").replace("\x1b[31m", "")
                self.assertTrue(found.isprintable(), found)

    def test_joined(self):
        """Soft-wrapped rows are lines of their own, or one line with the next; the last one ends."""
        for is_joined, told in ((False, "a\nb\nc\nd\n"), (True, "abc\nd\n")):
            found = []
            writer = RowWriter(found.append, False, is_joined)
            writer.put([b"+a", b"+b"])
            writer.put([b" c", b"+d"])
            writer.end()
            writer.end()
            self.assertEqual(b"".join(found).decode(), told)


class Asked(Rows):
    """Requests to a host that takes its turns while a command waits for the answer."""

    def setUp(self):
        super().setUp()
        self.session = types.SimpleNamespace(name="main", folder=self.folder, common=self.folder, number=0)
        self.generation = 5
        self.filter = []
        self.patch_of(scrollback, "making_of", lambda session, pane: (pane or 1, self.generation))
        self.patch_of(scrollback, "ready", self.ready)
        self.patch_of(scrollback, "led", lambda number, line: line)
        self.patch_of(paste, "led", lambda number, line: line)
        self.patch_of(paste, "parted", lambda line: (0, line))
        self.patch_of(scrollback, "ANSWERS", 0.2)
        self.out = io.TextIOWrapper(io.BytesIO())
        self.patch_of(sys, "stdout", self.out)

    def ready(self, end, events, seconds):
        """Return the ready events of an end, after the host's turns and its scrollback process's next output."""
        self.loop.turns(4)
        if self.filter and self.fake.taken():
            self.fake.prints(self.filter.pop(0))
            self.loop.turns(4)
        return ready(end, events, min(seconds, 0.01))

    def printed_by(self, does, *words):
        """Return the output of a command."""
        self.out.buffer.seek(0)
        self.out.buffer.truncate()
        self.assertEqual(does(self.session, *words), 0)
        self.out.flush()
        return self.out.buffer.getvalue().decode()

    def refuses(self, told, does, *words):
        """Check that a command refuses."""
        with self.assertRaises(Fault) as fault:
            does(self.session, *words)
        self.assertEqual(str(fault.exception), told)


class Rowed(Asked):
    """Rows."""

    def captured(self, begin, end, has_styles=False, is_joined=False):
        """Return the captured rows, of three scrolled-off ones and two of the screen."""
        self.filter = [b"screen 0 2 15\n+s\x1b[1mx\x1b[0m\n t\n"]
        return self.printed_by(scrollback.capture_rows, 0, begin, end, has_styles, is_joined)

    def test_captured(self):
        """A range of rows, in either order, with tmux's numbers: the nearest row for a missing one."""
        left, shown = "Alpha\nbe\nta\n", "sx\nt\n"
        for begin, end, told in ((None, None, shown), ("-", None, left + shown), ("-1", "-1", "ta\n"), ("-2", "0", "be\nta\nsx\n"),
                                 ("-99", "99", left + shown), ("0", "-1", "ta\nsx\n"), ("1", "-", "t\n"), (None, "-3", left + "sx\n"),
                                 ("5", None, "t\n")):
            self.assertEqual(self.captured(begin, end), told, (begin, end))

    def test_forms(self):
        """With styles, and joined."""
        self.assertEqual(self.captured("-2", "-", True), "be\nta\ns\x1b[1mx\x1b[0m\nt\n")
        self.assertEqual(self.captured("-2", "-", False, True), "beta\nsxt\n")
        self.assertEqual(self.captured("-2", "-2", False, True), "be\n")

    def test_many(self):
        """Print more rows than one answer has."""
        rows = self.scrollback.panes[1].rows
        rows.room.most_rows = 10_000
        for number in range(50):
            rows.add(100, b"".join(b" row %d of some\n" % (number * 100 + one) for one in range(100)))
        self.assertEqual(self.captured("-5000", "-1"), "".join(f"row {number} of some\n" for number in range(5000)))

    def test_refused(self):
        """Words that name no row, a pane without stored rows, and a missing or silent host are refused."""
        self.filter = [b"screen 0 1 3\n s\n"] * 4
        for word in ("x", "--", "-x", "1.5", "", "1" * 10, "+1"):
            self.filter = [b"screen 0 1 3\n s\n"]
            told = f"{word!r} is not a row: 0 is the first of the screen, -1 the last above it, - the first or last"
            self.refuses(told, scrollback.capture_rows, 0, word, None, False, False)
        self.generation = 4
        for does, words in ((scrollback.capture_rows, ("0", None)), (scrollback.log_rows, ())):
            self.refuses("session main: pane 1 has no stored rows: it has no such pane any more", does, 0, *words, False, False)
        self.generation = 5
        self.refuses("session main: the pty host does not answer", scrollback.capture_rows, 0, "0", None, False, False)
        self.socket.close()
        told = "session main: its pty host is not running; `mux main` restarts it"
        self.refuses(told, scrollback.capture_rows, 0, "0", None, False, False)

    def test_log(self):
        """It prints rows as they come, and the last screen; dropped rows are reported."""
        steps = [lambda: None, lambda: self.prints(b"rows 0 2 6\n+c\n d\n"),
                 lambda: [self.scrollback.panes[1].rows.add(100, b" x\n" * 100) for _ in range(2)] and self.scrollback.came(),
                 lambda: self.scrollback.drop(1), lambda: self.prints(b"screen 0 2 6\n s\n  \n")]

        def step(end, events, seconds):
            if not events & scrollback.WRITE and steps:
                steps.pop(0)()
            self.loop.turns(4)
            return ready(end, events, 0.01)

        with mock.patch.object(scrollback, "ready", step):
            told = self.printed_by(scrollback.log_rows, 0, False, True)
        self.assertEqual(told, "cd\n[100 rows were kept no longer]\n" + "x\n" * 100 + "s\n")

    def test_log_ended(self):
        """A host that ends meanwhile is handled."""
        def step(end, events, seconds):
            self.loop.turns(4)
            if not events & scrollback.WRITE:
                self.socket.close()
            return ready(end, events, 0.01)

        with mock.patch.object(scrollback, "ready", step):
            self.refuses("session main: the pty host has ended", scrollback.log_rows, 0, False, False)


class Buffered(Asked):
    """Buffers."""

    def test_kept(self):
        """A set buffer is listed, the newest first, and printed; a terminal gets only characters."""
        self.refuses("session main has no buffer", scrollback.show_buffer, None)
        self.assertEqual(self.printed_by(scrollback.set_buffer, "one\x1b[2J"), "")
        with mock.patch.object(sys, "stdin", types.SimpleNamespace(buffer=io.BytesIO(b"two\n\tb\xff\n"))):
            self.assertEqual(self.printed_by(scrollback.set_buffer, None), "")
        self.assertEqual(self.printed_by(scrollback.list_buffers), "2: 8 bytes: two\\nb\ufffd\\n\n1: 7 bytes: one[2J\n")
        self.patch_of(scrollback.os, "isatty", lambda end: False)
        self.assertEqual(self.printed_by(scrollback.show_buffer, "1"), "one\x1b[2J")
        self.patch_of(scrollback.os, "isatty", lambda end: True)
        self.assertEqual(self.printed_by(scrollback.show_buffer, "1"), "one?[2J")
        self.assertEqual(self.printed_by(scrollback.show_buffer, None), "two\n b\ufffd\n")
        self.refuses("session main has no buffer 9", scrollback.show_buffer, "9")
        self.refuses("'x' is not a buffer's number; `mux buffer list main` lists them", scrollback.show_buffer, "x")

    def test_refused(self):
        """An empty or too long one is refused."""
        self.refuses(BUFFER_EMPTY, scrollback.set_buffer, "")
        self.refuses(BUFFER_TOO_LONG, scrollback.set_buffer, "x" * (MOST_BUFFER + 1))

    def test_pasted(self):
        """A buffer's placeholder is typed once the host has stored the buffer as a text."""
        self.socket.uploads.buffers.add(b"one\ntwo")
        typed = []

        def type_lines(session, link, lines):
            typed.extend(lines)
            self.loop.turns(4)
            text = self.socket.uploads.texts.placed(lines[0].partition("9f")[0] and next(iter(self.socket.uploads.texts.texts)))
            self.assertEqual(text.data, b"one\rtwo")

        self.patch_of(paste, "ready", self.ready)
        self.patch_of(paste, "opened", lambda session, is_read_only: None)
        self.patch_of(paste, "type_lines", type_lines)
        self.assertEqual(scrollback.put_buffer(self.session, None, 0), 0)
        self.assertTrue(typed[0].startswith("paste ; char 9f ; char "), typed)
        self.refuses("session main: no buffer has this number. Nothing was typed", scrollback.put_buffer, "7", 0)

    def test_no_answer(self):
        """A host without support for buffers, one that refuses or ends, and a missing one are reported."""
        with mock.patch.object(self.socket.uploads, "take_buffer_line", lambda peer, line: False):
            self.refuses("session main: the pty host did not list its buffers", scrollback.list_buffers)
            self.refuses("session main: the buffer was not stored", scrollback.set_buffer, "a")
            self.patch_of(paste, "ready", self.ready)
            told = "session main: the pty host ended or refused the buffer; nothing was typed"
            self.refuses(told, scrollback.put_buffer, "1", 0)
        with mock.patch.object(self.socket, "take_line", lambda peer, number, line: self.socket.drop(peer)):
            self.refuses(told, scrollback.put_buffer, "1", 0)
        self.socket.close()
        self.refuses("session main: its pty host is not running; `mux main` restarts it", paste.paste_buffer, 1, 0)

    def test_nonsense(self):
        """A host that sends invalid answers."""
        with mock.patch.object(self.socket, "take_line", lambda peer, number, line: self.socket.send(peer, ["buffers [2J"])):
            self.refuses("session main: invalid answer from the pty host: buffers ?[2J", scrollback.list_buffers)
