"""Sessions and panes by name, and commands on a pane: type, paste, capture and close there."""
import io
import subprocess
import unittest
from unittest import mock

from aids import Case, read_now
from roam_live.cli import capture, paste, send, targets
from roam_live.cli.send import lines_in_pane
from roam_live.cli.targets import Target, close_pane, pane_places, target_of, wants_brackets
from roam_live.common.errors import Fault
from roam_live.common.event_loop import ready
from roam_live.protocol import panes
from roam_live.protocol.display_records import screen_of
from roam_live.protocol.panes import Places, Rect
from roam_live.protocol.paste_text import INSERTED, MOST_BYTES, placeholder_acts
from roam_live.protocol.screen_cells import cells_of, part_of, sgr_of
from test_socket_server import Sockets

PLACES = Places({1: Rect(1, 1, 2, 3), 2: Rect(1, 5, 2, 4)}, 1, 1)

# A screen of two panes, with styles and a wide character.
SCREEN = ("3 8 2 6 visible\n" + "\x1b[0;1m\x1b[31ma\x1f\x1b[0;4mb\x1fc\x1f|\x1f\x1b[0;7md\x1fm\x1f \x1f\n"
          + "x\x1f\x1b[0;32my\x1fz\x1f|\x1f\u4e2d\x1f\x1fv\x1fw\n" + "\x1b[0;7m[\x1f1\x1f]\x1f \x1f \x1f \x1f \x1f \n").encode()


class Names(unittest.TestCase):
    """The target in a word."""

    def test_target(self):
        for word, target in (
            ("main", ("main", None, 0)), ("main.2", ("main", None, 2)), ("main:3", ("main", 3, 0)), ("main:12.2", ("main", 12, 2)),
            ("ssh:a.b.2:work.9", ("ssh:a.b.2:work", None, 9)), ("ssh:h.1:work", ("ssh:h.1:work", None, 0)),
            ("ssh:h:2", ("ssh:h:2", None, 0)), ("ssh:h:work:2.3", ("ssh:h:work", 2, 3)),
            ("ssh:h:w:0123abcd", ("ssh:h:w:0123abcd", None, 0)), ("ssh:h:w:0123abcd:99", ("ssh:h:w:0123abcd", 99, 0)),
            ("", ("", None, 0)), (":", ("", None, 0)), (".1", ("", None, 1)),
            (":4.1", ("", 4, 1)),
            *((word, (word, None, 0)) for word in ("a.0", "a.10", "a:0", "a:100", "a:1:2", "a.1:2", "a:\u0661", "ssh:h"))
        ):
            self.assertEqual(target_of(word), Target(*target), word)

    def test_pane(self):
        session = mock.Mock(places=lambda: PLACES)
        session.name = "main"
        self.assertEqual(pane_places(session, 2), PLACES)
        with self.assertRaisesRegex(Fault, "^session main has no pane 3$"):
            pane_places(session, 3)
        session.places = lambda: None
        with self.assertRaisesRegex(Fault, "^session main: its server does not report its panes$"):
            pane_places(session, 1)


class Lines(unittest.TestCase):
    """The lines that type acts in a pane."""

    def test_lines(self):
        """An unfocused pane is focused only for its lines, unless an act moves the focus."""
        acts = ["char 61", "key up"]
        self.assertEqual(lines_in_pane(acts, 0, 0), ["char 61 ; key up"])
        self.assertEqual(lines_in_pane(acts, 1, 1), ["char 61 ; key up"])
        self.assertEqual(lines_in_pane(acts, 2, 1), ["focus 2 ; char 61 ; key up ; focus 1"])
        self.assertEqual(lines_in_pane(["split down", "char 61"], 2, 1), ["focus 2 ; split down ; char 61"])
        many = lines_in_pane(["char 61"] * 64, 2, 1)
        self.assertEqual([line.count("char") for line in many], [30, 30, 4])
        self.assertTrue(all(line.startswith("focus 2 ; ") and line.endswith(" ; focus 1") for line in many))
        self.assertEqual([line.count(";") + 1 for line in lines_in_pane(["char 61"] * 65, 0, 0)], [32, 32, 1])

    def test_placeholder(self):
        """A placeholder is in one line, also for another pane."""
        lines = lines_in_pane(placeholder_acts("0" * 16), 2, 1, "paste ; ")
        self.assertEqual((len(lines), lines[0][:28], lines[0][-20:]), (1, "paste ; focus 2 ; char 9f ; ", " ; char 9c ; focus 1"))


class Parts(unittest.TestCase):
    """A pane of a reported screen."""

    def test_part(self):
        """It has the cells and the styles of the screen there, and the cursor if it is inside."""
        whole = cells_of(SCREEN)
        for rect, cursor in ((PLACES.rects[1], (1, 1, False)), (PLACES.rects[2], (2, 2, True)), (Rect(1, 1, 3, 8), (2, 6, True))):
            part = cells_of(part_of(SCREEN, rect))
            self.assertEqual((part.rows, part.cols, part.row, part.col, part.has_cursor), (rect.rows, rect.cols, *cursor))
            for (row, col), cell in part.cells.items():
                self.assertEqual(cell, whole.cells[row + rect.row - 1, col + rect.col - 1], (rect, row, col))
        self.assertEqual(screen_of(part_of(SCREEN, PLACES.rects[2])).rows, 2)
        self.assertEqual((sgr_of("\x1b[0;1m\x1b[31mm"), sgr_of("m"), sgr_of("")), ("\x1b[0;1m\x1b[31m", "", ""))


class Captures(Case):
    """`mux capture NAME.P`."""

    def test_pane(self):
        """The rows of a pane are printed, or drawn; one that has just moved is reported."""
        session = mock.Mock(places=lambda: PLACES)
        session.name = "main"
        plain = "\n".join("\x1f".join(text.rpartition("m")[2] if text.startswith("\x1b") else text for text in line.split("\x1f"))
                          for line in SCREEN.decode().split("\n")).encode()
        self.patch_of(capture, "opened")
        asks = self.patch_of(capture, "asked_screen", return_value=plain)
        printed = mock.Mock(buffer=io.BytesIO())
        with mock.patch("sys.stdout", printed):
            self.assertEqual(capture.capture(session, False, 2), 0)
        self.assertEqual(printed.buffer.getvalue().decode(), "dm\n\u4e2dvw\n")
        asks.return_value = SCREEN
        with mock.patch.object(subprocess, "run", return_value=mock.Mock(returncode=5)) as runs:
            self.assertEqual(capture.capture(session, True, 1), 5)
        self.assertEqual(cells_of(runs.call_args[1]["input"]).cells[1, 1][0], "a")
        session.places = lambda: Places({1: Rect(1, 1, 3, 8)}, 1)
        with self.assertRaisesRegex(Fault, "^pane 1 has just moved; try again$"):
            capture.capture(session, False, 1)


class Panes(Case):
    """A server that reports panes, played by hand."""

    def setUp(self):
        self.stop_clock()
        self.session = mock.Mock(folder=self.made_folder())
        self.session.name = "main"
        self.listener = self.listening(self.session.folder / "panes")
        self.answers, self.server, self.asked = [], None, b""
        self.patch_of(panes, "comes", self.comes)

    def comes(self, peer, seconds):
        """Send the server's lines during a wait."""
        self.server = self.server or self.taken(self.listener)
        self.asked += read_now(self.server)
        answer = self.answers.pop(0) if self.answers else b""
        if answer == b"":
            self.pass_time(seconds)
            return False
        if answer is None:
            self.server.close()
        else:
            self.server.send(answer)
        return bool(ready(peer, 1, 0))

    def test_closed(self):
        """A pane is closed by its generation, and the call waits for that."""
        self.answers = [b"1 1 1 2 3 7\n2 1 5 2 4 9\n", b"focus 1\nclients 1 of 64\n", b"watchers 0 of 16\n"]
        with mock.patch.object(targets.AskedPanes, "hear_all", lambda asked, *more: [asked.heard(1) for _ in range(3)]):
            self.answers += [b"modes 1 7\n", b"2 gone\nfocus 1\n"]
            close_pane(self.session, 2)
        self.assertEqual(self.asked, b"close 2 9\n")

    def test_not_closed(self):
        """A missing one, the last one, and one that isn't closed in time are reported."""
        panes = b"1 1 1 2 3 7\nfocus 1\nclients 1 of 64\nwatchers 0 of 16\n"
        for answers, pane, why in (([panes], 2, "session main has no pane 2"), ([], 1, "session main has no pane 1"),
                                   ([panes, b"", b"last pane\n"], 1, "pane 1 is the last one, and ends with its session"),
                                   ([panes, b"", b"bad line\n"], 1, "session main: pane 1 was not closed"),
                                   ([panes, b"", None], 1, "session main: pane 1 was not closed")):
            self.server, self.answers = None, answers
            with self.assertRaisesRegex(Fault, f"^{why}$"):
                close_pane(self.session, pane)
        self.listener.close()
        with self.assertRaisesRegex(Fault, "^session main: its server does not report its panes$"):
            close_pane(self.session, 1)
        self.assertFalse(wants_brackets(self.session, 1))

    def test_making(self):
        """A pane, by default the focused one, and its generation; a missing one, and a silent server, are reported."""
        panes = b"1 1 1 2 3 7\n2 1 5 2 4 9\nfocus 2\nclients 1 of 64\nwatchers 0 of 16\n"
        for pane, making in ((1, (1, 7)), (2, (2, 9)), (0, (2, 9))):
            self.server, self.answers = None, [panes]
            self.assertEqual(targets.making_of(self.session, pane), making)
        for answers, pane, why in (([panes], 3, "session main has no pane 3"),
                                    ([None], 0, "session main: its server does not report its panes")):
            self.server, self.answers = None, answers
            with self.assertRaisesRegex(Fault, f"^{why}$"):
                targets.making_of(self.session, pane)
        self.listener.close()
        with self.assertRaisesRegex(Fault, "^session main: its server does not report its panes$"):
            targets.making_of(self.session, 0)

    def test_brackets(self):
        """The server reports bracketed paste; lines right after the positions count."""
        panes = b"1 1 1 2 3 7\n2 1 5 2 4 9\nfocus 1\nclients 1 of 64\nwatchers 0 of 16\n"
        for pane, wanted in ((0, False), (1, False), (2, True)):
            self.server, self.asked, self.answers = None, b"", [panes[:20], panes[20:], b"modes 2 9 paste\n"]
            self.assertEqual((wants_brackets(self.session, pane), self.asked), (wanted, b"metadata\n"))
        self.server, self.asked, self.answers = None, b"", [None]
        self.assertEqual((wants_brackets(self.session, 1), self.asked), (False, b"metadata\n"))


class Given(Sockets):
    """`mux paste` and `mux send -l`, with a host here and a simulated client."""

    def setUp(self):
        super().setUp()
        self.stop_clock()
        self.session = mock.Mock(folder=self.folder, common=self.folder, number=0, places=lambda: PLACES)
        self.patch_of(paste, "led", lambda number, line: line)
        self.patch_of(paste, "parted", lambda line: (0, line))
        self.session.name = "main"
        self.patch_of(paste, "opened")
        self.typed, self.texts, self.wants = [], [], True
        self.patch_of(paste, "type_lines", self.type)
        self.patch_of(paste, "wants_brackets", lambda session, pane: self.wants)
        self.patch_of(paste, "ready", self.ready)
        self.patch_of(paste, "random_name", return_value="0123456789abcdef")
        self.is_inserted = True

    def ready(self, end, events, seconds):
        """Let the host continue; without an event the time passes."""
        self.loop.turns(3)
        found = ready(end, events, 0)
        self.pass_time(0.0 if found else seconds)
        return found

    def type(self, session, link, lines):
        """Let the session take lines, and the host find the placeholder."""
        self.typed += lines
        if self.is_inserted:
            text = self.socket.uploads.texts.placed("0123456789abcdef")
            self.texts += [(text.data, text.is_plain)] if text else []
        elif self.is_inserted is None:
            self.socket.close()

    def test_given(self):
        """A text is stored, its placeholder typed in one line, and the call returns once the text is inserted."""
        text = "\u00e9" * 100000
        self.assertEqual(paste.type_text(self.session, text, 0, False), 0)
        self.assertEqual(self.texts, [(text.encode(), False)])
        self.assertEqual(self.typed, [" ; ".join(["paste", *placeholder_acts("0123456789abcdef")])])
        self.socket.uploads.texts.texts.clear()
        self.assertEqual(paste.type_text(self.session, "ab", 2, True), 0)
        self.assertEqual((self.texts[1:], self.typed[1][:18], self.typed[1][-7:]), ([(b"ab", True)], "paste ; focus 2 ; ", "focus 1"))

    def test_no_host(self):
        """If no host takes it, it is typed as acts, bracketed if the program wants that and it isn't plain."""
        self.socket.close()
        paste.type_text(self.session, "a\r", 0, False)
        paste.type_text(self.session, "a\r", 0, True)
        self.assertEqual([line.count("char") for line in self.typed], [14, 1])
        self.assertEqual(self.typed[1], "paste ; char 61 ; key return")
        listener = self.listening(self.folder / "host")
        with mock.patch.object(paste, "ready", lambda end, events, seconds: (self.taken(listener).close(), events)[1]):
            paste.type_text(self.session, "b", 0, True)
        self.assertEqual(self.typed[2], "paste ; char 62")

    def test_refused(self):
        """An impossible request is reported, and nothing is typed: no text, too much, no room, no such pane, a host that accepts nothing.
        """
        for text, pane, why in (("", 0, "there is nothing to type"),
                                ("x" * (MOST_BYTES + 1), 0, "a text has at most 16 MB; nothing was typed"),
                                ("x", 3, "session main has no pane 3")):
            with self.assertRaisesRegex(Fault, f"^{why}$"):
                paste.type_text(self.session, text, pane, False)
        with mock.patch.object(self.socket.uploads.texts, "refusal", return_value="64 texts wait to be pasted"):
            with self.assertRaisesRegex(Fault, "^session main: 64 texts wait to be pasted. Nothing was typed$"):
                paste.type_text(self.session, "x", 0, False)
        with mock.patch.object(paste, "ready", lambda end, events, seconds: self.pass_time(seconds) or 0):
            with self.assertRaisesRegex(Fault, "^session main: the pty host did not accept the text$"):
                paste.type_text(self.session, "x", 0, False)
        self.assertEqual((self.typed, INSERTED), ([], "inserted"))

    def test_lost(self):
        """The end of the host before the placeholder is reported."""
        self.is_inserted = None
        with self.assertRaisesRegex(Fault, "^session main: the pty host ended; nothing was typed$"):
            paste.type_text(self.session, "x", 0, False)

    def test_read(self):
        """Standard input is cleaned; raw input keeps escapes, but no brackets."""
        for is_raw, wanted in ((False, "a[20[201~1~\rb\ufffd"), (True, "a\rb\ufffd")):
            with mock.patch("sys.stdin", mock.Mock(buffer=io.BytesIO(b"a\x1b[20\x1b[201~1~\r\nb\x00\x07\xff"))):
                self.assertEqual(paste.read_text(is_raw), wanted)
        with mock.patch("sys.stdin", mock.Mock(buffer=io.BytesIO(bytes(MOST_BYTES + 1)))):
            with self.assertRaisesRegex(Fault, "^a text has at most 16 MB; nothing was typed$"):
                paste.read_text(False)

    def test_sent(self):
        """Acts for a pane are checked with it in focus."""
        with mock.patch.object(send, "demand_acts"), mock.patch.object(send, "demand_doable") as demands, \
                mock.patch.object(send, "opened"), mock.patch.object(send, "type_lines") as types:
            send.send(self.session, ["close"], 2)
            self.assertEqual((demands.call_args[0][1], types.call_args[0][2]), (["focus 2", "close"], ["focus 2 ; close"]))
            with self.assertRaisesRegex(Fault, "^session main has no pane 9$"):
                send.send(self.session, ["close"], 9)


if __name__ == "__main__":
    unittest.main()
