"""Terminal queries of the panes' programs, their answers, and the colours that a user's terminal reports."""
import unittest

from aids import Case
from roam_live.common.build_info import version
from roam_live.input.keys import Key, Keys
from roam_live.protocol.colours import ASKED, Colours, colour_of, told_in
from roam_live.protocol.queries import holds_frames, query_in

ANSWERS = ("\x1b]10;rgb:ffff/ffff/ffff\x07", "\x1b]11;rgb:1e/1E/2e\x1b\\")


class Answered(Case):
    """Lines of `panes`, and the typed answers."""

    def test_answers(self):
        """Each query has its answer, by the known state; an unknown colour has none, and neither does an invalid query."""
        colours = Colours()
        colours.take("colour background 1e1e/1e1e/2e2e")
        for line, wanted, unheld in (
                ("query 1 7 version", f"\x1bP>|roam {version()}\x1b\\", None),
                ("query 1 7 pastes", "\x1b[?2004;2$y", None), ("query 1 7 pastes set", "\x1b[?2004;1$y", None),
                ("query 1 7 frames", "\x1b[?2026;2$y", "\x1b[?2026;0$y"), ("query 1 7 frames set", "\x1b[?2026;1$y", "\x1b[?2026;0$y"),
                ("query 1 7 background", "\x1b]11;rgb:1e1e/1e1e/2e2e\x1b\\", None),
                ("query 1 7 background bell", "\x1b]11;rgb:1e1e/1e1e/2e2e\x07", None),
                ("query 1 7 size", "\x1b[8;24;80t", None), ("query 1 7 mode 1004", "\x1b[?1004;2$y", None),
                ("query 1 7 mode 1004 set", "\x1b[?1004;1$y", None), ("query 1 7 mode 9999 unknown", "\x1b[?9999;0$y", None),
                ("query 1 7 ansi-mode 4", "\x1b[4;2$y", None), ("query 1 7 ansi-mode 20 set", "\x1b[20;1$y", None),
                ("query 1 7 ansi-mode 2 unknown", "\x1b[2;0$y", None), ("query 1 7 foreground", "", None)):
            query = query_in(line)
            self.assertEqual((query.pane, query.generation), (1, 7))
            self.assertEqual(query.answer(colours, True, (24, 80)).decode(), wanted, line)
            self.assertEqual(query.answer(colours, False, (24, 80)).decode(), wanted if unheld is None else unheld, line)
        for line in ("", "query", "query 1 7", "query 1 x version", "query 1 7 name", "query 1 7 version set", "query 1 7 pastes bell",
                     "modes 1 7", "query 1 7 pastes set set", "query \u0661 7 version", "query 1 7 pastes ", "query 1 7 size set",
                     "query 1 7 pastes unknown", "query 1 7 mode", "query 1 7 mode set", "query 1 7 mode 10000", "query 1 7 mode 04",
                     "query 1 7 mode 4 bell", "query 1 7 mode 4 ", "query 1 7 mode 4 set set", "query 1 7 ansi-mode"):
            self.assertIsNone(query_in(line), line)

    def test_frames(self):
        """The server's arguments decide if it buffers synchronized updates; unreadable arguments mean unknown."""
        folder = self.made_folder()
        self.patch("roam_live.protocol.queries.FilePath", side_effect=lambda path: folder / path.split("/")[2])
        for process, words, wanted in ((7, b"roam\0serve\0--normalize\0--dir\0D\0", True),
                                       (8, b"roam\0serve\0--dir\0--as-meanti\0", False)):
            (folder / str(process)).write_bytes(words)
            self.assertEqual(holds_frames(process), wanted)
        self.assertEqual((holds_frames(9), holds_frames(None)), (False, False))


class Told(unittest.TestCase):
    """A terminal's reports of its colours."""

    def test_colours(self):
        """A colour has four digits for each part, whatever form it came in; an invalid one is nothing."""
        for words, wanted in (("rgb:f/8/0", "ffff/8888/0000"), ("rgb:ff/80/00", "ffff/8080/0000"), ("rgb:fff/800/001", "ffff/8007/0010"),
                              ("rgb:FFFF/0a0B/0000", "ffff/0a0b/0000"), ("rgba:ff/80/00/80", "ffff/8080/0000"), ("rgb:ff/80", ""),
                              ("rgb:ff/80/00/80", ""), ("rgba:ff/80/00", ""), ("rgb:fffff/0/0", ""), ("rgb://", ""), ("", ""),
                              ("#ffffff", ""), ("rgb:+f/0/0", ""), ("rgb:0x/0/0", "")):
            self.assertEqual(colour_of(words), wanted, words)
        self.assertEqual([told_in(text) for text in ANSWERS], [("foreground", "ffff/ffff/ffff"), ("background", "1e1e/1e1e/2e2e")])
        self.assertEqual([told_in(text) for text in ("\x1b]10;rgb:a\x07", "\x1b]12;rgb:f/f/f\x07", "x")], [None] * 3)
        self.assertEqual(ASKED, b"\x1b]10;?\x1b\\\x1b]11;?\x1b\\")

    def test_lines(self):
        """Lines report them, the last one counts, and others are none."""
        colours = Colours()
        for line, wanted in (("colour foreground ffff/0000/1111", True), ("colour foreground 0000/0000/1111", True),
                             ("colour foreground", False), ("colours", False), ("colour cursor ffff/0000/1111", False),
                             ("colour background ff/00/11", False), ("colour background FFFF/0000/1111", False),
                             ("colour background ffff/0000/1111 x", False)):
            self.assertEqual(colours.take(line), wanted, line)
        self.assertEqual(colours.lines(), ["colour foreground 0000/0000/1111"])

    def test_typed(self):
        """Answers are extracted from the input, wherever the stream is cut and however late the rest is, and nothing else is."""
        stream = f"a{ANSWERS[0]}\x1b[A{ANSWERS[1]}\x1bb"
        for cut in range(len(stream) + 1):
            keys = Keys()
            found = keys.fed(stream[:cut].encode())
            found += keys.fed(stream[cut:].encode())
            self.assertEqual([key.name for key in found], ["a", "colour", "up", "colour", "\x1b", "b"], cut)
            self.assertEqual([key.text for key in found if key.name == "colour"], list(ANSWERS))
        for begun, waits in (("\x1b]", True), ("\x1b]1", True), ("\x1b]11;", False), ("\x1b]11;rgb:1e/1E", False),
                             ("\x1b]11;rgb:1e/1E/2e\x1b", False)):
            keys = Keys()
            self.assertEqual((keys.fed(begun.encode()), keys.waits()), ([], waits), begun)

    def test_others(self):
        """A text that only begins like an answer is typed, such as Alt and a bracket; a pasted one is text."""
        for text in ("\x1b]x", "\x1b]12;rgb:f/f/f\x07", "\x1b]11;rgb:f/f/f\x1bx", "\x1b]11;rgb:zz/f/f\x07", "\x1b]11;" + "f" * 40 + "\x07"):
            keys = Keys()
            found = keys.fed(text.encode()) + keys.ended()
            self.assertEqual(("".join(key.text for key in found), [key for key in found if key.name == "colour"]), (text, []), text)
        keys = Keys()
        self.assertIn(Key("text", ANSWERS[0]), keys.fed(f"\x1b[200~{ANSWERS[0]}\x1b[201~".encode()))
