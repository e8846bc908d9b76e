"""Copy mode over rows that are here or have to be requested.

The tests cover key tables, lines of a width, wide characters by half, searches, selections, copies, and painting.
"""
import json
import pathlib
import unittest
from unittest import mock

from aids import Case
from copied import CASES, KNOWN, TEXT, answer_all, copied_by_roam, found_row, mode_of, rows_of, typed
from emulated import Emulated
from modes_played import copy_keys
from roam_live.common.cell_widths import width_of
from roam_live.config.environment import wants_vi
from roam_live.frontend.copymode import controller, motions, selection
from roam_live.frontend.copymode.actions import COPY, LEAVE, REFRESH
from roam_live.frontend.copymode.keys import EMACS, VI, Count, Prompt
from roam_live.frontend.copymode.mode import COMMANDS, MOVES, STEPS, CopyMode
from roam_live.frontend.copymode.render import LinePainter, sgr_of
from roam_live.frontend.copymode.rows import (MOST_BYTES, MOST_COLS, MOST_JOINED, MOST_ROW_BYTES, ROW_BYTES, Missing, MissingRows, Rows,
                                              row_of)
from roam_live.frontend.copymode.search import MissingFind, matches
from roam_live.input.keys import Key
from roam_live.protocol.screen_cells import Style
from roam_live.protocol.scrollback_client import MOST_SOUGHT

SIZE = (12, 40)

# The copies of tmux 3.3a by the keys of `copied`, as tests/stress/try_copy records them; nothing if it copies nothing.
TMUX = json.loads(pathlib.Path(__file__).with_name("copied.json").read_text(encoding="utf-8"))


def copies(asked):
    """Return the copied texts among the effects."""
    return [one.text.gather().decode() for one in asked if one.word == COPY]


class Tables(unittest.TestCase):
    """The keys, beside tmux's copies by them."""

    def test_copied(self):
        """Each key copies the same text as in tmux, except for the listed ones."""
        for table, cases in CASES.items():
            for name, keys in cases.items():
                found = copied_by_roam(keys, table == "vi", SIZE)
                (self.assertNotEqual if (table, name) in KNOWN else self.assertEqual)(found, TMUX[f"{table} {name}"], name)
        self.assertLessEqual(len(KNOWN), 5)
        self.assertGreaterEqual(len(TMUX), 80)

    def test_known(self):
        """With emacs keys the selection ends at the cursor, behind the match."""
        for name, text in (("C-s and n", " again; ALPHA"), ("C-r and N", "ALPHA")):
            self.assertEqual(copied_by_roam(CASES["emacs"][name], False, SIZE), text)

    def test_few_rows(self):
        """A key copies the same if only the screen's rows are here, and each other row is requested on demand."""
        for table, cases in CASES.items():
            for name, keys in cases.items():
                found = self.typed_with_few(keys, table == "vi")
                (self.assertNotEqual if (table, name) in KNOWN else self.assertEqual)(found, TMUX[f"{table} {name}"], name)

    def typed_with_few(self, keys, is_vi):
        """Return the copies if rows are requested one by one."""
        whole = mode_of(TEXT, is_vi, SIZE)
        rows = Rows(whole.rows.first, whole.rows.end, SIZE[1])
        mode = CopyMode(rows, SIZE[0], is_vi)
        asked, found = [], []

        def attempt(does):
            while True:
                try:
                    return mode.attempt(does)
                except MissingRows as lack:
                    asked.append(lack.row)
                    rows.put(lack.row, [whole.rows.lines[lack.row]])
                except MissingFind as lack:
                    mode.finds.put(lack, found_row(whole.rows, lack.first, lack.is_back, lack.text))

        def gather(one):
            while True:
                try:
                    return one.text.gather()
                except MissingRows as lack:
                    rows.put(lack.row, [whole.rows.lines[lack.row]])

        attempt(mode.open)
        for group in keys:
            for key in copy_keys(group):
                if any(one.word == LEAVE or one.leaves for one in found):
                    break
                attempt(lambda key=key: mode.take(key))
                found += mode.asked
                mode.asked = []
        self.assertEqual(len(asked), len(set(asked)))
        texts = [gather(one).decode() for one in found if one.word == COPY]
        return (texts[-1] or None) if texts else None

    def test_all_known(self):
        """Each key of both tables has an existing command."""
        known = {*MOVES, *STEPS, *COMMANDS, *Prompt.WORDS, "jump-again", "jump-reverse", *(f"jump {kind}" for kind in "fFtT")}
        for table in (EMACS, VI):
            self.assertEqual(set(table.values()) - known, set())
        self.assertGreater(len(set(EMACS.values()) | set(VI.values())), 50)

    def test_vi(self):
        """The keys are vi's if the program in VISUAL, else in EDITOR, has `vi` in its name."""
        for visual, editor, is_vi in (("", "", False), ("vim", None, True), (None, "/usr/bin/nvi", True),
                                      ("/usr/bin/vim.basic", "emacs", True), ("emacs", "vi", False), ("/home/vi/nano", None, False)):
            self.environment_of(visual, editor)
            self.assertEqual(wants_vi(), is_vi, (visual, editor))

    def environment_of(self, visual, editor):
        """Set these variables."""
        Case.environment(self, VISUAL=visual, EDITOR=editor)

    def test_counts(self):
        """A count applies to the next key alone: vi's begins with no zero, and emacs' with Meta."""
        for is_vi, names, wanted in ((True, "12", 12), (True, "0", 1), (True, "10", 10), (True, "99999", 9999), (False, ["M-1", "2"], 12),
                                     (False, ["1"], 1), (False, ["M-0"], 1), (False, ["M-1", "M-0"], 10)):
            count = Count(is_vi)
            for name in names:
                count.takes(name)
            self.assertEqual((count.taken(), count.taken()), (wanted, 1), names)

    def test_pairs(self):
        """An escape and the key that arrives with it are one key; an escape alone is the key itself."""
        for text, names in ((b"\x1bf", ["M-f"]), (b"\x1b", ["\x1b"]), (b"\x1b\x1b[A", ["M-up"]), (b"\x1b[1;3A", ["M-up"]), (b"q", ["q"]),
                            (b"\x1b\x06x", ["M-\x06", "x"]), (b"\x1b\x1b", ["M-\x1b"])):
            self.assertEqual([key.name for key in copy_keys(text)], names, text)


class Asked(unittest.TestCase):
    """The other effects of keys."""

    def asked(self, keys, is_vi=True, text=TEXT):
        """Return the effects of keys."""
        return [one.word for one in typed(mode_of(text, is_vi, SIZE), keys)]

    def test_leaves(self):
        """q and C-c leave, with emacs keys Escape too; a copy leaves or stays, and without a selection there is no copy."""
        for is_vi, keys, words in ((True, [b"q"], [LEAVE]), (True, [b"\x03"], [LEAVE]), (True, [b"\x1b"], []), (False, [b"\x1b"], [LEAVE]),
                                   (True, [b"r"], [REFRESH]), (True, [b"\r"], [LEAVE]), (True, [b"y"], []), (True, [b" ly"], [COPY]),
                                   (False, [b"\x00", b"\x02y"], [COPY]), (True, [b"Q"], []), (True, [b"/\x03q"], [LEAVE]),
                                   (True, [b"/", b"\x1b", b"q"], [LEAVE]), (True, [b"/q\x15q\r"], []), (False, [b"\x13q\x07q"], [LEAVE])):
            self.assertEqual(self.asked(keys, is_vi), words, keys)

    def test_stays(self):
        """A copy by y stays open without a selection, so that more copies can follow."""
        mode = mode_of(TEXT, True, SIZE)
        found = typed(mode, [b"g", b" ", b"ey", b"w", b" ", b"ey"])
        self.assertEqual((copies(found), [one.leaves for one in found]), (["row", "1 of"], [False, False]))
        self.assertIsNone(mode.view.selection)

    def test_appends(self):
        """The vi key A appends its text to the newest buffer."""
        self.assertTrue(typed(mode_of(TEXT, True, SIZE), [b"g", b" ", b"e", b"A"])[-1].appends)

    def test_not_found(self):
        """A missing match is reported, and the cursor stays; an empty text searches nothing."""
        mode = mode_of(TEXT, True, SIZE)
        before = mode.view.position
        typed(mode, [b"/nowhere\r"])
        self.assertEqual((mode.told, mode.view.position), ("'nowhere' not found", before))
        typed(mode, [b"/\r", b"n"])
        self.assertEqual(mode.view.position, before)

    def test_too_much(self):
        """A text above the limit isn't copied, and one of exactly the limit is."""
        text = "\n".join(["x" * 40] * 30)
        for most, length in ((30 * 41 - 1, 30 * 41 - 1), (30 * 41 - 2, None)):
            with mock.patch.object(selection, "MOST_COPIED", most):
                found = typed(mode_of(text, False, SIZE), [b"\x1b<", b"\x00", b"\x1b>", b"\x1bw"])[-1].text.gather()
            self.assertEqual(found and len(found), length)
        self.assertEqual((selection.MOST_COPIED, controller.MOST_COPIED), (1 << 20, 1 << 20))

    def test_prompt(self):
        """The prompt's line is edited; a paste adds its first line, and the length is limited."""
        prompt = Prompt("search-forward-incremental", "before")
        for name, text in (("a", "a"), ("\u6f22", "a\u6f22"), ("\x7f", "a"), ("\x17", ""), ("x", "x"), (" ", "x "), ("y", "x y"),
                           ("\x17", "x "), ("\x15", "")):
            self.assertTrue(prompt.edit(name))
            self.assertEqual(prompt.text, text)
        self.assertFalse(prompt.edit("up") or prompt.edit("\x01"))
        prompt.add("one\rtwo")
        prompt.add("\x1b[31m")
        self.assertEqual(prompt.line(), "(search down) one")
        prompt.add("z" * 1000)
        self.assertEqual(len(prompt.text), MOST_SOUGHT)
        for _ in range(100):
            prompt.edit("\x7f")
        prompt.add("\u6f22" * 1000)
        self.assertEqual(prompt.text, "one" + "z" * 77 + "\u6f22" * 33)

    def test_incremental(self):
        """With emacs keys a search is incremental from its start; C-s continues in it, and a paste is searched."""
        mode = mode_of(TEXT, False, SIZE)
        typed(mode, [b"\x1b<", b"\x13b"])
        self.assertEqual(matched(mode), "b")
        typed(mode, [b"eta"])
        first = mode.match
        self.assertEqual(matched(mode), "beta")
        typed(mode, [b"\x13"])
        self.assertGreater(mode.match, first)
        typed(mode, [b"\x7f\x7f"])
        self.assertEqual((matched(mode), mode.match[0]), ("be", (0, 28)))
        answer_all(mode, lambda: mode.paste("ta"))
        self.assertEqual((matched(mode), mode.prompt.text), ("beta", "beta"))

    def test_go_to(self):
        """A number shows the rows so many above the last, at most the first ones; an invalid one does nothing."""
        for text, back in ((b"5", 5), (b"0", 0), (b"9999999999999", 34), (b"x", 0), (b"", 0)):
            mode = mode_of(TEXT, True, SIZE)
            typed(mode, [b":" + text + b"\r"])
            self.assertEqual((mode.view.back(), mode.prompt), ((back, 34), None), text)


def matched(mode):
    """Return the text of the match at the cursor."""
    (row, begin), (_, end) = mode.match
    return mode.rows.row(row).text(begin, end)


class Read(unittest.TestCase):
    """Output of the scrollback process, as cells."""

    def test_row_lines(self):
        """Characters and SGR become cells, two for each wide one; combining characters share one, and trailing blanks don't count."""
        red = Style(foreground=1)
        for line, letters, length, goes_on in (
                (b" ab  ", list("ab  "), 2, False), (b" ab ", list("ab "), 2, False),
                (b"+ab", list("ab"), 2, True), (b" ", [], 0, False), (b"", [], 0, False),
                (" \u6f22x".encode(), ["\u6f22", "", "x"], 3, False), (" e\u0301x".encode(), ["e\u0301", "x"], 2, False),
                (" \u0301x".encode(), ["x"], 1, False), (b" \x1b[31mx\x1b[0my", ["x", "y"], 2, False)):
            row = row_of(line)
            self.assertEqual((row.letters, row.length, row.goes_on, len(row.styles)), (letters, length, goes_on, len(letters)), line)
        self.assertEqual(row_of(b" \x1b[31mx\x1b[0my").styles, [red, Style()])
        self.assertEqual(row_of(b" \x1b[1;38;2;1;2;3mx").styles, [Style(frozenset({"bold"}), (1, 2, 3))])

    def test_hostile(self):
        """Anything else becomes harmless characters: no escape, no control, no writing direction."""
        for line in (b" \x1b]0;title\x07x", b" \x1b[2Jx", b" a\x9b31mb", b" \x00\x07\x7f", " \u202eabc\u2028".encode(), b" \xff\xfe\xc3",
                     b" \x1b[31", b" \x1b", b" \x1b[99999mx", b" \x1b[?25lm", " \ud7b0\u115f".encode(), b" \x1b[38;5;999mz",
                     b" \x1b[38;2;999;0;0mz"):
            row = row_of(line)
            painted = painted_line(line)
            self.assertEqual(len(row.letters), len(row.styles))
            left = painted.replace(b"\x1b[", b"")
            self.assertFalse([byte for byte in left if byte < 32 or byte == 127], line)
            text = painted.decode()
            self.assertFalse({"\u202e", "\u2028", "\x9b", "\x9d"} & set(text), line)

    def test_long(self):
        """A row above the limit is cut."""
        for line in (b" " + b"x" * 2000, " \u6f22".encode() * 2000, b" " + b"\x1b[31mx" * 2000):
            self.assertIn(len(row_of(line).letters), (MOST_COLS, MOST_COLS + 1))
        self.assertNotIn("x", row_of(b" " + b"\x1b[1m" * 100000 + b"x").letters)

    def test_joined(self):
        """Combining characters above the limit are dropped."""
        row = row_of((" e" + "\u0301" * 1000).encode())
        self.assertEqual(len(row.letters[0]), MOST_JOINED)

    def test_wrapped_early(self):
        """A soft-wrapped row gets no blank: it left its last column to a wide character, or it is of a narrower pane."""
        rows = Rows(0, 2, 6)
        rows.put(0, [b"+abcde", " \u6f22\u5b57".encode()])
        self.assertEqual(rows.row(0).letters, list("abcde"))
        self.assertEqual(matches(rows, 0, "e\u6f22"), [((0, 4), (1, 2))])

    def test_widths(self):
        for letter, width in (("a", 1), ("\u00e9", 1), ("\u0301", 0), ("\u6f22", 2), ("\uff21", 2), ("\U0001f600", 2), ("\u200d", 0),
                              ("\u1160", 0), ("\ue0b0", 1)):
            self.assertEqual(width_of(letter), width, letter)


def painted_line(line, cols=20):
    """Return the painting of a row."""
    rows = Rows(0, 1, cols)
    rows.put(0, [line])
    return LinePainter(CopyMode(rows, 1, False), 1, cols).line((0, 0))


class Lines(unittest.TestCase):
    """Rows on lines of a width."""

    def rows(self, lines, cols):
        """Return rows, all of which are here."""
        rows = Rows(0, len(lines), cols)
        rows.put(0, lines)
        return rows

    def test_wrapped(self):
        """A wider row takes several lines, and no wide character is cut."""
        rows = self.rows([b" " + b"abcdefghij", " a\u6f22\u6f22\u6f22".encode(), b" "], 4)
        self.assertEqual(rows.begins(0), [0, 4, 8])
        self.assertEqual(rows.begins(1), [0, 3])
        self.assertEqual(rows.begins(2), [0])
        self.assertEqual([rows.line_of((0, col)) for col in (0, 3, 4, 9, 10)], [(0, 0), (0, 0), (0, 1), (0, 2), (0, 2)])
        self.assertEqual([rows.line_length((0, part)) for part in range(3)], [3, 3, 2])
        everything = rows.lines_from((0, 0), 99)
        self.assertEqual(everything, [(0, 0), (0, 1), (0, 2), (1, 0), (1, 1), (2, 0)])
        for place, line in enumerate(everything):
            for count in range(8):
                self.assertEqual(rows.down(line, count), (everything[min(place + count, 5)], min(count, 5 - place)))
                self.assertEqual(rows.up(line, count), (everything[max(place - count, 0)], min(count, place)))

    def test_narrow(self):
        """In any narrow pane each line shows something."""
        rows = self.rows([" \u6f22\u6f22\u6f22".encode()], 1)
        self.assertEqual(rows.begins(0), [0, 2, 4])

    def test_moves(self):
        """Up and down move line by line, and return to their column."""
        mode = mode_of("abcdefghij\nxy", False, (6, 40))
        answer_all(mode, lambda: mode.resize(6, 4))
        positions = []
        for keys in (b"\x1b<", b"\x06\x06\x06", b"\x0e", b"\x0e", b"\x0e", b"\x10", b"\x10", b"\x05"):
            typed(mode, [keys])
            positions.append(mode.view.position)
        self.assertEqual(positions, [(0, 0), (0, 3), (0, 7), (0, 10), (1, 2), (0, 10), (0, 7), (0, 10)])

    def test_copied_whole(self):
        """A line wrapped for a narrower pane is copied as one line."""
        mode = mode_of(TEXT, True, SIZE)
        answer_all(mode, lambda: mode.resize(5, 13))
        self.assertEqual(copies(typed(mode, [b"/so long\r", b"0", b" ", b"$", b"y"])), [TEXT.split("\n")[32] + "\n"])

    def test_resized(self):
        """A new size keeps the first row in view, or the end; the cursor stays on its character and visible."""
        for rows, cols in ((3, 5), (1, 4), (40, 200), (12, 40), (6, 7)):
            mode = mode_of(TEXT, True, SIZE)
            typed(mode, [b"15k"])
            position, top = mode.view.position, mode.view.top
            answer_all(mode, lambda: mode.resize(rows, cols))
            self.assertEqual(mode.view.position, position)
            self.assertIn(mode.view.line(), mode.view.lines())
            row, col = mode.view.cursor()
            self.assertTrue(0 <= row < rows and 0 <= col < cols)
            answer_all(mode, lambda: mode.resize(*SIZE))
            self.assertEqual(mode.view.position, position)
            self.assertLessEqual(mode.view.top, mode.view.lowest_top())
            del top
        mode = mode_of(TEXT, True, SIZE)
        answer_all(mode, lambda: mode.resize(5, 11))
        self.assertEqual(mode.view.top, mode.view.lowest_top())

    def test_few(self):
        """If there are fewer rows than the pane has they are shown from the first on, and no move leaves them."""
        mode = mode_of("one\ntwo", True, (10, 20))
        mode.rows.end = 2
        for keys in (b"g", b"j", b"j", b"G", b"\x06", b"\x02", b"\x04", b"\x15", b"J", b"K", b"L", b"H", b"}", b"{", b"w", b"99l", b"99h"):
            typed(mode, [keys])
            self.assertIn(mode.view.line(), [(0, 0), (1, 0)], keys)
            self.assertEqual(mode.view.top, (0, 0), keys)

    def test_random_keys(self):
        """With any input the cursor is visible, and the view is within the rows."""
        import random

        chance = random.Random(77)
        for is_vi, table in ((False, EMACS), (True, VI)):
            for size in ((12, 40), (2, 4), (1, 2), (30, 9)):
                mode = mode_of(TEXT, is_vi, (12, 40))
                answer_all(mode, lambda: mode.resize(*size))
                for _ in range(150):
                    name = chance.choice(sorted(table))
                    answer_all(mode, lambda name=name: mode.take(Key(name, name)))
                    mode.asked = []
                    self.assertIn(mode.view.line(), mode.view.lines(), name)
                    self.assertTrue(mode.rows.first_line() <= mode.view.top <= mode.view.lowest_top(), name)
                    mode.selected()


class Moved(unittest.TestCase):
    """Positions that move over rows of ten columns: `one two-th`, soft-wrapped into `ree four`, and `(a [b] c) `, soft-wrapped into `d e`.
    """

    def setUp(self):
        lines = rows_of("one two-three four\n(a [b] c) d e\n", 10)
        self.rows = Rows(0, len(lines), 10)
        self.rows.put(0, lines)

    def holds(self, move, cases):
        """Check the targets of moves."""
        for position, wanted in cases:
            self.assertEqual(move(position), wanted, position)

    def test_characters(self):
        self.holds(lambda position: motions.right(self.rows, position),
                   (((0, 0), (0, 1)), ((0, 9), (0, 10)), ((0, 10), (1, 0)), ((4, 0), (4, 0))))
        self.holds(lambda position: motions.left(self.rows, position),
                   (((0, 1), (0, 0)), ((0, 0), (0, 0)), ((1, 0), (0, 10)), ((4, 0), (3, 3))))
        self.holds(lambda position: motions.left(self.rows, position, False), (((1, 0), (0, 10)), ((2, 0), (2, 0)), ((3, 0), (2, 9))))

    def test_words(self):
        """A word continues in the next row if its row is soft-wrapped."""
        self.holds(lambda position: motions.next_word(self.rows, position, motions.SEPARATORS),
                   (((0, 0), (0, 4)), ((0, 5), (0, 7)), ((0, 7), (0, 8)), ((0, 8), (1, 4)), ((1, 4), (2, 0)), ((3, 2), (4, 1))))
        self.holds(lambda position: motions.next_word(self.rows, position, ""), (((0, 4), (1, 4)), ((2, 0), (2, 3))))
        self.holds(lambda position: motions.word_end(self.rows, position, motions.SEPARATORS),
                   (((0, 0), (0, 3)), ((0, 3), (0, 7)), ((0, 8), (1, 3)), ((1, 3), (1, 8)), ((2, 7), (2, 8)), ((4, 0), (4, 1))))
        self.holds(lambda position: motions.last_of_word(self.rows, position, motions.SEPARATORS),
                   (((0, 0), (0, 2)), ((0, 2), (0, 6)), ((0, 8), (1, 2)), ((1, 2), (1, 7))))
        self.holds(lambda position: motions.previous_word(self.rows, position, motions.SEPARATORS),
                   (((0, 2), (0, 0)), ((0, 4), (0, 0)), ((1, 2), (0, 8)), ((1, 4), (0, 8)), ((2, 0), (1, 4)), ((0, 0), (0, 0))))
        self.holds(lambda position: motions.previous_word(self.rows, position, motions.SEPARATORS, False),
                   (((0, 2), (0, 0)), ((1, 2), (0, 8))))

    def test_lines(self):
        self.holds(lambda position: motions.line_begin(self.rows, position), (((1, 3), (0, 0)), ((0, 3), (0, 0)), ((3, 1), (2, 0))))
        self.holds(lambda position: motions.line_end(self.rows, position), (((0, 3), (1, 8)), ((2, 0), (3, 3)), ((4, 0), (4, 0))))
        self.holds(lambda position: motions.indentation(self.rows, position), (((1, 3), (0, 0)), ((3, 1), (2, 0)), ((4, 0), (4, 0))))

    def test_jumps(self):
        """A jump continues in soft-wrapped rows, and no further."""
        self.holds(lambda position: motions.jumped(self.rows, position, "f", "e"),
                   (((0, 0), (0, 2)), ((0, 2), (1, 1)), ((1, 2), (1, 2)), ((2, 0), (3, 2))))
        self.holds(lambda position: motions.jumped(self.rows, position, "t", "e"), (((0, 0), (0, 1)), ((0, 1), (1, 0)), ((2, 0), (3, 1))))
        self.holds(lambda position: motions.jumped(self.rows, position, "F", "o"),
                   (((1, 2), (0, 6)), ((0, 6), (0, 0)), ((1, 6), (1, 5)), ((2, 5), (2, 5))))
        self.holds(lambda position: motions.jumped(self.rows, position, "T", "o"), (((1, 2), (0, 7)), ((0, 6), (0, 1)), ((2, 5), (2, 5))))

    def test_brackets(self):
        """The other bracket of this one or the next; with emacs keys a word if there is none."""
        self.holds(lambda position: motions.matched_forward(self.rows, position, True),
                   (((2, 0), (2, 8)), ((2, 8), (2, 0)), ((2, 1), (2, 5)), ((2, 5), (2, 3)), ((2, 9), (2, 9)), ((0, 0), (0, 0)),
                    ((4, 0), (4, 0))))
        self.holds(lambda position: motions.matched_forward(self.rows, position, False),
                   (((2, 0), (2, 8)), ((2, 1), (2, 2)), ((0, 4), (1, 3)), ((4, 0), (4, 0))))
        self.holds(lambda position: motions.matched_back(self.rows, position),
                   (((2, 8), (2, 0)), ((2, 9), (2, 0)), ((2, 6), (2, 3)), ((2, 5), (2, 3)), ((3, 2), (3, 0)), ((2, 0), (1, 4)),
                    ((4, 0), (4, 0))))

    def test_paragraphs(self):
        self.holds(lambda position: motions.paragraph_above(self.rows, position), (((4, 0), (0, 0)), ((2, 5), (0, 0))))
        self.holds(lambda position: motions.paragraph_below(self.rows, position), (((0, 0), (4, 0)), ((4, 0), (4, 0))))


class Missed(unittest.TestCase):
    """Missing rows."""

    def test_attempt(self):
        """If a row is missing nothing changes: neither the view nor the input or selection."""
        mode = mode_of(TEXT, True, SIZE)
        whole = dict(mode.rows.lines)
        typed(mode, [b" ", b"k", b"30"])
        for row in range(20):
            mode.rows.lines.pop(row)
        mode.rows.celled.clear()
        before = (mode.view.position, mode.view.top, mode.view.selection.begin, mode.view.selection.end, mode.count.digits)
        with self.assertRaises(Missing):
            mode.attempt(lambda: mode.take(Key("K", "K")))
        self.assertEqual((mode.view.position, mode.view.top, mode.view.selection.begin, mode.view.selection.end, mode.count.digits), before)
        mode.rows.put(0, [whole[row] for row in range(20)])
        top = mode.view.top
        mode.attempt(lambda: mode.take(Key("K", "K")))
        self.assertEqual((mode.view.top, mode.count.digits), ((top[0] - 30, 0), ""))

    def test_far_selection(self):
        """A selection is shown without the rows at its ends."""
        mode = mode_of(TEXT, True, SIZE)
        typed(mode, [b" ", b"g"])
        before = LinePainter(mode, 1, 40).lines(12)
        mode.rows.lines.pop(mode.view.selection.begin[0])
        mode.rows.celled.clear()
        self.assertEqual(LinePainter(mode, 1, 40).lines(12), before)

    def test_bound(self):
        """The stored rows stay within their limit: the farthest go."""
        rows = Rows(0, 100, 80)
        rows.put(0, [b" " * (MOST_BYTES // 50)] * 100)
        self.assertEqual(rows.size, 100 * (MOST_ROW_BYTES + ROW_BYTES))
        rows = Rows(0, 600, 80)
        rows.put(500, [b" " * MOST_ROW_BYTES] * 100)
        rows.put(0, [b" " * MOST_ROW_BYTES] * 500)
        rows.stays = 590
        rows.forget_far(90)
        self.assertLessEqual(rows.size, MOST_BYTES)
        self.assertTrue(rows.has(90) and rows.has(99) and rows.has(590) and rows.has(599) and not rows.has(589))

    def test_outside(self):
        """Rows outside the snapshot are never stored, nor requested."""
        rows = Rows(10, 20, 80)
        rows.put(5, [b" x"] * 30)
        self.assertEqual(sorted(rows.lines), list(range(10, 20)))
        self.assertTrue(rows.has(9) and rows.has(20))


class Selected(unittest.TestCase):
    """Selections, displayed and copied."""

    def test_halves(self):
        """A wide character with a selected half is selected, in the text and in the display."""
        for begin, end, is_vi, text in ((1, 3, False, "\u6f22"), (2, 3, False, "\u6f22"), (1, 2, False, "\u6f22"),
                                        (0, 2, False, "a\u6f22"), (2, 2, True, "\u6f22"), (1, 1, True, "\u6f22"),
                                        (2, 4, False, "\u6f22\u5b57"), (3, 3, False, "")):
            for is_block in (False, True):
                mode = mode_of("a\u6f22\u5b57b", is_vi, (3, 20))
                mode.view.position, mode.view.is_block = (0, begin), is_block
                mode.begin_selection()
                mode.view.position = (0, end)
                mode.view.follow()
                if is_block and begin == end and not is_vi:
                    continue
                painted = Emulated(1, 20)
                painted.fed(LinePainter(mode, 1, 20).line((0, 0)))
                seen = "".join(letters for letters, style in painted.screen[0] if "reverse" in style.flags)
                mode.copy(True)
                self.assertEqual((copies(mode.asked), seen), ([text], text), (begin, end, is_vi, is_block))

    def test_words(self):
        """A selection by words, as after a double click, has whole words on both sides of the first, and lines if the cursor goes down."""
        for is_vi, col, keys, text in (
                (True, 4, b"", "1"), (True, 4, b"lllllllll", "1 of the older"), (True, 26, b"hhh", "number"), (True, 26, b"bb", ", number"),
                (True, 4, b"j", "1 of the older ones, number-1\nrow 2 of the older ones, number-2\nrow"), (True, 33, b"", "1"),
                (False, 4, b"", "1"), (False, 4, b"\x06" * 9, "1 of the older"), (False, 26, b"\x02\x02\x02", "number"),
                (False, 26, b"\x1bb\x1bb", ", number")):
            mode = mode_of(TEXT, is_vi, SIZE)
            typed(mode, [b"g" if is_vi else b"\x1b<"])
            mode.view.position = (0, col)
            mode.attempt(lambda mode=mode: mode.perform("select-word"))
            found = typed(mode, [keys, b"\r" if is_vi else b"\x1bw"])
            self.assertEqual(copies(found), [text], (is_vi, col, keys))

    def test_block_cursor(self):
        """In a block selection the cursor keeps its column on shorter rows, and otherwise returns to it."""
        for is_block in (False, True):
            mode = mode_of("abcdef\nab\nabcdef", True, (3, 20))
            typed(mode, [b"gllll", *([b"v "] if is_block else [b""]), b"j"])
            self.assertEqual(mode.view.position, (1, 4 if is_block else 2))
            typed(mode, [b"j"])
            self.assertEqual(mode.view.position, (2, 4))

    def test_lines_turn(self):
        """Selected lines stay whole if the cursor passes the first of them, by a line or to the top or bottom."""
        for keys, rows in ((b"jjVkk", (0, 2)), (b"jjVjo", (2, 3)), (b"jjVjokk", (0, 3)), (b"jjVg", (0, 2)), (b"jjVjog", (0, 3)),
                           (b"jjVkoG", (1, 4)), (b"jjVG", (2, 4)), (b"jjVjgG", (2, 4))):
            mode = mode_of("a1\nb2\nc3\nd4\ne5", True, (3, 20))
            typed(mode, [b"g", keys])
            found = copies(typed(mode, [b"\r"]))[0]
            self.assertEqual(found, "".join(("a1\n", "b2\n", "c3\n", "d4\n", "e5\n")[rows[0] : rows[1] + 1]), keys)

    def test_pages(self):
        """A page is the height less two, or a line in a view of two lines or fewer; half a page is half the height."""
        for height, page, half in ((2, 1, 1), (1, 1, 1), (3, 1, 1), (10, 8, 5)):
            mode = mode_of("\n".join(map(str, range(50))), True, (height, 20))
            for keys, count in ((b"\x02", page), (b"\x15", half)):
                top = mode.view.top[0]
                typed(mode, [keys])
                self.assertEqual(mode.view.top[0], top - count, (height, keys))

    def test_ends(self):
        """A block's columns are the same in each row, whichever end was first."""
        for first, last, text in (((0, 1), (2, 3), "bc\nfg\njk"), ((2, 1), (0, 3), "bc\nfg\njk"), ((0, 3), (2, 1), "bcd\nfgh\njkl")):
            mode = mode_of("abcd\nefgh\nijkl", False, (5, 20))
            mode.view.position = first
            mode.toggle_block()
            mode.begin_selection()
            mode.view.position = last
            mode.view.follow()
            mode.copy(True)
            self.assertEqual(copies(mode.asked), [text])


class Searches(unittest.TestCase):
    """The matches of a text."""

    def test_matches(self):
        """A text matches across soft-wrapped rows, in any case if it has no capital."""
        rows = Rows(0, 4, 10)
        rows.put(0, rows_of("the end of the row goes ROUND", 10) + [b" "])
        self.assertEqual(matches(rows, 1, "e row"), [((1, 3), (1, 8))])
        self.assertEqual(matches(rows, 0, "of the"), [((0, 8), (1, 4))])
        self.assertEqual(matches(rows, 2, "round"), matches(rows, 2, "ROUND"))
        self.assertEqual(matches(rows, 2, "Round"), [])
        self.assertEqual(matches(rows, 0, ""), [])

    def test_wide(self):
        """A match that ends with a wide character ends after both halves, and a letter with a two-letter lower case shifts nothing."""
        rows = Rows(0, 1, 20)
        rows.put(0, [" \u0130a\u6f22b".encode()])
        self.assertEqual(matches(rows, 0, "a\u6f22"), [((0, 1), (0, 4))])

    def test_first_row(self):
        """With wrap-around even the first row is found, which no row precedes."""
        mode = mode_of("needle\n" + "x\n" * 30, True, (5, 20))
        typed(mode, [b"G", b"/needle\r"])
        self.assertEqual(mode.view.position, (0, 0))


class Painted(unittest.TestCase):
    """The painting."""

    def painted(self, mode, cols=None):
        """Return a terminal with the painted lines of copy mode."""
        cols = cols or mode.rows.cols
        seen = Emulated(mode.view.height, cols)
        for number, line in enumerate(LinePainter(mode, 1, cols).lines(mode.view.height), 1):
            seen.fed(b"\x1b[%d;1H" % number + line)
        return seen

    def test_lines(self):
        """Each line is as wide as the rectangle, with blanks after its row."""
        mode = mode_of(TEXT, True, SIZE)
        typed(mode, [b"g"])
        seen = self.painted(mode)
        wanted = [f"row {number} of the older ones, number-{number}" for number in range(1, 13)]
        self.assertEqual([line.rstrip() for line in seen.lines()], wanted)

    def test_styles(self):
        """A style results in the same style by its SGR sequence."""
        for style in (Style(), Style(frozenset({"bold", "reverse"}), 3, 250), Style(frozenset({"underline"}), (1, 2, 3), 12),
                      Style(frozenset(), 9, None)):
            seen = Emulated(1, 4)
            seen.fed(f"\x1b[41;5m{sgr_of(style)}x".encode())
            self.assertEqual(seen.screen[0][0], ("x", style))

    def test_matches(self):
        """Matches are highlighted, the one at the cursor differently."""
        mode = mode_of("x one x\nx", True, (3, 20))
        typed(mode, [b"g", b"/x\r"])
        grounds = [style.background for _, style in self.painted(mode).screen[0][:7]]
        self.assertEqual(grounds, [6, None, None, None, None, None, 5])

    def test_unmarked(self):
        """Matches stay highlighted until another command with emacs keys, and with vi keys until the selection is cleared."""
        for is_vi, keys, is_shown in ((True, [b"g", b"/x\r", b"l"], True), (True, [b"g", b"/x\r", b"\x1b"], False),
                                      (True, [b"g", b"/x\r", b"\x1b", b"n"], True), (False, [b"\x1b<", b"\x13x\r"], True),
                                      (False, [b"\x1b<", b"\x13x\r", b"\x06"], False)):
            mode = mode_of("x one x\nx", is_vi, (3, 20))
            typed(mode, keys)
            self.assertEqual(any(style.background for _, style in self.painted(mode).screen[0]), is_shown, keys)

    def test_matches_joined(self):
        """A match is highlighted in each of its rows."""
        mode = mode_of("abcdefghijklmno", True, (3, 5))
        typed(mode, [b"g", b"/defghijkl\r"])
        grounds = [[style.background for _, style in line] for line in self.painted(mode).screen]
        self.assertEqual(grounds, [[None] * 3 + [5] * 2, [5] * 5, [5] * 2 + [None] * 3])

    def test_cut(self):
        """A wide character without room for both halves is a blank."""
        mode = mode_of("\u6f22\u6f22", True, (2, 20))
        seen = self.painted(mode, 3)
        self.assertEqual(seen.lines()[0], "\u6f22 ")


if __name__ == "__main__":
    unittest.main()
