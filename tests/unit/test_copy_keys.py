"""The keys of copy mode, as tables: mode, key, tmux's name of its command, and the changed state."""
import pathlib
import re
import unittest

from copied import TEXT, answer_all, mode_of
from modes_played import copy_keys
from roam_live.frontend.copymode.keys import EMACS, VI
from roam_live.frontend.copymode.selection import Selection

MAN = pathlib.Path(__file__).resolve().parents[2] / "docs/man/roam-mux.1"
SIZE = (12, 40)

# The sequences of named keys.
NAMED = {"Left": b"\x1b[D", "Right": b"\x1b[C", "Up": b"\x1b[A", "Down": b"\x1b[B", "Home": b"\x1b[H", "End": b"\x1b[F", "PgUp": b"\x1b[5~",
         "PgDn": b"\x1b[6~", "C-Up": b"\x1b[1;5A", "C-Down": b"\x1b[1;5B", "M-Up": b"\x1b[1;3A", "M-Down": b"\x1b[1;3B", "Space": b" ",
         "C-Space": b"\0", "Return": b"\r", "Escape": b"\x1b", "BSpace": b"\x7f", "KPEnter": b"\x1bOM"}

# Each key, the command that tmux 3.3a binds to it, and its changes to the state from `begun`: the cursor (a row and a column), the first
# visible row, the start of the selection, and so on.
VI_ROWS = (
    ("h", "cursor-left", "at 31 7"), ("j", "cursor-down", "at 32 8"), ("k", "cursor-up", "at 30 0; top 30"),
    ("l", "cursor-right", "at 31 9"), ("Left", "cursor-left", "at 31 7"), ("Right", "cursor-right", "at 31 9"),
    ("Up", "cursor-up", "at 30 0; top 30"), ("Down", "cursor-down", "at 32 8"), ("C-h", "cursor-left", "at 31 7"),
    ("BSpace", "cursor-left", "at 31 7"), ("w", "next-word", "at 31 12"), ("b", "previous-word", "at 31 4"),
    ("e", "next-word-end", "at 31 11"), ("W", "next-space", "at 31 14"), ("B", "previous-space", "at 31 4"),
    ("E", "next-space-end", "at 31 12"), ("0", "start-of-line", "at 31 0"), ("^", "back-to-indentation", "at 31 4"),
    ("$", "end-of-line", "at 32 9"), ("Home", "start-of-line", "at 31 0"), ("End", "end-of-line", "at 32 9"), ("f", "jump f", "awaits f"),
    ("F", "jump F", "awaits F"), ("t", "jump t", "awaits t"), ("T", "jump T", "awaits T"), (";", "jump-again", "at 31 10"),
    (",", "jump-reverse", "at 31 7"), ("H", "top-line", "at 31 0"), ("M", "middle-line", "at 36 0"), ("L", "bottom-line", "at 42 0"),
    ("C-f", "page-down", "at 44 8; top 34"), ("C-b", "page-up", "at 21 8; top 21"), ("PgDn", "page-down", "at 44 8; top 34"),
    ("PgUp", "page-up", "at 21 8; top 21"), ("C-d", "halfpage-down", "at 40 8; top 34"), ("C-u", "halfpage-up", "at 25 8; top 25"),
    ("C-y", "scroll-up", "at 30 0; top 30"), ("C-e", "scroll-down", "at 32 8; top 32"), ("K", "scroll-up", "at 30 0; top 30"),
    ("J", "scroll-down", "at 32 8; top 32"), ("C-Up", "scroll-up", "at 30 0; top 30"), ("C-Down", "scroll-down", "at 32 8; top 32"),
    ("g", "history-top", "at 0 0; top 0"), ("G", "history-bottom", "at 45 0; top 34"), (":", "goto-line", "prompt (goto line) "),
    ("{", "previous-paragraph", "at 30 0; top 21"), ("}", "next-paragraph", "at 36 0"), ("%", "next-matching-bracket", "at 32 3"),
    ("X", "set-mark", "mark 31 8"), ("M-x", "jump-to-mark", "at 3 1; top 0; mark 31 8"), ("/", "search-forward", "prompt (search down) "),
    ("?", "search-backward", "prompt (search up) "), ("n", "search-again", "at 37 0"), ("N", "search-reverse", "at 43 5; top 34"),
    ("*", "search-forward-word", "at 31 4; seeks indented on"), ("#", "search-backward-word", "at 31 4; seeks indented back"),
    ("Space", "begin-selection", "selects from 31 8"), ("V", "select-line", "at 32 9; selects from 31 0"),
    ("v", "rectangle-toggle", "block"), ("C-v", "rectangle-toggle", "block"), ("o", "other-end", "at 31 5"),
    ("Escape", "clear-selection", "selects nothing"),
    ("Return", "copy-selection-and-cancel", "selects nothing; asks copy 'nden' and leaves"),
    ("C-j", "copy-selection-and-cancel", "selects nothing; asks copy 'nden' and leaves"),
    ("KPEnter", "copy-selection-and-cancel", "selects nothing; asks copy 'nden' and leaves"),
    ("y", "copy-selection", "selects nothing; asks copy 'nden'"),
    ("A", "append-selection-and-cancel", "selects nothing; asks copy 'nden' and leaves behind the newest"),
    ("D", "copy-end-of-line-and-cancel", "at 32 9; selects nothing; asks copy 'nted: call(first, [second, {third}]) here\\n' and leaves"),
    ("r", "refresh-from-pane", "asks refresh"), ("q", "cancel", "asks leave"), ("C-c", "cancel", "asks leave"), ("3", "", "count 3"),
)
EMACS_ROWS = (
    ("C-b", "cursor-left", "at 31 7"), ("C-n", "cursor-down", "at 32 8"), ("C-p", "cursor-up", "at 30 0; top 30"),
    ("C-f", "cursor-right", "at 31 9"), ("Left", "cursor-left", "at 31 7"), ("Right", "cursor-right", "at 31 9"),
    ("Up", "cursor-up", "at 30 0; top 30"), ("Down", "cursor-down", "at 32 8"), ("M-f", "next-word-end", "at 31 12"),
    ("M-b", "previous-word", "at 31 4"), ("C-a", "start-of-line", "at 31 0"), ("M-m", "back-to-indentation", "at 31 4"),
    ("C-e", "end-of-line", "at 32 9"), ("Home", "start-of-line", "at 31 0"), ("End", "end-of-line", "at 32 9"),
    ("f", "jump f", "awaits f"), ("F", "jump F", "awaits F"), ("t", "jump t", "awaits t"), ("T", "jump T", "awaits T"),
    (";", "jump-again", "at 31 10"), (",", "jump-reverse", "at 31 7"), ("M-R", "top-line", "at 31 0"), ("M-r", "middle-line", "at 36 0"),
    ("C-v", "page-down", "at 44 8; top 34"), ("M-v", "page-up", "at 21 8; top 21"), ("Space", "page-down", "at 44 8; top 34"),
    ("PgDn", "page-down", "at 44 8; top 34"), ("PgUp", "page-up", "at 21 8; top 21"), ("M-Down", "halfpage-down", "at 40 8; top 34"),
    ("M-Up", "halfpage-up", "at 25 8; top 25"), ("C-Up", "scroll-up", "at 30 0; top 30"), ("C-Down", "scroll-down", "at 32 8; top 32"),
    ("M-<", "history-top", "at 0 0; top 0"), ("M->", "history-bottom", "at 45 0; top 34"), ("g", "goto-line", "prompt (goto line) "),
    ("M-{", "previous-paragraph", "at 30 0; top 21"), ("M-}", "next-paragraph", "at 36 0"),
    ("M-C-f", "next-matching-bracket", "at 31 13"), ("M-C-b", "previous-matching-bracket", "at 31 4"), ("X", "set-mark", "mark 31 8"),
    ("M-x", "jump-to-mark", "at 3 1; top 0; mark 31 8"), ("C-s", "search-forward-incremental", "prompt (search down) alpha"),
    ("C-r", "search-backward-incremental", "prompt (search up) alpha"), ("n", "search-again", "at 37 5"),
    ("N", "search-reverse", "at 43 5; top 34"), ("C-Space", "begin-selection", "selects from 31 8"), ("R", "rectangle-toggle", "block"),
    ("C-g", "clear-selection", "selects nothing"), ("M-w", "copy-selection-and-cancel", "selects nothing; asks copy 'nde' and leaves"),
    ("C-w", "copy-selection-and-cancel", "selects nothing; asks copy 'nde' and leaves"),
    ("y", "copy-selection", "selects nothing; asks copy 'nde'"),
    ("C-k", "copy-end-of-line-and-cancel", "at 32 9; selects nothing; asks copy 'nted: call(first, [second, {third}]) here' and leaves"),
    ("r", "refresh-from-pane", "asks refresh"), ("q", "cancel", "asks leave"), ("C-c", "cancel", "asks leave"),
    ("Escape", "cancel", "asks leave"), ("M-3", "", "count 3"),
)

# The lines of the page's table, and the commands of their keys.
PAGE = {
    "by character": ("cursor-left", "cursor-right", "cursor-up", "cursor-down"),
    "by word": ("next-word", "previous-word", "next-word-end", "next-space", "previous-space", "next-space-end"),
    "within a line": ("start-of-line", "back-to-indentation", "end-of-line"),
    "jump to a character": ("jump f", "jump F", "jump t", "jump T", "jump-again", "jump-reverse"),
    "top, middle, bottom": ("top-line", "middle-line", "bottom-line"),
    "page, half page": ("page-up", "page-down", "halfpage-up", "halfpage-down"), "scroll one row": ("scroll-up", "scroll-down"),
    "first, last row": ("history-top", "history-bottom"), "go to row from end": ("goto-line",),
    "paragraph": ("previous-paragraph", "next-paragraph"), "matching bracket": ("next-matching-bracket", "previous-matching-bracket"),
    "set mark, go to it": ("set-mark", "jump-to-mark"),
    "search": ("search-forward", "search-backward", "search-again", "search-reverse", "search-forward-word", "search-backward-word",
               "search-forward-incremental", "search-backward-incremental"),
    "begin selection": ("begin-selection",), "select lines": ("select-line",), "block on, off": ("rectangle-toggle",),
    "other end": ("other-end",), "clear selection": ("clear-selection",), "copy and leave": ("copy-selection-and-cancel",),
    "copy and stay": ("copy-selection",), "append and leave": ("append-selection-and-cancel",),
    "copy rest and leave": ("copy-end-of-line-and-cancel",), "refresh": ("refresh-from-pane",), "leave": ("cancel",),
}


def bytes_of(key):
    """Return the bytes that a terminal sends for a key."""
    if key in NAMED:
        return NAMED[key]
    if key.startswith("M-"):
        return b"\x1b" + bytes_of(key[2:])
    return bytes([ord(key[2].upper()) & 0x1F]) if key.startswith("C-") else key.encode()


def begun(is_vi):
    """Return copy mode at a word, with a selection, a mark, a jump and a search text."""
    mode = mode_of(TEXT, is_vi, SIZE)
    mode.view.go((31, 8))
    mode.view.want_column()
    mode.view.selection = Selection((31, 5))
    mode.view.follow()
    mode.mark, mode.sought, mode.jump = (3, 1), "alpha", ("f", "e")
    return mode


def state_of(mode):
    """Return the state that a key may change, each part in words."""
    view, selection = mode.view, mode.view.selection
    return ["at {} {}".format(*view.position), f"top {view.top[0]}",
            "selects from {} {}".format(*selection.begin) if selection else "selects nothing", "block" if view.is_block else "",
            f"prompt {mode.prompt.line()}" if mode.prompt else "", f"awaits {mode.awaits}", f"count {mode.count.digits}",
            "mark {} {}".format(*mode.mark), f"seeks {mode.sought} {'back' if mode.is_back else 'on'}"]


def asked_in(wish):
    """Return in words the effect of a key."""
    text = f" {wish.text.gather().decode()!r}" if wish.text else ""
    return f"asks {wish.word}{text}{' and leaves' * wish.leaves}{' behind the newest' * wish.appends}"


def effect_of(is_vi, key):
    """Return in words the changes by a key."""
    mode = begun(is_vi)
    before = state_of(mode)
    for one in copy_keys(bytes_of(key)):
        answer_all(mode, lambda one=one: mode.take(one))
    changed = [after for after, word in zip(state_of(mode), before) if after != word]
    return "; ".join([*changed, *map(asked_in, mode.asked)])


class CopyKeys(unittest.TestCase):
    """Each key of both tables."""

    def test_effects(self):
        """Each key changes exactly this."""
        for is_vi, rows in ((True, VI_ROWS), (False, EMACS_ROWS)):
            for key, _, effect in rows:
                self.assertEqual(effect_of(is_vi, key), effect, (is_vi, key))

    def test_commands(self):
        """Each key of a table has a row, with the command that tmux binds to it."""
        for table, rows in ((VI, VI_ROWS), (EMACS, EMACS_ROWS)):
            found = {one.name: command for key, command, _ in rows for one in copy_keys(bytes_of(key)) if command}
            self.assertEqual(found, table)

    def test_counts(self):
        """A digit begins a count, with emacs keys after Meta; 0 begins none."""
        for digit in "123456789":
            self.assertEqual([effect_of(True, digit), effect_of(False, f"M-{digit}")], [f"count {digit}"] * 2)
            self.assertEqual(effect_of(False, digit), "")
        self.assertEqual(effect_of(False, "M-0"), "")

    def test_page(self):
        """Each key of the page's table has a row, with a command of its line, and each command is in a line with its keys."""
        table = re.search(r"^\.SH COPY MODE\n.*?^ \| vi \| emacs\n(.*?)^\.TE", MAN.read_text(encoding="utf-8"), re.MULTILINE | re.DOTALL)[1]
        lines = [[cell.strip() for cell in line.split(" | ")] for line in table.splitlines()]
        self.assertEqual([line[0] for line in lines], list(PAGE))
        for column, rows in ((1, VI_ROWS), (2, EMACS_ROWS)):
            commands = {key.lower() if len(key) > 3 else key: command for key, command, _ in rows}
            for line in lines:
                cell = re.sub(r"(?<=.),(?= )|\band\b", "", line[column].replace("arrows", "Left Right Up Down"))
                keys = [key.lower() if len(key) > 3 else key for key in cell.split()]
                self.assertEqual([key for key in keys if commands.get(key) not in PAGE[line[0]]], [], line)
                missing = {command for command in commands.values() if command in PAGE[line[0]]} - {commands[key] for key in keys}
                self.assertEqual(missing, set(), line)
