"""The keys of copy mode, as in tmux's tables copy-mode and copy-mode-vi: the command of each, by tmux's names."""
from __future__ import annotations

from roam_live.frontend.line_editor import AskedLine
from roam_live.protocol.scrollback_client import MOST_SOUGHT

# The Escape key, which also precedes a key typed with Meta.
ESCAPE = "\x1b"
META = "M-"

# The keys in both tables.
BOTH = {
    "\x03": "cancel", "q": "cancel", "up": "cursor-up", "down": "cursor-down", "left": "cursor-left", "right": "cursor-right",
    "prev": "page-up", "next": "page-down", "C-up": "scroll-up", "C-down": "scroll-down", "find": "start-of-line", "select": "end-of-line",
    ",": "jump-reverse", ";": "jump-again", "f": "jump f", "F": "jump F", "t": "jump t", "T": "jump T", "n": "search-again",
    "N": "search-reverse", "X": "set-mark", "M-x": "jump-to-mark", "r": "refresh-from-pane", "y": "copy-selection",
}

EMACS = {
    **BOTH,
    "\x00": "begin-selection", "\x01": "start-of-line", "\x02": "cursor-left", "\x05": "end-of-line", "\x06": "cursor-right",
    "\x07": "clear-selection", "\x0b": "copy-end-of-line-and-cancel", "\x0e": "cursor-down", "\x10": "cursor-up",
    "\x12": "search-backward-incremental", "\x13": "search-forward-incremental", "\x16": "page-down", "\x17": "copy-selection-and-cancel",
    ESCAPE: "cancel", " ": "page-down", "R": "rectangle-toggle", "g": "goto-line", "M-<": "history-top", "M->": "history-bottom",
    "M-R": "top-line", "M-r": "middle-line", "M-b": "previous-word", "M-f": "next-word-end", "M-m": "back-to-indentation",
    "M-v": "page-up", "M-w": "copy-selection-and-cancel", "M-{": "previous-paragraph", "M-}": "next-paragraph",
    "M-up": "halfpage-up", "M-down": "halfpage-down", "M-\x02": "previous-matching-bracket", "M-\x06": "next-matching-bracket",
}

VI = {
    **BOTH,
    "\x02": "page-up", "\x04": "halfpage-down", "\x05": "scroll-down", "\x06": "page-down", "\x08": "cursor-left",
    "\n": "copy-selection-and-cancel", "\r": "copy-selection-and-cancel", "padenter": "copy-selection-and-cancel", "\x15": "halfpage-up",
    "\x16": "rectangle-toggle", "\x19": "scroll-up", ESCAPE: "clear-selection", " ": "begin-selection", "$": "end-of-line",
    "#": "search-backward-word", "*": "search-forward-word", "%": "next-matching-bracket", "/": "search-forward", "?": "search-backward",
    "0": "start-of-line", ":": "goto-line", "A": "append-selection-and-cancel", "B": "previous-space", "D": "copy-end-of-line-and-cancel",
    "E": "next-space-end", "G": "history-bottom", "H": "top-line", "J": "scroll-down", "K": "scroll-up", "L": "bottom-line",
    "M": "middle-line", "V": "select-line", "W": "next-space", "^": "back-to-indentation", "b": "previous-word", "e": "next-word-end",
    "g": "history-top", "h": "cursor-left", "j": "cursor-down", "k": "cursor-up", "l": "cursor-right", "o": "other-end",
    "v": "rectangle-toggle", "w": "next-word", "{": "previous-paragraph", "}": "next-paragraph", "\x7f": "cursor-left",
}

# The highest repeat count.
MOST_COUNT = 9999


def bounded(text: str) -> str:
    """Return the part of a text that may be searched for, since the host limits its length."""
    return text.encode("utf-8", "replace")[:MOST_SOUGHT].decode("utf-8", "ignore")


class Count:
    """The repeat count of the next key, from the digits before it."""

    def __init__(self, is_vi: bool) -> None:
        self.is_vi = is_vi
        self.digits = ""

    def takes(self, name: str) -> bool:
        """Return True if a key is a digit of it. With emacs keys the first one needs Meta, and with vi keys it is no zero."""
        digit = name.removeprefix(META) if not self.is_vi else name
        if len(digit) != 1 or digit not in "0123456789":
            return False
        if not self.digits and (digit == "0" or not self.is_vi and digit == name):
            return False
        self.digits = str(min(int(self.digits + digit), MOST_COUNT))
        return True

    def taken(self) -> int:
        """Return the count, and reset it."""
        digits, self.digits = self.digits, ""
        return int(digits or 1)


class Prompt(AskedLine):
    """A line that a command of copy mode asks for."""

    # The prompt of each command.
    WORDS = {"search-forward": "search down", "search-backward": "search up", "search-forward-incremental": "search down",
             "search-backward-incremental": "search up", "goto-line": "goto line"}

    def __init__(self, command: str, text: str = "") -> None:
        super().__init__(self.WORDS[command], text)
        self.command = command
        self.is_incremental = command.endswith("-incremental")
        self.is_fresh = text != ""

    def bounded(self, text: str) -> str:
        """Return the part of a text that may be searched for."""
        return bounded(text)
