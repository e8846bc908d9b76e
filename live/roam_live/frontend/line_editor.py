"""A line typed in the last row, and the keys that edit it."""
from __future__ import annotations

# The keys that cancel it, and those that accept it.
LEAVES = ("\x1b", "\x03", "\x07")
TAKES = ("\r", "\n", "padenter")


class AskedLine:
    """The purpose of a line, and its text so far."""

    def __init__(self, words: str, text: str = "", most: int = 64) -> None:
        self.words, self.text, self.most = words, text, most
        # True if input replaces the initial text.
        self.is_fresh = False

    def line(self) -> str:
        """Return the visible line."""
        return f"({self.words}) {self.text}"

    def bounded(self, text: str) -> str:
        """Return the part of a text that fits."""
        return text[: self.most]

    def add(self, text: str) -> None:
        """Add typed text, or the first line of a paste."""
        first = text.replace("\r", "\n").split("\n")[0]
        if first.isprintable():
            self.text = self.bounded(("" if self.is_fresh else self.text) + first)
            self.is_fresh = False

    def edit(self, name: str) -> bool:
        """Take an editing key, and return True if it is one."""
        if name in ("\x7f", "\x08"):
            self.text = self.text[:-1]
        elif name == "\x15":
            self.text = ""
        elif name == "\x17":
            self.text = self.text.rstrip()[: self.text.rstrip().rfind(" ") + 1]
        elif len(name) == 1 and name.isprintable():
            self.add(name)
            return True
        else:
            return False
        self.is_fresh = False
        return True
