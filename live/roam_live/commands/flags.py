"""The flags of a command, in getopt's form, and its words."""
from __future__ import annotations

from roam_live.common.text import printable

TYPE_CHECKING = False
if TYPE_CHECKING:
    from collections.abc import Sequence


class BadCommand(Exception):
    """A command that is not possible, with the reason in words."""


class Flags:
    """The flags of a command, with the values of some, and the words after them.

    `known` has a letter for each flag, and a colon behind one with a value. A value may be missing at the end, as in tmux.
    """

    def __init__(self, words: Sequence[str], known: str) -> None:
        self.found: dict[str, str] = {}
        # The values of flags that may be repeated.
        self.values: dict[str, list[str]] = {}
        valued = {known[place - 1] for place, letter in enumerate(known) if letter == ":"}
        rest = list(words)
        while rest and len(rest[0]) > 1 and rest[0][0] == "-" and rest[0] != "--":
            word = rest.pop(0)
            for place, flag in enumerate(word[1:], 2):
                if flag not in known or flag == ":":
                    raise BadCommand(f"unknown flag -{printable(flag)}")
                if flag not in valued:
                    self.found[flag] = ""
                    continue
                if word[place:] or rest:
                    self.values.setdefault(flag, []).append(word[place:] or rest.pop(0))
                self.found[flag] = self.values.get(flag, [""])[-1]
                break
        self.words = rest[1:] if rest[:1] == ["--"] else rest

    def demand_words(self, most: int = 0) -> None:
        """Refuse more words than this, so that none is silently ignored."""
        if len(self.words) > most:
            raise BadCommand(f"unexpected word {printable(self.words[most])[:40]}")

    def has(self, flag: str) -> bool:
        """Return True if a flag is set."""
        return flag in self.found

    def value(self, flag: str) -> str | None:
        """Return the last value of a flag; None without one."""
        return self.values[flag][-1] if flag in self.values else None

    def number(self, text: str, default: int, most: int) -> int:
        """Return a number among these words."""
        if not text:
            return default
        if not (text.isascii() and text.isdigit() and 0 < int(text[:9]) <= most):
            raise BadCommand(f"{printable(text)[:40]} is not a number from 1 to {most}")
        return int(text)


def parted(words: Sequence[str]) -> list[list[str]]:
    """Return the commands between words `;`. A word that ends with `;` ends a command too; `\\;` there is the character."""
    found: list[list[str]] = [[]]
    for word in words:
        ends = word.endswith(";") and not word.endswith("\\;")
        text = word[:-1] if ends else word[:-2] + ";" if word.endswith("\\;") else word
        if text or not ends:
            found[-1].append(text)
        if ends:
            found.append([])
    return [command for command in found if command]
