"""The syntax of a settings file, as in tmux: the parser of commands, the options, and their types."""
from __future__ import annotations

import bisect
import os

from roam_live.common.named_fields import NamedFields
from roam_live.common.text import printable
from roam_live.config.environment import CLIPBOARD, MOST_ROWS, PREDICTION, PREFIXES
from roam_live.input.key_names import named, named_key

TYPE_CHECKING = False
if TYPE_CHECKING:
    from collections.abc import Callable, Iterator
    from typing import Union

    # A part of a command: a text, or a block of commands between braces.
    Word = Union[str, "Block"]
    Value = Union[str, int]

# Limits: the nesting of blocks, and the characters of a word.
DEEPEST = 20
LONGEST_WORD = 1 << 16

# The single-letter escapes. Others are three octal digits, \u with four hexadecimal digits, and \U with eight.
ESCAPES = {"a": "\a", "b": "\b", "e": "\x1b", "f": "\f", "s": " ", "v": "\v", "r": "\r", "n": "\n", "t": "\t"}
HEXADECIMAL = "0123456789abcdefABCDEF"
NAMED = "abcdefghijklmnopqrstuvwxyzABCDEFGHIJKLMNOPQRSTUVWXYZ0123456789_"


class BadWord(Exception):
    """An invalid or unsupported command, with the reason in words. A parse error may have its line."""

    line = 0


def bad_word(words: str, line: int) -> BadWord:
    """Return the parse error for the text from a line on."""
    fault = BadWord(words)
    fault.line = line
    return fault


class Block(NamedFields):
    """Commands between braces."""

    commands: list[FileCommand]


class FileCommand(NamedFields):
    """A command: its line number and words; for a condition, the word that begins with `%` and the rest."""

    line: int
    words: list[Word]
    is_condition: bool = False


class SettingsReader:
    """Parses a text into commands.

    A parse error is reported with its line, and skips the rest of that line. An unclosed brace ends the text.
    """

    def __init__(self, text: str, environment: dict[str, str], tells: Callable[[int, str], object]) -> None:
        self.environment, self.tells = environment, tells
        self.text, self.places, self.lines = joined(text)
        self.at = 0

    def line(self) -> int:
        """Return the number of the current line."""
        return self.lines[bisect.bisect_right(self.places, self.at) - 1]

    def next(self) -> str:
        """Return the next character, nothing at the end."""
        return self.text[self.at : self.at + 1]

    def commands(self, depth: int = 0) -> Iterator[FileCommand]:
        """Yield the commands up to the end, or to the brace of a block. Each is parsed after the previous ones ran, since they set
        variables.
        """
        while self.next():
            try:
                if self.next() == "}" and depth:
                    break
                command = self.command(depth)
            except BadWord as fault:
                if depth:
                    raise
                self.tells(fault.line or self.line(), str(fault))
                self.skip_line()
                continue
            if command.words:
                yield command

    def command(self, depth: int) -> FileCommand:
        """Return the command that begins here, up to a separator or the line's end, which are skipped."""
        self.skip_blanks()
        line, words = self.line(), list["Word"]()
        while self.next() not in ("", "\n", ";") and not (depth and self.next() == "}"):
            if self.next() == "#":
                self.skip_line()
                return FileCommand(line, words)
            if not words and self.text.startswith("%", self.at):
                return self.condition(line)
            words.append(self.word(depth))
            self.skip_blanks()
        self.at += self.next() in ("\n", ";")
        return FileCommand(line, words)

    def condition(self, line: int) -> FileCommand:
        """Return a line that begins, continues or ends a condition: its word, and the rest unparsed."""
        begin = self.at
        self.skip_line()
        word, _, rest = self.text[begin : self.at].strip().partition(" ")
        return FileCommand(line, [word, rest.strip()], True)

    def skip_blanks(self) -> None:
        """Skip blanks."""
        while self.next() in (" ", "\t", "\r") and self.next():
            self.at += 1

    def skip_line(self) -> None:
        """Go to the next line."""
        end = self.text.find("\n", self.at)
        self.at = len(self.text) if end < 0 else end + 1

    def word(self, depth: int) -> Word:
        """Return the word that begins here."""
        if self.next() == "{" and self.text[self.at + 1 : self.at + 2] in ("", " ", "\t", "\n"):
            return self.block(depth + 1)
        begin, parts, length = self.at, list[str](), 0
        while self.next() not in ("", " ", "\t", "\r", "\n", ";") and not (depth and self.next() == "}"):
            part = self.part(is_first=self.at == begin)
            parts.append(part)
            length += len(part)
            if length > LONGEST_WORD:
                raise BadWord("a word is too long")
        return "".join(parts)

    def block(self, depth: int) -> Block:
        """Return the block that begins here."""
        if depth > DEEPEST:
            raise BadWord("braces are nested too deep")
        line = self.line()
        self.at += 1
        commands = list(self.commands(depth))
        if self.next() != "}":
            raise bad_word("a brace is not closed", line)
        self.at += 1
        return Block(commands)

    def part(self, is_first: bool) -> str:
        """Return one part of a word: an unquoted character, an escape or variable, or a quoted part."""
        letter = self.next()
        if letter == "'":
            end = self.text.find("'", self.at + 1)
            if end < 0:
                raise BadWord("a quote is not closed")
            begin, self.at = self.at + 1, end + 1
            return self.text[begin:end]
        if letter == '"':
            return self.quoted()
        if letter == "~" and is_first:
            return self.home()
        return self.plain()

    def plain(self) -> str:
        """Return a character, or the value of an escape or a variable."""
        letter = self.next()
        self.at += 1
        return self.escape() if letter == "\\" else self.variable() if letter == "$" else letter

    def quoted(self) -> str:
        """Return the text between double quotes."""
        begin, parts = self.at, list[str]()
        self.at += 1
        while self.next() != '"':
            if not self.next():
                self.at = begin
                raise BadWord("a quote is not closed")
            parts.append(self.plain())
        self.at += 1
        return "".join(parts)

    def escape(self) -> str:
        """Return the character of an escape. Any other character after a backslash is itself."""
        digits = self.text[self.at : self.at + 3]
        if len(digits) == 3 and all(digit in "01234567" for digit in digits):
            self.at += 3
            return chr(int(digits, 8))
        letter = self.next()
        self.at += 1
        count = {"u": 4, "U": 8}.get(letter)
        if not count:
            return ESCAPES.get(letter, letter)
        begin = self.at
        while self.at < begin + count and self.next() in HEXADECIMAL and self.next():
            self.at += 1
        code = self.text[begin : self.at]
        if len(code) < count or int(code, 16) > 0x10FFFF or 0xD800 <= int(code, 16) < 0xE000:
            raise BadWord(f"\\{letter}{code} is no character")
        return chr(int(code, 16))

    def variable(self) -> str:
        """Return the value of an environment variable; nothing if it is unset."""
        is_braced = self.next() == "{"
        self.at += is_braced
        begin = self.at
        while self.next() and self.next() in NAMED:
            self.at += 1
        name = self.text[begin : self.at]
        if is_braced and self.next() != "}" or not name and is_braced:
            raise BadWord("a variable's name is not closed")
        self.at += is_braced
        return self.environment.get(name, "") if name else "$"

    def home(self) -> str:
        """Return the home of this user, or of a named one."""
        begin = self.at
        while self.next() and self.next() not in " \t\r\n;/\"'":
            self.at += 1
        name = self.text[begin : self.at]
        return self.environment.get("HOME") or os.path.expanduser("~") if name == "~" else os.path.expanduser(name)


def joined(text: str) -> tuple[str, list[int], list[int]]:
    """Return a text with its continued lines joined, the offsets of its lines in the result, and their numbers."""
    parts, places, lines, length = list[str](), list[int](), list[int](), 0
    for number, line in enumerate(text.split("\n"), 1):
        places.append(length)
        lines.append(number)
        goes_on = (len(line) - len(line.rstrip("\\"))) % 2 == 1
        parts.append(line[:-1] if goes_on else line + "\n")
        length += len(parts[-1])
    return "".join(parts), places, lines


# ---- keys


def key_named(name: str) -> str:
    """Return the canonical name of a key with this tmux name."""
    key = named_key(name)
    if not key:
        raise BadWord(f"{printable(name)[:40]} is not a known key")
    return named(key)


# ---- options


def one_of(*choices: str) -> Callable[[str], Value]:
    """Return the check of an option with these choices."""
    def check(value: str) -> Value:
        if value not in choices:
            raise BadWord(f"may be {', '.join(choices[:-1])} or {choices[-1]}")
        return value
    return check


def number_to(most: int) -> Callable[[str], Value]:
    """Return the check of an option that is a number from 0 to the most."""
    def check(value: str) -> Value:
        if not (value.isascii() and value.isdigit() and len(value) <= len(str(most)) and int(value) <= most):
            raise BadWord(f"may be 0 to {most}")
        return int(value)
    return check


def switch(value: str) -> Value:
    """Check an option that is on or off."""
    known = {"on": "on", "yes": "on", "1": "on", "off": "off", "no": "off", "0": "off"}.get(value.lower())
    if not known:
        raise BadWord("may be on or off")
    return known


def text(value: str) -> Value:
    """Check an option that is any printable text."""
    if len(value) > 1000 or printable(value) != value:
        raise BadWord("may have at most 1,000 printable characters")
    return value


def prefix(value: str) -> Value:
    """Check the prefix."""
    found = next((name for name in PREFIXES if key_named(name) == key_named(value)), "")
    if not found:
        raise BadWord("may be C-a to C-z, C-], C-\\, C-^ or C-_")
    return found


OPTIONS: dict[str, Callable[[str], Value]] = {
    "prefix": prefix, "mouse": switch, "history-limit": number_to(MOST_ROWS), "status": switch, "status-left": text,
    "status-right": text, "status-interval": number_to(86400), "set-clipboard": one_of(*CLIPBOARD),
    "window-size": one_of("largest", "latest"), "mode-keys": one_of("vi", "emacs"), "default-command": text,
    "escape-time": number_to(10000), "predict": one_of(*PREDICTION), "synchronize-panes": switch,
    "extended-keys": one_of("on", "always", "off"),
}
SWITCHES = {"mouse", "status", "synchronize-panes"}
TEXTS = {"status-left", "status-right", "default-command"}
