"""Text for terminals and logs, made printable."""
from __future__ import annotations

import codecs

# At most this many bytes of a command's standard error are passed on.
SAID_LIMIT = 1 << 16


def printable(text: str) -> str:
    """Return the text with a `?` for each unprintable character.

    Those are controls, line ends, format characters such as those for the writing direction, and invalid ones.
    """
    return text if text.isprintable() else "".join(letter if letter.isprintable() else "?" for letter in text)


def decimal_in(word: str, most: int) -> int | None:
    """Return the number from 0 to `most` in a word, in decimal digits without leading zeros; None if it is invalid."""
    is_number = word.isascii() and word.isdigit() and len(word) <= len(str(most)) and (word[0] != "0" or word == "0")
    return int(word) if is_number and int(word) <= most else None


def one_line(text: object) -> str:
    """Return a text's lines as one printable line."""
    return printable("; ".join(filter(None, (line.strip() for line in str(text).splitlines()))))


class Said:
    """The output of another program as it arrives in chunks: printable lines, up to a limit."""

    def __init__(self, limit: int = SAID_LIMIT) -> None:
        self.decoder = codecs.getincrementaldecoder("utf-8")("replace")
        self.limit = self.left = limit

    def fed(self, chunk: bytes) -> str:
        """Return the printable part of a chunk. Past the limit, one line reports the cut, and nothing follows it."""
        if self.left < 0:
            return ""
        shown = self.decoder.decode(chunk[: self.left]).replace("\r", "").replace("\t", " ")
        self.left -= len(chunk)
        lines = "\n".join(map(printable, shown.split("\n")))
        return lines if self.left >= 0 else f"{lines}\n[output limited to {self.limit} bytes]\n"
