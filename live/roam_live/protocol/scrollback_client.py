"""Requests for scrollback rows and paste buffers of the pty host.

Each goes over the front end's connection, with a call for the answer.
"""
from __future__ import annotations

from roam_live.common.io import LineReader, LongLine
from roam_live.common.named_fields import NamedFields
from roam_live.common.text import decimal_in
from roam_live.protocol.host_lines import (BACK, BAD_LINE, COUNT, FIND, FOUND, MORE, MOST_NUMBER, MOST_ROWS, NONE, ON, RELEASE, ROWS,
                                           SESSION, SNAPSHOT, parted)

TYPE_CHECKING = False
if TYPE_CHECKING:
    from collections.abc import Callable
    from typing import Union

    # Called with the words of an answer and the data after it; None if there is no answer.
    Told = Callable[[Union["Answer", None]], object]

# The words of requests about buffers, and of their answers.
BUFFER, BUFFERS, ADD, LIST, SHOW = "buffer", "buffers", "add", "list", "show"

# The data of an answer is shorter: a screen of 200 rows and 500 columns takes less, whatever its styles. A list has fewer lines.
MOST_ANSWER = 1 << 24
MOST_LISTED = 64

# A search text has fewer bytes, since it is part of a line, and the host accepts lines up to 256.
MOST_SOUGHT = 180


class BadAnswer(Exception):
    """An invalid answer from a host."""


class Snapshot(NamedFields):
    """A pane's rows at one moment: scrollback rows `first` to `end` exclusive, and the screen's rows from `end` on, which it includes.

    Each row begins with a space, or with `+` if it is soft-wrapped into the next.
    """

    pane: int
    generation: int
    first: int
    end: int
    screen: list[bytes]


class BufferNote(NamedFields):
    """A buffer: its number, its length in bytes, and its first characters."""

    number: int
    length: int
    sample: str


class Answer:
    """An answer: its window, its words, the data after them, and the lines of a list."""

    def __init__(self, words: list[str], window: int = SESSION) -> None:
        self.words, self.window = words, window
        self.data = b""
        self.lines: list[str] = []

    def number(self, place: int) -> int:
        """Return a word as a number; BadAnswer if it is none."""
        return number_at(self.words, place)


def number_at(words: list[str], place: int) -> int:
    """Return a word as a number of at most fifteen digits; BadAnswer if it is none."""
    number = decimal_in(words[place], MOST_NUMBER) if len(words) > place else None
    if number is None:
        raise BadAnswer(" ".join(words)[:80])
    return number


def rows_in(data: bytes) -> list[bytes]:
    """Return the rows in an answer's data, each without its LF."""
    return data.split(b"\n")[:-1]


class AnswerReader:
    """Splits a host's output into lines, some with data or more lines after them."""

    # The words of answers with data, and their number of words, the last of which is the length.
    LENGTHS = {ROWS: 6, SNAPSHOT: 7}

    def __init__(self) -> None:
        self.came = LineReader()
        # The incomplete answer, and the number of missing bytes, or lines.
        self.answer: Answer | None = None
        self.missing = self.lines_missing = 0

    def fed(self, chunk: bytes) -> list[Answer]:
        """Return the complete answers; BadAnswer if a line or its data exceeds the limits."""
        self.came.kept += chunk
        found: list[Answer] = []
        try:
            while (answer := self.next()) is not None:
                found.append(answer)
        except LongLine as fault:
            raise BadAnswer(str(fault)) from fault
        return found

    def next(self) -> Answer | None:
        """Return the next complete answer."""
        answer = self.answer = self.answer or self.begun()
        while answer and self.lines_missing:
            line = self.came.line()
            if line is None:
                return None
            answer.lines.append(line.decode("utf-8", "replace"))
            self.lines_missing -= 1
        if answer and self.missing:
            data = self.came.data(self.missing)
            if data is None:
                return None
            answer.data, self.missing = data, 0
        self.answer = None
        return answer

    def begun(self) -> Answer | None:
        """Return the answer that the next line begins."""
        told = self.came.line()
        if told is None:
            return None
        number, line = parted(told.decode("utf-8", "replace"))
        if number is None:
            raise BadAnswer(line[:80])
        words = line.split(" ")
        if len(words) == self.LENGTHS.get(words[0]) and words[3] != NONE or words[:2] == [BUFFER, SHOW] and words[3:] != [NONE]:
            self.missing = number_at(words, len(words) - 1)
        elif words[0] == BUFFERS:
            self.lines_missing = number_at(words, 1)
        if self.missing > MOST_ANSWER or self.lines_missing > MOST_LISTED:
            raise BadAnswer("an answer is longer than any")
        return Answer(words, number)


class ScrollbackClient:
    """The requests of a front end. Each call sends a line and data, and returns True if a host is connected."""

    def __init__(self, ask: Callable[[str, bytes], bool]) -> None:
        self.ask = ask
        self.on_more: Callable[[int, int, int], object] = lambda pane, generation, count: None
        # The open requests in the order of their answers: the answer's word, and the call.
        self.asked: list[tuple[str, Told]] = []
        # The reason in the last answer without rows.
        self.refusal = ""

    # ---- requests

    def count(self, pane: int, generation: int, told: Callable[[tuple[int, int] | None], object]) -> None:
        """Request the numbers of the first stored row and of the end."""
        self.put(f"{COUNT} {pane} {generation}", COUNT, lambda answer: told((answer.number(3), answer.number(4)) if answer else None))

    def rows(self, pane: int, generation: int, first: int, count: int, told: Callable[[int, list[bytes]], object]) -> None:
        """Request rows by number. The callback gets the number of the first available one, and the rows, possibly fewer."""

        def take(answer: Answer | None) -> None:
            if answer:
                told(answer.number(3), rows_in(answer.data))
            else:
                told(first, [])

        self.put(f"{ROWS} {pane} {generation} {max(0, first)} {min(count, MOST_ROWS)}", ROWS, take)

    def find(self, pane: int, generation: int, first: int, back: bool, text: str, told: Callable[[int | None], object]) -> None:
        """Request the next row after `first`, or before it, in which a match begins. Case counts if the text has a capital.

        No row contains a control character, and no text may be longer than a line permits.
        """
        if not text.isprintable() or not text or len(text.encode("utf-8", "replace")) > MOST_SOUGHT:
            told(None)
            return
        line = f"{FIND} {pane} {generation} {max(0, first)} {BACK if back else ON} {text}"
        self.put(line, FOUND, lambda answer: told(answer.number(3) if answer else None))

    def snapshot(self, pane: int, generation: int, told: Callable[[Snapshot | None], object]) -> None:
        """Request a snapshot of a pane; this end has one at a time."""

        def take(answer: Answer | None) -> None:
            told(Snapshot(pane, generation, answer.number(3), answer.number(4), rows_in(answer.data)) if answer else None)

        self.put(f"{SNAPSHOT} {pane} {generation}", SNAPSHOT, take)

    def release(self, pane: int, generation: int) -> None:
        """Release a snapshot."""
        self.ask(f"{RELEASE} {pane} {generation}", b"")

    def add_buffer(self, text: bytes, told: Callable[[int | None], object]) -> None:
        """Add a paste buffer. The callback gets its number, or None if it was refused."""
        self.put(f"{BUFFER} {ADD} {len(text)}", BUFFER, lambda answer: told(answer.number(2) if answer else None), text)

    def buffers(self, told: Callable[[list[BufferNote] | None], object]) -> None:
        """Request the list of buffers, the newest first."""
        self.put(f"{BUFFER} {LIST}", BUFFERS, lambda answer: told([note_in(line) for line in answer.lines] if answer else None))

    def buffer(self, number: int, told: Callable[[bytes | None], object]) -> None:
        """Request the bytes of a buffer."""
        self.put(f"{BUFFER} {SHOW} {number}", BUFFER, lambda answer: told(answer.data if answer else None))

    def put(self, line: str, word: str, told: Told, data: bytes = b"") -> None:
        """Send a request and record its callback; call it with None at once if no host is connected."""
        if self.ask(line, data):
            self.asked.append((word, told))
        else:
            told(None)

    # ---- answers

    def take(self, answer: Answer) -> bool:
        """Take a host's answer, and return True if it belongs here; BadAnswer if it is invalid."""
        words = answer.words
        if words[0] == MORE:
            self.on_more(*(number_at(words, place) for place in (1, 2, 3)))
            return True
        is_refusal = " ".join(words) == BAD_LINE
        if not self.asked or not is_refusal and words[0] not in (COUNT, ROWS, FOUND, SNAPSHOT, BUFFER, BUFFERS):
            return is_refusal
        word, told = self.asked.pop(0)
        if not is_refusal and word != words[0]:
            raise BadAnswer(f"{words[0]} is not the answer to the request")
        is_none = NONE in words[2:4]
        self.refusal = " ".join(words[4:]) if is_none else ""
        told(None if is_refusal or is_none else answer)
        return True

    def forget(self) -> None:
        """Forget the host: no open request gets an answer."""
        asked, self.asked = self.asked, []
        for _, told in asked:
            told(None)


def note_in(line: str) -> BufferNote:
    """Return the buffer of a line in a list."""
    words = line.split(" ", 2)
    return BufferNote(number_at(words, 0), number_at(words, 1), words[2] if len(words) > 2 else "")
