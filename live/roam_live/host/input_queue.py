"""The queue of input for a pane's programs: bytes, and texts at the positions of their placeholders."""
from __future__ import annotations

from collections import deque

from roam_live.common.io import UNREAD_LIMIT, keep, write
from roam_live.common.patterns import LazyPattern
from roam_live.host.state import PendingPaste
from roam_live.host.uploads import PendingPastes
from roam_live.protocol.paste_text import CLOSES

TYPE_CHECKING = False
if TYPE_CHECKING:
    from collections.abc import Callable

# A placeholder: APC, a name and ST, as U+009F and U+009C in UTF-8; and the start of one at the end of the input.
PLACEHOLDER = LazyPattern(rb"\xc2\x9f([0-9a-f]{16})\xc2\x9c")
BEGUN = LazyPattern(rb"\xc2(?:\x9f(?:[0-9a-f]{0,16}|[0-9a-f]{16}\xc2))?\Z")
LONGEST_BEGUN = 19

INTERRUPT = b"\x03"


class Placeholders:
    """Finds placeholders in the input, however it is cut into chunks."""

    def __init__(self) -> None:
        self.rest = b""

    def fed(self, typed: bytes) -> list[bytes]:
        """Return the bytes before, between and after placeholders, with their names in between: every second part is a name.

        A possible start of a placeholder at the end waits for more.
        """
        if not self.rest and b"\xc2" not in typed:
            return [typed]
        text, self.rest = self.rest + typed, b""
        parts: list[bytes] = PLACEHOLDER.split(text)
        begun = BEGUN.search(parts[-1], max(0, len(parts[-1]) - LONGEST_BEGUN))
        if begun:
            self.rest, parts[-1] = begun[0], parts[-1][: begun.start()]
        return parts


class TypedQueue:
    """The input queue of a pane's programs, in typed order, with each text whole."""

    def __init__(self, texts: PendingPastes, wants_brackets: Callable[[], object]) -> None:
        self.texts, self.wants_brackets = texts, wants_brackets
        self.placeholders = Placeholders()
        self.parts: deque[bytearray | PendingPaste] = deque()
        # The number of waiting bytes that were typed as such.
        self.typed = 0
        # True if part of a pasted text was written since the last interrupt, and if it was bracketed; the number of typed bytes that were
        # written behind it. `drops_unread` flushes the terminal if more bytes than these are unread, and returns True if it did.
        self.is_pasted = self.is_bracketed = False
        self.behind = 0
        self.drops_unread: Callable[[int], bool] = lambda behind: False

    def __bool__(self) -> bool:
        return bool(self.parts)

    def __len__(self) -> int:
        return self.typed + sum(len(part.data) for part in self.parts if isinstance(part, PendingPaste))

    def waits_for_more(self) -> bool:
        """Return True if texts or typed bytes wait here, or the start of a placeholder."""
        return bool(self.parts or self.placeholders.rest)

    def is_meant(self, typed: bytes) -> bool:
        """Return True if input may have a placeholder, or an interrupt that drops the unread part of a text."""
        return b"\xc2" in typed or self.is_pasted and INTERRUPT in typed

    def take(self, typed: bytes, before: int = 0) -> bool:
        """Queue input behind `before` unread bytes, with texts at the positions of their placeholders. Return True if all of it fits.

        The placeholder of an unknown text is dropped.
        """
        is_kept = True
        for place, part in enumerate(self.placeholders.fed(typed)):
            if place % 2:
                self.place(part.decode())
            elif part:
                is_kept = self.add(part, before) and is_kept
        return is_kept

    def place(self, name: str) -> None:
        """Insert the text of a name here."""
        text = self.texts.placed(name)
        if text:
            self.parts.append(text)

    def add(self, typed: bytes, waiting: int = 0) -> bool:
        """Queue bytes up to the limit, less those that wait elsewhere, and return True if all fit. An interrupt drops the unread part of
        earlier texts."""
        if INTERRUPT in typed:
            typed = self.interrupted(typed)
        if not self.parts or not isinstance(self.parts[-1], bytearray):
            self.parts.append(bytearray())
        last = self.parts[-1]
        assert isinstance(last, bytearray)
        before = len(last)
        is_kept = keep(last, typed, UNREAD_LIMIT - waiting - self.typed + before)
        self.typed += len(last) - before
        if not last:
            self.parts.pop()
        return is_kept

    def interrupted(self, typed: bytes) -> bytes:
        """Return what to type for bytes with an interrupt (C-c) in them.

        If the program has read all pasted texts, that is the bytes themselves. Otherwise the unread texts are dropped, with all keys
        between and behind them, and only the interrupts and what follows them are typed. A closing bracket comes first if a flush may
        have dropped it.
        """
        is_dropped = self.is_pasted and self.drops_unread(self.behind)
        first = next((place for place, part in enumerate(self.parts) if isinstance(part, PendingPaste)), len(self.parts))
        if first == len(self.parts) and not is_dropped:
            self.is_pasted = self.is_bracketed = False
            return typed
        closes = CLOSES if is_dropped and self.is_bracketed and self.wants_brackets() else b""
        self.is_pasted = self.is_bracketed = False
        begun = self.parts[0] if self.parts and not is_dropped else None
        if isinstance(begun, PendingPaste) and begun.has_begun:
            # Its closing bracket is still typed, and the rest of a character.
            begun.stop()
            self.texts.drop(begun)
            first = 1
        self.drop_from(0 if is_dropped else first)
        return closes + INTERRUPT * typed.count(INTERRUPT) + typed.rpartition(INTERRUPT)[2]

    def drop_from(self, place: int) -> None:
        """Drop the parts of the queue from an index on."""
        while len(self.parts) > place:
            part = self.parts.pop()
            if isinstance(part, PendingPaste):
                part.stop()
                self.texts.drop(part)
            else:
                self.typed -= len(part)

    def write(self, end: int) -> None:
        """Write as much as the programs accept now. If the terminal is gone, drop the rest."""
        part = self.parts[0] if self.parts else bytearray()
        if isinstance(part, PendingPaste) and not (part.has_begun or part.is_over):
            part.begin(bool(self.wants_brackets()))
        waiting = part if isinstance(part, bytearray) else part.data
        before = len(waiting)
        if waiting and not write(end, waiting):
            self.clear()
            return
        self.note_written(part, before - len(waiting))
        if len(waiting) < before:
            self.renew()
        if self.parts and not waiting:
            self.end_first()

    def note_written(self, part: bytearray | PendingPaste, count: int) -> None:
        """Count bytes of a part that were written to the terminal."""
        if isinstance(part, bytearray):
            self.typed -= count
            self.behind += count
        elif count:
            part.typed += count
            self.is_pasted, self.behind = True, 0
            self.is_bracketed = self.is_bracketed or part.is_bracketed

    def renew(self) -> None:
        """Extend the wait of texts, since the programs read."""
        for part in self.parts:
            if isinstance(part, PendingPaste):
                self.texts.renew(part)

    def end_first(self) -> None:
        """Continue after the part that is wholly written."""
        part = self.parts.popleft()
        if isinstance(part, PendingPaste):
            self.texts.drop(part)

    def clear(self) -> None:
        """Drop everything, since the pane is gone."""
        while self.parts:
            self.end_first()
        self.typed, self.placeholders = 0, Placeholders()
        self.is_pasted = self.is_bracketed = False
