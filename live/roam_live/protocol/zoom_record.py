"""The record of a zoom at the pty host: the size that the session gets back.

So the size returns even if the front end that zoomed was killed.
"""
from __future__ import annotations

from roam_live.common.named_fields import NamedFields
from roam_live.common.tty import MOST
from roam_live.protocol.presence import MOST_NUMBER, number_in

TYPE_CHECKING = False
if TYPE_CHECKING:
    from roam_live.common.tty import Size

# The word by which a terminal reports its zoom, the word for a reported zoom with its front end, and the report of none.
ZOOM, ZOOMED = "zoom", "zoomed"
NONE = "none"
NO_ZOOM = f"{ZOOMED} {NONE}"

# The most size requests of one zoom.
MOST_ASKED = 8

# Seconds after which a session, even on a busy machine, has taken the last input of a front end that zoomed and left. Then the seconds
# after which its input has no more effect.
LEFT = 2.0
OVER = 10.0


class ZoomNote(NamedFields):
    """The size that a session gets back, and the sizes that the zoom requested, in order."""

    size: Size
    asked: tuple[Size, ...]

    def __str__(self) -> str:
        return " ".join("{} {}".format(*size) for size in (self.size, *self.asked))


def note_in(words: list[str]) -> ZoomNote | None:
    """Return the note in these words; None if they are invalid."""
    numbers = [number_in(word, MOST[place % 2]) for place, word in enumerate(words)]
    if len(words) % 2 or not 2 <= len(words) // 2 <= MOST_ASKED + 1 or not all(numbers):
        return None
    sizes = list(zip(numbers[::2], numbers[1::2]))
    return ZoomNote(sizes[0], tuple(sizes[1:]))


def zoomed_in(words: list[str]) -> tuple[int, ZoomNote | None] | None:
    """Return the front end of a zoom, 0 once it has left, with its note, or None for no zoom; None if the words are invalid."""
    if words == [NONE]:
        return 0, None
    note, maker = note_in(words[1:]), number_in(words[0], MOST_NUMBER) if words else 0
    return (maker, note) if note and (maker or words[0] == "0") else None
