"""Searches in copy mode: the matches in soft-wrapped rows, and the next one."""
from __future__ import annotations

from roam_live.frontend.copymode.rows import Missing, Position, Rows

# A match: its first position, and the one after its last character.
Match = tuple[Position, Position]

# The most soft-wrapped rows that are joined before one and after it.
MOST_JOINED_ROWS = 64

# At most so many rows reported without a match are skipped.
MOST_PASSED = 32

# The most stored answers.
MOST_ANSWERS = 256


class MissingFind(Missing):
    """The next row with a match, after or before some row, is unknown."""

    def __init__(self, first: int, is_back: bool, text: str) -> None:
        super().__init__(first, is_back, text)
        self.first, self.is_back, self.text = first, is_back, text


class Finds:
    """The reported rows with matches in a snapshot. They stay valid as long as the snapshot exists."""

    def __init__(self) -> None:
        self.told: dict[tuple[int, bool, str], int | None] = {}

    def put(self, asked: MissingFind, row: int | None) -> None:
        """Store an answer."""
        if len(self.told) >= MOST_ANSWERS:
            self.told.clear()
        self.told[asked.first, asked.is_back, asked.text] = row

    def row(self, first: int, is_back: bool, text: str) -> int | None:
        """Return the next row, after or before one, in which a match begins; None if there is none. MissingFind if it is unknown."""
        try:
            return self.told[first, is_back, text]
        except KeyError:
            raise MissingFind(first, is_back, text) from None


def joined(rows: Rows, row: int, is_here: bool) -> tuple[int, int]:
    """Return the first and last of the soft-wrapped rows around one, up to a limit; with `is_here` only rows that are here."""
    first = last = row
    for _ in range(MOST_JOINED_ROWS):
        if first == rows.first or is_here and not rows.has(first - 1) or not rows.goes_on(first - 1):
            break
        first -= 1
    for _ in range(MOST_JOINED_ROWS):
        if is_here and not rows.has(last) or not rows.goes_on(last) or is_here and not rows.has(last + 1):
            break
        last += 1
    return first, last


def matches(rows: Rows, row: int, text: str, is_here: bool = False) -> list[Match]:
    """Return the matches in a row with its soft-wrapped neighbours."""
    if not text:
        return []
    first, last = joined(rows, row, is_here)
    letters: list[str] = []
    positions: list[Position] = []
    for number in range(first, last + 1):
        content = rows.row(number)
        for col, letter in enumerate(content.letters if rows.goes_on(number) else content.letters[: content.length]):
            letters += letter
            positions += [(number, col)] * len(letter)
    whole = "".join(letters)
    if not any(letter.isupper() for letter in text):
        # Case counts if the text has a capital. A character with a longer lower case would shift the text after it, so it stays.
        whole, text = "".join(low if len(low := letter.lower()) == 1 else letter for letter in whole), text.lower()
    found: list[Match] = []
    at = whole.find(text)
    while at >= 0:
        row_of_last, col = positions[at + len(text) - 1]
        behind = col + 1 + rows.row(row_of_last).is_right_half(col + 1)
        found.append((positions[at], (row_of_last, behind)))
        at = whole.find(text, at + len(text))
    return found


def next_match(rows: Rows, finds: Finds, position: Position, text: str, is_back: bool) -> Match | None:
    """Return the match at a position or after it, or the one before it, with wrap-around; None if there is none."""
    near = matches(rows, position[0], text)
    if is_back:
        near = [match for match in near if match[0] < position]
    else:
        near = [match for match in near if match[0] >= position]
    if near:
        return near[-1 if is_back else 0]
    found = far_match(rows, finds, joined(rows, position[0], False)[0 if is_back else 1], text, is_back)
    if found:
        return found
    # From the other end: the first row itself comes after none.
    near = [] if is_back else [match for match in matches(rows, rows.first, text) if match[0][0] == rows.first]
    return near[0] if near else far_match(rows, finds, rows.end if is_back else rows.first, text, is_back)


def far_match(rows: Rows, finds: Finds, row: int | None, text: str, is_back: bool) -> Match | None:
    """Return the next match after a row, or before it.

    A reported row without a match here is skipped, since the host may join rows differently.
    """
    for _ in range(MOST_PASSED):
        row = finds.row(row, is_back, text) if row is not None else None
        if row is None or not rows.first <= row < rows.end:
            return None
        found = [match for match in matches(rows, row, text) if match[0][0] == row]
        if found:
            return found[-1 if is_back else 0]
    return None
