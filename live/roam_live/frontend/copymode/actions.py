"""The effects of copy mode's commands on a snapshot of a pane's rows: cursor moves, searches, selections and copies.

If a row or a search result is unknown, a command raises Missing.
"""
from __future__ import annotations

from collections.abc import Callable

from roam_live.frontend.copymode import motions
from roam_live.frontend.copymode.keys import EMACS, VI, Count, Prompt, bounded
from roam_live.frontend.copymode.rows import Position, Rows
from roam_live.frontend.copymode.search import Finds, Match, matches, next_match
from roam_live.frontend.copymode.selection import CHARACTERS, Columns, CopiedText, Selection, lines_at, word_at
from roam_live.frontend.copymode.viewport import CopyView

NOTHING_FOUND = "{!r} not found"

# The words of a key's other effects: leave, take a new snapshot, or copy a text.
LEAVE, REFRESH, COPY = "leave", "refresh", "copy"


class CopyWish:
    """A key's other effect: a word, and for a copy the text, a flag to leave, and a flag to append to the newest buffer."""

    def __init__(self, word: str, text: CopiedText | None = None, leaves: bool = False, appends: bool = False) -> None:
        self.word, self.text, self.leaves, self.appends = word, text, leaves, appends


class CopyActions:
    """The state of one user's copy mode in one pane, and the effects of its commands."""

    def __init__(self, rows: Rows, height: int, is_vi: bool) -> None:
        self.rows: Rows = rows
        self.is_vi: bool = is_vi
        self.finds = Finds()
        self.view: CopyView = CopyView(rows, height)
        self.table = VI if is_vi else EMACS
        self.count = Count(is_vi)
        # The last jump to a character, and the kind of one whose character comes next.
        self.jump: tuple[str, str] | None = None
        self.awaits = ""
        self.mark: Position | None = None
        # The search text and direction, and a flag to show matches; the current match, and the start of an incremental search.
        self.sought, self.is_back, self.is_marked = "", False, False
        self.match: Match | None = None
        self.origin: tuple[Position, tuple[int, int]] | None = None
        self.prompt: Prompt | None = None
        # The message for the last key. Then the effects since they were last taken.
        self.told = ""
        self.asked: list[CopyWish] = []

    def repeat(self, does: Callable[[], object]) -> None:
        """Repeat an action by the typed count."""
        for _ in range(self.count.taken()):
            before = self.view.top, self.view.position
            does()
            if (self.view.top, self.view.position) == before:
                break

    def block_width(self) -> int | None:
        """Return the columns of a row in a block selection; None in others, which end with the row's text."""
        return self.rows.cols if self.view.is_block and self.view.selection else None

    def word_end(self, position: Position, separators: str) -> Position:
        """Return the end of the word here, or of the next: with vi keys its last character, else the position after it."""
        return motions.last_of_word(self.rows, position, separators) if self.is_vi else motions.word_end(self.rows, position, separators)

    def jumps(self, kind: str, letter: str) -> None:
        """Jump to a character."""
        self.view.go(motions.jumped(self.rows, self.view.position, kind, letter))

    # ---- positions

    def go_to_line(self, text: str) -> None:
        """Show the rows so many above the last, by a typed number."""
        if text.isascii() and text.isdigit():
            self.view.go_back(min(int(text[:9]), self.view.back()[1]))

    def put_mark(self) -> None:
        """Set the mark at the cursor."""
        self.mark = self.view.position

    def go_to_mark(self) -> None:
        """Swap the positions of the cursor and the mark."""
        if self.mark:
            mark, self.mark = self.mark, self.view.position
            self.view.jump(mark)

    # ---- searches

    def ask(self, command: str) -> None:
        """Ask for a line. For an incremental search it begins with the last search text."""
        self.count.taken()
        self.prompt = Prompt(command, self.sought if command.endswith("-incremental") else "")
        self.origin = self.view.position, self.view.top

    def search(self, text: str, is_back: bool) -> None:
        """Go to the next match, with wrap-around, and report a failure."""
        self.sought, self.is_back, self.is_marked, self.match = text, is_back, True, None
        if text:
            self.repeat(self.search_on)

    def search_anew(self, text: str, is_back: bool) -> None:
        """Search again from the start of this search, since the text has changed."""
        if self.origin:
            self.view.position, self.view.top = self.origin
        self.search(text, is_back)

    def search_on(self, is_reversed: bool = False) -> None:
        """Repeat the last search, in the same direction or the other."""
        if not self.sought:
            return
        is_back = self.is_back != is_reversed
        position = self.view.position
        if not is_back and self.is_vi:
            on = [match for match in matches(self.rows, position[0], self.sought) if match[0] <= position < match[1]]
            position = on[0][1] if on else position
        found = next_match(self.rows, self.finds, position, self.sought, is_back)
        self.match, self.is_marked = found, True
        if not found:
            self.told = NOTHING_FOUND.format(self.sought)
        else:
            # With emacs keys the cursor is behind the match.
            self.view.jump(found[0] if is_back or self.is_vi else found[1])

    def search_again(self, is_reversed: bool = False) -> None:
        """Repeat the search by the typed count."""
        self.repeat(lambda: self.search_on(is_reversed))

    def search_word(self, is_back: bool) -> None:
        """Search for the word at the cursor."""
        selection, _ = word_at(self.rows, self.view.position, False)
        (row, begin), (last, end) = selection.begin, selection.end
        word = self.rows.row(row).text(begin, end) if last == row else ""
        if word.strip():
            self.search(bounded(word), is_back)

    # ---- selection and copying

    def begin_selection(self) -> None:
        """Begin a selection here."""
        self.view.selection = Selection(self.view.position)

    def toggle_block(self) -> None:
        """Toggle block selection."""
        self.view.is_block = not self.view.is_block
        if self.view.selection:
            self.view.selection.keeps, self.view.selection.kind = "", CHARACTERS
        self.view.clamp()

    def select_line(self) -> None:
        """Select the line here, and more by the typed count."""
        self.view.is_block = False
        self.view.selection, cursor = lines_at(self.rows, self.view.position)
        self.view.go(cursor)
        for _ in range(self.count.taken() - 1):
            self.view.follow()
            self.view.step(1)

    def select_word(self) -> None:
        """Select the word here."""
        self.view.is_block = False
        self.view.selection, cursor = word_at(self.rows, self.view.position, self.is_vi)
        self.view.go(cursor)

    def copy(self, leaves: bool, appends: bool = False) -> None:
        """Copy the selection, or without one the match at the cursor."""
        selection, is_block = self.view.selection, self.view.is_block
        if not selection and self.match and self.match[0] <= self.view.position <= self.match[1]:
            selection, is_block = Selection(self.match[0]), False
            selection.end = motions.left(self.rows, self.match[1]) if self.is_vi else self.match[1]
        if selection:
            columns = Columns(self.rows, selection, self.view.position, is_block, self.is_vi)
            self.asked.append(CopyWish(COPY, CopiedText(columns), leaves, appends))
            self.view.clear_selection()
        elif leaves:
            self.asked.append(CopyWish(LEAVE))

    def copy_line_end(self) -> None:
        """Copy the rest of the line, with more lines by the typed count, and leave."""
        view = self.view
        view.selection = selection = Selection(view.position)
        view.is_block = False
        for _ in range(self.count.taken() - 1):
            view.step(1)
        view.go(motions.line_end(self.rows, view.position))
        selection.end = view.position
        self.copy(True)

    def go_to_other_end(self) -> None:
        """Go to the other end of the selection. It continues by characters, except that lines stay whole."""
        if self.view.selection:
            self.view.selection.kind = CHARACTERS
            self.view.other_end()

    def selected(self) -> Columns | None:
        """Return the selected columns for display, if any."""
        selection = self.view.selection
        return Columns(self.rows, selection, self.view.position, self.view.is_block, self.is_vi, True) if selection else None
