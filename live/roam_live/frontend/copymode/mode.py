"""The keys of copy mode on one snapshot of a pane's rows.

It sends no requests itself. If a row or a search result is unknown, a key raises Missing, changes nothing, and is repeated later.
"""
from __future__ import annotations

import copy
from collections.abc import Callable

from roam_live.frontend.copymode import motions
from roam_live.frontend.copymode.actions import LEAVE, REFRESH, CopyActions, CopyWish
from roam_live.frontend.copymode.keys import Prompt
from roam_live.frontend.copymode.rows import LEAST_COLS, Missing, Position
from roam_live.frontend.copymode.viewport import CopyView
from roam_live.frontend.line_editor import LEAVES, TAKES
from roam_live.input.keys import Key

# The cursor's target for each key, from a position.
MOVES: dict[str, Callable[[CopyActions, Position], Position]] = {
    "cursor-left": lambda mode, position: motions.left(mode.rows, position),
    "cursor-right": lambda mode, position: motions.right(mode.rows, position, True, mode.block_width()),
    "start-of-line": lambda mode, position: motions.line_begin(mode.rows, position),
    "end-of-line": lambda mode, position: motions.line_end(mode.rows, position, mode.block_width()),
    "back-to-indentation": lambda mode, position: motions.indentation(mode.rows, position),
    "next-word": lambda mode, position: motions.next_word(mode.rows, position, motions.SEPARATORS),
    "next-space": lambda mode, position: motions.next_word(mode.rows, position, ""),
    "previous-word": lambda mode, position: motions.previous_word(mode.rows, position, motions.SEPARATORS),
    "previous-space": lambda mode, position: motions.previous_word(mode.rows, position, ""),
    "next-word-end": lambda mode, position: mode.word_end(position, motions.SEPARATORS),
    "next-space-end": lambda mode, position: mode.word_end(position, ""),
    "next-matching-bracket": lambda mode, position: motions.matched_forward(mode.rows, position, mode.is_vi),
    "previous-matching-bracket": lambda mode, position: motions.matched_back(mode.rows, position),
}

# The moves of keys over lines.
STEPS: dict[str, Callable[[CopyView], object]] = {
    "cursor-up": lambda view: view.step(-1),
    "cursor-down": lambda view: view.step(1),
    "scroll-up": lambda view: view.step(-1, True),
    "scroll-down": lambda view: view.step(1, True),
    "page-up": lambda view: view.page(-1),
    "page-down": lambda view: view.page(1),
    "halfpage-up": lambda view: view.page(-1, True),
    "halfpage-down": lambda view: view.page(1, True),
    "history-top": lambda view: view.go_top(),
    "history-bottom": lambda view: view.go_bottom(),
    "top-line": lambda view: view.put_at(0),
    "middle-line": lambda view: view.put_at((view.height - 1) // 2),
    "bottom-line": lambda view: view.put_at(view.height - 1),
    "previous-paragraph": lambda view: view.jump(motions.paragraph_above(view.rows, view.position)),
    "next-paragraph": lambda view: view.jump(motions.paragraph_below(view.rows, view.position)),
}

COMMANDS: dict[str, Callable[[CopyActions], object]] = {
    "cancel": lambda mode: mode.asked.append(CopyWish(LEAVE)),
    "refresh-from-pane": lambda mode: mode.asked.append(CopyWish(REFRESH)),
    "begin-selection": lambda mode: mode.begin_selection(),
    "clear-selection": lambda mode: mode.view.clear_selection(),
    "rectangle-toggle": lambda mode: mode.toggle_block(),
    "other-end": lambda mode: mode.go_to_other_end(),
    "select-line": lambda mode: mode.select_line(),
    "select-word": lambda mode: mode.select_word(),
    "copy-selection": lambda mode: mode.copy(False),
    "copy-selection-and-cancel": lambda mode: mode.copy(True),
    "append-selection-and-cancel": lambda mode: mode.copy(True, True),
    "copy-end-of-line-and-cancel": lambda mode: mode.copy_line_end(),
    "search-again": lambda mode: mode.search_again(),
    "search-reverse": lambda mode: mode.search_again(True),
    "search-forward-word": lambda mode: mode.search_word(False),
    "search-backward-word": lambda mode: mode.search_word(True),
    "set-mark": lambda mode: mode.put_mark(),
    "jump-to-mark": lambda mode: mode.go_to_mark(),
}

# The search commands, and those that stop showing matches until the next search: with emacs keys all but searches.
SEARCHES = ("search-again", "search-reverse", "search-forward-word", "search-backward-word", "search-forward", "search-backward",
            "search-forward-incremental", "search-backward-incremental")
UNMARKS = {*COMMANDS, "back-to-indentation", "next-matching-bracket", "previous-matching-bracket"} - {
    *SEARCHES, "other-end", "jump-to-mark"}


class CopyMode(CopyActions):
    """One user's copy mode in one pane, by its keys."""

    # ---- all or nothing

    def attempt(self, does: Callable[[], object]) -> None:
        """Do something, or raise Missing with nothing changed."""
        kept = {**self.__dict__, "view": self.view.copied(), "prompt": copy.copy(self.prompt), "count": copy.copy(self.count),
                "asked": list(self.asked)}
        cols = self.rows.cols
        try:
            does()
        except Missing:
            self.__dict__.update(kept)
            self.rows.cols = cols
            raise

    def open(self) -> None:
        """Begin at the end of the last row that is not blank."""
        view = self.view
        view.top = view.lowest_top()
        row = self.rows.last()
        while row > view.top[0] and not self.rows.length(row):
            row -= 1
        view.position = row, self.rows.length(row)
        view.want_column()

    def resize(self, height: int, cols: int) -> None:
        """Lay out its rows for another size. The first or last line in view stays, and the cursor stays visible."""
        view, rows = self.view, self.rows
        was_lowest, begin = view.is_lowest(), (view.top[0], rows.span_of(view.top)[0])
        view.height, rows.cols = height, max(LEAST_COLS, cols)
        lowest = view.lowest_top()
        view.top = lowest if was_lowest else min(lowest, rows.line_of(begin))
        view.go(view.position)
        view.want_column()

    def take(self, key: Key) -> None:
        """Take a key."""
        self.told = ""
        if self.prompt:
            self.take_prompted(self.prompt, key)
        elif self.awaits:
            kind, self.awaits = self.awaits, ""
            if len(key.name) == 1 and key.name.isprintable():
                self.jump = kind, key.name
                self.repeat(lambda: self.jumps(*self.jump) if self.jump else None)
        elif not self.count.takes(key.name):
            self.perform(self.table.get(key.name, ""))
        self.view.follow()

    def take_prompted(self, prompt: Prompt, key: Key) -> None:
        """Take a key while a line is typed."""
        if key.name in LEAVES:
            self.prompt = None
        elif key.name in TAKES:
            self.prompt = None
            if prompt.command == "goto-line":
                self.go_to_line(prompt.text)
            elif not prompt.is_incremental:
                self.search(prompt.text or self.sought, prompt.command == "search-backward")
        elif prompt.is_incremental and key.name in ("\x12", "\x13"):
            self.search(prompt.text or self.sought, key.name == "\x12")
        elif prompt.edit(key.name) and prompt.is_incremental:
            self.search_anew(prompt.text, prompt.command.startswith("search-backward"))

    def paste(self, text: str) -> None:
        """Take pasted text while a line is typed."""
        if self.prompt:
            self.prompt.add(text)
            if self.prompt.is_incremental:
                self.search_anew(self.prompt.text, self.prompt.command.startswith("search-backward"))
        self.view.follow()

    def perform(self, command: str) -> None:
        """Run the command of a key, by its name."""
        view, (word, _, kind) = self.view, command.partition(" ")
        if command in MOVES:
            move = MOVES[command]
            self.repeat(lambda: view.go(move(self, view.position)))
        elif command in STEPS:
            step = STEPS[command]
            self.repeat(lambda: step(view))
        elif word == "jump":
            self.awaits = kind
        elif command in ("jump-again", "jump-reverse") and self.jump:
            kind, letter = self.jump
            kind = kind if command == "jump-again" else motions.REVERSED[kind]
            self.repeat(lambda: self.jumps(kind, letter))
        elif command in Prompt.WORDS:
            self.ask(command)
        elif command in COMMANDS:
            COMMANDS[command](self)
            self.count.taken()
        else:
            self.count.taken()
        if command in UNMARKS or not self.is_vi and command not in ("", *SEARCHES):
            self.is_marked, self.match = False, None
