"""A new size of a pane: the lines on its screen are wrapped anew before its programs learn the size.

A terminal cuts its rows at a smaller size, and never gets them back. The scrollback process has read every byte of the pane, so it knows
which rows belong to one line. Asked for a size, it returns text that paints the screen with its lines wrapped at that width. The host sends
this text to the pane. The output of the programs waits from the question to the answer.

While the alternate screen is shown, the scrollback process keeps the main screen at its size. The host asks once the main screen is back.
"""
from __future__ import annotations

from roam_live.host.scrollback_process import LATER, OTHER, TEXT

TYPE_CHECKING = False
if TYPE_CHECKING:
    from roam_live.common.event_loop import Loop
    from roam_live.common.tty import Size
    from roam_live.host.pane import PaneCommand
    from roam_live.host.scrollback import Scrollback

# Programs wait for an answer so many seconds. If one comes later, the host asks again, so often at most; then the size cuts the rows.
ANSWER_WAIT = 0.1
MOST_LATE = 5

# Within a control sequence or a character so many more bytes of output are passed on before the next question.
PASSED_ON = 1024

# A synchronized update (mode 2026) that shows the whole text at once.
BEGINS_UPDATE, ENDS_UPDATE = b"\x1b[?2026h", b"\x1b[?2026l"


class PaneResizer:
    """Gives a pane its sizes. One question is in flight at a time, and the newest size wins."""

    def __init__(self, loop: Loop, scrollback: Scrollback, key: int, pane: PaneCommand) -> None:
        self.loop, self.scrollback, self.key, self.pane = loop, scrollback, key, pane
        self.name = f"rewrap {key} {id(self)}"
        # The newest size, and the one that is asked for now.
        self.wanted = pane.state.size
        self.asked: Size | None = None
        # True while the answer to a question is missing. Then the number of answers that are too late, and how many were since the last
        # size.
        self.is_in_flight = False
        self.late = self.was_late = 0
        # True if a size came while the programs showed the alternate screen. The lines of the main screen are kept, and wrapped later.
        self.is_owed = False

    def resize(self, size: Size) -> None:
        """Give the pane a new size."""
        self.wanted, self.was_late = size, 0
        if self.asked is None and size != self.pane.state.size:
            self.ask()

    def ask(self) -> None:
        """Ask the scrollback process for the text at the newest size."""
        self.asked = self.wanted
        self.is_in_flight = self.scrollback.ask_rewrap(self.key, self.asked, self.take)
        if not self.is_in_flight:
            self.is_owed = False
            self.finish()
            return
        self.pane.hold(0)
        if self.name not in self.loop.due:
            self.loop.later(self.name, ANSWER_WAIT, self.give_up)

    def take(self, word: str, text: bytes) -> None:
        """Take an answer of the scrollback process. One that is too late is for a screen that has changed since."""
        if self.late:
            self.late -= 1
            if self.asked is None and not self.late:
                self.ask()
            return
        self.is_in_flight = False
        if self.asked is None:
            return
        if word == TEXT and self.asked != self.wanted:
            self.ask()
        elif word == TEXT:
            self.is_owed = False
            self.pane.show_alone(BEGINS_UPDATE + text + ENDS_UPDATE)
            self.finish()
        elif word == LATER:
            self.pane.hold(PASSED_ON, self.ask)
        else:
            self.is_owed = word == OTHER
            if self.is_owed:
                self.scrollback.keep_main(self.key, self.wanted)
            self.finish()

    def give_up(self) -> None:
        """Go on without an answer. If one may still come, the host asks again then; after MOST_LATE of these the rows are cut."""
        is_late = self.is_in_flight and self.was_late < MOST_LATE
        if is_late:
            self.late, self.was_late = self.late + 1, self.was_late + 1
        elif self.is_in_flight:
            self.scrollback.cut_by(self.key, self.wanted)
        self.is_owed = False
        self.finish(not is_late)

    def finish(self, is_answered: bool = True) -> None:
        """Tell the programs the size, and read their output again. The scrollback process learns it too, unless its answer is missing."""
        self.loop.drop(self.name)
        self.asked, self.is_in_flight = None, False
        if is_answered and not self.is_owed:
            self.scrollback.resize(self.key, self.wanted)
        self.pane.resize(self.wanted)
        self.pane.release()

    def leave_other(self) -> None:
        """Wrap the lines of the main screen, which is shown again."""
        if self.is_owed and self.asked is None:
            self.is_owed = False
            self.ask()

    def close(self) -> None:
        """Ask no more, since the pane is gone."""
        self.asked, self.late = None, 0
        self.loop.drop(self.name)

