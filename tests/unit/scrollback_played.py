"""A simulated pty host: it returns rows, finds texts in them, and stores buffers, at once or on request."""
from collections import deque

from copied import rows_of
from roam_live.frontend.copymode.rows import Rows
from roam_live.frontend.copymode.search import matches
from roam_live.protocol.scrollback_client import BufferNote, Snapshot


class PlayedScrollback:
    """The contents of panes: the scrollback of each, and the rows of its screen."""

    def __init__(self, text, size, first=0):
        lines = rows_of(text, size[1])
        self.lines = [b" "] * max(0, size[0] - len(lines)) + lines
        self.first, self.size = first, size
        self.texts: list = []
        self.asked: list = []
        self.released: list = []
        self.on_more = lambda pane, generation, count: None
        # Flags: answer at once, return snapshots, and store buffers; and the unanswered requests.
        self.is_quick, self.waiting = True, deque()
        self.lends = self.keeps = True
        # The most rows of an answer.
        self.most = 2000

    def end(self):
        """Return the number after that of the last scrolled-off row."""
        return self.first + len(self.lines) - self.size[0]

    def answer(self, does):
        """Answer now, or later."""
        if self.is_quick:
            does()
        else:
            self.waiting.append(does)

    def answers(self, count=99):
        """Answer the waiting requests."""
        for _ in range(min(count, len(self.waiting))):
            self.waiting.popleft()()

    def snapshot(self, pane, generation, told):
        """Return a snapshot."""
        self.asked.append(("snapshot", pane, generation))
        screen = self.lines[-self.size[0] :]
        found = Snapshot(pane, generation, self.first, self.end(), screen) if self.lends else None
        self.answer(lambda: told(found))

    def rows(self, pane, generation, first, count, told):
        """Return rows."""
        self.asked.append(("rows", first, count))
        begin = max(first, self.first)
        lines = self.lines[begin - self.first : begin - self.first + min(count, self.most)] if self.lends else []
        self.answer(lambda: told(begin, lines))

    def find(self, pane, generation, first, back, text, told):
        """Find a text."""
        self.asked.append(("find", first, back, text))
        rows = Rows(self.first, self.first + len(self.lines), self.size[1])
        rows.put(self.first, self.lines)
        numbers = range(first - 1, rows.first - 1, -1) if back else range(first + 1, rows.end)
        found = next((row for row in numbers if any(match[0][0] == row for match in matches(rows, row, text))), None)
        self.answer(lambda: told(found))

    def release(self, pane, generation):
        """Release a snapshot."""
        self.released.append((pane, generation))

    def add_buffer(self, text, told):
        """Store a buffer."""
        if self.keeps:
            self.texts.append(text)
        self.answer(lambda: told(len(self.texts) - 1 if self.keeps else None))

    def buffers(self, told):
        """Return the list of buffers."""
        notes = [BufferNote(number, len(text), text[:40].decode("utf-8", "replace")) for number, text in enumerate(self.texts)][::-1]
        self.answer(lambda: told(notes if self.keeps else None))

    def buffer(self, number, told):
        """Return a buffer."""
        self.answer(lambda: told(self.texts[number] if number < len(self.texts) else None))
