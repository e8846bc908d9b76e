"""A terminal in this process, for tests of roam: it reads the output of a front end, or of a shell for comparison, as it arrives.

It supports the sequences of roam's painter, its front ends, shells and line editors. At the end of each scene, a comparison with `roam
show` on the whole output checks it.
"""
import codecs
import re

from painted import BOXES, PaintedCells, width_of
from roam_live.protocol.screen_cells import Style, styled

# A control sequence with its mark, numbers, intermediates and final byte; an escape with intermediates and its final byte; a control
# string; a control character; and characters.
PARTS = re.compile(
    r"\x1b\[([<-?]?)([\d;:]*)([ -/]*)([@-~])|\x1b([ -/]*)([0-OQ-WYZ\\`-~])|\x1b[\]PX^_][^\x07\x1b]*(?:\x07|\x1b\\)"
    r"|([\x00-\x1a\x1c-\x1f\x7f])|([^\x00-\x1f\x7f]+)")
BLANK = (" ", Style())
TAB = 8


class Emulated:
    """A terminal of a size."""

    def __init__(self, rows, cols):
        self.rows, self.cols = rows, cols
        self.decoder = codecs.getincrementaldecoder("utf-8")("replace")
        self.rest = ""
        self.reset()

    def reset(self):
        """Restore the initial state (RIS)."""
        self.screens = {False: self.blank(), True: self.blank()}
        self.is_other = False
        self.row = self.col = 0
        self.style = Style()
        self.top, self.bottom = 0, self.rows - 1
        self.has_cursor = self.wraps = True
        self.is_pending = self.inserts = self.is_origin = self.has_new_line = False
        self.sets, self.used = ["B", "B"], 0
        self.saved = {}

    def blank(self):
        """Return a blank screen."""
        return [[BLANK] * self.cols for _ in range(self.rows)]

    @property
    def screen(self):
        """Return the visible screen."""
        return self.screens[self.is_other]

    def fed(self, chunk):
        """Take output."""
        text = self.rest + self.decoder.decode(chunk)
        at = 0
        while at < len(text):
            part = PARTS.match(text, at)
            if not part:
                break
            at = part.end()
            self.act(part)
        self.rest = text[at:]

    def act(self, part):
        """Apply one part of the output."""
        mark, numbers, between, final, designates, escape, control, letters = part.groups()
        if letters:
            for letter in letters:
                self.write(letter)
        elif control:
            self.controlled(control)
        elif final:
            self.sequence(mark, [int(word or 0) for word in numbers.replace(":", ";").split(";")], between + final)
        elif escape:
            self.escaped(designates, escape)

    # ---- characters

    def write(self, letter):
        """Write a character."""
        if self.sets[self.used] == "0":
            letter = BOXES.get(letter, letter)
        width = width_of(letter)
        if width == 0:
            self.join(letter)
            return
        if self.wraps and (self.is_pending or self.col + width > self.cols):
            self.col = 0
            self.index()
        self.col = min(self.col, self.cols - width)
        line = self.screen[self.row]
        if self.inserts:
            line[self.col : self.col] = [BLANK] * width
            del line[self.cols :]
        self.part_wide(line, self.col, width)
        line[self.col : self.col + width] = [(letter, self.style)] + [("", self.style)] * (width - 1)
        self.is_pending = self.col + width >= self.cols
        self.col = min(self.col + width, self.cols - 1)

    def join(self, letter):
        """Add a zero-width character to the previous cell."""
        at = self.col if self.is_pending else self.col - 1
        line = self.screen[self.row]
        at -= at > 0 and line[at][0] == ""
        if at >= 0:
            line[at] = (line[at][0] + letter, line[at][1])

    @staticmethod
    def part_wide(line, begin, width):
        """Blank the rest of a partly overwritten wide character."""
        if line[begin][0] == "" and begin:
            line[begin - 1] = (" ", line[begin - 1][1])
        if begin + width < len(line) and line[begin + width][0] == "":
            line[begin + width] = (" ", line[begin + width][1])

    # ---- control characters and escapes

    def controlled(self, control):
        """Apply a control character."""
        if control == "\b":
            self.move(self.row, self.col - 1)
        elif control == "\t":
            self.move(self.row, (self.col // TAB + 1) * TAB)
        elif control in "\n\v\f":
            self.index()
            self.is_pending = False
            self.col = 0 if self.has_new_line else self.col
        elif control == "\r":
            self.move(self.row, 0)
        elif control in "\x0e\x0f":
            self.used = int(control == "\x0e")

    def escaped(self, designates, escape):
        """Apply an escape sequence."""
        if designates in ("(", ")"):
            self.sets["()".index(designates)] = escape
        elif designates:
            return
        elif escape == "7":
            self.saved[self.is_other] = (self.row, self.col, self.style, list(self.sets), self.used, self.is_pending, self.wraps)
        elif escape == "8":
            kept = self.saved.get(self.is_other, (0, 0, Style(), ["B", "B"], 0, False, self.wraps))
            self.row, self.col, self.style, self.sets, self.used, self.is_pending, _ = kept
        elif escape in "DEM":
            (self.reverse_index if escape == "M" else self.index)()
            self.is_pending = False
            self.col = 0 if escape == "E" else self.col
        elif escape == "c":
            self.reset()

    def index(self):
        """Go down a row, or scroll."""
        self.is_pending = False
        if self.row == self.bottom:
            self.scroll(self.top, self.bottom, 1)
        else:
            self.row = min(self.row + 1, self.rows - 1)

    def reverse_index(self):
        """Go up a row, or scroll."""
        if self.row == self.top:
            self.scroll(self.top, self.bottom, -1)
        else:
            self.row = max(self.row - 1, 0)

    def erased(self):
        """Return the contents of an erased cell."""
        return (" ", Style(background=self.style.background))

    def scroll(self, top, bottom, count):
        """Scroll rows up, or down if the count is negative."""
        blank = [[self.erased()] * self.cols for _ in range(min(abs(count), bottom - top + 1))]
        lines = self.screen[top : bottom + 1]
        moved = lines[len(blank) :] + blank if count > 0 else blank + lines[: len(lines) - len(blank)]
        self.screen[top : bottom + 1] = moved

    # ---- control sequences

    def move(self, row, col):
        """Go to a position on the screen."""
        self.row, self.col = max(0, min(row, self.rows - 1)), max(0, min(col, self.cols - 1))
        self.is_pending = False

    def sequence(self, mark, numbers, final):
        """Apply a control sequence."""
        count = max(numbers[0], 1)
        if mark == "?" and final in "hl":
            for number in numbers:
                self.set_private(number, final == "h")
        elif mark or final not in "ABCDEFGHJKLMPST@XdfmrhlbZ":
            return
        elif final in "ABCDEFGHdf":
            self.moved(final, count, max(numbers[1], 1) if len(numbers) > 1 else 1)
        elif final == "m":
            self.style = styled(self.style, numbers)
        elif final in "JKX":
            self.erase(final, numbers[0])
        elif final in "LMST":
            self.scrolled(final, count)
        elif final in "P@":
            self.shift(final, count)
        elif final == "r":
            self.set_margins(count, numbers[1] if len(numbers) > 1 and numbers[1] else self.rows)
        elif final in "hl" and numbers[0] in (4, 20):
            setattr(self, "inserts" if numbers[0] == 4 else "has_new_line", final == "h")

    def moved(self, final, count, other):
        """Move the cursor."""
        low, high = (self.top, self.bottom) if self.top <= self.row <= self.bottom else (0, self.rows - 1)
        first = self.top if self.is_origin else 0
        above, below = max(self.row - count, low), min(self.row + count, high)
        places = {"A": (above, self.col), "B": (below, self.col), "C": (self.row, self.col + count), "D": (self.row, self.col - count),
                  "E": (below, 0), "F": (above, 0), "G": (self.row, count - 1), "d": (first + count - 1, self.col),
                  "H": (first + count - 1, other - 1)}
        self.move(*places["H" if final == "f" else final])

    def erase(self, final, what):
        """Erase characters, a part of a row, or of the screen."""
        self.is_pending = False
        line, blank = self.screen[self.row], self.erased()
        if final == "X":
            end = min(self.col + max(what, 1), self.cols)
            self.part_wide(line, self.col, end - self.col)
            line[self.col : end] = [blank] * (end - self.col)
            return
        begin, end = {0: (self.col, self.cols), 1: (0, self.col + 1)}.get(what, (0, self.cols))
        self.part_wide(line, begin, end - begin)
        line[begin:end] = [blank] * (end - begin)
        if final == "J":
            others = {0: range(self.row + 1, self.rows), 1: range(self.row)}.get(what, range(self.rows))
            for row in others:
                self.screen[row] = [blank] * self.cols

    def scrolled(self, final, count):
        """Insert or delete rows, or scroll."""
        if final in "ST":
            self.scroll(self.top, self.bottom, count if final == "S" else -count)
        elif self.top <= self.row <= self.bottom:
            self.scroll(self.row, self.bottom, count if final == "M" else -count)
            self.move(self.row, 0)

    def shift(self, final, count):
        """Insert or delete characters."""
        self.is_pending = False
        line, blank = self.screen[self.row], self.erased()
        count = min(count, self.cols - self.col)
        self.part_wide(line, self.col, count if final == "P" else 0)
        if final == "P":
            del line[self.col : self.col + count]
            line += [blank] * count
        else:
            line[self.col : self.col] = [blank] * count
            del line[self.cols :]

    def set_margins(self, top, bottom):
        """Set the scroll region."""
        bottom = min(bottom, self.rows)
        if top < bottom:
            self.top, self.bottom = top - 1, bottom - 1
            self.move(self.top if self.is_origin else 0, 0)

    def set_private(self, number, is_set):
        """Set or reset a DEC private mode."""
        if number == 25:
            self.has_cursor = is_set
        elif number == 7:
            self.wraps = is_set
            self.is_pending = self.is_pending and is_set
        elif number == 6:
            self.is_origin = is_set
            self.move(self.top if is_set else 0, 0)
        elif number in (47, 1047, 1049) and is_set != self.is_other:
            self.change_screen(number, is_set)

    def change_screen(self, number, is_other):
        """Show the alternate screen, or the main one."""
        if number == 1049 and is_other:
            self.escaped("", "7")
        self.is_other = is_other
        if is_other:
            self.screens[True] = self.blank()
        elif number == 1049:
            self.escaped("", "8")

    # ---- the display

    def resize(self, rows, cols):
        """Change the size, and keep the contents from the top left."""
        for screen in self.screens.values():
            screen[:] = [(line + [BLANK] * cols)[:cols] for line in (screen + [[BLANK] * cols for _ in range(rows)])[:rows]]
        self.rows, self.cols, self.top, self.bottom = rows, cols, 0, rows - 1
        self.move(self.row, self.col)

    def lines(self):
        """Return the visible rows, in all their columns."""
        return ["".join(letter for letter, _ in line) for line in self.screen]

    def painted(self):
        """Return the visible cells, with their styles, and the cursor."""
        shown = PaintedCells()
        shown.cells = {(row, col): cell for row, line in enumerate(self.screen, 1) for col, cell in enumerate(line, 1) if cell[0]}
        shown.row, shown.col, shown.has_cursor = self.row + 1, self.col + 1, self.has_cursor
        return shown
