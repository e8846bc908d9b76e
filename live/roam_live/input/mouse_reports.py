"""Mouse reports: those of the outer terminal in mode 1006, and those for a pane's program in its requested form."""
from __future__ import annotations

from roam_live.common.named_fields import NamedFields
from roam_live.common.patterns import LazyPattern

# The name of a report among the keys; its start, which no key shares; and a whole report: button and flags, column, row, and press or
# release.
MOUSE = "mouse"

# The name of a focus report, and the two reports of a terminal: it has the focus, or has lost it (xterm, 1004).
FOCUSED = "focused"
FOCUS_REPORTS = ("\x1b[I", "\x1b[O")
BEGIN = "\x1b[<"
REPORT = LazyPattern(r"(?a)\x1b\[<(\d{1,3});(\d{1,5});(\d{1,5})([Mm])")

# The flags of a button: pressed modifier keys, motion, the wheel, and further buttons.
KEYS, MOVES, WHEEL, FURTHER = 0x1C, 0x20, 0x40, 0x80

# The button of motion without a press, and of a release in the old form; and those of the wheel.
NONE = 3
UP, DOWN = 64, 65

# Seconds from a double click to the copy of its selection, unless a third click follows.
CLICKED = 0.3

# The modes of a program with mouse reports, by the words of `panes`, and the one for the form of 1006.
TRACKING = ("buttons", "drags", "motion")
SGR = "sgr"

# The old form has a character for each number, from the space on. Since acts are characters, none may be above 7F.
OLD_BEGIN = "\x1b[M"
OLD_FROM, OLD_MOST = 0x20, 0x7F

# The requests to the outer terminal for reports: of buttons, with motion during a press, or of all motion. Each first turns reports off,
# since a terminal has one of these modes at a time.
OFF = b"\x1b[?1003l\x1b[?1002l\x1b[?1000l\x1b[?1006l"
ASKED = {"": OFF, "drags": OFF + b"\x1b[?1002h\x1b[?1006h", "motion": OFF + b"\x1b[?1003h\x1b[?1006h"}


class MouseReport(NamedFields):
    """A report: the button with its flags, the row and column, from 1, and a flag for a release."""

    button: int
    row: int
    col: int
    is_release: bool

    def number(self) -> int:
        """Return the button alone."""
        return self.button & ~(KEYS | MOVES)

    def moves(self) -> bool:
        """Return True if it reports motion."""
        return bool(self.button & MOVES)

    def is_wheel(self) -> bool:
        """Return True if it reports the wheel, which has no release."""
        return self.button & (WHEEL | FURTHER) == WHEEL and not self.moves()

    def is_held(self) -> bool:
        """Return True if a button is pressed."""
        return self.number() != NONE


def report_of(text: str) -> MouseReport | None:
    """Return the report in a sequence; None for another."""
    found = REPORT.fullmatch(text)
    return MouseReport(int(found[1]), int(found[3]), int(found[2]), found[4] == "m") if found else None


def tracking_of(modes: list[str]) -> str:
    """Return the tracking mode that a program has set, of three; nothing without mouse reports."""
    return next((word for word in reversed(TRACKING) if word in modes), "")


def is_wanted(report: MouseReport, modes: list[str]) -> bool:
    """Return True if a program with these modes gets such a report."""
    tracking = tracking_of(modes)
    if not report.moves():
        return tracking != ""
    return tracking == "motion" or tracking == "drags" and report.is_held()


def sent(report: MouseReport, modes: list[str]) -> str:
    """Return the text of a report for a program with these modes; nothing if it has no form there.

    The position counts from the pane's corner.
    """
    if SGR in modes:
        return f"{BEGIN}{report.button};{report.col};{report.row}{'m' if report.is_release else 'M'}"
    button = report.button & (KEYS | MOVES) | NONE if report.is_release else report.button
    numbers = [OLD_FROM + number for number in (button, report.col, report.row)]
    return OLD_BEGIN + "".join(map(chr, numbers)) if max(numbers) <= OLD_MOST else ""


class Clicks:
    """The number of clicks in a row at one position."""

    def __init__(self) -> None:
        self.place: tuple[int, int] | None = None
        self.at, self.count = 0.0, 0

    def press(self, place: tuple[int, int], now: float) -> int:
        """Take a press, and return how many came in a row: three at most."""
        is_again = place == self.place and now < self.at + CLICKED and self.count < 3
        self.place, self.at, self.count = place, now, self.count + 1 if is_again else 1
        return self.count
