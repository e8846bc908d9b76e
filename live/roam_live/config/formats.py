"""The formats of a status row: tmux's words for a session, a window, a pane, a machine and the time (tmux(1), FORMATS and STYLES)."""
from __future__ import annotations

import re
import time

from roam_live.commands.formats import LETTERS, LITERAL, TIME, FormatScope, chunks, names_in, with_marks
from roam_live.common.named_fields import NamedFields
from roam_live.common.text import printable
from roam_live.config.styled_text import ROW_STYLE, Styled

SIDES = ("left", "right")

# The most characters of a format, and of each shown value.
MOST_FORMAT = 1024
MOST_VALUE = 200

# The variables of tmux that a front end knows, by its own words for them.
VALUES = {"session_name": "session", "window_name": "window", "window_index": "index", "window_flags": "flags", "pane_index": "pane",
          "pane_title": "title", "host": "host", "host_short": "short_host"}

# A style in an expanded format.
STYLE = re.compile(r"#\[([^\]]*)\]")

# The strftime letters that change each second or each minute. Other texts change with a quarter of an hour, at which days begin in every
# time zone.
SECONDS, MINUTES = frozenset("STcrsX"), frozenset("MR")
MINUTE, QUARTER = 60, 900

COLOURS = {name: number for number, name in enumerate(("black", "red", "green", "yellow", "blue", "magenta", "cyan", "white"))}
ATTRIBUTES = {"bold": "1", "bright": "1", "dim": "2", "italics": "3", "underscore": "4", "blink": "5", "reverse": "7", "strikethrough": "9"}
OFF = {**{name: "" for name in ATTRIBUTES}, "reverse": "27"}
HEXADECIMAL = re.compile(r"#([0-9a-fA-F]{2})([0-9a-fA-F]{2})([0-9a-fA-F]{2})")
NUMBERED = re.compile(r"colou?r([0-9]{1,3})")


class Format(NamedFields):
    """A format: its text, its unknown parts, and the seconds between changes of its clock, 0 without one."""

    text: str
    wrong: tuple[str, ...]
    step: int


class RowValues(FormatScope):
    """The values of a front end for the formats of its row. It runs no commands."""

    def __init__(self, values: dict[str, str]) -> None:
        self.values = values

    def variable(self, name: str) -> str | None:
        """Return the value of a variable; None if there is none."""
        return printable(self.values.get(VALUES[name], "")[:MOST_VALUE]) if name in VALUES else None


def colour_numbers(word: str, is_behind: bool) -> str | None:
    """Return the SGR numbers of a colour word, for text or background; None if it is no colour."""
    base = 40 if is_behind else 30
    if word in ("default", "terminal"):
        return str(base + 9)
    bright = word.removeprefix("bright")
    if bright in COLOURS:
        return str(base + COLOURS[bright] + (60 if bright != word else 0))
    number, parts = NUMBERED.fullmatch(word), HEXADECIMAL.fullmatch(word)
    if number and int(number[1]) < 256:
        return f"{base + 8};5;{int(number[1])}"
    return f"{base + 8};2;{';'.join(str(int(part, 16)) for part in parts.groups())}" if parts else None


def restyled(style: dict[str, str], words: str) -> dict[str, str] | None:
    """Return a style changed by the words in `#[..]`, as SGR numbers by attribute; None if a word is unknown."""
    style = dict(style)
    for word in re.split(r"[, ]+", words.strip()):
        part, _, value = word.partition("=")
        name, is_off = word.removeprefix("no"), word.startswith("no")
        if word in ("default", "none"):
            style = {} if word == "default" else {part: value for part, value in style.items() if part in ("fg", "bg")}
            continue
        numbers = colour_numbers(value, part == "bg") if part in ("fg", "bg") else OFF.get(name) if is_off else ATTRIBUTES.get(name)
        if numbers is None:
            return None
        style[part if part in ("fg", "bg") else name] = numbers
    return style


def is_known(chunk: str) -> bool:
    """Return True if roam knows a part of a format: its variables, its style, or an escape. A front end runs no commands for its row."""
    kind = chunk[1:2]
    if kind == "[":
        return restyled({}, chunk[2:-1]) is not None
    if kind == "{":
        return chunk.endswith("}") and all(name in VALUES for name in names_in(chunk))
    return LETTERS.get(kind) in VALUES if kind.isalpha() else kind != "("


def read_format(text: str) -> Format:
    """Return a format, with its unknown parts, which produce no text."""
    text, more = text[:MOST_FORMAT], text[MOST_FORMAT:]
    wrong = [chunk for chunk in chunks(text) if not is_known(chunk)]
    steps = [1 if word[-1] in SECONDS else MINUTE if word[-1] in MINUTES else QUARTER for word in TIME.findall(text)]
    wrong += [f"the text behind {MOST_FORMAT} characters"] if more else []
    return Format(text, tuple(wrong), min(steps, default=0))


def unread(option: str, text: str) -> list[str]:
    """Return a line for each part of an option's format that roam does not support."""
    return [f"{option}: roam does not support {printable(word)[:40]}" for word in read_format(text).wrong]


def filled(read: Format, values: dict[str, str], now: float) -> list[Styled]:
    """Return the output of a format for these values at a moment since the epoch: printable texts, each with a style."""
    shown: list[Styled] = []
    style: dict[str, str] = {}
    parts = STYLE.split(with_marks(read.text, RowValues(values), time.localtime(now)))
    for place, part in enumerate(parts):
        if place % 2:
            new = restyled(style, part)
            style = style if new is None else new
            continue
        text, numbers = printable(part.replace(LITERAL, "#")), ";".join(filter(None, (ROW_STYLE, *style.values())))
        if text and shown and shown[-1].style == numbers:
            shown[-1] = Styled(numbers, shown[-1].text + text)
        elif text:
            shown.append(Styled(numbers, text))
    return shown


def changes_in(read: Format, now: float, interval: float) -> float | None:
    """Return the seconds until a format needs an update, by its clock and the interval between updates; None without a clock or updates."""
    if not read.step or not interval:
        return None
    return max(read.step - now % read.step, interval if read.step < interval else 0.0)
