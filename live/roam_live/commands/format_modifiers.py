"""What the modifiers of a format do with a value: they cut, pad, match, replace, calculate, and show times."""
from __future__ import annotations

import fnmatch
import re
import time

from roam_live.common.cell_widths import width_of

# The most columns of a padded value.
LONGEST = 1 << 16

# What Python raises for an expression that is invalid, repeats too often or nests too deep.
INVALID = (re.error, OverflowError, RecursionError)

# Seconds of a day, of the days for which a time has its weekday, and of a year.
DAY, MONTH, YEAR = 86400, 28 * 86400, 365 * 86400


def number_of(words: list[str]) -> int:
    """Return the number in the first argument of a modifier; 0 if it is none."""
    word = words[0] if words else ""
    return int(word) if re.fullmatch(r"-?[0-9]{1,9}", word) else 0


def substituted(value: str, pattern: str, other: str, flags: list[str]) -> str:
    """Return a value with each match of an extended regular expression replaced; unchanged if that is invalid."""
    def put(found: re.Match[str]) -> str:
        return re.sub(r"\\(.)", lambda part: (found[int(part[1])] or "" if int(part[1]) <= (found.re.groups) else "")
                      if part[1] in "0123456789" else part[1], other, flags=re.DOTALL)

    try:
        return re.sub(pattern, put, value, flags=re.IGNORECASE if flags and "i" in flags[0] else 0)
    except INVALID:
        return value


def matched(pattern: str, text: str, flags: str) -> bool:
    """Return True if a text matches a pattern: of a shell, or with the flag r an extended regular expression."""
    how = re.IGNORECASE if "i" in flags else 0
    try:
        if "r" in flags:
            return re.search(pattern, text, how) is not None
        return re.match(fnmatch.translate(pattern), text, how) is not None
    except INVALID:
        return False


def limited(value: str, words: list[str]) -> str:
    """Return the first or last columns of a value, with a marker where it was cut."""
    limit, marker = number_of(words), words[1] if len(words) > 1 else ""
    if not limit:
        return value
    letters = value if limit > 0 else value[::-1]
    used, count = 0, 0
    for letter in letters:
        used += width_of(letter)
        if used > abs(limit):
            break
        count += 1
    cut = value[:count] if limit > 0 else value[len(value) - count :]
    return cut if cut == value else f"{cut}{marker}" if limit > 0 else f"{marker}{cut}"


def padded(value: str, width: int) -> str:
    """Return a value with blanks behind it, or before it if the width is negative."""
    blanks = " " * max(min(abs(width), LONGEST) - sum(map(width_of, value)), 0)
    return f"{value}{blanks}" if width > 0 else f"{blanks}{value}"


def told_time(value: str, words: list[str]) -> str | None:
    """Return a time in words; None if the value is none."""
    if not (value.isascii() and value.isdigit() and 0 < int(value[:18]) < 1 << 40):
        return None
    moment, then, now = int(value), time.localtime(int(value)), time.time()
    if not words:
        return time.strftime("%a %b %e %H:%M:%S %Y", then)
    if "p" in words[0]:
        age = now - moment
        return time.strftime("%H:%M" if age < DAY else "%a%d" if age < MONTH else "%d%b" if age < YEAR else "%h%y", then)
    return time.strftime(words[1], then) if len(words) > 1 and "f" in words[0] else time.strftime("%a %b %e %H:%M:%S %Y", then)
