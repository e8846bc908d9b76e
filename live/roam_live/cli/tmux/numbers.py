"""Numbers and percentages in the words of commands, with tmux's messages."""
from __future__ import annotations

import re

from roam_live.commands.flags import BadCommand

NUMBER = re.compile(r"\s*[+-]?[0-9]{1,18}")


def number_of(text: str, least: int, most: int, what: str) -> int:
    """Return a number within limits; BadCommand, which names what it is for, if it is none."""
    if not NUMBER.fullmatch(text):
        raise BadCommand(f"{what} invalid")
    found = int(text)
    if not least <= found <= most:
        raise BadCommand(f"{what} too {'small' if found < least else 'large'}")
    return found


def part_of(text: str, least: int, most: int, whole: int, what: str) -> int:
    """Return a number within limits, or a percentage of a length."""
    if not text.endswith("%"):
        return number_of(text, least, most, what)
    if not NUMBER.fullmatch(text[:-1]):
        raise BadCommand("percentage invalid" if what == "lines" else f"{what} invalid")
    found = whole * int(text[:-1]) // 100
    if not least <= found <= most:
        raise BadCommand(f"{what} too {'small' if found < least else 'large'}")
    return found
