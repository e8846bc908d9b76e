"""Colours for a terminal that has fewer than 256 of them.

A client process paints 24-bit colours. Like tmux, this replaces those that a terminal hasn't by the nearest one that it has, or by none. It
reads whole writes, which end between sequences, and changes SGR alone. Other terminals have no filter.
"""
from __future__ import annotations

import re
from functools import lru_cache

TYPE_CHECKING = False
if TYPE_CHECKING:
    from collections.abc import Callable, Iterator

    Colour = tuple[int, int, int]

# An SGR sequence with its parameters.
SGR = re.compile(rb"\x1b\[([0-9;]*)m")

# The first 16 colours of xterm, and the steps of each component in its cube of 6 by 6 by 6.
SYSTEM: tuple[Colour, ...] = (
    (0, 0, 0), (205, 0, 0), (0, 205, 0), (205, 205, 0), (0, 0, 238), (205, 0, 205), (0, 205, 205), (229, 229, 229),
    (127, 127, 127), (255, 0, 0), (0, 255, 0), (255, 255, 0), (92, 92, 255), (255, 0, 255), (0, 255, 255), (255, 255, 255))
STEPS = (0, 95, 135, 175, 215, 255)
CUBE, GREYS = 16, 232

# The parameters of SGR for a foreground and a background colour, for bright ones (aixterm), and for bold text.
FOREGROUND, BACKGROUND, BRIGHT, BOLD = 30, 40, 60, b"1"

# The parameters for the default colours, and one that has no effect here: it selects the usual font (ECMA-48 8.3.117).
DEFAULTS = (39, 49)
NO_EFFECT = b"10"

# The most cached sequences: a program that paints pictures uses many colours.
MOST_CACHED = 1024


def number_of_colours(term: str) -> int | None:
    """Return the number of colours in the terminfo entry of a terminal, -1 for none; None without an entry."""
    try:
        import curses
    except ImportError:
        return None
    try:
        curses.setupterm(term, 1)
    except curses.error:
        return None
    return curses.tigetnum("colors")


def colour_filter(term: str) -> Callable[[bytes], bytes] | None:
    """Return the call that replaces colours in what is written to a terminal; None if it has 256 colours, or isn't known."""
    found = number_of_colours(term)
    if found is None or found >= 256:
        return None
    count: int = found

    @lru_cache(MOST_CACHED)
    def replaced(parameters: bytes) -> bytes:
        return b"\x1b[%sm" % b";".join(fewer(parameters, count))

    return lambda text: SGR.sub(lambda found: replaced(found[1]), text)


def components(number: int) -> Colour:
    """Return red, green and blue of one of the 256 colours of xterm."""
    if number < CUBE:
        return SYSTEM[number]
    if number >= GREYS:
        return (8 + 10 * (number - GREYS),) * 3
    number -= CUBE
    return STEPS[number // 36], STEPS[number // 6 % 6], STEPS[number % 6]


def nearest(colour: Colour) -> int:
    """Return the nearest one of the first 16 colours."""
    return min(range(len(SYSTEM)), key=lambda one: sum((a - b) ** 2 for a, b in zip(SYSTEM[one], colour)))


def fewer(parameters: bytes, count: int) -> list[bytes]:
    """Return the parameters of an SGR sequence with the colours of a terminal that has so many. If none is left, nothing else changes."""
    numbers = [int(one or 0) for one in parameters.split(b";")]
    found: list[bytes] = []
    for first, base, colour in colours_in(numbers):
        if base is None:
            found += [b"%d" % first] if count >= 8 or first not in DEFAULTS else []
        elif count >= 16:
            found.append(b"%d" % (base + colour % 8 + (BRIGHT if colour >= 8 else 0)))
        elif count >= 8:
            # A bright foreground is bold on such a terminal, as in tmux.
            found += [BOLD] if colour >= 8 and base == FOREGROUND else []
            found.append(b"%d" % (base + colour % 8))
    # Without a parameter SGR would reset the style.
    return found or [NO_EFFECT]


def colours_in(numbers: list[int]) -> Iterator[tuple[int, int | None, int]]:
    """Yield each parameter of an SGR sequence; one that sets a colour with its base and the nearest one of 16 colours."""
    place = 0
    while place < len(numbers):
        first, rest = numbers[place], numbers[place + 1 :]
        base = next((one for one in (FOREGROUND, BACKGROUND) if one <= first < one + 9 or one + BRIGHT <= first < one + BRIGHT + 8), None)
        if base is None or first == base + 9:
            yield first, None, 0
        elif first == base + 8 and rest[:1] == [5] and len(rest) > 1:
            number = min(rest[1], 255)
            yield first, base, number if number < CUBE else nearest(components(number))
            place += 2
        elif first == base + 8 and rest[:1] == [2] and len(rest) > 3:
            yield first, base, nearest((rest[1], rest[2], rest[3]))
            place += 4
        elif first != base + 8:
            yield first, base, first - base if first < base + 8 else first - base - BRIGHT + 8
        place += 1
