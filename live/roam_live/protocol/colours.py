"""The text and background colours of the user's terminal: the query, the answer, and the lines for the pty host."""
from __future__ import annotations

from roam_live.common.patterns import LazyPattern


# The two colours: of default text, and of the default background; and their OSC numbers in xterm (10 and 11).
FOREGROUND, BACKGROUND = "foreground", "background"
NUMBERS = {FOREGROUND: 10, BACKGROUND: 11}

# The query for both colours.
ASKED = b"\x1b]10;?\x1b\\\x1b]11;?\x1b\\"

# The name of an answer among the keys, a whole answer, and the start of one at the end of the input. That start has a bounded length. After
# the number, nothing else begins like it.
COLOUR = "colour"
FORM = r"\x1b\](1[01]);([rgba:0-9A-Fa-f/]{0,30})(?:\x07|\x1b\\)"
ANSWER = LazyPattern(f"(?a){FORM}")
BEGUN = LazyPattern(r"(?a)\x1b\](?:1(?:[01](?:;[rgba:0-9A-Fa-f/]{0,30}\x1b?)?)?)?\Z")
LONGEST_BEGUN = 40
BEGINS = ("\x1b]10;", "\x1b]11;")

# The largest value of a colour component.
MOST = 0xFFFF


def part_of(digits: str) -> str:
    """Return a colour component as four hexadecimal digits, scaled from one to four (XParseColor); nothing if they are invalid."""
    if not 0 < len(digits) <= 4 or not all(digit in "0123456789abcdefABCDEF" for digit in digits):
        return ""
    return f"{int(digits, 16) * MOST // (16 ** len(digits) - 1):04x}"


def colour_of(words: str) -> str:
    """Return a colour as R/G/B of four digits each from `rgb:R/G/B` or `rgba:R/G/B/A`; nothing if it is neither."""
    kind, _, rest = words.partition(":")
    parts = [part_of(digits) for digits in rest.split("/")]
    return "/".join(parts[:3]) if all(parts) and {"rgb": 3, "rgba": 4}.get(kind) == len(parts) else ""


def told_in(text: str) -> tuple[str, str] | None:
    """Return the name and value of the colour in an answer; None if it has none."""
    found = ANSWER.fullmatch(text)
    colour = colour_of(found[2]) if found else ""
    return (FOREGROUND if found[1] == "10" else BACKGROUND, colour) if found and colour else None


def begun_at(text: str) -> int | None:
    """Return the position of a partial answer at the end of a text; None if there is none."""
    found = BEGUN.search(text, max(0, len(text) - LONGEST_BEGUN))
    return found.start() if found else None


class Colours:
    """The colours of the terminal that reported its own last, from lines such as `colour foreground R/G/B`."""

    def __init__(self, known: dict[str, str] | None = None) -> None:
        self.known = {} if known is None else known

    def take(self, line: str) -> bool:
        """Take a line, and return True if it reports a colour."""
        word, _, rest = line.partition(" ")
        name, _, colour = rest.partition(" ")
        if word != COLOUR or name not in NUMBERS or not colour or colour_of(f"rgb:{colour}") != colour:
            return False
        self.known[name] = colour
        return True

    def lines(self) -> list[str]:
        """Return the lines that report them."""
        return [f"{COLOUR} {name} {colour}" for name, colour in self.known.items()]
