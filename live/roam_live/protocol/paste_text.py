"""Pasted texts: the part that is typed, the brackets around it, and the placeholder typed in its place."""
from __future__ import annotations

import os

from roam_live.common.patterns import LazyPattern

# The brackets around a paste for a program with bracketed paste (xterm), and their common end without the last byte.
OPENS, CLOSES = b"\x1b[200~", b"\x1b[201~"
BRACKET_ENDS = tuple(begin + kind for begin in (b"\x1b[", b"\xc2\x9b", b"\x9b") for kind in (b"200", b"201"))

# A text has fewer bytes, and so do all that wait at a host together.
MOST_BYTES = 1 << 24

# The control characters that a paste omits: all but TAB and CR, which LF becomes.
DROPPED = LazyPattern(r"[\x00-\x08\x0a-\x0c\x0e-\x1f\x7f-\x9f]")
DROPPED_BUT_ESCAPE = LazyPattern(r"[\x00-\x08\x0a-\x0c\x0e-\x1a\x1c-\x1f\x7f-\x9f]")

# MOST_TEXTS texts wait at the pty host at most, with MOST_BYTES together.
MOST_TEXTS = 64

# The host remembers the fate of this many finished texts.
MOST_SPENT = 1024

# The last MOST_BUFFERS copied texts are buffers, of MOST_BUFFER bytes each; MOST_COMING bytes of others may arrive at once. SAMPLE
# characters of each are listed.
MOST_BUFFERS = 20
MOST_BUFFER = 1 << 20
MOST_COMING = 4 << 20
SAMPLE = 40
BUFFER_TOO_LONG = f"a buffer has at most {MOST_BUFFER >> 20} MB"
BUFFER_EMPTY = "a buffer has at least one character"
BUFFERS_TOO_MANY = "too many buffers at once"
BUFFER_READ_ONLY = "a read-only terminal stores no buffers"
BUFFER_UNKNOWN = "no buffer has this number"
BUFFER_NOTHING = "nothing of that buffer can be typed"

# The reports about a text: stored; inserted at its placeholder; unknown, as after too long a wait; or refused, with words after its name.
STORED, INSERTED, LOST, REFUSED = "stored", "inserted", "lost", "refused"

# The reason that there is no room for one yet.
TOO_MANY = f"{MOST_TEXTS} texts wait to be pasted"
TOO_LONG = f"{MOST_BYTES >> 20} MB wait to be pasted"
FULL = (TOO_MANY, TOO_LONG)


def cleaned(text: str, keeps_escape: bool = False) -> str:
    """Return the part of a text to paste: LF and CR LF become CR, other control characters but TAB go. ESC may stay."""
    dropped = DROPPED_BUT_ESCAPE if keeps_escape else DROPPED
    clean: str = dropped.sub("", text.replace("\r\n", "\r").replace("\n", "\r"))
    return clean


def without_brackets(text: bytes) -> bytes:
    """Return a text without brackets, including those that form once another is removed."""
    if not any(end in text for end in BRACKET_ENDS):
        return text
    found, begin = bytearray(), 0
    while True:
        end = text.find(b"~", begin)
        found += text[begin:] if end < 0 else text[begin:end]
        if end < 0:
            return bytes(found)
        bracket = next((one for one in BRACKET_ENDS if found.endswith(one)), b"")
        if bracket:
            del found[-len(bracket) :]
        else:
            found += b"~"
        begin = end + 1


def random_name() -> str:
    """Return a new random name for a text: sixteen hexadecimal digits."""
    return os.urandom(8).hex()


# The acts that begin and end a placeholder.
PLACEHOLDER_ACTS = "char 9f", "char 9c"


def placeholder_acts(name: str) -> list[str]:
    """Return the acts that type the placeholder of a text: APC, its name and ST, in forms that no key sends.

    They share one line, so that nothing comes between.
    """
    return [f"char {ord(letter):x}" for letter in f"\x9f{name}\x9c"]


def placeholder_in(acts: list[str]) -> str:
    """Return the name of the text whose placeholder these acts type; "" if they type none."""
    begin = acts.index(PLACEHOLDER_ACTS[0]) + 1 if PLACEHOLDER_ACTS[0] in acts else len(acts)
    end = acts.index(PLACEHOLDER_ACTS[1], begin) if PLACEHOLDER_ACTS[1] in acts[begin:] else begin
    return "".join(chr(int(act.removeprefix("char "), 16)) for act in acts[begin:end])
