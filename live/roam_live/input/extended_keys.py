"""Keys that a terminal reports with all modifiers (xterm, modifyOtherKeys).

This covers the query and the setting at the terminal, the reports, the plain form of each key, and the form for a pane's program with the
same setting.
"""
from __future__ import annotations

from roam_live.common.named_fields import NamedFields
from roam_live.common.patterns import LazyPattern

# The modifiers of a key, with their values in the parameter of a sequence; and those that are ignored, such as Num Lock.
SHIFT, META, CONTROL = 1, 2, 4
OTHER_META, LOCKS = 8, 0xC0

# The query for the terminal's setting, which is restored at the end, and the request to report every key (XTQMODKEYS and XTMODKEYS of 4).
QUERY, WANTED = b"\x1b[?4m", b"\x1b[>4;2m"

# The name of an answer among the keys, its start, which no key shares, and a whole answer.
ANSWERED = "answered"
BEGIN = "\x1b[>"
ANSWER = LazyPattern(r"(?a)\x1b\[>4(?:;([0-3]?))?m")

# A key in that form, and in the other one that a user may have configured for a terminal (formatOtherKeys).
FORM = LazyPattern(r"(?a)\x1b\[27;(\d{1,3});(\d{1,7})~|\x1b\[(\d{1,7});(\d{1,3})u")

# The keys other than characters, by their codes there.
ENTER, TAB, ESCAPE, SPACE = 13, 9, 27, 32
BACKSPACES = (8, 127)
NAMES = {ENTER: "enter", TAB: "tab", ESCAPE: "escape", SPACE: "space", **{code: "bspace" for code in BACKSPACES}}
# The results of Ctrl with some characters.
CONTROLLED = {"2": "\0", "3": "\x1b", "4": "\x1c", "5": "\x1d", "6": "\x1e", "7": "\x1f", "8": "\x7f", "/": "\x1f", "?": "\x7f"}

BACK_TAB = "\x1b[Z"

# The modes of a pane's program that requests extended keys: those without a form of their own, or all.
SOME, ALL = "keys1", "keys2"


class ExtendedKey(NamedFields):
    """A key with its modifiers: their sum, and the code of its character, to which Shift is already applied."""

    held: int
    code: int

    def form(self) -> str:
        """Return the sequence that reports it."""
        return f"\x1b[27;{self.held + 1};{self.code}~"

    def name(self) -> str:
        """Return its name, which for a character is the character."""
        return NAMES.get(self.code, chr(self.code))

    def is_character(self) -> bool:
        """Return True if it is a character, including the space."""
        return self.code not in NAMES or self.code == SPACE

    def named_held(self) -> int:
        """Return the modifiers in its name. Most characters imply Shift."""
        is_told = self.is_character() and self.code != SPACE and not (self.held & CONTROL and chr(self.code).isalpha())
        return self.held & ~SHIFT if is_told else self.held

    def plain(self) -> str:
        """Return the plain form that other terminals send, without Meta."""
        if self.code in BACKSPACES:
            return "\x08" if self.held & CONTROL else "\x7f"
        if self.code == TAB and self.held & SHIFT:
            return BACK_TAB
        return controlled(chr(self.code)) if self.held & CONTROL else chr(self.code)

    def is_told(self) -> bool:
        """Return True if its plain form is unique. A program that requested only some extended keys gets such keys in plain form."""
        held = self.held & ~META
        if self.code in BACKSPACES or not held:
            return True
        if held == SHIFT:
            return self.code == TAB or self.is_character()
        is_letter = chr(self.code).isalpha()
        return self.is_character() and controlled(chr(self.code)) != chr(self.code) and not (held & SHIFT and is_letter)


def controlled(letter: str) -> str:
    """Return the result of Ctrl with a character (XLookupString): itself if there is no control character."""
    code = ord(letter)
    if 0x40 <= code < 0x7F or letter == " ":
        return chr(code & 0x1F)
    return CONTROLLED.get(letter, letter)


def extended_key(text: str) -> ExtendedKey | None:
    """Return the key that a sequence reports; None if it reports none."""
    found = FORM.fullmatch(text)
    if not found:
        return None
    held, code = (int(found[1]) - 1, int(found[2])) if found[1] else (int(found[4]) - 1, int(found[3]))
    held = held & ~LOCKS if found[3] else held & ~OTHER_META | META * (held & OTHER_META > 0)
    if held < 0 or held > SHIFT | META | CONTROL or code > 0x10FFFF:
        return None
    if code not in NAMES and not chr(code).isprintable():
        return None
    # The other form contains the character without Shift.
    upper = chr(code).upper()
    return ExtendedKey(held, ord(upper) if held & SHIFT and len(upper) == 1 and chr(code).isalpha() else code)


def answered(text: str) -> int | None:
    """Return the terminal's previous setting from its answer, 0 if it was off; None if the text is no answer."""
    found = ANSWER.fullmatch(text)
    return int(found[1] or 0) if found else None


def given_back(before: int) -> bytes:
    """Return the sequence that restores the terminal's previous setting."""
    return b"\x1b[>4;%dm" % before if before else b"\x1b[>4m"


def form_for(key: ExtendedKey, modes: list[str]) -> str:
    """Return the form of a key for a program with these modes; nothing for the usual form."""
    is_plain = not key.held or key.held == SHIFT and key.is_character()
    is_sent = not is_plain and (ALL in modes or SOME in modes and not key.is_told())
    return key.form() if is_sent else ""
