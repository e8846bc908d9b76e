"""Bytes of the outer terminal as keys, and keys as acts. It accepts the spellings of xterm, the VT220, and terminals in between."""
from __future__ import annotations

import codecs

from roam_live.common.named_fields import NamedFields
from roam_live.common.patterns import LazyPattern
from roam_live.input.extended_keys import ANSWERED, BEGIN as BEGINS_ANSWER, META, ExtendedKey, answered, extended_key
from roam_live.input.mouse_reports import BEGIN, FOCUS_REPORTS, FOCUSED, MOUSE
from roam_live.protocol.colours import BEGINS, COLOUR, FORM, begun_at


class Key(NamedFields):
    """A key: its name, which for a character is the character, the text that terminals send for it, and its reported modifiers."""

    name: str
    text: str
    extended: ExtendedKey | None = None

    def __new__(cls, name: str, text: str, extended: ExtendedKey | None = None) -> Key:
        # Each typed key makes one.
        return tuple.__new__(cls, (name, text, extended))


# The keys with an act of their own. Their bytes for a pane's program depend on its modes.
NUMBERED = {1: "find", 2: "insert", 3: "remove", 4: "select", 5: "prev", 6: "next", 7: "find", 8: "select", 17: "f6", 18: "f7", 19: "f8",
            20: "f9", 21: "f10", 23: "f11", 24: "f12", 25: "f13", 26: "f14", 28: "f15", 29: "f16", 31: "f17", 32: "f18", 33: "f19",
            34: "f20", 11: "pf1", 12: "pf2", 13: "pf3", 14: "pf4"}
CURSOR = {"A": "up", "B": "down", "C": "right", "D": "left", "H": "find", "F": "select"}
SHIFTED = {**CURSOR, "P": "pf1", "Q": "pf2", "R": "pf3", "S": "pf4", "M": "padenter", "l": "padcomma", "m": "padminus", "n": "padperiod",
           **{letter: f"pad{digit}" for digit, letter in enumerate("pqrstuvwxy")}}
LINUX = {"A": "pf1", "B": "pf2", "C": "pf3", "D": "pf4"}
CONTROLLED = {"A": "C-up", "B": "C-down", "C": "C-right", "D": "C-left"}

SPELLINGS = {
    **{f"\x1b[{number}~": name for number, name in NUMBERED.items()},
    **{f"\x1b[{letter}": name for letter, name in CURSOR.items()},
    **{f"\x1bO{letter}": name for letter, name in SHIFTED.items()},
    **{f"\x1b[[{letter}": name for letter, name in LINUX.items()},
    **{f"\x1b[1;5{letter}": name for letter, name in CONTROLLED.items()},
    **{f"\x1bO{letter.lower()}": name for letter, name in CONTROLLED.items()},
}
# The key that interrupts a program, and that ends a user's wait.
INTERRUPT = "\x03"

# A paste begins and ends with these. Its text is one key named `text`, or several, as it arrives.
PASTE, PASTED = "\x1b[200~", "\x1b[201~"
SPELLINGS.update({PASTE: "paste", PASTED: "pasted"})
ACTS = {name for name in SPELLINGS.values() if not name.startswith("C-") and not name.startswith("paste")}
TYPED = {"\r": "key return", "\x7f": "key backspace"}

ESCAPE = "\x1b"

# A sequence, or a character; and the start of a sequence that may continue.
WHOLE = LazyPattern(rf"(?as){FORM}|\x1b\[\[[A-E]|\x1b\[[0-?]*[ -/]*[@-~]|\x1bO[ -~]|.")
BEGUN = LazyPattern(r"\x1b(\[\[?|\[[0-?]+[ -/]*|O)?")


class Keys:
    """Keys of a stream, however it is cut into chunks."""

    def __init__(self) -> None:
        self.decoder = codecs.getincrementaldecoder("utf-8")("replace")
        self.rest = ""
        self.is_pasting = False

    def fed(self, chunk: bytes) -> list[Key]:
        """Return the complete keys. An escape that may begin a sequence waits."""
        text, self.rest = self.rest + self.decoder.decode(chunk), ""
        if ESCAPE not in text and not self.is_pasting:
            return [Key(letter, letter) for letter in text]
        keys: list[Key] = []
        begin = 0
        while begin < len(text):
            name, mark = ("pasted", PASTED) if self.is_pasting else ("paste", PASTE)
            end = text.find(mark, begin)
            if end < 0:
                return keys + (self.pasted(text[begin:]) if self.is_pasting else self.typed(text[begin:]))
            if self.is_pasting:
                keys += [Key("text", text[begin:end])] * (begin < end)
            else:
                keys += keys_in(text[begin:end])
            keys.append(Key(name, mark))
            self.is_pasting = not self.is_pasting
            begin = end + len(mark)
        return keys

    def typed(self, text: str) -> list[Key]:
        """Return the keys of a text without the start of a paste. A partial sequence at its end waits."""
        answer = begun_at(text)
        cut = text.rfind("\x1b", max(0, len(text) - 32)) if answer is None else answer
        is_cut = answer is not None or cut >= 0 and BEGUN.fullmatch(text[cut:]) is not None
        self.rest = text[cut:] if is_cut else ""
        return keys_in(text[:cut] if is_cut else text)

    def pasted(self, text: str) -> list[Key]:
        """Return pasted text as one key. A partial end of the paste waits."""
        begun = next((length for length in range(len(PASTED) - 1, 0, -1) if text.endswith(PASTED[:length])), 0)
        before, self.rest = text[: len(text) - begun], text[len(text) - begun :]
        return [Key("text", before)] * bool(before)

    def waits(self) -> bool:
        """Return True if an escape waits for more bytes that may never come.

        Mouse reports and answers of the terminal always wait for the rest, however long that takes.
        """
        return self.rest != "" and not self.is_pasting and not self.rest.startswith((BEGIN, BEGINS_ANSWER, *BEGINS))

    def ended(self) -> list[Key]:
        """Return the keys of the waiting bytes if no more arrived in time."""
        text, self.rest = self.rest, ""
        return [Key(letter, letter) for letter in text]


def keys_in(text: str) -> list[Key]:
    """Return the keys of a text, with mouse reports and answers of the terminal. An unknown sequence is named as no key."""
    return [key_of(found[0]) for found in WHOLE.finditer(text)]


def key_of(text: str) -> Key:
    """Return the key of a character or a sequence. A sequence with modifiers becomes the key that other terminals send."""
    if len(text) == 1:
        return Key(text, text)
    extended = extended_key(text) if text.endswith(("~", "u")) else None
    if not extended:
        return Key(name_of(text), text)
    plain = extended.plain()
    name = name_of(plain)
    return Key(f"M-{name}", f"\x1b{plain}", extended) if extended.held & META else Key(name, plain, extended)


def name_of(text: str) -> str:
    """Return the name of a character or a sequence."""
    if text.startswith(BEGIN) and text[-1] in "Mm":
        return MOUSE
    if text.startswith(BEGINS):
        return COLOUR
    if text.startswith(BEGINS_ANSWER) and answered(text) is not None:
        return ANSWERED
    if text in FOCUS_REPORTS:
        return FOCUSED
    return text if len(text) == 1 else SPELLINGS.get(text, "unknown")


def acts_of(key: Key) -> list[str]:
    """Return the acts of a typed key: its own, or a character for each of its text."""
    if key.name in ACTS:
        return [f"key {key.name}"]
    return [TYPED.get(letter) or f"char {ord(letter):x}" for letter in key.text]


# The brackets around a paste, for a program with bracketed paste (xterm).
BRACKETS = tuple([f"char {ord(letter):x}" for letter in text] for text in (PASTE, PASTED))


def pasted_acts(text: str, is_bracketed: bool) -> list[str]:
    """Return the acts of a pasted text, in brackets if the program wants them.

    It contains no control character but TAB and CR, so it never ends its own brackets.
    """
    if not is_bracketed:
        return acts_of(Key("text", text))
    return [*BRACKETS[0], *(f"char {ord(letter):x}" for letter in text), *BRACKETS[1]]
