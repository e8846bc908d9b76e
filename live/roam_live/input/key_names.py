"""Keys by tmux's names (tmux(1), key bindings), such as `C-c`, `M-Left`, `Enter` and `F5`, and the acts that type them."""
from __future__ import annotations

from roam_live.common.named_fields import NamedFields
from roam_live.common.text import printable
from roam_live.input.keys import Key, acts_of

# The modifiers of a key, with their values in xterm's sequence parameter (ctlseqs, PC-style function keys).
HELD = {"S": 1, "M": 2, "C": 4}
SHIFT, META, CONTROL = HELD["S"], HELD["M"], HELD["C"]


class NamedKey(NamedFields):
    """A key: the sum of its modifiers from `HELD`, and its name, which for a character is the character."""

    held: int
    name: str


# Other names of the same keys, in lower case: case doesn't matter in a name.
NAMES = {
    "ic": "insert", "dc": "delete", "npage": "pagedown", "pgdn": "pagedown", "ppage": "pageup", "pgup": "pageup", "return": "enter",
    **{name: name for name in ("insert", "delete", "pagedown", "pageup", "enter", "escape", "tab", "btab", "space", "bspace", "home", "end",
                               "up", "down", "left", "right", "kpenter", "kp/", "kp*", "kp-", "kp+", "kp.")},
    **{f"kp{digit}": f"kp{digit}" for digit in range(10)},
    **{f"f{number}": f"f{number}" for number in range(1, 21)},
}

# The keys with an act of their own.
OWN = {
    "up": "up", "down": "down", "left": "left", "right": "right", "home": "find", "end": "select", "insert": "insert", "delete": "remove",
    "pageup": "prev", "pagedown": "next", "enter": "return", "bspace": "backspace", "kpenter": "padenter", "kp-": "padminus",
    "kp.": "padperiod",
    **{f"kp{digit}": f"pad{digit}" for digit in range(10)},
    **{f"f{number}": f"pf{number}" for number in range(1, 5)},
    **{f"f{number}": f"f{number}" for number in range(6, 21)},
}

# The characters of other keys, and xterm's sequences, in which a parameter encodes the modifiers.
CHARACTERS = {"escape": "\x1b", "tab": "\t", "space": " ", "enter": "\r", "bspace": "\x7f", "kp/": "/", "kp*": "*", "kp+": "+"}
LETTERS = {"up": "A", "down": "B", "right": "C", "left": "D", "home": "H", "end": "F", "f1": "P", "f2": "Q", "f3": "R", "f4": "S"}
NUMBERS = {"insert": 2, "delete": 3, "pageup": 5, "pagedown": 6, "f5": 15, "f6": 17, "f7": 18, "f8": 19, "f9": 20, "f10": 21, "f11": 23,
           "f12": 24, "f13": 25, "f14": 26, "f15": 28, "f16": 29, "f17": 31, "f18": 32, "f19": 33, "f20": 34}
BACK_TAB = "\x1b[Z"

# The digits that type controls with Ctrl, as on a VT220 (its keyboard's table of control codes).
DIGITS = {"2": "\0", "3": "\x1b", "4": "\x1c", "5": "\x1d", "6": "\x1e", "7": "\x1f", "8": "\x7f"}


def named_key(word: str) -> NamedKey | None:
    """Return the key of a name; None if it is invalid. `^c` is `C-c`, and `BTab` is `S-Tab`."""
    held = 0
    while len(word) > 2 and word[1] == "-" and word[0].upper() in HELD:
        held, word = held | HELD[word[0].upper()], word[2:]
    if len(word) == 2 and word[0] == "^":
        held, word = held | CONTROL, word[1:]
    if len(word) == 1 and word.isprintable():
        return NamedKey(held, "space" if word == " " else word)
    name = NAMES.get(word.lower())
    if name == "btab":
        return NamedKey(held | SHIFT, "tab")
    return NamedKey(held, name) if name else None


def controlled(letter: str) -> str | None:
    """Return the control character that Ctrl types with a character; None if there is none."""
    if letter in DIGITS:
        return DIGITS[letter]
    if letter in " @":
        return "\0"
    if letter == "?":
        return "\x7f"
    code = ord(letter.upper())
    return chr(code & 0x1F) if 0x41 <= code <= 0x5F else None


def text_of(key: NamedKey) -> str | None:
    """Return the text that xterm sends for a key without an act of its own; None if it sends nothing distinct."""
    bare = key.held & ~META
    letter = CHARACTERS.get(key.name) or (key.name if len(key.name) == 1 else "")
    if key.name == "tab" and bare == SHIFT:
        text: str | None = BACK_TAB
    elif letter:
        # Shift is already in the character, and with others it sends none.
        is_control = bare & CONTROL and not bare & SHIFT
        text = controlled(letter) if is_control else letter if not bare else None
    elif key.name in LETTERS:
        return f"\x1b[1;{1 + key.held}{LETTERS[key.name]}" if key.held else f"\x1bO{LETTERS[key.name]}"
    elif key.name in NUMBERS:
        return f"\x1b[{NUMBERS[key.name]}" + (f";{1 + key.held}" if key.held else "") + "~"
    else:
        return None
    return text if text is None or not key.held & META else f"\x1b{text}"


def acts_named(word: str) -> list[str]:
    """Return the acts that type the key of a name; none for an unknown name or a key that sends nothing."""
    key = named_key(word)
    if not key:
        return []
    if not key.held and key.name in OWN:
        return [f"key {OWN[key.name]}"]
    text = text_of(key)
    return [] if text is None else acts_of(Key("text", text))


def acts_of_word(word: str) -> list[str]:
    """Return the acts that type a word: the key of that name, else its characters, with a line feed as a return.

    ValueError for a key that sends nothing.
    """
    acts = acts_named(word)
    if not acts and named_key(word):
        raise ValueError(f"{printable(word)[:40]} names a key that sends nothing; -l types its characters")
    return acts or acts_of(Key("text", word.replace("\r\n", "\r").replace("\n", "\r")))


def named(key: NamedKey) -> str:
    """Return the canonical name of a key: its modifiers, and its name in lower case. With Ctrl, case does not count."""
    name = key.name.lower() if key.held & CONTROL else key.name
    return "".join(f"{letter}-" for letter in "CMS" if key.held & HELD[letter]) + name


# The names of keys from a terminal (module keys) by their names here, and the sequences without a name there.
TYPED_NAMES = {own: name for name, own in OWN.items() if name not in ("enter", "bspace")}
SEQUENCES = {
    text: named(NamedKey(held, name))
    for held in range(1, 8) for name in (*LETTERS, *NUMBERS) if (text := text_of(NamedKey(held, name))) is not None
}
SEQUENCES.update({BACK_TAB: "S-tab", "\x1b[15~": "f5"})
WITH_META = "M-"
CONTROLS = {"\r": "enter", "\t": "tab", "\x1b": "escape", "\x7f": "bspace", " ": "space", "\0": "C-space"}


def names_of_key(key: Key) -> list[str]:
    """Return the names of a typed key; the first bound one counts.

    Some terminals report modifiers, and others send the same text for several keys.
    """
    told = [named(NamedKey(key.extended.named_held(), key.extended.name()))] if key.extended else []
    return list(dict.fromkeys(filter(None, [*told, name_of_key(key)])))


def typed_name(name: str) -> str:
    """Return the name of a key as it comes from a terminal, from its name here."""
    if name in OWN:
        return OWN[name]
    controls = {known: letter for letter, known in CONTROLS.items()}
    return controls.get(name) or (chr(ord(name[2].upper()) & 0x1F) if len(name) == 3 and name.startswith("C-") else name)


# The spelling of names for users; in others the first letter is a capital one.
SPELLED = {"pageup": "PageUp", "pagedown": "PageDown", "bspace": "BSpace", "kpenter": "KPEnter"}


def spelled(key: Key) -> str:
    """Return the name of a key for users, such as `M-Left`, `C-a` or `F5`; `this key` if it has none."""
    name = next(iter(names_of_key(key)), "")
    return spelled_name(name) if name else "this key"


def spelled_name(name: str) -> str:
    """Return a key's name for users."""
    held, last = (name[:-1], name[-1]) if name.endswith("-") else (name[: name.rfind("-") + 1], name[name.rfind("-") + 1 :])
    if len(last) == 1:
        return name
    return held + (SPELLED.get(last) or (last.upper() if last.startswith("kp") else last.capitalize()))


def name_of_key(key: Key) -> str:
    """Return the name of a key as most terminals report it; nothing if it has none here."""
    if key.name in TYPED_NAMES:
        return TYPED_NAMES[key.name]
    if key.name in CONTROLS:
        return CONTROLS[key.name]
    if key.name.startswith(WITH_META) and len(key.name) > len(WITH_META):
        rest = name_of_key(Key(key.name[len(WITH_META) :], key.text[1:]))
        return f"C-M-{rest[2:]}" if rest.startswith("C-") else f"M-{rest}" if rest else ""
    if len(key.name) == 1:
        return key.name if key.name.isprintable() else f"C-{chr(ord(key.name) | 0x40).lower()}" if key.name < " " else ""
    return key.name if key.name.startswith("C-") else SEQUENCES.get(key.text, "")
