"""Keys by tmux's names, and the sequences of xterm and the VT220 that they type."""
import unittest

from roam_live.input.key_names import acts_named, named_key, spelled
from roam_live.input.keys import Key, keys_in


def characters(text):
    """Return the acts of characters."""
    return [f"char {ord(letter):x}" for letter in text]


# A name, and the acts.
TYPED = {
    "a": characters("a"), "A": characters("A"), "é": characters("é"), "中": characters("中"), "-": characters("-"), "^": characters("^"),
    "Space": characters(" "), " ": characters(" "), "Tab": characters("\t"), "Escape": characters("\x1b"), "Enter": ["key return"],
    "enter": ["key return"], "BSpace": ["key backspace"], "C-c": characters("\x03"), "c-C": characters("\x03"), "^c": characters("\x03"),
    "C-@": characters("\0"), "C-Space": characters("\0"), "C-[": characters("\x1b"), "C-\\": characters("\x1c"), "C-_": characters("\x1f"),
    "C-A": characters("\x01"), "C-z": characters("\x1a"),
    "C-?": ["key backspace"], "C-8": ["key backspace"], "C-2": characters("\0"), "M-x": characters("\x1bx"),
    "M-C-x": characters("\x1b\x18"), "C-M-x": characters("\x1b\x18"), "M-Enter": characters("\x1b")[:1] + ["key return"],
    "M-BSpace": characters("\x1b") + ["key backspace"],
    "BTab": characters("\x1b[Z"), "S-Tab": characters("\x1b[Z"), "M-BTab": characters("\x1b\x1b[Z"), "Up": ["key up"], "Home": ["key find"],
    "End": ["key select"], "IC": ["key insert"], "Insert": ["key insert"], "DC": ["key remove"], "Delete": ["key remove"],
    "PPage": ["key prev"], "PageUp": ["key prev"], "PgUp": ["key prev"], "NPage": ["key next"], "PageDown": ["key next"],
    "PgDn": ["key next"], "F1": ["key pf1"], "F4": ["key pf4"], "F5": characters("\x1b[15~"), "F6": ["key f6"], "F12": ["key f12"],
    "F20": ["key f20"], "KP0": ["key pad0"], "KP.": ["key padperiod"], "KP-": ["key padminus"], "KPEnter": ["key padenter"],
    "KP/": characters("/"), "KP*": characters("*"), "KP+": characters("+"), "C-Up": characters("\x1b[1;5A"),
    "S-Left": characters("\x1b[1;2D"), "C-S-Right": characters("\x1b[1;6C"), "M-Down": characters("\x1b[1;3B"),
    "C-Home": characters("\x1b[1;5H"), "S-F3": characters("\x1b[1;2R"), "C-DC": characters("\x1b[3;5~"),
    "S-PPage": characters("\x1b[5;2~"), "M-IC": characters("\x1b[2;3~"), "C-NPage": characters("\x1b[6;5~"),
    # The numbers are xterm's, and above 12 a VT220's.
    **{f"S-F{number}": characters(f"\x1b[{code};2~")
       for number, code in zip(range(5, 21), (15, 17, 18, 19, 20, 21, 23, 24, 25, 26, 28, 29, 31, 32, 33, 34))},
}

# Words that are no key, or one that sends nothing distinct.
NONE = ("", "C-", "Foo", "F0", "F21", "KP", "key up", "char 61", "close", "next", "\x1b", "\n", "ab", "C-C-", "C-1", "C-;", "S-a",
        "C-Enter", "S-Enter", "C-Tab", "S-KP0", "X-a", "^ab", "C-é")


class Names(unittest.TestCase):
    """Names of keys."""

    def test_typed(self):
        for name, acts in TYPED.items():
            self.assertEqual(acts_named(name), acts, name)

    def test_none(self):
        for name in NONE:
            self.assertEqual(acts_named(name), [], name)

    def test_same(self):
        for one, other in (("C-M-x", "m-c-x"), ("BTab", "S-Tab"), ("^c", "C-c"), ("PageUp", "PPage"), ("Space", " ")):
            self.assertEqual(named_key(one), named_key(other))

    def test_spelled(self):
        """A key is shown by its familiar name, also one that most terminals don't distinguish."""
        for text, told in (("\x02", "C-b"), ("\x1a", "C-z"), ("\x1c", "C-\\"), ("Z", "Z"), ("-", "-"), ("\x1b[A", "Up"), ("\x1b", "Escape"),
                           ("\x7f", "BSpace"), ("\r", "Enter"), (" ", "Space"), ("\0", "C-Space"), ("\x1b[5~", "PageUp"),
                           ("\x1b[15~", "F5"), ("\x1b[Z", "S-Tab"), ("\x1b[1;7D", "C-M-Left"), ("\x1b[27;5;9~", "C-Tab"), ("\x1bOp", "KP0"),
                           ("\x1b[99~", "this key"), ("\x1b[45;3u", "M--"), ("\u202e", "this key")):
            self.assertEqual(spelled(keys_in(text)[0]), told, text)
        self.assertEqual(spelled(Key("M--", "\x1b-")), "M--")


if __name__ == "__main__":
    unittest.main()
