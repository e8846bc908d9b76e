"""The list of bound keys, and its scrolling if it does not fit."""
import unittest

from aids import Case
from roam_live.commands.table import DEFAULT_KEYS
from roam_live.config.loader import Binding
from roam_live.frontend.bindings import help_of, help_with
from test_display import Person

OWN = {
    ("prefix", "r"): Binding([["display-message", "my own"]], False), ("prefix", "|"): Binding([["split-window", "-h"]], False),
    ("prefix", "x"): None, ("prefix", "M-left"): Binding([["next-window"], ["send-keys", "ls", "Enter"]], True),
    ("root", "f5"): Binding([["new-window"]], False),
}


def keys_under(text, title):
    """Return the lines with a title, by their first columns."""
    lines = text.split("\n")
    begin = lines.index(title) + 1
    found = {}
    for line in lines[begin:]:
        if not line.startswith("  "):
            break
        found[line[2:12].strip()] = line[13:].strip()
    return found


class Texts(unittest.TestCase):
    """The text."""

    def test_none(self):
        self.assertEqual(help_of("C-a", {}), help_with("C-a"))

    def test_own(self):
        """The bindings of the file come first, and none of their keys is among the others."""
        text = help_of("C-a", OWN)
        self.assertEqual(keys_under(text, "C-a and then, by roam.conf:"),
                         {"r": "display-message 'my own'", "|": "split-window -h", "x": "nothing",
                          "M-Left": "next-window; send-keys ls Enter"})
        self.assertEqual(keys_under(text, "without it, by roam.conf:"), {"F5": "new-window"})
        others = text.partition("by default:\n")[2]
        keys = [key for line in others.split("\n") for key in line.partition(": ")[0].split()]
        self.assertNotIn("x", keys)
        self.assertNotIn("r", keys)
        self.assertIn("  % \"        split-window -h, -v: split the pane\n", others)
        self.assertIn("  c          new-window: open a window\n", others)
        self.assertTrue(others.endswith("  C-a        type C-a itself"))
        for key in DEFAULT_KEYS:
            self.assertTrue(key in ("x", "r", ":") or key in keys, key)
        self.assertIn("  :          command-prompt: ask for a command\n", others)

    def test_typed(self):
        """Bindings by typed commands are listed too."""
        self.assertIn("C-b and then, by roam.conf or C-b :bind:\n", help_of("C-b", OWN, True))

    def test_all(self):
        """If all keys are unbound there are no others."""
        text = help_of("C-b", {("prefix", "all"): None, ("prefix", "c"): Binding([["new-window"]], False)})
        self.assertEqual(text, "C-b and then, by roam.conf:\n  all others nothing\n  c          new-window")


class Shown(Case):
    """At a terminal."""

    def setUp(self):
        self.stop_clock()

    def shown(self, person):
        """Return the last output."""
        text, person.display.outer.waiting = bytes(person.display.outer.waiting), bytearray()
        return text.decode()

    def test_scrolls(self):
        """On a small terminal it scrolls, and another key leaves; the last row says so."""
        person = Person(10, 80)
        person.keyboard.fed(b"\x02?")
        text = self.shown(person)
        lines = help_with("C-b").split("\n")
        self.assertIn(lines[8], text)
        self.assertNotIn(lines[9], text)
        self.assertIn(f"1 to 9 of {len(lines)}: arrows, PgUp and PgDn scroll, another key leaves", text)
        person.keyboard.fed(b"\x1b[B")
        self.assertIn(f"2 to 10 of {len(lines)}", self.shown(person))
        person.keyboard.fed(b"\x1b[6~")
        self.assertIn(f"11 to 19 of {len(lines)}", self.shown(person))
        person.keyboard.fed(b"G")
        text = self.shown(person)
        self.assertIn(lines[-1], text)
        self.assertIn(f"{len(lines) - 8} to {len(lines)} of {len(lines)}", text)
        person.keyboard.fed(b"g")
        self.assertIn("1 to 9 of", self.shown(person))
        person.keyboard.fed(b"q")
        self.assertEqual(person.display.notice, "")

    def test_fits(self):
        """If it fits any key leaves."""
        for key in (b"\x1b[B", b" ", b"q"):
            person = Person(24, 80)
            person.keyboard.fed(b"\x02?")
            self.assertNotIn("scroll, another", self.shown(person))
            person.keyboard.fed(key)
            self.assertEqual(person.display.notice, "")

    def test_own(self):
        person = Person(40, 80)
        person.modes.keymap.own = OWN
        person.keyboard.fed(b"\x02?")
        self.assertIn("C-b and then, by roam.conf:", self.shown(person))
        person.keyboard.fed(b"j")
        self.assertEqual(person.display.notice, "")


if __name__ == "__main__":
    unittest.main()
