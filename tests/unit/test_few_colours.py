"""Colours at terminals that have fewer than 256 of them."""
import subprocess
import sys
import unittest

from roam_live.common.process import TOOLS
from roam_live.frontend.few_colours import components, fewer, nearest
from roam_live.frontend.outer_terminal import has_colours

# What a terminal of a type gets for a painting, in a process of its own, since terminfo is read once for a process.
WRITTEN = """
import os, sys
sys.path.insert(0, sys.argv[1])
from roam_live.frontend.outer_terminal import fewer_colours
os.environ.pop("COLORTERM", None)
change = fewer_colours()
print(ascii(change(eval(sys.argv[2])) if change else None))
"""


def written(term: str, text: bytes) -> object:
    """Return the bytes that a terminal of a type gets; None if they stay as they are."""
    done = subprocess.run([sys.executable, "-c", WRITTEN, str(TOOLS), repr(text)],
                          env={"TERM": term, "PATH": "/usr/bin:/bin"}, stdout=subprocess.PIPE, check=True, text=True)
    return eval(done.stdout)


class Colours(unittest.TestCase):
    """The parameters of SGR by the number of colours, as terminfo(5) describes them and tmux writes them."""

    def test_parameters(self):
        """A colour is the nearest one there; a bright foreground is bold with 8 colours; without colours none is left."""
        for parameters, sixteen, eight, none in (
                (b"38;2;255;0;0", b"91", b"1;31", b"10"), (b"48;2;255;0;0", b"101", b"41", b"10"),
                (b"38;5;196", b"91", b"1;31", b"10"), (b"", b"0", b"0", b"0"),
                (b"0;1;38;2;0;0;0", b"0;1;30", b"0;1;30", b"0;1"), (b"34;45", b"34;45", b"34;45", b"10"),
                (b"95;106", b"95;106", b"1;35;46", b"10"), (b"7;39;49;27", b"7;39;49;27", b"7;39;49;27", b"7;27"),
                (b"38;5;9", b"91", b"1;31", b"10"), (b"38;5;999", b"37", b"37", b"10"),
                (b"48;5;232", b"40", b"40", b"10"), (b"38;9", b"9", b"9", b"9"), (b"38;2;1", b"2;1", b"2;1", b"2;1")):
            for count, wanted in ((16, sixteen), (8, eight), (-1, none)):
                self.assertEqual(b";".join(fewer(parameters, count)), wanted, (parameters, count))

    def test_components(self):
        """The cube of 6 by 6 by 6, and the greys, are xterm's."""
        for number, colour in ((16, (0, 0, 0)), (196, (255, 0, 0)), (110, (135, 175, 215)), (231, (255, 255, 255)), (232, (8, 8, 8)),
                               (255, (238, 238, 238))):
            self.assertEqual(components(number), colour)
        self.assertEqual([nearest(components(number)) for number in range(16)], list(range(16)))

    def test_types(self):
        """A type with many colours by its name, or COLORTERM, is never looked up."""
        for term, reported, is_able in (("xterm", "", True), ("tmux-256color", "", True), ("xterm-kitty", "", True),
                                        ("linux", "truecolor", True), ("linux", "", False), ("vt100", "", False),
                                        ("screen", "", False), ("", "", False)):
            self.assertEqual(has_colours(term, reported), is_able, term)

    def test_written(self):
        """Sequences other than SGR, and the text, stay as they are. A type without an entry gets everything."""
        text = b"\x1b[2;3H\x1b[0;38;2;255;0;0mred\x1b[m \x1b[38H\xc3\xa9"
        self.assertEqual(written("linux", text), b"\x1b[2;3H\x1b[0;1;31mred\x1b[0m \x1b[38H\xc3\xa9")
        self.assertEqual(written("vt100", text), b"\x1b[2;3H\x1b[0mred\x1b[0m \x1b[38H\xc3\xa9")
        self.assertEqual(written("nonsense", text), None)
        self.assertEqual(written("xterm-256color", text), None)


if __name__ == "__main__":
    unittest.main()
