"""Lines of other processes are parsed by words: each line that these patterns allow is taken, and no other."""
import random
import re

from aids import Case
from roam_live.frontend.windows import opened_by
from roam_live.frontend.windows_client import WindowsState
from roam_live.protocol.panes import PanesState

PANES = (r"[1-9](?: \d{1,4}){4} \d{1,19}|[1-9] gone|focus [1-9]|(?:clients|watchers) \d{1,4}(?: of \d{1,4})?"
         r"|modes [1-9] \d{1,19}(?: [a-z0-9]{1,16}){0,16}|shape [1-9] \d{1,19} [0-6]|title [1-9] \d{1,19} (?:[0-9a-f]{2}){0,800}"
         r"|bell [1-9] \d{1,19}|clip [1-9] \d{1,19} (?:[A-Za-z0-9+/]{4}){0,32767}"
         r"(?:[A-Za-z0-9+/]{4}|[A-Za-z0-9+/]{3}=|[A-Za-z0-9+/]{2}==)?")
WINDOWS = (r"window [1-9]\d? (?:-|(?:[0-9a-f]{2}){1,256})|gone [1-9]\d?|windows \d{1,2}|bell [1-9]\d? [1-9]|activity [1-9]\d?"
           r"|runs [1-9]\d? .{1,255}")
OPENED = r"opened (?:[1-9]\d?|none .{1,200})"

# Lines at the limits of the patterns.
LINES = """1 1 1 23 80 1|9 9999 9999 9999 9999 9999999999999999999|0 1 1 23 80 1|1 1 1 23 80 10000000000000000000
1 1 1 23 10000 1|1 1 1 23 80|1 1 1 23 80 1 1|1 1 1 23 80 |1 gone|0 gone|1 gone |1 gone 1|10 gone|focus 1|focus 0
focus 10|focus|focus 1 |clients 1|clients 1 of 64|clients 1 of|clients 1 off 64|clients 10000|clients 1 of 64 
watchers 0 of 16|watchers|modes 1 1|modes 1 1 |modes 1 1 a|modes 1 1 A|modes 1 1 a  b|modes 0 1 a|modes 1 1 a1 b2
modes 1 1 a_|shape 1 1 0|shape 1 1 7|shape 1 1|shape 1 1 |shape 1 1 00|title 1 1 |title 1 1|title 1 1 a|title 1 1 ab
title 1 1 AB|title 1 1 ab cd|bell 1 1|bell 1 |bell 1 1 1|bell 1|clip 1 1 |clip 1 1|clip 1 1 YQ==|clip 1 1 YQ=
clip 1 1 YWI=|clip 1 1 YWJj|clip 1 1 YW Jj|window 1 -|window 99 ab|window 100 -|window 0 -|window 1 |window 1
window 1 a|window 1 AB|window 1 ab |window 01 -|gone 1|gone 100|gone 1 1|gone 01|windows 1|windows 00|windows 100
windows |windows|windows 1 1|bell 1 9|bell 1 0|bell 12 3|activity 1|activity 1 |activity 1 1|activity 0|runs 1 a b
runs 1 |runs 1|runs 0 a|runs 99 x|opened 1|opened 99|opened 0|opened 100|opened 01|opened none |opened none a b
opened none|opened 1 a|opened""".replace("\n", "|").split("|")
LINES += [f"modes 1 1{' a' * count}" for count in (16, 17)] + [f"modes 1 1 {'a' * count}" for count in (16, 17)]
LINES += [f"title 1 1 {'ab' * count}" for count in (800, 801)] + [f"window 1 {'ab' * count}" for count in (256, 257)]
LINES += [f"runs 1 {'x' * count}" for count in (255, 256)] + [f"opened none {'x' * count}" for count in (200, 201)]
LINES += ["runs 1 a\nb", "opened none a\nb", "1 1 1 23 80 \u0661", "focus \u0661", "clients \u00b2", "modes 1 1 \u00e9", "windows \u0661",
          "bell 1 \u0661"]


class Told(Case):
    """The readers of such lines."""

    def agree(self, line):
        """Check that a line is taken exactly if the patterns allow it."""
        for pattern, takes in ((PANES, PanesState().take(line)), (WINDOWS, WindowsState().take(line) is not None),
                               (OPENED, opened_by(line) is not None)):
            self.assertEqual(takes, re.fullmatch(pattern, line, re.ASCII) is not None, (pattern[:20], line))

    def test_borders(self):
        """Lines at the limits are read right."""
        for line in LINES:
            self.agree(line)

    def test_random(self):
        """Lines that are almost valid are read right."""
        told = random.Random(7)
        for _ in range(20000):
            line = list(told.choice(LINES)[:60])
            for _ in range(told.randint(1, 3)):
                place = told.randint(0, len(line))
                line[place : place + told.randint(0, 2)] = told.choice(("", " ", "1", "0", "a", "9", "A", "-", "=", "gone", "\n", "\u0663"))
            self.agree("".join(line))
