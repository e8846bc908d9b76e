"""Impossible acts, with known pane positions."""
import unittest

from roam_live.cli.send import wrong_in
from roam_live.protocol.panes import Places, Rect

ONE = Places({1: Rect(1, 1, 23, 80)}, 1)
TWO = Places({1: Rect(1, 1, 23, 39), 2: Rect(1, 41, 23, 40)}, 2)
NINE = Places({pane: Rect(1, 1, 50, 50) for pane in range(1, 10)}, 1)
SMALL = Places({1: Rect(1, 1, 4, 8)}, 1)

# Possible acts, and impossible ones with the reason. The limits are those of roam(1).
DONE = (
    (ONE, ["char 61", "key return", "split right", "focus 2", "size 24 80", "close"]), (ONE, ["size 4 8"]), (ONE, ["size 200 500"]),
    (ONE, ["view -500", "next"]), (TWO, ["focus 1", "grow 5", "close"]), (ONE, ["split right", "split down", "focus 3", "focus 1"]),
    (TWO, ["close", "split down", "focus 2"]), (None, ["focus 7", "close", "split right"]), (TWO, ["next", "close"]),
    (NINE, ["close", "split right"]), (TWO, ["next", "close", "focus 1"]), (TWO, ["next", "close", "focus 2", "split right", "focus 9"]),
)
NOT_DONE = (
    (ONE, ["size 1 1"], "cannot do 'size 1 1': a session has 4 to 200 rows and 8 to 500 columns"),
    (ONE, ["size 201 80"], "cannot do 'size 201 80': a session has 4 to 200 rows and 8 to 500 columns"),
    (None, ["size 24 7"], "cannot do 'size 24 7': a session has 4 to 200 rows and 8 to 500 columns"),
    (ONE, ["char 61", "focus 7"], "cannot do 'focus 7': there is no pane 7"),
    (ONE, ["split right", "focus 3"], "cannot do 'focus 3': there is no pane 3"),
    (ONE, ["close"], "cannot do 'close': the last pane ends with its shell"),
    (TWO, ["close", "focus 2"], "cannot do 'focus 2': there is no pane 2"),
    (TWO, ["close", "close"], "cannot do 'close': the last pane ends with its shell"),
    (ONE, ["grow 1"], "cannot do 'grow 1': there is only one pane"),
    (NINE, ["split down"], "cannot do 'split down': a window has at most 9 panes"),
    (SMALL, ["split down"], "cannot do 'split down': pane 1 is too small to split: 4 by 8"),
    (SMALL, ["split right"], "cannot do 'split right': pane 1 is too small to split: 4 by 8"),
)


class Acts(unittest.TestCase):
    """`wrong_in`."""

    def test_done(self):
        for places, acts in DONE:
            self.assertEqual(wrong_in(acts, places), "", acts)

    def test_not_done(self):
        for places, acts, wrong in NOT_DONE:
            self.assertEqual(wrong_in(acts, places), wrong, acts)


if __name__ == "__main__":
    unittest.main()
