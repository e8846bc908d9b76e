"""The text of the last row: the parts cut on a narrow terminal, and the visible windows."""
import unittest

from roam_live.frontend.status_line import columns, cut, fitted, label_at, row_text, tail, window_label, windows_shown

# A text, a width, and the part that fits; a wide character takes two columns.
CUTS = (("abc", 5, "abc"), ("abc", 3, "abc"), ("abc", 2, "ab"), ("abc", 0, ""), ("abc", -1, ""), ("中文", 4, "中文"), ("中文", 3, "中"),
        ("中文", 1, ""), ("a中", 2, "a"), ("e\u0301e", 1, "e\u0301"), ("a\x1b[2Jb", 9, "a?[2Jb"), ("\u202eab\x07", 9, "?ab?"),
        ("\u200bab", 1, "?"))

LABELS = ["1:bash-", "2:vim*", "3:top#", "4:中文!"]

# The number of columns, the current window's label, and the visible text.
SHOWN = ((40, 1, "1:bash- 2:vim* 3:top# 4:中文!"), (29, 1, "1:bash- 2:vim* 3:top# 4:中文!"), (28, 1, "< 2:vim* 3:top# 4:中文!"),
         (23, 1, "< 2:vim* 3:top# 4:中文!"), (22, 1, "< 2:vim* 3:top# >"), (16, 1, "1:bash- 2:vim* >"), (10, 1, "< 2:vim* >"),
         (9, 1, "2:vim*"), (6, 1, "2:vim*"), (4, 1, "2:vi"), (0, 1, ""), (18, 0, "1:bash- 2:vim* >"), (9, 0, "1:bash- >"),
         (18, 3, "< 3:top# 4:中文!"), (9, 3, "< 4:中文!"), (8, 3, "4:中文!"), (6, 3, "4:中文"), (5, 3, "4:中"))

# The panes, the text at the end, the width, and the row, without trailing blanks.
ROWS = (("[1] 2 ", "", 40, "[1] 2  1:bash- 2:vim* 3:top# 4:中文!"), ("[1] 2 ", "", 30, "[1] 2  < 2:vim* 3:top# 4:中文!"), ("[1]", "", 3, "[1]"),
        ("[1]", "", 2, "[1"), ("", "", 30, "1:bash- 2:vim* 3:top# 4:中文!"), ("[1]", "C-b r fits", 30, "[1] < 2:vim* >      C-b r fits"),
        ("[1]", "C-b r fits", 14, "[1] C-b r fits"), ("[1]", "C-b r fits", 13, "   C-b r fits"), ("[1]", "C-b r fits", 9, "[1] 2:vim"))


class LastRow(unittest.TestCase):
    """The contents of the row."""

    def test_cut(self):
        for text, width, wanted in CUTS:
            self.assertEqual(cut(text, width), wanted, (text, width))
            self.assertEqual(fitted(text, max(0, width)), wanted + " " * (max(0, width) - columns(wanted)))

    def test_bounded(self):
        """No text has more characters than a row has room for, whatever shares one cell."""
        self.assertEqual((len(cut("a" + "\u0301" * 9999, 10)), len(tail("\u0301" * 9999, 10)), tail("abc中", 3)), (40, 40, "c中"))

    def test_windows(self):
        """If not all fit those around the current one are shown, with marks."""
        for width, place, wanted in SHOWN:
            self.assertEqual(windows_shown(LABELS, place, width), wanted, (width, place))
        self.assertEqual((windows_shown([], 0, 9), window_label(3, "", "*"), window_label(3, "a b", "")), ("", "3*", "3:a b"))

    def test_pointed(self):
        """A label that is shown whole has its columns, a wide character two."""
        text = row_text("[1]", LABELS, 1, "", 40)
        found = [label_at(text, LABELS, 3, col) for col in range(1, 41)]
        self.assertEqual(found, [None] * 4 + [0] * 7 + [None] + [1] * 6 + [None] + [2] * 6 + [None] + [3] * 7 + [None] * 7)
        labels = ["1:sh", "2:sh*", "11:sh", "22:sh"]
        self.assertEqual([label_at("< 2:sh* 11:sh >", labels, 0, col) for col in (1, 3, 9, 10, 14)], [None, 1, 2, 2, None])
        self.assertEqual(label_at("< 11:sh >", labels, 0, 4), 2)

    def test_many(self):
        """Of 99 windows the current one is visible at any width."""
        labels = [window_label(number, "sh", "*" * (number == 50)) for number in range(1, 100)]
        for width in range(6, 200):
            shown = windows_shown(labels, 49, width)
            self.assertTrue("50:sh*" in shown and columns(shown) <= width, width)

    def test_row(self):
        """The key that fits the session has precedence over the panes, and these over the windows."""
        for panes, end, width, wanted in ROWS:
            self.assertEqual(row_text(panes, LABELS, 1, end, width).rstrip(" "), wanted, (panes, end, width))
        for width in range(1, 60):
            self.assertEqual(columns(row_text("[1] 2 ", LABELS, 1, "12:00", width)), width)
