"""The contents of the last row and of a notice, as functions of values."""
import unittest

from roam_live.config.styled_text import ROW_STYLE, Styled
from roam_live.frontend.display import notice_page
from roam_live.frontend.last_row import row_cells, row_parts
from roam_live.frontend.status_line import said

NOTHING = ([], "", [])
FITS = "C-b r fits"


class Labels(unittest.TestCase):
    """The labels of panes and windows."""

    def test_parts(self):
        """The status texts of a settings file are cut to a third at the left and to half at the right, which gives way to the key that
        fits.
        """
        left, right = [Styled("0;7", "left" * 9)], [Styled("0;7", "right" * 9)]
        for labels, ends, width, parts in (
            (("[1]", ([], 0), "", ""), ([], []), 9, ("", "[1]      ", "")),
            (("[1]", (["1:a", "2:b*"], 1), "", ""), ([], []), 16, ("", "[1] 1:a 2:b*    ", "")),
            (("[1]", ([], 0), "", FITS), ([], []), 16, ("", f"[1]   {FITS}", "")),
            (("[1]", ([], 0), "64 of 64", FITS), ([], []), 30, ("", f"[1]        64 of 64 {FITS}", "")),
            (("[1]", ([], 0), "", ""), (left, right), 24, ("leftleft", "[1] ", "rightrightri")),
            (("[1]", ([], 0), "", FITS), (left, right), 24, ("leftleft", f"[1]   {FITS}", "")),
        ):
            found = row_parts(*labels, ends, width)
            self.assertEqual((said(found[0]), found[1], said(found[2])), parts, (labels, width))
            self.assertEqual(sum(map(len, (said(found[0]), found[1], said(found[2])))), width)

    def test_row_cells(self):
        """The row's own parts keep their styles; another line is reversed, and a typed one is followed by the cursor's cell."""
        parts = [Styled("0;7;31", "a ")], "[1]  ", [Styled("0;7;32", " z")]
        for given, text, is_typed, cells in (
            (parts, "a [1]   z", False, [Styled("0;7;31", "a "), Styled(ROW_STYLE, "[1]  "), Styled("0;7;32", " z")]),
            (parts, "told", False, [Styled(ROW_STYLE, "told     ")]),
            (NOTHING, "far too long a line", False, [Styled(ROW_STYLE, "far too l")]),
            (NOTHING, "(x) ab", True, [Styled(ROW_STYLE, "(x) ab"), Styled("27", " "), Styled("7", "  ")]),
            (NOTHING, "(x) abcdefgh", True, [Styled(ROW_STYLE, "abcdefgh"), Styled("27", " "), Styled("7", "")]),
        ):
            self.assertEqual(row_cells(given, text, is_typed, 9), cells, text)
            self.assertEqual(sum(len(cell.text) for cell in cells), 9)


class Notices(unittest.TestCase):
    """Lines in place of a session."""

    def test_page(self):
        """Text that does not fit is cut, or scrolls above a foot; no control character is shown."""
        text, foot = "\n".join("abcde"), "{} to {} of {}"
        for size, first, foot, page in (
            ((9, 9), 0, foot, (list("abcde"), 0, 0)), ((5, 9), 3, foot, (list("abcde"), 0, 0)),
            ((3, 20), 0, "", (list("abc"), 0, 0)), ((1, 20), 0, foot, (["a"], 0, 0)),
            ((3, 20), 0, foot, (["a", "b", "1 to 2 of 5"], 0, 3)), ((3, 20), 2, foot, (["c", "d", "3 to 4 of 5"], 2, 3)),
            ((3, 20), 9, foot, (["d", "e", "4 to 5 of 5"], 3, 3)), ((3, 5), 0, foot, (["a", "b", "1 to"], 0, 3)),
        ):
            self.assertEqual(notice_page(text, size, first, foot), page, (size, first))
        self.assertEqual(notice_page("one two\x1b three", (9, 9), 0, "")[0], ["one two?", "three"])
