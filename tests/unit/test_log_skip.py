"""Rows that a log reader has got, and that leave once more at another width."""
from aids import Case
from roam_live.host.log_skip import LogSkip, without


class Skipped(Case):
    """The rows that a reader lacks."""

    def skip(self, *rows):
        """Return the part that a reader of these rows has got."""
        skip = LogSkip()
        skip.add(list(rows))
        return skip

    def test_lines(self):
        """Whole lines are counted by their ends, however many rows they have."""
        self.assertEqual(self.skip(b"+ab", b" cd", b"+ef", b" gh").rest([b" abcd", b" efgh", b" new"]), [b" new"])
        self.assertEqual(self.skip(b" abcd").rest([b"+ab", b" cd", b"+ne", b" w"]), [b"+ne", b" w"])

    def test_columns(self):
        """Of a line whose end hasn't come, as many columns are skipped as were sent."""
        self.assertEqual(self.skip(b" ab", b"+cde").rest([b" ab", b"+cd", b"+ef", b" g"]), [b"+f", b" g"])
        self.assertEqual(self.skip(b"+cde").rest([b"+cdef", b" g"]), [b"+f", b" g"])
        self.assertEqual(self.skip(b"+cd").rest([b"+cd", b" ef"]), [b" ef"])

    def test_wide(self):
        """Columns are counted, and styles stay."""
        self.assertEqual(without("+\u4e2d\x1b[1ma\x1b[0mb".encode(), 3), (b"+\x1b[1m\x1b[0mb", 0))
        self.assertEqual(without(b" ab", 5), (b" ", 3))

    def test_steps(self):
        """The rows may come in several steps, and be withdrawn once more meanwhile."""
        skip = self.skip(b" a", b" b", b"+cd")
        self.assertEqual(skip.rest([b" a"]), [])
        skip.add([b" a"])
        self.assertEqual((skip.lines, skip.columns), (2, 2))
        self.assertEqual(skip.rest([b" a", b" b", b"+c"]), [])
        self.assertEqual(skip.rest([b"+d", b" e"]), [b" e"])

    def test_short(self):
        """A line that ends before has nothing more to skip."""
        self.assertEqual(self.skip(b"+abcd").rest([b" abc", b" new"]), [b" new"])

    def test_none(self):
        self.assertEqual(LogSkip().rest([b" a"]), [b" a"])
