"""The places in `protocol.datagram_layout`, and the copies of them in crates besides roam_wire, are those of docs/PROTOCOL.md."""
import pathlib
import re
import unittest

from roam_live.protocol import datagram_layout as layout
from test_figures import section, table

TOP = pathlib.Path(__file__).resolve().parents[2]
ROW = re.compile(r"^\| (\d+) \|(?: (\d+))? \| (.*) \|$", re.MULTILINE)

# The copies in crates: the file, a pattern of numbers, and their meaning. A crate that asks roam_wire instead needs none.
COPIES = (
    ("roam_stream_framing/src/queues.rt", r"const HEADER: usize = (\d+);", "header"),
    ("roam_stream_framing/src/queues.rt", r"const INDEX_AT: usize = (\d+);", "the index of the fragment"),
    ("roam_stream_framing/specs/Queues.antt", r"nat_le (\d+) \(length datagram\)", "header"),
    ("roam_stream_framing/specs/Queues.antt", r"big_number 2 \(drop (\d+) datagram\)", "the index of the fragment"),
    ("roam_stream_framing/src/frames.rt", r"const LONGEST_DATAGRAM: usize = (\d+);", "longest"),
    ("roam_stream_framing/specs/Frames.antt", r"^longest_datagram = (\d+)", "longest"),
    ("roam_attach/src/hosting.rt", r"datagram\.get\((\d+)\.\.40\)", "the count of fragments"),
    ("roam_attach/src/hosting.rt", r"datagram\.get\((\d+)\.\.50\)", "header"),
    ("roam_wire/src/headers.rt", r"const HEADER: usize = (\d+);", "header"),
    ("roam_wire/src/cutting.rt", r"const FRAGMENT: usize = (\d+);", "fragment"),
)


def page():
    """Return the page of the protocol."""
    return (TOP / "docs/PROTOCOL.md").read_text(encoding="utf-8")


def places(text):
    """Return the place and length of each number of the first table of a text, by the beginning of its meaning."""
    head = text.partition("\n\n**Reading")[0].partition("**To the server**")[0]
    return {what: (int(at), int(length or 0)) for at, length, what in ROW.findall(head)}


def place_of(table, meaning):
    """Return the place and length of a number whose meaning begins so."""
    return next(place for what, place in table.items() if what.startswith(meaning))


class Layout(unittest.TestCase):
    """The module beside the tables of the page."""

    header = places(section(page(), "## Datagrams"))
    to_client = places(section(page(), "## Instructions"))
    to_server = places(section(page(), "## Instructions").partition("**To the server**")[2])

    def demand(self, found, table, meaning):
        """Check the slice of a number."""
        at, length = place_of(table, meaning)
        self.assertEqual((found.start, found.stop), (at, at + length), meaning)

    def test_header(self):
        """The numbers of a header are at their places, and it ends behind the last one."""
        self.demand(layout.INSTRUCTION_PLACES, self.header, "the instruction's id")
        self.demand(layout.INDEX_PLACES, self.header, "the index of the fragment")
        self.assertEqual(layout.KIND_PLACE, place_of(self.header, "the kind")[0])
        last = place_of(self.header, "the fragment's length")
        self.assertEqual(layout.HEADER_BYTES, sum(last))
        text = bytes(range(layout.HEADER_BYTES))
        number = lambda meaning: int.from_bytes(text[place_of(self.header, meaning)[0] :][: place_of(self.header, meaning)[1]], "big")
        self.assertEqual(layout.ADDRESS_LAYOUT.unpack_from(text),
                         tuple(map(number, ("the version", "the kind", "the session's id", "the id of the client"))))
        self.assertEqual(layout.FRAGMENT_LAYOUT.unpack_from(text), tuple(map(number, ("the index", "the count of fragments"))))

    def test_instructions(self):
        """The numbers of instructions are at their places."""
        self.demand(layout.ACT_COUNT_PLACES, self.to_server, "the count of acts")
        self.assertEqual(layout.NUMBERS_END, place_of(self.to_client, "the diff")[0])

    def test_limits(self):
        """The page has the lengths, the letters and the kinds."""
        text = section(page(), "## Datagrams")
        self.assertIn(f"a header of {layout.HEADER_BYTES} bytes and a fragment of 1 to {layout.FRAGMENT_BYTES:,} bytes", text)
        self.assertIn(f"`{layout.LETTERS.hex(' ').upper()}`", text)
        self.assertIn(f"a length of 0 or above {layout.LONGEST:,}", text)
        kinds = next(what for what in self.header if what.startswith("the kind"))
        found = [int(one) for one in re.findall(r"\b(\d) to (?:a|the)", kinds)]
        self.assertEqual(found, [layout.TO_CLIENT, layout.READ_WRITE, layout.READ_ONLY])

    def test_diff(self):
        """A diff begins with its size and cursor. Without cells, that of version 2 is the longer one."""
        rows = table(section(page(), "## Diffs"))
        width = lambda name, text: sum(int(one.partition(":")[0]) for one in rows[name][text].split(", ")) if rows[name][text] else 0
        head = sum(width(name, 1) for name in ("rows, columns", "the cursor's row, column, from 1", "the cursor is visible"))
        bare = [head + sum(width(name, text) for name in ("the count of styles", "the count of runs")) for text in (0, 1)]
        self.assertEqual((layout.CURSOR_END - layout.NUMBERS_END, layout.BARE_BYTES - layout.NUMBERS_END), (head, max(bare)))

    @unittest.skipUnless((TOP / "crates/roam_wire/src").exists(), "a copy without the crates")
    def test_copies(self):
        """Each copy in a crate has the number of the page."""
        known = {"header": layout.HEADER_BYTES, "fragment": layout.FRAGMENT_BYTES, "longest": layout.LONGEST,
                 **{what: place for what, (place, _) in self.header.items()}}
        for file, pattern, meaning in COPIES:
            wanted = next(place for what, place in known.items() if what.startswith(meaning))
            found = re.findall(pattern, (TOP / "crates" / file).read_text(encoding="utf-8"), re.MULTILINE)
            self.assertTrue(all(int(one) == wanted for one in found), (file, pattern, found, wanted))

    def test_owner(self):
        """No other module of live/ unpacks a header by numbers of its own."""
        wrong = re.compile(r'b"RM"|>2xBB|>36x|slice\((?:28|36|38), |\b1_?242\b')
        others = [path for path in sorted((TOP / "live").rglob("*.py")) if path.name != "datagram_layout.py"]
        self.assertEqual([str(path.relative_to(TOP)) for path in others if wrong.search(path.read_text(encoding="utf-8"))], [])


if __name__ == "__main__":
    unittest.main()
