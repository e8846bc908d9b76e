"""Records of a stream, cut at each position, and invalid ones."""
import unittest

from roam_live.protocol import display_records
from roam_live.protocol.display_records import DisplayRecord, NoRecord, Records, screen_of

STREAM = (b"\x1bc painted\n before\nevents\nsize 24 80\npart 0 3\nanew 5\n\x1bc\na\npaint 3\n\n\ntrefused 3 bad act\ntaken 2\n"
          b"silent 11\nheard\nscreen 0\nfull\n")
RECORDS = [
    DisplayRecord("events"), DisplayRecord("size", (24, 80)), DisplayRecord("part", (0, 3)), DisplayRecord("anew", (5,), b"\x1bc\na\n"),
    DisplayRecord("paint", (3,), b"\n\nt"), DisplayRecord("refused", (3,), b"", "bad act"), DisplayRecord("taken", (2,)),
    DisplayRecord("silent", (11,)), DisplayRecord("heard"), DisplayRecord("screen", (0,)), DisplayRecord("full"),
]


class TestRecords(unittest.TestCase):
    def test_cut(self) -> None:
        """Wherever the stream is cut, the records are the same, each once and in order."""
        for first in range(len(STREAM) + 1):
            records = Records()
            found = records.came(STREAM[:first]) + records.came(STREAM[first:])
            self.assertEqual(found, RECORDS, first)
        records = Records()
        self.assertEqual([record for byte in STREAM for record in records.came(bytes([byte]))], RECORDS)

    def test_full(self) -> None:
        """A start without room says so before anything else."""
        records = Records()
        self.assertEqual(records.came(b"fu"), [])
        self.assertEqual(records.came(b"ll\n"), [DisplayRecord("full")])

    def test_bounded(self) -> None:
        """Output before the first record is dropped, however long it is."""
        records = Records()
        for _ in range(100):
            self.assertEqual(records.came(b"full\n" * 1000), [])
            self.assertLess(len(records.kept.kept), 64)
        self.assertEqual(records.came(display_records.BEGIN), [DisplayRecord("events")])

    def test_none(self) -> None:
        """An invalid record is reported, without a wait."""
        for line in (b"what\n", b"size 1\n", b"size 1 2 3\n", b"size 01 2\n", b"size -1 2\n", b"size \xd9\xa1 2\n", b"taken 1_0\n",
                     b"paint 99999999\n", b"taken 111111111111111111111\n", b"heard 1\n", b"\xff\n", b"x" * 600, b"\n"):
            records = Records()
            records.came(display_records.BEGIN)
            with self.assertRaises(NoRecord, msg=line):
                records.came(line)


class TestScreen(unittest.TestCase):
    def test_screen(self) -> None:
        screen = screen_of("2 4 1 3 visible\na\x1f中\x1f\x1f \n \x1fe\u0301\x1f \x1f \n".encode())
        self.assertEqual((screen.rows, screen.cols, screen.cursor, screen.visible), (2, 4, (1, 3), True))
        self.assertEqual(screen.text(), ["a中", " e\u0301"])

    def test_none(self) -> None:
        for data in (b"", b"2 4 1 3\n", b"2 4 1 3 seen\n", b"2 1 1 1 hidden\na\n", b"2 1 1 1 hidden\na\nb\nc\n",
                     b"2 1 1 1 hidden\na\nb", b"1 2 1 1 hidden\na\n", b"\xff\n", b"x 1 1 1 hidden\n"):
            with self.assertRaises(NoRecord, msg=data):
                screen_of(data)


if __name__ == "__main__":
    unittest.main()
