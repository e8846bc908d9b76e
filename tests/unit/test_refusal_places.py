"""The places in the crates that make, drop or replace a refusal are those of refusals.table, and a test shows each dropped one.

No clause can say that memory is given. So a function that drops a refusal may leave out its work each time, and still be proved. A new
place needs a line in the table, with the tests that show its work.
"""
import collections
import pathlib
import re

from aids import Case

TOP = pathlib.Path(__file__).resolve().parents[2]
TABLE = pathlib.Path(__file__).with_name("refusals.table")

# The forms in which code makes a refusal, or goes on without the refused value.
FORM_PATTERN = re.compile(r"Err\(AllocError\)|Fault::OutOfMemory|\.ok\(\)|let \(?Ok\(|Err\(_\) =>|let _ = |\.is_err\(\)|\.is_ok\(\)")

# Lines of contracts and comments, which run nothing.
SILENT_PATTERN = re.compile(r"//|ensures |requires |ghost |[×⊎→]")

KINDS = ("answers", "system", "input", "keeps", "drops")


def places_in(top):
    """Return how often each place occurs: the path of its file below crates/, and its line without blanks around it."""
    places = collections.Counter()
    for file in sorted((top / "crates").glob("*/src/**/*.rt")):
        name = file.relative_to(top / "crates")
        if name.parts[0].startswith("test_") or name.parts[0] == "roam_bench":
            continue
        for line in file.read_text(encoding="utf-8").splitlines():
            if FORM_PATTERN.search(line) and not SILENT_PATTERN.match(line.strip()):
                places[str(name), line.strip()] += 1
    return places


def rows_of(text):
    """Return the rows of the table: the file, the line, and the words for what becomes of the refusal."""
    rows = [line.rsplit(" | ", 1) for line in text.splitlines() if line and not line.startswith("#")]
    return [(*place.split(" | ", 1), words) for place, words in rows]


def has_test(name):
    """Return True if a table of tests/program, or a proved test or its file, has this name."""
    if name.endswith(".table"):
        return (TOP / "tests/program" / name).exists()
    files = (TOP / "crates").glob("test_*/src/**/*.rt")
    return any(file.stem == name or f"fn {name}(" in file.read_text(encoding="utf-8") for file in files)


class RefusalPlaces(Case):
    """The table, compared with the crates."""

    def setUp(self):
        super().setUp()
        self.rows = rows_of(TABLE.read_text(encoding="utf-8"))

    def test_places(self):
        """The table has each place of the crates as often as it occurs, and no other."""
        told = collections.Counter((file, line) for file, line, _ in self.rows)
        found = places_in(TOP)
        self.assertEqual(sorted(found - told), [], "new places: add their lines to tests/unit/refusals.table")
        self.assertEqual(sorted(told - found), [], "places that are gone: remove their lines from tests/unit/refusals.table")

    def test_kinds(self):
        """Each row says what becomes of the refusal, and a dropped one names tests that exist."""
        for file, line, words in self.rows:
            kind, *tests = words.split()
            with self.subTest(file=file, line=line):
                self.assertIn(kind, KINDS)
                self.assertEqual(kind == "drops", bool(tests))
                self.assertEqual([name for name in tests if not has_test(name)], [])

    def test_new_place(self):
        """A body that drops a refusal at a new place is found, a contract is not."""
        top = self.made_folder()
        path = top / "crates/low/src/lib.rt"
        path.parent.mkdir(parents=True)
        path.write_text("ensures fault { IsOkUnless result Fault.OutOfMemory }\n    let _ = all.push(1);\n    // .ok()\n", encoding="utf-8")
        self.assertEqual(list(places_in(top)), [("low/src/lib.rt", "let _ = all.push(1);")])
