"""The mistakes that the specification names: each has its edit in the gate, whose text, place and clause are those of the list here."""
import hashlib
import pathlib
import re
import unittest

from aids import loaded_tool

HERE = pathlib.Path(__file__).resolve().parent
TOP = HERE.parents[1]
edits, names = loaded_tool("release_edits"), loaded_tool("names")

# The most edits of the gate: each costs half a minute, and the first two of a crate its proof once more.
MOST_EDITS = 100
SUM_LENGTH = 16
ROW = re.compile(r"^\| .+? \| `(roam_\w+)`: `(\w+)`(?: \(release\))? \| `(\w+)` of `([\w:]+)` \|$", re.MULTILINE)


def listed():
    """Return the lines of the list: edit, place, clause and checksum."""
    text = (HERE / "named_mistakes.txt").read_text(encoding="utf-8")
    return [line.split(" | ") for line in text.splitlines() if line and not line.startswith("#")]


def checksum(text):
    """Return the beginning of the checksum of an edit's file, old and new texts."""
    lines = [line for line in text.splitlines() if line.partition(":")[0] in ("file", "old", "new")]
    return hashlib.sha256("".join(f"{line}\n" for line in lines).encode()).hexdigest()[:SUM_LENGTH]


def path_of(edit):
    """Return the path of an edit of the gate."""
    crate, _, name = edit.partition("/")
    return TOP / "crates" / crate / "must-fail" / f"{name}.edit"


@unittest.skipUnless((TOP / "crates/roam/src").exists(), "a copy without the crates")
class NamedMistakes(unittest.TestCase):
    """The list, beside the edits, the pages and the contracts."""

    def test_edits(self):
        """Each edit is in the gate, its text is the listed one, and its old text occurs once in its file."""
        found = listed()
        self.assertEqual(len({line[0] for line in found}), len(found))
        for edit, _, _, known in found:
            self.assertTrue(path_of(edit).exists(), f"{edit} is not in must-fail")
            self.assertEqual(checksum(path_of(edit).read_text(encoding="utf-8")), known, f"{edit} has another text than the listed one")
            self.assertEqual(edits.problems(path_of(edit)), [])

    def test_places(self):
        """Each place is a section of its page."""
        for edit, place, _, _ in listed():
            page, _, section = place.partition(": ")
            heads = re.findall(r"^##+ (.*?)(?: \(`.*)?$", (TOP / f"docs/{page}.md").read_text(encoding="utf-8"), re.MULTILINE)
            self.assertTrue(any(head.startswith(section) for head in heads), (edit, place))

    def test_clauses(self):
        """Each clause is in the contract of its call."""
        crates = names.crates_in(sorted(path.relative_to(TOP) for path in TOP.glob("crates/*/src/**/*.rt")))
        for edit, _, promise, _ in listed():
            clause, _, call = promise.partition(" of ")
            self.assertIn(clause, crates.clauses_of(call) or (), (edit, promise))

    def test_page(self):
        """Worked examples has a row for each, with the same clause. Each row there has an edit, marked if it waits for a release."""
        page = (TOP / "docs/WORKED_EXAMPLES.md").read_text(encoding="utf-8")
        rows = {f"{crate}/{name}": f"{clause} of {call}" for crate, name, clause, call in ROW.findall(page)}
        self.assertEqual({edit: rows.get(edit) for edit, _, _, _ in listed()}, {edit: promise for edit, _, promise, _ in listed()})
        of_release = set(re.findall(r"`(roam_\w+)`: `(\w+)` \(release\)", page))
        for edit in rows:
            crate, _, name = edit.partition("/")
            folder = "release-edits" if (crate, name) in of_release else "must-fail"
            self.assertTrue((TOP / "crates" / crate / folder / f"{name}.edit").exists(), (edit, folder))

    def test_gate(self):
        """Every edit of the gate fits its file, and they are not too many."""
        found = sorted(TOP.glob("crates/*/must-fail/*.edit"))
        self.assertLessEqual(len(found), MOST_EDITS)
        self.assertEqual([problem for edit in found for problem in edits.problems(edit)], [])

    def test_tests(self):
        """The mistakes that no clause can refuse have tests."""
        found = re.findall(r"^# test (\S+) (\w+): ", (HERE / "named_mistakes.txt").read_text(encoding="utf-8"), re.MULTILINE)
        self.assertEqual(len(found), 3)
        for file, name in found:
            self.assertIn(f"#[test]\nfn {name}(", (TOP / file).read_text(encoding="utf-8"))

    def test_change(self):
        """A change of the file, of the old or of the new text changes the checksum; a comment does not."""
        text = "file: src/lib.rt\nold: a < b\nnew: a <= b\n"
        others = [text.replace("lib", "one"), text.replace("a < b", "a < c"), text.replace("<=", "=="), text + "old: x\nnew: y\n"]
        self.assertEqual(len({checksum(one) for one in [text, *others]}), 5)
        self.assertEqual(checksum(f"# A reason.\n{text}"), checksum(text))


if __name__ == "__main__":
    unittest.main()
