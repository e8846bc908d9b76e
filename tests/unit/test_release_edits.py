"""tools/release_edits: the edits of a release fit their files, and replace those of the gate in a copy of the tree."""
import importlib.machinery
import importlib.util
import pathlib

from aids import Case

TOP = pathlib.Path(__file__).resolve().parents[2]
loader = importlib.machinery.SourceFileLoader("release_edits_tool", str(TOP / "tools/release_edits"))
tool = importlib.util.module_from_spec(importlib.util.spec_from_loader("release_edits_tool", loader))
loader.exec_module(tool)

EDIT = "file: src/lib.rt\nold: a < b\nnew: a <= b\n"


class ReleaseEdits(Case):
    """Edits of crates, and the copy in which they are tried."""

    def setUp(self):
        super().setUp()
        self.top = self.made_folder()
        self.write("low/src/lib.rt", "if a < b {}\n")
        self.write("low/release-edits/takes_the_last.edit", EDIT)
        self.write("low/must-fail/of_the_gate.edit", EDIT)
        self.write("high/must-fail/of_the_gate.edit", EDIT)
        self.write("low/out/kept", "")

    def write(self, name, text):
        path = self.top / "crates" / name
        path.parent.mkdir(parents=True, exist_ok=True)
        path.write_text(text, encoding="utf-8")

    def problems(self):
        return [problem for edit in tool.edits(self.top, []) for problem in tool.problems(edit)]

    def test_fits(self):
        """An edit fits if its old text occurs once in its file, after the earlier pairs."""
        self.assertEqual(self.problems(), [])
        self.write("low/release-edits/takes_the_last.edit", f"{EDIT}old: a <= b\nnew: b < a\n")
        self.assertEqual(self.problems(), [])

    def test_does_not_fit(self):
        """A text that is missing or occurs twice is reported with its line, and so is a missing file."""
        self.write("low/src/lib.rt", "if a < b {} else if a < b {}\n")
        self.assertEqual(self.problems(), ["low/release-edits/takes_the_last.edit:2: the old text occurs there 2 times"])
        self.write("low/release-edits/takes_the_last.edit", EDIT.replace("lib", "gone"))
        self.assertEqual(self.problems(), ["low/release-edits/takes_the_last.edit:2: the old text occurs there 0 times"])

    def test_arranged(self):
        """The copy has the edits of the release, and neither those of the gate nor built files."""
        room = self.made_folder() / "tree"
        self.assertEqual(tool.arranged(self.top, room, []), ["low"])
        found = sorted(str(path.relative_to(room)) for path in room.rglob("*") if path.is_file())
        self.assertEqual(found, ["crates/low/must-fail/takes_the_last.edit", "crates/low/src/lib.rt"])
        self.assertTrue((self.top / "crates/low/must-fail/of_the_gate.edit").exists())

    def test_of_this_tree(self):
        """Each edit of this tree fits."""
        wrong = [problem for edit in tool.edits(TOP, []) for problem in tool.problems(edit)]
        self.assertEqual(wrong, [])
