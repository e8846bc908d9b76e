"""tools/clauses: the files of definitions on a page of contracts, and who cites them."""
import importlib.machinery
import importlib.util
import pathlib

from aids import Case

TOOL = pathlib.Path(__file__).resolve().parents[2] / "tools/clauses"
loader = importlib.machinery.SourceFileLoader("clauses_tool", str(TOOL))
tool = importlib.util.module_from_spec(importlib.util.spec_from_loader("clauses_tool", loader))
loader.exec_module(tool)

FILES = {
    "low/specs/Sizes.antt": "-- The sizes of a screen. They have limits.\nuse Rattle.std.specs.Prelude.{x}\n",
    "low/specs/Marks.antt": "-- Marks (this project's profile).\nuse Rattle.low.specs.Sizes.{is_size}\n",
    "low/src/grid.rt": "//! ghost use Rattle.low.specs.Sizes.IsSize.{small};\n",
    "high/src/view.rt": "//! ghost use Rattle.low.specs.Sizes.{is_size};\n//! ghost use Rattle.low.specs.declared.grid.Grid.{Grid};\n",
}


class Definitions(Case):
    """The table of a library's files of definitions."""

    def setUp(self):
        super().setUp()
        self.top = self.made_folder()
        for name, text in FILES.items():
            path = self.top / "crates" / name
            path.parent.mkdir(parents=True, exist_ok=True)
            path.write_text(text, encoding="utf-8")
        self.patch_of(tool, "TOP", self.top)
        tool.citations.cache_clear()
        self.addCleanup(tool.citations.cache_clear)

    def test_cited(self):
        """A constructor belongs to the file of its type, and generated names to none."""
        self.assertEqual(tool.cited_file("low", "Sizes.IsSize."), "specs/Sizes.antt")
        self.assertIsNone(tool.cited_file("low", "declared.grid.Grid."))

    def test_names(self):
        """Files of the same crate come first; more than three other crates are counted."""
        self.assertEqual(tool.cited_by("low", "specs/Sizes.antt"), "`specs/Marks.antt`, `src/grid.rt`, `high`")
        tool.citations()["low", "specs/Marks.antt"] = {"a", "b", "c", "d"}
        self.assertEqual(tool.cited_by("low", "specs/Marks.antt"), "`a`, `b`, `c` and one more crate")
        tool.citations()["low", "specs/Marks.antt"].add("e")
        self.assertEqual(tool.cited_by("low", "specs/Marks.antt"), "`a`, `b`, `c` and 2 more crates")

    def test_table(self):
        """A row has the first sentence of the file."""
        self.assertEqual(tool.definitions(self.top / "crates/low").split("\n")[-3:-1],
                         ["| `specs/Marks.antt` | Marks (this project's profile) |  |",
                          "| `specs/Sizes.antt` | The sizes of a screen | `specs/Marks.antt`, `src/grid.rt`, `high` |"])
