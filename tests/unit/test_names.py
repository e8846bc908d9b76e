"""tools/names: the names of pages, and the types, calls and clauses that they name."""
import pathlib
import unittest

from aids import Case, loaded_tool

TOP = pathlib.Path(__file__).resolve().parents[2]
tool = loaded_tool("names")

SOURCE = """\
pub struct Pair(u8, u8);
pub enum Event {
    Came,
    Left(u8),
}
impl<'a, S: Stream<u8> + Drop> Door<Opaque<S>> for MemoryDoor<'a, S>
where
    S: Drop,
{
    pub const MOST: u8 = 3;
    ghost told: { Self → Option ℕ } = { λ _. None };
    pub fn open(&mut self)
        ensures opened { True }
    {
    }
}
/// A free function.
pub fn close(one: u8)
    ensures closed { True }
{
}
impl Window {
    pub(crate) const fn close(&self)
        ensures hidden { True }
    {
    }
}
"""


def found():
    """Return the names of this source."""
    crates = tool.Crates({}, {}, {})
    tool.add_file(crates, SOURCE)
    return crates


class Names(Case):
    """Types, their members, and clauses."""

    def test_owner(self):
        """The type of an `impl` is behind `for`, without its parameters."""
        lines = {"impl Term {": "Term", "impl<S: Stream<u8>> Peer<S> {": "Peer", "impl fmt::Display for Words<'_> {": "Words",
                 "pub trait Ports: Clock {": "Ports", "pub(crate) enum Kind {": "Kind", "pub struct Pair(u8);": "Pair",
                 "fn implied() {": "", "unsafe impl Send for One {}": "One"}
        self.assertEqual({line: tool.owner_of(line) for line in lines}, lines)

    def test_members(self):
        """A type has its calls, constants, ghosts and variants."""
        crates = found()
        self.assertEqual({name: crates.members[name] for name in ("Pair", "Event", "MemoryDoor", "Window")},
                         {"Pair": set(), "Event": {"Came", "Left"}, "MemoryDoor": {"MOST", "told", "open"}, "Window": {"close"}})

    def test_clauses(self):
        """A clause belongs to the call of that type; without a type it may be any call of that name."""
        crates = found()
        self.assertEqual(crates.clauses_of("MemoryDoor::open"), {"opened"})
        self.assertEqual(crates.clauses_of("Window::close"), {"hidden"})
        self.assertIsNone(crates.clauses_of("MemoryDoor::close"))
        self.assertEqual(crates.clauses_of("close"), {"closed", "hidden"})

    def test_spans(self):
        """A type that is missing, or that lacks the call, is reported; a module's call is not."""
        told = {"Window::close": "", "Window::close()": "", "Event::Left": "", "laws::close": "", "close": "", "Box::new": "",
                "Beside::feed": "no crate has a type Beside", "Window::open": "the type Window has no open"}
        crates = found()
        self.assertEqual({span: crates.unknown_owned(span) for span in told}, told)

    def test_retired(self):
        """A retired name is reported once for each line, but not as a part of another name; the table itself may have it."""
        kind, name = next((kind, name) for kind, name in tool.retired_names()[0] if kind == "crate")
        folder = self.made_folder()
        (folder / "docs").mkdir()
        (folder / tool.RETIRED).write_text((TOP / tool.RETIRED).read_text(encoding="utf-8"), encoding="utf-8")
        (folder / "page.md").write_text(f"one\n{name} and {name}\nmy_{name}\nx{name}-y\n{name}\n", encoding="utf-8")
        self.patch_of(tool, "TOP", folder)
        told = list(tool.retired_in([pathlib.PurePath("page.md"), pathlib.PurePath(tool.RETIRED)]))
        self.assertEqual(told, [f"page.md:{line}: the {kind} {name} has another name now ({tool.RETIRED})" for line in (2, 5)])

    @unittest.skipUnless((TOP / "crates/roam/src").exists(), "a copy without the crates")
    def test_of_this_tree(self):
        """The types of the crates are found."""
        crates = tool.crates_in(sorted(path.relative_to(TOP) for path in TOP.glob("crates/*/src/**/*.rt")))
        self.assertIn("stands", crates.clauses_of("Metadata::feed"))
        self.assertIn("fed", crates.clauses_of("Term::feed"))


if __name__ == "__main__":
    unittest.main()
