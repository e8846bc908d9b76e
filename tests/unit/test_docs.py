"""The pages for developers: their links, their index, and how plain they are."""
import re
import unittest

from test_user_texts import FLAGS, MOST_FLAGS, TOP, anchors, markdown, sentences

DOCS = TOP / "docs"
PAGES = sorted(DOCS.glob("*.md"))
# The pages whose links are checked. The README and the guide have a test of their own, in test_user_texts.py.
LINKED = [*PAGES, TOP / "CHANGELOG.md", TOP / "examples/README.md"]
CRATES = TOP / "crates"
LONGEST_MEAN, LONG, MOST_LONG = 18, 30, 2
LINK = re.compile(r"\]\((?!https?:)([^)#\s]*)(?:#([^)]*))?\)")


def broken_links(path):
    """Return the links of a page that lead to no file, or to no heading there."""
    faults = []
    for target, anchor in LINK.findall(path.read_text(encoding="utf-8").split("<!-- contracts -->")[0]):
        file = path.parent / target if target else path
        if not file.exists() or (anchor and anchor not in anchors(file)):
            faults.append((str(path.relative_to(TOP)), target, anchor))
    return faults


class Pages(unittest.TestCase):
    """All pages below docs/, without the guide."""

    def test_links(self):
        """Each link leads to a file, and to a heading there."""
        self.assertEqual([fault for path in LINKED for fault in broken_links(path)], [])

    @unittest.skipUnless((CRATES / "roam/src").exists(), "a copy without the crates")
    def test_crates(self):
        """So does each link in the README of a crate."""
        self.assertEqual([fault for path in sorted(CRATES.glob("**/README.md")) for fault in broken_links(path)], [])

    def test_index(self):
        """The index names each page."""
        index = (DOCS / "README.md").read_text(encoding="utf-8")
        self.assertEqual([path.name for path in PAGES if path.name != "README.md" and f"({path.name})" not in index], [])

    def test_plain(self):
        """Few words are flagged, and few sentences are long."""
        texts = [markdown(path.read_text(encoding="utf-8")) for path in PAGES]
        found = [one for text in texts for one in sentences(text)]
        words = sum(map(len, found))
        self.assertLessEqual(1000 * sum(len(FLAGS.findall(text)) for text in texts) / words, MOST_FLAGS)
        self.assertLessEqual(words / len(found), LONGEST_MEAN)
        self.assertLessEqual(100 * sum(len(one) > LONG for one in found) / len(found), MOST_LONG)

    def test_decisions(self):
        """Each decision has a heading with its number, and each number is used once."""
        text = (DOCS / "DECISIONS.md").read_text(encoding="utf-8")
        numbers = [int(number) for number in re.findall(r"^### (\d+)\. ", text, re.M)]
        choices = [int(number) for number in re.findall(r"^(\d+)\. \*\*", (DOCS / "PROFILE.md").read_text(encoding="utf-8"), re.M)]
        self.assertEqual((choices, len(set(numbers))), (list(range(1, 21)), len(numbers)))


if __name__ == "__main__":
    unittest.main()
