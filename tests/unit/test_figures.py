"""The figures of the README, and the times of a first build, are those of docs/MEASUREMENTS.md and bench/figures."""
import pathlib
import re
import unittest

TOP = pathlib.Path(__file__).resolve().parents[2]
FIGURES = "## Figures of the README"
BUILDS = re.compile(r"\bfirst `\./roam (\w+)` in a new clone$")

# The pages that state the minutes of a first build, and where.
MINUTES = {
    "README.md": [("mux", r"takes about (\d+) minutes on four quiet cores"), ("show", r"`\./roam show` about (\d+) minutes"),
                  ("mux", r"`\./roam mux` (\d+)\.")],
    "docs/CONTRIBUTING.md": [("mux", r"A first build takes about (\d+) minutes on four quiet cores")],
    "CHANGELOG.md": [("mux", r"A first build takes about (\d+) minutes on four quiet cores")],
    "roam": [("mux", r"a first build takes about (\d+) minutes on four cores")],
}


def text_of(name):
    """Return the text of a file of the tree."""
    return (TOP / name).read_text(encoding="utf-8")


def section(text, heading):
    """Return the text below a heading, up to the next one."""
    return re.split(r"^## ", text[text.index(f"{heading}\n") + len(heading) :], maxsplit=1, flags=re.MULTILINE)[0]


def table(text):
    """Return the first table of a text: the cells of each row by its first cell."""
    lines = re.search(r"(?:^\|.*\n)+", text, re.MULTILINE)[0].splitlines()
    rows = [[cell.strip() for cell in line.strip("|").split("|")] for line in lines]
    return {row[0]: row[1:] for row in rows[:1] + rows[2:]}


class Figures(unittest.TestCase):
    """The README beside its sources."""

    measured = table(section(text_of("docs/MEASUREMENTS.md"), FIGURES))

    def test_comparison(self):
        """Each row of the comparison with a measured figure is a row of that table; each of that table but for builds is in the README."""
        shown = table(section(text_of("README.md"), "## Comparison"))
        figures = {name: cells for name, cells in shown.items() if re.search(r"\d (?:m?s|MB)\b", " ".join(cells))}
        self.assertEqual(figures, {name: cells for name, cells in self.measured.items() if name and not BUILDS.search(name)})
        self.assertEqual(shown[""], self.measured[""])

    def test_builds(self):
        """Each page that states the minutes of a first build states the measured ones, rounded."""
        builds = {name: cells for name, cells in self.measured.items() if BUILDS.search(name)}
        minutes = {BUILDS.search(name)[1]: round(float(cells[0].split()[0])) for name, cells in builds.items()}
        for page, places in MINUTES.items():
            for command, pattern in places:
                found = re.findall(pattern, text_of(page).replace("\n", " "))
                self.assertEqual(found, [str(minutes[command])], (page, pattern))

    def test_speed(self):
        """The MB/s are those of bench/figures/speed.tsv, rounded, and so is their date."""
        lines = [line.split("\t") for line in text_of("bench/figures/speed.tsv").splitlines() if line[0] != "#"]
        known = {row[1]: dict(zip(lines[0], row)) for row in lines[1:] if row[0] == "24 by 80"}
        text = section(text_of("README.md"), "## Speed")
        shown = table(text)
        for program, cells in shown.items():
            if program:
                measured = [known[program][column] for column in shown[""]]
                self.assertTrue(all(abs(float(one) - float(cell)) <= 0.5 for one, cell in zip(measured, cells)), (program, measured, cells))
        date = re.search(r"\d+ \w+ \d{4}", text_of("bench/figures/speed.tsv"))[0]
        self.assertIn(f"in one run on {date}", text)

    def test_scrollback(self):
        """The default scrollback is that of the settings."""
        from roam_live.config.environment import DEFAULT_ROWS

        self.assertEqual(table(section(text_of("README.md"), "## Comparison"))["default scrollback, in rows"][0], f"{DEFAULT_ROWS:,}")


if __name__ == "__main__":
    unittest.main()
