"""The contents of a screen record: its cells, and their picture; and of a painting, by a table of widths."""
import io
import unittest
import xml.etree.ElementTree
from unittest import mock

from aids import Case, loaded
from painted import PaintedCells, cells_of_rows, width_of
from roam_live.common.errors import Fault
from roam_live.protocol import screen_cells
from roam_live.protocol.display_records import NoRecord
from roam_live.protocol.screen_cells import ShownCells, Style, styled
from roam_live.protocol.server_address import Home

picture = loaded("picture")
PLACE = "{http://www.w3.org/2000/svg}"


def cells_of(text):
    """Return the cells that a text shows."""
    cells = PaintedCells()
    cells.fed(text)
    return cells


def rows_of(cells):
    """Return the rows that cells show, without trailing spaces."""
    rows = [""] * max(row for row, _ in cells.cells)
    for (row, col), (letter, _) in sorted(cells.cells.items(), key=lambda item: item[0]):
        rows[row - 1] = rows[row - 1].ljust(col - 1) + letter
    return [row.rstrip(" ") for row in rows]


def shown_by(text):
    """Return the same cells in the form of a record, with right halves of wide characters."""
    painted = cells_of(text)
    last = [max((place[side] for place in painted.cells), default=1) for side in (0, 1)]
    shown = ShownCells(*last)
    shown.row, shown.col, shown.has_cursor = painted.row, painted.col, painted.has_cursor
    for (row, col), (letter, style) in painted.cells.items():
        shown.cells[row, col] = letter, style
        if width_of(letter[0]) == 2:
            shown.cells[row, col + 1] = "", style
    return shown


class Told(Case):
    """The cells of a screen as a client process sends them."""

    SCREEN = "2 4 1 3 hidden\n\x1b[0;1ma\x1f\x1b[0;1;31m\u4e2d\x1f\x1f\x1b[0m \n \x1fe\u0301\x1f\x1b[0m\x1b[38;2;1;2;3mz\x1f\x1b[m \n"

    def test_cell_styles(self):
        """Each has its style, which the SGR before a cell changes from that of the cell before; the first starts from the default."""
        shown = screen_cells.cells_of(self.SCREEN.encode())
        bold, red, plain = Style(frozenset({"bold"})), Style(frozenset({"bold"}), 1), Style()
        self.assertEqual([shown.cells[1, col] for col in range(1, 5)], [("a", bold), ("\u4e2d", red), ("", red), (" ", plain)])
        self.assertEqual([shown.cells[2, col] for col in range(1, 5)],
                         [(" ", plain), ("e\u0301", plain), ("z", Style(frozenset(), (1, 2, 3))), (" ", plain)])
        self.assertEqual((shown.rows, shown.cols, shown.row, shown.col, shown.has_cursor), (2, 4, 1, 3, False))

    def test_none(self):
        for text in ("", "2 4 1 3 hidden\na\n", "1 1 1 1 visible\n\x1b[xm \n", "1 1 1 1 visible\n\x1b[1\n", "1 1 1 1 visible\n\x1b[1;m\n"):
            if text.endswith(";m\n"):
                self.assertEqual(screen_cells.cells_of(text.encode()).cells, {(1, 1): ("", Style())})
                continue
            with self.assertRaises(NoRecord, msg=text):
                screen_cells.cells_of(text.encode())


class Shown(Case):
    """The cells that a painter's text shows."""

    def test_places(self):
        cells = cells_of("\x1b[2J\x1b[3;5Hab\x1b[1;1Hc\x1b[?25l")
        self.assertEqual({place: letter for place, (letter, _) in cells.cells.items()}, {(3, 5): "a", (3, 6): "b", (1, 1): "c"})
        self.assertEqual((cells.row, cells.col, cells.has_cursor), (1, 2, False))
        cells.fed("\x1b[?25h")
        self.assertTrue(cells.has_cursor)
        for erases in ("\x1bc", "\x1b[2J"):
            cells.fed(erases)
            self.assertEqual(cells.cells, {})
            cells.fed("x")

    def test_saved(self):
        """A front end's own line, between DECSC and DECRC, keeps the cursor and the style."""
        cells = cells_of("\x1b[2;3H\x1b[1mab\x1b7\x1b[?7l\x1b[5;1H\x1b[0;7m[1]\x1b[0m\x1b[?7h\x1b8c")
        self.assertEqual("".join(letter for letter, _ in cells.cells.values()), "ab[1]c")
        self.assertEqual(cells.cells[2, 5], ("c", Style(frozenset({"bold"}))))

    def test_widths(self):
        """A wide character takes two columns, and a zero-width one joins the one before."""
        self.assertEqual([width_of(letter) for letter in "a\u4e2d\uff21\u0301\u200d\u20dd\u00e9"], [1, 2, 2, 0, 0, 0, 1])
        cells = cells_of("\x1b[1;1Hxyz\x1b[1;2H\u4e2d\u0301b\x1b[2;1He\u0301\x1b[3;1H\u0301")
        found = {place: letter for place, (letter, _) in cells.cells.items()}
        self.assertEqual(found, {(1, 1): "x", (1, 2): "\u4e2d\u0301", (1, 4): "b", (2, 1): "e\u0301", (3, -1): " \u0301"})

    def test_boxes(self):
        """Between SO and SI letters are the DEC special graphics."""
        cells = cells_of("q\x0eqxlmjk\x0fq")
        self.assertEqual("".join(letter for letter, _ in cells.cells.values()), "q\u2500\u2502\u250c\u2514\u2518\u2510q")

    def test_rows_by_tmux(self):
        """Rows in tmux's form: a style continues into the next."""
        cells = cells_of_rows(["\x1b[1mab", "c"])
        self.assertEqual(cells.cells[2, 1], ("c", Style(frozenset({"bold"}))))
        self.assertEqual(cells.cells[1, 2][0], "b")

    def test_scrolled_rows(self):
        """Rows scroll up and down between margins, the rest of a row is erased, and CUP may omit its column."""
        cells = PaintedCells()
        cells.fed("\x1b[1Haa\x1b[2Hbb\x1b[3Hcc\x1b[4Hdd")
        cells.fed("\x1b[1;3r\x1b[3H\n\x1b[r\x1b[3Hee")
        self.assertEqual(rows_of(cells), ["bb", "cc", "ee", "dd"])
        cells.fed("\x1b[2;4r\x1b[2H\x1bM\x1bM\x1b[r\x1b[2Hff\x1b[1;2H\x1b[K")
        self.assertEqual(rows_of(cells), ["b", "ff", "", "cc"])

    def test_styles(self):
        """The SGR numbers of ECMA-48 and xterm."""
        plain = Style()
        flags = ((1, "bold"), (2, "faint"), (3, "italic"), (4, "underline"), (5, "blink"), (7, "reverse"), (8, "conceal"), (9, "strike"))
        for number, flag in flags:
            self.assertEqual(styled(plain, [number]).flags, {flag})
            off = 22 if flag in ("bold", "faint") else number + 20
            other, stays = (4, "underline") if number == 3 else (3, "italic")
            self.assertEqual(styled(plain, [other, number, off]).flags, {stays})
        self.assertEqual(styled(plain, [1, 2, 22]), plain)
        for digit in range(8):
            found = styled(plain, [30 + digit, 100 + digit])
            self.assertEqual((found.foreground, found.background), (digit, 8 + digit))
            found = styled(plain, [90 + digit, 40 + digit])
            self.assertEqual((found.foreground, found.background), (8 + digit, digit))
        self.assertEqual(styled(plain, [31, 42, 39, 49]), plain)
        self.assertEqual(styled(plain, [31, 42, 0]), plain)
        self.assertEqual(styled(plain, [31, 98, 108, 6, 21, 77]).foreground, 1)
        self.assertEqual(styled(plain, [38, 5, 200, 48, 2, 1, 2, 3, 4]), Style(frozenset({"underline"}), 200, (1, 2, 3)))
        self.assertEqual(styled(plain, [48, 5, 7, 38, 2, 9, 8, 7, 1]), Style(frozenset({"bold"}), (9, 8, 7), 7))
        self.assertEqual(cells_of("\x1b[;31mx").cells[1, 1][1], Style(frozenset(), 1))
        self.assertEqual(cells_of("\x1b[31m\x1b[mx").cells[1, 1][1], plain)

    def test_default_flags(self):
        self.assertEqual(styled(Style(frozenset({"bold", "reverse"})), [27]), Style(frozenset({"bold"})))


class Colours(Case):
    """Colours as red, green and blue."""

    def test_mixture(self):
        """The sixteen, the cube of xterm from 16, and the greys from 232."""
        self.assertEqual(picture.mixture(None, (1, 2, 3)), (1, 2, 3))
        self.assertEqual(picture.mixture((4, 5, 6), (1, 2, 3)), (4, 5, 6))
        for index, colour in ((0, (0, 0, 0)), (16, (0, 0, 0)), (17, (0, 0, 95)), (22, (0, 95, 0)), (52, (95, 0, 0)), (231, (255, 255, 255)),
                              (196, (255, 0, 0)), (110, (135, 175, 215)), (232, (8, 8, 8)), (255, (238, 238, 238)), (244, (128, 128, 128))):
            self.assertEqual(picture.mixture(index, (9, 9, 9)), colour, index)
        for index in (1, 2, 4, 9, 10, 12):
            colour = picture.mixture(index, None)
            self.assertEqual(colour.index(max(colour)), {1: 0, 2: 1, 4: 2}[index & 7])
        self.assertEqual((len(picture.SIXTEEN), max(map(max, picture.SIXTEEN))), (16, 255))

    def test_sixteen(self):
        """The sixteen are those of VS Code's terminal, except for blues that stay legible on a dark background, and white."""
        known = ((0, 0, 0), (205, 49, 49), (13, 188, 121), (229, 229, 16), (188, 63, 188), (17, 168, 205), (229, 229, 229), (102, 102, 102),
                 (241, 76, 76), (35, 209, 139), (245, 245, 67), (214, 112, 214), (41, 184, 219))
        self.assertEqual([picture.mixture(index, None) for index in (0, 1, 2, 3, 5, 6, 7, 8, 9, 10, 11, 13, 14)], list(known))

    def test_flags(self):
        """Reverse swaps, conceal hides, and faint is halfway to the background."""
        red, green = (200, 0, 0), (0, 100, 50)
        for flags, found in (((), ("#c80000", "#006432")), (("reverse",), ("#006432", "#c80000")), (("conceal",), ("#006432", "#006432")),
                             (("faint",), ("#643219", "#006432")), (("bold",), ("#c80000", "#006432")),
                             (("reverse", "conceal"), ("#c80000", "#c80000"))):
            self.assertEqual(picture.colours(Style(frozenset(flags), red, green)), found)
        self.assertEqual(picture.colours(Style()), ("#d8d8d8", "#18181c"))


class Drawn(Case):
    """The elements of a picture: a cell is 8 wide and 17 high, with a margin of 8."""

    def elements(self, text):
        """Return the elements of a text's picture, after the two of its background."""
        tree = xml.etree.ElementTree.fromstring(picture.picture(shown_by(text + "\x1b[?25l")))
        self.size = tree.get("width"), tree.get("height"), tree.get("viewBox"), tree[0].get("width"), tree[0].get("height")
        return [(one.tag.removeprefix(PLACE), dict(one.attrib), one.text) for one in tree[1]]

    def test_size(self):
        self.elements("\x1b[24;80Hx")
        self.assertEqual(self.size, ("656", "424", "0 0 656 424", "656", "424"))

    def test_cursor(self):
        tree = xml.etree.ElementTree.fromstring(picture.picture(shown_by("\x1b[2;3Hx")))
        cursor = tree[1][-1]
        self.assertEqual([cursor.get(name) for name in ("x", "y", "width", "height")], ["32", "25", "8", "17"])

    def test_texts(self):
        """Latin characters form one text unless two columns are free between them; each other character is alone."""
        found = self.elements("\x1b[1;1Hab  cd e\x1b[2;3H\u03b1\u03b2x&<")
        places = [(one["x"], one["y"], text, one.get("textLength")) for tag, one, text in found]
        self.assertEqual(places, [("8", "21", "ab", "16"), ("40", "21", "cd e", "32"), ("24", "38", "\u03b1", None),
                                  ("32", "38", "\u03b2", None), ("40", "38", "x&<", "24")])
        self.assertEqual({one["fill"] for _, one, _ in found}, {"#d8d8d8"})

    def test_wide(self):
        found = self.elements("\x1b[1;1H\u4e2dab\x1b[2;1He\u0301f")
        self.assertEqual([(one["x"], text) for _, one, text in found], [("8", "\u4e2d"), ("24", "ab"), ("8", "e\u0301"), ("16", "f")])

    def test_marks(self):
        found = self.elements("\x1b[1;31mb\x1b[0;3;4mi\x1b[0;9ms\x1b[0;44mx \x1b[0my")
        tags = [tag for tag, _, _ in found]
        self.assertEqual(tags, ["text", "text", "path", "text", "path", "rect", "text", "text"])
        self.assertEqual(found[0][1]["font-weight"], "bold")
        self.assertNotIn("font-style", found[0][1])
        self.assertEqual((found[1][1]["font-style"], found[2][1]["d"], found[4][1]["d"]), ("italic", "M16 23.5h8", "M24 16.5h8"))
        self.assertEqual([found[5][1][name] for name in ("x", "y", "width", "height", "fill")], ["32", "8", "16", "17", "#4678dc"])
        self.assertEqual(found[7][1]["x"], "48")

    def test_runs(self):
        """A run consists of neighbours in one row with one style."""
        found = picture.runs(shown_by("\x1b[1;1Ha\u4e2db\x1b[1;6Hc\x1b[1;7H\x1b[1md\x1b[2;1He"))
        self.assertEqual([(row, [col for col, letter in places if letter]) for row, _, places in found],
                         [(1, [1, 2, 4]), (1, [6]), (1, [7]), (2, [1])])

    def test_wide_ground(self):
        """The background and the underline of a wide character are two columns wide."""
        found = self.elements("\x1b[44;4m\u4e2d")
        self.assertEqual([(tag, one.get("width"), one.get("d")) for tag, one, _ in found],
                         [("rect", "16", None), ("text", None, None), ("path", None, "M8 23.5h16")])

    def test_boxes(self):
        """The strokes of a box-drawing character go from the middle of its cell to its sides."""
        ends = {"l": "H8", "r": "H16", "u": "V8", "d": "V25"}
        sides = {"\u2500": "lr", "\u2502": "ud", "\u250c": "rd", "\u2510": "ld", "\u2514": "ru", "\u2518": "lu", "\u251c": "rud",
                 "\u2524": "lud", "\u252c": "lrd", "\u2534": "lru", "\u253c": "lrud"}
        for letter, strokes in sides.items():
            path = self.elements(letter)[0][1]["d"]
            self.assertEqual(sorted(path.split("M12.5 16.5")[1:]), sorted(ends[side] for side in strokes), letter)
        self.assertEqual(self.elements("\x1b[2;3H\u2500")[0][1]["d"], "M28.5 33.5H24M28.5 33.5H32")

    def test_blocks(self):
        """The blocks of Unicode fill eighths of their cell."""
        for letter, place in (("\u2588", "8 8 8 17"), ("\u2580", "8 8 8 8.5"), ("\u2584", "8 16.5 8 8.5"), ("\u258c", "8 8 4 17"),
                              ("\u2590", "12 8 4 17"), ("\u2581", "8 22.875 8 2.125"), ("\u258f", "8 8 1 17"), ("\u2589", "8 8 7 17"),
                              ("\u2587", "8 10.125 8 14.875")):
            one = self.elements(letter)[0][1]
            self.assertEqual(" ".join(one[name] for name in ("x", "y", "width", "height")), place, letter)
        one = self.elements("\x1b[2;3H\u2588")[0][1]
        self.assertEqual((one["x"], one["y"]), ("24", "25"))

    def test_words(self):
        self.assertEqual(picture.words_of(3, " a  b c   d "), [(4, "a"), (7, "b c"), (13, "d")])
        self.assertEqual(picture.words_of(1, "     "), [])


class Tool(Case):
    """live/picture as a command."""

    def run_with(self, *words, text=b""):
        """Return its status and its output."""
        self.words("picture", *words)
        self.patch("sys.stdin", io.TextIOWrapper(io.BytesIO(text)))
        printed = self.printed()
        return picture.main(), printed.getvalue()

    def test_input(self):
        status, text = self.run_with(text=Told.SCREEN.encode())
        self.assertTrue(status == 0 and text.startswith("<svg ") and text.endswith("</svg>\n"))

    def test_nothing(self):
        with self.assertRaisesRegex(Fault, "^the client process sent an invalid screen: "):
            self.run_with(text=b"\x1b[2J")

    def test_wrong(self):
        said = self.heard()
        with self.assertRaises(SystemExit) as way:
            self.run_with("a", "b", "c")
        self.assertEqual((way.exception.code, "name a server by its directory" in said.getvalue()), (2, True))

    def test_told(self):
        """It asks the client process in a folder, if there is one; else one of its own, which has ten seconds and ends."""
        self.stop_clock()
        folder = self.made_folder()
        home = Home(folder=str(folder))
        with mock.patch.object(picture, "asked_screen", lambda link, asks: (link.path, link.is_read_only, asks)):
            self.listening(folder / "terminals")
            self.assertEqual(picture.told_of(home), (f"{folder}/terminals", True, "look sgr"))
            (folder / "terminals").unlink()
            with self.assertRaisesRegex(Fault, f"^no server is in {folder}$"):
                picture.told_of(home)
            with mock.patch.object(picture, "PortSession") as made, mock.patch.object(Home, "is_served", return_value=True):
                made.return_value.terminals = folder / "own"
                with self.assertRaises(FileNotFoundError):
                    picture.told_of(home)
                self.assertTrue(110 <= self.now < 110.1)
                self.listening(folder / "own")
                self.assertEqual(picture.told_of(home), (folder / "own", True, "look sgr"))
                self.assertEqual((made.return_value.revive.call_count, made.return_value.close.call_count), (2, 2))


if __name__ == "__main__":
    unittest.main()
