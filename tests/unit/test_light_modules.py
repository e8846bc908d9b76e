"""The replacements of slow standard modules behave like those."""
import collections
import json
import pathlib
import re

from aids import Case
from roam_live.common.file_path import FilePath
from roam_live.common.json_reader import read_json
from roam_live.common.named_fields import NamedFields
from roam_live.common.patterns import LazyPattern
from roam_live.common.suppress import suppress


class Point(NamedFields):
    """Two numbers, and an optional name."""

    row: int
    col: int = 1
    names: tuple = ()


Named = collections.namedtuple("Point", "row col names", defaults=(1, ()))


class Fields(Case):
    """`NamedFields`."""

    def test_made(self):
        """Fields are set by position or name, like a namedtuple's."""
        for words, named in (((1, 2, "a"), {}), ((1,), {}), ((1, 2), {}), ((), {"row": 3}), ((1,), {"names": "x"}), ((1, 2), {"names": "x"})):
            one, other = Point(*words, **named), Named(*words, **named)
            self.assertEqual((one.row, one.col, one.names, one, repr(one)), (*other, other, repr(other)))
            self.assertEqual((hash(one), one._fields), (hash(other), other._fields))
            self.assertEqual(one._replace(col=9), other._replace(col=9))
            self.assertIsInstance(one._replace(col=9), Point)
        row, *more = Point(4)
        self.assertEqual((row, more, Point(4) < Point(5), {Point(4): 1}[Point(4)]), (4, [1, ()], True, 1))

    def test_refused(self):
        """Errors of a namedtuple are errors here."""
        for words, named in (((), {}), ((1, 2, 3, 4), {}), ((1,), {"row": 2}), ((1,), {"other": 2}), ((1, 2, 3), {"row": 1})):
            for kind in (Point, Named):
                self.assertRaises(TypeError, kind, *words, **named)
        self.assertRaises(TypeError, Point(1)._replace, other=1)
        with self.assertRaises(AttributeError):
            Point(1).row = 2


class Patterns(Case):
    """`LazyPattern`."""

    def test_used(self):
        """It is compiled at its first use, and then has the pattern's methods."""
        compiles = self.patch("re.compile", wraps=re.compile)
        found = LazyPattern(r"(?a)(\d+)-x")
        compiles.assert_not_called()
        self.assertEqual((found.fullmatch("12-x")[1], found.search("ab 3-x")[1], found.sub("_", "1-x 2-x")), ("12", "3", "_ _"))
        self.assertIsNone(found.fullmatch("\u0663-x"))
        self.assertEqual([one[1] for one in found.finditer("1-x2-x")], ["1", "2"])
        self.assertRaises(AttributeError, getattr, found, "none")


class Json(Case):
    """`read_json`."""

    def test_read(self):
        """Values are the same as from `json`, and invalid input is refused."""
        texts = ["{}", ' {"a": [1, null, true, "x\\u00e9\\n"]}\n', "[]", "1", "-1.5e3", '"x"', "null", '{"a": {"b": []}}', "NaN", "[1, 2]"]
        texts += ["", " ", "{", "[1,]", '{"a"}', "tru", "1 2", "{} x", '"\n"', "\ufeff{}", "'x'", "nul", '{"a": 1,}', "[" * 50, "--1", '"\\x"']
        for text in texts:
            try:
                wanted = repr(json.loads(text))
            except ValueError:
                self.assertRaises(ValueError, read_json, text)
            else:
                self.assertEqual(repr(read_json(text)), wanted, text)
        self.assertRaises(RecursionError, read_json, "[" * 100000)


class Paths(Case):
    """`FilePath`."""

    def test_paths(self):
        """A path has the same parts and files as one of pathlib."""
        folder = self.made_folder()
        one, other = FilePath(folder), pathlib.Path(folder)
        self.assertEqual((str(one / "a/b"), (one / "a/b").name, str((one / "a/b").parent)), (str(other / "a/b"), "b", str(other / "a")))
        (one / "d").mkdir(mode=0o700)
        self.assertRaises(FileExistsError, (one / "d").mkdir)
        (one / "d").mkdir(exist_ok=True)
        (other / "f").write_bytes("\u00e9\n".encode() + bytes(70000))
        self.assertRaises(FileExistsError, (one / "f").mkdir, exist_ok=True)
        self.assertEqual(((one / "f").read_bytes(), (one / "f").read_text()), ((other / "f").read_bytes(), (other / "f").read_text()))
        self.assertEqual(sorted(one.iterdir()), sorted(str(path) for path in other.iterdir()))
        self.assertEqual([((one / name).exists(), (one / name).is_dir(), (one / name).is_file()) for name in ("d", "f", "none")],
                         [((other / name).exists(), (other / name).is_dir(), (other / name).is_file()) for name in ("d", "f", "none")])
        self.assertEqual((one / "f").stat().st_size, 70003)
        for path in (one / "none", one / "d"):
            self.assertRaises(OSError, path.unlink)
        (one / "none").unlink(missing_ok=True)
        (one / "f").unlink()
        (one / "d").rmdir()
        self.assertEqual(list(other.iterdir()), [])
        self.assertRaises(FileNotFoundError, (one / "f").read_text)


class Suppress(Case):
    """`suppress`."""

    def test_suppressed(self):
        """Exceptions of its classes are ignored, and no others."""
        with suppress(OSError, ValueError):
            raise FileNotFoundError("none")
        with suppress():
            pass
        with self.assertRaises(KeyError), suppress(OSError):
            raise KeyError("x")
