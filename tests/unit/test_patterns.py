"""Matches and searches in live/: each use of `re` and of an escape is listed with its purpose, and there is no other."""
import patterns
from aids import Case


class Patterns(Case):
    """The list of `tests/unit/list_patterns`."""

    def test_listed(self):
        printed = self.printed()
        self.assertEqual(patterns.main(), 0, printed.getvalue())
        self.assertFalse(any("painted" in reads or "painting" in reads for reads in patterns.KNOWN.values()))

    def test_found(self):
        """Unlisted uses are found in any spelling, and so are obsolete entries."""
        folder = self.made_folder()
        self.patch_of(patterns, "LIVE", folder)
        texts = {
            "a.py": 'import re\nMARKS = re.compile("x")\n', "b.py": 'def f(a: re.Match) -> None:\n    return b"\\x1b[2J" in a\n',
            "c.py": "class C:\n    def f(self):\n        return re.sub(r'\\x1b', '', self.painted)\n", "d.py": "from re import sub\n",
            "e.py": "import re as r\n", "f": "#!/bin/sh\nprintf '\\033c'\n", "g": "#!/usr/bin/env python3\nX = '\\033c'\n",
            "h.py": "def f(text):\n    return text.find(terminal.RESET)\n", "i.py": "from roam_live.common.tty import RESET\n",
            "j.py": 'def f(found: re.Match[str]) -> None:\n    """Nothing."""\n', "k.py": 'X: "re.Pattern" = f"{1}"\n',
        }
        for name, text in texts.items():
            (folder / name).write_text(text, encoding="utf-8")
        self.assertEqual(patterns.found_uses(), {
            ("a.py", "MARKS", "re"), ("b.py", "f", "ESC"), ("c.py", "C.f", "re"), ("c.py", "C.f", "ESC"), ("d.py", "", "re"),
            ("e.py", "", "re"), ("f", "", "ESC"), ("g", "X", "ESC"), ("h.py", "f", "RESET"), ("i.py", "", "RESET"),
        })
        printed = self.printed()
        self.assertEqual(patterns.main(), 1)
        self.assertIn("NOT LISTED", printed.getvalue())
        self.assertIn("listed, and not there any more: roam_live/input/keys.py WHOLE ESC", printed.getvalue())
