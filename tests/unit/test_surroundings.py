"""The message about a locale, and about a terminal inside another multiplexer, on attach."""
import unittest
from unittest import mock

from roam_live.frontend import surroundings
from roam_live.frontend.surroundings import advice

UTF8 = {"LANG": "C.UTF-8"}
LOCALE = "locale {} has no UTF-8: programs may print ?; set LC_ALL=C.UTF-8"
INSIDE = "inside {}: C-b C-b reaches this one; ROAM_PREFIX=C-a avoids that"

# The environment, the prefix, the pane in which the front end runs, and the line.
ROWS = (
    (UTF8, "C-b", "", ""),
    ({"LANG": "de_DE.utf8"}, "C-b", "", ""),
    ({"LC_CTYPE": "en_US.UTF-8", "LANG": "C"}, "C-b", "", ""),
    ({"LC_ALL": "", "LANG": "C.UTF-8"}, "C-b", "", ""),
    ({}, "C-b", "", LOCALE.format("C")),
    ({"LANG": "POSIX"}, "C-b", "", LOCALE.format("POSIX")),
    ({"LC_ALL": "de_DE.ISO-8859-1", "LANG": "C.UTF-8"}, "C-b", "", LOCALE.format("de_DE.ISO-8859-1")),
    ({"LANG": "\x1b[2J" + "x" * 99}, "C-b", "", LOCALE.format("?[2J" + "x" * 14)),
    ({"LANG": "C", "TMUX": "/tmp/t"}, "C-b", "", LOCALE.format("C")),
    ({**UTF8, "TMUX": "/tmp/t"}, "C-b", "", INSIDE.format("tmux")),
    ({**UTF8, "TMUX": "/tmp/t"}, "C-a", "", ""),
    ({**UTF8, "TMUX": ""}, "C-b", "", ""),
    (UTF8, "C-b", "/run/roam/main/w/1", INSIDE.format("another session")),
    ({**UTF8, "TMUX": "/tmp/t"}, "C-b", "/run/roam/main/w/1", INSIDE.format("another session")),
    ({**UTF8, "ROAM_PREFIX": "C-b"}, "C-b", "/run/roam/main/w/1", ""),
)


class Advice(unittest.TestCase):
    """`advice`."""

    def test_all_rows(self):
        for environment, prefix, pane, line in ROWS:
            with mock.patch.object(surroundings, "own_pane", return_value=(pane, 1 if pane else 0)):
                self.assertEqual(advice(prefix, environment), line, (environment, prefix, pane))
                # It fits a terminal of 80 columns.
                self.assertLessEqual(len(line), 80)


if __name__ == "__main__":
    unittest.main()
