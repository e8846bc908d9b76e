"""Formats of a status row, by tmux's manual: values, times, styles, and unknown parts."""
import os
import time
import unittest

from roam_live.config.formats import MOST_FORMAT, changes_in, filled, read_format, restyled

VALUES = {"session": "main", "window": "bash", "index": "2", "pane": "3", "title": "a\x1b]0;b\x07c", "host": "here.example",
          "short_host": "here", "flags": "*"}

# 29 November 2026, 01:02:03 in UTC.
NOW = 1795914123.0

# A format, and its output.
SAYS = {
    "": "", "#S": "main", "[#S] #I:#W#F #P": "[main] 2:bash* 3", "#H #h": "here.example here", "##S": "#S", "#{session_name}": "main",
    "#{window_index}:#{window_name}": "2:bash", "#{host_short}": "here", "%H:%M": "01:02", "%H:%M:%S": "01:02:03", "%d-%b-%y": "29-Nov-26",
    "100%%": "100%", "%Y #S": "2026 main", "%": "%", "#": "#", "a#": "a#", "#T": "a?]0;b?c", "\x1b[31m": "?[31m", "wörter 中": "wörter 中",
    "#S" * 3: "main" * 3,
}

# A format, its output, and its unknown parts.
WRONG = {
    "#(date) #S": (" main", ["#(date)"]), "#{?window_zoomed_flag,Z,}x": ("x", ["#{?window_zoomed_flag,Z,}"]), "#Zx": ("#Zx", ["#Z"]),
    "#[fg=nosuch]x": ("x", ["#[fg=nosuch]"]), "#{}": ("", ["#{}"]), "#(a\\)b)c": ("c", ["#(a\\)b)"]), "#(open": ("", ["#(open"]),
}

# Words of a style, and the SGR numbers (ECMA-48, 8.3.117; the colours of xterm).
STYLES = {
    "fg=red": "31", "bg=red": "41", "fg=brightred": "91", "bg=brightblue": "104", "fg=colour196": "38;5;196", "fg=color7": "38;5;7",
    "bg=#ff8000": "48;2;255;128;0", "fg=default": "39", "bold": "1", "nobold": "", "fg=green,bold": "32;1", "fg=green bg=black": "32;40",
    "fg=red,default": "", "fg=red,bold,none": "31", "reverse,noreverse": "27", "fg=red,fg=blue": "34", "fg=colour256": None, "fg=": None,
    "": None, "bolder": None, "fg=#12345": None, "align=left": None, "fg=red;41": None,
}


class Formats(unittest.TestCase):
    """Formats."""

    def setUp(self):
        before = os.environ.get("TZ")
        os.environ["TZ"] = "UTC"
        time.tzset()
        self.addCleanup(self.restore, before)

    @staticmethod
    def restore(before):
        """Restore the time zone."""
        os.environ.pop("TZ")
        os.environ.update({} if before is None else {"TZ": before})
        time.tzset()

    @staticmethod
    def said(text):
        """Return the output of a format."""
        return "".join(one.text for one in filled(read_format(text), VALUES, NOW))

    def test_says(self):
        for text, said in SAYS.items():
            self.assertEqual((self.said(text), read_format(text).wrong), (said, ()), text)

    def test_wrong(self):
        for text, (said, wrong) in WRONG.items():
            self.assertEqual((self.said(text), list(read_format(text).wrong)), (said, wrong), text)
        self.assertEqual(self.said("x" * (MOST_FORMAT + 9)), "x" * MOST_FORMAT)
        self.assertEqual(len(read_format("x" * (MOST_FORMAT + 9)).wrong), 1)
        self.assertEqual(len("".join(one.text for one in filled(read_format("#T"), {"title": "y" * 9999}, NOW))), 200)

    def test_styles(self):
        for words, numbers in STYLES.items():
            style = restyled({}, words)
            self.assertEqual(None if style is None else ";".join(filter(None, style.values())), numbers, words)
        shown = filled(read_format("a#[fg=red]b#[bold]c#[default]d#[bg=blue]e"), VALUES, NOW)
        self.assertEqual([tuple(one) for one in shown], [("0;7", "a"), ("0;7;31", "b"), ("0;7;31;1", "c"), ("0;7", "d"), ("0;7;44", "e")])

    def test_changes(self):
        for text, interval, wait in (("#S", 15, None), ("%H:%M", 15, 57.0), ("%H:%M", 0, None), ("%S", 15, 15.0), ("%S", 1, 1.0),
                                     ("%d", 15, 777.0), ("%d %M", 15, 57.0), ("%R", 120, 120.0)):
            self.assertEqual(changes_in(read_format(text), NOW, interval), wait, (text, interval))


if __name__ == "__main__":
    unittest.main()
