"""Targets as tmux 3.3a finds them."""
import unittest

from aids import Case
from roam_live.commands.flags import BadCommand
from roam_live.commands.targets import FoundTarget
from tmux_played import PlayedContext

# The panes of the second window, as rows from and columns from, rows and columns: above left, above right, below.
PANES = [(1, 1, 14, 49), (16, 1, 15, 49), (1, 51, 30, 50)]

# A target, and what tmux 3.3a found, with the session `a`, its windows `one` (@0, %0) and `two` (@1) with the panes above left (%1), below
# left (%2) and right (%3). The caller is at %0.
PANE = {
    "a": "$0@0%0", "a:": "$0@0%0", "a:0": "$0@0%0", "a:1.1": "$0@1%2", "a:two": "$0@1%1", "two": "$0@1%1", ":1": "$0@1%1", ":1.2": "$0@1%3",
    "%1": "$0@1%1", "@1": "$0@1%1", "$0": "$0@0%0", "tw": "$0@1%1", "t*": "$0@1%1", "=a:=two": "$0@1%1", ":{end}": "$0@1%1", ":^": "$0@0%0",
    ":$": "$0@1%1", ":+": "$0@1%1", ":-": "$0@1%1", ":{start}": "$0@0%0", ":1.{top}": "$0@1%1", ":1.{bottom}": "$0@1%2",
    ":1.{left}": "$0@1%1", ":1.{right}": "$0@1%3", ":1.{top-left}": "$0@1%1", ":1.{bottom-right}": "$0@1%3", ":1.+": "$0@1%1",
    ":1.-": "$0@1%3", "a:+1": "$0@1%1", "one.0": "$0@0%0", "@1.2": "$0@1%3", "$0:1": "$0@1%1", "$0:1.2": "$0@1%3", ":@1.1": "$0@1%2",
    "": "$0@0%0", ":": "$0@0%0", ".": "$0@0%0", ":.": "$0@0%0", "0.0": "$0@0%0", "0": "$0@0%0", "1": "$0@1%1", "1.2": "$0@1%3",
    "=a:": "$0@0%0", "=a:1.": "$0@1%1", ":=1": "$0@1%1",
}

# A target, the kind that a command wants, and the message of tmux 3.3a.
WRONG = (
    ("two", "session", "can't find session: two"), ("=tw", "window", "can't find window: tw"), ("tw", "session", "can't find session: tw"),
    ("a:=tw", "window", "can't find window: tw"), ("{last}", "window", "can't find window: !"), (":!", "window", "can't find window: !"),
    ("{last}", "session", "can't find session: {last}"), ("a:.2", "window", "can't find pane: 2"), (".1", "window", "can't find pane: 1"),
    ("%2.1", "window", "can't find window: %2"), ("=", "window", "no mouse target"), ("{mouse}", "pane", "no mouse target"),
    ("{marked}", "session", "no marked target"), ("~", "window", "no marked target"), ("!", "session", "can't find session: !"),
    ("+", "session", "can't find session: +"), ("%", "window", "can't find pane: %"), (":1.!", "window", "can't find pane: !"),
    (":1.{last}", "pane", "can't find pane: !"), ("0", "session", "can't find session: 0"),
    (":1.{down-of}", "pane", "can't find pane: {down-of}"),
    ("b:1", "pane", "can't find session: b"),
)


class Finds(Case):
    """Targets in a played name space."""

    def setUp(self):
        self.context = PlayedContext(self, {"a": [("one", [(1, 1, 30, 100)]), ("two", PANES)]})

    def test_found(self):
        for text, ids in PANE.items():
            found = self.context.find(text, "pane")
            self.assertEqual(f"${found.session.id}@{found.window.id}%{found.pane.id}", ids, text)

    def test_wrong(self):
        for text, kind, told in WRONG:
            with self.assertRaises(BadCommand, msg=text) as raised:
                self.context.find(text, kind)
            self.assertEqual(str(raised.exception), told, text)

    def test_last(self):
        """The last window and the last pane are those that were current before."""
        model = self.context.known
        model.sessions[0].note["stack"] = [2]
        model.sessions[0].state["windows"]["2"]["history"] = [3, 2]
        for text, ids in ((":!", "@1%1"), (":{last}", "@1%1"), (":1.!", "@1%3"), (":1.{last}", "@1%3")):
            found = self.context.find(text, "pane")
            self.assertEqual(f"@{found.window.id}%{found.pane.id}", ids, text)

    def test_several(self):
        """A name that is exact wins; the beginning of two names is none; a pattern is one."""
        context = PlayedContext(self, {name: [("w", [(1, 1, 9, 9)])] for name in ("work", "work2", "web")})
        for text, name in (("work", "work"), ("work2", "work2"), ("we", "web"), ("*b", "web"), ("=work", "work")):
            self.assertEqual(context.find(text, "session").session.name, name)
        for text in ("wo", "w", "w*", "=we"):
            with self.assertRaises(BadCommand):
                context.find(text, "session")

    def test_beside(self):
        """The sides of the caller's pane, around the window's edges."""
        model = self.context.known
        panes = model.sessions[0].found[1].panes()
        self.context.place = FoundTarget(model.sessions[0], model.sessions[0].found[1], panes[0])
        for text, pane in ((".{up-of}", 2), (".{down-of}", 2), (".{right-of}", 3), (".{left-of}", 3), (".+", 2), (".-", 3), (".+2", 3)):
            self.assertEqual(self.context.find(text, "pane").pane.id, pane, text)

    def test_index(self):
        """The index of a window may be new if a command opens one."""
        for text, at in (("a:7", 7), (":7", 7), ("a:1", 1), (":+", 1), (":+3", 3), ("a:", None), ("a", None)):
            self.assertEqual(self.context.find(text, "window", may_index=True).at, at, text)


if __name__ == "__main__":
    unittest.main()
