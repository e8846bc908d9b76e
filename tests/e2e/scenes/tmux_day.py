"""The daily actions of a tmux user, each once in roam, in the order of the guide's page for tmux users."""
import os
import pathlib
import subprocess

from tried import SESSION, Outer, check, comes, listed, said, scene, tool

PAGE = pathlib.Path(__file__).resolve().parents[3] / "docs/guide/from-tmux.md"
ACTS = 50

PREFIX = b"\x02"


class Day:
    """A day at a terminal: each action has its number in the page, and is done once."""

    def __init__(self, folder):
        self.folder, self.done = folder, set()
        self.outer = None

    def does(self, numbers, name, holds, seen=""):
        """Check actions of these numbers."""
        self.done.update(numbers)
        check(f"{', '.join(map(str, numbers))}: {name}", holds, seen or (self.outer.rows()[-3:] if self.outer else ""))

    def keys(self, *keys):
        """Type keys, each after the prefix."""
        for key in keys:
            self.outer.type(PREFIX + key)

    def types(self, numbers, name, keys, text):
        """Type keys after the prefix, and check that a text appears."""
        self.keys(*keys)
        self.does(numbers, name, self.outer.shows(text))

    def stands(self, numbers, name, keys, status):
        """Type keys after the prefix, and check the last row."""
        self.keys(*keys)
        self.does(numbers, name, comes(lambda: status in self.outer.rows()[-1]))

    def runs(self, numbers, *words, shows=""):
        """Run `mux` with these words."""
        status, out, err = said(*words)
        self.does(numbers, f"mux {' '.join(words)}", status == 0 and shows in out, (status, out, err))

    def attach(self, *words):
        """Attach at a new terminal."""
        self.outer = Outer(tool("mux", *words))

    def line(self, numbers, text, shows):
        """Type a command after the prefix and a colon."""
        self.keys(b":" + text.encode() + b"\r")
        self.does(numbers, f": {text}", self.outer.shows(shows))


def panes(day):
    """Test actions with panes."""
    day.stands([5], "% splits", [b"%"], "1 [2]")
    day.stands([6], '" splits', [b'"'], " 1  2 [3]")
    day.stands([7], "an arrow goes left", [b"\x1b[D"], "[1] 2  3 ")
    day.stands([8], "o goes on", [b"o"], " 1 [2] 3 ")
    day.stands([9], "; goes back", [b";"], "[1] 2  3 ")
    day.stands([10], "q and a digit", [b"q3"], " 1  2 [3]")
    day.types([11], "z zooms", [b"z"], " 1  2 [3] Z")
    day.stands([11], "and back", [b"z"], " 1  2 [3] 1:")
    before = day.outer.rows()[3]
    day.keys(b"\x1b[1;5D")
    day.does([12], "C-Left moves the border", comes(lambda: day.outer.rows()[3] != before))
    day.types([13], "Space gives even shares", [b" "], " 1  2 [3]")
    day.stands([14], "x closes the pane", [b"x"], " 1 [2] 1:")


def windows(day):
    """Test actions with windows."""
    day.types([15], "c opens a window", [b"c"], "2:sh*")
    day.types([16], "n goes on", [b"n"], "1:sh*")
    day.types([17], "p goes back", [b"p"], "2:sh*")
    day.types([18], "l goes to the last", [b"l"], "1:sh*")
    day.types([19], "a digit goes there", [b"2"], "2:sh*")
    day.types([20], "w shows a list", [b"w"], "window 2, of 2")
    day.outer.type(b"q")
    day.types([21], ", renames", [b",\x15build\r"], "2:build*")
    day.runs([29], "list-windows", SESSION, shows="build")
    day.runs([31], "new-window", SESSION, shows=f"{SESSION}:3")
    day.runs([32], "rename-window", f"{SESSION}:3", "third")
    day.does([32], "is told here", day.outer.shows("3:third"))
    day.runs([33], "kill", "-f", f"{SESSION}:3")
    day.keys(b"&")
    day.does([22], "& shuts", comes(lambda: "2:build" not in day.outer.rows()[-1]))


def copied(day):
    """Test copies, and scrollback rows."""
    day.outer.type(b"\x15clear; seq 1 300; echo find''me\r")
    day.outer.shows("findme")
    day.types([26], "PgUp scrolls", [b"\x1b[5~"], "copy mode")
    day.outer.type(b"q")
    comes(lambda: "1:sh*" in day.outer.rows()[-1])
    day.types([23], "[ enters copy mode", [b"["], "[0/")
    day.outer.type(b"q")
    comes(lambda: "1:sh*" in day.outer.rows()[-1])
    day.runs([45], "buffer", "set", SESSION, "echo pas''ted")
    day.runs([45], "buffer", "show", SESSION, shows="echo pas''ted")
    day.types([24], "] pastes", [b"]"], "echo pas''ted")
    day.outer.type(b"\r")
    day.types([25], "= shows what was copied", [b"="], "buffer 1 of 1")
    day.outer.type(b"q")


def outside(day):
    """Test actions from outside."""
    day.runs([27], "send", SESSION, "C-u", "echo sent", "Enter")
    day.does([27], "is typed", day.outer.shows("sent"))
    day.runs([28], "capture", "-S", "-100", SESSION, shows="300")
    day.runs([30], "clients", SESSION, shows="24 by 80")
    day.runs([44], "env", SESSION)
    path = day.folder / "rows"
    with open(path, "wb") as file, subprocess.Popen(tool("mux", "log", SESSION), stdout=file) as log:
        # It is there once it prints the next row.
        comes(lambda: day.outer.type(b"seq 400 500\r") or comes(lambda: "450" in path.read_text(encoding="utf-8").split(), 2))
        day.does([43], "mux log prints rows", "450" in path.read_text(encoding="utf-8").split(), path.read_text(encoding="utf-8")[-200:])
        log.kill()
    paste = subprocess.run(tool("mux", "paste", SESSION), input=b"echo from a file\n", check=False)
    day.does([46], "mux paste", paste.returncode == 0 and day.outer.shows("from a file"))


def settings(day):
    """Test actions with a settings file."""
    file = pathlib.Path(os.environ["XDG_CONFIG_HOME"], "roam/roam.conf")
    file.write_text("set -g prefix C-a\nbind | split-window -h\nset -g status-right 'at %H'\n", encoding="utf-8")
    day.types([38], "R reads it", [b"R"], "at ")
    day.does([41], "the status row", day.outer.shows("at "))
    day.outer.type(b"\x01|")
    day.does([36, 37], "C-a, and a key that is bound", comes(lambda: "[3]" in day.outer.rows()[-1]))
    file.write_text("", encoding="utf-8")
    day.outer.type(b"\x01R")
    day.does([38], "and again", day.outer.shows("roam.conf was read"))


def keys(day):
    """Other keys."""
    day.types([34], "? lists the keys", [b"?"], "open a window")
    day.outer.type(b" ")
    day.line([35], "display-message said", "said")
    day.line([47], "run-shell 'echo ran'", "ran")
    day.types([39], "m has the mouse", [b"m"], "mouse")
    day.outer.type(b"\x15cat -v\r")
    day.outer.shows("cat -v")
    day.keys(b"\x02\r")
    day.does([42], "C-b C-b types it", day.outer.shows("^B"))
    day.outer.type(b"\x03")


@scene
def tmux_day(folder):
    """Each action of the page."""
    os.environ["XDG_CONFIG_HOME"] = str(folder / "config")
    (folder / "config/roam").mkdir(parents=True)
    os.environ["SHELL"] = "/bin/sh"
    day = Day(folder)
    day.runs([1], "new", "-d", SESSION)
    day.runs([2], "ls", shows=SESSION)
    day.attach("attach", SESSION)
    day.does([3], "attach", day.outer.status("[1] 1:"))
    for acts in (panes, windows, copied, outside, settings, keys):
        acts(day)
    first = day.outer
    day.attach("watch", SESSION)
    day.does([49], "watch", day.outer.shows("1:"))
    day.attach("attach", SESSION)
    day.outer.shows("1:")
    day.keys(b"D")
    day.does([40], "D detaches the others", first.ends())
    second = day.outer
    day.attach("attach", "-d", SESSION)
    day.does([48], "attach -d", second.ends() and day.outer.shows("1:"))
    day.keys(b"d")
    day.does([4], "d detaches", day.outer.ends() and SESSION in listed())
    day.runs([50], "kill", "-f", SESSION)
    check("each act of the page was done", day.done == set(range(1, ACTS + 1)), sorted(set(range(1, ACTS + 1)) - day.done))
    check("the page has as many", f"| {ACTS} |" in PAGE.read_text(encoding="utf-8"))
