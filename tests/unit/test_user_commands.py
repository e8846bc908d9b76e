"""Commands in tmux's words, the user's own keys, and the command line."""
import pathlib
import subprocess
import unittest
from collections import deque
from unittest import mock

from aids import Case
from modes_played import PlayedModes
from roam_live.common.errors import Fault
from roam_live.common.event_loop import Loop
from roam_live.config import environment
from roam_live.commands.flags import BadCommand
from roam_live.commands.table import BY_NAME, DEFAULT_KEYS, asked_by, completed
from roam_live.config.loader import Binding, FileSettings
from roam_live.config.user_file import OWN
from roam_live.frontend.bindings import HELP, defaults
from roam_live.frontend.command_line import CommandLine, CommandRunner
from roam_live.input.key_names import name_of_key
from roam_live.input.keys import Keys

TOP = pathlib.Path(__file__).resolve().parents[2]

# Words, and their requests: acts, a word for the front end, and a text.
ASKED = (
    ("splitw -h", [], "split right", ""), ("splitw", [], "split down", ""),
    ("split-window -v -c #{pane_current_path}", [], "split down", ""),
    ("select-pane -t 3", ["focus 3"], "", ""), ("select-pane -t :.+", ["next"], "", ""), ("selectp -t :.2", ["focus 2"], "", ""),
    ("selectw -t :3", [], "go 3", ""), ("select-window -t +", [], "go next", ""), ("select-window -n", [], "go next", ""),
    ("resizep -L 5", [], "border left", "5"), ("resizep -D", [], "border down", "1"), ("selectl even-horizontal", [], "even", ""),
    ("send-keys ls Enter", ["char 6c", "char 73", "key return"], "", ""), ("send C-c", ["char 3"], "", ""),
    ("send -l Up", ["char 55", "char 70"], "", ""),
    ("display hello there", [], "tell", "hello there"), ("run -b ls", [], "run", "ls"), ("renamew", [], "window name", ""),
    ("rename-window my own", [], "window name", "my own"), ("send-prefix", [], "prefix", ""),
)
WRONG = (("kill-pane -t 3", "kill-pane: unknown flag -t"), ("killw -a", "killw: unknown flag -a"),
         ("neww -c #{pane_id}", "neww: -c takes a directory or #{pane_current_path}"), ("nosuch", "nosuch is not a command of roam"),
         ("choose-tree -Zs", "choose-tree: -s: there is no list of sessions here; `mux ls` prints one"),
         ("splitw -Q", "splitw: unknown flag -Q"), ("selectw -t 100", "selectw: 100 is not a number from 1 to 99"),
         ("selectp -t 0", "selectp: 0 is not a number from 1 to 9"), ("resizep", "resizep: -L, -R, -U, -D or -Z is missing"),
         ("killp x", "killp: unexpected word x"), ("selectl tiled", "selectl: unexpected word tiled"),
         ("selectl even-vertical x", "selectl: unexpected word x"), ("copy-mode x", "copy-mode: unexpected word x"),
         ("selectw -t 1 2", "selectw: unexpected word 2"), ("selectw 1 2", "selectw: unexpected word 2"),
         ("selectp 2", "selectp: unexpected word 2"),
         ("resizep -Z 1", "resizep: unexpected word 1"), ("resizep -L 1 2", "resizep: unexpected word 2"),
         ("splitw -l 5 htop", "splitw: unknown flag -l"), ("splitw -n name", "splitw: unknown flag -n"),
         (f"neww -n {'n' * 65}", "neww: a name has at most 64 printable characters"),
         ("send-keys", "send-keys: keys or a text are missing"),
         ("send-keys C-;", "send-keys: C-; names a key that sends nothing; -l types its characters"),
         (f"display {'x' * 1001}", "display: at most 1000 characters are allowed"),
         (f"send-keys {'x' * 1001}", "send-keys: at most 100 words of 1000 characters are allowed"),
         ("display", "display: a text is missing"), ("\x1b[2J", "?[2J is not a command of roam"))


def keys_of(text):
    """Return the keys of bytes from a terminal."""
    keys = Keys()
    return keys.fed(text) + keys.ended()


class Table(unittest.TestCase):
    """The table."""

    def test_asked(self):
        for words, acts, wish, text in ASKED:
            self.assertEqual(tuple(asked_by(words.split(" ")))[:3], (acts, wish, text), words)

    def test_begins(self):
        """The start options of a new pane or window: the words of a command, a folder, a name, and the flag to stay."""
        for words, wish, begins in (
            ("splitw htop", "split down", (["htop"], "", "", False)),
            ("splitw -h htop -d 5", "split right", (["htop", "-d", "5"], "", "", False)),
            ("splitw -d -- -x", "split down", (["-x"], "", "", True)), ("splitw -c /tmp", "split down", ([], "/tmp", "", False)),
            ("splitw -h -c #{pane_current_path} vi", "split right", (["vi"], "", "", False)),
            ("neww -n logs -c ~ tail -f x", "window new", (["tail", "-f", "x"], "~", "logs", False)),
            ("neww -d", "window new", ([], "", "", True)),
        ):
            asked = asked_by(words.split(" "))
            self.assertEqual((asked.wish, tuple(asked.begins)), (wish, begins), words)
        for words in ("splitw", "splitw -h", "neww", "neww -c #{pane_current_path}"):
            self.assertIsNone(asked_by(words.split(" ")).begins, words)

    def test_wrong(self):
        for words, why in WRONG:
            with self.assertRaises(BadCommand) as raised:
                asked_by(words.split(" "))
            self.assertEqual(str(raised.exception), why)

    def test_defaults(self):
        """Each default key runs a command, and the help lists it."""
        wishes = {key: asked.wish or asked.acts[0] for key, asked in defaults().items()}
        self.assertEqual(len(wishes), len(DEFAULT_KEYS))
        keys = ("%", "up", "prev", " ", "\x1a", "C-left", "o", "0", "/")
        self.assertEqual([wishes[key] for key in keys],
                         ["split right", "up", "copy page", "even", "suspend", "border left", "next", "go 10", "copy search"])
        left = " ".join(line[:11] for line in HELP.split("\n")) + " q and a digit arrows C-arrows [ PgUp /  1 to 9 0 '"
        for name in DEFAULT_KEYS:
            told = {"PPage": "PgUp", **{side: "arrows" for side in ("Up", "Down", "Left", "Right")}}.get(name, name)
            told = "C-arrows" if name in ("C-Up", "C-Down", "C-Left", "C-Right") else told
            told = "1 to 9" if name.isdigit() and name != "0" else told
            self.assertIn(told, left.split(" ") if " " not in told else left, name)

    def test_pages(self):
        """The page of settings and the completion match the table."""
        run = subprocess.run([str(TOP / "tools/command_pages"), "--check"], stdout=subprocess.PIPE, check=False)
        self.assertEqual((run.returncode, run.stdout), (0, b""))

    def test_names(self):
        self.assertEqual((completed("ren"), completed("nosuch")), (["rename-window", "renamew"], []))


class Bound(unittest.TestCase):
    """The user's own key bindings."""

    def asked(self, own, text):
        """Return the requests of input."""
        return PlayedModes(own=own).told(text)

    def test_rebound(self):
        """Each default key may be bound to another command, and each command to another key."""
        for key in defaults():
            typed = {"up": "\x1b[A", "down": "\x1b[B", "left": "\x1b[D", "right": "\x1b[C", "prev": "\x1b[5~", "C-up": "\x1b[1;5A",
                     "C-down": "\x1b[1;5B", "C-left": "\x1b[1;5D", "C-right": "\x1b[1;5C"}.get(key, key)
            name = name_of_key(keys_of(typed.encode())[0])
            own = {("prefix", name): Binding([["list-keys"]], False)}
            self.assertEqual(self.asked(own, b"\x02" + typed.encode())[-1], ([], f"own prefix {name}"), key)
            self.assertEqual(self.asked({("prefix", name): None}, b"\x02" + typed.encode())[-1], ([], "unknown"), key)

    def test_tables(self):
        """A key of the root table needs no prefix; an unbound table has only later bindings."""
        own = {("root", "f5"): Binding([["next-window"]], False), ("prefix", "all"): None, ("prefix", "v"): Binding([["kill-pane"]], True)}
        self.assertEqual(self.asked(own, b"\x1b[15~a"), [([], "own root f5"), (["char 61"], "")])
        wishes = ["", "unknown", "", "own prefix v", "own prefix v", "", "unknown"]
        self.assertEqual([wish for _, wish in self.asked(own, b"\x02d\x02vv\x02\x02")], wishes)
        self.assertEqual(self.asked({("root", "C-a"): None}, b"\x01"), [([], "")])

    def test_names(self):
        for text, name in ((b"\x01", "C-a"), (b"\r", "enter"), (b"\t", "tab"), (b" ", "space"), (b"\x00", "C-space"), (b"\x1b[Z", "S-tab"),
                           (b"\x1b[1;3D", "M-left"), (b"\x1b[5~", "pageup"), (b"\x1bOP", "f1"), (b"\x1c", "C-\\"), (b"A", "A"),
                           (b"\x1b[99~", ""), (b"\x7f", "bspace"), (b"\x1b[1;5A", "C-up"), (b"\x1b[3;5~", "C-delete")):
            self.assertEqual(name_of_key(keys_of(text)[0]), name, text)


class Line(Case):
    """The command line, and the effects of commands."""

    def setUp(self):
        self.loop, self.commands = Loop(), mock.Mock(**{"session.number": 2})
        self.runner = CommandRunner(mock.Mock(loop=self.loop, **{"commands.return_value": self.commands}), mock.Mock())

    def test_edited(self):
        """Arrows recall earlier lines, and names are completed as far as they are unique."""
        line = CommandLine(deque(["one", "two"]))
        for name, text in (("up", "two"), ("up", "one"), ("up", "one"), ("down", "two"), ("down", ""), ("n", "n"), ("e", "ne"),
                           ("\t", "ne"), ("w", "new"), ("\t", "new"), ("-", "new-"), ("\t", "new-window "), ("\x15", ""), ("é", "é"),
                           ("\x7f", "")):
            line.edit(name)
            self.assertEqual(line.text, text, name)
        line.text = "next; ren"
        line.edit("\t")
        self.assertEqual((line.text, line.line()), ("next; rename", ":next; rename"))

    def test_synchronized(self):
        """The switch for keys to all panes applies to the window, if it changes it; no other window has it then."""
        for was_on, line, is_switched in ((False, "setw synchronize-panes on", True), (True, "setw synchronize-panes on", False),
                                          (True, "setw synchronize-panes off", True), (True, "set -w synchronize-panes", True),
                                          (False, "setw synchronize-panes", True), (True, "setw -u synchronize-panes", True),
                                          (False, "synchronize-panes", True)):
            self.runner.keyboard.grant.reset_mock()
            self.commands.synchronizing.is_on.return_value = was_on
            self.runner.typed(line)
            self.assertEqual([one.args[0] for one in self.runner.keyboard.grant.call_args_list], ["synchronize"] * is_switched, line)
            self.assertNotIn("synchronize-panes", environment.BY_FILE)
        self.runner.typed("setw synchronize-panes perhaps")
        self.commands.display.row.tell.assert_called_with("synchronize-panes is 'perhaps'; it may be on or off", 4.0)

    def test_done(self):
        """Commands run in order, up to one that fails."""
        self.runner.typed("splitw -h; send-keys 'a b' ; nosuch; killp")
        self.assertEqual([one.args[0] for one in self.runner.keyboard.grant.call_args_list], ["split right"])
        self.assertEqual([one.args for one in self.commands.type_key.call_args_list], [(["char 61", "char 20", "char 62"],)])
        self.commands.display.row.tell.assert_called_with("nosuch is not a command of roam", 4.0)
        self.assertEqual(list(self.runner.lines), ["splitw -h; send-keys 'a b' ; nosuch; killp"])
        for wrong in ("splitw 'x", "bind { killp }"):
            self.runner.typed(wrong)
        self.assertEqual(len(self.runner.keyboard.grant.call_args_list), 1)

    def test_shell(self):
        """The last line of a background shell's output is shown, printable; nothing waits for it."""
        self.runner.typed("run -b 'echo one; printf \"two\\033[2J\"'")
        while not self.commands.display.row.tell.called:
            self.loop.turn()
        self.commands.display.row.tell.assert_called_once_with("two?[2J", 4.0)
        self.runner.runs[0].process.wait()
        self.assertTrue(self.runner.runs[0].has_ended())

    def test_failed(self):
        """A message reports the status of a shell that fails, behind its output, also if it closes its output before it ends."""
        for line, told in (("run false", "'false' returned 1"), ("run -b 'exec >&- 2>&-; sleep 0.1; exit 3'", "returned 3"),
                           ("run 'kill -9 $$'", "terminated by signal 9")):
            self.commands.display.row.tell.reset_mock()
            self.runner.typed(line)
            while not self.commands.display.row.tell.called:
                self.loop.turn()
            self.assertTrue(self.commands.display.row.tell.call_args.args[0].endswith(told), line)

    def test_error_ends(self):
        """The message of an earlier command ends with the next one, and a message of something else stays."""
        row = self.commands.display.row
        row.tell.side_effect = lambda text, seconds: setattr(row, "told", text)
        self.runner.typed("resize-pane -x 30")
        self.assertEqual(row.told, "resize-pane: unknown flag -x")
        self.runner.typed("resize-pane -Z")
        row.end_told.assert_called_once_with()
        row.told = "another message"
        self.runner.typed("resize-pane -Z")
        row.end_told.assert_called_once_with()

    def test_source(self):
        """An error of source-file ends the chain, and is the message."""
        self.runner.settings.read.side_effect = Fault("/gone.conf: cannot be read: No such file or directory")
        self.runner.typed("source-file /gone.conf ; killp")
        self.commands.display.row.tell.assert_called_once_with("/gone.conf: cannot be read: No such file or directory", 4.0)
        self.commands.type_key.assert_not_called()

    def test_listed(self):
        """A shell's whole output is shown in a list; a single line, and without a list the last one, as a message."""
        self.commands.lists.show_lines.return_value = True
        self.runner.typed("run 'echo \" one\"; printf \"two\\033\\tx\\n\\n\"'")
        while not self.commands.lists.show_lines.called:
            self.loop.turn()
        self.commands.lists.show_lines.assert_called_once_with([" one", "two?    x"])
        self.assertFalse(self.commands.display.row.tell.called)
        self.commands.lists.show_lines.return_value = False
        for line in ("run 'echo only'", "run 'echo one; echo two'"):
            self.commands.display.row.tell.reset_mock()
            self.runner.typed(line)
            while not self.commands.display.row.tell.called:
                self.loop.turn()
        self.commands.display.row.tell.assert_called_once_with("two", 4.0)
        self.assertEqual(self.commands.lists.show_lines.call_count, 2)

    def test_told(self):
        """A text is shown with its formats filled; one with unsupported parts is refused."""
        self.runner.settings.filled.side_effect = lambda text: text.replace("#S", "main")
        self.runner.typed("display '#S is it'")
        self.commands.display.row.tell.assert_called_once_with("main is it", 4.0)
        self.runner.settings.filled.side_effect = ValueError("roam does not support #{pid}")
        self.runner.typed("display '#{pid}'")
        self.commands.display.row.tell.assert_called_with("roam does not support #{pid}", 4.0)

    def test_bound(self):
        """Keys are bound and unbound at this terminal, in addition to those of the file; a failure is reported, and changes nothing."""
        self.addCleanup(OWN.__init__)
        OWN.found = FileSettings(commands=BY_NAME)
        OWN.found.bindings["prefix", "r"] = Binding([["kill-pane"]], False)
        self.runner.typed("bind v split-window -h; bind -n F5 next-window; unbind r")
        found = {("prefix", "r"): None, ("prefix", "v"): Binding([["split-window", "-h"]], False),
                 ("root", "f5"): Binding([["next-window"]], False)}
        self.assertEqual((OWN.found.bindings, OWN.is_typed), (found, True))
        self.assertEqual(self.runner.settings.go_by.call_count, 3)
        for line, why in (("bind v nosuch", "nosuch is not a command of roam, so v is not bound"),
                          ("bind w swapp", "swapp is not a command of roam, so w is not bound"),
                          ("bind v split-window -Q", "v is not bound: split-window: unknown flag -Q"),
                          ("bind", "bind: a key is missing"), ("unbind nokey", "nokey is not a known key"),
                          ("bind v", "bind v needs a command")):
            self.runner.typed(line)
            self.assertEqual(self.commands.display.row.tell.call_args.args[0], why)
            self.assertEqual(OWN.found.bindings, found)
        self.runner.typed("unbind -a")
        self.assertEqual(OWN.found.bindings, {("prefix", "all"): None, ("root", "f5"): found["root", "f5"]})

    def test_set(self):
        """An option is set at this terminal; an invalid one is reported."""
        self.runner.typed("set -g nosuch 1")
        self.commands.display.row.tell.assert_called_with("nosuch is not an option of roam", 4.0)
        self.runner.settings.go_by.assert_not_called()


if __name__ == "__main__":
    unittest.main()
