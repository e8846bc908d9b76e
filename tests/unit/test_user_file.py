"""The effects of a user's settings file on a front end and the host: options, their precedence, and the last row."""
import os
import unittest
from unittest import mock

from aids import Case
from roam_live.common.errors import Fault
from roam_live.common.event_loop import Loop
from roam_live.config import environment as config_environment
from roam_live.config.styled_text import Styled
from roam_live.config.user_file import OWN, default_command, settings_path, undone
from roam_live.frontend.display import Display
from roam_live.frontend.settings import StatusRow, format_values

# Lines of a file, a variable of the environment and its value, the query, and the answer.
CHOSEN = (
    ("set -g prefix C-a", {}, config_environment.chosen_prefix, "C-a"),
    ("set -g prefix C-a", {"ROAM_PREFIX": "C-x"}, config_environment.chosen_prefix, "C-x"),
    ("", {}, config_environment.chosen_prefix, "C-b"),
    ("set -g mouse on", {}, config_environment.wants_mouse, True),
    ("set -g mouse on", {"ROAM_MOUSE": "off"}, config_environment.wants_mouse, False),
    ("set -g predict never", {}, config_environment.chosen_prediction, "never"),
    ("set -g history-limit 5", {}, config_environment.chosen_history, 5),
    ("set -g history-limit 5", {"ROAM_HISTORY": "7"}, config_environment.chosen_history, 7),
    ("set -g set-clipboard on", {}, config_environment.sets_clipboard, True),
    ("set -g set-clipboard off", {}, config_environment.may_set_clipboard, False),
    ("", {}, config_environment.may_set_clipboard, True),
    ("setw -g mode-keys vi", {}, config_environment.wants_vi, True),
    ("setw -g mode-keys emacs", {"EDITOR": "vim"}, config_environment.wants_vi, False),
    ("", {"EDITOR": "vim"}, config_environment.wants_vi, True),
    ("set -g window-size latest", {}, config_environment.follows_latest, True),
    ("", {}, config_environment.follows_latest, False),
    ("set -g escape-time 500", {}, lambda: config_environment.number_of("escape-time", config_environment.ESCAPE_TIME), 500),
    ("set -g default-command 'bash -l'", {"SHELL": "/bin/dash"}, default_command, ["/bin/dash", "-c", "bash -l"]),
    ("", {}, default_command, []),
)


class Own(Case):
    """The file."""

    def setUp(self):
        self.folder = self.made_folder()
        (self.folder / "roam").mkdir()
        self.file = self.folder / "roam" / "roam.conf"
        self.addCleanup(config_environment.choose_by_file, {})

    def read(self, text, **environment):
        """Read a file with this text."""
        if text is not None:
            self.file.write_text(text)
        patched = mock.patch.dict(os.environ, {"XDG_CONFIG_HOME": str(self.folder), **environment})
        patched.start()
        self.addCleanup(patched.stop)
        for name in {"ROAM_PREFIX", "ROAM_MOUSE", "ROAM_PREDICT", "ROAM_HISTORY", "ROAM_CLIPBOARD", "EDITOR", "VISUAL"} - set(environment):
            os.environ.pop(name, None)
        OWN.read()

    def test_chosen(self):
        """An option takes effect, and the environment has precedence."""
        for text, environment, asks, answer in CHOSEN:
            self.read(text, **environment)
            self.assertEqual(asks(), answer, (text, environment))

    def test_none(self):
        """Without a file nothing is set or reported; a relative configuration folder is ignored."""
        self.read("set -g prefix C-a")
        self.file.unlink()
        self.read(None)
        self.assertEqual((OWN.found, OWN.line(), config_environment.BY_FILE), (None, "", {}))
        with mock.patch.dict(os.environ, {"XDG_CONFIG_HOME": "here", "HOME": "/home/a"}):
            self.assertEqual(settings_path(), "/home/a/.config/roam/roam.conf")

    def test_told(self):
        """A single unsupported line is shown literally, several as a count."""
        self.read("set -g prefix C-a\nfoo bar\n")
        self.assertEqual((OWN.line(), config_environment.chosen_prefix()), ("roam.conf:2: roam does not support foo", "C-a"))
        self.read("foo\nbind x nosuch\nbind y split-window -Q\nbind C-v split-window -h\n")
        self.assertEqual(OWN.line(), "3 lines of roam.conf have no effect in roam; `mux settings` prints them")
        self.assertEqual(undone(OWN.found)[2], "roam.conf: y is not bound: split-window: unknown flag -Q")
        self.assertEqual(list(OWN.found.bindings), [("prefix", "C-v")])
        self.read("display 'good morning'\n")
        self.assertEqual(OWN.line(), "good morning")

    def test_added(self):
        """Another file is applied too, and everything of the first stays that it doesn't set."""
        self.read("set -g prefix C-a\nset -g mouse on\nbind x kill-pane\n")
        other = self.folder / "other.conf"
        other.write_text("set -g mouse off\nbind y next-window\nfoo\n")
        OWN.add(str(other))
        self.assertEqual((config_environment.chosen_prefix(), config_environment.wants_mouse(), OWN.line()),
                         ("C-a", False, "other.conf:3: roam does not support foo"))
        self.assertEqual(sorted(OWN.found.bindings), [("prefix", "x"), ("prefix", "y")])
        before = OWN.found
        with self.assertRaisesRegex(Fault, "none: cannot be read: No such file or directory$"):
            OWN.add(str(self.folder / "none"))
        self.assertIs(OWN.found, before)

    def test_refused(self):
        """A file that others may write is reported, and nothing of it applies; neither does an invalid value."""
        self.file.write_text("set -g prefix C-a\n")
        self.file.chmod(0o666)
        self.read(None)
        self.assertEqual((OWN.line(), config_environment.chosen_prefix()), ("roam.conf: not read: other users may write to it", "C-b"))
        with mock.patch.dict(os.environ, {"ROAM_PREFIX": "F1"}), self.assertRaisesRegex(Fault, "ROAM_PREFIX is 'F1'"):
            config_environment.chosen_prefix()


class Row(Case):
    """Both ends of the last row."""

    def setUp(self):
        self.now = 0.0
        self.stop_clock()
        self.loop = Loop(lambda: self.now)
        outer = mock.Mock(**{"size.return_value": (24, 40)})
        outer.waiting = bytearray()
        self.patch("roam_live.frontend.display.OuterTerminal", lambda: outer)
        self.display = Display(self.loop, lambda line: None)
        self.display.part.asked, self.display.part.told_size, self.display.row.labels = (23, 40), (24, 40), "[1]"
        told = mock.Mock(names={2: ""}, runs={2: "vim"})
        panes = mock.Mock(title_and_shape=("a title", 0))
        self.row = StatusRow(self.display, self.loop, lambda: format_values("main", 2, told, panes, False))
        self.addCleanup(config_environment.choose_by_file, {})

    def choose(self, left, right):
        """Apply formats."""
        config_environment.choose_by_file({"status-left": left, "status-right": right})
        return self.row.choose()

    def test_ends(self):
        """They are before and after the labels, in their styles, and cut on a narrow terminal."""
        self.assertEqual(self.choose("[#S] ", " #[fg=red]#I:#W"), [])
        self.assertEqual(self.display.row.line(), "[main] [1]" + " " * 24 + " 2:vim")
        text = self.display.row.line_text(self.display.row.line(), 40)
        self.assertEqual(text, "\x1b[0;7m[main] \x1b[0;7m[1]" + " " * 24 + "\x1b[0;7m \x1b[0;7;31m2:vim\x1b[0m")
        self.choose("#T#T#T", "")
        self.assertEqual(self.display.row.line()[:17], "a titlea titl[1] ")
        self.display.row.told = "told"
        self.assertEqual(self.display.row.line_text("told", 9), "\x1b[0;7mtold     \x1b[0m")

    def test_default(self):
        """Without status-left the row begins with the session's name if that takes a third at most; an empty status-left turns it off."""
        self.row.name = "main"
        config_environment.choose_by_file({})
        self.assertEqual(self.row.choose(), [])
        self.assertEqual(self.display.row.line(), "[main] [1]" + " " * 30)
        self.assertEqual(self.display.row.line_text(self.display.row.line(), 40),
                         "\x1b[0;7m[main] \x1b[0;7m[1]" + " " * 30 + "\x1b[0m")
        self.display.outer.size.return_value = (24, 20)
        self.assertEqual(self.display.row.line(), "[1]" + " " * 17)
        self.display.outer.size.return_value = (24, 40)
        config_environment.choose_by_file({"status-right": "#I"})
        self.assertEqual((self.row.choose(), self.display.row.line()), ([], "[main] [1]" + " " * 29 + "2"))
        self.assertEqual((self.choose("", ""), self.display.row.line()), ([], "[1]" + " " * 37))

    def test_wrong(self):
        """Unsupported parts of a format are reported; a row without formats is unchanged."""
        self.assertEqual(self.choose("#(date)", ""), ["status-left: roam does not support #(date)"])
        self.choose("", "")
        self.assertEqual((self.display.row.status, self.display.row.line()), (None, "[1]" + " " * 37))
        self.assertEqual(self.display.row.parts[0] + [Styled("", "")], [Styled("", "")])

    def test_filled(self):
        """A format alone uses the same values, without styles; its unsupported parts are reported."""
        self.assertEqual(self.row.filled("#[fg=red]#S #I, #{window_name} 50% \x1b"), "main 2, vim 50% ?")
        with self.assertRaises(ValueError) as raised:
            self.row.filled("#S #{pane_pid}")
        self.assertEqual(str(raised.exception), "roam does not support #{pane_pid}")

    def test_clock(self):
        """A clock of minutes is updated once a minute, and without a clock there are no updates."""
        with mock.patch("time.time", return_value=30.0):
            self.choose("%H:%M", "")
            self.assertIn("status", self.loop.due)
            self.choose("#S", "")
            self.assertNotIn("status", self.loop.due)


if __name__ == "__main__":
    unittest.main()
