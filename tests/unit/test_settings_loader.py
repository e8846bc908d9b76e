"""Settings files: lines in tmux's words with their effects, whole files of common forms, and unread files."""
import os
import unittest
from unittest import mock

from aids import Case
from roam_live.config import loader
from roam_live.config.loader import DEEPEST, LONGEST_TOLD, MOST_BYTES, MOST_FILES, MOST_TOLD, FileSettings
from roam_live.config.parser import BadWord, key_named

ENVIRONMENT = {"HOME": "/home/me", "USER": "me", "EMPTY": "", "SHELL": "/bin/zsh"}
COMMANDS = {"split-window", "kill-pane", "select-pane", "source-file", "display", "run-shell", "new-window", "resize-pane", "send-keys"}

# Lines, and their effects: options, bindings, shell commands and messages, and after `!` the reports.
LINES = (
    # Options.
    ("set -g prefix C-a", "prefix=C-a"), ("set-option -g prefix ^A", "prefix=C-a"), ("set -g prefix C-A", "prefix=C-a"),
    ("set prefix C-]", "prefix=C-]"), ("set -g prefix M-a", "! 1: prefix is 'M-a'; it may be C-a to C-z, C-], C-\\, C-^ or C-_"),
    ("set -g prefix C-1", "! 1: prefix is 'C-1'; it may be C-a to C-z, C-], C-\\, C-^ or C-_"), ("set -g prefix 'C-\\'", "prefix=C-\\"),
    ("set -g prefix", "! 1: prefix needs a value"), ("set -g prefix2 C-a", "! 1: prefix2 is not an option of roam"),
    ("set -g mouse on", "mouse=on"), ("set -g mouse off", "mouse=off"), ("set -g mouse", "mouse=on"), ("set -g mouse ON", "mouse=on"),
    ("set -g mouse yes", "mouse=on"), ("set -g mouse maybe", "! 1: mouse is 'maybe'; it may be on or off"),
    ("set -g mouse on; set -g mouse", "mouse=off"), ("set -g history-limit 50000", "history-limit=50000"),
    ("set -g history-limit -5", "! 1: history-limit is '-5'; it may be 0 to 1000000"), ("set -g -- history-limit 5", "history-limit=5"),
    ("set -g history-limit 10k", "! 1: history-limit is '10k'; it may be 0 to 1000000"),
    ("set -g history-limit 1000001", "! 1: history-limit is '1000001'; it may be 0 to 1000000"),
    ("set -g history-limit \u0665", "! 1: history-limit is '\u0665'; it may be 0 to 1000000"), ("set -g status off", "status=off"),
    ("set -g status 2", "! 1: status is '2'; it may be on or off"), ("set -g status-left '#S '", "status-left=#S "),
    ('set -g status-left "#[fg=red]#S"', "status-left=#[fg=red]#S"), ("set -g status-right %H:%M", "status-right=%H:%M"),
    ('set -g status-right ""', "status-right="), ("set -ga status-right ' x'", "status-right= x"),
    ("set -g status-right a ; set -ga status-right b", "status-right=ab"), ("set -g status-left 'a\\033[31m'", "status-left=a\\033[31m"),
    ('set -g status-left "a\\033[31m"', "! 1: status-left is 'a\\x1b[31m'; it may have at most 1,000 printable characters"),
    ("set -g status-interval 5", "status-interval=5"),
    ("set -g status-interval 1.5", "! 1: status-interval is '1.5'; it may be 0 to 86400"),
    ("set -s set-clipboard external", "set-clipboard=external"),
    ("set -g set-clipboard both", "! 1: set-clipboard is 'both'; it may be external, on or off"),
    ("set -g window-size latest", "window-size=latest"),
    ("set -g window-size manual", "! 1: window-size is 'manual'; it may be largest or latest"), ("setw -g mode-keys vi", "mode-keys=vi"),
    ("set-window-option -g mode-keys emacs", "mode-keys=emacs"),
    ("set -gw mode-keys vim", "! 1: mode-keys is 'vim'; it may be vi or emacs"),
    ('set -g default-command "exec $SHELL -l"', "default-command=exec /bin/zsh -l"), ("set -sg escape-time 0", "escape-time=0"),
    ("set -g escape-time 10001", "! 1: escape-time is '10001'; it may be 0 to 10000"), ("set -g predict always", "predict=always"),
    ("setw -g synchronize-panes on", "synchronize-panes=on"), ("setw -g synchronize-panes", "synchronize-panes=on"),
    ("set -s extended-keys on", "extended-keys=on"),
    ("set -s extended-keys 1", "! 1: extended-keys is '1'; it may be on, always or off"),
    ("set -g predict sometimes", "! 1: predict is 'sometimes'; it may be adaptive, always or never"), ("set -gq @plugin x", ""),
    ("set -g @plugin 'tmux-plugins/tpm'", "! 1: @plugin is not an option of roam"), ("set -gq base-index 1", ""),
    ("set -g base-index 1", "! 1: base-index is not an option of roam"), ("set -u mouse", ""), ("set -g mouse on; set -gu mouse", ""),
    ("set -g mouse on; set -go mouse off", "mouse=on"), ("set -go mouse off", "mouse=off"),
    ("set -gF status-left '#{x}'", "! 1: status-left: roam does not support formats in values"), ("set -t main mouse on", "mouse=on"),
    ("set", "! 1: set needs a name and a value"), ("set -g mouse on off", "! 1: set needs a name and a value"),
    ("set -g mouse { on }", "! 1: a block in braces is not supported here"), ("SET -g mouse on", "! 1: roam does not support SET"),
    # Lexing.
    ("", ""), ("   \t", ""), ("# a comment", ""), ("set -g mouse on # a comment", "mouse=on"),
    ("set -g status-left a#b", "status-left=a#b"), ("set -g status-left '# no comment'", "status-left=# no comment"),
    ("# a comment that goes on \\\nset -g mouse on", ""), ("set -g \\\n  mouse \\\n  on", "mouse=on"),
    ("set -g mouse on\\\\\nset -g status off", "status=off ! 1: mouse is 'on\\\\'; it may be on or off"),
    ("set -g mouse on ; set -g status off", "mouse=on status=off"), ("set -g mouse on;set -g status off", "mouse=on status=off"),
    ("set -g mouse on\r\nset -g status off\r\n", "mouse=on status=off"), (";;", ""), ("set -g status-left a\\ b", "status-left=a b"),
    ('set -g status-left a"b c"\'d e\'f', "status-left=ab cd ef"), ('set -g status-left "it\'s"', "status-left=it's"),
    ('set -g status-left \'say "x"\'', 'status-left=say "x"'), ('set -g status-left "say \\"x\\""', 'status-left=say "x"'),
    ("set -g status-left \\u00e9", "status-left=\xe9"), ('set -g status-left "\\U0001F600"', "status-left=\U0001f600"),
    ("set -g status-left \\uD800", "! 1: \\uD800 is no character"), ("set -g status-left \\u12", "! 1: \\u12 is no character"),
    ("set -g status-left \\101", "status-left=A"), ("set -g status-left $USER", "status-left=me"),
    ("set -g status-left ${USER}x", "status-left=mex"), ("set -g status-left '$USER'", "status-left=$USER"),
    ('set -g status-left "$NONE"', "status-left="), ("set -g status-left $", "status-left=$"),
    ("set -g status-left ${USER", "! 1: a variable's name is not closed"), ("set -g status-left 'open", "! 1: a quote is not closed"),
    ('set -g status-left "open\nset -g mouse on', "mouse=on ! 1: a quote is not closed"),
    ("NAME=x\nset -g status-left $NAME", "status-left=x"), ("%hidden NAME=y\nset -g status-left $NAME", "status-left=y"),
    ("set -g default-command ~/bin/x", "default-command=/home/me/bin/x"), ("set -g default-command a~b", "default-command=a~b"),
    ('set -g status-left "a\nb"', "! 1: status-left is 'a\\nb'; it may have at most 1,000 printable characters"),
    ("set -g status-left \\U00110000", "! 1: \\U00110000 is no character"), ("set -g status-left a\\\\\\\nb", "status-left=a\\b"),
    # Keys.
    ("bind -Troot F5 kill-pane", "[root f5: kill-pane]"),
    ("bind r source-file ~/.tmux.conf", "[prefix r: source-file /home/me/.tmux.conf]"),
    ("bind-key -r H resize-pane -L 5", "[prefix H: resize-pane -L 5 again]"),
    ("bind -n M-Left select-pane -L", "[root M-left: select-pane -L]"), ("bind -T root F5 kill-pane", "[root f5: kill-pane]"),
    ("bind -T copy-mode-vi v send-keys -X begin-selection", "! 1: roam has no key table copy-mode-vi"),
    ("bind | split-window -h", "[prefix |: split-window -h]"), ('bind \'"\' split-window', '[prefix ": split-window]'),
    ("bind \\; select-pane -l", "[prefix ;: select-pane -l]"), ("bind C-Space new-window", "[prefix C-space: new-window]"),
    ("bind r source-file x \\; display done", "[prefix r: source-file x ; display done]"),
    ("bind r source-file x\\; display done", "[prefix r: source-file x ; display done]"),
    ("bind r display 'a;b'", "[prefix r: display a;b]"), ("bind r { split-window ; kill-pane }", "[prefix r: split-window ; kill-pane]"),
    ("bind r {\n  split-window -h\n  # a comment\n  select-pane -L\n}\nset -g mouse on",
     "mouse=on [prefix r: split-window -h ; select-pane -L]"), ("bind r { split-window", "! 1: a brace is not closed"),
    ("bind -N 'a note' r kill-pane", "[prefix r: kill-pane]"), ("bind r", "! 1: bind r needs a command"),
    ("bind", "! 1: bind needs a key and a command"), ("bind Foo kill-pane", "! 1: Foo is not a known key"),
    ("bind r choose-tree", "! 1: choose-tree is not a command of roam, so r is not bound"),
    ("bind r kill-pane \\; choose-tree", "! 1: choose-tree is not a command of roam, so r is not bound"),
    ("bind PPage kill-pane", "[prefix pageup: kill-pane]"), ("bind -n S-Up kill-pane", "[root S-up: kill-pane]"),
    ("bind r if-shell { x } { y }", "! 1: a block in braces is not supported here"), ("unbind C-b", "(prefix C-b)"),
    ("unbind -n F5", "(root f5)"), ('unbind-key \'"\'', '(prefix ")'), ("unbind -a", "(prefix all)"),
    ("bind r kill-pane; unbind r", "(prefix r)"), ("bind r kill-pane; unbind -a", "(prefix all)"), ("unbind", "! 1: unbind needs a key"),
    ("unbind MouseDown1Pane", "! 1: MouseDown1Pane is not a known key"),
    ("unbind -T copy-mode x", "! 1: roam has no key table copy-mode"),
    # Commands with effects and reports.
    ("run-shell 'echo x'", "<echo x>"), ("run -b ~/.tmux/plugins/tpm/tpm", "</home/me/.tmux/plugins/tpm/tpm>"),
    ("run-shell", "! 1: run-shell takes one shell command"), ("display-message 'hello\\nthere'", '"hello\\nthere"'),
    ('display "a\x1b]0;x\x07"', '"a?]0;x?"'), ("display -p x", '"x"'), ("display", ""),
    ("if-shell 'true' 'set -g mouse on'", "! 1: roam does not support if-shell"), ("\x1b[31mevil", "! 1: roam does not support ?[31mevil"),
    ("\n\nset-hook -g x y", "! 3: roam does not support set-hook"), ("new-session", "! 1: roam does not support new-session"),
    # Conditions.
    ("%if 1\nset -g mouse on\n%else\nset -g status off\n%endif", "mouse=on"),
    ("%if 0\nset -g mouse on\n%else\nset -g status off\n%endif", "status=off"),
    ("%if ''\nfoo\n%elif 1\nset -g mouse on\n%elif 1\nbar\n%endif", "mouse=on"),
    ("%if 1\n%if 0\nfoo\n%endif\nset -g mouse on\n%endif", "mouse=on"),
    ("%if #{==:#{host},x}\nset -g mouse on\n%else\nfoo\n%endif\nset -g status off",
     "status=off ! 1: roam does not support formats in %if: skipped up to its %endif"), ("%if 0\n%if #{x}\nfoo\n%endif\n%endif", ""),
    ("%endif", "! 1: %endif without %if"), ("%if 1\nset -g mouse on", "mouse=on ! 2: %if has no %endif"),
)

# Whole files of common forms, and the number of reported lines in each.
FILES = (
    ("""# plug-ins
set -g @plugin 'tmux-plugins/tpm'
set -g @plugin 'tmux-plugins/tmux-sensible'
set -g @resurrect-strategy-vim 'session'
set -g mouse on
run '~/.tmux/plugins/tpm/tpm'
""", 3, {"mouse": "on"}),
    ("""unbind C-b
set -g prefix C-a
bind C-a send-keys C-a
set -g base-index 1
setw -g pane-base-index 1
bind | split-window -h -c "#{pane_current_path}"
bind - split-window -v -c "#{pane_current_path}"
""", 2, {"prefix": "C-a"}),
    ("""if-shell -b '[ "$(uname)" = Darwin ]' {
    set -g default-command "reattach-to-user-namespace -l zsh"
}
set -sg escape-time 0
set-option -ga terminal-overrides ",xterm-256color:Tc"
""", 2, {"escape-time": 0}),
    ("""%if "#{==:#{client_termname},xterm}"
set -g status-left "a"
%elif #{m:*256*,x}
set -g status-left "b"
%else
set -g status-left "c"
%endif
set -g status-right "%H:%M %d-%b-%y"
""", 1, {"status-right": "%H:%M %d-%b-%y"}),
    ("""set -g status-right \\
    "#[fg=colour233,bg=colour241,bold] %d/%m \\
#[fg=colour233,bg=colour245,bold] %H:%M:%S "
setw -g mode-keys vi
bind-key -T copy-mode-vi 'v' send -X begin-selection
bind-key -T copy-mode-vi 'y' send -X copy-selection
""", 2, {"mode-keys": "vi"}),
    ("""bind h select-pane -L
bind j select-pane -D
bind k select-pane -U
bind l select-pane -R
bind -r H resize-pane -L 5
is_vim="ps -o state= -o comm= -t '#{pane_tty}' | grep -iqE '^[^TXZ ]+ +(\\\\S+\\\\/)?g?(view|n?vim?x?)(diff)?$'"
bind-key -n 'C-h' if-shell "$is_vim" 'send-keys C-h'  'select-pane -L'
bind-key -n 'C-\\' if-shell "$is_vim" 'send-keys C-\\\\\\\\' 'select-pane -l'
""", 2, {}),
    ("""set -g default-terminal "screen-256color"
set -g history-limit 10000
set -g status-bg black
set -g status-fg white
set -g status-style fg=white,bg=black
set -g window-status-current-style fg=black,bg=white
set -g renumber-windows on
""", 6, {"history-limit": 10000}),
    ("""# vim: ft=tmux
source-file -q /nowhere/other.conf
set -q -g status-utf8 on
setw -q -g utf8 on
bind e new-window -n "tmux.conf" "sh -c '\\${EDITOR:-vim} ~/.tmux.conf && tmux display \\"done\\"'"
""", 0, {}),
    ("""set -g focus-events on; set -g set-clipboard on
set-hook -g after-split-window 'select-layout even-horizontal'
set-environment -g EDITOR vim
new-session -s main
""", 4, {"set-clipboard": "on"}),
    ("""bind-key x confirm-before -p "kill-pane #P? (y/n)" kill-pane
bind-key -T root MouseDown3Pane display-menu -T "#[align=centre]" {
  "Kill" k { kill-pane }
}
set -g display-time 4000
set -g mouse on
""", 3, {"mouse": "on"}),
)


def summary(found):
    """Return settings in one line."""
    parts = [f"{name}={value}" for name, value in found.values.items()]
    for (table, key), binding in found.bindings.items():
        words = " ; ".join(" ".join(command) for command in binding.commands) if binding else ""
        parts.append(f"[{table} {key}: {words}{' again' if binding.repeats else ''}]" if binding else f"({table} {key})")
    parts += [f"<{run}>" for run in found.runs] + [f'"{message}"' for message in found.messages]
    return " ".join([*parts, *(f"! {told.removeprefix('conf:')}" for told in found.told)])


def taken(text):
    """Return the settings in a text, with the lines of the report after a blank."""
    found = FileSettings(ENVIRONMENT, COMMANDS)
    found.take_text(text, "conf")
    found.told = [told.replace("conf:", " ", 1).strip() for told in found.told]
    return found


class Lines(unittest.TestCase):
    """Lines."""

    def test_lines(self):
        """Check the effect of each line."""
        self.assertGreaterEqual(len(LINES), 120)
        for text, wanted in LINES:
            self.assertEqual(summary(taken(text)), wanted, text)

    def test_files(self):
        """All supported lines of a whole file apply, and each other line is reported once."""
        for text, count, values in FILES:
            found = taken(text)
            numbers = [told.partition(":")[0] for told in found.told]
            self.assertEqual((len(found.told), len(set(numbers))), (count, count), (text, found.told))
            self.assertEqual({name: found.values.get(name) for name in values}, values, text)

    def test_once(self):
        """A report appears once, up to a number of lines, printable, however long it is."""
        found = FileSettings(ENVIRONMENT)
        for _ in range(2):
            found.take_text("foo\n" * (MOST_TOLD + 50), "/home/me/conf")
        self.assertEqual((found.told[0], len(found.told), found.untold), ("conf:1: roam does not support foo", MOST_TOLD, 100))
        found = FileSettings(ENVIRONMENT)
        found.take_text(f"set -g {'x' * 5000} 1\nset -g mouse '{chr(27)}{'y' * 5000}'\n", f"{chr(27)}{'z' * 5000}")
        self.assertTrue(all(len(told) <= LONGEST_TOLD and told.isprintable() for told in found.told))

    def test_bounds(self):
        """Long words, and deeply nested braces, are reported and cost little."""
        for text, count in (("set -g status-left " + "x" * 100_000, 1), ("a { " * 1000, 1), ("a '" + "x" * 100_000, 1), ("${" * 1000, 1),
                            ("\\" * 1001, 1), ("{ " * 50 + "} " * 50, 1), ("a {\n" * 1000, 48), ("x \"\n" * 1001, MOST_TOLD)):
            self.assertEqual(len(taken(text).told), count, text[:20])

    def test_keys(self):
        """Keys by name."""
        for name, wanted in (("a", "a"), ("A", "A"), ("C-a", "C-a"), ("C-A", "C-a"), ("^a", "C-a"), ("M-S-x", "M-S-x"),
                             ("S-M-Up", "M-S-up"), ("C-M-Left", "C-M-left"), ("-", "-"), ("NPage", "pagedown"), ("F12", "f12"),
                             ("C--", "C--"), ("M-", None), ("F13", "f13"), ("F21", None), ("", None), ("\x1b", None),
                             ("MouseUp1Status", None), ("\u00e9", "\u00e9"), ("^", "^")):
            if wanted is None:
                self.assertRaises(BadWord, key_named, name)
            else:
                self.assertEqual(key_named(name), wanted)


class Files(Case):
    """Files that are read, and others."""

    def setUp(self):
        self.folder = self.made_folder()

    def made(self, name, data, mode=0o600):
        """Create a file of this name."""
        path = self.folder / name
        path.write_bytes(data)
        path.chmod(mode)
        return str(path)

    def read(self, path):
        """Return the settings of a file."""
        found = FileSettings(ENVIRONMENT)
        found.read(path)
        return found

    def test_refused(self):
        """A file that others may write, of another user, with invalid text, too large, or absent is reported, and nothing of it applies."""
        text = b"set -g mouse on\nrun-shell 'touch /tmp/evil'\n"
        other = os.stat_result((0o100600, 5, 5, 1, os.getuid() + 77, 0, len(text), 0, 0, 0))
        for path, why in (
                (self.made("a", text, 0o620), "not read: other users may write to it"),
                (self.made("b", text, 0o602), "not read: other users may write to it"),
                (self.made("d", b"\x7fELF\0" + text), "not read: it is not text"),
                (self.made("e", b"\xff\xfe" + text), "not read: it is not UTF-8 text"),
                (self.made("f", text + b"#" * MOST_BYTES), "not read: it is larger than 1 MB"),
                (str(self.folder), "not read: it is not a regular file"),
                (str(self.folder / "none"), "cannot be read: No such file or directory"), ("a\0b", "cannot be read: not a file name")):
            found, name = self.read(path), os.path.basename(path).replace("\0", "?")
            self.assertEqual((found.told, found.values, found.runs, found.open), ([f"{name}: {why}"], {}, [], []))
        with mock.patch.object(loader.os, "fstat", return_value=other):
            found = self.read(self.made("c", text))
        self.assertEqual((found.told, found.values), (["c: not read: it belongs to another user"], {}))

    def test_pipe(self):
        """A pipe in place of a file blocks nobody."""
        os.mkfifo(self.folder / "pipe", 0o600)
        self.assertEqual(self.read(str(self.folder / "pipe")).told, ["pipe: not read: it is not a regular file"])

    def test_root(self):
        """Root's files are read, and links are followed to the checked file."""
        path = self.made("a", b"set -g mouse on\n", 0o644)
        (self.folder / "link").symlink_to(path)
        self.assertEqual(self.read(str(self.folder / "link")).values, {"mouse": "on"})
        os.chmod(path, 0o666)
        self.assertEqual(self.read(str(self.folder / "link")).told, ["link: not read: other users may write to it"])

    def test_sources(self):
        """Included files are read in place, relative to the folder of the including one; a pattern names several, in order."""
        (self.folder / "more").mkdir()
        self.made("more/b.conf", b"set -g status-left b\nset -g mouse on\n")
        self.made("more/a.conf", b"set -g status-left a\n")
        path = self.made("conf", b"set -g status-left x\nsource-file more/*.conf\nsource -q none\nsource none\nset -g status off\n")
        found = self.read(path)
        self.assertEqual(found.values, {"status-left": "b", "mouse": "on", "status": "off"})
        self.assertEqual(found.told, ["none: cannot be read: No such file or directory"])

    def test_loops(self):
        """Files that include one another in a ring, too deep, or without end are reported, and reading ends."""
        ring = self.made("ring", b"source-file other\nset -g mouse on\n")
        self.made("other", b"source-file ring\n" * 5)
        found = self.read(ring)
        self.assertEqual((found.values, found.told), ({"mouse": "on"}, ["ring: not read: it includes itself"]))
        for number in range(DEEPEST + 3):
            self.made(f"deep{number}", b"source-file deep%d\nsource-file deep%d\n" % (number + 1, number + 1))
        found = self.read(str(self.folder / "deep0"))
        self.assertTrue(all("not read: " in told for told in found.told) and found.told)
        self.assertLessEqual(found.count, MOST_FILES)
        self.assertTrue(any(f"more than {DEEPEST} deep" in told for told in found.told))


if __name__ == "__main__":
    unittest.main()
