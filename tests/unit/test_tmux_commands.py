"""Commands of `roam tmux` on options, variables, buffers and channels, and its name spaces: answers of tmux 3.3a."""
import json
import os
import pathlib
import stat
import threading
import types
import unittest
from unittest import mock

from aids import Case
from roam_live.cli.tmux import model, shell_commands, tool, windows
from roam_live.cli.tmux.context import Failed
from roam_live.cli.tmux.model import Model
from roam_live.cli.tmux.name_space import NameSpace, socket_path
from roam_live.cli.tmux.variables import checksum
from roam_live.commands.flags import BadCommand, Flags, parted
from roam_live.commands.table import OF_TMUX, command_named, read_command
from roam_live.common.errors import Fault
from roam_live.common.file_path import FilePath
from roam_live.protocol.spawn_request import FIRST, Begins, of_first_window
from tmux_played import PlayedContext

# Calls in order, and what tmux 3.3a printed for each.
OPTIONS = (
    ("set -g mouse 1 ; show -g mouse", "mouse on\n"), ("set mouse ; show mouse", "mouse off\n"),
    ("set -g @a 'x y' ; show -g @a", '@a "x y"\n'),
    ("show -gv @a", "x y\n"), ("set @b \"it's\" ; show", "@b \"it's\"\nmouse off\n"), ("set -a -g @a ' z' ; show -g @a", '@a "x y z"\n'),
    ("show -v status", ""), ("show -gv status", "on\n"), ("show -A status", "status* on\n"), ("show -q nosuch", ""),
    ("show -s escape-time", "escape-time 500\n"), ("set -a status-left X ; show status-left", "status-left X\n"),
    ("set -ag status-left Y ; show -g status-left", 'status-left "[#{session_name}] Y"\n'),
    ("set -F @z '#{session_name}!' ; show @z", "@z a!\n"),
    ("set -w automatic-rename off ; showw", "automatic-rename off\n"), ("set -p @p 1 ; show -p", "@p 1\n"),
    ("set -g update-environment 'A B,C' ; show -g update-environment",
     "update-environment[0] A\nupdate-environment[1] B\nupdate-environment[2] C\n"),
    ("set -ga update-environment D ; show -gv update-environment", "A\nB\nC\nD\n"),
    ("set -gu update-environment[0] ; show -gv update-environment",
     "B\nC\nD\n"),
    ("set -g update-environment[9] FOO ; show -gv update-environment", "B\nC\nD\nFOO\n"),
    ("set -u status-left ; show status-left", ""), ("set -t a:9 status off ; show status", "status off\n"), ("set -gq nosuch", ""),
    ("showw -t a -g pane-base-index", "pane-base-index 0\n"), ("set -g terminal-overrides 'a,b' ; show -s terminal-overrides",
     "terminal-overrides[0] a\nterminal-overrides[1] b\n"),
    ("setenv FOO bar ; showenv FOO", "FOO=bar\n"), ("showenv -s FOO", 'FOO="bar"; export FOO;\n'), ("setenv -r NO ; showenv NO", "-NO\n"),
    ("showenv -s NO", "unset NO;\n"), ("setenv -h HID x ; showenv -h", "HID=x\n"), ("setenv -g G v ; showenv -g G", "G=v\n"),
    ("set-hook client-attached 'display x' ; show-hooks", "client-attached[0] display-message x\n"),
    ("set-hook -u client-attached ; show-hooks", ""),
    ("display -p '#{mouse} #{@a} #{base-index} #{HOME_OF_NONE}|'", "0 x y z 0 |\n"),
)
BUFFERS = (
    ("setb -a -b x 1 ; setb -a -b x 2 ; lsb", 'x: 2 bytes: "12"\n'),
    ("setb one ; setb two ; lsb -F '#{buffer_name}'", "buffer1\nbuffer0\nx\n"),
    ("setb -b x -n y ; lsb", 'buffer1: 3 bytes: "two"\nbuffer0: 3 bytes: "one"\ny: 2 bytes: "12"\n'), ("showb", "two"),
    ("deleteb ; showb", "one"), ("saveb -", "one"), ("saveb -b y -", "12"),
    ("setb \"$'\\n\" ; lsb -f '#{==:#{buffer_name},buffer2}'", 'buffer2: 3 bytes: "$\'\\n"\n'),
    ("lsb -f '#{m:*1,#{buffer_name}}'", ""), ("setb '' ; lsb -F '#{buffer_sample}' -f '#{==:#{buffer_name},y}'", "12\n"),
)
LISTS = (
    ("ls -F '#S #{session_windows} #{session_id}'", "a 2 $0\n"), ("list-windows -F '#I #W#F #{window_panes}'", "0 one* 1\n1 two 3\n"),
    ("list-panes -t a:1 -F '#P #D #{pane_width}x#{pane_height} #{pane_left},#{pane_top}#{?pane_active, active,}'",
     "0 %1 49x14 0,0 active\n1 %2 49x15 0,15\n2 %3 50x30 50,0\n"), ("lsp -a -F '#S:#I.#P'", "a:0.0\na:1.0\na:1.1\na:1.2\n"),
    ("lsp -s -f '#{==:#I,0}' -F '#D'", "%0\n"),
    ("lsw -F '#{s/^....,//:window_layout}'", "100x30,0,0,0\n100x30,0,0{49x30,0,0[49x14,0,0,1,49x15,0,15,2],50x30,50,0,3}\n"),
    ("display -p -t a:1.2 '#{pane_at_right}#{pane_at_left}#{pane_at_top}#{pane_at_bottom} #{pane_right} #{pane_bottom}'", "1011 99 29\n"),
    ("has -t a ; has -t =a ; has -t '$0'", ""), ("if -F '#{==:#S,a}' 'display -p yes' 'display -p no'", "yes\n"),
    ("if false 'display -p yes' 'display -p no ; display -p more'", "no\nmore\n"), ("run 'echo #{window_name}'", ""),
    ("display -p a \\; display -p b", "a\nb\n"), ("lsw -f '#{m:t*,#W}' -F '#W'", "two\n"),
    ("display -p '#{W:#{?window_active,<#I>,#I} }#{P:#D}'", "<0> 1 %0\n"),
)
PANES = [(1, 1, 14, 49), (16, 1, 15, 49), (1, 51, 30, 50)]


class Commands(Case):
    """Commands whose answers are tmux's."""

    def setUp(self):
        self.context = PlayedContext(self, {"a": [("one", [(1, 1, 30, 100)]), ("two", PANES)]})

    def said(self, words):
        """Return what commands print, separated by ` ; `."""
        tool.run(self.context, [word for part in shell_commands.words_in(words) for word in [*part, ";"]])
        return self.context.printed()

    def test_options(self):
        for words, said in OPTIONS:
            self.assertEqual(self.said(words), said, words)

    def test_buffers(self):
        with mock.patch.object(self.context, "space", self.context.space):
            self.context.space.make()
            for words, said in BUFFERS:
                self.assertEqual(self.said(words), said, words)

    def test_lists(self):
        for words, said in LISTS:
            self.assertEqual(self.said(words), said, words)

    def test_file(self):
        """Before a first session the options of a file are set; nothing else of it is done, and an invalid line stops no other."""
        context = PlayedContext(self, {})
        path = pathlib.Path(context.space.own, "conf")
        path.write_text("nosuch\nset -g base-index 3\nbind x kill-server\nset -g status foo\nrun-shell 'touch /nowhere'\nsetenv -g A b\n"
                        "# a remark\nsetw -g pane-base-index 1\n", encoding="utf-8")
        tool.run(context, ["start-server"], str(path))
        state = context.model().state
        self.assertEqual((state["session_options"], state["window_options"], state["environment"]),
                         ({"base-index": "3"}, {"pane-base-index": "1"}, {"A": "b"}))
        tool.run(context, ["start-server"], str(path) + "x")
        self.assertEqual(context.printed(), "")

    def test_limit(self):
        """Of the buffers whose names tmux chose, the oldest go first."""
        self.context.space.make()
        self.said("set -g buffer-limit 2 ; setb -b mine m ; setb 1 ; setb 2 ; setb 3")
        self.assertEqual(self.said("lsb -F '#{buffer_name}'"), "buffer2\nbuffer1\nmine\n")
        self.assertEqual(len(os.listdir(os.path.join(self.context.space.folder, "buffers"))), 3)

    def test_moves(self):
        """The current window, the one before, and indices."""
        order = lambda: self.said("lsw -F '#I#W#F'")
        self.said("select-window -t a:1")
        self.assertEqual(order(), "0one-\n1two*\n")
        self.said("last ; movew -t 9")
        self.assertEqual(order(), "1two-\n9one*\n")
        self.said("next ; prev ; movew -r ; swapw -s 0 -t 1")
        self.assertEqual(order(), "0one-\n1two*\n")
        self.said("rename-session -t a b")
        self.assertEqual(self.context.model().state["sessions"]["a"]["name"], "b")

    def test_status(self):
        """A shell command's status is the call's."""
        for words, status in (("run 'exit 3'", 3), ("run false", 1)):
            with self.assertRaises(Failed) as raised:
                self.said(words)
            self.assertEqual(raised.exception.status, status)

    def test_harmless(self):
        """A name that a program chose comes to a shell without what a shell interprets, in each place where one is begun."""
        marker = os.path.join(self.context.space.own, "marker")
        hostile = f"$(touch {marker})`touch {marker}`;touch {marker};#(touch {marker})'\"\\"
        self.context.known.sessions[0].found[0].place.title = lambda: hostile
        for words in ("run-shell \"echo '#{window_name}' #{window_name}\"", "if-shell 'echo #W' 'display -p yes'",
    "display -p '#(echo #W)'",
                      "display -p '#{E:window_name}'", "run-shell -b 'echo #{window_name}'", "set -gF @x '#W' ; run-shell 'echo #{@x}'",
                      "set -gF @x '#W' ; display -p '#{E:@x}'", "setenv -gF X '#W' ; run-shell 'echo #{X}'",
    "display -p '#(echo #{E:@x})'"):
            self.said(words)
            self.assertFalse(os.path.exists(marker), words)

    def test_limits_of_jobs(self):
        """The output of a command in a format is cut, and has no controls; what runs too long ends."""
        self.assertEqual(shell_commands.last_line("printf 'a\\033[31mb\\n'"), "a?[31mb")
        self.assertEqual(len(shell_commands.last_line("yes aaaaaaaaa | tr -d '\\n'")), shell_commands.JOB_BYTES)
        with mock.patch.object(shell_commands, "JOB_SECONDS", 0.2):
            self.assertEqual(shell_commands.last_line("echo a; sleep 9"), "a")

    def test_begins(self):
        """The start options of a pane, with variables around its command."""
        self.assertEqual(windows.begins_of(["ls", "-l"], "/tmp", "n", {}, True), Begins(["ls", "-l"], "/tmp", "n", True))
        with mock.patch.dict(os.environ, {"SHELL": "/bin/bash"}):
            self.assertEqual(windows.begins_of(["ls -l"], "", "", {"A": "b", "C": None}, False).words,
                             ["env", "-u", "C", "A=b", "/bin/bash", "-c", "ls -l"])
            self.assertEqual(windows.begins_of([], "", "", {"A": "b"}, False).words, ["env", "A=b", "/bin/bash"])
        for words, folder in (([""], ""), (["a\0"], ""), ([], "a\0"), (["x" * 70000], "")):
            with self.assertRaises(BadCommand):
                windows.begins_of(words, folder, "", {}, False)

    def test_first(self):
        """The start options of a first window come by the environment, once."""
        begins = Begins(["a b", "c"], "/tmp", "title")
        with mock.patch.dict(os.environ, {FIRST: begins.packed().hex()}):
            self.assertEqual((of_first_window(), FIRST in os.environ), (begins, False))
            for word in ("", "zz", "00ff", "6100"):
                os.environ[FIRST] = word
                self.assertIn(of_first_window(), (None, Begins([], "a", "")), word)


class Spaces(Case):
    """Name spaces and channels."""

    def setUp(self):
        self.context = PlayedContext(self, {})
        self.space = self.context.space

    def test_apart(self):
        """Each path has a folder of its own, which only this user may enter; the default one has the sessions of mux."""
        with mock.patch.dict(os.environ, {"TMUX_TMPDIR": "/tmp"}):
            paths = [socket_path("", ""), socket_path("x", ""), socket_path("x", "/y"), socket_path("", "/y/z")]
        self.assertEqual(paths, [f"/tmp/tmux-{os.getuid()}/default", f"/tmp/tmux-{os.getuid()}/x", "/y", "/y/z"])
        with mock.patch.dict(os.environ, {"TMUX_TMPDIR": "/tmp"}):
            spaces = [NameSpace(path) for path in paths]
        self.assertEqual([space.is_default for space in spaces], [True, False, False, False])
        self.assertEqual(spaces[0].sessions, spaces[0].own)
        self.assertEqual(len({space.folder for space in spaces} | {space.sessions for space in spaces}), 5)
        for space in spaces:
            space.make()
            self.assertEqual(stat.S_IMODE(os.stat(space.folder).st_mode), 0o700)
            with space.changing() as state:
                state["session_options"]["@x"] = space.path
        self.assertEqual([space.state()["session_options"]["@x"] for space in spaces], paths)
        spaces[1].reset()
        self.assertEqual([len(space.state()["session_options"]) for space in spaces], [1, 0, 1, 1])

    def test_invalid(self):
        """A state that is no JSON counts as none."""
        self.space.make()
        for text in ("", "[1]", "{", "x" * 99):
            pathlib.Path(self.space.folder, "state.json").write_text(text, encoding="utf-8")
            self.assertEqual(self.space.state()["sessions"], {})

    def test_ids(self):
        """Ids are never used twice, also if the counter is lost while a name space has larger ones."""
        first = [self.space.new_id() for _ in range(3)]
        with self.space.changing() as state:
            state["sessions"]["s"] = {"id": 77, "windows": {"1": {"id": 78}}}
        os.unlink(os.path.join(self.space.own, "last.pane"))
        self.assertEqual((first, self.space.new_id()), ([0, 1, 2], 79))

    def test_changes(self):
        """Changes of several calls at once are all there."""
        self.space.make()

        def add(name):
            for number in range(20):
                with self.space.changing() as state:
                    state["session_options"][f"@{name}{number}"] = ""

        threads = [threading.Thread(target=add, args=(name,)) for name in "abcd"]
        for one in threads:
            one.start()
        for one in threads:
            one.join()
        self.assertEqual(len(self.space.state()["session_options"]), 80)

    def test_channels(self):
        """A wake-up before the wait counts once; a waiter is woken; a lock is held by one."""
        channel = shell_commands.Channel(self.space, "c/../d")
        channel.wake()
        channel.wait()
        waiter = threading.Thread(target=shell_commands.Channel(self.space, "c/../d").wait)
        waiter.start()
        while not [name for name in os.listdir(channel.folder) if name.isdigit()]:
            pass
        channel.wake()
        waiter.join(10)
        self.assertFalse(waiter.is_alive())
        channel.lock()
        other = threading.Thread(target=shell_commands.Channel(self.space, "c/../d").lock)
        other.start()
        other.join(0.1)
        self.assertTrue(other.is_alive())
        channel.unlock("c")
        other.join(10)
        channel.unlock("c")
        with self.assertRaises(BadCommand):
            channel.unlock("c")

    def test_path(self):
        """The folder of the link named tmux is one that nobody else can write."""
        folder = tool.linked_folder()
        self.assertTrue(os.readlink(os.path.join(folder, "tmux")).endswith("/live/tmux"))
        self.assertEqual(tool.linked_folder(), folder)
        os.chmod(folder, 0o770)
        with self.assertRaises(Fault):
            tool.linked_folder()


class Adopts(Case):
    """The ids of sessions and windows that others start and end."""

    def setUp(self):
        self.context = PlayedContext(self, {})
        self.space, self.there = self.context.space, {}
        self.patch_of(Model, "live", lambda model: {
            name: (types.SimpleNamespace(name=name, last=lambda: 0, folder=f"/nowhere/{name}"),
                   [types.SimpleNamespace(number=number, id=lambda server=server: server, title=lambda: "") for number, server in windows])
            for name, windows in self.there.items()})

    def known(self):
        """Return the ids and indices that a new model has."""
        return {session.name: (session.id, [(window.id, window.index) for window in session.windows()])
                for session in Model(self.space).sessions}

    def test_ids(self):
        """Each gets an id once, and keeps it; a window of the same number with another server is another one."""
        self.space.make()
        self.there = {"work": [(1, "aa"), (2, "bb")]}
        before = self.known()
        self.assertEqual(before, {"work": (0, [(1, 0), (2, 1)])})
        self.assertEqual(self.known(), before)
        self.there["work"] = [(1, "aa"), (2, "cc"), (3, "dd")]
        self.assertEqual(self.known(), {"work": (0, [(1, 0), (3, 1), (4, 2)])})
        self.there["other"] = [(1, "ee")]
        self.assertEqual(self.known()["other"], (5, [(6, 0)]))

    def test_another(self):
        """A session whose windows are all new is another one, though it has the name; without sessions, options are forgotten."""
        self.space.make()
        self.there = {"work": [(1, "aa")]}
        self.known()
        with self.space.changing() as state:
            state["session_options"]["@x"], state["session_options"]["base-index"] = "1", "5"
            state["sessions"]["work"]["name"] = "renamed"
        self.assertEqual(self.known(), {"renamed": (0, [(1, 0)])})
        self.there = {"work": [(1, "bb")]}
        self.assertEqual(self.known(), {"work": (2, [(3, 5)])})
        self.there = {}
        self.assertEqual((self.known(), self.space.state()["session_options"]), ({}, {}))

    def test_same_name(self):
        """A session of mux whose name a renamed session has gets a name with its id."""
        self.space.make()
        self.there = {"one": [(1, "aa")]}
        self.known()
        with self.space.changing() as state:
            state["sessions"]["one"]["name"] = "two"
        self.there["two"] = [(1, "bb")]
        self.assertEqual(sorted(self.known()), ["two", "two_2"])


class HostStates(Case):
    """The state of the pty host, as `roam tmux` reads it."""

    def test_form(self):
        """A file that is no state counts as one without windows, and no command fails by it."""
        pane = {"id": 1, "generation": 5, "folder": "/", "command": ["sh"], "process": None, "has_ended": False}
        window = {"panes": {"1": pane}, "focus": 1, "history": []}
        place = types.SimpleNamespace(folder=FilePath(self.made_folder()))
        self.assertEqual(model.written_by_host(place), {"windows": {}})
        wrong = [None, [], 5, {}, {"windows": []}, {"windows": {"1": 5}}, {"windows": {"1": {}}},
                 {"windows": {"1": {**window, "focus": "1"}}}, {"windows": {"1": {**window, "history": None}}},
                 {"windows": {"1": {**window, "panes": {"x": pane}}}}, {"windows": {"1": {**window, "panes": {"1": []}}}}]
        wrong += [{"windows": {"1": {**window, "panes": {"1": {**pane, name: value}}}}} for name, value in (
            ("id", "1"), ("generation", 1.5), ("folder", None), ("command", "sh"), ("command", [1]), ("process", "7"))]
        for state in ({"windows": {"1": window}}, *wrong):
            (pathlib.Path(place.folder) / "host.json").write_text(json.dumps(state), encoding="ascii")
            self.assertEqual(model.written_by_host(place), {"windows": {}} if state in wrong else state)


class Layouts(unittest.TestCase):
    """Layouts in tmux's form."""

    def test_checksum(self):
        """Checksums that tmux 3.3a printed."""
        for layout in ("d5c5,120x40,0,0{60x40,0,0,1,59x40,61,0[59x19,61,0,2,59x20,61,20,3]}", "0120,120x40,0,0{59x40,0,0,4,60x40,60,0,5}",
                       "0be0,80x24,0,0{78x24,0,0,0,1x24,79,0,3}", "a18f,100x30,0,0[100x14,0,0,2,100x15,0,15,3]"):
            self.assertEqual(checksum(layout[5:]), layout)


class Table(unittest.TestCase):
    """The table of commands."""

    def test_words(self):
        """A sequence ends at a word `;`, and a name may be begun."""
        self.assertEqual(parted(["a", "b;", "c", ";", ";", "d\\;", "e"]), [["a", "b"], ["c"], ["d;", "e"]])
        for name, whole in (("new", "new-session"), ("new-s", "new-session"), ("splitw", "split-window"), ("lsw", "list-windows")):
            self.assertEqual(command_named(name).names[0], whole)
        self.assertEqual(read_command(["splitp", "-h"])[0].names[0], "split-window")
        self.assertEqual(len(OF_TMUX), 90)

    def test_flags(self):
        """Flags in getopt's form: together, with values, repeated, and with a value that is missing at the end."""
        flags = Flags(["-dPF", "x", "-e", "A=1", "-eB=2", "--", "-h", "y"], "de:F:P")
        self.assertEqual((flags.has("d"), flags.value("F"), flags.values["e"], flags.words), (True, "x", ["A=1", "B=2"], ["-h", "y"]))
        flags = Flags(["-t"], "t:")
        self.assertEqual((flags.has("t"), flags.value("t")), (True, None))


if __name__ == "__main__":
    unittest.main()
