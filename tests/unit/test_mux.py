"""The commands of mux, and their parser."""
import argparse
import importlib
import io
import os
import pathlib
import re
import types
from unittest import mock

from aids import Case
from roam_live.cli import attaching, capture, cmd, ending, mux, paste, scrollback, send, ssh, targets, windows, word_help
from roam_live.cli.args import tmux_words
from roam_live.common.errors import Fault
from roam_live.common.process import TOOLS
from roam_live.config import environment as config_environment
from roam_live.commands.table import BY_NAME, DEFAULT_KEYS
from roam_live.config.user_file import OWN, settings_path
from roam_live.frontend import follow
from roam_live.protocol.panes import Places, Rect
from roam_live.relay.frames import greeting
from roam_live.session import environment as session_environment, local, lookup
from roam_live.session.folder import SessionFolder
from roam_live.session.local import LocalSession, Window
from roam_live.session.remote import RemoteSession

PAGE = pathlib.Path(__file__).resolve().parents[2] / "docs/man/roam-mux.1"


class Mux(Case):
    """A folder of sessions, and a session in it whose parts count as running."""

    def setUp(self):
        self.base = self.made_folder() / "roam"
        self.base.mkdir(mode=0o700)
        for module in (local, lookup, ssh):
            self.patch_of(module, "base", lambda: self.base)
        self.environment(ROAM_PREFIX=None, ROAM_PREDICT=None, ROAM_MOUSE=None, ROAM_CLIPBOARD=None, ROAM_PANE=None, ROAM_HISTORY=None,
                         SHELL="/bin/sh", TERM="xterm")
        self.said, self.text = self.heard(), self.printed()
        self.follows = self.patch_of(follow, "follow", return_value=7)
        self.is_terminal = True
        self.patch_of(mux.os, "isatty", lambda end: self.is_terminal)
        # The clean-up after other sessions does not matter either.
        self.sweeps = self.patch_of(attaching, "sweep")
        self.patch_of(ending, "sweep", self.sweeps)
        self.runs, self.done = set(), []
        self.patch_of(LocalSession, "spawn_host", self.does("spawn_host"))
        for name in ("launch", "demand_client", "demand_host", "demand_ready", "note_found", "kill", "end_all",
                     "tidy"):
            self.patch_each(name, self.does(name))
        self.patch_each("find", lambda session: session.name in self.runs)
        self.patch_each("runs", lambda session, role=None: session.name in self.runs)
        self.patch_each("busy", lambda session: {1: "vi"})
        self.patch_of(LocalSession, "busy_programs", SessionFolder.busy_programs)
        # Its windows do not matter here, so it counts as one without others.
        self.patch_of(LocalSession, "served", "server")
        self.patch_of(LocalSession, "window", lambda session, number=None: session)
        self.patch_of(LocalSession, "windows", lambda session: [session])

    def patch_each(self, name, does):
        """Patch a session's method, with windows or without."""
        for one in (SessionFolder, LocalSession):
            self.patch_of(one, name, does)

    def does(self, name):
        """Return a function that records its call."""
        def called(session, *words):
            self.done.append((name, session.name, *words))
            if name == "end_all":
                self.runs.discard(session.name)
        return called

    def mux(self, *words):
        """Run mux with these words."""
        self.words("mux", *words)
        return mux.main()

    def refuses(self, told, *words):
        """Check that mux refuses words with a text."""
        with self.assertRaises(Fault) as fault:
            self.mux(*words)
        self.assertEqual(str(fault.exception), told)


class Attaches(Mux):
    """Words that attach."""

    def test_new(self):
        """A session that isn't running is started, and is new; `main` by default."""
        for words, name in (((), "main"), (("work",), "work"), (("--", "send"), "send")):
            self.done.clear()
            self.assertEqual(self.mux(*words), 7)
            self.assertEqual(self.done, [("kill", name), ("launch", name, ()), ("demand_client", name)])
            session, is_read_only, prefix, prediction, is_new = self.follows.call_args[0]
            self.assertEqual((session.name, is_read_only, prefix, prediction, is_new(None)), (name, False, "C-b", "adaptive", True))

    def test_history(self):
        """A session with an invalid history limit isn't started; a running one is attached to."""
        self.environment(ROAM_HISTORY="many")
        for words in ((), ("new", "-d", "work")):
            self.refuses("ROAM_HISTORY is 'many'; it may be 0 to 1000000", *words)
        self.assertNotIn("launch", [one[0] for one in self.done])
        self.runs.add("main")
        self.assertEqual(self.mux("attach", "main"), 7)

    def test_running(self):
        """A running one is attached to, its missing parts are started, and it is not new."""
        self.runs.add("main")
        for words in (("attach",), ("main",), ("attach", "main"), ("attach", "--predict", "never", "main")):
            self.done.clear()
            self.assertEqual(self.mux(*words), 7)
            self.assertEqual([one[0] for one in self.done], ["note_found", "demand_host", "demand_client"])
            self.assertFalse(self.follows.call_args[0][4](None))
        self.assertEqual(self.follows.call_args[0][3], "never")

    def test_watch(self):
        self.runs.add("main")
        self.mux("watch", "main")
        self.assertTrue(self.follows.call_args[0][1])

    def test_none(self):
        for words in (("attach", "none"), ("watch", "none"), ("kill", "none"), ("send", "none", "Up"), ("capture", "none")):
            self.refuses("no session none is running; `mux ls` lists sessions", *words)

    def test_terminal(self):
        """Without a terminal nothing is started."""
        self.is_terminal = False
        for words in ((), ("new", "x"), ("ssh", "there")):
            self.refuses("standard input and output must be a terminal", *words)
        self.assertEqual((self.done, list(self.base.iterdir())), ([], []))

    def test_dumb(self):
        """Nor on one that can't position its cursor."""
        self.environment(TERM="dumb")
        for words in ((), ("new", "x"), ("ssh", "there")):
            self.refuses("TERM is dumb: this terminal cannot place its cursor; set TERM to its real type, such as xterm-256color", *words)
        self.assertEqual((self.done, list(self.base.iterdir())), ([], []))

    def test_each_end(self):
        """Standard input and output both have to be one."""
        for ends, told in (({0}, True), ({1, 2}, True), ({0, 1}, False)):
            self.patch_of(mux.os, "isatty", lambda end, ends=ends: end in ends)
            if told:
                self.refuses("standard input and output must be a terminal")
            else:
                self.assertEqual(self.mux(), 7)

    def test_inside(self):
        """A session isn't shown in one of its own panes."""
        self.environment(ROAM_PANE=f"{self.base}/main:3")
        self.refuses("this is a pane of session main; a session cannot show itself")
        self.assertEqual(self.mux("other"), 7)

    def test_environment(self):
        self.environment(ROAM_PREFIX="C-3")
        self.refuses("ROAM_PREFIX is 'C-3'; it may be C-a to C-z, C-], C-\\, C-^ or C-_")
        self.environment(ROAM_PREFIX="C-a", ROAM_PREDICT="often")
        self.refuses("ROAM_PREDICT is 'often'; it may be adaptive, always or never")
        self.environment(ROAM_PREDICT=None, ROAM_MOUSE="yes")
        self.refuses("ROAM_MOUSE is 'yes'; it may be off or on")
        self.environment(ROAM_MOUSE=None, ROAM_CLIPBOARD="yes")
        self.refuses("ROAM_CLIPBOARD is 'yes'; it may be external, on or off")
        for word, sets in (("on", True), ("off", False), ("external", False), (None, False)):
            self.environment(ROAM_CLIPBOARD=word)
            self.assertEqual(config_environment.sets_clipboard(), sets)
        for word, has_mouse in (("on", True), ("off", False), ("", False)):
            self.environment(ROAM_MOUSE=word)
            self.assertEqual(config_environment.wants_mouse(), has_mouse)
        self.environment(ROAM_PREDICT="always")
        self.mux()
        self.assertEqual(self.follows.call_args[0][2:4], ("C-a", "always"))
        self.assertEqual((config_environment.chosen_prediction("never"), config_environment.chosen_prediction()), ("never", "always"))
        self.refuses("press C-a d in the front end to detach; the session keeps running", "detach")


    def test_alone(self):
        """With -d all others are asked to detach first; the ones that stay are reported."""
        self.runs.add("main")
        with mock.patch.object(windows, "detach_others", side_effect=[0, 2]) as others:
            self.assertEqual((self.mux("attach", "-d", "main"), self.said.getvalue()), (7, ""))
            self.assertEqual((self.mux("attach", "-d", "main"), others.call_args[0][0].name), (7, "main"))
            self.is_terminal = False
            with self.assertRaises(Fault):
                self.mux("attach", "-d", "main")
        self.assertEqual((others.call_count, self.said.getvalue()),
                         (2, "mux: session main: 2 of its terminals did not detach; they may be stopped\n"))

    def test_settings(self):
        """It prints the path of the settings, and each unsupported line, with status 1."""
        self.environment(XDG_CONFIG_HOME=str(self.base), HOME=str(self.base))
        self.addCleanup(config_environment.choose_by_file, {})
        self.patch_of(OWN, "found", None)
        self.assertEqual((self.mux("settings"), self.text.getvalue()), (0, f"{settings_path()}, which does not exist\n"))
        pathlib.Path(settings_path()).parent.mkdir()
        for text, status, lines in (("set -g mouse on\n", 0, ""), ("foo\x1b\n", 1, "roam.conf:1: roam does not support foo?\n")):
            pathlib.Path(settings_path()).write_text(text, encoding="utf-8")
            self.text.truncate(0), self.text.seek(0)
            self.assertEqual((self.mux("settings"), self.text.getvalue()), (status, f"{settings_path()}\n{lines}"))


class Starts(Mux):
    """`new`, `kill`, `send` and `capture`."""

    def test_new(self):
        """It starts a session with a command in place of the shell; with -d without a client."""
        self.assertEqual(self.mux("new", "-d", "work", "sh", "-c", "x"), 0)
        self.assertEqual(self.done[1], ("launch", "work", ["sh", "-c", "x"]))
        self.follows.assert_not_called()
        self.assertEqual(self.mux("new", "--predict", "always", "work"), 7)
        session, is_read_only, prefix, prediction, is_new = self.follows.call_args[0]
        self.assertEqual((session.name, is_read_only, prefix, prediction, is_new(None)), ("work", False, "C-b", "always", True))
        self.runs.add("work")
        self.refuses("session work is running; `mux attach work` attaches to it", "new", "work")
        self.refuses("'/no/such' is not a command; put the options of new before NAME", "new", "-d", "x", "/no/such")
        self.refuses("'a b' is not a valid name: use at most 32 letters, digits, - and _", "new", "-d", "a b")

    def test_kill(self):
        """It asks if a program other than a shell runs, except with -f."""
        self.runs.add("main")
        self.is_terminal = False
        self.refuses("session main runs vi in pane 1; `mux kill -f main` ends it", "kill", "main")
        self.is_terminal = True
        for answer, status in (("n\n", 1), ("", 1), ("y\n", 0)):
            with mock.patch("sys.stdin") as asked:
                asked.readline.return_value = answer
                self.assertEqual(self.mux("kill", "main"), status)
        self.assertEqual(self.said.getvalue(), "session main runs vi in pane 1; end it? [y/N] " * 3)
        self.assertEqual(self.done, [("end_all", "main"), ("tidy", "main")])
        self.sweeps.assert_called_once_with()
        self.runs.add("main")
        self.assertEqual(self.mux("kill", "-f", "main"), 0)

    def test_window(self):
        """A window is closed in the same way."""
        self.runs.add("main")
        with mock.patch.object(windows, "shut", return_value=5) as shuts:
            self.is_terminal = False
            self.refuses("window main runs vi in pane 1; `mux kill -f main` closes it", "kill", "main:2")
            self.is_terminal = True
            for answer, status in (("n\n", 1), ("y\n", 5)):
                with mock.patch("sys.stdin") as asked:
                    asked.readline.return_value = answer
                    self.assertEqual(self.mux("kill", "main:2"), status)
            self.assertEqual((self.mux("kill", "-f", "main:2"), shuts.call_count, shuts.call_args[0][0].name), (5, 2, "main"))
        self.assertEqual(self.said.getvalue(), "window main runs vi in pane 1; close it? [y/N] " * 2)
        self.assertEqual(self.done, [])

    def test_asked_of_windows(self):
        """Requests about a session's windows, and commands there, get the session and the words."""
        self.runs.add("main")
        for words, does, behind in ((("list-windows", "main"), "list_windows", ()), (("clients", "main"), "list_clients", ()),
                                    (("new-window", "main"), "new_window", ("",)),
                                    (("new-window", "-n", "a b", "main"), "new_window", ("a b",)),
                                    (("rename-window", "main:2", "a b"), "rename", ("a b",)), (("rename-window", "main"), "rename", ("",))):
            with mock.patch.object(windows, does, return_value=6) as done:
                self.assertEqual((self.mux(*words), done.call_args[0][0].name, done.call_args[0][1:]), (6, "main", behind), words)
        with mock.patch.object(cmd, "run", return_value=4) as runs:
            self.assertEqual((self.mux("cmd", "main.2", "split-window", "-h"), runs.call_args[0][1:]), (4, (2, ["split-window", "-h"])))
        self.refuses("name a command after the session, as in `mux cmd work split-window`", "cmd", "main")

    def test_not_ended(self):
        self.runs.add("main")
        with mock.patch.object(LocalSession, "end_all"):
            self.refuses("session main did not end", "kill", "-f", "main")

    def test_ready(self):
        """Typing and viewing need only a client process."""
        self.runs.add("main")
        with mock.patch.object(send, "send", return_value=3) as sends, mock.patch.object(capture, "capture", return_value=4) as takes:
            self.assertEqual(self.mux("send", "-a", "main", "char 61", "key up"), 3)
            self.assertEqual(sends.call_args[0][1], ["char 61", "key up"])
            self.assertEqual(self.mux("capture", "main"), 4)
            self.assertFalse(takes.call_args[0][1])
            self.mux("capture", "--svg", "main")
            self.assertTrue(takes.call_args[0][1])
        self.assertEqual([one[0] for one in self.done[:2]], ["note_found", "demand_client"])

    def test_printed_rows(self):
        """Scrollback rows are printed for a range or a form of rows, by default of the focused pane. They aren't drawn."""
        self.runs.add("main")
        with mock.patch.object(scrollback, "capture_rows", return_value=4) as takes, \
                mock.patch.object(scrollback, "log_rows", return_value=5) as logs:
            for words, told in ((("-S", "-10", "main.2"), (2, "-10", None, False, False)),
                                (("-S", "-", "-E", "-", "main"), (0, "-", "-", False, False)),
                                (("-e", "-J", "main"), (0, None, None, True, True)), (("-E", "0", "main.1"), (1, None, "0", False, False))):
                self.assertEqual((self.mux("capture", *words), takes.call_args[0][1:]), (4, told))
            self.assertEqual((self.mux("log", "main.2"), logs.call_args[0][1:]), (5, (2, False, False)))
            self.assertEqual((self.mux("log", "-e", "-J", "main"), logs.call_args[0][1:]), (5, (0, True, True)))
        self.refuses("--svg shows the screen; it excludes -S, -E, -e and -J", "capture", "--svg", "-S", "0", "main")
        self.refuses("no session none is running; `mux ls` lists sessions", "log", "none")
        self.assertEqual(self.done, [])

    def test_buffers(self):
        """Buffers are listed, printed and set, and pasted into a pane; they belong to no pane."""
        self.runs.add("main")
        names = ("list_buffers", "show_buffer", "set_buffer", "put_buffer")
        does = [self.patch_of(scrollback, name, return_value=place) for place, name in enumerate(names)]
        for words, place, told in ((("list", "main"), 0, ()), (("show", "main"), 1, (None,)), (("show", "main", "3"), 1, ("3",)),
                                   (("set", "main"), 2, (None,)), (("set", "main", "a b"), 2, ("a b",)), (("paste", "main"), 3, (None, 0)),
                                   (("paste", "main.2", "7"), 3, ("7", 2))):
            self.assertEqual((self.mux("buffer", *words), does[place].call_args[0][1:]), (place, told))
        self.refuses("buffers belong to a session; name no pane", "buffer", "show", "main.2")
        self.refuses("buffer list takes no number and no text", "buffer", "list", "main", "3")
        self.refuses("name a session, since this is not a pane of one; `mux ls` lists them", "buffer", "list")
        for words in (("drop", "main"), ()):
            with self.assertRaises(SystemExit):
                self.mux("buffer", *words)

    def test_texts(self):
        """Words are sent as characters by -l, and standard input is pasted, in one piece."""
        self.runs.add("main")
        with mock.patch.object(paste, "type_text", return_value=3) as types, \
                mock.patch.object(paste, "read_text", lambda is_raw: f"raw {is_raw}"):
            self.assertEqual(self.mux("send", "-l", "main.2", "a\nb\x1b", "Up"), 3)
            self.assertEqual((types.call_args[0][1:], types.call_args[1]), (("a\rbUp", 2), {"is_plain": True}))
            self.assertEqual(self.mux("paste", "main"), 3)
            self.assertEqual((types.call_args[0][1:], types.call_args[1]), (("raw False", 0), {"is_plain": False}))
            self.mux("paste", "--raw", "main.9")
            self.assertEqual(types.call_args[0][1:], ("raw True", 9))

    def test_sent(self):
        """The input of each way of `send`: keys by name, texts, both, characters alone by -l, and acts by -a alone."""
        self.runs.add("main")
        letters = {letter: f"char {ord(letter):x}" for letter in "abcdefghijklmnopqrstuvwxyz-: \u00e9"}
        spelled = lambda text: [letters[letter] for letter in text]  # noqa: E731
        for words, acts in (
            (("main", "Enter"), ["key return"]), (("main", "C-c", "Up", "x"), ["char 3", "key up", "char 78"]),
            (("main", "make test"), spelled("make test")), (("main", "make test", "Enter"), [*spelled("make test"), "key return"]),
            (("main", "close"), spelled("close")), (("main", "next"), spelled("next")), (("main", "split right"), spelled("split right")),
            (("main", "key up"), spelled("key up")), (("main", "ls", "-la"), spelled("ls-la")), (("main", "--", "-l"), spelled("-l")),
            (("main", "a\nb"), ["char 61", "key return", "char 62"]), (("main", "\u00e9t"), spelled("\u00e9t")),
            (("-a", "main", "close", "key up", "Enter"), ["close", "key up", "key return"]), (("main", "-a", "next"), ["next"]),
            (("-a", "main", "split right", "C-l"), ["split right", "char c"]),
        ):
            with mock.patch.object(send, "demand_acts"), mock.patch.object(send, "demand_doable"), \
                    mock.patch.object(send, "opened"), mock.patch.object(send, "type_lines") as types:
                self.assertEqual(self.mux("send", *words), 0)
            self.assertEqual(types.call_args[0][2], [" ; ".join(acts)], words)
        for words, text in ((("-l", "main", "Enter", "C-c"), "EnterC-c"), (("main", "-l", "close"), "close"),
                            (("-l", "main", "--", "-a"), "-a")):
            with mock.patch.object(paste, "type_text", return_value=0) as types:
                self.assertEqual(self.mux("send", *words), 0)
            self.assertEqual(types.call_args[0][1], text, words)
        for words, told in (
            (("main",), "name the keys after the session, as in `mux send work 'make test' Enter`"),
            (("-l", "-a", "main", "a"), "-l types characters and -a types acts; use one of them"),
            (("-a", "main", "-l", "a"), "-l types characters and -a types acts; use one of them"),
            (("main", "a", "C-;"), "C-; names a key that sends nothing; -l types its characters; nothing was typed"),
            (("main", ""), "there is nothing to type"), (("-l", "ls", "main"), "no session ls is running; `mux ls` lists sessions"),
        ):
            self.refuses(told, "send", *words)

    def test_panes(self):
        """NAME.P is a pane, to send to, to capture, and to close; if a program other than a shell runs there, after a confirmation."""
        self.runs.add("main")
        with mock.patch.object(send, "send", return_value=3) as sends, mock.patch.object(capture, "capture", return_value=4) as takes:
            self.assertEqual((self.mux("send", "-a", "main.3", "char 61"), sends.call_args[0][1:]), (3, (["char 61"], 3)))
            self.assertEqual((self.mux("capture", "main.3"), takes.call_args[0][1:]), (4, (False, 3)))
        places = Places({1: Rect(1, 1, 5, 5), 2: Rect(1, 7, 5, 5)}, 1)
        with mock.patch.object(SessionFolder, "places", lambda session: places), mock.patch.object(targets, "close_pane") as closes:
            self.assertEqual((self.mux("kill", "main.2"), closes.call_args[0][1]), (0, 2))
            self.is_terminal = False
            self.refuses("session main runs vi in pane 1; `mux kill -f main.1` closes it", "kill", "main.1")
            self.refuses("session main has no pane 3", "kill", "main.3")
            self.assertEqual((self.mux("kill", "-f", "main.1"), closes.call_args[0][1]), (0, 1))
            self.is_terminal = True
            with mock.patch("sys.stdin") as asked, mock.patch.object(LocalSession, "busy", lambda session: None):
                asked.readline.return_value = "n\n"
                self.assertEqual(self.mux("kill", "main.2"), 1)
            self.assertIn("session main runs an unknown program; close it? [y/N] ", self.said.getvalue())
        self.assertFalse([one for one in self.done if one[0] == "end_all"])

    def test_started(self):
        """It returns True for a session that already ran; the rest of an ended one is removed."""
        session = Window(self.base / "main")
        self.assertEqual((attaching.launched(session), self.done), (False, [("kill", "main")]))
        self.runs.add("main")
        self.assertTrue(attaching.launched(session))


class Listed(Mux):
    """`ls`."""

    def test_listed(self):
        for name in ("b", "a", "ssh:there:main"):
            (self.base / name).mkdir()
        found = {"a": True, "b": False, "ssh:there:main": Fault("somebody listens")}

        def is_listed(session):
            if isinstance(found[session.name], Fault):
                raise found[session.name]
            return found[session.name]

        with mock.patch.object(SessionFolder, "is_listed", is_listed), \
                mock.patch.object(SessionFolder, "line", lambda session, survey, windows, width: f"{session.name} 24 by 80\x1b[c"):
            self.assertEqual(self.mux("ls"), 1)
            self.assertEqual(self.text.getvalue(), "a 24 by 80?[c\n")
            self.assertIn("session ssh:there:main: somebody listens\n", self.said.getvalue())
            found["ssh:there:main"] = False
            self.assertEqual(self.mux("list"), 0)


class Far(Mux):
    """Sessions of other machines."""

    def test_just_ended(self):
        """If a remote session had ended right before an attach, another one is begun, once."""
        asked, calls = types.SimpleNamespace(name="far", host="h", predict=None), []

        def follow_far(asked, number, ends_unmet=None):
            calls.append(ends_unmet is not None)
            if ends_unmet and is_unmet:
                ends_unmet()
            return len(calls)

        self.patch_of(attaching, "demand_terminal")
        self.patch_of(attaching, "follow_far", side_effect=follow_far)
        for is_unmet, wanted in ((True, ([True, False], 2)), (False, ([True], 1))):
            calls.clear()
            self.assertEqual((attaching.enter_far(asked), calls)[::-1], wanted)
        is_unmet = True
        calls.clear()
        with mock.patch.object(attaching, "JUST_ENDED_SECONDS", 0.0):
            self.assertEqual((attaching.enter_far(asked), calls), (1, [True]))

    def test_ends_meanwhile(self):
        """If the relay ends while a terminal begins to attach by it, another one is started; a client that fails otherwise is reported."""
        relays = self.patch_of(RemoteSession, "launch_relay", side_effect=lambda *words: self.runs.add("main") or 0)

        def demand_client(session):
            if not relays.called:
                if is_ending:
                    self.runs.clear()
                raise Fault("the client process did not start")

        self.patch_of(attaching, "RELAY_ENDS_SECONDS", 0.0)
        self.patch_each("demand_client", demand_client)
        self.patch_each("find", lambda session: bool(self.runs))
        self.patch_each("runs", lambda session, role=None: bool(self.runs))
        for is_ending in (False, True):
            self.runs.add("main")
            if is_ending:
                self.assertEqual((self.mux("ssh", "there"), relays.call_count), (7, 1))
            else:
                self.refuses("the client process did not start", "ssh", "there")

    def test_ssh(self):
        """A relay is started if none runs, and a relay without an answer gives the exit status."""
        clients = self.patch_of(RemoteSession, "launch_relay", return_value=0)
        self.patch_of(ssh, "host_of", side_effect=lambda asked: f"host of {asked.host}")
        self.assertEqual(self.mux("ssh", "-p", "22", "me@there", "work"), 7)
        clients.assert_called_once_with(["ssh", "-p", "22", "me@there", "roam-mux far work"], "host of me@there")
        session = self.follows.call_args[0][0]
        self.assertEqual(session.folder.name.rpartition(":")[0], "ssh:me@there:work")
        self.assertEqual(self.done, [("kill", "work"), ("demand_client", "work")])
        with mock.patch.object(ssh, "is_first_client", side_effect=[True, False]):
            self.assertEqual([self.follows.call_args[0][4](None) for _ in range(2)], [True, False])
        clients.return_value = 255
        self.assertEqual(self.mux("ssh", "--predict", "never", "there"), 255)
        self.runs.add("main")
        self.assertEqual(self.mux("ssh", "there"), 7)
        self.assertEqual((clients.call_count, self.follows.call_args[0][4](None)), (2, False))
        self.refuses("'a b' is not a valid name: use at most 32 letters, digits, - and _", "ssh", "there", "a b")

    def test_host(self):
        """ssh reports its destination in a moment, and gets its own options; otherwise its word has the host."""
        self.environment(ROAM_UDP=None)
        folder = self.made_folder()
        stand_in = folder / "ssh"
        asked = types.SimpleNamespace(ssh=f"{stand_in} -4", options=["-p", "22"], host="me@there")

        def host(text):
            stand_in.write_text(f"#!/bin/sh\n{text}\n", encoding="utf-8")
            stand_in.chmod(0o700)
            return ssh.host_of(asked)

        self.assertEqual(host(f"echo \"$@\" > {folder}/words; echo user me; echo hostname there.example; echo port 22"), "there.example")
        self.assertEqual((folder / "words").read_text(encoding="utf-8"), "-4 -G -p 22 me@there\n")
        for text in ("exit 3", "echo", "echo hostname", "echo 'hostname a b'", "printf 'hostname \\377\\n'", "echo hostname x; exit 1"):
            self.assertEqual(host(text), "there", text)
        with mock.patch.object(ssh, "HOST_WAIT", 0.1):
            self.assertEqual(host("sleep 5"), "there")
        stand_in.unlink()
        self.assertEqual(ssh.host_of(asked), "there")
        with mock.patch.dict(os.environ, ROAM_UDP="never"), mock.patch("subprocess.run", side_effect=AssertionError):
            self.assertEqual(ssh.host_of(asked), "")

    def test_options(self):
        """The options before the host are for ssh, except those of mux; a letter may include its value, and follow others."""
        for words, own, options in (
            ("there", "there", ""), ("-p 22 there work", "there work", "-p 22"), ("-p22 there", "there", "-p22"),
            ("-v -4C there", "there", "-v -4C"), ("-vp 22 there -x", "there -x", "-vp 22"), ("--ssh x there", "--ssh x there", ""),
            ("--far y -i key --predict never there", "--far y --predict never there", "-i key"), ("-h there", "-h there", ""),
            ("-p", "", "-p"), ("--ssh", "--ssh", ""), ("-o A=b -J jump me@there w", "me@there w", "-o A=b -J jump"),
            ("--ssh=x there", "--ssh=x there", ""), ("", "", ""), ("-tt -L1:b:2 there", "there", "-tt -L1:b:2"),
        ):
            self.assertEqual(ssh.parted_options(words.split()), (own.split(), options.split()), words)

    def test_pairs(self):
        """The letters with a value are those of ssh(1)."""
        self.assertEqual(sorted(ssh.SSH_PAIRS), sorted("BbcDEeFIiJLlmOopQRSWw" + "P"))

    def test_near(self):
        """There is one folder for each host, session, and ssh command; odd letters of a host do not escape the folder."""
        asked = argparse.Namespace(ssh="ssh", far="roam-mux", options=[], host="there", name="main")
        names = [ssh.near_session(asked, ssh.command_of(asked)).folder.name]
        asked.options = ["-p", "22"]
        names.append(ssh.near_session(asked, ssh.command_of(asked)).folder.name)
        asked.options, asked.ssh = [], "ssh -p 23"
        self.assertEqual(ssh.command_of(asked), ["ssh", "-p", "23", "there", "roam-mux far main"])
        names.append(ssh.near_session(asked, ssh.command_of(asked)).folder.name)
        self.assertEqual((names[0], len(set(names))), ("ssh:there:main", 3))
        for name in names[1:]:
            self.assertRegex(name, "^ssh:there:main:[0-9a-f]{8}$")
        asked.host = "../a b"
        self.assertTrue(ssh.near_session(asked, ["x"]).folder.name.startswith("ssh:.._a_b:main:"))
        self.assertEqual(ssh.near_session(asked, ["x"]).name, "main")

    def test_first_client(self):
        """A session is new here if its server has had one client at most, as far as is known."""
        for clients, is_first in ((None, False), (1, True), (2, False)):
            places = None if clients is None else Places({1: Rect(1, 1, 2, 3)}, 1, clients)
            self.assertEqual(ssh.is_first_client(places), is_first)

    def test_carry(self):
        """The remote command of `mux ssh` starts the session if the other end knows none, and becomes a relay."""
        becomes, writes = self.patch_of(ssh.os, "execv"), self.patch_of(ssh.os, "write")
        greets = self.patch_of(ssh, "read_greeting", return_value="-")
        self.refuses("standard input is a terminal; `mux ssh` on another machine starts this end", "far", "main")
        self.is_terminal = False
        self.patch_of(SessionFolder, "process", return_value=17)
        self.mux("far", "main")
        self.assertEqual(self.done, [("kill", "main"), ("launch", "main")])
        words = [str(ssh.TOOLS / "relay"), "--far", "--greeted", "--server", "17", "--dir", str(self.base / "main"), "-"]
        becomes.assert_called_once_with(words[0], words)
        self.assertEqual(greets.call_args[0], (0,))
        self.done.clear()
        self.runs.add("main")
        self.mux("far", "main")
        self.assertNotIn("launch", [one[0] for one in self.done])
        writes.assert_not_called()

    def test_carry_known(self):
        """An ended one that the other end knew isn't started anew."""
        becomes, writes = self.patch_of(ssh.os, "execv"), self.patch_of(ssh.os, "write")
        self.patch_of(ssh, "read_greeting", return_value="5e55")
        self.is_terminal = False
        (self.base / "main").mkdir()
        for runs, name in ((False, "5e55"), (True, "another")):
            (self.runs.add if runs else self.runs.discard)("main")
            (self.base / "main/session").write_text(f"{name}\n", encoding="utf-8")
            self.assertEqual(self.mux("far", "main"), 0)
            writes.assert_called_with(1, greeting("0"))
        becomes.assert_not_called()
        self.assertEqual(self.done, [])
        (self.base / "main/session").write_text("5e55\n", encoding="utf-8")
        self.mux("far", "main")
        becomes.assert_called_once()


class Environment(Mux):
    """The output of `mux env`."""

    def test_printed(self):
        """It prints the lines for a shell, byte by byte; a missing session, and a remote one, is refused."""
        out = io.TextIOWrapper(io.BytesIO(), encoding="ascii")
        self.patch_of(mux.sys, "stdout", out)
        lines = self.patch_of(session_environment, "shell_lines", return_value=["export DISPLAY=:0", "export SSH_AUTH_SOCK='/a\udcff b'"])
        self.refuses("no session work is running; `mux ls` lists sessions", "env", "work")
        self.runs.add("work")
        self.assertEqual(self.mux("env", "work"), 0)
        self.assertEqual(out.buffer.getvalue(), b"export DISPLAY=:0\nexport SSH_AUTH_SOCK='/a\xff b'\n")
        self.assertEqual(lines.call_args[0][0].name, "work")
        (self.base / "ssh:there:main").mkdir()
        self.runs.add("ssh:there:main")
        told = "session ssh:there:main is on another machine; run `mux env` there"
        self.refuses(told, "env", "ssh:there:main")


class Words(Mux):
    """The parser of words."""

    def test_plain(self):
        """Words with a name at most give the same result as argparse."""
        for word, rest in (("attach", []), ("attach", ["x"]), ("new", ["x"]), ("ls", []), ("watch", ["x"]), ("kill", ["x"]),
                           ("capture", ["x"]), ("env", ["x"]), ("far", ["x"]), ("help", []), ("help", ["ls"]), ("detach", []),
                           ("send", ["a", "b"]), ("send", ["a", "b", "-l"]), ("send", ["a"]), ("new", []), ("new", ["a", "top", "-d"]),
                           ("cmd", ["a", "split-window", "-h"])):
            plain = mux.plain_words(word, rest)
            parsed = vars(mux.parser_of(word).parse_args(rest))
            self.assertEqual(vars(plain), parsed, (word, rest))
        for word, rest in (("attach", ["-x"]), ("attach", ["a", "b"]), ("watch", []), ("send", ["-l", "a", "b"]), ("send", []),
                           ("ssh", ["a"]), ("kill", ["-f", "x"])):
            self.assertIsNone(mux.plain_words(word, rest), (word, rest))

    def test_refused(self):
        """Words that name no session: a typing error gets a hint, the rest the usage; all with status 2."""
        hint = "mux: 'atach' is not a command of mux; did you mean attach?"
        for words, told in ((("atach",), f"{hint} (`mux new atach` starts a session of that name)\n"), (("atach", "x"), f"{hint}\n")):
            self.assertEqual(self.mux(*words), 2)
            self.assertTrue(self.said.getvalue().endswith(told))
        for words in (("-x",), ("zebra", "b"), ("--", "zebra", "b"), ("--x", "a")):
            before = len(self.said.getvalue())
            self.assertEqual(self.mux(*words), 2)
            self.assertTrue(self.said.getvalue()[before:].startswith("usage: mux [NAME] | attach | new | "), words)
        self.runs.add("atach")
        self.assertEqual(self.mux("atach"), 7)
        self.assertEqual(self.mux("--"), 7)

    def test_words_of_tmux(self):
        """No word of tmux launches a session of that name: a hint names roam's equivalent, a word of mux, or says that there is none. A
        running one is attached to, and `new` takes any.
        """
        for word, here in tmux_words().items():
            if here.startswith("mux "):
                self.assertIn(here.split()[1], mux.WORDS, word)
            if here.startswith("mux cmd "):
                self.assertIn(here.split()[3], BY_NAME, word)
            if here.startswith("C-b "):
                _, key, *command = here.split()
                self.assertTrue(key in DEFAULT_KEYS or key == "C-b", word)
                self.assertTrue(not command or command[0] in BY_NAME, word)
            for more in () if word in mux.WORDS else ((), ("-h",), ("x", "y")):
                before = len(self.said.getvalue())
                self.assertEqual(self.mux(word, *more), 2, word)
                named = f"`{here}`" if here.startswith("mux ") else here
                told = f"{word} is a tmux command; in roam, use {named}" if here else f"{word}: roam does not support this tmux command"
                own = "" if more else f" (`mux new {word}` starts a session of that name)"
                self.assertEqual(self.said.getvalue()[before:], f"mux: {told}{own}\n")
        self.assertNotIn("launch", [one[0] for one in self.done])
        self.assertEqual(self.mux("new", "swap-pane"), 7)
        self.assertIn(("launch", "swap-pane", ()), self.done)
        self.runs.add("split-window")
        self.assertEqual(self.mux("split-window"), 7)

    def test_none_listed(self):
        """Without a running session `ls` says so, with status 0."""
        self.assertEqual(self.mux("ls"), 0)
        self.assertEqual((self.text.getvalue(), self.said.getvalue()[-22:]), ("", "no session is running\n"))

    def test_help(self):
        """`help` explains all words, or one; --help after one does too."""
        for words in (("help",), ("-h",), ("--help",)):
            before = len(self.text.getvalue())
            self.assertEqual(self.mux(*words), 0)
            self.assertTrue(self.text.getvalue()[before:].startswith("mux [NAME] | COMMAND ..: terminal sessions"))
        self.assertEqual(self.mux("help", "ls"), 0)
        self.assertIn("usage: mux ls", self.text.getvalue())
        self.refuses("'lst' is not a command of mux; did you mean ls? `mux help` lists them", "help", "lst")
        told = "split-window is a tmux command; in roam, use `mux cmd NAME split-window`; `mux help` lists them"
        self.refuses(told, "help", "split-window")
        self.refuses("'zebra' is not a command of mux; `mux help` lists them", "help", "zebra")
        self.assertEqual(self.mux("kill", "--help"), 0)
        self.assertIn("End a session, a window or a pane, and the programs in it", self.text.getvalue())

    def test_help_of_words(self):
        """The help of a word has the text that argparse would print for the same arguments, at any width; and it is no wider."""
        for columns in ("48", "61", "80", "132"):
            self.environment(COLUMNS=columns)
            for word in mux.WORDS:
                with mock.patch.object(mux, "CALLED", "roam mux"):
                    text, parsed = word_help.help_of("roam mux", word, mux.WORDS[word]), mux.parser_of(word).format_help()
                self.assertEqual("".join(text.split()), "".join(parsed.replace("optional arguments:", "options:").split()), word)
                longest = max(map(len, text.split()))
                self.assertTrue(all(len(line) <= max(int(columns) - 2, 24 + longest) for line in text.split("\n")), text)
                if columns == "132" and "..." not in text:
                    self.assertEqual(text, parsed.replace("optional arguments:", "options:"))
        for words in (("ls", "--help"), ("ls", "-h"), ("help", "ls")):
            before = len(self.text.getvalue())
            self.assertEqual(self.mux(*words), 0)
            self.assertTrue(self.text.getvalue()[before:].startswith("usage: mux ls [-h]\n\nList the sessions.\n"))

    def test_unknown_variables(self):
        """An unknown variable is named in one printable line on standard error, with the nearest known one; up to four are."""
        hint = " (did you mean ROAM_PREDICT?)"
        for name, line in (("ROAM_GUES", f"ROAM_GUES{hint}"), ("ROAM_PREDICTS", f"ROAM_PREDICTS{hint}"),
                           ("ROAM_PREDCIT", f"ROAM_PREDCIT{hint}"),
                           ("ROAM_HISTROY", "ROAM_HISTROY (did you mean ROAM_HISTORY?)"), ("ROAM_ZEBRA", "ROAM_ZEBRA"),
                           ("ROAM_", "ROAM_"), ("ROAM_\x1b[2J\n\udcff", "ROAM_?[2J??"), ("ROAM_" + "X" * 99, f"ROAM_{'X' * 35}..")):
            self.assertEqual(mux.unknown_lines([name, "ROAM", "ROAMING", "HOME"]), [f"roam: unknown variable {line}"])
        self.assertEqual(mux.unknown_lines([*config_environment.VARIABLES, *config_environment.INTERNAL_VARIABLES]), [])
        lines = mux.unknown_lines(f"ROAM_X{number}" for number in range(9))
        self.assertEqual([*lines[3:], len(lines)], ["roam: unknown variable ROAM_X3", "roam: unknown variables: 5 more", 5])

    def test_unknown_ignored(self):
        """The request is carried out; a far end prints nothing about variables."""
        self.environment(ROAM_GUES="never")
        self.assertEqual(self.mux("help", "ls"), 0)
        self.assertEqual(self.said.getvalue(), "roam: unknown variable ROAM_GUES (did you mean ROAM_PREDICT?)\n")
        self.is_terminal = False
        with mock.patch.object(ssh, "carry", return_value=0):
            self.assertEqual(self.mux("far", "main"), 0)
        self.assertEqual(self.said.getvalue().count("ROAM_GUES"), 1)

    def test_variables(self):
        """Each variable in live/ is listed, and each listed one is used there."""
        owner = pathlib.Path(TOOLS) / "roam_live/config/environment.py"
        files = [path for path in pathlib.Path(TOOLS).rglob("*") if path.is_file() and "__pycache__" not in path.parts and path != owner]
        found = {name for path in files for name in re.findall(r"\bROAM_[A-Z]+\b", path.read_text(encoding="utf-8", errors="replace"))}
        self.assertEqual(found, {*config_environment.VARIABLES, *config_environment.INTERNAL_VARIABLES})

    def test_called(self):
        """Messages have the name by which it was called."""
        with mock.patch.object(mux, "CALLED", "roam mux"):
            self.assertEqual(self.mux("help"), 0)
            self.assertTrue(self.text.getvalue().startswith("roam mux [NAME] | COMMAND"))

    def test_words(self):
        """The words are those of the page roam-mux(1)."""
        page = PAGE.read_text(encoding="utf-8").replace("\\fB", "")
        for word in mux.WORDS:
            self.assertRegex(page, rf"\b{word}\b")
        self.assertEqual(list(mux.WORDS), "attach new detach ls list list-windows new-window rename-window clients watch kill send paste "
                         "capture log buffer env cmd upgrade settings ssh far help".split())

    def test_ssh_words(self):
        asked = mux.asked_by("ssh", ["-p", "22", "--far", "f", "there"])
        self.assertEqual((asked.options, asked.far, asked.ssh), (["-p", "22"], "f", "ssh"))
        self.assertEqual((asked.host, asked.name, asked.predict), ("there", "main", None))
        self.assertEqual(mux.asked_by("send", ["x", "a", "b"]).words, ["a", "b"])
        self.assertEqual(mux.asked_by("send", ["-l", "x", "--", "b"]).words, ["--", "b"])

    def test_functions(self):
        """The function of each word exists."""
        for name, word in mux.WORDS.items():
            module, _, function = word.function.partition(".")
            self.assertTrue(callable(getattr(importlib.import_module(f"roam_live.cli.{module}"), function)), name)
