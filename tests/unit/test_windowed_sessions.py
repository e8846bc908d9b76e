"""Sessions with windows as commands find them: their folders, notes and names, and requests to their host."""
import errno
import fcntl
import json
import os
import pathlib
import resource
import time
from unittest import mock

from aids import Case, comes, line_of, read_now
from roam_live.cli import targets, upgrade, windows as cli_windows
from roam_live.cli.targets import session_of, target_of, window_of
from roam_live.cli.windows import (WindowsAsked, check_title, detach_others, is_there, list_clients, list_windows, new_window, rename, shut,
                                   windows_of)
from roam_live.common.build_info import identity
from roam_live.common.errors import Fault
from roam_live.common.process import begun, end_words, is_running
from roam_live.common.unix_socket import is_listened
from roam_live.protocol.panes import Places, Rect
from roam_live.session import foreground, local, lookup, folder as session_folder, remote, roles
from roam_live.session.folder import SessionFolder
from roam_live.session.front_end_lock import has_front_ends
from roam_live.session.local import LocalSession, Window
from roam_live.session.lookup import session_named, window_in
from roam_live.session.names import WINDOWS_VERSION, is_spare_server, numbers_in
from roam_live.session.start_limits import current_limits

PLACES = Places({1: Rect(1, 1, 23, 80)}, 1, 1)


class Sessions(Case):
    """A folder of sessions, whose processes are this one."""

    def setUp(self):
        self.base = self.made_folder() / "roam"
        self.base.mkdir(mode=0o700)
        for module in (local, lookup):
            self.patch_of(module, "base", lambda: self.base)
        self.environment(ROAM_PANE=None)
        self.said, self.text = self.heard(), self.printed()
        self.own = [os.getpid(), begun(os.getpid())]

    def noted(self, name, number=0, **processes):
        """Record processes of a session, or of a window of it."""
        folder = self.base / name / f"w/{number}" if number else self.base / name
        folder.mkdir(parents=True, exist_ok=True)
        (folder / "state.json").write_text(json.dumps({"version": WINDOWS_VERSION, **processes}), encoding="utf-8")
        return folder

    def session(self):
        """Return a session of three windows, one of which has ended."""
        self.noted("main", host=self.own)
        for number, server in ((2, self.own), (5, [1, 1]), (7, self.own)):
            self.noted("main", number, server=server)
        return session_named("main")


class Found(Sessions):
    """Finding sessions."""

    def test_kinds(self):
        """A name is that of a session, and a folder that of a window: of a session's, or of one whose server was started by hand, which
        belongs to no session.
        """
        self.assertIsInstance(session_named("new"), LocalSession)
        self.noted("main", host=self.own)
        (self.base / "main/clients").touch()
        self.assertIsInstance(session_named("main"), LocalSession)
        for path, number in (("main/w/3", 3), ("main/w/0", 0), ("main/w/100", 0), ("main", 0)):
            window = window_in(self.base / path)
            self.assertEqual((type(window), window.number, window.session is not None), (Window, number, number > 0), path)
        (self.base / "main/clients").unlink()
        self.listening(self.base / "main/clients")
        with self.assertRaisesRegex(Fault, "^/.*/main belongs to a server that was started by hand; `roam-attach /.*/main` attaches"):
            session_named("main")
        self.assertEqual(lookup.sessions_here(), [])
        with self.assertRaisesRegex(Fault, "is not a valid name"):
            session_named("a b")

    def test_windows(self):
        """The windows are those whose servers run; the default is the one used last, else the first."""
        session = self.session()
        self.assertEqual([window.number for window in session.windows()], [2, 7])
        self.assertEqual((session.window(7).name, session.window().number, session.runs(), session.find()), ("main:7", 2, True, True))
        for noted, number in (("7\n", 7), ("5\n", 2), ("x", 2), ("", 2)):
            (self.base / "main/w/last").write_text(noted, encoding="ascii")
            self.assertEqual(session.window().number, number)
        for number in (1, 5, 99):
            with self.assertRaisesRegex(Fault, f"^session main has no window {number}$"):
                session.window(number)
        one = session.window(2)
        self.assertEqual((one.window(), one.window(7).number, one.whole_session(), one.common), (one, 7, session, str(self.base / "main")))
        with self.assertRaisesRegex(Fault, "^session old was started by hand and has one window; there is no window 2$"):
            Window(self.base / "old").window(2)

    def test_spare(self):
        """A spare server is no window, and can't be named. It is recognized by its mark, or if that is lost by its environment, until it
        becomes a window.
        """
        session, server = self.session(), self.process(env={"ROAM_SPARE": "1"})
        folder = self.noted("main", 7, server=[server.pid, begun(server.pid)])
        comes(lambda: is_spare_server(server.pid))
        for mark, numbers in (("spare", [2]), (None, [2]), ("joined", [2, 7]), ("terminals", [2, 7])):
            self.noted("main", 7, server=[server.pid, begun(server.pid)], **({"joined": True} if mark == "joined" else {}))
            if mark:
                (folder / mark).touch()
            self.assertEqual([window.number for window in session.windows()], numbers, mark)
            if 7 not in numbers:
                with self.assertRaisesRegex(Fault, "^session main has no window 7$"):
                    session.window(7)
            if mark:
                (folder / mark).unlink()
        self.assertNotIn("2 windows", line_of(session))

    def test_held(self):
        """Without notes and sockets it is found by the lock on its folder, and can be ended."""
        folder = self.noted("main")
        (folder / "state.json").unlink()
        held = os.open(folder, os.O_RDONLY)
        self.addCleanup(os.close, held)
        session = session_named("main")
        self.assertFalse(session.find())
        fcntl.flock(held, fcntl.LOCK_EX)
        self.assertTrue(session.find())
        self.assertEqual(session.process("host"), os.getpid())
        self.assertTrue(session.is_listed())
        with self.assertRaisesRegex(Fault, "^session main runs, but its files were removed; "):
            session.window()
        near = remote.RemoteSession(folder)
        self.assertTrue(near.find())
        self.assertEqual(near.process("relay"), os.getpid())

    def test_replaced(self):
        """A session whose folder another one has by now shows none of its windows, accepts none of its processes and starts nothing there."""
        session = self.session()
        self.noted("main", 2, server=self.own, client=self.own)
        window = session.window(2)
        other = self.process()
        for name, is_own in (("host", True), ("panes", True), ("terminals", True)):
            self.assertEqual(window.is_peer(name, os.getpid()), is_own)
            self.assertFalse(window.is_peer(name, other.pid))
        foreign = [other.pid, begun(other.pid)]
        self.noted("main", 2, server=foreign, client=foreign)
        self.noted("main", host=foreign)
        for name in ("host", "panes", "terminals"):
            self.assertFalse(window.is_peer(name, other.pid), name)
        self.assertTrue(window.is_replaced())
        told = "^session main: its files were removed, and another session has its name; `mux kill main` ends that one$"
        for number in (None, 7, 2):
            with self.assertRaisesRegex(Fault, told):
                session.window(number)
        other.kill()
        other.wait()
        self.assertFalse(window.is_replaced())

    def test_by_command(self):
        """The pty host of a removed folder is found by its command, so that no other session begins in its name."""
        tool = self.base / "pane_shells"
        tool.write_text("#!/bin/sh\nsleep 60 & wait\n")
        tool.chmod(0o755)
        host = self.process(str(tool), "--windows", "--first", str(self.base / "gone"), "vi")
        session = session_named("gone")
        self.assertTrue(comes(session.find))
        self.assertEqual((session.process("host"), session_named("gon").find()), (host.pid, False))

    def test_unreachable(self):
        """Another client replaces one without a socket for ten seconds."""
        session = self.session()
        window = session.window(2)
        self.noted("main", 2, server=self.own, client=self.own)
        window.read()
        age = self.patch_of(session_folder, "age_of", return_value=9.9)
        self.assertTrue(window.has_client())
        age.return_value = 10.1
        self.assertFalse(window.has_client())
        pathlib.Path(window.terminals).touch()
        self.assertTrue(window.has_client())

    def test_host_gone(self):
        """If its host has ended it exists while a server runs, and the list shows that."""
        session = self.session()
        self.noted("main", host=[1, 1])
        session.read()
        self.assertTrue(session.find() and session.runs() and not session.runs("host"))
        line = line_of(session, PLACES, None)
        self.assertTrue(line.endswith("2 panes  ? terminals, 2 windows: 2 7, its pty host is not running"), line)
        for number in (2, 7):
            self.noted("main", number, server=[1, 1])
        self.assertFalse(session.find() or session.runs())

    def test_line(self):
        """Each named window is listed by name, if there are several."""
        session = self.session()
        (self.base / "main/w/2/name").write_text("6162\n", encoding="ascii")
        (self.base / "main/w/7/name").write_text("1b5d\n", encoding="ascii")
        self.assertEqual(line_of(session, PLACES), "main         23 by 80     2 panes  0 terminals, 2 windows: 2:ab 7")
        (self.base / "main/w/last").write_text("7\n", encoding="ascii")
        wide = Places({1: Rect(1, 1, 29, 90)}, 1)
        self.assertIn("29 by 90", line_of(session, lambda folder: wide if folder.name == "7" else PLACES))
        self.noted("main", 7, server=[1, 1])
        self.assertEqual(line_of(session, PLACES), "main         23 by 80     1 pane   0 terminals")

    def test_other_build(self):
        """A line of `ls` and `mux upgrade` name another build that started a session; this one, and an odd note, are not named."""
        session = self.session()
        begins = "main         23 by 80     2 panes  0 terminals, 2 windows: 2 7"
        for noted, told in ((identity(), ""), (7, ""), (None, ""), ("0.1.0 0123", ", runs roam 0.1.0 0123, which `mux upgrade` explains"),
                            ("\x1b" * 99, f", runs roam {'?' * 60}, which `mux upgrade` explains")):
            session.state["build"] = noted
            self.assertEqual(line_of(session, PLACES), begins + told)
        session.state["build"] = "0.1.0 0123"
        lines = upgrade.report([session])
        self.assertEqual((lines[0][:15], lines[1:]), (f"this is roam {identity()[:2]}", ["main runs roam 0.1.0 0123", upgrade.ADVICE]))
        session.served = "relay"
        self.assertEqual(upgrade.report([session])[1], "main has a relay of roam 0.1.0 0123; `mux kill main`, then `mux ssh` again, replaces it")
        session.state = None
        self.assertEqual(upgrade.report([session])[1:], [upgrade.SAME])
        self.assertEqual(upgrade.report([])[1:], [upgrade.SAME])

    def test_ending(self):
        """A window's end is intended if that was recorded, among others."""
        window = self.session().window(2)
        self.assertEqual(window.ending()[1], 1)
        window.note_end()
        self.assertEqual((self.base / "main/ended").read_text(encoding="ascii"), f"{end_words(*self.own)}\n")
        self.assertEqual(window.ending(), ("[the session has ended]", 0))

    def test_busy(self):
        """The programs in a window's panes are that window's."""
        session = self.session()
        busy = {(str(self.base / "main/w/2"), 1): "vi", (str(self.base / "main/w/7"), 1): "top"}
        with mock.patch.object(foreground, "busy_programs", lambda host: busy):
            self.assertEqual((session.window(2).busy(), session.window(7).busy()), ({1: "vi"}, {1: "top"}))
            self.assertEqual(session.busy_programs(), {(2, 1): "vi", (7, 1): "top"})
            self.assertEqual(foreground.told_in_windows(session.busy_programs()), "vi in pane 1 of window 2 and top in pane 1 of window 7")
        with mock.patch.object(foreground, "busy_programs", lambda host: None):
            self.assertEqual((session.window(2).busy(), session.busy_programs()), (None, None))

    def test_clean(self):
        """The rest of an ended one is removed, with its windows."""
        session = self.session()
        for number in (2, 5, 7):
            self.noted("main", number, server=[1, 1])
        session.read()
        session.clean()
        self.assertEqual(os.listdir(self.base / "main"), [])


class Unknown(Sessions):
    """An unknown state differs from absence."""

    def full(self):
        """Leave no free descriptor."""
        lowest = os.dup(0)
        os.close(lowest)
        before = resource.getrlimit(resource.RLIMIT_NOFILE)
        resource.setrlimit(resource.RLIMIT_NOFILE, (lowest, before[1]))
        self.addCleanup(resource.setrlimit, resource.RLIMIT_NOFILE, before)
        return lambda: resource.setrlimit(resource.RLIMIT_NOFILE, before)

    def test_noted(self):
        """A session with recorded processes runs, even if none of them can be checked."""
        session = self.session()
        again = self.full()
        found = session.find(), session.runs("host"), SessionFolder.runs(session, "host"), is_running(1 << 22, 1)
        again()
        self.assertEqual(found, (True, True, True, False))

    def test_unread(self):
        """An unreadable note or folder, or a socket that gives an error, is reported, and nothing is removed."""
        self.session()
        listener = self.listening(self.base / "main/w/2/clients")
        self.addCleanup(listener.close)
        before = sorted(path.name for path in self.base.rglob("*"))
        again = self.full()
        told = []
        session = LocalSession(self.base / "main")
        window = session.window_of(2)
        for does in (session.find, window.find, lambda: window.listener("clients"), lambda: numbers_in(str(self.base / "main/w")),
                     window.clean, session.tidy):
            with self.assertRaises(Fault) as fault:
                does()
            told.append(str(fault.exception).rpartition(": ")[2])
        heard = is_listened(self.base / "main/w/2/clients"), is_listened(self.base / "none")
        again()
        few = "Too many open files"
        self.assertEqual(told, [f"{few}; nothing was changed there"] * 3 + [few] + told[4:5] + [f"{few}; nothing was changed there"])
        self.assertRegex(told[4], "nothing was removed there$")
        self.assertEqual((heard, sorted(path.name for path in self.base.rglob("*"))), ((True, True), before))
        self.assertFalse(is_listened(self.base / "none"))

    def test_front_ends(self):
        """A session whose lock gives an error may have front ends."""
        folder = self.noted("main")
        (folder / "front_ends").touch()
        with mock.patch("os.open", side_effect=OSError(errno.EMFILE, "no descriptor")):
            self.assertTrue(has_front_ends(folder))
        self.assertFalse(has_front_ends(folder))


class Launched(Sessions):
    """Starts and ends, with processes that don't run here."""

    def setUp(self):
        super().setUp()
        self.spawned, self.waits, self.ended, self.refused = [], [], [], ""
        for module in (roles,):
            self.patch_of(module, "program", return_value="/roam")
        self.patch_of(SessionFolder, "spawned", lambda session, role, words, *parts: self.spawn(session, role, words))
        self.patch_of(SessionFolder, "wait_for", lambda session, role, before, test: self.waits.append((role, test)))
        self.patch_of(SessionFolder, "end", lambda session, role: self.ended.append((session.name, role)))
        (self.base / "new").mkdir(mode=0o700)
        self.new = session_named("new")

    def spawn(self, session, role, words):
        """Record a spawned process, or refuse it."""
        if role == self.refused:
            raise Fault("it can't be had")
        self.spawned.append((role, words))
        session.state[role] = self.own

    def test_launched(self):
        """The pty host is spawned first, and waits for the first window's server, in a folder of its own."""
        self.new.launch(["vi", "x"])
        folder = self.base / "new/w/1"
        self.assertEqual(self.spawned, [
            ("host", [str(roles.TOOLS / "pane_shells"), "--windows", "--first", str(self.base / "new"), "vi", "x"]),
            ("server", ["/roam", "serve", "--normalize", "--dir", str(folder)])])
        self.assertEqual((self.new.state, folder.stat().st_mode & 0o777, folder.parent.stat().st_mode & 0o777),
                         ({"version": WINDOWS_VERSION, "command": ["vi", "x"], **current_limits(), "build": identity(), "host": self.own}, 0o700, 0o700))
        role, test = self.waits[0]
        self.assertEqual((role, test()), ("server", False))
        (folder / "session").touch()
        self.assertFalse(test())
        self.listening(folder / "clients")
        self.assertTrue(test())

    def test_half_way(self):
        """If the server fails all spawned processes are ended."""
        self.refused = "server"
        with self.assertRaisesRegex(Fault, "^it can't be had$"):
            self.new.launch()
        self.assertEqual(self.ended, [("new", "server"), ("new", "client"), ("new", "host"), ("new", "holder"), ("new", "host"),
                                      ("new:1", "server"), ("new:1", "client")])

    def test_kept(self):
        """The pty host is spawned if it doesn't run, and awaited until it is there, or a command has ended it."""
        session = self.session()
        session.demand_host()
        self.assertEqual(self.spawned, [])
        self.noted("main", host=[1, 1], command=["vi"])
        session.read()
        words = [str(roles.TOOLS / "pane_shells"), "--windows", str(self.base / "main"), "vi"]
        for demands in (session.demand_host, session.window(2).demand_host, session.revive_host, session.window(7).revive_host):
            demands()
            self.assertEqual(self.spawned.pop(), ("host", words))
            self.noted("main", host=[1, 1], command=["vi"])
            session.read()
        self.assertEqual([(role, test()) for role, test in self.waits], [("host", False)] * 2)
        self.listening(self.base / "main/host")
        self.assertTrue(self.waits[0][1]())
        self.new.own = {"host": mock.Mock()}
        for ended, is_over in ((None, False), (1, False), (0, True)):
            self.new.own["host"].poll.return_value = ended
            self.new.demand_ready()
            self.assertEqual(self.waits[-1][1](), is_over)

    def test_revived(self):
        """Nobody waits for another process that spawns it, and an ended one isn't started again."""
        session = self.session()
        self.noted("main", host=[1, 1])
        session.read()
        lock = session.taken_lock(True)
        self.assertFalse(session.revive_host())
        os.close(lock)
        for number in (2, 7):
            self.noted("main", number, server=[1, 1])
        self.assertEqual((session.revive_host(), self.spawned), (False, []))

    def test_answers(self):
        """If its note is lost the process that answers at its socket identifies it."""
        session = self.session()
        self.noted("main")
        session.read()
        self.patch_of(local, "command_of", return_value=["vi"])
        self.listening(self.base / "main/host")
        self.assertTrue(session.find() and session.is_found)
        self.assertEqual(session.state, {"version": WINDOWS_VERSION, "command": ["vi"], "host": self.own})

    def test_ends(self):
        """The host is ended before its rest, and the running windows are recorded first."""
        session = self.session()
        session.end_all()
        roles = [(f"main:{number}", role) for number in (2, 5, 7) for role in ("server", "client")]
        self.assertEqual(self.ended, [("main", "host"), ("main", "holder"), ("main", "host"), *roles])
        self.assertEqual((self.base / "main/ended").read_text(encoding="ascii"), f"{end_words(*self.own)}\n" * 2)

    def test_no_own(self):
        """A window is opened by its host, which also knows its programs."""
        window = self.session().window(7)
        with self.assertRaisesRegex(Fault, "^session main: only its pty host opens windows$"):
            window.launch()
        with mock.patch.object(foreground, "busy_panes", return_value={1: "vi"}) as busy:
            self.assertEqual((window.busy(), busy.call_args), ({1: "vi"}, mock.call(str(self.base / "main"), str(window.folder))))
            self.noted("main", host=[1, 1])
            self.assertEqual(window.busy(), {})


class Named(Sessions):
    """The meanings of words in a pane."""

    def test_own(self):
        """Without a name the session is that of the pane, and without a number the window too, of this session alone."""
        session = self.session()
        with self.assertRaisesRegex(Fault, "^name a session, since this is not a pane of one; `mux ls` lists them$"):
            session_of(target_of(".1"))
        self.environment(ROAM_PANE=f"{self.base}/main/w/7:3")
        for word, number in (("", 7), (":", 7), (":2", 2), ("main", 7), ("main:2", 2)):
            target = target_of(word)
            self.assertEqual((session_of(target).folder, window_of(session, target).number), (str(self.base / "main"), number), word)
        self.noted("other", 3, server=self.own)
        self.assertEqual(window_of(session_named("other"), target_of("other")).number, 3)
        for folder, is_in in (("main", True), ("main/w/9", True), ("mainly/w/1", False), ("main/x", False)):
            self.assertEqual(targets.is_in(f"{self.base}/{folder}", session), is_in)
        for value in ("", "x", "/a:", "/a:0", "/a:12", "/a:x", ":"):
            self.assertEqual(foreground.pane_in(value), foreground.NOWHERE, value)


class Near(Sessions):
    """Windows of a remote session, as its relay reports them."""

    def near(self, *windows):
        """Return the local end of a session with windows."""
        session = session_named("ssh:h:n")
        pathlib.Path(session.folder, "session").write_text("e\n", encoding="ascii")
        for number, name in windows:
            pathlib.Path(session.folder, f"w/{number}").mkdir(parents=True)
            pathlib.Path(session.folder, f"w/{number}/session").write_text(f"{name}\n", encoding="ascii")
        self.noted("ssh:h:n", relay=self.own)
        session.read()
        return session

    def setUp(self):
        super().setUp()
        (self.base / "ssh:h:n").mkdir()

    def test_short_name(self):
        """The number that options of `mux ssh` add to a name may be left out, unless two names begin so."""
        for number in ("26ae6edd", "00000001"):
            (self.base / f"ssh:x:far:{number}").mkdir()
            if number == "26ae6edd":
                self.assertEqual(session_named("ssh:x:far").folder.name, "ssh:x:far:26ae6edd")
        with self.assertRaisesRegex(Fault, "^ssh:x:far may be ssh:x:far:00000001 or ssh:x:far:26ae6edd; name one of them$"):
            session_named("ssh:x:far")
        self.assertEqual(session_named("ssh:x:far:26ae6edd").folder.name, "ssh:x:far:26ae6edd")
        with self.assertRaisesRegex(Fault, "^no session named ssh:x:fa; "):
            session_named("ssh:x:fa")

    def test_windows(self):
        """They are the reported ones, and the default is the relay's own."""
        session = self.near((2, "d"), (5, "e"))
        (session.folder / "w/7").mkdir()
        self.assertEqual([window.number for window in session.windows()], [2, 5])
        self.assertEqual((session.window().number, session.window(2).number, session.window(2).window(5).number), (5, 2, 5))
        one = session.window(2)
        self.assertEqual((one.common, one.process("relay"), one.busy(), one.whole_session(), one.find()),
                         (session.folder, os.getpid(), None, session, True))
        with self.assertRaisesRegex(Fault, "^session ssh:h:n has no window 3$"):
            one.window(3)
        self.assertTrue(line_of(session, PLACES).endswith("2 panes  0 terminals, 2 windows: 2 5"), line_of(session, PLACES))
        line = line_of(session, lambda folder: None if folder.name == "2" else PLACES)
        self.assertTrue(line.endswith("23 by 80     ? panes  0 terminals, 2 windows: 2 5"), line)
        session.clean()
        self.assertEqual(os.listdir(session.folder), [])

    def test_by_hand(self):
        """A session started by hand has one."""
        session = self.near()
        self.assertEqual((session.windows(), session.window(), session.number), ([session], session, 0))
        session.await_windows(None, 0.0)
        with self.assertRaisesRegex(Fault, "^session ssh:h:n was started by hand there and has one window; there is no window 2$"):
            session.window(2)


class Asked(Sessions):
    """Requests of commands to a simulated host."""

    def setUp(self):
        super().setUp()
        self.window = self.session().window(2)
        self.listener = self.listening(self.window.common / "host")
        self.patch_of(cli_windows, "led", lambda number, line: line)
        self.patch_of(cli_windows, "parted", lambda line: (0, line))
        self.patch_of(cli_windows, "comes", self.comes)
        self.answers = []
        self.host = None

    def comes(self, peer, seconds):
        """Send the host's next answer to a waiting peer, within its time."""
        self.assertTrue(peer.fileno() >= 0 and 0 <= seconds <= cli_windows.ANSWERS)
        self.host = self.host or self.taken(self.listener)
        if self.answers:
            self.host.send(self.answers.pop(0))
        return True

    def test_windows(self):
        """Lines are taken in any chunks, and invalid ones are ignored."""
        odd = b"window x -\nwindow 3\nwindow \xc2\xb2 -\nwindow " + b"9" * 5000 + b" -\nwindow 100 -\n"
        self.answers = [b"window 1 -\nwin", b"dow 2 61\nactivity 2\n", odd, b"window 2 6162\n", b"windows 2\n"]
        self.assertEqual(windows_of(self.window), [(1, ""), (2, "ab")])
        self.assertEqual(read_now(self.host), b"windows\n")

    def test_programs(self):
        """An unnamed window has the name of its foreground program, as in the last row, if that is reported soon."""
        self.patch_of(cli_windows, "RUNS_TOLD", 0.2)
        self.answers = [b"window 1 -\nwindow 2 6162\nwindows 2\n", b"runs 2 vi\nruns 9 x\nruns x y\nruns 1 less a\n"]
        self.assertEqual(windows_of(self.window, has_programs=True), [(1, "less a"), (2, "ab")])
        self.answers, self.host = [b"window 1 -\nwindows 1\nwindow 1 -\n"], None
        self.patch_of(cli_windows, "comes", lambda peer, seconds: self.comes(peer, seconds) if self.answers else False)
        self.assertEqual(windows_of(self.window, has_programs=True), [(1, "")])

    def test_listed(self):
        """Each window has a line: its name, its size, its panes, and its programs."""
        self.patch_of(cli_windows, "RUNS_TOLD", 0.0)
        wide = Places({1: Rect(1, 1, 23, 39), 2: Rect(1, 41, 23, 40)}, 2)
        for number, places, busy, line in ((2, PLACES, {1: "vi"}, " 2 a?b              23 by 80     1 pane, vi in pane 1"),
                                           (7, wide, {}, " 7 -                23 by 80     2 panes"),
                                           (7, None, None, " 7 -                -            ? panes")):
            self.answers, self.host = [b"window %d %s\nwindows 1\n" % (number, b"61e282ac62" if number == 2 else b"-")], None
            self.patch_of(SessionFolder, "places", lambda session: places)
            self.patch_of(Window, "busy", lambda session: busy)
            list_windows(self.window)
            self.assertEqual(self.text.getvalue().splitlines()[-1], line.replace("a?b", "a\u20acb"))

    def test_opened(self):
        """A window is opened with the size of the requesting one, and its name if given."""
        self.patch_of(cli_windows, "random_name", lambda: "ab" * 8)
        self.patch_of(SessionFolder, "places", lambda session: Places({1: Rect(1, 1, 29, 100)}, 1))
        self.answers = [b"opened 4\n"]
        self.assertEqual(new_window(self.window, ""), 0)
        self.assertEqual((read_now(self.host), self.text.getvalue()), (b"open 30 100 for abababababababab\n", "main:4\n"))
        self.patch_of(SessionFolder, "places", lambda session: None)
        self.answers, self.host = [b"opened 5\n", b"windows 0\n", b"window 5 6162\n"], None
        self.assertEqual(new_window(self.window, "ab"), 0)
        self.assertEqual((read_now(self.host), self.text.getvalue()),
                         (b"open 24 80 for abababababababab\nwindows\nname 5 6162\n", "main:4\nmain:5\n"))
        for told, why in ((b"none a\x1bb is full", "a\\?b is full"), (b"100", ""), (b"9" * 5000, ""), (b"x", ""), (b"4 5", "5")):
            self.answers, self.host = [b"opened " + told + b"\n"], None
            with self.assertRaisesRegex(Fault, f"^session main: cannot open a window: {why}$"):
                new_window(self.window, "")

    def test_opened_again(self):
        """If the pty host ends, the next one is asked by the same name, until the window is open or for too long."""
        self.patch_of(cli_windows, "ASKS_EACH", 0.0)
        heard = []

        def comes(peer, seconds):
            self.host = self.taken(self.listener)
            heard.append(read_now(self.host))
            if self.answers[0]:
                self.host.send(self.answers[0])
            else:
                self.host.close()
            del self.answers[0]
            return True

        self.patch_of(cli_windows, "comes", comes)
        self.answers = [b"", b"", b"opened 4\n"]
        self.assertEqual(new_window(self.window, ""), 0)
        self.assertEqual((len(heard), len(set(heard)), self.text.getvalue()), (3, 1, "main:4\n"))
        self.answers = [b"", b"opened none its window is being opened\n", b"opened none full\n"]
        with self.assertRaisesRegex(Fault, "cannot open a window: full$"):
            new_window(self.window, "")
        self.patch_of(cli_windows, "ASKS_AGAIN", 0.0)
        self.answers = [b""]
        with self.assertRaisesRegex(Fault, "^session main:2: the pty host has ended$"):
            new_window(self.window, "")

    def test_renamed(self):
        """It waits until the window is reported with the name; one that is gone has none."""
        self.answers = [b"window 2 -\nwindows 1\n", b"window 7 63\ngone 7\n", b"window 2 6162\n"]
        self.assertEqual((rename(self.window, "ab"), self.answers), (0, []))
        self.assertEqual(read_now(self.host), b"windows\nname 2 6162\n")
        self.answers, self.host = [b"windows 1\n", b"gone 2\n"], None
        with self.assertRaisesRegex(Fault, "^session main has no window 2$"):
            rename(self.window, "")
        self.assertEqual(read_now(self.host), b"windows\nname 2 -\n")

    def begin_shutting(self, *answers):
        """Send these answers of the host."""
        self.answers, self.host = [b"windows 1\n", *answers], None

    def test_shut(self):
        """The call waits until nothing of the window is left, up to a limit."""
        self.stop_clock()
        self.begin_shutting(b"gone 2\n")
        there = self.patch_of(cli_windows, "is_there", side_effect=[True, False])
        self.assertEqual((shut(self.window), there.call_args), (0, mock.call(self.window, os.getpid())))
        self.assertEqual(read_now(self.host), b"windows\nshut 2\n")
        self.begin_shutting(b"gone 2\n")
        self.patch_of(cli_windows, "is_there", return_value=True)
        with self.assertRaisesRegex(Fault, "^window main:2 did not end$"):
            shut(self.window)
        self.assertAlmostEqual(self.now, 112.0, 1)

    def test_shut_last(self):
        """If it was the last one the host may end before its report; if the window still runs, the missing answer is reported."""
        self.patch_of(cli_windows, "comes", lambda peer, seconds: bool(self.answers) and self.comes(peer, seconds))
        self.patch_of(cli_windows, "is_there", return_value=False)
        self.begin_shutting()
        self.patch_of(Window, "runs", return_value=False)
        self.assertEqual(shut(self.window), 0)
        self.begin_shutting()
        self.patch_of(Window, "runs", return_value=True)
        with self.assertRaisesRegex(Fault, "the pty host does not answer$"):
            shut(self.window)

    def test_there(self):
        """A window exists while its server and its folder do; another's server, of the same number, doesn't count."""
        self.assertTrue(is_there(self.window, os.getpid()))
        self.assertTrue(is_there(self.window, None))
        self.assertFalse(is_there(self.window, os.getpid() + 1))
        os.rename(self.window.folder, self.base / "elsewhere")
        self.assertFalse(is_there(self.window, os.getpid()))

    def test_one_window(self):
        """The host of a session started by hand has one window."""
        self.answers = [b"bad line\n"]
        with self.assertRaisesRegex(Fault, "^session main:2: it was started by hand and has one window$"):
            windows_of(self.window)
        self.answers, self.host, self.window.number = [b"bad line\n"], None, 0
        self.assertEqual(windows_of(self.window), [(1, "")])

    def test_clients(self):
        """Terminals are printed a line each; the host's text is made harmless."""
        self.answers = [b"client 3 a:/dev/pts/1 24 80 2 0 read-write\nclient 4 b\x1b[c 24 80 2 0 read-write\n"
                        b"client 5 b 24 80 2 99999999999999999999 read-only\nclient 6 x\n"
                        b"client 7 b 24 80 2 " + b"9" * 5000 + b" read-write\nclients 4\n"]
        with mock.patch.dict(os.environ, TZ="UTC"):
            time.tzset()
            list_clients(self.window)
        time.tzset()
        lines = self.text.getvalue().splitlines()
        self.assertEqual(lines[0], "  3 a:/dev/pts/1             24 by 80, window 2, since 1970-01-01 00:00")
        self.assertEqual((len(lines), lines[1][:6], lines[1].endswith(" read-only")), (2, "  5 b ", True))

    def test_others(self):
        """All attached terminals are asked to detach, and the ones that stay are reported."""
        one = b"client 3 a:/dev/pts/1 24 80 2 0 read-write\nclients 1\n"
        for last, count in ((b"clients 0\n", 0), (one, 1)):
            self.answers = [one, b"left 3\n", last]
            self.patch_of(cli_windows, "LEAVES", 0.03)
            if count:
                self.answers += [one] * 100
            self.assertEqual(detach_others(self.window), count)
            self.host = None

    def test_titles(self):
        """An invalid name is refused before any request."""
        for name in ("x" * 65, "\u4e2d" * 40, "a\x1b", "\n"):
            with self.assertRaisesRegex(Fault, "at most 64 printable characters and 119 bytes"):
                check_title(name)
        check_title("\u4e2d" * 39)

    def test_gone(self):
        """A host that ends, or isn't there, is reported."""
        asked = WindowsAsked(self.window)
        self.taken(self.listener).close()
        with self.assertRaisesRegex(Fault, "the pty host has ended$"):
            self.patch_of(cli_windows, "comes", lambda peer, seconds: True)
            asked.until("windows")
        self.listener.close()
        with self.assertRaisesRegex(Fault, r"^session main:2: its pty host is not running \("):
            WindowsAsked(self.window)
