"""The cost of an attach, of short commands, of a key and of a painting is at most 1.3 times the usual one.

`bench/budget.py` prints the counts.
"""
import os
import pty
import select
import shutil
import subprocess
import sys
import threading
from unittest import mock

import budgets
from aids import Case, plain_environment, read_now, record
from played_session import LABELLED, PAINTED, PlayedSession
from roam_live.common import tty
from roam_live.common.process import TOOLS
from roam_live.common.unix_socket import connected_now
from roam_live.frontend.windows_client import WindowsState
from roam_live.host import pane, window
from roam_live.input.keys import Key
from roam_live.protocol.window_lines import WINDOW
from roam_live.session import tmp_keepalive
from test_app import Fronts
from test_pty_host import Host

# The number of counted events, and of uncounted ones before them.
EVENTS, BEFORE = 10, 3

# Seconds after an event in which all its effects end.
SETTLES = 0.05

# The number of windows beside the current one.
MANY = 12


class Limited:
    """Comparisons with limits, for a test."""

    def demand(self, name, found):
        """Check that counts are within the limits of their name, and note them."""
        budgets.counts[name] = found
        for count, most in zip(found, budgets.limits(name)):
            self.assertLessEqual(count, most, f"{name}: {found} bytecodes and system calls, and at most {budgets.limits(name)} are allowed")
        return found


class Processes(Limited, Case):
    """Commands of a copy of the tools, with bundles, at a simulated session."""

    def setUp(self):
        self.folder = self.made_folder()
        self.tools = self.folder / "live"
        shutil.copytree(TOOLS, self.tools, ignore=shutil.ignore_patterns("__pycache__"))
        run = self.folder / "run"
        run.mkdir(mode=0o700)
        self.session = PlayedSession(run)
        self.addCleanup(self.session.close)
        self.known = plain_environment(XDG_RUNTIME_DIR=str(run), XDG_CONFIG_HOME=str(self.folder), TERM="xterm", LC_ALL="C.UTF-8")
        # The caches of Python and roam for these sources are written first.
        for words in (["roam_bundle.py"], ["mux", "help", "ls"]):
            subprocess.run([sys.executable, "-S", self.tools / words[0], *words[1:]], env=self.known, stdout=subprocess.DEVNULL,
                           stderr=subprocess.DEVNULL, check=True)

    def terminal(self):
        """Return a terminal of 24 by 80, whose output is read and dropped until the test ends."""
        master, slave = pty.openpty()
        tty.set_size(slave, 24, 80)
        ended = threading.Event()

        def drain():
            while not ended.is_set():
                if select.select([master], [], [], 0.05)[0]:
                    os.read(master, 65536)

        thread = threading.Thread(target=drain, daemon=True)
        thread.start()
        self.addCleanup(lambda: (ended.set(), thread.join(), os.close(master), os.close(slave)))
        return slave

    def run_mux(self, name, words, until=b"", terminal=None):
        """Check the cost of `mux` with these words, until it writes a text."""
        more = self.folder, self.tools / "mux", words, self.known, until, terminal
        self.demand(name, (budgets.bytecodes(*more), budgets.system_calls(*more)))

    def test_painted(self):
        """An attach shows the window soon."""
        self.run_mux("attach, until the window is painted", ["attach", "main"], PAINTED, self.terminal())

    def test_labelled(self):
        """All reports of the session are shown a little later."""
        self.run_mux("attach, until the last row has all reports", ["attach", "main"], LABELLED, self.terminal())

    def test_words(self):
        """Short commands are within their limits."""
        for words in (["ls"], ["help"], ["help", "ls"], ["send", "--help"]):
            self.run_mux(f"mux {' '.join(words)}", words)


class FrontEnd(Limited, Fronts):
    """A key that is typed, taken by the client, and shown; and a painting."""

    def settle(self):
        """Run all timers due soon, without which no turn is taken."""
        self.now += SETTLES
        if any(moment <= self.now for moment, _ in self.front.loop.due.values()):
            self.front.turn()

    def key(self):
        """Type a key, and show it."""
        os.write(self.master, b"a")
        # The system delivers written data a moment later.
        select.select([self.slave], [], [], 5)
        self.front.turn()
        typed = read_now(self.client)
        self.client.send(record("taken", self.front.views.link.lines) + record("paint", data=b"\x1b[5;10Ha\x1b[0m"))
        self.front.turn()
        self.settle()
        select.select([self.master], [], [], 5)
        return typed, self.shown()

    def painting(self):
        """Paint 200 bytes."""
        self.client.send(record("paint", data=b"\x1b[5;1H" + b"x" * 190 + b"\x1b[0m"))
        self.front.turn()
        self.settle()
        select.select([self.master], [], [], 5)
        return self.shown()

    def demand_both(self):
        """Check the cost of a key and of a painting."""
        for name, event in (("front end: a key and its echo", self.key), ("front end: a painting of 200 bytes", self.painting)):
            self.demand(name, budgets.per_event(event, EVENTS, BEFORE))

    def test_costs(self):
        """Both are within their limits, also beside many windows; the terminal's size isn't queried."""
        self.connect()
        self.paints()
        # There is a pty host, as in any session.
        host = self.listening(self.place.folder / "host")
        self.now += 1.0
        self.turn()
        self.taken(host).send(b"0 host a\n0 others 0\n")
        self.key()
        self.assertEqual(self.key(), (b"char 61\n", b"\x1b[5;10Ha\x1b[0m"))
        self.assertEqual(self.painting(), b"\x1b[5;1H" + b"x" * 190 + b"\x1b[0m")
        sizes = self.patch("os.get_terminal_size", side_effect=AssertionError("the terminal was asked for its size"))
        self.demand_both()
        told = WindowsState()
        for number in range(1, MANY + 2):
            told.take(f"{WINDOW} {number} -")
        self.front.windows.told = told
        self.front.display.row.windows = [told.label(number, 1, 2) for number in told.numbers()], 0
        self.demand_both()
        sizes.assert_not_called()

    def test_many_keys(self):
        """Of many keys that arrive at once none is copied for the earlier ones."""
        self.connect()
        self.paints()
        keys = CopiedKeys([Key("x", "x")] * 1000)
        with mock.patch.object(self.front.keyboard.modes.keymap, "joined", lambda keys: keys):
            self.front.keyboard.typed(keys)
        self.assertEqual((keys.copied, self.front.views.link.waiting.count(b"char 78")), (0, 1000))


class CopiedKeys(list):
    """Keys, and the number of copied ones."""

    copied = 0

    def __getitem__(self, place):
        """Return one, or some, and count them."""
        found = super().__getitem__(place)
        self.copied += len(found) if isinstance(place, slice) else 0
        return found


class PtyHost(Limited, Host):
    """A key that is typed into a pane, and its echo; and output."""

    def window(self, number):
        """Add an idle window with three panes."""
        folder = self.folder / f"w{number}"
        folder.mkdir()
        listeners = [self.listening(folder / name) for name in ("panes", "p1", "p2", "p3")]
        asked = pane.Options(folder=str(folder), command=["sh"], window=number, common=str(self.folder), server=os.getpid(), close=True)
        host = window.WindowHost(asked, self.host.common, connected_now(folder / "panes"))
        self.addCleanup(self.leave, host)
        server = self.taken(listeners[0])
        server.send(b"1 1 1 23 26 1\n2 1 28 23 26 2\n3 1 55 23 26 3\nfocus 1\n")
        self.turn()
        self.ends.append([server, *(self.taken(listener) for listener in listeners[1:])])

    def settle(self):
        """Run all timers due soon, without which no turn is taken."""
        self.now += SETTLES
        if any(moment <= self.now for moment, _ in self.host.loop.due.values()):
            self.host.common.turn()

    def key(self):
        """Send a key to the program, and read its echo."""
        self.panes[0].send(b"a")
        self.host.common.turn()
        self.assertEqual(read_now(self.made[0]), b"a")
        self.made[0].send(b"a")
        self.host.common.turn()
        self.assertEqual(read_now(self.panes[0]), b"a")
        self.settle()

    def output(self):
        """Write 200 bytes as the program."""
        self.made[0].send(b"x" * 200)
        self.host.common.turn()
        self.assertEqual(read_now(self.panes[0]), b"x" * 200)
        self.settle()

    def demand_both(self):
        """Check the cost of a key and of output."""
        for name, event in (("pty host: a key and its echo", self.key), ("pty host: 200 bytes of output", self.output)):
            self.demand(name, budgets.per_event(event, EVENTS, BEFORE))

    def begin_many(self):
        """Add many windows."""
        for number in range(2, MANY + 2):
            self.window(number)
        self.turn(5)
        # Otherwise a timer writes the state later.
        self.host.common.kept.write()

    def test_costs(self):
        """They are within their limits, also with twelve windows beside; each turn has one ready end."""
        self.panes, self.ends = self.begin(), []
        self.demand_both()
        self.begin_many()
        self.assertEqual(len(self.host.common.windows()), MANY + 1)
        found = self.host.loop.found
        self.demand_both()
        self.assertEqual(self.host.loop.found - found, 3 * (EVENTS + BEFORE))

    def test_idle(self):
        """In an idle session no timer is due before the check of the folders, with many windows as with one."""
        self.panes, self.ends = self.begin(), []
        self.begin_many()
        for _ in range(40):
            self.now += self.host.loop.wait_time()
            self.turn(1)
            if self.now > 160:
                break
        self.assertEqual([name for name in self.host.loop.due], ["folders"])
        self.assertEqual((self.host.loop.wait_time(), self.host.loop.before, self.host.loop.asked), (tmp_keepalive.LOOKS, [], {}))
