"""A user's front end: its loop on a pseudo-terminal, with a simulated client, and the requests of its keys."""
import os
import pty
import select
import signal
import sys
import termios
from contextlib import suppress
from unittest import mock

from aids import Case, StillLoop, closed, read_now, record
from roam_live.common import tty
from roam_live.common.errors import Fault
from roam_live.common.event_loop import comes
from roam_live.common.process import TOOLS
from roam_live.frontend import app, first_painting, follow, outer_terminal, paste, window_views
from roam_live.frontend.app import FrontEnd
from roam_live.frontend.connection import Connecting
from roam_live.frontend.first_painting import FirstPainting
from roam_live.frontend.modes import ScrollMode
from roam_live.input import mouse_reports
from roam_live.input.extended_keys import QUERY, WANTED, given_back
from roam_live.protocol import client_link
from roam_live.protocol.colours import ASKED
from roam_live.protocol.display_records import DisplayRecord
from roam_live.protocol.host_link import FEW, LAUNCHES
from roam_live.protocol.panes import Places, Rect
from roam_live.session.front_end_lock import has_front_ends
from test_display import Person, PlayedPanes, painting, places

PANES = Places({1: Rect(1, 1, 23, 39), 2: Rect(1, 41, 11, 40), 3: Rect(13, 41, 11, 40)}, 1, 1)


class AnySession:
    """A simulated session."""

    served, name, number = "server", "main", 0

    def __init__(self, folder):
        self.folder = self.common = folder
        self.terminals = folder / "terminals"
        self.processes = {}
        self.told = places(24, 80)
        self.runs_busy, self.is_closed, self.looks, self.is_met, self.foreign = {}, False, 0, False, ()

    def tools_folder(self):
        """Return nothing: this session runs no tools."""
        return ""

    def __str__(self):
        return f"in {self.folder}"

    def read(self):
        """Reload the state."""

    def process(self, role):
        """Return the process of a role."""
        return self.processes.get(role)

    def runs(self, role=None):
        """Return True if it runs."""
        return self.process(role or self.served) is not None

    def is_replaced(self):
        """Return False: nobody else has its folder."""
        return False

    def is_peer(self, name, process):
        """Return True unless another session's process listens there."""
        return name not in self.foreign

    def owns_host(self):
        """Return False: its host runs elsewhere."""
        return False

    def has_met(self):
        """Return True if its process was seen to run."""
        return self.is_met

    def busy(self):
        """Return the programs in the panes."""
        return self.runs_busy

    def is_served(self):
        """Return True if a server is there."""
        self.looks += 1
        return False

    def ending(self):
        """Return the message about its end."""
        return "[the session has ended]", 0

    def close(self):
        """Release it."""
        self.is_closed = True


def made_front(place, is_read_only=False, prediction="adaptive", loop=None, is_whole=False, **more):
    """Return a front end of a session, before it takes the terminal and connects."""
    first = FirstPainting(place, is_read_only, "C-b", prediction, is_whole, loop or StillLoop())
    return FrontEnd(place, is_read_only, "C-b", prediction, lambda places: False, first, **more)


class Fronts(Case):
    """A front end on a pseudo-terminal of 24 by 80."""

    def setUp(self):
        self.stop_clock()
        self.place = AnySession(self.made_folder())
        self.listener = self.listening(self.place.terminals)
        self.master, slave = pty.openpty()
        tty.set_size(slave, 24, 80)
        self.before = termios.tcgetattr(slave)
        kept = os.dup(0), os.dup(1)
        os.dup2(slave, 0), os.dup2(slave, 1)
        self.slave = slave
        self.addCleanup(self.give_back, kept, slave)
        os.set_blocking(self.master, False)
        self.wakeup, self.wakes = self.pipe()
        self.patch_of(first_painting, "woken", return_value=self.wakeup)
        self.quiet = self.patch_of(app, "unwoken")
        self.panes = PlayedPanes(self.place)
        self.patch_of(window_views, "PanesSubscriber", lambda folder, loop, changed, tells, is_peer: self.panes)
        self.front = made_front(self.place)
        self.addCleanup(lambda: closed(self.front.display.outer.end))
        self.addCleanup(lambda: self.front.views.link.close())
        self.addCleanup(lambda: self.front.host_link.end())

    def give_back(self, kept, slave):
        """Restore this process's own input and output."""
        for end, number in zip(kept, (0, 1)):
            os.dup2(end, number)
            os.close(end)
        os.close(slave)
        os.close(self.master)

    def turn(self, count=2):
        """Take so many turns without waits."""
        for _ in range(count):
            self.front.turn()

    def connect(self):
        """Take the terminal, connect, and return the client's end, which has begun to send records."""
        self.front.display.outer.enter()
        self.front.connection.connect()
        self.client = self.taken(self.listener)
        self.turn()
        self.client.send(b"painted before\nevents\n")
        return self.client

    def paints(self, rows=23, cols=80, text="x"):
        """Let the client repaint so many rows and columns."""
        self.client.send(record("size", rows, cols) + record("anew", data=painting(rows, cols, text)))
        self.turn()

    def type(self, text):
        """Type."""
        os.write(self.master, text)
        # The system passes it to the other end a moment later.
        comes(0, 1)
        self.turn()

    def shown(self):
        """Return the output to the terminal."""
        return read_now(self.master)


class Loop(Fronts):
    """Its turns."""

    def test_connected(self):
        """It subscribes to records, sends the prediction setting, requests all but the last row, goes to the newest rows, and shows a
        painting without its reset.
        """
        client = self.connect()
        self.assertEqual(read_now(client), b"events\npredict adaptive\npart 23 80\nview -500\n")
        self.paints(text="hello")
        shown = self.shown()
        self.assertTrue(shown.startswith(QUERY + WANTED + tty.ENTERED) and b"hello" in shown)
        self.assertNotIn(b"painted before", shown)
        self.assertNotIn(b"\x1bc", shown)

    def test_cut(self):
        """The output to the terminal is the same, wherever the stream is cut."""
        text = b"".join((record("size", 23, 80), record("anew", data=painting(23, 80, "\u00e9")), record("part", 0, 0), record("taken", 4),
                         record("silent", 10), record("paint", data=b"\x1b[2;2Hz"), record("heard"), record("screen", data=b"1")))
        shown = []
        client = self.connect()
        self.turn()
        self.shown()
        for cut in range(len(text) + 1):
            self.front.display.begin()
            self.front.views.commands.show_known()
            self.turn()
            self.shown()
            for chunk in (text[:cut], text[cut:]):
                client.send(chunk)
                self.turn()
            shown.append(self.shown())
        self.assertEqual(set(shown), {shown[0]})
        self.assertTrue(b"roam: no answer for 10 s; C-b d leaves" in shown[0] and b"\x1b[2;2Hz" in shown[0])

    def test_typed(self):
        """Input is sent, and so is an escape without a successor in 25 ms."""
        client = self.connect()
        read_now(client)
        self.type(b"ls\r")
        self.assertEqual(read_now(client), b"char 6c ; char 73 ; key return\n")
        self.type(b"\x1b")
        self.assertEqual(read_now(client), b"")
        self.now += 0.024
        self.turn()
        self.assertEqual(read_now(client), b"")
        self.now += 0.001
        self.turn()
        self.assertEqual(read_now(client), b"char 1b\n")
        self.type(b"\x1b")
        self.type(b"[A")
        self.now += 1
        self.turn()
        self.assertEqual(read_now(client), b"key up\n")

    def test_silence(self):
        """The last row reports a silent server, with the key that leaves, until the server is heard."""
        client = self.connect()
        self.paints()
        client.send(record("silent", 10))
        self.turn()
        self.assertIn(b"roam: no answer for 10 s; C-b d leaves", self.shown())
        client.send(record("heard"))
        self.turn()
        self.assertIn(b"\x1b[24;1H\x1b[0;7m[1]   ", self.shown())

    def test_refused(self):
        """A refusal by the client is shown once the next connection is delayed; a full client is shown as such."""
        self.place.processes["client"] = 5
        self.front.views.view.reconnector.retry.faults = 1
        for text, told in ((record("refused", 3, words="bad act"), b"the client process refused a line: bad act"),
                           (b"full\n", b"at most 16 terminals may attach")):
            client = self.connect()
            client.send(text)
            client.close()
            self.turn()
            self.assertIn(told + b"; next try in ", self.shown())

    def test_no_record(self):
        """An invalid record ends the connection, like its end."""
        client = self.connect()
        client.send(b"\x1b]0;title\x07\n")
        self.turn()
        self.assertIsNone(self.front.views.link.peer)
        self.assertNotIn(b"title", self.shown())

    def test_untold(self):
        """If a line says that panes are unreported, the whole session is shown; without such a line that happens ten seconds later."""
        client = self.connect()
        read_now(client)
        self.place.told = None
        self.front.views.maker.untold("where panes are isn't told")
        self.turn()
        self.assertEqual((read_now(client), self.front.display.row.told), (b"whole\n", "where panes are isn't told"))
        self.assertEqual(self.front.loop.due["untold"][0], 110.0)

    def test_nobody_there(self):
        """The view is requested only from a connected client, and from each one anew."""
        self.front.views.commands.show_known()
        self.assertEqual(self.front.views.link.waiting, b"")
        self.assertEqual(read_now(self.connect()), b"events\npredict adaptive\npart 23 80\nview -500\n")

    def test_left(self):
        """A user who detaches sees a message, and the terminal is as before."""
        self.connect()
        self.type(b"\x02d")
        self.assertEqual((self.front.left, self.front.status), ("[detached]", 0))
        with mock.patch.object(self.front.connection, "connect"), mock.patch.object(self.front.views.link, "part") as parts, \
                mock.patch.object(self.front.display.outer, "enter"):
            self.assertEqual(self.front.run(), 0)
        parts.assert_called_once_with(client_link.LAST_WAIT)
        self.assertTrue(self.shown().endswith(tty.LEFT + b"[detached]\r\n"))
        self.assertEqual(termios.tcgetattr(self.slave), self.before)
        self.front.leave("another", 5)
        self.assertEqual((self.front.left, self.front.status), ("[detached]", 0))

    def test_left_behind_a_paste(self):
        """A detach waits while a paste is being stored, for a second and a half at most."""
        self.connect()
        self.front.views.commands.acts.pastes.waiting.append(paste.Paste("text", False))
        self.type(b"\x02d")
        self.assertTrue(self.front.hands_over())
        self.assertEqual(self.front.loop.due["left"][0], self.now + client_link.LAST_WAIT)
        self.now += client_link.LAST_WAIT - 0.1
        self.assertTrue(self.front.hands_over())
        self.now += 0.1
        self.assertFalse(self.front.hands_over())
        self.front.left_at = None
        self.front.views.commands.acts.pastes.waiting.clear()
        self.assertFalse(self.front.hands_over())

    def test_much_behind_a_paste(self):
        """C-c and the prefix are read however much waits after a paste."""
        client = self.connect()
        read_now(client)
        waits = self.front.views.commands.acts.pastes
        for text, lines, left in ((b"x\x03", b"char 3\n", None), (b"x\x02d", b"", "[detached]")):
            waits.wait_for([paste.Paste("text", False), paste.Behind(("char 61",) * paste.MOST_BEHIND)])
            self.type(text)
            self.assertEqual((read_now(client), self.front.left, bool(waits.waiting)), (lines, left, not lines))

    def test_much_in_the_link(self):
        """The same applies if the client hasn't taken that much of a paste; with keys alone reading stops."""
        link = self.front.views.link
        self.connect()
        for chunk, text, reads in ((b"char 61\n", b"x", False), (b"paste ; char 61\n", b"x\x03", True)):
            self.patch_of(client_link, "TYPED_LIMIT", 1000)
            self.front.loop.remove(link)
            link.waiting[:] = chunk * 200
            with mock.patch.object(link, "send", return_value=True):
                self.type(text)
            self.assertEqual(bytes(link.waiting), b"char 3\n" if reads else chunk * 200)

    def test_outage(self):
        """There is an outage while the server is silent, or the pty host is not connected."""
        client = self.connect()
        commands = self.front.views.commands
        self.assertTrue(commands.acts.is_cut())
        self.front.host_link.peer = mock.Mock()
        self.assertFalse(commands.acts.is_cut())
        client.send(record("silent", 10))
        self.turn()
        self.assertTrue(commands.acts.pastes.is_cut())
        client.send(record("heard"))
        self.turn()
        self.assertFalse(commands.acts.pastes.is_cut())
        self.front.host_link.peer = None

    def test_fault(self):
        """An unexpected exception restores the terminal too, from the moment it was taken, but not before the run."""
        self.assertEqual((termios.tcgetattr(self.slave), self.shown()), (self.before, b""))
        for part, name in ((self.front.connection, "connect"), (self.front, "turn")):
            with self.subTest(name), mock.patch.object(part, name, side_effect=RuntimeError), \
                    mock.patch.object(self.front.views.link, "part") as parts:
                self.front.display.outer.enter()
                with self.assertRaises(RuntimeError):
                    self.front.run()
                parts.assert_not_called()
                self.assertTrue(self.shown().endswith(tty.LEFT))
                self.assertEqual(termios.tcgetattr(self.slave), self.before)
                self.assertIsNone(self.front.views.link.peer)

    def test_not_taken(self):
        """A terminal that can't be taken is unchanged."""
        why = "^cannot switch the terminal to raw mode$"
        with mock.patch.object(tty, "make_raw", return_value=None), self.assertRaisesRegex(Fault, why):
            self.front.first.begin()
        self.assertEqual((termios.tcgetattr(self.slave), self.shown()), (self.before, b""))

    def test_colours(self):
        """A new terminal gets the colour queries, but not a read-only one, and no Linux console. The answer goes to the host and isn't
        typed.
        """
        outer = self.front.display.outer
        for is_read_only, is_able, wanted in ((False, True, ASKED), (True, True, b""), (False, False, b"")):
            self.front.views.link.is_read_only, outer.outer_modes.is_able = is_read_only, is_able
            self.front.ask_colours()
            self.assertEqual(bytes(outer.waiting), wanted, (is_read_only, is_able))
            outer.waiting.clear()

    def test_colours_told(self):
        """An answer arrives among the input, also in chunks, and no part of it is typed."""
        client = self.connect()
        client.setblocking(False)
        read_now(client)
        for text in (b"a\x1b]11;rgb:1e/1e/2e\x1b\\b", b"\x1b]10;rgb:ff", b"ff/ffff/ffff\x07c"):
            self.type(text)
        told = self.front.host_link.colours.known
        self.assertEqual(told, {"background": "1e1e/1e1e/2e2e", "foreground": "ffff/ffff/ffff"})
        self.assertEqual([line for line in read_now(client).split(b"\n") if line.startswith(b"char")], [b"char 61 ; char 62", b"char 63"])

    def test_signals(self):
        """SIGTERM, SIGHUP and SIGINT leave, with 128 and their number; a new size is handled."""
        for number, status in ((signal.SIGTERM, 143), (signal.SIGHUP, 129), (signal.SIGINT, 130)):
            self.front.left = None
            os.write(self.wakes, bytes([number]))
            self.turn(1)
            self.assertEqual((self.front.left, self.front.status), ("[terminated]", status))
        self.front.left = None
        self.front.loop.due.clear()
        os.write(self.wakes, bytes([signal.SIGWINCH]))
        self.turn(1)
        self.assertEqual(self.front.loop.due["size"][0], 100.3)
        os.write(self.wakes, bytes([signal.SIGCONT]))
        with mock.patch.object(self.front.display, "enter_again") as enters:
            self.turn(1)
        enters.assert_called_once_with()

    def test_suspended(self):
        """C-b C-z restores the terminal, stops, and takes it again; the related signals have no further effect."""
        self.connect()
        with mock.patch("os.kill") as kills:
            self.type(b"\x02\x1a")
        kills.assert_called_once_with(os.getpid(), signal.SIGTSTP)
        os.write(self.wakes, bytes([signal.SIGTSTP]))
        with mock.patch.object(self.front.display.outer, "suspend", lambda: os.write(self.wakes, bytes([18, 20, 28, 15]))):
            with mock.patch.object(self.front, "resized") as resizes:
                self.turn(1)
        # One that has to leave doesn't take the terminal again.
        self.assertEqual((resizes.call_count, self.front.left), (1, "[terminated]"))
        self.front.left = None
        os.write(self.wakes, bytes([signal.SIGTSTP]))
        with mock.patch.object(self.front.display.outer, "suspend", lambda: os.write(self.wakes, bytes([18, 20, 28]))):
            with mock.patch.object(self.front, "resized") as resizes:
                self.turn(1)
        self.assertEqual((resizes.call_count, self.front.left), (2, None))
        self.front.left = "[terminated]"
        os.write(self.wakes, bytes([signal.SIGTSTP]))
        with mock.patch.object(self.front.display.outer, "suspend") as suspends:
            self.turn(1)
        suspends.assert_not_called()

    def test_stops(self):
        """It stops its group by the signal's default action, and handles it again afterwards."""
        outer = self.front.display.outer
        outer.enter()
        handled = []

        def stop(*words):
            handled.append((words, signal.getsignal(signal.SIGTSTP), termios.tcgetattr(self.slave) == self.before))

        with mock.patch("os.kill", stop):
            before = signal.getsignal(signal.SIGTSTP)
            outer.suspend()
        self.assertEqual(handled, [((0, signal.SIGTSTP), signal.SIG_DFL, True)])
        self.assertEqual(signal.getsignal(signal.SIGTSTP), before)
        self.assertFalse(os.get_blocking(outer.end))
        self.shown()
        outer.enter_again()
        self.assertEqual(outer.waiting, WANTED + tty.ENTERED)
        self.assertFalse(termios.tcgetattr(self.slave)[3] & termios.ICANON)

    def test_lost(self):
        """After a client's end it reconnects in 0.1 s; during a longer pause a message appears, and q leaves."""
        client = self.connect()
        self.paints()
        self.front.session.processes["client"] = None
        client.close()
        self.turn()
        self.assertEqual((self.front.views.link.peer, self.front.loop.due["connect"][0]), (None, 100.1))
        self.listener.close()
        self.now += 0.1
        self.turn()
        self.assertIn(b"no server is in ", self.shown())
        self.assertTrue(self.front.views.commands.acts.paused)
        self.assertEqual(self.front.display.notice, f"no server is in {self.place.folder}; next try in 1 s; C-c or q leaves")
        self.type(b"q")
        self.assertEqual(self.front.left, "[left]")

    def test_back(self):
        """After the reconnection the loss is reported, and everything is repainted."""
        self.place.processes["client"] = 5
        client = self.connect()
        self.paints()
        self.place.processes["client"] = 6
        client.close()
        self.turn()
        self.now += 0.1
        self.turn()
        client = self.taken(self.listener)
        self.assertEqual(self.front.display.row.told, "the client process ended; the last keys may be lost")
        self.assertEqual(self.front.loop.due["told"][0], self.now + 3.0)
        self.shown()
        client.send(b"old\nevents\n")
        self.client = client
        self.paints(text="new")
        shown = self.shown()
        self.assertTrue(b"new" in shown and b"old" not in shown)

    def test_served(self):
        """The end of the server's process is the session's."""
        reader, writer = self.pipe()
        self.place.processes["server"] = 1
        with mock.patch.object(window_views, "opened_process", return_value=reader):
            self.front.views.enter(self.front.views.view, window_views.opened_server(self.place))
        os.close(writer)
        self.turn(1)
        self.assertEqual((self.front.left, self.front.status), ("[the session has ended]", 0))

    def test_hung_up(self):
        """A terminal that is gone is left with status 1."""
        self.front.display.outer.enter()
        with mock.patch.object(app, "read", side_effect=lambda end: b"" if end == 0 else None):
            os.write(self.master, b"x")
            self.turn(1)
        self.assertEqual((self.front.left, self.front.status), ("", 1))
        self.front.left = None
        self.front.display.outer.waiting += b"x"
        with mock.patch.object(outer_terminal, "write", return_value=False):
            self.turn(1)
        self.assertEqual(self.front.left, "")

    def test_ended_before(self):
        """A front end whose server ended before the first look leaves at once, and doesn't wait for a client of nobody."""
        self.place.is_met = True
        front = made_front(self.place)
        self.addCleanup(lambda: (closed(front.display.outer.end), front.views.link.close(), front.host_link.end()))
        front.turn()
        self.assertEqual((front.left, front.status), ("[the session has ended]", 0))
        self.assertTrue(front.has_ended_unmet())

    def test_ended_met(self):
        """A session that ended as intended was met if its host reported something here, or if something was typed."""
        for name, ended, typed, status, wanted in (("", True, False, 0, True), ("", False, False, 0, False), ("1 2", True, False, 0, False),
                                                   ("", True, True, 0, False), ("", True, False, 1, False)):
            with self.subTest(host=name, ended=ended, typed=typed, status=status):
                self.front.host_link.host_name, self.front.status = name, status
                self.front.has_ended, self.front.has_typed = ended, typed
                self.assertEqual(self.front.has_ended_unmet(), wanted)

    def test_probes(self):
        """If the server's process is unknown, a check follows every two seconds."""
        def leave():
            self.now += 2.0
            self.front.loop.do_due()
            self.front.left = ""

        with mock.patch.object(self.front, "turn", leave), mock.patch.object(self.front.views.link, "part"):
            self.front.run()
        self.assertEqual((self.place.looks, self.front.loop.due["probe"][0]), (1, self.now + 2.0))

    def test_host(self):
        """Messages about the shells and notices of the host stay for three seconds; bells of the panes ring."""
        self.connect()
        reader, _ = self.pipe()
        self.place.processes["host"] = 1
        with mock.patch.object(self.place, "revive_host", return_value=True, create=True), \
                mock.patch("roam_live.session.host_watchdog.opened_process", return_value=os.dup(reader)):
            self.front.watchdog.revive()
        said = "the pty host was restarted: the shells are new, and input typed in between was dropped"
        self.assertEqual((self.front.display.row.told, self.front.loop.due["told"][0]), (said, 103.0))
        self.shown()
        self.panes.rings(2)
        self.front.views.view.host.take("say pane 3 isn't shown")
        self.turn()
        self.assertEqual((self.front.display.row.told, self.shown().count(b"\x07")), ("pane 3 isn't shown", 1))

    def test_keypad(self):
        """The keypad follows the focused pane, as soon as that is reported."""
        client = self.connect()
        self.paints()
        self.panes.modes_of[2] = "keypad"
        self.place.told = Places({1: Rect(1, 1, 23, 39), 2: Rect(1, 41, 23, 40)}, 1)
        self.turn()
        client.send(record("paint", data=b"\x1b[1;1Hx"))
        self.turn()
        self.assertNotIn(b"\x1b=", self.shown())
        self.place.told = self.place.told._replace(focus=2)
        self.turn()
        self.assertEqual(self.shown().count(b"\x1b="), 1)
        self.turn()
        self.assertEqual(self.shown(), b"")

    def test_focus_reports(self):
        """Focus reports are requested while the focused program wants them, and go to it alone; they stop at the end."""
        client = self.connect()
        self.paints()
        self.place.told = Places({1: Rect(1, 1, 23, 39), 2: Rect(1, 41, 23, 40)}, 1)
        self.panes.modes_of[2] = "focus"
        self.turn()
        read_now(client)
        self.assertNotIn(b"1004", self.shown())
        self.type(b"\x1b[I")
        self.assertEqual(read_now(client), b"")
        self.place.told = self.place.told._replace(focus=2)
        self.turn()
        self.assertEqual(self.shown().count(b"\x1b[?1004h"), 1)
        self.type(b"\x1b[O")
        self.assertEqual(read_now(client), b"char 1b ; char 5b ; char 4f\n")
        self.front.display.outer.suspend = lambda: None
        self.front.continued()
        self.turn()
        self.assertEqual(self.shown().count(b"\x1b[?1004h"), 1)
        self.panes.modes_of[2] = ""
        self.turn()
        self.assertEqual(self.shown().count(b"\x1b[?1004l"), 1)

    def test_limits(self):
        """While 65,536 bytes wait for the terminal the client's output stays unread."""
        client = self.connect()
        client.send(b"x")
        self.front.display.outer.waiting[:] = bytes(65536)
        with mock.patch.object(outer_terminal, "write", return_value=True):
            with mock.patch.object(self.front.views.link, "read_events") as tells:
                self.turn(1)
                tells.assert_not_called()
            del self.front.display.outer.waiting[0]
            with mock.patch.object(self.front.views.link, "read_events", return_value=[]) as tells:
                self.turn(1)
                tells.assert_called_once_with()
        self.front.display.outer.waiting.clear()
        os.write(self.master, b"x")
        self.front.views.link.waiting[:] = bytes(1 << 24)
        with mock.patch.object(self.front.keyboard, "fed") as feeds, mock.patch.object(self.front.views.link, "send", return_value=True):
            self.turn(1)
            feeds.assert_not_called()
            del self.front.views.link.waiting[0]
            self.turn(1)
            feeds.assert_called_once_with(b"x")
        self.front.views.link.waiting.clear()

    def test_sizes(self):
        """The view follows a new size soon, and the session one that lasts for 0.3 s; a new session follows each."""
        self.front.host_link.faults, self.front.host_link.begun = FEW + 1, self.now - LAUNCHES
        client = self.connect()
        self.paints()
        read_now(client)
        tty.set_size(self.slave, 30, 90)
        self.front.resized()
        self.turn()
        self.assertEqual(read_now(client), b"")
        self.now += 0.05
        self.turn()
        self.assertEqual(read_now(client), b"repaint\n")
        self.now += 0.25
        self.turn()
        self.assertEqual(read_now(client), b"size 30 90\npart 29 90\n")
        self.front.views.commands.follower.new_until = self.now + 1
        tty.set_size(self.slave, 20, 70)
        self.front.resized()
        self.turn()
        self.assertEqual(read_now(client), b"size 20 70\npart 19 70\n")

    def test_unknown_size(self):
        """An unknown session is fitted 0.3 s after its first painting if no host may report the terminals."""
        self.place.told = None
        client = self.connect()
        self.paints(20, 70)
        self.assertEqual(read_now(client), b"events\npredict adaptive\nview -500\n")
        self.now += 0.3
        self.turn()
        self.assertEqual(read_now(client), b"")
        self.front.host_link.faults, self.front.host_link.begun = FEW + 1, self.now - LAUNCHES
        self.now += 0.3
        self.turn()
        self.assertEqual(read_now(client), b"size 24 80\n")

    def test_gone_terminal(self):
        """The last size of a terminal after its hangup is still known."""
        outer = self.front.display.outer
        with mock.patch.object(tty, "size_of", side_effect=OSError(5, "gone")):
            self.assertEqual(outer.size(), (24, 80))

    def test_no_terminal(self):
        with mock.patch("os.isatty", side_effect=[True, False]):
            with self.assertRaisesRegex(Fault, "standard input and output must be a terminal"):
                outer_terminal.OuterTerminal()

    def test_outer(self):
        """Input comes from standard input, whose modes and size count, and output goes to standard output."""
        asks = self.patch("os.isatty", return_value=True)
        with mock.patch.object(tty, "make_raw", return_value=[1]) as raws, mock.patch.object(tty, "size_of") as sizes, \
                mock.patch.object(tty, "opened_for_writing", return_value=9) as opens:
            outer = outer_terminal.OuterTerminal()
            raws.assert_not_called()
            outer.enter()
        self.assertEqual([one.call_args[0] for one in (raws, sizes, opens)], [(0,), (0,), (1,)])
        self.assertEqual((asks.call_args_list, outer.modes, outer.end), ([mock.call(0), mock.call(1)], [1], 9))
        with mock.patch.object(tty, "make_raw") as raws:
            outer.enter_again()
        raws.assert_called_once_with(0)
        with mock.patch.object(tty, "restore") as restores, mock.patch("os.get_blocking", return_value=False), \
                mock.patch.object(outer_terminal, "ready", return_value=True), mock.patch.object(outer_terminal, "write",
                                                                                                 return_value=False):
            outer.leave("")
            outer.leave("")
        restores.assert_called_once_with(0, [1])

    def fill(self):
        """Fill the terminal's input."""
        outer = self.front.display.outer
        for size in (256, 1):
            is_full = False
            while not is_full:
                try:
                    os.write(outer.end, bytes(size))
                except BlockingIOError:
                    # The system moves written data a moment later, and then there is room again.
                    is_full = not select.select([], [outer.end], [], 0.05)[1]

    def test_frozen(self):
        """A terminal that accepts nothing is released after a second. Input is sent before, and the modes are restored. One that accepts
        output meanwhile gets its screen back.
        """
        self.patch_of(outer_terminal, "LEAVES", 0.05)
        for takes in (False, True):
            outer, steps = self.front.display.outer, []

            def part():
                steps.append((bytes(outer.waiting), outer.is_taken))
                return read_now(self.master) if takes else b""

            with mock.patch.object(self.front.connection, "connect", self.fill), mock.patch.object(self.front, "part", part):
                self.front.left = "[terminated]"
                self.front.display.outer.enter()
                self.front.run()
            self.assertEqual(steps, [(given_back(0) + tty.LEFT + b"[terminated]\r\n", True)])
            self.assertEqual((outer.waiting, outer.is_taken, termios.tcgetattr(self.slave)), (b"", False, self.before))
            self.assertEqual(self.shown().endswith(tty.LEFT + b"[terminated]\r\n"), takes)
            self.assertEqual(self.quiet.call_args_list.pop(), mock.call(*first_painting.LEAVING))

    def test_waits(self):
        """Pending output on a blocking terminal goes byte by byte, while the terminal is writable."""
        outer = self.front.display.outer
        outer.enter()
        with mock.patch("os.get_blocking", return_value=True), mock.patch.object(outer_terminal, "write",
                                                                                 wraps=outer_terminal.write) as writes:
            outer.leave("[left]")
        self.assertTrue(self.shown().endswith(tty.LEFT + b"[left]\r\n"))
        self.assertEqual({len(call[0][1]) for call in writes.call_args_list}, {0})
        self.assertGreater(len(writes.call_args_list), len(tty.LEFT))

    def test_steps(self):
        """If one step of the end fails, the other steps still run, and the first exception is reported."""
        steps = []
        for fails in (KeyError, None):
            with mock.patch.object(self.front.views.commands, "left", side_effect=KeyError("left")), \
                    mock.patch.object(self.front, "part", side_effect=ValueError("part")), \
                    mock.patch.object(self.front.connection, "connect", side_effect=None if fails else RuntimeError("first")):
                self.front.left = "[left]"
                self.front.display.outer.enter()
                self.assertRaisesRegex(fails or RuntimeError, "left" if fails else "first", self.front.run)
            self.assertTrue(self.shown().endswith(tty.LEFT + b"[left]\r\n"))
            self.assertEqual(termios.tcgetattr(self.slave), self.before)
            steps.append(self.quiet.call_count)
        self.assertEqual(steps, [1, 2])

    def test_follow(self):
        """A front end keeps the session's folder while it runs, and releases the session."""
        seen = []

        def runs():
            seen.append(has_front_ends(self.place.folder))
            return 5

        self.patch_of(follow, "PAINTS", 0.0)
        with mock.patch.object(app, "FrontEnd") as made:
            made.return_value.run, made.return_value.gives_way = runs, False
            self.environment(ROAM_MOUSE="on", ROAM_CLIPBOARD="off")
            self.assertEqual(follow.follow(self.place, True, "C-a", "never"), 5)
            self.assertEqual(made.call_args[0][:4], (self.place, True, "C-a", "never"))
            self.assertEqual(made.call_args[1], {"has_mouse": True, "has_clips": False})
            first = made.call_args[0][5]
            self.addCleanup(lambda: closed(first.display.outer.end))
            executed = []
            made.return_value.gives_way, made.return_value.views.number = True, 3
            with mock.patch.object(follow.os, "execv", lambda *words: executed.append(words)):
                with self.assertRaisesRegex(Fault, "`mux main` attaches"):
                    follow.execute_anew(self.place, 3, True, "never")
                with mock.patch.object(self.place, "tools_folder", lambda: str(TOOLS)):
                    follow.execute_anew(self.place, 3, True, "never")
                    follow.execute_anew(self.place, 0, False, "always")
            words = [sys.executable, str(TOOLS / "mux")]
            self.assertEqual(executed, [(sys.executable, [*words, "watch", "main:3"]),
                                        (sys.executable, [*words, "attach", "--predict", "always", "main"])])
            self.assertEqual(self.taken(self.listener).recv(999), b"events\nwatch\npart 23 80\n")
            first.leave()
            # Invalid settings are refused before the terminal is taken; otherwise it is restored.
            self.shown()
            self.environment(ROAM_MOUSE="no")
            self.assertRaises(Fault, follow.follow, self.place, True, "C-a", "never")
            self.assertEqual(self.shown(), b"")
            self.environment(ROAM_MOUSE="on")
            made.side_effect = Fault("the session has ended")
            self.assertRaises(Fault, follow.follow, self.place, True, "C-a", "never")
            self.assertTrue(self.shown().endswith(tty.LEFT))
        self.assertEqual((seen, has_front_ends(self.place.folder), self.place.is_closed), ([True], False, True))


class Mouse(Fronts):
    """Reports of the mouse at a terminal."""

    def setUp(self):
        self.environment(TERM="xterm", ROAM_MOUSE=None)
        super().setUp()

    def ask(self, modes):
        """Set modes of the focused program, and return the output to the terminal."""
        self.panes.modes_of = {1: modes}
        self.front.views.commands.panes_changed()
        self.turn()
        return self.shown()

    def test_asked(self):
        """The terminal gets the program's mouse modes, and its reports are typed, wherever they are cut."""
        client = self.connect()
        self.paints()
        self.assertFalse([mode for mode in (b"?1000", b"?1002", b"?1003", b"?1006") if mode in self.shown()])
        self.assertEqual([self.ask(modes) for modes in ("buttons sgr", "drags", "motion sgr", "paste", "")],
                         [mouse_reports.ASKED["drags"], b"", mouse_reports.ASKED["motion"], mouse_reports.OFF, b""])
        self.ask("drags sgr")
        read_now(client)
        for chunk in (b"x\x1b", b"[<0;", b"5;7", b"M\x1b[<0;5;7m"):
            self.type(chunk)
            self.now += 0.02
        text = " ; ".join(f"char {byte:x}" for byte in b"\x1b[<0;5;7")
        self.assertEqual(read_now(client), f"char 78\nfocus 1 ; {text} ; char 4d\nfocus 1 ; {text} ; char 6d\n".encode())

    def test_left(self):
        """However it ends, mouse reports are turned off before the old screen is back."""
        ways = [lambda: self.type(b"\x02d"), lambda: self.front.leave("[the session has ended]"),
                *[lambda number=number: os.write(self.wakes, bytes([number])) for number in (signal.SIGTERM, signal.SIGHUP, signal.SIGINT)]]
        self.patch_of(self.front.views.link, "part")
        for way in [*ways, lambda: self.patch_of(self.front, "turn", side_effect=ValueError)]:
            self.front.left = None
            if self.front.views.link.peer:
                self.front.loop.remove(self.front.views.link)
                self.front.views.link.close()
            self.connect()
            self.assertIn(mouse_reports.ASKED["motion"], self.ask("motion sgr"))
            way()
            with mock.patch.object(self.front.display.outer, "enter"), mock.patch.object(self.front.connection,
                                                                                         "connect"), suppress(ValueError):
                self.front.run()
            self.assertIn(mouse_reports.OFF + given_back(0) + tty.LEFT, self.shown())

    def test_own(self):
        """If roam itself uses the mouse the terminal gets the request as soon as the panes are known."""
        self.front = made_front(self.place, has_mouse=True)
        self.addCleanup(lambda: closed(self.front.display.outer.end))
        self.addCleanup(lambda: self.front.views.link.close())
        self.connect()
        self.assertTrue(self.ask("").endswith(mouse_reports.ASKED["drags"]))

    def test_stopped(self):
        """They are off while it is stopped, and on again afterwards, even if nothing could be written before."""
        self.connect()
        self.ask("drags sgr")
        with mock.patch("os.kill"):
            os.write(self.wakes, bytes([signal.SIGTSTP]))
            self.turn(1)
        shown = self.shown()
        self.assertIn(mouse_reports.OFF + given_back(0) + tty.LEFT, shown)
        self.assertLess(shown.index(given_back(0) + tty.LEFT), shown.index(tty.ENTERED + mouse_reports.ASKED["drags"]))
        os.write(self.wakes, bytes([signal.SIGCONT]))
        self.turn(1)
        self.assertIn(tty.ENTERED + mouse_reports.ASKED["drags"], self.shown())


class Clipboard(Fronts):
    """Texts for the terminal's clipboard."""

    def setUp(self):
        self.environment(TERM="xterm")
        super().setUp()

    def front_of(self, is_read_only=False, has_clips=True):
        """Return a front end with or without clipboard texts, connected and with a painting."""
        self.front = made_front(self.place, is_read_only, has_clips=has_clips)
        self.addCleanup(lambda: closed(self.front.display.outer.end))
        self.addCleanup(lambda: self.front.views.link.close())
        self.connect()
        self.paints()
        self.shown()
        return self.front

    def set(self, text, making="1 1"):
        """Set a text by the focused program, and return the output to the terminal."""
        self.panes.clipped(text, making)
        self.turn()
        return self.shown()

    def test_last_key(self):
        """The clipboard is set if the last key, however typed, went to the focused pane, and not before."""
        self.place.told = PANES
        self.front_of()
        clip = b"\x1b]52;c;YQ==\x07"
        for typed, made in ((b"", b""), (b"y", clip), (b"\x02q2", clip), (b"x", b""), (b"\x02q1y", clip), (b"\x02o", clip),
                            (b"\x1b[A", b""), (b"\x02q1\x1b[200~y\x1b[201~", clip)):
            self.type(typed)
            self.shown()
            self.assertEqual(self.set("YQ=="), made, typed)
        self.assertEqual((self.set("YQ==", "1 2"), self.set("YQ==", "2 1"), self.set("YQ==", "")), (b"", b"", b""))

    def test_pointed(self):
        """A mouse report typed there counts as a key too."""
        self.place.told = PANES
        self.panes.modes_of = {1: "drags sgr"}
        self.front_of()
        self.type(b"\x1b[<0;5;7M")
        self.assertEqual(self.set("YQ=="), b"\x1b]52;c;YQ==\x07")

    def test_chosen(self):
        """By default, and at a read-only terminal, texts aren't requested."""
        for more in ({"has_clips": False}, {"is_read_only": True}):
            self.panes.clipped = None
            self.front_of(**more)
            self.assertIsNone(self.panes.clipped)

    def test_between(self):
        """A text follows all earlier painting, and is completed if the front end ends in the middle."""
        outer = self.front_of().display.outer
        self.type(b"y")
        self.shown()
        clip, written = b"\x1b]52;c;" + b"QUJD" * 32768 + b"\x07", []
        outer.waiting += b"painted"
        self.panes.clipped("QUJD" * 32768, "1 1")
        for _ in range(3):
            self.turn(1)
            outer.waiting += b"behind"
        shown = self.shown()
        self.assertTrue(shown.startswith(b"painted\x1b]52;c;QUJD") and b"behind" not in shown and len(shown) < 131072)
        with mock.patch.object(tty, "restore"), mock.patch("os.set_blocking"), mock.patch.object(outer_terminal, "write") as writes:
            writes.side_effect = lambda end, waiting: (written.append(bytes(waiting)), waiting.clear())
            outer.leave("[detached]")
        self.assertEqual(shown + written[0], b"painted" + clip + given_back(0) + tty.LEFT + b"[detached]\r\n")


class Wishes(Case):
    """The requests of keys to a front end."""

    def setUp(self):
        self.stop_clock()

    def person(self, told=PANES, **more):
        """Return a user at a terminal of 24 by 80, with known panes."""
        person = Person(24, 80, told=told, **more)
        person.answers()
        person.busy = {}
        person.place.busy = lambda: person.busy
        return person

    def test_sides(self):
        """An arrow focuses the pane on that side; nothing if there is none, and the next pane if nothing is known."""
        for key, acts in ((b"C", ["focus 2"]), (b"D", []), (b"A", [])):
            self.assertEqual(self.person().types(b"\x02\x1b[" + key), acts)
        self.assertEqual(self.person(None).types(b"\x02\x1b[C"), ["next"])

    def tell(self, person, places):
        """Report pane positions to a user's front end."""
        person.place.told = places
        person.commands.panes_changed()

    def test_unreported_focus(self):
        """Requests use the focus that this user set until its report comes, however late."""
        person = self.person()
        self.assertEqual(person.types(b"\x02\x1b[C\x02\x1b[B"), ["focus 2", "focus 3"])
        self.now += 9
        self.assertEqual(person.commands.acts.places().focus, 3)
        # The report of a new client says nothing about it.
        self.tell(person, PANES._replace(clients=2))
        self.assertEqual(person.commands.acts.places().focus, 3)
        self.tell(person, PANES._replace(focus=3))
        self.assertEqual((person.commands.acts.moved_to, person.types(b"\x02\x1b[D")), (None, ["focus 1"]))
        # Another user moved the focus.
        self.tell(person, PANES._replace(focus=2))
        self.assertEqual((person.commands.acts.moved_to, person.commands.acts.places().focus), (None, 2))
        self.assertEqual(person.types(b"\x02o"), ["next"])
        self.tell(person, None)
        self.assertEqual((person.commands.acts.moved_to, person.commands.acts.places()), (None, None))

    def test_still(self):
        """An act without effect causes no wait: the focused pane, a missing one, or the next of one."""
        person = self.person()
        self.assertEqual(person.types(b"\x02q1\x02q9"), ["focus 1", "focus 9"])
        self.assertIsNone(person.commands.acts.moved_to)
        alone = self.person(places(24, 80))
        self.assertEqual((alone.types(b"\x02o"), alone.commands.acts.moved_to), (["next"], None))
        self.assertEqual((alone.types(b"\x02%"), alone.commands.acts.moved_to), (["split right"], 0))

    def test_unknown_focus(self):
        """While the focus is unknown an arrow uses the reports, and a close asks."""
        person = self.person()
        self.assertEqual(person.types(b"\x02o\x02\x1b[C"), ["next", "focus 2"])
        person = self.person()
        person.busy = {2: "vi"}
        self.assertEqual(person.types(b"\x02o\x02x"), ["next"])
        self.assertEqual(person.display.row.prompt, "close the program in this pane? y closes it")
        self.tell(person, PANES._replace(focus=3))
        self.assertEqual(person.types(b"n\x02x"), ["close"])

    def test_split(self):
        person = self.person()
        self.assertEqual(person.types(b'\x02%\x02"'), ["split right", "split down"])
        small = self.person(Places({1: Rect(1, 1, 4, 8)}, 1, 1))
        small.display.row.told = ""
        self.assertEqual((small.types(b"\x02%"), small.display.row.told), ([], "pane 1 is too small to split: 4 by 8"))

    def test_close(self):
        """A pane with a shell closes at once; one with another program only after a confirmation."""
        self.assertEqual(self.person().types(b"\x02x"), ["close"])
        person = self.person()
        person.busy = {1: "vi", 2: "less"}
        self.assertEqual((person.types(b"\x02x"), person.display.row.prompt), ([], "close vi in pane 1? y closes it"))
        self.assertNotIn("told", person.loop.due)
        self.assertEqual((person.types(b"y"), person.display.row.prompt), (["close"], ""))
        person = self.person()
        person.busy = {1: "vi"}
        self.assertEqual((person.types(b"\x02xn"), person.display.row.prompt), ([], ""))
        person = self.person()
        person.busy = {2: "vi"}
        self.assertEqual(person.types(b"\x02x"), ["close"])

    def test_close_unknown(self):
        """If the programs are unknown it asks."""
        person = self.person()
        person.busy = None
        self.assertEqual((person.types(b"\x02x"), person.display.row.prompt), ([], "close the program in pane 1? y closes it"))
        person = self.person(None)
        person.busy = None
        self.assertEqual((person.types(b"\x02x"), person.display.row.prompt), ([], "close the program in this pane? y closes it"))

    def test_close_last(self):
        person = self.person(places(24, 80))
        self.assertEqual((person.types(b"\x02x"), person.display.row.told),
                         ([], "the last pane ends with its shell, and the session with it"))

    def test_scroll(self):
        """The scroll mode is shown until it ends."""
        person = self.person()
        self.assertEqual(person.types(b"\x02[kk"), ["view 1", "view 1"])
        self.assertEqual(person.display.row.told, "2 rows back: PgUp PgDn up down g G scroll, q ends it")
        self.assertNotIn("told", person.loop.due)
        self.assertEqual((person.types(b"q"), person.display.row.told), (["view -500"], ""))
        person.types(b"\x02[")
        person.commands.left()
        self.assertEqual(person.link.acts[-1], "view -500")

    def test_scroll_page(self):
        """A page is half of the terminal's rows, also after a resize, and after the wheel began to scroll."""
        person = self.person()
        self.assertEqual(person.types(b"\x02[\x1b[5~"), ["view 12"])
        person.resize(40, 80)
        self.assertEqual(person.types(b"\x1b[5~q"), ["view 20", "view -500"])
        person.commands.acts.scroll(1, 3)
        self.assertEqual(person.types(b"\x1b[6~")[-1], "view -20")

    def test_others(self):
        """All others detach, as the host reports; a late or missing host is reported."""
        person = self.person()
        stays = "cannot detach the others: the pty host does not answer"
        self.assertEqual((person.types(b"\x02D"), person.display.row.told), ([], stays))
        person.display.row.end_told()
        person.host.peer, person.host.ask = object(), mock.Mock()
        person.types(b"\x02D")
        person.host.ask.assert_called_once_with("leave others")
        self.assertEqual(person.display.row.told, "")
        self.now += 2.0
        person.loop.turn()
        self.assertEqual(person.display.row.told, stays)
        for count, told in (("1", "1 other terminal detached"), ("3", "3 other terminals detached"), ("?", stays)):
            person.types(b"\x02D")
            person.keyboard.others_left(count)
            self.assertEqual((person.display.row.told, "others leave" in person.loop.due), (told, False))

    def test_told_for(self):
        """Each message has its own duration: longer for new information than for known facts."""
        one = Places({1: Rect(1, 1, 23, 80)}, 1)
        for places, text, told, seconds in (
                (PANES, b"\x02Z", "C-b Z is not bound; C-b ? lists the keys", 1.0),
                (PANES, b"\x02;", "no other pane was active before", 1.0),
                (PANES, b"\x02m", "roam has the mouse: click, wheel, drag; C-b m gives it back", 3.0),
                (PANES, b"\x02m\x02m", "the mouse selects text, except in programs that use it", 3.0),
                (PANES, b"\x02q", f"{PANES.labels()}: press a pane's number", 3.0),
                (one, b"\x02z", "pane 1 is the only one, and fills the session", 3.0),
                (None, b"\x02z", "cannot zoom: the server does not report its panes", 3.0), (PANES, b"\x02]", "there are no buffers", 2.0),
                (one, b"\x02 ", "space is divided evenly", 1.0),
                (one, b"\x02\x1b[1;5C", "pane 1 has no border on its left or right", 1.0),
                (PANES, b"\x02D", "cannot detach the others: the pty host does not answer", 2.0)):
            person = self.person(places)
            person.types(text)
            self.assertEqual((person.display.row.told, person.loop.due["told"][0]), (told, self.now + seconds), text)

    def test_unknown(self):
        person = self.person()
        person.types(b"\x02Z")
        self.assertEqual((person.display.row.told, person.loop.due["told"][0]), ("C-b Z is not bound; C-b ? lists the keys", 101.0))

    def test_interrupts(self):
        """C-c drops waiting pastes, also if the program gets it in another form; not if it isn't typed."""
        for text, modes, count in ((b"\x03", "", 1), (b"\x1b[27;5;99~", "keys2", 1), (b"\x1b[27;5;99~", "", 1), (b"\x02[\x03", "", 0)):
            person = self.person()
            person.panes.modes_of = {1: modes}
            with mock.patch.object(person.commands.acts.pastes, "interrupt") as interrupts:
                acts = person.types(text)
            self.assertEqual((interrupts.call_count > 0, "char 3" in acts), (bool(count), bool(count) and not modes), text)

    def test_unknown_meta(self):
        """After the prefix an escape and the key right after it are one with Meta. Nothing of an unbound key is typed, whether it arrives
        at once or in chunks within the escape time. A paste is no such key.
        """
        person = self.person()
        for chunks, name in (((b"\x02\x1b1",), "M-1"), ((b"\x02", b"\x1bn"), "M-n"), ((b"\x02\x1b", b"o"), "M-o"),
                             ((b"\x02", b"\x1b", b"5"), "M-5"), ((b"\x02\x1b[1;3A",), "M-Up"), ((b"\x02\x1b\x1b[A",), "M-Up"),
                             ((b"\x02\x1b\x01",), "C-M-a"), ((b"\x02\x1b\x02",), "C-M-b"), ((b"\x02\x1b[27;3;49~",), "M-1")):
            for chunk in chunks:
                self.now += 0.02
                person.types(chunk)
            self.assertEqual((person.link.acts, person.display.row.told), ([], f"C-b {name} is not bound; C-b ? lists the keys"), chunks)
        person.types(b"\x02\x1b")
        self.now += 0.03
        person.loop.do_due()
        self.assertEqual((person.link.acts, person.display.row.told), ([], "C-b Escape is not bound; C-b ? lists the keys"))
        person.types(b"1\x02x\x1b2")
        self.assertEqual(person.link.acts[0], "char 31")
        person.types(b"n\x02\x1b\x1b[200~x\x1b[201~y")
        self.assertEqual(person.link.acts[-1], "char 79")

    def test_read_only(self):
        """A read-only user types nothing, but may leave, repaint and see the help; without scrollback the shared view stays."""
        person = self.person(is_read_only=True)
        self.assertEqual(person.types(b"ls\r\x02%\x02x\x02o\x02q1\x02\x1b[C\x02r"), [])
        self.assertEqual(person.display.row.told, "")
        self.assertEqual(person.types(b"\x02[\x02]\x02="), [])
        self.assertEqual((person.display.row.told, person.modes.has(ScrollMode)), ("this pane has no stored rows", False))
        person.types(b"\x02?")
        self.assertTrue(person.display.notice)
        person.types(b"\x02d")
        self.assertEqual(person.left, "[detached]")

    def test_bell(self):
        """A bell rings, and one in an unfocused pane is reported unless there is another message."""
        person = self.person()
        before = person.display.outer.waiting.count(b"\x07")
        person.commands.panes.ring(1)
        self.assertEqual((person.display.row.told, person.display.outer.waiting.count(b"\x07") - before), ("", 1))
        person.commands.panes.ring(2)
        self.assertEqual(person.display.row.told, "bell in pane 2")
        person.commands.panes.ring(3)
        self.assertEqual(person.display.row.told, "bell in pane 2")

    def test_fits_told(self):
        person = self.person()
        person.commands.follower.fit()
        self.assertEqual(person.link.acts, [])
        self.assertEqual(person.types(b"\x02r"), ["size 24 80"])
        self.assertEqual(person.said(), ["repaint"])

    def test_new(self):
        """A new session takes its terminal's size for two seconds."""
        person = Person(24, 80, is_new=True)
        self.assertEqual(person.commands.follower.new_until, 102.0)
        self.assertTrue(person.commands.follower.is_fresh())
        self.now = 102.0
        self.assertFalse(person.commands.follower.is_fresh())


class Painted(Case):
    """Paintings, and the lines between them."""

    def setUp(self):
        self.stop_clock()

    def person(self):
        """Return a user at a terminal of 5 by 20, before any painting."""
        person = Person(5, 20, told=places(5, 20))
        person.said()
        person.display.outer.waiting.clear()
        return person

    def test_written(self):
        """The terminal gets the whole painting, except for its reset."""
        person = self.person()
        text = painting(4, 20, "\u00e9")
        person.display.take(DisplayRecord("size", (4, 20)))
        person.display.take(DisplayRecord("anew", (len(text),), text))
        written = bytes(person.display.outer.waiting)
        self.assertTrue(written.startswith(text.replace(b"\x1bc", tty.CLEARED)))
        self.assertEqual(written[len(text) - 2 + len(tty.CLEARED) :],
                         b"\x1b7\x1b[?7l\x1b[5;1H\x1b[0;7m" + b"[1]".ljust(20) + b"\x1b[0m\x1b[?7h\x1b8")
        person.display.outer.waiting.clear()
        for text in (painting(4, 20, "z"), b"\x1b", b"\x1b[", b"\xc3"):
            person.display.take(DisplayRecord("paint", (len(text),), text))
            self.assertEqual(person.display.outer.waiting, text)
            person.display.outer.waiting.clear()

    def test_told_beside(self):
        """A line in the last row, a bell and the keypad's codes come between whole paintings."""
        person = self.person()
        person.paints(4, 20)
        person.display.outer.waiting.clear()
        person.display.row.tell("hello")
        person.display.outer.ring()
        person.display.outer.set_keypad(True)
        person.display.outer.set_keypad(True)
        line = b"\x1b7\x1b[?7l\x1b[5;1H\x1b[0;7m" + b"hello".ljust(20) + b"\x1b[0m\x1b[?7h\x1b8"
        self.assertEqual(person.display.outer.waiting, line + b"\x07\x1b=")
        person.display.show("help")
        person.display.outer.ring()
        self.assertTrue(person.display.outer.waiting.endswith(b"\x07"))

    def test_told(self):
        """A message stays for a second, then the panes' labels return; one without a duration stays until it is removed."""
        person = self.person()
        person.paints(4, 20)
        person.display.row.tell("one")
        self.assertEqual(person.loop.due["told"][0], 101.0)
        person.display.row.tell("two", None)
        self.assertNotIn("told", person.loop.due)
        self.assertEqual(person.shown()[4], "two")
        person.display.row.end_told()
        person.display.row.end_told()
        self.assertEqual((person.display.row.told, person.said(), person.shown()[4]), ("", [], "[1]"))

    def test_told_whole(self):
        """Over a session shown whole a message has the session's width; if nothing is known it is in the terminal's last row. Afterwards
        everything is repainted.
        """
        person = Person(10, 30)
        person.display.outer.waiting.clear()
        person.display.row.tell("x" * 40)
        self.assertIn(b"\x1b[10;1H\x1b[0;7m" + b"x" * 30 + b"\x1b[0m", person.display.outer.waiting)
        person.paints(6, 20)
        person.display.outer.waiting.clear()
        person.display.row.tell("ab")
        self.assertIn(b"\x1b[6;1H\x1b[0;7m" + b"ab".ljust(20) + b"\x1b[0m", person.display.outer.waiting)
        person.display.row.end_told()
        self.assertEqual(person.said(), ["repaint"])

    def test_shown(self):
        """Lines in place of the session are cut to the terminal, with a free column at the right."""
        person = self.person()
        person.display.show("one two three four five six\n" * 4)
        self.assertEqual(person.shown(), ["one two three four", "five six"] * 2 + ["one two three four"])

    def test_resized(self):
        """A notice is shown again at a new size. Without one, everything is repainted soon after."""
        person = self.person()
        person.paints(4, 20)
        person.display.show("help")
        person.display.outer.waiting.clear()
        person.display.resized()
        self.assertIn(b"help", person.display.outer.waiting)
        self.assertEqual(person.loop.due["paint"][0], 100.05)
        person.display.notice = ""
        self.now += 0.05
        person.loop.do_due()
        self.assertEqual((person.said(), person.display.part.is_stale), (["repaint"], True))

    def test_repainted(self):
        """A session with a request for another part at a new size gets no extra repaint request."""
        person = self.person()
        person.paints(4, 20)
        person.display.outer.rows = 4
        person.display.resized()
        self.now += 0.05
        person.loop.do_due()
        self.assertEqual(person.said(), ["part 3 20"])

    def test_entered_again(self):
        """After another process used the terminal everything is repainted, and nothing before that is written."""
        person = self.person()
        person.display.outer.enter_again = mock.Mock()
        person.paints(4, 20)
        person.display.enter_again()
        person.display.resized()
        person.display.outer.enter_again.assert_called_once_with()
        before = len(person.display.outer.waiting)
        person.display.take(DisplayRecord("paint", (1,), b"x"))
        self.now += 0.05
        person.loop.do_due()
        self.assertEqual((person.said(), len(person.display.outer.waiting)), (["repaint"], before))

    def test_given(self):
        """A session has two and a half seconds to take a size; then a message says that its panes do not fit."""
        person = self.person()
        person.place.told = places(6, 20)
        person.commands.panes_changed()
        person.types(b"\x02r")
        self.assertEqual((person.commands.size.requested, person.loop.due["requested size"][0]), ((5, 20), 102.5))
        self.now = 102.5
        person.loop.do_due()
        self.assertEqual((person.display.row.told, person.commands.size.requested), ("5 by 20 is too small for its panes", None))
        self.assertFalse(person.display.part.shows_all())


class Gone(Case):
    """A window whose folder is gone before the report."""

    def test_left(self):
        """Another window replaces it, without a reconnection; without another one it is retried."""
        views, leaves = mock.Mock(number=2), mock.Mock()
        views.view.reconnector.connect.return_value, views.view.number = (8.0, "no server"), 2
        views.view.session.folder = str(self.made_folder() / "2")
        connection = Connecting(views, leaves)
        for is_left in (True, False):
            leaves.return_value = is_left
            views.loop.later.reset_mock()
            connection.connect()
            self.assertEqual((leaves.call_args.args, views.loop.later.called), ((2,), not is_left))
        views.view.session.folder = str(self.made_folder())
        self.assertFalse(connection.is_window_gone())
