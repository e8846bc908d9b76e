"""A front end of a session with windows, with simulated clients and host: the targets of input, and the requests."""
import os
import pathlib
import pty
from unittest import mock

from aids import Case, StillLoop, closed, read_now, record, unled
from emulated import Emulated
from modes_played import acts_of_bytes
from roam_live.common import tty
from roam_live.common.errors import Fault
from roam_live.common.event_loop import comes
from roam_live.config.environment import choose_by_file
from roam_live.config.user_file import OWN, settings_path
from roam_live.frontend import app, command_line, first_painting, window_views
from roam_live.frontend.lists import WINDOWS_LINE
from roam_live.frontend.modes import CopyPasteMode
from roam_live.frontend.windows import BY_HAND, DROPPED, FAR, LATE, LISTS, NOT_AWAITED, NO_ROOM, OPENING, OPENS, SMALL, TAKES_LONG
from roam_live.protocol.panes import Places, Rect
from test_display import PlayedPanes, painting, places
from test_app import AnySession, made_front

LONG = "a text that is long enough to be handed to the pty host"


class PlayedWindow(AnySession):
    """A window of a simulated session, at sockets of its own."""

    def __init__(self, case, all_windows, number):
        folder = case.folder / "w" / str(number)
        folder.mkdir(parents=True)
        super().__init__(folder)
        self.number, self.all, self.status, self.common = number, all_windows, 1, case.folder
        all_windows[number] = self
        self.clients = case.listening(self.terminals)

    def windows(self):
        """Return the running ones."""
        return [one for _, one in sorted(self.all.items())]

    def window(self, number):
        """Return one of them."""
        if number not in self.all:
            raise Fault(f"session main has no window {number}")
        return self.all[number]

    def ending(self):
        """Return the message about its end: status 0 for an intended end."""
        return "[the session has ended]", self.status


class Windows(Case):
    """A front end at the first of two windows, on a terminal of 24 by 80."""

    def setUp(self):
        self.stop_clock()
        self.folder = self.made_folder()
        self.windows, self.clients, self.typed, self.hosts = {}, {}, {}, []
        self.host = self.listening(self.folder / "host")
        self.place = self.add(1)
        self.add(2)
        self.master, slave = pty.openpty()
        tty.set_size(slave, 24, 80)
        kept = os.dup(0), os.dup(1)
        os.dup2(slave, 0), os.dup2(slave, 1)
        self.addCleanup(self.give_back, kept, slave)
        os.set_blocking(self.master, False)
        self.patch_of(first_painting, "woken", return_value=self.pipe()[0])
        self.sent_environment = self.patch_of(app, "environment_lines", return_value=[])
        self.patch_of(window_views, "PanesSubscriber", lambda folder, loop, changed, tells, is_peer: self.played(folder))
        self.loop = StillLoop(lambda: self.now)
        self.front = self.front_of()

    def front_of(self, **more):
        """Return a connected front end with a painting."""
        self.emulated = Emulated(24, 80)
        front = made_front(self.place, more.pop("is_read_only", False), "never", self.loop, **more)
        self.addCleanup(self.close, front)
        front.display.outer.enter()
        self.front = front
        front.connection.connect()
        self.turn()
        return front

    def close(self, front):
        """Close a front end's connections."""
        closed(front.display.outer.end)
        front.host_link.end()
        for view in (front.views.view, *front.views.draining.views.values()):
            view.close(self.loop)

    def add(self, number):
        """Add a window."""
        self.typed[number] = ""
        return PlayedWindow(self, self.windows, number)

    def played(self, folder):
        """Return the simulated pane socket of a window."""
        panes = PlayedPanes(self.windows[int(folder.name)])
        panes.close = lambda: None
        return panes

    def give_back(self, kept, slave):
        """Restore this process's own input and output."""
        for end, number in zip(kept, (0, 1)):
            os.dup2(end, number)
            os.close(end)
        os.close(slave)
        os.close(self.master)

    # ---- simulated peers

    def accepted(self, listener):
        """Return the new connections at a socket."""
        found = []
        while True:
            try:
                found.append(self.taken(listener))
            except BlockingIOError:
                return found

    def turn(self, count=4, paints=True):
        """Take so many turns without waits. A client for each window takes everything and paints requested parts."""
        for _ in range(count):
            self.front.turn()
            for number, window in self.windows.items():
                for client in self.accepted(window.clients):
                    self.clients[client] = number, 0
                    self.send(client, b"\nevents\n")
            self.hosts += self.accepted(self.host)
            for client in list(self.clients) if paints else []:
                self.answer(client)
        self.emulated.fed(read_now(self.master))

    def answer(self, client):
        """Let a client take lines: record the input by window, and paint a part."""
        number, taken = self.clients[client]
        try:
            lines = read_now(client).decode().split("\n")[:-1]
        except OSError:
            del self.clients[client]
            return
        self.clients[client] = number, taken + len(lines)
        for line in lines:
            acts = line.removeprefix("paste ; ").split(" ; ")
            self.typed[number] += "".join(chr(int(act.split()[1], 16)) for act in acts if act.startswith("char "))
            self.typed[number] += "".join(f"<{act}>" for act in acts if act.split()[0] in ("focus", "close", "size"))
            if line.startswith("part "):
                size = tuple(map(int, line.split()[-2:]))
                self.send(client, record("size", *size) + record("anew", data=painting(*size, f"window {number}")))
        self.send(client, record("taken", taken + len(lines)))

    def send(self, peer, data):
        """Send to a peer that may be gone."""
        try:
            peer.send(data)
        except OSError:
            # It is gone.
            self.clients.pop(peer, None)

    def said(self):
        """Return the new lines to the host, except for those about presence."""
        found = [line for peer in self.hosts for line in unled(read_now(peer)).decode().split("\n")[:-1]]
        return [line for line in found if line.split()[0] not in ("here", "who")]

    def tell(self, *lines):
        """Send lines of the host about windows."""
        self.hosts[-1].send("".join(f"0 {line}\n" for line in lines).encode())
        self.turn()

    def tell_list(self):
        """Send the host's list of windows."""
        self.tell(*(f"window {number} -" for number in sorted(self.windows)), f"windows {len(self.windows)}")

    def type(self, text, **more):
        """Type in one piece."""
        os.write(self.master, text)
        # The system passes it to the other end a moment later.
        comes(0, 1)
        self.turn(**more)

    def rows(self):
        """Return the first and the last visible row."""
        lines = self.emulated.lines()
        return lines[0].rstrip(), lines[23].rstrip()


class Switches(Windows):
    """Switches between windows."""

    def test_round(self):
        """Keys after a switch in one read go to the new window, and those before it to the old one, in order. Nothing remains of the old
        window.
        """
        self.type(b"\x022\x021")
        self.turn()
        has = len(self.loop.sources), len(self.loop.before), sorted(self.loop.due)
        self.type(b"ab\x022cd\x021ef\x02lgh\x02pij\x02nkl\x022mn")
        self.turn()
        self.assertEqual((len(self.loop.sources), len(self.loop.before), sorted(self.loop.due)), has)
        self.assertEqual(self.typed, {1: "abefij", 2: "cdghklmn"})
        self.assertEqual((self.front.views.number, self.rows()), (2, ("window 2", "[1] 1- 2*")))

    def test_cut(self):
        """The same holds wherever the input is cut, even inside characters and keys."""
        text = "ä\x022é\x1b[A\x021中\x02nü".encode()
        for cut in range(len(text) + 1):
            self.typed = {1: "", 2: ""}
            self.type(b"\x021")
            for chunk in (text[:cut], text[cut:]):
                self.type(chunk)
            self.assertEqual(self.typed, {1: "ä中", 2: "éü"}, cut)
        self.assertEqual(acts_of_bytes(b"\x1b[A"), ["key up"])

    def test_not_taken(self):
        """Input for a window whose client takes nothing waits, while the other window gets input; nothing is lost."""
        self.type(b"\x022\x021")
        self.type(b"ab\x022cd", paints=False)
        self.type(b"\x021ef\x022gh", paints=False)
        self.assertEqual((self.typed, list(self.front.views.draining.views)), ({1: "", 2: ""}, [1]))
        self.turn()
        self.assertEqual((self.typed, list(self.front.views.draining.views)), ({1: "abef", 2: "cdgh"}, []))

    def test_old_closed(self):
        """The connections to the old window close once its input is taken and the new one is painted."""
        self.type(b"a\x022")
        self.turn()
        there = [number for number, _ in self.clients.values()]
        self.assertEqual((there, list(self.front.host_link.clients), self.front.views.draining.views), ([2], [2], {}))

    def test_lost(self):
        """If the old window's client ends, a new one gets the unsent input; without such input nothing waits."""
        self.type(b"\x022\x021")
        self.type(b"ab\x022", paints=False)
        view = self.front.views.draining.views[1]
        self.front.views.draining.lost(view)
        self.assertEqual((view.link.peer, "connect 1" in self.loop.due), (None, False))
        self.turn()
        self.assertEqual(list(self.front.views.draining.views), [])
        self.type(b"\x021")
        self.type(b"d\x022", paints=False)
        view = self.front.views.draining.views[1]
        view.link.waiting += b"char 63\n"
        self.front.views.draining.lost(view)
        self.assertIn("connect 1", self.loop.due)
        self.front.views.draining.settle()
        self.assertEqual(list(self.front.views.draining.views), [1])
        with mock.patch.object(view.reconnector, "connect", return_value=(0.5, "no client")) as fails:
            self.now += 0.5
            self.turn()
            self.assertEqual((fails.call_count, view.link.peer), (1, None))
        self.now += 0.5
        self.turn(8)
        self.assertEqual((self.typed[1], list(self.front.views.draining.views), self.loop.due.get("connect 1")), ("abdc", [], None))

    def test_there_is_none(self):
        """A missing window is reported, and later input goes to the current one."""
        self.type(b"\x025ab")
        self.assertEqual((self.typed[1], self.rows()[1]), ("ab", "there is no window 5"))
        self.type(b"\x02lcd")
        self.assertEqual((self.typed[1], self.rows()[1]), ("abcd", "there is no last window"))
        self.tell_list()
        self.tell("gone 2")
        for keys in (b"\x02ne", b"\x02pf"):
            self.front.display.row.end_told()
            self.type(keys)
            self.assertEqual(self.rows()[1], "there is no other window")
        self.assertEqual(self.typed[1], "abcdef")

    def test_order(self):
        """C-b n and C-b p cycle through the windows in the order of their numbers."""
        for number in (3, 5):
            self.add(number)
        for keys in (b"\x02na", b"\x02nb", b"\x02nc", b"\x02nd", b"\x02pe", b"\x02pf", b"\x02pg", b"\x02ph"):
            self.type(keys)
        self.assertEqual(self.typed, {1: "dh", 2: "ag", 3: "bf", 5: "ce"})

    def test_not_had(self):
        """If the system refuses a resource for a window, the user stays, and a message gives the reason."""
        self.windows[2].processes["server"] = 1
        with mock.patch.object(window_views, "opened_process", side_effect=Fault("no descriptor is left")):
            self.type(b"a\x022b")
        self.assertEqual((self.front.views.number, self.typed, self.rows()[1]), (1, {1: "ab", 2: ""}, "no descriptor is left"))
        self.assertEqual(self.front.views.draining.views, {})

    def test_not_painted(self):
        """Until a window is painted nothing of it is visible, and a moment later nothing of the previous one."""
        self.type(b"\x022", paints=False)
        self.assertEqual(self.rows(), ("window 1", "[1] 1* 2"))
        self.now += 0.15
        self.turn(paints=False)
        self.assertEqual(self.rows(), ("", "[1] 1- 2*"))
        self.turn()
        self.assertEqual(self.rows(), ("window 2", "[1] 1- 2*"))

    def test_paste(self):
        """A stored paste goes to its own window, and input after a switch doesn't wait for it."""
        self.hosts[0].send(b"0 host 00112233445566aa\n1 others 0\n")
        self.turn()
        self.type(b"a\x1b[200~" + LONG.encode() + b"\x1b[201~b\x022c")
        self.assertEqual(self.typed, {1: "a", 2: "c"})
        name = next(line.split()[1] for line in self.said() if line.startswith("paste"))
        self.hosts[0].send(f"0 stored {name}\n".encode())
        self.turn(6)
        self.assertEqual((self.typed[1], self.typed[2]), (f"a\x9f{name}\x9cb", "c"))

    def test_sizes(self):
        """A window last shown whole follows the terminal once the user is back and alone; one whose size somebody changed stays."""
        for window in self.windows.values():
            window.told = places(24, 80)
        self.add(3).told = places(24, 80)
        self.type(b"\x022\x023\x021")
        self.windows[3].told = places(24, 90)
        tty.set_size(0, 20, 70)
        self.front.resized()
        self.now += 1
        self.turn()
        for number, wanted in ((2, "<size 20 70>"), (3, "")):
            self.type(b"\x02%d" % number)
            for peer in self.hosts:
                self.send(peer, b"0 host 00112233445566aa\n%d others 0\n" % number)
            self.now += 1
            self.turn(8)
            self.assertEqual(self.typed[number], wanted)


class Opened(Windows):
    """A new window."""

    def test_opened(self):
        """Input after the key that opens a window goes to that window."""
        self.tell_list()
        self.said()
        self.type(b"a\x02cbc\x021d\x02le")
        self.assertEqual((self.said(), self.typed[1]), (["open 24 80"], "a"))
        self.add(3)
        self.tell("window 3 -", "opened 3")
        self.turn()
        self.assertEqual((self.typed, self.rows()), ({1: "ad", 2: "", 3: "bce"}, ("window 3", "[1] 1- 2 3*")))

    def test_refused(self):
        """If opening fails, input for the window is dropped, and a printable message gives the reason."""
        self.tell_list()
        self.type(b"a\x02crm x\r")
        self.tell("opened none a session has \x1b[2J99 windows at most")
        self.assertEqual(self.front.display.row.told, "cannot open a window: a session has ?[2J99 windows at most" + DROPPED)
        self.type(b"b")
        self.assertEqual(self.typed, {1: "ab", 2: ""})

    def test_late(self):
        """A stopped host delays input only for a moment, and does not block other windows; a late window is reported."""
        self.tell_list()
        self.type(b"\x02cab")
        self.now += OPENS
        self.turn()
        self.assertEqual((self.front.display.row.told, self.typed[1]), (LATE + DROPPED, ""))
        self.type(b"c\x022d")
        self.assertEqual(self.typed, {1: "c", 2: "d"})
        self.add(3)
        self.tell("window 3 -", "opened 3")
        self.assertEqual((self.front.views.number, self.front.display.row.told), (2, "window 3 is open now"))

    def test_given_up(self):
        """After the report of a delay C-c ends the wait, and later input is typed; before that C-c is for the window too."""
        self.tell_list()
        self.type(b"\x02cab\x03c")
        self.now += TAKES_LONG
        self.turn()
        self.assertEqual((self.front.display.row.told, self.typed[1]), (OPENING, ""))
        self.type(b"\x03d")
        shown = (self.typed[1], self.front.windows.waiting.is_opening, self.front.display.row.told)
        self.assertEqual(shown, ("d", False, NOT_AWAITED + DROPPED))
        self.type(b"\x02c\x03e")
        self.add(3)
        self.tell("window 3 -", "opened 3")
        self.assertEqual(self.typed, {1: "d", 2: "", 3: "\x03e"})

    def test_half_pasted(self):
        """Nothing of a paste begun for it is typed elsewhere, however late its rest is."""
        self.tell_list()
        self.type(b"\x02ca\x1b[200~rm")
        self.now += OPENS
        self.turn()
        self.type(b" -rf x\r")
        self.type(b"y\r\x1b[201~b")
        self.assertEqual((self.typed[1], self.front.display.row.told), ("b", LATE + DROPPED))
        self.type(b"\x02ca\x1b[200~on")
        self.add(3)
        self.tell("window 3 -", "opened 3")
        self.type(b"e\x1b[201~b")
        self.assertEqual(self.typed, {1: "b", 2: "", 3: "aoneb"})

    def test_host_comes(self):
        """A host that isn't connected yet gets the request once it is, and no input for the window goes elsewhere."""
        self.front.windows.link.lost("not there")
        self.turn()
        self.type(b"\x02cab")
        self.assertEqual(self.typed[1], "")
        self.now += 0.2
        self.turn()
        peer = self.hosts[-1]
        self.assertTrue(read_now(peer).endswith(b"1 who\n0 windows\n"))
        self.send(peer, b"0 window 1 -\n0 window 2 -\n0 windows 2\n")
        self.turn()
        self.assertEqual(read_now(peer), b"1 open 24 80\n")
        self.add(3)
        self.send(peer, b"0 window 3 -\n0 opened 3\n")
        self.turn()
        self.assertEqual(self.typed, {1: "", 2: "", 3: "ab"})

    def test_no_room(self):
        """If the request fails, the rest of the same read is dropped, and later input isn't."""
        tty.set_size(0, 3, 80)
        self.front.resized()
        self.type(b"\x02cab")
        self.turn()
        self.assertEqual((self.typed[1], self.front.display.row.told), ("", SMALL + DROPPED))
        self.type(b"c")
        self.assertEqual(self.typed[1], "c")

    def test_host_ends(self):
        """So does the end of the host."""
        self.tell_list()
        self.type(b"\x02cab")
        self.hosts[0].close()
        self.turn()
        self.assertEqual((self.front.windows.waiting.is_opening, self.front.display.row.told.endswith(DROPPED)), (False, True))

    def test_relay_turns(self):
        """The connection of a remote session is cut if its relay changes its transport. The request is repeated until the window is known,
        and the window gets its input.
        """
        self.place.served = "relay"
        self.tell_list()
        self.said()
        self.type(b"\x02cab")
        for wanted in (["open 24 80"], ["windows", "open 24 80"]):
            self.assertEqual([line for line in self.said() if line.split()[0] in ("windows", "open")], wanted)
            self.front.windows.link.lost("cut")
            self.now += 1
            self.turn()
            self.send(self.hosts[-1], b"0 window 1 -\n0 window 2 -\n0 windows 2\n")
            self.turn()
        self.said()
        self.send(self.hosts[-1], b"0 opened 3\n")
        self.turn()
        self.front.windows.link.lost("cut")
        self.now += 0.02
        self.add(3)
        self.turn()
        self.assertEqual((self.typed, self.front.views.number, self.front.windows.waiting.unsaid), ({1: "", 2: "", 3: "ab"}, 3, ""))

    def test_bounded(self):
        """Input beyond the limit for an opening window stays unread."""
        self.tell_list()
        self.type(b"\x02c" + b"x" * 3000)
        self.assertFalse(self.front.views.commands.is_full())
        self.type(b"x" * 2000)
        self.assertTrue(self.front.views.commands.is_full())

    def test_by_hand(self):
        """A session without a window's number is limited to one, with a message."""
        self.place.number = 0
        self.front_of()
        self.type(b"\x02ca")
        self.assertEqual((self.front.display.row.told, self.typed[1]), (BY_HAND, "a"))

    def test_far(self):
        """A session that is no window of several is limited to one, with a message for a remote one; its host gets no request."""
        for served, words in (("server", BY_HAND), ("relay", FAR)):
            self.clients.clear()
            self.hosts.clear()
            self.place.number, self.place.served = 0, served
            self.front_of()
            self.type(b"\x02ca\x022b\x02n\x02&")
            self.assertEqual((self.front.display.row.told, self.rows()[1], self.typed), (words, words, {1: "ab", 2: ""}))
            self.assertNotIn("windows", self.said())
            self.typed[1] = ""

    def test_read_only(self):
        """A read-only user switches windows, but can't change any."""
        self.clients.clear()
        self.hosts.clear()
        self.front_of(is_read_only=True)
        self.tell_list()
        self.said()
        self.type(b"\x02c\x02,\x02&\x022")
        self.assertEqual(([line for line in self.said() if line.split()[0] in ("open", "name", "shut")], self.front.views.number), ([], 2))


class Told(Windows):
    """Events in windows."""

    def test_flags(self):
        """Bells and output are shown until the user visits the window."""
        self.tell_list()
        rings = self.patch_of(self.front.display.outer, "ring")
        self.tell("bell 2 1", "activity 2", "runs 1 vim", "runs 2 sh", "bell 1 1", "bell 2 1", "bell 0 1")
        # The current window rings by its own socket.
        self.assertEqual(rings.call_count, 2)
        self.assertEqual(self.rows()[1], "[1] 1:vim* 2:sh#!")
        self.type(b"\x022")
        self.assertEqual(self.rows()[1], "[1] 1:vim- 2:sh*")

    def test_gone(self):
        """The previous window replaces one that is gone, and gets the input; the last one's end is the session's."""
        self.add(5)
        self.tell_list()
        self.type(b"\x025\x022a")
        del self.windows[2]
        self.tell("gone 2")
        self.type(b"b")
        self.assertEqual((self.front.views.number, self.typed, self.front.display.row.told),
                         (5, {1: "", 2: "a", 5: "b"}, "window 2 is gone"))
        del self.windows[5]
        self.tell("gone 5")
        self.assertEqual(self.front.views.number, 1)
        del self.windows[1]
        self.tell("gone 1")
        self.assertIsNone(self.front.left)
        self.front.server_ended(self.front.views.view)
        self.assertEqual((self.front.left, self.front.status), ("[the session has ended]", 1))

    def test_server(self):
        """So does one whose server ends before the report, but not by one that is about to end too."""
        self.front.server_ended(self.front.views.view)
        self.assertEqual((self.front.views.number, self.front.left), (2, None))
        self.windows[1].status = self.windows[2].status = 0
        self.front.server_ended(self.front.views.view)
        self.assertEqual((self.front.left, self.front.status), ("[the session has ended]", 0))

    def test_pasting(self):
        """A paste during its window's end isn't typed elsewhere."""
        self.tell_list()
        self.type(b"\x022\x1b[200~rm -rf")
        del self.windows[2]
        self.tell("gone 2")
        self.type(b" x\r\x1b[201~y")
        self.assertEqual((self.typed, self.front.display.row.told), ({1: "y", 2: ""}, "not pasted: its window is gone"))
        # So is a paste into a line of copy mode.
        self.add(3)
        self.tell("window 3 -")
        self.type(b"\x023")
        self.front.keyboard.modes.push(CopyPasteMode())
        self.front.keyboard.keys.is_pasting = True
        del self.windows[3]
        self.tell("gone 3")
        self.type(b"rm\r\x1b[201~z")
        self.assertEqual(self.typed, {1: "yz", 2: "", 3: ""})

    def test_question(self):
        """A question stays until it is answered, even if its window goes, and then has no effect on another."""
        self.tell_list()
        self.type(b"\x022")
        self.windows[2].runs_busy = {1: "vi"}
        for keys in (b"\x02x", b"n\x02&"):
            self.type(keys)
            self.assertEqual(self.rows()[1], "close window 2, with vi in pane 1? y closes it")
        del self.windows[2]
        self.tell("gone 2")
        self.said()
        self.type(b"yz")
        self.assertEqual((self.typed[1], self.said()), ("z", ["shut 2"]))

    def test_question_elsewhere(self):
        """A question about a pane is answered for its own window, even while another is shown."""
        self.tell_list()
        self.type(b"\x022")
        self.windows[2].told = Places({1: Rect(1, 1, 23, 39), 2: Rect(1, 41, 23, 40)}, 1, 1)
        self.windows[2].runs_busy = {1: "vi"}
        self.front.views.commands.panes_changed()
        self.type(b"\x02x")
        self.assertEqual(self.rows()[1], "close vi in pane 1? y closes it")
        self.front.windows.go_to(1)
        self.type(b"yz")
        self.assertEqual(self.typed, {1: "z", 2: "<close>"})

    def test_detached(self):
        """Another terminal detaches this one, and this one detaches the others."""
        self.said()
        self.type(b"\x02D")
        self.assertEqual(self.said(), ["leave others"])
        self.hosts[0].send(b"0 left 2\n")
        self.turn()
        self.assertEqual(self.front.display.row.told, "2 other terminals detached")
        self.hosts[0].send(b"0 leave\n")
        self.turn()
        self.assertEqual(self.front.left, "[detached by another terminal]")


    def test_shown(self):
        """A command elsewhere has this terminal show another window; a line about no window does nothing."""
        self.tell_list()
        for line, number in ((b"0 show 2\n", 2), (b"0 show x\n", 2), (b"0 show 0\n", 2), (b"0 show 1\n", 1)):
            self.hosts[0].send(line)
            self.turn()
            self.assertEqual(self.front.windows.here(), number, line)


class Named(Windows):
    """Names, closes, and the list."""

    def test_name(self):
        """The last row asks for a line, with precedence over messages; the input goes nowhere else."""
        self.tell_list()
        self.said()
        self.type("\x02,hé中\x7f\x1b[A文".encode())
        self.tell("bell 2 1")
        self.front.display.row.tell("something")
        self.turn()
        self.assertEqual(self.rows()[1], "(name of window 1) hé文")
        self.type(b"\rz")
        self.assertEqual((self.said(), self.typed[1]), ([f"name 1 {'hé文'.encode().hex()}"], "z"))
        self.tell(f"window 1 {'hé文'.encode().hex()}")
        self.type(b"\x02,\x15\r")
        self.assertEqual(self.said(), ["name 1 -"])
        for leaves in (b"\x1b", b"\x03", b"\x07"):
            self.type(b"\x02,abc")
            self.type(leaves)
            self.now += 0.1
            self.turn()
            self.assertEqual((self.said(), self.front.display.row.prompt), ([], ""))

    def test_pasted_name(self):
        """The first line of a paste is a name; one with escapes is invalid, and the length is limited."""
        self.tell_list()
        self.said()
        for pasted, name in ((b"two\nlines", "two"), (b"a\x1b]0;x\x07b", ""), ("é".encode() * 99, "é" * 59)):
            self.type(b"\x02,\x15\x1b[200~" + pasted + b"\x1b[201~\r")
            self.assertEqual(self.said(), [f"name 1 {name.encode().hex() or '-'}"])

    def test_shut(self):
        """A window with only a shell closes at once; the last one always asks."""
        self.tell_list()
        self.said()
        self.type(b"\x02&")
        self.assertEqual(self.said(), ["shut 1"])
        self.windows[1].runs_busy = None
        self.type(b"\x02&")
        self.assertEqual(self.rows()[1], "close window 1, with its programs? y closes it")
        self.type(b"n")
        self.assertEqual((self.said(), self.rows()[1]), ([], "[1] 1* 2"))
        self.windows[1].runs_busy = {}
        self.tell("gone 2")
        self.type(b"\x02&")
        self.assertEqual(self.rows()[1], "close window 1 and the session, whose last it is? y closes it")
        self.type(b"y")
        self.assertEqual(self.said(), ["shut 1"])

    def test_asked(self):
        """A number may be entered, also by a read-only user."""
        self.add(12)
        for is_read_only in (False, True):
            self.clients.clear()
            self.hosts.clear()
            self.front_of(is_read_only=is_read_only)
            self.tell_list()
            for typed, number in ((b"12\r", 12), (b"7\r", 12), (b"x\r", 12), (b"\r", 12), (b"1\x03", 12), (b"02\r", 2)):
                self.type(b"\x02'" + typed)
                self.assertEqual(self.front.views.number, number, typed)

    def test_list(self):
        """The list shows the programs, and Return or a digit selects a window."""
        self.tell_list()
        self.tell("window 2 6465", "runs 1 sh", "runs 2 vim")
        self.type(b"\x02w")
        self.turn()
        lines = [line.rstrip() for line in self.emulated.lines()]
        self.assertEqual((lines[:3], lines[23]), (["1:sh*", "2:de  vim", ""], WINDOWS_LINE.format(1, 2)))
        self.type(b"jabc")
        self.assertEqual(self.typed[1], "")
        self.type(b"\rx")
        self.assertEqual((self.front.views.number, self.typed), (2, {1: "", 2: "x"}))
        self.type(b"\x02w1y")
        self.assertEqual((self.front.views.number, self.typed[1]), (1, "y"))
        self.type(b"\x02wG")
        self.tell("gone 2")
        self.assertEqual([line.rstrip() for line in self.emulated.lines()][:2], ["1:sh*", ""])
        self.type(b"qz")
        self.assertEqual(self.typed[1], "yz")


    def test_list_awaited(self):
        """Right after a switch the list and its keys wait for the pane positions, but only for a moment; then they are typed."""
        self.tell_list()
        told = self.windows[2].told
        for is_told in (True, False):
            self.windows[2].told = None
            with mock.patch.object(PlayedPanes, "awaited", True):
                self.type(b"\x022\x02wk\r")
                self.type(b"x")
                self.assertEqual((self.front.views.number, self.typed[2], self.front.display.row.told), (2, "", ""))
                self.windows[2].told = told if is_told else None
                self.now += 0 if is_told else LISTS
                self.front.views.commands.panes_changed()
                self.turn()
            self.assertEqual((self.front.views.number, self.typed), (1, {1: "x", 2: ""}) if is_told else (2, {1: "x", 2: "kx"}))
            self.assertEqual((self.front.display.row.told, self.front.windows.waiting.held), ("" if is_told else NO_ROOM, []))


class Pointed(Windows):
    """If roam uses the mouse a label goes to its window."""

    def test_labels(self):
        """A message there covers the labels, and clicks do nothing."""
        self.tell_list()
        for is_on, wanted in ((False, 1), (True, 2)):
            self.front.views.commands.pointing.is_on = is_on
            self.type(b"\x1b[<0;8;24M\x1b[<0;8;24mx")
            self.assertEqual(self.front.views.number, wanted)
        self.assertEqual(self.typed, {1: "x", 2: "x"})
        self.front.display.row.tell("[1] 1- 2*")
        self.type(b"\x1b[<0;5;24My")
        self.front.display.row.end_told()
        self.type(b"\x1b[<0;5;23M\x1b[<0;5;23m")
        self.assertEqual((self.front.views.number, self.typed[2]), (2, "xy"))


class PaneEnvironment(Windows):
    """The environment from an attach."""

    def test_asked(self):
        """It depends on the session, and on a read-only user."""
        self.sent_environment.assert_called_once_with(self.place, False)
        self.front_of(is_read_only=True)
        self.sent_environment.assert_called_with(self.place, True)


class Settings(Windows):
    """A settings file that is read while a user is attached."""

    def setUp(self):
        self.environment(XDG_CONFIG_HOME=str(self.made_folder()), ROAM_PREFIX=None, ROAM_PREDICT=None, ROAM_MOUSE=None)
        self.addCleanup(choose_by_file, {})
        self.patch_of(OWN, "found", None)
        super().setUp()
        self.file = pathlib.Path(settings_path())
        self.file.parent.mkdir()

    def read(self, text):
        """Write this into the file, and read it."""
        self.file.write_text(text, encoding="utf-8")
        self.front.settings.read()
        self.turn()

    def test_read(self):
        """The settings apply at once, with a message that they were read, or about unsupported parts."""
        self.read("set -g prefix C-a\nbind y select-window -t 2\nset -g mouse on\n")
        self.assertEqual((self.front.display.row.told, self.front.views.commands.pointing.is_on), ("roam.conf was read", True))
        self.type(b"\x02a\x01yb")
        self.assertEqual((self.front.views.number, self.typed), (2, {1: "\x02a", 2: "b"}))
        other = self.made_folder() / "other.conf"
        other.write_text("set -g mouse off\nfoo\n", encoding="utf-8")
        self.front.runner.typed(f"source-file {other}")
        self.assertEqual((self.front.display.row.told, self.front.views.commands.pointing.is_on, self.front.settings.prefix),
                         ("other.conf:2: roam does not support foo", False, "C-a"))
        self.read("")
        self.assertEqual((self.front.settings.prefix, self.front.keyboard.modes.keymap.own), ("C-b", {}))

    def test_refused(self):
        """An invalid variable is reported, and the prefix stays."""
        with mock.patch.dict(os.environ, ROAM_PREFIX="nosuch"):
            self.read("set -g mouse on\n")
        self.assertEqual((self.front.settings.prefix, self.front.views.commands.pointing.is_on), ("C-b", False))
        self.assertIn("nosuch", self.front.display.row.told)

    def test_row(self):
        """The last row appears and disappears by it."""
        for text, is_hidden in (("set -g status off", True), ("set -g status off", True), ("set -g status on", False)):
            self.read(f"{text}\n")
            self.assertEqual(self.front.display.part.is_row_hidden, is_hidden)

    def test_runs(self):
        """Its shell commands run as it is read, and keys run all their bound commands."""
        with mock.patch.object(command_line, "ShellRun") as runs:
            runs.return_value.has_ended.return_value = True
            self.read("run-shell 'echo one'\nbind y { run-shell two ; select-window -t 2 }\n")
            self.assertEqual([one.args[1] for one in runs.call_args_list], ["echo one"])
            self.type(b"\x02yx")
            self.assertEqual(([one.args[1] for one in runs.call_args_list], self.typed[2]), (["echo one", "two"], "x"))


class Hidden(Windows):
    """The last row may be hidden."""

    def test_hidden(self):
        """The session has the row then, and a message covers it."""
        self.place.told = places(24, 80)
        self.hosts[0].send(b"0 host 00112233445566aa\n1 others 0\n")
        self.turn()
        self.type(b"\x02t")
        self.assertIn("<size 25 80>", self.typed[1])
        self.place.told = places(25, 80)
        self.front.views.commands.panes_changed()
        self.turn()
        self.assertEqual(self.rows(), ("window 1", "window 1"))
        self.type(b"\x025")
        self.assertEqual(self.rows()[1], "there is no window 5")
        self.now += 3
        self.turn()
        self.assertEqual(self.front.display.row.line(), "")
        self.type(b"\x02t")
        self.assertTrue(self.typed[1].endswith("<size 24 80>"))
