"""The replacement of a pty host by another build: the check, the refusals, the rows that are handed over, and the front ends."""
import contextlib
import io
import os
import subprocess
import sys
import types
from unittest import mock

from aids import Case
from roam_live.cli import upgrade as cli_upgrade
from roam_live.common.build_info import PROTOCOL, identity
from roam_live.common.errors import Fault
from roam_live.common.event_loop import Loop
from roam_live.common.process import TOOLS
from roam_live.common.record import written
from roam_live.host import upgrade
from roam_live.host.handed_rows import handed_in, text_of
from roam_live.host.holder_link import UPGRADED, HolderLink, Kept, memfd_of
from roam_live.host.pane_scrollback import PaneScrollback
from roam_live.host.scrollback_store import RowsRoom
from roam_live.host.state import SessionState
from roam_live.host.upgrade import BuildAnswer, HostUpgrade, folder_of
from roam_live.protocol.host_link import HostLink
from roam_live.session.tools_folder import build_sum


class Checks(Case):
    """The check of a build, and its answer."""

    def check(self, text):
        """Return the status and output of this build's check of a state."""
        known = {**os.environ, "ROAM": "/bin/true"}
        ran = subprocess.run([sys.executable, str(TOOLS / "pane_shells"), "--check"], input=text.encode(), stdout=subprocess.PIPE,
                             stderr=subprocess.DEVNULL, env=known, check=False)
        return ran.returncode, ran.stdout.decode()

    def test_check(self):
        """A build that reads the state prints its protocol, sum, name and program; another state is refused."""
        status, told = self.check(written(SessionState()))
        found = BuildAnswer(told)
        self.assertEqual((status, found.protocol, found.name, found.program), (0, str(PROTOCOL), identity(), "/bin/true"))
        self.assertEqual(found.sum, build_sum(str(TOOLS), "/bin/true"))
        for text in ("", "{}", written(SessionState()).replace('"version": 1', '"version": 2')):
            status, told = self.check(text)
            self.assertEqual((status != 0, told), (True, ""), text[:20])

    def test_answer(self):
        """An answer that lacks a line is none, and one whose sum is no number of eight hexadecimal digits."""
        told = "protocol 1\nsum {}\nname 1\nprogram /bin/true\n"
        self.assertEqual(BuildAnswer(told.format("0123abcd")).sum, "0123abcd")
        for text in (told.format("\x1b]0;x\x07"), told.format("0123abcd 1"), told.format("unknown"), "", "protocol 1\nsum 1\nname 1\n", "protocol\nsum\nname\nprogram\n", "\x00" * 50):
            with self.assertRaises(Fault):
                BuildAnswer(text)

    def test_folder(self):
        """The path of an open folder; a file, or a folder that was removed, is refused."""
        folder = self.made_folder()
        end = os.open(folder, os.O_RDONLY)
        self.addCleanup(os.close, end)
        self.assertEqual(folder_of(end), str(folder.resolve()))
        (folder / "a").write_text("a", encoding="ascii")
        file = os.open(folder / "a", os.O_RDONLY)
        self.addCleanup(os.close, file)
        with self.assertRaises(Fault):
            folder_of(file)
        (folder / "b").mkdir()
        gone = os.open(folder / "b", os.O_RDONLY)
        self.addCleanup(os.close, gone)
        (folder / "b").rmdir()
        with self.assertRaises((Fault, OSError)):
            folder_of(gone)


class Refusals(Case):
    """The requests that a host refuses."""

    def setUp(self):
        self.sent, self.pauses = [], []
        socket = types.SimpleNamespace(send=lambda peer, lines, number: self.sent.extend(lines), peers=[])
        link = types.SimpleNamespace(asked={}, is_there=lambda: True)
        self.is_quiet = True
        rows = types.SimpleNamespace(is_quiet=lambda: self.is_quiet, pause=self.pauses.append)
        common = types.SimpleNamespace(socket=socket, link=link, rows=rows)
        self.windows = types.SimpleNamespace(common=common, loop=Loop(), windows={})
        self.upgrade = HostUpgrade(self.windows)

    def peer(self, lent=-1, is_own=True):
        """Return a simulated peer."""
        return types.SimpleNamespace(lent=lent, is_own=lambda: is_own, upload=None, waiting=b"", answers=0)

    def taken(self, peer):
        """Return the answers to a request, with what is logged."""
        self.sent.clear()
        with contextlib.redirect_stderr(io.StringIO()):
            self.upgrade.take(peer)
        return self.sent

    def test_requests(self):
        """A request without a descriptor, of another user, with a file, or during another one is refused in words."""
        self.assertEqual(self.taken(self.peer()),
                         ["not upgraded no folder of tools was passed; run `mux upgrade` on the session's machine"])
        self.assertEqual(self.taken(self.peer(is_own=False)), ["not upgraded only a process of the session's user may upgrade it"])
        reader, writer = os.pipe()
        self.addCleanup(os.close, writer)
        self.assertTrue(self.taken(self.peer(reader))[0].startswith("not upgraded "))
        with self.assertRaises(OSError):
            os.fstat(reader)
        other = self.upgrade.peer = self.peer()
        self.assertEqual(self.taken(self.peer()), ["not upgraded another upgrade of this session is under way"])
        self.assertIs(self.upgrade.peer, other)
        # The wait of the other one goes on, and panes aren't read meanwhile.
        self.assertEqual(self.pauses, [False] * 3)

    def test_hostile_folder(self):
        """A folder that others may write, or without a host, runs nothing."""
        folder = self.made_folder()
        with mock.patch.object(os, "posix_spawn", side_effect=AssertionError):
            self.assertIn("is no folder of roam's tools", self.taken(self.peer(os.open(folder, os.O_RDONLY)))[0])
            folder.chmod(0o777)
            self.assertIn("can be written by other users", self.taken(self.peer(os.open(folder, os.O_RDONLY)))[0])
        self.assertIsNone(self.upgrade.peer)

    def test_quiet(self):
        """Whatever only this host knows delays the replacement, and is named."""
        self.assertEqual(self.upgrade.under_way(), "")
        queue = types.SimpleNamespace(waits_for_more=lambda: False)
        pane = types.SimpleNamespace(to_terminal=queue, state=types.SimpleNamespace(has_ended=False))
        window = types.SimpleNamespace(stage=upgrade.THERE, host=types.SimpleNamespace(panes={1: pane}, pipes={}))
        self.windows.windows[1] = window
        self.assertEqual(self.upgrade.under_way(), "")
        pane.to_terminal.waits_for_more = lambda: True
        self.assertIn("paste", self.upgrade.under_way())
        pane.to_terminal.waits_for_more = lambda: False
        pane.state.has_ended = True
        self.assertIn("ended", self.upgrade.under_way())
        pane.state.has_ended, window.stage = False, "opening"
        self.assertIn("opened", self.upgrade.under_way())
        window.stage = upgrade.THERE
        peer = self.peer()
        self.windows.common.socket.peers.append(peer)
        peer.upload = object()
        self.assertIn("stored", self.upgrade.under_way())
        peer.upload, peer.waiting, peer.answers = None, b"a", 1
        self.upgrade.until = self.windows.loop.clock() + upgrade.QUIET_SECONDS
        self.assertIn("answer", self.upgrade.under_way())
        self.upgrade.until -= upgrade.READ_SECONDS
        self.assertEqual(self.upgrade.under_way(), "")
        self.upgrade.until += upgrade.READ_SECONDS
        peer.waiting, window.host.pipes = b"", {1: types.SimpleNamespace(waiting=b"a")}
        self.assertIn("pipe-pane", self.upgrade.under_way())
        window.host.pipes, self.is_quiet = {}, False
        self.assertIn("scrollback", self.upgrade.under_way())
        self.is_quiet = True
        self.windows.common.link.is_there = lambda: False
        self.assertIn("holder", self.upgrade.under_way())


class Rows(Case):
    """Rows that one host hands to the next."""

    def test_handed(self):
        """Each pane generation claims its own rows, with their numbers; the rest goes."""
        first = RowsRoom(100)
        one, two = first.pane(11, 4), first.pane(21, 5)
        for count in range(30):
            one.add(1, b"one %d\n" % count)
        one.clear()
        one.add(2, b"a\nb\n")
        two.lose(3)
        two.add(1, b"c\n")
        second = RowsRoom(100)
        second.take_handed(first.written())
        claimed, other = second.pane(11, 4), second.pane(21, 6)
        self.assertEqual((claimed.range().rows(0, 99), claimed.end), ((30, [b"a", b"b"]), 32))
        self.assertEqual(other.range().rows(0, 99), (0, []))
        second.drop_handed()
        self.assertEqual([(rows.pane, rows.generation) for rows in second.panes], [(11, 4), (21, 6)])
        self.assertEqual(second.kept, sum(chunk.charge() for chunk in claimed.chunks))


    def test_process(self):
        """A pane generation gets the terminals that it had, with size and state; those of panes that are gone are named."""
        scrollback = types.SimpleNamespace(process=types.SimpleNamespace(process=71), panes={})
        for number, generation, terminal, lacks in ((11, 4, 3, False), (12, 5, -1, False), (13, 6, 9, True), (14, 7, 10, False)):
            pane = scrollback.panes[number] = PaneScrollback(RowsRoom(10).pane(number, generation), (24, 80))
            pane.terminal, pane.lacks, pane.is_cut, pane.second = terminal, lacks, terminal == 10, terminal + 20 if terminal == 3 else -1
        pipes = list(os.pipe()) + [os.dup(0)]
        for end in pipes:
            self.addCleanup(os.close, end)
        found = handed_in(Kept([*pipes, memfd_of(text_of(scrollback))]))
        self.assertEqual((found.ends(), found.ends(), found.rest()), ((71, pipes), (0, pipes), [3, 23, 10]))
        for number, generation, wanted in ((11, 4, (True, 3, 23, (24, 80), True, False)), (12, 5, (False, -1, -1, (1, 1), True, False)),
                                           (13, 6, (False, -1, -1, (1, 1), True, False)), (14, 8, (False, -1, -1, (1, 1), True, False)),
                                           (14, 7, (True, 10, -1, (24, 80), True, True))):
            pane = PaneScrollback(RowsRoom(10).pane(number, generation), (1, 1))
            is_given = found.give(number, generation, pane)
            self.assertEqual((is_given, pane.terminal, pane.second, pane.size, pane.is_whole, pane.is_cut), wanted, (number, generation))
        self.assertEqual((found.rest(), handed_in(None)), ([], None))


class Tables(Case):
    """The entries that one host hands to the next one in the same process."""

    def test_table(self):
        """Each entry comes with its descriptors, its process and its end, also one that no pane has claimed. The holder isn't asked."""
        first, ends = HolderLink.__new__(HolderLink), [os.dup(0) for _ in range(4)]
        first.own = {"terminal:%1": Kept(ends[:2], 71, "256"), "socket:%1": Kept(ends[2:3])}
        first.left, first.process, first.pair, first.most_files = {"logs:%2": Kept(ends[3:])}, 70, mock.Mock(fileno=lambda: 5), 1024
        handed, inherited = first.handed_over("abc")
        number, word, build, limit, table = handed.split(" ")
        self.assertEqual((number, word, build, limit), ("5", UPGRADED, "abc", "1024"))
        self.assertEqual((inherited[:2], sorted(inherited[2:])), ([5, int(table)], ends))
        for end in ends:
            os.set_inheritable(end, True)
        second = HolderLink.__new__(HolderLink)
        second.left = {}
        second.take_table(int(table))
        found = {name: (kept.process, kept.end, kept.ends) for name, kept in second.left.items()}
        self.assertEqual((second.process, found), (70, {"terminal:%1": (71, "256", ends[:2]), "socket:%1": (0, "runs", ends[2:3]),
                                                        "logs:%2": (0, "runs", ends[3:])}))
        self.assertEqual([os.get_inheritable(end) for end in ends], [False] * 4)
        for end in ends:
            os.close(end)


class FrontEnds(Case):
    """The front end's count of upgrades."""

    def test_count(self):
        """A front end gives way once the session was upgraded since its first report, and not for earlier upgrades."""
        for lines, wanted in ((["host a"], 0), (["host a", "host a"], 0), (["host a 3", "host a 3"], 0), (["host a", "host a 1"], 1),
                              (["host a 1", "host a 2", "host a 2", "host a 3"], 2), (["host a x", "host a 99999999999999999999"], 0)):
            link, calls = HostLink(None, Loop(), lambda: (24, 80), False), []
            link.upgraded = lambda calls=calls: calls.append(1)
            for line in lines:
                link.take(line)
            self.assertEqual((len(calls), link.host_name), (wanted, "a"), lines)


class Askers(Case):
    """The command."""

    def test_refused(self):
        """A session of another machine, or one without a host, is refused in words."""
        session = types.SimpleNamespace(served="relay", common="/none", log="/none/log")
        with self.assertRaisesRegex(Fault, "run `mux upgrade` there"):
            cli_upgrade.upgraded(session)
        session.served = "host"
        with mock.patch.dict(os.environ, ROAM="/bin/true"), self.assertRaisesRegex(Fault, "its pty host cannot be reached"):
            cli_upgrade.upgraded(session)
