"""The loop of the tools: ends that are added and removed, timers with a manual clock, and connections at a socket."""
import errno
import os
import socket
import tempfile
from unittest import mock

from aids import Case, StillLoop, read_now
from roam_live.common.event_loop import READ, WRITE, Loop, comes, is_taken, ready
from roam_live.common.unix_socket import DEAF, Listener


class Ends(Case):
    """Ends that are readable, or writable."""

    def setUp(self):
        self.loop, self.done = StillLoop(), []

    def named(self, name):
        """Return a call that records its name."""
        return lambda: self.done.append(name)

    def turn(self):
        """Return the calls of a turn."""
        self.loop.turn()
        done = list(self.done)
        self.done.clear()
        return done

    def test_read(self):
        """An end is read while it is readable and wanted, in the order of the ends."""
        (one, other), (two, there) = self.pair(), self.pair()
        wanted = []
        self.loop.add(two, self.named("two"), hears=lambda: wanted)
        self.loop.add(one, self.named("one"))
        self.assertEqual(self.turn(), [])
        for end in (other, there):
            end.send(b"x")
        self.assertEqual(self.turn(), ["one"])
        wanted.append(True)
        self.assertEqual(self.turn(), ["two", "one"])
        read_now(two)
        self.assertEqual(self.turn(), ["one"])
        self.loop.remove(one)
        self.assertEqual(self.turn(), [])

    def test_written(self):
        """An end is written while there is more, and read first."""
        one, other = self.pair()
        waiting = bytearray()
        self.loop.add(one, self.named("read"), self.named("written"), has_more=lambda: waiting)
        self.assertEqual(self.turn(), [])
        waiting += b"x"
        self.assertEqual(self.turn(), ["written"])
        other.send(b"x")
        self.assertEqual(self.turn(), ["read", "written"])
        waiting.clear()
        self.assertEqual(self.turn(), ["read"])

    def test_unwanted(self):
        """An unwanted event ends no wait: bytes at an end that is only written."""
        one, other = self.pair()
        self.loop.add(one, self.named("read"), self.named("written"), hears=lambda: False, has_more=lambda: True)
        while ready(one, WRITE, 0):
            one.send(bytes(65536))
        other.send(b"x")
        self.assertEqual((self.turn(), self.loop.found), ([], 0))

    def test_gone(self):
        """A callback may remove another end, or its own; then nothing more is called there."""
        (one, other), (two, there) = self.pair(), self.pair()
        for end in (other, there):
            end.send(b"x")

        def let_go():
            self.done.append("one")
            for end in (one, two):
                self.loop.remove(end)
                end.close()

        self.loop.add(one, let_go, self.named("written"))
        self.loop.add(two, self.named("two"))
        self.assertEqual(self.turn(), ["one"])
        self.assertEqual((self.turn(), self.loop.sources), ([], {}))
        self.loop.remove(5)

    def test_another(self):
        """A new end with the number of one removed in this turn is another one."""
        (one, other), (two, there) = self.pair(), self.pair()
        for end in (other, there):
            end.send(b"x")

        def change():
            number = two.fileno()
            self.loop.remove(two)
            two.close()
            made = os.dup(other.fileno())
            self.addCleanup(os.close, made)
            self.assertEqual(made, number)
            self.loop.add(made, self.named("another"))

        self.loop.add(one, change)
        self.loop.add(two, self.named("two"))
        self.assertEqual(self.turn(), [])
        self.loop.remove(one)
        one.send(b"y")
        self.assertEqual(self.turn(), ["another"])

    def test_ended(self):
        """An end whose other end is gone is readable."""
        one, other = self.pair()
        self.loop.add(one, self.named("one"))
        self.assertEqual(self.turn(), [])
        other.close()
        self.assertEqual(self.turn(), ["one"])
        reader, writer = os.pipe()
        os.close(writer)
        self.loop.add(reader, self.named("pipe"))
        self.assertEqual(self.turn(), ["one", "pipe"])
        self.loop.remove(reader)
        os.close(reader)
        self.assertEqual(self.turn(), ["one"])

    def test_lowered(self):
        """It continues if the limit of descriptors falls below the existing ones."""
        import resource

        one, other = self.pair()
        before = resource.getrlimit(resource.RLIMIT_NOFILE)
        self.loop.add(one, self.named("one"))
        self.loop.add(other, self.named("other"))
        other.send(b"x")
        resource.setrlimit(resource.RLIMIT_NOFILE, (1, before[1]))
        try:
            self.assertEqual(self.turn(), ["one"])
        finally:
            resource.setrlimit(resource.RLIMIT_NOFILE, before)

    def test_files(self):
        """Any file can be waited for: one that is no stream is always ready."""
        with tempfile.TemporaryFile() as file, open(os.devnull, "rb") as nothing:
            self.loop.add(file, self.named("file"))
            self.loop.add(nothing.fileno(), self.named("nothing"))
            self.assertEqual(self.turn(), ["file", "nothing"])

    def test_moments_between(self):
        """Arrived data is handled before due timers."""
        one, other = self.pair()
        self.loop.add(one, self.named("one"))
        self.loop.later("moment", 0, self.named("moment"))
        other.send(b"x")
        self.assertEqual(self.turn(), ["one", "moment"])

    def test_waits(self):
        """It waits until a timer is due, and never longer than until data arrives."""
        one, other = self.pair()
        loop = Loop()
        loop.add(one, self.named("one"))
        loop.later("moment", 0.02, self.named("moment"))
        loop.turn()
        self.assertEqual(self.done, ["moment"])
        other.send(b"x")
        loop.later("moment", 60, self.named("moment"))
        loop.turn()
        self.assertEqual(self.done, ["moment", "one"])

    def test_once(self):
        """Return True if one end becomes readable or writable within some seconds."""
        one, other = self.pair()
        self.assertEqual((comes(one, 0), comes(one.fileno(), -1), is_taken(one, 0)), (False, False, True))
        self.assertEqual(ready(one, READ | WRITE, 0), WRITE)
        other.send(b"x")
        self.assertEqual((comes(one, 60), ready(one, READ, 60), ready(one, READ | WRITE, 60)), (True, READ, READ | WRITE))
        while ready(other, WRITE, 0):
            other.send(bytes(65536))
        self.assertFalse(is_taken(other, 0.01))



class Told(Case):
    """An end whose owner reports changes of its wishes."""

    def setUp(self):
        self.loop, self.done, self.asked = StillLoop(), [], []
        self.one, self.other = self.pair()

    def turn(self):
        """Return the calls of a turn."""
        self.loop.turn()
        done = list(self.done)
        self.done.clear()
        return done

    def test_changed(self):
        """Its wishes are checked when it is added, after a callback of it, and after its owner reports a change, but never otherwise."""
        waiting = bytearray()
        self.loop.add(self.one, lambda: self.done.append(self.one.recv(9)), lambda: self.done.append(b"written"),
                      has_more=lambda: self.asked.append(1) or waiting, is_told=True)
        self.loop.turns(3)
        self.assertEqual(len(self.asked), 1)
        waiting += b"x"
        self.assertEqual(self.turn(), [])
        self.loop.changed(self.one)
        self.assertEqual(self.turn(), [b"written"])
        waiting.clear()
        self.loop.changed(self.one)
        self.assertEqual((self.turn(), len(self.asked)), ([], 3))
        self.other.send(b"y")
        self.assertEqual(self.turn(), [b"y"])
        self.loop.turns(3)
        self.assertEqual(len(self.asked), 4)
        self.loop.changed(self.other)
        self.loop.changed(77)

    def test_many(self):
        """A turn checks none of many idle ends."""
        for _ in range(30):
            self.loop.add(self.pair()[0], self.fail, self.fail, hears=lambda: self.asked.append(1) or True,
                          has_more=lambda: self.asked.append(1), is_told=True)
        self.loop.turns(5)
        self.assertEqual(len(self.asked), 60)

    def test_hung_up(self):
        """The hangup of an unwatched end causes no wakeup."""
        self.loop.add(self.one, self.fail, self.fail, hears=lambda: False, has_more=lambda: False, is_told=True)
        self.loop.turn()
        self.other.close()
        self.loop.turns(3)
        self.assertEqual(self.loop.found, 0)

    def test_another_file(self):
        """A descriptor that was closed and reused for another file is watched as the new one."""
        self.loop.add(self.one, lambda: self.done.append("one"))
        self.assertEqual(self.turn(), [])
        two, there = self.pair()
        os.dup2(two.fileno(), self.one.fileno())
        self.loop.add(self.one, lambda: self.done.append("two"), lambda: self.done.append("written"))
        there.send(b"x")
        self.assertEqual(self.turn(), ["two", "written"])

    def test_high(self):
        """Descriptors may exceed select's limit."""
        import fcntl
        import resource

        before = resource.getrlimit(resource.RLIMIT_NOFILE)
        resource.setrlimit(resource.RLIMIT_NOFILE, (max(before[0], min(before[1], 1200)), before[1]))
        self.addCleanup(resource.setrlimit, resource.RLIMIT_NOFILE, before)
        high = fcntl.fcntl(self.one, fcntl.F_DUPFD_CLOEXEC, 1100)
        self.addCleanup(os.close, high)
        self.loop.add(high, lambda: self.done.append("high"))
        self.assertEqual((self.turn(), comes(high, 0)), ([], False))
        self.other.send(b"x")
        self.assertEqual((self.turn(), comes(high, 0)), (["high"], True))

    def test_long(self):
        """A wait may exceed the system's longest; and an end closed without removal is ignored."""
        loop = Loop()
        loop.later("moment", 1e12, self.fail)
        loop.add(self.one, lambda: self.done.append("one"))
        self.other.send(b"x")
        loop.turn()
        self.assertEqual(self.done, ["one"])
        kept = os.dup(self.one.fileno())
        self.addCleanup(os.close, kept)
        loop.watched.events.pop(self.one.fileno())
        self.assertEqual(loop.ready(0), {})

    def test_soon(self):
        """A call by `soon` runs once, before the next wait, which is short if more calls are due."""
        def again():
            self.done.append("again")
            self.loop.soon(again)

        for does in (again, again, lambda: self.done.append("once")):
            self.loop.soon(does)
        self.assertEqual(self.loop.wait_time(), 0.0)
        self.assertEqual(self.done, ["again", "once"])
        self.loop.next.clear()
        self.assertIsNone(self.loop.wait_time())


class Faults(Case):
    """Exceptions at an end, in a timer, or before a wait."""

    def setUp(self):
        self.now, self.done, self.faults = 100.0, [], []
        self.loop = StillLoop(lambda: self.now)
        self.one, self.other = self.pair()
        self.other.send(b"x")

    def fault(self):
        """Raise an exception."""
        self.done.append(self.now)
        raise ValueError("wrong")

    def test_none(self):
        """Without a handler it ends the process."""
        self.loop.add(self.one, self.fault)
        with self.assertRaisesRegex(ValueError, "wrong"):
            self.loop.turn()
        self.loop.remove(self.one)
        for begin in (self.loop.each, self.loop.soon, lambda does: self.loop.later("moment", 0, does)):
            begin(self.fault)
            with self.assertRaisesRegex(ValueError, "wrong"):
                self.loop.turn()
            self.loop.before.clear()

    def test_ends(self):
        """It ends its own part, and is reported; others continue, even if the handler fails too."""
        two, there = self.pair()
        there.send(b"x")
        self.loop.faults = self.faults.append
        self.loop.add(self.one, self.fault, fails=lambda fault: self.loop.remove(self.one))
        self.loop.add(two, lambda: self.done.append("two"), fails=self.fail)
        self.loop.turn()
        self.assertEqual((self.done, list(self.loop.sources), list(map(str, self.faults))), ([100.0, "two"], [two.fileno()], ["wrong"]))
        self.loop.add(self.one, self.fault, fails=lambda fault: self.fault())
        self.loop.turn()
        self.assertEqual((list(self.loop.sources), len(self.faults)), ([two.fileno()], 3))
        self.loop.add(self.one, self.done.append, hears=self.fault, fails=lambda fault: self.done.append("asked"))
        self.loop.ready(0)
        self.assertEqual((self.done[-1], len(self.faults)), ("asked", 4))

    def test_rests(self):
        """An end without a handler pauses for a second; a timer's call is repeated a second later; a hook stays."""
        self.loop.faults = self.faults.append
        self.loop.add(self.one, self.fault)
        self.loop.turns(4)
        self.assertEqual((self.done, self.loop.found, self.loop.waited), ([100.0], 1, 1.0))
        self.now = 101.0
        self.loop.turns(3)
        self.assertEqual(self.done, [100.0, 101.0])
        self.loop.remove(self.one)
        self.now = 103.0
        self.loop.later("moment", 0, self.fault)
        self.loop.turns(3)
        self.assertEqual((self.done[2:], self.loop.due["moment"][0]), ([103.0], 104.0))
        self.loop.drop("moment")
        self.loop.each(self.fault)
        self.assertEqual(self.loop.wait_time(), 1.0)
        self.loop.turns(2)
        self.assertEqual((len(self.done), len(self.faults)), (6, 6))

    def test_ended(self):
        """SystemExit and similar exceptions end the process."""
        def end():
            raise SystemExit(3)

        self.loop.faults = self.faults.append
        self.loop.add(self.one, end, fails=self.fail)
        with self.assertRaises(SystemExit):
            self.loop.turn()

    def test_refused(self):
        """An end that the system can't watch because memory is short is retried."""
        self.loop.add(self.one, lambda: self.done.append("one"))
        with mock.patch.object(self.loop.watched, "watch", side_effect=OSError(errno.ENOMEM, "memory")):
            self.loop.turn()
        self.loop.turn()
        self.assertEqual((self.done, self.loop.waited), ([], 1.0))
        self.now = 101.0
        self.loop.turns(2)
        self.assertEqual(self.done, ["one"])
        with mock.patch.object(self.loop.watched, "watch", side_effect=OSError(errno.EBADF, "bad")), self.assertRaises(OSError):
            self.loop.add(self.one, lambda: self.done.append("one"))
            self.loop.turn()


class Many(Ends):
    """The same for a process with more ends than select permits."""

    def setUp(self):
        super().setUp()
        self.patch("roam_live.common.event_loop.MOST_SELECTED", 0)

    test_lowered = None


class Moments(Case):
    """Timers with a manual clock."""

    def setUp(self):
        self.now, self.done = 100.0, []
        self.loop = StillLoop(lambda: self.now)

    def test_clock(self):
        """Timers use the clock of the loop, whatever the system's is."""
        self.loop.later("a", 5.0, lambda: self.done.append("a"))
        self.loop.at("b", 103.0, lambda: self.done.append("b"))
        self.loop.turn()
        self.assertEqual((self.loop.waited, self.done), (3.0, []))
        self.now = 104.0
        self.loop.turn()
        self.assertEqual((self.loop.waited, self.done), (0.0, ["b"]))
        self.loop.turn()
        self.assertEqual(self.loop.waited, 1.0)
        self.loop.drop("a")
        self.loop.turn()
        self.assertIsNone(self.loop.waited)

    def test_each(self):
        """A hook before each wait returns the moment of its next call."""
        asked = []
        for told in (107.5, None, 99.0):
            self.loop.each(lambda told=told: asked.append(told) or told)
        self.loop.turn()
        self.assertEqual((self.loop.waited, asked), (0.0, [107.5, None, 99.0]))
        del self.loop.before[2]
        self.loop.turn()
        self.assertEqual(self.loop.waited, 7.5)
        self.loop.later("soon", 1.0, lambda: None)
        self.loop.turn()
        self.assertEqual(self.loop.waited, 1.0)


class Listeners(Case):
    """Connections at a socket."""

    def setUp(self):
        self.stop_clock()
        self.loop, self.path = StillLoop(), self.made_folder() / "here"
        self.taken_peers, self.refused, self.room = [], [], 2
        self.listener = Listener(self.loop, self.path, self.taken_peers.append, lambda: len(self.taken_peers) < self.room,
                                 self.refused.append)
        self.addCleanup(lambda: [peer.close() for peer in self.taken_peers])
        self.addCleanup(self.listener.close)

    def connect(self):
        """Connect to the listener."""
        one = socket.socket(socket.AF_UNIX, socket.SOCK_STREAM)
        self.addCleanup(one.close)
        one.settimeout(5)
        one.connect(str(self.path))
        return one

    def test_room(self):
        """As many are accepted as there is room for; another waits without cost, and is accepted later."""
        for _ in range(3):
            self.connect()
        self.loop.turns(4)
        self.assertEqual((len(self.taken_peers), self.taken_peers[0].getblocking()), (2, False))
        found = self.loop.found
        self.loop.turns(5)
        self.assertEqual(self.loop.found, found)
        self.room = 3
        self.loop.turn()
        self.assertEqual(len(self.taken_peers), 3)

    def test_descriptors(self):
        """Without a descriptor it continues, and listens again after a second."""
        self.connect()
        end, self.listener.end = self.listener.end, mock.Mock()
        self.listener.end.accept.side_effect = OSError(errno.EMFILE, "Too many open files")
        self.loop.turns(5)
        self.assertEqual(([fault.errno for fault in self.refused], self.loop.found, self.loop.waited), ([errno.EMFILE], 1, DEAF))
        self.listener.end = end
        self.now += DEAF
        self.loop.turns(2)
        self.assertEqual((len(self.taken_peers), len(self.refused)), (1, 1))

    def test_real(self):
        """The same holds if the system really has no descriptor."""
        import resource

        client = self.connect()
        before = resource.getrlimit(resource.RLIMIT_NOFILE)
        highest = max(map(int, os.listdir("/proc/self/fd")))
        held = []
        try:
            resource.setrlimit(resource.RLIMIT_NOFILE, (highest + 1, before[1]))
            while True:
                try:
                    held.append(os.dup(0))
                except OSError:
                    break
            self.loop.turns(3)
        finally:
            for end in held:
                os.close(end)
            resource.setrlimit(resource.RLIMIT_NOFILE, before)
        self.assertEqual(([fault.errno for fault in self.refused], self.taken_peers), ([errno.EMFILE], []))
        self.now += DEAF
        self.loop.turns(2)
        self.assertEqual(len(self.taken_peers), 1)
        self.assertIsNotNone(client)

    def test_another(self):
        """A connection of another user is closed at once, and a connection that is already closed counts as none."""
        client = self.connect()
        with mock.patch("os.getuid", return_value=os.getuid() + 1):
            self.loop.turn()
        self.assertEqual((self.taken_peers, client.recv(1)), ([], b""))
        self.listener.end, end = mock.Mock(), self.listener.end
        self.listener.end.accept.side_effect = BlockingIOError(errno.EAGAIN, "none")
        self.listener.take()
        self.listener.end = end
        self.assertEqual((self.refused, self.listener.hears()), ([], True))

    def test_closed(self):
        """Its file is removed with it, but not a replacement."""
        self.listener.close()
        self.assertEqual((self.path.exists(), self.loop.sources), (False, {}))
        with self.subTest("another"):
            one = Listener(self.loop, self.path, self.taken_peers.append, lambda: True, self.refused.append)
            self.path.unlink()
            other = Listener(self.loop, self.path, self.taken_peers.append, lambda: True, self.refused.append)
            one.close()
            self.assertTrue(self.path.exists())
            other.close()
