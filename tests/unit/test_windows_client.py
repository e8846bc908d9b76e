"""The reports of windows to a front end, with any lines of a host, even of another machine."""
from aids import Case, StillLoop, read_now
from roam_live.frontend.windows_client import WindowsState
from roam_live.protocol.host_client import HostClient
from roam_live.protocol.host_link import HostLink

LIST = ("window 1 -", "window 2 68c3a920", "window 10 1b5b324a0a", "windows 3")

# Lines that report nothing.
ODD = ("window 0 -", "window 100 -", "window 1", "window 1 zz", "window 1 6", "window 1 " + "61" * 257, "gone 0", "gone", "gone 1 1",
       "bell 1 0", "bell 1", "bell 1 10", "activity", "runs 1", "runs 1 ", "windows", "windows 100", "window １ -", "opened 1", "")


class Told(Case):
    """The reports."""

    def told(self, *lines):
        """Return the windows in these lines."""
        windows = WindowsState()
        for line in lines:
            windows.take(line)
        return windows

    def labels(self, windows, here=1, last=2):
        """Return the labels of all windows in the last row."""
        return [windows.label(number, here, last) for number in windows.numbers()]

    def test_names(self):
        """A name is shown in harmless form: without escapes and line ends."""
        windows = self.told(*LIST)
        self.assertTrue(windows.is_whole)
        self.assertEqual(self.labels(windows), ["1*", "2:hé -", "10"])
        self.assertEqual(self.labels(self.told("window 1 " + "中".encode().hex() * 64)), ["1:" + "中" * 12 + "*"])
        self.assertEqual(self.labels(self.told("window 1 -", "runs 1 a\x1b[2J\u202e")), ["1:a?[2J?*"])

    def test_flags(self):
        """Events in a window are shown until the user visits it."""
        windows = self.told(*LIST, "bell 2 1", "activity 2", "activity 10", "runs 1 vim", "runs 2 sh")
        self.assertEqual(self.labels(windows), ["1:vim*", "2:hé #!-", "10#"])
        windows.seen(2)
        self.assertEqual(self.labels(windows, here=2, last=1), ["1:vim-", "2:hé *", "10#"])

    def test_gone(self):
        """A window is gone if that is reported, or if it is missing after a lost connection."""
        windows = self.told(*LIST)
        self.assertEqual((windows.take("gone 2"), windows.take("gone 2"), windows.numbers()), ([2], [], [1, 10]))
        windows.begin()
        self.assertEqual([windows.take(line) for line in ("window 1 61", "window 3 -", "windows 2")], [[], [], [10]])
        self.assertEqual(windows.numbers(), [1, 3])

    def test_odd(self):
        """An invalid line is none, and changes nothing."""
        windows = self.told(*LIST)
        for line in ODD:
            self.assertIsNone(windows.take(line), line)
        self.assertEqual(self.labels(windows), ["1*", "2:hé -", "10"])


class Linked(Case):
    """The connection."""

    def test_asks(self):
        """It requests the windows on each connection, and passes on the session's reports together."""
        folder, loop, heard, begun, lost = self.made_folder(), StillLoop(lambda: self.now), [], [], []
        listener = self.listening(folder / "host")
        link = HostLink(folder, loop, lambda: (24, 80), False)
        link.go(HostClient(link, 3, lambda: None))
        link.follow_windows(heard.append, lambda: begun.append(1), lambda: lost.append(1))
        peer = self.taken(listener)
        loop.turns(2)
        here = f"3 here {link.name} 24 80 read-write\n3 who\n"
        self.assertEqual(read_now(peer).decode(), f"{here}0 windows\n")
        peer.send(b"0 window 1 -\n3 others 0\n0 windows 1\n4 others 0\n")
        loop.turns(2)
        self.assertEqual((link.here.has_others(), heard), (False, [["window 1 -", "windows 1"]]))
        peer.close()
        loop.turns(2)
        self.assertEqual((link.here.has_others(), len(begun), len(lost)), (None, 1, 1))
        self.now += 0.2
        loop.turns(2)
        peer = self.taken(listener)
        loop.turns(2)
        self.assertEqual((read_now(peer).decode(), len(begun)), (f"{here}0 windows\n", 2))
        link.end()

    def test_goes(self):
        """A user who goes to another window is there, and forgets the terminals at the one before, even if reported late; its zoom is still
        reported.
        """
        folder, loop, noticed = self.made_folder(), StillLoop(lambda: self.now), []
        listener = self.listening(folder / "host")
        link = HostLink(folder, loop, lambda: (24, 80), False)
        first, second = (HostClient(link, number, lambda: None) for number in (1, 2))
        link.go(first)
        peer = self.taken(listener)
        peer.send(b"0 host 00\n1 others 0\n1 zoomed 0 24 80 48 160\n")
        loop.turns(2)
        read_now(peer)
        self.assertEqual((first.has_others(), first.zoomed[0]), (False, 0))
        link.go(second)
        first.say_here()
        first.note_zoom(None)
        loop.turns(2)
        self.assertEqual(read_now(peer).decode(), f"2 here {link.name} 24 80 read-write\n2 who\n1 zoom none\n")
        self.assertEqual((first.has_others(), second.is_awaited(), link.clients), (None, True, {1: first, 2: second}))
        first.notices = noticed.append
        peer.send(b"1 there 7 a:/dev/pts/1 24 80 read-write\n1 others 1\n1 zoomed 0 24 80 48 160\n1 say late\n")
        loop.turns(2)
        self.assertEqual((first.others.there, first.has_others()), ({}, None))
        self.assertEqual((first.zoomed, noticed), ((0, None), ["late"]))
        peer.send(b"1 others 0\n2 others 0\nnone\n")
        loop.turns(2)
        self.assertEqual((link.peer, second.has_others()), (None, None))
        first.end()
        self.assertEqual(link.clients, {2: second})
        link.end()
