"""Windows of a remote session over a relay: the far end's reports, the near end's folders, and peers' numbers."""
import os
import pathlib
import types

from aids import Case, StillLoop, led_text, read_now
from roam_live.common.unix_socket import Listener
from roam_live.relay.far_windows import FarWindows, windows_in, windows_text
from roam_live.relay.forwarding import ForwardedConnection, Streams
from roam_live.relay.near import Peers
from roam_live.relay.near_sockets import NearWindows


class Told(Case):
    """The text that reports all windows."""

    def test_text(self):
        windows = [(2, "5e55"), (1, "a"), (99, "0123456789abcdef")]
        self.assertEqual(windows_in(windows_text(windows)), dict(windows))
        self.assertEqual(list(windows_in(windows_text(windows)))[0], 2)
        for text in (b"n", b"n1", b"n1 g", b"n0 a", b"n100 a", b"n1 a ", b"n 1 a", b"x1 a", b"n1 a 2", b"n1 0123456789abcdef0", b"n1 a\n",
                     b"n" + b" ".join(b"1 a" for _ in range(100))):
            self.assertEqual(windows_in(text), {}, text)


class Far(Case):
    """The far end of a simulated session."""

    def setUp(self):
        self.folder, self.told = self.made_folder(), []
        self.here = {1: "a1", 3: "a3"}
        self.place = self.window(3)
        self.loop = StillLoop(lambda: self.now)
        self.windows = FarWindows(self.place, self.loop, self.told.append)

    def window(self, number):
        """Return a window of it."""
        folder = self.folder / f"w/{number}"
        folder.mkdir(parents=True, exist_ok=True)
        return types.SimpleNamespace(number=number, folder=folder, common=self.folder, id=lambda: self.here.get(number, ""),
                                     windows=lambda: [self.window(one) for one in self.here])

    def test_asked(self):
        """Nothing is reported before the request; then all windows, the relay's own first, and each change once."""
        listener = self.listening(self.folder / "host")
        self.windows.tell()
        self.assertEqual((self.told, self.windows.folder(1), self.windows.path("w/1/panes")), ([], str(self.place.folder), ""))
        self.windows.use()
        self.assertEqual(self.told, [b"n3 a3 1 a1"])
        host = self.taken(listener)
        self.loop.turns(2)
        self.assertEqual(read_now(host), b"0 windows\n")
        self.here[2] = "a2"
        host.send(led_text(b"window 2 -\nopened 2\nactivity 2\n", 0) + b"2 window 9 -\nwindow 8 -\n")
        self.loop.turns(2)
        host.send(led_text(b"activity 2\nbell 2 1\nwindow 2 6162\n", 0))
        self.loop.turns(2)
        self.assertEqual(self.told[1:], [b"n3 a3 1 a1 2 a2"])
        self.assertEqual([self.windows.path(name) for name in ("w/2/panes", "panes", "host")],
                         [str(self.folder / "w/2/panes"), str(self.place.folder / "panes"), str(self.folder / "host")])
        # A relay that returns gets the report again.
        self.windows.use()
        self.assertEqual(len(self.told), 3)

    def test_gone(self):
        """A window that is reported gone, or missing after a cut connection, is no longer reported, though its server still runs; the
        relay's own is until then. An invalid number changes nothing.
        """
        listener = self.listening(self.folder / "host")
        self.here.update({2: "a2", 4: "a4"})
        self.windows.use()
        self.assertEqual(self.told, [b"n3 a3 1 a1 2 a2 4 a4"])
        host = self.taken(listener)
        for text, wanted in ((b"window 1 -\nwindow 2 -\nwindow 3 -\nwindow 4 -\nwindows 4\n", None), (b"gone 2\n", b"n3 a3 1 a1 4 a4"),
                             (b"gone x\ngone\nwindow\nbell 1 1\n", None), (b"gone 3\n", None),
                             (b"window 2 -\n", b"n3 a3 1 a1 2 a2 4 a4"), (b"", None),
                             (b"window 1 -\nwindow 2 -\nwindows 2\n", b"n3 a3 1 a1 2 a2")):
            self.told.clear()
            if not text:
                host.close()
                self.loop.turns(2)
                self.now += 1
                self.loop.turns(2)
                host = self.taken(listener)
                continue
            host.send(led_text(text, 0))
            self.loop.turns(2)
            self.assertEqual(self.told, [wanted] if wanted else [], text)

    def test_heir(self):
        """After the end of its own window another replaces it, if the near end knows of windows."""
        self.assertIsNone(self.windows.heir())
        self.windows.use()
        del self.here[3]
        self.assertEqual((self.windows.heir().number, self.told[-1], self.windows.folder(0)), (1, b"n1 a1", str(self.folder / "w/1")))
        del self.here[1]
        self.assertIsNone(self.windows.heir())

    def test_earlier(self):
        """A session of one window reports none."""
        for place in (None, types.SimpleNamespace(number=0)):
            windows = FarWindows(place, self.loop, self.told.append)
            windows.use()
            self.assertEqual((self.told, windows.is_used), ([], False))


class Near(Case):
    """The near end's folders."""

    def setUp(self):
        self.folder, self.parted = self.made_folder(), []
        self.loop = StillLoop(lambda: self.now)
        self.windows = NearWindows(str(self.folder), self.loop, lambda: None, self.listens, self.parted.append)
        self.addCleanup(self.windows.close)

    def listens(self, folder, number):
        """Return the socket of a window's clients."""
        return Listener(self.loop, os.path.join(folder, "clients"), lambda peer: None, lambda: True, lambda fault: None)

    def there(self):
        """Return the contents of the folder."""
        return sorted(str(path.relative_to(self.folder)) for path in self.folder.rglob("*") if not path.is_dir())

    def test_taken(self):
        """A window has its sockets while it is reported; one with another session is created anew, and the rest is removed."""
        (self.folder / "w/9").mkdir(parents=True)
        pathlib.Path(self.folder, "w/9/session").touch()
        self.windows.take({1: "a", 2: "b"})
        names = ("clients", "panes", "session")
        self.assertEqual(self.there(), [f"w/{number}/{name}" for number in (1, 2) for name in names])
        self.assertEqual((self.folder / "w/2/session").read_text(encoding="ascii"), "b\n")
        self.windows.take({1: "c"})
        self.assertEqual((self.parted, self.there(), (self.folder / "w/1/session").read_text(encoding="ascii")),
                         ([1, 2], [f"w/1/{name}" for name in names], "c\n"))
        self.windows.close()
        self.assertEqual(os.listdir(self.folder), [])

    def test_churn(self):
        """Endless other windows are created at a bounded rate; repeated ones cost nothing; in the end the last reported ones exist."""
        made = []
        make = self.windows.make
        self.patch_of(self.windows, "make", side_effect=lambda number, name: (made.append(number), make(number, name)))
        for turn in range(50):
            self.windows.take({number: f"{turn + 1:x}{number:02d}" for number in range(1, 21)})
            self.now += 0.02
        self.assertEqual(len(made), 99 + 1)
        for _ in range(40):
            self.now += 0.5
            self.loop.turns(1)
        self.assertEqual({number: window.name for number, window in self.windows.windows.items()},
                         {number: f"32{number:02d}" for number in range(1, 21)})
        before = len(made)
        for _ in range(1000):
            self.windows.take(dict(self.windows.told))
        self.assertEqual(len(made), before)


class Numbers(Case):
    """Peers' numbers."""

    def test_windows(self):
        """The high byte is the window's; the relay's own keeps its numbers once others are known."""
        forgotten = []
        peers = Peers(forgotten.append)
        peers.last[0] = 300
        self.assertEqual(peers.number("old"), 301)
        peers.use_windows()
        numbers = [peers.number("a"), peers.number("b", 2), peers.number("c", 2), peers.number("a")]
        self.assertEqual((forgotten, numbers), ([301], [1, 513, 514, 1]))
        peers.last[2] = (2 << 8) + 255
        self.assertEqual((peers.number("d", 2), peers.number("e", 99)), (515, 25345))
        peers.drop_window(2)
        self.assertEqual((sorted(peers.addresses), peers.number("f", 2)), ([1, 25345], 516))


class Names(Case):
    """Names of forwarded sockets."""

    def test_names(self):
        """For other windows only `panes` is forwarded; the host is the session's."""
        opened = []

        def opens(name):
            opened.append(name)
            raise FileNotFoundError(name)

        streams = Streams(StillLoop(), opens)
        for name in ("panes", "w/2/panes", "host", "w/99/host", "w/2/bells", "w/0/panes", "w/100/panes", "w/2/clients", "w/2/../panes",
                     "w/2/w/3/panes", "clients"):
            streams.opened(ForwardedConnection(1), name)
        self.assertEqual(opened, ["panes", "w/2/panes", "host"])
