"""Copy mode at the host's socket `host`: its requests, and its use of the answers, with a simulated scrollback process."""
from aids import Case, LinkedClient
from roam_live.frontend.copymode.state import GONE
from roam_live.protocol.panes import Places, Rect
from test_display import Person
from test_scrollback_queries import Rows

SCREEN = b"".join(b" screen %d\n" % row for row in range(1, 24))


class Connected(Rows):
    """A user whose front end is connected to a host."""

    def setUp(self):
        super().setUp()
        self.stop_clock()
        Case.environment(self, VISUAL="vi", EDITOR=None, ROAM_CLIPBOARD=None)
        self.person = Person(24, 80, told=Places({1: Rect(1, 1, 23, 80)}, 1, 1))
        self.person.panes.making = lambda pane: f"{pane} 5"
        self.link = LinkedClient(self.folder, self.loop, lambda: (24, 80), False, lambda: None)
        self.addCleanup(self.link.leave)
        self.person.commands.acts.host = self.person.commands.acts.pastes.host = self.link
        self.link.answers = self.person.commands.acts.pastes.answered
        self.person.paints(23, 80)
        self.loop.turns(4)

    def types(self, text):
        """Type, and let everything continue."""
        acts = self.person.types(text)
        self.loop.turns(12)
        return acts

    def opened(self, screen=SCREEN):
        """Open copy mode."""
        self.types(b"\x02[")
        self.prints(b"screen 0 %d %d\n" % (screen.count(b"\n"), len(screen)) + screen)
        self.loop.turns(6)
        self.person.said()
        self.person.paints(23, 80)

    def line(self):
        """Return the last row."""
        return self.person.shown()[23]

    def test_opened(self):
        """The rows of the screen are shown, and the scrollback above them."""
        self.opened()
        self.assertEqual((self.person.shown()[22], self.line()), ("screen 23", "[0/3] copy mode"))
        self.types(b"g")
        self.assertEqual(self.person.shown()[:4], ["Alpha", "be", "ta", "screen 1"])
        self.assertEqual(self.types(b"q"), [])
        self.assertEqual(self.scrollback.room.snapshots, [])

    def test_found(self):
        """A text is found in soft-wrapped rows, and with wrap-around."""
        self.opened()
        self.types(b"?beta\r")
        self.assertEqual(self.person.commands.copying.state.mode.view.position, (1, 0))
        self.types(b"/screen 9\r")
        self.assertEqual(self.person.commands.copying.state.mode.view.position, (11, 0))
        self.types(b"/alph\r")
        self.assertEqual(self.person.commands.copying.state.mode.view.position, (0, 0))

    def test_copied(self):
        """A copy is the newest buffer, which C-b ] inserts at its placeholder."""
        self.opened()
        self.types(b"gjV\r")
        self.assertEqual(self.socket.uploads.buffers.texts, {1: b"beta\n"})
        self.assertEqual(self.person.display.row.told, "5 characters copied; C-b ] pastes")
        before = len(self.person.link.lines)
        self.types(b"\x02]")
        placeholders = [line for line in self.person.link.lines[before:] if line.startswith("paste ; char 9f")]
        self.assertEqual(len(placeholders), 1)

    def test_more(self):
        """The number of new rows is reported, and the existing ones stay."""
        self.opened()
        self.prints(b"rows 0 2 6\n d\n e\n")
        self.loop.turns(6)
        self.assertEqual(self.line(), "[0/3] copy mode; 2 new rows")
        self.types(b"r")
        self.prints(b"screen 0 %d %d\n" % (23, len(SCREEN)) + SCREEN)
        self.loop.turns(6)
        self.assertEqual(self.person.display.row.line(), "[0/5] copy mode")

    def test_not_kept(self):
        """For a pane without scrollback the shared view scrolls."""
        self.person.panes.making = lambda pane: f"{pane} 9"
        self.assertEqual(self.types(b"\x02["), [])
        self.assertEqual(self.types(b"k"), ["view 1"])

    def test_lost(self):
        """After the host's end the rows so far stay visible, and it closes once more are needed."""
        self.prints(b"rows 0 500 2000\n" + b" ab\n" * 500)
        self.opened()
        self.types(b"\x1b[5~")
        self.socket.close()
        self.loop.turns(6)
        self.types(b"k")
        self.assertTrue(self.person.commands.copying.state.is_on())
        self.types(b"g")
        for _ in range(50):
            if not self.person.commands.copying.state.is_on():
                break
            self.now += 0.1
            self.loop.turns(2)
            self.person.loop.do_due()
        self.assertEqual((self.person.commands.copying.state.is_on(), self.person.display.row.told), (False, GONE))
