"""Keys to all panes of a window: the input, its lines, and the exceptions."""
import random
import unittest

from lived import Attached, Lived
from roam_live.frontend import synchronize_panes
from roam_live.frontend.synchronize_panes import AGAIN, FOCUS_WAIT, HIDES, MOST_ACTS, lines_of


def typed_in(lines, focus):
    """Return the input of each pane by lines of acts, and the focus after each."""
    found, behind = {}, []
    for line in lines:
        for act in line:
            word, _, rest = act.partition(" ")
            if word == "focus":
                focus = int(rest)
            else:
                found.setdefault(focus, []).append(act)
        behind.append(focus)
    return found, set(behind)


class Lines(unittest.TestCase):
    """The lines of acts."""

    def test_lines(self):
        """Each pane has all keys in order, the focus is restored after each line, and no line exceeds the limit of acts."""
        chance = random.Random(5)
        for count in range(2, 10):
            for _ in range(8):
                panes = chance.sample(range(1, 10), count)
                keys = [[f"char {chance.randint(97, 122):x}"] * chance.choice((1, 1, 1, 6, 16)) for _ in range(chance.randint(1, 12))]
                lines = lines_of(panes, [lambda pane, key=key: key for key in keys])
                found, behind = typed_in(lines, panes[0])
                self.assertEqual(found, {pane: [act for key in keys for act in key] for pane in panes})
                self.assertEqual(behind, {panes[0]})
                self.assertLessEqual(max(map(len, lines)), MOST_ACTS)

    def test_one_line(self):
        """A key goes to nine panes in one line, and several to two."""
        for panes, count, lines in ((range(1, 10), 1, 1), (range(1, 10), 6, 1), (range(1, 10), 7, 2), ((2, 1), 31, 1), ((2, 1), 32, 2)):
            self.assertEqual(len(lines_of(list(panes), [lambda pane: ["char 61"]] * count)), lines, (panes, count))


class Person(Attached):
    """A user whose keys go to all panes."""

    def begin(self, panes=3, **more):
        """Return a user at a session of so many panes, the last focused."""
        session = Lived()
        for place in range(panes - 1):
            session.do("split right" if place % 2 else "split down")
        self.attach(session, **more)
        self.heard.clear()
        self.commands = self.person.commands
        self.commands.link.predict = self.predicted.append
        self.commands.synchronizing.predictions = lambda: "adaptive"

    def setUp(self):
        super().setUp()
        self.predicted = []

    def switch(self):
        """Toggle it."""
        self.person.keyboard.grant("synchronize")

    def test_switched(self):
        """Keys go to all panes while it is on, which the last row shows, without predictions; then to the focused one."""
        self.begin()
        self.switch()
        self.assertEqual((self.commands.display.row.told, self.commands.display.row.panes_label()),
                         ("keys go to all panes of this window", " 1  2 [3] S"))
        self.types(b"ab\x1b[A")
        self.assertEqual(self.heard, ["char 61 ; char 62 ; key up ; focus 1 ; char 61 ; char 62 ; key up ; focus 2 ; char 61 ; char 62 ; "
                                      "key up ; focus 3"])
        self.switch()
        self.types(b"c")
        self.assertEqual((self.heard[1:], self.predicted, self.commands.display.row.panes_label()),
                         (["char 63"], ["never", "adaptive"], " 1  2 [3]"))

    def test_focus_by_another(self):
        """After another user has moved the focus, or its pane has ended, predictions are hidden for a moment; after this user's moves they
        aren't.
        """
        self.begin(3)
        self.types(b"\x02q1")
        self.assertEqual(self.predicted, [])
        self.by_another("focus 2")
        self.assertEqual(self.predicted, ["never"])
        self.now += HIDES - 0.1
        self.by_another("focus 3")
        self.now += 0.2
        self.person.loop.turn()
        self.assertEqual(self.predicted, ["never"] * 2)
        self.now += HIDES
        self.person.loop.turn()
        self.assertEqual(self.predicted, ["never", "never", "adaptive"])
        self.by_another("close")
        self.assertEqual(self.predicted[3:], ["never"])
        self.by_another("split right", "focus 1", "focus 2")
        self.now += HIDES
        self.person.loop.turn()
        self.commands.synchronizing.predictions = lambda: "never"
        del self.predicted[:]
        self.by_another("focus 1")
        self.assertEqual(self.predicted, [])

    def test_focus_unknown(self):
        """The first report of the focus is no move, and neither is one of other sizes."""
        self.begin(2)
        self.by_another("grow 1")
        self.person.tell(None)
        self.person.tell(self.session.places())
        self.assertEqual(self.predicted, [])

    def test_commands(self):
        """Other input has its usual target: the prefix moves the focus, and later keys wait until that is reported."""
        self.begin(2)
        self.switch()
        self.person.keyboard.fed(b"\x02ox")
        self.assertEqual(self.person.said(), ["next"])
        self.assertEqual(self.commands.synchronizing.keys[0](1), ["char 78"])
        self.session.do("next")
        self.person.tell(self.session.places())
        self.assertEqual(self.person.said(), ["char 78 ; focus 2 ; char 78 ; focus 1"])
        self.person.keyboard.fed(b"\x02oy")
        self.now += FOCUS_WAIT
        self.person.loop.turn()
        self.assertEqual(self.person.said(), ["next", "char 79"])
        self.person.keyboard.fed(b"z\x02o")
        self.assertEqual(self.person.said()[-1:], ["next"])

    def test_together(self):
        """While much is in flight keys wait, and then go together."""
        self.begin(2)
        self.switch()
        self.commands.link.has_taken = False
        for letter in (b"a", b"b"):
            self.person.keyboard.fed(letter)
        self.assertEqual(self.person.said(), [])
        self.commands.link.has_taken = True
        self.now += AGAIN
        self.person.loop.turn()
        self.assertEqual(self.person.said(), ["char 61 ; char 62 ; focus 1 ; char 61 ; char 62 ; focus 2"])

    def test_many(self):
        """A command's input is typed in all panes, however long it is, in order."""
        self.begin(2)
        self.switch()
        acts = [f"char {letter:x}" for letter in range(0x61, 0x61 + 20)]
        self.commands.type_key(acts)
        self.commands.synchronizing.settle()
        found, behind = typed_in([line.split(" ; ") for line in self.person.said()], 2)
        self.assertEqual((found, behind), ({1: acts, 2: acts}, {2}))

    def test_awaited(self):
        """In a window with unreported panes keys wait until the report."""
        self.begin(2)
        self.switch()
        panes, told = self.person.panes, self.session.places()
        panes.awaited, panes.place.told = True, None
        self.person.keyboard.fed(b"x")
        self.assertEqual((self.person.said(), self.commands.is_full()), ([], False))
        self.patch_of(synchronize_panes, "MOST_KEYS", 1)
        self.assertTrue(self.commands.is_full())
        self.person.tell(told)
        self.assertEqual((self.person.said(), self.commands.is_full()), (["char 78 ; focus 1 ; char 78 ; focus 2"], False))

    def test_alone(self):
        """A single pane gets input as usual, and so does a zoomed one; a read-only user types nothing."""
        self.begin(1)
        self.switch()
        self.types(b"a")
        self.assertEqual((self.heard, self.commands.synchronizing.pasted_in()), (["char 61"], []))
        self.begin(2)
        self.assertEqual(self.commands.synchronizing.pasted_in(), [])
        self.switch()
        self.assertEqual(self.commands.synchronizing.pasted_in(), [2, 1])
        self.types(b"\x02z")
        self.heard.clear()
        self.types(b"a")
        self.assertEqual((self.heard, self.commands.display.row.panes_label()[-3:]), (["char 61"], " ZS"))
        self.types(b"\x02zb")
        self.assertIn("char 62 ; focus 1 ; char 62 ; focus 2", self.heard)
        self.begin(2, is_read_only=True)
        self.switch()
        self.assertFalse(self.commands.synchronizing.is_on())

    def test_windows(self):
        """The switch belongs to a window, and is remembered when its user returns."""
        self.begin(2)
        switched = {}
        for number, is_on in ((1, False), (2, False)):
            self.commands.synchronizing.remember(switched, number, lambda: "adaptive")
            self.assertEqual(self.commands.synchronizing.is_on(), is_on)
        self.switch()
        for number, is_on in ((1, False), (2, True)):
            self.commands.synchronizing.remember(switched, number, lambda: "adaptive")
            self.assertEqual(self.commands.synchronizing.is_on(), is_on)


if __name__ == "__main__":
    unittest.main()
