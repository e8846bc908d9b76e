"""Whatever pane metadata is reported, only a few forms reach the user's terminal.

Those are a printable title, a cursor shape, a clipboard text, requested modes, a bell, the keypad mode, and the last row.
"""
import base64
import itertools
import random
import re

from roam_live.frontend import window_views
from roam_live.protocol.panes_client import PanesSubscriber

from aids import closed, read_now, record
from control_strings import chunks, controls
from test_app import Fronts, made_front

# The permitted output, by name. In each the text of a group has to be printable.
FORMS = {
    "last row": r"\x1b7\x1b\[\?7l\x1b\[2[34];1H\x1b\[0;7m([^\x1b]{1,80})\x1b\[0m\x1b\[\?7h\x1b8", "title kept": r"\x1b\[22;2t",
    "title back": r"\x1b\[23;2t", "title": r"\x1b\]2;([^\x07\x1b]{0,200})\x07", "shape": r"\x1b\[[0-6] q",
    "clip": r"\x1b\]52;c;((?:[A-Za-z0-9+/]{4})*(?:[A-Za-z0-9+/]{2}==|[A-Za-z0-9+/]{3}=)?)\x07",
    "reports": r"\x1b\[\?1003l\x1b\[\?1002l\x1b\[\?1000l\x1b\[\?1006l(?:\x1b\[\?100[23]h\x1b\[\?1006h)?",
    "focus reports": r"\x1b\[\?1004[hl]",
    "bell": r"\x07", "keypad": r"\x1b[=>]",
}
ANY = re.compile("|".join(f"(?P<n{number}>{form})" for number, form in enumerate(FORMS.values())))

# The random seeds of the reports in each run; one that ever failed stays in the list.
SEEDS = range(30)


def pane_lines(chance):
    """Return lines that place panes 1 and 2, or one of them, at possible positions, in some generation."""
    generation = chance.randint(1, 2)
    lines = (f"1 1 1 23 39 {generation}\n2 1 41 23 40 1\n", f"1 1 1 23 80 {generation}\n2 gone\nfocus 1\n",
             f"focus {chance.randint(1, 3)}\n",
             f"clients {chance.randint(1, 70)} of 64\n", f"3 1 1 {chance.randint(1, 9999)} 9 1\n", "3 gone\n")
    return chance.choice(lines).encode()


def beside_line(chance):
    """Return a line of pane metadata, valid or not."""
    hostile, place = controls(chance), f"{chance.randint(1, 2)} {chance.randint(1, 2)} ".encode()
    modes = chance.sample(("buttons", "drags", "motion", "sgr", "paste", "other", "focus", "keypad", "keys1"), chance.randint(0, 4))
    encoded = base64.b64encode(hostile)
    return chance.choice((
        b"title " + place + hostile.hex().encode(), b"title " + place + hostile.hex().encode(), b"title " + place + hostile,
        b"shape " + place + str(chance.randint(0, 9)).encode(), b"shape " + place + hostile,
        (b"modes " + place + " ".join(modes).encode()).rstrip(), b"modes " + place + hostile, b"clip " + place + encoded,
        b"clip " + place + encoded, b"clip " + place + hostile, b"clip " + place + encoded[:-1], b"bell " + place.rstrip(),
        b"bell " + hostile, hostile, b"bad line", b"bad line" + hostile)) + b"\n"


def notice_line(chance):
    """Return a notice at the socket `host`, valid or not."""
    hostile = controls(chance)
    line = chance.choice((b"say it is well", b"say " + hostile, hostile))
    # A line without a number would end the connection.
    return b"0 " + line.replace(b"\n", b"") + b"\n"


class Written(Fronts):
    """A front end that gets all these reports."""

    def setUp(self):
        self.environment(TERM="xterm")
        super().setUp()
        self.patch_of(window_views, "PanesSubscriber", PanesSubscriber)
        self.tells = {name: self.listening(self.place.folder / name) for name in ("panes", "host")}

    def begin(self):
        """Return a front end that sets the clipboard, at sockets that report panes and notices."""
        self.front = made_front(self.place, has_clips=True)
        self.addCleanup(lambda outer=self.front.display.outer: closed(outer.end))
        self.addCleanup(self.front.views.link.close)
        self.connect()
        ends = [self.taken(self.tells[name]) for name in ("panes", "host")]
        ends[0].send(b"1 1 1 23 39 1\n2 1 41 23 40 1\nfocus 1\nclients 1 of 64\nwatchers 0 of 16\n")
        self.paints()
        return ends

    def forms(self, text):
        """Return the names of the forms in a text. An unknown form, or an unprintable text, fails."""
        found, place = set(), 0
        while place < len(text):
            form = ANY.match(text, place)
            self.assertIsNotNone(form, text[max(0, place - 20) : place + 60])
            inner = next((group for group in form.groups()[1:] if group is not None and group != form[0]), "")
            self.assertTrue(inner.isprintable(), form[0])
            found.add(list(FORMS)[int(form.lastgroup[1:])])
            place = form.end()
        return found

    def run_one(self, seed):
        """Return a random run, and the names of the forms in its output."""
        chance = random.Random(seed)
        panes, host = self.begin()
        self.turn(4)
        self.assertTrue(self.shown().endswith(b"\x1b8"))
        shown = bytearray()
        for _ in range(40):
            panes.send(pane_lines(chance) if chance.random() < 0.2 else b"")
            for end, line in ((panes, beside_line(chance)), (host, notice_line(chance))):
                for chunk in chunks(chance, line):
                    end.send(chunk)
                    self.front.turn()
                    shown += read_now(self.master)
            if chance.random() < 0.3:
                self.client.send(record("silent", chance.randint(10, 99)) + record("heard"))
                self.type(chance.choice((b"x", b"\x02q1", b"\x02q2", b"\x1b[<0;3;3M")))
            self.now += 0.5
            self.turn(1)
        shown += self.shown()
        self.front.leave("[left]")
        return self.forms(shown.decode("utf-8"))

    def test_forms(self):
        """Only these forms reach the terminal, and each of them does."""
        found = set(itertools.chain.from_iterable(self.run_one(seed) for seed in SEEDS))
        self.assertEqual(set(FORMS) - found, set())
