"""A simulated session with its layout: it carries out a front end's acts, and reports its pane positions."""
import random

from aids import Case
from roam_live.frontend.borders import least_of, panes_of
from roam_live.protocol.panes import Places, Rect
from test_borders import Played
from test_display import Person, PlayedHost

# Lines of a front end about its view, which do not reach the session.
SHOWN = ("part", "whole", "repaint", "mask", "unmask")


class Lived(Played):
    """A session that carries out acts."""

    def __init__(self, rows=24, cols=80):
        super().__init__(Rect(1, 1, rows - 1, cols))

    def places(self):
        """Return the pane positions."""
        return Places(self.rects(), self.focus, 1)

    def do(self, act):
        """Carry out an act, unless the layout refuses it."""
        word, *words = act.split()
        panes = list(self.rects())
        if word == "focus" and int(words[0]) in panes:
            self.focus = int(words[0])
        elif word == "grow":
            self.grow(self.focus, int(words[0]))
        elif word == "size":
            rows, cols = map(int, words)
            if rows - 1 >= least_of(self.parts, "down") and cols >= least_of(self.parts, "right"):
                self.area = Rect(1, 1, rows - 1, cols)
        elif word == "split":
            self.split(self.focus, words[0])
            self.focus = next((pane for pane in self.rects() if pane not in panes), self.focus)
        elif word == "close" and len(panes) > 1:
            own = self.own(self.focus)
            heir = panes_of(own.second if own.first == self.focus else own.first)[0]
            self.close(self.focus)
            self.focus = heir
        elif word == "next":
            order = panes_of(self.parts)
            self.focus = order[(order.index(self.focus) + 1) % len(order)]


def by_chance(seed, rows=24, cols=80, most=6, closes=0):
    """Return a random session of at least 2 panes; so many of those that were split off are closed and split off again."""
    chance, session = random.Random(seed), Lived(rows, cols)
    count = chance.randint(2, most)
    for _ in range(40):
        if len(session.rects()) < count:
            session.focus = chance.choice(list(session.rects()))
            session.do(f"split {chance.choice(('right', 'down'))}")
            session.do(f"grow {chance.randint(-5, 5)}")
    for _ in range(closes):
        for act in ("close", f"split {chance.choice(('right', 'down'))}")[: 1 if len(session.rects()) > 2 else 2]:
            session.focus = chance.choice(list(session.rects()))
            session.do(act)
    session.focus = chance.choice(list(session.rects()))
    return session


class Attached(Case):
    """A user at a simulated session."""

    def setUp(self):
        self.stop_clock()

    def attach(self, session, size=(24, 80), host=None, **more):
        """Attach a user, and report the pane positions. The session counts as local."""
        self.session, self.shown, self.heard = session, [], []
        self.person = Person(*size, told=session.places(), host=host or PlayedHost(False), **more)
        link = self.person.link
        for act in link.acts:
            session.do(act)
        link.type = lambda *acts, is_pasted=False: link.lines.extend(acts)
        self.take()
        return self.person

    def take(self, times=3):
        """Let the session take input and report, at most so many times. Keep the acts and the view requests."""
        for _ in range(times):
            lines = self.person.said()
            for line in lines:
                if line.split()[0] in SHOWN:
                    self.shown.append(line)
                else:
                    self.heard.append(line)
                    for act in line.split(" ; "):
                        self.session.do(act)
            self.person.tell(self.session.places())
            if not lines:
                return

    def types(self, text):
        """Type, and let the session take it."""
        self.person.keyboard.fed(text)
        self.take()

    def by_another(self, *acts):
        """Let another user act."""
        for act in acts:
            self.session.do(act)
        self.person.tell(self.session.places())
        self.take()
