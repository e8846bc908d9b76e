"""Acts that a command types into a session, all or none."""
from __future__ import annotations

import os
import time

from roam_live.cli.connection import opened
from roam_live.cli.targets import pane_places
from roam_live.common.errors import Fault
from roam_live.common.tty import LEAST, MOST
from roam_live.input.key_names import acts_named, acts_of_word
from roam_live.protocol.client_link import MOST_ACTS
from roam_live.protocol.panes import MOST_PANES, MOVES, Places
from roam_live.protocol.server_address import Home

TYPE_CHECKING = False
if TYPE_CHECKING:
    from collections.abc import Callable

    from roam_live.protocol.client_link import ClientLink
    from roam_live.session.folder import SessionFolder

# Seconds in which a session has to take at least one of the acts sent to its client process.
SEND_WAIT = 10.0

# The reports may not show the effect of earlier acts yet. The check repeats for so many seconds, this often.
TOLD_WAIT = 1.0
TOLD_STEP = 0.05


class KnownPanes:
    """The known state of a session's panes after each of several acts."""

    def __init__(self, places: Places | None) -> None:
        # Without reports there is no pane here, and no act is refused.
        self.places = places = places or Places({}, 0)
        # The number of panes; True if their reported positions are still current; and their numbers if known.
        self.count, self.is_told = len(places.rects), True
        self.panes: set[int] | None = set(places.rects)

    def wrong(self, act: str) -> str:
        """Return the reason that an act is impossible, else nothing, and update the known state by the act."""
        word, *rest = act.split()
        if word == "size":
            self.is_told = False
            return wrong_size(*map(int, rest))
        # The program has parsed the act, so the number of words is right.
        does: dict[str, Callable[..., str]] = {"focus": self.focused, "split": self.split, "close": self.closed, "grow": self.grown,
                                               "next": self.passed}
        return does[word](*rest) if word in does and self.count else ""

    def focused(self, pane: str) -> str:
        """Focus a pane, or return the reason of a failure."""
        if self.panes is not None and int(pane) not in self.panes:
            return f"there is no pane {pane}"
        self.places = self.places._replace(focus=int(pane))
        return ""

    def passed(self) -> str:
        """Continue with an unknown focused pane."""
        self.places = self.places._replace(focus=0)
        return ""

    def split(self, way: str) -> str:
        """Add a pane, with the smallest free number and the focus, or return the reason of a failure."""
        if self.count >= MOST_PANES:
            return f"a window has at most {MOST_PANES} panes"
        why = self.places.unsplit(way) if self.is_told else ""
        if why:
            return why
        self.count, self.is_told, pane = self.count + 1, False, 0
        if self.panes is not None:
            pane = next(pane for pane in range(1, MOST_PANES + 1) if pane not in self.panes)
            self.panes.add(pane)
        self.places = self.places._replace(focus=pane)
        return ""

    def closed(self) -> str:
        """Remove the focused pane, or return an error for the last one. The next focused pane is unknown."""
        if self.count == 1:
            return "the last pane ends with its shell"
        if self.panes is not None:
            self.panes = self.panes - {self.places.focus} if self.places.focus in self.panes else None
        self.count, self.is_told = self.count - 1, False
        return self.passed()

    def grown(self, _: str) -> str:
        """Mark the positions as outdated, or return an error for the only pane."""
        self.is_told = False
        return "there is only one pane" if self.count == 1 else ""


def wrong_size(rows: int, cols: int) -> str:
    """Return the reason that a session can't have a size; nothing if it can."""
    if LEAST[0] <= rows <= MOST[0] and LEAST[1] <= cols <= MOST[1]:
        return ""
    return f"a session has {LEAST[0]} to {MOST[0]} rows and {LEAST[1]} to {MOST[1]} columns"


def wrong_in(acts: list[str], places: Places | None) -> str:
    """Return the first impossible act for panes at these positions, and the reason; nothing if all are possible, as far as is known."""
    layout = KnownPanes(places)
    found = ((act, layout.wrong(act)) for act in acts)
    return next((f"cannot do {act!r}: {why}" for act, why in found if why), "")


def demand_acts(session: SessionFolder, acts: list[str]) -> None:
    """Refuse invalid acts, by a client process that takes no turn. The session never hears of it."""
    import re
    import subprocess

    lines = "".join(f"{act}\n" for act in acts)
    words = Home(folder=str(session.folder)).attach_words(["--keys", "/dev/stdin", "--turns", "0"])
    ran = subprocess.run(words, input=os.fsencode(lines), stdout=subprocess.DEVNULL, stderr=subprocess.PIPE, check=False)
    if ran.returncode:
        said = ran.stderr.decode("utf-8", "replace").strip().partition("\n")[0]
        line = re.fullmatch(r"roam: line (\d+): .*", said)
        raise Fault(f"{acts[int(line[1]) - 1]!r} is neither an act of roam(1) nor a key; nothing was typed" if line else said)


def demand_doable(session: SessionFolder, acts: list[str]) -> None:
    """Refuse the acts if one of them is impossible."""
    end = time.monotonic() + TOLD_WAIT
    while True:
        wrong = wrong_in(acts, session.places())
        if not wrong:
            return
        if time.monotonic() > end:
            raise Fault(f"{wrong}; nothing was typed")
        time.sleep(TOLD_STEP)


def are_taken(link: ClientLink) -> bool:
    """Send the waiting lines to a client, and return True if the session takes all of them, some in each ten seconds."""
    end, before = time.monotonic() + SEND_WAIT, link.taken
    while not link.is_done() and time.monotonic() < end:
        if link.exchanged() is None:
            break
        if link.taken != before:
            end, before = time.monotonic() + SEND_WAIT, link.taken
    return link.is_done()


def lines_in_pane(acts: list[str], pane: int, focus: int, leads: str = "") -> list[str]:
    """Return the lines that type acts, each with as many as are typed in one turn; pane 0 is the focused one.

    For another pane, each line first focuses it and afterwards the previous one again, unless an act moves the focus.
    """
    is_moved = any(act.split()[0] in MOVES for act in acts)
    begins = [f"focus {pane}"] if pane not in (0, focus) else []
    ends = [f"focus {focus}"] if begins and not is_moved else []
    if begins and is_moved:
        acts, begins = [*begins, *acts], []
    most = MOST_ACTS - len(begins) - len(ends)
    return [leads + " ; ".join([*begins, *acts[place : place + most], *ends]) for place in range(0, len(acts), most)]


def type_lines(session: SessionFolder, link: ClientLink, lines: list[str]) -> None:
    """Type lines of acts, and return once the session has taken all of them."""
    for line in lines:
        link.say(line)
    is_taken = are_taken(link)
    was_given, has_ended, why = not link.waiting, link.has_ended, link.loss()
    link.close()
    # An act may have ended the session before its acknowledgement arrived.
    if is_taken or has_ended and was_given and not session.runs():
        return
    if has_ended:
        raise Fault(f"session {session.name}: {why}")
    raise Fault(f"session {session.name} accepts no more acts; some may have been typed")


def send_words(session: SessionFolder, words: list[str], pane: int = 0) -> int:
    """Type keys by tmux's names, and any other word's characters, into a session, like `send` types acts."""
    try:
        acts = [act for word in words for act in acts_of_word(os.fsencode(word).decode("utf-8", "replace"))]
    except ValueError as fault:
        raise Fault(f"{fault}; nothing was typed") from None
    # Acts made of keys and characters need no check.
    return type_acts(session, acts, pane)


def send(session: SessionFolder, words: list[str], pane: int = 0) -> int:
    """Type acts, and keys by tmux's names, into a session or one of its panes, and return once the session has taken all."""
    acts = [act for word in words for act in acts_named(word) or [word.replace("\n", "\\n")]]
    if acts:
        demand_acts(session, acts)
    return type_acts(session, acts, pane)


def type_acts(session: SessionFolder, acts: list[str], pane: int) -> int:
    """Type acts into a session, optionally into a pane, and return once it has taken all of them."""
    if not acts:
        raise Fault("there is nothing to type")
    focus = pane_places(session, pane).focus if pane else 0
    demand_doable(session, [f"focus {pane}", *acts] if pane else acts)
    type_lines(session, opened(session, False), lines_in_pane(acts, pane, focus))
    return 0
