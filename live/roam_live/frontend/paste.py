"""A user's pastes, buffered until their end, and the input after them."""
from __future__ import annotations

from roam_live.common.event_loop import Loop
from roam_live.input.keys import pasted_acts
from roam_live.protocol.client_link import TYPES, ClientLink
from roam_live.protocol.host_client import HostClient
from roam_live.protocol.host_link import LATER, NO_HOST
from roam_live.protocol.panes import MOVES
from roam_live.protocol.panes_client import PanesSubscriber
from roam_live.protocol.paste_text import INSERTED, LOST, MOST_BYTES, STORED, cleaned, placeholder_acts, placeholder_in, random_name

TYPE_CHECKING = False
if TYPE_CHECKING:
    from collections.abc import Callable, Iterable, Sequence

# The most characters of a paste that is typed as acts.
SHORT = 40

# A paste without further input for so many seconds counts as complete, in case the terminal never reports its end.
ENDS = 5.0

# Seconds for a host to store a text, counted each second, without outages.
HANDING = 60.0
COUNTS = 1.0

# The most acts that wait after a paste. Later keys are dropped, except for C-c.
MOST_BEHIND = 1 << 16

# After the message that a paste is not typed, keys are dropped for so many seconds, since they were typed after it.
DROPS = 1.0

# The reason that a paste goes to one pane and not to several.
ALONE = "pasted into the active pane only: {}"
NO_TEXTS = "the pty host accepts no texts"
NO_ROOM = f"for all panes it exceeds {MOST_BYTES >> 20} MB"

# The act of C-c, which drops the waiting input.
INTERRUPT = "char 3"

NOT_TAKEN = "not pasted: the pty host accepts nothing"
NOTHING = "not pasted: {}"
WAITS = "the paste waits: {}"
DROPPED = "the waiting pastes were dropped"
BEHIND_IT = "{}; the input behind it was dropped"
FULL_BEHIND = "keys were dropped: too many wait behind a paste; C-c drops all of them"
LOST_WORDS = "the last paste was lost: the pty host ended, or it waited too long"
TOO_LONG = f"not pasted: it exceeds {MOST_BYTES >> 20} MB, alone or with the pastes before it"


class Behind:
    """Acts typed after a paste: as pasted ones, together in a line of their own, or neither."""

    def __init__(self, acts: tuple[str, ...], is_pasted: bool = False, is_together: bool = False) -> None:
        self.acts, self.is_pasted, self.is_together = acts, is_pasted, is_together

    def type_at(self, link: ClientLink) -> None:
        """Type them."""
        if self.is_together:
            link.say(" ; ".join(self.acts))
        else:
            link.type(*self.acts, is_pasted=self.is_pasted)

    def without_keys(self) -> Behind:
        """Return only the acts that do not go to a program: those that move the focus or change the session's size."""
        kept = () if self.is_pasted else tuple(act for act in self.acts if not act.startswith(TYPES))
        return Behind(kept, is_together=self.is_together)

    def from_move(self) -> Behind | None:
        """Return the same without the keys before the act that moves the focus; None if none does. A line that types in several panes moves
        the focus there and back.
        """
        place = next((place for place, act in enumerate(self.acts) if act.startswith(MOVES)), None)
        if place is None or self.is_pasted or self.is_together and any(act.startswith(TYPES) for act in self.acts):
            return None
        return Behind(Behind(self.acts[:place]).without_keys().acts + self.acts[place:], is_together=self.is_together)


class Paste:
    """A paste whose placeholder is typed once the pty host has stored it: a text, or one of the host's buffers by number.

    It may be for another pane than the focused one.
    """

    def __init__(self, text: str, is_bracketed: bool, buffer: int | None = None, focuses: tuple[int, int] | None = None) -> None:
        self.name, self.text, self.is_bracketed, self.buffer = random_name(), text, is_bracketed, buffer
        # The pane that gets the focus for it, and the one that gets it back.
        self.focuses = focuses
        self.is_stored = False
        # The seconds of its wait, and the moment of the last count.
        self.waited = self.counted = 0.0
        # The reason to report if it is never stored.
        self.why = NOT_TAKEN

    def line(self) -> str:
        """Return the line that types its placeholder, which no other acts join."""
        there, *back = [f"focus {pane}" for pane in self.focuses or ()] or [""]
        return " ; ".join(filter(None, ["paste", there, *placeholder_acts(self.name), *back]))


class Pastes:
    """Pastes and acts in order: a short paste as acts, a longer one as a placeholder, with its text stored at the host.

    Calls show a message, and return True during an outage, such as a silent server.
    """

    def __init__(self, link: ClientLink, host: HostClient, loop: Loop, tells: Callable[[str], object],
                 is_cut: Callable[[], object]) -> None:
        self.link, self.host, self.loop, self.tells, self.is_cut = link, host, loop, tells, is_cut
        self.waiting: list[Behind | Paste] = []
        # The number of waiting acts among them.
        self.behind = 0
        # The end of the time in which keys are dropped after a failed paste, and the reason.
        self.drops_until, self.drops_why = 0.0, ""
        host.answers = self.answered

    # ---- storing

    def handing(self) -> int:
        """Return the number of characters that wait to be stored."""
        return sum(len(one.text) for one in self.waiting if isinstance(one, Paste))

    def hand(self, paste: Paste) -> None:
        """Wait until the host has stored a paste."""
        self.waiting.append(paste)
        paste.counted = self.loop.clock()
        self.loop.later(f"hand {paste.name}", COUNTS, lambda: self.count(paste))

    def count(self, paste: Paste) -> None:
        """Count the waiting time of a paste, without outages and stops of this process. After too long, continue without the paste."""
        now = self.loop.clock()
        if not self.is_cut():
            paste.waited += min(now - paste.counted, 2 * COUNTS)
        paste.counted = now
        if paste.waited >= HANDING:
            self.fail(paste, paste.why)
        else:
            self.loop.later(f"hand {paste.name}", COUNTS, lambda: self.count(paste))

    # ---- the host's answers

    def answered(self, name: str, word: str, more: str) -> None:
        """Take the host's report about a text."""
        paste = next((one for one in self.waiting if isinstance(one, Paste) and one.name == name), None)
        if not paste:
            if word == LOST and self.loop.clock() >= self.drops_until:
                self.tells(LOST_WORDS)
            return
        if word == LATER:
            self.tells(WAITS.format(more))
            paste.why = NOTHING.format(more)
            return
        if word == STORED:
            paste.is_stored = True
        elif word == INSERTED:
            self.waiting.remove(paste)
        elif word == NO_HOST and paste.focuses:
            self.waiting.remove(paste)
            self.tells(ALONE.format(NO_TEXTS))
        elif word == NO_HOST and paste.buffer is None:
            typed = Behind(tuple(pasted_acts(paste.text, paste.is_bracketed)), True)
            self.waiting[self.waiting.index(paste)] = typed
            self.behind += len(typed.acts)
        else:
            self.fail(paste, LOST_WORDS if word == LOST else NOTHING.format(more) if more else NOT_TAKEN)
            return
        self.loop.drop(f"hand {name}")
        self.type_waiting()

    def refuse(self, why: str, is_lost: bool = False) -> None:
        """Show the reason that a paste isn't typed, and note if later input is lost. Keys of the next moment count as later input too."""
        self.tells(BEHIND_IT.format(why) if is_lost else why)
        self.drops_until, self.drops_why = self.loop.clock() + DROPS, "" if is_lost else why

    def fail(self, paste: Paste, why: str) -> None:
        """Drop a paste with the input after it, up to the next act that moves the focus. Alone that input might mean something else."""
        waiting = list(self.waiting)
        place = waiting.index(paste)
        self.cancel(paste)
        left, has_moved = self.left_of(waiting[place + 1 :], is_to_move=True)
        self.wait_for([*waiting[:place], *left])
        self.refuse(why, weight(left) < weight(waiting[place + 1 :]))
        if has_moved:
            self.drops_until = 0.0
        self.type_waiting()

    def drop_waiting(self) -> None:
        """Drop the waiting pastes, and all keys between and after them. Other acts are typed, since they determine the focus and the
        session's size.

        Nothing is typed before all pastes are gone, since the first of them may delay the others.
        """
        left, _ = self.left_of(self.waiting)
        self.wait_for(left)
        self.tells(DROPPED)
        self.type_waiting()

    def left_of(self, waiting: Iterable[Behind | Paste], is_to_move: bool = False) -> tuple[list[Behind | Paste], bool]:
        """Drop these pastes and keys, or with `is_to_move` those before the act that moves the focus. Return the rest, and True if there is
        such an act.
        """
        left: list[Behind | Paste] = []
        has_moved = False
        for one in waiting:
            if has_moved:
                left.append(one)
            elif isinstance(one, Paste):
                self.cancel(one)
            else:
                move = one.from_move() if is_to_move else None
                has_moved = move is not None
                left.append(move or one.without_keys())
        return [one for one in left if isinstance(one, Paste) or one.acts], has_moved

    def wait_for(self, waiting: Sequence[Behind | Paste]) -> None:
        """Replace the waiting acts and pastes by these."""
        self.waiting = list(waiting)
        self.behind = sum(len(one.acts) for one in waiting if isinstance(one, Behind))

    def cancel(self, paste: Paste) -> None:
        """Stop storing a paste."""
        self.host.cancel(paste.name)
        self.loop.drop(f"hand {paste.name}")

    # ---- typing

    def type(self, *acts: str, is_pasted: bool = False) -> None:
        """Type acts, after the waiting pastes; a C-c drops these."""
        if not is_pasted:
            self.drop_by(acts)
            if self.drops_until or self.is_full():
                acts = self.taken(acts)
        if self.waiting:
            self.put(Behind(acts, is_pasted))
        elif acts:
            self.link.type(*acts, is_pasted=is_pasted)

    def type_lines(self, lines: list[list[str]]) -> None:
        """Type keys in lines of their own, after the waiting pastes; a C-c drops these."""
        for acts in lines:
            self.drop_by(acts)
            if not self.drops():
                self.put(Behind(tuple(acts), is_together=True))

    def type_together(self, *acts: str) -> None:
        """Type acts in a line of their own, after the waiting pastes."""
        if any(act.startswith(MOVES) for act in acts):
            self.drops_until = 0.0
        self.put(Behind(acts, is_together=True))

    def drop_by(self, acts: Sequence[str]) -> None:
        """If a C-c is among acts, drop the waiting pastes and the keys after them. The C-c is typed in any case."""
        if INTERRUPT in acts:
            self.interrupt()

    def interrupt(self) -> None:
        """Drop waiting pastes and the keys after them, also those that the client hasn't read, so that C-c is typed at once.

        Keys typed without a paste before them stay.
        """
        self.drops_until = 0.0
        dropped = self.link.drop_pasted()
        for line in dropped:
            name = placeholder_in(line.split(" ; "))
            if name:
                self.host.cancel(name)
        if self.waiting:
            self.drop_waiting()
        elif dropped:
            self.tells(DROPPED)

    def taken(self, acts: tuple[str, ...]) -> tuple[str, ...]:
        """Return the acts to type while keys are dropped: all from the act that moves the focus on, and no keys before it."""
        move = Behind(acts).from_move()
        if any(act.startswith(TYPES) for act in acts) and self.drops():
            acts = (move if move and not self.is_full() else Behind(acts).without_keys()).acts
        if move:
            self.drops_until = 0.0
        return acts

    def drops(self) -> bool:
        """Return True if keys are dropped now, and show that: too much input waits, or they follow a paste that failed."""
        if self.is_full():
            self.tells(FULL_BEHIND)
            return True
        if self.loop.clock() >= self.drops_until:
            self.drops_until = 0.0
            return False
        if self.drops_why:
            self.tells(BEHIND_IT.format(self.drops_why))
            self.drops_why = ""
        return True

    def put(self, acts: Behind) -> None:
        """Type these acts, at once if no paste waits."""
        if not acts.acts:
            return
        if self.waiting:
            self.waiting.append(acts)
            self.behind += len(acts.acts)
        else:
            acts.type_at(self.link)

    def type_waiting(self) -> None:
        """Type everything that may be typed now."""
        while self.waiting:
            first = self.waiting[0]
            if isinstance(first, Behind):
                first.type_at(self.link)
                self.behind -= len(first.acts)
            elif first.is_stored:
                self.link.say(first.line())
            else:
                return
            del self.waiting[0]

    def is_full(self) -> bool:
        """Return True if too much input waits after a paste to accept more keys."""
        return self.behind >= MOST_BEHIND or self.link.is_full_behind()

    def hands_over(self) -> bool:
        """Return True if a paste waits to be stored."""
        return bool(self.waiting)


class PasteIntake:
    """A paste during its arrival. A call returns the reason if pastes are refused now."""

    def __init__(self, pastes: Pastes, panes: PanesSubscriber, refuses: Callable[[], str]) -> None:
        self.pastes, self.panes, self.refuses = pastes, panes, refuses
        self.loop, self.tells = pastes.loop, pastes.tells
        # Its text so far, and the reason if it is not typed.
        self.chunks: list[str] = []
        self.size = 0
        self.why = ""
        # The panes that get the paste, the focused one first; none if only that gets it.
        self.spreads: Callable[[], list[int]] = list

    def begin(self, why: str = "") -> None:
        """Begin a paste. With a reason, or if pastes are refused now or at its end, nothing of it is typed."""
        self.chunks, self.size, self.why = [], 0, why or self.refuses()

    def add(self, text: str) -> None:
        """Add a part of it."""
        self.size += len(text)
        if not self.why and self.size + self.pastes.handing() > MOST_BYTES:
            self.why = TOO_LONG
        if self.why:
            self.chunks = []
        else:
            self.chunks.append(text)
        self.loop.later("paste", ENDS, self.end)

    def end(self) -> None:
        """End a paste."""
        self.loop.drop("paste")
        text, why = cleaned("".join(self.chunks)), self.why or self.refuses()
        self.chunks, self.size = [], 0
        if why == TOO_LONG:
            self.pastes.refuse(why)
        elif why:
            self.tells(why)
        elif text:
            self.paste(text)

    def break_off(self) -> None:
        """Abandon a paste, whose rest does not come here, and type nothing of it."""
        self.loop.drop("paste")
        self.chunks, self.size = [], 0

    def paste(self, text: str) -> None:
        """Type a short text as acts, and store a longer one at the host.

        It is also stored if bracketed paste is unknown here, as for a remote session.
        """
        panes = self.spreads()
        if panes and self.is_spread(text, panes):
            return
        is_bracketed = self.panes.wants_brackets()
        is_short = len(text) <= SHORT and self.panes.knows_modes()
        if is_short or not self.pastes.host.takes_texts():
            self.pastes.type(*pasted_acts(text, is_bracketed), is_pasted=True)
            return
        paste, data = Paste(text, is_bracketed), text.encode("utf-8", "replace")
        if len(data) > MOST_BYTES or not self.pastes.host.has_room(len(data)):
            self.pastes.refuse(TOO_LONG)
            return
        self.pastes.host.store(paste.name, data)
        self.pastes.hand(paste)

    def is_spread(self, text: str, panes: list[int]) -> bool:
        """Store a text for each of these panes, with a placeholder of its own, and return True; or show the reason of a failure."""
        data = text.encode("utf-8", "replace")
        if not self.pastes.host.takes_texts():
            self.tells(ALONE.format(NO_TEXTS))
            return False
        if len(data) * len(panes) > MOST_BYTES or not self.pastes.host.has_room(len(data) * len(panes)):
            self.tells(ALONE.format(NO_ROOM))
            return False
        for pane in panes:
            paste = Paste(text, False, focuses=(pane, panes[0]) if pane != panes[0] else None)
            self.pastes.host.store(paste.name, data)
            self.pastes.hand(paste)
        return True

    def paste_buffer(self, number: int) -> None:
        """Paste one of the host's buffers."""
        why = self.refuses()
        if why:
            self.tells(why)
            return
        panes = self.spreads() or [0]
        for pane in panes:
            paste = Paste("", False, number, (pane, panes[0]) if pane != panes[0] else None)
            self.pastes.host.store(paste.name, number)
            self.pastes.hand(paste)


def weight(waiting: Iterable[Behind | Paste]) -> int:
    """Return the number of waiting acts and pastes."""
    return sum(1 if isinstance(one, Paste) else len(one.acts) for one in waiting)
