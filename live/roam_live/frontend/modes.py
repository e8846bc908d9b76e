"""The meanings of keys as a stack of modes: a mode takes a key and returns effects, which are plain values.

No mode knows the front end, a socket or a terminal. A mode may change only itself and the keymap that all of them share.
"""
from __future__ import annotations

from roam_live.frontend.bindings import DIGITS, MOST_VIEW, NEWEST, PICKS, REPEATS, Keymap, defaults, moves_border, with_meta
from roam_live.frontend.effects import (AddPaste, BeginPaste, ClearStatus, CloseHelp, CloseList, CopyKey, CopyText, DrawList, Effect,
                                        EndPaste, EnterLine, HidePrompt, HoldKey, OfferPaste, PassKey, Perform, PopMode, ScrollHelp,
                                        SendLiteral, ShowPrompt, ShowStatus, StackEffect, TellUnbound, TypeActs, TypeKey)
from roam_live.frontend.line_editor import LEAVES, TAKES, AskedLine
from roam_live.input.keys import ESCAPE, Key, acts_of

# The keys of the scroll mode, with their distances in rows and in pages; and those that end it.
SCROLLS = {"up": (1, 0), "k": (1, 0), "down": (-1, 0), "j": (-1, 0), "prev": (0, 1), "next": (0, -1), "g": (500, 0), "G": (-500, 0)}
SCROLL_ENDS = {"q", "\x1b", "\x03", "\r"}
SCROLLED = "{} rows back: PgUp PgDn up down g G scroll, q ends it"

# The keys that scroll the list of keys, by rows, or by pages.
HELP_ROWS = {"up": -1, "k": -1, "\x10": -1, "down": 1, "j": 1, "\x0e": 1, "g": -9999, "G": 9999}
HELP_PAGES = {"prev": -1, "next": 1, " ": 1}

# The keys that move in a list, with their distances in lines; and those that leave it.
LIST_MOVES = {"up": -1, "k": -1, "\x10": -1, "down": 1, "j": 1, "\x0e": 1, "prev": -10, "next": 10, "g": -99, "G": 99}
LIST_LEAVES = ("q", *LEAVES)

# Sequences for arrows with Meta, other than an escape before the arrow.
WITH_META = {"\x1b[1;3A": "M-up", "\x1b[1;3B": "M-down", "\x1b[1;9A": "M-up", "\x1b[1;9B": "M-down"}

# The reason that a paste as an answer is not typed.
NO_ANSWER = "not pasted: a question was open"


class Mode:
    """The meanings of keys while it is on the stack."""

    # True if it is drawn over panes: while something else covers these, its keys have their other meanings.
    is_drawn = False

    def takes(self, key: Key, now: float) -> list[Effect]:
        """Return the effects of a key at a moment."""
        raise NotImplementedError


class PlainMode(Mode):
    """Types keys, except the prefix and keys bound without it. It is at the bottom of the stack."""

    def __init__(self, keymap: Keymap) -> None:
        self.keymap = keymap

    def takes(self, key: Key, now: float) -> list[Effect]:
        """Return the effects of a key."""
        name, keymap = key.name, self.keymap
        if name == keymap.prefix:
            return [PushMode(PrefixMode(keymap))]
        if name == "paste":
            return [PushMode(PastingMode()), BeginPaste()]
        if name == "pasted":
            return []
        if keymap.repeats(key, now):
            return PrefixMode(keymap).meaning(key, now)
        wish = keymap.own_wish("root", key, now)
        if wish is not None:
            return [Perform(wish)] if wish else []
        return [TypeKey(acts_of(key), key)]


class PrefixMode(Mode):
    """The next key is a command's. Over copy mode the prefix typed twice is always the key itself."""

    def __init__(self, keymap: Keymap, is_over_copy: bool = False) -> None:
        self.keymap, self.is_over_copy = keymap, is_over_copy

    def takes(self, key: Key, now: float) -> list[Effect]:
        """Return the effects of a key; a paste has its usual meaning."""
        return [PopMode(), PassKey(key)] if key.name == "paste" else [PopMode(), *self.meaning(key, now)]

    def meaning(self, key: Key, now: float) -> list[Effect]:
        """Return the effects of a key after the prefix."""
        name, is_prefix = key.name, key.name == self.keymap.prefix
        own = None if is_prefix and self.is_over_copy else self.keymap.own_wish("prefix", key, now)
        if own is not None:
            return [Perform(own) if own else TellUnbound(key)]
        if is_prefix:
            return [SendLiteral(key)]
        asked = defaults().get(name)
        if not asked:
            return [TellUnbound(key)]
        if moves_border(name):
            self.keymap.repeats_until = now + REPEATS
        return [Perform(asked.wish) if asked.wish else TypeActs(*asked.acts)]


class PickingMode(Mode):
    """A digit selects a pane, for PICKS seconds."""

    def __init__(self, now: float) -> None:
        self.until = now + PICKS

    def takes(self, key: Key, now: float) -> list[Effect]:
        """Return the effects of a key. A late one, or one other than a digit, has its usual meaning."""
        if key.name in DIGITS and now < self.until:
            return [PopMode(), TypeActs(f"focus {key.name}"), ClearStatus()]
        return [PopMode(), ClearStatus(), PassKey(key)]


class PastingMode(Mode):
    """A paste has no other meaning, up to its end."""

    def takes(self, key: Key, now: float) -> list[Effect]:
        """Return the effects of a key."""
        return [PopMode(), EndPaste()] if key.name == "pasted" else [AddPaste(key.text)]


class ConfirmMode(Mode):
    """The next key answers a question: y confirms an action."""

    def __init__(self, *yes: Effect) -> None:
        self.yes = yes

    def takes(self, key: Key, now: float) -> list[Effect]:
        """Return the effects of a key. A paste is no answer, and is not typed either."""
        if key.name == "paste":
            return [PopMode(), HidePrompt(), PushMode(PastingMode()), BeginPaste(NO_ANSWER)]
        return [PopMode(), HidePrompt(), *(self.yes if key.name in ("y", "Y") else ())]


class LineMode(Mode):
    """A line is typed in the last row, for a purpose."""

    def __init__(self, asked: AskedLine, purpose: str) -> None:
        self.asked, self.purpose = asked, purpose

    def takes(self, key: Key, now: float) -> list[Effect]:
        """Return the effects of a key: it ends the line or edits it. Pasted text is typed into it."""
        if key.name in LEAVES:
            return [PopMode(), HidePrompt()]
        if key.name in TAKES:
            return [PopMode(), HidePrompt(), EnterLine(self.purpose, self.asked.text)]
        if key.name == "text":
            self.asked.add(key.text)
        else:
            self.asked.edit(key.name)
        return [ShowPrompt(self.asked.line())]


class ScrollMode(Mode):
    """Keys scroll the shared view, if copy mode has no scrollback."""

    def __init__(self, keymap: Keymap) -> None:
        self.keymap = keymap
        # The rows that the focused pane is scrolled back.
        self.view = 0

    def status(self) -> ShowStatus:
        """Return the line with the scrolled distance."""
        return ShowStatus(SCROLLED.format(self.view), None)

    def takes(self, key: Key, now: float) -> list[Effect]:
        """Return the effects of a key. The prefix and a paste end the mode and keep their meanings; an unknown key does nothing."""
        if key.name in SCROLLS:
            return [TypeActs(self.step(*SCROLLS[key.name])), self.status()]
        if key.name in (self.keymap.prefix, "paste"):
            return [PopMode(), TypeActs(NEWEST), ClearStatus(), PassKey(key)]
        return [PopMode(), TypeActs(NEWEST), ClearStatus()] if key.name in SCROLL_ENDS else []

    def step(self, lines: int, pages: int) -> str:
        """Return the act that scrolls by lines and by pages of half the terminal."""
        step = lines + pages * max(1, self.keymap.rows // 2)
        self.view = min(max(self.view + step, 0), MOST_VIEW)
        return f"view {step}"


class HoldMode(Mode):
    """Keys wait for a window that is opening, or for a list of windows that waits for its pane."""

    def takes(self, key: Key, now: float) -> list[Effect]:
        """Return the effects of a key."""
        return [HoldKey(key)]


class HelpMode(Mode):
    """The list of keys covers the session, until a key that does not scroll it."""

    def __init__(self, keymap: Keymap) -> None:
        self.keymap = keymap

    def takes(self, key: Key, now: float) -> list[Effect]:
        """Return the effects of a key. One that ends the list has no other effect, except for the prefix and a paste."""
        if key.name in HELP_ROWS or key.name in HELP_PAGES:
            return [ScrollHelp(HELP_ROWS.get(key.name, 0), HELP_PAGES.get(key.name, 0))]
        return [PopMode(), CloseHelp(key if key.name in (self.keymap.prefix, "paste") else None)]


class ListLine:
    """A line of a list: its text, the last row's text while it is chosen, and its action."""

    def __init__(self, text: str, status: str, *effects: Effect) -> None:
        self.text, self.status, self.effects = text, status, effects


class ListMode(Mode):
    """A list over the focused pane, from which keys choose a line. Some choose one directly."""

    is_drawn = True

    def __init__(self, keymap: Keymap, lines: list[ListLine], chosen: int = 0, shortcuts: dict[str, Effect] | None = None) -> None:
        self.keymap, self.lines, self.chosen, self.shortcuts = keymap, lines, chosen, shortcuts or {}

    def takes(self, key: Key, now: float) -> list[Effect]:
        """Return the effects of a key. The prefix and a paste end the list and keep their meanings."""
        if key.name in self.shortcuts:
            return [CloseList(), self.shortcuts[key.name]]
        if key.name in (self.keymap.prefix, "paste"):
            return [CloseList(), PassKey(key)]
        if key.name in LIST_MOVES:
            self.choose(self.chosen + LIST_MOVES[key.name])
            return [DrawList()]
        if key.name in TAKES:
            return [CloseList(), *self.lines[self.chosen].effects]
        return [CloseList()] if key.name in LIST_LEAVES else []

    def choose(self, place: int) -> None:
        """Choose another line, or the nearest one."""
        self.chosen = max(0, min(place, len(self.lines) - 1))


class CopyKeysMode(Mode):
    """Keys belong to copy mode, except for commands after the prefix. An escape and a key right after it are one key with Meta."""

    is_drawn = True

    def __init__(self, keymap: Keymap) -> None:
        self.keymap = keymap
        # An escape that waits for the next key.
        self.escape: Key | None = None

    def takes(self, key: Key, now: float) -> list[Effect]:
        """Return the effects of a key."""
        if key.name == "paste":
            return [OfferPaste(key)]
        if now < self.keymap.repeats_until and moves_border(key.name):
            return [PassKey(key)]
        if key.name == self.keymap.prefix and self.escape is None:
            return [PushMode(PrefixMode(self.keymap, is_over_copy=True))]
        return self.fed(key)

    def fed(self, key: Key) -> list[Effect]:
        """Return the complete keys."""
        before, self.escape = self.escape, key if key.name == ESCAPE and not self.escape else None
        if before:
            return [CopyKey(Key(f"M-{key.name}", before.text + key.text))]
        return [] if self.escape else [CopyKey(Key(WITH_META.get(key.text, key.name), key.text))]

    def ended(self) -> list[Effect]:
        """Return an escape without a successor."""
        before, self.escape = self.escape, None
        return [CopyKey(before)] if before else []


class CopyPasteMode(Mode):
    """A paste into a line of copy mode. The part that arrives after the line is gone is dropped."""

    def takes(self, key: Key, now: float) -> list[Effect]:
        """Return the effects of a key."""
        return [CopyText(key.text)] if key.name == "text" else [PopMode()]


class PushMode(StackEffect):
    """Another mode takes the keys from here on."""

    def __init__(self, mode: Mode) -> None:
        self.mode = mode


class ModeStack:
    """The modes of one user: the plain one, at most one over panes, and those above."""

    def __init__(self, keymap: Keymap) -> None:
        self.keymap, self.plain = keymap, PlainMode(keymap)
        self.drawn: Mode | None = None
        self.pushed: list[Mode] = []

    # ---- current modes

    def has(self, *kinds: type[Mode]) -> bool:
        """Return True if one of the modes above the plain one is of these kinds."""
        return any(isinstance(mode, kinds) for mode in self.pushed)

    def is_typing(self) -> bool:
        """Return True if keys go to the focused pane, or will after the prefix or a digit."""
        return all(isinstance(mode, (PrefixMode, PickingMode)) for mode in self.pushed)

    def push(self, mode: Mode) -> None:
        """Push a mode; a prompt replaces another."""
        if isinstance(mode, (ConfirmMode, LineMode)):
            self.drop(ConfirmMode, LineMode)
        self.pushed.append(mode)

    def drop(self, *kinds: type[Mode]) -> None:
        """Remove the modes of these kinds."""
        self.pushed = [mode for mode in self.pushed if not isinstance(mode, kinds)]

    def remove(self, gone: Mode | None) -> None:
        """Remove a mode, if it is on the stack."""
        self.pushed = [mode for mode in self.pushed if mode is not gone]
        if gone is self.drawn:
            self.drawn = None

    # ---- taking keys

    def whole(self, keys: list[Key], place: int) -> tuple[Key, int]:
        """Return the key at an index, and the number of keys that it comprises.

        Behind the prefix an escape and the next key are one with Meta, bound or not, so that no part of an unbound key is typed. An escape
        that comes alone has waited for more.
        """
        is_before = bool(self.pushed) and place + 1 < len(keys) and isinstance(self.pushed[-1], PrefixMode)
        one = with_meta(keys[place], keys[place + 1]) if is_before else None
        return (one, 2) if one else (keys[place], 1)

    def takes(self, key: Key, now: float, is_covered: bool = False) -> list[Effect]:
        """Return the effects of a key. While a notice covers the panes, popups over them take no key."""
        lowest = self.drawn if self.drawn and not is_covered else self.plain
        return self.taken_by(self.pushed[-1] if self.pushed else lowest, key, now, is_covered)

    def lowest(self) -> Mode:
        """Return the mode for keys typed before later modes began: the scroll mode, or the plain one."""
        return self.pushed[0] if self.pushed and isinstance(self.pushed[0], ScrollMode) else self.plain

    def below(self, mode: Mode, is_covered: bool) -> Mode:
        """Return the mode below another."""
        place = next((place for place, one in enumerate(self.pushed) if one is mode), 0)
        if place:
            return self.pushed[place - 1]
        return self.drawn if self.drawn and self.drawn is not mode and not is_covered else self.plain

    def taken_by(self, mode: Mode, key: Key, now: float, is_covered: bool) -> list[Effect]:
        """Return the effects of a key in a mode, after the changes to the modes."""
        found: list[Effect] = []
        below = self.below(mode, is_covered) if mode is not self.plain else mode
        for effect in mode.takes(key, now):
            if not isinstance(effect, StackEffect):
                found.append(effect)
            elif isinstance(effect, PushMode):
                self.push(effect.mode)
            elif isinstance(effect, PassKey):
                found += self.taken_by(below, effect.key, now, is_covered)
            elif isinstance(effect, SendLiteral):
                found += self.literal(effect.key, is_covered)
            else:
                self.remove(mode)
        return found

    def literal(self, key: Key, is_covered: bool) -> list[Effect]:
        """Return the effects of a key without a command: copy mode takes it, or it is typed."""
        return self.drawn.fed(key) if isinstance(self.drawn, CopyKeysMode) and not is_covered else [TypeKey(acts_of(key), key)]

    # ---- the scroll mode

    def scroll_mode(self) -> ScrollMode:
        """Return the scroll mode. If it is not on the stack, insert it below later modes."""
        found = next((mode for mode in self.pushed if isinstance(mode, ScrollMode)), None)
        if not found:
            found = ScrollMode(self.keymap)
            self.pushed.insert(0, found)
        return found

    def scroll_by(self, rows: int) -> tuple[str, str]:
        """Scroll by rows, like a mouse: return the act, and the line for the last row. The newest rows end the mode, without a line."""
        mode = self.scroll_mode()
        mode.view = min(max(rows + mode.view, 0), MOST_VIEW)
        if mode.view:
            return f"view {rows}", mode.status().line
        self.remove(mode)
        return NEWEST, ""


# ---- while a notice covers the session

# The permitted requests. Nothing is typed, since the user could not see the target.
UNDER_NOTICE = ("detach", "suspend", "repaint", "help")

# The start of a request to go to a window, which is always permitted.
GOES = "go "


def is_granted(effect: Effect, wishes: tuple[str, ...]) -> bool:
    """Return True if an effect is one of these requests, or goes to a window."""
    return isinstance(effect, Perform) and (effect.wish in wishes or effect.wish.startswith(GOES))


def under_notice(effects: list[Effect]) -> list[Effect]:
    """Return the effects that a notice over the session permits."""
    kept = (BeginPaste, AddPaste, EndPaste, HidePrompt, ShowPrompt, EnterLine, ClearStatus, ScrollHelp, CloseHelp, CopyText, HoldKey)
    return [effect for effect in effects if isinstance(effect, kept) or effect == TypeActs(NEWEST) or is_granted(effect, UNDER_NOTICE)]


def while_paused(effects: list[Effect]) -> list[Effect]:
    """Return the effects that work without a connection to the session."""
    kept = (BeginPaste, AddPaste, EndPaste, HidePrompt, ClearStatus, HoldKey)
    return [effect for effect in effects if isinstance(effect, kept) or is_granted(effect, ())]


def leaves_paused(key: Key, effects: list[Effect]) -> bool:
    """Return True if a key leaves a session without a connection: C-c or q, unless it is pasted or waits, or the command for that."""
    is_taken = any(isinstance(effect, (AddPaste, EndPaste, HoldKey)) for effect in effects)
    return Perform("detach") in effects or key.name in ("\x03", "q") and not is_taken
