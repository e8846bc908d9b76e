"""A stack of modes without a front end: the effects of each key in a text, as values or in words."""
from roam_live.frontend.bindings import Keymap
from roam_live.frontend.effects import BeginPaste, ClearStatus, Perform, ShowStatus, TellUnbound, TypeActs, TypeKey
from roam_live.frontend.modes import CopyKeysMode, ModeStack, PickingMode
from roam_live.input.keys import Keys, acts_of


class PlayedModes:
    """The modes of a user at a session without scrollback, so that the shared view scrolls in place of copy mode."""

    def __init__(self, prefix="C-b", own=None):
        self.stack = ModeStack(Keymap(prefix))
        self.stack.keymap.own = own or {}

    def asked(self, text, now=1.0, rows=24):
        """Return the effects of each key in a text."""
        keys, found, place = Keys(), [], 0
        self.stack.keymap.rows = rows
        typed = self.stack.keymap.joined(keys.fed(text) + keys.ended())
        while place < len(typed):
            key, count = self.stack.whole(typed, place)
            place += count
            found.append([more for effect in self.stack.takes(key, now) for more in self.follow(effect, now)])
        return found

    def follow(self, effect, now):
        """Apply an effect that begins another mode."""
        wish = effect.wish if isinstance(effect, Perform) else ""
        if wish == "panes":
            self.stack.push(PickingMode(now))
        if wish not in ("copy", "copy page"):
            return [effect]
        mode = self.stack.scroll_mode()
        mode.view = 0
        scrolled = [TypeActs(mode.step(0, 1))] if wish == "copy page" else []
        return [*scrolled, mode.status()]

    def told(self, text, now=1.0, rows=24):
        """Return the effects of each key in a text, as typed acts, and a word for others."""
        return [in_words(effects) for effects in self.asked(text, now, rows)]


def in_words(effects):
    """Return the acts of effects, and a word for others."""
    acts = [act for effect in effects if isinstance(effect, (TypeKey, TypeActs)) for act in effect.acts]
    words = {TellUnbound: "unknown", ShowStatus: "scroll", ClearStatus: "over", BeginPaste: "paste"}
    rest = [effect.wish if isinstance(effect, Perform) else words.get(type(effect), "") for effect in effects]
    return acts, " ".join(filter(None, rest))


class NoWindows:
    """The windows of a session limited to one, with the interface of others."""

    @property
    def waiting(self):
        """Return itself: no window is awaited."""
        return self

    def why_one(self):
        """Return the reason that there is no other window."""
        return "there is only one window"

    def is_full(self):
        """Return False: no key waits."""
        return False

    def told_panes(self, *_):
        """Do nothing, whatever the request is."""

    grant = say = hold = told_panes


def acts_of_bytes(text):
    """Return the acts of bytes that arrive at once without any later ones."""
    keys = Keys()
    return [act for key in keys.fed(text) + keys.ended() for act in acts_of(key)]


def copy_keys(text):
    """Return the keys of bytes that arrive at once, in copy mode's form."""
    mode, keys = CopyKeysMode(Keymap()), Keys()
    whole = [effect for key in keys.fed(text) + keys.ended() for effect in mode.fed(key)] + mode.ended()
    return [effect.key for effect in whole]
