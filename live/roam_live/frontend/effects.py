"""The effects of modes: plain values, which `Commands` carries out.

Each is a small class of its own, since two tuples with equal fields would be equal, and since dataclasses take longer to load than all of
these together.
"""
from __future__ import annotations

from roam_live.input.keys import Key


class Effect:
    """A value, equal to another of the same class with the same fields."""

    def __eq__(self, other: object) -> bool:
        return type(self) is type(other) and self.__dict__ == other.__dict__

    def __repr__(self) -> str:
        return f"{type(self).__name__}({', '.join(f'{name}={value!r}' for name, value in self.__dict__.items())})"


class KeyEffect(Effect):
    """An effect of a key."""

    def __init__(self, key: Key) -> None:
        self.key = key


class TextEffect(Effect):
    """An effect of a text."""

    def __init__(self, text: str = "") -> None:
        self.text = text


class NumberEffect(Effect):
    """An effect on a numbered object."""

    def __init__(self, number: int) -> None:
        self.number = number


# ---- modes and keys


class StackEffect(Effect):
    """An effect on the stack of modes itself."""


class PopMode(StackEffect):
    """The mode that returned this ends."""


class PassKey(StackEffect, KeyEffect):
    """The modes below take a key."""


class SendLiteral(StackEffect, KeyEffect):
    """The modes below take a key literally: the prefix that is typed twice."""


# ---- the session


class TypeKey(Effect):
    """A key is typed in the focused pane, by its acts."""

    def __init__(self, acts: list[str], key: Key) -> None:
        self.acts, self.key = acts, key


class TypeActs(Effect):
    """Acts other than a key's are typed."""

    def __init__(self, *acts: str) -> None:
        self.acts = list(acts)


class ClosePane(NumberEffect):
    """The focused pane of a window is closed, 0 for a session without windows."""


class SendRequest(TextEffect):
    """The front end sends the pty host a line about windows."""


class BeginPaste(TextEffect):
    """A paste begins. With a reason against it, nothing of it is typed."""


class AddPaste(TextEffect):
    """A part of a paste arrives."""


class EndPaste(Effect):
    """A paste is complete."""


class PasteBuffer(NumberEffect):
    """A paste buffer is pasted, by its number."""


# ---- the front end


class Perform(Effect):
    """The front end carries out the request of a command."""

    def __init__(self, wish: str) -> None:
        self.wish = wish


class TellUnbound(KeyEffect):
    """The last row shows that a key is not bound."""


class ShowStatus(Effect):
    """The last row shows a line, for some seconds, or until it is cleared."""

    def __init__(self, line: str, seconds: float | None) -> None:
        self.line, self.seconds = line, seconds


class ClearStatus(Effect):
    """The message ends."""


class ShowPrompt(TextEffect):
    """The last row shows a line that is being typed."""


class HidePrompt(Effect):
    """A prompt ends."""


class EnterLine(Effect):
    """A line was typed, for a purpose: `command`, `window`, or `name` and a window's number."""

    def __init__(self, purpose: str, text: str) -> None:
        self.purpose, self.text = purpose, text


class HoldKey(KeyEffect):
    """A key waits for a window that isn't there yet, or for a list of windows."""


class ScrollHelp(Effect):
    """The list of keys scrolls, by rows and by pages; it ends if all of it fits."""

    def __init__(self, rows: int, pages: int) -> None:
        self.rows, self.pages = rows, pages


class CloseHelp(Effect):
    """The session replaces the list of keys again, and the modes then take a key if there is one."""

    def __init__(self, key: Key | None = None) -> None:
        self.key = key


class DrawList(Effect):
    """Another line of a list is chosen."""


class CloseList(Effect):
    """A list ends."""


# ---- copy mode


class CopyKey(KeyEffect):
    """Copy mode takes a key."""


class CopyText(TextEffect):
    """Copy mode takes a part of a paste, for its line."""


class OfferPaste(KeyEffect):
    """Copy mode takes a paste into its line; without one it ends, and the modes below take the key."""
