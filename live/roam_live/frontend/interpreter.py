"""Reads a user's input, asks the modes for its effects, and carries them out."""
from __future__ import annotations

import os
import time

from roam_live.common.event_loop import Loop
from roam_live.common.signals import signal
from roam_live.config.environment import ESCAPE_TIME, number_of
from roam_live.config.user_file import OWN
from roam_live.frontend import effects
from roam_live.frontend.bindings import FOOT, OWN as OWN_KEY, PICKS, help_of
from roam_live.frontend.commands import Commands
from roam_live.frontend.display import Display
from roam_live.frontend.effects import Effect
from roam_live.frontend.modes import (GOES, CopyKeysMode, CopyPasteMode, HelpMode, HoldMode, LineMode, Mode, ModeStack, PastingMode,
                                      PickingMode, PrefixMode, leaves_paused, under_notice, while_paused)
from roam_live.input.extended_keys import ANSWERED
from roam_live.input.keys import Key, Keys
from roam_live.input.mouse_reports import FOCUSED, MOUSE
from roam_live.protocol.colours import COLOUR
from roam_live.protocol.panes import BESIDE
from roam_live.protocol.presence import LEAVE_OTHERS
from roam_live.protocol.window_lines import name_word

TYPE_CHECKING = False
if TYPE_CHECKING:
    from collections.abc import Callable

    from roam_live.frontend.interfaces import OtherWindows

# Events among the keys that are reports of the terminal.
REPORTED = (COLOUR, ANSWERED, MOUSE, FOCUSED)

# Seconds for other terminals to detach, and for the message with their number.
LEAVES_IN = 2.0
OTHERS_STAY = "cannot detach the others: the pty host does not answer"

# The key that detaches after the prefix by default.
DETACHES = "d"

# The message for an unbound key.
UNBOUND = "{0} {1} is not bound; {0} ? lists the keys"

# The functions of requests by first word, for every user; and those that a read-only user may not make.
ANYBODY: dict[str, Callable[[Interpreter, Commands, str], object]] = {
    "detach": lambda keyboard, commands, wish: commands.leave("[detached]"),
    # The signal arrives like one from elsewhere, once the input is read.
    "suspend": lambda keyboard, commands, wish: os.kill(os.getpid(), signal.SIGTSTP),
    "repaint": lambda keyboard, commands, wish: commands.follower.repaint(),
    "row": lambda keyboard, commands, wish: commands.follower.switch_row(),
    "help": lambda keyboard, commands, wish: keyboard.show_help(),
    "copy": lambda keyboard, commands, wish: commands.copy(wish),
    **dict.fromkeys((OWN_KEY, "command", "settings"), lambda keyboard, commands, wish: keyboard.runs(wish)),
    **dict.fromkeys(("go", "window"), lambda keyboard, commands, wish: keyboard.windows().grant(wish)),
}
EDITORS: dict[str, Callable[[Interpreter, Commands, str], object]] = {
    "close": lambda keyboard, commands, wish: commands.panes.close(),
    "mouse": lambda keyboard, commands, wish: commands.pointing.switch(),
    "leave": lambda keyboard, commands, wish: keyboard.leave_others(),
    "zoom": lambda keyboard, commands, wish: commands.zooming.switch(),
    "even": lambda keyboard, commands, wish: commands.border_keys.ask("even"),
    "border": lambda keyboard, commands, wish: commands.border_keys.ask(wish.split()[-1]),
    "last": lambda keyboard, commands, wish: commands.panes.go_back(),
    "synchronize": lambda keyboard, commands, wish: commands.synchronizing.switch(),
    "split": lambda keyboard, commands, wish: commands.panes.split(wish),
    "panes": lambda keyboard, commands, wish: keyboard.pick_pane(),
    **dict.fromkeys(("paste", "choose"), lambda keyboard, commands, wish: commands.ask_buffers(is_newest=wish == "paste")),
    **dict.fromkeys(BESIDE, lambda keyboard, commands, wish: commands.panes.go(wish)),
}


class Interpreter:
    """Carries out the effects of one user's modes. Calls return the commands of the current window, and all windows."""

    def __init__(self, modes: ModeStack, display: Display, loop: Loop, commands: Callable[[], Commands],
                 windows: Callable[[], OtherWindows]) -> None:
        self.modes, self.display, self.loop, self.commands = modes, display, loop, commands
        self.windows: Callable[[], OtherWindows] = windows
        self.keys = Keys()
        # The list of keys, current or last.
        self.help = ""
        # Calls that run the commands of a user's own keys, and take a typed command. The third returns the commands of a previous window,
        # None if nothing of it continues.
        self.runs: Callable[[str], object] = lambda wish: None
        self.enters: Callable[[str], object] = lambda text: None
        self.left_window: Callable[[int], Commands | None] = lambda number: None
        now = commands
        self.does: dict[type[Effect], Callable[..., object]] = {
            effects.TypeKey: lambda asked: now().type_key(asked.acts, asked.key),
            effects.TypeActs: lambda asked: now().acts.act(*asked.acts),
            effects.ClosePane: self.close_pane,
            effects.SendRequest: lambda asked: windows().say(asked.text),
            effects.BeginPaste: lambda asked: now().acts.intake.begin(asked.text),
            effects.AddPaste: lambda asked: now().acts.intake.add(asked.text),
            effects.EndPaste: lambda asked: now().end_paste(),
            effects.PasteBuffer: lambda asked: now().acts.intake.paste_buffer(asked.number),
            effects.Perform: lambda asked: self.grant(asked.wish),
            effects.TellUnbound: self.tell_unbound,
            effects.ShowStatus: lambda asked: display.row.tell(asked.line, asked.seconds),
            effects.ClearStatus: lambda asked: display.row.end_told(),
            effects.ShowPrompt: lambda asked: display.row.ask(asked.text, is_typed=True),
            effects.HidePrompt: lambda asked: display.row.end_prompt(),
            effects.EnterLine: self.enter,
            effects.HoldKey: lambda asked: windows().waiting.hold(asked.key),
            effects.ScrollHelp: self.scroll_help,
            effects.CloseHelp: self.close_help,
            effects.DrawList: lambda asked: now().lists.draw(),
            effects.CloseList: lambda asked: now().lists.close(),
            effects.CopyKey: lambda asked: now().copying.take_key(asked.key),
            effects.CopyText: lambda asked: now().copying.take_text(asked.text),
            effects.OfferPaste: self.offer_paste,
        }

    def choose(self, prefix: str) -> None:
        """Make the key of this name the prefix."""
        self.modes.keymap.choose(prefix)
        self.modes.keymap.rows = self.display.outer.size()[0]
        self.display.row.name_keys(prefix, self.commands().link.is_read_only)

    # ---- input

    def fed(self, chunk: bytes) -> None:
        """Take typed bytes."""
        self.typed(self.keys.fed(chunk))
        self.loop.drop("escape")
        if self.keys.waits():
            self.loop.later("escape", number_of("escape-time", ESCAPE_TIME) / 1000, lambda: self.typed(self.keys.ended()))

    def typed(self, keys: list[Key]) -> None:
        """Take keys. Those after one that goes to another window, or opens one, belong to that window."""
        here = self.commands()
        here.follower.follow_latest()
        keys = self.modes.keymap.joined(keys)
        place = 0
        while place < len(keys):
            if place and self.commands() is not here:
                here = self.commands()
                here.follower.follow_latest()
            key, count = self.modes.whole(keys, place) if self.modes.pushed else (keys[place], 1)
            self.take_any(key)
            place += count
        if isinstance(self.modes.drawn, CopyKeysMode):
            self.carry_out(self.modes.drawn.ended())
        self.commands().synchronizing.settle()

    def take_any(self, key: Key) -> None:
        """Take a key, or a report of the terminal."""
        if key.name in REPORTED and not (key.name == MOUSE and self.modes.has(PastingMode, HoldMode)):
            self.reported(key)
            return
        try:
            self.take(key)
        except ImportError:
            self.take_replaced(key)

    def take_replaced(self, key: Key) -> None:
        """Report that roam was replaced, and end the prefix. Its key to detach works without the table of commands too."""
        is_prefixed = self.modes.has(PrefixMode)
        self.modes.drop(PrefixMode)
        if is_prefixed and key.name == DETACHES:
            self.grant("detach")
        else:
            self.commands().tell_replaced()

    def reported(self, key: Key) -> None:
        """Take a report of the terminal: a mouse event, an answer, a colour, or its focus."""
        if key.name == MOUSE:
            self.commands().pointing.take(key.text)
        elif key.name == ANSWERED:
            self.display.outer.outer_modes.take_answer(key.text)
        elif key.name == FOCUSED:
            self.commands().acts.report_focus(key)
        else:
            self.commands().acts.host.tell_colour(key.text)

    def take_back(self, key: Key) -> None:
        """Take a key back from copy mode: it was typed before the current prompt."""
        self.take(key, self.modes.lowest())

    def take(self, key: Key, mode: Mode | None = None) -> None:
        """Take a key, in a mode or in the top one. Under a notice nothing is typed, but the prefix works as usual."""
        modes, is_paused, now = self.modes, self.commands().acts.paused, time.monotonic()
        if modes.pushed and self.display.notice != self.help:
            modes.drop(HelpMode)
        is_covered = is_paused or bool(self.display.notice)
        asked: list[Effect] = []
        if mode:
            asked = modes.taken_by(mode, key, now, is_covered)
        elif not is_paused or not modes.pushed or not isinstance(modes.pushed[-1], LineMode):
            asked = modes.takes(key, now, is_covered)
        if is_paused:
            self.carry_out(while_paused(asked))
            if leaves_paused(key, asked):
                self.commands().leave("[left]")
        else:
            self.carry_out(under_notice(asked) if is_covered else asked)

    def carry_out(self, asked: list[Effect]) -> None:
        """Carry out effects, in order."""
        for effect in asked:
            self.does[type(effect)](effect)

    # ---- requests

    def grant(self, wish: str) -> None:
        """Carry out a request to the front end itself."""
        commands, word = self.commands(), wish.partition(" ")[0]
        if word in ANYBODY:
            ANYBODY[word](self, commands, wish)
        elif word in EDITORS and not commands.link.is_read_only:
            EDITORS[word](self, commands, wish)

    def pick_pane(self) -> None:
        """Let a digit select a pane."""
        self.display.row.tell(f"{self.display.row.labels}: press a pane's number", PICKS)
        self.modes.push(PickingMode(time.monotonic()))

    def tell_unbound(self, asked: effects.TellUnbound) -> None:
        """Show that a key is not bound."""
        from roam_live.input.key_names import spelled

        self.display.row.tell(UNBOUND.format(self.modes.keymap.name, spelled(asked.key)))

    def leave_others(self) -> None:
        """Detach all other terminals of the session."""
        host = self.commands().acts.host
        if host.peer:
            host.ask(LEAVE_OTHERS)
            self.loop.later("others leave", LEAVES_IN, lambda: self.others_left(""))
        else:
            self.others_left("")

    def others_left(self, count: str) -> None:
        """Show how many others are detached."""
        self.loop.drop("others leave")
        told = f"{count} other terminal{'' if count == '1' else 's'} detached" if count.isdigit() else OTHERS_STAY
        self.display.row.tell(told, LEAVES_IN)

    def close_pane(self, asked: effects.ClosePane) -> None:
        """Close the focused pane of a window, even of one that the user has left since the question."""
        here = self.commands()
        commands = here if here.session.number == asked.number else self.left_window(asked.number)
        if commands:
            commands.acts.act("close")

    def enter(self, asked: effects.EnterLine) -> None:
        """Take a typed line."""
        word, _, number = asked.purpose.partition(" ")
        if word == "command":
            self.enters(asked.text)
        elif word == "window" and asked.text:
            self.grant(f"{GOES}{asked.text}")
        elif word == "name":
            self.windows().say(f"name {number} {name_word(asked.text)}")

    # ---- the list of keys, and pastes in copy mode

    def show_help(self) -> None:
        """Show the list of keys."""
        keymap = self.modes.keymap
        self.help = help_of(keymap.name, keymap.own, OWN.is_typed)
        self.display.show(self.help, foot=FOOT)
        self.modes.push(HelpMode(keymap))

    def scroll_help(self, asked: effects.ScrollHelp) -> None:
        """Scroll the list of keys, which ends if all of it fits."""
        display = self.display
        if not display.notice_most:
            self.modes.drop(HelpMode)
            display.uncover()
            return
        rows = asked.rows + asked.pages * max(1, display.outer.size()[0] - 1)
        display.show(display.notice, max(0, min(display.notice_first + rows, display.notice_most)), FOOT)

    def close_help(self, asked: effects.CloseHelp) -> None:
        """Show the session again, and take the key that ended the list of keys if it has another meaning."""
        self.display.uncover()
        if asked.key:
            self.take(asked.key)

    def offer_paste(self, asked: effects.OfferPaste) -> None:
        """Offer a paste to copy mode, which takes it into a line. Otherwise copy mode ends, and the key gets its usual meaning."""
        copying = self.commands().copying
        if copying.takes_paste():
            self.modes.push(CopyPasteMode())
        else:
            copying.close()
            self.take(asked.key)
