"""A user's terminal, from start to restoration, and its modes beside the painting.

These are the title and cursor shape of the focused pane, mouse reports, and texts for its clipboard.
"""
from __future__ import annotations

import os
import time

from roam_live.common import tty
from roam_live.common.errors import Fault
from roam_live.common.event_loop import WRITE, ready
from roam_live.common.io import write
from roam_live.common.signals import signal
from roam_live.common.suppress import suppress
from roam_live.common.text import printable
from roam_live.config.environment import wants_extended_keys
from roam_live.input.extended_keys import QUERY, WANTED, answered, given_back
from roam_live.input.mouse_reports import ASKED, OFF
from roam_live.protocol.colours import ASKED as COLOURS_ASKED

TYPE_CHECKING = False
if TYPE_CHECKING:
    from collections.abc import Callable

# The sequences that save and restore the terminal's title (xterm, XTWINOPS).
TITLE_KEPT, TITLE_BACK = b"\x1b[22;2t", b"\x1b[23;2t"

# The start and end of the sequence that sets a terminal's clipboard, around the text in base64 (OSC 52).
CLIP_BEGIN, CLIP_END = b"\x1b]52;c;", b"\x07"

# The sequences that request reports of the terminal's focus, and stop them (xterm, 1004).
FOCUS_ASKED, FOCUS_OFF = b"\x1b[?1004h", b"\x1b[?1004l"

# Parts of the names of types with 256 colours or more. Their entries may be missing here, and that of `xterm` lists 8.
MANY_COLOURS = ("256", "direct", "xterm", "kitty", "alacritty", "foot", "wezterm", "ghostty")

# The most characters of a title.
MOST_TITLE = 200


def titled(title: str) -> bytes:
    """Return the sequence that sets a terminal's title (OSC 2), with printable text only."""
    return f"\x1b]2;{printable(title[:MOST_TITLE])}\x07".encode("utf-8", "replace")


def shaped(shape: int) -> bytes:
    """Return the sequence that sets the cursor's shape, 0 for the default (DECSCUSR)."""
    return b"\x1b[%d q" % shape


class ClipboardWriter:
    """A text on its way to a terminal's clipboard: whole, between paintings. A newer text replaces a waiting one."""

    def __init__(self) -> None:
        self.newest = b""
        # The unwritten part of a text, and a flag for one that has begun.
        self.rest = bytearray()
        self.has_begun = False

    def set_text(self, text: str) -> None:
        """Set a text in base64, in place of an unwritten one."""
        if not self.has_begun:
            self.rest.clear()
        self.newest = CLIP_BEGIN + text.encode("ascii", "replace") + CLIP_END

    def put(self, end: int) -> bool:
        """Write as much as the terminal accepts, and return True while it is there."""
        if not self.rest:
            self.rest, self.newest = bytearray(self.newest), b""
        length = len(self.rest)
        is_there = write(end, self.rest)
        self.has_begun = 0 < len(self.rest) < length or self.has_begun and bool(self.rest)
        return is_there

    def taken_back(self) -> bytes:
        """Return the text to write at the end: the rest of one that has begun. Nothing waits then."""
        text = bytes(self.rest) if self.has_begun else b""
        self.newest, self.has_begun = b"", False
        self.rest.clear()
        return text


class OuterModes:
    """The modes set on the terminal. A Linux console lacks a title, cursor shapes and that form of mouse reports, so none are set there."""

    def __init__(self) -> None:
        self.is_able = os.environ.get("TERM") != "linux"
        self.title = ""
        self.has_kept = False
        self.shape = 0
        # The requested mouse reports: none, `drags` or `motion`. True if focus reports are requested too.
        self.reports, self.has_focus = "", False
        # True if extended keys were requested; and the terminal's previous setting, if it answered.
        self.has_keys = False
        self.keys_before, self.has_answered = 0, False

    def update(self, title: str, shape: int) -> bytes:
        """Return the sequences for a new title and cursor shape, if changed.

        The terminal's own title is saved before the first change, and restored once there is no title.
        """
        text = self.retitled(title) if self.is_able and title != self.title else b""
        if self.is_able and shape != self.shape:
            text += shaped(shape)
            self.shape = shape
        return text

    def retitled(self, title: str) -> bytes:
        """Return the sequences for a new title, or for none. A terminal that can't restore its own gets an empty one."""
        text = (b"" if self.has_kept else TITLE_KEPT) + titled(title) + (b"" if title else TITLE_BACK)
        self.title, self.has_kept = title, bool(title)
        return text

    def asked(self, reports: str) -> bytes:
        """Return the sequences that request these mouse reports; nothing if they are already on."""
        if not self.is_able or reports == self.reports:
            return b""
        self.reports = reports
        return ASKED[reports]

    def focus_asked(self, is_on: bool) -> bytes:
        """Return the sequence that requests focus reports, or stops them; nothing if that is so already."""
        if not self.is_able or is_on == self.has_focus:
            return b""
        self.has_focus = is_on
        return FOCUS_ASKED if is_on else FOCUS_OFF

    def keys_asked(self, is_first: bool = False) -> bytes:
        """Return the request for extended keys, the first time with a query of the previous setting.

        A terminal that takes it for SGR gets its style reset afterwards.
        """
        self.has_keys = self.is_able and wants_extended_keys()
        return QUERY * is_first + WANTED if self.has_keys else b""

    def take_answer(self, text: str) -> None:
        """Take the first answer about the previous setting of extended keys. Later ones answer no query."""
        before = answered(text)
        if before is not None and not self.has_answered:
            self.keys_before, self.has_answered = before, True

    def taken_back(self) -> bytes:
        """Return the sequences that restore the terminal: title, cursor shape, reports and extended keys. Nothing is set then."""
        text = self.focus_asked(False) + (OFF if self.reports else b"")
        text += (TITLE_BACK if self.has_kept else b"") + (shaped(0) if self.shape else b"")
        text += given_back(self.keys_before) if self.has_keys else b""
        self.has_keys = False
        self.title, self.has_kept, self.shape, self.reports = "", False, 0, ""
        return text


def fewer_colours() -> Callable[[bytes], bytes] | None:
    """Return the call that replaces the colours that this process's terminal hasn't; None if it has 256 colours or more."""
    if has_colours(os.environ.get("TERM", ""), os.environ.get("COLORTERM", "")):
        return None
    from roam_live.frontend.few_colours import colour_filter

    return colour_filter(os.environ.get("TERM", ""))


def has_colours(term: str, reported: str) -> bool:
    """Return True if a terminal has 256 colours or more, by the name of its type or by COLORTERM."""
    return bool(reported) or any(part in term for part in MANY_COLOURS)


# Seconds for a terminal to accept the final output. A hanging emulator accepts nothing, and is not waited for.
LEAVES = 1.0


class OuterTerminal:
    """The terminal of a user: on its alternate screen from `enter` to `leave`."""

    def __init__(self) -> None:
        if not (os.isatty(0) and os.isatty(1)):
            raise Fault("standard input and output must be a terminal")
        tty.demand_able()
        self.waiting = bytearray()
        # True if its keypad sends application codes.
        self.is_application = False
        self.end = tty.opened_for_writing(1)
        # Its size, and a flag that a signal resets when the size may have changed.
        self.known, self.is_known = tty.size_of(0), True
        # Its original modes; a flag for a taken terminal; and the deadline of its restoration.
        self.modes: tty.Modes | None = None
        self.is_taken = False
        self.left_by = 0.0
        self.outer_modes, self.clip = OuterModes(), ClipboardWriter()
        self.fewer_colours = fewer_colours()

    def write(self, text: bytes) -> None:
        """Queue a text of whole sequences after all waiting output. All output goes through here."""
        self.waiting += self.fewer_colours(text) if self.fewer_colours else text

    def enter(self) -> None:
        """Take the terminal."""
        self.modes = tty.make_raw(0)
        if self.modes is None:
            raise Fault("cannot switch the terminal to raw mode")
        self.is_taken = True
        self.write(self.outer_modes.keys_asked(is_first=True) + tty.ENTERED)

    def size(self) -> tty.Size:
        """Return its rows and columns, queried once after each SIGWINCH; after a hangup the last known ones."""
        if not self.is_known:
            self.is_known = True
            with suppress(OSError):
                self.known = tty.size_of(0)
        return self.known

    def enter_again(self) -> None:
        """Take the terminal again, after a shell used it while this process was stopped."""
        tty.make_raw(0)
        self.is_known = False
        self.is_taken = True
        self.write(self.outer_modes.keys_asked() + tty.ENTERED)
        self.is_application = False
        # Another process may have changed its reports.
        self.outer_modes.reports, self.outer_modes.has_focus = "", False

    def set_title_and_shape(self, title: str, shape: int) -> None:
        """Set its title and cursor shape until it is restored."""
        self.write(self.outer_modes.update(title, shape))

    def ask(self, reports: str) -> None:
        """Request mouse reports: none, `drags`, or all `motion`."""
        self.write(self.outer_modes.asked(reports))

    def ask_focus(self, is_on: bool) -> None:
        """Request reports of its focus, or no more of them."""
        self.write(self.outer_modes.focus_asked(is_on))

    def ask_colours(self) -> None:
        """Query its colours. Answers arrive among the input, if at all."""
        if self.outer_modes.is_able:
            self.write(COLOURS_ASKED)

    def set_clip(self, text: str) -> None:
        """Set its clipboard to a text in base64."""
        if self.outer_modes.is_able:
            self.clip.set_text(text)

    def has_more(self) -> bool:
        """Return True if output waits for it."""
        return bool(self.waiting or self.clip.newest or self.clip.rest)

    def put(self) -> bool:
        """Write as much as it accepts now, and return True while it is there. Clipboard texts follow all waiting output."""
        if self.clip.has_begun or not self.waiting and (self.clip.newest or self.clip.rest):
            return self.clip.put(self.end)
        return write(self.end, self.waiting)

    def suspend(self) -> None:
        """Restore the old screen, and stop this process with its group, like C-z; return once it is continued.

        The system refuses to stop a group that no shell could continue.
        """
        self.leave("")
        handled = signal.signal(signal.SIGTSTP, signal.SIG_DFL)
        os.kill(0, signal.SIGTSTP)
        signal.signal(signal.SIGTSTP, handled)

    def leave(self, line: str | None) -> None:
        """Restore the old screen if it was replaced, and print a line below it."""
        self.begin_leave(line)
        self.end_leave()

    def begin_leave(self, line: str | None) -> None:
        """Write the sequences that restore the old screen, and a line below it, as far as the terminal accepts them at once."""
        if not self.is_taken:
            return
        self.left_by = time.monotonic() + LEAVES
        self.waiting[:] = self.clip.taken_back() + self.outer_modes.taken_back() + tty.LEFT
        self.write(f"{printable(line)}\r\n".encode() if line else b"")
        self.write_by(0.0)
        if not self.waiting:
            self.end_leave()

    def end_leave(self) -> None:
        """Write the rest, with a deadline at `left_by`, and restore the terminal's modes. Neither waits for a terminal that accepts
        nothing.
        """
        if not self.is_taken or self.modes is None:
            return
        self.is_taken = False
        self.write_by(self.left_by)
        self.waiting.clear()
        tty.restore(0, self.modes)

    def write_by(self, moment: float) -> None:
        """Write as much as the terminal accepts until a moment.

        A terminal that does not report readiness may still accept a little. If it could not be opened anew, a write of more than a byte may
        block.
        """
        is_waiting = os.get_blocking(self.end)
        if not is_waiting:
            write(self.end, self.waiting)
        while self.waiting and ready(self.end, WRITE, max(0.0, moment - time.monotonic())):
            chunk = self.waiting[: 1 if is_waiting else len(self.waiting)]
            del self.waiting[: len(chunk)]
            if write(self.end, chunk):
                self.waiting[:0] = chunk
            else:
                self.waiting.clear()

    def set_keypad(self, is_application: bool) -> None:
        """Switch the keypad to application codes, or to numbers."""
        if is_application != self.is_application:
            self.write(tty.KEYPAD[is_application])
            self.is_application = is_application

    def ring(self) -> None:
        """Ring the terminal's bell."""
        self.write(b"\x07")
