"""The start options of a new pane or window: a command, a folder, a name."""
from __future__ import annotations

import os

from roam_live.common.named_fields import NamedFields
from roam_live.common.patterns import LazyPattern

# The line that uploads start options, under a random name: for a pane beside that pane generation, or for a window. Their bytes follow.
RUN = LazyPattern(r"(?a)run ([0-9a-f]{16}) (?:([1-9]) (\d{1,20})|window) ([1-9]\d{0,5})")
RAN = "run"

# A command has MOST_BYTES at most, and waits WAITS seconds for its pane.
MOST_BYTES = 1 << 16
WAITS = 2.0

# The line that ends the programs of a pane generation and starts it anew with uploaded start options, and the word of the answer.
RESPAWN = LazyPattern(r"(?a)respawn ([1-9]) (\d{1,20}) ([0-9a-f]{16})")
RESPAWNED = "respawned"

# The line that gives a copy of a pane's output to an uploaded shell command, or to none any more, and the word of the answer. Behind the pane
# the answer has `begun`, `ended` if it had such a command before and has none now, or `none` if there is nothing to do.
PIPE = LazyPattern(r"(?a)pipe ([1-9]) (\d{1,20}) ([0-9a-f]{16}|none)")
PIPED = "piped"

# The reports about a request, after its name: it waits, it is refused, it has begun, or no pane came in time.
READY, REFUSED, DONE, LATE = "ready", "refused", "done", "late"

# The variable of a new pty host with the start options of its first window, in hexadecimal.
FIRST = "ROAM_FIRST"

TOO_LONG = f"a command has at most {MOST_BYTES} bytes"


class Begins(NamedFields):
    """The start options of a new pane or window: the words of its command, its folder and its name, if they differ from the defaults.

    A flag keeps the user in the current window.
    """

    words: list[str]
    folder: str = ""
    title: str = ""
    is_aside: bool = False

    def packed(self) -> bytes:
        """Return the bytes of its upload."""
        return b"\0".join(os.fsencode(part) for part in (self.folder, self.title, *self.words))

    def command(self) -> list[str]:
        """Return the command, as in tmux: a single word is a shell command; nothing for the default."""
        return [os.environ.get("SHELL") or "/bin/sh", "-c", *self.words] if len(self.words) == 1 else list(self.words)


def of_first_window() -> Begins | None:
    """Take the start options of a session's first window from the environment, so that no pane inherits them; None without valid ones."""
    try:
        return unpacked(bytes.fromhex(os.environ.pop(FIRST, "")))
    except ValueError:
        return None


def unpacked(data: bytes) -> Begins | None:
    """Return the start options in these bytes; None if they are invalid."""
    parts = [os.fsdecode(part) for part in data.split(b"\0")]
    if len(parts) < 2 or not parts[1].isprintable() or "" in parts[2:3]:
        return None
    return Begins(parts[2:], parts[0], parts[1])
