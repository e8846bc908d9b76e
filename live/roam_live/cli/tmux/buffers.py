"""Commands on the buffers of a name space."""
from __future__ import annotations

import os
import sys
import time

from roam_live.cli.tmux.context import Context
from roam_live.commands.flags import BadCommand
from roam_live.commands.formats import expanded
from roam_live.commands.targets import FoundTarget
from roam_live.common.errors import Fault, reason
from roam_live.common.suppress import suppress

TYPE_CHECKING = False
if TYPE_CHECKING:
    from roam_live.cli.tmux.name_space import BufferNote, SpaceState
    from roam_live.commands.flags import Flags

BUFFER = '#{buffer_name}: #{buffer_size} bytes: "#{buffer_sample}"'

# The most characters of a sample, the most bytes of a buffer, and the most buffers of any name.
SAMPLE, MOST_BYTES, MOST_BUFFERS = 200, 1 << 24, 1000


def notes(context: Context) -> dict[str, BufferNote]:
    """Return the buffers by name, with the order, the moment and the size of each."""
    found: dict[str, BufferNote] = context.model().state["buffers"]
    return found


def newest(context: Context) -> str | None:
    """Return the name of the newest buffer without a given name; None if there is none."""
    found = [(note["order"], name) for name, note in notes(context).items() if note["is_automatic"]]
    return max(found)[1] if found else None


def stored(context: Context, name: str | None, text: bytes, is_added: bool = False) -> None:
    """Store a text in a buffer, of a new name if none is given, or append it."""
    if len(text) > MOST_BYTES:
        raise BadCommand("the buffer is too large")
    if name is None and is_added:
        name = newest(context)
    if is_added and name in notes(context):
        text = context.space.buffer(name or "") + text
    if not text:
        return
    limit = int(context.model().option("buffer-limit"))

    def put_it(state: SpaceState) -> None:
        found = state["buffers"]
        key, is_automatic = name, name is None
        if key is None:
            key = f"buffer{state['next_buffer']}"
            state["next_buffer"] += 1
        elif key in found:
            is_automatic = found[key]["is_automatic"]
        if len(found) >= MOST_BUFFERS and key not in found:
            raise BadCommand("too many buffers")
        context.space.store_buffer(key, text)
        order = 1 + max((one["order"] for one in found.values()), default=0)
        found[key] = {"order": order, "created": int(time.time()), "size": len(text), "is_automatic": is_automatic}
        old = sorted((one["order"], other) for other, one in found.items() if one["is_automatic"])
        for _, other in old[: max(len(old) - limit, 0)]:
            drop(context, state, other)

    context.change(put_it)


def drop(context: Context, state: SpaceState, name: str) -> None:
    """Remove a buffer from a state, and its text."""
    del state["buffers"][name]
    with suppress(OSError):
        os.unlink(context.space.buffer_path(name))


def text_of(context: Context, name: str | None) -> bytes:
    """Return the text of a buffer, by default of the newest; BadCommand in tmux's words if there is none."""
    key = newest(context) if name is None else name
    if key is None:
        raise BadCommand("no buffers")
    try:
        if key in notes(context):
            return context.space.buffer(key)
    except OSError:
        pass
    raise BadCommand(f"no buffer {name}")


def put(context: Context, flags: Flags) -> int:
    """Set, append to, or rename a buffer."""
    name, other = flags.value("b"), flags.value("n")
    key = newest(context) if name is None else name
    if other is not None:
        if key is None:
            raise BadCommand("no buffer")
        if key not in notes(context):
            raise BadCommand(f"unknown buffer: {name}")
        renamed(context, key, other)
        return 0
    if not flags.words:
        raise BadCommand("no data specified")
    stored(context, name, os.fsencode(flags.words[0]), flags.has("a"))
    return 0


def renamed(context: Context, key: str, other: str) -> None:
    """Give a buffer another name."""
    if not other:
        raise BadCommand("no new name specified")
    text = text_of(context, key)

    def rename_it(state: SpaceState) -> None:
        note = state["buffers"][key]
        if other != key:
            context.space.store_buffer(other, text)
            drop(context, state, key)
        note["is_automatic"] = False
        state["buffers"][other] = note

    context.change(rename_it)


def delete(context: Context, flags: Flags) -> int:
    """Remove a buffer."""
    name = flags.value("b")
    key = newest(context) if name is None else name
    if key is None:
        raise BadCommand("no buffer")
    if key not in notes(context):
        raise BadCommand(f"unknown buffer: {name}")
    found = key
    context.change(lambda state: drop(context, state, found))
    return 0


def show(context: Context, flags: Flags) -> int:
    """Print a buffer."""
    context.writes(text_of(context, flags.value("b")))
    return 0


def save(context: Context, flags: Flags) -> int:
    """Write a buffer to a file, or append it."""
    text = text_of(context, flags.value("b"))
    path = flags.words[0]
    if path == "-":
        context.writes(text)
        return 0
    try:
        with open(path, "ab" if flags.has("a") else "wb") as file:
            file.write(text)
    except OSError as fault:
        raise BadCommand(f"{path}: {reason(fault)}") from None
    return 0


def load(context: Context, flags: Flags) -> int:
    """Read a buffer from a file."""
    path = flags.words[0]
    try:
        if path == "-":
            text = sys.stdin.buffer.read(MOST_BYTES + 1)
        else:
            with open(path, "rb") as file:
                text = file.read(MOST_BYTES + 1)
    except OSError as fault:
        raise BadCommand(f"{path}: {reason(fault)}") from None
    stored(context, flags.value("b"), text)
    return 0


def list_all(context: Context, flags: Flags) -> int:
    """Print a line for each buffer, the newest first."""
    for name, note in sorted(notes(context).items(), key=lambda item: -int(item[1]["order"])):
        facts = {"buffer_name": name, "buffer_size": str(note["size"]), "buffer_created": str(note["created"]),
                 "buffer_sample": sample(text_of(context, name))}
        values = context.variables(FoundTarget(), facts)
        if context.passes(flags, values):
            context.write(expanded(flags.value("F") or BUFFER, values))
    return 0


def sample(text: bytes) -> str:
    """Return the first characters of a buffer, with escapes for its controls, as tmux shows them."""
    names = {"\n": "\\n", "\t": "\\t", "\r": "\\r", "\\": "\\\\", "\a": "\\a", "\b": "\\b", "\v": "\\v", "\f": "\\f", "\0": "\\0"}
    letters = text[: 4 * SAMPLE].decode("utf-8", "replace")
    found = "".join(names.get(letter) or (letter if letter.isprintable() else "".join(f"\\{byte:03o}" for byte in letter.encode()))
                    for letter in letters)
    return found if len(found) <= SAMPLE else f"{found[:SAMPLE]}..."


def paste(context: Context, flags: Flags) -> int:
    """Paste a buffer into a pane."""
    from roam_live.cli.paste import type_text
    from roam_live.cli.targets import ready
    from roam_live.protocol.paste_text import cleaned

    found = context.target(flags, "pane")
    name = flags.value("b")
    key = newest(context) if name is None else name
    if key is None:
        return 0
    text = text_of(context, key).decode("utf-8", "replace")
    separator = flags.value("s") if flags.value("s") is not None else "\n" if flags.has("r") else "\r"
    try:
        type_text(ready(context.of_window(found).place), cleaned(text.replace("\n", separator or "")), context.of_pane(found).number,
                  is_plain=not flags.has("p"))
    except Fault as fault:
        raise BadCommand(str(fault)) from None
    if flags.has("d"):
        found_name = key
        context.change(lambda state: drop(context, state, found_name))
    return 0
