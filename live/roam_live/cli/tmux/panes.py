"""Commands on panes: split, close, choose, size, type into and print them."""
from __future__ import annotations

import os
import re

from roam_live.cli.tmux.context import Context
from roam_live.cli.tmux.model import PaneView
from roam_live.cli.tmux.numbers import number_of, part_of
from roam_live.cli.tmux.windows import await_focus, begins_of, close, demand_size, folder_of, variables_of
from roam_live.commands.flags import BadCommand
from roam_live.commands.targets import FoundTarget, beside
from roam_live.common.errors import Fault
from roam_live.common.tty import MOST
from roam_live.frontend.borders import (Above, PaneSplit, above, box_of, growths, least_of, length_of, panes_of, size_for,
                                        splits_of)
from roam_live.protocol.spawn_request import PIPED, RESPAWNED, Begins

TYPE_CHECKING = False
if TYPE_CHECKING:
    from roam_live.cli.tmux.model import WindowView
    from roam_live.commands.flags import Flags
    from roam_live.protocol.panes import Rect

NO_SPACE = "no space for new pane"
NOT_BEFORE = "split-window: roam opens a pane only right of another or below it"
NO_INPUT = "split-window: roam opens no pane without a program"

# The most acts of keys; longer texts are pasted.
MOST_KEYS = 2000
MOST_NUMBER = (1 << 31) - 1


# ---- split and close


def split(context: Context, flags: Flags) -> int:
    """Split a pane, with tmux's sizes, and start a command in the new one."""
    found = context.target(flags, "pane")
    pane, window, session = context.of_pane(found), context.of_window(found), context.of_session(found)
    way = "right" if flags.has("h") else "down"
    if flags.has("b") or flags.has("f") and len(window.panes()) > 1:
        raise BadCommand(NOT_BEFORE)
    if flags.has("I"):
        raise BadCommand(NO_INPUT)
    wanted = split_length(flags, length_of(pane.rect, way), way)
    begins = begins_of(flags.words, folder_of(context, flags, found), "", variables_of(context, session, flags), True)
    number = begun_beside(window, pane, way, begins)
    context.changed()
    adjusted(context, window.session.folder, window.number, number, way, wanted)
    if not flags.has("d"):
        focus(window, number)
    context.changed()
    made = context.model().session_of(session.folder)
    target = found_in(made.numbered(window.number) if made else None, number)
    if flags.has("Z") and target.pane:
        zoom(context, target)
    if flags.has("P") and target.pane:
        context.write(context.expand(flags.value("F") or "#{session_name}:#{window_index}.#{pane_index}", target, has_time=True))
    return 0


def found_in(window: WindowView | None, number: int) -> FoundTarget:
    """Return a pane of a window as a target."""
    if not window:
        return FoundTarget()
    return FoundTarget(window.session, window, next((one for one in window.panes() if one.number == number), None))


def split_length(flags: Flags, whole: int, way: str) -> int:
    """Return the length of the new pane, as tmux divides the old one."""
    given, part = flags.value("l"), flags.value("p")
    size = -1
    if given is not None:
        size = part_of(given, 0, MOST_NUMBER, whole, "lines")
    elif part is not None:
        size = whole * number_of(part, 0, 100, "percentage") // 100
    if whole < 3:
        raise BadCommand(NO_SPACE)
    length = (whole + 1) // 2 - 1 if size < 0 else size
    return min(max(length, 1), whole - 2)


def begun_beside(window: WindowView, pane: PaneView, way: str, begins: Begins) -> int:
    """Split a pane, and return the number of the new one once its program runs."""
    from roam_live.cli.send import type_acts
    from roam_live.cli.targets import ready
    from roam_live.cli.windows import WindowsAsked
    from roam_live.protocol.spawn_request import DONE, RAN, WAITS

    places = window.ask().places()
    if not places or places._replace(focus=pane.number).unsplit(way):
        raise BadCommand(NO_SPACE)
    place = ready(window.place)
    before, focused = set(places.rects), places.focus
    asked = WindowsAsked(place)
    asked.hand(f"{pane.number} {pane.generation}", begins)
    type_acts(place, [f"split {way}", f"focus {focused}"], pane.number)
    if asked.until(RAN, seconds=2 * WAITS)[2:] != [DONE]:
        raise BadCommand(NO_SPACE)
    after = place.places()
    made = set(after.rects) - before if after else set()
    if not made:
        raise BadCommand(NO_SPACE)
    return max(made)


def adjusted(context: Context, folder: str, number: int, pane: int, way: str, wanted: int) -> None:
    """Give a new pane its length, within roam's limits, and leave the focus where it was."""
    session = context.model().session_of(folder)
    window = session.numbered(number) if session else None
    if window:
        resize_to(window, pane, way, wanted)
        context.changed()


def kill(context: Context, flags: Flags) -> int:
    """Close a pane, or all others of its window. The last one's end is the window's."""
    from roam_live.cli.targets import close_pane

    found = context.target(flags, "pane")
    pane, window = context.of_pane(found), context.of_window(found)
    panes = [one for one in window.panes() if (one is pane) != flags.has("a")]
    if len(window.panes()) == 1 and panes:
        close(context, window)
        return 0
    for one in panes:
        close_pane(window.place, one.number)
    context.changed()
    return 0


def respawn(context: Context, flags: Flags) -> int:
    """End the programs of a pane, and start a command there, by default the earlier one."""
    from roam_live.cli.windows import WindowsAsked

    found = context.target(flags, "pane")
    pane, window, session = context.of_pane(found), context.of_window(found), context.of_session(found)
    if not flags.has("k"):
        raise BadCommand(f"respawn pane failed: pane {session.name}:{window.index}.{pane.index} still active")
    folder = folder_of(context, flags, found) if flags.value("c") else ""
    begins = begins_of(flags.words, folder, "", variables_of(context, session, flags) if flags.words else {}, False)
    asked = WindowsAsked(window.place)
    name = asked.hand("window", begins)
    asked.say(f"respawn {pane.number} {pane.generation} {name}")
    if asked.until(RESPAWNED) != [RESPAWNED, str(pane.number)]:
        raise BadCommand(f"respawn pane failed: pane {session.name}:{window.index}.{pane.index} is gone")
    context.changed()
    return 0


def pipe(context: Context, flags: Flags) -> int:
    """Give a copy of a pane's output to a shell command from now on, or to none any more."""
    from roam_live.cli.windows import WindowsAsked

    found = context.target(flags, "pane")
    pane, window = context.of_pane(found), context.of_window(found)
    if flags.has("I"):
        raise BadCommand("pipe-pane: roam types no output of a command into a pane")
    command = context.expand(flags.words[0], found, has_time=True, is_shell=True) if flags.words else ""
    asked, place = WindowsAsked(window.place), f"{pane.number} {pane.generation}"
    if flags.has("o") or not command:
        asked.say(f"pipe {place} none")
        if asked.until(PIPED)[2:] == ["ended"] or not command:
            return 0
    name = asked.hand("window", Begins([command]))
    asked.say(f"pipe {place} {name}")
    if asked.until(PIPED)[2:] != ["begun"]:
        raise BadCommand("pipe-pane: the command was not started")
    return 0


# ---- choose


def focus(window: WindowView, number: int) -> None:
    """Make a pane the active one of its window."""
    from roam_live.cli.send import type_acts
    from roam_live.cli.targets import ready

    type_acts(ready(window.place), [f"focus {number}"], 0)
    await_focus(window, number)


def select(context: Context, flags: Flags) -> int:
    """Make a pane the active one, or one on a side of it."""
    if flags.has("l"):
        return last(context, flags)
    found = context.target(flags, "pane")
    pane, window = context.of_pane(found), context.of_window(found)
    if flags.has("m") or flags.has("M"):
        raise BadCommand("select-pane: roam marks no pane")
    if any(flags.has(flag) for flag in "degPT"):
        return 0
    sides = {"L": (0, -1), "R": (0, 1), "U": (-1, 0), "D": (1, 0)}
    side = next((sides[flag] for flag in "LRUD" if flags.has(flag)), None)
    number = pane.number
    if side:
        other = beside(window.panes(), pane, *side)
        number = other.number if isinstance(other, PaneView) else 0
    if number and window.ask().focus != number:
        focus(window, number)
        context.changed()
    return 0


def last(context: Context, flags: Flags) -> int:
    """Go back to the pane that was active before."""
    found = context.target(flags, "window")
    window = context.of_window(found)
    other = window.last_pane()
    if not other:
        raise BadCommand("no last pane")
    focus(window, other.number)
    context.changed()
    return 0


# ---- sizes


def resize(context: Context, flags: Flags) -> int:
    """Give a pane another width or height, move its border, or zoom it."""
    found = context.target(flags, "pane")
    pane, window = context.of_pane(found), context.of_window(found)
    if flags.has("T") or flags.has("M"):
        return 0
    if flags.has("Z"):
        zoom(context, found)
        return 0
    steps = number_of(flags.words[0], 1, MOST_NUMBER, "adjustment") if flags.words else 1
    area = window.area()
    wide, high = flags.value("x"), flags.value("y")
    if wide is not None:
        resize_to(window, pane.number, "right", part_of(wide, 0, MOST_NUMBER, area.cols, "width") if wide[-1:] != "%"
                  else part_of(wide, 0, area.cols, area.cols, "width"))
    if high is not None:
        window = again(context, window)
        resize_to(window, pane.number, "down", part_of(high, 0, MOST_NUMBER, area.rows, "height") if high[-1:] != "%"
                  else part_of(high, 0, area.rows, area.rows, "height"))
    side = next((flag for flag in "LRUD" if flags.has(flag)), "")
    if side:
        moved(window, pane.number, "right" if side in "LR" else "down", steps if side in "RD" else -steps)
    context.changed()
    return 0


def again(context: Context, window: WindowView) -> WindowView:
    """Return a window as it is after a change."""
    context.changed()
    session = context.model().session_of(window.session.folder)
    return (session.numbered(window.number) if session else None) or window


def own_split(parts: int | PaneSplit, pane: int, way: str) -> PaneSplit | None:
    """Return the innermost split in a direction that has a pane along its whole border; None if there is none."""
    found = None
    while isinstance(parts, PaneSplit):
        found = parts if parts.way == way else found
        parts = parts.first if pane in panes_of(parts.first) else parts.second
    return found


def resize_to(window: WindowView, pane: int, way: str, wanted: int) -> None:
    """Give a pane a length by its own split, within the limits of both parts; nothing if it has no split in that direction."""
    rects = {one.number: one.rect for one in window.panes()}
    parts = splits_of(rects) if pane in rects else None
    split = own_split(parts, pane, way) if parts is not None else None
    if split:
        is_first = pane in panes_of(split.first)
        more = wanted - length_of(rects[pane], way)
        shift(window, rects, split, more if is_first else -more)


def moved(window: WindowView, pane: int, way: str, steps: int) -> None:
    """Move the border of a pane's own split."""
    rects = {one.number: one.rect for one in window.panes()}
    parts = splits_of(rects) if pane in rects else None
    split = own_split(parts, pane, way) if parts is not None else None
    if split:
        shift(window, rects, split, steps)


def shift(window: WindowView, rects: dict[int, Rect], split: PaneSplit, steps: int) -> None:
    """Move the border of a split by so many cells, as far as both parts have room. Without a pane beside it, it cannot move."""
    from roam_live.cli.send import type_acts
    from roam_live.cli.targets import ready

    first = length_of(box_of(split.first, rects), split.way)
    whole = length_of(box_of(split, rects), split.way)
    wanted = min(max(first + steps, least_of(split.first, split.way)), whole - 1 - least_of(split.second, split.way))
    leaf = next(((part, sign) for part, sign in ((split.first, 1), (split.second, -1)) if isinstance(part, int)), None)
    if not leaf or wanted == first:
        return
    focused = window.ask().focus
    type_acts(ready(window.place), [*growths(leaf[0], leaf[1] * (wanted - first)), f"focus {focused}"], 0)
    await_focus(window, focused)


def zoom(context: Context, found: FoundTarget) -> None:
    """Give a pane the size of its window by a larger session, or undo that."""
    pane, window = context.of_pane(found), context.of_window(found)
    places = window.ask().places()
    note = window.note.get("zoom")
    folder, number = window.session.folder, str(window.number)
    if note:
        context.change(lambda state: state["sessions"][folder]["windows"][number].pop("zoom", None))
        if places and list(places.size()) == note["to"]:
            demand_size(window.place, (note["size"][0] - 1, note["size"][1]))
        return
    rects = {one.number: one.rect for one in window.panes()}
    parts = splits_of(rects) if len(rects) > 1 else None
    if not places or parts is None:
        return
    area, splits = places.area(), above(pane.number, parts, rects)
    to = size_for(area, places.size(), list[Above](splits))
    focus(window, pane.number)
    demand_size(window.place, (min(to[0], MOST[0]) - 1, to[1]))
    before = list(places.size())
    context.change(lambda state: state["sessions"][folder]["windows"][number].update(
        {"zoom": {"size": before, "to": list(to), "pane": pane.number}}))


# ---- type and print


def send_keys(context: Context, flags: Flags) -> int:
    """Type keys by their names, or texts; into all panes if the window is synchronized."""
    found = context.target(flags, "pane")
    pane, window = context.of_pane(found), context.of_window(found)
    count = number_of(flags.value("N") or "1", 1, MOST_NUMBER, "repeat count")
    if flags.has("X"):
        raise BadCommand("not in a mode")
    acts = acts_of_words(flags)
    panes = window.panes() if context.variables(found).option("synchronize-panes") == "1" else [pane]
    for one in panes if acts else ():
        typed(window, one.number, acts * min(count, MOST_KEYS))
    if flags.has("R"):
        typed(window, pane.number, acts_of_words_in(["\x0c"]))
    return 0


def acts_of_words(flags: Flags) -> list[str]:
    """Return the acts that type the words of send-keys."""
    from roam_live.input.keys import Key, acts_of

    if flags.has("H"):
        codes = [int(word, 16) for word in flags.words if re.fullmatch(r"(0x)?[0-9a-fA-F]{1,6}", word)]
        return [act for code in codes if 0 < code < 0x110000 and not 0xD800 <= code < 0xE000 for act in acts_of(Key("text", chr(code)))]
    if flags.has("l"):
        return [act for word in flags.words for act in acts_of(Key("text", text_of(word)))]
    return acts_of_words_in(flags.words)


def acts_of_words_in(words: list[str]) -> list[str]:
    """Return the acts that type keys by their names, and the characters of other words."""
    from roam_live.input.key_names import acts_named
    from roam_live.input.keys import Key, acts_of

    return [act for word in words for act in acts_named(word) or acts_of(Key("text", text_of(word)))]


def text_of(word: str) -> str:
    """Return a word of the command line as characters."""
    return os.fsencode(word).decode("utf-8", "replace").replace("\r\n", "\r").replace("\n", "\r")


def typed(window: WindowView, pane: int, acts: list[str]) -> None:
    """Type acts into a pane; the focus stays."""
    from roam_live.cli.send import type_acts
    from roam_live.cli.targets import ready

    type_acts(ready(window.place), acts, pane)


def send_prefix(context: Context, flags: Flags) -> int:
    """Type the prefix."""
    found = context.target(flags, "pane")
    prefix = context.variables(found).option("prefix2" if flags.has("2") else "prefix") or "C-b"
    if prefix != "None":
        typed(context.of_window(found), context.of_pane(found).number, acts_of_words_in([prefix]))
    return 0


def capture(context: Context, flags: Flags) -> int:
    """Print rows of a pane, or store them as a buffer."""
    from roam_live.cli.scrollback import capture_rows
    from roam_live.cli.tmux.buffers import stored

    found = context.target(flags, "pane")
    pane, window = context.of_pane(found), context.of_window(found)
    first, end = (row_word(flags.value(flag)) for flag in "SE")
    parts: list[bytes] = []
    if flags.has("P"):
        return 0
    if flags.has("a") and not window.ask(True).has_set(pane.number, "other"):
        if flags.has("q"):
            return 0
        raise BadCommand("no alternate screen")
    try:
        capture_rows(window.place, pane.number, first, end, flags.has("e"), flags.has("J"), parts.append)
    except Fault as fault:
        raise BadCommand(str(fault)) from None
    text = b"".join(parts)
    if flags.has("p"):
        context.writes(text)
    else:
        stored(context, flags.value("b"), text)
    return 0


def row_word(text: str | None) -> str | None:
    """Return the word of a row; None for one that is no number, which tmux takes for the first or the last of the screen."""
    return text if text is not None and re.fullmatch(r"-|-?[0-9]{1,9}", text) else None
