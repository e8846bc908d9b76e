"""Commands on windows: open, close, name, choose, move and size them."""
from __future__ import annotations

import os
import time

from roam_live.cli.tmux.context import Context
from roam_live.cli.tmux.numbers import number_of
from roam_live.commands.flags import BadCommand
from roam_live.commands.targets import FoundTarget
from roam_live.common.errors import Fault
from roam_live.common.suppress import suppress
from roam_live.common.tty import LEAST, MOST
from roam_live.protocol.presence import SHOW
from roam_live.protocol.spawn_request import MOST_BYTES, TOO_LONG, Begins
from roam_live.protocol.window_lines import LONGEST_BYTES, LONGEST_NAME, OPENED

TYPE_CHECKING = False
if TYPE_CHECKING:
    from collections.abc import Callable, Mapping

    from roam_live.cli.tmux.model import Model, SessionView, WindowView
    from roam_live.cli.tmux.name_space import SessionNote, SpaceState
    from roam_live.commands.flags import Flags
    from roam_live.session.folder import SessionFolder

# Seconds for a session to have a new size, or a pane to be active.
SIZES, STEP = 2.0, 0.02

# The arrangements that tmux names, and those that panes in one row or column have already.
LAYOUTS = {"even-horizontal": "right", "even-vertical": "down", "main-horizontal": "down", "main-vertical": "right", "tiled": "down"}
NO_LAYOUT = "{}: roam does not move panes; it only sets their sizes"


def window_name(context: Context, flags: Flags) -> str:
    """Return the name of -n, cut to what roam's host stores; nothing without one."""
    given = flags.value("n")
    if given is None:
        return ""
    return storable(context.expand(given, context.here() if context.model().sessions else FoundTarget()))


def storable(name: str) -> str:
    """Return a window's name without controls, as long as the pty host stores it."""
    name = "".join(letter for letter in name if letter.isprintable())[:LONGEST_NAME]
    while len(name.encode("utf-8", "replace")) > LONGEST_BYTES:
        name = name[:-1]
    return name


def begins_of(words: list[str], folder: str, title: str, variables: Mapping[str, str | None], is_aside: bool) -> Begins:
    """Return the start options of a pane: a command, in an environment with these variables. None is an unset one."""
    if variables:
        shell = os.environ.get("SHELL") or "/bin/sh"
        unset = [part for name, value in variables.items() if value is None for part in ("-u", name)]
        sets = [f"{name}={value}" for name, value in variables.items() if value is not None]
        words = ["env", *unset, *sets, *([shell] if not words else [shell, "-c", *words] if len(words) == 1 else words)]
    begins = Begins([*words], folder, title, is_aside)
    if len(begins.packed()) > MOST_BYTES:
        raise BadCommand(TOO_LONG)
    if any("\0" in part for part in (*words, folder)) or words[:1] == [""]:
        raise BadCommand("the command is empty or contains a null character")
    return begins


def folder_of(context: Context, flags: Flags, found: FoundTarget) -> str:
    """Return the folder of a new pane: that of -c, else the caller's."""
    given = flags.value("c")
    path = os.path.join(os.getcwd(), context.expand(given, found)) if given else os.getcwd()
    return path if os.path.isdir(path) else os.path.expanduser("~")


def variables_of(context: Context, session: SessionView, flags: Flags) -> dict[str, str | None]:
    """Return the variables of a new pane: the global ones, those of the session, and those of -e."""
    own = dict(pair.split("=", 1) for pair in flags.values.get("e", []) if "=" in pair)
    return {**context.model().state["environment"], **session.note["environment"], **own}


# ---- open and close


def new(context: Context, flags: Flags) -> int:
    """Open a window."""
    found = context.target(flags, "window", may_index=True)
    session = context.of_session(found)
    title = window_name(context, flags)
    same = next((one for one in session.windows() if title and one.name == title), None) if flags.has("S") else None
    if same:
        if not flags.has("d"):
            set_current(context, session, same.number)
        return 0
    index = new_index(context, session, found, flags)
    begins = begins_of(flags.words, folder_of(context, flags, context.here()), title, variables_of(context, session, flags), flags.has("d"))
    number = opened(session, begins)
    context.changed()
    context.model()
    fixed = {"automatic-rename": "off"} if title else {}
    context.change(lambda state: placed(state["sessions"][session.folder], number, index, fixed))
    session = context.model().session_of(session.folder) or session
    if not flags.has("d"):
        set_current(context, session, number)
    made = (context.model().session_of(session.folder) or session).numbered(number)
    if made and flags.has("P"):
        target = FoundTarget(made.session, made, made.active())
        context.write(context.expand(flags.value("F") or "#{session_name}:#{window_index}.#{pane_index}", target, has_time=True))
    return 0


def new_index(context: Context, session: SessionView, found: FoundTarget, flags: Flags) -> int:
    """Return the index of a new window: the wanted one, one beside another window, or the first free one."""
    taken = {one.index for one in session.windows()}
    if flags.has("a") or flags.has("b"):
        beside = context.of_window(found if found.window else found._replace(window=session.current()))
        index = beside.index + (not flags.has("b"))
        context.change(lambda state: shifted(state["sessions"][session.folder], index))
        return index
    index = -1 if found.at is None else found.at
    if index < 0:
        index = int(context.model().option("base-index", session.note))
        while index in taken:
            index += 1
    elif index in taken and flags.has("k"):
        close(context, next(one for one in session.windows() if one.index == index))
    elif index in taken:
        raise BadCommand(f"create window failed: index {index} in use")
    return index


def shifted(note: SessionNote, index: int) -> None:
    """Make room at an index: that window and those at the next ones move by one."""
    by_index = {one["index"]: one for one in note["windows"].values()}
    moved = []
    while index in by_index:
        moved.append(by_index[index])
        index += 1
    for one in moved:
        one["index"] += 1


def placed(note: SessionNote, number: int, index: int, options: dict[str, str]) -> None:
    """Give a window an index and options."""
    window = note["windows"].get(str(number))
    if window:
        window["index"] = index
        window["options"].update(options)


def opened(session: SessionView, begins: Begins) -> int:
    """Open a window of the session's size, and return its number in `mux`."""
    from roam_live.cli.windows import WindowsAsked

    current = session.current() or session.found[0]
    places = current.place.places()
    rows, cols = places.size() if places else (25, 80)
    asked = WindowsAsked(current.place)
    name = asked.hand("window", begins)
    asked.say(f"open {rows} {cols} {name}")
    words = asked.until(OPENED)
    if len(words) != 2 or not words[1].isdigit():
        raise BadCommand(f"create window failed: {' '.join(words[2:])}")
    return int(words[1])


def kill(context: Context, flags: Flags) -> int:
    """Close a window, or all others of its session."""
    window = context.window(flags)
    others = [one for one in window.session.windows() if one is not window]
    for one in others if flags.has("a") else [window]:
        close(context, one)
    return 0


def close(context: Context, window: WindowView) -> None:
    """Close a window. The last one's end is the session's."""
    from roam_live.cli.windows import shut

    session = window.session
    after = next((one for one in (session.last_window(), *session.windows()) if one and one is not window), None)
    is_current = session.current() is window
    shut(window.place)
    if not after:
        session.place.await_end()
        session.place.drop_ended()
        context.changed()
        return
    context.changed()
    context.model()
    if is_current:
        set_current(context, session, after.number, is_closed=True)
    if context.model().option("renumber-windows", session.note) == "on":
        context.change(lambda state: renumbered(state["sessions"][session.folder], int(context.model().option("base-index", session.note))))


def renumbered(note: SessionNote, base: int) -> None:
    """Number the windows in order without gaps."""
    for index, one in enumerate(sorted(note["windows"].values(), key=lambda one: int(one["index"])), base):
        one["index"] = index


# ---- choose


def set_current(context: Context, session: SessionView, number: int, is_closed: bool = False) -> None:
    """Make a window the current one of a session."""
    before = session.current()
    seen = session.place.last()

    def set_it(state: SpaceState) -> None:
        note = state["sessions"].get(session.folder)
        if note:
            left = [before.number] if before and before.number != number and not is_closed else []
            rest = [one for one in note["stack"] if one not in (number, *left) and str(one) in note["windows"]]
            note.update({"current": number, "stack": left + rest, "seen": seen, "activity": time.time()})

    context.change(set_it)
    if before and before.number != number:
        shown(session, before.number, number)


def shown(session: SessionView, before: int, number: int) -> None:
    """Have the terminals at the window that was current show another one."""
    from roam_live.cli.windows import WindowsAsked

    with suppress(Fault):
        asked = WindowsAsked((session.numbered(before) or session.found[0]).place)
        for words in asked.clients():
            if words[5] == str(before):
                asked.say(f"{SHOW} {words[1]} {number}")
                asked.until("shown")


def select(context: Context, flags: Flags) -> int:
    """Make a window the current one."""
    for flag, does in (("l", last), ("n", next_one), ("p", previous)):
        if flags.has(flag):
            return does(context, flags)
    window = context.window(flags)
    if flags.has("T") and window.session.current() is window:
        return last(context, flags)
    set_current(context, window.session, window.number)
    return 0


def last(context: Context, flags: Flags) -> int:
    """Go back to the window that was current before."""
    return gone_to(context, flags, lambda session: session.last_window(), "no last window")


def next_one(context: Context, flags: Flags) -> int:
    """Go to the next window."""
    return gone_to(context, flags, lambda session: neighbour(session, 1), "no next window")


def previous(context: Context, flags: Flags) -> int:
    """Go to the previous window."""
    return gone_to(context, flags, lambda session: neighbour(session, -1), "no previous window")


def gone_to(context: Context, flags: Flags, finds: Callable[[SessionView], WindowView | None], why: str) -> int:
    """Go to the window that a call finds in the target session; BadCommand with the reason if there is none."""
    session = context.session(flags)
    window = finds(session)
    if not window:
        raise BadCommand(why)
    set_current(context, session, window.number)
    return 0


def neighbour(session: SessionView, steps: int) -> WindowView | None:
    """Return the window so many places behind the current one, around the ends; None if it is the only one."""
    windows, current = session.windows(), session.current()
    return windows[(windows.index(current) + steps) % len(windows)] if current and len(windows) > 1 else None


# ---- names, indices, sizes


def rename(context: Context, flags: Flags) -> int:
    """Name a window."""
    from roam_live.cli import windows

    found = context.target(flags, "window")
    window = context.of_window(found)
    windows.rename(window.place, storable(context.expand(flags.words[0], found)))
    folder, number = window.session.folder, str(window.number)
    context.change(lambda state: state["sessions"][folder]["windows"][number]["options"].update({"automatic-rename": "off"}))
    return 0


def move(context: Context, flags: Flags) -> int:
    """Give a window another index of its session, or all of them new ones."""
    if flags.has("r"):
        session = context.session(flags)
        base = int(context.model().option("base-index", session.note))
        context.change(lambda state: renumbered(state["sessions"][session.folder], base))
        return 0
    window = context.of_window(context.target(flags, "window", flag="s"))
    found = context.target(flags, "window", may_index=True)
    if context.of_session(found) is not window.session:
        raise BadCommand("move-window: roam does not move a window to another session")
    index = -1 if found.at is None else found.at
    if index < 0:
        index = new_index(context, window.session, FoundTarget(window.session), flags)
    at = next((one for one in window.session.windows() if one.index == index), None)
    if at and at is not window and not flags.has("k"):
        raise BadCommand(f"index in use: {index}")
    if at and at is not window:
        close(context, at)
    folder, number = window.session.folder, window.number
    context.change(lambda state: placed(state["sessions"][folder], number, index, {}))
    if not flags.has("d"):
        set_current(context, context.model().session_of(folder) or window.session, number)
    return 0


def swap(context: Context, flags: Flags) -> int:
    """Exchange the indices of two windows. The current index stays, so the other window is then the current one, unless -d is set."""
    one, other = context.of_window(context.target(flags, "window", flag="s")), context.window(flags)
    if one.session is not other.session:
        raise BadCommand("swap-window: roam does not move a window to another session")
    session, current = one.session, one.session.current()

    def swapped(state: SpaceState) -> None:
        windows = state["sessions"][session.folder]["windows"]
        windows[str(one.number)]["index"], windows[str(other.number)]["index"] = other.index, one.index

    context.change(swapped)
    if current in (one, other) and not flags.has("d"):
        set_current(context, session, other.number if current is one else one.number)
    return 0


def default_size(model: Model, session: SessionNote | None = None) -> list[str]:
    """Return the columns and rows of a new window by the option `default-size`."""
    width, _, height = model.option("default-size", session).partition("x")
    return [width, height] if width.isdigit() and height.isdigit() else ["80", "24"]


def demand_size(place: SessionFolder, size: tuple[int, int]) -> None:
    """Give a window so many rows and columns, within roam's limits, and wait until it has them."""
    from roam_live.cli.send import type_acts
    from roam_live.cli.targets import ready

    rows, cols = min(max(size[0] + 1, LEAST[0]), MOST[0]), min(max(size[1], LEAST[1]), MOST[1])
    places = place.places()
    if places and places.size() == (rows, cols):
        return
    type_acts(ready(place), [f"size {rows} {cols}"], 0)
    end = time.monotonic() + SIZES
    while time.monotonic() < end:
        places = place.places()
        if places and places.size() == (rows, cols):
            return
        time.sleep(STEP)


def resize(context: Context, flags: Flags) -> int:
    """Give a window another size."""
    window = context.window(flags)
    area = window.area()
    steps = number_of(flags.words[0], 1, (1 << 31) - 1, "adjustment") if flags.words else 1
    wide = number_of(flags.value("x") or str(area.cols), 1, 10000, "width")
    high = number_of(flags.value("y") or str(area.rows), 1, 10000, "height")
    wide += steps * (flags.has("R") - flags.has("L"))
    high += steps * (flags.has("D") - flags.has("U"))
    demand_size(window.place, (high, wide))
    context.changed()
    return 0


def select_layout(context: Context, flags: Flags) -> int:
    """Give the panes of a window the sizes of an arrangement that they have already."""
    from roam_live.cli.send import type_acts
    from roam_live.cli.targets import ready
    from roam_live.frontend.borders import Evened, PaneSplit, row_of, splits_of

    window = context.of_window(context.target(flags, "pane"))
    rects = {pane.number: pane.rect for pane in window.panes()}
    parts = splits_of(rects) if rects else None
    name = flags.words[0] if flags.words else ""
    near = [one for one in LAYOUTS if name and one.startswith(name)]
    if name and len(near) != 1:
        raise BadCommand(f"invalid layout: {name}")
    if len(rects) < 2 or not name and not flags.has("E"):
        return 0
    if not isinstance(parts, PaneSplit):
        raise BadCommand(f"select-layout: the panes of window {window.index} have no known order")
    is_row = all(isinstance(one, int) for one in row_of(parts, parts.way)) and (not near or parts.way == LAYOUTS[near[0]])
    if near and not (is_row and (near[0].startswith("even") or len(rects) == 2)):
        raise BadCommand(NO_LAYOUT.format(near[0]))
    acts = Evened(parts, rects).acts
    active = window.active()
    if acts:
        type_acts(ready(window.place), [*acts, *([f"focus {active.number}"] if active else [])], 0)
    context.changed()
    return 0


def await_focus(window: WindowView, number: int) -> None:
    """Wait until a pane is the active one."""
    end = time.monotonic() + SIZES
    while time.monotonic() < end:
        with suppress(Fault):
            places = window.place.places()
            if places is None or places.focus == number or number not in places.rects:
                return
        time.sleep(STEP)
