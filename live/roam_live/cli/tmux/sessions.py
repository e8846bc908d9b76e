"""Commands on sessions: start, end, name, attach to and detach from them."""
from __future__ import annotations

import os
import time

from roam_live.cli.tmux.context import Context, Failed
from roam_live.cli.tmux.numbers import number_of
from roam_live.cli.tmux.windows import begins_of, default_size, demand_size, set_current, window_name
from roam_live.commands.flags import BadCommand
from roam_live.commands.targets import FoundTarget
from roam_live.common.errors import Fault
from roam_live.common.suppress import suppress
from roam_live.protocol.spawn_request import FIRST
from roam_live.session.local import LocalSession

TYPE_CHECKING = False
if TYPE_CHECKING:
    from collections.abc import Mapping

    from roam_live.cli.tmux.model import SessionView
    from roam_live.cli.tmux.name_space import SessionNote, SpaceState
    from roam_live.commands.flags import Flags

# The rows and columns of a window without -x and -y; and the most that tmux accepts.
MOST_SIZE = 65535
NOT_A_TERMINAL = "open terminal failed: not a terminal"
NO_GROUPS = "new-session: roam has no session groups"


def session_name(text: str) -> str:
    """Return the name of a session, in which tmux has no colon and no period; BadCommand if it is empty."""
    name = "".join(letter if letter.isprintable() else "_" for letter in text.replace(":", "_").replace(".", "_"))
    if not name:
        raise BadCommand(f"invalid session: {text}")
    return name


def new(context: Context, flags: Flags) -> int:
    """Start a session."""
    model, given = context.model(), flags.value("s")
    here = FoundTarget() if not model.sessions else context.here()
    name = session_name(context.expand(given, here)) if given is not None else ""
    same = next((one for one in model.sessions if one.name == name), None)
    if same and flags.has("A"):
        return attach_to(context, FoundTarget(same), flags.has("D"))
    if same:
        raise BadCommand(f"duplicate session: {name}")
    if flags.has("t"):
        raise BadCommand(NO_GROUPS)
    width, height = size_of(flags, "x", "width"), size_of(flags, "y", "height")
    is_detached = flags.has("d")
    if not is_detached and not (os.isatty(0) and os.isatty(1)):
        raise BadCommand(NOT_A_TERMINAL)
    folder = begin(context, flags, name, (width, height))
    made = context.model().session_of(folder)
    if made and flags.has("P"):
        found = FoundTarget(made, made.current(), active if (current := made.current()) and (active := current.active()) else None)
        context.write(context.expand(flags.value("F") or "#{session_name}:", found, has_time=True))
    return 0 if is_detached or not made else attach_to(context, FoundTarget(made), False)


def size_of(flags: Flags, flag: str, what: str) -> int | None:
    """Return a width or a height; None without one."""
    text = flags.value(flag)
    return None if text is None or text == "-" else number_of(text, 1, MOST_SIZE, what)


def begin(context: Context, flags: Flags, name: str, size: tuple[int | None, int | None]) -> str:
    """Start a detached session, and return the name of its folder."""
    from roam_live.cli.attaching import begin as begin_session

    space, model = context.space, context.model()
    space.make()
    number = space.new_id()
    taken = {one.name for one in model.sessions}
    name = name or next(str(place) for place in range(len(taken) + 1) if str(place) not in taken)
    place = LocalSession(os.path.join(space.sessions, space.folder_for(name, number)))
    width, height = (one or int(default) for one, default in zip(size, default_size(model)))
    path = context.expand(flags.value("c") or "", FoundTarget()) or os.getcwd()
    title = window_name(context, flags)
    own = dict(pair.split("=", 1) for pair in flags.values.get("e", []) if "=" in pair)
    begins = begins_of(flags.words, path, title, {**model.state["environment"], **own}, False)
    with environment({**own, FIRST: begins.packed().hex()}):
        with place.locked():
            begin_session(place)
            place.demand_ready()
    options = {"default-size": f"{width}x{height}"} if any(size) else {}
    context.change(lambda state: noted(state, place, {
        "id": number, "name": name, "created": int(time.time()), "activity": time.time(), "path": path, "windows": {}, "options": options,
        "environment": {**own}, "hooks": {}, "stack": [], "is_own": True}))
    made = context.model().session_of(place.name)
    window = made.current() if made else None
    if made and window:
        number = window.number
        if title:
            context.change(lambda state: state["sessions"][place.name]["windows"][str(number)]["options"].update(
                {"automatic-rename": "off"}))
        # Its command may have ended already.
        with suppress(Fault):
            demand_size(window.place, (height, width))
        set_current(context, made, window.number)
    return place.name


def noted(state: SpaceState, place: LocalSession, note: SessionNote) -> None:
    """Store the note of a new session."""
    state["sessions"][place.name] = note


class environment:
    """Sets variables of this process in a `with`, for the processes that it starts."""

    def __init__(self, values: Mapping[str, str]) -> None:
        self.values = values
        self.before = {name: os.environ.get(name) for name in values}

    def __enter__(self) -> None:
        os.environ.update(self.values)

    def __exit__(self, *fault: object) -> None:
        for name, value in self.before.items():
            if value is None:
                os.environ.pop(name, None)
            else:
                os.environ[name] = value


def start_server(context: Context, flags: Flags) -> int:
    """Make the name space. A server of tmux without a session ends at once."""
    context.space.make()
    return 0


def has(context: Context, flags: Flags) -> int:
    """Succeed if the target is there."""
    context.target(flags, "session")
    return 0


def rename(context: Context, flags: Flags) -> int:
    """Name a session."""
    session = context.session(flags)
    name = session_name(context.expand(flags.words[0], FoundTarget(session)))
    if name == session.name:
        return 0
    if any(one.name == name for one in context.model().sessions):
        raise BadCommand(f"duplicate session: {name}")
    context.change(lambda state: state["sessions"][session.folder].update({"name": name}))
    return 0


# ---- ends


def kill(context: Context, flags: Flags) -> int:
    """End a session, or all others."""
    session = context.session(flags)
    if flags.has("C"):
        return 0
    for one in [one for one in context.model().sessions if (one is session) != flags.has("a")]:
        end(one)
    context.changed()
    return 0


def kill_server(context: Context, flags: Flags) -> int:
    """End the sessions that were started in this name space, and nothing else."""
    for one in context.model().sessions:
        if one.note["is_own"]:
            end(one)
    context.changed()
    context.model()
    return 0


def end(session: SessionView) -> None:
    """End a session with its programs."""
    place = session.place
    place.end_all()
    if place.runs():
        raise BadCommand(f"session {session.name} did not end")
    with place.locked():
        place.tidy()
    with suppress(OSError):
        place.drop_ended()


# ---- terminals


def attach(context: Context, flags: Flags) -> int:
    """Attach this terminal to a session."""
    if not context.model().sessions:
        raise BadCommand("no sessions")
    found = context.target(flags, "session" if (flags.value("t") or "").count(":") == 0 else "pane")
    return attach_to(context, found, flags.has("d"), flags.has("r"))


def attach_to(context: Context, found: FoundTarget, is_alone: bool, is_read_only: bool = False) -> int:
    """Attach this terminal to a session, and return the status once it has left."""
    from roam_live.cli.attaching import enter
    from roam_live.cli.windows import detach_others

    session = context.of_session(found)
    if not (os.isatty(0) and os.isatty(1)):
        raise BadCommand(NOT_A_TERMINAL)
    window = context.of_window(found if found.window else found._replace(window=session.current()))
    if is_alone:
        detach_others(window.place)
    status = enter(f"{session.folder}:{window.number}", is_read_only, may_begin=False)
    if status:
        raise Failed(status)
    return 0


def detach(context: Context, flags: Flags) -> int:
    """Detach the terminals of a session, one terminal by its name, or all but one."""
    from roam_live.cli.windows import WindowsAsked, detach_others

    name = flags.value("t")
    sessions = context.model().sessions
    if name is None and flags.value("s") is None and not context.here().window:
        raise BadCommand("no current client")
    if name is None:
        session = context.of_session(context.find(flags.value("s"), "session"))
        detach_others(session.found[0].place)
        return 0
    for session in sessions:
        asked = WindowsAsked(session.found[0].place)
        for words in asked.clients():
            if words[2] == name or f"/dev/{words[2]}" == name:
                asked.say(f"leave {words[1]}")
                asked.until("left")
                return 0
    raise BadCommand(f"can't find client: {name}")
