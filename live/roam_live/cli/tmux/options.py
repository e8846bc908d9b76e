"""Commands on options, variables and hooks."""
from __future__ import annotations

import os
import re

from roam_live.cli.tmux.context import Context
from roam_live.cli.tmux.shell_commands import words_in
from roam_live.cli.tmux.windows import default_size, demand_size
from roam_live.commands.flags import BadCommand
from roam_live.commands.options import (DEFAULTS, KINDS, PANE, SERVER, SESSION, WINDOW, checked, in_order, is_array, line_of,
                                        option_named, quoted)
from roam_live.commands.table import command_named
from roam_live.commands.targets import FoundTarget

TYPE_CHECKING = False
if TYPE_CHECKING:
    from collections.abc import Callable
    from roam_live.cli.tmux.model import SessionView
    from roam_live.cli.tmux.name_space import SessionNote, SpaceState
    from roam_live.commands.flags import Flags

    # The options of a scope, in the state of a name space.
    Values = dict[str, str]

# The events of tmux. roam stores a hook, and runs none.
HOOKS = frozenset("""
after-bind-key after-capture-pane after-copy-mode after-display-message after-display-panes after-kill-pane after-list-buffers
after-list-clients after-list-keys after-list-panes after-list-sessions after-list-windows after-load-buffer after-lock-server
after-new-session after-new-window after-paste-buffer after-pipe-pane after-queue after-refresh-client after-rename-session
after-rename-window after-resize-pane after-resize-window after-save-buffer after-select-layout after-select-pane after-select-window
after-send-keys after-set-buffer after-set-environment after-set-hook after-set-option after-show-environment after-show-messages
after-show-options after-split-window after-unbind-key alert-activity alert-bell alert-silence client-active client-attached
client-detached client-focus-in client-focus-out client-resized client-session-changed pane-died pane-exited pane-focus-in pane-focus-out
pane-mode-changed pane-set-clipboard pane-title-changed session-closed session-created session-renamed session-window-changed
window-layout-changed window-linked window-pane-changed window-renamed window-resized window-unlinked
""".split())

# The separators of the values of arrays; all others have blanks and commas.
COMMAS = ("command-alias", "terminal-overrides", "terminal-features", "user-keys")


class FormatScope:
    """The place of an option: a call that returns its values in a state, and the default values."""

    def __init__(self, finds: Callable[[SpaceState], Values], defaults: Values) -> None:
        self.finds, self.defaults = finds, defaults

    def values(self, state: SpaceState) -> Values:
        """Return the set values, and the defaults of those that are not set. An array is set as a whole."""
        own = self.finds(state)
        arrays = {name.partition("[")[0] for name in own if "[" in name}
        return {**{name: value for name, value in self.defaults.items() if name.partition("[")[0] not in arrays}, **own}


def is_of_windows(flags: Flags) -> bool:
    """Return True for set-window-option and show-window-options."""
    return flags.has("w") or flags.has("of windows")


def scope_of(context: Context, flags: Flags, name: str) -> FormatScope:
    """Return the scope of an option by its name and the flags; a name that begins with @ has the one of the flags."""
    kind = KINDS[name].scopes if name in KINDS else ""
    is_window = is_of_windows(flags)
    if SERVER in kind or not kind and flags.has("s"):
        return FormatScope(lambda state: state["server"], DEFAULTS[SERVER] if kind or not name else {})
    if flags.has("p") and (not kind or PANE in kind):
        return pane_scope(context, flags)
    if WINDOW in kind or not kind and is_window:
        if flags.has("g"):
            return FormatScope(lambda state: state["window_options"], DEFAULTS[WINDOW])
        found = wanted(context, flags, "window", "window")
        folder, number = context.of_session(found).folder, str(context.of_window(found).number)
        return FormatScope(lambda state: state["sessions"][folder]["windows"][number]["options"], {})
    if flags.has("g"):
        return FormatScope(lambda state: state["session_options"], DEFAULTS[SESSION])
    folder = context.of_session(wanted(context, flags, "session", "session")).folder
    return FormatScope(lambda state: state["sessions"][folder]["options"], {})


def pane_scope(context: Context, flags: Flags) -> FormatScope:
    """Return the scope of the options of a pane."""
    found = wanted(context, flags, "pane", "pane")
    folder, number = context.of_session(found).folder, str(context.of_window(found).number)
    pane = str(context.of_pane(found).id)
    return FormatScope(lambda state: state["sessions"][folder]["windows"][number]["panes"].setdefault(pane, {}), {})


def wanted(context: Context, flags: Flags, kind: str, what: str) -> FoundTarget:
    """Return the target of a command on options; BadCommand in tmux's words if there is none."""
    name = flags.value("t")
    try:
        if kind == "session" and name and ":" in name:
            # As in tmux, the window of the target need not be there.
            return context.find(name.partition(":")[0], "session")
        return context.find(name, "pane" if kind == "session" else kind)
    except BadCommand:
        raise BadCommand(f"no such {what}: {name}" if name else f"no current {what}") from None


# ---- set and show


def set_option(context: Context, flags: Flags) -> int:
    """Set, append to or unset an option."""
    try:
        changed(context, flags)
    except BadCommand as fault:
        if not flags.has("q") or not str(fault).startswith(("invalid option", "ambiguous option", "no such", "no current", "already set")):
            raise
    return 0


def changed(context: Context, flags: Flags) -> None:
    """Set, append to or unset an option; BadCommand in tmux's words if that is not possible."""
    word, value = flags.words[0], flags.words[1] if len(flags.words) > 1 else None
    if "#" in word:
        word = context.expand(word, target_of(context, flags))
    name, index = option_named(word)
    if value is not None and flags.has("F"):
        # The values of other programs in it may come to a shell later.
        value = context.expand(value, target_of(context, flags), has_time=False, is_shell=True)
    scope = scope_of(context, flags, name)
    if index and not is_array(name):
        raise BadCommand(f"not an array: {word}")
    state = context.model().state
    own = scope.values(state)
    key = f"{name}[{index}]" if index else name
    is_set = key in own or is_array(name) and not index and any(one.startswith(f"{name}[") for one in own)
    if flags.has("u") or flags.has("U"):
        context.change(lambda state: unset(scope.finds(state), name, index))
        return
    if flags.has("o") and is_set:
        raise BadCommand(f"already set: {word}")
    if is_array(name):
        if value is None:
            raise BadCommand("empty value")
        text = value
        context.change(lambda state: put_array(scope, state, name, index, text, flags.has("a")))
        return
    before = own.get(name, context.variables(target_of(context, flags)).option(name) or "")
    if flags.has("a") and value is not None and (name.startswith("@") or KINDS[name].kind[0] in ("string", "style")):
        comma = "," if name in KINDS and KINDS[name].kind[0] == "style" and own.get(name) else ""
        value = f"{own.get(name, '')}{comma}{value}"
    found = checked(name, value, {"1": "on", "0": "off"}.get(before, before))
    context.change(lambda state: scope.finds(state).update({name: found}))
    if name == "default-size":
        resize_windows(context, context.model().sessions if flags.has("g") else [context.of_session(target_of(context, flags))])


def resize_windows(context: Context, sessions: list[SessionView]) -> None:
    """Give the windows of sessions without a terminal their default size, as tmux does."""
    for session in sessions:
        width, height = (int(one) for one in default_size(context.model(), session.note))
        if not context.variables(FoundTarget(session)).terminals():
            for window in session.windows():
                demand_size(window.place, (height, width))
    context.changed()


def target_of(context: Context, flags: Flags) -> FoundTarget:
    """Return the target for formats; none if there is no such target."""
    try:
        return context.find(flags.value("t"), "pane")
    except BadCommand:
        return FoundTarget()


def unset(own: Values, name: str, index: str) -> None:
    """Remove an option, or an element of an array."""
    for key in [key for key in own if key == (f"{name}[{index}]" if index else name) or not index and key.startswith(f"{name}[")]:
        del own[key]


def put_array(scope: FormatScope, state: SpaceState, name: str, index: str, value: str, is_added: bool) -> None:
    """Set an element of an array, all of it, or append to it."""
    own = scope.finds(state)
    before = {key: text for key, text in scope.values(state).items() if key.startswith(f"{name}[")}
    if index:
        own.update({**before, f"{name}[{index}]": f"{before.get(f'{name}[{index}]', '') if is_added else ''}{value}"})
        return
    parts = [part for part in re.split("," if name in COMMAS else "[ ,]", value) if part]
    if not is_added:
        unset(own, name, "")
        before = {}
    taken = {int(key[len(name) + 1 : -1]) for key in before}
    own.update(before)
    for part in parts:
        free = next(number for number in range(len(taken) + 1) if number not in taken)
        taken.add(free)
        own[f"{name}[{free}]"] = part


def show_options(context: Context, flags: Flags) -> int:
    """Print the options of a scope, or one of them."""
    try:
        word = flags.words[0] if flags.words else ""
        name, index = option_named(word) if word else ("", "")
        scope = scope_of(context, flags, name)
    except BadCommand:
        if flags.has("q"):
            return 0
        raise
    found = scope.values(context.model().state)
    for option in sorted(arrays_in(scope)) if not name else [name] if is_array(name) else ():
        if not any(key.startswith(f"{option}[") for key in found) and (not name or name in arrays_in(scope)) and not flags.has("v"):
            found = {**found, option: ""}
    inherited = set()
    if flags.has("A"):
        more = {key: value for key, value in wider(context, flags, name).items() if key not in found}
        inherited, found = set(more), {**more, **found}
    shown = {key: value for key, value in found.items() if not name or key == (f"{name}[{index}]" if index else name)
             or not index and key.startswith(f"{name}[")}
    if name.startswith("@") and not shown and not flags.has("q"):
        raise BadCommand(f"invalid option: {word}")
    for key, value in in_order(shown):
        is_bare = is_array(key) and not value
        context.write(key if is_bare else line_of(key, value, flags.has("v"), key in inherited))
    return 0


def arrays_in(scope: FormatScope) -> set[str]:
    """Return the arrays among the options of a global scope."""
    return {kind.name for kind in KINDS.values() if kind.kind[0] == "array" and DEFAULTS[kind.scopes[0]] is scope.defaults}


def wider(context: Context, flags: Flags, name: str) -> Values:
    """Return the global options that a session or a window inherits."""
    is_window = WINDOW in KINDS[name].scopes if name in KINDS else is_of_windows(flags)
    scope = FormatScope(lambda state: state["window_options"] if is_window else state["session_options"],
                  DEFAULTS[WINDOW if is_window else SESSION])
    return scope.values(context.model().state)


def set_window_option(context: Context, flags: Flags) -> int:
    """Set an option of a window."""
    flags.found["of windows"] = ""
    return set_option(context, flags)


def show_window_options(context: Context, flags: Flags) -> int:
    """Print options of a window."""
    flags.found["of windows"] = ""
    return show_options(context, flags)


# ---- variables


def environment_of(context: Context, flags: Flags) -> tuple[str, dict[str, str | None]]:
    """Return the folder of the target session, "" for the global environment, and its variables. None is a removed one."""
    if flags.has("g"):
        return "", {**os.environ, **context.model().state["environment"]}
    session = context.of_session(wanted(context, flags, "session", "session"))
    names = [value for key, value in DEFAULTS[SESSION].items() if key.startswith("update-environment[")]
    return session.folder, {**{name: os.environ.get(name) for name in names}, **session.note["environment"]}


def set_environment(context: Context, flags: Flags) -> int:
    """Set, remove or forget a variable for new panes."""
    name, value = flags.words[0], flags.words[1] if len(flags.words) > 1 else None
    if not name:
        raise BadCommand("empty variable name")
    if "=" in name:
        raise BadCommand("variable name contains =")
    if value is not None and flags.has("F"):
        value = context.expand(value, target_of(context, flags), is_shell=True)
    folder, _ = environment_of(context, flags)
    for flag in "ur":
        if flags.has(flag) and value is not None:
            raise BadCommand(f"can't specify a value with -{flag}")
    if value is None and not (flags.has("u") or flags.has("r")):
        raise BadCommand("no value specified")

    def put(state: SpaceState) -> None:
        owner: SessionNote | SpaceState = state["sessions"][folder] if folder else state
        own = owner["environment"]
        hidden = [one for one in owner.get("hidden", []) if one != name]
        owner["hidden"] = hidden + [name] * flags.has("h")
        if flags.has("u"):
            own.pop(name, None)
        else:
            own[name] = None if flags.has("r") else value

    context.change(put)
    return 0


def show_environment(context: Context, flags: Flags) -> int:
    """Print the variables for new panes, or one of them."""
    folder, found = environment_of(context, flags)
    state = context.model().state
    owner: SessionNote | SpaceState = state["sessions"][folder] if folder else state
    hidden = owner.get("hidden", [])
    name = flags.words[0] if flags.words else ""
    if name and name not in found:
        raise BadCommand(f"unknown variable: {name}")
    for one, value in sorted(found.items()) if not name else [(name, found[name])]:
        if (one in hidden) != flags.has("h"):
            continue
        if flags.has("s"):
            quoted = re.sub(r'([$`"\\])', r"\\\1", value or "")
            context.write(f"unset {one};" if value is None else f'{one}="{quoted}"; export {one};')
        else:
            context.write(f"-{one}" if value is None else f"{one}={value}")
    return 0


# ---- hooks


def hooks_of(context: Context, flags: Flags) -> Callable[[SpaceState], dict[str, list[str]]]:
    """Return a call for the hooks of the target, or the global ones."""
    if flags.has("g"):
        return lambda state: state["hooks"]
    folder = context.of_session(wanted(context, flags, "session", "session")).folder
    return lambda state: state["sessions"][folder]["hooks"]


def set_hook(context: Context, flags: Flags) -> int:
    """Store a command for an event."""
    word = flags.words[0]
    name = word.partition("[")[0]
    if name not in HOOKS:
        raise BadCommand(f"invalid option: {word}")
    finds = hooks_of(context, flags)
    if flags.has("R"):
        return 0
    if not flags.has("u") and len(flags.words) < 2:
        raise BadCommand("empty value")

    def put(state: SpaceState) -> None:
        own = finds(state)
        own[name] = [] if flags.has("u") else [*(own.get(name, []) if flags.has("a") else []), flags.words[1]]
        if not own[name]:
            del own[name]

    context.change(put)
    return 0


def told(text: str) -> str:
    """Return commands as tmux prints them: with their full names, and with quotes where they need them."""
    found = [[command_named(name).names[0], *map(quoted, words)] for name, *words in words_in(text)]
    return " ; ".join(" ".join(words) for words in found)


def show_hooks(context: Context, flags: Flags) -> int:
    """Print the stored hooks."""
    for name, commands in sorted(hooks_of(context, flags)(context.model().state).items()):
        for number, command in enumerate(commands):
            context.write(f"{name}[{number}] {told(command)}")
    return 0
