"""The user's own settings file: its path, its optional use, and the report on it."""
from __future__ import annotations

import os

from roam_live.common.errors import Fault
from roam_live.config.environment import BY_FILE, choose_by_file, text_of

TYPE_CHECKING = False
if TYPE_CHECKING:
    from roam_live.config.loader import FileSettings

NAME = "roam.conf"

# The command of `mux` that prints each line.
PRINTS = "mux settings"


def settings_path() -> str:
    """Return the path of the file: in the folder `roam` of the configuration folder (XDG base directories)."""
    base = os.environ.get("XDG_CONFIG_HOME", "")
    return os.path.join(base if os.path.isabs(base) else os.path.expanduser("~/.config"), "roam", NAME)


def no_settings() -> FileSettings:
    """Return empty settings. Users without a settings file do not wait for these imports."""
    from roam_live.commands.table import BY_NAME
    from roam_live.config.loader import FileSettings

    return FileSettings(commands=BY_NAME)


def read_settings() -> FileSettings | None:
    """Return the contents of the file, and use them from now on; None if there is no file."""
    path = settings_path()
    if not os.path.lexists(path):
        choose_by_file({})
        return None
    found = no_settings()
    take(found, path)
    return found


def take(found: FileSettings, path: str) -> None:
    """Add a file to the settings, and apply them in this process. Bindings to impossible commands are dropped."""
    found.read(path)
    for (table, key), binding in list(found.bindings.items()):
        why = next(filter(None, map(refused, binding.commands)), "") if binding else ""
        if why:
            found.tell(path, 0, f"{key} is not bound: {why}")
            del found.bindings[table, key]
    choose_by_file(found.values)


def refused(words: list[str]) -> str:
    """Return the reason that a command is impossible; nothing if it is possible."""
    from roam_live.commands.flags import BadCommand
    from roam_live.commands.table import asked_by

    try:
        asked_by(words)
    except BadCommand as fault:
        return str(fault)
    return ""


class OwnSettings:
    """The contents of the file as last read in this process."""

    def __init__(self) -> None:
        self.found: FileSettings | None = None
        # True if a typed command has bound or unbound a key.
        self.is_typed = False

    def read(self) -> None:
        """Read it, and apply it."""
        self.found, self.is_typed = read_settings(), False

    def add(self, path: str) -> None:
        """Read another file, and apply it too. Fault gives the reason if it can't be read; nothing changes then."""
        path = os.path.expanduser(path)
        why = no_settings().why_unread(path)
        if why:
            raise Fault(f"{path}: {why}")
        found = no_settings()
        found.values.update(BY_FILE)
        found.bindings.update(self.found.bindings if self.found else {})
        take(found, path)
        self.found = found

    def bind(self, words: list[str]) -> None:
        """Bind or unbind a key by the words of a command, until the file is reloaded. BadWord gives the reason of a failure."""
        from roam_live.config.parser import BadWord

        found = no_settings()
        found.bindings.update(self.found.bindings if self.found else {})
        before = dict(found.bindings)
        does = found.unbind if words[0].startswith("unbind") else found.bind
        does([*words[1:]])
        for place, binding in found.bindings.items():
            why = next(filter(None, map(refused, binding.commands)), "") if binding and before.get(place) != binding else ""
            if why:
                raise BadWord(f"{place[1]} is not bound: {why}")
        if self.found:
            self.found.bindings = found.bindings
        else:
            self.found = found
        self.is_typed = True

    def line(self) -> str:
        """Return the line about it for a terminal."""
        return summary(self.found)


OWN = OwnSettings()


def default_command() -> list[str]:
    """Return the default command of a pane: the option `default-command`, run by the shell; else nothing."""
    command = text_of("default-command")
    return [os.environ.get("SHELL") or "/bin/sh", "-c", command] if command else []


def undone(found: FileSettings) -> list[str]:
    """Return a line for each unsupported part of a file."""
    from roam_live.config.formats import SIDES, unread

    wrong = [line for side in SIDES for line in unread(f"status-{side}", str(found.values.get(f"status-{side}", "")))]
    return [*found.told, *([f"{found.untold} more lines are not shown"] if found.untold else []), *wrong]


def summary(found: FileSettings | None) -> str:
    """Return the report on a file for a terminal: its own message, or the count of unsupported parts; nothing if all is well."""
    lines = undone(found) if found else []
    said = found.messages[-1:] if found else []
    wrong = lines[:1] if len(lines) < 2 else [f"{len(lines)} lines of {NAME} have no effect in roam; `{PRINTS}` prints them"]
    return "; ".join([*said, *wrong])
