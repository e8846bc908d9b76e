"""Settings from the environment, or else from the settings file.

They include the prefix, predictions, the mouse, the clipboard and the scrollback limit, and the use of UDP between machines.
"""
from __future__ import annotations

import os

from roam_live.common.errors import Fault

TYPE_CHECKING = False
if TYPE_CHECKING:
    from collections.abc import Iterable

# The variables that roam reads: the user's, and those that its tools pass to each other. Every variable has to be listed here.
VARIABLES = ("ROAM_CLIPBOARD", "ROAM_HISTORY", "ROAM_MOUSE", "ROAM_PREDICT", "ROAM_PREFIX", "ROAM_UDP", "ROAM_WHY")
INTERNAL_VARIABLES = ("ROAM_CALLED", "ROAM_FIRST", "ROAM_HOLDER", "ROAM_PANE", "ROAM_PUMP", "ROAM_SPARE")

# The keys that may be the prefix, by name, and the default.
PREFIXES = {f"C-{letter}": chr(ord(letter) & 31) for letter in "abcdefghijklmnopqrstuvwxyz]\\^_"}
PREFIX = "C-b"

# The choices for predictions of typed keys, which appear before the session confirms them. The first is the default.
PREDICTION = ("adaptive", "always", "never")

# The choices for roam's own use of the mouse: a click focuses, the wheel scrolls, and borders are dragged.
MOUSE = ("off", "on")

# The choices for the terminal's clipboard: set by copies in roam, by programs in panes too, or never.
CLIPBOARD = ("external", "on", "off")

# The default and the largest number of scrollback rows of a pane.
DEFAULT_ROWS, MOST_ROWS = 10_000, 1_000_000

# Options of the settings file by name. The environment has precedence.
BY_FILE: dict[str, str | int] = {}

# The defaults: milliseconds that an escape waits for more bytes, and seconds between updates of clocks in the last row.
ESCAPE_TIME = 25
STATUS_INTERVAL = 15

# The choices for the session's size: the largest of its terminals, or the one with the latest input.
WINDOW_SIZES = ("largest", "latest")


def unknown_variables(names: Iterable[str]) -> list[str]:
    """Return the names that begin like roam's variables without being one, in order."""
    return sorted(name for name in names if name.startswith("ROAM_") and name not in VARIABLES + INTERNAL_VARIABLES)


def choose_by_file(values: dict[str, str | int]) -> None:
    """Use these values of a settings file from now on, in place of all earlier ones."""
    BY_FILE.clear()
    BY_FILE.update(values)


def word_of(variable: str, option: str, default: str) -> str:
    """Return the value of an environment variable, else of an option of the settings file."""
    return os.environ.get(variable) or str(BY_FILE.get(option, default))


def number_of(option: str, default: int) -> int:
    """Return the number that an option of the settings file sets."""
    found = BY_FILE.get(option, default)
    return found if isinstance(found, int) else default


def text_of(option: str) -> str:
    """Return the text of an option in the settings file; nothing if it is unset."""
    return str(BY_FILE.get(option, ""))


def chosen_prefix() -> str:
    """Return the name of the prefix: ROAM_PREFIX, or the option `prefix`, if valid."""
    name = word_of("ROAM_PREFIX", "prefix", PREFIX)
    if name not in PREFIXES:
        raise Fault(f"ROAM_PREFIX is {name!r}; it may be C-a to C-z, C-], C-\\, C-^ or C-_")
    return name


def chosen_prediction(asked: str | None = None) -> str:
    """Return when predictions are shown: as asked, else by ROAM_PREDICT, or by the option `predict`, if valid."""
    return chosen("ROAM_PREDICT", "predict", PREDICTION, asked)


def chosen(variable: str, option: str, choices: tuple[str, ...], asked: str | None = None) -> str:
    """Return the requested choice, else that of an environment variable or an option; the first choice if none is valid."""
    name = asked or word_of(variable, option, choices[0])
    if name not in choices:
        raise Fault(f"{variable} is {name!r}; it may be {', '.join(choices[:-1])} or {choices[-1]}")
    return name


def wants_mouse() -> bool:
    """Return True if roam uses the mouse from the start: if ROAM_MOUSE, or the option `mouse`, is `on`."""
    return chosen("ROAM_MOUSE", "mouse", MOUSE) == "on"


def sets_clipboard() -> bool:
    """Return True if programs in panes set the terminal's clipboard: if ROAM_CLIPBOARD, or the option `set-clipboard`, is `on`."""
    return chosen("ROAM_CLIPBOARD", "set-clipboard", CLIPBOARD) == "on"


def may_set_clipboard() -> bool:
    """Return True if copies set the terminal's clipboard: if ROAM_CLIPBOARD, or the option `set-clipboard`, isn't `off`."""
    return word_of("ROAM_CLIPBOARD", "set-clipboard", CLIPBOARD[0]) != "off"


def wants_vi() -> bool:
    """Return True if copy mode uses vi keys: by the option `mode-keys`, else if the program name in VISUAL or EDITOR contains `vi`, as in
    tmux.
    """
    by_program = "vi" in os.path.basename(os.environ.get("VISUAL") or os.environ.get("EDITOR") or "")
    return BY_FILE["mode-keys"] == "vi" if "mode-keys" in BY_FILE else by_program


def follows_latest() -> bool:
    """Return True if a session takes the size of the terminal with the latest input, even if that cuts others: by the option `window-size`.
    """
    return BY_FILE.get("window-size") == WINDOW_SIZES[1]


def wants_extended_keys() -> bool:
    """Return True if roam asks the terminal for extended keys: if the option `extended-keys` isn't `off`."""
    return text_of("extended-keys") != "off"


def chosen_history() -> int:
    """Return the limit of a pane's scrollback rows: ROAM_HISTORY, or the option `history-limit`, if valid."""
    word = word_of("ROAM_HISTORY", "history-limit", str(DEFAULT_ROWS))
    if not (word.isascii() and word.isdigit() and len(word) <= len(str(MOST_ROWS)) and int(word) <= MOST_ROWS):
        raise Fault(f"ROAM_HISTORY is {word[:40]!r}; it may be 0 to {MOST_ROWS}")
    return int(word)


def wants_udp() -> bool:
    """Return True if a remote session uses UDP if possible: unless ROAM_UDP is `never`."""
    return os.environ.get("ROAM_UDP") != "never"
