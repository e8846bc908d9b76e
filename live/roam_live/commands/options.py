"""The options of tmux 3.3a: scope, kind and default of each, the check of a value, and their form in lists."""
from __future__ import annotations

import os
import re

from roam_live.commands.flags import BadCommand
from roam_live.common.named_fields import NamedFields
from roam_live.input.key_names import named_key

TYPE_CHECKING = False
if TYPE_CHECKING:
    from collections.abc import Mapping

    Values = dict[str, str]

# The scopes: server, session, window and pane.
SERVER, SESSION, WINDOW, PANE = "s", "g", "w", "p"

# The scopes of an option, its name, its kind, and its default, as `tmux show-options` prints them. An array has a line for each element.
OPTION_TABLE = r"""
s|backspace|key|C-?
s|buffer-limit|number 1 2147483647|50
s|command-alias[0]|array|split-pane=split-window
s|command-alias[1]|array|splitp=split-window
s|command-alias[2]|array|server-info=show-messages -JT
s|command-alias[3]|array|info=show-messages -JT
s|command-alias[4]|array|choose-window=choose-tree -w
s|command-alias[5]|array|choose-session=choose-tree -s
s|copy-command|string|
s|default-terminal|string|tmux-256color
s|editor|string|
s|escape-time|number 0 2147483647|500
s|exit-empty|flag|on
s|exit-unattached|flag|off
s|extended-keys|choice off on always|off
s|focus-events|flag|off
s|history-file|string|
s|message-limit|number 0 2147483647|1000
s|prompt-history-limit|number 0 2147483647|100
s|set-clipboard|choice off external on|external
s|terminal-overrides|array|
s|terminal-features[0]|array|xterm*:clipboard:ccolour:cstyle:focus:title
s|terminal-features[1]|array|screen*:title
s|user-keys|array|
g|activity-action|choice none any current other|other
g|assume-paste-time|number 0 2147483647|1
g|base-index|number 0 2147483647|0
g|bell-action|choice none any current other|any
g|default-command|string|
g|default-shell|string|
g|default-size|size|80x24
g|destroy-unattached|flag|off
g|detach-on-destroy|choice off on no-detached|on
g|display-panes-active-colour|colour|red
g|display-panes-colour|colour|blue
g|display-panes-time|number 1 2147483647|1000
g|display-time|number 0 2147483647|750
g|history-limit|number 0 2147483647|2000
g|key-table|string|root
g|lock-after-time|number 0 2147483647|0
g|lock-command|string|lock -np
g|message-command-style|style|bg=black,fg=yellow
g|message-style|style|bg=yellow,fg=black
g|mouse|flag|off
g|prefix|key|C-b
g|prefix2|key|None
g|renumber-windows|flag|off
g|repeat-time|number 0 32767|500
g|set-titles|flag|off
g|set-titles-string|string|#S:#I:#W - "#T" #{session_alerts}
g|silence-action|choice none any current other|other
g|status|choice off on 2 3 4 5|on
g|status-bg|colour|default
g|status-fg|colour|default
g|status-format|array|
g|status-interval|number 0 2147483647|15
g|status-justify|choice left centre right absolute-centre|left
g|status-keys|choice emacs vi|emacs
g|status-left|string|[#{session_name}] 
g|status-left-length|number 0 32767|10
g|status-left-style|style|default
g|status-position|choice top bottom|bottom
g|status-right|string|#{?window_bigger,[#{window_offset_x}#,#{window_offset_y}] ,}"#{=21:pane_title}" %H:%M %d-%b-%y
g|status-right-length|number 0 32767|40
g|status-right-style|style|default
g|status-style|style|bg=green,fg=black
g|update-environment[0]|array|DISPLAY
g|update-environment[1]|array|KRB5CCNAME
g|update-environment[2]|array|SSH_ASKPASS
g|update-environment[3]|array|SSH_AUTH_SOCK
g|update-environment[4]|array|SSH_AGENT_PID
g|update-environment[5]|array|SSH_CONNECTION
g|update-environment[6]|array|WINDOWID
g|update-environment[7]|array|XAUTHORITY
g|visual-activity|choice off on both|off
g|visual-bell|choice off on both|off
g|visual-silence|choice off on both|off
g|word-separators|string|!"#$%&'()*+,-./:;<=>?@[\]^`{|}~
wp|cursor-colour|colour|none
wp|cursor-style|choice default blinking-block block blinking-underline underline blinking-bar bar|default
w|aggressive-resize|flag|off
wp|allow-passthrough|flag|off
wp|allow-rename|flag|off
wp|alternate-screen|flag|on
w|automatic-rename|flag|on
w|automatic-rename-format|string|#{?pane_in_mode,[tmux],#{pane_current_command}}#{?pane_dead,[dead],}
w|clock-mode-colour|colour|blue
w|clock-mode-style|choice 12 24|24
w|copy-mode-match-style|style|bg=cyan,fg=black
w|copy-mode-current-match-style|style|bg=magenta,fg=black
w|copy-mode-mark-style|style|bg=red,fg=black
w|fill-character|string|
w|main-pane-height|string|24
w|main-pane-width|string|80
w|mode-keys|choice emacs vi|emacs
w|mode-style|style|bg=yellow,fg=black
w|monitor-activity|flag|off
w|monitor-bell|flag|on
w|monitor-silence|number 0 2147483647|0
w|other-pane-height|string|0
w|other-pane-width|string|0
wp|pane-active-border-style|style|#{?pane_in_mode,fg=yellow,#{?synchronize-panes,fg=red,fg=green}}
w|pane-base-index|number 0 65535|0
wp|pane-border-format|string|#{?pane_active,#[reverse],}#{pane_index}#[default] "#{pane_title}"
w|pane-border-indicators|choice off colour arrows both|colour
w|pane-border-lines|choice single double heavy simple number|single
w|pane-border-status|choice off top bottom|off
wp|pane-border-style|style|default
wp|pane-colours|array|
w|popup-style|style|default
w|popup-border-style|style|default
w|popup-border-lines|choice single double heavy simple rounded padded none|single
wp|remain-on-exit|choice off on failed|off
wp|remain-on-exit-format|string|
wp|scroll-on-clear|flag|on
wp|synchronize-panes|flag|off
wp|window-active-style|style|default
w|window-size|choice largest smallest manual latest|latest
wp|window-style|style|default
w|window-status-activity-style|style|reverse
w|window-status-bell-style|style|reverse
w|window-status-current-format|string|#I:#W#{?window_flags,#{window_flags}, }
w|window-status-current-style|style|default
w|window-status-format|string|#I:#W#{?window_flags,#{window_flags}, }
w|window-status-last-style|style|default
w|window-status-separator|string| 
w|window-status-style|style|default
w|wrap-search|flag|on
w|xterm-keys|flag|on
"""

ATTRIBUTES = frozenset("acs bright bold dim underscore blink reverse hidden italics strikethrough double-underscore curly-underscore "
                       "dotted-underscore dashed-underscore overline".split())
NAMED_COLOURS = re.compile(r"(?:bright)?(?:black|red|green|yellow|blue|magenta|cyan|white)|colou?r(?:[01]?\d?\d|2[0-4]\d|25[0-5])|"
                           r"#[0-9a-fA-F]{6}|default|terminal|[0-9]|9[0-7]")
SWITCHES = {"on": "on", "yes": "on", "1": "on", "off": "off", "no": "off", "0": "off"}
INDEXED = re.compile(r"([^\[\]]+)\[(\d{1,9})\]")


class OptionKind(NamedFields):
    """An option: its scopes, its name, the words of its kind, and its default value."""

    scopes: str
    name: str
    kind: list[str]
    default: str


def table() -> tuple[dict[str, OptionKind], dict[str, Values]]:
    """Return the options by name, and the default values by scope."""
    kinds: dict[str, OptionKind] = {}
    defaults: dict[str, Values] = {SERVER: {}, SESSION: {}, WINDOW: {}}
    for line in OPTION_TABLE.strip().split("\n"):
        scopes, name, kind, default = line.split("|", 3)
        base = name.partition("[")[0]
        kinds.setdefault(base, OptionKind(scopes, base, kind.split(" "), default))
        if kind != "array" or base != name:
            defaults[scopes[0]][name] = default
    defaults[WINDOW]["remain-on-exit-format"] = (
        "Pane is dead (#{?#{!=:#{pane_dead_status},},status #{pane_dead_status},}"
        "#{?#{!=:#{pane_dead_signal},},signal #{pane_dead_signal},}, #{t:pane_dead_time})")
    shell = os.environ.get("SHELL", "")
    defaults[SESSION]["default-shell"] = shell if os.access(shell, os.X_OK) and shell.startswith("/") else "/bin/sh"
    defaults[SERVER]["editor"] = os.environ.get("VISUAL") or os.environ.get("EDITOR") or "/usr/bin/vi"
    return kinds, defaults


KINDS, DEFAULTS = table()


def option_named(name: str) -> tuple[str, str]:
    """Return the full name of an option and its index, each "" without one; BadCommand in tmux's words if there is none."""
    found = INDEXED.fullmatch(name)
    base, index = (found[1], found[2]) if found else (name, "")
    if base.startswith("@") or base in KINDS:
        return base, index
    near = [one for one in KINDS if one.startswith(base)]
    if len(near) > 1:
        raise BadCommand(f"ambiguous option: {name}")
    if not near or not base:
        raise BadCommand(f"invalid option: {name}")
    return near[0], index


def is_array(name: str) -> bool:
    """Return True if an option has elements."""
    return name in KINDS and KINDS[name].kind[0] == "array"


def checked(name: str, value: str | None, before: str) -> str:
    """Return the value of an option in its own form; BadCommand in tmux's words if it is invalid. A switch without a value changes."""
    kind = KINDS[name].kind if name in KINDS else ["string"]
    if kind[0] == "flag" and value is None:
        return "off" if before == "on" else "on"
    if kind[0] == "choice":
        choices = kind[1:]
        value = choices[0 if before != choices[0] and before in choices[:2] else 1] if value is None else value
        if value not in choices:
            raise BadCommand(f"unknown value: {value}")
        return value
    if value is None:
        raise BadCommand("empty value")
    check = {"flag": switch, "number": number, "colour": colour, "style": style, "key": key, "size": size}.get(kind[0])
    return check(value, kind) if check else value


def switch(value: str, kind: list[str]) -> str:
    """Check an option that is on or off."""
    if value.lower() not in SWITCHES:
        raise BadCommand(f"bad value: {value}")
    return SWITCHES[value.lower()]


def number(value: str, kind: list[str]) -> str:
    """Check a number within the limits of an option."""
    if not re.fullmatch(r"[+-]?[0-9]+", value):
        raise BadCommand(f"value is invalid: {value}")
    found = int(value[:20])
    if not int(kind[1]) <= found <= int(kind[2]):
        raise BadCommand(f"value is {'too small' if found < int(kind[1]) else 'too large'}: {value}")
    return str(found)


def colour(value: str, kind: list[str]) -> str:
    """Check a colour."""
    if not NAMED_COLOURS.fullmatch(value.lower()) and value != "none":
        raise BadCommand(f"bad colour: {value}")
    return value


def style(value: str, kind: list[str]) -> str:
    """Check a style, unless it has formats."""
    for word in re.split(r"[, ]+", value.strip()) if "#{" not in value else ():
        part, is_valued, told = word.partition("=")
        is_known = bool(NAMED_COLOURS.fullmatch(told.lower())) if part in ("fg", "bg", "us") else part in (
            "fill", "align", "list", "range") if is_valued else word.removeprefix("no") in ATTRIBUTES or word in (
            "", "none", "default", "ignore", "noignore", "push-default", "pop-default", "nolist", "norange", "noalign", "noattr")
        if not is_known:
            raise BadCommand(f"invalid style: {value}")
    return value


def key(value: str, kind: list[str]) -> str:
    """Check a key."""
    if value.lower() != "none" and not named_key(value):
        raise BadCommand(f"bad key: {value}")
    return "None" if value.lower() == "none" else value


def size(value: str, kind: list[str]) -> str:
    """Check a size, such as 80x24."""
    if not re.match(r"[0-9].*x[0-9]", value):
        raise BadCommand(f"value is invalid: {value}")
    return value


# ---- in lists


def quoted(value: str) -> str:
    """Return a value as tmux prints it, quoted where its reader needs that."""
    if not value:
        return "''"
    quote = '"' if any(letter in " #';${}%" for letter in value) else "'" if '"' in value else ""
    if value != " " and len(value) == 1 and (quote or value == "~"):
        return f"\\{value}"
    found = "".join({"\n": "\\n", "\t": "\\t", "\\": "\\\\"}.get(letter, letter) for letter in value)
    if quote == '"':
        found = re.sub(r"\$(?=[A-Za-z_{])", r"\\$", found.replace('"', '\\"'))
    return f"{quote}{found}{quote}" if quote else f"\\{found}" if found[0] == "~" else found


def in_order(values: Mapping[str, str]) -> list[tuple[str, str]]:
    """Return options in the order of a list, an array's elements by their index."""
    def place(name: str) -> tuple[str, int]:
        found = INDEXED.fullmatch(name)
        return (found[1], int(found[2])) if found else (name, 0)

    return sorted(values.items(), key=lambda item: place(item[0]))


def line_of(name: str, value: str, is_bare: bool, is_inherited: bool = False) -> str:
    """Return the line of an option in a list: its name and its value, or the value alone."""
    if is_bare:
        return value
    kind = KINDS.get(name.partition("[")[0])
    is_text = kind is None or kind.kind[0] in ("string", "array", "size", "style")
    return f"{name}{'*' if is_inherited else ''} {quoted(value) if is_text else value}"
