"""The commands of keys after the prefix, the keymap with the user's own bindings, and the list of keys."""
from __future__ import annotations

from roam_live.config.environment import PREFIX, PREFIXES
from roam_live.input.extended_keys import ANSWERED
from roam_live.input.keys import ESCAPE, Key
from roam_live.input.mouse_reports import MOUSE
from roam_live.protocol.colours import COLOUR

TYPE_CHECKING = False
if TYPE_CHECKING:
    from roam_live.commands.table import TmuxCommand
    from roam_live.commands.wishes import CommandWish
    from roam_live.config.loader import Binding

    # The bindings of a settings file by table and key name; None for an unbound key.
    Own = dict[tuple[str, str], "Binding | None"]

# Events among the keys that are no keys. An escape before one of them is a key of its own.
NO_KEYS = ("text", "paste", "pasted", MOUSE, COLOUR, ANSWERED)

# The start of a request by a user's own binding; its table and key name follow.
OWN = "own"

# Seconds after a move of a border in which the next move needs no prefix, and seconds after C-b q in which a digit selects a pane.
REPEATS = 0.5
PICKS = 3.0
DIGITS = "123456789"

# The most rows that a view scrolls back.
MOST_VIEW = 500
NEWEST = f"view -{MOST_VIEW}"

HELP = """\
C-b and then:
  c        open a window
  n p l    go to the next window; the previous window; the last window
  1 to 9 0 go to a window, by its number; ' asks for it
  w , &    choose a window from a list; name the window; close the window
  % " x    split the pane: on the right, or below; close the pane
  o ;      go to the next pane; to the previously active pane
  arrows   go to the pane in that direction; q and a digit: by its number
  C-arrows move one of its borders; again within half a second without C-b
  z        zoom the pane, until z or another pane is active. The session
           grows meanwhile; lines wrap at each new size
  [ PgUp / enter copy mode; one page up; with a search. Space or C-Space
           selects, Return or M-w copies, q leaves
  ] =      paste the newest buffer; choose a buffer to paste
  m        give the mouse to roam, or back: a click activates a pane, the
           wheel scrolls, dragging copies text or moves a border
  d D      detach this terminal; all others. The session keeps running
  C-z      suspend the front end; `fg` continues it
  r        resize the session to this terminal, and repaint. Lines wrap
           at the new size
  t Space  hide the last row, or show it; divide the space evenly
  ? R :    list the keys; read the settings file again; ask for a command
  C-b      type C-b itself"""


def help_with(prefix: str) -> str:
    """Return the help text for a prefix of this name."""
    # A prefix that is typed twice is itself.
    lines = [line for line in HELP.split("\n") if prefix == PREFIX or not line.startswith(f"  {prefix} ")]
    return "\n".join(lines).replace(PREFIX, prefix)


# The cached result of `defaults`.
DEFAULTS: dict[str, CommandWish] = {}


def defaults() -> dict[str, CommandWish]:
    """Return the default commands of keys after the prefix, from the table of commands: acts, or requests. An arrow requests the focus on
    that side's pane.
    """
    if not DEFAULTS:
        DEFAULTS.update(default_wishes())
    return DEFAULTS


def default_wishes() -> dict[str, CommandWish]:
    """Return the same, looked up in the table."""
    from roam_live.commands.table import DEFAULT_KEYS, asked_by
    from roam_live.input.key_names import named, named_key, typed_name

    return {typed_name(named(key)): asked_by(words.split(" ")) for name, words in DEFAULT_KEYS.items() if (key := named_key(name))}


def moves_border(name: str) -> bool:
    """Return True if a key moves a border by default."""
    return name in defaults() and defaults()[name].wish.startswith("border")


def with_meta(escape: Key, key: Key) -> Key | None:
    """Return the key with Meta that a terminal sends as an escape and another key right after it; None if they are two keys."""
    return Key(f"M-{key.name}", escape.text + key.text) if escape.name == ESCAPE and key.name not in NO_KEYS else None


class Keymap:
    """The commands of keys at one user's terminal: the prefix, the user's bindings, and those that repeat without the prefix."""

    def __init__(self, prefix: str = PREFIX) -> None:
        self.name, self.prefix = prefix, PREFIXES[prefix]
        self.repeats_until = 0.0
        # The user's bindings by table and key name; unbound keys, and a flag for a table without other bindings.
        self.own: dict[tuple[str, str], Binding | None] = {}
        # The terminal's rows; a page is half of them.
        self.rows = 24

    def choose(self, prefix: str) -> None:
        """Make the key of this name the prefix."""
        self.name, self.prefix, self.repeats_until = prefix, PREFIXES[prefix], 0.0

    def joined(self, keys: list[Key]) -> list[Key]:
        """Return keys, with an escape and its successor as one key with Meta if the user has bound that."""
        if not self.own:
            return keys
        from roam_live.input.key_names import name_of_key

        found: list[Key] = []
        for key in keys:
            one = with_meta(found[-1], key) if found else None
            if one and any((table, name_of_key(one)) in self.own for table in ("root", "prefix")):
                found[-1] = one
            else:
                found.append(key)
        return found

    def own_wish(self, table: str, key: Key, now: float) -> str | None:
        """Return the request of a user's own binding, "" if the key is unbound, None if there is no such binding."""
        if not self.own:
            return None
        from roam_live.input.key_names import names_of_key

        names = names_of_key(key)
        name = next((name for name in names if (table, name) in self.own), names[0] if names else "")
        place = (table, name) if (table, name) in self.own else (table, "all")
        if not name or place not in self.own:
            return None
        binding = self.own[place]
        if binding and binding.repeats and table == "prefix":
            self.repeats_until = now + REPEATS
        return f"{OWN} {table} {name}" if binding else ""

    def repeats(self, key: Key, now: float) -> bool:
        """Return True if a key needs no prefix for a moment: one that moves a border, or a user's own with repeat."""
        if now >= self.repeats_until:
            return False
        from roam_live.input.key_names import names_of_key

        bindings = [self.own.get(("prefix", name)) for name in names_of_key(key)] if self.own else []
        binding = next(filter(None, bindings), None)
        return moves_border(key.name) or binding is not None and binding.repeats


# The name for all unbound keys of a table; and the last row of a list that has too many keys.
ALL = "all"
FOOT = "{} to {} of {}: arrows, PgUp and PgDn scroll, another key leaves"

# Columns of a key, and the most columns of a command's arguments.
COLUMNS, MOST = 10, 48


def help_of(prefix: str, own: Own, is_typed: bool = False) -> str:
    """Return the list of keys with the user's bindings, from the file alone or with typed commands too."""
    if not own:
        return help_with(prefix)
    by = f"roam.conf or {prefix} :bind" if is_typed else "roam.conf"
    lines = section(f"{prefix} and then, by {by}:", own, "prefix") + section(f"without it, by {by}:", own, "root")
    if ("prefix", ALL) not in own:
        lines += [f"{prefix} and then, by default:", *default_lines(own), f"  {prefix:{COLUMNS}} type {prefix} itself"]
    return "\n".join(lines)


def section(title: str, own: Own, table: str) -> list[str]:
    """Return the bindings of a settings file in one table, with a title."""
    from roam_live.input.key_names import spelled_name

    found = {name: binding for (one, name), binding in own.items() if one == table}
    lines = [f"  {'all others' if name == ALL else spelled_name(name):{COLUMNS}} {told(binding)}" for name, binding in found.items()]
    return [title, *lines] if lines else []


def told(binding: Binding | None) -> str:
    """Return a binding in the words of the file."""
    if not binding:
        return "nothing"
    return "; ".join(" ".join(f"'{word}'" if " " in word or not word else word for word in words) for words in binding.commands)


def default_lines(own: Own) -> list[str]:
    """Return a line for each command with default keys that the user has not rebound."""
    from roam_live.commands.table import BY_NAME, DEFAULT_KEYS
    from roam_live.input.key_names import named, named_key

    found: dict[TmuxCommand, list[tuple[str, str]]] = {}
    for key, words in DEFAULT_KEYS.items():
        known, (name, _, rest) = named_key(key), words.partition(" ")
        if known and ("prefix", named(known)) not in own:
            found.setdefault(BY_NAME[name], []).append((key, rest))
    return [command_line(command, keys) for command, keys in found.items()]


def command_line(command: TmuxCommand, keys: list[tuple[str, str]]) -> str:
    """Return the line of a command: its keys with their arguments, its name, and its effect."""
    rests = ", ".join(rest for _, rest in keys if rest)
    does = command.help.partition(", with a command")[0]
    name = f"{command.names[0]} {rests}" if 0 < len(rests) <= MOST else command.names[0]
    return f"  {' '.join(key for key, _ in keys):{COLUMNS}} {name}: {does}"
