"""The requests of commands to a front end: what each command of the table means to a terminal, from its flags and words."""
from __future__ import annotations

from roam_live.commands.flags import BadCommand, Flags
from roam_live.common.named_fields import NamedFields
from roam_live.common.text import printable
from roam_live.input.key_names import acts_of_word
from roam_live.input.keys import Key, acts_of
from roam_live.protocol.spawn_request import MOST_BYTES, TOO_LONG, Begins
from roam_live.protocol.window_lines import LONGEST_BYTES, LONGEST_NAME

TYPE_CHECKING = False
if TYPE_CHECKING:
    from collections.abc import Callable

# Limits of a command: its words, and the characters of a text.
MOST_WORDS, LONGEST_TEXT = 100, 1000


# The folder in which a new pane or window starts in any case.
HERE = "#{pane_current_path}"
NOTHING = Begins([], "", "", False)


class CommandWish(NamedFields):
    """The request of a command: acts to type, or a word for the front end with its text; its words; and start options of a new pane or
    window.
    """

    acts: list[str]
    wish: str
    text: str
    words: list[str] | tuple[str, ...] = ()
    begins: Begins | None = None


def wish(word: str) -> Callable[[Flags], CommandWish]:
    """Return a reader of a command that is a single request, without words."""
    def read(flags: Flags) -> CommandWish:
        flags.demand_words()
        return CommandWish([], word, "")
    return read


def by_flag(wishes: dict[str, str], default: str) -> Callable[[Flags], CommandWish]:
    """Return a reader of a command whose flag selects the request."""
    def read(flags: Flags) -> CommandWish:
        flags.demand_words()
        return CommandWish([], next((word for flag, word in wishes.items() if flags.has(flag)), default), "")
    return read


def begun(wishes: dict[str, str], default: str) -> Callable[[Flags], CommandWish]:
    """Return a reader of a command that creates a pane or a window by its flag, with start options."""
    def read(flags: Flags) -> CommandWish:
        word = next((word for flag, word in wishes.items() if flags.has(flag)), default)
        begins = Begins(flags.words, folder_of(flags.found.get("c", HERE)), flags.found.get("n", ""), flags.has("d"))
        if len(begins.packed()) > MOST_BYTES:
            raise BadCommand(TOO_LONG)
        if any("\0" in part for part in (*begins.words, begins.folder)) or begins.words[:1] == [""]:
            raise BadCommand("the command is empty or contains a null character")
        title = begins.title
        if not title.isprintable() or len(title) > LONGEST_NAME or len(title.encode("utf-8", "replace")) > LONGEST_BYTES:
            raise BadCommand(f"a name has at most {LONGEST_NAME} printable characters")
        return CommandWish([], word, "", begins=begins if begins != NOTHING else None)
    return read


def folder_of(text: str) -> str:
    """Return the folder that -c names; nothing for the default one."""
    if text != HERE and "#{" in text:
        raise BadCommand(f"-c takes a directory or {HERE}")
    return "" if text == HERE else text


def listed(flags: Flags) -> CommandWish:
    """Read the list of windows. There is none of sessions."""
    if flags.has("s"):
        raise BadCommand("-s: there is no list of sessions here; `mux ls` prints one")
    return wish("window list")(flags)


def window_of(flags: Flags) -> CommandWish:
    """Read the target window: a number, or another one in order."""
    flags.demand_words(0 if "t" in flags.found else 1)
    target = flags.found.get("t", flags.words[0] if flags.words else "").lstrip(":=")
    ways = {"+": "go next", "-": "go previous", "!": "go last"}
    if flags.has("n") or flags.has("p") or flags.has("l"):
        return by_flag({"n": "go next", "p": "go previous", "l": "go last"}, "")(flags)
    return CommandWish([], ways[target] if target in ways else f"go {flags.number(target, 0, 99) or 'asked'}", "")


def pane_of(flags: Flags) -> CommandWish:
    """Read the target pane: a number, the next, the last, or a neighbour."""
    flags.demand_words()
    target = flags.found.get("t", "").rpartition(".")[2].lstrip(":")
    if target == "+":
        return CommandWish(["next"], "", "")
    if target and target != "!":
        return CommandWish([f"focus {flags.number(target, 1, 9)}"], "", "")
    return by_flag({"L": "left", "R": "right", "U": "up", "D": "down", "l": "last"}, "last" if target else "panes")(flags)


def sized(flags: Flags) -> CommandWish:
    """Read the resize of a pane: a zoom, or a border moved by a number of cells."""
    flags.demand_words(0 if flags.has("Z") else 1)
    if flags.has("Z"):
        return CommandWish([], "zoom", "")
    side = next((side for flag, side in (("L", "left"), ("R", "right"), ("U", "up"), ("D", "down")) if flags.has(flag)), "")
    if not side:
        raise BadCommand("-L, -R, -U, -D or -Z is missing")
    return CommandWish([], f"border {side}", str(flags.number(flags.words[0] if flags.words else "", 1, 99)))


def split_sizes_of(flags: Flags) -> CommandWish:
    """Read the request for even split sizes in the current layout."""
    flags.demand_words(1 if flags.words[:1] in (["even-horizontal"], ["even-vertical"]) else 0)
    return CommandWish([], "even", "")


def keys_sent(flags: Flags) -> CommandWish:
    """Read keys by name, or texts to type."""
    if len(flags.words) > MOST_WORDS or any(len(word) > LONGEST_TEXT for word in flags.words):
        raise BadCommand(f"at most {MOST_WORDS} words of {LONGEST_TEXT} characters are allowed")
    try:
        acts = [acts_of(Key("text", word)) if flags.has("l") else acts_of_word(word) for word in flags.words]
    except ValueError as fault:
        raise BadCommand(str(fault)) from None
    if not any(acts):
        raise BadCommand("keys or a text are missing")
    return CommandWish([act for some in acts for act in some], "", "")


def bound(flags: Flags) -> CommandWish:
    """Read the key of a binding; the settings handle the rest."""
    if not flags.words and not flags.has("a"):
        raise BadCommand("a key is missing")
    return CommandWish([], "bind", "")


def texted(word: str, is_needed: bool = True) -> Callable[[Flags], CommandWish]:
    """Return a reader of a command with a text."""
    def read(flags: Flags) -> CommandWish:
        text = " ".join(flags.words)
        if len(text) > LONGEST_TEXT:
            raise BadCommand(f"at most {LONGEST_TEXT} characters are allowed")
        if is_needed and not text:
            raise BadCommand("a text is missing")
        return CommandWish([], word, text)
    return read
