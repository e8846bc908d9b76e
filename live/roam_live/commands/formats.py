"""The formats of tmux (tmux(1), FORMATS): variables, conditions, comparisons, modifiers and loops.

A value that a program or another machine chose is text only. Where a format becomes a shell command, each of its characters that a shell
may interpret becomes `_`. Where it is expanded again, or drawn, its `#` begins nothing: until then the mark LITERAL stands for it.
"""
from __future__ import annotations

import operator
import os
import re
import time

from roam_live.commands.format_modifiers import LONGEST, limited, matched, number_of, padded, substituted, told_time
from roam_live.common.cell_widths import width_of
from roam_live.common.named_fields import NamedFields
from roam_live.common.suppress import suppress

TYPE_CHECKING = False
if TYPE_CHECKING:
    from collections.abc import Callable, Iterable

# Stands for `#` of a value, until the text is complete. No value contains it.
LITERAL = "\ufdd0"

# The deepest nesting of formats.
DEEPEST = 100

# The variables of single letters.
LETTERS = {"D": "pane_id", "F": "window_flags", "H": "host", "I": "window_index", "P": "pane_index", "S": "session_name", "T": "pane_title",
           "W": "window_name", "h": "host_short"}

# The modifiers without an argument, those of two characters, and those with arguments.
BARE, DOUBLE, ARGUED = "labcdnwETSWPL<>", ("||", "&&", "!=", "==", "<=", ">="), "mCNst=peq"

# A conversion of strftime.
TIME = re.compile(r"%[EO]?[A-Za-z%]")

# The characters that tmux escapes for a shell, and those of a value that a shell cannot interpret.
QUOTED = frozenset("|&;<>()$`\\\"'*?[# =%")
HARMLESS = re.compile(r"[^A-Za-z0-9 _./:@%+=,-]")

class Modifier(NamedFields):
    """A modifier of a variable: its characters, and its arguments."""

    name: str
    words: list[str]


class FormatScope:
    """The values for a format: variables and options, the parts over which loops run, and commands in `#(..)`. This one has none."""

    def variable(self, name: str) -> str | None:
        """Return the value of a variable; None if there is none."""
        return None

    def option(self, name: str) -> str | None:
        """Return the value of an option; None if there is none."""
        return None

    def is_chosen(self, name: str) -> bool:
        """Return True if a program, another machine or a name decides the value of a variable."""
        return True

    def parts(self, kind: str) -> Iterable[tuple[FormatScope, bool]]:
        """Return the sessions (S), windows (W), panes (P) or terminals (L) of a loop, and True for the active one."""
        return ()

    def has_name(self, name: str, is_window: bool) -> bool:
        """Return True if a session, or a window of this session, has this name."""
        return False

    def found(self, text: str, flags: str) -> int:
        """Return the number of the first row of the pane with this text; 0 if there is none."""
        return 0

    def ran(self, command: str) -> str:
        """Return the output of a shell command."""
        return ""


def harmless(text: str) -> str:
    """Return a text with `_` for each character that a shell may interpret."""
    return HARMLESS.sub("_", text)


def expanded(text: str, scope: FormatScope, has_time: bool = False, is_shell: bool = False) -> str:
    """Return a format with its values. `is_shell` is for a text that a shell runs, or that is stored and may be run later."""
    return Expansion(scope, is_shell).text(text, has_time).replace(LITERAL, "#")


def with_marks(text: str, scope: FormatScope, moment: time.struct_time | None = None) -> str:
    """Return a format with its values and a time. LITERAL stands for the `#` of values, so styles are only those of the user's text."""
    return Expansion(scope, False, moment).text(text, moment is not None)


def is_true(text: str) -> bool:
    """Return True if a value counts as true."""
    return text not in ("", "0")


CALCULATED: dict[str, Callable[[float, float], float]] = {
    "+": operator.add, "-": operator.sub, "*": operator.mul, "/": operator.truediv, "m": operator.mod, "%": operator.mod,
    "%%": operator.mod, "==": operator.eq, "!=": operator.ne, ">": operator.gt, "<": operator.lt, ">=": operator.ge, "<=": operator.le,
}


class Incomplete(Exception):
    """A format that ends too early: the expansion stops there, as in tmux."""


def skip(text: str, at: int, ends: str) -> int:
    """Return the place of the first of these characters outside `#{..}`, from a place on; -1 if there is none."""
    depth = 0
    while at < len(text):
        letter, following = text[at], text[at + 1 : at + 2]
        depth += letter == "#" and following == "{"
        if letter == "#" and following and following in ",#{}:":
            at += 2
            continue
        depth -= letter == "}"
        if letter in ends and depth == 0:
            return at
        at += 1
    return -1


def end_of(text: str, at: int, ends: str) -> int:
    """Return the same place; Incomplete if there is none."""
    found = skip(text, at, ends)
    if found < 0:
        raise Incomplete
    return found


class Expansion:
    """The expansion of one format, with the formats in it."""

    def __init__(self, scope: FormatScope, is_shell: bool, moment: time.struct_time | None = None, depth: int = 0) -> None:
        self.scope, self.is_shell, self.moment, self.depth = scope, is_shell, moment, depth

    def text(self, text: str, has_time: bool = False) -> str:
        """Return a format with its values. With `has_time`, conversions such as %H are those of strftime."""
        if self.depth >= DEEPEST:
            return ""
        if has_time and "%" in text:
            moment = self.moment or time.localtime()
            text = TIME.sub(lambda found: time.strftime(found[0], moment), text)
        self.depth += 1
        found: list[str] = []
        with suppress(Incomplete):
            self.parts(text, found)
        self.depth -= 1
        return "".join(found)[:LONGEST]

    def parts(self, text: str, found: list[str]) -> None:
        """Append the parts of a format."""
        at, style_end = 0, -1
        while at < len(text):
            hash_at = text.find("#", at)
            if hash_at < 0 or hash_at == len(text) - 1:
                found.append(text[at:])
                return
            found.append(text[at:hash_at])
            letter, at = text[hash_at + 1], hash_at + 2
            if letter == "(":
                at = self.command(text, at, found)
            elif letter == "{":
                end = end_of(text, hash_at, "}")
                found.append(self.replaced(text[at:end]))
                at = end + 1
            elif letter in "[#":
                at, style_end = self.hashes(text, hash_at, style_end, found)
            elif letter in "},":
                found.append(letter)
            elif at > style_end and letter in LETTERS:
                found.append(self.replaced(LETTERS[letter]))
            else:
                found.append(f"#{letter}")

    def command(self, text: str, at: int, found: list[str]) -> int:
        """Append the output of a shell command up to its parenthesis, and return the place behind it."""
        depth, begin = 1, at
        while at < len(text):
            if text[at] == "\\":
                at += 2
                continue
            depth += (text[at] == "(") - (text[at] == ")")
            if not depth:
                inner = Expansion(self.scope, True, self.moment, self.depth + 1).text(text[begin:at])
                output = self.scope.ran(inner.replace(LITERAL, "#"))
                found.append(self.chosen(output))
                return at + 1
            at += 1
        raise Incomplete

    @staticmethod
    def hashes(text: str, at: int, style_end: int, found: list[str]) -> tuple[int, int]:
        """Append a run of `#`, or the begin of a style, and return the place behind it and the end of the style."""
        end = at
        while text[end : end + 1] == "#":
            end += 1
        if text[end : end + 1] == "[":
            found.append(text[at : end + 1])
            return end + 1, skip(text, at, "]")
        found.append("#")
        return at + 2, style_end

    def chosen(self, value: str) -> str:
        """Return a value that somebody else chose, as text."""
        value = "".join(letter for letter in value if letter.isprintable())
        return harmless(value) if self.is_shell else value.replace("#", LITERAL)

    # ---- a variable

    def replaced(self, key: str) -> str:
        """Return the value of what stands between `#{` and `}`."""
        modifiers, copy = self.modifiers(key)
        named = {one.name: one for one in modifiers}
        value = self.whole_value(named, modifiers, copy)
        if "E" in named or "T" in named:
            value = self.text(value, "T" in named)
        for one in modifiers:
            if one.name == "s" and len(one.words) >= 2:
                value = substituted(value, self.text(one.words[0]), self.text(one.words[1]), one.words[2:])
        value = limited(value, named["="].words) if "=" in named else value
        value = padded(value, number_of(named["p"].words)) if "p" in named else value
        value = str(len(value.encode())) if "n" in named else value
        return str(sum(map(width_of, value))) if "w" in named else value

    def whole_value(self, named: dict[str, Modifier], modifiers: list[Modifier], copy: str) -> str:
        """Return the value before it is cut and padded."""
        compared = next((one for one in reversed(modifiers) if one.name in DOUBLE or one.name in ("m", "<", ">")), None)
        if "l" in named:
            return copy
        if "a" in named:
            code = self.text(copy)
            return chr(int(code)) if code.isascii() and code.isdigit() and 32 <= int(code[:9]) <= 126 else ""
        loop = next((kind for kind in "SWPL" if kind in named), "")
        if loop:
            return self.loop(loop, copy)
        if "N" in named:
            is_window = not named["N"].words or "w" in named["N"].words[0] or "s" not in named["N"].words[0]
            return "01"[self.scope.has_name(self.text(copy), is_window)]
        if "C" in named:
            return str(self.scope.found(self.text(copy), "".join(named["C"].words)))
        if compared:
            return self.compared(compared, copy)
        if copy.startswith("?"):
            return self.condition(copy[1:], named)
        if "e" in named:
            return self.calculated(named["e"].words, copy)
        return self.text(copy) if "#{" in copy else self.variable(copy, named) or ""

    def modifiers(self, key: str) -> tuple[list[Modifier], str]:
        """Return the modifiers of a variable, and the rest. Without a valid end there are none."""
        found: list[Modifier] = []
        at = 0
        while at < len(key) and key[at] != ":":
            at += key[at] == ";"
            one, two, after = key[at : at + 1], key[at : at + 2], key[at + 1 : at + 2]
            if one and one in BARE and after and after in ";:":
                found.append(Modifier(one, []))
                at += 1
            elif two in DOUBLE and key[at + 2 : at + 3] in (";", ":"):
                found.append(Modifier(two, []))
                at += 2
            elif not one or one not in ARGUED or not after:
                break
            else:
                words, at = self.arguments(key, at)
                if at < 0:
                    break
                found.append(Modifier(one, words))
        return (found, key[at + 1 :]) if 0 <= at < len(key) and key[at] == ":" else ([], key)

    def arguments(self, key: str, at: int) -> tuple[list[str], int]:
        """Return the arguments of a modifier, and the place behind them, -1 if they have no end."""
        first = key[at + 1]
        if first in ";:":
            return [], at + 1
        if first.isalnum() or first in "- " or not first.isascii():
            end = skip(key, at + 1, ":;")
            return ([self.text(key[at + 1 : end])], end) if end >= 0 else ([], -1)
        words: list[str] = []
        at += 1
        while key[at : at + 1] not in ("", ";", ":"):
            if key[at] == first and key[at + 1 : at + 2] in (";", ":"):
                return words, at + 1
            end = skip(key, at + 1, f"{first};:")
            if end < 0:
                return words, at + 1
            words.append(self.text(key[at + 1 : end]))
            at = end
        return words, at

    def variable(self, name: str, named: dict[str, Modifier]) -> str | None:
        """Return the value of an option or a variable with the modifiers of a single value; None if there is none."""
        value = self.scope.option(name)
        is_own = value is not None
        value = self.scope.variable(name) if value is None else value
        if value is None:
            value, is_own = (None, False) if "t" in named else (self.scope.variable(f"environment {name}"), False)
        if value is None:
            return None
        if "t" in named:
            return told_time(value, named["t"].words)
        value = os.path.basename(value.rstrip("/")) or value[:1] if "b" in named else value
        value = os.path.dirname(value) if "d" in named else value
        if "q" in named and not named["q"].words:
            value = "".join(f"\\{letter}" if letter in QUOTED else letter for letter in value)
        elif "q" in named and set(named["q"].words[0]) & {"e", "h"}:
            value = value.replace("#", "##")
        return value if is_own or not self.scope.is_chosen(name) else self.chosen(value)

    def loop(self, kind: str, copy: str) -> str:
        """Return a format for each session, window, pane or terminal; a second one is for the active window or pane."""
        comma = skip(copy, 0, ",") if kind in "WP" else -1
        every, active = (copy, copy) if comma < 0 else (copy[:comma], copy[comma + 1 :])
        found = [Expansion(scope, self.is_shell, self.moment, self.depth).text(active if is_active else every)
                 for scope, is_active in self.scope.parts(kind)]
        return "".join(found)

    def chosen_of(self, copy: str, is_expanded: bool) -> tuple[str, str]:
        """Return the two parts of a comparison or a condition."""
        comma = end_of(copy, 0, ",")
        left, right = copy[:comma], copy[comma + 1 :]
        return (self.text(left), self.text(right)) if is_expanded else (left, right)

    def compared(self, how: Modifier, copy: str) -> str:
        """Return the result of a comparison, 1 or 0."""
        try:
            left, right = self.chosen_of(copy, True)
        except Incomplete:
            return ""
        if how.name == "m":
            return "01"[matched(left.replace(LITERAL, "#"), right.replace(LITERAL, "#"), "".join(how.words))]
        if how.name in ("||", "&&"):
            return "01"[(any if how.name == "||" else all)((is_true(left), is_true(right)))]
        order = (left > right) - (left < right)
        return "01"[{"==": order == 0, "!=": order != 0, "<": order < 0, ">": order > 0, "<=": order <= 0, ">=": order >= 0}[how.name]]

    def condition(self, copy: str, named: dict[str, Modifier]) -> str:
        """Return one of two formats by a condition, which is a variable or a format."""
        comma = end_of(copy, 0, ",")
        name = copy[:comma]
        value = self.variable(name, named)
        if value is None:
            value = self.text(name)
            value = "" if value == name else value
        left, right = self.chosen_of(copy[comma + 1 :], False)
        return self.text(left if is_true(value) else right)

    def calculated(self, words: list[str], copy: str) -> str:
        """Return the result of a calculation; nothing if a part is no number."""
        left, right = self.chosen_of(copy, True)
        is_real = len(words) > 1 and "f" in words[1]
        digits = number_of(words[2:]) if len(words) > 2 else 2 if is_real else 0
        try:
            numbers = [float(left), float(right)] if is_real else [float(int(float(left))), float(int(float(right)))]
            one, two = numbers
            result = CALCULATED[words[0]](one, two)
            result = float(result) if is_real else int(result)
        except (ValueError, ZeroDivisionError, OverflowError, KeyError, IndexError):
            return ""
        return f"{result:.{min(max(digits, 0), 100)}f}"


# ---- what a format has


COMMAND = re.compile(r"#\((?:[^()\\]|\\.)*\)?", re.DOTALL)


def chunks(text: str) -> Iterable[str]:
    """Yield the parts of a format that begin with `#`, and nothing of what is between them. The last one may be incomplete."""
    at = text.find("#")
    while 0 <= at < len(text) - 1:
        letter = text[at + 1]
        command = COMMAND.match(text, at)
        end = command.end() - 1 if command else skip(text, at, "}") if letter == "{" else text.find("]", at) if letter == "[" else at + 1
        yield text[at:] if end < 0 else text[at : end + 1]
        at = text.find("#", end + 1) if end >= 0 else -1


def names_in(chunk: str) -> list[str]:
    """Return the variables in a chunk of a format: those of its conditions, comparisons and loops too."""
    if chunk[1:2] != "{":
        return [LETTERS.get(chunk[1:2], chunk)] if chunk[1:2].isalpha() else []
    modifiers, copy = Expansion(FormatScope(), False).modifiers(chunk[2:-1])
    kinds = {one.name for one in modifiers}
    if kinds & {"l", "N", "C", "a"}:
        return []
    if not copy.startswith("?") and not kinds & {*DOUBLE, "m", "<", ">", "e", *"SWPL"} and "#{" not in copy:
        return [copy]
    comma = skip(copy, 0, ",")
    own = [copy[1:comma]] if copy.startswith("?") and comma > 0 and "#" not in copy[:comma] else []
    return own + [name for inner in chunks(copy) for name in names_in(inner)]
