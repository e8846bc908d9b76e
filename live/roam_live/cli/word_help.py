"""The help of a word of `mux`, in the form of argparse, which takes 250,000 bytecodes to load."""
from __future__ import annotations

import os

from roam_live.cli.words import REST, sentence

TYPE_CHECKING = False
if TYPE_CHECKING:
    from roam_live.cli.words import Argument, Word

# The width of help without COLUMNS and a terminal, the last column in which an argument's text may begin, and the indent of its name.
COLUMNS = 80
MOST_BEGIN = 24
INDENT = 2

HELP_NAMES, HELP_TEXT = "-h, --help", "show this help message and exit"


def width_here() -> int:
    """Return the width of the help in columns."""
    told = os.environ.get("COLUMNS", "")
    if told.isdigit() and int(told):
        return int(told) - 2
    try:
        return (os.get_terminal_size(1).columns or COLUMNS) - 2
    except OSError:
        return COLUMNS - 2


def wrapped(text: str, width: int) -> list[str]:
    """Return a text as lines of a width, with breaks between words."""
    lines: list[str] = []
    for word in text.split():
        if lines and len(lines[-1]) + 1 + len(word) <= width:
            lines[-1] += f" {word}"
        else:
            lines.append(word)
    return lines


def in_lines(parts: list[str], first: str, indent: str, width: int) -> list[str]:
    """Return parts in lines of a width: the first begins with a text, the others with an indent."""
    lines, line = [], first
    for part in parts:
        if len(line) + 1 + len(part) > width and line not in (first, indent):
            lines.append(line)
            line = indent
        line += part if line in (first, indent) else f" {part}"
    return [*lines, line]


def option_name(argument: Argument) -> str:
    """Return an option in the form of its help, with the name of its value."""
    names, more = argument
    value = "" if "action" in more else f" {more['metavar']}"
    return ", ".join(f"{name}{value}" for name in names)


def part_of(argument: Argument) -> str:
    """Return an argument in the form of the usage line."""
    names, more = argument
    if names[0].startswith("-"):
        return f"[{option_name((names[:1], more))}]"
    nargs = more.get("nargs")
    return REST if nargs == REST else f"[{more['metavar']}]" if nargs == "?" else str(more["metavar"])


def usage(program: str, arguments: tuple[Argument, ...], width: int) -> list[str]:
    """Return the lines of usage: options precede the rest."""
    options = ["[-h]", *(part_of(one) for one in arguments if one[0][0].startswith("-"))]
    others = [part_of(one) for one in arguments if not one[0][0].startswith("-")]
    begin = f"usage: {program} "
    whole = begin + " ".join([*options, *others])
    if len(whole) <= width or len(begin) - 1 > 0.75 * width:
        return [whole]
    indent = " " * len(begin)
    return in_lines(options, begin, indent, width) + (in_lines(others, indent, indent, width) if others else [])


def section(title: str, rows: list[tuple[str, str]], begin: int, width: int) -> list[str]:
    """Return a title and rows of a name and a text, which begins in a column."""
    lines = ["", f"{title}:"]
    for name, text in rows:
        told = wrapped(text, max(width - begin, 11))
        first = f"{' ' * INDENT}{name}"
        if told and len(first) + INDENT <= begin:
            first = f"{first:{begin}}{told.pop(0)}"
        lines += [first, *(" " * begin + line for line in told)]
    return lines


def help_of(program: str, name: str, word: Word) -> str:
    """Return the help of a command. `program` is the name by which mux was called."""
    width = width_here()
    others = [(str(more["metavar"]), str(more.get("help", ""))) for names, more in word.arguments if not names[0].startswith("-")]
    options = [(HELP_NAMES, HELP_TEXT)]
    options += [(option_name(one), str(one[1].get("help", ""))) for one in word.arguments if one[0][0].startswith("-")]
    most = min(MOST_BEGIN, max(width - 20, 2 * INDENT))
    begin = min(max(len(one) for one, _ in [*others, *options]) + 2 * INDENT, most)
    lines = [*usage(f"{program} {name}", word.arguments, width), "", *wrapped(sentence(word.tells), width)]
    lines += section("positional arguments", others, begin, width) if others else []
    return "\n".join([*lines, *section("options", options, begin, width)]) + "\n"
