"""The tool `mux`: finds the requested command, and imports the modules that it needs."""
from __future__ import annotations

import os
import sys

from roam_live.cli.words import REST, WORDS, PlainWords, sentence
from roam_live.common.errors import Fault
from roam_live.common.text import printable
from roam_live.config.environment import unknown_variables

TYPE_CHECKING = False
if TYPE_CHECKING:
    import argparse
    from collections.abc import Iterable

    from roam_live.cli.args import Asked

# The name of this tool in the script that called it, if any.
CALLED = os.environ.pop("ROAM_CALLED", "")

# The most unknown variables in a message, and the most characters of each.
MOST_UNKNOWN, LONGEST_UNKNOWN = 4, 40


def called() -> str:
    """Return the name by which this tool was called."""
    return CALLED or os.path.basename(sys.argv[0])


def explain(asked: Asked) -> int:
    """Print the help of all commands, or of one."""
    if asked.word:
        print_help(asked.word)
    else:
        from roam_live.cli.help_text import HELP

        print(called() + HELP[len("mux") :].rstrip())
    return 0


def print_help(word: str) -> None:
    """Print the help of a word; Fault if it is none."""
    from roam_live.cli.word_help import help_of

    demand_word(word)
    print(help_of(called(), word, WORDS[word]), end="")


def demand_word(word: str) -> None:
    """Refuse an unknown word, with a suggestion."""
    if word not in WORDS:
        hint = hint_of(word) or f"{word!r} is not a command of mux"
        raise Fault(f"{hint}{' ' if hint.endswith('?') else '; '}`{called()} help` lists them")


def parser_of(word: str) -> argparse.ArgumentParser:
    """Return the parser of a command's arguments."""
    from roam_live.cli.args import WordParser

    parser = WordParser(prog=f"{called()} {word}", description=sentence(WORDS[word].tells), allow_abbrev=False)
    for names, more in WORDS[word].arguments:
        parser.add_argument(*names, **more)
    return parser


def plain_words(word: str, rest: list[str]) -> Asked | None:
    """Return the arguments of a word without options, as most calls have; None if there are options or help is requested.

    argparse takes longer to load than most words take in all.
    """
    arguments = [(names[0], more) for names, more in WORDS[word].arguments]
    takes = [(name, more) for name, more in arguments if not name.startswith("-")]
    found: dict[str, object] = {}
    if takes and takes[-1][1].get("nargs") == REST:
        # Everything after the name, which may be options of another command.
        name, _ = takes.pop()
        found[name], rest = rest[len(takes) :], rest[: len(takes)]
    if len(takes) > 1 or len(rest) > len(takes) or any(text.startswith("-") for text in rest):
        return None
    if takes and not rest and "default" not in takes[0][1]:
        return None
    for name, more in arguments:
        if name.startswith("-"):
            found[more.get("dest", name.lstrip("-"))] = False if "action" in more else None
    found.update({name: rest[0] if rest else more["default"] for name, more in takes})
    return PlainWords(found)


def asked_by(word: str, rest: list[str]) -> Asked:
    """Return the arguments of a word from the command line."""
    if word == "ssh":
        from roam_live.cli.ssh import parted_options

        own, options = parted_options(rest)
        asked = parser_of(word).parse_args(own)
        asked.options = options
        return asked
    plain = plain_words(word, rest)
    if plain:
        return plain
    if word == "send":
        # Everything after the session is typed literally: argparse would drop `--` there.
        end = next((place for place, text in enumerate(rest, 1) if not text.startswith("-")), len(rest))
        asked = parser_of(word).parse_args(rest[:end])
        asked.words = rest[end:]
        return asked
    return parser_of(word).parse_args(rest)


def hint_of(name: str) -> str:
    """Return the hint for a word of tmux, or for a mistyped word of mux; nothing for another."""
    from roam_live.cli.args import meant, told_of_tmux

    near = meant(name, [word for word in WORDS if word != "far"])
    return told_of_tmux(name, called()) or near and f"{name!r} is not a command of mux; did you mean {near}?"


def refused(names: list[str]) -> str:
    """Return the reason that words without a command name no session; nothing if they do. A running session may have any name."""
    from roam_live.session.lookup import session_named
    from roam_live.session.names import is_name

    usage = f"usage: {called()} [NAME] | {' | '.join(WORDS)} ..; `{called()} help` explains them"
    if not names:
        return ""
    if names[0].startswith("-"):
        return usage
    hint = hint_of(names[0])
    may_name = len(names) == 1 and is_name(names[0])
    if hint and not (may_name and session_named(names[0]).find()):
        return f"mux: {hint}" + (f" (`{called()} new {names[0]}` starts a session of that name)" if may_name else "")
    return usage if len(names) > 1 else ""


def variable_meant(name: str) -> str:
    """Return the variable that an unknown one was probably meant to be, "" if none is near. A name with GUESS means predictions."""
    from roam_live.cli.args import meant

    from roam_live.config.environment import VARIABLES

    known = {variable.removeprefix("ROAM_"): variable for variable in VARIABLES}
    known["GUESS"] = "ROAM_PREDICT"
    return known.get(meant(name.removeprefix("ROAM_"), list(known)), "")


def unknown_lines(names: Iterable[str]) -> list[str]:
    """Return a line for each unknown variable of roam's, up to a limit: such a variable is named and otherwise ignored."""
    unknown = unknown_variables(names)
    lines: list[str] = []
    for name in unknown[:MOST_UNKNOWN]:
        near = variable_meant(name) if len(name) <= LONGEST_UNKNOWN else ""
        shown = printable(name if len(name) <= LONGEST_UNKNOWN else f"{name[:LONGEST_UNKNOWN]}..")
        lines.append(f"roam: unknown variable {shown}" + (f" (did you mean {near}?)" if near else ""))
    if len(unknown) > MOST_UNKNOWN:
        lines.append(f"roam: unknown variables: {len(unknown) - MOST_UNKNOWN} more")
    return lines


def main() -> int:
    words = sys.argv[1:]
    for line in unknown_lines(os.environ) if words[:1] != ["far"] else ():
        print(line, file=sys.stderr, flush=True)
    if words[:1] in (["-h"], ["--help"]):
        words[0] = "help"
    if words and words[0] in WORDS and words[1:] in (["-h"], ["--help"]):
        print_help(words[0])
        return 0
    if words and words[0] in WORDS:
        return WORDS[words[0]].does(asked_by(words[0], words[1:]))
    names = words[1:] if words[:1] == ["--"] else words
    why = refused(names) if names == words else refused(["-"]) if len(names) > 1 else ""
    if why:
        print(why, file=sys.stderr)
        return 2
    from roam_live.cli.attaching import enter

    return enter(names[0] if names else "main")
