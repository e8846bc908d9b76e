"""The arguments of a command line: the parser, and suggestions for mistyped words."""
from __future__ import annotations

import argparse

from roam_live.common.text import printable

TYPE_CHECKING = False
if TYPE_CHECKING:
    from typing import NoReturn, Union

    from roam_live.cli.words import PlainWords

    # The arguments of a command of `mux`: a value for each, from a parser or without one.
    Asked = Union[argparse.Namespace, PlainWords]

# Short forms of tmux's commands that users type.
SHORT_FORMS = {"at": "attach", "att": "attach", "a": "attach", "det": "detach"}


def tmux_words() -> dict[str, str]:
    """Return the equivalent in `mux` of each name of a command of tmux, or a key; nothing where there is none."""
    from roam_live.commands.table import hints

    found = hints()
    return {**found, **{short: found[name] for short, name in SHORT_FORMS.items()}}


# In a word of fewer letters another letter makes another name: `net` is no typing error for `new`. A missing or extra letter, or two
# swapped ones, may be.
SHORT = 4


def slips(word: str, name: str) -> int:
    """Return the number of typing errors that turn a word into a name.

    One error is a letter too many or too few, two swapped neighbours, or another letter. That last one counts twice in a short word.
    """
    other = 2 if len(word) < SHORT else 1
    before: list[int] = []
    row = list(range(len(name) + 1))
    for down, letter in enumerate(word, 1):
        before, last, row = row, before, [down]
        for along, found in enumerate(name, 1):
            costs = [before[along] + 1, row[along - 1] + 1, before[along - 1] + (other if letter != found else 0)]
            if down > 1 and along > 1 and letter == name[along - 2] and word[down - 2] == found:
                costs.append(last[along - 2] + 1)
            row.append(min(costs))
    return row[-1]


def told_of_tmux(name: str, called: str) -> str:
    """Return the hint for a word of tmux, if mux is called with it; nothing for another."""
    here = tmux_words().get(name)
    if here is None:
        return ""
    if not here:
        return f"{name}: roam does not support this tmux command"
    told = f"`{called}{here.removeprefix('mux')}`" if here.startswith("mux ") else here
    return f"{name} is a tmux command; in roam, use {told}"


def meant(name: str, words: list[str]) -> str:
    """Return the word that a name probably means, one typing error away; empty if the name is a word."""
    if len(name) < 2:
        return ""
    # Two letters match too many names, so only words of two letters count.
    found = [(slips(word, name), place, word) for place, word in enumerate(words) if len(name) > 2 or len(word) == 2]
    near = [one for one in found if one[0] <= 1]
    return min(near)[2] if near else ""


class WordParser(argparse.ArgumentParser):
    """A parser whose error messages are printable, whatever the arguments are: file names may contain any bytes."""

    def error(self, message: str) -> NoReturn:
        super().error(printable(message))
