"""The scrollback process that one host hands to the next one in an upgrade, with the terminals of its panes."""
from __future__ import annotations

import os

from roam_live.common.json_reader import read_json
from roam_live.host.pane_scrollback import PaneScrollback

TYPE_CHECKING = False
if TYPE_CHECKING:
    from roam_live.host.holder_link import Kept
    from roam_live.host.scrollback import Scrollback

# The name at the holder: three pipes of the process, and a memfd with the text.
SCROLLBACK = "scrollback"

# The most bytes of the text.
MOST_TEXT = 1 << 20

# The facts of a pane: its number and generation, its size, its terminals, and if its rows are whole and cut.
PANE_FACTS = 8


class HandedProcess:
    """A scrollback process of another host, and what that host knew of its terminals, by pane and generation."""

    def __init__(self, process: int, pipes: list[int], panes: list[list[int]]) -> None:
        self.process, self.pipes = process, pipes
        self.panes = {(pane[0], pane[1]): pane for pane in panes}

    def ends(self) -> tuple[int, list[int]]:
        """Return the process and its pipes, once."""
        process, self.process = self.process, 0
        return process, self.pipes

    def give(self, number: int, generation: int, pane: PaneScrollback) -> bool:
        """Give a pane generation its terminals, and return True if it had some."""
        found = self.panes.pop((number, generation), None)
        if not found or found[4] < 0:
            return False
        rows, cols, pane.terminal, pane.second = found[2:6]
        pane.size, pane.is_whole, pane.is_cut = (rows, cols), bool(found[6]), bool(found[7])
        return True

    def rest(self) -> list[int]:
        """Return the terminals that no pane has got."""
        return [terminal for pane in self.panes.values() for terminal in pane[4:6] if terminal >= 0]


def text_of(scrollback: Scrollback) -> bytes:
    """Return what the next host has to know of a quiet scrollback process."""
    import json

    process = scrollback.process.process if scrollback.process else 0
    panes = [[number, pane.rows.generation, *pane.size, pane.terminal, pane.second, int(pane.is_whole), int(pane.is_cut)]
             for number, pane in scrollback.panes.items() if not pane.lacks]
    return json.dumps([process, panes]).encode()


def handed_in(kept: Kept | None) -> HandedProcess | None:
    """Return the process that a host before this one has handed over, if any."""
    if not kept or len(kept.ends) != 4:
        return None
    *pipes, text = kept.ends
    found = read_json(os.pread(text, MOST_TEXT, 0).decode())
    os.close(text)
    process, panes = found
    return HandedProcess(int(process), pipes, [[int(fact) for fact in pane] for pane in panes if len(pane) == PANE_FACTS])
