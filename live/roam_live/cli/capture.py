"""The screen of a session, cell by cell, from the client process of this machine's terminals."""
from __future__ import annotations

import sys
import time

from roam_live.cli.connection import opened
from roam_live.cli.targets import pane_places
from roam_live.common.errors import Fault
from roam_live.common.process import TOOLS
from roam_live.protocol.client_link import SILENT
from roam_live.protocol.display_records import NoRecord, screen_of

TYPE_CHECKING = False
if TYPE_CHECKING:
    from roam_live.protocol.client_link import ClientLink
    from roam_live.protocol.panes import Rect
    from roam_live.session.folder import SessionFolder

# Seconds to wait for a screen, and seconds until a client without contact to the session is asked again.
SCREEN_WAIT = 5.0
AGAIN = 0.02


def screen_told(link: ClientLink, end: float) -> bytes | None:
    """Return the requested screen in the form of its record; None if it is late."""
    while time.monotonic() < end:
        records = link.exchanged()
        if records is None:
            break
        for record in records:
            if record.word == "screen":
                return record.data
    return None


def is_heard(data: bytes) -> bool:
    """Return True if a screen shows a session, which has a status row. Until a client has contact with the session, that row is blank."""
    return any(screen_of(data).text())


def asked_screen(link: ClientLink, asks: str) -> bytes:
    """Return the screen that a line requests; Fault gives the reason of a failure."""
    end, data = time.monotonic() + SCREEN_WAIT, None
    try:
        while True:
            link.say(asks)
            told = screen_told(link, end)
            data = data if told is None else told
            if data is None:
                raise Fault(link.loss() if link.has_ended else SILENT)
            if told is None or is_heard(data):
                return data
            time.sleep(AGAIN)
    except NoRecord as fault:
        raise Fault(f"the client process sent no valid screen: {fault}") from fault
    finally:
        link.close()


def capture(session: SessionFolder, is_drawn: bool, pane: int = 0) -> int:
    """Print the screen of a session or of a pane, as text or as a picture, and return the status."""
    rect = pane_places(session, pane).rects[pane] if pane else None
    data = asked_screen(opened(session, True), "look sgr" if is_drawn else "look")
    if rect:
        data = pane_of(data, rect, pane)
    if is_drawn:
        import subprocess

        return subprocess.run([str(TOOLS / "picture")], input=data, check=False).returncode
    sys.stdout.buffer.write("".join(f"{row}\n" for row in screen_of(data).text()).encode("utf-8", "replace"))
    return 0


def pane_of(data: bytes, rect: Rect, pane: int) -> bytes:
    """Return a pane's part of a screen. The screen may have changed its size since the pane's report."""
    from roam_live.protocol.screen_cells import part_of

    screen = screen_of(data)
    if rect.row + rect.rows > screen.rows or rect.col + rect.cols - 1 > screen.cols:
        raise Fault(f"pane {pane} has just moved; try again")
    return part_of(data, rect)
