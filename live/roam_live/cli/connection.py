"""The connection of a command to a session's client process."""
from __future__ import annotations

from roam_live.common.errors import Fault
from roam_live.protocol.client_link import FIRST_WAIT, SILENT, ClientLink

TYPE_CHECKING = False
if TYPE_CHECKING:
    from roam_live.session.folder import SessionFolder


def opened(session: SessionFolder, is_read_only: bool) -> ClientLink:
    """Return a connection over which records arrive; Fault gives the reason of a failure."""
    link = ClientLink(session.terminals, is_read_only)
    link.connect()
    if link.begins(FIRST_WAIT):
        return link
    why = link.loss() if link.has_ended else SILENT
    link.close()
    raise Fault(why)
