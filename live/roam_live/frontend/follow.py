"""Lets a user follow a session at a terminal. The session is shown first, and the rest of the front end is loaded afterwards."""
from __future__ import annotations

import os
import sys

import roam_bundle

from roam_live.config.environment import sets_clipboard, wants_mouse
from roam_live.frontend.first_painting import FirstPainting
from roam_live.session.front_end_lock import FrontEndLock

TYPE_CHECKING = False
if TYPE_CHECKING:
    from collections.abc import Callable

    from roam_live.protocol.panes import Places
    from roam_live.protocol.session_interface import AnySession

# Seconds for the first painting before the rest is loaded, which would delay it by as long. A later one, for example over a network, is
# written afterwards.
PAINTS = 0.05


def follow(session: AnySession, is_read_only: bool, prefix: str, prediction: str,
           is_new: Callable[[Places | None], bool] = lambda places: False, is_whole: bool = False,
           ends_unmet: Callable[[], object] = lambda: None) -> int:
    """Let a user follow a session at this terminal, and return the status. Predictions are shown always, adaptively, or never.

    A new session, which may be known a moment later, takes this terminal's size, whatever it is. It may be shown whole, if its own status
    row fits. `ends_unmet` is called if the session had ended before this terminal met it.
    """
    try:
        has_mouse, has_clips = wants_mouse(), sets_clipboard()
        with FrontEndLock(session.common):
            first = FirstPainting(session, is_read_only, prefix, prediction, is_whole)
            try:
                first.begin()
                first.show(PAINTS)
                roam_bundle.load("front_end")
                from roam_live.frontend.app import FrontEnd

                first.show(0.0)
                front = FrontEnd(session, is_read_only, prefix, prediction, is_new, first, has_mouse=has_mouse, has_clips=has_clips)
            except BaseException:
                first.leave()
                raise
            status = front.run()
            if front.gives_way:
                execute_anew(session, front.views.number, is_read_only, prediction)
            if front.has_ended_unmet():
                ends_unmet()
            return status
    finally:
        session.close()


def execute_anew(session: AnySession, window: int, is_read_only: bool, prediction: str) -> None:
    """Execute a front end of the build that runs the session, at the same window."""
    from roam_live.common.errors import Fault, reason
    from roam_live.session.tools_folder import MUX, demand_safe_tools

    folder = session.tools_folder()
    name = session.name.removesuffix(f":{session.number}")
    words = ["watch"] if is_read_only else ["attach", "--predict", prediction]
    try:
        demand_safe_tools(folder)
        os.execv(sys.executable, [sys.executable, os.path.join(folder, MUX), *words, f"{name}:{window}" if window else name])
    except (OSError, Fault) as fault:
        why = reason(fault) if isinstance(fault, OSError) else fault
        raise Fault(f"the session goes on with another build, whose front end cannot be started: {why}; `mux {name}` attaches") from fault
