"""Decisions about size, as functions of values.

They are when a session takes a terminal's size, which part of it a terminal shows, and which size a zoom requests. Nothing here knows a
terminal, a socket or a clock, so each decision is tested as a table. A size is rows and columns.
"""
from __future__ import annotations

from roam_live.common import tty
from roam_live.protocol.panes import Places, Rect
from roam_live.protocol.zoom_record import MOST_ASKED, ZoomNote

# A row and a column, both from 0 or both from 1.
Place = tuple[int, int]

# An unknown size.
NO_SIZE = (0, 0)

# ---- the size of the session

# The results of fitting the session to a terminal. The zoom takes the new size, the session takes it, or nothing changes. The front end
# waits until the host has reported the other terminals, or `follows` decides.
ZOOMS, TAKES, KEEPS, WAITS, FOLLOWS = "zooms", "takes", "keeps", "waits", "follows"

# The first steps of a front end that learns about the session. It is new, so nothing is cut. The panes may be reported soon. Or the front
# end fits it.
IS_NEW, LATER, FITS = "new", "later", "fits"


def fit_step(size: tty.Size, own: tty.Size, is_read_only: bool, is_zoomed: bool, is_fresh: bool, awaits_others: bool) -> str:
    """Return the result of fitting a session of a size, `own` being the largest one that the terminal shows whole.

    Flags mark a read-only terminal, a zoom, a session launched just now, and a pending report of the other terminals.
    """
    if is_zoomed:
        return ZOOMS
    if is_fresh:
        return TAKES
    if is_read_only or size in (NO_SIZE, own) or not tty.is_large_enough(own):
        return KEEPS
    return WAITS if awaits_others else FOLLOWS


def first_step(is_new: bool, is_awaited: bool) -> str:
    """Return the first step of a front end that learns about the session."""
    return IS_NEW if is_new else LATER if is_awaited else FITS


def is_smaller(own: tty.Size, size: tty.Size) -> bool:
    """Return True if a terminal shows fewer rows or fewer columns than the session has."""
    return own[0] < size[0] or own[1] < size[1]


def follows(size: tty.Size, own: tty.Size, showed_all: bool, has_others: bool | None, is_told: bool) -> bool:
    """Return True if the session takes this terminal's size.

    The session grows if nobody else types. It shrinks only for a terminal that showed all of it, and if the pty host reports that nobody
    else types. `has_others` is None if that is unknown, and `is_told` is True if the pty host reports it.
    """
    if has_others is not False:
        return False
    return showed_all and is_told if is_smaller(own, size) else True


def takes_latest(size: tty.Size, room: tty.Size) -> bool:
    """Return True if a session of this size takes that of the terminal with the latest input, by `window-size latest`."""
    return size not in (NO_SIZE, tty.largest(room)) and tty.is_large_enough(room)


# ---- the part that a terminal shows


def part_for(terminal: tty.Size, has_row: bool, size: tty.Size, zoomed: Rect | None, may_be_whole: bool) -> tty.Size | None:
    """Return the size of the part of a session that a terminal has to show, None for the whole session.

    `has_row` is True if the terminal's last row is the front end's own, and `zoomed` the rectangle of a zoomed pane. The session may be
    shown with its own status row. Another machine may report any size, but a requested one is always possible.
    """
    rows, cols = terminal
    if zoomed:
        return min(rows - has_row, zoomed.rows), min(cols, zoomed.cols)
    if may_be_whole and has_row and size[0] <= rows and size[1] <= cols:
        return None
    rows, cols = tty.largest((rows + (not has_row), cols))
    least, most = tty.LEAST_SHOWN, size if size != NO_SIZE else tty.MOST
    return max(min(rows, most[0]), least[0]) - 1, max(min(cols, most[1]), least[1])


def has_all(size: tty.Size, part: tty.Size | None) -> bool:
    """Return True if a part has all rows and columns of the panes, and omits only the session's status row."""
    return size != NO_SIZE and part == (size[0] - 1, size[1])


def is_beyond(size: tty.Size, part: tty.Size, place: Place) -> bool:
    """Return True if a part at a position, from 0, extends beyond the panes of a session of a known size."""
    return size != NO_SIZE and (place[0] + part[0] > size[0] - 1 or place[1] + part[1] > size[1])


def kept_place(size: tty.Size, part: tty.Size, place: Place) -> Place:
    """Return the first row and column of a part that stays in place, as far as the session's size allows."""
    return max(0, min(place[0], size[0] - 1 - part[0])), max(0, min(place[1], size[1] - part[1]))


def visible(rect: Rect, place: Place, extent: tty.Size) -> Rect | None:
    """Return the rectangle of the terminal that shows a rectangle of the session, None if none does. The terminal shows `extent` rows and
    columns of the session, from a position on.
    """
    row, col = max(1, rect.row - place[0]), max(1, rect.col - place[1])
    end = min(extent[0], rect.row - place[0] + rect.rows - 1)
    right = min(extent[1], rect.col - place[1] + rect.cols - 1)
    return Rect(row, col, end - row + 1, right - col + 1) if row <= end and col <= right else None


def place_at(at: Place, place: Place, extent: tty.Size, is_near: bool = False) -> Place | None:
    """Return the session's cell at a row and a column of the terminal, from 1; None if there is none, unless `is_near`."""
    rows, cols = extent
    row, col = (min(max(at[0], 1), rows), min(max(at[1], 1), cols)) if is_near else at
    return (place[0] + row, place[1] + col) if 1 <= row <= rows and 1 <= col <= cols else None


# ---- a zoom

# The reason that a pane is not zoomed.
UNTOLD = "cannot zoom: the server does not report its panes"
ONE = "pane {} is the only one, and fills the session"
LARGER = "cannot zoom: pane {} has {} by {}, more than this terminal"

# The effects of a report of the panes on a zoom. It ends and the session gets its size back. It is lost because somebody changed the
# session's size. The front end requests another size or shows the pane. Or nothing changes.
ENDS, LOST, ASKS, STAYS = "ends", "lost", "asks", "stays"

# The fates of a zoom that a front end left behind. Nothing is known, or the session has another size. The session gets its old size back.
# Or the front end waits for a report of another zoom.
NOTHING, UNSEEN, GIVES, AWAITS = "nothing", "unseen", "gives", "awaits"


def places_at(places: Places, size: tty.Size) -> Places:
    """Return the positions of the panes at a size of their session."""
    from roam_live.frontend.borders import area_of, laid, splits_of

    parts = splits_of(places.rects)
    if not parts or size == places.size():
        return places
    box = area_of(places.rects)._replace(rows=size[0] - 1, cols=size[1])
    return places._replace(rects=laid(parts, places.rects, box))


def zoom_refusal(places: Places | None, area: tty.Size) -> str:
    """Return the reason that the focused pane is not zoomed to fill an area, "" if it is. The positions are those without any zoom."""
    if not places:
        return UNTOLD
    rect = places.rects[places.focus]
    if len(places.rects) == 1:
        return ONE.format(places.focus)
    return LARGER.format(places.focus, rect.rows, rect.cols) if rect.rows > area[0] or rect.cols > area[1] else ""


def unzoomed_size(size: tty.Size, note: ZoomNote | None) -> tty.Size:
    """Return the session's size without anybody's zoom, which the end of the noted one restores."""
    return note.size if note and size in note.asked else size


def zoom_size(places: Places, pane: int, area: tty.Size, note: ZoomNote) -> tty.Size | None:
    """Return the session's size at which a pane fills an area; None if the pane is shown with its current size."""
    from roam_live.frontend.borders import above, size_for, splits_of

    parts = splits_of(places.rects)
    size = size_for(area, note.size, above(pane, parts, places.rects)) if parts else places.size()
    return None if size == places.size() or size in note.asked or len(note.asked) >= MOST_ASKED else size


def zoom_step(pane: int, before: Places | None, note: ZoomNote, awaited: Places | None, rects: dict[int, Rect], places: Places) -> str:
    """Return the effect of a report of the panes on a zoomed pane.

    `before` are the positions without the zoom, and `note` is the zoom as the host knows it. `awaited` are the positions at the last size
    request, and `rects` the rectangles with which the pane was shown.
    """
    asked = [note.size, *note.asked]
    earlier = [awaited.size(), *asked[:-1]] if awaited else []
    if places.focus != pane or places.rects.keys() != (before or places).rects.keys():
        return ENDS
    if not places.is_covered() or places.size() in earlier:
        return STAYS
    if places.size() != asked[-1]:
        return LOST
    return ASKS if awaited else STAYS if places.rects == rects else ENDS


def left_zoom(note: ZoomNote | None, size: tty.Size, was_unseen: bool, has_others: bool | None, is_late: bool) -> str:
    """Return the fate of a zoom that a front end left behind.

    The last input of that front end may be pending, so a session without a size of the zoom may still get one. If somebody else types, or
    the session had another size meanwhile, its size may be that of another zoom, which the host reports a moment later.
    """
    if not note or size == NO_SIZE:
        return NOTHING
    if size not in note.asked:
        return UNSEEN
    return GIVES if is_late or not was_unseen and has_others is False else AWAITS
