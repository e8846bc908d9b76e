"""The borders between panes: the splits that rectangles imply, the pane whose split a border belongs to, and the layout's size rule."""
from __future__ import annotations

from roam_live.common import tty
from roam_live.common.named_fields import NamedFields
from roam_live.protocol.panes import Rect

# A session or a part of it: a pane number or two parts, and the rectangle that it fills.
Box = tuple[Rect, "int | PaneSplit"]

# The least columns and rows of a pane; and the most cells of one resize.
LEAST = {"right": 4, "down": 2}
MOST_GROWTH = 99


class PaneSplit(NamedFields):
    """Two parts side by side (`right`), or one below the other (`down`)."""

    way: str
    first: int | PaneSplit
    second: int | PaneSplit


def begin_of(rect: Rect, way: str) -> int:
    """Return a rectangle's first column or row, by direction."""
    return rect.col if way == "right" else rect.row


def end_of(rect: Rect, way: str) -> int:
    """Return the column or row after a rectangle, the position of its border."""
    return rect.col + rect.cols if way == "right" else rect.row + rect.rows


def way_between(first: Rect, second: Rect) -> str:
    """Return the direction from a rectangle to an equally long one across a single border; nothing if there is none."""
    if (first.row, first.rows) == (second.row, second.rows) and end_of(first, "right") + 1 == second.col:
        return "right"
    if (first.col, first.cols) == (second.col, second.cols) and end_of(first, "down") + 1 == second.row:
        return "down"
    return ""


def around(first: Rect, second: Rect) -> Rect:
    """Return the rectangle of two rectangles and the border between them."""
    return Rect(first.row, first.col, end_of(second, "down") - first.row, end_of(second, "right") - first.col)


def joined(boxes: dict[int, Box], is_in_order: bool, seen: set[frozenset[Rect]]) -> int | PaneSplit | None:
    """Return the splits of boxes by the smallest numbers of their panes; None if there is no such layout.

    In order, the box with the greatest number was split off last, from the one before it.
    """
    if len(boxes) == 1:
        return next(iter(boxes.values()))[1]
    state = frozenset(rect for rect, _ in boxes.values())
    if state in seen:
        return None
    seen.add(state)
    for pane in sorted(boxes, reverse=True):
        for first, second in [pair for other in boxes for pair in ((other, pane), (pane, other))[: 1 if is_in_order else 2]]:
            way = way_between(boxes[first][0], boxes[second][0])
            if not way:
                continue
            box = around(boxes[first][0], boxes[second][0]), PaneSplit(way, boxes[first][1], boxes[second][1])
            rest = {number: other for number, other in boxes.items() if number not in (first, second)}
            found = joined({**rest, min(first, second): box}, is_in_order, seen)
            if found is not None:
                return found
        if is_in_order:
            break
    return None


def splits_of(rects: dict[int, Rect]) -> int | PaneSplit | None:
    """Return the splits that produced the panes, as far as rectangles show it; None if they show none.

    A new pane has the smallest free number. So the numbers decide the rest if no pane was closed.
    """
    boxes: dict[int, Box] = {pane: (rect, pane) for pane, rect in rects.items()}
    in_order = joined(boxes, True, set())
    return joined(boxes, False, set()) if in_order is None else in_order


def is_told_by_numbers(rects: dict[int, Rect]) -> bool:
    """Return True if pane numbers may decide the splits. A missing number means that a pane was closed, and then they don't."""
    boxes: dict[int, Box] = {pane: (rect, pane) for pane, rect in rects.items()}
    return sorted(rects) == list(range(1, len(rects) + 1)) and joined(boxes, True, set()) is not None


def box_of(parts: int | PaneSplit, rects: dict[int, Rect]) -> Rect:
    """Return the rectangle of parts."""
    return rects[parts] if isinstance(parts, int) else around(box_of(parts.first, rects), box_of(parts.second, rects))


def panes_of(parts: int | PaneSplit) -> list[int]:
    """Return the panes of parts."""
    return [parts] if isinstance(parts, int) else panes_of(parts.first) + panes_of(parts.second)


def least_of(parts: int | PaneSplit, way: str) -> int:
    """Return the least length of parts, by direction."""
    if isinstance(parts, int):
        return LEAST[way]
    first, second = least_of(parts.first, way), least_of(parts.second, way)
    return first + 1 + second if parts.way == way else max(first, second)


class Border(NamedFields):
    """A border with panes to its `right` or below (`down`): its range of columns or rows, a pane on each side, and its owners.

    Owners are the panes whose own split it is: with 1 the border moves along with a growing pane, with -1 towards it.
    """

    way: str
    least: int
    most: int
    before: int
    behind: int
    leaves: list[tuple[int, int]]

    def at(self, rects: dict[int, Rect]) -> int:
        """Return its column or row; 0 if unknown."""
        return end_of(rects[self.before], self.way) if self.before in rects else 0


def border_at(rects: dict[int, Rect], row: int, col: int) -> Border | None:
    """Return the border at a position of the session; None if there is none."""
    parts = splits_of(rects)
    while isinstance(parts, PaneSplit):
        way, box, first = parts.way, box_of(parts, rects), box_of(parts.first, rects)
        at, place = end_of(first, way), col if way == "right" else row
        if not (box.row <= row < end_of(box, "down") and box.col <= col < end_of(box, "right")):
            return None
        if place == at:
            before = next(pane for pane in panes_of(parts.first) if end_of(rects[pane], way) == at)
            behind = next(pane for pane in panes_of(parts.second) if begin_of(rects[pane], way) == at + 1)
            leaves = [(leaf, sign) for leaf, sign in ((parts.first, 1), (parts.second, -1)) if isinstance(leaf, int)]
            return Border(way, begin_of(box, way) + least_of(parts.first, way), end_of(box, way) - 1 - least_of(parts.second, way),
                          before, behind, leaves)
        parts = parts.first if place < at else parts.second
    return None


class Above(NamedFields):
    """A split above a pane: a flag for its first part, the border's shift from the middle, and the least lengths of both parts."""

    way: str
    is_first: bool
    shift: int
    least_first: int
    least_second: int

    def part(self, whole: int) -> int:
        """Return the length of the pane's part for a length of the split."""
        first = first_length(whole, self.shift, self.least_first, self.least_second)
        return first if self.is_first else whole - 1 - first


def first_length(whole: int, shift: int, least_first: int, least_second: int) -> int:
    """Return the length of the first part of a split: its middle plus the shift, as far as both parts have room."""
    return min(max((whole - 1) // 2 + shift, least_first), whole - 1 - least_second)


def length_of(rect: Rect, way: str) -> int:
    """Return a rectangle's length, by direction."""
    return rect.cols if way == "right" else rect.rows


def area_of(rects: dict[int, Rect]) -> Rect:
    """Return the rectangle of all panes and the borders between them."""
    first = min(rects.values(), key=lambda rect: (rect.row, rect.col))
    last = max(rects.values(), key=lambda rect: (rect.row + rect.rows, rect.col + rect.cols))
    return around(first, last)


def shift_of(split: PaneSplit, rects: dict[int, Rect]) -> int:
    """Return the distance of a split's border from the middle. If a part has its least length the layout's value may be larger."""
    return length_of(box_of(split.first, rects), split.way) - (length_of(box_of(split, rects), split.way) - 1) // 2


def above(pane: int, parts: int | PaneSplit, rects: dict[int, Rect]) -> list[Above]:
    """Return the splits above a pane, from the outermost inwards."""
    found: list[Above] = []
    while isinstance(parts, PaneSplit):
        is_first = pane in panes_of(parts.first)
        least = [least_of(part, parts.way) for part in (parts.first, parts.second)]
        found.append(Above(parts.way, is_first, shift_of(parts, rects), *least))
        parts = parts.first if is_first else parts.second
    return found


def length_at(whole: int, splits: list[Above], way: str) -> int:
    """Return the length of a pane for a length of the area, from the splits above it."""
    for split in splits:
        whole = split.part(whole) if split.way == way else whole
    return whole


def size_for(wanted: tty.Size, least: tty.Size, splits: list[Above]) -> tty.Size:
    """Return the smallest size of a session, from `least` on, that gives a pane the wanted rows and columns; the largest size if none does.
    """
    rows = next((rows for rows in range(least[0], tty.MOST[0]) if length_at(rows - 1, splits, "down") >= wanted[0]), tty.MOST[0])
    return rows, next((cols for cols in range(least[1], tty.MOST[1]) if length_at(cols, splits, "right") >= wanted[1]), tty.MOST[1])


def cut_at(rect: Rect, way: str, first: int) -> tuple[Rect, Rect]:
    """Return the two parts of a rectangle, the first with a given length."""
    if way == "right":
        return rect._replace(cols=first), rect._replace(col=rect.col + first + 1, cols=rect.cols - first - 1)
    return rect._replace(rows=first), rect._replace(row=rect.row + first + 1, rows=rect.rows - first - 1)


def laid(parts: int | PaneSplit, rects: dict[int, Rect], box: Rect) -> dict[int, Rect]:
    """Return the rectangles of panes after their layout fills another box."""
    if isinstance(parts, int):
        return {parts: box}
    first = first_length(length_of(box, parts.way), shift_of(parts, rects), *(least_of(part, parts.way) for part in parts[1:]))
    boxes = cut_at(box, parts.way, first)
    return {**laid(parts.first, rects, boxes[0]), **laid(parts.second, rects, boxes[1])}


# ---- even sizes


def row_of(parts: int | PaneSplit, way: str) -> list[int | PaneSplit]:
    """Return the parts side by side in one direction: those of a split, and of splits in that direction among them."""
    if isinstance(parts, PaneSplit) and parts.way == way:
        return row_of(parts.first, way) + row_of(parts.second, way)
    return [parts]


def split_sizes(whole: int, least: list[int]) -> list[int]:
    """Divide a length into equal parts with a border between each two.

    The last part is one longer if there is a remainder, and none is shorter than its least length.
    """
    left, fixed = whole - len(least) + 1, [0] * len(least)
    while True:
        free = [place for place, length in enumerate(fixed) if not length]
        share = (left - sum(fixed)) // len(free) if free else 0
        short = [place for place in free if least[place] > share]
        if not short:
            break
        for place in short:
            fixed[place] = least[place]
    less = len(free) - (left - sum(fixed) - share * len(free))
    return [length or share + (free.index(place) >= less) for place, length in enumerate(fixed)]


def growths(pane: int, by: int) -> list[str]:
    """Return the acts that grow a pane by so much along its own split."""
    whole, rest = divmod(abs(by), MOST_GROWTH)
    sign = 1 if by > 0 else -1
    return [f"focus {pane}", *[f"grow {sign * MOST_GROWTH}"] * whole, *[f"grow {sign * rest}"] * (rest > 0)]


class Evened:
    """Even split sizes for panes: the acts that set them for borders with an owner, the resulting positions, and a flag for immovable
    borders.
    """

    def __init__(self, parts: int | PaneSplit, rects: dict[int, Rect]) -> None:
        self.before, self.acts, self.is_stuck = rects, list[str](), False
        self.rects: dict[int, Rect] = {}
        self.even(parts, area_of(rects))

    def even(self, parts: int | PaneSplit, box: Rect) -> None:
        """Give the parts of a box even sizes, from the outermost split inwards, since inner sizes depend on outer ones."""
        if isinstance(parts, int):
            self.rects[parts] = box
            return
        way, whole = parts.way, length_of(box, parts.way)
        row, least = row_of(parts, way), [least_of(part, way) for part in parts[1:]]
        count = len(row_of(parts.first, way))
        wanted = sum(split_sizes(whole, [least_of(part, way) for part in row])[:count]) + count - 1
        first = first_length(whole, shift_of(parts, self.before), *least)
        leaf = next(((part, sign) for part, sign in ((parts.first, 1), (parts.second, -1)) if isinstance(part, int)), None)
        if first != wanted and leaf:
            self.acts += growths(leaf[0], leaf[1] * (wanted - first))
            first = wanted
        self.is_stuck = self.is_stuck or first != wanted
        for part, rect in zip(parts[1:], cut_at(box, way, first)):
            self.even(part, rect)
