"""A pane that fills the terminal, with real programs, and the way back; borders moved by keys; and the aftermath of a killed front end."""
import os
import random
import signal
import subprocess
import time
from collections import Counter

from scenes.machines import ssh_words
from scenes.mouse import Modes, report
from scenes.programs import htop_options
from tried import (
    SESSION, WAIT, Outer, check, comes, connected, is_missing, listed, outside_gate, part_at, scene, shown_above, terminals_of, three_panes,
    told_cells, tool)
from roam_live.common.tty import MOST
from roam_live.frontend.resize_keys import NO_PANE
from roam_live.input.mouse_reports import tracking_of
from roam_live.protocol.panes import asked_places

# A pane's command that writes rows at its start and nothing more; and the most rows.
STILL = "i=0; while [ $i -lt 30 ]; do i=$((i+1)); echo row $i of some that stand in a pane as they were written; done; exec sleep 10000"

# The number of panes in a random tree; and the trees of each size, for moved borders, and in `tests/stress/try_zoom` (TREES).
FEWEST, MOST_PANES = 2, 6
TREES = {"zoom": 3, "borders": 2}
SEED = 7801

# The number of checks of the first row after the session shrank to the terminal: by C-b r, and by the end of a zoomed pane.
FIRST_ROWS = {"refits": 12, "exits": 4}

# The number of front ends killed at some moment of a zoom.
KILLS = 6

KEYS = {"up": b"\x02\x1b[1;5A", "down": b"\x02\x1b[1;5B", "right": b"\x02\x1b[1;5C", "left": b"\x02\x1b[1;5D"}


def there(name=SESSION):
    """Return the pane positions."""
    return places_at(terminals_of(name).parent / "panes")


def places_at(path):
    """Return the pane positions that a socket reports, which a busy machine may do late."""
    found = []
    comes(lambda: found.append(asked_places(path)) or found[-1])
    return found[-1]


def acts(*words):
    """Send acts, and wait until they are taken."""
    link = connected(SESSION, False)
    for begin in range(0, len(words), 32):
        link.say(" ; ".join(words[begin : begin + 32]))
    link.part(WAIT)
    link.close()


def settled(seconds=0.05):
    """Return the pane positions once they are stable for so many seconds: the last act is reported a little later."""
    before, after = None, there()
    while after != before:
        time.sleep(seconds)
        before, after = after, there()
    return after


def tree(chance):
    """Create a random tree of panes, whose programs have written everything, and return their positions."""
    places = settled()
    acts(*[act for pane in list(places.rects)[1:] for act in (f"focus {pane}", "close")])
    comes(lambda: len(there().rects) == 1)
    count = chance.randint(FEWEST, MOST_PANES)
    for _ in range(20):
        panes = list(settled().rects)
        if len(panes) == count:
            break
        acts(f"focus {chance.choice(panes)}", chance.choice(("split right", "split down")), f"grow {chance.randint(-6, 6)}")
    focus = chance.choice(list(settled().rects))
    acts(f"focus {focus}")
    comes(lambda: there().focus == focus)
    return settled()


def still_cells():
    """Return the cells of the session once they are stable for a moment."""
    before = told_cells(SESSION)
    while True:
        time.sleep(0.15)
        after = told_cells(SESSION)
        if after.cells == before.cells:
            return after
        before = after


def shows_part(outer, pane):
    """Return True if a terminal shows a pane's cells and nothing else, above its last row."""
    rect, size = there().rects[pane], (outer.size[0] - 1, outer.size[1])
    found, cursor = part_at(told_cells(SESSION), rect.row, rect.col, size)
    blank = (" ", type(found[1, 1][1])())
    wanted = {place: cell if place[0] <= rect.rows and place[1] <= rect.cols else blank for place, cell in found.items()}
    return shown_above(outer) == (wanted, cursor)


def zoomed_back(size):
    """Zoom a pane of each of many trees, and go back. Count the panes that fill the terminal, are shown alone, and are restored exactly."""
    chance, full, exact, rows, alone, large = random.Random(SEED), 0, 0, 0, 0, 0
    subprocess.run(tool("mux", "new", "-d", SESSION, "sh", "-c", STILL), check=True)
    outer = Outer(tool("mux", SESSION), size)
    outer.status("[1]")
    for _ in range(TREES["zoom"]):
        before = tree(chance)
        comes(lambda places=before: outer.last_row().rstrip() == places.labels().rstrip())
        cells = still_cells()
        outer.type(b"\x02z")
        comes(lambda: is_zoomed(outer))
        zoomed = there()
        rect = zoomed.rects[before.focus]
        is_full = (rect.rows, rect.cols) == (size[0] - 1, size[1])
        full += is_full
        large += not is_full and (zoomed.size()[0] == MOST[0] or zoomed.size()[1] == MOST[1])
        alone += comes(lambda pane=before.focus: shows_part(outer, pane))
        outer.type(b"\x02z")
        comes(lambda: not is_zoomed(outer) and there().size() == size)
        exact += (there().rects, there().focus) == (before.rects, before.focus)
        rows += still_cells().cells == cells.cells
    count = TREES["zoom"]
    told = f"fills the terminal in {full} of {count}, {large} at the session's limits"
    print(f"        seed {SEED}, {size[0]} by {size[1]}: {told}", flush=True)
    check(f"in all {count} trees the pane fills the terminal, or has all that 200 by 500 give it", full + large == count, (full, large))
    check("nothing else is shown in any", alone == count, alone)
    check("on the way back all panes are where they were in all", exact == count, exact)
    check("and all rows as they were", rows == count, rows)


@scene
@outside_gate("random trees take a minute")
def zoom_trees(folder):
    """Trees of 2 to 6 panes at 24 by 80: there and back."""
    zoomed_back((24, 80))


@scene
@outside_gate("random trees take two minutes")
def zoom_trees_large(folder):
    """Trees of 2 to 6 panes at 50 by 160: there and back."""
    zoomed_back((50, 160))


def shows_first(outer):
    """Return True if a terminal shows the session from its first row and column on, above its last row."""
    return shown_above(outer) == part_at(told_cells(SESSION), 1, 1, (outer.size[0] - 1, outer.size[1]))


@scene
@outside_gate("twelve new sizes of a large terminal take a minute")
def first_row_refitted(folder):
    """A session that C-b r shrinks to the terminal is shown from its first row on, also right after the user came to the window."""
    large, small = Outer(tool("mux", SESSION), (50, 120)), None
    large.shows("$ ")
    large.type(b"\x02c")
    large.status("[1] 1:sh  2:sh*")
    small = Outer(tool("mux", f"{SESSION}:1"), (24, 80))
    large.type(b"\x021")
    right = 0
    for number in range(FIRST_ROWS["refits"]):
        large.type(b"\x02r")
        comes(lambda: there().size() == (50, 120))
        large.type(b"clear; seq 1 100\r")
        large.shows("100")
        small.status("", end="C-b r fits")
        # The client has the new screen a moment after its size is reported here.
        small.type(b"\x022\x021\x02r" if number % 2 else b"\x02r")
        comes(lambda: there().size() == (24, 80))
        right += comes(lambda: small.last_row().startswith("[1] 1:sh") and shows_first(small), 3)
    check("its first row is the first one each time", right == FIRST_ROWS["refits"], (right, small.rows()))


@scene
def first_row_unzoomed(folder):
    """After the program of a zoomed pane has ended, in a stack of panes, the session is shown from its first row on."""
    outer = Outer(tool("mux", SESSION), (40, 120))
    outer.shows("$ ")
    outer.type(b'\x02"')
    comes(lambda: len(there().rects) == 2)
    right = 0
    for _ in range(FIRST_ROWS["exits"]):
        outer.type(b'\x02"')
        comes(lambda: len(there().rects) == 3)
        outer.type(b"\x02z")
        comes(lambda: is_zoomed(outer))
        outer.type(b"exit\r")
        comes(lambda: len(there().rects) == 2 and there().size() == (40, 120))
        right += comes(lambda: not is_zoomed(outer) and shows_first(outer))
    check("its first row is the first one each time", right == FIRST_ROWS["exits"], (right, outer.rows()))


@scene
def zoom_programs(folder):
    """vim and htop in a zoomed pane: their output is shown cell by cell, and a click counts from the corner."""
    text = folder / "text"
    text.write_text("".join(f"line {line} of a text, in which something stands\n" for line in range(1, 90)), encoding="utf-8")
    programs = {"vim": (f"vim -u NONE -i NONE -nN -c 'set noshowcmd shm+=I mouse=a ttymouse=sgr ruler' {text}", b"\x1b:q!\r"),
                "htop": (f"HTOPRC={htop_options(folder)} htop --readonly -d 100 -p 1", b"q")}
    outer = three_panes()
    outer.type(b"\x02q3")
    outer.status(" 1  2 [3]")
    told = Modes(terminals_of(SESSION).parent)
    for name, (command, quits) in programs.items():
        if is_missing(name, name):
            continue
        outer.type(f"{command}; clear; echo le''ft {name}\r".encode())
        check(f"{name} asks for the mouse", comes(lambda: tracking_of(told.of(3))), lambda: told.of(3))
        before = there()
        outer.type(b"\x02z")
        check(f"{name} fills the terminal", outer.status(" 1  2 [3] Z") and comes(lambda: there().rects[3][2:] == (23, 80)), there)
        check("its cells are shown, and nothing else", comes(lambda: shows_part(outer, 3)), outer.rows)
        if name == "vim":
            outer.type(report(0, 7, 13) + report(0, 7, 13, True))
            is_there = comes(lambda: (outer.emulation().row, outer.emulation().col) == (6, 12))
            check("a click puts its cursor there", is_there and outer.shows("7,13"), outer.rows)
            outer.type(b"ix\x1bGo")
        else:
            outer.type(report(0, 23, 3) + report(0, 23, 3, True))
            is_help = outer.sees(lambda seen: any("htop 3" in row or "Press any key" in row for row in seen.lines()))
            check("a click on its last row is one", is_help, outer.rows)
            outer.type(b"q")
        check("its cells are shown then too", comes(lambda: shows_part(outer, 3)), outer.rows)
        outer.type(b"\x02z")
        check("and all panes are where they were", comes(lambda before=before: there() == before), there)
        outer.type(quits)
        check("it leaves the pane to the shell", outer.shows(f"left {name}"), outer.rows)


@scene
def zoom_ends(folder):
    """The ends of a zoom: this user's keys, actions of others, a detach, and the next attach after a killed front end."""
    outer = three_panes()
    before = there()
    for keys, label, focus in ((b"\x02o", " 1 [2] 3", 2), (b"\x02;", "[1] 2  3", 1), (b"\x02\x1b[C", " 1 [2] 3", 2),
                               (b"\x02q1", "[1] 2  3", 1)):
        outer.type(b"\x02z")
        outer.shows("Z")
        outer.type(keys)
        check(f"{keys!r} ends it, with the size as before", outer.status(label) and comes(lambda focus=focus: there() == before._replace(
            focus=focus, clients=there().clients)), there)
    outer.type(b"\x02z")
    outer.status("[1] 2  3 Z")
    acts("focus 3")
    check("so does another's focus", outer.status(" 1  2 [3]") and comes(lambda: there().rects == before.rects), there)
    outer.type(b"\x02zecho zoo''med\r")
    check("keys behind C-b z in one read are typed", outer.shows("zoomed") and outer.shows("Z"), outer.rows)
    outer.type(b"exit\r")
    check("the end of the pane ends it", outer.status("[1] 2 ") and comes(lambda: there().size() == (24, 80)), there)
    outer.type(b"\x02z")
    outer.status("[1] 2 Z")
    outer.resize(30, 100)
    check("another size of the terminal has it filled", comes(lambda: there().rects[1][2:] == (29, 100)), there)
    check("and shown", comes(lambda: shows_part(outer, 1)), outer.rows)
    outer.type(b"\x02z")
    check("the session is as large as the terminal then", comes(lambda: there().size() == (30, 100)), there)
    other = Outer(tool("mux", SESSION), (26, 90))
    other.shows("C-b r fits")
    outer.type(b"\x02z")
    comes(lambda: there().size() != (30, 100))
    other.type(b"\x02r")
    check("C-b r at another terminal ends it, with that size", comes(lambda: there().size() == (26, 90) and not is_zoomed(outer)), there)
    outer.type(b"\x02z")
    outer.shows(" Z")
    other.type(b"\x02z")
    check("another zoom ends it", comes(lambda: is_zoomed(other) and not is_zoomed(outer)), lambda: (outer.rows()[-1], other.rows()[-1]))
    other.type(b"\x02z")
    check("whose end gives back the size before both", comes(lambda: there().size() == (26, 90)), there)
    outer.type(b"\x02z")
    comes(lambda: there().size() != (26, 90))
    outer.type(b"\x02d")
    check("leaving gives the size back", outer.ends() and comes(lambda: there().size() == (26, 90)), there)


def killed_zooms(before):
    """Kill front ends at some moment of a zoom; the next one restores the size each time. Return the sizes right after the kills."""
    chance, seen = random.Random(SEED), set()
    for count in range(KILLS):
        outer = Outer(tool("mux", SESSION))
        outer.status("[1] 2  3")
        outer.type(b"\x02z" * (1 + count % 2))
        time.sleep(chance.uniform(0, 0.03) if count < KILLS - 2 else 0.5)
        if count == KILLS - 2:
            # This one is killed with a larger session, however long that takes.
            comes(lambda: there().size() != before.size())
        os.kill(outer.process.pid, signal.SIGKILL)
        outer.process.wait()
        time.sleep(0.1)
        seen.add(there().size())
        again = Outer(tool("mux", SESSION))
        again.status("[1] 2  3")
        is_back = comes(lambda: there().rects == before.rects)
        check(f"after a kill {count + 1} the next attach has the size", is_back and not is_zoomed(again), there)
        again.type(b"\x02d")
        again.ends()
    return seen


@scene
def zoom_killed(folder):
    """A front end that is killed at any moment of a zoom: the next one, or an attached one, restores the size."""
    outer = three_panes()
    outer.type(b"\x02d")
    outer.ends()
    before = there()
    seen = killed_zooms(before)
    check("some were killed with a larger session", len(seen) > 1, seen)
    outer, other = Outer(tool("mux", SESSION)), Outer(tool("mux", SESSION))
    other.status("[1] 2  3")
    outer.status("[1] 2  3")
    outer.type(b"\x02z")
    outer.shows(" Z")
    os.kill(outer.process.pid, signal.SIGSTOP)
    time.sleep(1)
    check("while one is stopped its zoom stays", there().size() != (24, 80), there)
    os.kill(outer.process.pid, signal.SIGKILL)
    check("one that is there gives the size back", comes(lambda: there().rects == before.rects), there)
    other.type(b"\x02z")
    comes(lambda: there().size() != (24, 80))
    other.process.kill()
    other.process.wait()
    # Otherwise the next terminal isn't alone.
    comes(lambda: listed()[-2:] == ["0", "terminals"])
    large = Outer(tool("mux", SESSION), (40, 120))
    check("a larger terminal that comes is filled", comes(lambda: there().size() == (40, 120)), there)
    large.type(b"\x02d")
    large.ends()


@scene
def zoom_far(folder):
    """A zoom of a remote session, by relays: there, back, and after a kill."""
    far, asked = folder / "far", folder / "asked"
    words = ssh_words(folder, far, asked)
    outer = Outer(words)
    outer.shows("$ ")
    outer.type(b"\x02%")
    outer.status(" 1 [2]")
    panes = far / "roam" / "other" / "w" / "1" / "panes"
    before = places_at(panes)
    outer.type(b"\x02z")
    is_full = outer.status(" 1 [2] Z") and comes(lambda: places_at(panes).rects[2][2:] == (23, 80))
    check("it fills the terminal", is_full, outer.rows)
    outer.type(b"\x02z")
    check("and is back", comes(lambda: places_at(panes).rects == before.rects), lambda: places_at(panes))
    outer.type(b"\x02z")
    outer.status(" 1 [2] Z")
    outer.process.kill()
    outer.process.wait()
    again = Outer(words)
    check("after a kill the next has the size", again.status(" 1 [2] ") and comes(lambda: places_at(panes).rects == before.rects),
          lambda: places_at(panes))
    again.type(b"\x02d")
    again.ends()
    environment = {**os.environ, "XDG_RUNTIME_DIR": str(far)}
    subprocess.run(tool("mux", "kill", "-f", "other"), env=environment, check=False)


@scene
def border_keys(folder):
    """Borders by keys in a grid and in random trees, and even sizes."""
    chance, found = random.Random(SEED), Counter()
    subprocess.run(tool("mux", "new", "-d", SESSION, "sleep", "10000"), check=True)
    outer = Outer(tool("mux", SESSION))
    outer.status("[1]")
    for count in range(TREES["borders"]):
        if count:
            tree(chance)
        else:
            acts("split right", "split down", "focus 1", "split down")
        for pane in there().rects:
            for side in KEYS:
                found[moved(outer, pane, side)] += 1
    told = f"{found['moved']} keys moved a border, {found['told']} said why not, {found['odd']} did neither"
    print(f"        seed {SEED}: {told}", flush=True)
    check("borders go by keys, or words say why not", found["moved"] and not found["odd"], told)
    comes(lambda: is_evened(outer))
    first = settled(1)
    outer.type(b"\x02 ")
    again = settled(1)
    check("C-b Space again changes nothing", again.rects == first.rects, (first, again))


def is_evened(outer):
    """Return True if C-b Space reports that nothing is left to do."""
    begin = len(outer.written)
    outer.type(b"\x02 ")
    return comes(lambda: outer.written.find(b"space is divided evenly", begin) >= 0, 3)


def is_zoomed(outer):
    """Return True if a terminal's last row shows that a pane is zoomed."""
    return " Z " in f"{outer.rows()[-1]} "


def moved(outer, pane, side):
    """Return the effect of a key for a pane's border: `moved` by one, with the focus restored; `told` with a reason; or `odd`."""
    acts(f"focus {pane}")
    comes(lambda: there().focus == pane)
    before = there()
    comes(lambda: outer.last_row().startswith(before.labels()))
    comes(lambda: not is_told_in(outer.rows()[-1]), 4)
    begin = len(outer.written)
    outer.type(KEYS[side])
    comes(lambda: is_told_in(outer.written[begin:].decode(errors="replace")) or there().rects != before.rects)
    time.sleep(0.05)
    comes(lambda: there().focus == pane, 15)
    after, is_told = there(), is_told_in(outer.written[begin:].decode(errors="replace"))
    step = 1 if side in ("right", "down") else -1
    goes = [then + step == now for then, now in zip(edges(before.rects[pane], side), edges(after.rects[pane], side))]
    if after.focus == pane and after.rects != before.rects and any(goes):
        return "moved"
    if after.focus == pane and after.rects == before.rects and is_told:
        return "told"
    print(f"        odd: {side} of {pane} in {before}, then {after}, {outer.rows()[-1]!r}", flush=True)
    return "odd"


def is_told_in(text):
    """Return True if a text gives the reason that a border doesn't move."""
    return any(words in text for words in ("no border", NO_PANE[:20], "cannot move further"))


def edges(rect, side):
    """Return the first and last cell of a pane, along the direction of a side."""
    return (rect.col, rect.col + rect.cols) if side in ("left", "right") else (rect.row, rect.row + rect.rows)
