"""Programs with the mouse, in the right one of two panes, show the same as in tmux on a terminal of their own after the same events."""
import time

from scenes.mouse import Modes, report
from scenes.programs import Tmux, differences, htop_options, mc_home
from tried import SESSION, Outer, check, comes, is_missing, scene, terminals_of, tool
from roam_live.common import spawn
from roam_live.input.mouse_reports import SGR, MouseReport, sent, tracking_of
from roam_live.protocol.screen_cells import ShownCells

# The rows and columns of the right pane, and the column before it.
PANE, LEFT = (23, 40), 40


def right_of(outer):
    """Return the cells of a terminal's right pane, and the cursor there."""
    seen, shown = outer.cells(), ShownCells(*PANE)
    shown.cells = {(row, col - LEFT): cell for (row, col), cell in seen.cells.items() if col > LEFT and row <= PANE[0]}
    shown.row, shown.col, shown.has_cursor = seen.row, seen.col - LEFT, seen.has_cursor
    return shown


def point(outer, tmux, modes, *reports):
    """Report mouse events to both, at positions of the pane or to the left of it. The program in tmux gets its requested reports at the
    nearest position.
    """
    for button, row, col, *is_release in reports:
        outer.type(report(button, row, col + LEFT, bool(is_release)))
        text = sent(MouseReport(button, row, max(1, col), bool(is_release)), modes)
        tmux.type("-H", *[f"{byte:02x}" for byte in text.encode()])
        time.sleep(0.06)


def check_pointed(name, command, steps, quits):
    """A program in the right pane shows the same as in tmux, at first and after each step: reports at positions of the pane."""
    if is_missing(name, name, "tmux"):
        return
    outer = Outer(tool("mux", SESSION))
    outer.shows("$ ")
    outer.type(b"\x02%")
    outer.status(" 1 [2]")
    known = " ".join(f"{word}={value}" for word, value in spawn.names().items())
    tmux = Tmux(f"export {known}; {command}", *PANE)
    outer.type(b"clear\r")
    outer.type(f"{command}; clear; echo le''ft {name}\r".encode())
    told = Modes(terminals_of(SESSION).parent)
    check(f"{name} asks for the mouse", comes(lambda: tracking_of(told.of(2))), lambda: told.of(2))

    def is_same():
        return not differences(right_of(outer), tmux.cells(), PANE) and len(tmux.cells().cells) > PANE[1]

    check(f"{name} shows there what it shows in tmux", comes(is_same), lambda: differences(right_of(outer), tmux.cells(), PANE)[:9])
    for step, reports in steps.items():
        before = tmux.rows(), tmux.cells().row
        time.sleep(0.6)
        point(outer, tmux, told.of(2), *reports)
        comes(lambda before=before: (tmux.rows(), tmux.cells().row) != before, 2)
        check(f"and after {step}", comes(is_same), lambda: differences(right_of(outer), tmux.cells(), PANE)[:9])
    print(f"        with {' '.join(told.of(2))}{'' if SGR in told.of(2) else ', in the old form'}", flush=True)
    tmux.stop()
    outer.type(quits)
    check("it leaves the pane to the shell", outer.shows(f"left {name}"), outer.rows)


def click(row, col):
    """Return a click."""
    return (0, row, col), (0, row, col, True)


@scene
def mouse_vim(folder):
    """vim: a click moves the cursor, the wheel scrolls, and a drag selects, also out of the pane."""
    text = folder / "text"
    text.write_text("".join(f"line {line} of a text, in which something stands\n" for line in range(1, 90)), encoding="utf-8")
    vimrc = "set noshowcmd shm+=I mouse=a ttymouse=sgr ruler"
    check_pointed("vim", f"vim -u NONE -i NONE -nN -c '{vimrc}' {text}", {
        "a click": click(5, 9), "the wheel": [(65, 5, 9)] * 3, "a drag": [(0, 3, 4), (32, 4, 8), (32, 6, 12), (0, 6, 12, True)],
        "one out of the pane": [(0, 8, 10), (32, 9, 4), (32, 9, -5), (0, 9, -9, True)],
        "a click of another button": [(2, 12, 5), (2, 12, 5, True)],
    }, b"\x1b\x1b:q!\r")


@scene
def mouse_less(folder):
    """less, which scrolls by the wheel."""
    text = folder / "text"
    text.write_text("".join(f"line {line}\n" for line in range(1, 200)), encoding="utf-8")
    check_pointed("less", f"less --mouse {text}", {"the wheel": [(65, 5, 9)] * 4, "the wheel back": [(64, 5, 9)] * 2}, b"q")


@scene
def mouse_htop(folder):
    """htop: clicks on its keys at the bottom, and on a line of its list."""
    command = f"HTOPRC={htop_options(folder)} htop --readonly -d 100 -p 1"
    check_pointed("htop", command, {"a click on a line": click(7, 5), "a click on F1Help": click(23, 3)}, b"qq")


@scene
def mouse_mc(folder):
    """mc: clicks on a file, and on the other panel."""
    home = mc_home(folder)
    check_pointed("mc", f"HOME={home} mc -u {home} {home}", {
        "a click on a file": click(4, 3), "one in the other panel": click(5, 24), "one on a menu": click(1, 10),
        "one beside it": click(20, 30),
    }, b"\x1b[21~")


@scene
def mouse_fzf(folder):
    """fzf: a click on a line, and the wheel through the list."""
    steps = {"a click": click(15, 4), "the wheel": [(64, 10, 4)] * 3, "the wheel back": [(65, 10, 4)] * 2}
    check_pointed("fzf", "seq 100 | fzf --no-info", steps, b"\x1b")
