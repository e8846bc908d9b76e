"""Keys to all panes of a window, and extended keys of a terminal."""
import os
import signal

from tried import SESSION, WAIT, Outer, check, comes, scene, tool, window_of
from scenes.mouse import Modes

# A command that records all input in a pane, and one that first requests modifyOtherKeys.
KEEPS = "stty raw -echo; echo ke''eps; cat >{}\r"
ASKS = "printf '\\033[>4;2m'; "
CTRL_TAB, CTRL_A = b"\x1b[27;5;9~", b"\x1b[27;5;97~"


def panes_with(folder, outer, begins):
    """Create a pane for each of these words in front of the command that records input there, and return the files."""
    paths = [folder / f"typed{number}" for number in range(len(begins))]
    for number, (path, begin) in enumerate(zip(paths, begins)):
        outer.type(b'\x02"' if number else b"")
        outer.type((begin + KEEPS.format(path)).encode())
        check(f"a command runs in pane {number + 1}", comes(path.exists), outer.rows)
    return paths


def have(paths, text, seconds=WAIT):
    """Return True if all of these files get a text in time."""
    return comes(lambda: all(path.read_bytes() == text for path in paths), seconds)


def all_of(paths):
    """Return the contents of the files."""
    return [path.read_bytes()[-200:] for path in paths]


@scene
def all_panes(folder):
    """Keys and pastes go to all panes once that is switched on, by a command or a user's own key, and otherwise to the focused one."""
    outer = Outer(tool("mux", SESSION))
    check("a session has a pane", outer.status("[1]"), outer.rows)
    paths = panes_with(folder, outer, ["", "", ""])
    outer.type(b"\x02:setw synchronize-panes on\r")
    check("the last row tells of it", outer.shows("keys go to all panes") and outer.status(" 1  2 [3] S"), outer.rows)
    keys = b"abc\x1b[A\x03" + bytes(range(97, 123)) * 20
    outer.type(keys)
    text = keys
    check("each pane has each key", have(paths, text), all_of(paths))
    for pasted in (b"short", b"long " * 5000):
        outer.type(b"\x1b[200~" + pasted + b"\x1b[201~<")
        text += pasted + b"<"
        check("each pane has what is pasted, and what is typed behind it", have(paths, text, 60), all_of(paths))
    outer.type(b"\x02z1")
    text_of_third = text + b"1"
    check("a pane that is zoomed has keys alone", have(paths[2:], text_of_third) and outer.status("", end="") and have(paths[:2], text),
          all_of(paths))
    outer.type(b"\x02z2")
    check("then all have them", have(paths[:2], text + b"2") and have(paths[2:], text_of_third + b"2"), all_of(paths))
    outer.type(b"\x02c")
    check("another window has its own", outer.shows("2:") and comes(lambda: "S" not in outer.last_row()[:8]), outer.rows)
    outer.type(b"\x02p3")
    check("and one comes back to all panes", have(paths[:2], text + b"23"), all_of(paths))
    outer.type(b"\x02:synchronize-panes\r4")
    check("switched off, the pane in focus has keys alone", have(paths[2:], text_of_third + b"234") and have(paths[:2], text + b"23"),
          all_of(paths))
    outer.type(b"\x02d")
    check("the terminal is as it was", outer.ends() and outer.is_restored(), outer.rows)


@scene
def extended(folder):
    """A terminal is asked for extended keys, programs that requested them get them, and its setting is restored."""
    outer = Outer(tool("mux", SESSION))
    check("a session has a pane", outer.status("[1]"), outer.rows)
    check("the terminal is asked", outer.written.find(b"\x1b[?4m\x1b[>4;2m\x1b[?1049h") >= 0, bytes(outer.written[:200]))
    paths = panes_with(folder, outer, ["", ASKS])
    # The terminal hears of the program's wish as this connection does.
    told = Modes(window_of(SESSION))
    comes(lambda: told.of(2), 5)
    outer.type(b"\x1b[>4")
    check("what it answers isn't typed, however late its end comes", not comes(lambda: paths[1].read_bytes() != b"", 0.5), all_of(paths))
    outer.type(b";1mx" + CTRL_TAB + CTRL_A)
    check("a program that asked has keys in that form", have(paths[1:], b"x" + CTRL_TAB + CTRL_A), all_of(paths))
    outer.type(b"\x1b[27;5;98~\x1b[A" + CTRL_TAB + CTRL_A)
    check("another has them as ever, and the prefix is it in that form too", have(paths[:1], b"\t\x01"), all_of(paths))
    outer.process.send_signal(signal.SIGTERM)
    check("the terminal is as it was, and tells keys as it answered", outer.ends() and outer.is_restored()
          and b"\x1b[>4;1m\x1b[?2004l" in outer.written[-200:], bytes(outer.written[-200:]))
    os.environ["TERM"] = "linux"
    other = Outer(tool("mux", SESSION))
    check("a console of Linux is asked nothing", other.status("[1] 2"), other.rows)
    other.type(b"\x02d")
    check("and given nothing back", other.ends() and b"\x1b[>4" not in other.written and b"\x1b[?4m" not in other.written, other.rows)
