"""The mouse: the reports to programs in panes, and roam's own actions."""
import os
import socket
import time

from tried import KEEPS_NONE, SESSION, Outer, check, comes, is_missing, scene, terminals_of, three_panes, tool
from roam_live.common import tty
from roam_live.input.extended_keys import given_back
from roam_live.input.mouse_reports import ASKED, OFF
from roam_live.protocol.panes import METADATA, OTHER, PanesState
from scenes.machines import ssh_words

# A program that sets modes, and records all its input in hexadecimal digits; q ends it, and is recorded too.
NOTES = """\
import os, sys, termios, tty
modes, path = sys.argv[1:]
before = termios.tcgetattr(0)
tty.setraw(0)
os.write(1, b"".join(b"\\033[?%dh" % int(mode) for mode in modes.split(",")))
os.write(1, b"\\033[2J\\033[Hat " + os.path.basename(path).encode() + b" ")
piece = b""
while piece != b"q":
    piece = os.read(0, 4096)
    with open(path, "a") as file:
        file.write(piece.replace(b"q", b"").hex())
    os.write(1, piece.hex().encode() + b" ")
os.write(1, b"".join(b"\\033[?%dl" % int(mode) for mode in modes.split(",")))
termios.tcsetattr(0, termios.TCSANOW, before)
open(path + ".ended", "w").close()
"""


class Modes:
    """The modes of the programs in a session's panes, as its server reports them."""

    def __init__(self, folder):
        self.peer = socket.socket(socket.AF_UNIX)
        self.peer.connect(str(folder / "panes"))
        self.peer.sendall(f"{METADATA}\n".encode())
        self.peer.setblocking(False)
        self.told, self.rest = PanesState(), b""

    def of(self, pane):
        """Return those of a pane now."""
        try:
            *lines, self.rest = (self.rest + self.peer.recv(65536)).split(b"\n")
        except BlockingIOError:
            lines = []
        for line in lines:
            self.told.take(line.decode())
        return self.told.value("modes", pane).split()


class Noting:
    """Such a program in the focused pane of a terminal."""

    made = 0

    def __init__(self, folder, outer, modes):
        Noting.made += 1
        self.outer, self.path = outer, folder / f"noted{Noting.made}"
        script = folder / "notes"
        script.write_text(NOTES, encoding="utf-8")
        outer.type(f"clear; python3 {script} {modes} {self.path}\r".encode())
        outer.shows(f"at {self.path.name}")

    def noted(self):
        """Return its input so far."""
        return bytes.fromhex(self.path.read_text(encoding="utf-8")) if self.path.exists() else b""

    def gets(self, text):
        """Return True if its input is this and nothing else in time."""
        comes(lambda: len(self.noted()) >= len(text))
        time.sleep(0.2)
        return self.noted() == text

    def gets_each(self, reports, pieces):
        """Return True if its input is one of these pieces after each report, and nothing else. It is awaited before the next report, since
        a busy front end may read two motions together, and passes on the last one.
        """
        text = b""
        for one, piece in zip(reports, pieces):
            points(self.outer, one)
            text += piece
            comes(lambda: len(self.noted()) >= len(text))
        return self.gets(text)

    def quit(self):
        """End it."""
        self.outer.type(b"q")
        comes(self.path.with_name(f"{self.path.name}.ended").exists)


def report(button, row, col, is_release=False):
    """Return a report of the outer terminal."""
    return f"\x1b[<{button};{col};{row}{'m' if is_release else 'M'}".encode()


def points(outer, *reports):
    """Report mouse events, once everything visible was reported, and slowly enough for motion."""
    time.sleep(0.2)
    for one in reports:
        outer.type(report(*one))
        time.sleep(0.05)


def asks(outer, text, begin):
    """Return True if the terminal gets this request after a position of the output."""
    return comes(lambda: text in bytes(outer.written[begin:]))


# A press in the right one of two panes, motion with the button pressed, out of it, a release, motion without a button, the wheel; and by
# mode the reports to the program there for each. It begins at column 41.
POINTED = ((0, 3, 45), (32, 4, 45), (32, 5, 20), (0, 5, 21, True), (35, 6, 46), (65, 7, 80))
COMES = {
    "1000,1006": (b"\x1b[<0;5;3M", b"", b"", b"\x1b[<0;1;5m", b"", b"\x1b[<65;40;7M"),
    "1002,1006": (b"\x1b[<0;5;3M", b"\x1b[<32;5;4M", b"\x1b[<32;1;5M", b"\x1b[<0;1;5m", b"", b"\x1b[<65;40;7M"),
    "1003,1006": (b"\x1b[<0;5;3M", b"\x1b[<32;5;4M", b"\x1b[<32;1;5M", b"\x1b[<0;1;5m", b"\x1b[<35;6;6M", b"\x1b[<65;40;7M"),
    "1000": (b"\x1b[M %#", b"", b"", b"\x1b[M#!%", b"", b"\x1b[MaH'"),
}


@scene
def mouse_reports(folder):
    """The program in the right one of two panes gets the reports that it requested, counted from its corner, and its neighbour none."""
    outer = Outer(tool("mux", SESSION))
    outer.shows("$ ")
    outer.type(b"\x02%")
    outer.status(" 1 [2]")
    check("the terminal isn't asked for the mouse", b"?1002h" not in outer.written and b"?1006h" not in outer.written, outer.written[:200])
    for modes, pieces in COMES.items():
        begin = len(outer.written)
        program = Noting(folder, outer, modes)
        asked = ASKED["motion" if "1003" in modes else "drags"]
        check(f"{modes}: the terminal is asked for it", asks(outer, asked, begin), bytes(outer.written[begin:]))
        check(f"{modes}: the program is sent its reports", program.gets_each(POINTED, pieces), program.noted)
        points(outer, (0, 3, 5), (0, 3, 5, True), (0, 3, 40), (0, 24, 45), (35, 3, 5))
        check(f"{modes}: and nothing of another place", program.gets(b"".join(pieces)), program.noted)
        begin = len(outer.written)
        program.quit()
        check(f"{modes}: and the terminal for nothing then", asks(outer, OFF, begin), bytes(outer.written[begin:]))
    outer.type(report(0, 3, 45) + b"echo not''hing\r")
    check("a report that comes later isn't typed", outer.shows("nothing") and not any("[<" in row for row in outer.rows()), outer.rows)
    outer.type(b"\x02d")
    outer.ends()


@scene
def mouse_thinned(folder):
    """A program gets motion every 20 ms at most, and the final position; and each notch of the wheel."""
    outer = Outer(tool("mux", SESSION))
    outer.shows("$ ")
    program = Noting(folder, outer, "1003,1006")
    begun = time.monotonic()
    for turn in range(200):
        outer.type(report(35, 2 + turn // 70, 1 + turn % 70))
        time.sleep(0.004)
    ends = b"\x1b[<35;60;4M"
    check("where motion ends is told", comes(lambda: program.noted().endswith(ends)), program.noted()[-60:])
    seconds = time.monotonic() - begun
    count = program.noted().count(b"M")
    check(f"of 200 motions in {seconds:.1f} s it is told of {count}, one each 20 ms at most", count <= seconds / 0.02 + 2, count)
    before = len(program.noted())
    notches = [report(64 + turn % 2, 1 + turn % 20, 5) for turn in range(100)]
    for notch in notches:
        outer.type(notch)
        time.sleep(0.001)
    check("and of each of 100 notches", comes(lambda: program.noted()[before:] == b"".join(notches)), program.noted()[before:][-60:])
    program.quit()


@scene
def mouse_leaves(folder):
    """If a front end leaves, is stopped or is ended, the terminal reports nothing any more."""
    first = Outer(tool("mux", SESSION))
    first.shows("$ ")
    Noting(folder, first, "1003,1006")
    for name, leaves in (("detaching", lambda one: one.type(b"\x02d")), ("SIGTERM", lambda one: one.process.terminate()),
                         ("SIGHUP", lambda one: os.kill(one.process.pid, 1))):
        outer = Outer(tool("mux", "attach", SESSION))
        check(f"{name}: the terminal is asked", asks(outer, ASKED["motion"], 0), bytes(outer.written[-200:]))
        leaves(outer)
        is_off = outer.ends() and bytes(outer.written).rfind(OFF) > bytes(outer.written).rfind(b"?1003h")
        check(f"{name}: and for nothing in the end", is_off and outer.is_restored(), bytes(outer.written[-200:]))
    begin = len(first.written)
    first.type(b"\x02\x1a")
    is_off = asks(first, OFF + given_back(0) + tty.LEFT, begin) and asks(first, tty.ENTERED + ASKED["motion"], begin)
    check("C-b C-z: nothing is asked while it is stopped, and again then", is_off, bytes(first.written[begin:]))
    watcher = Outer(tool("mux", "watch", SESSION))
    watcher.shows("at noted")
    time.sleep(0.3)
    check("one that watches isn't asked", b"?1003h" not in watcher.written, bytes(watcher.written[-200:]))
    begin = len(first.written)
    first.type(b"q")
    check("the program's end asks for nothing", asks(first, OFF, begin), bytes(first.written[begin:]))


def click(outer, row, col):
    """Click at a position."""
    points(outer, (0, row, col), (0, row, col, True))


@scene
def mouse_of_roam(folder):
    """With C-b m a click focuses a pane, the wheel scrolls a shell's and sends arrows on the alternate screen, and a border is dragged."""
    outer = three_panes(environment=KEEPS_NONE)
    outer.type(b"\x02m")
    check("C-b m tells that roam has the mouse", outer.status("roam has the mouse: click, wheel, drag; C-b m gives it back"), outer.rows)
    check("and has the terminal asked", asks(outer, ASKED["drags"], 0), bytes(outer.written[-200:]))
    for place, label in (((3, 60), " 1 [2] 3 "), ((20, 60), " 1  2 [3]"), ((20, 10), "[1] 2  3 ")):
        click(outer, *place)
        check(f"a click at {place} focuses the pane there", outer.status(label), outer.rows)
    outer.type(b"clear; seq 200\r")
    outer.shows("199")
    points(outer, *[(64, 5, 5)] * 10)
    check("the wheel shows what scrolled off", outer.shows("160 ") and outer.status("30 rows back"), outer.rows)
    points(outer, *[(65, 5, 5)] * 10)
    check("and comes back to the newest", outer.shows("200 ") and outer.status("[1] 2  3 "), outer.rows)
    turned_in_less(outer)
    dragged(outer)
    outer.type(b"\x02m")
    check("C-b m again gives the mouse back", outer.status("the mouse selects text, except in programs that use it"), outer.rows)
    is_off = comes(lambda: bytes(outer.written).rfind(OFF) > bytes(outer.written).rfind(b"?1002h"))
    check("and the terminal isn't asked", is_off, bytes(outer.written[-200:]))


def turned_in_less(outer):
    """Turn the wheel over a program on the alternate screen."""
    if is_missing("the wheel on the alternate screen", "less"):
        return
    modes = Modes(terminals_of(SESSION).parent)
    outer.type(b"clear; seq 300 | less\r")
    # The front end hears of the alternate screen as this connection does, and before the keypad, which less sets later.
    comes(lambda: OTHER in modes.of(1))
    comes(lambda: outer.display_keypad() == b"\x1b=", 3)
    time.sleep(0.3)
    points(outer, *[(65, 5, 5)] * 3)
    check("on the other screen it is three arrows", comes(lambda: outer.rows()[0].startswith("10 ")), outer.rows)
    click(outer, 3, 60)
    outer.status(" 1 [2] 3 ")
    points(outer, (64, 5, 5))
    is_back = comes(lambda: outer.rows()[0].startswith("7 ")) and outer.status("[1] 2  3 ")
    check("also over another pane, which it focuses", is_back, outer.rows)
    outer.type(b"q")


def dragged(outer):
    """Drag the border between the first pane and the others, and the one between these; the focus stays."""
    points(outer, (0, 5, 40), (32, 5, 45), (32, 6, 50), (32, 7, 60), (0, 7, 60, True))
    check("a border is dragged to the right", outer.stands(5, 59, "\u2502") and not outer.stands(5, 39, "\u2502", 0), outer.rows)
    points(outer, (0, 12, 70), (32, 8, 70), (0, 8, 70, True))
    check("and one up", outer.stands(7, 60, "\u2500" * 20), outer.rows)
    check("the focus is where it was", outer.status("[1] 2  3 "), outer.rows)
    check("and programs are told", outer.has_size(23, 59), outer.rows)
    points(outer, (0, 5, 60), (32, 5, 80), (0, 5, 80, True))
    check("it goes as far as there is room", outer.stands(5, 75, "\u2502"), outer.rows)
    points(outer, (0, 5, 76), (32, 5, 40), (0, 5, 40, True))
    check("and back", outer.stands(5, 39, "\u2502"), outer.rows)


@scene
def mouse_chosen(folder):
    """With ROAM_MOUSE=on roam uses the mouse from the start; another program still gets it."""
    outer = Outer(tool("mux", SESSION), environment={"ROAM_MOUSE": "on"})
    outer.shows("$ ")
    check("the terminal is asked", asks(outer, ASKED["drags"], 0), bytes(outer.written[-200:]))
    outer.type(b"\x02%")
    outer.status(" 1 [2]")
    program = Noting(folder, outer, "1000,1006")
    click(outer, 5, 5)
    check("a click focuses another pane", outer.status("[1] 2 "), outer.rows)
    click(outer, 5, 45)
    points(outer, (64, 6, 46))
    is_focused = outer.status(" 1 [2]")
    check("one on a program is the program's", is_focused and program.gets(b"\x1b[<0;5;5M\x1b[<0;5;5m\x1b[<64;6;6M"), program.noted)
    click(outer, 5, 5)
    outer.status("[1] 2 ")
    points(outer, (65, 7, 47))
    has_wheel = outer.status(" 1 [2]") and comes(lambda: program.noted().endswith(b"\x1b[<65;7;7M"))
    check("the wheel focuses the program under it", has_wheel, program.noted)
    program.quit()


@scene
def mouse_far(folder):
    """Over a link to another machine: reports come to the right one of two panes there."""
    outer = Outer(ssh_words(folder, folder / "far", folder / "asked"))
    outer.shows("$ ")
    outer.type(b"\x02%")
    outer.status(" 1 [2]")
    # Another transport may take over now, and subscribers of panes reconnect.
    time.sleep(3)
    begin = len(outer.written)
    program = Noting(folder, outer, "1002,1006")
    check("the terminal is asked for what a program there asks for", asks(outer, ASKED["drags"], begin), bytes(outer.written[begin:]))
    check("which is sent its reports", program.gets_each(POINTED, COMES["1002,1006"]), program.noted)
    program.quit()
    for word in ("title", "shape"):
        begin = len(outer.written)
        outer.type({"title": b"printf '\\033]0;far\\007'\r", "shape": b"printf '\\033[5 q'\r"}[word])
        wanted = {"title": b"\x1b]2;far\x07", "shape": b"\x1b[5 q"}[word]
        check(f"and its {word} is the terminal's", asks(outer, wanted, begin), bytes(outer.written[begin:]))
    outer.type(b"exit\r")
    outer.status("[1]")
    outer.type(b"exit\r")
    check("the session's end is told", outer.shows("[the session has ended]") and outer.ends(), outer.rows)
