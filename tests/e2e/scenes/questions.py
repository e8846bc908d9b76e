"""Terminal queries of programs with their answers, and buffered synchronized updates."""
import socket
import time

from tried import SESSION, Outer, check, comes, connected, is_missing, outside_gate, scene, terminals_of, tool
from roam_live.cli.capture import asked_screen
from roam_live.common.build_info import version
from roam_live.common.errors import Fault
from roam_live.protocol.colours import ASKED
from roam_live.protocol.display_records import screen_of
from roam_live.protocol.queries import QUERIES, NAMED

# A program that writes the given bytes to its terminal, and records its input until the answer to DA1, or for a minute.
ASKER = """\
import os, select, sys, termios, time, tty
before, noted, until = termios.tcgetattr(0), b"", time.monotonic() + 60
tty.setraw(0)
os.write(1, sys.argv[1].encode().decode("unicode_escape").encode() + b"\\033[c")
while not noted.endswith(b"c") and select.select([0], [], [], max(0, until - time.monotonic()))[0]:
    noted += os.read(0, 4096)
open(sys.argv[2], "wb").write(noted)
termios.tcsetattr(0, termios.TCSAFLUSH, before)
"""

# A program that fills a screen with one letter after another, each time as one synchronized update of 1,600 bytes.
FILLER = """\
import os, time
for turn in range(120):
    rows = "".join(f"\\033[{row};1H{'xyz'[turn % 3] * 70}" for row in range(1, 21))
    os.write(1, f"\\033[?2026h{rows}\\033[?2026l".encode())
    time.sleep(0.03)
os.write(1, b"\\033[22;1Hdo" b"ne\\r\\n")
"""

# The start of a pane's answer to DA1.
DEVICE = b"\x1b[?6"


def has_word(folder, word):
    """Return True if the server of a session's folder knows a subscription to its panes."""
    with socket.socket(socket.AF_UNIX) as peer:
        peer.connect(str(folder / "panes"))
        peer.sendall(f"{word}\n".encode())
        time.sleep(0.3)
        return b"bad line" not in peer.recv(65536)


def is_known(folder):
    """Return True if the host of a session knows of a terminal at the window of a folder: until then it gets no colour of it."""
    try:
        with socket.socket(socket.AF_UNIX) as peer:
            peer.connect(str(folder.parents[1] / "host"))
            peer.sendall(f"{folder.name} who\n".encode())
            time.sleep(0.2)
            return b"there " in peer.recv(65536)
    except OSError:
        return False


def answers(folder, outer, text):
    """Return the input of a program in a pane after a query, before and with the answer to DA1."""
    script, noted = folder / "asker", folder / "noted"
    script.write_text(ASKER, encoding="utf-8")
    noted.unlink(missing_ok=True)
    outer.type(f"python3 {script} '{text}' {noted}\r".encode())
    comes(lambda: noted.exists() and noted.stat().st_size > 0)
    return noted.read_bytes() if noted.exists() else b""


@scene
def questions(folder):
    """A program's query is answered before the screen's own answer to later output; a colour is the user's terminal's, from its answer
    among the input.
    """
    outer = Outer(tool("mux", SESSION))
    outer.begins()
    if not has_word(terminals_of(SESSION).parent, QUERIES):
        print("skipped questions: this server tells none", flush=True)
        return
    check("the terminal is asked for its colours", comes(lambda: ASKED in outer.written), bytes(outer.written[:300]))
    found = answers(folder, outer, r"\033]11;?\007\033[?2026$p\033[?2004$p\033[>q")
    wanted = b"\x1b[?2026;2$y\x1b[?2004;2$y" + NAMED % version().encode() + DEVICE
    check("what is known is answered before the answer to DA1, in its order", found.startswith(wanted), found)
    found = answers(folder, outer, r"\033[18t\033[?1004h\033[?1004$p\033[?1004l\033[?25$p\033[4$p\033[?9999$p")
    wanted = b"\x1b[8;23;80t\x1b[?1004;1$y\x1b[?25;1$y\x1b[4;2$y\x1b[?9999;0$y" + DEVICE
    check("so are the pane's size and the states of modes", found.startswith(wanted), found)
    check("the host knows of the terminal", comes(lambda: is_known(terminals_of(SESSION).parent)))
    outer.type(b"\x1b]11;rgb:11")
    outer.type(b"11/1111/1111\x1b")
    outer.type(b"\\\x1b]10;rgb:f/f/f\x07")
    outer.type(b"echo as''ked\r")
    check("what the terminal answers isn't typed", outer.shows("asked") and not any("rgb" in row for row in outer.rows()), outer.rows)
    found = answers(folder, outer, r"\033]11;?\033\\\\\033]10;?\007")
    wanted = b"\x1b]11;rgb:1111/1111/1111\x1b\\\x1b]10;rgb:ffff/ffff/ffff\x07" + DEVICE
    check("and a colour is answered then, ended as the question was", found.startswith(wanted), found)
    if is_missing("the colours that vim finds", "vim"):
        return
    outer.type(b"vim -u NONE -N --cmd 'let &t_RB=\"\\<Esc>]11;?\\<C-g>\"'\r")
    outer.shows("~")
    time.sleep(0.5)
    # The answer may come to vim later than this.
    is_dark = comes(lambda: outer.type(b":set background?\r") or outer.shows("background=dark", 5))
    check("so that vim knows a dark terminal", is_dark, outer.rows)
    outer.type(b":q!\r")
    outer.shows("$ ")


@scene
def frames(folder):
    """A synchronized update appears whole, and half of one after a moment; nothing of either is lost."""
    outer = Outer(tool("mux", SESSION))
    outer.shows("$ ")
    script = folder / "frames"
    awaited = [f"until [ -e {folder}/{name} ]; do sleep 0.05; done" for name in ("rest", "end")]
    script.write_text(f"printf '\\033[?2026hha''lf'; {awaited[0]}; printf ' who''le\\033[?2026l'; {awaited[1]}; echo; echo do''ne\n",
                      encoding="utf-8")
    outer.type(f"sh {script}\r".encode())
    check("half a frame is shown where the rest doesn't come soon", outer.shows("half"), outer.rows)
    (folder / "rest").touch()
    check("and the rest", outer.shows("half whole"), outer.rows)
    (folder / "end").touch()
    check("and what comes behind it", outer.shows("done"), outer.rows)
    many = folder / "many"
    many.write_text("i=0; while [ $i -lt 200 ]; do printf '\\033[?2026h\\033[H%s\\033[K\\033[?2026l' $i; i=$((i+1)); done; echo; "
                    "echo al''l\n", encoding="utf-8")
    outer.type(f"clear; sh {many}\r".encode())
    check("of many frames the last stays", outer.shows("199") and outer.shows("all"), outer.rows)


def letters_shown():
    """Return the letters that fill rows of the session's screen now; none while the client process is too busy to answer."""
    try:
        rows = screen_of(asked_screen(connected(SESSION), "look")).text()
    except Fault:
        return set()
    return {row[0] for row in rows if row[:70] in ("x" * 70, "y" * 70, "z" * 70)}


@scene
@outside_gate("half an update is shown if the rest is late, as on a busy machine")
def large_frames(folder):
    """A synchronized update that the server takes in several turns is shown whole or not at all."""
    outer = Outer(tool("mux", SESSION))
    outer.shows("$ ")
    script = folder / "filler"
    script.write_text(FILLER, encoding="utf-8")
    outer.type(f"clear; python3 {script}\r".encode())
    seen = []
    comes(lambda: seen.append(letters_shown()) or any("done" in row for row in outer.rows()), 60)
    shown = [letters for letters in seen if letters]
    check("frames are seen", len(shown) > 5, seen)
    check("each whole", all(len(letters) == 1 for letters in shown), shown)
