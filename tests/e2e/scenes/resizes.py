"""Lines that survive a resize: after a split, a narrower terminal, vim in between, a zoom of nine panes, and while a program writes."""
import os
import signal
import subprocess
import time

from scenes.zoom import there
from tried import SESSION, WAIT, Outer, check, children, comes, is_missing, is_scrollback_process, noted, outside_gate, said, scene, tool

# Lines that are wider than a pane after a split, each with a number at both ends.
LINES = [f"<{number:02d} " + "abcdefghi " * 7 + f"{number:02d}>" for number in range(1, 9)]

# A shell that prints them and shows its prompt.
PRINTS = b"PS1='$ '; clear; i=0; while [ $i -lt 8 ]; do i=$((i+1)); printf '<%02d ' $i; " \
         b"for j in 1 2 3 4 5 6 7; do printf 'abcdefghi '; done; printf '%02d>\\n' $i; done\r"


def begun():
    """Return a terminal with a new session of one pane, in which the lines are shown."""
    outer = Outer(tool("mux", "new", SESSION), (24, 90))
    outer.settled(0)
    outer.type(PRINTS)
    check("the lines are shown", comes(lambda: are_whole(outer)), outer.rows())
    return outer


def are_whole(outer):
    """Return True if each line has a row of its own."""
    rows = [row.rstrip() for row in outer.rows()]
    return all(line.rstrip() in rows for line in LINES)


def have_once(*words):
    """Return True if each line is in the output of `mux` once. The pty host stores rows a moment later."""
    text = said(*words)[1]
    return [text.count(line[:8]) for line in LINES] == [1] * len(LINES)


def write(outer, word, lines, pause, sizes):
    """Have the shell write numbered lines, a pause after each on average, while the terminal gets so many sizes."""
    outer.type(f"i=0; while [ $i -lt {lines} ]; do i=$((i+1)); echo \"{word} $i of a line that is long enough to wrap in a narrow pane\"; "
               f"[ $((i % 20)) = 0 ] && sleep {20 * pause}; done; echo written\r".encode())
    for place in range(sizes):
        outer.resize(24, (80, 50, 64, 40)[place % 4])
        time.sleep(0.25)
    outer.resize(24, 80)
    check("all is written", comes(lambda: any(row.startswith("written") for row in outer.rows()), 60), outer.rows())


def not_once(text, word, lines):
    """Return the numbers of the lines that are not in a text exactly once, each with its count."""
    joined = text.replace("\n", " ")
    counts = [joined.count(f"{word} {number} of a line") for number in range(1, lines + 1)]
    return [(number, count) for number, count in enumerate(counts, 1) if count != 1]


@scene
def resize_split(folder):
    """Rows that are wider than half the terminal are whole again once a split is closed."""
    outer = begun()
    outer.type(b"\x02%")
    check("a split wraps them", outer.shows(LINES[7][:40]) and comes(lambda: not are_whole(outer)), outer.rows())
    outer.type(b"exit\r")
    check("they are whole after the split is closed", comes(lambda: are_whole(outer)), outer.rows())
    outer.type(b"\x02\"")
    time.sleep(0.5)
    outer.type(b"exit\r")
    check("and after one in the other direction", comes(lambda: are_whole(outer)), outer.rows())
    check("mux capture has each once", comes(lambda: have_once("capture", SESSION)), lambda: said("capture", SESSION))


@scene
def resize_narrow(folder):
    """Rows are whole again after the terminal was narrower for a moment, and after many sizes."""
    outer = begun()
    outer.resize(24, 40)
    check("a narrower terminal wraps them", comes(lambda: not are_whole(outer)), outer.rows())
    outer.resize(24, 90)
    check("they are whole at the width before", comes(lambda: are_whole(outer)), outer.rows())
    for cols in (33, 61, 47, 80, 25, 90):
        outer.resize(24, cols)
        time.sleep(0.3)
    check("they are whole after six sizes", comes(lambda: are_whole(outer)), outer.rows())
    outer.resize(6, 50)
    time.sleep(1)
    outer.resize(24, 90)
    check("they come back from the scrollback", comes(lambda: are_whole(outer)), outer.rows())
    is_once = comes(lambda: have_once("capture", "-S", "-", SESSION))
    check("none is stored twice", is_once, lambda: said("capture", "-S", "-", SESSION))


@scene
def resize_vim(folder):
    """Rows are whole after vim was open while the terminal had other sizes."""
    if is_missing("vim between sizes", "vim"):
        return
    outer = begun()
    outer.type(b"vim -u NONE -i NONE\r")
    check("vim is shown", outer.shows("~"), outer.rows())
    for cols in (40, 70, 52):
        outer.resize(20, cols)
        time.sleep(0.5)
    outer.resize(24, 90)
    time.sleep(0.5)
    outer.type(b"ithe text in vim\x1b")
    check("vim has the new size", outer.shows("the text in vim"), outer.rows())
    outer.type(b":q!\r")
    check("the lines are whole after vim", comes(lambda: are_whole(outer)), outer.rows())
    outer.type(b"echo after\r")
    check("and the shell goes on", outer.shows("after"), outer.rows())


@scene
def resize_writes(folder):
    """Numbered lines of a program that writes all the time are stored once each, while sizes change."""
    outer = Outer(tool("mux", "new", SESSION), (24, 80))
    outer.settled(0)
    write(outer, "number", 3000, 0.0025, 24)
    wrong = []
    is_once = comes(lambda: wrong.append(not_once(said("capture", "-S", "-", "-J", SESSION)[1], "number", 3000)) or not wrong[-1])
    check("each line is stored once", is_once, wrong[-1][:20])


@scene
def resize_within(folder):
    """Rows are whole after sizes within a character, a control sequence, a title and a synchronized update."""
    outer = begun()
    for name, first, rest in (("a character", "\\344\\270", "\\255"), ("a control sequence", "\\033[3", "1mred\\033[0m"),
                              ("a title", "\\033]2;ti", "tle\\007"), ("an update", "\\033[?2026hone", "two\\033[?2026l")):
        outer.type(f"printf '{first}'; sleep 1; printf '{rest}\\n'\r".encode())
        time.sleep(0.3)
        outer.resize(24, 50)
        time.sleep(0.2)
        outer.resize(24, 90)
        time.sleep(1)
        outer.type(PRINTS)
        check(f"a size within {name}: the lines are shown", comes(lambda: are_whole(outer)), outer.rows())
    outer.resize(24, 41)
    outer.resize(24, 90)
    check("two sizes at once leave them whole", comes(lambda: are_whole(outer)), outer.rows())


@scene
def resize_without(folder):
    """A scrollback process that is stopped or killed delays no size, and later lines are whole again."""
    outer = begun()
    host = noted(SESSION)["host"][0]
    comes(lambda: any(map(is_scrollback_process, children(host))))
    process = next(filter(is_scrollback_process, children(host)))
    os.kill(process, signal.SIGSTOP)
    outer.resize(24, 50)
    time.sleep(1)
    # Few tries, since the lines have to stay on the screen.
    is_sized = comes(lambda: outer.type(b"stty size\r") or outer.shows("23 50", 8), 30)
    check("a stopped one delays no size", is_sized, outer.rows())
    os.kill(process, signal.SIGCONT)
    outer.resize(24, 90)
    check("the lines are whole once it continues", comes(lambda: are_whole(outer)), outer.rows())
    os.kill(process, signal.SIGKILL)
    outer.resize(24, 60)
    time.sleep(1)
    check("nor does a killed one", outer.has_size(23, 60), outer.rows())
    outer.resize(24, 90)
    time.sleep(1)
    outer.type(b"\x02c")
    comes(lambda: "2:sh*" in outer.rows()[-1])
    outer.settled(0)
    outer.type(PRINTS)
    check("a new pane has whole lines", comes(lambda: are_whole(outer)), outer.rows())
    outer.type(b"\x02%")
    time.sleep(1)
    outer.type(b"exit\r")
    check("also after a split", comes(lambda: are_whole(outer)), outer.rows())


@scene
def resize_log(folder):
    """`mux log` prints each line once across fifty sizes."""
    outer = Outer(tool("mux", "new", SESSION), (24, 80))
    outer.settled(0)
    with open(folder / "log", "wb") as log:
        process = subprocess.Popen(tool("mux", "log", "-J", SESSION), stdout=log)

        def is_logging():
            outer.type(b"seq 60\r")
            time.sleep(0.5)
            return os.path.getsize(folder / "log") > 0
        check("the log has begun", comes(is_logging))
        write(outer, "logged", 900, 0.01, 50)
        outer.type(b"exit\r")
        process.wait(WAIT)
    wrong = not_once((folder / "log").read_text(encoding="utf-8"), "logged", 900)
    check("each line is logged once", not wrong, wrong[:20])


@scene
def resize_prompt(folder):
    """A right-hand prompt wraps with its line, and is there once at the width before."""
    outer = begun()
    outer.type(b"PS1='$(printf \"\\r\\033[80Cright\\r\")$ '; clear; echo begun\r")
    # The typed line has this word too, until the screen is cleared.
    check("the prompt is shown", comes(lambda: outer.rows()[0].startswith("begun") and "right" in outer.rows()[1]), outer.rows())
    outer.resize(24, 60)
    time.sleep(0.5)
    outer.resize(24, 90)
    check("it is there once at the width before", comes(lambda: sum("right" in row for row in outer.rows()) == 1), outer.rows())
    outer.type(b"echo typed\r")
    check("and the shell goes on", outer.shows("typed"), outer.rows())


@scene
@outside_gate("a line of 100 MB takes minutes")
def resize_endless(folder):
    """A line of 100 MB passes through sizes, and the session goes on."""
    outer = Outer(tool("mux", "new", SESSION), (24, 80))
    outer.settled(0)
    outer.type(b"head -c 100000000 /dev/zero | tr '\\0' a; echo; echo over\r")
    for place in range(20):
        outer.resize(24, (80, 50, 64, 40)[place % 4])
        time.sleep(0.2)
    outer.resize(24, 80)
    check("the line ends", comes(lambda: any(row.startswith("over") for row in outer.rows()), 120), outer.rows())
    check("a line of letters is above", comes(lambda: outer.rows()[0].startswith("a" * 60)), outer.rows())


@scene
@outside_gate("a hundred zooms of nine panes take a minute")
def resize_zooms(folder):
    """Nine full panes have all their characters after a hundred zooms."""
    outer = Outer(tool("mux", "new", SESSION), (40, 120))
    outer.settled(0)
    for key in (b"\x02%", b"\x02%", b"\x02\"", b"\x02\"", b"\x02\x1b[D\x02\"", b"\x02\"", b"\x02\x1b[D\x02\"", b"\x02\""):
        outer.type(key)
        time.sleep(0.3)
    outer.type(b"\x02 ")
    time.sleep(0.5)
    panes = sorted(there(SESSION).rects)
    check("nine panes are there", len(panes) == 9, panes)
    for pane in panes:
        said("send", "-l", f"{SESSION}.{pane}", f"PS1='$ '; clear; for n in 1 2 3 4; do echo p{pane}-$n-abcdefghijklmnopqrstuvwxyz; done")
        said("send", f"{SESSION}.{pane}", "Enter")
    time.sleep(1)

    def texts():
        return [said("capture", "-J", f"{SESSION}.{pane}")[1] for pane in panes]
    before = texts()
    begin = time.monotonic()
    for _ in range(100):
        outer.type(b"\x02z")
        time.sleep(0.05)
    time.sleep(1)
    check("every pane has its text", comes(lambda: texts() == before), list(zip(before, texts())))
    check("in time", time.monotonic() - begin < 60, time.monotonic() - begin)


@scene
def resize_fits(folder):
    """C-b r at a smaller terminal wraps the lines, and C-b r at the larger one makes them whole."""
    outer = begun()
    small = Outer(tool("mux", SESSION), (24, 50))
    check("the smaller one shows a part", comes(lambda: small.rows()[-1].rstrip().endswith("C-b r fits")), small.rows())
    small.type(b"\x02r")
    time.sleep(0.5)
    if any("y/n" in row for row in small.rows()):
        small.type(b"y")
    check("C-b r wraps the lines", comes(lambda: not are_whole(outer) and any("08>" in row for row in small.rows())), small.rows())
    outer.type(b"\x02r")
    time.sleep(0.5)
    if any("y/n" in row for row in outer.rows()):
        outer.type(b"y")
    check("C-b r at the larger one makes them whole", comes(lambda: are_whole(outer)), outer.rows())
