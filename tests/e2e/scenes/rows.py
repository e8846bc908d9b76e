"""Rows scrolled off the screens of panes, which the pty host stores by the scrollback process; copies, and logs."""
import itertools
import os
import pathlib
import signal
import subprocess
import time

from tried import SESSION, Outer, check, children, comes, is_scrollback_process, noted, outside_gate, said, scene, tool, window_of
from roam_live.cli.scrollback import RowsAsked
from roam_live.cli.targets import making_of
from roam_live.common.errors import Fault
from roam_live.common.process import TOOLS
from roam_live.session.local import Window
from roam_live.session.lookup import window_in

KEPT = 10_000

# Seconds for a search over all of them.
SEARCHED = 0.05

# The most bytes that the host may grow by its stored rows.
GROWTH = 64 << 20

GIGABYTE = 1 << 30


def host(name=SESSION):
    """Return a session's pty host."""
    return noted(name)["host"][0]


def scrollback_processes(name=SESSION):
    """Return the scrollback processes of a session."""
    return [process for process in children(host(name)) if is_scrollback_process(process)]


def grown(process):
    """Return the private bytes of a process."""
    lines = pathlib.Path(f"/proc/{process}/status").read_text(encoding="utf-8").splitlines()
    return next(int(line.split()[1]) << 10 for line in lines if line.startswith("RssAnon:"))


def count_of(name=SESSION, pane=1, base=None):
    """Return the numbers of the first stored row and of the end; zeros while the pty host is too busy to answer."""
    try:
        asked = RowsAsked(window_in(window_of(name, base=base)))
        number, generation = making_of(asked.session, pane)
        return asked.answer(lambda told: asked.link.count(number, generation, told)) or (0, 0)
    except Fault:
        return 0, 0


def kept(name=SESSION, pane=1):
    """Return all scrollback rows of a pane, without their prefix; none while the scrollback process is too busy for a snapshot."""
    try:
        asked = RowsAsked(window_in(window_of(name)))
        snapshot, found = asked.snapshot(pane), []
        while snapshot.first + len(found) < snapshot.end:
            rows = asked.rows(snapshot, snapshot.first + len(found), snapshot.end)
            if not rows:
                break
            found += rows
    except Fault:
        return []
    return [row[1:].decode() for row in found]


def has_above(outer):
    """Return True if the row above a terminal's first one is stored in time. Both are numbers of a count, and a prompt ends the screen.

    The pty host stores rows later than the terminal shows them.
    """

    def is_stored():
        first = outer.rows()[0].strip()
        return first.isdigit() and kept()[-1:] == [str(int(first) - 1)]

    return outer.stands(outer.size[0] - 2, 0, "$") and comes(is_stored)


def begun():
    """Return a terminal on a session, with a shell."""
    outer = Outer(tool("mux", SESSION))
    check("a session keeps rows by one scrollback process", outer.begins() and comes(lambda: len(scrollback_processes()) == 1),
          outer.rows)
    return outer


def run(outer, line, text, seconds=60):
    """Let a shell run a line that ends with a text."""
    outer.type(f"{line}; echo {text[:2]}''{text[2:]}\r".encode())
    return outer.shows(text, seconds)


def run_long(outer, line, text, seconds=60):
    """Do the same, however long it takes, while rows come: a busy machine is slow."""
    before, is_shown = -1, run(outer, line, text, seconds)
    while not is_shown and count_of()[1] != before:
        before = count_of()[1]
        is_shown = outer.shows(text, seconds)
    return is_shown


def counts_to(outer, last):
    """Let a shell count, and return the kept rows and their numbers."""
    check(f"seq 1 {last} runs", run_long(outer, f"clear; seq 1 {last}", "counted"), outer.rows)
    is_kept = comes(lambda: count_of()[1] - count_of()[0] == KEPT and count_of()[1] > last - 100)
    check("10,000 rows are kept, up to the screen", is_kept and has_above(outer), lambda: (count_of(), kept()[-9:], outer.rows()))
    rows = kept()
    numbers = [int(row) for row in rows if row.isdigit()]
    check("whole and in order", len(numbers) >= KEPT - 2 and numbers == list(range(numbers[0], numbers[0] + len(numbers))), numbers[:9])
    return rows, numbers


@scene
@outside_gate("it measures a search")
def search_speed(folder):
    """A search over 10,000 rows takes at most 50 ms."""
    _, numbers = counts_to(begun(), 200_000)
    best = sought("199000", numbers)
    check(f"a search over them answers in {best * 1000:.1f} ms, of 50", best < SEARCHED, best)
    best = sought("not there", numbers)
    check(f"one that finds nothing in {best * 1000:.1f} ms", best < SEARCHED, best)


@scene
def kept_rows(folder):
    """The last 10,000 rows, whole and in order; a search in them; capture with its options, and CSI 3 J."""
    outer = begun()
    rows, numbers = counts_to(outer, 20_000)
    sought("19000", numbers)
    sought("not there", numbers)
    status, told, why = said("capture", "-S", "-5", "-E", "-1", f"{SESSION}.1")
    check("capture prints the last of them", (status, told) == (0, "".join(f"{row}\n" for row in rows[-5:])), (told, why))
    status, told, why = said("capture", "-S", "-", SESSION)
    whole, shown = told.splitlines(), [row.rstrip() for row in outer.rows()[:-1]]
    is_all = status == 0 and [row.rstrip() for row in whole] == rows + shown[: len(whole) - KEPT]
    check("capture -S - prints all and the screen", is_all, (status, why, whole[-30:]))
    check("capture -S 0 -E 1 prints rows of the screen", said("capture", "-S", "0", "-E", "1", SESSION)[1].splitlines() == shown[:2])
    check_forms(outer)
    run(outer, "printf '\\033[3J'", "emptied")
    # The output of the line itself may follow.
    check("CSI 3 J empties it", comes(lambda: count_of()[1] - count_of()[0] < 5), count_of())
    check("and what comes is kept", run(outer, "seq 1 40", "again") and comes(lambda: "7" in kept()), kept)


def sought(text, numbers):
    """Return the seconds of a backward search over all rows, the best of five."""
    asked = RowsAsked(window_in(window_of(SESSION)))
    snapshot, best = asked.snapshot(1), 60.0
    for _ in range(5):
        begin = time.monotonic()
        found = asked.answer(lambda told: asked.link.find(1, snapshot.generation, snapshot.end + 99, True, text, told))
        best = min(best, time.monotonic() - begin)
    wanted = snapshot.end - len(numbers) + numbers.index(int(text)) if text.isdigit() else None
    check(f"{text!r} is found where it is", found == wanted or wanted is not None and abs(found - wanted) <= 2, (found, wanted))
    return best


def check_forms(outer):
    """Check rows with their styles, and joined."""
    run(outer, "clear; printf '\\033[1;31mred\\033[0m\\n%0100d\\n' 7; seq 1 30", "styled")
    has_above(outer)
    styled = said("capture", "-e", "-S", "-40", "-E", "-1", SESSION)[1]
    check("capture -e has styles", "\x1b[" in styled and "red\x1b[0m\n" in styled, styled)
    plain = said("capture", "-S", "-40", "-E", "-1", SESSION)[1]
    check("without it none", "\x1b" not in plain and "red\n" in plain, plain)
    check("a row that went on is two", f"{'0' * 80}\n{'0' * 19}7\n" in plain, plain)
    joined = said("capture", "-J", "-S", "-40", "-E", "-1", SESSION)[1]
    check("and one with -J", f"{'0' * 99}7\n" in joined, joined)


@scene
def process_lost(folder):
    """The scrollback process is killed, stopped and continued: shells continue, and the loss is reported and marked among the rows."""
    outer = begun()
    run(outer, "clear; seq 1 100", "before")
    check("rows are kept", comes(lambda: "50" in kept()), kept)
    written = len(outer.written)
    os.kill(scrollback_processes()[0], signal.SIGKILL)
    is_told = outer.was_told("scrollback rows were lost: the scrollback process ended", begin=written)
    check("the user is told that the scrollback process was killed", is_told, outer.rows)
    check("another runs", comes(lambda: len(scrollback_processes()) == 1), scrollback_processes)
    run(outer, "seq 201 300", "behind")
    check("what came before is kept, then a row tells of the loss, then what comes",
          comes(lambda: in_order(kept(), "50", "[rows were lost here]", "250")), lambda: kept()[-120:])
    process = scrollback_processes()[0]
    os.kill(process, signal.SIGSTOP)
    begin, written = time.monotonic(), len(outer.written)
    check("a stopped one doesn't stop a shell", run(outer, "seq 1 300000", "passed", 120), outer.rows)
    print(f"        seq 1 300000 beside a stopped scrollback process took {time.monotonic() - begin:.1f} s", flush=True)
    is_told = outer.was_told("scrollback rows were lost: the scrollback process is too slow", begin=written)
    check("which is told", is_told, outer.rows)
    check("keys are echoed meanwhile", run(outer, "clear", "echoed"), outer.rows)
    status, rows, why = said("capture", "-S", "-", SESSION)
    is_there = in_order(rows.splitlines(), "50", "[rows were lost here]", "250", "[the screen is missing here: the scrollback process is stopped]")
    check("the rows from before are captured, with the reason that the screen is missing", status == 0 and is_there, lambda: (rows[-200:], why))
    os.kill(process, signal.SIGCONT)
    # Output before it has caught up is lost too. Each try waits for a word of its own, so that tries don't pile up.
    tries = itertools.count()
    again = lambda: run(outer, "seq 401 500", f"continued-{next(tries)}") and in_order(kept(), "[rows were lost here]", "450")
    check("rows are kept again once it is continued", comes(again), lambda: kept()[-120:])
    check("by the same scrollback process", scrollback_processes() == [process], scrollback_processes())


def in_order(rows, *texts):
    """Return True if these rows occur in this order."""
    place = 0
    for text in texts:
        if text not in rows[place:]:
            return False
        place = rows.index(text, place) + 1
    return True


@scene
@outside_gate("a gigabyte takes two minutes")
def process_fed(folder):
    """A gigabyte through a pane: the host grows within its limit, and the last rows are stored."""
    outer = begun()
    before = grown(host())
    begin = time.monotonic()
    line = "y" * 60
    check("a gigabyte is written", run_long(outer, f"clear; yes {line} | head -c {GIGABYTE}; echo; seq 1 100", "written"), outer.rows)
    print(f"        in {time.monotonic() - begin:.0f} s", flush=True)
    check("the last rows are kept", comes(lambda: in_order(kept()[-200:], line, "50")), lambda: kept()[-9:])
    first, end = count_of()
    check("10,000 of them, and all were counted", end - first == KEPT and end > GIGABYTE // 61, (first, end))
    wide = "python3 -c 'for n in range(40000): print(*(f\"\\33[38;5;{(n + c) % 256}mx\" for c in range(78)), sep=str())'"
    run(outer, f"clear; {wide}; printf '\\033[0m'; seq 1 100", "coloured", 120)
    check("and rows of many styles", comes(lambda: "50" in kept()[-99:]), lambda: kept()[-3:])
    size = grown(host()) - before
    check(f"the host grew by {size >> 20} MB, of 64", size < GROWTH, size)


@scene
def nine_kept(folder):
    """Four sessions of nine panes, each with its rows."""
    names = (SESSION, "other", "third", "fourth")
    for name in names:
        subprocess.run([*tool("mux", "new", "-d", name), "sh"], check=True)
        acts = ["size 60 200", *(f"split {way}" for way in ("right", "down", "right", "down")), "focus 1", "split down", "split right",
                "focus 2", "split right", "focus 1", "split right"]
        subprocess.run(tool("mux", "send", "-a", name, *acts), check=True)
        for pane in range(1, 10):
            subprocess.run(tool("mux", "send", f"{name}.{pane}", f"seq {pane}001 {pane}200", "Enter"), check=True)
    for name in names:
        found = [pane for pane in range(1, 10) if not comes(lambda: in_order(kept(name, pane), f"{pane}100", f"{pane}150"))]
        check(f"each of nine panes of {name} has its rows", not found, found)
        check("by one scrollback process", len(scrollback_processes(name)) == 1, scrollback_processes(name))
    for name in names[2:]:
        subprocess.run(tool("mux", "kill", "-f", name), check=True)


@scene
def small_rows(folder):
    """A pane of two rows and four columns."""
    subprocess.run([*tool("mux", "new", "-d", SESSION), "sh"], check=True)
    subprocess.run(tool("mux", "send", "-a", SESSION, "size 6 9", "split right", "split down"), check=True)
    places = window_in(window_of(SESSION)).places()
    sizes = {pane: (rect.rows, rect.cols) for pane, rect in places.rects.items()}
    pane = min(sizes, key=lambda number: sizes[number])
    check(f"a pane has {sizes[pane][0]} rows and {sizes[pane][1]} columns", sizes[pane] <= (2, 4), sizes)
    subprocess.run(tool("mux", "send", f"{SESSION}.{pane}", "clear; seq 1 9999", "Enter"), check=True)
    rows = []
    is_kept = comes(lambda: rows.append(kept(SESSION, pane)) or in_order(rows[-1], "9996", "9997"))
    check("its rows are kept", is_kept, rows[-1][-9:])
    numbers = [int(row) for row in rows[-1] if row.isdigit()][-9000:]
    check("whole and in order", numbers and numbers == list(range(numbers[0], numbers[0] + len(numbers))), numbers[:9])


@scene
def buffers(folder):
    """A new buffer is listed, shown and pasted, on this machine and over a relay."""
    outer = begun()
    check("none is there", said("buffer", "list", SESSION) == (0, "", ""), said("buffer", "list", SESSION))
    check("one is set", said("buffer", "set", SESSION, "echo pas''ted")[0] == 0)
    check("and listed", said("buffer", "list", SESSION)[1] == "1: 13 bytes: echo pas''ted\n", said("buffer", "list", SESSION))
    check("and shown", said("buffer", "show", SESSION)[1] == "echo pas''ted", said("buffer", "show", SESSION))
    check("and pasted", said("buffer", "paste", SESSION)[0] == 0 and outer.shows("echo pas''ted"), outer.rows)
    outer.type(b"\r")
    check("and run", outer.shows("pasted"), outer.rows)
    long = "".join(f"row {number}\n" for number in range(50_000))
    run_set = subprocess.run(tool("mux", "buffer", "set", SESSION), input=long.encode(), check=False)
    check("a long one is kept whole", run_set.returncode == 0 and said("buffer", "show", SESSION, "2")[1] == long)
    too_long = subprocess.run(tool("mux", "buffer", "set", SESSION), input=b"x" * (1 << 20) + b"y", stderr=subprocess.PIPE, check=False)
    check("one that is too long isn't", too_long.returncode == 1 and b"1 MB" in too_long.stderr, too_long)
    check("an unknown one isn't pasted", said("buffer", "paste", SESSION, "9")[0] == 1)
    words = tool("relay", "--alone", "60", "--dir", str(folder / "near"), "-", str(TOOLS / "relay"), "--far", "--dir",
                 str(window_of(SESSION)), "-")
    (folder / "near").mkdir(mode=0o700)
    relay = subprocess.Popen(words, stdout=subprocess.DEVNULL)
    run(outer, "clear; seq 1 5000", "counted")
    check("rows are kept", has_above(outer), lambda: kept()[-9:])
    check_far(Window(folder / "near"), long)
    relay.terminate()
    relay.wait()


def check_far(near, long):
    """Check rows and buffers by the sockets of a near relay."""
    check("a relay is there", comes(lambda: (near.folder / "host").exists() and near.places()), near.folder)
    asked = RowsAsked(near)
    check("a long buffer comes over it whole", asked.answer(lambda told: asked.link.buffer(2, told)) == long.encode())
    number = asked.answer(lambda told: asked.link.add_buffer(b"a\nhere x 1 1 read-write\n" * 30_000, told))
    check("and goes", asked.answer(lambda told: asked.link.buffer(number, told)) == b"a\nhere x 1 1 read-write\n" * 30_000, number)
    snapshot = asked.snapshot(1)
    rows = asked.rows(snapshot, snapshot.first, snapshot.end)
    check("rows do too", len(rows) == 2000 and b" 1500" in rows, rows[:3])
    found = asked.answer(lambda told: asked.link.find(1, snapshot.generation, 0, False, "4321", told))
    check("and what is looked for", found is not None and asked.rows(snapshot, found, found + 1) == [b" 4321"], found)


@scene
def rows_logged(folder):
    """`mux log` prints each row as it scrolls off, and the last screen at the pane's end."""
    outer = begun()
    with open(folder / "log", "wb") as log:
        process = subprocess.Popen(tool("mux", "log", SESSION), stdout=log)

    def lines():
        return (folder / "log").read_text(encoding="utf-8").splitlines()

    tries = itertools.count()

    def is_begun():
        run(outer, "seq 7001 7030", f"begun-{next(tries)}")
        return comes(lines, 2)

    check("what leaves is written down", comes(is_begun), lines)
    run(outer, "clear; seq 1 5000", "counted")

    check("rows come as they leave", comes(lambda: in_order(lines(), "1", "4900")), lambda: lines()[-9:])
    outer.type(b"echo last''words; exit\r")
    check("it ends with the pane", comes(lambda: process.poll() == 0), process.poll)
    numbers = [line for line in lines() if line.isdigit() and int(line) <= 5000]
    check("nothing is missing, and nothing twice", numbers == [str(number) for number in range(1, 5001)], numbers[-9:])
    check("the last screen too", "lastwords" in lines()[-3:], lines()[-9:])
