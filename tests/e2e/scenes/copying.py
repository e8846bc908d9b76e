"""Copy mode: one terminal's own view of a pane's scrollback rows, while everything else continues."""
import base64
import os
import subprocess
import time

from copied import CASES, KNOWN, TEXT, copied_by_roam
from tried import SESSION, WAIT, Outer, check, comes, is_part_of, noted, outside_gate, said, scene, told_cells, tool
from roam_live.frontend.outer_terminal import CLIP_BEGIN, CLIP_END
from scenes.machines import ssh_words
from scenes.mouse import points, report
from scenes.rows import count_of

VI, EMACS = {"VISUAL": "vi"}, {"VISUAL": "emacs"}


def begins(environment=None, text="seq 3000"):
    """Return a terminal on a session with many rows in its pane."""
    outer = Outer(tool("mux", SESSION), environment=environment or VI)
    outer.begins()
    outer.type(f"clear; {text}\r".encode())
    last = text.split()[-1]
    outer.shows(last)
    outer.stands(22, 0, "$")
    # The scrollback process is behind on a busy machine, and lends no rows then.
    check("the rows above the screen are kept", comes(lambda: count_of()[1] >= int(last) - outer.size[0]), count_of)
    return outer


def stays(outer, rows, seconds=0.5):
    """Return True if a terminal shows the same rows for a while, except for its last."""
    return not comes(lambda: outer.rows()[:-1] != rows[:-1], seconds)


def still(outer):
    """Return a terminal's rows once they stay the same for a moment."""
    rows = []

    def is_still():
        rows[:] = outer.rows()
        return stays(outer, rows)

    comes(is_still)
    return rows


def counts(rows):
    """Return True if rows are consecutive numbers."""
    numbers = [row.strip() for row in rows]
    return all(number.isdigit() for number in numbers) and all(int(one) + 1 == int(other) for one, other in zip(numbers, numbers[1:]))


def buffers():
    """Return the output of `mux buffer list`."""
    return said("buffer", "list", SESSION)[1].splitlines()


def clip(outer, begin):
    """Return the text set on the clipboard after so many bytes of output; None if there is none."""
    text = bytes(outer.written[begin:])
    at = text.rfind(CLIP_BEGIN)
    end = text.find(CLIP_END, at) if at >= 0 else -1
    return base64.b64decode(text[at + len(CLIP_BEGIN) : end]).decode() if end > at else None


@scene
def copy_private(folder):
    """Two terminals, one of them in copy mode: the other's screen doesn't move, and new output appears only there."""
    one = begins()
    other = Outer(tool("mux", SESSION))
    other.shows("3000")
    before = still(other)
    one.type(b"\x02[")
    check("C-b [ shows where", one.status("[0/") and "copy mode" in one.rows()[-1], one.rows)
    one.type(b"gjjj\x06\x06")
    check("pages are shown there", one.shows("44 "), one.rows)
    check("and the other's screen stays as it was", stays(other, before), other.rows)
    shown = still(one)
    other.type(b"seq 5000 5040\r")
    check("what goes on comes at the other", other.shows("5040"), other.rows)
    check("and not here", stays(one, shown), one.rows)
    check("where it is told how many rows came", comes(lambda: "new rows" in one.rows()[-1]), one.rows)
    one.type(b"q")
    check("q has all again as the other", comes(lambda: one.rows()[:-1] == other.rows()[:-1]) and one.shows("5040"), one.rows)
    watcher = Outer(tool("mux", "watch", SESSION), environment=VI)
    watcher.shows("5040")
    watcher.is_known()
    watcher.type(b"\x02[g")
    check("a terminal that watches has it too", watcher.stands(0, 0, "1 "), watcher.rows)
    check("and the others' screens stay", stays(other, one.rows()), other.rows)


@scene
def copy_all(folder):
    """All scrollback rows are there: the first, the last, a search result, and a copy of them, which is pasted."""
    outer = begins(VI, "seq 20000")
    outer.type(b"\x02[gjj")
    is_first = comes(lambda: outer.rows()[0].strip().isdigit() and int(outer.rows()[0]) < 15000)
    check("the first row that is kept is shown", is_first, outer.rows)
    first = int(outer.rows()[0])
    check("10,000 rows are", 20000 - 10000 - 30 < first < 20000 - 9000, first)
    outer.type(b"/15432\r")
    check("a search finds its row", outer.shows("15432"), outer.rows)
    outer.type(b" ")
    outer.type(b"jj$\r")
    check("what is copied is told", outer.status("3 lines copied; C-b ] pastes"), outer.rows)
    copied = b"15432\n15433\n15434\n"
    clip = CLIP_BEGIN + base64.b64encode(copied) + CLIP_END
    check("it is on the terminal's clipboard", comes(lambda: clip in outer.written), bytes(outer.written[-200:]))
    check("and a buffer", comes(lambda: "15432" in "".join(buffers()[:1])), buffers)
    outer.type(b"clear; stty -echo; cat\r")
    comes(lambda: outer.rows()[0].strip() == "")
    outer.type(b"\x02]")
    check("C-b ] pastes it", comes(lambda: [row.strip() for row in outer.rows()[:3]] == ["15432", "15433", "15434"]), outer.rows)
    outer.type(b"\x04")
    outer.type(b"\x02[gV\r")
    outer.shows(" characters copied")
    outer.type(b"\x02=")
    check("C-b = lists both", comes(lambda: sum("bytes" in row for row in outer.rows()[:3]) == 2), outer.rows)
    outer.type(b"j\r")
    check("and pastes the one that is chosen", outer.shows("15434"), outer.rows)


@scene
def copy_meanwhile(folder):
    """While it is open the pane shows the alternate screen, is cleared, reset and resized: its rows stay, laid out for each size."""
    outer = begins()
    other = Outer(tool("mux", SESSION))
    other.shows("3000")
    outer.type(b"\x02[")
    outer.status("[0/")
    outer.type(b"500k")
    # The first row may be painted before the others.
    check("rows of before are shown", outer.shows("2501") and comes(lambda: counts(outer.rows()[:-1])), outer.rows)
    shown = outer.rows()
    for name, command, text in (("the other screen", "printf '\\033[?1049hoth''er'; sleep 2; printf '\\033[?1049l'", "other"),
                                ("a clear", "printf '\\033[2J\\033[3J\\033[Hcle''ar\\n'", "clear"),
                                ("a reset", "printf '\\033cres''et\\n'", "reset")):
        other.type(f"{command}\r".encode())
        check(f"{name} comes at the other terminal", other.shows(text), other.rows)
        check("and the rows stay here", stays(outer, shown), outer.rows)
    for size in ((24, 60), (12, 30), (40, 100), (24, 80)):
        outer.resize(*size)
        is_on = comes(lambda: "copy mode" in outer.rows()[-1])
        check(f"at {size[0]} by {size[1]} they are shown too", is_on and outer.shows("2505"), outer.rows)
    other.type(b"clear; echo sm''all\r\x02\"")
    is_split = comes(lambda: outer.rows()[11].startswith("\u2500"))
    check("in a pane that is split too", is_split and "copy mode" in outer.rows()[-1], outer.rows)
    outer.type(b"q")
    check("and q has the session again", outer.shows("small") and comes(lambda: is_part_of(outer, told_cells(SESSION))), outer.rows)
    outer.type(b"\x02q1\x02[")
    outer.status("[")
    other.type(b"\x02q1exit\r")
    check("the pane's end ends it", comes(lambda: "copy mode" not in outer.rows()[-1]), outer.rows)


@scene
def copy_mouse(folder):
    """The wheel opens and closes it, a drag copies, and so does a double click on a word."""
    outer = begins({**VI, "ROAM_MOUSE": "on"})
    points(outer, (64, 5, 5))
    check("a notch opens it three rows up", outer.status("[3/"), outer.rows)
    points(outer, (64, 5, 5), (65, 5, 5), (65, 5, 5))
    check("and going past the last row closes it", comes(lambda: "copy mode" not in outer.rows()[-1]), outer.rows)
    outer.type(b"clear; echo one two three\r")
    outer.shows("one two three")
    comes(lambda: outer.rows()[0].startswith("one"))
    points(outer, (0, 1, 5), (32, 1, 6), (32, 1, 7), (0, 1, 7, True))
    check("what is dragged over is copied", outer.status("3 characters copied") and comes(lambda: "two" in "".join(buffers()[:1])), buffers)
    check("and the session is shown again", comes(lambda: "copy mode" not in outer.rows()[-1]), outer.rows)
    # In one piece, since a busy machine may let too much time pass between two clicks.
    outer.type((report(0, 1, 10) + report(0, 1, 10, True)) * 2)
    check("a double click copies a word", outer.status("5 characters copied") and comes(lambda: "three" in "".join(buffers()[:1])), buffers)


@scene
def copy_host(folder):
    """The host is stopped, and ends: the shared view scrolls in place of copy mode, and an open one is closed."""
    outer = begins()
    host = noted(SESSION)["host"][0]
    outer.type(b"\x02[g")
    outer.stands(0, 0, "1 ")
    os.kill(host, 19)
    outer.type(b"1500j")
    check("where rows are awaited that is told", comes(lambda: "waiting for rows" in outer.rows()[-1]), outer.rows)
    outer.type(b"\x03")
    check("and C-c leaves", comes(lambda: "copy mode" not in outer.rows()[-1] and "waiting" not in outer.rows()[-1]), outer.rows)
    outer.type(b"\x02[k")
    check("where nobody lends rows the view that all share scrolls", outer.status("1 rows back"), outer.rows)
    outer.type(b"q")
    os.kill(host, 18)
    time.sleep(0.5)
    outer.type(b"\x02[g")
    check("and once he does it opens", outer.stands(0, 0, "1 "), outer.rows)
    os.kill(host, 9)
    outer.type(b"1500j")
    check("where he is gone it is closed with a line", comes(lambda: "copy mode" not in outer.rows()[-1]), outer.rows)


@scene
@outside_gate("all keys of two tables take four minutes")
def copy_as_tmux(folder):
    """The keys of tests/stress/try_copy, typed at a terminal into a session, copy the same text as from the same rows alone."""
    path = folder / "text"
    path.write_text(TEXT, encoding="utf-8")
    for table, environment in (("vi", VI), ("emacs", EMACS)):
        outer = Outer(tool("mux", SESSION), (13, 40), {**environment, "ROAM_PREFIX": "C-]"})
        outer.shows("$ ")
        # The pane neither echoes C-c nor ends by it.
        outer.type(f"stty -echo; trap '' INT; clear; cat {path}; exec sleep 1000\r".encode())
        outer.shows("last line")
        time.sleep(0.5)
        last = ""
        for name, keys in CASES[table].items():
            wanted, begin = copied_by_roam(keys, table == "vi", (12, 40)), len(outer.written)
            # A text appended to another one is recognized by that.
            wanted = last + wanted if wanted and name == "A" else wanted
            outer.type(b"\x1d[")
            outer.status("[0/")
            for group in keys:
                outer.type(group)
                # An escape read together with its successor is another key.
                time.sleep(0.3 if group == b"\x1b" else 0.04)
            comes(lambda begin=begin: clip(outer, begin) is not None, WAIT if wanted else 0.2)
            found = clip(outer, begin)
            kind = "as it differs from tmux" if (table, name) in KNOWN else "as tmux"
            check(f"{table}: {name} copies {kind}", found == wanted, (found, wanted))
            last = found or last
            outer.type(b"\x03")
            comes(lambda: "copy mode" not in outer.rows()[-1])
        subprocess.run(tool("mux", "kill", "-f", SESSION), check=True)


@scene
def copy_far(folder):
    """Copy mode in a remote session: its rows come over the transport, and the copy is stored there."""
    outer = Outer(ssh_words(folder, folder / "far", folder / "asked"), environment=VI)
    outer.begins()
    outer.type(b"clear; seq 3000\r")
    outer.shows("3000")
    comes(lambda: count_of("other", base=folder / "far")[1] >= 3000 - outer.size[0])
    outer.type(b"\x02[gj")
    check("the first rows are shown", outer.stands(0, 0, "1 "), outer.rows)
    outer.type(b"/2468\r")
    check("a search finds its row", outer.shows("2468"), outer.rows)
    outer.type(b" $\r")
    check("what is copied is told", outer.status("5 characters copied; C-b ] pastes"), outer.rows)
    outer.type(b"clear; stty -echo; cat\r")
    comes(lambda: outer.rows()[0].strip() == "")
    outer.type(b"\x02]")
    check("and is pasted from there", comes(lambda: outer.rows()[0].strip() == "2468"), outer.rows)
    outer.type(b"\x04exit\r")
    check("its end is told here", outer.ends(), outer.rows)
