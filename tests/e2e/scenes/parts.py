"""Terminals of other sizes than the session, a pane with the front end's own words, and captures of it."""
import os
import signal
import socket
import subprocess
import time

from tried import (
    KEEPS_NONE, WAIT, Outer, check, comes, connected, is_part_of, listed, noted, part_at, said, scene, shown_above, terminals_of,
    told_cells, tool)
from emulated import Emulated
from roam_live.common.process import program
from roam_live.common.unix_socket import is_listened
from roam_live.protocol.screen_cells import Style

# A program's output, row by row with pauses: wide characters at every position of a row in turn.
PAINTS = ("i=0; while [ $i -lt 60 ]; do i=$((i+1)); "
          r"printf '\033[3%dm%*s\344\270\255\344\270\255\033[0m%d\n' $((i%7)) $((i%40)) '' $i; sleep 0.02; done")

FITS = "C-b r fits"

# A Hangul syllable in parts, and as one character.
PARTS, SYLLABLE = "\u1112\u1161\u11ab", "\ud55c"

ALWAYS = {"ROAM_PREDICT": "always"}

# A password prompt, on a blank pane, with keys that occur in no other painted text or control.
ASKS = b"stty -echo; clear; read secret; stty echo; echo do''ne $(printf %s \"$secret\" | wc -c)\r"
SECRET = b"QXZGQXZGWV"

# A program's output, step by step: styles, wide characters, rows that scroll, also between margins, moved and hidden cursors.
STEPS = (
    "\x1b[3;5Hplain \x1b[1;31mbold\x1b[0m \x1b[48;5;20m\u4e2d\u6587\x1b[0m and more",
    "\x1b[23;1H" + "".join(f"\n\r{count} {'row ' * count}" for count in range(1, 13)),
    "\x1b[5;20r\x1b[20;1H\n\n\n\x1b[7mreverse\x1b[0m\x1b[r\x1b[2;2H",
    "\x1b[?25l\x1b[10;1H\x1b[2L\x1b[18;12H\x1b[K\x1b[14;3H\x1b[4P",
    "\x1b[?25h\x1b[1;79H\u4e2d\x1b[1;1H\x1b[4munderlined\x1b[0m",
    "\x1b[2J\x1b[H",
)
# The most paintings of them, since a busy machine may read one step in two parts, and paints both then.
PAINTED = 4
# The lines of another connection at the same time, one at each step.
SAYS = ("look", "part 4 20", "mask 0 0 1 4", "look sgr", "whole", "unmask")


def captured(name):
    """Return the capture of a session."""
    return subprocess.run(tool("mux", "capture", name), stdout=subprocess.PIPE, text=True, check=False).stdout


@scene
def looks_told(folder):
    """A pane that prints the front end's message about a silence shows it unchanged, in its style, with the text after it in place."""
    outer = Outer(tool("mux", "other"))
    outer.shows("$ ")
    outer.type(b"clear; printf '\\033[5;1Hthe row as it was before\\033[5;1H\\033[1mroam: no answer for 5 s\\033[0m|\\n'\r")
    check("the words come as they are", outer.shows("roam: no answer for 5 s|"), outer.rows)
    cells = outer.cells().cells
    found = "".join(cells[5, col][0] for col in range(1, 25))
    is_bold = all(cells[5, col][1].flags == {"bold"} for col in range(1, 24)) and not cells[5, 24][1].flags
    check("in bold, and nothing behind them is shifted", found == "roam: no answer for 5 s|" and is_bold, cells)
    check("the terminal shows the session's cells", comes(lambda: is_part_of(outer, told_cells("other"))), outer.rows)
    subprocess.run(tool("mux", "kill", "-f", "other"), check=True)


def prints(path, text, command):
    """Return a terminal at another session, with a typed command about a file with a text."""
    path.write_text(text, encoding="utf-8")
    outer = Outer(tool("mux", "other"))
    outer.shows("$ ")
    outer.type(command.format(path).encode())
    return outer


@scene
def hangul(folder):
    """The capture of a Hangul syllable in parts has all of them."""
    outer = prints(folder / "letters", f"{PARTS}{PARTS}|\n{SYLLABLE}|\ne\u0301\u4e2d|\n", "clear; cat {}; echo do''ne\r")
    outer.shows("done")
    told = said("capture", "other")
    check("each part is captured", told[0] == 0 and told[1].split("\n")[:3] == [f"{PARTS}{PARTS}|", f"{SYLLABLE}|", "e\u0301\u4e2d|"], told)
    subprocess.run(tool("mux", "kill", "-f", "other"), check=True)


def are_right(outers, seconds=WAIT):
    """Return True if each terminal shows a part of the session in time, cell by cell."""
    return comes(lambda: all(is_part_of(outer, told_cells("other")) for outer in outers), seconds)


@scene
def two_sizes(folder):
    """Terminals of 24 by 80, 50 by 200 and 12 by 40 on one session are each right while a program paints and keys arrive."""
    predictions = {"ROAM_PREDICT": "always"}
    first = Outer(tool("mux", "other"), (24, 80), predictions)
    first.shows("$ ")
    second = Outer(tool("mux", "attach", "other"), (50, 200), predictions)
    second.shows("$ ")
    check("the second shows all of a smaller session", are_right([first, second]), (first.rows(), second.rows()))
    first.type(b"\x02%")
    first.status(" 1 [2]")
    second.type(PAINTS.encode() + b"\r\x02q1")
    first.status("[1] 2 ")
    first.type(b"echo ")
    second.shows("$ echo ")
    for letter, digit in zip("typedhere", "123456789"):
        first.type(letter.encode())
        second.type(digit.encode())
        time.sleep(0.05)
    check("keys of both, beside a program that paints", are_right([first, second]), (first.rows(), second.rows()))
    row = first.rows()[0].partition("\u2502")[0]
    found = ["".join(filter(kind, row.partition("echo ")[2].strip())) for kind in (str.isalpha, str.isdigit)]
    check("all of them came, each terminal's in their order", found == ["typedhere", "123456789"], row)
    small = Outer(tool("mux", "attach", "other"), (12, 40), predictions)
    check("a small one shows a part", small.shows("echo ") and are_right([first, second, small]), small.rows)
    small.type(b"\x02q2" + PAINTS.encode() + b"\r")
    for letter in b"more":
        small.type(bytes([letter]))
        time.sleep(0.05)
    check("which goes with the cursor", are_right([first, second, small]), (small.rows(), first.rows()))
    for outer in (small, second):
        outer.type(b"\x02d")
        check("it leaves", outer.ends() and outer.is_restored(), outer.rows)
    check("and the session has its size all the while", listed()[1:4] == ["23", "by", "80"] and are_right([first]), listed)
    subprocess.run(tool("mux", "kill", "-f", "other"), check=True)


@scene
def small_and_back(folder):
    """A session of 24 by 100 that is left, shown by 12 by 40 alone, and then by 24 by 100, has every row whole."""
    outer = Outer(tool("mux", "other"), (24, 100))
    outer.shows("$ ")
    outer.type(b"clear; for i in 1 2 3 4 5 6 7 8 9; do printf '%080d %s\\n' $i ri''ght-$i; done; printf '%99s\\344\\270\\255\\n'\r")
    outer.shows("right-9")
    before = outer.settled(11)
    outer.type(b"\x02d")
    outer.ends()
    small = Outer(tool("mux", "other"), (12, 40))
    check("alone too it shows a part", small.status("[1]", end=FITS) and are_right([small]), small.rows)
    small.type(b"\x15")
    small.resize(14, 36)
    check("drawn otherwise it shows another", small.status("[1]", end=FITS) and are_right([small]), small.rows)
    check("and the session has its size", listed()[1:4] == ["23", "by", "100"], listed())
    small.type(b"\x02d")
    small.ends()
    again = Outer(tool("mux", "other"), (24, 100))
    check("back at the size that it had every row is whole", comes(lambda: again.rows() == before), again.rows)
    again.type(b"\x02d")
    again.ends()
    subprocess.run(tool("mux", "kill", "-f", "other"), check=True)


@scene
def asked_small(folder):
    """A password is typed in a second pane while a part is shown: no key of it is painted."""
    outer = Outer(tool("mux", "other"), (24, 100))
    outer.shows("$ ")
    outer.type(b"\x02%")
    outer.status(" 1 [2]")
    small = Outer(tool("mux", "attach", "other"), (12, 40), {"ROAM_PREDICT": "always"})
    small.shows("$ ")
    small.type(b"echo ab\r")
    small.shows("ab")
    small.type(b"stty -echo; echo as''ks; read secret; stty echo; echo do''ne $(printf %s \"$secret\" | wc -c)\r")
    small.shows("asks")
    time.sleep(1)
    before = len(small.written)
    for letter in b"QXZKQXZKGW":
        small.type(bytes([letter]))
        time.sleep(0.05)
    time.sleep(0.5)
    painted = bytes(small.written[before:])
    check("no key of it is painted", not any(letter in painted for letter in b"QXZKGW"), painted)
    small.type(b"\r")
    # The part's position depends on the cursor's path; the capture has the whole row.
    check("and all of it came", comes(lambda: "done 10" in captured("other")), small.rows)
    subprocess.run(tool("mux", "kill", "-f", "other"), check=True)


def is_trusted(small, large, host):
    """Return True if a terminal shows a predicted key in the first pane. The pty host is stopped then, so that nothing echoes it; on a busy
    machine an echo may be too late for trust, and the next one is awaited.
    """
    text = "$ "
    for _ in range(8):
        for letter in "abc":
            small.type(letter.encode())
            text += letter
            large.shows(text)
        before, others = len(small.written), len(large.written)
        os.kill(host, signal.SIGSTOP)
        small.type(b"Y")
        if comes(lambda: b"Y" in small.written[before:], 3):
            return b"Y" not in large.written[others:]
        os.kill(host, signal.SIGCONT)
        text += "Y"
        large.shows(text)
    return False


def trust_and_ask(small, large, goes):
    """Make a terminal trust keys in the first pane, and ask for a password in the same row of the second, after one of both moves there."""
    small.type(b"\x02q2" + ASKS)
    comes(lambda: not any(row[50:].strip() for row in large.rows()[:-1]))
    small.type(b"\x02q1\x15")
    comes(lambda: large.rows()[0][:49].strip() == "$")
    host = noted("other")["host"][0]
    check("a key is shown in the first pane that nothing echoes: it is trusted", is_trusted(small, large, host), small.rows)
    goes.type(b"\x02q2")
    if goes is large:
        small.status(" 1 [2]")
    type_each(small, SECRET[:5])
    os.kill(host, signal.SIGCONT)
    small.status(" 1 [2]")
    type_each(small, SECRET[5:])
    time.sleep(0.5)
    small.type(b"\r")
    check("all of the password came", large.shows(f"done {len(SECRET)}"), large.rows)


def type_each(outer, text):
    """Type bytes one after another."""
    for letter in text:
        outer.type(bytes([letter]))
        time.sleep(0.05)


@scene
def asked_beside(folder):
    """A password in a second pane, in the row of trusted keys in the first, while a part is shown: no byte to any terminal contains a key
    of it, whichever terminal moves there.
    """
    large = Outer(tool("mux", "other"), (24, 100), ALWAYS)
    large.shows("$ ")
    large.type(b"\x02%")
    large.status(" 1 [2]")
    small, watcher = Outer(tool("mux", "attach", "other"), (12, 40), ALWAYS), Outer(tool("mux", "watch", "other"), (24, 100))
    small.shows("$ ")
    watcher.shows("$ ")
    for goes in (small, large):
        trust_and_ask(small, large, goes)
    seen = [bytes(outer.written) for outer in Outer.made if any(letter in outer.written for letter in SECRET)]
    check("no key of it was written to any terminal", not seen and len(Outer.made) == 3, seen)
    subprocess.run(tool("mux", "kill", "-f", "other"), check=True)


class Plain:
    """A plain connection to a session's client, like one by hand: all its output, and the terminal that reads it."""

    def __init__(self, name):
        self.end = socket.socket(socket.AF_UNIX)
        self.end.connect(str(terminals_of(name)))
        # A connection without a first line ends after ten seconds.
        self.end.sendall(b"predict never\n")
        self.end.setblocking(False)
        self.written, self.emulated = b"", Emulated(24, 80)

    def shows(self, pane):
        """Return True if it shows the same as a pane, the whole session but its status row."""
        try:
            chunk = self.end.recv(65536)
        except BlockingIOError:
            chunk = b""
        self.written += chunk
        self.emulated.fed(chunk)
        mine = self.emulated
        return mine.screen[:-1] == pane.screen and mine.has_cursor == pane.has_cursor and (mine.row, mine.col) == (pane.row, pane.col)


def painted_beside(plain, pane, end, lines):
    """Return the output to a plain connection while a program painted step by step, each after the one before was visible. Also return the
    words of the records to others meanwhile: one sends a line at each step, and one comes then, sends all of them and leaves.
    """
    begin, words = len(plain.written), set()
    stays = [connected("other", False)] if lines else []
    for k, step in enumerate(STEPS):
        links = stays + [connected("other", False) for _ in stays]
        for link, said_there in zip(links, (lines[k : k + 1], lines)):
            for line in said_there:
                link.say(line)
        pane.fed(step.encode())
        os.write(end, step.encode())

        def is_over():
            words.update(record.word for link in links for record in link.exchanged(0.01) or ())
            return plain.shows(pane) and all(link.is_done() for link in links)

        if not comes(is_over):
            check(f"step {k} is painted, and each line taken", False, (plain.emulated.lines(), [link.taken for link in links]))
        for link in links[1:]:
            link.close()
    for link in stays:
        link.close()
    time.sleep(0.5)
    plain.shows(pane)
    return plain.written[begin:], words


@scene
def told_beside(folder):
    """A plain connection gets the same bytes, whatever others come, look, have parts and leave."""
    path = folder / "terminal"
    command = f"stty raw -echo; tty > {path}; exec sleep 1000"
    subprocess.run(tool("mux", "new", "-d", "other", "/bin/sh", "-c", command), check=True)
    comes(lambda: path.exists() and path.read_text(encoding="utf-8").endswith("\n"))
    end = os.open(path.read_text(encoding="utf-8").strip(), os.O_WRONLY | os.O_NOCTTY)
    plain, pane = Plain("other"), Emulated(23, 80)
    check("a plain connection is painted", comes(lambda: plain.shows(pane) and "[1]" in plain.emulated.lines()[-1]), plain)
    for _ in range(PAINTED):
        alone, _ = painted_beside(plain, pane, end, ())
        beside, words = painted_beside(plain, pane, end, SAYS)
        if alone == beside:
            break
    check("others were told what they asked for", words >= {"events", "taken", "size", "part", "anew", "paint", "screen"}, words)
    check(f"the {len(alone)} bytes of a painting are the same beside them", len(alone) > 500 and alone == beside, (alone, beside))
    os.close(end)
    plain.end.close()
    subprocess.run(tool("mux", "kill", "-f", "other"), check=True)


@scene
def cut_wide(folder):
    """A wide character at either edge of the part is a space in its style, at any position while keys are predicted."""
    rows = "\x1b[H\x1b[2J\n\x1b[32m" + 39 * "\u4e2d" + "\n " + 39 * "\u4e2d" + "\x1b[0m\x1b[5;60H"
    outer = prints(folder / "rows", rows, "cat {} -\r")
    comes(lambda: (outer.emulation().row, outer.emulation().col) == (4, 59))
    small, link, places = Outer(tool("mux", "attach", "other"), (12, 40), ALWAYS), connected("other"), []
    link.say("part 11 40")

    def is_at(left):
        places.extend(record.numbers for record in link.exchanged(0.01) or () if record.word == "part")
        return places[-1:] == [(0, left)] and part_at(told_cells("other"), 1, left + 1, (11, 40)) == shown_above(small)

    for left, letter in enumerate(b"\0typed", 20):
        small.type(bytes([letter]).strip(b"\0"))
        check(f"it shows the part that is told, from column {left} on", comes(lambda: is_at(left)), lambda: (places, small.rows()))
        shown, (cut, whole) = shown_above(small)[0], ((2, 3), (3, 2))[left % 2 == 0]
        are_cut = all(shown[cut, col] == (" ", Style(foreground=2)) for col in (1, 40))
        check("with spaces where wide ones are cut", are_cut and (shown[whole, 1][0], shown[whole, 40][0]) == ("\u4e2d", ""), small.rows)
    link.close()
    subprocess.run(tool("mux", "kill", "-f", "other"), check=True)


@scene
def whole_by_hand(folder):
    """`attach` of a folder shows the whole session with its own status row if it fits, and else a part."""
    own = folder / "own"
    own.mkdir(mode=0o700)
    server = subprocess.Popen([program(), "serve", "--dir", str(own)])
    keeps_none = {**os.environ, **KEEPS_NONE}
    host = subprocess.Popen(tool("pane_shells", "--server", str(server.pid), str(own)), env=keeps_none)
    comes(lambda: is_listened(own / "clients"))
    outer = Outer(tool("attach", str(own)))
    check("the whole is shown", outer.shows("$ ") and outer.status("[1]"), outer.rows)
    # A new one shows the newest rows to all, so it attaches before.
    beside = Outer(tool("attach", str(own)))
    beside.shows("$ ")
    outer.type(b"seq 100\r")
    comes(lambda: outer.rows() == beside.rows() and "100" in outer.rows()[-3])
    outer.type(b"\x02[\x1b[5~")
    check("what is told stands over the status row", outer.status("12 rows back: "), outer.rows)
    check("which tells another terminal of the view", beside.status("[1] ^12"), beside.rows)
    outer.type(b"q")
    check("and comes back", outer.status("[1]     ") and beside.status("[1]     "), outer.rows)
    os.kill(server.pid, signal.SIGSTOP)
    is_told = outer.status("roam: no answer for 1") and comes(lambda: "C-b d leaves" in outer.rows()[-1])
    check("a silence is told there", is_told, outer.rows)
    os.kill(server.pid, signal.SIGCONT)
    check("and goes", outer.status("[1]     ") and comes(lambda: outer.rows() == beside.rows()), outer.rows)
    beside.resize(12, 40)
    check("on a smaller terminal a part is shown, and the key", beside.status("[1]", end=FITS) and beside.shows("100"), beside.rows)
    outer.type(b"clear; stty size\r")
    check("and the session has its size", outer.shows("23 80"), outer.rows)
    beside.resize(24, 80)
    check("at the size that it had it shows the whole", comes(lambda: beside.rows() == outer.rows()), beside.rows)
    for one in (outer, beside):
        one.type(b"\x02d")
        check("it leaves", one.ends() and one.is_restored(), one.rows)
    server.kill()
    for process in (server, host):
        process.wait(WAIT)
