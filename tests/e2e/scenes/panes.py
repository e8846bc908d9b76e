"""A user's view and actions in a session: panes, sizes, pastes, and messages."""
import os
import pathlib
import signal
import statistics
import subprocess
import termios
import time

from tried import (
    KEEPS_NONE, SESSION, WAIT, Outer, check, comes, folder_of, is_part, listed, noted, said, scene, terminals_of, three_panes, tool)
from roam_live.common import tty
from roam_live.frontend.connection import SIZES
from roam_live.frontend.size_follower import NEW
from roam_live.protocol.client_link import ClientLink
from roam_live.session.foreground import busy_panes

PASTED = 100_000

# The most tries to draw a terminal smaller without a pause.
DRAWN = 20

# The hint on a terminal that doesn't show the whole session.
FITS = "C-b r fits"

# A program that gives itself a name from hexadecimal digits, and waits.
NAMED = "import ctypes, sys, time; ctypes.CDLL(None).prctl(15, bytes.fromhex(sys.argv[1]), 0, 0, 0); time.sleep(100)"

# Names of programs that contain control sequences, and their printable forms.
ODD_NAMES = (
    (b"\x1b[c", "?[c"), (b"\x1b]0;pwned\x07", "?]0;pwned?"), (b"\x1bc", "?c"), (b"\x1b[?1003h", "?[?1003h"), (b"\xc2\x9b6n", "?6n"),
    (b"\x1b[?1049l", "?[?1049l"), (b"\n\n\n", "???"), ("\u202eevil".encode(), "?evil"),
)


def started():
    """Return a terminal on a new session, with a shell of its pane's size."""
    outer = Outer(tool("mux", SESSION))
    check("mux launches a session with a shell", outer.shows("$ ") and outer.status("[1]"), outer.rows)
    outer.type(b"echo o''ne; stty size; echo $TERM\r")
    check("what is typed is run", outer.shows("one"), outer.rows)
    check("the shell has the pane's size", outer.shows("23 80"), outer.rows)
    names = ("tmux-256color", "screen-256color", "vt220")
    check("TERM has no bce", outer.sees(lambda seen: any(row.startswith(names) for row in seen.lines())), outer.rows)
    return outer


@scene
def panes(folder):
    """Splits, focus by position, growth."""
    outer = started()
    outer.type(b"\x02%")
    check("C-b % splits to the right", outer.status(" 1 [2]") and outer.stands(5, 39, "\u2502"), outer.rows)
    outer.type(b'\x02"')
    check('C-b " splits down', outer.status(" 1  2 [3]") and outer.stands(11, 40, "\u2500" * 40), outer.rows)
    outer.type(b"stty size\r")
    check("the new shell has its pane's size", outer.shows("11 40"), outer.rows)
    for way, label in (("D", "[1] 2  3 "), ("C", " 1 [2] 3 "), ("B", " 1  2 [3]"), ("A", " 1 [2] 3 ")):
        keys = f"\x02\x1b[{way}".encode()
        outer.type(keys)
        check(f"{keys!r} goes to the pane there", outer.status(label), outer.rows)
    outer.type(b"\x02\x1b[1;5B\x1b[1;5B")
    comes(lambda: "\u2500" * 40 in outer.rows()[13])
    check("C-arrows grow the pane, and its programs are told", outer.has_size(13, 40), outer.rows)
    outer.type(b"\x02\x1b[1;5A\x1b[1;5A\x02o")
    check("C-b o goes to the next pane", outer.status(" 1  2 [3]"), outer.rows)


@scene
def leaving(folder):
    """A detach keeps the session, and restores the terminal; another front end replaces a killed one."""
    outer = three_panes()
    outer.type(b"clear; echo la''st\r")
    outer.shows("last")
    before = outer.settled(1)
    outer.type(b"\x02d")
    check("C-b d ends the front end with status 0", outer.ends() and outer.process.returncode == 0, outer.process.returncode)
    check("the terminal is as it was", outer.is_restored(), bytes(outer.written[-200:]))
    check("it says so", outer.shows("[detached]"), outer.rows)
    check("the session goes on", comes(lambda: listed()[:7] == [SESSION, "23", "by", "80", "3", "panes", "0"]), listed)
    again = Outer(tool("mux", SESSION))
    check("mux attaches again, and shows the same", comes(lambda: again.rows() == before), lambda: (again.rows(), before))
    before_it = again.written.count(tty.CLEARED)
    os.kill(noted(SESSION)["client"][0], signal.SIGKILL)
    check("a killed client process is followed by another", comes(lambda: again.written.count(tty.CLEARED) > before_it), again.rows)
    check("which is told", again.status("the client process ended; the last keys may be lost"), again.rows)
    check("which shows the same", comes(lambda: again.rows() == before), again.rows)
    again.type(b"echo aft''er\r")
    check("and types", again.shows("after"), again.rows)
    again.process.kill()
    last = Outer(tool("mux", SESSION))
    check("after a killed tool mux attaches again", last.status("[1] 2  3"), last.rows)


@scene
def host(folder):
    """The pty host is stopped, or has ended: the server still reports its panes, and `mux ls` shows that."""
    outer = three_panes()
    host = noted(SESSION)["host"][0]
    os.kill(host, signal.SIGSTOP)
    outer.type(b"\x02%")
    check("a pane is split off while the pty host is stopped", outer.status(" 1 [4] 2  3 "), outer.rows)
    outer.type(b"\x02\x1b[D")
    check("an arrow goes by where it is", outer.status("[1] 4  2  3 "), outer.rows)
    wanted = "4 panes ? terminals, the pty host is stopped"
    check("ls counts the server's panes, and says so", comes(lambda: " ".join(listed()).endswith(wanted)), listed)
    os.kill(host, signal.SIGCONT)
    outer.type(b"\x02q4echo aw''ake\r")
    check("continued it has a shell there", outer.shows("awake"), outer.rows)
    check("and ls says nothing more", comes(lambda: " ".join(listed()).endswith("4 panes 1 terminal")), listed)
    outer.type(b"\x02d")
    outer.ends()
    holder = noted(SESSION)["holder"][0]
    os.kill(holder, signal.SIGSTOP)
    for process in (holder, host):
        os.kill(process, signal.SIGKILL)
    wanted = "4 panes ? terminals, its pty host is not running"
    check("where it and the holder have ended ls says that nothing keeps them", comes(lambda: " ".join(listed()).endswith(wanted)), listed)
    again = Outer(tool("mux", SESSION))
    # The new host knows of the terminal later than the shell is shown.
    is_known = again.shows("[a new shell; ") and comes(lambda: " ".join(listed()).endswith("4 panes 1 terminal"))
    check("who attaches has others", is_known, listed)


@scene
def sizes(folder):
    """A new size of a lone terminal reaches the programs; a very small one shows a line."""
    outer = three_panes()
    # A new session takes its terminal's size, whatever it is.
    time.sleep(NEW + 0.5)
    outer.resize(40, 120)
    check("a larger terminal is filled", outer.status("[1] 2  3") and outer.stands(3, 59, "\u2502"), outer.rows)
    outer.type(b"\x02q1")
    check("the programs are told", outer.has_size(39, 59), outer.rows)
    outer.resize(2, 30)
    check("a very small one shows a line", comes(lambda: outer.rows()[0].startswith("too small: 3 by 4 is needed")), outer.rows)
    outer.type(b"echo un''seen\r")
    # Otherwise it may find the new size and the keys together.
    outer.is_taken()
    outer.resize(40, 120)
    check("then all is as it was", outer.status("[1] 2  3") and outer.stands(3, 59, "\u2502"), outer.rows)
    check("and what was typed before that wasn't typed", not outer.shows("seen", 0.5), outer.rows)
    outer.resize(24, 80)
    is_followed = comes(lambda: listed()[1:4] == ["23", "by", "80"]) and outer.stands(5, 39, "\u2502")
    check("a lone one that showed all is followed to a smaller size", is_followed and outer.status("[1] 2  3"), outer.rows)
    drawn_smaller(outer)
    check("of many sizes the last is had", outer.status("[1] 2  3") and outer.stands(5, 39, "\u2502"), outer.rows)
    check("and none before it", comes(lambda: listed()[1:4] == ["23", "by", "80"]), listed)
    outer.process.send_signal(signal.SIGSTOP)
    termios.tcsetattr(outer.slave, termios.TCSANOW, outer.modes)
    outer.process.send_signal(signal.SIGCONT)
    check("stopped and continued, it takes the terminal again", comes(lambda: termios.tcgetattr(outer.slave) != outer.modes), outer.rows)
    covered(outer)


def drawn_smaller(outer):
    """Shrink a terminal by hand, through many short-lived sizes; repeat it if one lasted, as on a busy machine."""
    longest, tries = 1.0, 0
    while longest > SIZES / 2 and tries < DRAWN:
        longest, tries = 0.0, tries + 1
        for rows in range(60, 24, -1):
            begun = time.monotonic()
            outer.resize(rows, 3 * rows)
            time.sleep(0.003)
            longest = max(longest, time.monotonic() - begun)
        outer.resize(24, 80)
        outer.type(b"" if longest <= SIZES / 2 else b"\x02r")


def covered(outer):
    """Test notices over the session, the scrolled view, and the way out of both."""
    outer.type(b"clear\r\x02?")
    check("C-b ? lists the keys", outer.shows("C-b itself"), outer.rows)
    outer.type(b"x")
    check("a key ends that", outer.status("[1] 2  3"), outer.rows)
    outer.type(b"for k in 1 2 3 4 5 6; do echo $k$k$k; done; seq 100; echo en''d\r")
    check("a long text runs through", outer.shows("end"), outer.rows)
    outer.type(b"\x02[\x1b<")
    check("C-b [ M-< goes to the oldest row", outer.shows("333"), outer.rows)
    outer.type(b"q")
    is_back = comes(lambda: not any("333" in row for row in outer.rows()))
    check("q goes back", is_back and outer.shows("100"), outer.rows)


@scene
def three_terminals(folder):
    """Two read-write users and a read-only one see one screen."""
    outer = three_panes()
    other, watcher = Outer(tool("mux", SESSION)), Outer(tool("mux", "watch", SESSION))
    outer.type(b"clear; echo se''en\r")
    for one in (outer, other, watcher):
        check("each of three front ends shows what one typed", one.shows("seen"), one.rows)
    watcher.type(b"echo nev''er\r")
    other.type(b"echo al''so\r")
    check("what the second types comes", watcher.shows("also"), watcher.rows)
    check("what the watcher types doesn't", not outer.shows("never", 0.3), outer.rows)
    check("ls counts them", comes(lambda: listed()[-2:] == ["3", "terminals"]), listed)
    same = comes(lambda: outer.rows() == other.rows() == watcher.rows())
    check("they show the same", same, watcher.rows)
    watcher.type(b"\x02d")
    check("the watcher detaches", watcher.ends() and watcher.is_restored(), watcher.rows)
    for number in (signal.SIGTERM, signal.SIGHUP):
        other.process.send_signal(number)
        check(f"{number.name} ends a front end and brings the terminal back", other.ends() and other.is_restored(), other.rows)
        other = Outer(tool("mux", SESSION))
        other.status("[1]")
    other.process.terminate()


@scene
def paste(folder):
    """Pastes arrive whole."""
    outer = three_panes()
    path = folder / "pasted"
    text = "".join(chr(ord(" ") + 7 * k % 95) for k in range(PASTED)).encode()
    outer.type(f"clear; stty raw -echo; echo re''ady; head -c {PASTED} > {path}; stty sane; echo do''ne\r".encode())
    outer.shows("ready")
    begun = time.monotonic()
    outer.type(b"\x1b[200~" + text + b"\x1b[201~")
    comes(lambda: path.exists() and path.stat().st_size >= PASTED, 120)
    check(f"a paste of {PASTED} characters arrives whole", path.read_bytes() == text, path.stat().st_size)
    print(f"        in {time.monotonic() - begun:.1f} s", flush=True)
    check("and the shell goes on", outer.shows("done"), outer.rows)


@scene
def busy(folder):
    """A pane that writes without end leaves the others usable."""
    outer = three_panes()
    outer.type(b"\x02q2yes\r")
    check("yes fills its pane", comes(lambda: sum(row[40:].startswith("y ") for row in outer.rows()) > 5), outer.rows)
    outer.type(b"\x02q1clear; echo us''able\r")
    check("the pane beside it is usable", outer.shows("usable"), outer.rows)
    delays = [delay(outer, letter) for letter in "abcdefghij"]
    print(f"        a key's echo beside it: {statistics.median(delays) * 1000:.1f} ms in the median of {len(delays)}", flush=True)
    outer.type(b"\x15\x02q2\x03clear\r")
    check("C-c ends yes", comes(lambda: not any(row[40:].startswith("y ") for row in outer.rows())), outer.rows)
    outer.type(b"\x02q1")
    outer.status("[1]")
    delays = [delay(outer, "abcdefghij"[k % 10]) for k in range(100)]
    ordered = sorted(delays)
    print(f"        a key's echo: {ordered[50] * 1000:.1f} ms in the median, {ordered[98] * 1000:.1f} at the 99th of 100", flush=True)
    outer.type(b"\x15")


def delay(outer, letter):
    """Return the delay of a typed letter until it is painted."""
    time.sleep(0.03)
    before = len(outer.written)
    begun = time.monotonic()
    outer.type(letter.encode())
    while letter.encode() not in outer.written[before:] and time.monotonic() - begun < 2:
        time.sleep(0.0002)
    return time.monotonic() - begun


@scene
def closed(folder):
    """A closed pane hangs up its programs, whatever they do."""
    outer = three_panes()
    outer.type(b'\x02q1\x02"')
    outer.status(" 1 [4]")
    outer.type(f"echo $$ > {folder}/closed; echo no''ted; yes > /dev/null\r".encode())
    outer.shows("noted")
    comes(lambda: busy_panes(str(folder_of(SESSION))) == {4: "yes"})
    shell = (folder / "closed").read_text(encoding="utf-8").strip()
    outer.type(b"\x02x")
    check("C-b x asks where something else than a shell runs", outer.status("close yes in pane 4? y closes it"), outer.rows)
    outer.type(b"n")
    check("another key than y keeps it", outer.status(" 1 [4]"), outer.rows)
    outer.type(b"\x02q1")
    outer.status("[1] 4 ")
    outer.type(b"\x02q4\x02x")
    check("also right after the focus went there", outer.status("close yes in pane 4? y closes it"), outer.rows)
    outer.type(b"y")
    check("y closes the pane", outer.status("[1] 2  3 "), outer.rows)
    check("and its programs end", comes(lambda: not pathlib.Path(f"/proc/{shell}").exists()), shell)


@scene
def ends(folder):
    """A shell that ends closes its pane, and the last the session."""
    outer = three_panes()
    for keys, label in ((b"\x02q3", " 1  2 [3]"), (b"\x02q1", "[1] 2  3")):
        outer.type(keys)
        outer.status(label)
    outer.type(b"exit\r")
    check("a shell's end closes its pane, and the focus goes back", outer.status(" 2 [3]"), outer.rows)
    outer.type(b"\x02q2sleep 0.5; exit\r\x02q3")
    check("also where another has the focus", outer.status("[3]") and not outer.last_row().startswith(" 2"), outer.rows)
    outer.type(b"exit\r")
    check("the last one's ends the session", outer.ends() and outer.process.returncode == 0, outer.process.returncode)
    check("the terminal is as it was, and it is said", outer.is_restored() and outer.shows("[the session has ended]"), outer.rows)
    check("no session is left", comes(lambda: listed() == []), listed)


@scene
def told(folder):
    """An impossible request is reported for a second, in the last row."""
    outer = Outer(tool("mux", "other"), environment=KEEPS_NONE)
    outer.shows("$ ")
    # The positions of the panes are reported a moment later.
    outer.status("[1] 1:")
    means = "is not bound; C-b ? lists the keys"
    outer.type(b"\x02x")
    asked = "close window 1 and the session, whose last it is? y"
    check("the last pane's close is the session's end, and asked for", outer.status(asked), outer.rows)
    outer.type(b"n")
    for keys, text in ((b"\x02Z", f"C-b Z {means}"), (b"\x02\x01", f"C-b C-a {means}"), (b"\x02\x1b1", f"C-b M-1 {means}")):
        outer.type(keys)
        check(f"{keys!r} is told of", outer.status(text), outer.rows)
        check("and the status comes back", outer.status("[1]"), outer.rows)
    check("nothing of them is typed", [row.rstrip() for row in outer.rows()[:-1] if row.strip()] == ["$"], outer.rows)
    outer.resize(5, 80)
    comes(lambda: listed()[1:4] == ["4", "by", "80"])
    outer.shows("$ ")
    # The front end hears of the size as `mux ls` does.
    time.sleep(0.5)
    outer.type(b'\x02"')
    check("a split that is too small is told of", outer.status("pane 1 is too small to split: 4 by 80"), outer.rows)
    outer.resize(24, 80)
    comes(lambda: listed()[1:4] == ["23", "by", "80"])
    outer.type(b"seq 100\r\x02[\x1b[5~")
    check("the status of the scroll mode tells how far back", outer.status("12 rows back: "), outer.rows)
    outer.type(b"\x02%")
    check("a command ends it first", outer.status(" 1 [2]") and outer.stands(21, 0, "100"), outer.rows)
    bell(outer, folder / "rings")
    keypad(outer)
    outer.type(b"\x02[\x1b[5~\x02d")
    check("so does leaving", outer.ends() and outer.is_restored(), outer.rows)
    subprocess.run(tool("mux", "kill", "other"), check=True)


def bell(outer, path):
    """A bell of the first pane rings while the second has the focus: the first waits for a file until then."""
    outer.type(f"\x02q1until [ -e {path} ]; do sleep 0.1; done; printf '\\033]0;title\\007'; sleep 1; printf '\\a'\r".encode())
    outer.status("[1] 2 ")
    outer.type(b"\x02q2")
    outer.status(" 1 [2]")
    before = len(outer.written)
    path.touch()
    check("a bell in another pane rings, and is told", outer.status("bell in pane 1"), outer.rows)
    check("once, and a title's end doesn't", outer.written[before:].count(b"\x07") == 1, bytes(outer.written[before:]))


def keypad(outer):
    """The keypad sends application codes while the focused pane requests them."""

    def becomes(mode, since):
        return comes(lambda: (outer.written[since:].rfind(b"\x1b="), outer.written[since:].rfind(b"\x1b>"))[mode] >= 0)

    before = len(outer.written)
    outer.type(b"printf '\\033='\r")
    check("a pane's keypad is the terminal's", becomes(0, before), bytes(outer.written[before:]))
    before = len(outer.written)
    outer.type(b"\x02o")
    check("while that pane is in focus", becomes(1, before), bytes(outer.written[before:]))
    before = len(outer.written)
    outer.type(b"\x02o")
    check("and again", becomes(0, before), bytes(outer.written[before:]))


@scene
def names(folder):
    """A program's own title never reaches a terminal raw."""
    path = folder / "named.py"
    path.write_text(NAMED, encoding="utf-8")
    outer = Outer(tool("mux", "other"))
    outer.shows("$ ")
    outer.type(b"\x02%")
    outer.status(" 1 [2]")
    for name, told in ODD_NAMES:
        outer.type(f"clear; python3 {path} {name.hex()}\r".encode())
        comes(lambda told=told: busy_panes(str(folder_of("other"))).get(2) == told)
        before = len(outer.written)
        outer.type(b"\x02x")
        check(f"a program that calls itself {name!r} is told of", outer.status(f"close {told} in pane 2? y closes it"), outer.rows)
        check("and not raw", name not in outer.written[before:], bytes(outer.written[before:]))
        outer.type(b"n")
        wanted = f"mux: session other runs {told} in pane 2; `mux kill -f other` ends it\n"
        check("neither by mux kill", said("kill", "other") == (1, "", wanted), said("kill", "other"))
        outer.type(b"\x03")
        comes(lambda: not busy_panes(str(folder_of("other"))))
    outer.type(b"clear; printf '\\033[7mroam: no answer for 12 s\\033[0mthe rest|\\n'\r")
    words = "roam: no answer for 12 sthe rest|"
    check("what a pane shows of a silence comes as it is", outer.shows(words) and not outer.shows("leaves", 0.3), outer.rows)
    subprocess.run(tool("mux", "kill", "-f", "other"), check=True)


@scene
def smaller(folder):
    """A new terminal shrinks no session, and changes no other terminal."""
    outer = Outer(tool("mux", "other"), size=(24, 100))
    outer.shows("$ ")
    check("a session that is launched has its terminal's size", comes(lambda: listed()[1:4] == ["23", "by", "100"]), listed)
    outer.type(b"clear; for i in 1 2 3 4 5 6 7 8 9; do printf '%060d %s\\n' $i ri''ght-$i; done\r")
    outer.shows("right-9")
    before = outer.settled(9)
    small = Outer(tool("mux", "attach", "other"), size=(12, 40))
    check("a smaller one shows the part with the cursor, and is told the key", small.status("[1]", end=FITS) and small.shows("$ "),
          small.rows)
    check("which is a part of what the other shows", comes(lambda: is_part(small, outer)), (small.rows(), outer.rows()))
    check("and nothing is cut", listed()[1:4] == ["23", "by", "100"] and comes(lambda: outer.rows() == before), outer.rows)
    small.type(b"echo se''en")
    check("what is typed there is shown at both", small.shows("se''en") and outer.shows("se''en"), outer.rows)
    small.type(b"\x15\x02d")
    check("it leaves", small.ends() and small.is_restored() and small.shows("[detached]"), small.rows)
    check("and nothing is cut", listed()[1:4] == ["23", "by", "100"] and comes(lambda: outer.rows() == before), outer.rows)
    large = Outer(tool("mux", "attach", "other"), size=(40, 120))
    told = "24 by 100, the size of another terminal; C-b r fits this one"
    is_told = large.sees(lambda seen: seen.lines()[39].startswith(told))
    check("a larger one beside it shows the session as it is, and is told the key", is_told and large.shows("right-9"), large.rows)
    check("which disturbs nobody", comes(lambda: outer.rows() == before), outer.rows)
    large.type(b"\x02r")
    check("C-b r has the session be as large", large.status("[1]") and comes(lambda: listed()[1:4] == ["39", "by", "120"]), large.rows)
    check("and the other shows a part of it", outer.status("[1]", end=FITS) and comes(lambda: is_part(outer, large)), outer.rows)
    large.type(b"\x02d")
    outer.type(b"\x02r")
    is_fitted = large.ends() and comes(lambda: listed()[1:4] == ["23", "by", "100"])
    check("until the key is typed there", is_fitted and outer.shows("right-9") and comes(lambda: FITS not in outer.rows()[-1]), outer.rows)
    outer.type(b"\x02?")
    is_narrow = outer.shows("list the keys; read the settings file again") and comes(
        lambda: not any(row[80:].strip() for row in outer.rows()))
    check("the keys fit 80 columns", is_narrow, outer.rows)
    subprocess.run(tool("mux", "kill", "other"), check=True)


@scene
def full(folder):
    """Sixteen terminals are accepted: another gets a message, and enters once one has left."""
    outer = Outer(tool("mux", "other"))
    outer.shows("$ ")
    links = [ClientLink(terminals_of("other"), False) for _ in range(15)]
    for link in links:
        link.connect()
    check("fifteen more are taken", all(link.begins(WAIT) for link in links), listed)
    late = Outer(tool("mux", "other"))
    full = "at most 16 terminals may attach"
    check("a seventeenth is told so", late.shows(f"{full}; next try in 1 s; C-c or q leaves"), late.rows)
    check("so is a send", said("send", "other", "a") == (1, "", f"mux: {full}\n"), said("send", "other", "a"))
    check("and a capture", said("capture", "other") == (1, "", f"mux: {full}\n"), said("capture", "other"))
    links[0].close()
    check("it comes in once one has left", late.shows("$ ") and late.status("[1]"), late.rows)
    for link in links:
        link.close()
    late.type(b"\x02d")
    check("and leaves", late.ends() and late.is_restored(), late.rows)
    subprocess.run(tool("mux", "kill", "other"), check=True)
