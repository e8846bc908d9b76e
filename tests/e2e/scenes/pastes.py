"""Pastes: in one piece and at their position, bracketed if a program wants that; and their fate if a process ends."""
import json
import os
import pathlib
import random
import signal
import subprocess
import time

from tried import KEEPS_NONE, WAIT, Outer, check, comes, folder_of, is_missing, noted, said, scene, tool, window_of
from scenes.machines import kill_far_ends, ssh_words
from scenes.mouse import Modes
from roam_live.protocol.panes import BRACKETED
from roam_live.session.foreground import busy_panes

# The number of pastes with keys around each, and the bytes of a timed one.
PASTES = 100
LENGTHS = (20_000, 1_000_000)

OPENS, CLOSES = b"\x1b[200~", b"\x1b[201~"

# A shell with bracketed paste, and a command that writes a pane's input into a file.
BASH = b"PS1='b> ' exec bash --norc --noprofile -i\r"
LINES = "echo on''e{pad}\necho tw''o{pad}"

# A configuration of vim with bracketed paste for any terminal name.
VIMRC = r"""set nocompatible autoindent
let &t_BE = "\<Esc>[?2004h"
let &t_BD = "\<Esc>[?2004l"
let &t_PS = "\<Esc>[200~"
let &t_PE = "\<Esc>[201~"
"""


def pasted(text):
    """Return a text in the form that a terminal pastes."""
    return OPENS + (text.encode() if isinstance(text, str) else text) + CLOSES


def reads(outer, path, modes=""):
    """Read a pane's bytes raw into a file, by a program that requested these modes."""
    outer.type(f"clear; stty raw -echo; printf '{modes}re''ady'; exec cat > {path}\r".encode())
    outer.shows("ready")
    comes(path.exists)


def has(path, text, seconds=WAIT):
    """Return True if a file gets exactly these bytes in time."""
    return comes(lambda: path.exists() and path.stat().st_size >= len(text), seconds) and path.read_bytes() == text


def waits_for_return(outer, name, folder):
    """Two pasted lines wait for Return in a shell with bracketed paste, typed as acts or by a placeholder."""
    modes = Modes(folder)
    for form, pad in (("short", ""), ("long", f" {'#' * 40}")):
        outer.type(b"clear\r")
        # It has no bracketed paste while it runs a command, and its request is reported beside the painting.
        comes(lambda: outer.rows()[0].startswith("b> ") and not any(row.strip() for row in outer.rows()[1:-1]))
        comes(lambda: BRACKETED in modes.of(1))
        time.sleep(0.3)
        outer.type(pasted(LINES.format(pad=pad)))
        is_typed = outer.shows("tw''o")
        time.sleep(1)
        check(f"{name}: two pasted lines, {form}, wait", is_typed and not any(row.startswith("one") for row in outer.rows()), outer.rows)
        outer.type(b"\r")
        check("until Return", comes(lambda: any(row.startswith("two") for row in outer.rows())), outer.rows)


def pasted_in_vim(outer, folder):
    """Vim takes a paste literally."""
    if is_missing("a paste into vim", "vim"):
        return
    path = folder / "text"
    (folder / "vimrc").write_text(VIMRC, encoding="utf-8")
    text = "".join(f"{' ' * (4 * k)}line {k} \u00e9\u4e2d {{\n" for k in range(12))
    outer.type(f"vim -u {folder / 'vimrc'} {path}\r".encode())
    outer.shows("~  ")
    outer.type(b"i")
    outer.shows("INSERT")
    time.sleep(1)
    outer.type(pasted(text))
    outer.shows("line 11")
    outer.type(b"\x1b")
    time.sleep(0.5)
    outer.type(b":wq\r")
    check("vim with autoindent gets a paste as it is", has(path, (text + "\n").encode()), outer.rows)


@scene
def paste_lines(folder):
    """Two pasted lines wait for Return in bash, and vim takes a paste literally; a paste is neither a binding nor an answer."""
    if is_missing("pastes at a prompt", "bash"):
        return
    outer = Outer(tool("mux", "other"), environment=KEEPS_NONE)
    outer.shows("$ ")
    outer.type(BASH)
    outer.shows("b> ")
    waits_for_return(outer, "bash", window_of("other"))
    outer.type(b"\x15\x02%")
    outer.status(" 1 [2]")
    outer.type(b"sleep 1000\r")
    # Without a program there C-b x closes the pane.
    comes(lambda: busy_panes(str(folder_of("other"))) == {2: "sleep"})
    outer.type(b"\x02x")
    check("a question stands", outer.status("close sleep in pane 2?"), outer.rows)
    outer.type(pasted("y" * 50 + "\n"))
    check("to which a paste is a no", outer.status("not pasted: a question was open"), outer.rows)
    outer.type(b"\x03\x02[\x1b[A")
    outer.status("1 rows back")
    outer.type(pasted("echo pas''ted" + " " * 40) + b"\r")
    check("it ends the scroll mode", outer.shows("pasted") and outer.status(" 1 [2]"), outer.rows)
    watcher = Outer(tool("mux", "watch", "other"))
    watcher.shows("pasted")
    watcher.type(pasted("never" * 20))
    check("a terminal that watches says so", watcher.status("not pasted: this terminal is read-only"), watcher.rows)
    pasted_in_vim(outer, folder)
    subprocess.run(tool("mux", "kill", "-f", "other"), check=True)


@scene
def paste_speed(folder):
    """Large pastes arrive whole, and soon."""
    outer = Outer(tool("mux", "other"))
    outer.shows("$ ")
    path = folder / "pasted"
    reads(outer, path, r"\033[?2004h")
    whole = b""
    for length in LENGTHS:
        text = bytes(random.Random(length).choices(range(0x20, 0x7F), k=length))
        whole += pasted(text)
        begun = time.monotonic()
        outer.type(pasted(text))
        check(f"a paste of {length} bytes arrives whole, between brackets", has(path, whole), path.stat().st_size)
        print(f"        in {time.monotonic() - begun:.2f} s", flush=True)
    outer.type(pasted("a\x1b[20\x1b[A\x07\x9b201~\tb" + "c" * 50))
    check("no control character comes in one", has(path, whole + pasted("a[20[A201~\tb" + "c" * 50)), path.read_bytes()[-80:])
    subprocess.run(tool("mux", "kill", "-f", "other"), check=True)


def out_of_order(got, texts, keys):
    """Return the first of a terminal's keys and pastes that is out of order, and the bytes in its place. Nothing if all are in order, with
    another's keys between them and in none of them.
    """
    place = 0
    for text, key in zip(texts, keys):
        for part in (key, text):
            found = got.find(part, place)
            if found < 0 or got[place:found].strip(b".,"):
                return f"{key!r}, {len(text)} bytes: {part[:80]!r} isn't next in {got[max(0, place - 80) : place + 200]!r}"
            place = found + len(part)
    return repr(got[place:]) if got[place:].strip(b".,") else ""


@scene
def paste_order(folder):
    """A hundred pastes with keys around each, while a second terminal types here and a third over `mux ssh`: each is in one piece, and the
    terminal's whole input is in order.
    """
    folder = folder / "o"
    folder.mkdir()
    far, path = folder / "far", folder / "got"
    outer = Outer(ssh_words(folder, far, folder / "asked"))
    outer.shows("$ ")
    beside = Outer(tool("mux", "attach", "other"), environment={"XDG_RUNTIME_DIR": str(far)})
    beside.shows("$ ")
    reads(outer, path)
    chance = random.Random(7)
    for name, types, others in (("over mux ssh", outer, beside), ("there", beside, outer)):
        before = path.stat().st_size
        texts = [bytes(chance.choices(range(0x30, 0x7A), k=chance.choice((20, 100, 700)))) for _ in range(PASTES)]
        keys = [f"<{number}>".encode() for number in range(PASTES)]
        for text, key in zip(texts, keys):
            types.type(key + pasted(text))
            others.type(b"." if types is outer else b",")
            time.sleep(0.02)
        types.type(b"<end>")
        comes(lambda: path.read_bytes().rstrip(b".,").endswith(b"<end>"))
        got = path.read_bytes()[before:]
        odd = out_of_order(got, [*texts, b""], [*keys, b"<end>"])
        check(f"{PASTES} pastes {name}, in order and in one piece each", not odd, lambda odd=odd: (odd, types.rows()[-1]))
        is_all = comes(lambda: sum(map(path.read_bytes()[before:].count, (b".", b","))) == PASTES)
        check("and every key beside them", is_all, lambda: path.read_bytes()[before:][-200:])
    outer.type(b"\x02d")
    outer.ends()
    subprocess.run(tool("mux", "kill", "-f", "other"), env={**os.environ, "XDG_RUNTIME_DIR": str(far)}, check=True)


def has_keys_listed(outer):
    """Return True if C-b ? lists the keys in time. The front end has read what was typed before then. Another key ends the list."""
    outer.type(b"\x02?")
    is_listed = outer.shows("list the keys")
    outer.type(b"q")
    return is_listed and comes(lambda: not any("list the keys" in row for row in outer.rows()))


@scene
def paste_lost(folder):
    """If the pty host is stopped a paste and later input wait; if it is killed the next one types them; C-c drops waiting input."""
    outer, path = Outer(tool("mux", "other")), folder / "got"
    outer.begins()
    reads(outer, path)
    host = noted("other")["host"][0]
    os.kill(host, signal.SIGSTOP)
    text = b"x" * 5000
    outer.type(b"<" + pasted(text) + b">")
    check("while the host is stopped the front end goes on", has_keys_listed(outer), outer.rows)
    os.kill(host, signal.SIGCONT)
    check("once it is continued all comes, in order", has(path, b"<" + text + b">"), path.read_bytes)
    os.kill(host, signal.SIGSTOP)
    outer.type(pasted(text) + b"a")
    has_keys_listed(outer)
    outer.type(b"\x03")
    check("a C-c drops a paste that waits", outer.status("the waiting pastes were dropped"), outer.rows)
    os.kill(host, signal.SIGCONT)
    check("and comes, without the keys behind the paste", has(path, b"<" + text + b">\x03"), path.read_bytes)
    os.kill(host, signal.SIGSTOP)
    outer.type(pasted("echo ne''ver" + " " * 40 + "\n"))
    has_keys_listed(outer)
    os.kill(host, signal.SIGKILL)
    expected = b"<" + text + b">\x03" + b"echo ne''ver" + b" " * 40 + b"\r"
    check("where the host is killed the next one types it, once", has(path, expected), path.read_bytes)
    outer.type(pasted(b"y" * 100) + b"z")
    check("and the next paste", has(path, expected + b"y" * 100 + b"z"), path.read_bytes)
    subprocess.run(tool("mux", "kill", "-f", "other"), check=True)


@scene
def paste_far(folder):
    """Over `mux ssh` pastes are bracketed if the program there wants that, short ones too; they continue after the far end is killed."""
    if is_missing("pastes at a prompt", "bash"):
        return
    folder = folder / "p"
    folder.mkdir()
    far, path = folder / "far", folder / "got"
    outer = Outer(ssh_words(folder, far, folder / "asked"))
    outer.shows("$ ")
    outer.type(BASH)
    outer.shows("b> ")
    waits_for_return(outer, "over mux ssh", far / "roam/other/w/1")
    reads(outer, path, r"\033[?2004h")
    text = bytes(random.Random(3).choices(range(0x20, 0x7F), k=200_000))
    begun = time.monotonic()
    outer.type(pasted(text))
    check("200,000 bytes arrive whole", has(path, pasted(text)), path.stat().st_size)
    print(f"        in {time.monotonic() - begun:.2f} s", flush=True)
    here = next(pathlib.Path(os.environ["XDG_RUNTIME_DIR"], "roam").glob("ssh:*"))
    keys = b""
    for number in range(3):
        outer.type(b"%d" % number + pasted(text))
        keys += b"%d" % number + pasted(text)
        time.sleep(0.02 * number)
        kill_far_ends(far)
        outer.type(b"%d" % number)
        keys += b"%d" % number
        check(f"{number}: cut and joined again it comes once, at its place", has(path, pasted(text) + keys), path.stat().st_size)
    check("and the relay here is the one that was", json.loads((here / "state.json").read_text(encoding="utf-8"))["relay"], here)
    outer.type(b"\x02d")
    outer.ends()
    subprocess.run(tool("mux", "kill", "-f", "other"), env={**os.environ, "XDG_RUNTIME_DIR": str(far)}, check=True)


def fed(words, text):
    """Return the status of `mux` with these words and a text as input, and its standard error."""
    run = subprocess.run(tool("mux", *words), input=text, stdout=subprocess.PIPE, stderr=subprocess.PIPE, check=False)
    return run.returncode, run.stderr.decode()


@scene
def paste_words(folder):
    """`mux paste` and `mux send -l` type a text in one piece, and NAME.P is a pane for typing, captures and ends."""
    outer = Outer(tool("mux", "other"))
    outer.shows("$ ")
    paths = [folder / name for name in ("one", "two")]
    outer.type(b"\x02%")
    outer.status(" 1 [2]")
    for keys, path in ((b"\x02q1", paths[0]), (b"\x02q2", paths[1])):
        outer.type(keys)
        reads(outer, path, r"\033[?2004h")
    text = b"a\r\n\x1b[31mred\x1b[201~\tb\x00" + bytes(random.Random(9).choices(range(0x20, 0x7F), k=50_000))
    plain = text.replace(b"\r\n", b"\r").replace(b"\x00", b"")
    ways = ((["other.1"], paths[0], plain.replace(b"\x1b", b"")), (["--raw", "other"], paths[1], plain.replace(CLOSES, b"")))
    for words, path, wanted in ways:
        told = fed(["paste", *words], text)
        check(f"mux paste {' '.join(words)}", told == (0, "") and has(path, pasted(wanted)), told)
    check("mux send -l NAME.1 TEXT", said("send", "-l", "other.1", "t\u00e9", "xt") == (0, "", ""), said("ls"))
    check("has no brackets", comes(lambda: paths[0].read_bytes().endswith(CLOSES + "t\u00e9xt".encode())), paths[0].read_bytes)
    check("mux send -a NAME.1 ACT", said("send", "-a", "other.1", "char 41", "key up") == (0, "", ""), said("ls"))
    check("types there", comes(lambda: paths[0].read_bytes().endswith(b"A\x1b[A")), paths[0].read_bytes)
    check("and the focus is where it was", outer.status(" 1 [2]"), outer.rows)
    told = said("capture", "other.1")
    check("mux capture NAME.1 prints that pane", told[0] == 0 and told[1].split("\n")[0] == "ready" and "\u2502" not in told[1], told)
    check("a pane that isn't there is told of", fed(["paste", "other.7"], b"x") == (1, "mux: session other has no pane 7\n"), said("ls"))
    check("nothing to be pasted too", fed(["paste", "other"], b"\0") == (1, "mux: there is nothing to type\n"), said("ls"))
    told = said("kill", "other.1")
    is_refused = told[0] == 1 and "runs cat in pane 1; `mux kill -f other.1`" in told[2]
    check("mux kill NAME.P asks where something else than a shell runs", is_refused, told)
    check("and closes it by -f", said("kill", "-f", "other.1") == (0, "", "") and outer.status("[2]"), outer.rows)
    told = said("kill", "-f", "other.2")
    check("but the last one", told == (1, "", "mux: pane 2 is the last one, and ends with its session\n"), told)
    subprocess.run(tool("mux", "kill", "-f", "other"), check=True)


@scene
def focus_told(folder):
    """A program with focus reports gets one for each change."""
    outer, path = Outer(tool("mux", "other")), folder / "got"
    outer.shows("$ ")
    outer.type(b"\x02%")
    outer.status(" 1 [2]")
    outer.type(b"\x02q1")
    reads(outer, path, r"\033[?1004h")
    time.sleep(0.5)
    for keys, wanted in ((b"\x02q2", b"\x1b[O"), (b"\x02q1", b"\x1b[O\x1b[I"), (b"\x02o\x02o", b"\x1b[O\x1b[I\x1b[O\x1b[I")):
        outer.type(keys)
        # Two changes may pass between two looks of the server, and are no change then.
        comes(lambda: path.read_bytes().startswith(wanted), 10 if keys.count(b"o") else WAIT)
        time.sleep(0.3)
        got = path.read_bytes()
        is_told = got == wanted or keys.count(b"o") and got in (wanted, wanted[:6])
        check(f"{keys!r} is reported", is_told, got)
    subprocess.run(tool("mux", "kill", "-f", "other"), check=True)
