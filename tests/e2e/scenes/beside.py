"""Output of programs beside their screens: clipboard texts, and the effect of hostile control strings on a terminal."""
import base64
import random
import re
import socket
import time

from control_strings import controls
from tried import SESSION, Outer, check, comes, scene, terminals_of, tool
from roam_live.protocol.panes import CLIPBOARD
from scenes.machines import ssh_words

ON = {"ROAM_CLIPBOARD": "on"}
CLIP = b"\x1b]52;c;%s\x07"

# A program that writes a file's bytes to its pane, cut anywhere, and records its input until nothing comes for a second. Then it resets the
# pane, and sets a title, which RIS among the bytes may have removed.
WRITES = """\
import os, random, select, sys, termios, tty
text, noted = open(sys.argv[1], "rb").read(), b""
before = termios.tcgetattr(0)
tty.setraw(0)
chance = random.Random(1)
while text:
    cut = chance.randint(1, 200)
    os.write(1, text[:cut])
    text = text[cut:]
    while select.select([0], [], [], 0 if text else 1)[0]:
        noted += os.read(0, 4096)
open(sys.argv[2], "wb").write(noted)
os.write(1, b"\\030\\033\\\\\\033c\\033]2;left\\007")
termios.tcsetattr(0, termios.TCSAFLUSH, before)
"""

# The permitted output to a terminal: painting, the last row's frame, titles, shapes, clipboard texts, requested modes, and the colour
# queries.
WRITTEN = re.compile(
    r"[^\x00-\x1f\x7f-\x9f]|[\r\n\x07\x08\x0f]|\x1b(?:[78=>M]|\(B|\[(?:[0-9;]*[HmKJrABCDLMPXSTGd@b]|\??(?:25|7|1049|2004|1|5|6|4|20)[hl]"
    r"|\?100[0236][hl]|[0-6] q|2[23];2t|\?4m|>4;2m|>4m)|\]2;[^\x00-\x1f\x7f-\x9f]{0,200}\x07|\]52;c;[A-Za-z0-9+/]*=?=?\x07"
    r"|\]1[01];\?\x1b\\)")


def writes(folder, outer, text):
    """Let a program in a shell's pane write these bytes, and return its input."""
    script, path, noted = (folder / name for name in ("writes", "text", "noted"))
    script.write_text(WRITES, encoding="utf-8")
    path.write_bytes(text)
    noted.unlink(missing_ok=True)
    outer.type(f"python3 {script} {path} {noted}; echo do''ne\r".encode())
    check("and the shell is there again", outer.shows("done"), outer.rows)
    return noted.read_bytes()


def odd_in(written):
    """Return the first unexpected part of the output; nothing if there is none."""
    text, place = written.decode("utf-8", "surrogateescape"), 0
    while place < len(text):
        found = WRITTEN.match(text, place)
        if not found:
            return text[max(0, place - 40) : place + 60]
        place = found.end()
    return ""


@scene
def beside_hostile(folder):
    """Random control strings affect a terminal only by titles, shapes, modes of the mouse and texts."""
    outer = Outer(tool("mux", SESSION), environment=ON)
    outer.shows("$ ")
    chance = random.Random(7)
    text = b"".join(controls(chance) for _ in range(3000))
    answers = writes(folder, outer, text + b"\x1b]52;c;?\x07\x1b]52;c;?\x1b\\\xc2\x9d52;c;?\xc2\x9c")
    check("a question for the clipboard isn't answered", b"]52" not in answers and b"\xc2\x9d" not in answers, answers[-200:])
    odd = odd_in(bytes(outer.written))
    check(f"of {len(text)} bytes of control strings only what is meant comes to the terminal", not odd, repr(odd))
    titles = outer.written.count(b"\x1b]2;")
    check("titles among it", titles > 0, titles)
    outer.type(b"\x02d")
    check("which is left as it was", outer.ends() and outer.is_restored(), bytes(outer.written[-200:]))
    check("and has its title back", b"\x1b[23;2t" in outer.written[-400:], bytes(outer.written[-400:]))


def tells_clips(folder):
    """Return True if the server of a session's folder reports clipboard texts."""
    with socket.socket(socket.AF_UNIX) as peer:
        peer.connect(str(folder / "panes"))
        peer.sendall(f"{CLIPBOARD}\n".encode())
        time.sleep(0.3)
        return b"bad line" not in peer.recv(65536)


def sets(outer, text):
    """Let a shell in the focused pane set the clipboard."""
    outer.type(b"printf '\\033]52;c;%s\\007'\r" % base64.b64encode(text))
    # Once a second at most.
    time.sleep(1.2)


def has_set(outer, text):
    """Return True if a terminal's clipboard was set to a text."""
    return CLIP % base64.b64encode(text) in outer.written


@scene
def clipboard(folder):
    """A program sets the clipboard of the terminal whose last key went to it, if that is enabled, and no other one."""
    outer = Outer(tool("mux", SESSION), environment=ON)
    # The terminal has to know the pane that its keys go to.
    outer.begins()
    outer.status("[1]")
    if not tells_clips(terminals_of(SESSION).parent):
        print("skipped clipboard: this server tells no texts for it", flush=True)
        return
    other, off = (Outer(tool("mux", "attach", SESSION), environment=known) for known in (ON, {}))
    watcher = Outer(tool("mux", "watch", SESSION), environment=ON)
    for one in (other, off, watcher):
        one.shows("$ ")
    sets(outer, b"first")
    check("where it was chosen and the last key went", comes(lambda: has_set(outer, b"first")), bytes(outer.written[-200:]))
    off.type(b"true\r")
    sets(off, b"second")
    check("not where it wasn't chosen", not has_set(off, b"second") and not has_set(off, b"first"), bytes(off.written[-200:]))
    check("nor where no key went to it, or somebody watches", not any(has_set(one, b"first") for one in (other, watcher)), other.rows)
    outer.type(b"\x02%")
    outer.status(" 1 [2]")
    outer.type(b"\x02q1(sleep 3; printf '\\033]52;c;bGF0ZQ==\\007')&\r\x02q2true\r")
    time.sleep(5)
    check("nor by a pane that isn't in focus", not has_set(outer, b"late"), bytes(outer.written[-200:]))
    text = bytes(random.Random(1).randrange(256) for _ in range(98304))
    path = folder / "long"
    path.write_bytes(CLIP % base64.b64encode(text))
    outer.type(f"cat {path}\r".encode())
    check("131,072 characters come whole", comes(lambda: has_set(outer, text)), len(outer.written))
    check("and nothing else came to any terminal", not any(map(odd_in, (bytes(one.written) for one in Outer.made))), outer.rows)


@scene
def clipboard_far(folder):
    """A program of a remote session sets the clipboard here."""
    outer = Outer(ssh_words(folder, folder / "far", folder / "asked"), environment=ON)
    outer.shows("$ ")
    if tells_clips(folder / "far/roam/other/w/1"):
        # Another transport may take over now, and subscribers of panes reconnect.
        time.sleep(3)
        is_set = comes(lambda: sets(outer, b"from afar") or comes(lambda: has_set(outer, b"from afar"), 5))
        check("a text of another machine", is_set, bytes(outer.written[-200:]))
    else:
        print("skipped clipboard_far: this server tells no texts for it", flush=True)
    outer.type(b"exit\r")
    check("the session's end is told", outer.shows("[the session has ended]") and outer.ends(), outer.rows)
