"""Kills of the pty host and the holder while programs print and read: no program ends, and no byte is lost or doubled."""
import contextlib
import os
import random
import signal
import subprocess
import time

from tried import SESSION, Outer, check, comes, commands, noted, program, said, scene, tool
from scenes.endings import sessions_in_panes
from scenes.installed import NEWER, install

# A program that logs what it reads. For each p it prints groups of eight characters, the number of each in it, and logs those too.
PROGRAM_TEXT = """
import os, sys, termios, tty
tty.setraw(0)
read, printed, count = os.open(sys.argv[1], os.O_WRONLY | os.O_CREAT), os.open(sys.argv[2], os.O_WRONLY | os.O_CREAT), 0
os.write(1, b"\\x1b[2J\\x1b[H")
os.write(printed, b"\\x1b[2J\\x1b[H")
while True:
    keys = os.read(0, 4096)
    os.write(read, keys)
    for _ in range(keys.count(b"p")):
        text = b"".join(b"%07d " % one for one in range(count, count + 2500))
        count += 2500
        os.write(printed, text)
        while text:
            text = text[os.write(1, text):]
"""

# The kills of the gate, and their seed, or those that the environment names; the keys typed before and after each.
KILLS, SEED, KEYS = int(os.environ.get("TRIAL_KILLS", "8")), int(os.environ.get("TRIAL_SEED", "11")), 40

# The windows that are opened at most, and the seconds within which the host is killed.
WINDOWS, OPENS_SECONDS = 20, 0.5

# The seconds within which an upgrade is begun, checked and over.
UPGRADE_SECONDS = 0.6


def shown_by(path):
    """Return the rows of a screen of the pane's size behind the bytes in a file, as `roam show` gives them."""
    with path.open("rb") as file:
        words = [program(), "show", "--rows", "23", "--cols", "80"]
        lines = subprocess.run(words, stdin=file, stdout=subprocess.PIPE, check=True).stdout.decode().splitlines()
    return [line[1:-1].rstrip() for line in lines if line[:1] == "|"]


def typed(outer, chance):
    """Type some keys, of which one asks for output, and return them."""
    keys = bytes(chance.choice(b"abcdefghij") for _ in range(KEYS)) + b"p"
    outer.type(keys)
    return keys


def begun(folder):
    """Begin a session with the program, and return its terminal and the logs of what that reads and prints."""
    outer = Outer(tool("mux", SESSION))
    outer.begins()
    (folder / "program").write_text(PROGRAM_TEXT, encoding="ascii")
    paths = folder / "read", folder / "printed"
    outer.type(f"exec python3 {folder}/program {paths[0]} {paths[1]}\r".encode())
    check("a program reads", comes(lambda: paths[1].exists() and paths[1].stat().st_size > 0), outer.rows)
    return outer, paths


def check_logs(paths, keys):
    """Check that the program has read all keys once, in order, and that the screen shows what it printed."""
    is_read = comes(lambda: paths[0].read_bytes() == keys)
    check("each key is read once, in order", is_read, lambda: (len(paths[0].read_bytes()), len(keys)))
    size = keys.count(b"p") * 20_000 + 7
    comes(lambda: paths[1].stat().st_size == size)
    expected = shown_by(paths[1])
    check("what it printed is shown, no byte lost or doubled", comes(lambda: is_screen(captured(), expected)), captured)


@scene
def kills(folder):
    """The host or the holder is killed at a random moment of a burst, a few times. The programs go on with each byte, once."""
    outer, paths = begun(folder)
    own, chance, keys = commands(SESSION), random.Random(SEED), b""
    for count in range(KILLS):
        role = chance.choice(("host", "holder"))
        process = noted(SESSION)[role][0]
        keys += typed(outer, chance)
        time.sleep(chance.random() / 10)
        os.kill(process, signal.SIGKILL)
        keys += typed(outer, chance)
        is_there = comes(lambda role=role, process=process: noted(SESSION)[role][0] != process)
        check(f"kill {count + 1}: another {role} is there", is_there)
        check_logs(paths, keys)
    check("the program is the same", all(os.path.exists(f"/proc/{one}") for one in own) and own, own)
    subprocess.run(tool("mux", "kill", "-f", SESSION), check=True)


@scene
def killed_upgrades(folder):
    """A session is moved to and fro between two builds under bursts. Its host or holder is killed at a random moment of most upgrades."""
    os.environ.pop("ROAM", None)
    prefixes = folder / "one", folder / "two"
    install(prefixes[0])
    install(prefixes[1], NEWER)
    outer, paths = begun(folder)
    own, chance, keys = commands(SESSION), random.Random(SEED), b""
    for count in range(KILLS):
        roles = {role: noted(SESSION)[role][0] for role in ("host", "holder")}
        keys += typed(outer, chance)
        words = [str(prefixes[count % 2] / "bin/roam"), "mux", "upgrade", SESSION]
        upgrade = subprocess.Popen(words, stdin=subprocess.DEVNULL, stdout=subprocess.PIPE, stderr=subprocess.STDOUT)
        if count % 4:
            time.sleep(chance.random() * UPGRADE_SECONDS)
            with contextlib.suppress(ProcessLookupError):
                os.kill(roles[chance.choice(("host", "holder"))], signal.SIGKILL)
        keys += typed(outer, chance)
        told = upgrade.communicate()[0].decode()
        check(f"upgrade {count + 1} is over, in words", told.startswith((f"{SESSION}: ", "mux: ")) and "Traceback" not in told, told)
        check_logs(paths, keys)
    check("the program is the same", all(os.path.exists(f"/proc/{one}") for one in own) and own, own)
    subprocess.run(tool("mux", "kill", "-f", SESSION), check=True)


@scene
def asked_again(folder):
    """The host is killed while a command opens a window. The command asks the next one, and exactly one window is opened."""
    outer = Outer(tool("mux", SESSION))
    outer.begins()
    chance = random.Random(SEED)
    for count in range(min(KILLS, WINDOWS)):
        words = tool("mux", "new-window", "-n", f"n{count}", SESSION)
        opening = subprocess.Popen(words, stdin=subprocess.DEVNULL, stdout=subprocess.PIPE, stderr=subprocess.STDOUT)
        time.sleep(chance.random() * OPENS_SECONDS)
        host = noted(SESSION)["host"][0]
        os.kill(host, signal.SIGKILL)
        told = opening.communicate()[0].decode()
        check(f"window {count + 2} is opened", opening.returncode == 0 and told == f"{SESSION}:{count + 2}\n", told)
        check("another host is there", comes(lambda host=host: noted(SESSION)["host"][0] != host))
        lines = comes(lambda count=count: len(said("list-windows", SESSION)[1].splitlines()) == count + 2)
        check("and no other window", lines, lambda: said("list-windows", SESSION))
    has_shells = comes(lambda: len(sessions_in_panes(SESSION)) == min(KILLS, WINDOWS) + 1)
    check("each has one shell", has_shells, lambda: sessions_in_panes(SESSION))
    subprocess.run(tool("mux", "kill", "-f", SESSION), check=True)


def captured():
    """Return the text of the screen."""
    return said("capture", SESSION)[1]


def is_screen(text, rows):
    """Return True if the text of a screen has these rows first."""
    return [row.rstrip() for row in text.splitlines()][: len(rows)] == rows != []
