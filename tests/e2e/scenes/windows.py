"""Windows of a session at a user's terminal.

Input goes to the current window, whatever is stopped, and another window replaces one that is gone.
"""
import json
import os
import pathlib
import random
import signal
import subprocess

from tried import SESSION, Outer, check, children, comes, commands, noted, said, scene, tool
from scenes.machines import ssh_words

# The number of switches, with keys before and after each in one piece, and their seed. The seconds for all of them.
SWITCHES = 200
SEED = 7
LONGEST = 120.0

# A command that records all input in a window.
KEEPS = "stty raw -echo; echo ke''eps; cat >{}\r"


def is_at(outer, window):
    """Return True if a terminal is at a window in time, by its last row. The program's name is looked up a moment later, and maybe too
    soon.
    """
    return comes(lambda: any(word.startswith(f"{window}:") and word.endswith("*") for word in outer.rows()[-1].split()))


def opened(outer, window, path):
    """Open a window that records all input in a file, by keys in one piece; the first one exists."""
    outer.type((b"\x02c" if window > 1 else b"") + KEEPS.format(path).encode())
    check(f"what is typed behind a window that is opened is for it: {window}", is_at(outer, window) and outer.shows("keeps"), outer.rows)


def typed_in(path):
    """Return the input of a window."""
    return path.read_text(encoding="utf-8") if path.exists() else ""


class Person:
    """A user's window by the typed keys, and the input there."""

    def __init__(self, windows):
        self.windows, self.here, self.before = windows, windows[-1], windows[-2]
        self.typed = {window: "" for window in windows}

    def go(self, window):
        """Go from one window to another."""
        if window != self.here:
            self.here, self.before = window, self.here

    def switch(self, chance):
        """Return keys that go to some window."""
        place, count = self.windows.index(self.here), len(self.windows)
        key, window = chance.choice((("n", self.windows[(place + 1) % count]), ("p", self.windows[place - 1]), ("l", self.before),
                                     *((str(window), window) for window in self.windows)))
        self.go(window)
        return f"\x02{key}"

    def types(self, text):
        """Type a text in the current window."""
        self.typed[self.here] += text
        return text

    def pastes(self, text):
        """Paste a text there like the terminal."""
        return f"\x1b[200~{self.types(text)}\x1b[201~"


def switched(folder, words, count):
    """Type switches with keys and pastes in one piece around each, at a terminal with a tool on it: none is lost, and none goes to another
    window. Return the terminal.
    """
    paths = {window: folder / f"window{window}" for window in (1, 2, 3)}
    outer, chance = Outer(words), random.Random(SEED)
    check("a session has a window", outer.status("[1] 1:"), outer.rows)
    for window, path in paths.items():
        opened(outer, window, path)
    person = Person(list(paths))
    for number in range(count):
        chunks = [person.types(f"<{number}a>"), person.switch(chance), person.types(f"<{number}b>")]
        for _ in range(chance.randrange(3)):
            chunks += [person.switch(chance), person.types(f"<{number}c>")]
            if chance.random() < 0.2:
                chunks += [person.pastes(f"[{number}{'p' * chance.choice((9, 60, 3000))}]"), person.types(f"<{number}d>")]
        outer.type("".join(chunks).encode())
    for window, path in paths.items():
        wanted = person.typed[window]
        is_typed = comes(lambda: typed_in(path) == wanted, LONGEST)
        check(f"window {window} has all that was typed there, in order, and nothing else", is_typed,
              lambda: differs(typed_in(path), wanted))
    check("the last row has the windows", outer.status("[1] 1:"), outer.rows)
    return outer


@scene
def window_switches(folder):
    """Two hundred switches in a session of this machine."""
    switched(folder, tool("mux", SESSION), SWITCHES)


@scene
def window_switches_far(folder):
    """The same number in a remote session, over its relays."""
    outer = switched(folder, ssh_words(folder, folder / "far", folder / "asked"), SWITCHES)
    outer.type(b"\x02d")
    check("a front end leaves", outer.ends() and outer.is_restored(), outer.rows)
    for name in [path.name for path in pathlib.Path(os.environ["XDG_RUNTIME_DIR"], "roam").glob("ssh:*")]:
        said("kill", "-f", name)
    there = {**os.environ, "XDG_RUNTIME_DIR": str(folder / "far")}
    subprocess.run(tool("mux", "kill", "-f", "other"), env=there, stdout=subprocess.DEVNULL, stderr=subprocess.DEVNULL, check=False)


def window_process(window, role):
    """Return a process of a window."""
    path = pathlib.Path(os.environ["XDG_RUNTIME_DIR"], "roam", SESSION, "w", str(window), "state.json")
    return json.loads(path.read_text(encoding="utf-8"))[role][0]


def two_windows(folder):
    """Return a terminal at the second of two windows that record all input in files."""
    paths = [folder / f"window{window}" for window in (1, 2)]
    outer = Outer(tool("mux", SESSION))
    outer.status("[1] 1:")
    for window, path in enumerate(paths, 1):
        opened(outer, window, path)
    return outer, paths


@scene
def window_stopped(folder):
    """A stopped host or client does not block typing, window switches or a detach; all input arrives in its window once the process
    continues.
    """
    outer, paths = two_windows(folder)
    host = noted(SESSION)["host"][0]
    os.kill(host, signal.SIGSTOP)
    outer.type(b"tw\x021on\x02ce\r")
    check("who opens a window is told that nobody answers, and what becomes of what was typed for it",
          outer.status("no window is open yet: the pty host does not answer; keys for it were dropped"), outer.rows)
    outer.type(b"e\x02lo")
    check("he goes from one to another meanwhile", is_at(outer, 2), outer.rows)
    os.kill(host, signal.SIGCONT)
    wanted = ["one", "two"]
    check("what he typed comes where he was", comes(lambda: [typed_in(path) for path in paths] == wanted), [*map(typed_in, paths)])
    # That line would stay until the report that no keys are taken.
    check("the window is there a moment later: its label stands in the last row", comes(lambda: "3:" in outer.rows()[23]), outer.rows)
    client = window_process(2, "client")
    os.kill(client, signal.SIGSTOP)
    outer.type(b" t\x021 o\x022wo")
    is_blank = comes(lambda: "1:" in outer.rows()[23] and not outer.rows()[0].strip())
    check("a window that isn't painted shows nothing of the one before", is_blank, outer.rows)
    outer.type(b"\x021ne\x02d")
    check("he leaves", outer.ends() and outer.is_restored(), outer.rows)
    os.kill(client, signal.SIGCONT)
    wanted = ["one one", "two two"]
    check("what was typed is taken then", comes(lambda: [typed_in(path) for path in paths] == wanted), [*map(typed_in, paths)])


@scene
def window_kills(folder):
    """A window whose server is killed gives way to the one before; another host replaces a killed one and has the windows; the last
    window's end is the session's.
    """
    outer, paths = two_windows(folder)
    os.kill(window_process(2, "server"), signal.SIGKILL)
    outer.type(b"")
    # The host reports that end too, maybe before the front end's own line.
    is_told = outer.was_told("window 2 is gone", "window 2: its server was killed, or has failed")
    is_back = is_told and is_at(outer, 1) and outer.status("[1] 1:")
    check("the one before is shown", is_back, lambda: (outer.rows(), bytes(outer.written[-3000:])))
    outer.type(b"here")
    check("and typed in", comes(lambda: typed_in(paths[0]) == "here"), lambda: typed_in(paths[0]))
    host = noted(SESSION)["host"][0]
    os.kill(host, signal.SIGKILL)
    check("another host comes", comes(lambda: noted(SESSION)["host"][0] != host), lambda: noted(SESSION))
    outer.type(b" there")
    check("a window's program goes on", comes(lambda: typed_in(paths[0]) == "here there"), lambda: typed_in(paths[0]))
    # The front end may still be without the new host, and then asks for a window for some seconds only.
    check("one more is opened", comes(lambda: outer.type(b"\x02c") or outer.status("[1] 1:cat- 2:sh*", 15)), outer.rows)
    begin = len(outer.written)
    outer.type(b"exit\r")
    check("a shell's end is its window's", outer.was_told("window 2 is gone", begin=begin) and outer.status("[1] 1:cat*"), outer.rows)
    os.kill(children(commands(SESSION)[0])[0], signal.SIGTERM)
    outer.status("[1] 1:sh*")
    # Its terminal is still raw.
    outer.type(b"exit\n")
    check("that of the last is the session's", outer.ends() and outer.process.returncode == 0, outer.rows)
    check("which is told", outer.was_told("[the session has ended]"), lambda: bytes(outer.written[-80:]))


@scene
def window_each(folder):
    """Each terminal has a window and a last row of its own. One sees the other's window names and events, and may detach it."""
    first = Outer(tool("mux", SESSION))
    first.shows("1:sh*")
    second = Outer(tool("mux", SESSION), (20, 60))
    second.shows("1:sh*")
    second.type(b"\x02cecho ow''n\r")
    check("one opens a window, and the other stays where it is", second.status("[1] 1:sh- 2:sh*") and second.shows("own") and
          first.status("[1] 1:sh* 2:sh") and not any("own" in row for row in first.rows()), first.rows)
    second.type("\x02,\x15hé中\x1b]0;x\x07\r".encode())
    second.type("\x02,\x15hé中\r".encode())
    check("a name is shown at both", second.status("[1] 1:sh- 2:hé中*") and first.status("[1] 1:sh* 2:hé中"), first.rows)
    second.type(b"\x021")
    second.status("[1] 1:sh* 2:")
    # The bell comes once the host knows that the window is empty.
    first.type(b"\x022sleep 3; printf '\\a'; echo lou''d\r\x021")
    is_told = all(outer.status("[1] 1:sh* 2:hé中#!-") for outer in (first, second))
    check("a bell in a window where nobody is rings at both", is_told, (first.rows()[-1], second.rows()[-1]))
    check("with the terminal's own", first.was_told("\x07") and second.was_told("\x07"), second.rows)
    second.type(b"\x022")
    check("until one is there", second.shows("loud") and second.status("[1] 1:sh- 2:hé中*"), second.rows)
    first.type(b"\x02D")
    check("one has the other leave", first.status("1 other terminal detached") and second.ends() and second.is_restored(), first.rows)
    check("which is told", second.was_told("[detached by another terminal]"), lambda: bytes(second.written[-80:]))
    for rows in (24, 23):
        first.type(b"\x02t")
        is_sized = comes(lambda: f"{rows} by 80" in said("list-windows", SESSION)[1].partition("\n")[0])
        check(f"the window has the last row, or not: {rows}", is_sized, lambda: said("list-windows", SESSION))
        is_shown = first.has_size(rows, 80) and comes(lambda: ("2:" in first.rows()[23]) == (rows == 23))
        check("so have its programs, and the terminal", is_shown, first.rows)
    first.type(b"\x02d")
    check("it leaves", first.ends() and first.is_restored(), first.rows)


def differs(seen, wanted):
    """Return the position of the first difference of two texts."""
    place = next((at for at, (one, other) in enumerate(zip(seen, wanted)) if one != other), min(len(seen), len(wanted)))
    return f"at {place} of {len(wanted)}, {seen[place - 20 : place + 40]!r} for {wanted[place - 20 : place + 40]!r}"


@scene
def begun_with(folder):
    """A command in a new pane or window, by C-b :, by a key of roam.conf and from outside; unsupported parts are refused."""
    path = folder / "config/roam/roam.conf"
    path.parent.mkdir(parents=True)
    path.write_text("bind H split-window -h 'echo by-a-key; cat'\nbind e new-window -n ed sh\n", encoding="utf-8")
    outer = Outer(tool("mux", SESSION), environment={"XDG_CONFIG_HOME": str(folder / "config")})
    outer.begins()
    outer.type(b"\x02H")
    check("a key of roam.conf runs a command in a new pane", outer.shows("by-a-key") and outer.status(" 1 [2]"), outer.rows)
    outer.type(b"\x02z")
    check("a pane is zoomed", comes(lambda: not any("\u2502" in row for row in outer.rows())), outer.rows)
    outer.type(b"\x02:split-window -d -c /usr cat -; send-keys behind\r")
    check("C-b : does, beside the pane that stays in focus", outer.status(" 1 [2] 3") and outer.shows("behind"), outer.rows)
    told = said("cmd", SESSION, "split-window", "-c", "/etc", "pwd; exec cat")
    check("so does mux cmd, in a folder", told == (0, "", "") and outer.shows("/etc"), told)
    told = said("cmd", SESSION, "split-window", "-c", "/no/folder", "cat")
    check("a folder that isn't there is told, and nothing split", told[0] == 1 and "the directory does not exist" in told[2], told)
    told = said("cmd", SESSION, "split-window", "-l", "5", "cat")
    check("so is a flag that isn't done", told == (1, "", "mux: split-window: unknown flag -l\n"), told)
    check("and no pane came", comes(lambda: "4 panes" in said("list-windows", SESSION)[1]), lambda: said("list-windows", SESSION))
    outer.type(b"\x02e")
    check("a key opens a window with a name", outer.shows("2:ed*"), outer.rows)
    outer.type(b"\x02:neww -d -n logs -c /usr 'pwd; exec cat'\r")
    check("-d opens one and stays", outer.shows("window 3 is open now"), outer.rows)
    is_there = comes(lambda: "/usr" in said("capture", f"{SESSION}:3")[1] and "logs" in said("list-windows", SESSION)[1])
    check("whose command runs in its folder, under its name", is_there, lambda: said("list-windows", SESSION))
    subprocess.run(tool("mux", "kill", "-f", SESSION), check=True)


@scene
def host_stopped(folder):
    """If the pty host is stopped a user who types sees a message, and all input arrives once it continues."""
    outer = Outer(tool("mux", SESSION))
    outer.begins()
    host = noted(SESSION)["host"][0]
    os.kill(host, signal.SIGSTOP)
    outer.type(b"echo la''ter\r")
    check("that it is stopped is told in some seconds", outer.shows("the pty host is stopped"), outer.rows)
    os.kill(host, signal.SIGCONT)
    check("what was typed comes then", outer.shows("later"), outer.rows)
    subprocess.run(tool("mux", "kill", "-f", SESSION), check=True)
