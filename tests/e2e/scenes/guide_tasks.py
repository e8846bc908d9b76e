"""Twenty tasks of the guide, done at a terminal by the keys and commands that its pages name."""
import base64
import os
import signal
import subprocess
import time

from tried import check, comes, outside_gate, scene
from scenes.guide import Home, end_all

PREFIX = b"\x02"
VI = "set -g mode-keys vi\n"


class Tasks:
    """A user at a terminal with one task after the other."""

    def __init__(self, home):
        self.home, self.number, self.outer = home, 0, None

    def attach(self, command="roam mux work", size=(24, 80)):
        """Attach at a new terminal, which gets the keys from now on."""
        self.outer = self.home.terminal(command, size)
        self.outer.shows("[1]")
        comes(lambda: self.outer.rows()[0].startswith("$"))
        return self.outer

    def settings(self, text):
        """Write the settings file."""
        file = self.home.home / ".config/roam/roam.conf"
        file.parent.mkdir(parents=True, exist_ok=True)
        file.write_text(text, encoding="utf-8")

    def keys(self, *keys):
        """Type keys, each after the prefix."""
        for key in keys:
            self.outer.type(PREFIX + key)

    def line(self, text):
        """Type a line at a shell."""
        self.outer.type(text.encode() + b"\r")

    def done(self, task, holds, seen=""):
        """Check a task."""
        self.number += 1
        check(f"{self.number}. {task}", holds, seen or self.outer.rows)

    def clipboard(self, text):
        """Return True if the terminal's clipboard is set to a text in time."""
        wanted = b"\x1b]52;c;" + base64.b64encode(text.encode())
        return comes(lambda: wanted in self.outer.written)


def panes_and_windows(tasks):
    """Getting started; Windows, panes, zoom."""
    tasks.attach()
    tasks.keys(b"d")
    ended = tasks.outer.ends()
    tasks.done("detach and come back", ended and tasks.home.run("roam mux ls")[1].startswith("work") and tasks.attach())
    tasks.keys(b"%", b'"')
    tasks.done("split a pane twice", tasks.outer.status(" 1  2 [3]"))
    tasks.keys(b"z")
    zoomed = tasks.outer.status(" 1  2 [3] Z")
    tasks.keys(b"z")
    tasks.done("zoom a pane, and back", zoomed and comes(lambda: " Z" not in tasks.outer.rows()[-1]))
    tasks.keys(b"c", b",\x15build\r")
    named = tasks.outer.shows("2:build*")
    tasks.keys(b"w")
    listed = tasks.outer.shows("window 2, of 2")
    tasks.outer.type(b"q")
    tasks.done("open a window, name it and find it in the list", named and listed)
    tasks.keys(b"p")
    tasks.outer.shows("1:sh*")
    tasks.keys(b":setw synchronize-panes\r")
    tasks.line("echo to''all > synchronized; cat synchronized")
    at_all = comes(lambda: sum(row.count("toall") for row in tasks.outer.rows()) >= 2)
    tasks.keys(b":setw synchronize-panes off\r")
    tasks.done("type into all panes", at_all)
    tasks.line("sleep 100")
    comes(lambda: "sleep" in tasks.home.run("roam mux list-windows work")[1])
    tasks.keys(b"x")
    asked = tasks.outer.shows("close sleep in pane 3? y closes it")
    tasks.outer.type(b"y")
    tasks.done("close a pane with a program in it", asked and tasks.outer.status(" 1 [2]"))
    tasks.keys(b"x")
    tasks.outer.status("[1]")


def several_terminals(tasks):
    """Test sizes, read-only terminals, and detaching others."""
    first = tasks.outer
    small = tasks.attach("roam mux work", (12, 40))
    part = small.shows("C-b r fits")
    tasks.keys(b"r")
    tasks.done("attach from a terminal of half the size, and fit the session to it",
               part and comes(lambda: "11 by 40" in tasks.home.run("roam mux ls")[1]), tasks.home.run("roam mux ls"))
    tasks.keys(b"d")
    small.ends()
    tasks.outer = first
    tasks.keys(b"r")
    comes(lambda: "23 by 80" in tasks.home.run("roam mux ls")[1])
    watcher = tasks.home.terminal("roam mux watch work")
    watcher.shows("[1]")
    watcher.type(b"echo ty''ped\r")
    tasks.line("echo se''en")
    tasks.done("watch a session without typing there", watcher.shows("seen") and not any("typed" in row for row in watcher.rows()))
    tasks.keys(b"D")
    tasks.done("detach all other terminals", watcher.ends())


def copying(tasks):
    """Copy mode and scrollback; Mouse and clipboard."""
    tasks.settings(VI)
    tasks.keys(b"R")
    tasks.outer.shows("roam.conf was read")
    tasks.line("clear; seq -f 'line %g' 1 5000")
    tasks.outer.shows("line 5000")
    tasks.keys(b"[")
    tasks.outer.shows("copy mode")
    tasks.outer.type(b"?line 2000\r")
    found = comes(lambda: any(row.startswith("line 2000") for row in tasks.outer.rows()))
    tasks.outer.type(b"V\r")
    tasks.done("copy a line from 3,000 rows back to the clipboard, with vi keys", found and tasks.clipboard("line 2000\n"))
    tasks.settings("set -g mode-keys emacs\n")
    tasks.keys(b"R")
    tasks.outer.shows("roam.conf was read")
    tasks.keys(b"[")
    tasks.outer.shows("copy mode")
    tasks.outer.type(b"\x12line 2001\r")
    comes(lambda: any(row.startswith("line 2001") for row in tasks.outer.rows()))
    tasks.outer.type(b"\x01\x00\x05\x1bw")
    tasks.done("and with emacs keys", tasks.clipboard("line 2001"))
    tasks.line("cat > pasted")
    tasks.keys(b"]")
    tasks.outer.shows("line 2001")
    tasks.outer.type(b"\r\x04")
    pasted = tasks.home.home / "pasted"
    tasks.done("paste what was copied", comes(lambda: pasted.exists() and pasted.read_text(encoding="utf-8") == "line 2001\n"))
    rows = tasks.home.run("roam mux capture -S - work > everything.txt; grep -c line everything.txt")
    tasks.done("print the scrollback", int(rows[1]) >= 5000, rows)
    tasks.outer.type(b"clear; printf '\\033]52;c;%s\\a' $(printf program | base64)\r")
    time.sleep(1)
    unset = base64.b64encode(b"program") not in tasks.outer.written
    tasks.settings("set -g set-clipboard on\n")
    tasks.keys(b"d")
    tasks.outer.ends()
    tasks.attach()
    tasks.line("clear; printf '\\033]52;c;%s\\a' $(printf program | base64)")
    tasks.done("let programs set the clipboard", unset and tasks.clipboard("program"))
    tasks.settings("")


def own_settings(tasks):
    """Test Settings, and Coming from tmux."""
    (tasks.home.home / ".tmux.conf").write_text("set -g prefix C-a\nbind | split-window -h\nset -g base-index 1\n", encoding="utf-8")
    tasks.home.run("mkdir -p ~/.config/roam; cp ~/.tmux.conf ~/.config/roam/roam.conf")
    told = tasks.home.run("roam mux settings")
    tasks.keys(b"R")
    tasks.outer.shows("base-index is not an option of roam")
    tasks.outer.type(b"\x01|")
    tasks.done("use a tmux.conf, and learn which of its lines have no effect",
               told[0] == 1 and ":3: base-index" in told[1] and tasks.outer.status(" 1 [2]"), (told, tasks.outer.rows()))
    tasks.settings("set -g mouse on\n")
    tasks.outer.type(b"\x01R")
    tasks.outer.shows("roam.conf was read")
    tasks.outer.type(b"\x1b[<0;5;5M\x1b[<0;5;5m")
    tasks.done("go to a pane with the mouse", tasks.outer.status("[1] 2"))
    tasks.settings("")
    tasks.keys(b"R")


def scripted(tasks):
    """Test Scripting."""
    told = tasks.home.run("roam mux new -d build sh -c 'make; echo \"status $?\"; sleep 5' && roam mux log build")
    tasks.done("script a build and wait for its end", told[0] == 0 and "built" in told[1] and told[1].rstrip().endswith("status 0"), told)


def colours(tasks):
    """Test colours in Troubleshooting."""
    tasks.attach("roam mux colours")
    tasks.line("clear; echo $TERM $COLORTERM; tput colors; printf '\\033[38;2;255;100;0m orange \\033[m\\n'")
    seen = tasks.outer.shows("tmux-256color truecolor") and tasks.outer.shows("256")
    tasks.done("find why colours are wrong", seen and comes(lambda: b"38;2;255;100;0" in tasks.outer.written))
    tasks.keys(b"d")
    tasks.outer.ends()


def remote(tasks):
    """Remote sessions."""
    tasks.attach("ROAM_UDP=never roam mux ssh HOST")
    tasks.line("echo re''mote")
    shown = tasks.outer.shows("remote")
    tasks.keys(b"d")
    ended = tasks.outer.ends()
    listed = tasks.home.run("roam mux ls")[1]
    is_over = tasks.home.run("roam mux kill ssh:HOST:main")[0] == 0
    holds = shown and ended and "ssh:HOST:main" in listed and is_over
    tasks.done("use a session on another machine with UDP blocked, and end its relay", holds, listed)


def survives(tasks):
    """Test which parts survive which failures."""
    tasks.attach()
    folder = os.path.join(tasks.home.environment["XDG_RUNTIME_DIR"], "roam/work")
    shells = subprocess.run(["sh", "-c", f"grep -o '\"client\": .[0-9]*' {folder}/w/1/state.json | grep -o '[0-9]*$'"],
                            stdout=subprocess.PIPE, check=True)
    os.kill(int(shells.stdout), signal.SIGKILL)
    tasks.line("echo go''es on")
    time.sleep(1)
    tasks.line("echo go''es on")
    tasks.done("go on after the client process is killed", tasks.outer.shows("goes on"))
    tasks.line("exit")
    tasks.outer.type(b"\x04")
    comes(lambda: tasks.outer.process.poll() is not None, 3)


@scene
@outside_gate("the tasks of the guide take a minute")
def guide_tasks(folder):
    """Twenty tasks, with the guide alone."""
    home = Home(folder)
    tasks = Tasks(home)
    try:
        for part in (panes_and_windows, several_terminals, copying, own_settings, scripted, colours, remote, survives):
            part(tasks)
        check("these are twenty tasks", tasks.number == 20, tasks.number)
    finally:
        end_all(home)
