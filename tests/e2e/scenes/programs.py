"""Programs that fill a pane show the same as in tmux, and a front end shows the same in tmux too."""
import os
import subprocess

from tried import SESSION, check, comes, is_missing, scene, three_panes
from roam_live.common import spawn
from painted import cells_of_rows
from roam_live.common.process import TOOLS
from roam_live.protocol.screen_cells import Style

# Options of htop and mc that avoid differences between two runs.
HTOP_OPTIONS = """\
htop_version=3.2.2
config_reader_min_version=3
header_layout=two_50_50
column_meters_0=Hostname
column_meter_modes_0=2
column_meters_1=
column_meter_modes_1=
screen:Main=PID USER PRIORITY NICE STATE Command
"""

MC_OPTIONS = """\
[Midnight-Commander]
auto_save_setup=false
confirm_exit=false

[Layout]
message_visible=0
xterm_title=0
free_space=0
"""

# The SGR numbers that roam and tmux show alike: 6 is no rendition in roam's profile, and 21 a single line.
COLOURED = "\x1b[{number}mstyle {number}\x1b[0m \x1b[38;5;{index}mof many\x1b[0m \x1b[48;2;{number};9;99mdirect\x1b[0m\n"

SHOWN_ALIKE = (*range(6), *range(7, 10), *range(22, 50), *range(90, 108))

# The rows and columns of the pane for tested programs.
PANE = (23, 39)


class Tmux:
    """A command in tmux, a terminal other than roam's."""

    def __init__(self, command, rows, cols):
        self.height = rows
        self.words = ["tmux", "-L", f"roam-scene-{os.getpid()}", "-f", "/dev/null"]
        size = ["-x", str(cols), "-y", str(rows)]
        subprocess.run([*self.words, "new-session", "-d", *size, f"{command}; sleep 100", ";", "set", "status", "off"], check=True)
        subprocess.run([*self.words, "resize-window", *size], check=True)

    def captured(self, *more):
        """Return its contents: a line for each row."""
        shown = subprocess.run([*self.words, "capture-pane", "-p", *more], stdout=subprocess.PIPE, check=True).stdout.decode()
        lines = shown.split("\n")[: self.height]
        return lines + [""] * (self.height - len(lines))

    def rows(self):
        """Return the rows without trailing spaces."""
        return [line.rstrip() for line in self.captured()]

    def cells(self):
        """Return the cells with their styles, and the cursor."""
        shown = cells_of_rows(self.captured("-e", "-N"))
        cursor = "#{cursor_y} #{cursor_x} #{cursor_flag}"
        told = subprocess.run([*self.words, "display-message", "-p", cursor], stdout=subprocess.PIPE, check=True).stdout.split()
        shown.row, shown.col, shown.has_cursor = int(told[0]) + 1, int(told[1]) + 1, told[2] == b"1"
        return shown

    def type(self, *keys):
        """Type keys, by tmux's names."""
        subprocess.run([*self.words, "send-keys", *keys], check=True)

    def stop(self):
        """End it."""
        subprocess.run([*self.words, "kill-server"], check=True)


def differences(shown, wanted, size):
    """Return the differences of two programs in the first rows and columns: positions with both cells, and the cursor."""
    blank = (" ", Style())
    places = [(row, col) for row in range(1, size[0] + 1) for col in range(1, size[1] + 1)]
    pairs = [(place, shown.cells.get(place, blank), wanted.cells.get(place, blank)) for place in places]
    cursors = [(one.row, one.col) if one.has_cursor else None for one in (shown, wanted)]
    return [pair for pair in pairs if pair[1] != pair[2]] + ([("cursor", *cursors)] if cursors[0] != cursors[1] else [])


def check_program(name, command, quits):
    """A program that fills pane 1 shows, cell by cell with its style, the same as in tmux on a terminal of the pane's size."""
    if is_missing(name, name, "tmux"):
        return
    outer = three_panes()
    known = " ".join(f"{word}={value}" for word, value in spawn.names().items())
    tmux = Tmux(f"export {known}; {command}", *PANE)
    outer.type(b"\x02q1clear\r")
    outer.type(f"{command}; clear; echo le''ft {name}\r".encode())
    wanted = tmux.cells()

    def is_same():
        nonlocal wanted
        wanted = tmux.cells()
        return not differences(outer.cells(), wanted, PANE) and len(wanted.cells) > PANE[1]

    title = f"{name} shows in a pane, cell by cell, what it shows in tmux"
    check(title, comes(is_same), lambda: differences(outer.cells(), wanted, PANE)[:9])
    print(f"        in {len({style for _, style in wanted.cells.values()})} styles", flush=True)
    tmux.stop()
    outer.type(quits)
    check("and leaves the pane to the shell", outer.shows(f"left {name}"), outer.rows)


@scene
def vim(folder):
    """vim in one pane beside two others."""
    text = folder / "text.c"
    lines = [f'int line{line} = {line}; /* \u00e9\u4e2d */ char *long{line} = "longer than a pane is wide";\n' for line in range(1, 60)]
    text.write_text("".join(lines), encoding="utf-8")
    vimrc = "set noshowcmd shm+=I termguicolors | syntax on | colorscheme desert"
    check_program("vim", f"vim -u NONE -i NONE -nN -c '{vimrc}' {text}", b"\x1b:q!\r")


@scene
def less(folder):
    """less, with all styles that roam and tmux show alike."""
    coloured = folder / "coloured"
    coloured.write_text("".join(COLOURED.format(number=number, index=2 * number) for number in SHOWN_ALIKE), encoding="utf-8")
    check_program("less", f"less -R {coloured}", b"q")


@scene
def htop(folder):
    """htop, which shows a sleeping process."""
    sleeper = subprocess.Popen(["sleep", "1000"])
    try:
        check_program("htop", f"HTOPRC={htop_options(folder)} htop --readonly -d 100 -p {sleeper.pid}", b"q")
    finally:
        sleeper.kill()
        sleeper.wait()


def htop_options(folder):
    """Write htop's options so that it shows nothing that changes during the run."""
    file = folder / "htoprc"
    file.write_text(HTOP_OPTIONS, encoding="utf-8")
    return file


@scene
def mc(folder):
    """mc, in a folder of its own."""
    check_program("mc", f"HOME={mc_home(folder)} mc -u {folder}/home {folder}/home", b"\x1b[21~")


def mc_home(folder):
    """Create a home folder in which mc shows no random hint, and no free space."""
    home = folder / "home"
    (home / ".config/mc").mkdir(parents=True)
    (home / ".config/mc/ini").write_text(MC_OPTIONS, encoding="utf-8")
    for name in ("first", "second"):
        (home / name).mkdir()
    return home


@scene
def tmux(folder):
    """tmux with two panes of its own."""
    inner = "env -u TMUX tmux -L in$$ -f /dev/null new-session 'seq 5; sleep 60' \\; set status off \\; split-window -d 'seq 3; sleep 60'"
    check_program("tmux", inner, b"\x02\x02d")


@scene
def in_tmux(folder):
    """With tmux as the outer terminal a front end shows the same, and restores the old screen."""
    if is_missing("tmux as the outer terminal", "tmux"):
        return
    outer = three_panes()
    tmux = Tmux(f"echo kept; {TOOLS / 'mux'} {SESSION}; echo status $?", *outer.size)
    is_same = comes(lambda: tmux.rows() == [row.rstrip() for row in outer.rows()])
    check("a front end in tmux shows what the first does", is_same, lambda: list(zip(tmux.rows(), outer.rows())))
    tmux.type("C-b", "d")
    check("and leaves there what stood before", comes(lambda: tmux.rows()[:3] == ["kept", "[detached]", "status 0"]), tmux.rows)
    tmux.stop()
