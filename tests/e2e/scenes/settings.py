"""A user's settings file at a terminal: whole files of common forms, their effects, and refused files."""
import os
import pathlib
import sys

from tried import SESSION, Outer, check, comes, said, scene, tool


def written(text):
    """Write the settings file."""
    path = pathlib.Path(os.environ["XDG_CONFIG_HOME"], "roam/roam.conf")
    path.parent.mkdir(parents=True, exist_ok=True)
    path.write_text(text, encoding="utf-8")
    return path


@scene
def settings_files(folder):
    """Each whole file permits an attach, and each unsupported line is reported once."""
    sys.path.insert(0, str(pathlib.Path(__file__).resolve().parents[2] / "unit"))
    from test_settings_loader import FILES

    os.environ["XDG_CONFIG_HOME"] = str(folder / "config")
    check("a session is there", said("new", "-d", SESSION)[0] == 0)
    for number, (text, *_) in enumerate(FILES):
        written(text)
        status, told, _ = said("settings")
        lines = told.splitlines()[1:]
        is_once = status == bool(lines) and len(set(lines)) == len(lines)
        check(f"file {number}: each line that isn't done is told once, {len(lines)}", is_once, told)
        outer = Outer(tool("mux", SESSION))
        check(f"file {number}: a person attaches", outer.shows("[1]") and outer.shows("$"), outer.rows())
        outer.process.terminate()
        check(f"file {number}: and leaves", outer.ends(), outer.rows())


@scene
def settings_changed(folder):
    """A file's settings take effect, also after a reload; the environment has precedence."""
    os.environ["XDG_CONFIG_HOME"] = str(folder / "config")
    path = written("set -g prefix C-a\nset -g status-left '<#S> '\nset -g status-right '#[fg=red]#P of #I'\nbind -n F5 split-window -h\n")
    outer = Outer(tool("mux", SESSION))
    check("the last row has both ends", outer.status(f"<{SESSION}> [1]", end="1 of 1"), outer.rows())
    outer.type(b"\x1b[15~")
    check("F5 splits", comes(lambda: "[2]" in outer.rows()[-1] and outer.rows()[-1].endswith("2 of 1")), outer.rows())
    outer.type(b"\x01:set -g status-right ''\r")
    check("C-a : sets an option", outer.status(f"<{SESSION}>", end=" "), outer.rows())
    other = pathlib.Path(os.environ["XDG_CONFIG_HOME"], "other.conf")
    other.write_text("set -g status-left '<<#S>> '\n", encoding="utf-8")
    outer.type(f"\x01:source {other}\r".encode())
    check("C-a : source reads another file too", outer.status(f"<<{SESSION}>>"), outer.rows())
    outer.type(b"\x01:nosuch\r")
    check("a command that isn't there is told", outer.shows("nosuch is not a command of roam"), outer.rows())
    written("set -g status off\nfoo\n")
    begin = len(outer.written)
    outer.type(b"\x01R")
    # The file is read then: its mode may change.
    is_hidden = outer.was_told("foo", begin=begin) and comes(lambda: "[2]" not in outer.rows()[-1])
    check("a row is hidden, and what isn't done is told as the row is there again", is_hidden, outer.rows())
    path.chmod(0o666)
    outer.type(b"\x02R")
    check("a file that others may write is told of", outer.shows("other users may write to it"), outer.rows())
    outer.type(b"\x02d")
    check("it is left", outer.ends(), outer.rows())
    written("set -g prefix C-a\n").chmod(0o600)
    other = Outer(tool("mux", SESSION), environment={"ROAM_PREFIX": "C-x"})
    check("it is there again", other.shows("[2]"), other.rows())
    other.type(b"\x18d")
    check("the environment's prefix goes before the file's", other.ends(), other.rows())


@scene
def keys_shown(folder):
    """C-b ? shows the keys by the file, which it names, and scrolls on a small terminal."""
    os.environ["XDG_CONFIG_HOME"] = str(folder / "config")
    written("bind | split-window -h\nunbind x\nbind -n F5 new-window\n")
    outer = Outer(tool("mux", SESSION), (12, 60))
    outer.shows("[1]")
    outer.type(b"\x02?")
    check("what the file binds is shown first", outer.shows("C-b and then, by roam.conf:") and outer.shows("split-window -h"), outer.rows())
    check("and what it unbinds", outer.shows("  x          nothing"), outer.rows())
    check("the last row tells that there is more", outer.shows("1 to 11 of"), outer.rows())
    outer.type(b"G")
    is_gone = outer.shows("C-b itself") and comes(lambda: not any("by roam.conf" in row for row in outer.rows()))
    check("it scrolls to the end", is_gone, outer.rows())
    outer.type(b"q")
    check("another key leaves", outer.status("[1]"), outer.rows())


@scene
def at_prompt(folder):
    """C-b : binds and unbinds keys at this terminal, and prints formats; buffers are listed with all characters and line ends."""
    os.environ["XDG_CONFIG_HOME"] = str(folder / "config")
    outer = Outer(tool("mux", SESSION))
    outer.begins()
    outer.type(b"\x02:bind v split-window -h\r\x02v")
    check("a key is bound", outer.status(" 1 [2]"), outer.rows())
    outer.type(b"\x02:unbind v\r\x02v")
    check("and unbound", outer.shows("C-b v is not bound"), outer.rows())
    outer.type(b"\x02:display '#S has pane #P'\r")
    check("a format is told", outer.shows(f"{SESSION} has pane 2"), outer.rows())
    outer.type(b"\x02:display '#{pane_pid}'\r")
    check("and one that roam hasn't", outer.shows("roam does not support #{pane_pid}"), outer.rows())
    outer.type(b"\x02:run-shell 'seq 100 150'\r")
    check("all that a shell says is listed", outer.shows("line 1 of 51") and outer.shows("110"), outer.rows())
    outer.type(b"G")
    check("and scrolls", outer.shows("line 51 of 51") and outer.shows("150"), outer.rows())
    outer.type(b"q")
    check("until q", outer.status(" 1 [2]"), outer.rows())
    said("buffer", "set", SESSION, "\u6f22\u00e9\nnext")
    outer.type(b"\x02=")
    check("a buffer is listed with all characters", outer.shows("10 bytes: \u6f22\u00e9\\nnext"), outer.rows())
    outer.type(b"q")
