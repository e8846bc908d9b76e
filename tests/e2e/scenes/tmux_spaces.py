"""The name spaces of `roam tmux`, and hostile values in its formats."""
import os
import pathlib
import subprocess

from tried import SESSION, Outer, check, comes, said, scene
from roam_live.common.process import TOOLS

HOSTILE = "$(touch {0})`touch {0}`;touch {0};#(touch {0})'\"\\"


def tool(*words):
    """Return the status, output and errors of `roam tmux`."""
    ran = subprocess.run([str(TOOLS / "tmux"), *words], capture_output=True, text=True, check=False, stdin=subprocess.DEVNULL)
    return ran.returncode, ran.stdout, ran.stderr


@scene
def tmux_spaces(folder):
    """Sessions of one -L or -S are listed, targeted and ended only there."""
    folder = pathlib.Path(folder)
    path = str(folder / "socket")
    places = {"default": (), "L": ("-L", "other"), "S": ("-S", path)}
    check("mux has a session", said("new", "-d", SESSION)[0] == 0, said("ls"))
    for name, where in places.items():
        told = tool(*where, "new-session", "-d", "-s", name)
        check(f"a session begins in {name}", told == (0, "", ""), told)
    listed = {name: tool(*where, "ls", "-F", "#S")[1].split() for name, where in places.items()}
    is_right = listed == {"default": sorted(["default", SESSION]), "L": ["L"], "S": ["S"]}
    check("each lists its own, and the default one those of mux", is_right, listed)
    check("mux has those of the default one", "default" in said("ls")[1] and "L " not in said("ls")[1], said("ls"))
    told = tool("-L", "other", "has-session", "-t", "default")
    check("no other's session is a target", told == (1, "", "can't find session: default\n"), told)
    told = tool("-L", "other", "send-keys", "-t", "L", f"{TOOLS / 'tmux'} rename-window found", "Enter")
    is_named = comes(lambda: tool("-L", "other", "list-windows", "-F", "#W")[1] == "found\n")
    check("a program in a pane is in the name space of its session", is_named, told)
    told = tool("-S", path, "kill-server")
    check("kill-server ends its own", told == (0, "", "") and tool("-S", path, "ls")[2] == f"no server running on {path}\n", told)
    check("and none of another", [tool(*places[name], "ls", "-F", "#S")[1].split() for name in ("default", "L")] ==
          [sorted(["default", SESSION]), ["L"]], listed)
    told = tool("kill-server")
    check("nor one of mux", told[0] == 0 and comes(lambda: tool("ls", "-F", "#S")[1] == f"{SESSION}\n"), said("ls"))
    told = tool("-L", "other", "kill-server")
    check("an ended name space has no options left", tool("-L", "other", "show", "-g", "@x")[0] == 1, told)
    subprocess.run([str(TOOLS / "mux"), "kill", "-f", SESSION], check=False, capture_output=True)


@scene
def tmux_hostile(folder):
    """A title, a name and a folder run nothing, wherever a format comes to a shell."""
    folder = pathlib.Path(folder)
    marker = folder / "marker"
    text = HOSTILE.format(marker)
    bad = folder / text.replace("/", "\u2044")
    os.mkdir(bad)
    lines = (f"printf '\\033]2;%s\\007' {shell_word(text)}", f"cd {shell_word(str(bad))}", "echo r''eady", "")
    (folder / "title").write_text("\n".join(lines), encoding="utf-8")
    where = ("-L", "hostile")
    check("a session begins", tool(*where, "new-session", "-d", "-s", "s", "-n", "w")[0] == 0, tool(*where, "ls"))
    tool(*where, "send-keys", "-t", "s", f". {shell_word(str(folder / 'title'))}", "Enter")
    is_there = comes(lambda: "ready" in tool(*where, "capture-pane", "-p", "-t", "s")[1].split("\n"))
    check("its program sets a title and a folder", is_there and comes(lambda: "touch" in tool(*where, "display", "-p", "#{pane_title}")[1]),
          tool(*where, "display", "-p", "#{pane_title} #{pane_current_path}"))
    # A person's own format would run its command.
    tool(*where, "rename-window", text.replace("#", "##"))
    tool(*where, "rename-session", text.replace("#", "##"))
    tool(*where, "set-buffer", "-b", text, text)
    for name in ("pane_title", "pane_current_path", "window_name", "session_name"):
        for words in (("run-shell", f"echo #{{{name}}} '#{{{name}}}'"), ("if-shell", f"echo \"#{{{name}}}\"", "display x"),
                      ("pipe-pane", f"echo #{{{name}}} '#{{{name}}}'"),
                      ("display", "-p", f"#(echo #{{{name}}})"), ("display", "-p", f"#{{E:{name}}}"), ("display", "-p", f"#{{T:{name}}}"),
                      ("set", "-gF", "@x", f"#{{{name}}}", ";", "run-shell", "echo #{@x}", ";", "display", "-p", "#{E:@x}#(echo #{@x})")):
            told = tool(*where, *words)
            check(f"{name} runs nothing by {words[0]} {words[-1][:24]}", told[0] == 0 and not marker.exists(), told)
    told = tool(*where, "list-buffers", "-F", "#(echo #{buffer_name} #{buffer_sample})#{E:buffer_sample}")
    check("a buffer runs nothing", told[0] == 0 and not marker.exists(), told)
    tool(*where, "kill-server")

@scene
def tmux_attached(folder):
    """A terminal attaches, and follows the windows that a command in its pane opens and selects."""
    own = tool("--tmux-path")[1].strip()
    first = [f"{own}/tmux", "-L", "near", "new-session", "-s", "s", "-n", "first"]
    outer = Outer(first, environment={"PATH": f"{own}:{os.environ['PATH']}"})
    where = ("-L", "near")
    check("new-session attaches this terminal", comes(lambda: "1:first*" in outer.rows()[-1]), outer.rows)
    told = tool(*where, "list-clients", "-F", "#{client_session} #{client_width}")
    check("which is a client then", told == (0, "s 80\n", "") and tool(*where, "ls")[1].endswith("(attached)\n"), told)
    outer.type(b"tmux new-window -n second\r")
    check("new-window shows the new window", comes(lambda: "2:second*" in outer.rows()[-1]), outer.rows)
    outer.type(b"tmux select-window -t first\r")
    check("select-window goes back", comes(lambda: "1:first*" in outer.rows()[-1]), outer.rows)
    outer.type(b"tmux split-window -h \\; display-message -p 'panes: #{window_panes}'\r")
    check("a split is shown", comes(lambda: any("panes: 2" in row for row in outer.rows())), outer.rows)
    outer.type(b"\x022")
    is_current = comes(lambda: tool(*where, "display", "-p", "-t", "s", "#W")[1] == "second\n")
    check("a key of the terminal makes its window the current one", is_current, outer.rows)
    outer.type(b"tmux detach-client\r")
    check("detach-client detaches it", comes(lambda: outer.process.poll() == 0), outer.rows)
    told = tool(*where, "kill-server")
    check("and the session can be ended", told == (0, "", ""), told)


def shell_word(text):
    """Return a word of a shell."""
    return "'" + text.replace("'", "'\\''") + "'"
