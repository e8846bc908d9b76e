"""An installed roam: its life through an upgrade and a removal, and its messages on a first attach."""
import os
import shutil
import subprocess

from tried import LIVE, Outer, PROGRAM, SESSION, check, comes, commands, noted, said, scene, tool
from roam_live.common.process import program

# The commit of the build that is installed over the first one.
NEWER = "feedfeedfeed"

# An installed roam has bundles of its modules, so Python may write bytecode here.
BUNDLES = {"PYTHONDONTWRITEBYTECODE": ""}


def install(prefix, commit=""):
    """Install the tree below a prefix, as another build if a commit is named."""
    words = [str(LIVE.parent / "tools/package"), "install", "--program", PROGRAM or program(), str(prefix)]
    subprocess.run(words, check=True)
    info = prefix / "lib/roam/build_info"
    lines = info.read_text(encoding="ascii").splitlines()
    changed = [f"commit {commit}" if commit and line.startswith("commit ") else line for line in lines]
    info.write_text("\n".join(changed) + "\n", encoding="ascii")


def run(prefix, *words):
    """Return the status, standard output and errors of the installed `roam mux`."""
    program = str(prefix / "bin/roam")
    ran = subprocess.run([program, "mux", *words], stdin=subprocess.DEVNULL, stdout=subprocess.PIPE, stderr=subprocess.PIPE,
                         check=False)
    return ran.returncode, ran.stdout.decode(), ran.stderr.decode()


def goes_on(outer, number):
    """Check that an attached terminal has a shell, a split, copy mode and no error."""
    outer.type(f"echo goes''on{number}\r".encode())
    check(f"{number}: what is typed is shown", outer.shows(f"goeson{number}"), outer.rows)
    outer.type(b"\x02%")
    check(f"{number}: a pane is split", comes(lambda: " 1 [2]" in outer.rows()[-1]), outer.rows)
    outer.type(b"exit\r")
    comes(lambda: "[1] " in outer.rows()[-1])
    outer.type(b"\x02[")
    check(f"{number}: copy mode opens", comes(lambda: "copy mode" in outer.rows()[-1]), outer.rows)
    outer.type(b"q")
    comes(lambda: "copy mode" not in outer.rows()[-1])


@scene
def installed(folder):
    """A session and its terminal continue while roam is upgraded and removed; a session of another build is named."""
    os.environ.pop("ROAM", None)
    prefix = folder / "prefix"
    install(prefix)
    outer = Outer([str(prefix / "bin/roam"), "mux", SESSION], environment=BUNDLES)
    check("an installed roam shows a shell", outer.begins() and outer.status("[1] 1:"), outer.rows)
    told = run(prefix, "ls")
    check("ls says nothing of the build", told[0] == 0 and "runs roam" not in told[1], told)
    told = run(prefix, "upgrade")
    check("nor does upgrade", told[1].endswith("all sessions run this build\n"), told)
    install(prefix, NEWER)
    told = run(prefix, "ls")
    check("ls names the build of a session that another build began", "runs roam" in told[1] and "mux upgrade" in told[1], told)
    told = run(prefix, "upgrade")
    check("upgrade says what to do", NEWER in told[1].splitlines()[0] and "`mux upgrade NAME`" in told[1], told)
    goes_on(outer, 1)
    outer.type(b"\x02c")
    check("a window is opened", comes(lambda: "2:" in outer.rows()[-1]), outer.rows)
    other = Outer([str(prefix / "bin/roam"), "mux", "attach", SESSION], environment=BUNDLES)
    check("a terminal attaches by the new build", other.shows("$ ") and comes(lambda: "2:" in other.rows()[-1]), other.rows)
    other.type(b"\x02d")
    check("and leaves", other.ends() and other.is_restored(), other.rows)
    # A process that starts may write bytecode there meanwhile.
    comes(lambda: shutil.rmtree(prefix, ignore_errors=True) or not prefix.exists())
    goes_on(outer, 2)
    outer.type(b"\x02c")
    check("without its files no window is opened, and that is said", outer.shows("cannot open a window"), outer.rows)
    outer.type(b"\x02d")
    check("and the terminal is given back", outer.ends() and outer.is_restored(), outer.rows)
    told = said("ls")
    check("the session runs on", told[1].startswith(f"{SESSION} "), told)
    told = said("kill", "-f", SESSION)
    check("and ends", told == (0, "", ""), told)


# The lines that are printed before an upgrade, above the screen; and the upgrades to and fro while keys are typed.
LINES, UPGRADES = 60, 6


@scene
def upgraded(folder):
    """A session goes on with another build: its programs, screens, scrollback and terminals. Keys typed meanwhile arrive once, in order."""
    os.environ.pop("ROAM", None)
    prefixes = folder / "one", folder / "two"
    install(prefixes[0])
    install(prefixes[1], NEWER)
    outer = Outer([str(prefixes[0] / "bin/roam"), "mux", SESSION], environment=BUNDLES)
    check("a session begins", outer.begins(), outer.rows)
    outer.type(f"seq 1001 {1000 + LINES}\r".encode())
    outer.shows(str(1000 + LINES))
    outer.type(b"\x02c")
    check("with two windows", comes(lambda: "2:" in outer.rows()[-1]), outer.rows)
    outer.type(b"exec yes\r")
    outer.shows("y")
    outer.type(b"\x02c")
    check("of which one prints all the time, and a third one", comes(lambda: "3:" in outer.rows()[-1]), outer.rows)
    outer.type(f"exec cat > {folder}/typed\r".encode())
    comes((folder / "typed").exists)
    own, before, front = commands(SESSION), noted(SESSION), outer.process.pid
    keys = ""
    for number in range(UPGRADES):
        text = "".join(f"{number}:{one} " for one in range(40)) + "\r"
        keys += text
        for place in range(0, len(text), 8):
            outer.type(text[place : place + 8].encode())
        told = run(prefixes[(number + 1) % 2], "upgrade", SESSION)
        check(f"upgrade {number + 1}", told[0] == 0 and f"{SESSION}: runs roam" in told[1], told)
        check("ls names no other build", "runs roam" not in run(prefixes[(number + 1) % 2], "ls")[1])
    check("each key was read once", comes(lambda: (folder / "typed").read_text() == keys.replace("\r", "\n")),
          lambda: ((folder / "typed").read_text(), keys))
    after = noted(SESSION)
    are_same = all(after[role] == before[role] for role in ("host", "holder"))
    check("programs, host and holder are the same processes", commands(SESSION) == own and are_same, (own, before, after))
    is_new = comes(lambda: f"{prefixes[0]}/lib/roam/mux attach" in command_line(front))
    check("the front end is one of the last build", is_new, lambda: command_line(front))
    check("its terminal shows the same window", comes(lambda: "3:" in outer.rows()[-1] and "cat*" in outer.rows()[-1]), outer.rows)
    told = said("capture", "-S", "-", f"{SESSION}:1")
    check("the scrollback is there", all(str(1000 + one) in told[1] for one in range(1, LINES + 1)), told)
    not_upgraded(prefixes, outer)
    outer.type(b"\x02d")
    outer.ends()
    subprocess.run(tool("mux", "kill", "-f", SESSION), check=True)


def command_line(process):
    """Return the words of a process."""
    with open(f"/proc/{process}/cmdline", "rb") as file:
        return file.read().decode().replace("\0", " ")


def not_upgraded(prefixes, outer):
    """Check that a build is refused in words if it is unsafe, can't read the state, or fails at its start, and that the session goes on."""
    own, tools = commands(SESSION), prefixes[1] / "lib/roam"
    whole = (tools / "pane_shells").read_text(encoding="utf-8")
    fails = whole.replace("    asked = read_words()\n", "    raise SystemExit(3)\n")
    for text, mode, words in ((whole, 0o777, "can be written by other users"), (fails, 0o755, "its new pty host failed"),
                              ("raise SystemExit(3)\n", 0o755, "its check printed no build")):
        (tools / "pane_shells").write_text(text, encoding="utf-8")
        (tools / "pane_shells").chmod(mode)
        told = run(prefixes[1], "upgrade", SESSION)
        check(f"refused: {words}", told[0] == 1 and words in told[2], told)
        # A host that failed follows as a child of the holder.
        check("the programs go on", comes(lambda: set(own) <= set(commands(SESSION))), own)
    told = run(prefixes[0], "upgrade", SESSION)
    check("the build of before runs", told[1] == f"{SESSION}: runs this build already\n", told)
    outer.type(b"\x021")
    check("and its terminal works", comes(lambda: "1:" in outer.rows()[-1]), outer.rows)


@scene
def first_start(folder):
    """An attach warns of a wrong locale, or of a surrounding multiplexer, and refuses an unusable terminal."""
    said("new", "-d", SESSION)
    inside = {"TMUX": "/tmp/tmux-0/default,1,0"}
    for known, line in (({"LC_ALL": "C"}, "locale C has no UTF-8"), (inside, "inside tmux: C-b C-b reaches this one")):
        outer = Outer(tool("mux", SESSION), environment=known)
        check(f"{known} is said", outer.was_told(line), outer.rows)
        outer.type(b"\x02d")
        outer.ends()
    outer = Outer(tool("mux", SESSION))
    outer.shows("$ ")
    outer.type(f"clear; {tool('mux')[0]} new other\r".encode())
    check("so is another session round it", outer.shows("inside another session: C-b C-b reaches this one"), outer.rows)
    outer.type(b"\x02\x02d")
    check("and C-b C-b d leaves the inner one", outer.shows("[detached]"), outer.rows)
    dumb = Outer(tool("mux", SESSION), environment={"TERM": "dumb"})
    is_refused = dumb.ends() and dumb.shows("TERM is dumb: this terminal cannot place its cursor")
    check("a terminal that cannot place its cursor is refused", is_refused, dumb.rows)
    small = Outer(tool("mux", SESSION), (2, 30))
    check("one that is too small is told what it needs", small.shows("too small: 3 by 4 is needed"), small.rows)
    small.type(b"\x02d")
    check("and leaves", small.ends(), small.rows)
    outer.type(b"\x02d")
    outer.ends()
