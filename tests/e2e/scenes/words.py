"""The commands of `mux` for scripts, their refusals, and the prefix."""
import os
import signal
import subprocess
import xml.etree.ElementTree

from tried import Outer, PROGRAM, check, comes, failed, listed, noted, said, scene, tool, window_of
from roam_live.common.build_info import version
from roam_live.common.process import TOOLS, begun
from roam_live.config.environment import PREFIXES
from roam_live.frontend.bindings import Keymap, help_with
from roam_live.frontend.effects import Perform, TypeKey
from roam_live.frontend.modes import ModeStack
from roam_live.input.keys import Key, Keys

NOT_RUNNING = "mux: no session other is running; `mux ls` lists sessions\n"


@scene
def words(folder):
    """The commands of `mux` for scripts, and their refusals."""
    check("mux --version tells the build", said("--version")[1].startswith(f"roam {version()} (commit "), said("--version"))
    helps = {word: said(word, "--help") for word in "attach new detach ls list watch kill send paste capture env ssh far help".split()}
    odd = {word: told for word, told in helps.items() if told[0] != 0 or not told[1].startswith(f"usage: mux {word} ")}
    check("each word of mux has a help", not odd, odd)
    check("detach tells what leaves", said("detach", "other")[0] == 1 and "C-b d" in said("detach")[2], said("detach"))
    for word in ("attach", "send", "paste", "capture", "env", "watch"):
        told = said(word, "other", *(["a"] if word == "send" else []))
        check(f"mux {word} refuses a session that isn't there", told == (1, "", NOT_RUNNING), told)
    check("mux new refuses what is no command", said("new", "-d", "other", "/no/command")[0] == 1, said("ls"))
    told = said("new", "-d", "other", "/bin/sh", "-c", "echo st''arted; exec cat")
    check("mux new -d launches a session", told == (0, "", ""), told)
    check("and refuses one that is there", said("new", "-d", "other")[0] == 1, said("ls"))
    check("mux list is ls", comes(lambda: said("list") == said("ls") and "other" in said("ls")[1]), lambda: said("list"))
    told = said("send", "-a", "other", "char 65", "char e9", "split right")
    check("mux send ends once all acts were taken", told == (0, "", ""), told)
    rows = []
    is_shown = comes(lambda: rows.append(said("capture", "other")[1].split("\n")) or "\u2502started" in rows[-1][0])
    check("mux capture shows the rows", is_shown and rows[-1][0].startswith("started ") and rows[-1][1].startswith("e\u00e9 "), rows[-1:])
    check("a row for each, without spaces at the ends", len(rows[-1]) == 25 and rows[-1][23:] == [" 1 [2]", ""], rows[-1])
    told = said("capture", "--svg", "other")
    check("mux capture --svg draws them", told[0] == 0 and "started" in told[1] and xml.etree.ElementTree.fromstring(told[1]), told)
    for act, why in (("size 1 1", "a session has 4 to 200 rows and 8 to 500 columns"), ("focus 7", "there is no pane 7")):
        told = said("send", "-a", "other", "char 61", act)
        check(f"mux send -a refuses {act}", told == (1, "", f"mux: cannot do {act!r}: {why}; nothing was typed\n"), told)
    is_known = said("send", "-a", "other", "split down") == said("send", "-a", "other", "focus 3", "close") == (0, "", "")
    check("what was asked for just before is known", is_known, listed())
    slips()
    told = said("send", "-a", "other", "char 61", "split up")
    check("mux send -a refuses what is no act", told[0] == 1 and told[2].startswith("mux: 'split up' is neither an act"), told)
    check("and types none of the others", "a" not in said("capture", "other")[1].replace("started", ""), said("ls"))
    is_typed = said("send", "other", "C-u", "close next", "Enter") == (0, "", "")
    is_shown = is_typed and comes(lambda: "close next" in said("capture", "other")[1])
    check("mux send types what is no key", is_shown, said("capture", "other"))
    all_clients()
    subprocess.run(tool("mux", "kill", "-f", "other"), check=True)


def slips():
    """A mistyped word of mux starts no session, and a closed pipe causes no message."""
    for name, told in (("lst", "'lst' is not a command of mux; did you mean ls?"),
                       ("a", "a is a tmux command; in roam, use `mux attach NAME`"),
                       ("list-sessions", "list-sessions is a tmux command; in roam, use `mux ls`"),
                       ("next-window", "next-window is a tmux command; in roam, use C-b n"),
                       ("swap-pane", "swap-pane: roam does not support this tmux command")):
        wanted = f"mux: {told} (`mux new {name}` starts a session of that name)\n"
        check(f"mux {name} is refused, and what there is told", said(name) == (2, "", wanted), said(name))
    check("and starts nothing", "lst" not in listed() and "a" not in listed(), listed())
    run = subprocess.run(f"{TOOLS / 'mux'} help | head -1", shell=True, stdout=subprocess.PIPE, stderr=subprocess.PIPE, check=False)
    check("mux help | head -1 is a line", run.stdout.count(b"\n") == 1 and run.stderr == b"" and run.stdout.startswith(b"mux "), run)
    for called, wanted in (("roam mux", "roam mux"), ("./roam mux", "./roam mux"), ("", "mux")):
        run = subprocess.run(tool("mux", "help"), stdout=subprocess.PIPE, env={**os.environ, "ROAM_CALLED": called}, check=True)
        check(f"mux help names {wanted}", run.stdout.decode().startswith(f"{wanted} [NAME] | COMMAND"), run.stdout[:80])


def all_clients():
    """A session that has had all client processes of its life reports that; the existing one continues."""
    served = str(window_of("other"))
    for _ in range(64):
        words = [PROGRAM, "attach", "--dir", served, "--turns", "3"]
        subprocess.run(words, stdout=subprocess.DEVNULL, stderr=subprocess.DEVNULL, check=False)
    check("ls tells how many clients there were, where they are many", comes(lambda: "64 of 64 clients" in " ".join(listed())), listed())
    check("the start that is there goes on", said("send", "other", "a") == (0, "", ""), said("ls"))
    process = noted("other")["client"][0]
    os.kill(process, signal.SIGKILL)
    comes(lambda: begun(process) is None)
    for word in (["capture", "other"], ["send", "other", "a"]):
        told = said(*word)
        check(f"mux {word[0]} tells that the session hears no more starts", told[0] == 1 and "has used its 64" in told[2], told)


def asked_of(name, text):
    """Return the request of the last key in a text, with this key as the prefix."""
    keys, stack, found = Keys(), ModeStack(Keymap(name)), []
    for key in keys.fed(text) + keys.ended():
        found = stack.takes(key, 1.0)
    return found


@scene
def prefix(folder):
    """Another key as the prefix."""
    before = len(failed)
    for name, letter in PREFIXES.items():
        text = letter.encode()
        found = asked_of(name, text + b"d"), asked_of(name, text * 2), asked_of(name, text * 3 + b"x")
        own = TypeKey(["key return"] if letter == "\r" else [f"char {ord(letter):x}"], Key(letter, letter))
        is_told = f"{name} itself" in help_with(name) and (name == "C-b" or "C-b" not in help_with(name))
        if found != ([Perform("detach")], [own], [Perform("close")]) or not is_told:
            check(f"{name} as the prefix", False, found)
    check(f"{len(PREFIXES)} keys may be the prefix", len(PREFIXES) == 30 and len(failed) == before, PREFIXES)
    for name in ("C-B", "C-[", "C-1", "a", "C-", "\x01"):
        told = subprocess.run(tool("mux", "detach"), stderr=subprocess.PIPE, env={**os.environ, "ROAM_PREFIX": name}, check=False).stderr
        check(f"ROAM_PREFIX={name!r} is refused by name", told.startswith(f"mux: ROAM_PREFIX is {name!r}; ".encode()), told)
    outer = Outer(tool("mux", "other"), environment={"ROAM_PREFIX": "M-a"})
    check("and before a session is launched", outer.shows("mux: ROAM_PREFIX is 'M-a'") and outer.ends() and not listed(), outer.rows)
    outer = Outer(tool("mux", "other"), environment={"ROAM_PREFIX": "C-a"})
    outer.shows("$ ")
    outer.type(b"\x01%")
    check("ROAM_PREFIX=C-a makes C-a the prefix", outer.status(" 1 [2]"), outer.rows)
    outer.type(b"\x01?")
    check("the help names it", outer.shows("C-a      type C-a itself") and not outer.shows("C-b", 0.1), outer.rows)
    outer.type(b"q")
    outer.status(" 1 [2]")
    outer.type(b"cat -v\r\x01\x01\x02d\r")
    check("typed twice it sends itself, and C-b is a key as any", outer.shows("^A^Bd"), outer.rows)
    outer.type(b"\x01d")
    check("C-a d detaches", outer.ends() and outer.is_restored() and outer.shows("[detached]"), outer.rows)
    subprocess.run(tool("mux", "kill", "-f", "other"), check=True)
