"""The guide: each command of its pages, and of the examples of the man pages, run with an installed roam."""
import os
import pathlib
import re
import subprocess
import sys

from tried import LIVE, Outer, check, comes, outside_gate, scene
from scenes.installed import install

TOP = LIVE.parent
GUIDE, MAN = TOP / "docs/guide", TOP / "docs/man"

# Commands that aren't run, and the reasons.
NOT_RUN = {
    "apt install python3-cryptography": "it changes the machine",
    "loginctl enable-linger": "it needs systemd's logind",
    "reset": "the terminal of a scene isn't broken",
    "roam mux ssh -p 2222 -J gate HOST": "the command that stands for ssh here knows no jump host",
}

# Seconds for a command at a terminal: one that starts a session over ssh starts a dozen processes.
LONG = 45.0

# A replacement of ssh, and of another ssh command: it skips the options up to the host, and runs the words here in another home.
SSH = """#!/bin/sh
while :; do
    case $1 in HOST | host | user@HOST | user@host) break ;; esac
    shift
done
shift
cd "{home}" && XDG_RUNTIME_DIR={far} exec sh -c "$*"
"""

# A command inside a line of a page: a whole one, and not just a name.
INLINE = re.compile(r"`((?:ROAM_[A-Z]+=\S+ )?(?:roam mux|roam|mux|roam-mux|ssh HOST|apt|loginctl|eval|tput|reset)(?: [^`]+)?)`")


def commands_of(text):
    """Return the commands of a page: the lines of its blocks of sh, and those inside its lines."""
    lines = [line.strip() for block in re.findall(r"```sh\n(.*?)```", text, re.S) for line in block.strip().split("\n")]
    return lines + INLINE.findall(re.sub(r"```.*?```", "", text, flags=re.S))


def examples_of(page):
    """Return the lines of a man page's EXAMPLES."""
    text = re.search(r"^\.SH EXAMPLES\n(.*?)^\.SH", page, re.M | re.S)[1]
    blocks = re.findall(r"^\.nf\n(.*?)^\.fi", text, re.M | re.S)
    return [line.strip().replace("\\-", "-").replace("\\e", "\\") for block in blocks for line in block.strip().split("\n")]


class Home:
    """An installed roam, a home and a working folder, for a user with nothing else."""

    def __init__(self, folder):
        self.folder, self.home, self.bin = folder, folder / "home", folder / "bin"
        for path in (self.home / "bin", self.home / "live", self.home / ".roam", self.bin, folder / "far", folder / "tmp"):
            path.mkdir(parents=True, mode=0o700)
        prefix = folder / "prefix"
        install(prefix)
        for name in ("mux", "relay", "attach"):
            (self.bin / name).symlink_to(prefix / f"lib/roam/{name}")
        (self.home / "bin/roam-mux").symlink_to(prefix / "bin/roam-mux")
        (self.home / "roam").symlink_to(TOP)
        for name in ("ssh", "my-ssh"):
            (self.bin / name).write_text(SSH.format(home=self.home, far=folder / "far"), encoding="utf-8")
            (self.bin / name).chmod(0o755)
        (self.home / "Makefile").write_text("all test:\n\t@echo built\n", encoding="utf-8")
        for name in ("FILE", "file.txt", "log"):
            (self.home / name).write_text("some text\n", encoding="utf-8")
        (self.home / ".tmux.conf").write_text("set -g mouse on\nset -g base-index 1\n", encoding="utf-8")
        known = {word: value for word, value in os.environ.items() if word not in ("ROAM", "XDG_CONFIG_HOME")}
        path = ":".join(map(str, (self.bin, prefix / "bin", os.path.dirname(sys.executable), os.environ["PATH"])))
        self.environment = {**known, "PATH": path, "HOME": str(self.home), "TMPDIR": str(folder / "tmp")}

    def run(self, command):
        """Return the status and the output of a command without a terminal."""
        ran = subprocess.run(["sh", "-c", command], cwd=self.home, env=self.environment, stdin=subprocess.DEVNULL, stdout=subprocess.PIPE,
                             stderr=subprocess.STDOUT, timeout=60, check=False)
        return ran.returncode, ran.stdout.decode("utf-8", "replace")

    def terminal(self, command, size=(24, 80)):
        """Return a terminal on which a command runs."""
        return Outer(["sh", "-c", f"cd {self.home} || exit\n{command}"], size=size, environment=self.environment)


class Commands:
    """The commands of the pages: each is run once, in the order of the tables below, and marked as done."""

    def __init__(self, home, wanted):
        self.home, self.wanted, self.ran = home, wanted, []

    def does(self, command, text="", status=0):
        """Run a command without a terminal, and check its status and a text."""
        self.ran.append(command)
        found = self.home.run(command)
        check(command, found[0] == status and text in found[1], found)

    def shows(self, command, text="[1]", leaves=b"\x02d"):
        """Run a command at a terminal, check that a text appears, and leave."""
        self.ran.append(command)
        outer = self.home.terminal(command)
        check(command, outer.shows(text, LONG), outer.rows)
        outer.type(leaves)
        check(f"{command}: it is left", outer.ends(), outer.rows)

    def types(self, outer, command, text):
        """Type a command at a shell, and check the output."""
        self.ran.append(command)
        outer.type(b"clear\r")
        comes(lambda: outer.rows()[0].rstrip() == "$")
        outer.type(command.encode() + b"\r")
        check(command, outer.shows(text), outer.rows)

    def lacking(self):
        """Return the commands that weren't run and are no part of one that was."""
        done = "\n".join(self.ran)
        return sorted(command for command in self.wanted if command not in done and command not in NOT_RUN)


def first_steps(all_):
    """Test the commands of Getting started, and the settings of a terminal."""
    all_.shows("roam mux", "[main] [1]")
    all_.does("roam mux ls", "main")
    all_.shows("roam mux watch main")
    all_.shows("roam mux main")
    all_.shows("roam mux new work", "[work] [1]")
    all_.shows("roam mux attach work", "[work] [1]")
    all_.shows("roam mux work", "[work] [1]")
    all_.does("roam mux help", "Attach to a running session")
    all_.does("roam mux help send", "Type keys and text")
    all_.does("roam --version", "roam 0.")
    all_.shows("ROAM_PREFIX=C-a roam mux", leaves=b"\x01d")
    for choice in ("ROAM_MOUSE=on", "ROAM_CLIPBOARD=on", "ROAM_PREDICT=never", "ROAM_PREDICT=always"):
        all_.shows(f"{choice} roam mux")
    all_.shows("roam mux NAME")
    all_.does("roam mux clients NAME")
    all_.does("roam mux settings", "which does not exist")
    all_.does("roam mux upgrade", "all sessions run this build")
    all_.does("roam mux kill work")
    all_.shows("ROAM_HISTORY=0 roam mux new work")
    all_.does("roam mux kill -f work")
    all_.shows("ROAM_HISTORY=50000 roam mux new work")
    all_.does("roam mux kill -f work")


def scripts(all_):
    """Test the commands of Scripting and Copy mode."""
    all_.does("roam mux new -d work")
    all_.does("roam mux send work 'make test' Enter")
    all_.does("roam mux capture work", "make test")
    all_.does("roam mux send work 'make; echo $? > status' Enter")
    all_.does("until [ -s status ]; do sleep 0.2; done")
    all_.does("roam mux capture work > /dev/null 2>&1 && echo running", "running")
    all_.does("roam mux cmd work split-window -h 'tail -f log'")
    all_.does("roam mux new-window -n tests work", "work:2")
    all_.does("roam mux send work:2 'make test' Enter")
    all_.does("roam mux list-windows work", "tests")
    all_.shows("roam mux attach work:2", "2:tests*")
    all_.does("roam mux send -a work 'split down' 'focus 1'")
    all_.does("roam mux send -a work 'size 50 160'")
    all_.does("roam mux ls", "2 windows")
    all_.does("roam mux clients work")
    all_.does("roam mux capture -S - work > everything.txt")
    all_.does("roam mux capture -S -100 -J work", "make test")
    all_.does("roam mux capture -S - -e work | less -R", "make test")
    all_.does("roam mux capture --svg work > picture.svg; head -c 4 picture.svg", "<svg")
    all_.does("git() { echo a change; }; git diff | roam mux buffer set work")
    all_.ran.append("git diff | roam mux buffer set work")
    all_.does("roam mux buffer set work TEXT")
    all_.does("roam mux buffer list work", "TEXT")
    all_.does("roam mux buffer show work", "TEXT")
    all_.does("roam mux buffer show work > copied.txt; cat copied.txt", "TEXT")
    all_.does("printf '\\033]52;c;dGVzdA==\\a'")
    all_.does("roam mux buffer paste work.2")
    all_.does("roam mux paste work < FILE")
    all_.does("roam mux paste work < file.txt")
    all_.does("roam mux paste --raw work < FILE")
    all_.shows("roam mux watch work")
    all_.shows("roam mux attach -d work")
    all_.does("roam mux kill -f work")
    all_.does("roam mux new -d build sh -c 'make; echo \"status $?\"; sleep 5'")
    all_.does("roam mux log build", "status 0")
    all_.does("roam mux new -d build cat")
    all_.shows("roam mux watch build")
    all_.does("roam mux kill -f build")
    all_.does("printf 'abc\\r\\ndef' | roam show --rows 2 --cols 8", "|def")


def in_a_pane(all_):
    """Test the commands that the pages show at a shell of a session."""
    outer = all_.home.terminal("roam mux new work")
    outer.shows("[1]")
    outer.type(b"\x02%")
    outer.status("1 [2]")
    all_.types(outer, "roam mux capture", "roam mux capture")
    all_.types(outer, "roam mux send .2 Up", "roam mux send .2 Up")
    outer.type(b"\x15")
    all_.types(outer, 'eval "$(roam mux env)"', "$ ")
    all_.types(outer, "echo $TERM $COLORTERM", "truecolor")
    all_.types(outer, "tput colors", "256")
    all_.types(outer, "export LC_ALL=C.UTF-8", "$ ")
    all_.does("roam mux kill -f work")
    check("the session has ended", outer.ends(), outer.rows)


def from_tmux(all_):
    """Test the commands of Coming from tmux."""
    all_.does("mux new -d work")
    all_.does("mux ls", "work")
    all_.shows("mux attach work")
    all_.shows("mux work")
    all_.shows("mux watch work")
    all_.does("mux send work ls Enter")
    all_.does("mux capture -S -100 work", "Makefile")
    all_.does("mux new-window work", "work:2")
    all_.does("mux rename-window work:2 build")
    all_.does("mux list-windows work", "build")
    all_.does("mux clients work")
    all_.does("mux kill work:2")
    all_.does("mux env work", "DISPLAY")
    all_.does("mux buffer set work TEXT")
    all_.does("mux buffer show work", "TEXT")
    all_.does("mux paste work < FILE")
    all_.shows("mux attach -d work")
    all_.does("mux cmd work split-window htop", status=0)
    all_.does("timeout 2 roam mux log work; true")
    all_.does("mux kill -f work")
    all_.does("mux new -d work")
    all_.does("mux kill work")
    all_.does("mkdir -p ~/.config/roam")
    all_.does("cp ~/.tmux.conf ~/.config/roam/roam.conf")
    all_.does("roam mux settings", "roam.conf:2: base-index is not an option of roam", status=1)
    all_.does("rm ~/.config/roam/roam.conf; mux settings", "which does not exist")


def other_machine(all_):
    """Test the commands of Remote sessions and Coming from mosh."""
    all_.does("ssh HOST roam-mux ls", "no session is running")
    for options in ("HOST", "HOST work:2", "user@HOST work", "host", "-A host", "-p 2222 host", "--predict always host",
                    "--predict never host",
                    "--far '~/bin/roam-mux' host", "--far '~/roam/live/mux' HOST", "--ssh 'my-ssh -4' HOST",
                    "--far 'env ROAM_UDP=never roam-mux' HOST", "HOST NAME"):
        if options == "HOST work:2":
            all_.does("ssh HOST roam-mux new -d work; ssh HOST roam-mux new-window work")
        all_.shows(f"roam mux ssh {options}")
    all_.shows("ROAM_UDP=never roam mux ssh HOST")
    all_.does("roam mux kill ssh:HOST:NAME")
    all_.shows("roam mux ssh --far 'env XDG_RUNTIME_DIR=$HOME/.roam roam-mux' HOST")


def man_pages(all_):
    """Test the examples of the man pages."""
    all_.shows("mux new work")
    all_.shows("mux attach work")
    all_.does("mux send work 'ls -l' Enter")
    all_.does("mux capture work.1", "ls -l")
    all_.does("mux new -d build sh -c 'make; echo \"status $?\"; sleep 5'")
    all_.does("mux log build", "status 0")
    all_.shows("mux ssh -p 2222 user@host work")
    all_.does("mkdir -m 700 d near")
    begun = "roam serve --dir d & roam-pane-shells d &"
    parts = all_.home.terminal(f"{begun}\nuntil [ -S d/clients ]; do sleep 0.1; done; roam attach --dir d --watch")
    all_.ran += ["mkdir -m 700 d", "mkdir -m 700 near", "roam serve --dir d & roam-pane-shells d &", "roam attach --dir d --watch"]
    check("the parts of a session show it", parts.shows("[1]", LONG), parts.rows)
    begun = "relay --dir near - sh -c 'exec roam-relay --far --dir d -' &"
    far = all_.home.terminal(f"{begun}\nuntil [ -S near/clients ]; do sleep 0.1; done; attach near")
    all_.ran += ["relay --dir near - ssh host roam-relay --far --dir work - &", "attach near"]
    check("so does a relay of them", far.shows("[1]", LONG), far.rows)
    parts.process.kill()


def end_all(home):
    """End all remaining processes, here and in the other home."""
    for run in (home.environment["XDG_RUNTIME_DIR"], str(home.folder / "far"), str(home.home / ".roam")):
        base = pathlib.Path(run, "roam")
        for path in sorted(base.iterdir()) if base.is_dir() else ():
            subprocess.run([str(home.bin / "mux"), "kill", "-f", path.name], env={**home.environment, "XDG_RUNTIME_DIR": run},
                           stdout=subprocess.DEVNULL, stderr=subprocess.DEVNULL, check=False)


@scene
@outside_gate("all commands of the guide take two minutes")
def guide_commands(folder):
    """Each command of the guide's pages and of the man pages' examples behaves as its page says."""
    home = Home(folder)
    pages = {path.name: path.read_text(encoding="utf-8") for path in sorted(GUIDE.glob("*.md"))}
    wanted = {command for text in pages.values() for command in commands_of(text)}
    for name in ("roam-mux.1", "roam.1", "roam-relay.1"):
        wanted.update(examples_of((MAN / name).read_text(encoding="utf-8")))
    all_ = Commands(home, wanted)
    try:
        for part in (first_steps, scripts, in_a_pane, from_tmux, other_machine, man_pages):
            part(all_)
        own = "\n".join(examples_of((MAN / "roam.conf.5").read_text(encoding="utf-8")))
        settings(home, [*pages.values(), f"```\n{own}\n```"])
        check("each command of the pages was run", not all_.lacking(), all_.lacking())
        check("and ten at most are not", len(NOT_RUN) <= 10 and set(NOT_RUN) <= wanted, sorted(set(NOT_RUN) - wanted))
    finally:
        end_all(home)


def settings(home, pages):
    """Each block of settings of the pages is valid."""
    file = home.home / ".config/roam/roam.conf"
    file.parent.mkdir(parents=True, exist_ok=True)
    fenced = [found for text in pages for found in re.findall(r"^```(\w*)\n(.*?)^```", text, re.M | re.S)]
    for block in [block for kind, block in fenced if not kind]:
        file.write_text(block, encoding="utf-8")
        found = home.run("roam mux settings")
        check(f"settings: {block.splitlines()[0]} ..", found[0] == 0, found)
    file.unlink()
