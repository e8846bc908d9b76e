"""The completions of bash, zsh and fish for the tools' words. The last two are tested if they are installed."""
import fcntl
import os
import pathlib
import pty
import select
import shutil
import subprocess
import tempfile
import termios
import time
import unittest

from aids import Case
from roam_live.common.process import TOOLS

COMPLETES = r"""
source "$1"
mux() { [ "$1" = list-windows ] && printf ' 1 -\n12 a b\n' || printf 'main 24 by 80\nwork 24 by 80\n'; }
shift
call=$1; shift
COMP_WORDS=("$@") COMP_CWORD=$(($# - 1)) COMPREPLY=()
compopt() { :; }
$call
[ ${#COMPREPLY[@]} = 0 ] || printf '%s\n' "${COMPREPLY[@]}"
"""


def completed(call, *words, cwd=None):
    """Return a function's completions of the last word."""
    asked = ["bash", "-c", COMPLETES, "bash", str(TOOLS / "completion.bash"), call, *words]
    run = subprocess.run(asked, cwd=cwd, stdout=subprocess.PIPE, check=True)
    return run.stdout.decode().split("\n")[:-1]


class Completion(unittest.TestCase):
    """The words of each tool."""

    def test_acts(self):
        self.assertEqual(completed("_roam_mux", "mux", "send", "-a", "work", "key re"), ["key return", "key remove"])
        self.assertEqual(completed("_roam_mux", "mux", "send", "-a", "work", "char 61", "'split"), ["split right", "split down"])
        self.assertEqual(completed("_roam_mux", "mux", "send", "-a", "work", "key\\ up"), ["key up"])
        self.assertEqual(completed("_roam_mux", "mux", "send", "-a", "work", "focus 7"), ["focus 7"])
        self.assertIn("close", completed("_roam", "roam", "mux", "send", "-a", "work", ""))
        self.assertEqual(completed("_roam_mux", "mux", "send", "w"), ["work"])
        self.assertEqual(completed("_roam_mux", "mux", "send", "-"), ["-l", "-a", "--help"])
        self.assertEqual(completed("_roam_mux", "mux", "send", "-a", "w"), ["work"])
        self.assertEqual(completed("_roam_mux", "mux", "send", "work", "Ent"), ["Enter"])
        self.assertEqual(completed("_roam_mux", "mux", "send", "work", "make test", "PP"), ["PPage"])

    def test_paste(self):
        self.assertEqual(completed("_roam_mux", "mux", "pas"), ["paste"])
        self.assertEqual(completed("_roam_mux", "mux", "paste", "--r"), ["--raw"])
        self.assertEqual(completed("_roam_mux", "mux", "paste", "--raw", "m"), ["main"])
        self.assertEqual(completed("_roam_mux", "mux", "send", "-l", "m"), ["main"])
        self.assertEqual(completed("_roam_mux", "mux", "send", "-l", "main", ""), [])

    def test_rows_and_buffers(self):
        """The words for rows and buffers are offered."""
        self.assertEqual(completed("_roam_mux", "mux", "lo"), ["log"])
        self.assertEqual(completed("_roam_mux", "mux", "log", "w"), ["work"])
        self.assertEqual(completed("_roam_mux", "mux", "log", "-e", "w"), ["work"])
        self.assertEqual(completed("_roam_mux", "mux", "capture", "-"), ["--svg", "-S", "-E", "-e", "-J", "--help"])
        self.assertEqual(completed("_roam_mux", "mux", "capture", "-J", "w"), ["work"])
        self.assertEqual(completed("_roam_mux", "mux", "buffer", ""), ["list", "show", "set", "paste", "--help"])
        for word in ("list", "show", "set", "paste"):
            self.assertEqual(completed("_roam_mux", "mux", "buffer", word, ""), ["main", "work"])
            self.assertEqual(completed("_roam_mux", "mux", "buffer", word, "main", ""), [])

    def test_program(self):
        """Each command of the program in roam(1) is offered, and after it each of its options."""
        page = pathlib.Path(TOOLS.parent, "docs/man/roam.1").read_text(encoding="utf-8")
        synopsis = page[page.index(".SH SYNOPSIS") : page.index(".SH DESCRIPTION")].replace("\\-", "-")
        commands = synopsis.split(".B roam ")[1:]
        self.assertEqual(completed("_roam", "roam", ""), ["mux", "tmux", *(one.split()[0] for one in commands), "--help", "--version"])
        for one in commands:
            options = [word for word in one.replace('"', " ").split() if word.startswith("--")]
            self.assertCountEqual(completed("_roam", "roam", one.split()[0], ""), [*options, "--help"])
        self.assertEqual(completed("_roam", "roam", "tmux", "split"), ["split-window"])

    def test_every_act(self):
        """Each act that roam(1) lists is offered."""
        page = pathlib.Path(TOOLS.parent, "docs/man/roam.1").read_text(encoding="utf-8")
        begin = page.index(".SH ACTS")
        named = page[begin : page.index(".SH TERMINALS")].replace("\\fR", "").replace('"', "")
        offered = completed("_roam_mux", "mux", "send", "-a", "work", "")
        for act in offered:
            self.assertIn(act.split()[0], named)
        keys = "up pf4 find insert remove select prev next f6 f20 pad0 pad9 padminus padcomma padperiod padenter return backspace"
        for key in keys.split():
            self.assertIn(f"key {key}", offered)

    def test_folders(self):
        with tempfile.TemporaryDirectory() as folder:
            for name in ("near", "new folder", "file"):
                path = pathlib.Path(folder, name)
                path.touch() if name == "file" else path.mkdir()
            self.assertEqual(sorted(completed("_roam_attach", "attach", "ne", cwd=folder)), ["near", "new folder"])
            self.assertEqual(completed("_roam_attach", "attach", "--dir", "fi", cwd=folder), [])
            self.assertEqual(completed("_roam_pane_shells", "pane_shells", "nea", cwd=folder), ["near"])

    def test_pane_shells(self):
        self.assertEqual(completed("_roam_pane_shells", "pane_shells", "--"), ["--close", "--server", "--again", "--windows", "--help"])
        self.assertIn("bash", completed("_roam_pane_shells", "pane_shells", "--close", "--server", "7", "near", "bas"))
        self.assertEqual(completed("_roam_pane_shells", "pane_shells", "--server", ""), [])

    def test_windows(self):
        """The words for windows are offered, and the numbers of a session's windows, in bash after a colon."""
        self.assertEqual(completed("_roam_mux", "mux", "new-"), ["new-window"])
        for word in ("list-windows", "new-window", "rename-window", "clients"):
            self.assertEqual(completed("_roam_mux", "mux", word, "w"), ["work"])
        self.assertEqual(completed("_roam_mux", "mux", "attach", "-d", "w"), ["work"])
        self.assertEqual(completed("_roam_mux", "mux", "kill", "work", ":", ""), ["1", "12"])

    def test_sessions(self):
        self.assertEqual(completed("_roam_mux", "mux", "attach", "m"), ["main"])
        self.assertEqual(completed("_roam_mux", "mux", "at"), ["attach"])
        self.assertEqual(completed("_roam_mux", "mux", "en"), ["env"])
        self.assertEqual(completed("_roam_mux", "mux", "env", "w"), ["work"])


# The completion of a whole line in a shell: the line, the expected words, in zsh and in fish.
LINES = (
    ("roam mux atta", "attach"), ("roam-mux ki", "kill"), ("roam mux attach wor", "work"), ("roam-mux kill ma", "main"),
    ("roam mux send work Ente", "Enter"), ("roam mux cmd work split-w", "split-window"), ("roam mux buffer sho", "show"),
    ("roam mux upg", "upgrade"), ("roam ser", "serve"), ("roam mux help list-w", "list-windows"), ("roam mux attach --pred", "--predict"),
)

# Lists two sessions, as `roam mux` and as `roam-mux`.
PLAYED = "#!/bin/sh\n[ \"$1\" != mux ] || shift\n[ \"$1\" != ls ] || printf 'main  23 by 80\\nwork  23 by 80\\n'\n"


class Tables(unittest.TestCase):
    """The files that are generated from the tables."""

    def test_written(self):
        run = subprocess.run([str(TOOLS.parent / "tools/completions"), "--check"], stdout=subprocess.PIPE, check=False)
        self.assertEqual((run.stdout.decode(), run.returncode), ("", 0))


class OtherShells(Case):
    """zsh and fish, with a simulated roam."""

    def setUp(self):
        self.folder = self.made_folder()
        for name in ("roam", "roam-mux"):
            (self.folder / name).write_text(PLAYED, encoding="ascii")
            (self.folder / name).chmod(0o755)
        self.known = {**os.environ, "PATH": f"{self.folder}:{os.environ['PATH']}", "HOME": str(self.folder), "TERM": "dumb"}

    @unittest.skipUnless(shutil.which("fish"), "fish isn't installed")
    def test_fish(self):
        for line, wanted in LINES:
            words = ["fish", "--no-config", "-c", f"source {TOOLS}/completion.fish; complete -C '{line}'"]
            run = subprocess.run(words, env=self.known, cwd=self.folder, stdout=subprocess.PIPE, check=True)
            found = [one.partition("\t")[0] for one in run.stdout.decode().splitlines()]
            self.assertEqual(found, [wanted], line)
        offered = subprocess.run(["fish", "--no-config", "-c", f"source {TOOLS}/completion.fish; complete -C 'roam mux send -a work sp'"],
                                 env=self.known, stdout=subprocess.PIPE, check=True).stdout.decode()
        self.assertEqual(offered.splitlines(), ["split down", "split right"])

    @unittest.skipUnless(shutil.which("zsh"), "zsh isn't installed")
    def test_zsh(self):
        functions = self.folder / "functions"
        functions.mkdir()
        shutil.copy(TOOLS / "completion.zsh", functions / "_roam")
        shell = Zsh({**self.known, "PS1": "> ", "ZDOTDIR": str(self.folder)}, self.folder)
        self.addCleanup(shell.end)
        shell.types(f"fpath=({functions} $fpath); autoload -U compinit; compinit -u -D; print re''ady\n", "ready\r")
        for line, wanted in LINES:
            begun = line.rpartition(" ")[0]
            shell.types(f"{line}\t", f"{begun} {wanted}")
            shell.types("\x15print ne''xt\n", "next\r")


class Zsh:
    """zsh at a pseudo-terminal."""

    def __init__(self, known, folder):
        self.master, slave = pty.openpty()
        ends = {"stdin": slave, "stdout": slave, "stderr": slave}
        self.process = subprocess.Popen(["zsh", "-f", "-i"], **ends, env=known, cwd=folder, start_new_session=True,
                                        preexec_fn=lambda: fcntl.ioctl(0, termios.TIOCSCTTY, 0))
        os.close(slave)

    def types(self, keys, wanted):
        """Type keys, and read until a text appears."""
        os.write(self.master, keys.encode())
        read, end = "", time.monotonic() + 10
        while wanted not in read:
            if not select.select([self.master], [], [], max(0, end - time.monotonic()))[0]:
                raise AssertionError(f"{wanted!r} doesn't come behind {keys!r}: {read!r}")
            read += os.read(self.master, 65536).decode("utf-8", "replace").replace("\a", "")

    def end(self):
        """End it."""
        self.process.kill()
        self.process.wait()
        os.close(self.master)


if __name__ == "__main__":
    unittest.main()
