"""Shell scripts for tmux, unchanged, over roam and over tmux side by side."""
import os
import pathlib
import re
import subprocess

from tried import check, is_missing, scene
from roam_live.common.process import TOOLS

SCRIPTS = pathlib.Path(__file__).resolve().parents[1] / "tmux_scripts"

# The scripts that need a command which roam lacks, and what it says.
LACKING = {
    "select_layout": "main-vertical: roam does not move panes; it only sets their sizes",
    "swap_break_join": "swap-pane: roam does not support this tmux command",
}
LIMIT = 60


def tool(*words):
    """Return the status, output and errors of `roam tmux`."""
    ran = subprocess.run([str(TOOLS / "tmux"), *words], capture_output=True, text=True, check=False, stdin=subprocess.DEVNULL)
    return ran.returncode, ran.stdout, ran.stderr


def played(script, path, folder):
    """Return the status and the lines of a script with this folder first in PATH; ids have no numbers in them."""
    environment = {name: value for name, value in os.environ.items() if name not in ("TMUX", "TMUX_PANE")}
    environment.update({"PATH": f"{path}:{environment['PATH']}", "TMPDIR": str(folder), "TMUX_TMPDIR": str(folder), "SHELL": "/bin/bash"})
    try:
        ran = subprocess.run(["bash", str(script)], env=environment, stdin=subprocess.DEVNULL, stdout=subprocess.PIPE,
                             stderr=subprocess.STDOUT, timeout=LIMIT, check=False, cwd=folder)
    except subprocess.TimeoutExpired:
        return "late", []
    return ran.returncode, re.sub(r"([$@%])\d+", r"\1N", ran.stdout.decode("utf-8", "replace")).splitlines()


def beside(folder):
    """Return a folder whose tmux is the real one, without settings."""
    path = pathlib.Path(folder) / "real"
    path.mkdir()
    (path / "tmux").write_text('#!/bin/sh\nexec /usr/bin/tmux -f /dev/null "$@"\n', encoding="utf-8")
    (path / "tmux").chmod(0o755)
    return path


@scene
def tmux_scripts(folder):
    """Each script prints the same lines, ends with the same status, and leaves no session."""
    if is_missing("tmux_scripts", "tmux", "bash"):
        return
    folder = pathlib.Path(folder)
    own, real, same = tool("--tmux-path")[1].strip(), beside(folder), []
    for script in sorted(SCRIPTS.glob("*.sh")):
        by_roam, by_tmux = played(script, own, folder), played(script, real, folder)
        if script.stem in LACKING:
            check(f"{script.stem} is refused in words", LACKING[script.stem] in by_roam[1] and "PASS" not in by_roam[1], by_roam)
        else:
            same += [script.stem] if by_roam == by_tmux and "PASS" in by_roam[1] else []
            check(f"{script.stem} is the same over tmux", by_roam == by_tmux, (by_roam, by_tmux))
        left = tool("ls")
        check("and leaves no session", left[0] == 1 and not left[1], left)
    check(f"{len(same)} of {len(list(SCRIPTS.glob('*.sh')))} scripts are the same", len(same) >= 24, same)
