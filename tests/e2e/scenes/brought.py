"""The environment from an attach: an ssh agent that serves older shells, and values for new panes."""
import os
import socket
import subprocess

from tried import Outer, check, comes, said, scene, tool
from roam_live.common.process import TOOLS

NOTHING = {name: "" for name in ("SSH_AUTH_SOCK", "DISPLAY", "WAYLAND_DISPLAY", "SSH_CONNECTION")}
HOSTILE = "a'b $(echo no)`id`"


def agents(folder):
    """Return two sockets in place of agents, and their paths."""
    made = [socket.socket(socket.AF_UNIX) for _ in range(2)]
    paths = [str(folder / name) for name in ("one", "two")]
    for end, path in zip(made, paths):
        end.bind(path)
        end.listen()
    return made, paths


def readlink(outer, wanted):
    """Return True if the agent of the focused shell is at this path in time. The shell is asked again, since the path of a terminal that
    has just come is on its way.
    """
    return comes(lambda: outer.type(b'clear; readlink "$SSH_AUTH_SOCK"\r') or outer.shows(f"{wanted} ", 5))


@scene
def forwards_environment(folder):
    """A later attach's agent serves an older shell; new panes have its values, and `mux env` prints them for a shell; a read-only attach
    sends nothing.
    """
    ends, (one, two) = agents(folder)
    first = Outer(tool("mux", "other"), environment={**NOTHING, "SSH_AUTH_SOCK": one, "DISPLAY": ":71"})
    check("a session is launched with an agent", first.shows("$ ") and readlink(first, one), first.rows)
    wanted = ["export DISPLAY=:71", "unset WAYLAND_DISPLAY", "unset SSH_CONNECTION"]
    check("and with a display", comes(lambda: said("env", "other")[1].splitlines()[:3] == wanted), lambda: said("env", "other"))
    more = {**NOTHING, "SSH_AUTH_SOCK": two, "SSH_CONNECTION": HOSTILE}
    watcher = Outer(tool("mux", "watch", "other"), environment=more)
    holds = watcher.begins() and readlink(first, one) and ":71" in said("env", "other")[1]
    check("who watches brings nothing", holds, first.rows)
    second = Outer(tool("mux", "attach", "other"), environment=more)
    check("another attaches with another agent", second.shows("$ ") and comes(lambda: ":71" not in said("env", "other")[1]), second.rows)
    check("which serves the older shell", readlink(first, two), first.rows)
    first.type(b"\x02%")
    first.status(" 1 [2]")
    first.type(b'printf "<%s>" "${DISPLAY-unset}" "$SSH_CONNECTION"\r')
    check("a new pane has what that brought, and no more", first.shows(f"<unset><{HOSTILE}>"), first.rows)
    check("and the agent", readlink(first, two), first.rows)
    first.type(b"\x02q1clear; " + f'eval "$({TOOLS}/mux env other)"; printf "<%s>" "${{DISPLAY-unset}}" "$SSH_CONNECTION"\r'.encode())
    check("the older shell has it by mux env", first.shows(f"<unset><{HOSTILE}>"), first.rows)
    third = Outer(tool("mux", "attach", "other"), environment=NOTHING)
    check("one without an agent leaves that", third.shows("$ ") and readlink(first, two), first.rows)
    subprocess.run(tool("mux", "kill", "-f", "other"), check=True)
    check("the link goes with the session", comes(lambda: not os.path.lexists(folder / "roam/other/agent")), folder)
    for end in ends:
        end.close()


def told_there(environment):
    """Return what `mux env` prints with this environment."""
    return subprocess.run(tool("mux", "env", "other"), env=environment, stdout=subprocess.PIPE, check=True).stdout.decode()


@scene
def forwards_environment_far(folder):
    """`mux ssh` sends the environment that sshd set at the other machine, each time that ssh is spawned."""
    ends, (one, two) = agents(folder)
    far, sets, stand_in = folder / "far", folder / "sets", folder / "ssh"
    far.mkdir(mode=0o700)
    stand_in.write_text('#!/bin/sh\n[ "$1" != -G ] || exit 1\nshift\nexec sh -c "$*"\n', encoding="utf-8")
    stand_in.chmod(0o755)
    words = tool("mux", "ssh", "--ssh", str(stand_in), "--far", f". {sets}; XDG_RUNTIME_DIR={far} exec {TOOLS / 'mux'}", "there", "other")
    own = {**NOTHING, "DISPLAY": ":own"}
    for agent, display in ((one, ":81"), (two, ":82")):
        sets.write_text(f"export SSH_AUTH_SOCK={agent} DISPLAY={display}\n", encoding="utf-8")
        outer = Outer(words, environment=own)
        check(f"{display}: a session there is shown", outer.shows("$ "), outer.rows)
        check(f"{display}: its shell has the agent that came with it", readlink(outer, agent), outer.rows)
        there = {**os.environ, "XDG_RUNTIME_DIR": str(far)}
        is_told = comes(lambda: f"export DISPLAY={display}\n" in told_there(there))
        check(f"{display}: new panes have the display of there", is_told, lambda: told_there(there))
        outer.type(b"\x02d")
        outer.ends()
        near = next(path.name for path in (folder / "roam").iterdir() if path.name.startswith("ssh:"))
        check(f"{display}: mux env here is refused", said("env", near)[0] == 1, said("env", near))
        subprocess.run(tool("mux", "kill", "-f", near), check=True)
    near = folder / "near"
    near.mkdir(mode=0o700)
    carries = f"XDG_RUNTIME_DIR={far} DISPLAY=:83 exec {TOOLS / 'mux'} far other"
    relay = subprocess.Popen(tool("relay", "--dir", str(near), "-", "sh", "-c", carries), stdout=subprocess.DEVNULL)
    comes(lambda: (near / "host").is_socket())
    outer = Outer(tool("attach", str(near)), environment={**own, "SSH_AUTH_SOCK": two})
    check("a front end at a relay of one's own shows it", outer.shows("$ "), outer.rows)
    outer.type(b"echo he''re\r")
    outer.shows("here")
    is_told = comes(lambda: "DISPLAY=:83\n" in told_there(there))
    check("and brings nothing itself", is_told and not (near / "agent").is_symlink(), lambda: told_there(there))
    subprocess.run(tool("mux", "kill", "-f", "other"), env=there, check=True)
    relay.wait()
    for end in ends:
        end.close()
