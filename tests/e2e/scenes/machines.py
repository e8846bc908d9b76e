"""Sessions of other machines, by relays and by a replacement of ssh; and one without `mux`."""
import contextlib
import json
import os
import pathlib
import signal
import socket
import struct
import subprocess
import time
import xml.etree.ElementTree
import zlib

from tried import Outer, PROGRAM, check, children, comes, listed, noted, said, scene, tool, window_of
from roam_live.common.process import TOOLS, begun
from roam_live.protocol.panes import asked_places
from roam_live.relay.frames import HEADER, greeting


@scene
def relay(folder):
    """Clients continue through a relay whose far end is killed or silent, and it ends on request."""
    outer = Outer(tool("mux", "other"))
    outer.shows("$ ")
    served = window_of("other")
    session = (served / "session").read_text(encoding="utf-8").strip()
    far = tool("relay", "--far", "--session", session, "--server", str(noted("other")["server"][0]), "--dir", str(served), "-")
    near = folder / "near"
    near.mkdir(mode=0o700)
    process = subprocess.Popen(tool("relay", "--dir", str(near), "-", *far), stdout=subprocess.PIPE, stderr=subprocess.DEVNULL)
    told = process.stdout.readline().decode().split()
    check("relay tells the session", told == ["port", "-", "session", session], told)
    front_ends = [Outer(tool("attach", *more, str(near))) for more in ([], ["--watch"])]
    outer.type(b"clear; echo thr''ough\r")
    check("two front ends are shown the session through it", all(one.shows("through") for one in front_ends), front_ends[1].rows)
    # A bell is reported once, to the subscribers of that moment.
    outer.type(b"printf '\\033='\r")
    check("and told how its keypad is", all(comes(lambda one=one: b"\x1b=" in one.written) for one in front_ends), front_ends[1].rows)
    outer.type(b"printf '\\a'\r")
    check("and hear its bells", all(comes(lambda one=one: b"\x07" in one.written) for one in front_ends), front_ends[1].rows)
    outer.type(b"printf '\\033>'\r")
    os.kill(children(process.pid)[0], signal.SIGKILL)
    front_ends[0].type(b"echo kil''led\r")
    check("a far end that is killed is followed by another", all(one.shows("killed") for one in front_ends), front_ends[1].rows)
    stopped = children(process.pid)[-1]
    os.kill(stopped, signal.SIGSTOP)
    front_ends[0].type(b"echo sil''ent\r")
    check("so is one that is silent", all(one.shows("silent") for one in front_ends), front_ends[1].rows)
    os.kill(stopped, signal.SIGCONT)
    check("which ends then", comes(lambda: len(children(process.pid)) == 1), lambda: children(process.pid))
    relay_ends(front_ends, process, near, far)


def far_with_clients(words, session, names):
    """Run a far end with a near end that brings client processes of these names, each with the first datagram of one."""
    head = struct.Struct(">2sBBQQQQHHHQQH")
    packer = zlib.compressobj()
    frames = [HEADER.pack(head.size, name) + head.pack(b"RM", 2, 2, session, name, 1, 1, 0, 1, 18, 0, 1, 0) for name in names]
    far = subprocess.Popen(words, stdin=subprocess.PIPE, stdout=subprocess.DEVNULL, stderr=subprocess.DEVNULL)
    far.stdin.write(greeting("-") + packer.compress(b"".join(frames)) + packer.flush(zlib.Z_SYNC_FLUSH))
    far.stdin.flush()
    return far


@scene
def far_clients(folder):
    """Two connections with forty new client processes each: the server accepts two of them, and another after ten seconds; a known one
    returns over another connection.
    """
    subprocess.run(tool("mux", "new", "-d", "other"), check=True)
    served = window_of("other")
    session = int((served / "session").read_text(encoding="utf-8"), 16)
    words = tool("relay", "--far", "--server", str(noted("other")["server"][0]), "--dir", str(served), "-")

    def clients():
        """Return the number of clients that the server knows."""
        found = []
        comes(lambda: found.append(asked_places(served / "panes", 5)) or found[-1])
        return found[-1].clients

    before = clients()
    begun_at = time.monotonic()
    fars = [far_with_clients(words, session, range(first, first + 40)) for first in (1, 101)]
    check("two new clients pass at once", comes(lambda: clients() == before + 2), clients)
    # The server counts from the moment at which it took them.
    taken_at = time.monotonic()
    fars.append(far_with_clients(words, session, [1]))
    while time.monotonic() < taken_at + 11:
        if clients() > before + 2:
            check("and no third before ten seconds", time.monotonic() > begun_at + 9, time.monotonic() - begun_at)
        time.sleep(0.5)
    fars.append(far_with_clients(words, session, range(201, 241)))
    check("one more then", comes(lambda: clients() == before + 3), clients)
    for far in fars:
        far.kill()
        far.wait()
        far.stdin.close()
    subprocess.run(tool("mux", "kill", "-f", "other"), check=True)
    folder = served.parent.parent
    check("and nothing is left of the session", comes(lambda: not folder.exists()), lambda: list(folder.rglob("*")))


def relay_ends(front_ends, relay, near, far):
    """Clients leave a relay, and it ends by a signal, alone, and with the session."""
    for front_end in front_ends:
        front_end.type(b"\x02d")
        check("a front end leaves", front_end.ends() and front_end.is_restored(), front_end.rows)
    relay.terminate()
    check("SIGTERM ends relay with status 143", comes(lambda: relay.poll() == 143), relay.returncode)
    check("and leaves no socket", not (near / "clients").exists() and not (near / "session").exists(), list(near.iterdir()))
    # A front end may take seconds to start.
    alone = subprocess.Popen(tool("relay", "--alone", "15", "--dir", str(near), "-", *far), stdout=subprocess.PIPE)
    alone.stdout.readline()
    front_end = Outer(tool("attach", str(near)))
    front_end.shows("silent")
    time.sleep(18)
    check("a relay that is to end alone stays while a front end is there", alone.poll() is None, alone.returncode)
    front_end.type(b"\x02d")
    check("and ends with status 0 after the last has left", front_end.ends() and comes(lambda: alone.poll() == 0), alone.returncode)
    again = subprocess.Popen(tool("relay", "--dir", str(near), "-", *far), stdout=subprocess.PIPE)
    again.stdout.readline()
    subprocess.run(tool("mux", "kill", "other"), check=True)
    check("the session's end ends it with status 0", comes(lambda: again.poll() == 0), again.returncode)


def lasting_port():
    """Return an unused UDP port below those that the system gives out, so that nobody takes it while its server is away."""
    for port in range(20_000 + os.getpid() % 10_000, 32_768):
        with contextlib.suppress(OSError), socket.socket(socket.AF_INET, socket.SOCK_DGRAM) as one:
            one.bind(("127.0.0.1", port))
            return port
    raise RuntimeError("no UDP port is free")


@scene
def by_hand(folder):
    """`attach` without mux: a killed server is reported, and a new one at its port is shown."""
    own = folder / "own"
    own.mkdir()
    words = [PROGRAM, "serve", "--dir", str(own), "--session", "5e55", "--port"]
    port = str(lasting_port())
    first = subprocess.Popen([*words, port], stderr=subprocess.DEVNULL)
    comes(lambda: all((own / name).exists() for name in ("session", "panes", "p1")))
    host = subprocess.Popen(tool("pane_shells", str(own)))
    outer = Outer(tool("attach", "--dir", str(own), port, "5e55"))
    check("attach shows what pane_shells runs", outer.shows("$ "), outer.rows)
    outer.type("clear; printf '\\033[1;31mr\u00e9d\\033[0m'\r".encode())
    outer.shows("r\u00e9d$")
    drawn = subprocess.run(tool("picture", port, "5e55"), stdout=subprocess.PIPE, check=True).stdout.decode()
    svg = xml.etree.ElementTree.fromstring(drawn)
    found = [(text.text, text.get("fill")) for text in svg.iter("{http://www.w3.org/2000/svg}text")]
    check("picture draws what is shown, in its colours", ("r\u00e9d", "#cd3131") in found, found)
    outer.type(b"exit\r")
    check("without --close an ended shell stays, and is told", outer.shows("[ended]"), outer.rows)
    first.kill()
    first.wait()
    check("the shells end with the server", comes(lambda: host.poll() == 0), host.returncode)
    check("a server that is gone is told in a line", outer.shows(f"no server is at port {port}"), outer.rows)
    second = subprocess.Popen([*words, port], stderr=subprocess.DEVNULL)
    check("one that comes there is shown", outer.status("[1]"), outer.rows)
    second.kill()
    second.wait()
    # The first pause is too short for a key.
    outer.shows("C-c or q leaves")
    outer.type(b"\x03")
    check("C-c leaves in a pause", outer.ends() and outer.is_restored(), outer.rows)


def ssh_words(folder, far, asked):
    """Return the arguments of a `mux ssh` to a session of another folder, by a replacement of ssh that records its calls."""
    stand_in = folder / "ssh"
    says = 'if [ "$1" = -G ]; then echo hostname 127.0.0.1; exit; fi'
    stand_in.write_text(f'#!/bin/sh\necho "$*" >> {asked}\n{says}\nshift 3\nexec sh -c "$*"\n', encoding="utf-8")
    stand_in.chmod(0o755)
    far.mkdir(mode=0o700)
    own = ["--ssh", str(stand_in), "--far", f"env XDG_RUNTIME_DIR={far} {TOOLS / 'mux'}"]
    return tool("mux", "ssh", *own, "-p", "2222", "there", "other")


def is_asked(outer):
    """Return True if C-b x asks to close pane 2: for a moment after a change of transport the focus is unknown."""
    outer.type(b"\x02x")
    holds = outer.status("close the program in pane 2? y closes it", 2)
    outer.type(b"" if holds else b"n")
    return holds


@scene
def far_windows(folder):
    """`mux ssh` shows the windows of a remote session over one relay: a window is named, opened, visited and closed there."""
    far = folder / "far"
    words, there = ssh_words(folder, far, folder / "asked"), {**os.environ, "XDG_RUNTIME_DIR": str(far)}
    for more in (("new", "-d", "other"), ("new-window", "other"), ("new-window", "other"), ("send", "other:2", "echo sec''ond", "Enter")):
        subprocess.run(tool("mux", *more), env=there, stdout=subprocess.DEVNULL, check=True)
    outer = Outer([*words[:-1], "other:2"])
    check("mux ssh shows the window that is named", outer.shows("second"), outer.rows)
    outer.type(b"\x02:split-window -h 'echo far-split; exec cat'\r")
    check("a command runs in a new pane there", outer.shows("far-split") and outer.status(" 1 [2]"), outer.rows)
    outer.type(b"\x04")
    check("and ends it", outer.status("[1]"), outer.rows)
    check("and tells the others", comes(lambda: " 1:" in outer.rows()[-1] and " 3:" in outer.rows()[-1]), outer.rows)
    outer.type(b"\x02cecho fo''urth\r")
    check("one is opened there, and takes what is typed behind", outer.shows("fourth"), outer.rows)
    outer.type(b"\x022echo ag''ain\r\x024echo ther''e\r")
    is_there = outer.shows("there") and not any("again" in row for row in outer.rows())
    check("keys behind a switch in one piece go to the new window", is_there, outer.rows)
    name = next(path.name for path in pathlib.Path(os.environ["XDG_RUNTIME_DIR"], "roam").glob("ssh:*"))
    is_told = comes(lambda: "again" in said("capture", f"{name}:2")[1])
    check("and those before to the other", is_told, lambda: said("capture", f"{name}:2"))
    check("one ssh and one relay carry all", len(asked_commands(folder / "asked")) == 1, asked_commands(folder / "asked"))
    subprocess.run(tool("mux", "kill", "-f", "other:4"), env=there, check=True)
    check("a window that is shut gives way to the one before", outer.shows("again"), outer.rows)
    for number in (1, 2):
        subprocess.run(tool("mux", "kill", "-f", f"other:{number}"), env=there, check=True)
    # Input before that report was typed in the window that is gone.
    check("also where it was the relay's own", outer.status("[1] 3:"), outer.rows)
    outer.type(b"echo la''st\r")
    check("and the one before takes what is typed", outer.shows("last"), outer.rows)
    subprocess.run(tool("mux", "kill", "-f", "other"), env=there, check=True)
    is_told = outer.ends() and outer.process.returncode == 0 and outer.shows("[the session has ended]")
    check("the session's end is told here", is_told, outer.rows)
    near = pathlib.Path(os.environ["XDG_RUNTIME_DIR"], "roam", name)
    check("and nothing is left here", comes(lambda: not (near / "w").exists() and not listed()), lambda: list(near.iterdir()))


def asked_commands(path):
    """Return the commands that ran over the replacement of ssh."""
    return [line for line in path.read_text(encoding="utf-8").splitlines() if " -G " not in f" {line} "]


@scene
def far(folder):
    """`mux ssh` shows a session of another folder; the processes that it started stay, and are found again."""
    far, asked = folder / "far", folder / "asked"
    words = ssh_words(folder, far, asked)
    outer = Outer(words)
    check("mux ssh launches a session there", outer.shows("$ "), outer.rows)
    outer.type(b"x=kept; echo fa''r\r")
    check("and types there", outer.shows("far"), outer.rows)
    outer.type(b"\x02%")
    outer.status(" 1 [2]")
    check("where its panes are is known here", comes(lambda: listed()[4:6] == ["2", "panes"]), listed)
    outer.type(b"\x02\x1b[D")
    check("arrows go by where the panes are there", outer.status("[1] 2"), outer.rows)
    outer.type(b"\x02q2")
    outer.status(" 1 [2]")
    check("C-b x asks, since what runs there isn't known here", comes(lambda: is_asked(outer)), outer.rows)
    outer.type(b"y")
    check("and closes it", outer.status("[1] 1:"), outer.rows)
    outer.type(b"\x02d")
    check("C-b d leaves it", outer.ends() and outer.is_restored(), outer.rows)
    again, beside = Outer(words), Outer(words)
    check("mux ssh comes back to it", again.shows("far") and beside.shows("far"), again.rows)
    os.kill(json.loads((far / "roam/other/state.json").read_text(encoding="utf-8"))["host"][0], signal.SIGKILL)
    again.type(b"echo sa''me $x\r")
    check("a killed pty host there is replaced, and its shells go on", again.shows("same kept"), again.rows)
    lines = asked.read_text(encoding="utf-8").splitlines()
    is_told = len(lines) == 2 and lines[0] == "-G -p 2222 there" and lines[1].startswith("-p 2222 there ")
    check("over the ssh that is there, which was asked for the host and told its own options", is_told, lines)
    again.type(b"exit\r")
    for one in (again, beside):
        check("its end is told", one.shows("[the session has ended]") and one.ends(), one.rows)


@scene
def far_just_ended(folder):
    """If a remote session ends before the relay here has learned of it, `mux ssh` begins another one."""
    far = folder / "far"
    words, there = ssh_words(folder, far, folder / "asked"), {**os.environ, "XDG_RUNTIME_DIR": str(far)}
    outer = Outer(words)
    outer.shows("$ ")
    outer.type(b"echo fi''rst\r")
    outer.shows("first")
    outer.type(b"\x02d")
    outer.ends()
    near = next(pathlib.Path(os.environ["XDG_RUNTIME_DIR"], "roam").glob("ssh:*"))
    relay = json.loads((near / "state.json").read_text(encoding="utf-8"))["relay"][0]
    os.kill(relay, signal.SIGSTOP)
    subprocess.run(tool("mux", "kill", "-f", "other"), env=there, check=True)
    again = Outer(words)
    check("the last screen is shown first", again.shows("first"), again.rows)
    os.kill(relay, signal.SIGCONT)
    is_new = comes(lambda: any(row.startswith("$ ") for row in again.rows()) and "first" not in "".join(again.rows()))
    check("then another session", is_new, again.rows)
    again.type(b"echo sec''ond\r")
    check("which takes what is typed", again.shows("second"), again.rows)
    again.type(b"exit\r")
    check("and whose end is told", again.shows("[the session has ended]") and again.ends(), again.rows)


def far_ends(far):
    """Return the far ends of a session of another folder, by their own notes, or as children of the relay here."""
    noted_there = []
    for note in far.glob("roam/other/w/1/relays/*"):
        # A far end that ends removes its note.
        with contextlib.suppress(OSError, IndexError):
            noted_there.append(int(note.read_text(encoding="utf-8").split()[0]))
    here = next(pathlib.Path(os.environ["XDG_RUNTIME_DIR"], "roam").glob("ssh:*"))
    return noted_there or children(json.loads((here / "state.json").read_text(encoding="utf-8"))["relay"][0])


def kill_far_ends(far):
    """Kill the far ends of such a session, once there is one."""
    comes(lambda: any(begun(process) is not None for process in far_ends(far)))
    for process in far_ends(far):
        with contextlib.suppress(ProcessLookupError):
            os.kill(process, signal.SIGKILL)


def is_rung_at(outer, beside):
    """Return True if a bell of the first pane rings at both terminals. While their transport changes it may find nobody."""
    before = [one.written.count(b"\x07") for one in (outer, beside)]
    outer.type(b"clear; printf '\\a\\033='\r")
    return comes(lambda: all(one.written.count(b"\x07") > count for one, count in zip((outer, beside), before)), 10)


@scene
def carried(folder):
    """The positions of a remote session's panes, the focus and bells come from its own sockets; after a cut they come again."""
    far = folder / "far"
    words = ssh_words(folder, far, folder / "asked")
    outer, beside = Outer(words), Outer(words)
    outer.shows("$ ")
    outer.type(b'\x02%\x02"')
    check("a session there is split", outer.status(" 1  2 [3]"), outer.rows)
    here = next(pathlib.Path(os.environ["XDG_RUNTIME_DIR"], "roam").glob("ssh:*"))
    sockets = [(here / name).is_socket() for name in ("panes", "host")]
    check("sockets here stand for those there", all(sockets), sockets)
    for number in (1, 2):
        check(f"{number}: ls here counts the panes there", comes(lambda: listed()[4:6] == ["3", "panes"]), listed)
        outer.type(b"\x02\x1b[D")
        check(f"{number}: an arrow goes by where they are", outer.status("[1] 2  3"), outer.rows)
        # After a change of transport a bell may find nobody for a moment.
        time.sleep(3)
        rings = comes(lambda: is_rung_at(outer, beside))
        check(f"{number}: a bell there rings at both", rings, bytes(outer.written[-200:]))
        check(f"{number}: and the keypad is that of the focus", comes(lambda: outer.display_keypad() == b"\x1b="), outer.display_keypad())
        outer.type(b"\x02q3")
        check(f"{number}: which goes with it", comes(lambda: outer.display_keypad() == b"\x1b>"), outer.display_keypad())
        outer.type(b"\x02q1printf '\\033>'\r\x02q3")
        outer.status(" 1  2 [3]")
        if number == 1:
            kill_far_ends(far)
        time.sleep(1)
        outer.type(f"clear; echo rou''nd-{number}\r".encode())
        check(f"{number}: what is typed is shown", outer.shows(f"round-{number}") and beside.shows(f"round-{number}"), outer.rows)
    outer.type(b"exit\r")
    check("a shell's end is told here", comes(lambda: listed()[4:6] == ["2", "panes"]), listed)
    outer.type(b"\x02d")
    check("a front end leaves", outer.ends() and outer.is_restored(), outer.rows)
    subprocess.run(tool("mux", "kill", "-f", "other"), env={**os.environ, "XDG_RUNTIME_DIR": str(far)}, check=True)
    check("the session's end there is told here", beside.shows("[the session has ended]") and beside.ends(), beside.rows)
    check("and leaves nothing here", comes(lambda: not (here / "panes").exists() and not listed()), lambda: list(here.iterdir()))


def fits(outer):
    """Return True if the last row of a terminal shows the key that fits the session to it, after the windows."""
    return comes(lambda: outer.last_row().startswith("[1] 1:") and outer.rows()[-1].rstrip().endswith("C-b r fits"))


@scene
def far_sizes(folder):
    """A remote session that was just started takes this terminal's size; later none is made smaller."""
    folder = folder / "sizes"
    folder.mkdir()
    words = ssh_words(folder, folder / "far", folder / "asked")
    first = Outer(words, size=(12, 40))
    is_new = first.shows("$ ") and first.status("[1]") and not first.shows("too small", 0.1)
    check("a new session there has this terminal's size", is_new, first.rows)
    # The shell learns its pane from the recorded environment.
    comes(lambda: listed()[1:4] == ["11", "by", "40"])
    check("and its shell knows it", first.has_size(11, 40), first.rows)
    first.type(b"\x02d")
    first.ends()
    # Otherwise the next terminal isn't alone.
    comes(lambda: listed()[-2:] == ["0", "terminals"])
    alone = Outer(words)
    is_grown = alone.shows("11 40") and comes(lambda: alone.last_row().startswith("[1] 1:") and "fits" not in alone.rows()[-1])
    check("it grows for a larger terminal alone", is_grown and comes(lambda: listed()[1:4] == ["23", "by", "80"]), alone.rows)
    small = Outer(words, size=(12, 40))
    is_part = fits(small) and small.shows("$ ")
    check("and isn't made smaller again", is_part and listed()[1:4] == ["23", "by", "80"], (small.rows(), listed()))
    alone.type(b"exit\r")
    for one in (alone, small):
        check("its end is told at each", one.shows("[the session has ended]") and one.ends(), one.rows)


@scene
def far_alone(folder):
    """A remote session follows the smaller size of a lone terminal; with a second one, here or there, it doesn't."""
    folder = folder / "alone"
    folder.mkdir()
    far = folder / "far"
    words = ssh_words(folder, far, folder / "asked")
    outer = Outer(words)
    outer.shows("$ ")
    # For two seconds a new session takes each size.
    time.sleep(3)
    outer.resize(20, 60)
    check("a lone terminal that is drawn smaller has the session there follow", comes(lambda: listed()[1:4] == ["19", "by", "60"]), listed)
    ways = (("here", words, {}), ("there", tool("mux", "attach", "other"), {"XDG_RUNTIME_DIR": str(far)}))
    for where, more, environment in ways:
        second = Outer(more, (20, 60), environment)
        second.shows("$ ")
        check(f"a second one {where} is known", comes(lambda: listed()[-2:] == ["2", "terminals"]), listed)
        time.sleep(2)
        outer.resize(18, 50)
        check(f"beside one {where} it shows a part", fits(outer), outer.rows)
        time.sleep(1)
        check("and nothing shrinks", listed()[1:4] == ["19", "by", "60"], listed)
        outer.resize(20, 60)
        outer.status("[1] 1:")
        second.type(b"\x02d")
        check("the second leaves", second.ends() and second.is_restored(), second.rows)
        comes(lambda: listed()[-2:] == ["1", "terminal"])
    time.sleep(2)
    outer.resize(19, 58)
    check("alone again it has it follow", comes(lambda: listed()[1:4] == ["18", "by", "58"]), listed)
    outer.type(b"exit\r")
    check("its end is told", outer.shows("[the session has ended]") and outer.ends(), outer.rows)
