"""Processes and resources that end, are killed, are stopped or are missing: shells, starts, sessions, descriptors."""
import contextlib
import fcntl
import os
import pathlib
import pty
import resource
import shutil
import signal
import struct
import subprocess
import termios
import time

from tried import (
    LIVE, WAIT, Outer, PROGRAM, check, children, comes, commands, folder_of, is_missing, is_scrollback_process, listed, noted, outside_gate,
    own_terminal, said, scene, tool)
from actors import read_each
from roam_live.common import tty
from roam_live.common.process import TOOLS, begun
from roam_live.session.foreground import busy_panes, pane_of

LISTED = 50

HANG_UPS = 20

KILLED_STARTS = 40

IDLE = 12.0


@scene
def killed(folder):
    """`mux kill` ends a session, its programs, and its front ends."""
    outer = Outer(tool("mux", "other"))
    outer.shows("$ ")
    outer.type(f"echo $$ > {folder}/shell; echo no''ted\r".encode())
    outer.shows("noted")
    shell = int((folder / "shell").read_text(encoding="utf-8"))
    subprocess.run(tool("mux", "kill", "other"), check=True)
    check("mux kill ends a front end", outer.ends() and outer.is_restored(), outer.rows)
    check("and the shell", comes(lambda: not pathlib.Path(f"/proc/{shell}").exists()), shell)
    check("no session is left then", listed() == [], listed())
    run = subprocess.run(tool("mux", "kill", "other"), stderr=subprocess.PIPE, check=False)
    told = (run.returncode, run.stderr)
    check("what isn't there is said in one line", told == (1, b"mux: no session other is running; `mux ls` lists sessions\n"), run)


@scene
def jobs(folder):
    """A shell with a stopped editor, or a program in the background, closes only after a question, which names it."""
    outer = Outer(tool("mux", "other"))
    outer.shows("$ ")
    outer.type(b"\x02%")
    outer.status(" 1 [2]")
    outer.type(b"cat\r")
    comes(lambda: outer.rows()[-1].rstrip().endswith(":cat*"))
    outer.type(b"\x1a")
    outer.shows("Stopped")
    outer.type(b"sleep 1000 &\r")
    names = "cat (stopped), sleep (background)"
    # Without a program there it closes the pane.
    comes(lambda: busy_panes(str(folder_of("other"))) == {2: names})
    for keys, text in ((b"\x02x", f"close {names} in pane 2? y"), (b"\x02&", f"close window 1, with {names} in pane 2 and the session")):
        outer.type(keys)
        check(f"{keys!r} asks, and names them", outer.status(text), outer.rows)
        outer.type(b"n")
        outer.status(" 1 [2]")
    for name, end in (("other.2", "closes it"), ("other", "ends it")):
        wanted = (1, "", f"mux: session other runs {names} in pane 2; `mux kill -f {name}` {end}\n")
        check(f"mux kill {name} refuses likewise", said("kill", name) == wanted, said("kill", name))
    outer.type(b"kill -9 %1 %2; wait; echo go''ne\r")
    outer.shows("gone")
    check("without them it is closed at once", comes(lambda: said("kill", "other.2")[0] == 0) and outer.status("[1] 1:"), outer.rows)


class Frozen:
    """A front end on a terminal whose emulator reads nothing."""

    def __init__(self, words):
        self.master, self.slave = pty.openpty()
        tty.set_size(self.slave, 40, 120)
        ends = {"stdin": self.slave, "stdout": self.slave, "stderr": self.slave}
        known = {"TERM": "xterm-256color", **os.environ}
        self.process = subprocess.Popen(words, **ends, env=known, start_new_session=True, preexec_fn=own_terminal)

    @staticmethod
    def unread(end):
        """Return the number of bytes that can be read at an end of its terminal."""
        return struct.unpack("i", fcntl.ioctl(end, termios.FIONREAD, bytes(4)))[0]

    def is_full(self):
        """Return True if its terminal accepts nothing more."""
        return self.unread(self.master) >= 4095

    def is_taken(self):
        """Return True if it has read its input."""
        return self.unread(self.slave) == 0

    def ends(self):
        """Return True if it ends in time."""
        return comes(lambda: self.process.poll() is not None)

    def close(self):
        """Release it."""
        self.process.kill()
        self.process.wait()
        os.close(self.master)
        os.close(self.slave)


@scene
def frozen(folder):
    """A terminal that accepts nothing is released by a signal, and from elsewhere, and its input arrives."""
    outer = Outer(tool("mux", "other"), (40, 120))
    outer.shows("$ ")
    ways = {"SIGTERM": signal.SIGTERM, "SIGHUP": signal.SIGHUP, "SIGINT": signal.SIGINT, "C-b D elsewhere": None}
    for way, number in ways.items():
        stuck = Frozen(tool("mux", "other"))
        comes(lambda: len(said("clients", "other")[1].splitlines()) == 2)
        has_ended = folder / f"ended by {way}"
        outer.type(f"until [ -e '{has_ended}' ]; do seq 1 500; sleep 0.1; done; clear\r".encode())
        is_full = comes(stuck.is_full)
        os.write(stuck.master, f"echo ca''me by {way}\r".encode())
        time.sleep(0.5)
        comes(stuck.is_taken)
        if number:
            os.kill(stuck.process.pid, number)
        else:
            outer.type(b"\x02D")
        is_over = stuck.ends()
        has_ended.touch()
        check(f"it ends by {way}", is_full and is_over, (is_full, is_over))
        check("and what was typed there comes", outer.shows(f"came by {way}"), outer.rows)
        stuck.close()


def has_open(process, end):
    """Return True if a process has a file open whose name ends so."""
    return any(name.endswith(end) for name in read_each(f"/proc/{process}/fd", os.readlink))


@scene
def moved(folder):
    """A front end continues after its files are moved away: copy mode, a command and the settings work."""
    shutil.copytree(LIVE, folder / "tree/live", ignore=shutil.ignore_patterns("__pycache__"))
    # Python may write the bundles that a front end has open.
    outer = Outer([str(folder / "tree/live/mux"), "other"], environment={"PYTHONDONTWRITEBYTECODE": ""})
    outer.begins()
    outer.type(b"seq 1 50\r")
    outer.shows("50")
    # It compares the bundle with its sources right after it has opened it.
    is_open = lambda: has_open(outer.process.pid, ".bundle")
    check("the front end has opened its bundle", comes(lambda: is_open() and (time.sleep(1) or is_open())))
    (folder / "tree").rename(folder / "moved")
    for keys, text in ((b"\x02[", "copy mode"), (b"/4", "4"), (b"\rq", "[1] 1:"), (b"\x02:display-message moved\r", "moved"),
                       (b"\x02R", "roam.conf was read"), (b"\x02?", "list the keys")):
        outer.type(keys)
        check(f"{keys!r} does what it does", outer.shows(text), outer.rows)
    outer.type(b"x\x02d")
    check("and it is left", outer.ends() and outer.is_restored(), outer.rows)


@scene
def stopped_killed(folder):
    """`mux kill` ends a session all of whose processes are stopped, its scrollback process too, and leaves no folder."""
    outer = Outer(tool("mux", "other"))
    outer.shows("$ ")
    outer.type(b"\x02d")
    outer.ends()
    found = {role: one[0] for role, one in noted("other").items() if role in ("server", "client", "host", "holder")}
    comes(lambda: any(map(is_scrollback_process, children(found["host"]))))
    found["filter"] = next(filter(is_scrollback_process, children(found["host"])))
    for process in found.values():
        os.kill(process, signal.SIGSTOP)
    run = subprocess.run(tool("mux", "kill", "-f", "other"), stderr=subprocess.PIPE, check=False)
    check("mux kill ends what is stopped", (run.returncode, run.stderr) == (0, b""), run)
    is_gone = comes(lambda: all(begun(process) is None for process in found.values()))
    check("and leaves no process", is_gone, [role for role, process in found.items() if begun(process) is not None])
    check("and no folder", comes(lambda: not folder_of("other").exists()), folder_of("other"))


@scene
def silent(folder):
    """A server that doesn't answer is reported, the user can leave, and the input arrives once it answers."""
    outer = Outer(tool("mux", "other"))
    outer.shows("$ ")
    server = noted("other")["server"][0]
    os.kill(server, signal.SIGSTOP)
    outer.type(b"echo wai''ted\r")
    check("a silent server is told of in the last row", outer.status("roam: no answer for 1"), outer.rows)
    check("and which key leaves", comes(lambda: "s; C-b d leaves" in outer.rows()[-1]), outer.rows)
    os.kill(server, signal.SIGCONT)
    check("what was typed meanwhile comes", outer.shows("waited") and outer.status("[1]"), outer.rows)
    os.kill(server, signal.SIGSTOP)
    outer.type(b"\x02d")
    check("C-b d leaves while it is silent", outer.ends() and outer.is_restored(), outer.rows)
    os.kill(server, signal.SIGCONT)
    subprocess.run(tool("mux", "kill", "other"), check=True)


def family(process):
    """Return a process and all its descendants."""
    return {process}.union(*(family(child) for child in children(process)))


def processor_time(processes):
    """Return the processor seconds of processes."""
    texts = [pathlib.Path(f"/proc/{process}/stat").read_text(encoding="utf-8").rpartition(")")[2].split() for process in processes]
    return sum(int(text[11]) + int(text[12]) for text in texts) / os.sysconf("SC_CLK_TCK")


def wakeups(processes):
    """Return the number of wakeups of processes."""
    texts = [pathlib.Path(f"/proc/{process}/status").read_text(encoding="utf-8") for process in processes]
    return sum(int(line.split()[1]) for text in texts for line in text.splitlines() if line.startswith("voluntary_ctxt_switches"))


@scene
@outside_gate("it measures processor time")
def idle(folder):
    """Nine idle panes take almost no processor time."""
    outer = Outer(tool("mux", "other"))
    outer.status("[1]")
    for pane, way in zip(range(2, 10), '%""%""%""'):
        outer.type(b"\x02" + way.encode() + (b"\x02q1" if pane in (4, 7) else b""))
        outer.shows(f"{pane}")
    check("nine panes are there", comes(lambda: listed()[4:6] == ["9", "panes"]), (listed(), outer.rows()))
    own = [noted("other")[role][0] for role in ("server", "host", "holder", "client")] + [outer.process.pid]
    processes = set().union(*map(family, own))
    before, woken = processor_time(processes), wakeups(processes)
    time.sleep(IDLE)
    used = (processor_time(processes) - before) * 60 / IDLE
    often = (wakeups(processes) - woken) / IDLE
    told = f"{used:.2f} s of processor a minute, and wake {often:.1f} times a second"
    print(f"        nine idle panes and a front end take {told}", flush=True)
    if b"__asan_init" in pathlib.Path(PROGRAM).read_bytes():
        print("skipped that it is below half a second: the program is built with checks of its memory", flush=True)
    else:
        check("which is below half a second", used < 0.5, f"{used:.2f} s")
    subprocess.run(tool("mux", "kill", "other"), check=True)


@contextlib.contextmanager
def limited(process, kind, most):
    """Limit a resource of a process."""
    before = resource.prlimit(process, kind)
    resource.prlimit(process, kind, (most, before[1]))
    try:
        yield
    finally:
        resource.prlimit(process, kind, before)


def first_free(process):
    """Return the first unused descriptor of a process: with this limit it gets no new one except those that it closes itself."""
    taken = {int(path.name) for path in pathlib.Path(f"/proc/{process}/fd").iterdir()}
    return next(number for number in range(len(taken) + 1) if number not in taken)


@scene
def refused(folder):
    """A refusal of the system costs a pane its shell, or delays the list of panes, and affects no other pane."""
    outer = Outer(tool("mux", "other"))
    outer.begins()
    host = noted("other")["host"][0]
    with limited(host, resource.RLIMIT_NOFILE, 3):
        outer.type(b"\x02%")
        outer.status(" 1 [2]")
        outer.type(b"\x02q1echo st''ays\r")
        check("where no descriptor is left the panes go on", outer.shows("stays"), outer.rows)
    check("a pane that came then has its shell later", comes(lambda: outer.rows()[0][40:].startswith("$ ")), outer.rows)
    outer.type(b"\x02q2")
    outer.status(" 1 [2]")
    not_started(outer, host)
    with limited(host, resource.RLIMIT_FSIZE, 0):
        outer.type(b"\x02%")
        outer.status(" 1  2  3 [4]")
        comes(lambda: len(commands("other")) == 4)
        outer.type(b"echo fu''ll\r")
        check("where no file can be written the panes go on", outer.shows("full"), outer.rows)
    check("and where they are is written later", comes(lambda: listed()[4:6] == ["4", "panes"]), listed)
    subprocess.run(tool("mux", "kill", "other"), check=True)


def not_started(outer, host):
    """A pane whose shell fails to start shows that; it can be closed, and a key retries."""
    for keys in (b"\x02x", b"x"):
        with limited(host, resource.RLIMIT_NOFILE, first_free(host)):
            outer.type(b'\x02"')
            check("a pane whose shell cannot be started says so", outer.shows("[not run: "), outer.rows)
        outer.type(keys)
        # A descriptor is free again by then, by which a pane shows the failure.
        time.sleep(1)
        if keys == b"x":
            # The key may be echoed before the prompt, or after it.
            has_shell = comes(lambda: any(row[40:].strip() in ("$", "x$", "$ x") for row in outer.rows()[12:]))
            check("and a key there tries again", has_shell, outer.rows)
        else:
            check("and can be closed", outer.status(" 1 [2] 1:"), outer.rows)
    held = [name for shell in commands("other") for name in read_each(f"/proc/{shell}/fd", os.readlink)]
    check("no shell has the other end of a pane's terminal", not any(path.endswith("ptmx") for path in held), held)


@scene
def bad_shell(folder):
    """A missing SHELL is reported in the pane, and /bin/sh runs instead."""
    outer = Outer(tool("mux", "other"), environment={"SHELL": "/nonexistent"})
    check("a bad SHELL is told of", outer.shows("/nonexistent: No such file or directory; this is /bin/sh"), outer.rows)
    outer.type(b"echo =$SHELL=\r")
    check("and /bin/sh is there", outer.shows("=/bin/sh="), outer.rows)
    subprocess.run(tool("mux", "kill", "other"), check=True)


def sessions_in_panes(name):
    """Return the session leaders that run in panes of a session."""
    found = []
    for process in (int(word) for word in os.listdir("/proc") if word.isdigit()):
        with contextlib.suppress(OSError):
            if os.getsid(process) == process and pane_of(str(process))[0].startswith(str(folder_of(name))):
                found.append(process)
    return sorted(found)


def time_to_next_host(name):
    """Kill the pty host of a session, and return the seconds until the next one has its state."""
    process, begin = noted(name)["host"][0], time.monotonic()
    os.kill(process, signal.SIGKILL)
    comes(lambda: noted(name)["host"][0] != process and said("list-windows", name)[0] == 0)
    return time.monotonic() - begin


@scene
def host_killed(folder):
    """A killed pty host or holder is replaced, and the programs go on with what was typed meanwhile. If both are killed the shells are new,
    and none runs the input typed meanwhile."""
    outer = Outer(tool("mux", "other"))
    outer.shows("$ ")
    outer.type(b"x=ke''pt; sleep 1000 &\r")
    shells = commands("other")
    for role in ("host", "holder", "host"):
        process = noted("other")[role][0]
        begin = len(outer.written)
        os.kill(process, signal.SIGKILL)
        outer.type(b"echo $x; echo %s go''ne\r" % role.encode())
        check("its shell runs what was typed meanwhile", outer.was_told(f"{role} gone", begin=begin), outer.rows)
        check("another is there", comes(lambda: noted("other")[role][0] != process), lambda: noted("other"))
        if role == "host":
            check("which the front end says", outer.status("the pty host was replaced; the programs continue"), outer.rows)
    check("the shell is the same, and no other one is there", shells == sessions_in_panes("other"), lambda: sessions_in_panes("other"))
    times = [time_to_next_host("other") for _ in range(6)]
    check("each next host is there soon, however many ended before", max(times) < 2.0, times)
    outer.type(b"jobs\r")
    check("with its job", outer.shows("Running"), outer.rows)
    host, holder = (noted("other")[role][0] for role in ("host", "holder"))
    for process in (host, holder):
        os.kill(process, signal.SIGSTOP)
    for process in (holder, host):
        os.kill(process, signal.SIGKILL)
    # At once: after the message a new shell may be there.
    outer.type(b"echo los''t\r")
    outer.type(b"echo al''so\r")
    check("the end of both is told", outer.status("the pty host was restarted"), outer.rows)
    check("others are spawned", comes(lambda: noted("other")["host"][0] != host) and outer.shows("[a new shell; "), outer.rows)
    check("with a shell", outer.shows("$ "), outer.rows)
    outer.type(b"echo th''en\r")
    check("which runs what is typed then", outer.shows("then") and outer.status("[1]"), outer.rows)
    rows = outer.rows()
    check("and nothing that was typed before", not any(word in row for row in rows for word in ("lost", "also")), rows)
    subprocess.run(tool("mux", "kill", "-f", "other"), check=True)


@scene
def kill(folder):
    """`mux kill` asks if a program other than a shell runs."""
    outer = Outer(tool("mux", "other"))
    outer.shows("$ ")
    outer.type(b"sleep 100\r")
    # Without a program there it ends the session.
    comes(lambda: busy_panes(str(folder_of("other"))) == {1: "sleep"})
    told = "mux: session other runs sleep in pane 1; `mux kill -f other` ends it\n"
    check("mux kill tells what runs", said("kill", "other") == (1, "", told), said("ls"))
    asked = Outer(tool("mux", "kill", "other"))
    check("at a terminal it asks", asked.shows("session other runs sleep in pane 1; end it? [y/N]"), asked.rows)
    asked.type(b"n\n")
    check("and goes by the answer", asked.ends() and asked.process.returncode == 1 and listed()[0] == "other", listed())
    check("-f doesn't ask", said("kill", "-f", "other") == (0, "", "") and outer.ends(), listed())


@scene
@outside_gate("seventy processes that come and go take a minute")
def many(folder):
    """Many `mux ls` beside front ends that come and go, and terminals that hang up at any moment, cause no unexpected error."""
    first = Outer(tool("mux", "other"))
    first.shows("$ ")
    runs, front_ends = [], []
    for number in range(LISTED):
        if number % 3 == 0:
            front_ends.append(Outer(tool("mux", "watch", "other")))
        elif number % 3 == 1 and len(front_ends) > 2:
            front_ends[-3].process.send_signal((signal.SIGTERM, signal.SIGKILL, signal.SIGHUP)[len(front_ends) % 3])
        runs.append(subprocess.run(tool("mux", "ls"), stdout=subprocess.DEVNULL, stderr=subprocess.PIPE, check=False))
    for front_end in front_ends:
        front_end.process.terminate()
    found = unforeseen([run.stderr for run in runs] + [bytes(front_end.written) for front_end in front_ends])
    check(f"{LISTED} times ls beside front ends that come and go: all ends as it should", not found, found)
    print(f"        {sum(run.returncode != 0 for run in runs)} of them ended with another status than 0", flush=True)
    stopped()
    found = unforeseen([hung_up(folder / "said")])
    check(f"{HANG_UPS} terminals that hang up at any moment: all ends as it should", not found, found)
    subprocess.run(tool("mux", "kill", "other"), check=True)


def unforeseen(texts):
    """Return the texts of tools that report an unexpected error."""
    return [text for text in texts if b"Traceback" in text or b" failed: " in text]


def hung_up(path):
    """Return the messages of front ends whose terminals hang up, each a bit later than the one before."""
    with open(path, "ab") as said:
        for number in range(HANG_UPS):
            master, slave = pty.openpty()
            tty.set_size(slave, 24, 80)
            ends = {"stdin": slave, "stdout": slave, "stderr": said}
            own = own_terminal if number % 3 else None
            process = subprocess.Popen(tool("mux", "other"), **ends, start_new_session=True, preexec_fn=own)
            os.close(slave)
            time.sleep(number * 0.02)
            os.close(master)
            process.wait(WAIT)
    return path.read_bytes()


def stopped():
    """A front end that is stopped and continued from elsewhere, behind a shell, is back with fg."""
    if is_missing("a front end that is stopped behind a shell", "bash"):
        return
    outer = Outer(["bash", "--norc", "--noprofile", "-i"])
    outer.shows("$ ")
    outer.type(f"{TOOLS / 'mux'} other\r".encode())
    outer.status("[1]")
    front_end = children(outer.process.pid)[0]
    os.kill(front_end, signal.SIGSTOP)
    outer.shows("Stopped")
    os.kill(front_end, signal.SIGCONT)
    time.sleep(0.3)
    outer.type(b"fg\r")
    check("stopped, continued and brought to the fore it is there again", outer.status("[1]"), outer.rows)
    outer.type(b"\x02d")
    check("and leaves", outer.shows("[detached]"), outer.rows)
    outer.process.kill()


def processes_of(path):
    """Return the processes whose arguments name a folder, or one of a window in it."""
    found = []
    for process in pathlib.Path("/proc").glob("[0-9]*"):
        with contextlib.suppress(OSError):
            words = (process / "cmdline").read_bytes().split(b"\0")
            found += [process.name] if any(word == path or word.startswith(f"{path}/w/") for word in map(os.fsdecode, words)) else []
    return found


@scene
def killed_starts(folder):
    """A client killed at any moment: the rest of its start is found, and ended."""
    served = str(folder_of("other"))
    left = []
    for number in range(KILLED_STARTS):
        process = subprocess.Popen(tool("mux", "new", "-d", "other"), stdout=subprocess.DEVNULL, stderr=subprocess.DEVNULL)
        time.sleep(number * 0.01)
        process.kill()
        process.wait()
        if not comes(lambda: said("kill", "other") and not processes_of(served)):
            left.append((number, processes_of(served)))
    check(f"{KILLED_STARTS} starts that are killed at any moment leave nothing that kill doesn't find", not left, left)
