"""The phases of all sides over a bad network, in parallel: typing and idling, a cut, new addresses, pastes, large screens, a flood.

The sealed side also has blocked UDP, a killed ssh, and forwarded connections.
"""
import os
import pathlib
import random
import signal
import statistics
import subprocess
import threading
import time

from tried import check, comes  # First, since it finds the package of live/.
from networks import ADDRESSES, DELAY, SIDES, SSH_PORTS, TCP, UDP, mosh_client, roam_client, text_of

# The typed letters, which occur in no painted control function; the seconds between them, and the one typed in a cut.
LETTERS = b"QVWYNOU"
RATE = 0.5
CUT_LETTER = b"Z"
CUT_TYPED = 0.8
IDLE_PART = 2
LATEST = 90.0

# The sizes of large screens, the number of each, and the pause after one.
SIZES = ((24, 80), (100, 250))
SCREENS = 6
AFTER = 2.5

# The pastes: so many texts of so many characters, in the brackets of a paste.
PASTES = 9
PASTED = 20_000
OPENS, CLOSES = b"\x1b[200~", b"\x1b[201~"

# The duration of a flood, and the seconds between its screens.
FLOOD = 12.0
EACH = 0.05


class Typist(threading.Thread):
    """Types letters at a steady rate, and records when each was painted."""

    def __init__(self, outer, seconds, latest=LATEST):
        super().__init__()
        self.outer, self.count, self.latest = outer, int(seconds / RATE), latest
        self.typed, self.delays = [], []

    def run(self):
        begun = time.monotonic()
        self.seen = len(self.outer.written)
        for k in range(self.count):
            while time.monotonic() < begun + k * RATE:
                time.sleep(0.002)
                self.look()
            self.typed.append((LETTERS[k % len(LETTERS)], time.monotonic()))
            self.outer.type(bytes([self.typed[-1][0]]))
        end = time.monotonic() + self.latest
        while len(self.delays) < self.count and time.monotonic() < end:
            time.sleep(0.002)
            self.look()

    def look(self):
        """Handle the painted output."""
        while len(self.delays) < len(self.typed):
            letter, moment = self.typed[len(self.delays)]
            place = self.outer.written.find(letter, self.seen)
            if place < 0:
                return
            self.seen = place + 1
            self.delays.append(painted_at(self.outer, place) - moment)

    def first_after(self, moment):
        """Return the delay from a moment to the painting of the first key in flight then, or typed later; None if there was none."""
        painted = [typed + delay for (_, typed), delay in zip(self.typed, self.delays)]
        return next((one - moment for one in painted if one > moment + 2 * DELAY[0]), None)


def painted_at(outer, place):
    """Return when the byte at an offset was painted."""
    return next(moment for moment, length in list(outer.moments) if length > place)


def typed_on(sides, seconds, meanwhile=lambda: None, latest=LATEST):
    """Type on all sides at once; `meanwhile` runs once all have begun."""
    typists = [Typist(side.outer, seconds, latest) for side in sides]
    for typist in typists:
        typist.start()
    meanwhile()
    for typist in typists:
        typist.join()
    return typists


class Side:
    """A program over the link: its name, its terminal, and the file for its input."""

    def __init__(self, name, outer, folder):
        self.name, self.outer, self.file = name, outer, folder / f"{name}.typed"
        self.measured = {}
        self.is_there = comes(lambda: b"$" in outer.written[8:], 40)
        check(f"{name}: it is shown", self.is_there, outer.written[-200:])

    def cat(self):
        """Run a program that records the input."""
        self.file.write_bytes(b"")
        self.outer.type(f"stty -icanon min 1; cat > {self.file}\r".encode())

    def stop(self):
        """End it."""
        self.outer.type(b"\x03")
        time.sleep(1.5)
        self.outer.type(b"stty sane; clear\r")
        time.sleep(2)

    def note(self, name, value):
        """Record a measurement, and print it."""
        self.measured[name] = value
        print(f"        {self.name:7} {name}: {value if isinstance(value, str) else f'{value:.2f}'}", flush=True)


def sides_of(names, machines, ssh, folder, prediction="never"):
    """Return the sides of these names, in order; mosh's first, so that nobody takes its port."""
    made = {name: Side(name, mosh_client(machines, prediction=prediction), folder) for name in names if name == "mosh"}
    made.update({name: Side(name, roam_client(machines, ssh, name, prediction=prediction), folder) for name in names if name != "mosh"})
    return [made[name] for name in SIDES if name in made and made[name].is_there]


def spread(delays):
    """Return the median, the 90th and 99th percentile, and the longest, in ms."""
    ordered = sorted(delay * 1000 for delay in delays) or [0.0]
    places = (len(ordered) * 9 // 10, len(ordered) * 99 // 100, len(ordered) - 1)
    return [statistics.median(ordered), *(ordered[place] for place in places)]


# ---- all sides at once


def phase_type(sides, machines, asked):
    """Type on all sides at once, then nothing: delays and bytes a minute."""
    for side in sides:
        side.cat()
    time.sleep(6)
    machines.link.clear()
    busy, begun = {}, time.monotonic()

    def count():
        time.sleep(asked.minute)
        busy.update({name: (machines.link.carried[name], machines.link.packets[name]) for name in machines.link.carried})

    typists = typed_on(sides, asked.minute, count)
    time.sleep(max(6.0, asked.minute + 6 - (time.monotonic() - begun)))
    machines.link.clear()
    time.sleep(asked.minute / IDLE_PART)
    for side, typist in zip(sides, typists):
        wanted, minutes = bytes(letter for letter, _ in typist.typed), asked.minute / 60
        check(f"{side.name}: {typist.count} keys came once and in order", side.file.read_bytes() == wanted, side.file.read_bytes())
        check(f"{side.name}: each was painted", len(typist.delays) == typist.count, len(typist.delays))
        for name, value in zip(("median, ms", "90th of a hundred, ms", "99th, ms", "longest, ms"), spread(typist.delays)):
            side.note(name, value)
        side.note("kB a minute, typing", busy[side.name][0] / 1000 / minutes)
        side.note("packets a minute, typing", busy[side.name][1] / minutes)
        side.note("kB a minute, idle", machines.link.carried[side.name] / 1000 / minutes * IDLE_PART)
        side.stop()


def phase_cut(sides, machines, asked):
    """Cut the link, type a key meanwhile, and record its delay after the cut."""
    for side in sides:
        side.cat()
    time.sleep(5)
    before = [len(side.outer.written) for side in sides]
    machines.link.is_cut = True
    time.sleep(asked.cut * (1 - CUT_TYPED))
    for side in sides:
        side.outer.type(CUT_LETTER)
    time.sleep(asked.cut * CUT_TYPED)
    machines.link.is_cut = False
    joined = time.monotonic()
    for side, begin in zip(sides, before):
        is_painted = comes(lambda side=side, begin=begin: CUT_LETTER in side.outer.written[begin:], LATEST)
        check(f"{side.name}: after {asked.cut:g} s without a link a key that was typed meanwhile is painted", is_painted)
        if is_painted:
            side.note("s from the cut's end to the echo", painted_at(side.outer, side.outer.written.find(CUT_LETTER, begin)) - joined)
    time.sleep(3)
    for side in sides:
        side.stop()


def moved(sides, machines, place, name, latest):
    """Type while a machine gets another address, and record when the first key after that is painted."""
    for side in sides:
        side.cat()
    time.sleep(5)
    moments = []

    def move():
        time.sleep(8)
        machines.move(place)
        moments.append(time.monotonic())

    for side, typist in zip(sides, typed_on(sides, 20, move, latest)):
        after = typist.first_after(moments[0])
        side.note(f"s from a new {name} address to the first echo", "never" if after is None else after)
        if name == "near":
            wanted = bytes(letter for letter, _ in typist.typed)
            check(f"{side.name}: keys came once and in order over a new {name} address", side.file.read_bytes() == wanted)
    time.sleep(3)
    for side in sides:
        side.stop()


def phase_move(sides, machines, asked):
    """Change the near machine's address while somebody types."""
    moved(sides, machines, 0, "near", LATEST)


def phase_farmove(sides, machines, asked):
    """Do the same with the far machine."""
    moved(sides, machines, 1, "far", 30.0)


def mark(k):
    """Return the last row of a screen."""
    return "".join(chr(0x41 + (3 * k + 5 * i) % 26) for i in range(6))


def paint_files(folder, rows, cols, count):
    """Write files that paint a screen of coloured words, the last row a mark."""
    chance = random.Random(rows)
    for k in range(count):
        text = "\x1b[H"
        for row in range(1, rows):
            text += f"\x1b[{row}H"
            col = 0
            while col < cols - 8:
                word = "".join(chance.choices("abcdefghijklmnopqrstuvwxyz0123456789", k=chance.randint(1, 8)))
                style = f"{chance.choice(['38;5', '48;5'])};{chance.randint(16, 231)}{chance.choice(['', ';1', ';4'])}"
                text += f"\x1b[{style}m{word}\x1b[m "
                col += len(word) + 1
        (folder / f"s{rows}_{k}").write_text(f"{text}\x1b[{rows}H{mark(k)}\x1b[K", encoding="ascii")


def resized(sides, rows, cols):
    """Set the size of all terminals, and of the sessions there too, which never shrink by themselves."""
    for side in sides:
        side.outer.resize(rows, cols)
    time.sleep(2)
    for side in sides:
        side.outer.type(b"" if side.name == "mosh" else b"\x02r")
    time.sleep(3)


def phase_screens(sides, machines, asked):
    """Show screens of coloured words, one after another, with the time and the bytes of each."""
    for rows, cols in SIZES:
        paint_files(asked.folder, rows - 2, cols, SCREENS)
        resized(sides, rows, cols)
        for side in sides:
            times, sizes = [], []
            for k in range(SCREENS):
                machines.link.clear()
                typed = time.monotonic()
                side.outer.type(f"cat {asked.folder}/s{rows - 2}_{k}\r".encode())
                shown = side.outer.shown_at(mark(k), 60)
                times.append(60.0 if shown is None else shown - typed)
                time.sleep(AFTER)
                sizes.append(machines.link.carried[side.name] / 1000)
            side.note(f"ms until {rows} by {cols} is whole, median", statistics.median(times) * 1000)
            side.note(f"ms of each {rows} by {cols}", " ".join(f"{one * 1000:.0f}" for one in times))
            side.note(f"kB of {rows} by {cols}, median", statistics.median(sizes))
    resized(sides, 24, 80)
    for side in sides:
        side.outer.type(b"clear\r")
    time.sleep(2)


def phase_flood(sides, machines, asked):
    """Measure a screen that changes completely all the time, then an interrupt: screens a second, and the delay of later input."""
    rows, cols = SIZES[-1]
    paint_files(asked.folder, rows - 2, cols, 12)
    resized(sides, rows, cols)
    for side in sides:
        machines.link.clear()
        begin = len(side.outer.written)
        loop = f"for k in 0 1 2 3 4 5 6 7 8 9 10 11; do cat {asked.folder}/s{rows - 2}_$k; sleep {EACH}; done"
        side.outer.type(f"while :; do {loop}; done\r".encode())
        time.sleep(FLOOD)
        text = bytes(side.outer.written[begin:])
        side.note("screens a second in a flood", sum(text.count(mark(k).encode()) for k in range(12)) / FLOOD)
        side.note("kB a second", machines.link.carried[side.name] / 1000 / FLOOD)
        side.note("packets dropped, of", f"{machines.link.dropped[side.name]} {machines.link.packets[side.name]}")
        took = ended_flood(side)
        check(f"{side.name}: what is typed behind a flood is shown", took is not None, side.outer.rows)
        if took is not None:
            side.note("s to the echo behind it", took)
        time.sleep(3)
    resized(sides, 24, 80)


def ended_flood(side):
    """Interrupt a flood and type behind it; return the delay of that input, None if it never appears after the flood's end.

    An interrupt may reach a program that has just ended, and then nobody; so may two, if the network merges them. The flood then continues,
    and it is interrupted again.
    """
    while True:
        for _ in range(2):
            side.outer.type(b"\x03")
            time.sleep(0.15)
        typed = time.monotonic()
        side.outer.type(b"clear; echo F''LOODEND\r")
        shown = side.outer.shown_at("FLOODEND", 40)
        if shown is not None:
            return shown - typed
        before = side.outer.rows()
        time.sleep(5)
        if side.outer.rows() == before:
            return None
        print(f"        {side.name}: the interrupt reached nobody, and the flood goes on", flush=True)


def keeps_pasted(side, text):
    """Return the seconds from the first byte of a paste until the program has the last one; None if it is late."""
    before, typed = side.file.stat().st_size, time.monotonic()
    side.outer.type(OPENS + text + CLOSES)
    wanted = OPENS + text + CLOSES
    while side.file.stat().st_size < before + len(wanted) and time.monotonic() < typed + LATEST:
        time.sleep(0.002)
    took = time.monotonic() - typed
    return took if side.file.read_bytes()[before:] == wanted else None


def phase_paste(sides, machines, asked):
    """Paste into a program with bracketed paste that records its input, on all sides in turn, and measure each paste."""
    chance, took = random.Random(1), {side.name: [] for side in sides}
    for side in sides:
        side.file.write_bytes(b"")
        side.outer.type(f"stty -icanon -echo min 1; printf '\\033[?2004h'; cat > {side.file}\r".encode())
    time.sleep(5)
    for _ in range(PASTES):
        text = bytes(chance.choices(range(0x20, 0x7F), k=PASTED))
        for side in sides:
            took[side.name].append(keeps_pasted(side, text))
            time.sleep(0.5)
    for side in sides:
        whole = [one for one in took[side.name] if one is not None]
        check(f"{side.name}: each of {PASTES} pastes comes whole, between brackets", len(whole) == PASTES, len(whole))
        if whole:
            side.note(f"ms until {PASTED:,} bytes that are pasted are there, median", statistics.median(whole) * 1000)
            side.note("ms of each paste", " ".join(f"{one * 1000:.0f}" for one in whole))
        side.stop()


# ---- only the sealed side


def way_of(machines, side, seconds=4):
    """Return the transport of an encrypted side, while somebody types."""
    machines.link.clear()
    typist = typed_on([side], seconds)[0]
    tcp, udp = machines.link.sealed[TCP], machines.link.sealed[UDP]
    told = "UDP" if udp > 5 * tcp else "pipe" if tcp > udp else "both"
    print(f"        {told} (packets by TCP {tcp}, by UDP {udp}), median {spread(typist.delays)[0]:.0f} ms", flush=True)
    return told


def is_by_udp(machines, seconds=3):
    """Return True if only UDP packets pass for some seconds."""
    machines.link.clear()
    time.sleep(seconds)
    return machines.link.sealed[UDP] > 0 and machines.link.sealed[TCP] == 0


def far_relays(name="sealed"):
    """Return the far relays of a side, without the processes that keep a command open for one."""
    found = [path.parent for path in pathlib.Path("/proc").glob("[0-9]*/cmdline") if is_far(path, name)]
    return [int(path.name) for path in found if not set(children_of(path)) & {int(other.name) for other in found}]


def is_far(path, name):
    """Return True if arguments are those of a far relay of a side in this run."""
    words = text_of(path)
    return f"{os.environ['XDG_RUNTIME_DIR']}/roam/{name}/w/1\0".encode() in words and b"/relay\0--far\0" in words


def sealed_ssh(machines):
    """Return the ssh of the sealed side: that of the pipe has another port."""
    port = f"\0{SSH_PORTS['sealed']}\0".encode()
    return [process for process in machines.processes(0, "ssh") if port in text_of(pathlib.Path(f"/proc/{process}/cmdline"))]


def children_of(path):
    """Return the children of a process."""
    try:
        return [int(word) for word in (path / "task" / path.name / "children").read_text(encoding="ascii").split()]
    except OSError:
        return []


def phase_blocked(machines, ssh, asked):
    """Block UDP at the start, open it, block it again, and open it again."""
    link = machines.link
    link.is_blocked = True
    side = Side("sealed", roam_client(machines, ssh, "sealed"), asked.folder)
    side.cat()
    time.sleep(4)
    check("sealed: with UDP blocked at the start it is the pipe", way_of(machines, side) == "pipe")
    link.is_blocked, opened = False, time.monotonic()
    check("sealed: opened, all goes by UDP", comes(lambda: is_by_udp(machines), 60))
    side.note("s from opening until all goes by UDP", time.monotonic() - opened - 3)
    check("sealed: and what is typed", way_of(machines, side) == "UDP")
    begin, link.is_blocked = len(side.outer.written), True
    time.sleep(1)
    typed = time.monotonic()
    side.outer.type(CUT_LETTER)
    is_shown = comes(lambda: CUT_LETTER in side.outer.written[begin:], 60)
    check("sealed: blocked later, a key is shown", is_shown)
    side.note("s to the echo of a key typed 1 s after it was blocked", time.monotonic() - typed)
    check("sealed: by the pipe", way_of(machines, side) == "pipe")
    link.is_blocked, opened = False, time.monotonic()
    check("sealed: opened again, all goes by UDP", comes(lambda: is_by_udp(machines), 60))
    side.note("s from opening again until all goes by UDP", time.monotonic() - opened - 3)
    check("sealed: one far end is left", len(far_relays()) == 1, far_relays())


def phase_kill(machines, ssh, asked):
    """Kill ssh some seconds after the session is shown, at once, and later."""
    for wait in (8.0, 0.0):
        side = Side("sealed", roam_client(machines, ssh, "sealed"), asked.folder)
        time.sleep(wait)
        before = far_relays()
        for process in sealed_ssh(machines):
            os.kill(process, signal.SIGKILL)
        side.cat()
        typist = typed_on([side], 8)[0]
        title = f"sealed: ssh killed {wait:g} s after it is shown: each key was painted"
        check(title, len(typist.delays) == typist.count, len(typist.delays))
        side.note(f"longest echo, ms, ssh killed after {wait:g} s", spread(typist.delays)[-1])
        if wait:
            check("sealed: by the far end that was there, without ssh", far_relays() == before and not sealed_ssh(machines))
        side.stop()
        side.outer.type(b"exit\r")
        check("sealed: its end is told", side.outer.ends())
        time.sleep(1)


def phase_forwards(machines, ssh, asked):
    """A port and an agent that ssh forwards answer after a minute, and ssh isn't started in vain for ten."""
    agent = subprocess.Popen(["ssh-agent", "-D", "-a", str(asked.folder / "agent")], stdout=subprocess.DEVNULL)
    try:
        os.environ["SSH_AUTH_SOCK"] = str(asked.folder / "agent")
        words = {**ssh, "sealed": f"{ssh['sealed']} -A -L 10999:{ADDRESSES[1]}:2222"}
        side = Side("sealed", roam_client(machines, words, "sealed"), asked.folder)
        time.sleep(min(60.0, asked.minute))
        check("sealed: all goes by UDP", is_by_udp(machines))
        asks = ["bash", "-c", "exec 3<>/dev/tcp/127.0.0.1/10999; head -c 4 <&3"]
        inside = ["ip", "netns", "exec", machines.spaces[0]]
        greeted = subprocess.run([*inside, *asks], stdout=subprocess.PIPE, timeout=30, check=False)
        check("sealed: a forwarded port answers", greeted.stdout == b"SSH-", greeted.stdout)
        check("sealed: ssh is there, once", len(sealed_ssh(machines)) == 1, sealed_ssh(machines))
        side.outer.type(b"clear; ssh-add -l\r")
        check("sealed: a forwarded agent answers", comes(lambda: b"identities" in side.outer.written, 20), side.outer.written[-300:])
        before = sealed_ssh(machines)
        time.sleep(asked.long)
        logs = [path.read_text(encoding="utf-8") for path in asked.folder.glob("roam/ssh*/log")]
        check(f"sealed: no ssh is started in vain in {asked.long:g} s", sealed_ssh(machines) == before and not any(logs), logs)
    finally:
        agent.kill()
        agent.wait()
