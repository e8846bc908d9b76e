"""A network that loses and delays between two machines, which are network namespaces of this one, with an sshd and keys of its own."""
import contextlib
import fcntl
import heapq
import os
import pathlib
import random
import re
import select
import shutil
import signal
import struct
import subprocess
import threading
import time

from tried import Outer, comes  # First, since it finds the package of live/.
from roam_live.common.errors import Fault
from roam_live.common.process import TOOLS

# The other sides have this one-way delay in seconds, drawn uniformly, by default: later packets overtake earlier ones.
DELAY = (0.040, 0.080)

# Both machines may move to their second address.
ADDRESSES = ("10.213.7.1", "10.213.7.2")
MOVED = ("10.213.7.3", "10.213.7.4")

# The compared sides, whose packets are distinguished by port: that of each of roam's ssh connections, and mosh's.
SIDES = ("pipe", "sealed", "mosh")
SSH_PORTS = {"pipe": 2222, "sealed": 2223}
MOSH_PORT = 60900
TCP, UDP = 6, 17

# The ioctls that make a TUN device without a header of its own.
TUNSETIFF, IFF_TUN, IFF_NO_PI = 0x400454CA, 0x0001, 0x1000


class Link(threading.Thread):
    """Carries IP datagrams between two devices, badly: it loses a percentage of them.

    With a rate, each side gets so many kB a second each way, with a queue of so many seconds at the bottleneck.
    """

    def __init__(self, names, lost=5.0, rate=0.0, queue=0.5, delay=DELAY):
        super().__init__(daemon=True)
        self.ends = [self.device(name) for name in names]
        self.lost, self.rate, self.queue, self.delay = lost, rate, queue, delay
        self.is_cut = self.is_blocked = self.has_stopped = False
        self.chance = random.Random(1)
        self.free, self.flying, self.count = {}, [], 0
        self.clear()

    def clear(self):
        """Restart the counts: the bytes and packets of each side, and of the sealed one those by either protocol."""
        self.carried, self.packets, self.dropped = ({name: 0 for name in SIDES} for _ in range(3))
        self.sealed = {TCP: 0, UDP: 0}

    @staticmethod
    def device(name):
        """Return a new TUN device."""
        end = os.open("/dev/net/tun", os.O_RDWR | os.O_NONBLOCK)
        fcntl.ioctl(end, TUNSETIFF, struct.pack("16sH", name.encode(), IFF_TUN | IFF_NO_PI))
        return end

    @staticmethod
    def side(datagram):
        """Return the side of a datagram; None if it has none."""
        if datagram[0] >> 4 != 4 or datagram[9] not in (TCP, UDP):
            return None
        begin = (datagram[0] & 15) * 4
        ports = {int.from_bytes(datagram[begin + k : begin + k + 2], "big") for k in (0, 2)}
        if datagram[9] == TCP:
            return next((name for name, port in SSH_PORTS.items() if port in ports), None)
        return "mosh" if MOSH_PORT in ports else "sealed"

    def run(self):
        while not self.has_stopped:
            wait = max(0.0, self.flying[0][0] - time.monotonic()) if self.flying else 0.1
            for end in select.select(self.ends, [], [], wait)[0]:
                self.take(end, os.read(end, 65536))
            while self.flying and self.flying[0][0] <= time.monotonic():
                _, _, end, datagram = heapq.heappop(self.flying)
                if not self.is_cut:
                    with contextlib.suppress(OSError):
                        os.write(end, datagram)

    def take(self, end, datagram):
        """Take a datagram from an end: it is lost, or in flight."""
        name = self.side(datagram)
        if not name:
            return
        self.carried[name] += len(datagram)
        self.packets[name] += 1
        if name == "sealed":
            self.sealed[datagram[9]] += 1
        late = self.waits(name, end, len(datagram))
        is_blocked = self.is_blocked and name == "sealed" and datagram[9] == UDP
        if late is None or self.is_cut or is_blocked or self.chance.uniform(0, 100) < self.lost:
            return
        self.count += 1
        other = self.ends[1 - self.ends.index(end)]
        heapq.heappush(self.flying, (time.monotonic() + late + self.chance.uniform(*self.delay), self.count, other, datagram))

    def waits(self, name, end, length):
        """Return the wait of so many bytes at the bottleneck; None if there is no room."""
        if not self.rate:
            return 0.0
        late = max(0.0, self.free.get((name, end), 0.0) - time.monotonic())
        if late > self.queue:
            self.dropped[name] += 1
            return None
        late += length / self.rate / 1000
        self.free[name, end] = time.monotonic() + late
        return late


def run(*words):
    """Run a command that has to succeed."""
    ran = subprocess.run(words, stdout=subprocess.PIPE, stderr=subprocess.PIPE, text=True, check=False)
    if ran.returncode:
        raise Fault(f"{' '.join(words)}: {(ran.stderr or ran.stdout).strip()}")
    return ran.stdout + ran.stderr


class Machines:
    """Two network namespaces, each with a device and an address, and the link between them."""

    def __init__(self, **more):
        self.spaces = [f"roam-{side}-{os.getpid()}" for side in ("near", "far")]
        self.devices = [f"roam{side}{os.getpid()}" for side in ("n", "f")]
        self.addresses = list(ADDRESSES)
        self.made = []
        self.link = Link(self.devices, **more)

    def begin(self):
        """Create them."""
        for space, device, address, other in zip(self.spaces, self.devices, self.addresses, reversed(self.addresses)):
            run("ip", "netns", "add", space)
            self.made.append(space)
            run("ip", "link", "set", device, "netns", space)
            run("ip", "-n", space, "address", "add", address, "peer", other, "dev", device)
            for up in ("lo", device):
                run("ip", "-n", space, "link", "set", up, "up")
        self.link.start()

    def end(self):
        """Remove them, with their processes."""
        for space in self.made:
            for process in run("ip", "netns", "pids", space).split():
                with contextlib.suppress(ProcessLookupError):
                    os.kill(int(process), signal.SIGKILL)
        if self.link.is_alive():
            self.link.has_stopped = True
            self.link.join()
        for space in self.made:
            subprocess.run(["ip", "netns", "delete", space], check=False)

    def move(self, place):
        """Give a machine, 0 or 1, its other address."""
        before, other = self.addresses[place], self.addresses[1 - place]
        after = MOVED[place] if before == ADDRESSES[place] else ADDRESSES[place]
        space, device = self.spaces[place], self.devices[place]
        run("ip", "-n", space, "address", "flush", "dev", device)
        run("ip", "-n", space, "address", "add", after, "peer", other, "dev", device)
        words = ["ip", "-n", self.spaces[1 - place], "route", "replace", after, "dev", self.devices[1 - place]]
        subprocess.run(words, check=False, stderr=subprocess.DEVNULL)
        self.addresses[place] = after

    def processes(self, place, name):
        """Return the processes of a machine with a name."""
        found = map(int, run("ip", "netns", "pids", self.spaces[place]).split())
        return [process for process in found if text_of(pathlib.Path(f"/proc/{process}/comm")).strip() == name.encode()]


@contextlib.contextmanager
def two_machines(**more):
    """Two machines with a link between them."""
    machines = Machines(**more)
    try:
        machines.begin()
        yield machines
    finally:
        machines.end()


def text_of(path):
    """Return the contents of a file, if it still exists."""
    with contextlib.suppress(OSError):
        return path.read_bytes()
    return b""


@contextlib.contextmanager
def ssh_server(folder, machines):
    """Start an sshd on the far machine with keys of its own; return the words of an ssh with access, for each side."""
    for name in ("host", "user"):
        run("ssh-keygen", "-q", "-t", "ed25519", "-N", "", "-f", str(folder / name))
    key = (folder / "host.pub").read_text(encoding="utf-8")
    known = "".join(f"[{address}]:{port} {key}" for port in SSH_PORTS.values() for address in (ADDRESSES[1], MOVED[1]))
    (folder / "known").write_text(known, encoding="utf-8")
    pathlib.Path("/run/sshd").mkdir(exist_ok=True)
    shutil.copy(folder / "user.pub", folder / "authorized")
    options = [f"HostKey={folder}/host", f"AuthorizedKeysFile={folder}/authorized", "StrictModes=no", "UsePAM=no", "MaxStartups=100:30:200",
               f"PidFile={folder}/sshd.pid", *(f"ListenAddress={ADDRESSES[1]}:{port}" for port in SSH_PORTS.values())]
    words = ["ip", "netns", "exec", machines.spaces[1], shutil.which("sshd"), "-D", "-e", "-f", "/dev/null"]
    with open(folder / "sshd.log", "wb") as log:
        server = subprocess.Popen([*words, *(word for option in options for word in ("-o", option))], stdin=subprocess.DEVNULL, stdout=log,
                                  stderr=log)
    try:
        comes((folder / "sshd.pid").exists)
        yield {name: f"ssh -F none -p {port} -i {folder}/user -o UserKnownHostsFile={folder}/known -o BatchMode=yes"
               for name, port in SSH_PORTS.items()}
    finally:
        server.terminate()
        server.wait()


def roam_client(machines, ssh, name, size=(24, 80), prediction="never"):
    """Return a terminal with a session of the far machine through `mux ssh`, for one side."""
    known = " ".join(f"{word}='{os.environ[word]}'" for word in ("ROAM", "XDG_RUNTIME_DIR", "SHELL", "PS1", "PATH", "LC_ALL"))
    words = ["ssh", "--predict", prediction, "--ssh", ssh[name], "--far", f"env {known} {TOOLS / 'mux'}", ADDRESSES[1], name]
    environment = {"ROAM_UDP": "never"} if name == "pipe" else {}
    return Outer(["ip", "netns", "exec", machines.spaces[0], str(TOOLS / "mux"), *words], size, environment)


def mosh_client(machines, size=(24, 80), prediction="never"):
    """Return a terminal with a shell of the far machine through mosh."""
    words = ["ip", "netns", "exec", machines.spaces[1], "mosh-server", "new", "-i", ADDRESSES[1], "-p", str(MOSH_PORT), "--", "/bin/sh"]
    key = re.search(r"MOSH CONNECT \d+ (\S+)", run(*words))[1]
    client = ["ip", "netns", "exec", machines.spaces[0], "mosh-client", ADDRESSES[1], str(MOSH_PORT)]
    return Outer(client, size, {"MOSH_KEY": key, "MOSH_PREDICTION_DISPLAY": prediction})
