"""The actors of a test: processes of the program, and peers at its sockets. A thread reads each stream, so that no writer ever waits."""
from __future__ import annotations

import contextlib
import os
import pathlib
import select
import signal
import socket
import subprocess
import threading
import time

# The default seconds for an expected event, long enough for a loaded machine; and between two looks.
WAIT, LOOK = 60.0, 0.01

# The environment of a run without an explanation of its end, and of one with it.
QUIET = {name: value for name, value in os.environ.items() if name != "ROAM_WHY"}
ASKING = {**QUIET, "ROAM_WHY": "1"}


def comes(test, seconds=WAIT):
    """Return True if a condition becomes true in time."""
    end = time.monotonic() + seconds
    while not test():
        if time.monotonic() > end:
            return False
        time.sleep(LOOK)
    return True


def read_each(folder, read):
    """Return what `read` returns for each file of a folder of /proc. Files that are closed meanwhile are left out, and so are those of a
    process that has ended.
    """
    found, names = [], []
    with contextlib.suppress(OSError):
        names = os.listdir(folder)
    for name in names:
        with contextlib.suppress(OSError):
            found.append(read(pathlib.Path(folder, name)))
    return found


def free_port():
    """Return an unused UDP port of this machine."""
    with socket.socket(socket.AF_INET, socket.SOCK_DGRAM) as one:
        one.bind(("127.0.0.1", 0))
        return one.getsockname()[1]


def shown(program, painting, rows=24, cols=80):
    """Return the lines that `roam show` prints of a painting: the rows, the cursor, the terminal's answers."""
    words = [program, "show", "--rows", str(rows), "--cols", str(cols)]
    return subprocess.run(words, input=painting, stdout=subprocess.PIPE, check=True).stdout.decode().splitlines()


class Stream(threading.Thread):
    """All bytes of a descriptor so far, and whether it has ended."""

    def __init__(self, descriptor):
        super().__init__(daemon=True)
        self.descriptor = descriptor
        self.text = bytearray()
        self.has_ended = False
        self.is_stopped = threading.Event()
        # The number of bytes that a test has taken.
        self.taken = 0
        self.start()

    def run(self):
        poll = select.poll()
        poll.register(self.descriptor, select.POLLIN)
        while not self.has_ended and not self.is_stopped.is_set():
            if poll.poll(20):
                self.take_chunk()

    def take_chunk(self):
        try:
            chunk = os.read(self.descriptor, 65536)
        except OSError:
            # The connection was reset, since its last bytes were never read.
            chunk = b""
        self.text += chunk
        self.has_ended = not chunk

    def stop(self):
        """Read no more, so that its owner may close the descriptor."""
        self.is_stopped.set()
        self.join()

    def rest(self):
        """Return the bytes that no test has taken."""
        return bytes(self.text[self.taken:])

    def sees(self, text, seconds=WAIT):
        """Return True if a text comes among the next bytes in time; then it takes them up to its end."""
        if not comes(lambda: text in self.rest() or self.has_ended, seconds) or text not in self.rest():
            return False
        self.taken = self.text.index(text, self.taken) + len(text)
        return True

    def reads(self, text, seconds=WAIT):
        """Return True if the next bytes are a text, and take it."""
        comes(lambda: len(self.rest()) >= len(text) or not text.startswith(self.rest()) or self.has_ended, seconds)
        if not self.rest().startswith(text):
            return False
        self.taken += len(text)
        return True


class Peer:
    """A peer at a Unix socket, and its input."""

    def __init__(self, stream):
        self.socket = stream
        self.input = Stream(stream.fileno())

    @classmethod
    def at(cls, path, seconds=WAIT):
        """Return a peer at the socket of a path, once there is a listener. A path of any length is reached."""
        stream = socket.socket(socket.AF_UNIX, socket.SOCK_STREAM)
        folder = os.open(pathlib.Path(path).parent, os.O_PATH)
        try:
            if not comes(lambda: stream.connect_ex(f"/proc/self/fd/{folder}/{pathlib.Path(path).name}") == 0, seconds):
                raise ConnectionError(f"no listener at {path}")
        finally:
            os.close(folder)
        return cls(stream)

    def write(self, text):
        """Send bytes."""
        self.socket.sendall(text)

    def leave(self):
        """End the connection."""
        self.input.stop()
        self.socket.close()


class Process:
    """A process of the program, its painting on standard output, and its messages on standard error."""

    def __init__(self, words, folder, environment=ASKING):
        self.popen = subprocess.Popen(words, cwd=folder, env=environment, stdin=subprocess.DEVNULL, stdout=subprocess.PIPE,
                                      stderr=subprocess.PIPE)
        self.painting = Stream(self.popen.stdout.fileno())
        self.messages = Stream(self.popen.stderr.fileno())

    def ends(self, seconds=WAIT):
        """Return its status, and its messages, once it has ended by itself; None without an end in time."""
        try:
            status = self.popen.wait(seconds)
        except subprocess.TimeoutExpired:
            return None
        self.messages.join(seconds)
        return status, bytes(self.messages.text).decode()

    def pause(self, is_paused):
        """Stop it, or let it go on."""
        self.popen.send_signal(signal.SIGSTOP if is_paused else signal.SIGCONT)

    def kill(self):
        """End it, so that its files stay."""
        self.popen.kill()
        self.popen.wait()

    def close(self):
        """End it, and read no more of it."""
        self.kill()
        for stream, pipe in ((self.painting, self.popen.stdout), (self.messages, self.popen.stderr)):
            stream.stop()
            pipe.close()

    def stop_reading(self):
        """Close the read end of its painting."""
        self.painting.stop()
        self.popen.stdout.close()

    def sources(self):
        """Return the number of sources that can end a wait of it, as Linux reports them."""
        return sum(text.count("tfd:") for text in read_each(f"/proc/{self.popen.pid}/fdinfo", pathlib.Path.read_text))

    def hosts(self):
        """Return the local addresses of its UDP sockets, as Linux writes them."""
        links = read_each(f"/proc/{self.popen.pid}/fd", os.readlink)
        rows = [line.split() for line in pathlib.Path("/proc/net/udp").read_text(encoding="utf-8").splitlines()[1:]]
        return {row[1].partition(":")[0] for row in rows if f"socket:[{row[9]}]" in links}
