"""A scrollback process that is played by hand, and one that is a small script: it supports only LF and CSI 3 J."""
import contextlib
import os
import sys
from unittest import mock

from roam_live.host import scrollback_process

# No process has this pid.
NOBODY = (1 << 31) - 1

SCRIPT = r'''
import os, sys
source, out, screens = sys.stdin.buffer, sys.stdout.buffer, {}
def told(word, number, rows):
    data = b"".join(b" " + row + b"\n" for row in rows)
    out.write(b"%s %s %d %d\n" % (word, number, len(rows), len(data)) + data)
def show(number, data):
    rows = screens[number]
    for part in data.split(b"\x1b[3J")[:-1]:
        rows[1][:] = []
        out.write(b"cleared %s\n" % number)
    rows[1] += data.replace(b"\r", b"").replace(b"\x1b[3J", b"")
    *whole, rest = rows[1].split(b"\n")
    gone = whole[: max(0, len(whole) + 1 - rows[0])]
    if gone:
        told(b"rows", number, [bytes(row) for row in gone])
        rows[1][:] = b"\n".join([*whole[len(gone) :], rest])
while True:
    words = source.readline().split()
    if not words:
        break
    if words[0] == b"pane":
        screens[words[1]] = [int(words[2]), bytearray()]
    elif words[0] == b"size":
        screens[words[1]][0] = int(words[2])
        show(words[1], b"")
    elif words[0] == b"bytes":
        show(words[1], source.read(int(words[2])))
    elif words[0] == b"screen":
        told(b"screen", words[1], [bytes(row) for row in screens[words[1]][1].split(b"\n")])
    else:
        del screens[words[1]]
    out.flush()
'''

# The command that runs that script as a scrollback process.
FAKE = [sys.executable, "-S", "-E", "-c", SCRIPT]


class PlayedProcess:
    """The other ends of a scrollback process's pipes."""

    def __init__(self, case, said=b""):
        ends = [os.pipe() for _ in range(3)]
        (self.input, to_it), (from_it, self.output), (error, self.error) = ends
        self.ends = [to_it, from_it, error]
        for end in (*self.ends, self.input, self.output):
            os.set_blocking(end, False)
        os.write(self.error, said)
        self.open = {self.input, self.output, self.error}
        case.addCleanup(self.end)

    def taken(self):
        """Return the bytes written to it."""
        found = b""
        with contextlib.suppress(BlockingIOError):
            while True:
                chunk = os.read(self.input, 65536)
                if not chunk:
                    break
                found += chunk
        return found

    def prints(self, data):
        """Print."""
        os.write(self.output, data)

    def end(self):
        """End."""
        for end in self.open:
            os.close(end)
        self.open = set()


def played(case, count=1, said=b""):
    """Play the scrollback processes spawned from now on, in sequence. After `count` of them, spawning fails."""
    processes = [PlayedProcess(case, said) for _ in range(count)]
    spawns = [(NOBODY, list(one.ends)) for one in processes]
    patch = mock.patch.object(scrollback_process, "spawned", side_effect=[*spawns, *[OSError(11, "no process is left")] * 50])
    patch.start()
    case.addCleanup(patch.stop)
    return processes
