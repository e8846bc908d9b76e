"""A simulated session: its folder, and the sockets of its processes, which this process answers from a thread."""
import json
import os
import select
import socket
import threading

from roam_live.common.process import begun
from roam_live.session.names import WINDOWS_VERSION

# The painting of a client process, and the last row once all reports have arrived.
PAINTED = b"all of this was painted"
LABELLED = b"1:sh*"

PANES = b"1 1 1 23 80 1\nfocus 1\nclients 1 of 64\nwatchers 0 of 16\n"
METADATA = b"modes 1 1 cursor wrap\nshape 1 1 0\ntitle 1 1 7368\n"


class Terminals:
    """A connection of a front end to the client process."""

    def __init__(self):
        self.lines, self.has_asked = 0, False

    def answer(self, text):
        """Return the answers to lines: the events, a painting for the first requested part, and the number of taken lines."""
        self.lines += text.count(b"\n")
        said = b"" if self.has_asked else b"\nevents\n"
        if not self.has_asked and (b"part " in text or b"whole" in text):
            data = b"\x1bc\x1b[5;1H" + PAINTED
            said += b"size 23 80\npart 0 0\nanew %d\n" % len(data) + data
            self.has_asked = True
        return said + b"taken %d\n" % self.lines


class Panes:
    """A subscriber of the server."""

    def answer(self, text):
        """Return the answers to lines: metadata."""
        return METADATA if b"metadata\n" in text else b""


class Host:
    """A connection to the pty host."""

    def answer(self, text):
        """Return the answers to lines: the windows and terminals."""
        said = b"0 host 0123456789abcdef\n" if b" here " in text else b""
        said += b"".join(line.split(b" ")[0] + b" others 0\n" for line in text.splitlines() if line.endswith(b" who"))
        said += b"0 window 1 -\n0 windows 1\n0 runs 1 sh\n" if b"0 windows\n" in text else b""
        return said


class PlayedSession:
    """The session, with windows served by this process. `close` ends it."""

    def __init__(self, base, windows=1):
        self.folder = base / "roam/main"
        self.folder.mkdir(parents=True, mode=0o700)
        self.folder.parent.chmod(0o700)
        own = [os.getpid(), begun(os.getpid())]
        self.note(self.folder, command=[], host=own)
        self.listeners = {self.listening(self.folder / "host"): Host}
        for number in range(1, windows + 1):
            window = self.folder / f"w/{number}"
            window.mkdir(parents=True)
            self.note(window, server=own, client=own)
            for name, kind in (("clients", None), ("panes", Panes), ("terminals", Terminals)):
                self.listeners[self.listening(window / name)] = kind
        self.peers, self.wakes = {}, os.pipe()
        self.thread = threading.Thread(target=self.serve, daemon=True)
        self.thread.start()

    @staticmethod
    def note(folder, **noted):
        """Write the note of a folder."""
        (folder / "state.json").write_text(json.dumps({"version": WINDOWS_VERSION, **noted}), encoding="utf-8")

    @staticmethod
    def listening(path):
        """Return a socket at a path."""
        one = socket.socket(socket.AF_UNIX, socket.SOCK_STREAM)
        one.bind(str(path))
        one.listen()
        return one

    def serve(self):
        """Answer until the session is closed."""
        while True:
            ready, _, _ = select.select([self.wakes[0], *self.listeners, *self.peers], [], [])
            if self.wakes[0] in ready:
                return
            for one in ready:
                if one in self.listeners:
                    self.accept(one)
                else:
                    self.hear(one)

    def accept(self, listener):
        """Take a connection."""
        peer, kind = listener.accept()[0], self.listeners[listener]
        self.peers[peer] = kind() if kind else None
        if kind is Panes:
            peer.send(PANES)

    def hear(self, peer):
        """Answer lines of a connection, or forget one that has ended."""
        try:
            text = peer.recv(65536)
            said = self.peers[peer].answer(text) if text and self.peers[peer] else b""
            if said:
                peer.send(said)
        except OSError:
            text = b""
        if not text:
            del self.peers[peer]
            peer.close()

    def close(self):
        """End it."""
        os.write(self.wakes[1], b"x")
        self.thread.join()
        for one in [*self.listeners, *self.peers]:
            one.close()
        for end in self.wakes:
            os.close(end)
