"""The events of a folder's files, as the system reports them by inotify(7)."""
import ctypes
import os
import struct

CREATED, WRITTEN, MOVED_FROM, MOVED_TO, REMOVED = 0x100, 0x8, 0x40, 0x80, 0x200
NAMES = {CREATED: "created", WRITTEN: "written", MOVED_FROM: "moved away", MOVED_TO: "moved here", REMOVED: "removed"}
HEAD = struct.Struct("iIII")

libc = ctypes.CDLL(None, use_errno=True)


class Watch:
    """All events of the files of a folder since it began."""

    def __init__(self, folder):
        self.descriptor = libc.inotify_init1(os.O_NONBLOCK | os.O_CLOEXEC)
        if libc.inotify_add_watch(self.descriptor, os.fsencode(folder), sum(NAMES)) < 0:
            raise OSError(ctypes.get_errno(), "inotify")
        self.seen = []

    def events(self, name):
        """Return the events of files whose names begin with a text, each as `FILE EVENT`."""
        try:
            while text := os.read(self.descriptor, 65536):
                self.seen += list(self.parsed(text))
        except BlockingIOError:
            pass
        return [event for event in self.seen if event.startswith(name)]

    @staticmethod
    def parsed(text):
        while text:
            _, mask, _, length = HEAD.unpack_from(text)
            name = text[HEAD.size:HEAD.size + length].rstrip(b"\0").decode()
            text = text[HEAD.size + length:]
            yield f"{name} {NAMES[mask & sum(NAMES)]}"

    def close(self):
        os.close(self.descriptor)
