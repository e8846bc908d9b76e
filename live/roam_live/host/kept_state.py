"""The state of a pty host, which another host needs besides the descriptors at the holder.

It is in a memfd at the holder, so it needs no room on the disk, and in a file for other tools. Texts are in memfds of their own: the state
has their names and lengths. It is written before a program is started, and soon after other changes.
"""
from __future__ import annotations

import errno
import os
import struct
from binascii import crc32

from roam_live.common.errors import Fault, reason, say
from roam_live.common.event_loop import Loop
from roam_live.common.files import replace_text
from roam_live.common.record import plain
from roam_live.common.suppress import suppress
from roam_live.host.holder_link import HolderLink, memfd_of
from roam_live.host.state import MOST_STATE, SessionState, state_in
from roam_live.protocol.paste_text import INSERTED
from roam_live.session.names import HOST_STATE
from roam_live.session.pane_ids import new_id

# Seconds from a change to its write.
SOON = 0.2
WRITES = "the state is written"

# A state that can't be read is kept under this name.
BAD = "host.bad"

# The names of texts at the holder, without their own, and that of the state.
PASTE, BUFFER = "paste", "buffer"
STATE = "state"

# What precedes a state there: its number, and a CRC-32 of it.
HEADER = struct.Struct(">QI")


class StatePages:
    """Two memfds at the holder with the last two states. A killed write spoils one of them, and none needs another descriptor."""

    def __init__(self, link: HolderLink) -> None:
        kept = link.claim(STATE)
        self.ends = kept.ends if kept and len(kept.ends) == 2 else []
        self.last = 0
        if not self.ends:
            with suppress(OSError):
                self.ends = [memfd_of(b""), memfd_of(b"")]
                link.put(STATE, self.ends)

    def read(self) -> str | None:
        """Return the newest whole state; None if there is none."""
        newest = None
        for end in self.ends:
            data = os.pread(end, os.fstat(end).st_size, 0)
            number, check = HEADER.unpack_from(data) if len(data) >= HEADER.size else (0, 0)
            if number > self.last and crc32(data[HEADER.size :]) == check:
                self.last, newest = number, data[HEADER.size :].decode("utf-8", "replace")
        return newest

    def write(self, text: str) -> bool:
        """Write a state over the older one. If the system refuses, both go, since the file is newer then; return False."""
        data = text.encode("utf-8", "replace")
        data = HEADER.pack(self.last + 1, crc32(data)) + data
        try:
            end = self.ends[(self.last + 1) % 2]
            if os.pwrite(end, data, 0) != len(data):
                raise OSError(errno.ENOSPC, os.strerror(errno.ENOSPC))
            os.ftruncate(end, len(data))
        except (OSError, IndexError):
            for one in self.ends:
                os.ftruncate(one, 0)
            return False
        self.last += 1
        return True


class KeptState:
    """The state of a session's host, and its file."""

    def __init__(self, folder: str, link: HolderLink, loop: Loop) -> None:
        self.path, self.link, self.loop = os.path.join(folder, HOST_STATE), link, loop
        # The folder may be another session's by now, after its own was removed.
        self.folder = os.stat(folder)
        self.state = SessionState()
        # The text of the state in the file, and at the holder.
        self.was = self.held = ""
        self.pages = StatePages(link)
        # Notices for the user about the end of an earlier host.
        self.notices: list[str] = []
        # The reason that the file can't be written now.
        self.refused = ""
        # True if the state of an earlier host isn't used.
        self.is_lost = False
        if link.is_resumed:
            self.resume()
        self.last_id = max((pane.id for window in self.state.windows.values() for pane in window.panes.values()), default=-1)

    # ---- the state of an earlier host

    def resume(self) -> None:
        """Read the state of an earlier host. One that can't be read is kept beside it."""
        try:
            if self.link.is_bare:
                raise Fault("pty hosts failed too often with it")
            held = self.pages.read()
            if held is None:
                with open(self.path, encoding="utf-8") as file:
                    held = file.read(MOST_STATE)
            self.state = state_in(held)
        except (Fault, OSError, ValueError) as fault:
            self.is_lost = True
            why = reason(fault) if isinstance(fault, OSError) else fault
            self.notices.append(f"the state of the pty host before is not used, and is kept as {BAD}: {why}")
            with suppress(OSError):
                os.rename(self.path, os.path.join(os.path.dirname(self.path), BAD))
        if self.link.is_upgraded:
            self.state.upgrades += 1
        else:
            self.state.replaced += 1
        self.claim_texts()

    def claim_texts(self) -> None:
        """Take the texts from the holder. One that was being typed is over: the rest of it is lost."""
        if any(paste.is_placed for paste in self.state.pastes.values()):
            self.notices.append("a paste was cut, since the pty host ended while it was typed")
        for name, paste in list(self.state.pastes.items()):
            data = self.text_of(f"{PASTE}:{name}")
            if data is None or paste.is_placed:
                del self.state.pastes[name]
                self.state.spent_pastes[name] = INSERTED
                self.link.drop(f"{PASTE}:{name}")
            else:
                paste.data[:] = data
        texts = self.state.buffers.texts
        for number in list(texts):
            found = self.text_of(f"{BUFFER}:{number}")
            if found is None:
                del texts[number]
            else:
                texts[number] = found

    def text_of(self, name: str) -> bytes | None:
        """Return a text at the holder; None if it is not there."""
        kept = self.link.claim(name)
        return os.pread(kept.ends[0], os.fstat(kept.ends[0]).st_size, 0) if kept and kept.ends else None

    # ---- its file

    def next_id(self) -> int:
        """Return the id of a new pane."""
        self.last_id = new_id(self.last_id)
        return self.last_id

    def touch(self) -> None:
        """Write the state soon."""
        if WRITES not in self.loop.due:
            self.loop.later(WRITES, SOON, self.write)

    def write(self) -> None:
        """Write the state if it has changed, and give the holder the texts before."""
        self.loop.drop(WRITES)
        self.keep_texts()
        import json

        state = plain(self.state)
        assert isinstance(state, dict)
        for paste in state["pastes"].values():
            paste["data"] = ""
        state["buffers"]["texts"] = dict.fromkeys(state["buffers"]["texts"], "")
        text = json.dumps(state)
        self.hold(text)
        if text == self.was:
            return
        try:
            if os.path.samestat(self.folder, os.stat(os.path.dirname(self.path))):
                replace_text(self.path, text)
                self.was, self.refused = text, ""
        except OSError as fault:
            if self.refused != reason(fault):
                say(f"{self.path} cannot be written: {reason(fault)}")
            self.refused = reason(fault)

    def hold(self, text: str) -> None:
        """Give the holder the state. If there is no memory for it, the next host reads the file."""
        if text != self.held:
            self.held = text if self.pages.write(text) else ""

    def settle(self) -> None:
        """Write it into the folder that this session has made anew."""
        self.folder, self.was = os.stat(os.path.dirname(self.path)), ""
        self.write()

    def keep_texts(self) -> None:
        """Give the holder the texts that it hasn't, and drop those that are gone."""
        texts: dict[str, bytes] = {f"{PASTE}:{name}": bytes(paste.data) for name, paste in self.state.pastes.items() if not paste.is_placed}
        texts |= {f"{BUFFER}:{number}": data for number, data in self.state.buffers.texts.items()}
        for name in [name for name in self.link.own if name.partition(":")[0] in (PASTE, BUFFER) and name not in texts]:
            kept = self.link.own[name]
            self.link.drop(name)
            for end in kept.ends:
                os.close(end)
        for name in texts.keys() - self.link.own.keys():
            with suppress(OSError):
                self.link.put(name, [memfd_of(texts[name])])
