"""The state of a pty host that another host reads, and the texts at the holder."""
import json
import os
from unittest import mock

from aids import Case, PlayedHolder, StillLoop
from roam_live.host.holder_link import Kept
from roam_live.host.kept_state import KeptState
from roam_live.host.state import PaneState, PendingPaste
from roam_live.protocol.paste_text import INSERTED

ONE, OTHER = "0123456789abcdef", "fedcba9876543210"


def memfds():
    """Return the number of this process's memfds."""
    paths = [f"/proc/self/fd/{name}" for name in os.listdir("/proc/self/fd")]
    return sum(os.readlink(path).startswith("/memfd:") for path in paths if os.path.islink(path))


class States(Case):
    """The state in a folder, and the host's end of a holder."""

    def setUp(self):
        self.stop_clock()
        self.folder, self.said = self.made_folder(), self.heard()

    def made(self, before=None, is_bare=False):
        """Return the state of a first host, or of one that follows another."""
        loop = StillLoop(lambda: self.now)
        link = PlayedHolder(loop, mock.Mock())
        if before:
            link.is_resumed, link.is_bare = True, is_bare
            link.left = {name: Kept(kept.ends) for name, kept in before.link.own.items()}
        return KeptState(str(self.folder), link, loop)

    def test_another(self):
        """Another host has the state and the texts of the one before; the name of the host stays."""
        first = self.made()
        first.state.window(2).panes[1] = PaneState(id=40, number=1, generation=3, size=(5, 50), command=["vi"])
        first.state.pastes[ONE] = PendingPaste.of(ONE, b"pasted\x00", False)
        first.state.buffers.add(b"copied\xff")
        first.write()
        text = (self.folder / "host.json").read_text(encoding="utf-8")
        self.assertNotIn("cGFzdGVk", text)
        second = self.made(first)
        first.state.replaced += 1
        self.assertEqual((second.state, second.notices), (first.state, []))
        with mock.patch("roam_live.host.kept_state.new_id", lambda above: above + 1):
            self.assertEqual(second.next_id(), 41)

    def test_typed(self):
        """A paste that was being typed is over, which is reported. Texts without a file at the holder are gone."""
        first = self.made()
        for name in (ONE, OTHER):
            first.state.pastes[name] = PendingPaste.of(name, b"text", False)
        first.state.buffers.add(b"copied")
        first.write()
        first.state.pastes[ONE].is_placed = True
        first.write()
        self.assertNotIn(f"paste:{ONE}", first.link.own)
        del first.link.own["buffer:1"]
        second = self.made(first)
        self.assertEqual((list(second.state.pastes), second.state.spent_pastes, second.state.buffers.texts), ([OTHER], {ONE: INSERTED}, {}))
        self.assertEqual(second.notices, ["a paste was cut, since the pty host ended while it was typed"])

    def test_bad(self):
        """A state that can't be read, or with which hosts failed, isn't used and is kept. Both are reported."""
        for text, is_bare, why in (("{", False, "SessionState: not JSON"), ("{}", False, "SessionState: not the fields version, name, "),
                                   (None, True, "pty hosts failed too often with it")):
            first = self.made()
            first.state.last_window = 7
            first.write()
            if text:
                (self.folder / "host.json").write_text(text, encoding="ascii")
                del first.link.own["state"]
            second = self.made(first, is_bare)
            self.assertEqual(second.state.last_window, 0)
            self.assertIn(f"the state of the pty host before is not used, and is kept as host.bad: {why}", second.notices[0])
            self.assertTrue((self.folder / "host.bad").exists() and not (self.folder / "host.json").exists())

    def test_soon(self):
        """A change is written 0.2 s later, once for many; an equal state isn't written again."""
        kept = self.made()
        kept.touch()
        self.now += 0.19
        kept.touch()
        kept.loop.turn()
        self.assertFalse((self.folder / "host.json").exists())
        self.now += 0.01
        kept.loop.turn()
        before = os.stat(self.folder / "host.json").st_ino
        kept.write()
        self.assertEqual(os.stat(self.folder / "host.json").st_ino, before)
        self.assertEqual(json.loads((self.folder / "host.json").read_text(encoding="utf-8"))["version"], 1)

    def test_other_folder(self):
        """A folder that was removed and made anew by another session gets nothing, until this session makes it."""
        kept = self.made()
        moved = self.folder.with_name(self.folder.name + "-old")
        self.folder.rename(moved)
        self.addCleanup(moved.rmdir)
        self.folder.mkdir()
        kept.write()
        self.assertEqual(os.listdir(self.folder), [])
        kept.settle()
        self.assertEqual(os.listdir(self.folder), ["host.json"])

    def test_full_disk(self):
        """Another host has the state also if no file could be written; the one at the holder is newer than the file."""
        first, before = self.made(), memfds()
        first.state.last_window = 3
        first.write()
        with mock.patch("roam_live.host.kept_state.replace_text", side_effect=OSError(28, "No space left on device")):
            for number in (4, 5):
                first.state.last_window = number
                first.write()
        self.assertEqual(json.loads((self.folder / "host.json").read_text(encoding="utf-8"))["last_window"], 3)
        self.assertEqual(self.made(first).state.last_window, 5)
        self.assertEqual(memfds() - before, 0)

    def test_no_memory(self):
        """Without memory or a descriptor for the state another host reads the file, also if an older state was there."""
        first = self.made()
        first.write()
        first.state.last_window = 4
        with mock.patch("os.pwrite", side_effect=OSError(27, "File too large")):
            first.write()
        self.assertEqual((first.held, self.made(first).state.last_window), ("", 4))
        with mock.patch("roam_live.host.kept_state.memfd_of", side_effect=OSError(24, "Too many open files")):
            second = self.made()
        second.state.last_window = 5
        second.write()
        self.assertEqual((second.held, self.made(second).state.last_window), ("", 5))

    def test_torn(self):
        """Of two states the newest whole one counts: a write that is cut at any byte leaves the one before."""
        first = self.made()
        for number in (3, 4, 5):
            first.state.last_window = number
            first.write()
        newest = first.link.own["state"].ends[first.pages.last % 2]
        whole = os.pread(newest, 1 << 20, 0)
        for cut in (0, 5, 11, 12, 40, len(whole) - 1):
            os.ftruncate(newest, cut)
            self.assertEqual(self.made(first).state.last_window, 4, cut)
            os.pwrite(newest, whole, 0)
        os.pwrite(newest, b"{", 30)
        self.assertEqual(self.made(first).state.last_window, 4)

    def test_unwritable(self):
        """A refusal of the system is logged."""
        kept = self.made()
        with mock.patch("roam_live.host.kept_state.replace_text", side_effect=OSError(28, "No space left on device")):
            for _ in range(3):
                kept.write()
        self.assertEqual(self.said.getvalue().count("host.json cannot be written: No space left on device"), 1)
