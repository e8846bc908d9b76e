"""The modes of a user's terminal beside the painting, and their restoration."""
import os
import unittest
from unittest import mock

from aids import Case, read_now
from roam_live.frontend.outer_terminal import CLIP_BEGIN, CLIP_END, TITLE_BACK, TITLE_KEPT, ClipboardWriter, OuterModes, shaped, titled


class Given(unittest.TestCase):
    """A title and a shape."""

    def setUp(self):
        patched = mock.patch.dict(os.environ, TERM="xterm")
        patched.start()
        self.addCleanup(patched.stop)

    def test_new(self):
        """Changes are written, after the terminal's own title is saved; everything is restored once."""
        modes = OuterModes()
        self.assertEqual((modes.update("", 0), modes.taken_back()), (b"", b""))
        self.assertEqual(modes.update("vi", 6), TITLE_KEPT + b"\x1b]2;vi\x07\x1b[6 q")
        self.assertEqual(modes.update("vi", 6), b"")
        self.assertEqual(modes.update("", 6), titled("") + TITLE_BACK)
        self.assertEqual(modes.update("sh", 0), TITLE_KEPT + titled("sh") + shaped(0))
        self.assertEqual(modes.update("ed", 0), titled("ed"))
        self.assertEqual((modes.taken_back(), modes.taken_back()), (TITLE_BACK, b""))
        self.assertEqual((modes.update("sh", 0), modes.update("", 4)), (TITLE_KEPT + titled("sh"), titled("") + TITLE_BACK + shaped(4)))
        self.assertEqual(modes.taken_back(), shaped(0))
        self.assertEqual(modes.update("sh", 4), TITLE_KEPT + titled("sh") + shaped(4))
        self.assertEqual(modes.taken_back(), TITLE_BACK + shaped(0))

    def test_hostile(self):
        """A title contains no control, and is short."""
        for title in ("\x1b]52;c;YQ==\x07", "\x07\x1b[c", "\x9b6n\x9c", "\n\r\x7f\x00", "\u202egnp.exe", "a" * 5000, "\ud800"):
            text = titled(title)
            self.assertTrue(text.startswith(b"\x1b]2;") and text.endswith(b"\x07"), text)
            self.assertTrue(text[4:-1].decode().isprintable() and len(text) < 900, text)

    def test_console(self):
        """A Linux console gets nothing."""
        with mock.patch.dict(os.environ, TERM="linux"):
            modes = OuterModes()
        self.assertEqual((modes.update("vi", 6), modes.taken_back()), (b"", b""))


class Clips(Case):
    """Texts for the clipboard."""

    def test_whole(self):
        """A text is written whole, however little is accepted at once, and then the newest later one."""
        reads, writes = self.pipe()
        clip, got = ClipboardWriter(), b""
        clip.set_text("A" * 131072)
        self.assertTrue(clip.put(writes) and clip.has_begun)
        for text in ("YQ==", "YWI="):
            clip.set_text(text)
        while clip.newest or clip.rest:
            got += read_now(reads)
            self.assertTrue(clip.put(writes))
        self.assertEqual(got + read_now(reads), CLIP_BEGIN + b"A" * 131072 + CLIP_END + CLIP_BEGIN + b"YWI=" + CLIP_END)
        self.assertEqual((clip.has_begun, clip.taken_back()), (False, b""))

    def test_taken_back(self):
        """At the terminal's restoration a begun one is completed, and no other begins."""
        reads, writes = self.pipe()
        clip = ClipboardWriter()
        clip.set_text("YQ==")
        self.assertEqual((clip.taken_back(), bool(clip.newest or clip.rest)), (b"", False))
        os.write(writes, b"x" * 65536)
        clip.set_text("A" * 131072)
        self.assertTrue(clip.put(writes) and not clip.has_begun)
        clip.set_text("B" * 131072)
        read_now(reads)
        self.assertTrue(clip.put(writes) and clip.has_begun)
        clip.set_text("YQ==")
        got = read_now(reads) + clip.taken_back()
        self.assertEqual((got, bool(clip.newest or clip.rest)), (CLIP_BEGIN + b"B" * 131072 + CLIP_END, False))


if __name__ == "__main__":
    unittest.main()
