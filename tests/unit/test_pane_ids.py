"""The ids of panes, which no other pane of the user has."""
import os
import threading
from unittest import mock

from aids import Case
from roam_live.common.errors import Fault
from roam_live.session import pane_ids


class Ids(Case):
    """The counter in a folder of sessions."""

    def setUp(self):
        self.folder = self.made_folder()
        self.patch_of(pane_ids, "base", lambda: self.folder)

    def state(self, name, *ids):
        """Write the state of a host with these panes."""
        (self.folder / name).mkdir()
        text = ", ".join(f'{{"id": {one}, "number": 1}}' for one in ids)
        (self.folder / name / "host.json").write_text(f'{{"windows": [{text}], "id of none": 99}}', encoding="ascii")

    def test_counted(self):
        """Each is one above the last, from 0 on, and above what the caller knows."""
        self.assertEqual([pane_ids.new_id(-1) for _ in range(3)], [0, 1, 2])
        self.assertEqual([pane_ids.new_id(7), pane_ids.new_id(-1)], [8, 9])
        self.assertEqual(os.stat(self.folder / "last.pane").st_mode & 0o777, 0o600)

    def test_lost(self):
        """A lost or invalid counter is rebuilt above the largest id of all sessions."""
        self.state("one", 3, 12)
        self.state("two", 7)
        (self.folder / "three").mkdir()
        for text in (None, b"", b"x", b"-1\n", b"9" * 40):
            if text is not None:
                (self.folder / "last.pane").write_bytes(text)
            self.assertEqual(pane_ids.new_id(-1), 13, text)
            (self.folder / "last.pane").unlink()

    def test_together(self):
        """Two that ask at once get two."""
        found = []
        threads = [threading.Thread(target=lambda: found.extend(pane_ids.new_id(-1) for _ in range(50))) for _ in range(4)]
        for one in threads:
            one.start()
        for one in threads:
            one.join()
        self.assertEqual(sorted(found), list(range(200)))

    def test_refused(self):
        """Without a folder for the counter the caller's own count serves."""
        with mock.patch.object(pane_ids, "base", side_effect=Fault("not yours")):
            self.assertEqual(pane_ids.new_id(4), 5)
        (self.folder / "last.pane").symlink_to(self.folder / "other")
        self.assertEqual(pane_ids.new_id(5), 6)
