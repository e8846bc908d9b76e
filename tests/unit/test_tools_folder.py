"""Folders of tools: who may change them, and the sum that tells builds apart."""
import os
import unittest
from unittest import mock

from aids import Case
from roam_live.common.errors import Fault
from roam_live.session import tools_folder
from roam_live.session.tools_folder import build_sum, demand_safe, demand_safe_tools


class Folders(Case):
    """A folder of tools below a private one."""

    def setUp(self):
        self.folder = str(self.made_folder().resolve() / "live")
        os.makedirs(f"{self.folder}/roam_live/__pycache__")
        for name in ("pane_shells", "holder", "roam_live/__init__.py", "roam_live/__pycache__/a.pyc", "roam"):
            with open(f"{self.folder}/{name}", "w", encoding="ascii") as file:
                file.write(name)

    def refused(self, path=""):
        """Return the reason of a refusal."""
        with self.assertRaises(Fault) as raised:
            demand_safe_tools(path or self.folder)
        return str(raised.exception)

    def test_safe(self):
        """A folder is accepted if root and this user alone may change it and what is above it. A sticky folder above may be anybody's."""
        demand_safe_tools(self.folder)
        os.chmod(os.path.dirname(self.folder), 0o1777)
        demand_safe_tools(self.folder)

    def test_writable(self):
        """A file, a folder or a parent that others may write is refused by its path."""
        for path in (f"{self.folder}/roam_live/__init__.py", f"{self.folder}/roam_live", self.folder, os.path.dirname(self.folder)):
            for mode in (0o775, 0o757):
                before = os.stat(path).st_mode
                os.chmod(path, mode)
                self.assertEqual(self.refused(), f"{path} can be written by other users")
                os.chmod(path, before)

    def test_compiled(self):
        """Compiled modules are code too: a file or a folder of them that others may write is refused, and one that has just gone is none."""
        folder = f"{self.folder}/roam_live/__pycache__"
        for path in (f"{folder}/a.pyc", folder):
            before = os.stat(path).st_mode
            os.chmod(path, 0o777)
            self.assertEqual(self.refused(), f"{path} can be written by other users")
            os.chmod(path, before)
        found = [*tools_folder.files_in(self.folder, has_compiled=True), f"{folder}/a.pyc.4711"]
        with mock.patch.object(tools_folder, "files_in", lambda *words, **more: found):
            demand_safe_tools(self.folder)

    def test_others(self):
        """A file of another user, a link, or a folder without a host is refused."""
        with mock.patch.object(tools_folder.os, "getuid", lambda: 4242):
            if os.stat(self.folder).st_uid:
                self.assertIn("belongs to user", self.refused())
        os.symlink("/bin/sh", f"{self.folder}/mux")
        self.assertEqual(self.refused(), f"{self.folder}/mux is a symbolic link")
        os.unlink(f"{self.folder}/mux")
        os.symlink(self.folder, f"{os.path.dirname(self.folder)}/link")
        with self.assertRaises(Fault):
            demand_safe(f"{os.path.dirname(self.folder)}/link")
        os.unlink(f"{self.folder}/pane_shells")
        self.assertEqual(self.refused(), f"{self.folder} is no folder of roam's tools")

    def test_many(self):
        """A folder with too many files is refused, so that none is walked for long."""
        with mock.patch.object(tools_folder, "MOST_FILES", 3), self.assertRaisesRegex(Fault, "more than 3 files"):
            build_sum(self.folder, f"{self.folder}/roam")
        with mock.patch.object(tools_folder, "MOST_COMPILED", 3):
            self.assertIn("more than 3 files", self.refused())

    def test_sum(self):
        """The sum changes with a file, its time or the program, and not with compiled modules."""
        first = build_sum(self.folder, f"{self.folder}/roam")
        with open(f"{self.folder}/roam_live/__pycache__/b.pyc", "w", encoding="ascii") as file:
            file.write("b")
        self.assertEqual(build_sum(self.folder, f"{self.folder}/roam"), first)
        self.assertNotEqual(build_sum(self.folder, f"{self.folder}/holder"), first)
        os.utime(f"{self.folder}/holder", ns=(5, 5))
        self.assertNotEqual(build_sum(self.folder, f"{self.folder}/roam"), first)


if __name__ == "__main__":
    unittest.main()
