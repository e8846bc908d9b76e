"""The packages: their lists of files, their dependencies, equal builds, and an installation in a home with its removal."""
import importlib.machinery
import importlib.util
import os
import pathlib
import re
import shutil
import subprocess
import tarfile
import unittest

from aids import Case
from roam_live.common.process import TOOLS

TOP = pathlib.Path(TOOLS.parent)
PACKAGE, NEEDS, VERSION = (str(TOP / "tools" / name) for name in ("package", "needs", "version"))

# A program that always exists replaces roam's.
PROGRAM = os.path.realpath("/bin/true")
MOMENT = "1700000000"


def loaded_tool(name):
    """Return a tool of tools/ as a module."""
    loader = importlib.machinery.SourceFileLoader(f"tool_{name}", str(TOP / "tools" / name))
    module = importlib.util.module_from_spec(importlib.util.spec_from_loader(loader.name, loader))
    loader.exec_module(module)
    return module


def printed(*words, **more):
    """Return the output of a command."""
    return subprocess.run(words, stdout=subprocess.PIPE, check=True, text=True, **more).stdout


def tree(folder):
    """Return the files and folders below a folder, with their contents."""
    paths = sorted(pathlib.Path(folder).rglob("*"))
    return {str(path.relative_to(folder)): path.read_bytes() if path.is_file() else b"" for path in paths}


class Packed(Case):
    """Both packages, built here."""

    def build(self, kind, umask, program=PROGRAM):
        """Build a package with a umask, in a folder of its own, and return its path."""
        folder = self.made_folder()
        line = printed("sh", "-c", f"umask {umask}; cd /; exec \"$@\"", "sh", PACKAGE, kind, "--program", program, "--gate", "7 passed, 0 failed",
                       str(folder), env={**os.environ, "SOURCE_DATE_EPOCH": MOMENT})
        return pathlib.Path(line.strip())

    def test_list(self):
        """The files are those of the list in the tree."""
        self.assertEqual(printed(PACKAGE, "list"), (TOP / "packaging/files").read_text(encoding="utf-8"))

    def test_tarball(self):
        """Two tarballs are equal, whatever the umask and the time; each file has its mode, no owner and one time."""
        one, other = self.build("dist", "022"), self.build("dist", "077")
        self.assertEqual(one.read_bytes(), other.read_bytes())
        with tarfile.open(one) as tar:
            for member in tar.getmembers():
                self.assertEqual((member.uid, member.gid, member.mtime), (0, 0, int(MOMENT)), member.name)
            info = tar.extractfile(f"{one.name[:10]}/lib/roam/build_info").read().decode()
        version = (TOP / "VERSION").read_text(encoding="ascii").strip()
        self.assertRegex(info, rf"^version {re.escape(version)}\ncommit .+\nkit .+\ngate 7 passed, 0 failed\n$")

    @unittest.skipUnless(shutil.which("dpkg-deb"), "dpkg-deb isn't installed")
    def test_debian(self):
        """So are two Debian packages; the dependencies come from the program."""
        one, other = self.build("deb", "022"), self.build("deb", "077")
        self.assertEqual(one.read_bytes(), other.read_bytes())
        fields = printed("dpkg-deb", "-f", str(one))
        least = dict(line.split(" ") for line in printed(NEEDS, PROGRAM).splitlines() if " " in line)["libc.so.6"]
        self.assertIn(f"Depends: python3 (>= 3.9), libc6 (>= {least.partition('_')[2]})\n", fields)
        self.assertIn("Recommends: openssh-client, python3-cryptography\n", fields)
        folder = self.made_folder()
        subprocess.run(["dpkg-deb", "-x", str(one), str(folder)], check=True)
        self.assertEqual((folder / "usr/lib/roam/mux").read_bytes().split(b"\n")[0], b"#!/usr/bin/python3")
        self.assertIn("exec /usr/bin/python3 -S", (folder / "usr/bin/roam").read_text(encoding="utf-8"))
        self.assertEqual((folder / "usr/lib/roam/roam").read_bytes(), pathlib.Path(PROGRAM).read_bytes())

    def test_home(self):
        """The tarball is installed into a home, also over itself, and its removal leaves the user's files and nothing else."""
        made = self.made_folder()
        with tarfile.open(self.build("dist", "022")) as tar:
            tar.extractall(made)
        top = next(made.iterdir())
        home = self.made_folder()
        (home / ".local/bin").mkdir(parents=True)
        (home / ".local/bin/own").write_text("own", encoding="ascii")
        before = tree(home)
        known = {**os.environ, "HOME": str(home)}
        for _ in range(2):
            said = printed("sh", str(top / "install.sh"), env=known)
            self.assertIn(f"roam is installed below {home}/.local", said)
            self.assertIn(f"{home}/.local/bin is not on your PATH", said)
        self.assertRegex(printed(str(home / ".local/bin/roam-mux"), "--version", env=known), r"^roam \S+ \(commit ")
        self.assertTrue(list(home.rglob("*.pyc")))
        self.assertEqual([path for path in home.rglob("*.new")], [])
        # A newer build removes obsolete files.
        gone = home / ".local/lib/roam/roam_live/gone/old.py"
        gone.parent.mkdir()
        gone.write_text("", encoding="ascii")
        with open(home / ".local/lib/roam/files", "a", encoding="utf-8") as files:
            files.write("lib/roam/roam_live/gone/old.py\n")
        printed("sh", str(top / "install.sh"), env=known)
        self.assertFalse(gone.parent.exists())
        said = printed("sh", str(home / ".local/lib/roam/install.sh"), "--remove", env=known)
        self.assertEqual(said, f"roam was removed from {home}/.local; running sessions continue\n")
        self.assertEqual(tree(home), before)

    def test_refused(self):
        """The installer gives the reason of a failure: no list, no roam to remove, or a program that doesn't run."""
        made = self.made_folder()
        with tarfile.open(self.build("dist", "022", os.path.realpath("/bin/false"))) as tar:
            tar.extractall(made)
        top = next(made.iterdir())
        prefix = made / "prefix"
        for words, told in (([top / "install.sh", prefix], "the program does not run here; it needs glibc"),
                            ([top / "install.sh", "--remove", prefix], f"roam is not installed below {prefix}"),
                            ([top / "install.sh", top], f"{top} is the unpacked tarball")):
            ran = subprocess.run(["sh", *map(str, words)], stdout=subprocess.PIPE, stderr=subprocess.STDOUT, check=False)
            self.assertEqual(ran.returncode, 1)
            self.assertIn(told, ran.stdout.decode())
        self.assertFalse(prefix.exists())

    def test_prefix(self):
        """`make install` puts the same files below a prefix."""
        root = self.made_folder()
        subprocess.run([PACKAGE, "install", "--program", PROGRAM, "--root", str(root), "/usr/local"], check=True)
        module = loaded_tool("package")
        wanted = sorted(entry.path for entry in module.entries(b"", ""))
        found = sorted(str(path.relative_to(root / "usr/local")) for path in root.rglob("*") if not path.is_dir() and path.suffix != ".pyc")
        self.assertEqual(found, wanted)


class Pages(Case):
    """The files of the tree that packages need."""

    def test_versions(self):
        """The man pages and the list of changes have the same version."""
        self.assertEqual(printed(VERSION, "--check"), "")

    def test_copyright(self):
        """Each library of the kit that the program names is in the copyright file."""
        lines = (TOP / "crates.txt").read_text(encoding="utf-8").splitlines()
        names = {line.partition(":")[0]: line.partition(":")[2].split() for line in lines if ":" in line and not line.startswith("#")}
        below, reached = ["roam"], set()
        while below:
            name = below.pop()
            if name not in reached:
                reached.add(name)
                below += names.get(name, [])
        text = (TOP / "packaging/copyright").read_text(encoding="utf-8")
        self.assertEqual([name for name in sorted(reached - set(names)) if f"usr/lib/roam/roam#{name}\n" not in text], [])

    @unittest.skipUnless(shutil.which("man"), "man isn't installed")
    def test_pages(self):
        """man has no complaints about the pages."""
        for page in sorted((TOP / "docs/man").glob("*.[15]")):
            run = subprocess.run(["man", "--warnings", "-l", str(page)], env={**os.environ, "MANWIDTH": "80"}, stdout=subprocess.DEVNULL,
                                 stderr=subprocess.PIPE, check=True)
            self.assertEqual(run.stderr.decode(), "", page.name)

    def test_needs(self):
        """A file that is no program is refused."""
        run = subprocess.run([NEEDS, __file__], stdout=subprocess.PIPE, stderr=subprocess.PIPE, check=False)
        self.assertEqual((run.returncode, run.stdout), (1, b""))
        self.assertIn("this is no ELF file for x86-64", run.stderr.decode())


if __name__ == "__main__":
    unittest.main()
