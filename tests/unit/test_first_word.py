"""The messages of `roam` before the program gets its words, in a clone and in an installation."""
import os
import shutil
import subprocess
import unittest

from aids import Case
from roam_live.cli.words import WORDS
from roam_live.common.process import TOOLS

PROGRAM = "#!/bin/sh\necho program \"$@\"\n[ $# != 0 ] || exit 2\n"
MUX = "import sys\nprint('mux', *sys.argv[1:])\n"
TELLS = "roam mux runs terminal sessions; `roam mux help` explains it\n"


def write(path, text):
    """Write an executable file, and create the folders above it."""
    path.parent.mkdir(parents=True, exist_ok=True)
    path.write_text(text, encoding="utf-8")
    path.chmod(0o755)


class FirstWord(Case):
    """Both scripts, with a simulated program and `mux`."""

    def setUp(self):
        self.clone, self.installed = self.made_folder() / "clone", self.made_folder() / "installed"
        for tree, script in ((self.clone, self.clone / "roam"), (self.installed, self.installed / "bin/roam")):
            write(script, "")
            shutil.copy(TOOLS.parent / "roam" if tree is self.clone else TOOLS / "installed", script)
        for name in ("src", "specs", "proofs"):
            (self.clone / "crates/roam" / name).mkdir(parents=True)
        for path in (self.clone / "live/first_word", self.installed / "lib/roam/first_word"):
            path.parent.mkdir(parents=True)
            shutil.copy(TOOLS / "first_word", path)
        write(self.clone / "crates.txt", "")
        write(self.clone / "crates/roam/out/roam", PROGRAM)
        write(self.clone / "crates/roam/out/current", "")
        write(self.clone / "live/mux", MUX)
        write(self.installed / "lib/roam/roam", PROGRAM)
        write(self.installed / "lib/roam/mux", MUX)

    def says(self, *words):
        """Return the status and the output, on standard output and on standard error, which is the same of both scripts."""
        told = []
        for folder in (self.clone, self.installed / "bin"):
            environment = {**os.environ, "PATH": f"{folder}:{os.environ['PATH']}"}
            run = subprocess.run(["sh", "-c", 'exec "$@"', "sh", "roam", *words], cwd=folder, env=environment, stdout=subprocess.PIPE,
                                 stderr=subprocess.PIPE, check=False)
            told.append((run.returncode, *(said.decode().replace(f"{folder}/", "") for said in (run.stdout, run.stderr))))
        self.assertEqual(*told)
        return told[0]

    def test_help(self):
        """The text about the program's commands begins with mux; help of one of them is the program's alone."""
        self.assertEqual(self.says(), (2, "program\n", TELLS))
        for word in ("help", "-h", "--help"):
            self.assertEqual(self.says(word), (0, f"{TELLS}\nprogram {word}\n", ""))
        self.assertEqual(self.says("help", "serve"), (0, "program help serve\n", ""))
        self.assertEqual(self.says("help", "mux"), (0, "mux help\n", ""))
        self.assertEqual(self.says("mux", "ls", "-x"), (0, "mux ls -x\n", ""))

    def test_attach(self):
        """The program's usage of attach follows the probable intention of the user."""
        self.assertEqual(self.says("attach"), (0, "program attach\n", "roam mux attach attaches to a session by its name; this command runs a client\n"))

    def test_version(self):
        """The tools say which build it is."""
        for word in ("-V", "--version"):
            self.assertEqual(self.says(word), (0, "mux --version\n", ""))

    def test_words_of_mux(self):
        """A word of mux is refused with a suggestion, except for those that the program has with options."""
        for word in WORDS:
            if word not in ("attach", "help", "far"):
                self.assertEqual(self.says(word, "work"), (2, "", f"roam: {word} is a command of mux: `roam mux {word}`\n"))
        self.assertEqual(self.says("attach", "work"), (2, "", "roam: attach with a name is a command of mux: `roam mux attach work`\n"))
        for words in (("attach", "--dir", "d"), ("serve", "--dir", "d"), ("show",), ("--version", "x"), ("far",)):
            self.assertEqual(self.says(*words), (0, f"program {' '.join(words)}\n", ""))


class Stamp(Case):
    """The stamp by which a clone's `roam` knows that its program is up to date."""

    def setUp(self):
        self.clone = self.made_folder() / "clone"
        write(self.clone / "roam", "")
        shutil.copy(TOOLS.parent / "roam", self.clone / "roam")
        for name in ("src", "specs", "proofs"):
            (self.clone / "crates/roam" / name).mkdir(parents=True)
        write(self.clone / "live/mux", MUX)
        write(self.clone / "live/first_word", "")
        write(self.clone / "crates.txt", "")
        write(self.clone / "crates/roam/src/lib.rt", "")
        write(self.clone / "crates/roam/out/roam", PROGRAM)
        write(self.clone / "crates/roam/out/current", "")
        # Replacements of the file check and the build that report their calls.
        for name in ("find", "rt"):
            write(self.clone / f"bin/{name}", f"#!/bin/sh\necho {name} >> {self.clone}/called\n")
        write(self.clone / "tools/build", f"#!/bin/sh\necho build:$1:$2 >> {self.clone}/called\n[ $1 != --check ] || [ -e {self.clone}/built ]\n")
        self.age("crates.txt", "crates/roam/src", "crates/roam/specs", "crates/roam/proofs", "crates/roam/src/lib.rt")

    def age(self, *names):
        """Make files older than the stamp."""
        for name in names:
            os.utime(self.clone / name, (1000, 1000))

    def called(self, *words):
        """Return the commands that `roam` runs for these words, in order."""
        (self.clone / "called").write_text("", encoding="ascii")
        environment = {**os.environ, "PATH": f"{self.clone}/bin:{os.environ['PATH']}"}
        subprocess.run([str(self.clone / "roam"), *words], env=environment, stdout=subprocess.DEVNULL, stderr=subprocess.DEVNULL, check=True)
        return (self.clone / "called").read_text(encoding="ascii").split()

    def test_asking(self):
        """Words that query a running session check no file while no folder is newer than the stamp; others do."""
        for words in (("mux", "attach", "main"), ("mux", "ls"), ("mux", "send", "main", "x"), ("mux", "help")):
            self.assertEqual(self.called(*words), [], words)
        for words in (("mux",), ("mux", "main"), ("mux", "new", "main"), ("mux", "ssh", "there"), ("show",), ("serve", "--dir", "d")):
            self.assertEqual(self.called(*words), ["find"], words)
        os.utime(self.clone / "crates/roam/specs")
        os.utime(self.clone / "crates/roam/out/current", (2000, 2000))
        self.assertEqual(self.called("mux", "ls"), ["find"])

    def test_none(self):
        """Without a stamp tools/build checks, whatever the words are, and builds stale crates; the next call needs neither."""
        (self.clone / "crates/roam/out/current").unlink()
        self.assertEqual(self.called("mux", "ls"), ["build:--check:roam", "build:roam:"])
        (self.clone / "crates/roam/out/current").unlink()
        write(self.clone / "built", "")
        self.assertEqual(self.called("mux", "ls"), ["build:--check:roam"])
        self.age("crates/roam/specs")
        self.assertEqual(self.called("mux", "ls"), [])

    def test_links(self):
        """It is found by a link, by a path and by a name."""
        link = self.clone / "bin/linked"
        link.symlink_to(self.clone / "roam")
        environment = {**os.environ, "PATH": f"{self.clone}/bin:{self.clone}:{os.environ['PATH']}"}
        for words, folder in ((["linked", "mux", "ls"], "/"), (["./roam", "mux", "ls"], self.clone), (["roam", "mux", "ls"], "/"),
                              (["../roam", "mux", "ls"], self.clone / "bin"), (["sh", "roam", "mux", "ls"], self.clone)):
            run = subprocess.run(words, cwd=folder, env=environment, stdout=subprocess.PIPE, check=True)
            self.assertEqual(run.stdout, b"mux ls\n", words)


if __name__ == "__main__":
    unittest.main()
