"""tests/unit/run: a file that hangs, ends or fails is named, and the other files go on."""
import pathlib
import shutil
import signal
import subprocess
import sys
import time

from aids import Case

RUN = pathlib.Path(__file__).resolve().parent / "run"
HEAD = "import os\nimport time\nimport unittest\n\n\nclass It(unittest.TestCase):\n    def test_it(self):\n"


class Runs(Case):
    """Runs of some files in a folder of their own."""

    def setUp(self):
        super().setUp()
        self.folder = self.made_folder() / "tests/unit"
        self.folder.mkdir(parents=True)
        shutil.copy(RUN, self.folder)
        self.write("passes", "pass")

    def write(self, name, body):
        """Write a file with one test."""
        (self.folder / f"test_{name}.py").write_text(f"{HEAD}        {body}\n", encoding="utf-8")

    def run_all(self, *words):
        """Run the files, and return the status and the output."""
        done = subprocess.run([sys.executable, self.folder / "run", "-j", "2", *words], stdin=subprocess.DEVNULL, stdout=subprocess.PIPE,
                              stderr=subprocess.STDOUT, check=False, text=True)
        return done.returncode, done.stdout

    def test_pass(self):
        """The end of a run has the count of tests and the slowest files."""
        self.write("also", "pass")
        status, said = self.run_all()
        self.assertEqual(status, 0)
        self.assertRegex(said, r"^the longest: (also|passes) \d+\.\d s, (also|passes) \d+\.\d s\n2 tests in \d+\.\d s: all pass\n$")

    def test_fail(self):
        """A failed file shows its output."""
        self.write("fails", "self.assertEqual(1, 2)")
        status, said = self.run_all()
        self.assertEqual(status, 1)
        self.assertIn("AssertionError: 1 != 2", said)
        self.assertRegex(said, r"2 tests in \d+\.\d s: 1 files failed\n$")

    def test_hang(self):
        """A file that hangs is stopped after the limit, with the place where it hung; its processes end with it."""
        held = self.folder / "held"
        self.write("hangs", f"os.system('sleep 100 & echo $! > {held}'); time.sleep(100)")
        status, said = self.run_all("--limit", "1")
        self.assertEqual(status, 1)
        self.assertIn("tests/unit/test_hangs.py took longer than 1 s, and was stopped here:\nTimeout (0:00:01)!", said)
        self.assertRegex(said, r'test_hangs\.py", line 8 in test_it')
        self.assertRegex(said, r"1 tests in \d+\.\d s: 1 files failed\n$")
        self.assertFalse(pathlib.Path("/proc", held.read_text(encoding="utf-8").strip(), "exe").exists())

    def test_stopped(self):
        """A signal to end stops the files that run, with their processes."""
        held = self.folder / "held"
        self.write("hangs", f"os.system('sleep 100 & echo $! > {held}'); time.sleep(100)")
        process = self.process(sys.executable, self.folder / "run", "hangs", stderr=subprocess.DEVNULL)
        while not (held.exists() and held.read_text(encoding="utf-8").strip()):
            time.sleep(0.05)
        process.terminate()
        self.assertEqual(process.wait(20), 128 + signal.SIGTERM)
        self.assertFalse(pathlib.Path("/proc", held.read_text(encoding="utf-8").strip(), "exe").exists())

    def test_end(self):
        """A file that ends its process without a result fails."""
        self.write("ends", "os._exit(0)")
        status, said = self.run_all()
        self.assertEqual(status, 1)
        self.assertIn("tests/unit/test_ends.py ended without a result:\n", said)

    def test_import(self):
        """A file that cannot be imported fails."""
        self.write("broken", "pass\nimport no_such_module")
        status, said = self.run_all("broken", "passes")
        self.assertEqual(status, 1)
        self.assertIn("No module named 'no_such_module'", said)

    def test_first(self):
        """With --first the run ends at the first file that fails."""
        self.write("fails", "self.fail()")
        self.write("waits", "time.sleep(100)")
        status, said = self.run_all("--first", "waits", "fails")
        self.assertEqual(status, 1)
        self.assertRegex(said, r"1 tests in \d+\.\d s: 1 files failed\n$")
