"""The shell commands of the settings file, which the pty host runs once, at a session's start."""
import os
import time
import unittest

from aids import Case
from roam_live.common.event_loop import Loop
from roam_live.host.start_commands import MOST_RUNS, StartCommands


class Started(Case):
    """Commands in a folder of their own."""

    def setUp(self):
        self.folder, self.told, self.loop = self.made_folder(), [], Loop()
        self.environment(ROAM_PANE="other:3")

    def run_all(self, *commands):
        """Run commands to their ends."""
        runs = StartCommands(self.loop, list(commands), self.told.append, 64)
        until = time.monotonic() + 20
        while (runs.runs or runs.waiting) and time.monotonic() < until:
            self.loop.later("look", 0.05, lambda: None)
            self.loop.turn()
        self.assertEqual((runs.runs, runs.waiting), ({}, []))

    def test_once(self):
        """Each runs once, in a session of its own, without a terminal and without a pane's name; nobody sees its output."""
        self.run_all(f"echo $ROAM_PANE $(ps -o sid= -p $$) $$ > {self.folder}/one; ulimit -n > {self.folder}/files; echo much; cat > {self.folder}/in")
        pane, *_ = told = (self.folder / "one").read_text().split()
        self.assertEqual((len(told), pane == told[-1], (self.folder / "in").read_text()), (2, True, ""))
        self.assertEqual((self.told, (self.folder / "files").read_text()), ([], "64\n"))

    def test_failures(self):
        """The host reports a failure with the last line of the output, printable and short."""
        self.run_all("echo one; printf 'tw\\033[2Jo\\n'; exit 3", "kill -9 $$", "/no/such/tpm", "x" * 500 + "\0")
        self.assertEqual(len(self.told), 4)
        told = "\n".join(self.told)
        self.assertTrue(told.isascii() and "\x1b" not in told and all(len(line) <= 200 for line in self.told), told)
        for part in ("tw?[2Jo; it returned 3", "ended by signal 9", "not found; it returned 127", "null"):
            self.assertIn(part, told)

    def test_many(self):
        """More than eight wait for their turn, and one that closes its output is awaited."""
        self.run_all("exec >&- 2>&-; sleep 0.2", *(f"echo {number} >> {self.folder}/all" for number in range(3 * MOST_RUNS)))
        self.assertEqual(sorted(map(int, (self.folder / "all").read_text().split())), list(range(3 * MOST_RUNS)))

    def test_no_shell(self):
        """Without descriptors the host runs nothing, reports that, and leaves nothing open."""
        before = os.listdir("/proc/self/fd")
        self.patch("os.posix_spawn", side_effect=OSError(24, "Too many open files"))
        self.run_all("true")
        self.assertEqual((self.told, len(os.listdir("/proc/self/fd"))), (["run-shell 'true': Too many open files"], len(before)))


if __name__ == "__main__":
    unittest.main()
