"""tests/stress/refuse_memory, refuse_all and tools/count_memory, with a small program in place of proved tests."""
import os
import pathlib
import re
import shutil
import subprocess
import unittest

from aids import Case, plain_environment

TOP = pathlib.Path(__file__).resolve().parents[2]

# A program that allocates twelve times in `whole`, and fails if the fifth or the tenth is refused in `broken`.
PROGRAM = r"""
#include <stdlib.h>
#include <string.h>
int main(int count, char **words) {
    int is_broken = strstr(words[1], "broken") != 0, failed = 0;
    for (int i = 1; i <= 12; i++) {
        void *volatile made = malloc(16);
        if (!made && is_broken && i % 5 == 0) failed = 1;
        free(made);
    }
    return failed;
}
"""


@unittest.skipUnless(shutil.which("cc"), "no C compiler is installed")
class Refusals(Case):
    """The scripts in a tree of their own."""

    def setUp(self):
        super().setUp()
        self.top = self.made_folder()
        for name in ("tests/stress/refuse_memory", "tests/stress/refuse_memory.c", "tests/stress/refuse_all", "tools/count_memory"):
            (self.top / name).parent.mkdir(parents=True, exist_ok=True)
            shutil.copy(TOP / name, self.top / name)
        (self.top / "program.c").write_text(PROGRAM, encoding="utf-8")
        subprocess.run(["cc", "-O0", "-o", self.top / "program", self.top / "program.c"], check=True)
        for crate in ("test_cells", "test_term", "test_sync", "test_paint"):
            folder = self.top / "crates" / crate / "out"
            folder.mkdir(parents=True)
            shutil.copy(self.top / "program", folder / f"{crate}_tests")

    def run_script(self, name, *words, **more):
        """Run a script, and return its status and its output."""
        done = subprocess.run([self.top / name, *words], stdin=subprocess.DEVNULL, stdout=subprocess.PIPE, stderr=subprocess.STDOUT,
                              check=False, text=True, env=plain_environment(**more))
        return done.returncode, done.stdout

    def test_each(self):
        """Each allocation is refused once; the numbers of those that make the test fail are printed."""
        self.assertEqual(self.run_script("tests/stress/refuse_memory", "--built", "test_cells", "whole"),
                         (0, "whole: 12 allocations, 12 refused, 0 of which made it fail\n"))
        self.assertEqual(self.run_script("tests/stress/refuse_memory", "--built", "test_cells", "broken"),
                         (1, "broken: 12 allocations, 12 refused, 2 of which made it fail\n5\n10\n"))

    def test_some(self):
        """With --each and --from only those are refused."""
        words = "--built", "--each", "4", "--from", "2", "test_cells", "broken"
        self.assertEqual(self.run_script("tests/stress/refuse_memory", *words),
                         (1, "broken: 12 allocations, 3 refused, 1 of which made it fail\n10\n"))

    def test_missing(self):
        """A program that does not exist is an error."""
        status, said = self.run_script("tests/stress/refuse_memory", "--built", "test_none", "whole")
        self.assertEqual((status, said), (1, f"{self.top}/crates/test_none/out/test_none_tests does not exist; `rt ci` builds it\n"))
        os.unlink(self.top / "crates/test_paint/out/test_paint_tests")
        status, said = self.run_script("tests/stress/refuse_all", "--gate", REFUSE_DAY="0")
        self.assertEqual(status, 1)
        self.assertRegex(said, r"\npaint +not run +-\n")

    def test_gate(self):
        """In the gate, every 50th allocation of `Session::act` is refused; the first one moves by day."""
        for day, count in (("61", 1), ("12", 0)):
            status, said = self.run_script("tests/stress/refuse_all", "--gate", REFUSE_DAY=day)
            self.assertEqual(status, 0)
            self.assertIn(f"from number {int(day) % 50 + 1} on", said)
            self.assertEqual([int(one) for one in re.findall(r" (\d+) +0\n", said)], [count, *[12] * 11])

    def test_counted(self):
        """Values take as many allocations with the calls as without."""
        self.assertEqual(self.run_script("tools/count_memory", "--built"),
                         (0, "counted::values_that_take_memory_once: 12 allocations, with the calls 12\n"))


if __name__ == "__main__":
    unittest.main()
