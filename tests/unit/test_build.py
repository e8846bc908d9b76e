"""tools/build: the crates to prove, their order, and their build."""
import importlib.machinery
import importlib.util
import io
import os
import pathlib
import signal
import subprocess
import sys

from aids import Case

TOOL = pathlib.Path(__file__).resolve().parents[2] / "tools/build"
loader = importlib.machinery.SourceFileLoader("build_tool", str(TOOL))
tool = importlib.util.module_from_spec(importlib.util.spec_from_loader("build_tool", loader))
# A dataclass looks its module up.
sys.modules["build_tool"] = tool
loader.exec_module(tool)

LINES = """# comment
low: kit          # what is not a crate of the repository is the kit's
left: low
right: low kit
small: low
show: small
roam may_wait=2: left right
"""
SECONDS = "low 10\nleft 100\nright 20\nsmall 5\nshow 7\nroam 50\n"
CRATES = tool.read_crates(LINES, SECONDS)


class Proof:
    """A proof that has ended with a status."""

    def __init__(self, status):
        self.ended_with, self.is_stopped = status, False

    def status(self):
        """Return the status, at once."""
        return self.ended_with

    def stop(self):
        """Note the call."""
        self.is_stopped = True


class Reading(Case):
    """crates.txt, and the data derived from it."""

    def test_crates(self):
        """Each line is a crate, with the crates of the repository below it, and its seconds if they were measured."""
        self.assertEqual({name: (crate.below, crate.seconds) for name, crate in tool.read_crates(LINES, "low 10\nodd\n").items()},
                         {"low": ([], 10.0), "left": (["low"], 30.0), "right": (["low"], 30.0), "small": (["low"], 30.0),
                          "show": (["small"], 30.0), "roam": (["left", "right"], 30.0)})

    def test_needed(self):
        """The crates below a goal come before it."""
        self.assertEqual(tool.needed(CRATES, "roam"), ["low", "left", "right", "roam"])

    def test_ways(self):
        """The longest chain from each crate to the end."""
        self.assertEqual(tool.ways(CRATES, tool.needed(CRATES, "roam")), {"low": 160.0, "left": 150.0, "right": 70.0, "roam": 50.0})

    def test_threads(self):
        """A proof gets the processors that no other needs, one at least and four at most. One of the longest chain gets most of them."""
        for jobs, others, wanted in ((4, 0, 4), (4, 1, 3), (4, 3, 1), (4, 9, 1), (1, 0, 1), (16, 0, 4), (2, 0, 2)):
            self.assertEqual(tool.threads_for(jobs, others, False), wanted, (jobs, others))
        for jobs, others, wanted in ((4, 0, 4), (4, 3, 3), (4, 9, 3), (1, 0, 1), (16, 20, 4), (2, 5, 1)):
            self.assertEqual(tool.threads_for(jobs, others, True), wanted, (jobs, others))

    def test_critical(self):
        """The longest chain of a goal begins with one crate; the end of a shorter chain is never one."""
        plan = tool.Plan.of(CRATES, ["roam"], ["left", "right", "roam"])
        self.assertEqual([name for name in ("left", "right", "roam") if plan.is_critical(name, [])], ["left"])
        plan.left.remove("left")
        self.assertEqual([plan.is_critical("right", running) for running in ([], ["left"])], [True, False])


class Stale(Case):
    """The crates that have to be proved."""

    def setUp(self):
        self.top = self.made_folder()
        for name, crate in CRATES.items():
            (self.top / "crates" / name / "src").mkdir(parents=True)
            (self.top / "crates" / name / "out").mkdir()
            self.write(name, "src/lib.rt", "code", 100)
            self.write(name, "out/built", crate.line, 200)

    def write(self, name, file, text, moment):
        """Write a file of a crate with a time, and give its folder the time of the sources."""
        place = self.top / "crates" / name / file
        place.write_text(text, encoding="utf-8")
        os.utime(place, (moment, moment))
        os.utime(place.parent, (100, 100))

    def stale(self, goal="roam"):
        """Return the crates to prove for a goal."""
        return tool.stale(self.top, CRATES, tool.needed(CRATES, goal))

    def test_none(self):
        """Nothing has to be proved if each stamp is newer than its inputs."""
        self.assertEqual(self.stale(), [])

    def test_source(self):
        """A source that is newer than the stamp makes its crate stale, and those above."""
        self.write("left", "src/lib.rt", "code", 201)
        self.assertEqual((self.stale(), self.stale("show")), (["left", "roam"], []))

    def test_folder(self):
        """So does a removed file, because its folder changes."""
        os.utime(self.top / "crates/right/src", (300, 300))
        self.assertEqual(self.stale(), ["right", "roam"])

    def test_missing(self):
        """So does a stamp that is missing, and one that is newer below."""
        (self.top / "crates/low/out/built").unlink()
        self.assertEqual(self.stale(), ["low", "left", "right", "roam"])
        self.write("low", "out/built", CRATES["low"].line, 250)
        self.assertEqual(self.stale(), ["left", "right", "roam"])

    def test_line(self):
        """So does another line of crates.txt, but not a line of another crate."""
        self.write("roam", "out/built", "roam: left\n", 200)
        self.assertEqual((self.stale(), self.stale("left")), (["roam"], []))


class Planned(Case):
    """The order, and the remaining time."""

    def test_order(self):
        """The longest chain goes first; the needs of an earlier goal precede those of only a later one."""
        names = ["low", "left", "right", "roam", "small", "show"]
        self.assertEqual(tool.Plan.of(CRATES, ["roam", "show"], names).left, ["low", "left", "right", "roam", "small", "show"])
        self.assertEqual(tool.Plan.of(CRATES, ["show", "roam"], names).left, ["low", "small", "show", "left", "right", "roam"])

    def test_ready(self):
        """A crate can start once those below it are proved."""
        plan = tool.Plan.of(CRATES, ["roam"], ["left", "right", "roam"])
        self.assertEqual((plan.ready([]), plan.ready(["low"])), (["left", "right"], []))

    def test_minutes(self):
        """The time left is the longest chain or the sum by processors, at the pace of this machine."""
        plan = tool.Plan.of(CRATES, ["roam"], ["right", "roam"])
        self.assertEqual(plan.minutes({}, 4), 70 / 60)
        self.assertEqual(plan.minutes({"left": 40.0}, 4), 110 / 60)
        plan.factor = 2.0
        self.assertEqual((plan.minutes({"left": 40.0}, 4), plan.minutes({"left": 40.0}, 1)), (260 / 60, 300 / 60))


class Built(Case):
    """A build of proofs that end at once."""

    def build(self, goals, left, jobs=2, failing=()):
        """Return a build, the proofs that it starts, and its output."""
        self.started, self.told = [], []

        def prove(name, threads):
            self.started.append((name, threads))
            return Proof(1 if name in failing else 0)

        return tool.Build(tool.Plan.of(CRATES, goals, left), jobs, prove, self.told.append)

    def test_whole(self):
        """Each crate is proved once, and a line shows how many are done."""
        build = self.build(["roam"], ["low", "left", "right", "roam"])
        self.assertTrue(build.run())
        self.assertEqual([name for name, _ in self.started], ["low", "left", "right", "roam"])
        self.assertEqual([threads for _, threads in self.started], [2, 1, 1, 2])
        self.assertEqual([line.split(": ")[2].split(",")[0] for line in self.told],
                         ["1 of 4 crates", "2 of 4 crates", "3 of 4 crates", "4 of 4 crates"])

    def test_failed(self):
        """After a failed proof nothing new is started; running ones end."""
        build = self.build(["roam"], ["low", "left", "right", "roam"], failing=("left",))
        self.assertFalse(build.run())
        self.assertEqual(([name for name, _ in self.started], build.failed), (["low", "left", "right"], ["left"]))

    def test_until(self):
        """A build stops at the first goal, and continues from there."""
        build = self.build(["show", "roam"], ["low", "small", "show", "left", "right", "roam"], jobs=1)
        self.assertTrue(build.run(until="show"))
        self.assertEqual([name for name, _ in self.started], ["low", "small", "show"])
        self.assertTrue(build.run())
        self.assertEqual([name for name, _ in self.started][3:], ["left", "right", "roam"])

    def test_stopped(self):
        """A stopped build ends its running proofs."""
        build = self.build(["roam"], ["low"])
        build.start_ready()
        proof = build.running["low"][0]
        build.stop()
        self.assertTrue(proof.is_stopped)


class Told(Case):
    """The lines of a build."""

    def shown(self, is_terminal):
        """Return the output of two lines."""
        stream = io.StringIO()
        stream.fileno = lambda: 9
        self.patch_of(tool.os, "isatty", lambda descriptor: is_terminal)
        line = tool.Line(stream)
        line.report("one")
        line.report("two")
        line.end()
        line.report("three")
        return stream.getvalue()

    def test_shown(self):
        """A terminal has one line that is rewritten until the end of that; a file has all."""
        self.assertEqual((self.shown(True), self.shown(False)), ("\r\x1b[Kone\r\x1b[Ktwo\nthree\n", "one\ntwo\nthree\n"))

    def test_gone(self):
        """A terminal that is gone doesn't end a build."""
        stream = io.StringIO()
        stream.fileno = lambda: 9
        self.patch_of(tool.os, "isatty", lambda descriptor: True)
        self.patch_of(stream, "write", self.fail_to_write)
        tool.Line(stream).report("one")

    @staticmethod
    def fail_to_write(text):
        """Fail as a write to a terminal that was hung up."""
        raise OSError(5, "Input/output error")


class Processes(Case):
    """The processes of a build."""

    def test_group(self):
        """The prover that a proof started ends with it."""
        words = ["sh", "-c", "sleep 60 & echo started; wait"]
        process = subprocess.Popen(words, stdout=subprocess.PIPE, start_new_session=True)
        self.addCleanup(process.stdout.close)
        process.stdout.readline()
        proof = tool.Proof(process)
        self.assertIsNone(proof.status())
        proof.stop()
        self.assertEqual(proof.status(), -signal.SIGTERM)
        # The other process of the group holds the pipe until it ends.
        self.assertEqual(process.stdout.read(), b"")

    def behind(self, failing=()):
        """Return a build in the background, which writes a line for each proof to a file."""
        folder = self.made_folder()
        started = folder / "started"
        started.touch()

        def prove(name, threads):
            with open(started, "a", encoding="utf-8") as file:
                file.write(f"{name} {os.getpid()}\n")
            return Proof(1 if name in failing else 0)

        plan = tool.Plan.of(CRATES, ["show", "roam"], ["low", "small", "show", "left", "right", "roam"])
        lock = open(folder / "lock", "a+", encoding="utf-8")
        self.addCleanup(lock.close)
        line = tool.Line(open(folder / "line", "w", encoding="utf-8"))
        self.addCleanup(line.stream.close)
        build = tool.Build(plan, 1, prove, line.report)
        return tool.Behind(build, "show", lock, line, folder / "log"), folder

    def test_behind(self):
        """The call returns at the first goal; all proofs are children of one process, whose number the lock has."""
        behind, folder = self.behind()
        self.assertEqual(behind.start(), 0)
        os.waitpid(int((folder / "lock").read_text(encoding="utf-8")), 0)
        lines = [line.split() for line in (folder / "started").read_text(encoding="utf-8").splitlines()]
        self.assertEqual([name for name, _ in lines], ["low", "small", "show", "left", "right", "roam"])
        self.assertEqual({pid for _, pid in lines}, {(folder / "lock").read_text(encoding="utf-8").strip()})

    def test_behind_failed(self):
        """The call fails with the first goal."""
        behind, folder = self.behind(failing=("small",))
        self.assertEqual(behind.start(), 1)
        _, status = os.waitpid(int((folder / "lock").read_text(encoding="utf-8")), 0)
        self.assertEqual(os.waitstatus_to_exitcode(status), 1)
