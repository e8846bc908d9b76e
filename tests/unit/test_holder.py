"""The holder: its descriptors, the programs that it forks, and the hosts that it starts. It is a real process; the hosts are scripts."""
import os
import resource
import signal
import socket
import subprocess
import sys
import time

from aids import Case, comes, plain_environment
from roam_live.common.process import TOOLS

# A host that says hello, and writes its variable and the answers into a file. Then it ends as its first word says.
HOST = """
import array, os, socket, sys
pair, _, more = os.environ["ROAM_HOLDER"].partition(" ")
end = socket.socket(socket.AF_UNIX, socket.SOCK_SEQPACKET, 0, int(pair))
end.send(b"hello")
lines = []
while not lines or not lines[-1].startswith("end "):
    line, control, _, _ = end.recvmsg(4096, socket.CMSG_SPACE(32))
    lines.append(line.decode() + " " + str(sum(len(data) // 4 for _, _, data in control)))
with open(sys.argv[2], "a") as file:
    file.write(";".join([more, str(os.getpid()), *lines]) + "\\n")
if sys.argv[1] != "fails":
    end.send(b"guarded")
    # It ends with its holder.
    while end.recv(4096):
        pass
sys.exit(3)
"""


class Holders(Case):
    """A holder whose host is this process."""

    log = os.devnull

    def setUp(self):
        self.folder = self.made_folder()
        self.pair, theirs = socket.socketpair(socket.AF_UNIX, socket.SOCK_SEQPACKET)
        self.addCleanup(self.pair.close)
        self.pair.settimeout(10)
        self.holder = subprocess.Popen([sys.executable, "-IS", str(TOOLS / "holder"), str(theirs.fileno())], pass_fds=[theirs.fileno()],
                                       env=plain_environment(), start_new_session=True, stderr=self.opened_log())
        theirs.close()
        self.addCleanup(self.holder.wait)
        self.addCleanup(self.holder.kill)

    def opened_log(self):
        """Return the file of its messages."""
        file = open(self.log, "wb")
        self.addCleanup(file.close)
        return file

    def send(self, line, ends=(), text=None):
        """Send a message."""
        if text is not None:
            ends = [os.memfd_create("text")]
            os.write(ends[0], text)
        socket.send_fds(self.pair, [line], list(ends))
        if text is not None:
            os.close(ends[0])

    def heard(self):
        """Return the next message, and its descriptors."""
        line, ends, _, _ = socket.recv_fds(self.pair, 4096, 8)
        for end in ends:
            self.addCleanup(os.close, end)
        return line.decode(), ends

    def spawn(self, name, *words, instead="", folder=""):
        """Run a command, and return its process and terminal."""
        text = [folder, instead, str(len(words)), *words, "PATH=/usr/bin:/bin", "SHELL=/bin/other"]
        self.send(f"spawn {name} 11 44".encode(), text="\0".join(text).encode())
        line, ends = self.heard()
        while line.startswith("ended"):
            line, ends = self.heard()
        word, told, process, end = line.split(" ")
        self.assertEqual((word, told, end, len(ends)), ("held", name, "runs", 2))
        return int(process), ends[0]

    def shows(self, terminal, text):
        """Return True if a program prints a text."""
        found = bytearray()

        def has_text():
            try:
                found.extend(os.read(terminal, 4096))
            except OSError:
                pass
            return text in found

        return comes(has_text)

    def hosts(self, how="stays"):
        """Give the holder the words that run hosts, and return the lines that these write."""
        path = self.folder / "hosts"
        (self.folder / "host").write_text(HOST, encoding="ascii")
        self.send(b"run %d" % os.getpid(), text="\0".join([sys.executable, str(self.folder / "host"), how, str(path)]).encode())

        def lines():
            return [line.split(";") for line in path.read_text().splitlines()] if path.exists() else []

        return lines


class Programs(Holders):
    """Its descriptors, and the programs that it forks."""

    def test_spawned(self):
        """A program has a terminal of its size, three descriptors, the given folder and environment, and default signals."""
        script = ('stty size; ls /proc/self/fd | wc -l; pwd; echo "$PWD $SHELL"; '
                  'grep -E "Sig(Blk|Ign)" /proc/self/status | grep -c "0000000000000000"; stty -a | grep -c iutf8; sleep 9')
        _, terminal = self.spawn("terminal:%1", "sh", "-c", script, folder="/usr")
        self.assertTrue(self.shows(terminal, b"11 44\r\n4\r\n/usr\r\n/usr /bin/other\r\n2\r\n1\r\n"))

    def test_not_run(self):
        """If a command can't be run the shell takes its place; both failures are printable lines."""
        _, terminal = self.spawn("terminal:%1", "/no\x1bne", instead="/bin/echo")
        self.assertTrue(self.shows(terminal, b"/no?ne: No such file or directory; this is /bin/echo\r\n"))
        _, terminal = self.spawn("terminal:%2", "/none")
        self.assertTrue(self.shows(terminal, b"/none: No such file or directory\r\n"))

    def test_ended(self):
        """The end of a program is reported with its status, and kept until the host drops it. Asked again, it starts none."""
        for number, command in ((1, "exit 3"), (2, "kill -9 $$")):
            process, _ = self.spawn(f"terminal:%{number}", "sh", "-c", command)
            status = 3 << 8 if number == 1 else 9
            self.assertEqual(self.heard()[0], f"ended terminal:%{number} {status}")
            self.send(f"spawn terminal:%{number} 1 1".encode(), text=b"\0\0001\0true")
            self.assertEqual(self.heard()[0], f"held terminal:%{number} {process} {status}")
            self.send(f"drop terminal:%{number}".encode())
        self.send(b"hello")
        self.assertEqual(self.heard()[0], f"end {self.holder.pid}")

    def test_dropped(self):
        """`drop` hangs up a program, and leaves no zombie. `close` keeps its pidfd alone."""
        for word in ("drop", "close"):
            process, terminal = self.spawn("terminal:%1", "sleep", "60")
            os.close(os.dup(terminal))
            self.send(f"{word} terminal:%1".encode())
            self.send(b"hello")
            told = self.heard()
            if word == "close":
                self.assertEqual((told[0], len(told[1])), (f"held terminal:%1 {process} runs", 1))
                told = self.heard()
            self.assertEqual(told[0], f"end {self.holder.pid}")
            os.kill(process, signal.SIGKILL)
            if word == "close":
                self.assertEqual(self.heard()[0], "ended terminal:%1 9")
            self.assertTrue(comes(lambda: not os.path.exists(f"/proc/{process}")))

    def test_malformed(self):
        """A request that can't be done fails with a reason, and ends nothing. A long text may come in a pipe."""
        self.send(b"put terminal:%1 x", [])
        self.assertEqual(self.heard()[0], "failed terminal:%1 invalid literal for int() with base 10: b'x'")
        reader, writer = os.pipe()
        os.write(writer, b"\0".join([b"", b"", b"2", b"echo", b"shown", b"PATH=/bin"]))
        os.close(writer)
        self.send(b"spawn terminal:%1 1 1", [reader])
        os.close(reader)
        self.assertTrue(self.shows(self.heard()[1][0], b"shown"))

    def test_put(self):
        """Descriptors are kept under a name, and replace others there. A program that another holder has forked has no known status."""
        readers = []
        for _ in range(2):
            reader, writer = os.pipe()
            readers.append(reader)
            self.send(b"put socket:%1 0", [writer])
            os.close(writer)
        self.assertEqual(os.read(readers[0], 1), b"")
        self.send(b"hello")
        line, ends = self.heard()
        self.assertEqual((line, len(ends)), ("held socket:%1 0 runs", 1))
        os.write(ends[0], b"x")
        self.assertEqual(os.read(readers[1], 1), b"x")
        for reader in readers:
            os.close(reader)
        self.heard()
        one = subprocess.Popen(["sleep", "60"])
        self.addCleanup(one.wait)
        self.addCleanup(one.kill)
        file = os.pidfd_open(one.pid)
        self.send(f"put terminal:%2 {one.pid}".encode(), [file])
        os.close(file)
        one.kill()
        self.assertEqual(self.heard()[0], "ended terminal:%2 unknown")

    def test_becomes(self):
        """Another build goes on in the same process with all descriptors, programs and ends. One that is not there changes nothing."""
        process, terminal = self.spawn("terminal:%1", "sh", "-c", "read a; echo got $a; read b; exit 5")
        dropped, _ = self.spawn("terminal:%2", "sh", "-c", "trap '' HUP; exec sleep 60")
        self.send(b"drop terminal:%2")
        limit = resource.prlimit(self.holder.pid, resource.RLIMIT_NOFILE)
        copy = self.folder / "holder"
        copy.write_bytes((TOOLS / "holder").read_bytes())
        for python, is_there in (("/none/python3", False), (sys.executable, True)):
            self.send(b"become holder", text=f"{python}\0-IS\0{copy}".encode())
            if not is_there:
                self.assertEqual(self.heard()[0], "failed holder [Errno 2] No such file or directory")
            self.send(b"hello")
            told, ends = self.heard()
            self.assertEqual((told, len(ends), self.heard()[0]), (f"held terminal:%1 {process} runs", 2, f"end {self.holder.pid}"))
            with open(f"/proc/{self.holder.pid}/cmdline", "rb") as file:
                self.assertEqual(str(copy).encode() in file.read(), is_there)
            self.assertEqual(resource.prlimit(self.holder.pid, resource.RLIMIT_NOFILE), limit)
        os.write(terminal, b"x\n")
        self.assertTrue(self.shows(terminal, b"got x"))
        self.spawn("terminal:%3", "cat")
        os.kill(dropped, signal.SIGKILL)
        self.assertTrue(comes(lambda: not os.path.exists(f"/proc/{dropped}")))
        os.write(terminal, b"y\n")
        self.assertEqual(self.heard()[0], f"ended terminal:%1 {5 << 8}")
        # Three standard ones, the pair, two programs, and two in reserve.
        self.assertEqual(len(os.listdir(f"/proc/{self.holder.pid}/fd")), 3 + 1 + 2 * 2 + 2)

    def test_few_descriptors(self):
        """Without a free descriptor a request fails with the reason, and all else stays."""
        process, terminal = self.spawn("terminal:%1", "cat")
        used = {int(name) for name in os.listdir(f"/proc/{self.holder.pid}/fd")}
        resource.prlimit(self.holder.pid, resource.RLIMIT_NOFILE, (next(one for one in range(99) if one not in used), 1024))
        end = os.memfd_create("put")
        self.addCleanup(os.close, end)
        self.send(b"put socket:%1 0", [end])
        self.assertEqual(self.heard()[0], "failed socket:%1 Too many open files")
        self.send(b"spawn terminal:%2 1 1", text=b"\0\0001\0true")
        self.assertEqual(self.heard()[0], "failed terminal:%2 Too many open files")
        os.write(terminal, b"still\n")
        self.assertTrue(self.shows(terminal, b"still"))
        self.assertTrue(os.path.exists(f"/proc/{process}"))


class Hosts(Holders):
    """The hosts that it starts."""

    def test_killed(self):
        """After a host another one is started, with everything; SIGKILL doesn't count as a failure of it."""
        lines = self.hosts()
        process, _ = self.spawn("terminal:%1", "cat")
        self.pair.close()
        for count in range(1, 6):
            self.assertTrue(comes(lambda count=count: len(lines()) == count), lines)
            more, host, *told = lines()[-1]
            self.assertEqual((more, told), ("", [f"held terminal:%1 {process} runs 2", f"end {self.holder.pid} 0"]))
            time.sleep(0.05)
            os.kill(int(host), signal.SIGKILL)

    def test_full_log(self):
        """A log that can't be written, as on a full disk, ends nothing."""
        self.holder.kill()
        self.holder.wait()
        self.log = "/dev/full"
        self.setUp()
        self.test_killed()

    def test_no_descriptor(self):
        """Another host is started even if this process has no free descriptor."""
        lines = self.hosts()
        process, _ = self.spawn("terminal:%1", "cat")
        used = {int(name) for name in os.listdir(f"/proc/{self.holder.pid}/fd")}
        hard = resource.prlimit(self.holder.pid, resource.RLIMIT_NOFILE)[1]
        resource.prlimit(self.holder.pid, resource.RLIMIT_NOFILE, (next(one for one in range(99) if one not in used), hard))
        self.send(b"spawn terminal:%2 1 1", text=b"\0\0001\0true")
        self.assertEqual(self.heard()[0], "failed terminal:%2 Too many open files")
        self.pair.close()
        for count in (1, 2):
            self.assertTrue(comes(lambda count=count: len(lines()) == count), lines)
            self.assertEqual(lines()[-1][2:], [f"held terminal:%1 {process} runs 2", f"end {self.holder.pid} 0"])
            time.sleep(0.05)
            os.kill(int(lines()[-1][1]), signal.SIGKILL)

    def test_fails(self):
        """After three failures the next host gets no state. A holder without programs doesn't start a host that always fails."""
        lines = self.hosts("fails")
        self.spawn("terminal:%1", "cat")
        self.pair.close()
        self.assertTrue(comes(lambda: len(lines()) >= 4), lines)
        self.assertEqual([line[0] for line in lines()[:4]], ["", "", "", "bare"])
        program = int(lines()[-1][2].split()[2])
        os.kill(program, signal.SIGKILL)
        self.assertEqual(self.holder.wait(20), 1)

    def test_ends(self):
        """`bye` ends it, and a signal goes to the host; without a host it ends at once."""
        self.send(b"bye")
        self.assertEqual(self.holder.wait(10), 0)

    def test_signal(self):
        """SIGTERM and SIGHUP are passed on to the host, which ends the session."""
        lines = self.hosts()
        self.spawn("terminal:%1", "cat")
        self.pair.close()
        comes(lambda: len(lines()) == 1)
        host = int(lines()[0][1])
        self.holder.send_signal(signal.SIGHUP)
        # This one has no handler yet, so another one follows it.
        self.assertTrue(comes(lambda: len(lines()) == 2 and not os.path.exists(f"/proc/{host}")), lines)

    def test_nothing(self):
        """A holder whose host ends before it has said how to run one ends too."""
        self.pair.close()
        self.assertEqual(self.holder.wait(10), 1)
