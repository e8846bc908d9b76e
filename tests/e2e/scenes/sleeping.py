"""Client processes without viewers, and silent connections."""
import contextlib
import pathlib
import socket
import time

from tried import WAIT, check, comes, noted, outside_gate, said, scene, terminals_of

# Seconds without a terminal after which a client process sleeps, and after which its server has forgotten it.
SLEEPS = 4.0
FORGOTTEN = 64.0

# Connections that fill a client process, and seconds for each one's first line.
MOST = 16
FIRST_LINE = 10.0

# Seconds in which wakeups of a session without terminals are counted.
COUNTED = 20.0


def wakeups(processes):
    """Return how often these processes have voluntarily given up a processor."""
    count = 0
    for process in processes:
        text = pathlib.Path(f"/proc/{process}/status").read_text(encoding="utf-8")
        count += int(text.partition("\nvoluntary_ctxt_switches:")[2].split()[0])
    return count


def type_line(session, line):
    """Type a line into a session's shell."""
    said("send", session, line, "Enter")


@scene
@outside_gate("a client process sleeps after seconds and is forgotten after a minute")
def slept(folder):
    """A window without a viewer costs nothing, and shows the newest screen to a new one."""
    said("new", "-d", "asleep")
    type_line("asleep", "(sleep 8; echo ne''ws) &")
    time.sleep(SLEEPS + 6)
    check("what was printed while the client process slept is captured", comes(lambda: "news" in said("capture", "asleep")[1], 2.0),
          lambda: said("capture", "asleep")[1])
    type_line("asleep", "(sleep 66; echo la''ter) &")
    time.sleep(FORGOTTEN)
    processes = [noted("asleep")[role][0] for role in ("server", "client", "host")]
    before = wakeups(processes)
    time.sleep(1.5)
    check("a session without terminals wakes at most for its programs", wakeups(processes) - before <= 3, wakeups(processes) - before)
    time.sleep(4)
    begun = time.monotonic()
    text = said("capture", "asleep")[1]
    check("and the first capture has the newest screen", "later" in text, text)
    check("soon", time.monotonic() - begun < 2, time.monotonic() - begun)
    said("kill", "-f", "asleep")


@scene
def idle_terminals(folder):
    """Silent connections keep nobody out for long."""
    said("new", "-d", "idle")
    with contextlib.ExitStack() as peers:
        for _ in range(MOST):
            peer = peers.enter_context(socket.socket(socket.AF_UNIX))
            peer.connect(str(terminals_of("idle")))
        check("somebody else gets in once they had their time", comes(lambda: said("capture", "idle")[0] == 0, FIRST_LINE + WAIT),
              lambda: said("capture", "idle"))
    said("kill", "-f", "idle")
