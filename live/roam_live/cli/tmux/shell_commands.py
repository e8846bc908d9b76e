"""Commands that run shell commands or other commands, and those that wait."""
from __future__ import annotations

import fcntl
import hashlib
import os
import select
import signal
import socket
import subprocess
import time

from roam_live.cli.tmux.context import Context, Failed
from roam_live.commands.flags import BadCommand
from roam_live.commands.formats import is_true
from roam_live.commands.table import read_command
from roam_live.common.errors import reason
from roam_live.common.suppress import suppress
from roam_live.common.text import printable

TYPE_CHECKING = False
if TYPE_CHECKING:
    from roam_live.cli.tmux.name_space import NameSpace
    from roam_live.commands.flags import Flags

# Seconds and bytes of a command in a format; and the most bytes of a file of commands.
JOB_SECONDS, JOB_BYTES, MOST_FILE = 5.0, 1024, 1 << 20


def shell_words(command: str) -> list[str]:
    """Return the words that run a shell command."""
    return ["/bin/sh", "-c", command]


def last_line(command: str) -> str:
    """Return the last line that a shell command prints within its limits. Its process group ends then."""
    try:
        job = subprocess.Popen(shell_words(command), stdin=subprocess.DEVNULL, stdout=subprocess.PIPE, stderr=subprocess.DEVNULL,
                               start_new_session=True)
    except OSError:
        return ""
    assert job.stdout
    output, end = b"", time.monotonic() + JOB_SECONDS
    while len(output) < JOB_BYTES and select.select([job.stdout], [], [], max(0.0, end - time.monotonic()))[0]:
        chunk = os.read(job.stdout.fileno(), JOB_BYTES - len(output))
        if not chunk:
            break
        output += chunk
    with suppress(OSError):
        os.killpg(job.pid, signal.SIGKILL)
    job.stdout.close()
    job.wait()
    lines = output.decode("utf-8", "replace").rstrip("\n").split("\n")
    return printable(lines[-1])


def run_shell(context: Context, flags: Flags) -> int:
    """Run a shell command, or start it in the background, without its output. With -C, run commands of tmux."""
    delay = flags.value("d")
    if delay is not None:
        try:
            seconds = float(delay)
        except ValueError:
            raise BadCommand(f"invalid delay time: {delay}") from None
        time.sleep(min(max(seconds, 0.0), 86400.0))
    if not flags.words:
        return 0
    found = context.target(flags, "pane") if context.model().sessions else None
    if flags.has("C"):
        run_text(context, flags.words[0])
        return 0
    command = context.expand(flags.words[0], found, is_shell=True) if found else flags.words[0]
    if flags.has("b"):
        subprocess.Popen(shell_words(command), stdin=subprocess.DEVNULL, stdout=subprocess.DEVNULL, stderr=subprocess.DEVNULL,
                         start_new_session=True)
        return 0
    # tmux shows the output in the pane, in a mode that roam lacks, and prints nothing.
    ran = subprocess.run(shell_words(command), stdin=subprocess.DEVNULL, stdout=subprocess.DEVNULL, stderr=subprocess.DEVNULL, check=False)
    context.changed()
    status = ran.returncode if ran.returncode >= 0 else 128 - ran.returncode
    if status:
        raise Failed(status)
    return 0


def if_shell(context: Context, flags: Flags) -> int:
    """Run one of two commands, by the status of a shell command or by the value of a format."""
    found = context.target(flags, "pane")
    if flags.has("F"):
        holds = is_true(context.expand(flags.words[0], found))
    else:
        command = context.expand(flags.words[0], found, is_shell=True)
        ran = subprocess.run(shell_words(command), stdin=subprocess.DEVNULL, stdout=subprocess.DEVNULL, stderr=subprocess.DEVNULL,
                             check=False)
        holds = ran.returncode == 0
    chosen = flags.words[1:2] if holds else flags.words[2:3]
    before, context.place = context.place, found
    try:
        for text in chosen:
            run_text(context, text)
    finally:
        context.place = before
    return 0


def run_text(context: Context, text: str) -> None:
    """Run the commands in a text, as in a settings file, once all of them are valid."""
    context.run([read_command(words) for words in words_in(text)])


def words_in(text: str, environment: dict[str, str] | None = None) -> list[list[str]]:
    """Return the commands in a text, each as its words. A block in braces is the text of a command's argument."""
    from roam_live.config.parser import Block, FileCommand, SettingsReader

    def told(word: object) -> str:
        return " ; ".join(" ".join(map(quoted, one.words)) for one in word.commands) if isinstance(word, Block) else str(word)

    def quoted(word: object) -> str:
        text = told(word)
        return "'" + text.replace("'", "'\\''") + "'"

    def refuse(line: int, why: str) -> None:
        raise BadCommand(why)

    found: list[FileCommand] = list(SettingsReader(text, {**os.environ, **(environment or {})}, refuse).commands())
    return [[told(word) for word in one.words] for one in found if one.words and not one.is_condition]


def words_of_file(path: str) -> list[list[str]]:
    """Return the commands of a file, each as its words; BadCommand if it can't be read."""
    try:
        with open(path, encoding="utf-8", errors="replace") as file:
            return words_in(file.read(MOST_FILE))
    except OSError as fault:
        raise BadCommand(f"{path}: {reason(fault)}") from None


def source(context: Context, flags: Flags) -> int:
    """Run the commands of files."""
    for path in flags.words:
        path = os.path.expanduser(path)
        if flags.has("q") and not os.path.exists(path):
            continue
        commands = [read_command(words) for words in words_of_file(path)]
        if not flags.has("n"):
            context.run(commands)
    return 0


# ---- channels


class Channel:
    """A channel of wait-for: a file that marks a wake-up without a waiter, one that is locked, and a socket for each waiter."""

    def __init__(self, space: NameSpace, name: str) -> None:
        space.make()
        number = hashlib.sha256(os.fsencode(name)).hexdigest()[:12]
        self.folder = os.path.join(space.folder, "channels", number)
        os.makedirs(self.folder, 0o700, exist_ok=True)
        self.woken, self.held = os.path.join(self.folder, "woken"), os.path.join(self.folder, "held")

    def turn(self) -> int:
        """Lock the channel's folder, and return the descriptor that holds the lock."""
        end = os.open(self.folder, os.O_RDONLY | os.O_DIRECTORY | os.O_CLOEXEC)
        fcntl.flock(end, fcntl.LOCK_EX)
        return end

    def wait(self) -> None:
        """Wait for a wake-up, unless one came already."""
        path = os.path.join(self.folder, str(os.getpid()))
        turn = self.turn()
        try:
            if os.path.exists(self.woken):
                os.unlink(self.woken)
                return
            waiter = socket.socket(socket.AF_UNIX, socket.SOCK_DGRAM)
            with suppress(OSError):
                os.unlink(path)
            waiter.bind(path)
        finally:
            os.close(turn)
        try:
            waiter.recv(1)
        finally:
            waiter.close()
            with suppress(OSError):
                os.unlink(path)

    def wake(self) -> None:
        """Wake all waiters, or mark that the next one need not wait."""
        turn = self.turn()
        try:
            woken = 0
            for name in filter(str.isdigit, os.listdir(self.folder)):
                path = os.path.join(self.folder, name)
                with suppress(OSError), socket.socket(socket.AF_UNIX, socket.SOCK_DGRAM) as peer:
                    peer.connect(path)
                    peer.send(b"1")
                    woken += 1
                with suppress(OSError):
                    os.unlink(path)
            if not woken:
                with open(self.woken, "wb"):
                    pass
        finally:
            os.close(turn)

    def lock(self) -> None:
        """Lock the channel once nobody else has locked it."""
        while True:
            turn = self.turn()
            try:
                os.close(os.open(self.held, os.O_CREAT | os.O_EXCL | os.O_WRONLY, 0o600))
                return
            except FileExistsError:
                pass
            finally:
                os.close(turn)
            time.sleep(0.02)

    def unlock(self, name: str) -> None:
        """Unlock the channel."""
        try:
            os.unlink(self.held)
        except OSError:
            raise BadCommand(f"channel {name} not locked") from None


def wait_for(context: Context, flags: Flags) -> int:
    """Wait for a channel, wake its waiters (-S), lock it (-L) or unlock it (-U)."""
    name = flags.words[0]
    channel = Channel(context.space, name)
    if flags.has("S"):
        channel.wake()
    elif flags.has("L"):
        channel.lock()
    elif flags.has("U"):
        channel.unlock(name)
    else:
        channel.wait()
    context.changed()
    return 0
