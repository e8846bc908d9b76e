"""`roam tmux`: tmux's command line over roam's sessions, with tmux's messages and statuses."""
from __future__ import annotations

import os
import sys

from roam_live.cli.tmux.context import NO_SERVER, NO_SOCKET, Context, Failed
from roam_live.cli.tmux.name_space import NameSpace, socket_path
from roam_live.cli.tmux.variables import VERSION
from roam_live.commands.flags import BadCommand, parted
from roam_live.commands.table import read_command
from roam_live.common.errors import Fault
from roam_live.common.files import is_own_folder
from roam_live.common.process import TOOLS
from roam_live.common.suppress import suppress
from roam_live.common.text import printable
from roam_live.session.names import NAME_SPACES, base

TYPE_CHECKING = False
if TYPE_CHECKING:
    from collections.abc import Sequence

USAGE = """usage: tmux [-2CDlNuvV] [-c shell-command] [-f file] [-L socket-name]
            [-S socket-path] [-T features] [command [flags]]"""
VALUED, BARE = "cfLST", "2CDdlNquUvV"

# The commands that tmux starts a server for.
STARTERS = ("new-session", "start-server", "attach-session", "list-commands", "list-keys")
# The commands of a file that -f names which have an effect.
SETTING = ("set-option", "set-window-option", "set-environment", "set-hook")
CONTROL_MODE = "tmux: roam does not support control mode (-C)"

# The option of `roam tmux-path`, and the folder beside the name spaces in which a script finds a program named tmux, which is this tool.
PATH_ASKED, LINKED = "--tmux-path", "path"


class Usage(Exception):
    """A command line that tmux does not accept, with its message if it has one."""


class Options:
    """The options before the commands."""

    def __init__(self, words: Sequence[str]) -> None:
        self.found: dict[str, str] = {}
        rest = list(words)
        while rest and len(rest[0]) > 1 and rest[0][0] == "-":
            word = rest.pop(0)
            if word == "--":
                break
            for place, letter in enumerate(word[1:], 2):
                if letter in VALUED:
                    if not word[place:] and not rest:
                        raise Usage(f"tmux: option requires an argument -- {letter}")
                    self.found[letter] = word[place:] or rest.pop(0)
                    break
                if letter not in BARE:
                    raise Usage(f"tmux: unknown option -- {printable(letter)}")
                self.found[letter] = ""
        self.words = rest


def main(words: Sequence[str]) -> int:
    """Run the commands of a command line, and return the status as tmux does."""
    if words == [PATH_ASKED]:
        print(linked_folder())
        return 0
    try:
        asked = Options(words)
    except Usage as fault:
        print(f"{fault}\n{USAGE}", file=sys.stderr)
        return 1
    if "V" in asked.found:
        print(f"tmux {VERSION}")
        return 0
    if "C" in asked.found:
        print(CONTROL_MODE, file=sys.stderr)
        return 1
    return called(asked)


def called(asked: Options) -> int:
    """Run commands in the name space of the options."""
    try:
        space = NameSpace(socket_path(asked.found.get("L", ""), asked.found.get("S", "") or inherited(asked)))
        space.enter()
        context = Context(space)
        run(context, asked.words or ["new-session"], asked.found.get("f", ""))
        sys.stdout.flush()
        return 0
    except Failed as ended:
        sys.stdout.flush()
        return ended.status
    except (BadCommand, Fault) as fault:
        sys.stdout.flush()
        sys.stderr.buffer.write(f"{shown(str(fault))}\n".encode("utf-8", "surrogateescape"))
        return 1


def shown(text: str) -> str:
    """Return a message without controls; bytes that are no text stay as they were typed."""
    return "".join(letter if letter.isprintable() or "\udc80" <= letter <= "\udcff" else "?" for letter in text)


def linked_folder() -> str:
    """Make the folder with the link named tmux, which nobody else can write, and return its path."""
    folder = os.path.join(base(), NAME_SPACES, LINKED)
    for path in (os.path.dirname(folder), folder):
        with suppress(FileExistsError):
            os.mkdir(path, 0o700)
        if not is_own_folder(path) or os.stat(path).st_mode & 0o022:
            raise Fault(f"{path}: other users may write there")
    link, new = os.path.join(folder, "tmux"), os.path.join(folder, f"tmux.{os.getpid()}")
    os.symlink(TOOLS / "tmux", new)
    os.replace(new, link)
    return folder


def inherited(asked: Options) -> str:
    """Return the socket of the name space in whose pane this runs, unless another one is named."""
    if "L" in asked.found:
        return ""
    folder = os.environ.get("ROAM_PANE", "").rpartition(":")[0]
    place = os.path.join(os.path.dirname(os.path.dirname(os.path.dirname(folder))), "socket") if folder else ""
    try:
        with open(place, encoding="utf-8", errors="surrogateescape") as file:
            return file.read(4096)
    except OSError:
        return ""


def run(context: Context, words: Sequence[str], file: str = "") -> None:
    """Run a command line, before a first session the options in a file. As in tmux, an invalid command is reported only if a server runs,
    and nothing is done then.
    """
    why: BadCommand | None = None
    commands = []
    try:
        commands = [read_command(command) for command in parted(words)]
    except BadCommand as fault:
        why = fault
    starts = any(command.names[0] in STARTERS for command, _ in commands)
    if not starts and not context.is_served():
        raise BadCommand((NO_SERVER if context.space.is_known() else NO_SOCKET).format(context.space.path))
    if why:
        raise why
    if starts and not context.is_served():
        context.space.reset()
        context.changed()
        configure(context, file)
    context.run(commands)


def configure(context: Context, file: str) -> None:
    """Set the options and variables in a settings file. As in tmux, a missing file or an invalid command in it stops nothing."""
    from roam_live.cli.tmux.shell_commands import words_of_file

    found: list[list[str]] = []
    with suppress(BadCommand):
        found = words_of_file(file) if file else []
    for words in found:
        with suppress(BadCommand):
            command = read_command(words)
            if command[0].names[0] in SETTING:
                context.run([command])
