"""The commands of `mux`: the function of each, its help, and its arguments."""
from __future__ import annotations

import roam_bundle

from roam_live.config.environment import PREDICTION

TYPE_CHECKING = False
if TYPE_CHECKING:
    from collections.abc import Callable
    from typing import Any

    from roam_live.cli.args import Asked

    # An argument of a command: its names, and argparse's named parameters, of many types.
    Argument = tuple[tuple[str, ...], dict[str, Any]]


class PlainWords:
    """The arguments of words that need no parser: a value for each, in the form of `argparse.Namespace`."""

    def __init__(self, values: dict[str, object]) -> None:
        self.__dict__.update(values)

    if TYPE_CHECKING:
        name: str

        def __getattr__(self, name: str) -> Any:
            """Return the value of an argument."""


class Word:
    """A command of mux: the module of `roam_live.cli` and the function there, its help, and its arguments in argparse's form."""

    def __init__(self, function: str, tells: str, arguments: tuple[Argument, ...] = ()) -> None:
        self.function, self.tells, self.arguments = function, tells, arguments

    def does(self, asked: Asked) -> int:
        """Run the command, and return its status. Import only the modules that it needs."""
        module, _, name = self.function.partition(".")
        roam_bundle.load(module)
        does: Callable[[Asked], int] = getattr(__import__(f"roam_live.cli.{module}", fromlist=(name,)), name)
        return does(asked)


def sentence(text: str) -> str:
    """Return a text of a table as a sentence."""
    return f"{text[0].upper()}{text[1:]}."


def argument(*names: str, **more: Any) -> Argument:
    """Return an argument of a command."""
    return names, more


# All remaining arguments, in argparse's notation.
REST = "..."
ONE = argument("name", metavar="NAME")
# In a pane the default session is the pane's own.
ONE_OR_OWN = argument("name", metavar="NAME", nargs="?", default="")
ONE_OR_PANE = argument("name", metavar="NAME[:K][.P]")
PANE_OR_OWN = argument("name", metavar="NAME[:K][.P]", nargs="?", default="")
ONE_OR_MAIN = argument("name", metavar="NAME", nargs="?", default="main")
STYLED = argument("-e", dest="has_styles", action="store_true", help="include styles, as SGR sequences")
JOINED = argument("-J", dest="is_joined", action="store_true", help="join soft-wrapped rows into one line")
PREDICT = argument("--predict", choices=PREDICTION, metavar="WHEN",
                   help="when to show predictions of keys: adaptive, always, never")
LISTS = Word("all_sessions.list_sessions", "list the sessions")

WORDS = {
    "attach": Word("attaching.attach", "attach to a running session, main if none is named", (
        argument("-d", dest="is_alone", action="store_true", help="detach all other terminals first"),
        PREDICT,
        ONE_OR_MAIN,
    )),
    "new": Word("attaching.new", "start a session that is not running, main if none is named, and attach to it", (
        argument("-d", dest="is_detached", action="store_true", help="start no front end; options precede NAME"),
        PREDICT,
        ONE_OR_MAIN,
        argument("command", metavar="COMMAND", nargs=REST, help="the command to run in each pane instead of the shell"),
    )),
    "detach": Word("attaching.refuse_detach", "refused; press the prefix and d in the front end", (ONE_OR_MAIN,)),
    "ls": LISTS,
    "list": LISTS,
    "list-windows": Word("asking.list_windows", "list the windows of a session", (
        ONE_OR_OWN,
    )),
    "new-window": Word("asking.new_window", "open a window in a running session, and print its name", (
        argument("-n", dest="title", metavar="TITLE", help="the name of the window"),
        ONE_OR_OWN,
    )),
    "rename-window": Word("asking.rename_window", "name a window, or remove its name if no title is given", (
        argument("name", metavar="NAME:K", help="the window; : is that of this pane"),
        argument("title", metavar="TITLE", nargs="?", default="", help="the name, at most 64 characters"),
    )),
    "clients": Word("asking.list_clients", "list the terminals at a session", (ONE_OR_OWN,)),
    "watch": Word("attaching.watch", "show a session without typing there", (ONE,)),
    "kill": Word("ending.kill", "end a session, a window or a pane, and the programs in it", (
        argument("-f", dest="is_forced", action="store_true", help="do not ask"),
        PANE_OR_OWN,
    )),
    "send": Word("asking.send", "type keys and text into a session or a pane", (
        argument("-l", dest="is_plain", action="store_true", help="type the characters of all words"),
        argument("-a", dest="has_acts", action="store_true", help="the words are acts, such as 'char 61' or 'split right', or keys"),
        ONE_OR_PANE,
        argument("words", metavar="WORD", nargs=REST, help="a key such as C-c or Enter, or text; put -- before a word -l or -a"),
    )),
    "paste": Word("asking.paste", "paste standard input into a session or a pane, in one piece", (
        argument("--raw", dest="is_raw", action="store_true", help="keep escape characters"),
        PANE_OR_OWN,
    )),
    "capture": Word("asking.capture", "print the rows that a session or a pane shows, or rows of its scrollback", (
        argument("--svg", dest="is_drawn", action="store_true", help="print a picture in SVG"),
        argument("-S", dest="begin", metavar="ROW", help="the first row: 0 is the first of the screen, -1 the last above it, - the oldest"),
        argument("-E", dest="end", metavar="ROW", help="the last row; - is the last of the screen"),
        STYLED,
        JOINED,
        PANE_OR_OWN,
    )),
    "log": Word("asking.log", "print each row of a pane as it scrolls off, until the pane ends", (STYLED, JOINED, PANE_OR_OWN)),
    "buffer": Word("asking.keep_texts", "list, print, set or paste the paste buffers of a session", (
        argument("does", metavar="list|show|set|paste", choices=("list", "show", "set", "paste"), help="the action"),
        PANE_OR_OWN,
        argument("what", metavar="N|TEXT", nargs="?", default=None, help="the number of a buffer, or a text to set"),
    )),
    "env": Word("asking.print_environment", "print shell commands that set the environment of the last attach", (ONE_OR_OWN,)),
    "cmd": Word("asking.command", "run a tmux command in a session, such as split-window -h", (
        ONE_OR_PANE,
        argument("words", metavar="COMMAND", nargs=REST, help="the command and its arguments"),
    )),
    "upgrade": Word("upgrade.upgrade", "have a session go on with this build of roam, or list those that run another one", (
        argument("--all", dest="is_all", action="store_true", help="all sessions of this machine"),
        argument("name", metavar="NAME", nargs="?", default="", help="the session"),
    )),
    "settings": Word("all_sessions.print_settings", "print the path of the settings file, and each line of it that has no effect", ()),
    "ssh": Word("attaching.enter_far", "attach to a session on another machine over ssh", (
        argument("--ssh", metavar="COMMAND", default="ssh", help="the command that runs ssh here"),
        argument("--far", metavar="COMMAND", default="roam-mux", help="the command that runs roam-mux there"),
        PREDICT,
        argument("host", metavar="HOST", help="the other machine; options before it, such as -p 2222, are for ssh"),
        ONE_OR_MAIN,
    )),
    "far": Word("attaching.carry", "carry a session over standard input and output for mux ssh on another machine", (ONE,)),
    "help": Word("mux.explain", "explain all commands, or one of them", (argument("word", metavar="WORD", nargs="?", default=None),)),
}
