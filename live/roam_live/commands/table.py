"""The table of commands: names, flags, kind of target, place and effect. Keys, the settings file, `mux cmd` and `roam tmux` read it."""
from __future__ import annotations

from roam_live.commands.flags import BadCommand, Flags
from roam_live.commands.wishes import (CommandWish, begun, bound, by_flag, keys_sent, listed, pane_of, sized, split_sizes_of, texted,
                                       window_of, wish)
from roam_live.common.named_fields import NamedFields
from roam_live.common.text import printable

TYPE_CHECKING = False
if TYPE_CHECKING:
    from collections.abc import Callable

# The place where a command runs: at one terminal, in one session, or for all sessions of a name space.
FRONT, SESSION, ALL = "terminal", "session", "sessions"


class TmuxCommand(NamedFields):
    """A command: its names, the one that tmux prints first; its flags in getopt's form, and the least and most words, -1 for no limit.

    `target` is the kind of thing that its flag -t names, and `where` the place where it runs. `effect` is the function of `roam tmux`, as a
    module of `roam_live.cli.tmux` and a name there; nothing for a command that roam lacks. `mux` names the equivalent of `mux`, or a key.
    `front` has the flags that work at a terminal, and `reads` returns its request to the front end; None for a command that has none.
    """

    names: tuple[str, ...]
    flags: str
    words: tuple[int, int]
    target: str
    where: str
    effect: str
    help: str
    mux: str = ""
    front: str = ""
    reads: Callable[[Flags], CommandWish] | None = None


# All commands of tmux 3.3a, and roam's own. At a terminal, a flag that asks for roam's usual behaviour is ignored; any other that isn't in
# `front` is refused, since it would refer to another pane.
TABLE = (
    TmuxCommand(("attach-session", "attach"), "c:dEf:rt:x", (0, 0), "session", ALL, "sessions.attach",
                "attach to a session", "mux attach NAME"),
    TmuxCommand(("bind-key", "bind"), "nrN:T:", (1, -1), "", FRONT, "",
                "bind a key at this terminal, until the settings file is read again", "bind in roam.conf", "nrT:N:", bound),
    TmuxCommand(("break-pane", "breakp"), "abdPF:n:s:t:", (0, 0), "pane", SESSION, "", "move a pane to a window of its own"),
    TmuxCommand(("capture-pane", "capturep"), "ab:CeE:JNpPqS:t:", (0, 0), "pane", SESSION, "panes.capture",
                "print rows of a pane, or store them as a buffer", "mux capture NAME"),
    TmuxCommand(("choose-buffer",), "F:f:GK:NO:rst:wZ", (0, 1), "pane", FRONT, "", "choose a buffer to paste", "C-b =", "Z",
                wish("choose")),
    TmuxCommand(("choose-client",), "F:f:GK:NO:rst:wZ", (0, 1), "pane", FRONT, "", "choose a terminal", "mux clients NAME"),
    TmuxCommand(("choose-tree",), "F:f:GK:NO:rst:wZ", (0, 1), "pane", FRONT, "", "choose a window from a list", "C-b w", "swZG", listed),
    TmuxCommand(("clear-history", "clearhist"), "t:", (0, 0), "pane", SESSION, "", "remove the stored rows of a pane"),
    TmuxCommand(("clear-prompt-history", "clearphist"), "T:", (0, 0), "", FRONT, "", "forget the typed commands"),
    TmuxCommand(("clock-mode",), "t:", (0, 0), "pane", FRONT, "", "show a clock"),
    TmuxCommand(("command-prompt",), "1bFkiI:Np:t:T:", (0, 1), "client", FRONT, "", "ask for a command", "C-b :", "", wish("command line")),
    TmuxCommand(("confirm-before", "confirm"), "bp:t:", (1, 1), "client", FRONT, "", "ask before a command"),
    TmuxCommand(("copy-mode",), "eHMs:t:uq", (0, 0), "pane", FRONT, "",
                "enter copy mode, one page up (-u), or with a search (-s)", "C-b [", "ues",
                by_flag({"u": "copy page", "s": "copy search"}, "copy")),
    TmuxCommand(("customize-mode",), "F:f:Nt:Z", (0, 0), "pane", FRONT, "", "browse the options"),
    TmuxCommand(("delete-buffer", "deleteb"), "b:", (0, 0), "", ALL, "buffers.delete", "remove a buffer"),
    TmuxCommand(("detach-client", "detach"), "aE:s:t:P", (0, 0), "client", ALL, "sessions.detach",
                "detach this terminal, or all others (-a)", "C-b d", "a", by_flag({"a": "leave others"}, "detach")),
    TmuxCommand(("display-menu", "menu"), "c:t:OT:x:y:", (1, -1), "pane", FRONT, "", "show a menu"),
    TmuxCommand(("display-message", "display"), "ac:d:INpt:F:v", (0, 1), "pane", SESSION, "shows.message",
                "show a text in the last row, with the formats of status-left", "C-b : display-message", "p", texted("tell")),
    TmuxCommand(("display-popup", "popup"), "Bb:Cc:d:e:Eh:s:S:t:T:w:x:y:", (0, -1), "pane", FRONT, "", "show a program above the panes"),
    TmuxCommand(("display-panes", "displayp"), "bd:Nt:", (0, 1), "client", FRONT, "",
                "go to a pane, by its number", "C-b q", "b", wish("panes")),
    TmuxCommand(("find-window", "findw"), "CiNrt:TZ", (1, 1), "pane", FRONT, "", "find a window by its text"),
    TmuxCommand(("has-session", "has"), "t:", (0, 0), "session", ALL, "sessions.has", "succeed if a session exists", "mux ls"),
    TmuxCommand(("if-shell", "if"), "bFt:", (2, 3), "pane", SESSION, "shell_commands.if_shell",
                "run a command if a shell command succeeds"),
    TmuxCommand(("join-pane", "joinp"), "bdfhvp:l:s:t:", (0, 0), "pane", SESSION, "", "move a pane into another window"),
    TmuxCommand(("kill-pane", "killp"), "at:", (0, 0), "pane", SESSION, "panes.kill", "close the pane", "mux kill NAME.P", "",
                wish("close")),
    TmuxCommand(("kill-server",), "", (0, 0), "", ALL, "sessions.kill_server", "end all sessions of this name space", "mux kill NAME"),
    TmuxCommand(("kill-session",), "aCt:", (0, 0), "session", ALL, "sessions.kill", "end a session", "mux kill NAME"),
    TmuxCommand(("kill-window", "killw"), "at:", (0, 0), "window", SESSION, "windows.kill",
                "close the window", "mux kill NAME:K", "", wish("window shut")),
    TmuxCommand(("last-pane", "lastp"), "det:Z", (0, 0), "window", SESSION, "panes.last",
                "go to the previously active pane", "C-b ;", "", wish("last")),
    TmuxCommand(("last-window", "last"), "t:", (0, 0), "session", SESSION, "windows.last",
                "go to the last window", "C-b l", "", wish("go last")),
    TmuxCommand(("link-window", "linkw"), "abdks:t:", (0, 0), "window", ALL, "", "show a window in two sessions"),
    TmuxCommand(("list-buffers", "lsb"), "F:f:", (0, 0), "", ALL, "buffers.list_all", "list the buffers", "mux buffer list NAME"),
    TmuxCommand(("list-clients", "lsc"), "F:t:", (0, 0), "session", ALL, "shows.list_clients", "list the terminals", "mux clients NAME"),
    TmuxCommand(("list-commands", "lscm"), "F:", (0, 1), "", ALL, "shows.list_commands", "list the commands", "mux help"),
    TmuxCommand(("list-keys", "lsk"), "1aNP:T:", (0, 1), "", FRONT, "", "list the keys", "C-b ?", "N", wish("help")),
    TmuxCommand(("list-panes", "lsp"), "asF:f:t:", (0, 0), "window", ALL, "shows.list_panes", "list the panes"),
    TmuxCommand(("list-sessions", "ls"), "F:f:", (0, 0), "", ALL, "shows.list_sessions", "list the sessions", "mux ls"),
    TmuxCommand(("list-windows", "lsw"), "aF:f:t:", (0, 0), "session", ALL, "shows.list_windows",
                "list the windows", "mux list-windows NAME"),
    TmuxCommand(("load-buffer", "loadb"), "b:t:w", (1, 1), "", ALL, "buffers.load",
                "read a buffer from a file", "mux buffer set NAME < FILE"),
    TmuxCommand(("lock-client", "lockc"), "t:", (0, 0), "client", FRONT, "", "lock a terminal"),
    TmuxCommand(("lock-server", "lock"), "", (0, 0), "", ALL, "", "lock all terminals"),
    TmuxCommand(("lock-session", "locks"), "t:", (0, 0), "session", ALL, "", "lock the terminals of a session"),
    TmuxCommand(("move-pane", "movep"), "bdfhvp:l:s:t:", (0, 0), "pane", SESSION, "", "move a pane into another window"),
    TmuxCommand(("move-window", "movew"), "abdkrs:t:", (0, 0), "window", SESSION, "windows.move", "give a window another index"),
    TmuxCommand(("new-session", "new"), "Ac:dDe:EF:f:n:Ps:t:x:Xy:", (0, -1), "", ALL, "sessions.new", "start a session", "mux new NAME"),
    TmuxCommand(("new-window", "neww"), "abc:de:F:kn:PSt:", (0, -1), "window", SESSION, "windows.new",
                "open a window, with a command, a directory (-c) and a name (-n) if given", "mux new-window NAME", "c:dn:",
                begun({}, "window new")),
    TmuxCommand(("next-layout", "nextl"), "t:", (0, 0), "window", SESSION, "",
                "divide the space evenly", "C-b Space", "Enop", split_sizes_of),
    TmuxCommand(("next-window", "next"), "at:", (0, 0), "session", SESSION, "windows.next_one",
                "go to the next window", "C-b n", "", wish("go next")),
    TmuxCommand(("paste-buffer", "pasteb"), "db:prs:t:", (0, 0), "pane", SESSION, "buffers.paste",
                "paste the newest buffer", "mux buffer paste NAME", "p", wish("paste")),
    TmuxCommand(("pipe-pane", "pipep"), "IOot:", (0, 1), "pane", SESSION, "panes.pipe", "send a pane's output to a program",
                "mux log NAME"),
    TmuxCommand(("previous-layout", "prevl"), "t:", (0, 0), "window", SESSION, "", "use the previous layout"),
    TmuxCommand(("previous-window", "prev"), "at:", (0, 0), "session", SESSION, "windows.previous",
                "go to the previous window", "C-b p", "", wish("go previous")),
    TmuxCommand(("refresh-client", "refresh"), "A:B:cC:Df:r:F:lLRSt:U", (0, 1), "client", FRONT, "",
                "resize the session to this terminal", "C-b r", "S", wish("repaint")),
    TmuxCommand(("rename-session", "rename"), "t:", (1, 1), "session", ALL, "sessions.rename", "name a session"),
    TmuxCommand(("rename-window", "renamew"), "t:", (1, 1), "window", SESSION, "windows.rename",
                "name the window", "mux rename-window NAME:K TITLE", "", texted("window name", is_needed=False)),
    TmuxCommand(("resize-pane", "resizep"), "DLMRTt:Ux:y:Z", (0, 1), "pane", SESSION, "panes.resize",
                "zoom the pane, or move one of its borders", "C-b C-Up", "LRUDZ", sized),
    TmuxCommand(("resize-window", "resizew"), "aADLRt:Ux:y:", (0, 1), "window", SESSION, "windows.resize",
                "give a window another size", "mux send -a NAME 'size ROWS COLS'"),
    TmuxCommand(("respawn-pane", "respawnp"), "c:e:kt:", (0, -1), "pane", SESSION, "panes.respawn", "start a command in a pane again"),
    TmuxCommand(("respawn-window", "respawnw"), "c:e:kt:", (0, -1), "window", SESSION, "", "start a command in a window again"),
    TmuxCommand(("rotate-window", "rotatew"), "Dt:UZ", (0, 0), "window", SESSION, "", "rotate the panes"),
    TmuxCommand(("run-shell", "run"), "bd:Ct:", (0, 1), "pane", SESSION, "shell_commands.run_shell",
                "run a shell command and show its output, or its last line (-b)", "C-b : run-shell", "b", texted("run")),
    TmuxCommand(("save-buffer", "saveb"), "ab:", (1, 1), "", ALL, "buffers.save", "write a buffer to a file",
                "mux buffer show NAME > FILE"),
    TmuxCommand(("select-layout", "selectl"), "Enopt:", (0, 1), "pane", SESSION, "windows.select_layout",
                "divide the space evenly", "C-b Space", "Enop", split_sizes_of),
    TmuxCommand(("select-pane", "selectp"), "DdegLlMmP:RT:t:UZ", (0, 0), "pane", SESSION, "panes.select",
                "go to another pane", "mux cmd NAME select-pane", "LRUDlt:", pane_of),
    TmuxCommand(("select-window", "selectw"), "lnpTt:", (0, 0), "window", SESSION, "windows.select",
                "go to a window, by its number", "mux attach NAME:K", "t:npl", window_of),
    TmuxCommand(("send-keys", "send"), "FHlMN:Rt:X", (0, -1), "pane", SESSION, "panes.send_keys",
                "type keys by their names, or text (-l)", "mux send NAME WORD", "l", keys_sent),
    TmuxCommand(("send-prefix",), "2t:", (0, 0), "pane", SESSION, "panes.send_prefix", "type the prefix", "C-b C-b", "", wish("prefix")),
    TmuxCommand(("server-access",), "adlrw", (0, 1), "", ALL, "", "let other users attach"),
    TmuxCommand(("set-buffer", "setb"), "ab:t:n:w", (0, 1), "", ALL, "buffers.put",
                "set, append to (-a) or rename (-n) a buffer", "mux buffer set NAME TEXT"),
    TmuxCommand(("set-environment", "setenv"), "Fhgrt:u", (1, 2), "session", ALL, "options.set_environment",
                "set a variable for new panes"),
    TmuxCommand(("set-hook",), "agpRt:uw", (1, 2), "pane", ALL, "options.set_hook", "set a command for an event"),
    TmuxCommand(("set-option", "set"), "aFgopqst:uUw", (1, 2), "pane", ALL, "options.set_option",
                "set an option at this terminal", "set in roam.conf", "agowqsu", texted("set")),
    TmuxCommand(("set-window-option", "setw"), "aFgoqt:u", (1, 2), "window", ALL, "options.set_window_option",
                "set an option at this terminal", "set in roam.conf", "agowqsu", texted("set")),
    TmuxCommand(("show-buffer", "showb"), "b:", (0, 0), "", ALL, "buffers.show", "print a buffer", "mux buffer show NAME"),
    TmuxCommand(("show-environment", "showenv"), "hgst:", (0, 1), "session", ALL, "options.show_environment",
                "print the variables for new panes", "mux env NAME"),
    TmuxCommand(("show-hooks",), "gpt:w", (0, 1), "pane", ALL, "options.show_hooks", "print the hooks"),
    TmuxCommand(("show-messages", "showmsgs"), "JTt:", (0, 0), "client", FRONT, "", "print messages"),
    TmuxCommand(("show-options", "show"), "AgHpqst:vw", (0, 1), "pane", ALL, "options.show_options", "print options"),
    TmuxCommand(("show-prompt-history", "showphist"), "T:", (0, 0), "", FRONT, "", "print the typed commands"),
    TmuxCommand(("show-window-options", "showw"), "gvt:", (0, 1), "window", ALL, "options.show_window_options",
                "print options of a window"),
    TmuxCommand(("source-file", "source"), "t:Fnqv", (1, -1), "pane", ALL, "shell_commands.source",
                "read the settings file again", "C-b R", "q", texted("settings", is_needed=False)),
    TmuxCommand(("split-window", "splitw"), "bc:de:fF:hIl:p:Pt:vZ", (0, -1), "pane", SESSION, "panes.split",
                "split the pane, with a command and a directory (-c) if given", "mux cmd NAME split-window", "hvc:d",
                begun({"h": "split right", "v": "split down"}, "split down")),
    TmuxCommand(("start-server", "start"), "", (0, 0), "", ALL, "sessions.start_server", "do nothing", "mux new NAME"),
    TmuxCommand(("suspend-client", "suspendc"), "t:", (0, 0), "client", FRONT, "", "suspend the front end", "C-b C-z", "", wish("suspend")),
    TmuxCommand(("swap-pane", "swapp"), "dDs:t:UZ", (0, 0), "pane", SESSION, "", "exchange two panes"),
    TmuxCommand(("swap-window", "swapw"), "ds:t:", (0, 0), "window", SESSION, "windows.swap", "exchange the indices of two windows"),
    TmuxCommand(("switch-client", "switchc"), "c:EFlnprt:T:Z", (0, 0), "session", FRONT, "", "show another session"),
    TmuxCommand(("unbind-key", "unbind"), "anqT:", (0, 1), "", FRONT, "",
                "unbind a key, or all keys (-a)", "unbind in roam.conf", "anqT:", bound),
    TmuxCommand(("unlink-window", "unlinkw"), "kt:", (0, 0), "window", ALL, "", "remove a window from a session"),
    TmuxCommand(("wait-for", "wait"), "LSU", (1, 1), "", ALL, "shell_commands.wait_for",
                "wait for a channel, or wake those that wait (-S)"),
    # Names that tmux has by its option command-alias, and roam's own commands.
    TmuxCommand(("choose-window",), "F:f:GK:NO:rst:wZ", (0, 1), "pane", FRONT, "", "choose a window from a list", "C-b w", "swZG", listed),
    TmuxCommand(("toggle-mouse",), "", (0, 0), "", FRONT, "", "give the mouse to roam, or back", "", "", wish("mouse")),
    TmuxCommand(("toggle-status",), "", (0, 0), "", FRONT, "", "hide the last row, or show it", "", "", wish("row")),
    TmuxCommand(("synchronize-panes",), "", (0, 0), "", FRONT, "", "send keys to all panes of the window, or stop", "", "",
                wish("synchronize")),
)
# The commands of tmux, without the last ones; and those that work at a terminal.
OF_TMUX = TABLE[:-4]
AT_TERMINAL = tuple(command for command in TABLE if command.reads)

# Other names of commands in tmux, with the flags that they stand for.
ALIASES = {"split-pane": "split-window", "splitp": "split-window", "server-info": "show-messages -JT", "info": "show-messages -JT",
           "choose-window": "choose-tree -w", "choose-session": "choose-tree -s"}

# The default commands of keys after the prefix.
DEFAULT_KEYS = {
    "%": "split-window -h", '"': "split-window -v", "x": "kill-pane", "o": "select-pane -t :.+", ";": "last-pane", "q": "display-panes",
    "Up": "select-pane -U", "Down": "select-pane -D", "Left": "select-pane -L", "Right": "select-pane -R", "z": "resize-pane -Z",
    "C-Up": "resize-pane -U", "C-Down": "resize-pane -D", "C-Left": "resize-pane -L", "C-Right": "resize-pane -R", "Space": "select-layout",
    "c": "new-window", "n": "next-window", "p": "previous-window", "l": "last-window", "w": "choose-window", ",": "rename-window",
    "&": "kill-window", "'": "select-window", **{str(number % 10): f"select-window -t {number}" for number in range(1, 11)},
    "[": "copy-mode", "PPage": "copy-mode -u", "/": "copy-mode -s", "]": "paste-buffer", "=": "choose-buffer", "d": "detach-client",
    "D": "detach-client -a", "C-z": "suspend-client", "r": "refresh-client", "m": "toggle-mouse", "t": "toggle-status", "R": "source-file",
    ":": "command-prompt", "?": "list-keys",
}
BY_NAME = {name: command for command in AT_TERMINAL for name in command.names}


def asked_by(words: list[str]) -> CommandWish:
    """Return the request of a command at a terminal, from its words. BadCommand gives the reason if it is not possible."""
    name, *rest = words
    command = BY_NAME.get(name)
    if not command or not command.reads:
        raise BadCommand(f"{printable(name)[:40]} is not a command of roam")
    try:
        return command.reads(Flags(rest, command.front))._replace(words=words)
    except BadCommand as fault:
        raise BadCommand(f"{name}: {fault}") from None


def completed(begun: str) -> list[str]:
    """Return the names of commands at a terminal with this beginning."""
    return sorted(name for name in BY_NAME if name.startswith(begun))


# ---- as in tmux


def command_named(name: str) -> TmuxCommand:
    """Return the command of tmux with a name, an alias, or the beginning of one name; BadCommand in tmux's words if there is none."""
    found = next((command for command in OF_TMUX if name in command.names), None)
    near = [command for command in OF_TMUX if command.names[0].startswith(name)] if not found else []
    if len(near) > 1:
        names = ", ".join(command.names[0] for command in near)
        raise BadCommand(f"ambiguous command: {name}, could be: {names}")
    if not found and not near:
        raise BadCommand(f"unknown command: {name}")
    return found or near[0]


def flags_in(command: TmuxCommand, words: list[str]) -> Flags:
    """Return the flags and words of a command of tmux; BadCommand in tmux's words if they are invalid."""
    least, most = command.words
    try:
        flags = Flags(words, command.flags)
    except BadCommand as fault:
        told = str(fault)
        told = told if told[-1].isascii() and told[-1].isalnum() else told.replace("unknown", "invalid")
        raise BadCommand(f"command {command.names[0]}: {told}") from None
    if len(flags.words) < least:
        raise BadCommand(f"command {command.names[0]}: too few arguments (need at least {least})")
    if 0 <= most < len(flags.words):
        raise BadCommand(f"command {command.names[0]}: too many arguments (need at most {most})")
    return flags


def read_command(words: list[str]) -> tuple[TmuxCommand, Flags]:
    """Return a command of tmux with its flags, from its words."""
    name, *rest = words
    *first, = ALIASES.get(name, name).split(" ")
    command = command_named(first[0])
    return command, flags_in(command, [*first[1:], *rest])


def hints() -> dict[str, str]:
    """Return for each name of a command of tmux the equivalent of `mux`, or a key; nothing where there is none."""
    found = {name: command.mux for command in OF_TMUX for name in command.names}
    return {**found, **{name: found[whole.split(" ")[0]] for name, whole in ALIASES.items()}}
