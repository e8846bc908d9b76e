"""Commands that print: lists of sessions, windows, panes, terminals and commands, and messages."""
from __future__ import annotations

from roam_live.cli.tmux.context import Context
from roam_live.cli.tmux.variables import Variables
from roam_live.commands.flags import BadCommand
from roam_live.commands.formats import expanded
from roam_live.commands.table import OF_TMUX, command_named
from roam_live.commands.targets import FoundTarget
from roam_live.common.errors import Fault

TYPE_CHECKING = False
if TYPE_CHECKING:
    from roam_live.cli.tmux.model import SessionView, WindowView
    from roam_live.commands.flags import Flags

# The formats of tmux without -F (cmd-list-sessions.c and its siblings).
SESSIONS = ("#{session_name}: #{session_windows} windows (created #{t:session_created})#{?session_grouped, (group ,}#{session_group}"
            "#{?session_grouped,),}#{?session_attached, (attached),}")
WINDOW = "#{window_index}: #{window_name}#{window_raw_flags} (#{window_panes} panes) [#{window_width}x#{window_height}] "
WINDOWS = f"{WINDOW}[layout #{{window_layout}}] #{{window_id}}#{{?window_active, (active),}}"
ALL_WINDOWS = f"#{{session_name}}:{WINDOW}"
PANES = ("#{pane_index}: [#{pane_width}x#{pane_height}] [history #{history_size}/#{history_limit}, #{history_bytes} bytes] #{pane_id}"
         "#{?pane_active, (active),}#{?pane_dead, (dead),}")
CLIENTS = ("#{client_name}: #{session_name} [#{client_width}x#{client_height} #{client_termname}] "
           "#{?client_flags,(,}#{client_flags}#{?client_flags,),}")
MESSAGE = "[#{session_name}] #{window_index}:#{window_name}, current pane #{pane_index} - (%H:%M %d-%b-%y)"
COMMAND = "#{command_list_name}#{?command_list_alias, (#{command_list_alias}),} #{command_list_usage}"


def line(context: Context, flags: Flags, default: str, values: Variables, number: int) -> None:
    """Print the line of a list for some values, if they pass its filter."""
    values.more["line"] = str(number)
    if context.passes(flags, values):
        context.write(expanded(flags.value("F") or default, values))


def list_sessions(context: Context, flags: Flags) -> int:
    """Print a line for each session."""
    for number, one in enumerate(context.model().sessions):
        window = one.current()
        line(context, flags, SESSIONS, context.variables(FoundTarget(one, window, window.active() if window else None)), number)
    return 0


def list_windows(context: Context, flags: Flags) -> int:
    """Print a line for each window of a session, or of all."""
    sessions = context.model().sessions if flags.has("a") else [context.session(flags)]
    for session in sessions:
        for number, window in enumerate(session.windows()):
            values = context.variables(FoundTarget(session, window, window.active()))
            line(context, flags, ALL_WINDOWS if flags.has("a") else WINDOWS, values, number)
    return 0


def list_panes(context: Context, flags: Flags) -> int:
    """Print a line for each pane of a window, of a session, or of all."""
    windows: list[tuple[SessionView, WindowView]]
    if flags.has("a"):
        windows = [(session, window) for session in context.model().sessions for window in session.windows()]
    elif flags.has("s"):
        session = context.session(flags)
        windows = [(session, window) for window in session.windows()]
    else:
        window = context.window(flags)
        windows = [(window.session, window)]
    before = "#{session_name}:#{window_index}." if flags.has("a") else "#{window_index}." if flags.has("s") else ""
    for session, window in windows:
        for number, pane in enumerate(window.panes()):
            line(context, flags, before + PANES, context.variables(FoundTarget(session, window, pane)), number)
    return 0


def list_clients(context: Context, flags: Flags) -> int:
    """Print a line for each terminal at a session, or at all."""
    from roam_live.cli.windows import WindowsAsked

    sessions = [context.session(flags)] if flags.value("t") is not None else context.model().sessions
    for session in sessions:
        try:
            told = WindowsAsked(session.found[0].place).clients()
        except (Fault, IndexError):
            continue
        for number, words in enumerate(told):
            window = session.numbered(int(words[5])) or session.current()
            terminal = words[2] if words[2].startswith("/") else f"/dev/{words[2]}"
            more = {"client_name": terminal, "client_tty": terminal, "client_height": words[3], "client_width": words[4],
                    "client_created": words[6], "client_termname": "", "client_session": session.name,
                    "client_readonly": "01"[words[7] == "read-only"],
                    "client_flags": "attached" + (",read-only" if words[7] == "read-only" else "")}
            found = FoundTarget(session, window, window.active() if window else None)
            line(context, flags, CLIENTS, context.variables(found, more), number)
    return 0


def list_commands(context: Context, flags: Flags) -> int:
    """Print the commands that roam has, or one of them, with their flags."""
    wanted = [command_named(flags.words[0])] if flags.words else [command for command in OF_TMUX if command.effect or command.reads]
    for one in wanted:
        plain = "".join(letter for place, letter in enumerate(one.flags) if letter != ":" and one.flags[place + 1 : place + 2] != ":")
        valued = [f"[-{letter} {one.target if letter == 't' and one.target else 'value'}]" for place, letter in enumerate(one.flags)
                  if one.flags[place + 1 : place + 2] == ":"]
        usage = " ".join(([f"[-{plain}]"] if plain else []) + valued)
        more = {"command_list_name": one.names[0], "command_list_alias": one.names[1] if len(one.names) > 1 else "",
                "command_list_usage": usage}
        context.write(expanded(flags.value("F") or COMMAND, Variables(context.model(), FoundTarget(), more)))
    return 0


def message(context: Context, flags: Flags) -> int:
    """Print a message, or show it at the terminals of the session."""
    if flags.words and flags.has("F"):
        raise BadCommand("only one of -F or argument must be given")
    template = flags.words[0] if flags.words else flags.value("F") or MESSAGE
    try:
        found = context.target(flags, "pane")
    except BadCommand:
        # As in tmux, a format without a target has no values.
        found = FoundTarget()
    values = context.variables(found)
    if flags.has("a"):
        for name in known(values):
            context.write(f"{name}={expanded(f'#{{{name}}}', values)}")
        return 0
    text = expanded(template, values, has_time=True)
    if flags.has("p"):
        context.write(text)
    return 0


def known(values: Variables) -> list[str]:
    """Return the names of all variables."""
    return sorted(name for table in values.tables() for name in table)
