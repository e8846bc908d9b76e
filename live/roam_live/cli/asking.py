"""Commands of `mux` on a running session, or on a window or a pane of it."""
from __future__ import annotations

import os
import sys

from roam_live.cli.targets import ready, window_named
from roam_live.common.errors import Fault

TYPE_CHECKING = False
if TYPE_CHECKING:
    from roam_live.cli.args import Asked


def list_windows(asked: Asked) -> int:
    """Print a line for each window of a session."""
    from roam_live.cli import windows

    return windows.list_windows(window_named(asked.name)[0])


def new_window(asked: Asked) -> int:
    """Open a window in a session, and print its name."""
    from roam_live.cli import windows

    return windows.new_window(window_named(asked.name)[0], asked.title or "")


def rename_window(asked: Asked) -> int:
    """Name a window."""
    from roam_live.cli import windows

    return windows.rename(window_named(asked.name)[0], asked.title or "")


def command(asked: Asked) -> int:
    """Run a command with tmux's name in a session."""
    from roam_live.cli import cmd

    if not asked.words:
        raise Fault("name a command after the session, as in `mux cmd work split-window`")
    window, pane = window_named(asked.name)
    return cmd.run(ready(window), pane, asked.words)


def list_clients(asked: Asked) -> int:
    """Print a line for each terminal at a session."""
    from roam_live.cli import windows

    return windows.list_clients(window_named(asked.name)[0])


def send(asked: Asked) -> int:
    """Type words into a session: keys and texts, characters alone, or acts."""
    words = list(asked.words)
    # They may follow NAME too, as in tmux's `send-keys -t NAME`.
    flags = {"-l": asked.is_plain, "-a": asked.has_acts}
    while words and words[0] in flags:
        flags[words.pop(0)] = True
    words = words[1:] if words[:1] == ["--"] else words
    if all(flags.values()):
        raise Fault("-l types characters and -a types acts; use one of them")
    if not words:
        raise Fault("name the keys after the session, as in `mux send work 'make test' Enter`")
    window, pane = window_named(asked.name)
    ready(window)
    if flags["-l"]:
        from roam_live.cli import paste as cli_paste
        from roam_live.protocol import paste_text

        text = os.fsencode("".join(words)).decode("utf-8", "replace")
        return cli_paste.type_text(window, paste_text.cleaned(text), pane, is_plain=True)
    from roam_live.cli import send as cli_send

    return cli_send.send(window, words, pane) if flags["-a"] else cli_send.send_words(window, words, pane)


def paste(asked: Asked) -> int:
    """Paste standard input into a session."""
    from roam_live.cli import paste as cli_paste

    window, pane = window_named(asked.name)
    return cli_paste.type_text(ready(window), cli_paste.read_text(asked.is_raw), pane, is_plain=False)


def capture(asked: Asked) -> int:
    """Print the screen of a session or of a pane. With a range or a form of rows, print rows of a pane."""
    window, pane = window_named(asked.name)
    has_rows = asked.begin is not None or asked.end is not None or asked.has_styles or asked.is_joined
    if has_rows and asked.is_drawn:
        raise Fault("--svg shows the screen; it excludes -S, -E, -e and -J")
    if has_rows:
        from roam_live.cli import scrollback

        return scrollback.capture_rows(window, pane, asked.begin, asked.end, asked.has_styles, asked.is_joined)
    from roam_live.cli import capture as cli_capture

    return cli_capture.capture(ready(window), asked.is_drawn, pane)


def log(asked: Asked) -> int:
    """Print the rows of a pane as they come."""
    from roam_live.cli import scrollback

    window, pane = window_named(asked.name)
    return scrollback.log_rows(window, pane, asked.has_styles, asked.is_joined)


def keep_texts(asked: Asked) -> int:
    """List, print, set or paste buffers."""
    from roam_live.cli import scrollback

    session, pane = window_named(asked.name)
    if pane and asked.does != "paste":
        raise Fault("buffers belong to a session; name no pane")
    if asked.does == "paste":
        return scrollback.put_buffer(ready(session), asked.what, pane)
    if asked.does == "list" and asked.what is not None:
        raise Fault("buffer list takes no number and no text")
    if asked.does == "list":
        return scrollback.list_buffers(session)
    return scrollback.show_buffer(session, asked.what) if asked.does == "show" else scrollback.set_buffer(session, asked.what)


def print_environment(asked: Asked) -> int:
    """Print for a shell the environment that new panes of a session have from the last attach."""
    from roam_live.session import environment

    session, _ = window_named(asked.name)
    if session.served != "server":
        raise Fault(f"session {session.name} is on another machine; run `mux env` there")
    sys.stdout.buffer.write(os.fsencode("".join(f"{line}\n" for line in environment.shell_lines(session))))
    return 0
