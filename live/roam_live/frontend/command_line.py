"""Runs the commands of a user's own key bindings and of the command line at this terminal."""
from __future__ import annotations

import os
from collections import deque

from roam_live.commands.flags import BadCommand
from roam_live.commands.table import asked_by, completed
from roam_live.commands.wishes import CommandWish
from roam_live.common.errors import Fault, reason
from roam_live.common.event_loop import Loop
from roam_live.common.io import read
from roam_live.common.text import printable
from roam_live.config.environment import BY_FILE, choose_by_file
from roam_live.config.user_file import OWN
from roam_live.frontend.bindings import OWN as KEY
from roam_live.frontend.interpreter import Interpreter
from roam_live.frontend.line_editor import AskedLine
from roam_live.frontend.settings import FrontSettings
from roam_live.frontend.synchronize_panes import OPTION
from roam_live.input.keys import Key, acts_of
from roam_live.protocol.window_lines import name_word

TYPE_CHECKING = False
if TYPE_CHECKING:
    from collections.abc import Callable

# Seconds for which a command's message is shown; limits of the history and of its lines; of concurrent programs, and of their output.
SAID = 4.0
MOST_LINES, LONGEST_LINE = 100, 1000
MOST_RUNS, MOST_HEARD = 8, 1 << 16
# Looks for the end of a program that closed its output, and seconds between them.
MOST_LOOKS, LOOKS_SECONDS = 50, 0.02
ELSEWHERE = "this session has one window"


class CommandLine(AskedLine):
    """A typed command: arrows recall earlier lines, and Tab completes names."""

    def __init__(self, before: deque[str]) -> None:
        super().__init__(":", most=LONGEST_LINE)
        self.before, self.place = before, len(before)

    def line(self) -> str:
        """Return the visible line."""
        return f":{self.text}"

    def edit(self, name: str) -> bool:
        """Take an editing key."""
        if name in ("up", "down", "\x10", "\x0e"):
            self.place = min(max(self.place + (-1 if name in ("up", "\x10") else 1), 0), len(self.before))
            self.text = self.before[self.place] if self.place < len(self.before) else ""
            return True
        if name == "\t":
            self.complete()
            return True
        return super().edit(name)

    def complete(self) -> None:
        """Complete the name of the command, as far as it is unique."""
        before, _, begun = self.text.rpartition("; ")
        names = completed(begun) if begun and " " not in begun else []
        if names:
            shared = os.path.commonprefix(names) + " " * (len(names) == 1)
            self.text = self.bounded((f"{before}; " if before else "") + shared)


class ShellRun:
    """A shell command that runs in parallel. Its output is shown; in the background only its last line is."""

    def __init__(self, loop: Loop, command: str, shows: Callable[[list[str]], object]) -> None:
        # Few sessions run a shell command.
        import subprocess

        self.loop, self.command, self.shows = loop, command, shows
        self.heard, self.looks = b"", 0
        self.process = subprocess.Popen(["/bin/sh", "-c", command], stdin=subprocess.DEVNULL, stdout=subprocess.PIPE,
                                        stderr=subprocess.STDOUT, start_new_session=True)
        assert self.process.stdout is not None
        self.end = self.process.stdout.fileno()
        os.set_blocking(self.end, False)
        loop.add(self.end, self.hear)

    def hear(self) -> None:
        """Read its output until end of file, and keep the last part."""
        chunk = read(self.end)
        if chunk:
            self.heard = (self.heard + chunk)[-MOST_HEARD:]
        elif chunk == b"":
            self.loop.remove(self.end)
            if self.process.stdout:
                self.process.stdout.close()
            self.finish()

    def finish(self) -> None:
        """Show its output, and its status if that is a failure, once it has ended. It may have closed its output before."""
        status = self.process.poll()
        if status is None and self.looks < MOST_LOOKS:
            self.looks += 1
            self.loop.later(f"run {self.process.pid}", LOOKS_SECONDS, self.finish)
            return
        lines = [printable(line.expandtabs()) for line in self.heard.decode("utf-8", "replace").rstrip().splitlines()]
        ends = "" if not status else f"returned {status}" if status > 0 else f"terminated by signal {-status}"
        self.shows(lines + [f"'{printable(self.command)[:80]}' {ends}"] * bool(ends))

    def has_ended(self) -> bool:
        """Return True if its shell has ended."""
        return self.process.poll() is not None


class CommandRunner:
    """Runs commands in the user's current window."""

    def __init__(self, keyboard: Interpreter, settings: FrontSettings) -> None:
        self.keyboard, self.settings, self.loop = keyboard, settings, keyboard.loop
        self.lines: deque[str] = deque(maxlen=MOST_LINES)
        self.runs: list[ShellRun] = []
        # The last message of a command.
        self.said = ""

    def tell(self, text: str) -> None:
        """Show a message in the last row."""
        self.said = text or self.said
        if text:
            self.keyboard.commands().display.row.tell(text, SAID)

    def show(self, lines: list[str], is_behind: bool) -> None:
        """Show several lines in a list. For one line, or without a list, show the last one as a message."""
        if is_behind or len(lines) < 2 or not self.keyboard.commands().lists.show_lines(lines):
            self.tell(lines[-1].strip() if lines else "")

    def run_all(self, commands: list[list[str]]) -> None:
        """Run commands in sequence, up to the first that fails, and report its error. A message of earlier commands ends."""
        row = self.keyboard.commands().display.row
        if self.said and row.told == self.said:
            row.end_told()
        self.said = ""
        self.run_rest(commands)

    def run_rest(self, commands: list[list[str]]) -> None:
        """Run the rest of such commands."""
        try:
            for place, words in enumerate(commands):
                asked = asked_by(words)
                if asked.begins:
                    # The rest applies to the pane that is focused then.
                    rest = commands[place + 1 :]
                    self.keyboard.commands().handing.begin(asked.wish, asked.begins, lambda: self.run_rest(rest))
                    return
                self.do(asked)
        except BadCommand as fault:
            self.tell(str(fault))

    def do(self, asked: CommandWish) -> None:
        """Carry out the request of a command."""
        commands = self.keyboard.commands()
        does: dict[str, Callable[[str], object]] = {
            "tell": self.tell_text, "window name": self.name_window, "command line": self.ask,
            "prefix": self.type_prefix, "settings": self.read_settings}
        if asked.acts:
            commands.type_key(asked.acts)
            commands.synchronizing.settle()
        elif asked.wish == "set":
            self.set_option([*asked.words])
        elif asked.wish == "bind":
            self.bind([*asked.words])
        elif asked.wish == "run":
            self.run_shell(asked.text, asked.words[1:2] == ["-b"])
        elif asked.wish in does:
            does[asked.wish](asked.text)
        else:
            for _ in range(int(asked.text) if asked.text.isdigit() else 1):
                self.keyboard.grant(asked.wish)

    def run_wish(self, wish: str) -> None:
        """Carry out the request of a user's own key, or of a command line."""
        word, _, rest = wish.partition(" ")
        if word != KEY:
            self.do(CommandWish([], wish, ""))
            return
        table, _, name = rest.partition(" ")
        binding = self.keyboard.modes.keymap.own.get((table, name))
        if binding:
            self.run_all(binding.commands)

    # ---- the line

    def ask(self, text: str = "") -> None:
        """Ask for a command."""
        self.keyboard.commands().acts.ask_line(CommandLine(self.lines), "command")

    def typed(self, text: str) -> None:
        """Run a typed command."""
        if not text.strip():
            return
        if not self.lines or self.lines[-1] != text:
            self.lines.append(text)
        from roam_live.config.parser import Block, SettingsReader

        wrong: list[str] = []
        reader = SettingsReader(text, dict(os.environ), lambda line, words: wrong.append(words))
        commands = list(reader.commands())
        if wrong or any(isinstance(word, Block) for command in commands for word in command.words):
            self.tell(wrong[0] if wrong else "a block in braces is not supported here")
            return
        self.run_all([[str(word) for word in command.words] for command in commands])

    # ---- commands with a text

    def tell_text(self, text: str) -> None:
        """Show a text as a message, with its formats filled in."""
        try:
            self.tell(printable(self.settings.filled(text)))
        except ValueError as fault:
            raise BadCommand(str(fault)) from None

    def type_prefix(self, text: str) -> None:
        """Type the prefix."""
        prefix = self.keyboard.commands().modes.keymap.prefix
        self.keyboard.commands().type_key(acts_of(Key(prefix, prefix)))
        self.keyboard.commands().synchronizing.settle()

    def read_settings(self, text: str) -> None:
        """Reload the settings file, or read a named file too."""
        try:
            self.settings.read(text)
        except Fault as fault:
            raise BadCommand(str(fault)) from None

    def name_window(self, text: str) -> None:
        """Name the window, or ask for a name."""
        commands = self.keyboard.commands()
        if not text:
            self.keyboard.grant("window name")
        elif not commands.session.number:
            raise BadCommand(ELSEWHERE)
        elif not commands.link.is_read_only:
            commands.windows().say(f"name {commands.session.number} {name_word(text)}")

    def set_option(self, words: list[str]) -> None:
        """Set an option at this terminal, until the settings are reloaded."""
        from roam_live.config.loader import FileSettings
        from roam_live.config.parser import BadWord

        found, synchronizing = FileSettings(commands=()), self.keyboard.commands().synchronizing
        found.values.update(BY_FILE)
        found.values[OPTION] = "on" if synchronizing.is_on() else "off"
        try:
            found.set_option([*words[1:]])
        except BadWord as fault:
            raise BadCommand(str(fault)) from None
        # This option belongs to the window alone.
        is_on, others = found.values.pop(OPTION, "off") == "on", {OPTION: BY_FILE[OPTION]} if OPTION in BY_FILE else {}
        choose_by_file({**found.values, **others})
        if is_on == synchronizing.is_on():
            self.settings.go_by()
        else:
            self.keyboard.grant("synchronize")

    def bind(self, words: list[str]) -> None:
        """Bind or unbind a key at this terminal, until the settings are reloaded."""
        from roam_live.config.parser import BadWord

        try:
            OWN.bind(words)
        except BadWord as fault:
            raise BadCommand(str(fault)) from None
        self.settings.go_by()

    def run_shell(self, text: str, is_behind: bool) -> None:
        """Run a shell command in parallel, or in the background."""
        self.runs = [run for run in self.runs if not run.has_ended()]
        if len(self.runs) >= MOST_RUNS:
            raise BadCommand(f"{MOST_RUNS} shell commands are running already")
        try:
            self.runs.append(ShellRun(self.loop, text, lambda lines: self.show(lines, is_behind)))
        except (OSError, ValueError) as fault:
            raise BadCommand(f"cannot run a shell: {reason(fault) if isinstance(fault, OSError) else fault}") from None
