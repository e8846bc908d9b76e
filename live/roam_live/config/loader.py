"""The user's settings: files of commands in tmux's words. Each unsupported part is reported once, with its line."""
from __future__ import annotations

import glob
import os
import stat

from roam_live.commands.flags import parted
from roam_live.common.errors import reason
from roam_live.common.named_fields import NamedFields
from roam_live.common.text import printable
from roam_live.config.parser import OPTIONS, SWITCHES, TEXTS, BadWord, Block, FileCommand, SettingsReader, key_named

TYPE_CHECKING = False
if TYPE_CHECKING:
    from collections.abc import Container, Iterable

    from roam_live.config.parser import Value, Word

# The most bytes of a file; the deepest nesting of included files, and the most files in all.
MOST_BYTES = 1 << 20
DEEPEST = 10
MOST_FILES = 100

# At most this many lines are reported, each of this many characters.
MOST_TOLD, LONGEST_TOLD = 100, 200

# The tables of keys: after the prefix, and without it.
PREFIXED, ROOT = TABLES = ("prefix", "root")

CONDITIONS = ("%if", "%elif", "%else", "%endif")


class Binding(NamedFields):
    """The commands of a key, each a list of words, and a flag to repeat without the prefix for a moment."""

    commands: list[list[str]]
    repeats: bool


class Branches:
    """A condition during parsing.

    Its flags: a branch was taken; the current one is taken; none is, because the condition is unknown here.
    """

    def __init__(self, is_passed: bool, holds: bool | None) -> None:
        self.is_unknown, self.was_taken = is_passed or holds is None, bool(holds)
        self.is_read = not self.is_unknown and bool(holds)

    def go_on(self, holds: bool | None) -> None:
        """Continue with another branch."""
        self.is_unknown = self.is_unknown or not self.was_taken and holds is None
        self.is_read = not self.is_unknown and not self.was_taken and bool(holds)
        self.was_taken = self.was_taken or self.is_read


class FileSettings:
    """The contents of the files: options, bound and unbound keys, commands to run, messages, and unsupported parts."""

    def __init__(self, environment: dict[str, str] | None = None, commands: Container[str] | None = None) -> None:
        self.environment = dict(os.environ if environment is None else environment)
        self.known = commands
        self.values: dict[str, Value] = {}
        self.bindings: dict[tuple[str, str], Binding | None] = {}
        self.runs: list[str] = []
        self.messages: list[str] = []
        self.told: list[str] = []
        self.untold = 0
        # The files being read, from the first on, and their total number.
        self.open: list[tuple[int, int]] = []
        self.count = 0

    # ---- files

    def read(self, path: str) -> None:
        """Read a file if that is allowed, and report the reason if it is not."""
        try:
            text = self.text_of(path)
        except BadWord as fault:
            self.tell(path, 0, str(fault))
            return
        try:
            self.take_text(text, path)
        finally:
            self.open.pop()

    def why_unread(self, path: str) -> str:
        """Return the reason that a file can't be read; nothing if it can."""
        try:
            self.text_of(path)
        except BadWord as fault:
            return str(fault).removeprefix("not read: ")
        self.open.pop()
        return ""

    def text_of(self, path: str) -> str:
        """Return the text of a file that the user or root owns and nobody else may write. The file then counts as open."""
        if len(self.open) >= DEEPEST:
            raise BadWord(f"not read: files include one another more than {DEEPEST} deep")
        if self.count >= MOST_FILES:
            raise BadWord(f"not read: more than {MOST_FILES} files are included")
        try:
            end = os.open(path, os.O_RDONLY | os.O_NONBLOCK | os.O_CLOEXEC)
            try:
                status = os.fstat(end)
                why = refusal(status) or ("it includes itself" if (status.st_dev, status.st_ino) in self.open else "")
                data = b"" if why else read_most(end)
            finally:
                os.close(end)
        except (OSError, ValueError) as fault:
            raise BadWord(f"cannot be read: {reason(fault) if isinstance(fault, OSError) else 'not a file name'}") from None
        try:
            found = data.decode("utf-8")
        except UnicodeDecodeError:
            found, why = "", "it is not UTF-8 text"
        why = why or ("it is larger than 1 MB" if len(data) > MOST_BYTES else "it is not text" if "\0" in found else "")
        if why:
            raise BadWord(f"not read: {why}")
        self.count += 1
        self.open.append((status.st_dev, status.st_ino))
        return found

    def take_text(self, text: str, name: str) -> None:
        """Take the commands in a text of a named file."""
        reader = SettingsReader(text, self.environment, lambda line, words: self.tell(name, line, words))
        self.take_commands(reader.commands(), name)

    def take_commands(self, commands: Iterable[FileCommand], name: str) -> None:
        """Take commands, except those of branches that are not taken."""
        stack: list[Branches] = []
        line = 0
        for command in commands:
            line, word = command.line, command.words[0]
            if command.is_condition and word in CONDITIONS:
                self.branch(stack, command, name)
            elif all(branches.is_read for branches in stack):
                try:
                    self.take(command, name)
                except BadWord as fault:
                    self.tell(name, command.line, str(fault))
        if stack:
            self.tell(name, line, "%if has no %endif")

    def branch(self, stack: list[Branches], command: FileCommand, name: str) -> None:
        """Take a line of a condition. The value of a format is unknown here, so all branches of such a condition are skipped."""
        word, rest = str(command.words[0]), str(command.words[1]).strip("\"'")
        holds = None if "#" in rest or "$" in rest else rest not in ("", "0")
        is_passed = not all(branches.is_read for branches in stack)
        if word == "%if":
            stack.append(Branches(is_passed, holds))
        elif not stack:
            self.tell(name, command.line, f"{word} without %if")
        elif word == "%endif":
            stack.pop()
        else:
            is_passed = True
            stack[-1].go_on(True if word == "%else" else holds)
        if word == "%if" and holds is None and not is_passed:
            self.tell(name, command.line, "roam does not support formats in %if: skipped up to its %endif")

    def tell(self, name: str, line: int, words: str) -> None:
        """Record a message about a line, if it is new and there is room."""
        told = printable(f"{os.path.basename(name)}{f':{line}' if line else ''}: {words}")[:LONGEST_TOLD]
        if told not in self.told:
            self.untold += len(self.told) >= MOST_TOLD
            self.told += [told] if len(self.told) < MOST_TOLD else []

    # ---- commands

    def take(self, command: FileCommand, name: str) -> None:
        """Take a command."""
        word, *words = command.words
        does = {"set": self.set_option, "set-option": self.set_option, "setw": self.set_option, "set-window-option": self.set_option,
                "bind": self.bind, "bind-key": self.bind, "unbind": self.unbind, "unbind-key": self.unbind, "run": self.run,
                "run-shell": self.run, "display": self.display, "display-message": self.display}
        if isinstance(word, Block):
            self.take_commands(word.commands, name)
        elif word in ("source", "source-file"):
            self.source(words, name)
        elif word in does:
            does[word](words)
        elif word == "%hidden" or not words and "=" in word and word.partition("=")[0].isidentifier():
            assigned = str(words[0]) if word == "%hidden" and words else word
            variable, _, value = assigned.partition("=")
            self.environment[variable] = value
        else:
            raise BadWord(f"roam does not support {word[:40]}")

    def set_option(self, words: list[Word]) -> None:
        """Set an option for all, with flags to append, to unset, or to set it only if unset."""
        flags, texts = flags_of(words, "t")
        if not texts or len(texts) > 2:
            raise BadWord("set needs a name and a value")
        option, value = texts[0], texts[1] if len(texts) == 2 else None
        check = OPTIONS.get(option)
        if not check:
            if "q" in flags:
                return
            raise BadWord(f"{option[:40]} is not an option of roam")
        if "F" in flags:
            raise BadWord(f"{option}: roam does not support formats in values")
        if "u" in flags:
            self.values.pop(option, None)
        elif not ("o" in flags and option in self.values):
            self.values[option] = self.checked(option, value, "a" in flags)

    def checked(self, option: str, value: str | None, is_added: bool) -> Value:
        """Return the value of an option, if it is valid."""
        if value is None and option in SWITCHES:
            value = "off" if self.values.get(option) == "on" else "on"
        if value is None:
            raise BadWord(f"{option} needs a value")
        if is_added and option in TEXTS:
            value = f"{self.values.get(option, '')}{value}"
        try:
            return OPTIONS[option](value)
        except BadWord as fault:
            raise BadWord(f"{option} is {value[:40]!r}; it {fault}" if "may" in str(fault)[:4] else f"{option}: {fault}") from None

    def bind(self, words: list[Word]) -> None:
        """Bind a key."""
        flags, rest = flags_before(words, "TN")
        if not rest or not isinstance(rest[0], str):
            raise BadWord("bind needs a key and a command")
        key, commands = key_named(rest[0]), commands_of(rest[1:])
        if not commands:
            raise BadWord(f"bind {rest[0][:40]} needs a command")
        unknown = next((words[0] for words in commands if self.known is not None and words[0] not in self.known), "")
        if unknown:
            raise BadWord(f"{unknown[:40]} is not a command of roam, so {rest[0][:40]} is not bound")
        self.bindings[table_of(flags), key] = Binding(commands, "r" in flags)

    def unbind(self, words: list[Word]) -> None:
        """Unbind a key, or all of a table."""
        flags, texts = flags_of(words, "T")
        table = table_of(flags)
        if "a" in flags:
            self.bindings = {place: binding for place, binding in self.bindings.items() if place[0] != table}
            self.bindings[table, "all"] = None
        elif len(texts) != 1:
            raise BadWord("unbind needs a key")
        else:
            self.bindings[table, key_named(texts[0])] = None

    def run(self, words: list[Word]) -> None:
        """Queue a shell command."""
        flags, texts = flags_of(words, "dtc")
        if len(texts) != 1 or "C" in flags:
            raise BadWord("run-shell takes one shell command")
        self.runs.append(texts[0])

    def display(self, words: list[Word]) -> None:
        """Queue a message for the user."""
        _, texts = flags_of(words, "cdtF")
        self.messages += [printable(texts[0])[:LONGEST_TOLD]] if texts else []

    def source(self, words: list[Word], name: str) -> None:
        """Read other files. Relative paths start at this file's folder."""
        flags, paths = flags_of(words, "t")
        if not paths:
            raise BadWord("source needs a file")
        for path in paths:
            whole = os.path.join(os.path.dirname(name), path)
            found = sorted(glob.glob(whole))[: MOST_FILES + 1] if glob.has_magic(path) else [whole]
            for one in found if found or "q" in flags else [whole]:
                if "q" not in flags or os.path.exists(one):
                    self.read(one)


def read_most(end: int) -> bytes:
    """Return the contents of a file up to the limit, and one byte more if it is longer."""
    chunks, left = list[bytes](), MOST_BYTES + 1
    while left and (chunk := os.read(end, min(left, 65536))):
        chunks.append(chunk)
        left -= len(chunk)
    return b"".join(chunks)


def refusal(status: os.stat_result) -> str:
    """Return the reason that a file is not read; nothing if it is."""
    if not stat.S_ISREG(status.st_mode):
        return "it is not a regular file"
    if status.st_uid not in (0, os.getuid()):
        return "it belongs to another user"
    if status.st_mode & 0o022:
        return "other users may write to it"
    return "it is larger than 1 MB" if status.st_size > MOST_BYTES else ""


def flags_before(words: list[Word], valued: str) -> tuple[dict[str, str], list[Word]]:
    """Return the flags before other words, with the values of some, and the words after them."""
    flags: dict[str, str] = {}
    rest = list(words)
    while rest and isinstance(rest[0], str) and len(rest[0]) > 1 and rest[0][0] == "-":
        word = rest.pop(0)
        if word == "--":
            break
        for place, flag in enumerate(str(word)[1:], 1):
            flags[flag] = ""
            if flag in valued:
                value = str(word)[place + 1 :]
                flags[flag] = value or (str(rest.pop(0)) if rest else "")
                break
    return flags, rest


def flags_of(words: list[Word], valued: str) -> tuple[dict[str, str], list[str]]:
    """Return the flags before words that are texts, and these words."""
    flags, rest = flags_before(words, valued)
    if any(isinstance(word, Block) for word in rest):
        raise BadWord("a block in braces is not supported here")
    return flags, [str(word) for word in rest]


def table_of(flags: dict[str, str]) -> str:
    """Return the table of keys that flags name."""
    table = flags.get("T", ROOT if "n" in flags else PREFIXED)
    if table not in TABLES:
        raise BadWord(f"roam has no key table {table[:40]}")
    return table


def commands_of(words: list[Word]) -> list[list[str]]:
    """Return the commands of a binding: those of a block, or words separated by those that end with `;`."""
    if len(words) == 1 and isinstance(words[0], Block):
        return [[str(word) for word in command.words] for command in words[0].commands if not is_nested(command)]
    if any(isinstance(word, Block) for word in words):
        raise BadWord("a block in braces is not supported here")
    return parted([str(word) for word in words])


def is_nested(command: FileCommand) -> bool:
    """Return True if a command has a block among its words, as conditions do."""
    if any(isinstance(word, Block) for word in command.words):
        raise BadWord("a block within a block is not supported here")
    return False
