"""The interpreter of the tables: a stage has a folder of its own, its files, and its actors by name. README.md describes the lines."""
from __future__ import annotations

import os
import pathlib
import re
import socket
import subprocess

import renames
from actors import ASKING, QUIET, WAIT, Peer, Process, comes, free_port, shown

ESCAPES = {"n": b"\n", "r": b"\r", "e": b"\x1b", "a": b"\a", "s": b" ", "\\": b"\\"}
ESCAPE = re.compile(r"\\(?:u\{([0-9a-f]+)\}|x([0-9a-f]{2})|(.))")

# The groups that match a number, and an id.
NUMBER, ID = r"(\d+)", "([1-9a-f][0-9a-f]{0,15})"

# Standard outputs that no painting reaches, as a shell opens them.
OUTPUTS = {"closed": ">&-", "full": "> /dev/full"}


class Wrong(Exception):
    """A line that is not true, with the values seen."""


class BadCase(Exception):
    """A line that has no meaning: a mistake of the table, and not of the program."""


class Skipped(Exception):
    """A line that this user cannot do."""


def decoded(text):
    """Return the bytes of a text with escapes."""
    parts, end = [], 0
    for match in ESCAPE.finditer(text):
        point, byte, letter = match.groups()
        if letter and letter not in ESCAPES:
            raise BadCase(f"no such escape: {match[0]}")
        code = chr(int(point, 16)).encode() if point else bytes([int(byte, 16)]) if byte else ESCAPES[letter]
        parts += [text[end:match.start()].encode(), code]
        end = match.end()
    return b"".join(parts) + text[end:].encode()


def matches(text, seen):
    """Return the match of seen bytes with a text in which <N> is any number, and <H> any id."""
    pattern = re.escape(decoded(text).decode()).replace("<N>", NUMBER).replace("<H>", ID)
    return re.fullmatch(pattern, seen.decode(errors="replace"))


def need(is_so, seen=""):
    """Raise an error if a line is not true."""
    if not is_so:
        raise Wrong(seen() if callable(seen) else seen)


class Stage:
    """The place of one case: its folder, its actors, and the words of its commands."""

    def __init__(self, program, folder):
        self.program = program
        self.folder = pathlib.Path(folder)
        self.actors = {}
        self.others = []
        self.listeners = {}
        self.words = {}
        self.sizes = {}
        # The painting of each actor that was shown last, and its lines.
        self.screens = {}
        self.watches = {}
        self.taken = None

    def close(self):
        """End all processes and connections."""
        for actor in [*self.actors.values(), *self.others]:
            actor.close() if isinstance(actor, Process) else actor.leave()
        for one in [*self.listeners.values(), *self.watches.values(), *([self.taken] if self.taken else [])]:
            one.close()

    def does(self, line):
        """Do a line, or check it."""
        verb, _, rest = line.partition(" ")
        if verb in ALONE:
            ALONE[verb](self, rest)
            return
        for phrase, act in ACTS.items():
            if rest == phrase or rest.startswith(phrase + " "):
                act(self, verb, rest[len(phrase) + 1:])
                return
        raise BadCase("no such line")

    # Words and files.

    def word(self, word):
        """Return a word of a command: $port is the number printed last, $free an unused port, $taken one in use, @FILE a file's text."""
        if word.startswith("@"):
            return (self.folder / word[1:]).read_text(encoding="utf-8").strip()
        if word == "$free":
            return str(free_port())
        if word == "$taken":
            return str(self.taken_port())
        return self.words.get(word, word) if word.startswith("$") else word

    def taken_port(self):
        if not self.taken:
            self.taken = socket.socket(socket.AF_INET, socket.SOCK_DGRAM)
            self.taken.bind(("127.0.0.1", 0))
        return self.taken.getsockname()[1]

    def command(self, words):
        """Return the arguments of a command, with a standard output behind `>` opened by a shell."""
        words, _, output = words.partition(" > ")
        asked = [self.program, *(self.word(word) for word in words.split())]
        return ["sh", "-c", f'exec "$@" {OUTPUTS[output]}', "sh", *asked] if output in OUTPUTS else asked

    def makes_folder(self, words):
        path, _, mode = words.partition(" ")
        (self.folder / path).mkdir()
        (self.folder / path).chmod(int(mode or "755", 8))

    def makes_theirs(self, path):
        (self.folder / path).mkdir(mode=0o700)
        try:
            os.chown(self.folder / path, 1, -1)
        except PermissionError as error:
            raise Skipped("only root can give a folder away") from error

    def makes_file(self, words):
        path, _, text = words.partition(" ")
        (self.folder / path).write_bytes(decoded(text))

    def makes_link(self, words):
        path, _, target = words.partition(" ")
        (self.folder / path).symlink_to(target)

    def has_mode(self, words):
        path, _, mode = words.partition(" ")
        seen = (self.folder / path).stat().st_mode & 0o777
        need(seen == int(mode, 8), oct(seen))

    def holds(self, words):
        path, _, text = words.partition(" ")
        seen = (self.folder / path).read_bytes()
        need(matches(text, seen), repr(seen))

    def differ(self, words):
        texts = [(self.folder / path).read_bytes() for path in words.split()]
        need(len(set(texts)) == len(texts), texts)

    def is_there(self, path):
        need(comes(lambda: os.path.lexists(self.folder / path)), "none")

    def is_gone(self, path):
        need(not os.path.lexists(self.folder / path), "it is there")

    def has_files(self, words):
        folder, _, names = words.partition(" ")
        seen = " ".join(sorted(os.listdir(self.folder / folder)))
        need(seen == names, seen)

    def watch(self, folder):
        self.watches[folder] = renames.Watch(self.folder / folder)

    def saw(self, words):
        folder, name, events = words.split(" ", 2)
        seen = ", ".join(self.watches[folder].events(name))
        need(seen == events, seen)

    # Whole runs, each with and without an explanation of its end.

    def run(self, words, environment):
        """Run a command to its end; return its status, its messages, and its painting, if that is read."""
        options = {"cwd": self.folder, "env": environment, "stdin": subprocess.DEVNULL, "stderr": subprocess.PIPE, "timeout": WAIT}
        asked = self.command(words)
        if not words.endswith(" > unread"):
            ran = subprocess.run(asked, stdout=subprocess.PIPE, check=False, **options)
            return ran.returncode, ran.stderr, ran.stdout
        reader, writer = os.pipe()
        os.close(reader)
        try:
            ran = subprocess.run(asked, stdout=writer, check=False, **options)
        finally:
            os.close(writer)
        return ran.returncode, ran.stderr, b""

    def passes(self, words):
        """A run ends well. Lines in brackets are explanations."""
        words, _, text = words.partition(" | ")
        for environment, said in ((QUIET, "" if text.startswith("[") else text), (ASKING, text)):
            status, messages, _ = self.run(words, environment)
            need(status == 0 and matches(said + "\\n" if said else "", messages), (status, messages))

    def refused(self, words, status=1):
        """A run is refused. The second line is the explanation."""
        words, _, rest = words.partition(" | ")
        fault, _, reason = rest.partition(" | ")
        first = f"roam: {fault}\\n"
        second = f"roam: {fault}: {reason}\\n" if reason else ""
        for environment, said in ((QUIET, first), (ASKING, first + second)):
            seen = self.run(words.rstrip(), environment)
            said = said.replace("$taken", self.word("$taken"))
            need(seen[0] == status and matches(said, seen[1]) and not seen[2], seen)

    def misused(self, words):
        self.refused(words, 2)

    # Processes.

    def runs(self, name, words):
        self.actors[name] = Process(self.command(words), self.folder)

    def prints(self, name, text):
        messages = self.actors[name].messages
        need(comes(lambda: matches(text, bytes(messages.text))), lambda: bytes(messages.text))
        found = matches(text, bytes(messages.text))
        if found.groups():
            self.words["$port"] = found[1]

    def ends(self, name, words):
        status, _, text = words.partition(" ")
        seen = self.actors[name].ends()
        need(seen and seen[0] == int(status) and matches(text, seen[1].encode()), seen)

    def kills(self, name, _):
        self.actors[name].kill()

    def pauses(self, name, _):
        self.actors[name].pause(True)

    def continues(self, name, _):
        self.actors[name].pause(False)

    def has_sources(self, name, count):
        # A system that reports no source at all has other words for them.
        one = self.actors[name]
        need(comes(lambda: one.sources() in (0, int(count))), lambda: one.sources())

    def is_at(self, name, address):
        host = "".join(f"{int(part):02X}" for part in reversed(address.split(".")))
        seen = self.actors[name].hosts()
        need(seen == {host}, seen)

    def is_not_given(self, name, word):
        given = pathlib.Path(f"/proc/{self.actors[name].popen.pid}/cmdline").read_bytes()
        need(self.word(word).encode() not in given, given)

    def stops_reading(self, name, _):
        self.actors[name].stop_reading()

    # Peers.

    def connects(self, name, path):
        self.actors[name] = Peer.at(self.folder / path)

    def others_connect(self, count, path):
        self.others += [Peer.at(self.folder / path) for _ in range(int(count))]

    def others_show(self, _, words):
        for number, one in enumerate(self.others):
            self.actors[f"other {number}"] = one
            self.shows(f"other {number}", words)

    def others_have_seen(self, _, text):
        seen = [one.input for one in self.others]
        need(comes(lambda: all(decoded(text) in one.text for one in seen)), lambda: [bytes(one.text) for one in seen][:2])

    def others_are_let_go(self, *_):
        need(comes(lambda: all(one.input.has_ended for one in self.others)), "some are connected")

    def others_write(self, _, text):
        for one in self.others:
            one.write(decoded(text))

    def others_leave(self, *_):
        while self.others:
            self.others.pop().leave()

    def listens(self, name, path):
        listener = socket.socket(socket.AF_UNIX, socket.SOCK_STREAM)
        listener.bind(str(self.folder / path))
        listener.listen()
        listener.settimeout(WAIT)
        self.listeners[name] = listener

    def accepts(self, name, _):
        stream = self.listeners[name].accept()[0]
        stream.settimeout(None)
        self.actors[name] = Peer(stream)

    def writes(self, name, text):
        self.actors[name].write(decoded(text))

    def leaves(self, name, _):
        self.actors[name].leave()

    def is_let_go(self, name, _):
        stream = self.actors[name].input
        need(comes(lambda: stream.has_ended), lambda: bytes(stream.text))

    # The input of a peer, and the painting of a process.

    def stream(self, name):
        actor = self.actors[name]
        return actor.painting if isinstance(actor, Process) else actor.input

    def sees(self, name, text):
        stream = self.stream(name)
        need(stream.sees(decoded(text)), lambda: stream.rest())

    def has_seen(self, name, text):
        """A text is anywhere in its input so far."""
        stream = self.stream(name)
        need(comes(lambda: decoded(text) in stream.text), lambda: bytes(stream.text))

    def lacks(self, name, text):
        """A text is nowhere in its input so far."""
        seen = bytes(self.stream(name).text)
        need(decoded(text) not in seen, seen)

    def reads(self, name, text):
        stream = self.stream(name)
        need(stream.reads(decoded(text)), lambda: stream.rest())

    def has_read(self, name, text):
        """All its input so far is a text."""
        stream = self.stream(name)
        need(comes(lambda: bytes(stream.text) == decoded(text)), lambda: bytes(stream.text))

    def has_size(self, name, words):
        self.sizes[name] = words.split()

    def shows(self, name, words):
        """A row, from 1, begins with a text, on a terminal of 24 rows and 80 columns, or of its size."""
        row, _, text = words.partition(" ")
        need(comes(lambda: self.row(name, row).startswith(decoded(text).decode())), lambda: self.row(name, row))

    def row(self, name, row):
        """Return a row of its screen. Only another painting is shown anew."""
        painting = bytes(self.stream(name).text)
        seen, lines = self.screens.get(name, (None, None))
        if seen != painting:
            lines = shown(self.program, painting, *self.sizes.get(name, ()))
            self.screens[name] = painting, lines
        return lines[int(row) - 1].strip("|")


ALONE = {
    "folder": Stage.makes_folder, "theirs": Stage.makes_theirs, "file": Stage.makes_file, "link": Stage.makes_link,
    "remove": lambda stage, path: (stage.folder / path).unlink(),
    "there": Stage.is_there, "gone": Stage.is_gone, "files": Stage.has_files, "mode": Stage.has_mode, "holds": Stage.holds,
    "differ": Stage.differ, "watch": Stage.watch, "saw": Stage.saw,
    "passes": Stage.passes, "refused": Stage.refused, "misused": Stage.misused,
}

# Longer phrases come before those with which they begin.
ACTS = {
    "runs": Stage.runs, "prints": Stage.prints, "ends": Stage.ends, "is killed": Stage.kills, "pauses": Stage.pauses,
    "continues": Stage.continues, "waits for sources": Stage.has_sources, "is bound at": Stage.is_at, "is unread": Stage.stops_reading,
    "is not given": Stage.is_not_given, "connects": Stage.connects, "listens": Stage.listens, "accepts": Stage.accepts,
    "others connect": Stage.others_connect, "have seen": Stage.others_have_seen, "show": Stage.others_show,
    "are let go": Stage.others_are_let_go, "write": Stage.others_write, "leave": Stage.others_leave,
    "writes": Stage.writes, "leaves": Stage.leaves, "is let go": Stage.is_let_go,
    "sees": Stage.sees, "has seen": Stage.has_seen, "lacks": Stage.lacks, "reads": Stage.reads, "has read": Stage.has_read,
    "has size": Stage.has_size, "shows": Stage.shows,
}
