"""The build of this roam: its version, its commit, and the kit that proved it.

An installed roam has a file `build_info` beside its tools, which `make install` and the packages write. A clone has the file VERSION at its
top, and git.
"""
from __future__ import annotations

from roam_live.common.named_fields import NamedFields
from roam_live.common.process import TOOLS
from roam_live.common.suppress import suppress
from roam_live.common.text import printable

INSTALLED = TOOLS / "build_info"
CLONE = TOOLS.parent

# The most characters of a value in the file, and the most seconds of a command.
LONGEST = 100
WAIT = 5.0

UNKNOWN = "unknown"

# The number of the words that the processes of a session exchange: the lines of its sockets, and the frames of relays. A build of another
# number can't go on with a running session.
PROTOCOL = 1


class BuildInfo(NamedFields):
    """A build: its version, the commit of its sources, the kit, and the last line of the gate that proved it."""

    version: str = UNKNOWN
    commit: str = UNKNOWN
    kit: str = UNKNOWN
    gate: str = UNKNOWN

    def line(self) -> str:
        """Return the output of `--version`."""
        return f"roam {self.version} (commit {self.commit}, {self.kit.split(' ')[0]})"


def word_of(text: str) -> str:
    """Return a printable value of bounded length, or "unknown" if there is none."""
    return printable(text.strip())[:LONGEST] or UNKNOWN


def in_file() -> BuildInfo:
    """Return the build that an installed roam records in its file; OSError if there is no file."""
    lines = INSTALLED.read_text(encoding="ascii", errors="replace").splitlines()
    words = (line.partition(" ") for line in lines)
    return BuildInfo(**{name: word_of(value) for name, _, value in words if name in BuildInfo._fields})


def said_by(*words: str) -> str:
    """Return the line that a command prints, or "unknown" if there is none."""
    import subprocess

    with suppress(OSError, subprocess.SubprocessError):
        ran = subprocess.run(words, stdin=subprocess.DEVNULL, stdout=subprocess.PIPE, stderr=subprocess.DEVNULL, timeout=WAIT, check=True)
        return word_of(ran.stdout.decode("ascii", "replace"))
    return UNKNOWN


def version() -> str:
    """Return the version alone."""
    with suppress(OSError):
        return str(in_file().version)
    with suppress(OSError):
        return word_of((CLONE / "VERSION").read_text(encoding="ascii", errors="replace"))
    return UNKNOWN


def build() -> BuildInfo:
    """Return the known facts about this build. In a clone they come from git and the kit."""
    with suppress(OSError):
        return in_file()
    commit = said_by("git", "-C", str(CLONE), "rev-parse", "--short=12", "HEAD")
    return BuildInfo(version(), commit, said_by("rt", "version"))


def identity() -> str:
    """Return a word or two that identify an installed build: the version, and the commit if a file records it."""
    with suppress(OSError):
        found = in_file()
        return found.version if found.commit == UNKNOWN else f"{found.version} {found.commit}"
    return version()
