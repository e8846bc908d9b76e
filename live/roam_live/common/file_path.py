"""Paths of files and folders that `/` extends.

`pathlib` has more, and takes 133,000 bytecodes to load, more than an attach needs of roam before it shows a window.
"""
from __future__ import annotations

import os

TYPE_CHECKING = False
if TYPE_CHECKING:
    from collections.abc import Iterator

# Bytes that are read at once.
CHUNK = 1 << 16


class FilePath(str):
    """A path as a string, with those methods of `pathlib.Path` that the tools use."""

    __slots__ = ()

    def __truediv__(self, name: str) -> FilePath:
        return FilePath(os.path.join(self, name))

    @property
    def name(self) -> str:
        """Return the last part of the path."""
        return os.path.basename(self)

    @property
    def parent(self) -> FilePath:
        """Return the path without its last part."""
        return FilePath(os.path.dirname(self))

    def exists(self) -> bool:
        """Return True if there is a file or folder."""
        return os.path.exists(self)

    def is_file(self) -> bool:
        """Return True if there is a file."""
        return os.path.isfile(self)

    def is_dir(self) -> bool:
        """Return True if there is a folder."""
        return os.path.isdir(self)

    def stat(self) -> os.stat_result:
        """Return the result of stat(2) of the file."""
        return os.stat(self)

    def iterdir(self) -> Iterator[FilePath]:
        """Yield the paths of the entries of the folder."""
        return iter([self / name for name in os.listdir(self)])

    def read_bytes(self) -> bytes:
        """Return the bytes of the file, by as few system calls as possible."""
        end = os.open(self, os.O_RDONLY | os.O_CLOEXEC)
        try:
            chunks = []
            while chunk := os.read(end, CHUNK):
                chunks.append(chunk)
        finally:
            os.close(end)
        return b"".join(chunks)

    def read_text(self, encoding: str = "utf-8", errors: str = "strict") -> str:
        """Return the text in the file."""
        return self.read_bytes().decode(encoding, errors)

    def mkdir(self, mode: int = 0o777, exist_ok: bool = False) -> None:
        """Create the folder; an existing one is no error if `exist_ok` is True."""
        try:
            os.mkdir(self, mode)
        except FileExistsError:
            if not (exist_ok and os.path.isdir(self)):
                raise

    def rmdir(self) -> None:
        """Remove the folder, which has to be empty."""
        os.rmdir(self)

    def unlink(self, missing_ok: bool = False) -> None:
        """Remove the file; a missing one is no error if `missing_ok` is True."""
        try:
            os.unlink(self)
        except FileNotFoundError:
            if not missing_ok:
                raise
