"""Regular expressions that are compiled on first use, so that nobody waits for unused ones."""
from __future__ import annotations

TYPE_CHECKING = False
if TYPE_CHECKING:
    from collections.abc import Callable
    from typing import Any


class LazyPattern:
    """A regular expression with the methods of `re.Pattern`. Flags are in its text, for example `(?a)`."""

    if TYPE_CHECKING:
        fullmatch: Callable[..., Any]
        match: Callable[..., Any]
        search: Callable[..., Any]
        finditer: Callable[..., Any]
        sub: Callable[..., Any]

    def __init__(self, pattern: str | bytes) -> None:
        self.pattern = pattern

    def __getattr__(self, name: str) -> Any:
        """Compile it at the first use of a method. Later uses find the method directly."""
        import re

        method = getattr(re.compile(self.pattern), name)
        setattr(self, name, method)
        return method
