"""Ignores exceptions of some classes, like `contextlib.suppress`.

`contextlib` imports `functools` and `collections`, which takes 25,000 bytecodes, half of an attach until it shows the window.
"""
from __future__ import annotations


class suppress:
    """Ends a block at an exception of one of these classes, and ignores it."""

    def __init__(self, *kinds: type[BaseException]) -> None:
        self.kinds = kinds

    def __enter__(self) -> None:
        """Do nothing."""

    def __exit__(self, kind: type[BaseException] | None, fault: BaseException | None, trace: object) -> bool:
        return kind is not None and issubclass(kind, self.kinds)
