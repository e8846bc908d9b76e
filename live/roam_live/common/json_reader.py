"""Reads JSON by the C scanner of the standard library alone.

The package `json` compiles regular expressions at its import, which takes 116,000 bytecodes. An attach reads just two short notes.
"""
from __future__ import annotations

TYPE_CHECKING = False
if TYPE_CHECKING:
    from collections.abc import Callable
    from typing import Any

    make_scanner: Callable[[object], Callable[[str, int], tuple[Any, int]]]
else:
    from _json import make_scanner

BLANK = " \t\n\r"


class ScannerSettings:
    """The settings of the scanner, equal to those of `json.loads`."""

    strict = True
    object_hook = object_pairs_hook = None
    parse_float = parse_constant = float
    parse_int = int


SCAN = make_scanner(ScannerSettings)


def read_json(text: str) -> Any:
    """Return the value of a text; ValueError if it is not JSON, RecursionError if it is nested too deep."""
    text = text.strip(BLANK)
    try:
        value, end = SCAN(text, 0)
    except StopIteration:
        raise ValueError("not JSON") from None
    if end != len(text):
        raise ValueError("not JSON")
    return value
