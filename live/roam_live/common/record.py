"""Records: values with named fields that can be written as JSON and read back.

The reader of each field refuses invalid values. They are used like classes of the standard module `dataclasses`. That module takes longer
to load than the whole state of a pty host.
"""
from __future__ import annotations

import binascii

from roam_live.common.errors import Fault
from roam_live.common.json_reader import read_json
from roam_live.common.suppress import suppress
from roam_live.common.text import decimal_in

TYPE_CHECKING = False
if TYPE_CHECKING:
    from collections.abc import Callable
    from typing import Any

    # Returns the value that some JSON encodes; Malformed if it is invalid. A path names it in the error.
    Reads = Callable[[Any, str], Any]

# The field with the version of a record, which each build writes.
VERSION = "version"

# The highest number that may be a key.
MOST_KEY = 10**19 - 1


class Malformed(Fault):
    """Invalid JSON for a record: the path of the value, and the error."""


def demand(holds: object, path: str, wrong: str) -> None:
    """Raise Malformed unless a condition is true."""
    if not holds:
        raise Malformed(f"{path}: {wrong}")


# ---- records

class StateField:
    """A field of a record: its reader, and a function for its initial value, None if the caller has to provide it."""

    def __init__(self, reads: Reads, makes: Callable[[], object] | None) -> None:
        self.reads, self.makes = reads, makes


def field(reads: Reads, makes: Callable[[], object] | None = None) -> Any:
    """Declare a field of a record."""
    return StateField(reads, makes)


def nothing() -> None:
    """Return None, the initial value of a field that may be unknown."""


class StateRecord:
    """A value whose fields are those that its class declares with `field`. Other attributes are not written."""

    fields: dict[str, StateField] = {}

    def __init_subclass__(cls) -> None:
        cls.fields = {name: one for name, one in vars(cls).items() if isinstance(one, StateField)}

    def __init__(self, **values: Any) -> None:
        wrong = [name for name in values if name not in self.fields]
        wrong += [name for name, one in self.fields.items() if name not in values and not one.makes]
        if wrong:
            raise TypeError(f"{type(self).__name__}: missing or unknown fields: {', '.join(wrong)}")
        for name, one in self.fields.items():
            setattr(self, name, values[name] if name in values else one.makes and one.makes())

    def __eq__(self, other: object) -> bool:
        return type(self) is type(other) and all(getattr(self, name) == getattr(other, name) for name in self.fields)

    def __repr__(self) -> str:
        return f"{type(self).__name__}({', '.join(f'{name}={getattr(self, name)!r}' for name in self.fields)})"

    def wrong(self) -> str:
        """Return the error in fields that are valid one by one; nothing if all is well."""
        return ""


# ---- readers

def number_from(least: int, most: int) -> Reads:
    """Return the reader of a whole number within bounds."""

    def reads(value: Any, path: str) -> Any:
        demand(type(value) is int and least <= value <= most, path, f"not a number from {least} to {most}")
        return value

    return reads


def flag(value: Any, path: str) -> Any:
    """Read true or false."""
    demand(isinstance(value, bool), path, "not true or false")
    return value


def text_of(longest: int, is_valid: Callable[[str], object] = str.isprintable) -> Reads:
    """Return the reader of a text of at most so many characters that passes a test."""

    def reads(value: Any, path: str) -> Any:
        is_text = isinstance(value, str) and len(value) <= longest
        demand(is_text and is_valid(value), path, f"not a valid text of at most {longest} characters")
        return value

    return reads


def bytes_of(most: int) -> Reads:
    """Return the reader of at most so many bytes, in base64."""

    def reads(value: Any, path: str) -> Any:
        found: bytearray | None = None
        if isinstance(value, str) and len(value) <= (most + 2) // 3 * 4:
            with suppress(ValueError):
                found = bytearray(binascii.a2b_base64(value))
        demand(found is not None and len(found) <= most and base64_of(found) == value, path, f"not base64 of at most {most} bytes")
        return found

    return reads


def base64_of(data: bytes) -> str:
    """Return bytes in base64."""
    return binascii.b2a_base64(data, newline=False).decode("ascii")


def optional(reads: Reads) -> Reads:
    """Return the reader of a value that may be null."""
    return lambda value, path: None if value is None else reads(value, path)


def row_of(*readers: Reads) -> Reads:
    """Return the reader of a tuple with a value for each of these readers."""

    def reads(value: Any, path: str) -> Any:
        demand(isinstance(value, list) and len(value) == len(readers), path, f"not a list of {len(readers)}")
        return tuple(one(value[place], f"{path}.{place}") for place, one in enumerate(readers))

    return reads


def list_of(reads_one: Reads, least: int, most: int) -> Reads:
    """Return the reader of a list of `least` to `most` values."""

    def reads(value: Any, path: str) -> Any:
        demand(isinstance(value, list) and least <= len(value) <= most, path, f"not a list of {least} to {most}")
        return [reads_one(one, f"{path}.{place}") for place, one in enumerate(value)]

    return reads


def map_of(reads_key: Reads, reads_one: Reads, most: int) -> Reads:
    """Return the reader of a mapping with at most so many keys, which are texts in JSON."""

    def reads(value: Any, path: str) -> Any:
        demand(isinstance(value, dict) and len(value) <= most, path, f"not a mapping of at most {most}")
        return {reads_key(key, f"{path}.{key[:40]}"): reads_one(one, f"{path}.{key[:40]}") for key, one in value.items()}

    return reads


def decimal(reads_number: Reads) -> Reads:
    """Return the reader of a key that is a number in its canonical form."""

    return lambda key, path: reads_number(decimal_in(key, MOST_KEY), path)


def one_of(*choices: object) -> Reads:
    """Return the reader of one of these values."""

    def reads(value: Any, path: str) -> Any:
        demand(any(value == one and type(value) is type(one) for one in choices), path, f"not one of {', '.join(map(str, choices))}")
        return value

    return reads


def record_of(cls: type[StateRecord]) -> Reads:
    """Return the reader of a record of any build: a field that is missing gets its initial value, and an unknown one is left out."""
    needed = [name for name, one in cls.fields.items() if name == VERSION or not one.makes]

    def reads(value: Any, path: str) -> Any:
        demand(isinstance(value, dict) and all(name in value for name in needed), path, f"not the fields {', '.join(cls.fields)}")
        made = cls(**{name: one.reads(value[name], f"{path}.{name}") for name, one in cls.fields.items() if name in value})
        demand(not made.wrong(), path, made.wrong())
        return made

    return reads


# ---- JSON

def plain(value: Any) -> object:
    """Return a value in its JSON form."""
    if isinstance(value, StateRecord):
        return {name: plain(getattr(value, name)) for name in value.fields}
    if isinstance(value, dict):
        return {str(key): plain(one) for key, one in value.items()}
    if isinstance(value, (list, tuple)):
        return [plain(one) for one in value]
    return base64_of(value) if isinstance(value, (bytes, bytearray)) else value


def written(value: StateRecord) -> str:
    """Return a record as JSON."""
    import json

    return json.dumps(plain(value))


def read_back(cls: type[StateRecord], text: str, most: int) -> Any:
    """Return the record in a text of at most so many characters; Malformed if it is invalid."""
    demand(len(text) <= most, cls.__name__, f"longer than {most} characters")
    try:
        value = read_json(text)
    except (ValueError, RecursionError):
        raise Malformed(f"{cls.__name__}: not JSON") from None
    return record_of(cls)(value, cls.__name__)
