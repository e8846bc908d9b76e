"""Tuples with named fields, like those of `collections.namedtuple`. That takes 0.15 ms to make a class, and an attach has thirty of them.
"""
from __future__ import annotations

from _operator import itemgetter

TYPE_CHECKING = False
if TYPE_CHECKING:
    from typing import Any, TypeVar

    Self = TypeVar("Self", bound="NamedFields")


class NamedFields(tuple):  # type: ignore[type-arg]
    """A value with the fields that its class annotates, in that order; a field may have a default there."""

    __slots__ = ()
    _fields: tuple[str, ...] = ()
    _defaults: dict[str, Any] = {}

    def __init_subclass__(cls) -> None:
        own = cls.__dict__
        cls._fields = tuple(own.get("__annotations__") or cls.__annotations__)
        cls._defaults = {name: own[name] for name in cls._fields if name in own}
        for place, name in enumerate(cls._fields):
            setattr(cls, name, property(itemgetter(place)))

    def __new__(cls: type[Self], *values: Any, **named: Any) -> Self:
        if named or len(values) != len(cls._fields):
            values = cls.filled(values, named)
        return tuple.__new__(cls, values)

    @classmethod
    def filled(cls, values: tuple[Any, ...], named: dict[str, Any]) -> tuple[Any, ...]:
        """Return all fields, by their places, names and defaults; TypeError if one is missing or unknown."""
        known = {**cls._defaults, **dict(zip(cls._fields, values)), **named}
        if len(values) > len(cls._fields) or known.keys() != set(cls._fields) or named.keys() & set(cls._fields[: len(values)]):
            raise TypeError(f"{cls.__name__} has the fields {', '.join(cls._fields)}")
        return tuple([known[name] for name in cls._fields])

    def _replace(self: Self, **named: Any) -> Self:
        """Return the same value with other values of some fields."""
        if not named.keys() <= set(self._fields):
            raise TypeError(f"{type(self).__name__} has the fields {', '.join(self._fields)}")
        return tuple.__new__(type(self), [named.get(name, value) for name, value in zip(self._fields, self)])

    def __repr__(self) -> str:
        return f"{type(self).__name__}({', '.join(f'{name}={value!r}' for name, value in zip(self._fields, self))})"

    def __getnewargs__(self) -> tuple[Any, ...]:
        return tuple(self)
