"""Puts a function in the place of another one for a while."""

from __future__ import annotations

import contextlib
from typing import Any, Callable, Dict, Iterator


@contextlib.contextmanager
def replaced(place: Any, name: str, make: Callable[[Any], Any]) -> Iterator[None]:
    """Has an attribute be what `make` makes of it."""
    before = getattr(place, name)
    setattr(place, name, make(before))
    try:
        yield
    finally:
        setattr(place, name, before)


@contextlib.contextmanager
def replaced_item(table: Dict[str, Any], key: str, value: Any) -> Iterator[None]:
    """Has a key of a table have this value."""
    before = table[key]
    table[key] = value
    try:
        yield
    finally:
        table[key] = before
