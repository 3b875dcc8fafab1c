"""The batches in which the posts of a run's callers were taken: what `./deferreds --batches` is given."""

from __future__ import annotations

import json
from typing import List, Tuple

#: a post: its caller, and which of the caller's it is, both from 0
Post = Tuple[int, int]
#: the posts that each drain took, and at last those that were left for the end
Batches = Tuple[Tuple[Post, ...], ...]


class NotBatches(Exception):
    """The value isn't an array of arrays of posts."""


def read_batches(told: object) -> Batches:
    """Reads batches as `./deferreds --json` prints them. Raises NotBatches."""
    return tuple(tuple(_post(post) for post in _array(batch)) for batch in _array(told))


def parse_batches(text: str) -> Batches:
    """Reads batches from their text. Raises NotBatches."""
    try:
        return read_batches(json.loads(text))
    except (ValueError, RecursionError):
        raise NotBatches from None


def text_of(batches: Batches) -> str:
    """The text of batches, without spaces: one word for a shell, in quotes."""
    return json.dumps(batches, separators=(",", ":"))


def _array(told: object) -> List[object]:
    if not isinstance(told, list):
        raise NotBatches
    return told


def _post(told: object) -> Post:
    post = _array(told)
    if len(post) != 2:
        raise NotBatches
    return _number(post[0]), _number(post[1])


def _number(told: object) -> int:
    if type(told) is not int or told < 0:
        raise NotBatches
    return told
