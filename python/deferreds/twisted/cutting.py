"""Cuts a script down to one that still shows something, in smaller and smaller steps."""

from __future__ import annotations

import copy
import json
from typing import Any, Callable, Iterator, List, Tuple, Union

#: where a part of a script stands: the keys and places that lead to it
Path = Tuple[Union[str, int], ...]


def cut_down(script: str, shows: Callable[[str], bool], trials: int) -> str:
    """A script that still shows it, from which no part can be taken. `shows` is asked so many times at most."""
    left = [trials]
    current = json.loads(script)
    best = script
    changed = True
    while changed:
        changed = False
        for smaller in _smaller(current):
            if left[0] <= 0:
                return best
            left[0] -= 1
            text = _said(smaller)
            if shows(text):
                current, best, changed = smaller, text, True
                break
    return best


def _said(root: Any) -> str:
    return json.dumps(root, ensure_ascii=False, separators=(",", ":"))


def _smaller(root: Any) -> Iterator[Any]:
    """Scripts that are one part smaller, those first that lose most."""
    lists = sorted(_lists(root, ()), key=lambda path: (len(path), -len(_at(root, path))))
    for path in lists:
        yield from _without_items(root, path)
    for path in _objects(root, ()):
        for key in list(_at(root, path)):
            yield _without(root, path, key)
    for path in lists:
        yield from _raised(root, path)
    for path in _numbers(root, ()):
        if _at(root, path) not in (0, 1):
            for number in (0, 1):
                yield _with(root, path, number)


def _without_items(root: Any, path: Path) -> Iterator[Any]:
    """The script without some items of this list, first many of them."""
    count = len(_at(root, path))
    size = count
    while size >= 1:
        for start in range(0, count, size):
            smaller = copy.deepcopy(root)
            del _at(smaller, path)[start : start + size]
            yield smaller
        size //= 2


def _raised(root: Any, path: Path) -> Iterator[Any]:
    """The script with an item of this list replaced by one that stands inside it."""
    for place, item in enumerate(_at(root, path)):
        for inner in _lists(item, ()):
            if inner and _at(item, inner) and isinstance(_at(item, inner)[0], list):
                for part in _at(item, inner):
                    yield _with(root, (*path, place), part)


def _lists(value: Any, path: Path) -> Iterator[Path]:
    if isinstance(value, list):
        yield path
        for place, item in enumerate(value):
            yield from _lists(item, (*path, place))
    elif isinstance(value, dict):
        for key, item in value.items():
            yield from _lists(item, (*path, key))


def _objects(value: Any, path: Path) -> Iterator[Path]:
    if isinstance(value, dict):
        yield path
    items: List[Tuple[Any, Any]] = (
        list(value.items())
        if isinstance(value, dict)
        else list(enumerate(value)) if isinstance(value, list) else []
    )
    for key, item in items:
        yield from _objects(item, (*path, key))


def _numbers(value: Any, path: Path) -> Iterator[Path]:
    if isinstance(value, list):
        for place, item in enumerate(value):
            yield from _numbers(item, (*path, place))
    elif isinstance(value, dict):
        for key, item in value.items():
            yield from _numbers(item, (*path, key))
    elif type(value) is int:
        yield path


def _at(root: Any, path: Path) -> Any:
    for step in path:
        root = root[step]
    return root


def _with(root: Any, path: Path, value: Any) -> Any:
    changed = copy.deepcopy(root)
    _at(changed, path[:-1])[path[-1]] = copy.deepcopy(value)
    return changed


def _without(root: Any, path: Path, key: Any) -> Any:
    changed = copy.deepcopy(root)
    del _at(changed, path)[key]
    return changed
