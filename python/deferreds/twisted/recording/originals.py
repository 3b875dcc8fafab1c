"""Python's own functions and classes, as they are before a program runs: one that replaces some for itself doesn't replace them here."""

from __future__ import annotations

import sys
from types import ModuleType
from typing import Any, Dict, List, Tuple

#: the packages whose functions aren't put back: the instruments are in them, or the program's own code is
_OTHERS = frozenset({"__main__", "deferreds", "twisted", "zope"})


class Originals:
    """What the modules have that are loaded now. It is in its place while this is entered."""

    def __init__(self) -> None:
        self._kept: List[Tuple[Dict[str, Any], Dict[str, Any]]] = [
            (vars(module), {key: value for key, value in vars(module).items() if callable(value)})
            for name, module in list(sys.modules.items())
            if isinstance(module, ModuleType) and name.partition(".")[0] not in _OTHERS
        ]
        #: what the program has put in their place, each with the names of its module
        self._replaced: List[Tuple[Dict[str, Any], Dict[str, Any]]] = []

    def __enter__(self) -> None:
        for names, kept in self._kept:
            replaced = {key: names.get(key, self) for key, value in kept.items() if names.get(key, self) is not value}
            if replaced:
                self._replaced.append((names, replaced))
                names.update({key: kept[key] for key in replaced})

    def __exit__(self, *error: object) -> None:
        while self._replaced:
            names, replaced = self._replaced.pop()
            for key, value in replaced.items():
                if value is self:  # there was nothing of this name
                    names.pop(key, None)
                else:
                    names[key] = value
