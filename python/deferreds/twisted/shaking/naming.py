"""Names that a thread, a descriptor or a delayed call has in each run: the place in the program that asked for it, and which of those of
this place it is.
"""

from __future__ import annotations

import os
import re
import sys
import threading
from types import FrameType
from typing import Dict, NamedTuple, Optional

from twisted.internet import base

from ..recording.places import is_of_twisted, is_pythons

#: the folder of what watches Twisted
_PACKAGE = os.path.dirname(os.path.dirname(os.path.abspath(__file__))) + os.sep
#: the file of the loop that runs what is due: what is round it has only begun to run it
_LOOP = str(base.__file__)
_TESTS = f"{os.sep}test{os.sep}"

_NO_NAME = re.compile(r"[^\w.:<>@#()*-]")


class Name(NamedTuple):
    """How something is called in keys, and in words."""

    key: str
    words: str


class _Files(Dict[str, bool]):
    """Which files are the program's own, by their names."""

    def __missing__(self, file: str) -> bool:
        is_library = is_pythons(file) or (is_of_twisted(file) and _TESTS not in file)
        found = self[file] = not is_library and not file.startswith((_PACKAGE, "<"))
        return found


_OWN = _Files()


class Counts:
    """Counts what has the same name, in whichever thread."""

    def __init__(self) -> None:
        self._counts: Dict[str, int] = {}
        self._lock = threading.Lock()

    def next(self, name: str) -> int:
        """The next number for this name, from 1 on."""
        with self._lock:
            number = self._counts[name] = self._counts.get(name, 0) + 1
        return number


def place_of_program() -> str:
    """The file and the line of the program that has called: `cache.py:31`; an empty text, if the reactor has called Twisted's own code."""
    frame: Optional[FrameType] = sys._getframe(1)
    while frame is not None:
        file = frame.f_code.co_filename
        if file == _LOOP and frame.f_code.co_name in ("runUntilCurrent", "mainLoop"):
            return ""
        if _OWN[file]:
            return cleaned(f"{os.path.basename(file)}:{frame.f_lineno}")
        frame = frame.f_back
    return ""


def cleaned(name: str) -> str:
    """A name as keys have it: without spaces and commas."""
    return _NO_NAME.sub("_", name)


def name_of_function(function: object) -> str:
    """What a function is called."""
    while hasattr(function, "func"):
        function = getattr(function, "func")
    return str(getattr(function, "__qualname__", None) or type(function).__name__).replace("<locals>.", "")


def ordinal(number: int) -> str:
    """A number in words: `1st`, `2nd`."""
    ending = "th" if number % 100 in (11, 12, 13) else {1: "st", 2: "nd", 3: "rd"}.get(number % 10, "th")
    return f"{number}{ending}"
