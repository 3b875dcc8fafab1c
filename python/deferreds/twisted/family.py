"""All processes that descend from this one, and their end: whatever session or group they are in, and whether their parents run."""

from __future__ import annotations

import contextlib
import os
import signal
import time
from types import TracebackType
from typing import Dict, FrozenSet, List, NamedTuple, Optional, Type

#: of Linux's prctl: whether a process whose parent has ended becomes a child of this one
_SET_SUBREAPER, _GET_SUBREAPER = 36, 37

_SECONDS_TO_END = 5.0
_PAUSE = 0.002

_PROCESSES = "/proc"


class Process(NamedTuple):
    """A process, as the system says it."""

    number: int
    parent: int
    #: whether it has ended, and its parent hasn't asked for its status
    is_zombie: bool


class Family:
    """What this process starts within it, with all that this has started: it is ended where it ends.

    A process whose parent has ended becomes a child of this one, so that it is found. Where Linux doesn't do that, it isn't.
    """

    def __init__(self) -> None:
        self._was_subreaper = False
        #: children of this process that were there before
        self._spared: FrozenSet[int] = frozenset()

    def __enter__(self) -> Family:
        self._was_subreaper = _is_subreaper()
        _set_subreaper(True)
        own = os.getpid()
        self._spared = frozenset(one.number for one in processes() if one.parent == own) if _has_children() else frozenset()
        return self

    def __exit__(self, _: Optional[Type[BaseException]], __: Optional[BaseException], ___: Optional[TracebackType]) -> None:
        self.end()
        _set_subreaper(self._was_subreaper)

    def end(self) -> None:
        """Kills all of them, until none is left. One that can't be killed, as another user's, isn't waited for long."""
        until = time.monotonic() + _SECONDS_TO_END
        while _has_children() and time.monotonic() < until:
            found = self._found()
            if not found:
                return
            for one in found:
                self._end(one)
            time.sleep(_PAUSE)

    def _found(self) -> List[Process]:
        """Those that there are now, parents first."""
        by_parent: Dict[int, List[Process]] = {}
        for one in processes():
            if one.number not in self._spared:
                by_parent.setdefault(one.parent, []).append(one)
        found = by_parent.pop(os.getpid(), [])
        for one in found:  # (which grows meanwhile)
            found += by_parent.pop(one.number, [])
        return found

    @staticmethod
    def _end(one: Process) -> None:
        with contextlib.suppress(ProcessLookupError, PermissionError):
            if not one.is_zombie:
                os.kill(one.number, signal.SIGKILL)
        if one.parent == os.getpid():
            with contextlib.suppress(ChildProcessError):
                os.waitpid(one.number, os.WNOHANG)


def processes() -> List[Process]:
    """All processes that the system shows; none, where it shows none."""
    try:
        numbers = [int(name) for name in os.listdir(_PROCESSES) if name.isdecimal()]
    except OSError:
        return []
    return [one for one in map(_process, numbers) if one is not None]


def _process(number: int) -> Optional[Process]:
    try:
        with open(f"{_PROCESSES}/{number}/stat", "rb") as file:
            state, parent = file.read().rpartition(b")")[2].split()[:2]
    except (OSError, ValueError):  # it has ended meanwhile
        return None
    return Process(number, int(parent), state == b"Z")


def _has_children() -> bool:
    """Whether this process has a child, which may have ended."""
    try:
        os.waitid(os.P_ALL, 0, os.WEXITED | os.WNOHANG | os.WNOWAIT)
    except ChildProcessError:
        return False
    return True


# (ctypes is imported here, since a recorded program's process imports this module, and starts no family)


def _is_subreaper() -> bool:
    import ctypes

    held = ctypes.c_int(0)
    with contextlib.suppress(AttributeError, OSError):
        ctypes.CDLL(None).prctl(_GET_SUBREAPER, ctypes.byref(held), 0, 0, 0)
    return bool(held.value)


def _set_subreaper(value: bool) -> None:
    import ctypes

    with contextlib.suppress(AttributeError, OSError):
        ctypes.CDLL(None).prctl(_SET_SUBREAPER, int(value), 0, 0, 0)
