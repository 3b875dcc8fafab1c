"""The program's code inside Twisted's own: what runs there though no action of the program's calls for it.

A finalizer runs where the last reference to something is dropped, which may be in the midst of Twisted's code. What it does
can be told only where that code tells nothing more: then it follows the action.
"""

from __future__ import annotations

import inspect
import os
import signal
import sys
import weakref
from types import FrameType
from typing import Any, Dict, Iterator, NamedTuple, Optional, Set

from twisted import logger
from twisted.internet import base, defer, task, threads
from twisted.python import context, failure, log

from ..instruments.reactors import LOOPS
from ..telling import is_dead_reference, looked_round, looked_round_names, switches, watched
from .places import is_of_twisted, is_pythons

#: the files of Twisted's code that runs actions
_ACTING = {*LOOPS, *(module.__file__ for module in (base, defer, task, threads, context, failure))}
_MODULES = {module.__name__ for module in (base, defer, task)}
#: the folders of what watches Twisted, and of Twisted's logger
_WATCHING = os.path.dirname(os.path.dirname(__file__)) + os.sep
_LOGGER = os.path.dirname(logger.__file__) + os.sep

#: the files of the recorder that only run the program
_RUNNERS = {os.path.join(os.path.dirname(__file__), name) for name in ("main_module.py", "programs.py")}

_GENERATORS = inspect.CO_GENERATOR | inspect.CO_COROUTINE | inspect.CO_ASYNC_GENERATOR

#: why a script can't say what the program does inside Twisted's code
CALLED = "Twisted's own code calls the program's, which uses Deferreds there"
FINALIZED = "a finalizer or a log observer uses Deferreds inside Twisted's own code, which goes on after it"
CLOSED = "a coroutine or generator that is dropped uses Deferreds in its finally, inside Twisted's own code, which goes on after it"
MEDDLED = "a finalizer or a log observer uses what Twisted's own code works on"

#: which kind may be recorded as what it is made of, by the action that Twisted runs
KIND_OF_ACTION: Dict[str, str] = {
    "maybe": "maybe",
    "list": "list",
    "gather": "list",
    "lock": "lock",
    "semaphore": "lock",
    "acquire": "lock",
    "release": "lock",
    "runWith": "lock",
    "queue": "queue",
    "put": "queue",
    "get": "queue",
    "later": "clock",
    "cancelCall": "clock",
    "resetCall": "clock",
    "delayCall": "clock",
    "advance": "clock",
    "addTimeout": "timer",
    "loop": "loop",
    "stopLoop": "loop",
    "inline": "inline",
    "cooperate": "cooperator",
    "cooperateIn": "cooperator",
    "stopCooperator": "cooperator",
    "pauseTask": "cooperator",
    "resumeTask": "cooperator",
    "stopTask": "cooperator",
    "whenDone": "cooperator",
    "thread": "thread",
    "threadIn": "thread",
}


class Inside(NamedTuple):
    """Where the program acted last inside an action: how many parts of lines were logged then, the place, and whether it may.

    `ended`: how many events had ended. `reason`: why not, if more is logged after it.
    """

    told: int
    place: str
    is_uncalled: bool
    ended: int
    reason: str


class _Files(Dict[str, bool]):
    """By the name of a file, whether its code is a program's."""

    def __missing__(self, file: str) -> bool:
        found = self[file] = file not in _ACTING and not file.startswith((_WATCHING, "<frozen"))
        if not found:
            _no_programs.add(file)
        return found


_FILES = _Files()
#: the files that were met and are no program's. (To ask a set takes Python less long.)
_no_programs: Set[str] = set()
_getframe = sys._getframe


def is_entered(around: int) -> bool:
    """Whether the program's code was entered from inside Twisted's, as `entry` finds it.

    The frames of this and of so many around it are known to be neither the program's nor ones around which nobody has to look.
    """
    frame: Optional[FrameType] = _getframe(around + 1)
    while frame is not None:
        code = frame.f_code
        file = code.co_filename
        if file not in _ACTING:
            if code.co_name in looked_round_names and id(code) in looked_round:
                return False
            if file not in _no_programs and _FILES[file]:
                return True
        frame = frame.f_back
    return False


def entry(called: int = 0) -> Optional[FrameType]:
    """Where the program's code was entered from inside Twisted's, while that runs an action; None, if it wasn't.

    The caller's frame, and so many more around it, are known to be neither.
    """
    frame: Optional[FrameType] = sys._getframe(2 + called)
    found = None
    while frame is not None and id(frame.f_code) not in switches:
        if _FILES[frame.f_code.co_filename]:
            found = frame
        frame = frame.f_back
    return found


def worked_on(entered: FrameType) -> Iterator[Any]:
    """What Twisted's functions work on that are under way around the frame in which the program's code was entered."""
    frame = entered.f_back
    while frame is not None and id(frame.f_code) not in switches:
        if frame.f_code.co_filename in _ACTING:
            for value in list(frame.f_locals.values()):
                yield from filter(_is_twisteds, value if type(value) is list else [value])
        frame = frame.f_back


def _is_twisteds(value: object) -> bool:
    """Whether it is an object of a class of Twisted's, or of one below that."""
    return any(base.__module__ in _MODULES for base in type(value).__mro__)


def is_uncalled(frame: FrameType) -> bool:
    """Whether this is code that no action calls: a finalizer, a handler of a signal, an observer of Twisted's log."""
    code = frame.f_code
    if code.co_name == "__del__" or code.co_flags & _GENERATORS:
        return True
    if code.co_filename in (weakref.__file__, log.__file__) or code.co_filename.startswith(_LOGGER):
        return True
    return any(is_dead_reference(given) or isinstance(given, FrameType) for given in _arguments(frame))


def reason_of(frame: Optional[FrameType]) -> str:
    """Why this code, which no action calls, can't be recorded, where Twisted's own goes on after it."""
    if frame is None:
        return FINALIZED
    if frame.f_code.co_flags & _GENERATORS:
        return CLOSED
    given = list(_arguments(frame))
    number = next((one for one in given if isinstance(one, int)), None)
    if number is None or not any(isinstance(one, FrameType) for one in given):
        return FINALIZED
    name = signal.Signals(number).name if number in set(signal.Signals) else f"signal {number}"
    return f"a handler of {name} uses Deferreds inside Twisted's own code, which goes on after it"


def runs_program(frame: Optional[FrameType]) -> bool:
    """Whether a frame is the program's, or a reactor's that waits: what code does that is called from there can be recorded."""
    watcher = watched.observer
    if watcher is None:
        return True
    while frame is not None:
        file = frame.f_code.co_filename
        if file.startswith(_WATCHING):
            return file in _RUNNERS
        is_twisteds = file in _ACTING or (watcher.acting and is_of_twisted(file))
        if not is_twisteds and not file.startswith("<frozen") and not is_pythons(file):
            return True
        frame = frame.f_back
    return True


def _arguments(frame: FrameType) -> Iterator[Any]:
    code = frame.f_code
    names, values = code.co_varnames, frame.f_locals
    for name in names[: code.co_argcount]:
        yield values.get(name)
    if code.co_flags & inspect.CO_VARARGS:
        given = values.get(names[code.co_argcount + code.co_kwonlyargcount], ())
        yield from given if type(given) is tuple else ()
