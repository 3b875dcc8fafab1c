"""Tracebacks, stacks and warnings without the frames of what watches: a recorded program shows the ones that it has by itself.

An error of what watches itself, whose innermost frame is one of its own, is shown whole.
"""

from __future__ import annotations

import contextlib
import functools
import inspect
import os
import sys
import threading
import traceback
import warnings
from types import CodeType, FrameType, TracebackType
from typing import Any, Callable, Dict, Iterable, Iterator, List, Optional, Set, Tuple

from twisted.python.failure import Failure

from ..telling import Stopped

#: the folder of what watches Twisted, as code objects name it
_WATCHING = os.path.dirname(os.path.dirname(__file__)) + os.sep

#: what Python takes the frames of a traceback or of a stack out of, in one version or another
_EXTRACTS = next(
    name for name in ("_extract_from_extended_frame_gen", "extract") if hasattr(traceback.StackSummary, name)
)

#: more levels than a stack has
_BEYOND = 1 << 30

_outer_frames: Callable[..., List[Any]] = inspect.getouterframes
_warn: Callable[..., None] = warnings.warn
_init: Callable[..., None] = Failure.__init__
_extract: Callable[..., Any] = getattr(traceback.StackSummary, _EXTRACTS).__func__


#: the frames outside of the program that is run, by their numbers of Python, and their names and files, the outermost first
_outside: Dict[int, Tuple[str, str]] = {}
#: the functions that stand in the place of Python's own, whose errors are those of the program
_standing_in: Set[CodeType] = set()


@contextlib.contextmanager
def outside() -> Iterator[None]:
    """Has the frames around this be none of a program that is run within it."""
    frames: List[FrameType] = []
    frame: Optional[FrameType] = sys._getframe(2)
    while frame is not None:
        frames.append(frame)
        frame = frame.f_back
    before = dict(_outside)
    _outside.clear()
    _outside.update((id(frame), (frame.f_code.co_name, frame.f_code.co_filename)) for frame in reversed(frames))
    try:
        yield
    finally:
        _outside.clear()
        _outside.update(before)


def stands_in(function: Callable[..., Any]) -> None:
    """Has errors that a function raises not be its own: it stands in the place of one of Python's."""
    _standing_in.add(getattr(function, "__code__"))


def _is_own(file: str) -> bool:
    return file.startswith(_WATCHING)


def _is_hidden(frame: FrameType) -> bool:
    return _is_own(frame.f_code.co_filename) or id(frame) in _outside


def _hide(failure: Any) -> None:
    """Takes the frames of what watches out of what a Failure shows."""
    stack = vars(failure).get("stack")  # later Twisteds keep no stack, and warn who asks for it
    if stack and _outside and [frame[:2] for frame in stack[: len(_outside)]] == list(_outside.values()):
        del stack[: len(_outside)]
    for frames in (failure.frames, stack):
        if frames:
            frames[:] = [frame for frame in frames if not _is_own(frame[1])]


def unlink(trace: Optional[TracebackType], keeps_first: bool = False) -> Optional[TracebackType]:
    """A traceback without the frames of what watches, unless it is that of an error of its own. `keeps_first`: all but the first."""
    entries: List[TracebackType] = []
    while trace is not None:
        entries.append(trace)
        trace = trace.tb_next
    if entries and not _is_error_of_own(entries[-1].tb_frame.f_code):
        own = {entry for entry in entries[1 if keeps_first else 0 :] if _is_own(entry.tb_frame.f_code.co_filename)}
        entries = [entry for entry in entries if entry not in own]
        for entry, following in zip(entries, [*entries[1:], None]):
            entry.tb_next = following
    return entries[0] if entries else None


def _is_error_of_own(code: CodeType) -> bool:
    return _is_own(code.co_filename) and code not in _standing_in


@functools.wraps(_init)
def _instrumented_init(self: Any, *args: Any, **kwargs: Any) -> None:
    raised = sys.exc_info()[1]
    if not args and isinstance(raised, Stopped):
        # where a run ends inside a thousand calls, Twisted catches that in each of them, and would read the whole stack each time
        _init(self, raised.with_traceback(None), type(raised))
        return
    _init(self, *args, **kwargs)
    if isinstance(self.value, BaseException):
        unlink(getattr(self, "tb", None), True)
        unlink(self.value.__traceback__, True)
    _hide(self)


def _instrumented_extract(cls: type, frames: Iterable[Tuple[Any, Any]], **options: Any) -> Any:
    shown = list(frames)
    if shown and not _is_own(shown[-1][0].f_code.co_filename):
        shown = [one for one in shown if not _is_hidden(one[0])]
    return _extract(cls, shown, **options)


def _instrumented_outer_frames(frame: Any, context: int = 1) -> List[Any]:
    return [one for one in _outer_frames(frame, context) if not _is_hidden(one[0])]


def _show_without_own_frames(module: Any, name: str) -> None:
    """Has a hook of Python's, which shows an error that nobody catches, show it without the frames of what watches."""
    hook: Callable[[Any], None] = getattr(module, name)

    @functools.wraps(hook)
    def shows(given: Any) -> None:
        trace = given.exc_traceback
        hook(given if trace is None else type(given)([unlink(trace) if part is trace else part for part in given]))

    setattr(module, name, shows)
    setattr(module, f"__{name}__", shows)


def _instrumented_warn(message: Any, category: Any = None, stacklevel: int = 1, source: Any = None, **options: Any) -> None:
    """Warns of a line of a caller, as if what watches weren't among the callers."""
    level, left, frame = 2, stacklevel - 1, sys._getframe(1).f_back
    while left > 0 and frame is not None and id(frame) not in _outside:
        level += 1
        left -= not _is_own(frame.f_code.co_filename)
        frame = frame.f_back
    _warn(message, category, level if left <= 0 else _BEYOND, source, **options)


def install() -> None:
    """Puts the instrument into Failure, and into Python's modules for tracebacks and stacks."""
    _show_without_own_frames(sys, "unraisablehook")
    _show_without_own_frames(threading, "excepthook")
    setattr(warnings, "warn", functools.wraps(_warn)(_instrumented_warn))
    setattr(inspect, "getouterframes", functools.wraps(_outer_frames)(_instrumented_outer_frames))
    setattr(Failure, "__init__", _instrumented_init)
    setattr(traceback.StackSummary, _EXTRACTS, classmethod(functools.wraps(_extract)(_instrumented_extract)))
