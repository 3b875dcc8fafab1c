"""However a process ends, or becomes another: a run is kept before it does.

A program ends without Python's knowledge by `os._exit`, by another program in its place, and by a signal that nobody handles.
Each of these is reported first, while the program's memory is there. So are a fork and the signal SIGUSR1.
SIGKILL, and a crash of Python itself, can't be.
"""

from __future__ import annotations

import contextlib
import functools
import os
import signal
import sys
import time
from types import FrameType
from typing import Any, Callable, Dict, Iterator, List, NoReturn, Optional, Protocol, Tuple

from .signals import Handlers

#: the signals that end a process which doesn't handle them, and leave it time
_ENDING = tuple(
    getattr(signal, name)
    for name in ("SIGHUP", "SIGINT", "SIGQUIT", "SIGTERM", "SIGALRM", "SIGUSR2", "SIGVTALRM", "SIGPROF", "SIGXCPU")
    if hasattr(signal, name)
)

#: functions that the program may replace
_kill, _own_number, _access, _now = os.kill, os.getpid, os.access, time.monotonic

#: the signal at which a run is kept and goes on
ASKING = signal.SIGUSR1

#: for how many seconds a signal counts as the same one: `timeout` sends it to a process and to its group
_SAME_SECONDS = 1.0

#: the functions of `os` that put another program in the place of this one: all others call these
_REPLACING = ("execv", "execve")


@contextlib.contextmanager
def signals_waiting() -> Iterator[None]:
    """Has signals that end a process come after what is done in this."""
    before = signal.pthread_sigmask(signal.SIG_BLOCK, (*_ENDING, ASKING))
    try:
        yield
    finally:
        signal.pthread_sigmask(signal.SIG_SETMASK, before)


class Watcher(Protocol):
    """What gets the endings of a process."""

    def ends(self, how: str, frame: Optional[FrameType]) -> bool:
        """The process ends after this call: how, and the frame of the program that runs. Raises nothing.

        Gives whether it may end: it may not while the run is being kept, after which it ends in any case, and at once by another signal.
        """

    def becomes_another(self, how: str, frame: Optional[FrameType]) -> None:
        """Another program takes the place of this one after this call, if it can. Raises nothing."""

    def is_asked(self, frame: Optional[FrameType]) -> None:
        """Somebody asks for the run so far. Raises nothing."""

    def has_forked(self) -> None:
        """A child of this process was forked."""

    def is_child(self) -> None:
        """From here on this is a forked child."""


class _Current:
    watcher: Optional[Watcher] = None
    hooked = False


_current = _Current()


def _after_fork() -> None:
    if _current.watcher is not None:
        _current.watcher.is_child()


def _after_fork_of_child() -> None:
    if _current.watcher is not None:
        _current.watcher.has_forked()


class Endings:
    """Tells a watcher how this process ends."""

    def __init__(self, watcher: Watcher) -> None:
        self._watcher = watcher
        #: what the program has set for the signals that are handled here
        self._set: Dict[int, Any] = {}
        #: when the first signal came that ends the process
        self._since: Optional[float] = None
        self._handlers = Handlers()
        self._signal = signal.signal
        self._getsignal = signal.getsignal
        self._exit = os._exit

    @contextlib.contextmanager
    def watched(self) -> Iterator[None]:
        """Watches, and puts everything back."""
        if not _current.hooked:
            _current.hooked = True
            os.register_at_fork(after_in_child=_after_fork, after_in_parent=_after_fork_of_child)
        before, _current.watcher = _current.watcher, self._watcher
        replaced = self._replaced()
        was = [(module, name, getattr(module, name)) for module, name, _ in replaced]
        for module, name, function in replaced:
            setattr(module, name, function)
        self._handle()
        try:
            yield
        finally:
            self._unhandle()
            for module, name, function in was:
                setattr(module, name, function)
            _current.watcher = before

    def _replaced(self) -> List[Tuple[Any, str, Callable[..., Any]]]:
        """What stands in the place of functions, by their modules and names."""
        others: List[Tuple[Any, str, Callable[..., Any]]] = [
            (os, name, self._replacing(f"os.{name}", getattr(os, name))) for name in _REPLACING
        ]
        return [*others, (os, "_exit", self._end), (signal, "signal", self._set_signal), (signal, "getsignal", self._get_signal)]

    def _end(self, status: int) -> NoReturn:
        """`os._exit`, told before."""
        self._watcher.ends("os._exit", sys._getframe(1))
        self._exit(status)

    def _replacing(self, how: str, function: Callable[..., Any]) -> Callable[..., Any]:
        """A function that puts another program in the place of this one. If that is there, it is reported before."""

        @functools.wraps(function)
        def told(path: Any, *args: Any, **kwargs: Any) -> Any:
            if not isinstance(path, (str, bytes, os.PathLike)) or _access(path, os.X_OK):
                self._watcher.becomes_another(how, sys._getframe(1))
            return function(path, *args, **kwargs)

        return told

    # signals

    def _handle(self) -> None:
        """Handles the signals that would end the process, the one that asks, and Ctrl-C as Python itself does."""
        if self._getsignal(signal.SIGINT) == signal.default_int_handler:
            self._take(signal.SIGINT, signal.default_int_handler)
        for number in (*_ENDING, ASKING):
            if self._getsignal(number) == signal.SIG_DFL:
                self._take(number, signal.SIG_DFL)

    def _unhandle(self) -> None:
        for number, handler in self._set.items():
            if self._is_own(self._getsignal(number)):
                self._signal(number, handler)

    def _is_own(self, handler: Any) -> bool:
        return handler in (self._on_end, self._on_asking, self._on_signal)

    def _take(self, number: int, handler: Any) -> None:
        self._set[number] = handler
        with contextlib.suppress(ValueError):  # (not in the main thread)
            self._signal(number, self._on_asking if number == ASKING else self._on_signal if callable(handler) else self._on_end)

    def _set_signal(self, number: int, handler: Any) -> Any:
        """`signal.signal`, of a program that sees nothing of what is handled here."""
        before = self._get_signal(number)
        if number == ASKING and (callable(handler) or handler in (signal.SIG_DFL, signal.SIG_IGN)):
            self._signal(number, self._on_asking)
            self._set[int(number)] = handler
        elif callable(handler):
            self._signal(number, self._on_signal)
            self._set[int(number)] = handler
        elif number in _ENDING and handler == signal.SIG_DFL:
            self._signal(number, self._on_end)
            self._set[int(number)] = handler
        else:
            self._signal(number, handler)
        return before

    def _get_signal(self, number: int) -> Any:
        """`signal.getsignal`, likewise."""
        handler = self._getsignal(number)
        return self._set[number] if self._is_own(handler) else handler

    def _on_end(self, number: int, frame: Optional[FrameType]) -> None:
        """A signal that nobody handles: the process ends by it. One that comes later ends it at once, though the run is being kept."""
        since, self._since = self._since, self._since or _now()
        ends_now = True
        try:
            if since is None or _now() - since < _SAME_SECONDS:
                ends_now = self._watcher.ends(signal.Signals(number).name, frame)
        finally:
            if ends_now:
                self._signal(number, signal.SIG_DFL)
                _kill(_own_number(), number)

    def _on_asking(self, number: int, frame: Optional[FrameType]) -> None:
        """The signal that asks for the run so far. What the program has set for it follows."""
        self._watcher.is_asked(frame)
        self._on_signal(number, frame)

    def _on_signal(self, number: int, frame: Optional[FrameType]) -> None:
        """A signal that the program handles."""
        handler = self._set.get(number)
        if callable(handler):
            self._handlers.call(handler, number, frame)
