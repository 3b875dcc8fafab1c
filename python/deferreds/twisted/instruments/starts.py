"""The instrument of a reactor's start, which may be in another thread than the one in which the program has begun.

A program is recorded in one thread. If its reactor runs in another one, as crochet has it do, that is the thread: the recorder moves
there when the reactor starts. What other threads have the reactor call are events then. A reactor that isn't the installed one is none
of those: crochet has another one write its log.
"""

from __future__ import annotations

import os
import sys
import time
from types import FrameType
from typing import Any, Iterator, Optional

from twisted.internet import base

from ..telling import Observer, observers_on, watched

_start = base.ReactorBase.startRunning

#: how many seconds a thread is waited for that is in the midst of an event
_MOST_SECONDS = 1.0
_PAUSE = 0.001

#: where the code is that tells what happens
_FOLDER = os.path.dirname(__file__) + os.sep
_RECORDER = os.path.join(os.path.dirname(os.path.dirname(__file__)), "recording", "recorder.py")

BUSY = "a reactor starts in another thread, while a callback of the recorded one runs"


def is_between_events(observer: Observer) -> bool:
    """Whether nothing happens that an observer has begun to tell, which may be on in another thread."""
    if observer.acting or observer.frame is not observer.top:
        return False
    frames = _frames(sys._current_frames().get(observer.thread))
    return not any(frame.f_code.co_filename.startswith(_FOLDER) or frame.f_code.co_filename == _RECORDER for frame in frames)


def wait_between_events(observer: Observer) -> bool:
    """Waits until nothing happens, but not for long. Gives whether that is so. A thread that has ended isn't waited for."""
    until = time.monotonic() + _MOST_SECONDS
    while not is_between_events(observer):
        if time.monotonic() > until or observer.thread not in sys._current_frames():
            return False
        time.sleep(_PAUSE)
    return True


def _frames(frame: Optional[FrameType]) -> Iterator[FrameType]:
    while frame is not None:
        yield frame
        frame = frame.f_back


def _instrumented_start(self: Any, *args: Any, **kwargs: Any) -> Any:
    if observers_on:
        if watched.observer is None and sys.modules.get("twisted.internet.reactor") is self:
            _move()
        if watched.observer is not None:
            watched.observer.reactor = self
    return _start(self, *args, **kwargs)


def _move() -> None:
    """Has an observer be on in this thread, where a reactor starts, if none runs in the thread in which it is on."""
    for observer in observers_on:
        if observer.moves and not (observer.reactor is not None and observer.reactor.running):
            if wait_between_events(observer):
                observer.move_here()
            else:
                observer.problem(BUSY)
            return


def install() -> None:
    """Puts the instrument into ReactorBase."""
    setattr(base.ReactorBase, "startRunning", _instrumented_start)
