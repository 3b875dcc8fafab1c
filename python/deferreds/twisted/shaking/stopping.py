"""How a search ends by a signal: what it has made is removed first, and the run that goes on is ended."""

from __future__ import annotations

import contextlib
import os
import signal
from types import FrameType
from typing import Iterator, NoReturn, Optional

#: the signals that end a process which doesn't handle them, beside Ctrl-C, of which Python makes an error itself
_SIGNALS = (signal.SIGTERM, signal.SIGHUP)


class Stopped(BaseException):
    """A signal ends this process."""

    def __init__(self, number: int) -> None:
        super().__init__(number)
        self.number = number

    @property
    def name(self) -> str:
        """The name of the signal."""
        return signal.Signals(self.number).name


def _stop(number: int, _: Optional[FrameType]) -> NoReturn:
    raise Stopped(number)


@contextlib.contextmanager
def stopped_by_signals() -> Iterator[None]:
    """Has signals raise Stopped inside of this. Once that has left it, the signal ends this process as it does alone."""
    taken = [number for number in _SIGNALS if signal.getsignal(number) == signal.SIG_DFL]
    for number in taken:
        signal.signal(number, _stop)
    ends_by: Optional[int] = None
    try:
        yield
    except Stopped as stopped:
        ends_by = stopped.number
    finally:
        for number in taken:
            signal.signal(number, signal.SIG_DFL)
    if ends_by is not None:
        os.kill(os.getpid(), ends_by)
