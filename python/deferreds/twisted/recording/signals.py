"""When handlers of signals are called: where the program's code runs, or the reactor waits, and not inside Twisted's own code or the recorder's.

Python calls a handler between any two instructions. Inside Twisted's own code, which may go on to do more, no script can say what it does,
and an error that it raises would leave things half done. There it is called a little later, as if the signal had come then.
"""

from __future__ import annotations

import sys
from types import FrameType
from typing import Any, Callable, List, Optional, Tuple

from ..instruments.tracebacks import stands_in
from .inside import runs_program

Handler = Callable[[int, Optional[FrameType]], Any]


class Handlers:
    """Calls the program's handlers of signals."""

    def __init__(self) -> None:
        #: those that wait for the program's code to run
        self._waiting: List[Tuple[Handler, int]] = []

    def call(self, handler: Handler, number: int, frame: Optional[FrameType]) -> None:
        """A signal has come while this frame ran: calls its handler, at once or as soon as the program's code runs."""
        is_profiled = sys.getprofile() is not None and not self._waiting
        if is_profiled or (not self._waiting and runs_program(frame)):
            handler(number, frame)
            return
        self._waiting.append((handler, number))
        sys.setprofile(self._look)

    def _look(self, frame: FrameType, event: str, _: object) -> None:
        """Python has called a function, or one returns: calls what waits, if it is the program's code that runs or goes on."""
        running = frame.f_back if event == "return" else frame
        if running is None or not runs_program(running):
            return
        sys.setprofile(None)
        waiting, self._waiting = self._waiting, []
        while waiting:
            handler, number = waiting.pop(0)
            try:
                handler(number, running)
            except BaseException:
                self._waiting += waiting
                if self._waiting:
                    sys.setprofile(self._look)
                raise


stands_in(Handlers.call)
stands_in(Handlers._look)
