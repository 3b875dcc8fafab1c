"""What becomes of a recording in another thread than the main one, where the main program or the process ends."""

from __future__ import annotations

import sys
import threading
import traceback
from threading import get_ident
from typing import Any, Optional

from ..instruments.starts import wait_between_events
from ..telling import Observer, take_off, on_elsewhere


def is_elsewhere(recorder: Observer) -> bool:
    """Whether it records, or has recorded last, in another thread than this one."""
    return recorder.thread not in (0, get_ident())


def wait_for_thread(recorder: Observer) -> None:
    """The main program has ended. If another thread is recorded, it goes on until Python itself would end: then no more is recorded."""
    if on_elsewhere(recorder.lineage) is None:
        return
    shut_down: Any = getattr(threading, "_shutdown")
    try:
        shut_down()  # this waits for all threads that aren't daemons
    except KeyboardInterrupt:  # as Python has it at its end
        print(f"Exception ignored in: {threading!r}", file=sys.stderr)
        traceback.print_exc()
    end_elsewhere(recorder)


def pause_elsewhere(recorder: Observer) -> Optional[Observer]:
    """Waits until another thread that is recorded is between events, if it soon is. Gives the observer of it, if there is one."""
    observer = on_elsewhere(recorder.lineage)
    if observer is not None:
        wait_between_events(observer)
    return observer


def end_elsewhere(recorder: Observer) -> None:
    """Records no more of another thread."""
    if pause_elsewhere(recorder) is not None:
        take_off(recorder.lineage)
