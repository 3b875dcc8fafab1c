"""What `./record` says, on the standard error that it was started with."""

from __future__ import annotations

import contextlib
import fcntl
import os
import select
from typing import Optional, Tuple

_STANDARD_ERROR = 2

#: numbers below this one are left to the program, which may count on the next free one
FIRST = 100

#: how many seconds a message waits for a reader that is slow, where standard error doesn't block
_PATIENCE = 1.0


class Messages:
    """Writes lines to the standard error of the start.

    The program may put another object in the place of `sys.stderr`, or another file in that of descriptor 2. Where it has closed
    all descriptors, nothing is written any more. A forked child, which may be a daemon, holds no standard error open: it writes to
    descriptor 2, as long as that is of the file of the start.
    """

    def __init__(self, who: str) -> None:
        """`who` stands before each line."""
        self._who = who
        self._descriptor = _duplicate()
        self._file = file_of(self._descriptor)

    def be_of_child(self) -> None:
        """From here on this is a forked child."""
        before, self._descriptor = self._descriptor, _STANDARD_ERROR
        if before is not None and before != _STANDARD_ERROR and file_of(before) == self._file:
            os.close(before)

    def say(self, text: str) -> None:
        """Writes a line. A standard error that can't be written is no error."""
        data = f"{self._who}: {text}\n".encode("utf-8", "backslashreplace")
        if self._descriptor is None or file_of(self._descriptor) != self._file:
            return
        with contextlib.suppress(OSError):
            while data:
                data = data[_written(self._descriptor, data) :]


def _duplicate() -> Optional[int]:
    """A descriptor of its own for standard error, or none, where that is closed."""
    for first in (FIRST, 0):  # a limit may leave no numbers from the first on
        with contextlib.suppress(OSError):
            return fcntl.fcntl(_STANDARD_ERROR, fcntl.F_DUPFD_CLOEXEC, first)
    return None


def file_of(descriptor: Optional[int]) -> Optional[Tuple[int, int]]:
    """Which file a descriptor is of. Another one may have its number by now."""
    if descriptor is None:
        return None
    try:
        status = os.fstat(descriptor)
    except OSError:
        return None
    return status.st_dev, status.st_ino


def _written(descriptor: int, data: bytes) -> int:
    """Writes as much as can be, and gives how many bytes. Raises OSError where nothing can be."""
    try:
        return os.write(descriptor, data)
    except BlockingIOError:
        if not select.select([], [descriptor], [], _PATIENCE)[1]:
            raise
        return 0
