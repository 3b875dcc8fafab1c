"""What a run has met, in memory that its process shares with the one which started it: it is there, too, if the run is killed.

The program can't close it, as it could a file, and no name of a file is needed.
"""

from __future__ import annotations

import mmap
import os
import threading
from typing import Iterator, List

_SIZE = 4 << 20
#: at the beginning stands how many bytes follow
_HEAD = 8


class Log:
    """Lines of fields, which one process writes. What doesn't fit is dropped."""

    def __init__(self, size: int = _SIZE) -> None:
        self._memory = mmap.mmap(-1, size)
        self._size = size
        self._end = _HEAD
        self._writer = os.getpid()
        self._lock = threading.Lock()

    def begin(self) -> None:
        """From here on this process writes, and no other: children of it, which are forked, don't."""
        self._writer = os.getpid()

    def write(self, *fields: str) -> None:
        """Adds a line."""
        if os.getpid() != self._writer:
            return
        line = ("\t".join(field.translate(_SPACES) for field in fields) + "\n").encode("utf-8", "backslashreplace")
        with self._lock:
            end = self._end + len(line)
            if end > self._size:
                return
            self._memory[self._end : end] = line
            self._memory[:_HEAD] = (end - _HEAD).to_bytes(_HEAD, "big")
            self._end = end

    def lines(self) -> Iterator[List[str]]:
        """The lines, each as its fields."""
        length = int.from_bytes(self._memory[:_HEAD], "big")
        text = self._memory[_HEAD : _HEAD + length].decode("utf-8")
        return (line.split("\t") for line in text.split("\n")[:-1])

    def close(self) -> None:
        """Gives the memory back."""
        self._memory.close()


_SPACES = {ord("\t"): " ", ord("\n"): " ", ord("\r"): " "}
