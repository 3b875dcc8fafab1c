"""What is left to a process: how much memory, and what is kept in reserve for the end of a recording."""

from __future__ import annotations

import contextlib
import fcntl
import os
import resource
from typing import Iterator, List, Optional, Tuple

from .messages import FIRST, file_of

#: how many bytes are kept in reserve, and how many descriptors: what `./deferreds` needs that is asked, and a file
_BYTES = 16 << 20
_DESCRIPTORS = 10

_PAGE = resource.getpagesize()
#: where the memory of a group of processes is limited, and how much of it they have: the files of both versions of such groups
_GROUPS = (("/sys/fs/cgroup", "memory.max", "memory.current"), ("/sys/fs/cgroup/memory", "memory.limit_in_bytes", "memory.usage_in_bytes"))


class Reserve:
    """Memory and descriptors that nothing needs until the recording is written.

    The program may close descriptors that it hasn't opened, and open others of their numbers: these aren't closed.
    """

    def __init__(self) -> None:
        self._memory: Optional[bytes] = None
        with contextlib.suppress(MemoryError):
            self._memory = bytes(_BYTES)  # (which takes addresses, and no memory until something is written there)
        self._descriptors = _duplicates()
        self._file = file_of(self._descriptors[0]) if self._descriptors else None

    @contextlib.contextmanager
    def released(self) -> Iterator[None]:
        """Has all of it be free, for good. As long as this is entered, there may be more descriptors than the program is to have."""
        self._memory = None
        descriptors, self._descriptors = self._descriptors, []
        for number in descriptors:
            if file_of(number) == self._file:
                with contextlib.suppress(OSError):
                    os.close(number)
        soft, hard = resource.getrlimit(resource.RLIMIT_NOFILE)
        more = soft + _DESCRIPTORS if hard == resource.RLIM_INFINITY else min(soft + _DESCRIPTORS, hard)
        if soft == resource.RLIM_INFINITY or more <= soft:
            yield
            return
        resource.setrlimit(resource.RLIMIT_NOFILE, (more, hard))
        try:
            yield
        finally:
            resource.setrlimit(resource.RLIMIT_NOFILE, (soft, hard))


def _duplicates() -> List[int]:
    """Descriptors of a file that nobody else has, with the highest numbers that may be left, as many as can be."""
    soft = resource.getrlimit(resource.RLIMIT_NOFILE)[0]
    first = FIRST if soft == resource.RLIM_INFINITY else max(0, min(FIRST, soft - _DESCRIPTORS))
    numbers: List[int] = []
    with contextlib.suppress(OSError):
        reader, writer = os.pipe()
        try:
            for _ in range(_DESCRIPTORS):
                numbers.append(fcntl.fcntl(reader, fcntl.F_DUPFD_CLOEXEC, first))
        finally:
            os.close(reader)
            os.close(writer)
    return numbers


def memory_left() -> Optional[int]:
    """How many bytes this process can still get, by its limits, those of its group, and what the machine has; None, if none is known."""
    return min((left for left in _rooms() if left is not None), default=None)


def _rooms() -> Iterator[Optional[int]]:
    sizes = _first_line("/proc/self/statm").split()
    if len(sizes) > 5:
        yield _below(resource.RLIMIT_AS, int(sizes[0]) * _PAGE)
        yield _below(resource.RLIMIT_DATA, int(sizes[5]) * _PAGE)
    for folder, most, taken in _GROUPS:
        for path in _groups_from(folder):
            limit, used = _first_line(f"{path}/{most}").strip(), _first_line(f"{path}/{taken}").strip()
            yield int(limit) - int(used) if limit.isdigit() and used.isdigit() else None
    yield _available()


def _below(limit: int, taken: int) -> Optional[int]:
    soft = resource.getrlimit(limit)[0]
    return None if soft == resource.RLIM_INFINITY else soft - taken


def _groups_from(folder: str) -> List[str]:
    """The folders of the group of this process and of those around it, in this file system."""
    key = (folder, os.getpid())
    if key not in _known:
        _known[key] = list(_find_groups(folder))
    return _known[key]


_known: "dict[Tuple[str, int], List[str]]" = {}


def _find_groups(folder: str) -> Iterator[str]:
    if not os.path.isdir(folder):
        return
    yield folder
    try:
        with open("/proc/self/cgroup", encoding="utf-8") as file:
            lines = file.read().splitlines()
    except OSError:
        return
    for line in lines:
        _, kinds, path = line.split(":", 2)
        if kinds == "memory" if folder.endswith("memory") else not kinds:
            parts = path.strip("/").split("/")
            for count in range(1, len(parts) + 1):
                found = os.path.join(folder, *parts[:count])
                if os.path.isdir(found):
                    yield found


def _available() -> Optional[int]:
    """What the machine has for new programs."""
    with contextlib.suppress(OSError, ValueError, IndexError):
        with open("/proc/meminfo", encoding="ascii") as file:
            for line in file:
                if line.startswith("MemAvailable:"):
                    return int(line.split()[1]) << 10
    return None


def _first_line(path: str) -> str:
    try:
        with open(path, encoding="ascii") as file:
            return file.readline()
    except (OSError, ValueError):
        return ""
