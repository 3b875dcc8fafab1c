"""The file of a run's notes: what is recorded, written as it happens.

The file has segments. Each is a head of eight bytes, the length and the CRC-32 of what follows, both with the most significant byte first;
and then what `marshal` makes, in its version 2, of a flat list of numbers, texts, True, False and None. A segment ends where an event
ends. So a reader drops a torn last segment, and never a part of an event.
"""

from __future__ import annotations

import contextlib
import fcntl
import marshal
import os
import re
import struct
from pathlib import Path
from typing import IO, Any, Callable, Iterator, List, Optional, Sequence
from zlib import crc32

from ...files import open_plain
from .messages import FIRST, file_of

#: what the name of the file ends with
NOTES = ".notes"

#: the version of `marshal` that writes each item by itself, without references to earlier ones
_MARSHAL = 2
_HEAD = struct.Struct(">II")

#: how many bytes are read at once
_PIECE = 1 << 20

#: what a list of `marshal` begins with, and items that take the same room each: numbers, floats, True, False and None
_LIST = struct.Struct("<cI")
_SHORT = re.compile(rb"(?:i.{4}|[NTF]|g.{8})*", re.DOTALL)
#: before a text, and how long it is; before the digits of a longer number, and how many there are, less than 0 of one below 0
_TEXT, _LONG = ord("u"), ord("l")
_LENGTH = struct.Struct("<xi")
#: how many digits such a number has at most
_MOST_DIGITS = 6


class BadNotes(Exception):
    """A file isn't one of notes, or is damaged: why, in a few words."""


def segment(items: Sequence[Any]) -> bytes:
    """A segment that has these items."""
    data = marshal.dumps(list(items), _MARSHAL)
    return _HEAD.pack(len(data), crc32(data)) + data


def segments(read: Callable[[int], bytes], size: int) -> Iterator[List[Any]]:
    """The items of each segment. What is torn at the end is left out, and so is all from a damaged segment on.

    `read` gives as many of the next bytes as it is asked for, or less at the end; `size` is how many there are at most. Raises BadNotes,
    if a whole segment isn't what this module writes.
    """
    left = size
    while left > _HEAD.size:
        head = read(_HEAD.size)
        if len(head) < _HEAD.size:
            return
        length, check = _HEAD.unpack(head)
        left -= _HEAD.size + length
        if left < 0:
            return
        data = read(length)
        if len(data) < length or crc32(data) != check:
            return
        yield _items(data)


def _items(data: bytes) -> List[Any]:
    """The items of a segment. `marshal` only gets what can't be anything but numbers and texts."""
    if not _is_flat(data):
        raise BadNotes("a segment holds something else than numbers and texts")
    try:
        items: List[Any] = marshal.loads(data)
    except (ValueError, EOFError, TypeError):
        raise BadNotes("a segment can't be read") from None
    return items


def _is_flat(data: bytes) -> bool:
    """Whether this is a list of numbers and texts, each whole."""
    at, end = _LIST.size, len(data)
    if end < at or data[:1] != b"[":
        return False
    while at < end:
        found = _SHORT.match(data, at)
        if found is None or found.end() == at:
            at = _after_long(data, at)
        else:
            at = found.end()
    return at == end


def _after_long(data: bytes, at: int) -> int:
    """Where a text or a longer number ends that begins there: behind the end of all, if it is something else."""
    beyond = len(data) + 1
    if len(data) < at + _LENGTH.size:
        return beyond
    kind = data[at]
    count: int = _LENGTH.unpack_from(data, at)[0]
    if kind == _TEXT and count >= 0:
        return at + _LENGTH.size + count
    if kind == _LONG and abs(count) <= _MOST_DIGITS:
        return at + _LENGTH.size + 2 * abs(count)
    return beyond


class NotesFile:
    """A new file of notes, to which segments are added. What can't be written is kept in memory, and tried again with the next one.

    The program may close its descriptor, and open another file that gets the number: then the file is opened again by its name.
    """

    def __init__(self, path: Path, say: Callable[[str], None]) -> None:
        """`say` is called once, with why segments can't be written. Raises OSError if the file can't be made."""
        self.path = path
        self._say = say
        self._has_said = False
        self._descriptor = _opened(path)
        self._file = file_of(self._descriptor)
        #: how many bytes the file has, and what isn't in it yet
        self._size = 0
        self._pending = b""
        #: whether nothing is written any more, since it is another process that does
        self._is_shared = False
        #: what the file of a forked child is named
        self._of_child: Optional[Path] = None

    def add(self, items: Sequence[Any]) -> None:
        """Adds a segment."""
        self._pending += segment(items)
        if self._of_child is not None:
            self._begin_own(self._of_child)
        if not self._is_shared:
            self._write()

    def be_shared(self) -> None:
        """From here on another process writes the file, and this one only reads what is there."""
        self._is_shared = True

    def be_of_child(self, path: Path) -> None:
        """From here on this is a forked child, which gets a file of its own when it adds a segment. It begins with what is there."""
        self._is_shared, self._of_child = True, path

    def read_all(self) -> Iterator[List[Any]]:
        """The items of each segment that was added. Raises BadNotes, if the file is lost or was changed."""
        with self._again() as file:
            yield from segments(_Joined(file, self._size, self._pending).read, self.size)

    def remove(self) -> None:
        """Removes the file, if its name is still of this one."""
        with contextlib.suppress(OSError):
            status = os.lstat(self.path)
            if (status.st_dev, status.st_ino) == self._file:
                os.unlink(self.path)

    @property
    def size(self) -> int:
        """How many bytes were added."""
        return self._size + len(self._pending)

    @property
    def is_there(self) -> bool:
        """Whether the file is there, and has all that was added."""
        return not self._pending and os.path.lexists(self.path)

    # descriptors

    def _is_open(self) -> bool:
        """Whether the descriptor is of the file, which is opened again where it isn't and has its name."""
        if self._file is not None and file_of(self._descriptor) == self._file:
            return True
        with contextlib.suppress(OSError):
            descriptor = os.open(self.path, os.O_RDWR | os.O_APPEND | os.O_NOFOLLOW | os.O_NONBLOCK | os.O_CLOEXEC)
            if file_of(descriptor) == self._file:
                self._descriptor = _high(descriptor)
                return True
            os.close(descriptor)
        return False

    def _again(self) -> IO[bytes]:
        """The file, to be read from its beginning. It needn't have a name any more."""
        if not self._is_open():
            raise BadNotes(f"{self.path.name} isn't there any more")
        try:
            return open(f"/proc/self/fd/{self._descriptor}", "rb")
        except OSError:
            return open_plain(self.path)

    def _write(self) -> None:
        if not self._is_open():
            self._say_once("it isn't there any more")
            return
        try:
            while self._pending:
                written = os.write(self._descriptor, self._pending)
                self._size += written
                self._pending = self._pending[written:]
        except OSError as error:
            self._say_once(error.strerror or str(error))

    def _say_once(self, why: str) -> None:
        if not self._has_said:
            self._has_said = True
            self._say(f"{self.path.name} can't be written, and what it lacks is in memory alone: {why}")

    def _begin_own(self, path: Path) -> None:
        """Begins the file of a forked child, with what its parent had written."""
        self._of_child = None
        try:
            with self._again() as file:
                before = file.read(self._size)
            descriptor = _opened(path)
        except (OSError, BadNotes) as why:
            self._say_once(str(why))
            return
        self.path, self._descriptor, self._file = path, descriptor, file_of(descriptor)
        self._pending, self._size, self._is_shared = before + self._pending, 0, False


class _Joined:
    """The first bytes of a file, and others after them."""

    def __init__(self, file: IO[bytes], count: int, rest: bytes) -> None:
        self._file = file
        self._left = count
        self._rest = rest

    def read(self, count: int) -> bytes:
        """As many of the next bytes."""
        data = self._file.read(min(count, self._left))
        self._left -= len(data)
        if len(data) < count and self._left == 0:
            more = count - len(data)
            data, self._rest = data + self._rest[:more], self._rest[more:]
        return data


def read_notes(path: Path) -> Iterator[List[Any]]:
    """The items of each segment of a file. Raises OSError if it can't be read or isn't a plain one, and BadNotes if it isn't one of notes."""
    with open_plain(path) as file:
        yield from segments(file.read, os.fstat(file.fileno()).st_size)


def _opened(path: Path) -> int:
    """A new file, which its owner alone can read, with a number that the program hardly counts on."""
    return _high(os.open(path, os.O_RDWR | os.O_APPEND | os.O_CREAT | os.O_EXCL | os.O_NOFOLLOW | os.O_CLOEXEC, 0o600))


def _high(descriptor: int) -> int:
    with contextlib.suppress(OSError):
        high = fcntl.fcntl(descriptor, fcntl.F_DUPFD_CLOEXEC, FIRST)
        os.close(descriptor)
        return high
    return descriptor
