"""Puts the files of a new recording in the place of an earlier one's: at each moment one of the two is whole.

Each new file is a half first: `.NAME.ENDING`, beside the place of NAME. The ending has the process and a number that nobody can know
before. When all halves are written and synced, the half of the list becomes the list. From then on the new recording is whole: the list
names its files and that ending, so each file has its own name or that of its half. Until then the earlier one is.
"""

from __future__ import annotations

import contextlib
import errno
import hashlib
import re
from os import O_CLOEXEC, O_CREAT, O_DIRECTORY, O_EXCL, O_NOFOLLOW, O_RDONLY, O_WRONLY
from os import close, fsync, getpid, kill, listdir, replace, unlink, urandom, write
from os import open as open_file
from pathlib import Path
from typing import Iterable, Iterator, List, Mapping, NoReturn, Optional

from ...files import digest_of

#: how many bytes are written at once
_PIECE = 1 << 20

#: what a folder answers that can't be synced: the file system has no need of it
_NOT_SYNCED = (errno.EINVAL, errno.ENOTSUP, errno.EACCES)

#: the reason of the errors of this module, where the system gives none
_UNKNOWN = "an unknown error"


class Failed(Exception):
    """A step has failed: the file, and why, in a few words."""

    def __init__(self, name: str, what: str, error: OSError) -> None:
        super().__init__(f"{what}: {error.strerror or _UNKNOWN}")
        self.name = name


def _fail(path: Path, what: str, error: OSError) -> NoReturn:
    raise Failed(path.name, what, error) from None


class Halves:
    """The files of a new recording, as long as they don't have their own names. Calls raise Failed, but for `remove`."""

    def __init__(self, folder: Path) -> None:
        self._folder = folder
        #: what the names of all halves end with
        self.ending = f"{getpid()}.{urandom(6).hex()}.tmp"
        #: the names of the files whose halves are there
        self._names: List[str] = []

    def write(self, name: str, data: bytes) -> str:
        """Writes the half of a file, and syncs it. Gives the SHA-256 of the file."""
        path = self._folder / name
        half = half_of(path, self.ending)
        self._names.append(name)
        try:
            _write_file(half, data, path)
        except BaseException:
            self._names.remove(name)
            _remove(half)
            raise
        return hashlib.sha256(data).hexdigest()

    def sync(self) -> None:
        """Syncs the folder: from here on its names are kept, whatever happens to the machine."""
        try:
            folder = open_file(self._folder, O_RDONLY | O_DIRECTORY)
        except OSError as error:
            _fail(self._folder, "the folder can't be opened", error)
        try:
            fsync(folder)
        except OSError as error:
            if error.errno not in _NOT_SYNCED:
                _fail(self._folder, "the folder can't be synced", error)
        finally:
            close(folder)

    def place(self, name: str) -> None:
        """Gives the half of this file the name of the file, if it hasn't got it yet."""
        if name not in self._names:
            return
        path = self._folder / name
        half = half_of(path, self.ending)
        try:
            replace(half, path)
        except OSError as error:
            _fail(path, f"can't get its name, and is in {half.name}", error)
        self._names.remove(name)

    def remove(self) -> None:
        """Removes the halves that are left."""
        for name in self._names:
            _remove(half_of(self._folder / name, self.ending))
        self._names.clear()


def half_of(path: Path, ending: str) -> Path:
    """The half of a file, whose name has this ending."""
    return path.with_name(f".{path.name}.{ending}")


def place_left(folder: Path, ending: str, digests: Mapping[str, str]) -> None:
    """Gives the files of a recording their names whose halves are there, where its process ended before it could."""
    if _ENDING.fullmatch(ending) is None:
        return
    for name, digest in digests.items():
        half = half_of(folder / name, ending)
        if digest_of(half) == digest:
            with contextlib.suppress(OSError):
                replace(half, folder / name)


def remove_left(folder: Path, names: Iterable[str]) -> None:
    """Removes the halves of these files that processes have left which have ended."""
    wanted = set(names)
    for half, name, process in _halves_in(folder):
        if name in wanted and not _runs(process):
            _remove(half)


_ENDING = re.compile(r"([0-9]{1,9})\.[0-9a-f]{12}\.tmp")
_HALF = re.compile(rf"\.(.+)\.{_ENDING.pattern}")


def _halves_in(folder: Path) -> Iterator["tuple[Path, str, int]"]:
    """The halves in a folder, each with the name of its file and the process that has written it."""
    try:
        found = listdir(folder)
    except OSError:
        return
    for name in found:
        matched = _HALF.fullmatch(name)
        if matched is not None:
            yield folder / name, matched[1], int(matched[2])


def _runs(process: int) -> bool:
    try:
        kill(process, 0)
    except ProcessLookupError:
        return False
    except OSError:
        pass
    return True


def _write_file(half: Path, data: bytes, path: Path) -> None:
    """Writes a new file whole, and syncs it. Raises Failed, which names the file that it is the half of."""
    step = "can't be opened"
    number: Optional[int] = None
    try:
        number = _opened(half)
        step = "can't be written"
        left = memoryview(data)
        while left:
            left = left[write(number, left[:_PIECE]) :]
        step = "can't be synced"
        fsync(number)
    except OSError as error:
        _fail(path, step, error)
    finally:
        if number is not None:
            close(number)


def _opened(half: Path) -> int:
    """Opens a new file, which only its owner can read."""
    return open_file(half, O_WRONLY | O_CREAT | O_EXCL | O_NOFOLLOW | O_CLOEXEC, 0o600)


def _remove(half: Path) -> None:
    with contextlib.suppress(OSError):
        unlink(half)
