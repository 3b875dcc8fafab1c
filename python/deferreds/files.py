"""Files that are there whole or not at all, and files that are read only if they are plain ones."""

from __future__ import annotations

import contextlib
import errno
import os
import stat

# (hashlib and tempfile are imported where they are used: to import them takes longer than to make a short run's page)
#: typing takes longer to import than most commands to start, and types aren't looked at then
TYPE_CHECKING = False
if TYPE_CHECKING:
    from pathlib import Path
    from typing import IO

_PIECE = 1 << 20

#: before the names of files that aren't whole yet
_HALF = ".deferreds."


def write_whole(path: Path, data: bytes) -> None:
    """Writes a file that its owner alone may read, under another name, and gives it its own when it is whole.

    The other name is one that nobody can know before, and no link is followed. Raises OSError, and leaves what was there.
    """
    import tempfile

    descriptor, half = tempfile.mkstemp(prefix=_HALF, dir=path.parent)
    try:
        with open(descriptor, "wb") as file:
            file.write(data)
        os.replace(half, path)
    except BaseException:
        with contextlib.suppress(OSError):
            os.unlink(half)
        raise


def check_folder(path: Path) -> None:
    """Makes a folder if it isn't there, and the folders above it. Raises OSError if no file can be made in it."""
    import tempfile

    path.mkdir(parents=True, exist_ok=True)
    with tempfile.NamedTemporaryFile(prefix=_HALF, dir=path):
        pass


def read_plain(path: Path, most: int) -> bytes:
    """What a plain file holds. Raises OSError if it is something else, as a link or a pipe, or has more than so many bytes."""
    with open_plain(path) as file:
        data = file.read(most + 1)
    if len(data) > most:
        raise OSError(errno.EFBIG, os.strerror(errno.EFBIG), os.fspath(path))
    return data


def digest_of(path: Path) -> str:
    """The SHA-256 of a plain file; an empty text if it is something else, or can't be read."""
    import hashlib

    digest = hashlib.sha256()
    try:
        with open_plain(path) as file:
            for piece in iter(lambda: file.read(_PIECE), b""):
                digest.update(piece)
    except OSError:
        return ""
    return digest.hexdigest()


def open_plain(path: Path) -> IO[bytes]:
    """A plain file, to be read: no other is waited for, as a pipe that nobody writes would be. Raises OSError for another."""
    descriptor = os.open(path, os.O_RDONLY | os.O_NOFOLLOW | os.O_NONBLOCK | os.O_CLOEXEC | os.O_NOCTTY)
    if not stat.S_ISREG(os.fstat(descriptor).st_mode):
        os.close(descriptor)
        raise OSError(errno.EINVAL, "it isn't a plain file", os.fspath(path))
    return open(descriptor, "rb")
