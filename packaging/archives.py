"""Writes files of packages: the same bytes for the same content, at any time and on any machine."""

from __future__ import annotations

import base64
import csv
import gzip
import hashlib
import io
import tarfile
import zipfile
from pathlib import Path
from typing import List, NamedTuple, Sequence

#: the time that each file has, the first one that an archive of ZIP can tell
_TIME = (1980, 1, 1, 0, 0, 0)
_SECONDS = 315_532_800

_PLAIN, _EXECUTABLE = 0o644, 0o755
_REGULAR = 0o100000


class File(NamedTuple):
    """A file of a package: where it lies there, and what it holds."""

    name: str
    data: bytes
    is_executable: bool = False

    @property
    def mode(self) -> int:
        """The bits of its permissions."""
        return _EXECUTABLE if self.is_executable else _PLAIN


def write_wheel(path: Path, files: Sequence[File], about: Sequence[File], folder: str) -> None:
    """Writes a wheel of the files, and after them what is said about them, with its RECORD in this folder."""
    inside = sorted(files) + sorted(about)
    record = f"{folder}/RECORD"
    inside.append(File(record, _record(inside, record)))
    with zipfile.ZipFile(path, "w", zipfile.ZIP_DEFLATED, compresslevel=9) as archive:
        for file in inside:
            info = zipfile.ZipInfo(file.name, _TIME)
            info.create_system = 3  # Unix, whose permissions are meant
            info.external_attr = (_REGULAR | file.mode) << 16
            archive.writestr(info, file.data, zipfile.ZIP_DEFLATED, 9)


def _record(files: Sequence[File], record: str) -> bytes:
    """The RECORD of these files, and of itself."""
    text = io.StringIO()
    writer = csv.writer(text, lineterminator="\n")
    for file in files:
        digest = base64.urlsafe_b64encode(hashlib.sha256(file.data).digest()).rstrip(b"=").decode()
        writer.writerow((file.name, f"sha256={digest}", len(file.data)))
    writer.writerow((record, "", ""))
    return text.getvalue().encode()


def write_tar(path: Path, files: Sequence[File], folder: str) -> None:
    """Writes a compressed archive of the files, which lie in this folder of it."""
    text = io.BytesIO()
    with tarfile.open(fileobj=text, mode="w", format=tarfile.PAX_FORMAT) as archive:
        for file in sorted(files):
            info = tarfile.TarInfo(f"{folder}/{file.name}")
            info.size, info.mode, info.mtime = len(file.data), file.mode, _SECONDS
            archive.addfile(info, io.BytesIO(file.data))
    path.write_bytes(compressed(text.getvalue()))


def compressed(data: bytes) -> bytes:
    """The data as gzip has it, with neither name nor time."""
    packed = io.BytesIO()
    with gzip.GzipFile("", "wb", 9, packed, 0) as file:
        file.write(data)
    return packed.getvalue()


def files_below(folder: Path, suffixes: Sequence[str], to: str) -> List[File]:
    """The files below a folder that end so, as they lie below another in a package."""
    found = (path for path in folder.rglob("*") if path.suffix in suffixes and path.is_file())
    return [File(f"{to}/{path.relative_to(folder).as_posix()}", path.read_bytes()) for path in found]
