"""The folder of a run of tests: the recordings in it, what they are called, and the list of them."""

from __future__ import annotations

import hashlib
import os
import re
from pathlib import Path
from typing import Dict, List, Mapping, NamedTuple

from ..files import read_plain, write_whole
from ..view.names import PLACES, WHOLE_JOURNAL

#: the list of what a run has left, which the next run reads to remove that
LIST = "deferreds-recordings.txt"

#: the first line of it
HEADER = "# What deferreds has recorded of tests. The next run removes the files of each name in this list."

#: what the files of a recording end with
SUFFIXES = (".json", PLACES, ".journal", WHOLE_JOURNAL, ".html")

_MOST_NAME = 120

#: the list of a run of a hundred thousand tests has some ten million bytes
_MOST_LIST = 1 << 26

_NAME = re.compile(r"[A-Za-z0-9_][A-Za-z0-9_.-]*")


class NotUsable(Exception):
    """The folder can't be used: why, in one line."""


class Listed(NamedTuple):
    """A line of the list: what the recording is called, if there is one, and what was printed of the test."""

    name: str
    said: str


class Folder:
    """The folder into which recordings are written. Files that no run of tests has written stay as they are."""

    def __init__(self, path: Path) -> None:
        self.path = path
        self._names: Dict[str, str] = {}

    @property
    def _list(self) -> Path:
        return self.path / LIST

    def begin(self) -> None:
        """Makes the folder where it isn't there, and removes what an earlier run of tests has left in it. Raises NotUsable."""
        try:
            self.path.mkdir(parents=True, exist_ok=True)
            for one in self._earlier():
                for suffix in SUFFIXES:
                    (self.path / f"{one.name}{suffix}").unlink(missing_ok=True)
            write_whole(self._list, f"{HEADER}\n".encode())
        except OSError as error:
            raise NotUsable(f"{error.filename or self.path} can't be written: {error.strerror}") from None

    def _earlier(self) -> List[Listed]:
        if not os.path.lexists(self._list):
            return []
        if not self._is_list():
            raise NotUsable(f"{self._list} is there, and isn't a list of recordings")
        return [one for one in self.listed() if _NAME.fullmatch(one.name)]

    def _is_list(self) -> bool:
        try:
            return self._read().startswith(HEADER)
        except OSError:
            return False

    def _read(self) -> str:
        return read_plain(self._list, _MOST_LIST).decode("utf-8", "replace")

    def listed(self) -> List[Listed]:
        """What this run of tests has told, in order. Raises OSError where the list can't be read."""
        lines = self._read().splitlines()[1:]
        parts = (line.partition("\t") for line in lines)
        return [Listed(name, said) for name, _, said in parts]

    def tell(self, name: str, said: str) -> None:
        """Adds a line to the list. Raises OSError."""
        descriptor = os.open(self._list, os.O_WRONLY | os.O_APPEND | os.O_NOFOLLOW | os.O_CLOEXEC)
        with open(descriptor, "a", encoding="utf-8", errors="backslashreplace") as file:
            file.write(f"{name}\t{_on_one_line(said)}\n")

    def name(self, test: str) -> str:
        """What the recording of a test is called: the same as before in this run, and else a name of which there is no file."""
        if test not in self._names:
            wanted, number = name_of(test), 1
            name = wanted
            while name in self._names.values() or self._has(name):
                number += 1
                name = f"{wanted}_{number}"
            self._names[test] = name
        return self._names[test]

    def _has(self, name: str) -> bool:
        return any(os.path.lexists(self.path / f"{name}{suffix}") for suffix in SUFFIXES)

    def write(self, name: str, texts: Mapping[str, str]) -> None:
        """Writes the files of a recording, by their suffixes, and removes those of an earlier one of the test in this run.

        Each is there whole, or not at all. Raises OSError.
        """
        for suffix in SUFFIXES:
            path = self.path / f"{name}{suffix}"
            if suffix in texts:
                write_whole(path, texts[suffix].encode("utf-8", "backslashreplace"))
            else:
                path.unlink(missing_ok=True)


def name_of(test: str) -> str:
    """A name for the files of a test, from how pytest or trial calls it."""
    plain = test.replace(".py::", ".").replace("::", ".").replace("/", ".")
    name = re.sub(r"[^A-Za-z0-9_.-]+", "_", plain).lstrip(".-") or "test"
    if len(name) <= _MOST_NAME:
        return name
    digest = hashlib.sha256(test.encode("utf-8", "surrogatepass")).hexdigest()[:8]
    return f"{name[: _MOST_NAME - 9]}-{digest}"


def _on_one_line(text: str) -> str:
    return " ".join(text.split())
