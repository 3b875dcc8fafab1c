"""The files of a recording: which of them may be written, and how they are, each of them whole or not at all."""

from __future__ import annotations

import contextlib
import json
import os
import tempfile
from functools import partial
from pathlib import Path
from typing import Any, Callable, Dict, Iterable, List, Mapping, NamedTuple, Optional, Sequence, Tuple

from ...files import check_folder, digest_of, read_plain
from ...view.names import COMPARED, ORDERS_SCRIPT, PLACES, WHOLE_JOURNAL
from .replacing import Failed, Halves, place_left, remove_left

#: the file that says which files are the recording's own
_LIST = ".recording"

_WRITER = "deferreds record"

#: the list names some files and says a few facts
_MOST_LIST = 1 << 20

#: how often it is tried to give files their names, if memory ends meanwhile
_TRIES = 3

#: before the name of a folder of this process in that for temporary files
_ROOM = "deferreds."

#: the endings of all files of a recording but that list, and of those without which it is whole
ENDINGS = (".json", ".journal", WHOLE_JOURNAL, PLACES, ".html", COMPARED, ORDERS_SCRIPT)
_MAY_BE_MISSING = frozenset({PLACES, ".html", COMPARED, ORDERS_SCRIPT})


class NoPlace(Exception):
    """A recording can't be written where it is wanted: why, in one line."""


class _Listed(NamedTuple):
    """What a list of files says: their digests, those of the files that they have replaced, and how their halves are named."""

    digests: Dict[str, str]
    replaced: Dict[str, str]
    halves: str


class Written(NamedTuple):
    """What was written: NAME, as it is shown, whether any file was, and why others weren't, a line for each."""

    name: str
    is_any: bool
    failures: Sequence[str]


class Place:
    """Where a recording is written: NAME.json, NAME.journal and the like, and NAME.recording, a list of these.

    A file that is there and isn't in the list, or has been changed since, isn't the recording's own, and isn't overwritten.
    """

    def __init__(self, name: str, overwrites: bool = False) -> None:
        """A relative name is taken from the folder that is the current one now. `overwrites`: files of others are, too."""
        self.name = Path(os.path.abspath(name))
        self._wanted = self.name
        self._folder = os.getcwd()
        self._overwrites = overwrites
        #: whether the list is that of the new recording, and what is left to do then
        self._has_replaced = False
        self._rest: Callable[[], List[str]] = list

    def check(self, endings: Iterable[str]) -> None:
        """Makes the folder if it isn't there.

        Raises NoPlace where a file can't be made in it, or where one of those is there and isn't the recording's own.
        """
        try:
            check_folder(self.name.parent)
        except OSError as error:
            raise NoPlace(f"{self.shown('.json')} can't be written: {error.strerror}") from None
        folders = [ending for ending in (*endings, _LIST) if self._path(ending).is_dir()]
        if folders:
            raise NoPlace(f"{self.shown(folders[0])} is a folder; -o NAME gives another name")
        self._tidy()
        others = self._of_others(endings)
        if others:
            raise NoPlace(
                f"{self.shown(others[0])} is there, and isn't a recording as it was written; -o NAME gives another name, and -f overwrites it"
            )

    def shown(self, ending: str) -> str:
        """The path of a file, as it was wanted: by the folder of the start, where it is below that."""
        return self._short(self._path(ending))

    def _short(self, name: Path) -> str:
        path = os.fspath(name)
        below = os.path.join(self._folder, "")
        return path[len(below) :] if path.startswith(below) else path

    def be_of_this_process(self) -> None:
        """From now on the number of this process follows NAME."""
        self.name = self._wanted.with_name(self._wanted.name + _own())

    def write(self, files: Mapping[str, str], facts: Mapping[str, Any]) -> Written:
        """Writes these texts as files, by the endings of their names, and the list of them with these facts.

        At each moment the recording that was there is whole, or the new one is; files of the earlier one that the new one hasn't are
        removed. If a file of another origin is there by now, the number of this process follows NAME. If the new one can't be
        written there, the earlier one stays, and the new one is written into a folder of its own, in that for temporary files.
        """
        if self._of_others(files):
            self.be_of_this_process()
        written = self._write(files, facts)
        if written.is_any:
            return written
        failures = [*written.failures, *filter(None, [self.what_stays()])]
        try:
            room = tempfile.mkdtemp(prefix=_ROOM)
        except OSError as error:
            return written._replace(failures=[*failures, f"no folder can be made for it: {error.strerror or error}"])
        self.name = Path(room, self._wanted.name + _own())
        again = self._write(files, facts)
        if not again.is_any:
            with contextlib.suppress(OSError):
                os.rmdir(room)
        return again._replace(failures=[*failures, *again.failures])

    def what_stays(self) -> str:
        """Which recording is whole, the earlier one or the new one, if there is one. Does what is left to do for that."""
        if self._has_replaced:
            self._finish()
            return f"the new recording is whole: {self.shown('')}"
        earlier = self._wanted.with_name(self._wanted.name + _LIST)
        return f"the recording that was there is as it was: {self._short(self._wanted)}" if os.path.lexists(earlier) else ""

    def name_with(self, ending: str) -> Path:
        """The path of the file with this ending."""
        return self._path(ending)

    def _path(self, ending: str) -> Path:
        return self.name.with_name(self.name.name + ending)

    def _of_others(self, endings: Iterable[str]) -> List[str]:
        """Those of these files that are there and aren't the recording's own."""
        if self._overwrites:
            return []
        digests = self._listed()
        there = [ending for ending in (*endings, _LIST) if os.path.lexists(self._path(ending))]
        if not digests:
            return there
        return [ending for ending in there if ending != _LIST and digests.get(self._path(ending).name) != digest_of(self._path(ending))]

    def _listed(self) -> Dict[str, str]:
        """The digests of the files that an earlier recording of the name has written."""
        return self._read_list().digests

    def _read_list(self) -> _Listed:
        """What the list says; nothing, if no recording wrote it: one writes files in its folder alone, whose names begin with its own."""
        nothing = _Listed({}, {}, "")
        try:
            told = json.loads(read_plain(self._path(_LIST), _MOST_LIST))
            listed = _Listed(dict(told["files"]), dict(told.get("replaced", {})), str(told.get("halves", "")))
            is_own = told["written by"] == _WRITER and all(map(self._is_own_name, (*listed.digests, *listed.replaced)))
        except (OSError, ValueError, KeyError, TypeError, RecursionError):
            return nothing
        return listed if is_own else nothing

    def _is_own_name(self, name: object) -> bool:
        return isinstance(name, str) and name.startswith(f"{self.name.name}.") and "/" not in name and "\0" not in name

    def _tidy(self) -> None:
        """Ends what processes have begun that were killed while they wrote: files get their names, and others are removed."""
        folder, listed = self.name.parent, self._read_list()
        if listed.halves:
            place_left(folder, listed.halves, listed.digests)
            self._remove(listed.replaced, listed.digests)
        remove_left(folder, [self._path(ending).name for ending in (*ENDINGS, _LIST)])

    def _write(self, files: Mapping[str, str], facts: Mapping[str, Any]) -> Written:
        replaced = self._listed()
        halves = Halves(self.name.parent)
        try:
            digests, failures = self._write_halves(halves, files)
            listed = {"written by": _WRITER, "halves": halves.ending, **facts, "files": digests, "replaced": replaced}
            halves.write(self._path(_LIST).name, (json.dumps(listed, indent=1) + "\n").encode())
            halves.sync()
            self._rest = partial(self._place, halves, digests, replaced)
            halves.place(self._path(_LIST).name)
            self._has_replaced = True
        except Failed as why:
            halves.remove()
            return Written(self.shown(""), False, [self._said(why)])
        except BaseException:
            halves.remove()
            raise
        failures += self._finish()
        return Written(self.shown(""), True, failures)

    def _finish(self) -> List[str]:
        """Does what is left to do once the list is that of the new recording. Gives what has failed. If memory ends, it tries again."""
        why: Optional[Exception] = None
        for _ in range(_TRIES):
            try:
                return self._rest()
            except Exception as error:  # (MemoryError, of which Python makes a TypeError where it takes a path)
                why = error
        return [f"files can't get their names: {why}"]

    def _write_halves(self, halves: Halves, files: Mapping[str, str]) -> Tuple[Dict[str, str], List[str]]:
        """Writes the halves of all files, and gives their digests, and why those couldn't be written that may be missing."""
        digests: Dict[str, str] = {}
        failures: List[str] = []
        for ending, text in files.items():
            name = self._path(ending).name
            try:
                digests[name] = halves.write(name, text.encode("utf-8", "backslashreplace"))
            except Failed as why:
                if ending not in _MAY_BE_MISSING:
                    raise
                failures.append(self._said(why))
        return digests, failures

    def _place(self, halves: Halves, digests: Mapping[str, str], replaced: Mapping[str, str]) -> List[str]:
        """Gives all halves their names, and removes files that only the earlier recording had. Gives what has failed."""
        failures: List[str] = []
        steps: List[Callable[[], None]] = [partial(halves.place, name) for name in digests]
        steps += [partial(self._remove, replaced, digests), halves.sync]
        for step in steps:
            try:
                step()
            except Failed as why:
                failures.append(self._said(why))
        return failures

    def _remove(self, digests: Mapping[str, str], kept: Mapping[str, str]) -> None:
        """Removes the files that have these digests, but for those that are kept."""
        for name, digest in digests.items():
            path = self.name.with_name(name)
            if name not in kept and digest_of(path) == digest:
                with contextlib.suppress(OSError):
                    path.unlink()

    def _said(self, why: Failed) -> str:
        """What has failed, with the path of the file as it was wanted."""
        return f"{self.shown(why.name[len(self.name.name):])} {why}" if why.name.startswith(self.name.name) else str(why)


def _own() -> str:
    return f".{os.getpid()}"
