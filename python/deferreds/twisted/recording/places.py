"""Where in the program something happens, and names for what is made there."""

from __future__ import annotations

import bisect
import dis
import functools
import os
import re
import sys
import sysconfig
from asyncio import base_events
from time import time  # (by its own name: the program may replace that of the module)
from types import CodeType, CoroutineType, FrameType, GeneratorType
from typing import Any, Dict, Iterable, Iterator, List, NamedTuple, Optional, Set, Tuple

import twisted
from twisted.internet import base, defer, task, threads
from twisted.python import context, failure

from ..instruments.reactors import LOOPS
from ..telling import Thing
from .arguments import Call

#: a function, and the code and the instruction of it, if it isn't Twisted's, and then its callers, if they are known. What line that is
#: is worked out where it is asked for, which takes Python longer than all else here
Spot = Tuple[Any, ...]
#: the code and the instruction of each caller, innermost first, or None
Callers = Optional[Tuple[Any, ...]]


class ProgramLine(NamedTuple):
    """A line of the program, with the whole path of its file and the function that it is in."""

    path: str
    line: int
    function: str


#: twice the number of callers that are noted at most
_MOST_CALLERS = 6

_LONGEST = 24
#: and the longest name of a thing, before a number
_LONGEST_OF_THING = 27

#: what stands in a function as a part of it
_INNER = {"<listcomp>", "<genexpr>", "<dictcomp>", "<setcomp>"}

#: the files whose code is no program's
_OWN = {*LOOPS, *(module.__file__ for module in (base, defer, task, threads, context, failure))}
#: the folder of what watches Twisted, as code objects name it: a link on the way to it stays one
_PACKAGE = os.path.dirname(os.path.dirname(__file__)) + os.sep


class _Files(Dict[str, bool]):
    """Which files are a program's, by their names."""

    def __missing__(self, file: str) -> bool:
        found = self[file] = file not in _OWN and not file.startswith((_PACKAGE, "<frozen"))
        return found


_FILES = _Files()


_TWISTED = os.path.dirname(twisted.__file__) + os.sep
#: where Twisted and Python's own library are, whose code isn't the program's own
_LIBRARIES = tuple(
    {_TWISTED, *(sysconfig.get_path(name) + os.sep for name in ("stdlib", "platstdlib"))}
)
#: what of these folders is a program's own after all: tests of Twisted, and packages that are installed
_NOT_OF_LIBRARIES = (f"{os.sep}test{os.sep}", f"{os.sep}site-packages{os.sep}", f"{os.sep}dist-packages{os.sep}")


def is_of_twisted(file: str) -> bool:
    """Whether a file is in Twisted's package."""
    return file.startswith(_TWISTED)


def is_pythons(file: str) -> bool:
    """Whether a file is of Python's own library."""
    return not is_of_twisted(file) and _is_library(file)


def _is_library(file: str) -> bool:
    for library in _LIBRARIES:
        if file.startswith(library):
            return not any(part in file[len(library) - 1 :] for part in _NOT_OF_LIBRARIES)
    return False


#: the files of the loops that run what is due
_RUNNING = {str(base.__file__), base_events.__file__}


class _OwnFiles(Dict[str, bool]):
    """Whether files are the program's own. That of a reactor's loop counts as one: what is round it has only begun to run it."""

    def __missing__(self, file: str) -> bool:
        found = file in _RUNNING or (_FILES[file] and not file.startswith("<") and not _is_library(file))
        self[file] = found
        if not found:
            _other_files.add(file)
        elif file not in _RUNNING:
            _own_files.add(file)
        return found


#: those that were met and are the program's own, without those of loops, and those that aren't. (To ask a set takes Python less
#: long.)
_own_files: Set[str] = set()
_other_files: Set[str] = set()
_OWN_FILES = _OwnFiles()


def _working_folder() -> str:
    try:
        return os.getcwd()
    except OSError:  # it was removed
        return ""


#: the folder from which the program's files are called, before it goes to another. (To ask for it takes longer than to begin a test.)
_FOLDER = _working_folder()

_getframe = sys._getframe


class Spots:
    """Where in the program's own files actions run and Deferreds are made: in no file of Twisted or of Python's library.

    Little is done while the program runs: each call, and each frame that is looked at, counts.
    """

    def __init__(self, began: Optional[float] = None) -> None:
        """`began`: when the recording began, if that isn't now."""
        self.began = time() if began is None else began
        #: four items for each: the action or the Deferred, the code, the instruction, and the callers
        self.noted: List[Any] = []
        self._note = self.noted.extend
        #: what inline bodies were called with
        self.calls: List[Call] = []
        #: where locks and queues were made
        self.places_of_things: List[Tuple[Thing, Spot]] = []
        #: what was noted last where the program itself is in a file of its own
        self._last: object = None
        #: the names of things, once there is one
        self._names: Optional[LateNames] = None

    def thing(self, kind: str, made_at: Spot) -> Thing:
        """Something of this kind that is made there, with a name."""
        return self._late_names().thing(kind, made_at)

    def free_names(self) -> FreeNames:
        """The names that things have."""
        return self._late_names().names

    def _late_names(self) -> LateNames:
        names = self._names
        if names is None:
            names = self._names = LateNames()
        return names

    def note(self, action: object, first: int) -> None:
        """An action runs, which isn't one that makes a Deferred: that is located.

        `first` is the number of the first frame that may be the program's, where this call's is 0.
        """
        try:
            frame = _getframe(first)
        except ValueError:  # Python itself calls, as at its end
            return
        code = frame.f_code
        if code.co_filename in _own_files:
            note = self._note
            note((action, code, frame.f_lasti, _callers(frame)))
            self._last = action
        else:
            self._look_round(action, frame)

    def note_await(self, awaited: object, generator: Any) -> None:
        """An inline body awaits: where it stands, or the innermost coroutine of the program that it awaits itself."""
        own = None
        while True:
            # (nothing else is asked for an attribute: it may be an object of the program's)
            kind = type(generator)
            if kind is CoroutineType:
                frame, inner = generator.cr_frame, generator.cr_await
            elif kind is GeneratorType:
                frame, inner = generator.gi_frame, generator.gi_yieldfrom
            else:
                break
            if frame is not None and _OWN_FILES[frame.f_code.co_filename]:
                own = frame
            generator = inner
        if own is not None:
            self._note((awaited, own.f_code, own.f_lasti, None))

    def of_last(self, action: object, maker: Optional[str]) -> Optional[Spot]:
        """Where Twisted makes a Deferred while this action runs; None, where `locate` has to find that."""
        noted = self.noted
        if action is None or self._last is not action or noted[-4] is not action:
            return None
        code = noted[-3]
        return None if code.co_name in _INNER else (maker or code.co_name, code, noted[-2], noted[-1])

    def locate(self, record: object, maker: Optional[str], inside: int) -> Spot:
        """A Deferred is made: where. The caller's frame and so many around it are known not to be the program's."""
        try:
            inner = _getframe(1 + inside)
        except ValueError:  # Python itself calls, as at its end
            return maker or "made", None, 0
        code = inner.f_code
        if code.co_filename in _own_files and code.co_name not in _INNER:
            return maker or code.co_name, code, inner.f_lasti, _callers(inner)
        frame: Optional[FrameType] = inner
        while frame is not None and not _FILES[frame.f_code.co_filename]:
            frame = frame.f_back
        if frame is None:
            return maker or "made", None, 0
        code = frame.f_code
        if not _OWN_FILES[code.co_filename]:
            self._look_round(record, frame)
        name = code.co_name
        spot_ = _spot_of(frame, maker) if name in _INNER else (maker or name, code, frame.f_lasti)
        return (*spot_, _callers(frame))

    def _look_round(self, noted: object, frame: Optional[FrameType]) -> None:
        while frame is not None:
            code = frame.f_code
            file = code.co_filename
            if file not in _other_files and _OWN_FILES[file]:
                self._note((noted, code, frame.f_lasti, _callers(frame)))
                return
            frame = frame.f_back

    def forget(self) -> None:
        """Keeps nothing of what was noted."""
        self.noted.clear()
        self.calls.clear()
        self.places_of_things.clear()
        self._last = None

    def all(self, made: Iterable[Tuple[object, Optional[Spot]]]) -> Iterator[Tuple[Any, List[ProgramLine]]]:
        """Each action or Deferred whose place is known, with that and its callers, innermost first.

        `made` are the Deferreds, with what `locate` has given for them.
        """
        known: Dict[Tuple[int, int], ProgramLine] = {}
        noted = self.noted
        for at in range(0, len(noted), 4):
            if not self._is_running(noted[at + 1]):
                yield noted[at], self._lines(noted[at + 1], noted[at + 2], noted[at + 3], known)
        for record, spot_ in made:
            code = spot_[1] if spot_ is not None else None
            if spot_ is not None and code is not None and self._is_own(code):
                yield record, self._lines(code, spot_[2], spot_[3] if len(spot_) > 3 else None, known)

    def of_things(self) -> Iterator[Tuple[Thing, ProgramLine]]:
        """Each lock and queue, and the line that made it, if that is the program's own."""
        for thing, spot_ in self.places_of_things:
            if self._is_own(spot_[1]) and not self._is_running(spot_[1]):
                yield thing, self._lines(spot_[1], spot_[2], None, {})[0]

    def _lines(self, code: Any, instruction: int, callers: Callers, known: Dict[Tuple[int, int], ProgramLine]) -> List[ProgramLine]:
        """The line of an instruction, and those of the callers. `known`: lines, by the numbers of Python for codes and the instructions."""
        instructions = [(code, instruction)]
        if callers is not None:
            instructions += zip(callers[::2], callers[1::2])
        found: List[ProgramLine] = []
        for inside, at in instructions:
            line = known.get((id(inside), at))
            if line is None:
                line = known[id(inside), at] = ProgramLine(self._path(inside), line_of(inside, at), inside.co_name)
            found.append(line)
        return found

    @staticmethod
    def _is_running(code: Any) -> bool:
        return code.co_filename in _RUNNING

    @staticmethod
    def _is_own(code: Any) -> bool:
        return _OWN_FILES[code.co_filename]

    @staticmethod
    def _path(code: Any) -> str:
        return path_of(code)


def _callers(frame: FrameType) -> Callers:
    """The functions of the program around this one, as far as they follow each other."""
    outer = frame.f_back
    if outer is None:
        return None
    code = outer.f_code
    file = code.co_filename
    if file not in _own_files and not _is_met(file):
        return None
    found: Tuple[Any, ...] = (code, outer.f_lasti)
    while len(found) < _MOST_CALLERS:
        outer = outer.f_back
        if outer is None:
            break
        code = outer.f_code
        file = code.co_filename
        if file not in _own_files and not _is_met(file):
            break
        found += (code, outer.f_lasti)
    return found


def _is_met(file: str) -> bool:
    """Whether a file that may be met for the first time is the program's own, and not that of a loop."""
    return file not in _other_files and _OWN_FILES[file] and file not in _RUNNING


def path_of(code: CodeType) -> str:
    """The whole path of the file of a code."""
    return os.path.join(_FOLDER, code.co_filename)


def is_own(file: str) -> bool:
    """Whether a file is the program's own, or that of a reactor's loop."""
    return _OWN_FILES[file]


def is_running(file: str) -> bool:
    """Whether a file is that of a loop which runs what is due."""
    return file in _RUNNING


def program_frame(inside: int = 0) -> Optional[FrameType]:
    """The innermost frame of the program. The caller's own and so many more around it are known to be none."""
    try:
        frame: Optional[FrameType] = _getframe(2 + inside)
    except ValueError:  # Python itself calls, as at its end
        return None
    while frame is not None and not _FILES[frame.f_code.co_filename]:
        frame = frame.f_back
    return frame


def place() -> str:
    """The place in the program, as `FILE:LINE in FUNCTION`."""
    frame = program_frame()
    if frame is None:
        return "outside of the program"
    return f"{frame.f_code.co_filename}:{frame.f_lineno} in {frame.f_code.co_name}"


def spot(maker: Optional[str] = None, inside: int = 0) -> Spot:
    """Where something is made: the function, or its maker, and the instruction.

    The caller's frame and so many more around it are known not to be the program's.
    """
    return _spot_of(program_frame(1 + inside), maker)


def _spot_of(frame: Optional[FrameType], maker: Optional[str]) -> Spot:
    if frame is None:
        return maker or "made", None, 0
    code, instruction = frame.f_code, frame.f_lasti
    name = code.co_name
    while name in _INNER and frame.f_back is not None:
        frame = frame.f_back
        name = frame.f_code.co_name
    return maker or name, code, instruction


def name_of_spot(made_at: Spot) -> str:
    """A name in the form of names for what was made there."""
    function, code = made_at[:2]
    return str(function) if code is None else f"{_in_form(function)}_{line_of(code, made_at[2])}"


#: by the numbers of Python for codes, these, where their instructions of each line begin, and the lines. (To find a code by its
#: value takes Python long.)
_LINES: Dict[int, Tuple[CodeType, List[int], List[int]]] = {}


def lines_of(code: CodeType) -> Tuple[CodeType, List[int], List[int]]:
    """The code, where its instructions of each line begin, and the lines."""
    known = _LINES.get(id(code))
    if known is None:
        found = [(start, line) for start, line in dis.findlinestarts(code) if line is not None]
        starts, lines = [start for start, _ in found], [line for _, line in found]
        known = _LINES[id(code)] = code, starts or [0], lines or [code.co_firstlineno]
    return known


def know_lines(code: Any, starts: List[int], lines: List[int]) -> None:
    """Has the lines of what stands for a code be known."""
    _LINES[id(code)] = code, starts, lines


def line_of(code: CodeType, instruction: int) -> int:
    """The line of an instruction, by its place in the code."""
    _, starts, lines = lines_of(code)
    return lines[max(0, bisect.bisect_right(starts, instruction) - 1)]


@functools.lru_cache(maxsize=4_096)
def _in_form(function: str) -> str:
    """The name of a function, in the form of names and with room for a line."""
    name = re.sub(r"[^A-Za-z0-9_]+", "", function)
    return "line" if name in ("", "module") else name[: _LONGEST - 6]


def wanted_name(kind: str, made_at: Spot) -> str:
    """A name for a thing of this kind that was made there, which others may want, too."""
    return f"{kind}_{name_of_spot(made_at)}"[:_LONGEST_OF_THING]


class FreeNames:
    """Gives each name once."""

    def __init__(self) -> None:
        self._given: Dict[str, int] = {}

    def give(self, wanted: str) -> str:
        """This name, or where it was given before, this one with a number."""
        number = self._given[wanted] = self._given.get(wanted, 0) + 1
        return wanted if number == 1 else f"{wanted}_{number}"


class LateNames:
    """Names things by where they are made, in the order in which they are. The names are worked out where one is asked for."""

    def __init__(self) -> None:
        self.names = FreeNames()
        #: what has no name yet
        self._made: List[Tuple[Thing, str, Spot]] = []

    def thing(self, kind: str, made_at: Spot) -> Thing:
        """Something of this kind that is made there."""
        thing = Thing("", self._find)
        self._made.append((thing, kind, made_at))
        return thing

    def _find(self) -> None:
        made, self._made = self._made, []
        for thing, kind, made_at in made:
            thing.own_name, thing.find_name = self.names.give(wanted_name(kind, made_at)), None
