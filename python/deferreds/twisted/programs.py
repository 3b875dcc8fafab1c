"""Programs that read a script and print journal and outcomes: run once a script, or asked script after script."""

from __future__ import annotations

import json
import os
import threading
import time
from typing import List, NamedTuple, Optional, Protocol, Sequence, Tuple

from ..program import NotRun, built
from .children import MOST_BYTES, Came, Child, last_line, named_status

Batches = Sequence[Sequence[Tuple[int, int]]]

#: how many seconds a program has for a script, where nothing else is said
SECONDS = 30.0

#: after so many scripts in a row that weren't answered in time no more are asked
MOST_LATE = 3

#: after so many scripts no more are asked, where none of them was answered
MOST_UNANSWERED = 10

_MOST_HEAD = 100


class Lack(NamedTuple):
    """Why there is no whole answer: in a few words, and whether it was waited for in vain."""

    why: str
    is_late: bool = False


class Answer(NamedTuple):
    """How a run ended, and what it wrote; `lack` says why that isn't all of it, and then the status means nothing."""

    status: int
    output: str
    errors: str
    lack: Optional[Lack] = None


class Broken(Exception):
    """A program that can't be run."""


class Program(Protocol):
    """What can be asked what a script prints."""

    def answer(self, script: str, batches: Optional[Batches] = None, most: int = MOST_BYTES) -> Answer:
        """The answer for this script, where the posts are taken in these batches, if it has no more than so many bytes."""

    def close(self) -> None:
        """It isn't asked any more."""

    def interrupt(self) -> None:
        """Ends what runs, from another thread than the one that waits for its answer."""


class _Command:
    """A command whose process is ended where it doesn't answer in time."""

    def __init__(self, command: Sequence[str], seconds: float, is_once: bool) -> None:
        self._command = list(command)
        self._seconds = seconds
        #: whether a process answers one script, and all that it writes is the answer
        self._is_once = is_once
        self._child: Optional[Child] = None
        self._interrupted = False
        #: held while a process is started, so that one that is interrupted has been started, or isn't
        self._starting = threading.Lock()

    def _start(self, words: Sequence[str] = ()) -> Child:
        with self._starting:
            if self._interrupted:
                raise SystemExit(1)
            try:
                self._child = child = Child([*self._command, *words], self._is_once)
            except (OSError, ValueError) as error:
                why = getattr(error, "strerror", None) or error
                raise Broken(f"{self._command[0]} can't be run: {why}") from None
        return child

    def _lacks(self, came: Came, child: Child, most: int) -> Answer:
        """The answer of a process that has given no whole one. It is killed."""
        late = came is Came.LATE
        why = f"no answer within {self._seconds:g} seconds" if late else f"more than {most} bytes of output"
        self._drop()
        output = _text(child.output) if self._is_once else ""
        return Answer(-1, output, _text(child.errors), Lack(why, late))

    def _drop(self) -> None:
        child, self._child = self._child, None
        if child is not None:
            child.kill()
        if self._interrupted:
            raise SystemExit(1)

    def close(self) -> None:
        """Has the command end."""
        child, self._child = self._child, None
        if child is not None:
            child.end()

    def interrupt(self) -> None:
        """Kills what runs, from another thread than the one that waits for its answer, which raises SystemExit."""
        with self._starting:
            self._interrupted = True
            child = self._child
        if child is not None:
            child.interrupt()


class Once(_Command):
    """A command that is run once a script, and has so many seconds for it."""

    def __init__(self, command: Sequence[str], takes_batches: bool = True, seconds: float = SECONDS) -> None:
        super().__init__(command, seconds, True)
        self._takes_batches = takes_batches

    def answer(self, script: str, batches: Optional[Batches] = None, most: int = MOST_BYTES) -> Answer:
        """Runs the command on the script. Raises Broken where it can't be run."""
        start = time.monotonic()
        child = self._start(["--batches", json.dumps(batches)] if batches and self._takes_batches else [])
        came = child.exchange(script.encode(), self._seconds, most=most)
        if came is not Came.ENDED:
            return self._lacks(came, child, most)
        status = child.wait(start + self._seconds - time.monotonic())
        if status is None:
            return self._lacks(Came.LATE, child, most)
        self._drop()
        return Answer(status, _text(child.output), _text(child.errors))


class Many(_Command):
    """A command that answers script after script, with the word `--many` (docs/PORTING.md), and has so many seconds for each."""

    def __init__(self, command: Sequence[str], seconds: float = SECONDS) -> None:
        super().__init__([*command, "--many"], seconds, False)

    def answer(self, script: str, batches: Optional[Batches] = None, most: int = MOST_BYTES) -> Answer:
        """Asks for the answer to the script; the command is started where it doesn't run. Raises Broken where it can't be run."""
        child = self._child or self._start()
        data = script.encode()
        words = f" {json.dumps(batches)}" if batches else ""
        reply = _Reply(child.output)
        came = child.exchange(f"{len(data)}{words}\n".encode() + data, self._seconds, reply.is_whole, most)
        if came is Came.ENDED:
            return self._ended(child)
        if came is not Came.WHOLE:
            return self._lacks(came, child, most)
        if reply.wrong is not None:
            self._drop()
            return Answer(-1, "", "", Lack(f"a line that isn't three numbers: {reply.wrong}"))
        return reply.take()

    def _ended(self, child: Child) -> Answer:
        """The answer of a process that has closed its output."""
        status = child.wait(1.0)
        how = "it has closed its output" if status is None else f"it has ended, by {named_status(status)}"
        self._drop()
        return Answer(-1, "", "", Lack(f"{how}, before it had answered"))


class _Reply:
    """An answer of a command with `--many`, as far as it has come: a line of three numbers, and so many bytes."""

    def __init__(self, data: bytearray) -> None:
        self._data = data
        self._numbers: Optional[List[int]] = None
        self._start = 0
        #: the line with which it begins, where that isn't one of three numbers
        self.wrong: Optional[str] = None

    def is_whole(self) -> bool:
        """Whether all of it has come, or its line is wrong."""
        if self._numbers is None and self.wrong is None:
            self._read_line()
        if self._numbers is None:
            return self.wrong is not None
        return len(self._data) >= self._start + sum(self._numbers[1:])

    def _read_line(self) -> None:
        end = self._data.find(b"\n")
        if end < 0 and len(self._data) <= _MOST_HEAD:
            return
        line = bytes(self._data[: end if 0 <= end < _MOST_HEAD else _MOST_HEAD])
        try:
            numbers = [int(part) for part in line.split()]
        except ValueError:
            numbers = []
        if len(numbers) == 3 and min(numbers[1:]) >= 0:
            self._numbers, self._start = numbers, end + 1
        else:
            self.wrong = last_line(_text(line)) or "an empty one"

    def take(self) -> Answer:
        """The answer, whose bytes are taken away."""
        assert self._numbers is not None
        status, output, errors = self._numbers
        end = self._start + output
        answer = Answer(status, _text(self._data[self._start : end]), _text(self._data[end : end + errors]))
        del self._data[: end + errors]
        return answer


def _text(data: bytes) -> str:
    return data.decode("utf-8", "replace")


def ours(command: Optional[Sequence[str]] = None, seconds: float = SECONDS, takes_batches: bool = False) -> Program:
    """Our own program: the one that is named, or else the one that is found, or in a checkout built. Raises Broken."""
    if command:
        return Once(command, takes_batches, seconds)
    try:
        return Once([os.fspath(built())], takes_batches, seconds)
    except NotRun as why:
        raise Broken(f"{why}; --ours names another program") from None
