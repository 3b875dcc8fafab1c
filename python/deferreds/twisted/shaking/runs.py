"""Runs of a program, each in a process of its own, which is forked from this one: it has imported Twisted, and no reactor."""

from __future__ import annotations

import gc
import os
import signal
import sys
import tempfile
import time
from collections import Counter
from typing import IO, Any, Callable, Counter as Counts, Dict, List, NamedTuple, NoReturn, Optional, Tuple

from twisted.logger import globalLogPublisher

from ..family import Family
from .fast import Waits, waits_of
from .log import Log
from .shaker import CAME, MET

_ERROR, _STATUS = "error", "status"

#: what Twisted logs before an error that nobody has handled, as an event of its own
_HEADING = "Unhandled error in Deferred:"

#: how often it is looked whether a run has ended, in seconds
_STEP = 0.003
#: how long a run that hangs is waited for until it has written its recording
_SECONDS_TO_WRITE = 20.0

#: what a run that can't be run ends with
_NOT_RUN = 70
_STANDARD_STREAMS = (1, 2)

#: the end of what a run has printed that is kept
_MOST_OUTPUT = 1 << 20

_exit = os._exit


class Ended(NamedTuple):
    """How a run has ended."""

    #: the status of the program; None, if it took longer than it may
    status: Optional[int]
    output: str
    #: the perturbations that it met, in words, by their keys
    met: Dict[str, str]
    #: what has come, in order: its name and its words
    came: List[Tuple[str, str]]
    #: how often errors of which class were logged
    errors: Counts[str]
    #: what was left at its end, where that is looked at
    left: Counts[str]
    seconds: float
    #: what the reactor has waited for, and not, where the clock jumps
    waits: Waits = Waits()


class Run:
    """A run that goes on."""

    def __init__(self, program: Callable[[Log], int]) -> None:
        """Forks a process, in which the program runs, and gives its status."""
        self._output: IO[bytes] = tempfile.TemporaryFile()
        self._log = Log()
        self._began = time.monotonic()
        for stream in (sys.stdout, sys.stderr):
            stream.flush()
        self.number = os.fork()
        if self.number == 0:
            _run(program, self._log, self._output.fileno())
        self._group()

    def _group(self) -> None:
        """Has it be a group of processes of its own, as it does itself: Ctrl-C doesn't reach it."""
        try:
            os.setpgid(self.number, self.number)
        except OSError:  # (it has done so, or has ended)
            pass

    def wait(self, most: float, keep: Optional[Callable[[], bool]] = None) -> Ended:
        """Waits for its end, and ends it after so many seconds. `keep`: it records, and says by this whether it has written that."""
        status: Optional[int] = None
        try:
            code = self._wait(most)
            if code is None and keep is not None:
                self._ask_for_recording(keep)
            status = None if code is None else os.waitstatus_to_exitcode(code)
        finally:
            self._end()
        seconds = time.monotonic() - self._began
        self._output.seek(0, os.SEEK_END)
        self._output.seek(max(0, self._output.tell() - _MOST_OUTPUT))
        output = self._output.read().decode("utf-8", "replace")
        lines = list(self._log.lines())
        self._output.close()
        self._log.close()
        told = [int(line[1]) for line in lines if line[0] == _STATUS]
        met = {line[1]: line[2] for line in lines if line[0] == MET}
        came = [(line[1], line[2]) for line in lines if line[0] == CAME]
        errors = Counter(line[1] for line in lines if line[0] == _ERROR)
        ends = told[-1] if told and status is not None else status
        return Ended(ends, output, met, came, errors, Counter(), seconds, waits_of(lines))

    def _wait(self, most: float) -> Optional[int]:
        """What the system says of its end; None, if it takes longer."""
        until = self._began + most
        while True:
            number, code = os.waitpid(self.number, os.WNOHANG)
            if number:
                self.number = 0
                return code
            if time.monotonic() > until:
                return None
            time.sleep(_STEP)

    def _ask_for_recording(self, is_written: Callable[[], bool]) -> None:
        os.kill(self.number, signal.SIGUSR1)
        until = time.monotonic() + _SECONDS_TO_WRITE
        while not is_written() and time.monotonic() < until:
            time.sleep(_STEP)

    def _end(self) -> None:
        """Kills it, if it runs."""
        if self.number:
            os.kill(self.number, signal.SIGKILL)
            os.waitpid(self.number, 0)
            self.number = 0


def run(program: Callable[[Log], int], most: float, keep: Optional[Callable[[], bool]] = None) -> Ended:
    """Runs a program, and ends all that it has started."""
    with Family():
        return Run(program).wait(most, keep)


def _run(program: Callable[[Log], int], log: Log, output: int) -> NoReturn:
    """Runs a program in the process that was forked for it."""
    status = _NOT_RUN
    try:
        os.setpgid(0, 0)
        _drop_handlers()
        for stream in _STANDARD_STREAMS:
            os.dup2(output, stream)
        null = os.open(os.devnull, os.O_RDONLY)
        os.dup2(null, 0)
        os.close(null)
        log.begin()
        globalLogPublisher.addObserver(_noting_errors(log))
        status = program(log)
        gc.collect()  # an error that nobody has handled is logged when its Deferred is dropped
        log.write(_STATUS, str(status))
        for file in (sys.stdout, sys.stderr):
            if file is not None:
                file.flush()
    except BaseException as error:  # (of what runs programs: those of the program are its status)
        os.write(2, f"{type(error).__name__}: {error}\n".encode("utf-8", "backslashreplace"))
    finally:
        _exit(status & 0xFF)


def _drop_handlers() -> None:
    """Has signals be handled as in a program that was just started: this process's handlers are gone, and what is ignored stays so."""
    for number in signal.valid_signals():
        if callable(signal.getsignal(number)):
            signal.signal(number, signal.default_int_handler if number == signal.SIGINT else signal.SIG_DFL)


def _noting_errors(log: Log) -> Any:
    """An observer that notes the errors that are logged."""

    def observe(event: Dict[str, Any]) -> None:
        level = getattr(event.get("log_level"), "name", "")
        is_error = event.get("isError") or level in ("error", "critical")
        if is_error and event.get("log_format") != _HEADING:
            kind = getattr(event.get("log_failure", event.get("failure")), "type", None)
            log.write(_ERROR, getattr(kind, "__name__", "without a failure"))

    return observe
