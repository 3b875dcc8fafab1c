"""How many times as long a program takes where it is recorded. It is run in processes of its own, and timed there."""

from __future__ import annotations

import gc
import json
import subprocess
import sys
import tempfile
import time
import unittest
from typing import Any, Callable, Dict, Iterator, List, NamedTuple

from ...loops import make_and_chain, make_and_fire

from ..instruments import install
from ..running import be_quiet
from ..telling import KINDS
from .case import record_test
from .programs import tests_of
from .recorder import Recorder
from .saying import Said

_TRIALS = 9


class Slowness(NamedTuple):
    """How many times as long a program takes: while it runs, and with what is said of it after that."""

    program: str
    running: float
    said: float


class Program(NamedTuple):
    """A program that can be run bare, and recorded, which gives its recorders."""

    bare: Callable[[], object]
    recorded: Callable[[], List[Recorder]]


def _loop(call: Callable[[], None]) -> Program:
    def recorded() -> List[Recorder]:
        recorder = Recorder()
        with recorder.watching():
            call()
        return [recorder]

    return Program(call, recorded)


def _tests(module: str) -> Program:
    tests = tests_of(module)

    def bare() -> None:
        for cls, method in tests:
            cls(method).run(unittest.TestResult())

    def recorded() -> List[Recorder]:
        return [record_test(cls, method, KINDS, False).recorder for cls, method in tests]

    return Program(bare, recorded)


PROGRAMS: Dict[str, Callable[[], Program]] = {
    "the tests of `test_defer`": lambda: _tests("twisted.test.test_defer"),
    "the tests of `test_task`": lambda: _tests("twisted.test.test_task"),
    "the tests of `test_cooperator`": lambda: _tests("twisted.test.test_cooperator"),
    "a loop that makes Deferreds, each with a callback, and fires them": lambda: _loop(make_and_fire),
    "a loop that makes pairs of Deferreds, and chains and fires them": lambda: _loop(make_and_chain),
}


def slownesses() -> Iterator[Slowness]:
    """How much slower each program is."""
    for name in PROGRAMS:
        bare, running, said = (_asked(name, how) for how in ("bare", "running", "said"))
        yield Slowness(name, running / bare, said / bare)


def _asked(name: str, how: str) -> Any:
    command = [sys.executable, "-m", __name__, name, how]
    with tempfile.TemporaryDirectory() as folder:  # tests of Twisted leave files where they are run
        return json.loads(subprocess.run(command, stdout=subprocess.PIPE, cwd=folder, check=True).stdout)


def _least_time(call: Callable[[], object]) -> float:
    """The least time of the processor that a call has taken, of some."""
    times: List[float] = []
    for _ in range(_TRIALS):
        gc.collect()
        start = time.process_time()
        call()
        times.append(time.process_time() - start)
    return min(times)


def main(name: str, how: str) -> None:
    """Prints how many seconds a program takes."""
    be_quiet()
    program = PROGRAMS[name]()
    if how == "bare":
        print(_least_time(program.bare))
        return
    install()
    if how == "running":
        print(_least_time(program.recorded))
    else:
        print(_least_time(lambda: [Said(recorder) for recorder in program.recorded()]))


if __name__ == "__main__":
    main(*sys.argv[1:])
