"""How many times as long each test takes where it is recorded.

The tests of a module run in two processes: bare in one, and recorded in the other. Both run the same test in turn, one run at a time,
so that other work on the machine slows down both alike. A run is timed in time of the processor, from before its test is made until it
has ended. What is said of it after that isn't part of it. The least time of its runs is taken.
"""

from __future__ import annotations

import gc
import json
import os
import subprocess
import sys
import tempfile
import time
import unittest
from typing import Any, Callable, Iterator, List, NamedTuple, Optional, Sequence, Tuple

from ..instruments import install
from ..programs import Broken
from ..running import be_quiet
from ..telling import KINDS
from .case import TestRun, record_test
from .programs import tests_of

#: how often each test is run, bare and recorded, unless it is asked for otherwise
RUNS = 10
#: how many of these it has in any case, once they have taken so many seconds by the clock
_LEAST_RUNS, _SECONDS = 3, 3.0

_BARE, _RECORDED = "bare", "recorded"


class TestSlowness(NamedTuple):
    """How many seconds of the processor a test takes that uses Deferreds, by itself and recorded."""

    module: str
    test: str
    bare: float
    recorded: float

    @property
    def times(self) -> float:
        """How many times as long it takes recorded."""
        return self.recorded / self.bare


class _Run(NamedTuple):
    """A run of a test: what it took, and whether it is known to use Deferreds."""

    seconds: float
    uses_deferreds: bool


class _Runner:
    """A process that runs tests of a module, bare or recorded, each when it is asked for, while this is entered."""

    def __init__(self, module: str, how: str) -> None:
        self._module = module
        self._command = [sys.executable, "-m", __name__, module, how]
        self.tests: List[str] = []

    def __enter__(self) -> _Runner:
        self._folder = tempfile.TemporaryDirectory()  # tests of Twisted leave files where they are run
        self._process = subprocess.Popen(
            self._command,
            stdin=subprocess.PIPE,
            stdout=subprocess.PIPE,
            stderr=subprocess.DEVNULL,
            cwd=self._folder.name,
            text=True,
        )
        self.tests = self._answer()
        return self

    def __exit__(self, *error: object) -> None:
        self._process.kill()
        self._process.communicate()
        self._folder.cleanup()

    def run(self, number: int) -> _Run:
        """Runs the test of this number. Raises Broken where the process has ended."""
        assert self._process.stdin is not None
        self._process.stdin.write(f"{number}\n")
        self._process.stdin.flush()
        return _Run(*self._answer())

    def _answer(self) -> Any:
        assert self._process.stdout is not None
        line = self._process.stdout.readline()
        if not line:
            raise Broken(f"the process that runs {self._module} has ended")
        return json.loads(line)


def slownesses_of_tests(module: str, runs: int = RUNS, every: int = 1) -> Iterator[TestSlowness]:
    """How much slower each test of this module or package is, but for those that use no Deferreds.

    Each is run so often. With `every`, the first test is measured, and each one that comes so many after another that is.
    """
    with _Runner(module, _BARE) as bare, _Runner(module, _RECORDED) as recorded:
        for number in range(0, len(bare.tests), every):
            found = _in_turn(number, bare, recorded, runs)
            if found is not None:
                yield TestSlowness(module, bare.tests[number], *found)


def _in_turn(number: int, bare: _Runner, recorded: _Runner, runs: int) -> Optional[Tuple[float, float]]:
    """The least times of a test, bare and recorded; None, where it uses no Deferreds."""
    if not recorded.run(number).uses_deferreds:
        return None
    start = time.monotonic()
    times: List[Tuple[float, float]] = []
    while len(times) < runs and (len(times) < _LEAST_RUNS or time.monotonic() - start < _SECONDS):
        times.append((bare.run(number).seconds, recorded.run(number).seconds))
    return min(one for one, _ in times), min(other for _, other in times)


def _bare(cls: type[unittest.TestCase], method: str) -> object:
    unittest.TestSuite([cls(method)]).run(unittest.TestResult())
    return None


def _recorded(cls: type[unittest.TestCase], method: str) -> TestRun:
    return record_test(cls, method, KINDS, False)


def _timed(run: Callable[[type[unittest.TestCase], str], object], cls: type[unittest.TestCase], method: str) -> _Run:
    gc.collect()
    gc.freeze()  # what earlier tests have left isn't gone over again
    start = time.process_time()
    done = run(cls, method)
    taken = time.process_time() - start
    return _Run(taken, isinstance(done, TestRun) and bool(done.recorder.parts))


def main(words: Sequence[str]) -> None:
    """Runs tests of a module as it is asked to, one a line, and answers each by what it took."""
    module, how = words
    answers = os.fdopen(os.dup(1), "w")
    os.dup2(2, 1)  # what tests print is no answer
    be_quiet()
    tests = tests_of(module)
    from twisted.internet import reactor  # noqa: F401

    if how == _RECORDED:
        install()
    print(json.dumps([f"{cls.__module__}.{cls.__name__}.{method}" for cls, method in tests]), file=answers, flush=True)
    for line in sys.stdin:
        print(json.dumps(_timed(_recorded if how == _RECORDED else _bare, *tests[int(line)])), file=answers, flush=True)
    os._exit(0)  # what tests have left in threads isn't waited for


if __name__ == "__main__":
    main(sys.argv[1:])
