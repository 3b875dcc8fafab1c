"""`python3 python/tests/side_by_side.py [MODULE..]`: runs the modules of tests of this folder, two at a time, each in one process.

A line says how each has ended. Of one in which a test has failed, what unittest has printed follows. Status 0: all have passed; 1: a test
has failed; 64: there is no such module.
"""

from __future__ import annotations

import io
import sys
import time
import unittest
from concurrent.futures import ProcessPoolExecutor, as_completed
from concurrent.futures.process import BrokenProcessPool
from multiprocessing import get_context
from pathlib import Path
from typing import List, NamedTuple

_FOLDER = Path(__file__).resolve().parent
_PROCESSES = 2

#: the modules that take longest, which begin first
_LONGEST = (
    "test_conform",
    "test_endings",
    "test_reactors",
    "test_real_reactor",
    "test_last",
    "test_testing",
    "test_shake_command",
    "test_shaken_programs",
    "test_shaken_tests",
)


class Ran(NamedTuple):
    """How a module has run, and what unittest has printed."""

    module: str
    tests: int
    skipped: int
    seconds: float
    passed: bool
    printed: str


def run(module: str) -> Ran:
    """Runs a module of tests in this process."""
    top = str(_FOLDER.parent)
    if top not in sys.path:
        sys.path.insert(0, top)
    began = time.monotonic()
    stream = io.StringIO()
    result = unittest.TextTestRunner(stream).run(unittest.defaultTestLoader.loadTestsFromName(f"{_FOLDER.name}.{module}"))
    passed = result.wasSuccessful() and result.testsRun > 0
    return Ran(module, result.testsRun, len(result.skipped), time.monotonic() - began, passed, stream.getvalue())


def show(ran: Ran) -> None:
    """Prints how a module has run."""
    skipped = f", {ran.skipped} skipped" if ran.skipped else ""
    print(f"{ran.module}: {'passed' if ran.passed else 'FAILED'}, {ran.tests} tests{skipped} in {ran.seconds:.0f} s", flush=True)
    if not ran.passed:
        print(ran.printed, flush=True)


def main(words: List[str]) -> int:
    """The command."""
    modules = sorted(path.stem for path in _FOLDER.glob("test_*.py"))
    unknown = [word for word in words if word not in modules]
    if unknown:
        print(f"side_by_side: {unknown[0]} is none of the modules: {', '.join(modules)}", file=sys.stderr)
        return 64
    chosen = sorted(words or modules, key=lambda module: module not in _LONGEST)
    began = time.monotonic()
    runs: List[Ran] = []
    with ProcessPoolExecutor(_PROCESSES, get_context("spawn")) as pool:
        for each in as_completed([pool.submit(run, module) for module in chosen]):
            try:
                runs.append(each.result())
            except BrokenProcessPool:
                left = set(chosen) - {ran.module for ran in runs}
                print(f"FAILED: a process has ended in the midst of one of these: {', '.join(sorted(left))}")
                return 1
            show(runs[-1])
    failed = sum(not ran.passed for ran in runs)
    tests, skipped = sum(ran.tests for ran in runs), sum(ran.skipped for ran in runs)
    print(f"{tests} tests, {skipped} skipped, {failed} modules failed, in {time.monotonic() - began:.0f} s")
    return 1 if failed else 0


if __name__ == "__main__":
    sys.exit(main(sys.argv[1:]))
