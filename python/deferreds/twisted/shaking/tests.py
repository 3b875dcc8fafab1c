"""Tests that are shaken, each in processes of its own: their modules, and so the reactor, are imported there alone."""

from __future__ import annotations

import os
import tempfile
import unittest
from pathlib import Path
from typing import Any, List, NamedTuple, Sequence, Tuple

from twisted.application.reactors import getReactorTypes, installReactor
from twisted.trial import util  # noqa: F401  (so that what is forked has its janitor)
from twisted.trial.unittest import SynchronousTestCase, TestCase

from ..recording.case import run_test as run_recorded
from ..recording.programs import NotLoaded, tests_of
from ..recording.recorder import Recorder
from .kept import clear_folder
from .log import Log
from .runs import run
from .shaker import CAME

_SECONDS = 120.0
#: classes that a module has imported, and that are found in it
_NO_TESTS = (unittest.TestCase, TestCase, SynchronousTestCase)
_NOT_LOADED = 1


def names_of(name: str) -> List[str]:
    """The tests of a module, of a package or of what has this name in one. Raises NotLoaded."""
    def program(log: Log) -> int:
        try:
            found = tests_of(name)
        except NotLoaded as why:
            os.write(2, str(why).encode("utf-8", "backslashreplace"))
            return _NOT_LOADED
        for cls, method in found:
            if cls in _NO_TESTS:
                continue
            log.write(CAME, f"{cls.__module__}.{cls.__qualname__}.{method}", "")
        return 0

    ended = run(program, _SECONDS)
    if ended.status != 0:
        raise NotLoaded(ended.output.strip().splitlines()[-1] if ended.output.strip() else f"{name} can't be loaded")
    return [name for name, _ in ended.came]


class ShakenTest(NamedTuple):
    """A test, the folder in which each of its runs gets a new one, and the reactor that is installed for it, if one is named."""

    name: str
    room: str
    reactor: str = ""

    def loaded(self) -> unittest.TestCase:
        """The test. Its module is imported."""
        if self.reactor:
            installReactor(self.reactor)
        [(cls, method)] = tests_of(self.name)
        os.chdir(tempfile.mkdtemp(dir=self.room))
        return cls(method)

    def clear(self) -> None:
        """Removes the folders of its runs."""
        clear_folder(Path(self.room))


def has_reactor(name: str) -> bool:
    """Whether there is a reactor of this name."""
    return name in {kind.shortName for kind in getReactorTypes()}


def run_test(test: ShakenTest) -> int:
    """Runs a test without the recorder. Gives 0 if it passes, or is skipped, and else shows why it doesn't."""
    result = unittest.TestResult()
    test.loaded().run(result)
    problems: Sequence[Tuple[Any, str]] = [*result.errors, *result.failures]
    for _, text in problems:
        print(text)
    return int(not result.wasSuccessful())


def record_one(test: ShakenTest, recorder: Recorder) -> int:
    """Runs a test likewise under a recorder. Gives 0 if it passes, or is skipped."""
    case: Any = test.loaded()
    ran = run_recorded(type(case), case._testMethodName, recorder)
    if not ran.passed:
        print(ran.why)
    return int(not (ran.passed or ran.skipped))

