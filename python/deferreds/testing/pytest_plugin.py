"""`pytest --deferreds-record FOLDER`: leaves a recording of each test that failed or left something behind.

`pytest --shake N` runs each test alone, N times, shaken by a seed each time, and records the first run that fails.

pytest finds this module by an entry point of the package. Nothing of Twisted is imported without the option.
"""

from __future__ import annotations

import contextlib
import math
import os
import sys
from pathlib import Path
from typing import TYPE_CHECKING, Any, Generator, Iterator, List, Optional

import pytest

from ..twisted.known import UnknownTwisted
from .folder import NotUsable

if TYPE_CHECKING:
    from .recorded import RecordedTest, RecordedTests

_OPTION = "--deferreds-record"
_SHAKE, _SEED, _WITHIN = "--shake", "--shake-seed", "--shake-within"
_NO_CUT, _FAST = "--shake-no-cut", "--shake-fast"

#: the status of the run of tests, once they were shaken
_shaken: List[int] = []


def pytest_addoption(parser: Any) -> None:
    """The options."""
    group = parser.getgroup("deferreds", "recordings of what tests do with Twisted's Deferreds")
    group.addoption(
        _OPTION,
        metavar="FOLDER",
        help="leave a recording in FOLDER of each test that failed, or left an unfired Deferred, an unhandled error or the like",
    )
    group.addoption(
        "--deferreds-plain",
        metavar="KIND,..",
        default="",
        help="record these as the Python that they are made of, as `--plain` of deferreds-record does",
    )
    group.addoption(
        _SHAKE,
        type=int,
        metavar="N",
        help="run each test alone, N times, shaken by a seed each time, and record the first run that fails (docs/SHAKE.md)",
    )
    group.addoption(_SEED, type=int, default=1, metavar="K", help="with --shake: the first seed")
    group.addoption(_WITHIN, type=float, metavar="S", help="with --shake: how many seconds a run of a test may take: 20, if it isn't said")
    group.addoption(_NO_CUT, action="store_true", help="with --shake: don't look which perturbations a failure needs")
    group.addoption(_FAST, action="store_true", help="with --shake: have the clock jump over a wait in which nothing but time can bring anything")


@contextlib.contextmanager
def _refusing(option: str) -> Iterator[None]:
    """Has what stands in the way of a recording be told as pytest tells wrong words."""
    try:
        yield
    except (NotUsable, UnknownTwisted) as why:
        raise pytest.UsageError(f"{option}: {why}") from None
    except ModuleNotFoundError as error:
        if (error.name or "").split(".")[0] == __package__.split(".", maxsplit=1)[0]:
            raise
        raise pytest.UsageError(f"{option} needs Twisted, from 22.4 on: {error}") from None


@pytest.hookimpl(tryfirst=True)
def pytest_load_initial_conftests(early_config: Any) -> None:
    """The instruments are put in before the first module of the tests is imported, and tests are shaken then."""
    given = early_config.known_args_namespace
    if given.shake is not None:
        with _refusing(_SHAKE), _uncaptured(early_config):
            _shaken.append(_shake(early_config))
    elif given.deferreds_record:
        with _refusing(_OPTION):
            from ..twisted.instruments import install

            install()


def _shake(early_config: Any) -> int:
    """Shakes the tests that are asked for. Gives the status of the run of tests."""
    from .folder import NotUsable as Unusable
    from ..twisted.shaking.choices import Settings
    from .pytest_shaken import SECONDS, Shaking, shake

    given = early_config.known_args_namespace
    if given.shake < 1 or given.shake_seed < 0:
        raise Unusable("the number of runs is from 1 on, and a seed from 0 on")
    seconds = SECONDS if given.shake_within is None else given.shake_within
    if not (math.isfinite(seconds) and seconds > 0):
        raise Unusable(f"{_WITHIN} is a number of more than 0")
    tests = list(given.file_or_dir or ())
    options = _without_own([word for word in early_config.invocation_params.args if word not in tests])
    folder = Path(given.deferreds_record or os.curdir).resolve()
    settings = Settings(given.shake_seed, is_fast=given.shake_fast)
    return shake(Shaking(given.shake, settings, seconds, not given.shake_no_cut, folder, options, tests))


def _without_own(words: List[str]) -> List[str]:
    """The words of pytest without the options of this plugin, most of which take one each."""
    own = (_SHAKE, _SEED, _WITHIN, _OPTION)
    kept: List[str] = []
    before = ""
    for word in words:
        if word not in (*own, _NO_CUT, _FAST) and before not in own and not word.startswith(tuple(f"{option}=" for option in own)):
            kept.append(word)
        before = word
    return kept


@contextlib.contextmanager
def _uncaptured(early_config: Any) -> Iterator[None]:
    """Has what is said reach the terminal."""
    manager = early_config.pluginmanager.getplugin("capturemanager")
    if manager is None:
        yield
        return
    manager.suspend_global_capture(in_=True)
    try:
        yield
    finally:
        manager.resume_global_capture()


@pytest.hookimpl(tryfirst=True)
def pytest_cmdline_main() -> Optional[int]:
    """Tests that were shaken aren't run again."""
    return _shaken.pop() if _shaken else None


def pytest_configure(config: Any) -> None:
    """Where the option is given, each test is recorded."""
    folder: Optional[str] = config.getoption(_OPTION)
    if not folder or config.getoption(_SHAKE) is not None:
        return
    is_first = not hasattr(config, "workerinput")  # which a worker of pytest-xdist has
    with _refusing(_OPTION):
        from .recorded import RecordedTests

        tests = RecordedTests(Path(folder).resolve(), config.getoption("--deferreds-plain"), is_first)
    config.pluginmanager.register(Recording(tests, is_first), "deferreds-recording")


class Recording:
    """Records each test."""

    def __init__(self, tests: RecordedTests, is_first: bool) -> None:
        self._tests = tests
        self._is_first = is_first
        self._test: Optional[RecordedTest] = None

    @pytest.hookimpl(hookwrapper=True, tryfirst=True)
    def pytest_runtest_protocol(self, item: Any) -> Generator[None, Any, None]:
        """A test with its fixtures."""
        if "twisted.trial.unittest" in sys.modules:
            from . import cases

            cases.install()
        before, self._test = self._test, self._tests.begin(item.nodeid)
        try:
            with self._test.on():
                yield
        finally:
            self._tests.end(self._test)
            self._test = before

    @pytest.hookimpl(tryfirst=True)
    def pytest_runtest_call(self, item: Any) -> None:
        """The fixtures are there, and a case is made."""
        if self._test is not None:
            self._test.case = getattr(item, "instance", None)

    @pytest.hookimpl(hookwrapper=True)
    def pytest_runtest_makereport(self) -> Generator[None, Any, None]:
        """A part of the test has ended."""
        outcome = yield
        if self._test is not None and outcome.get_result().failed:
            self._test.failed = True

    def pytest_terminal_summary(self, terminalreporter: Any) -> None:
        """What was left is printed, a line a test."""
        told = self._tests.told() if self._is_first else []
        if told:
            terminalreporter.section("deferreds")
        for line in told:
            terminalreporter.write_line(line)
