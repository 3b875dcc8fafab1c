"""`deferreds-trial --deferreds-record FOLDER [WORDS OF TRIAL..]`: trial, which leaves a recording of each test that failed or
left something behind.

All words are those of trial beside `--deferreds-record FOLDER` and `--deferreds-plain KIND,..`. `deferreds-trial --shake N MODULE..` runs
each test alone, and shaken, as `--shake N --test` of `deferreds-record` does; what fails is recorded in FOLDER, or in the current one.
"""

from __future__ import annotations

import os
import sys
from pathlib import Path
from typing import Any, Callable, List, Optional, Tuple

from twisted.python import usage
from twisted.scripts import trial
from twisted.trial.unittest import TestCase

from ..ending import print_text, writing
from ..twisted.commands import record
from ..twisted.recording.case import without_own_frames
from . import cases
from .folder import NotUsable
from .recorded import RecordedTest, RecordedTests

_OPTION = "deferreds-record"
_PLAIN = "deferreds-plain"
_SHAKE, _SEED, _WITHIN, _ONLY, _FAST, _NO_CUT = "shake", "seed", "within", "only", "fast", "no-cut"

_Options: Any = trial.Options
_run: Callable[[], object] = trial.run


class Options(_Options):
    """The options of trial, and those of recordings."""

    optParameters = [
        [_OPTION, None, None, "leave a recording in this folder of each test that failed or left something behind"],
        [_PLAIN, None, "", "record these kinds of objects as the Python that they are made of"],
        [_SHAKE, None, None, "run each test this many times, shaken by a seed each time, and record the first run that fails"],
        [_SEED, None, None, "with --shake: the first seed"],
        [_WITHIN, None, None, "with --shake: how many seconds a run may take"],
    ]

    optFlags = [
        [_FAST, None, "with --shake: have the clock jump over a wait in which nothing but time can bring anything"],
        [_NO_CUT, None, "with --shake: don't look which perturbations a failure needs"],
    ]

    #: whether tests are shaken: then the reactor isn't installed in this process
    shakes = False

    def opt_reactor(self, shortName: str) -> None:
        """Which reactor to use (see --help-reactors for a list of possibilities)"""
        if self.shakes:
            self["reactor"] = shortName
        else:
            super().opt_reactor(shortName)

    opt_r = opt_reactor

    def opt_only(self, key: str) -> None:
        """with --shake: shake only what has this key, as a search has named it; may be given several times"""
        self.setdefault(_ONLY, []).append(key)

    def opt_help(self) -> None:
        """Display this help and exit."""
        print_text(str(self))
        raise SystemExit(0)

    def parseOptions(self, options: Any = None) -> None:
        """Raises OutputFailed if what is asked for can't be printed."""
        with writing():
            super().parseOptions(options)

    def postOptions(self) -> None:
        """Has trial's reporter record each test, where that is asked for."""
        if self[_SHAKE]:
            if not self["tests"]:
                raise usage.UsageError(f"--{_SHAKE} needs the name of a test, of a module or of a package")
            raise _Shaken(self)
        alone = next((name for name in (_SEED, _WITHIN, _ONLY, _FAST, _NO_CUT) if self.get(name)), None)
        if alone is not None:
            raise usage.UsageError(f"--{alone} is for --{_SHAKE}")
        super().postOptions()
        if not self[_OPTION]:
            return
        if self["jobs"]:
            raise usage.UsageError(f"--{_OPTION} records no tests of the processes of --jobs")
        if not isinstance(self["reporter"], type):
            raise usage.UsageError(f"--{_OPTION} needs a reporter that is a class")
        try:
            tests = RecordedTests(Path(self[_OPTION]).resolve(), self[_PLAIN])
        except NotUsable as why:
            raise usage.UsageError(f"--{_OPTION}: {why}") from None
        cases.install()
        self["reporter"] = _recording(self["reporter"], tests)


class _Shaken(Exception):
    """Tests are shaken, by these options, and trial isn't run."""

    def __init__(self, options: Options) -> None:
        super().__init__()
        self.options = options


def _shake(options: Any) -> int:
    """Shakes each of the tests. Gives 1 if one fails, and else 2 if one fails alone."""
    words = ["--shake", options[_SHAKE], "-o", os.path.join(options[_OPTION] or os.curdir, "")]
    for name, option in ((_SEED, "--seed"), (_WITHIN, "--within"), ("reactor", "--reactor"), (_PLAIN, "--plain")):
        if options.get(name):
            words += [option, options[name]]
    for key in options.get(_ONLY, []):
        words += ["--only", key]
    words += [f"--{name}" for name in (_FAST, _NO_CUT) if options[name]]
    statuses = [record.main([*words, "--test", test]) for test in options["tests"]]
    return min(filter(None, statuses), default=0)


def _recording(reporter: Any, tests: RecordedTests) -> Any:
    """A class of reporters as this one, which have each test recorded."""

    class Recording(reporter):
        """It begins a recording where a test starts, and ends it where that stops."""

        _recorded: Optional[Tuple[RecordedTest, Any]] = None

        def startTest(self, test: Any) -> None:
            super().startTest(test)
            recorded = tests.begin(test.id())
            recorded.case = test
            # an asynchronous case turns its recorder on itself, where its own functions run
            whole = None if isinstance(test, TestCase) else recorded.on()
            if whole is not None:
                whole.__enter__()
            self._recorded = recorded, whole

        def stopTest(self, test: Any) -> None:
            self._end()
            super().stopTest(test)

        def _end(self) -> None:
            recorded, self._recorded = self._recorded, None
            if recorded is None:
                return
            test, whole = recorded
            if whole is not None:
                whole.__exit__(None, None, None)
            tests.end(test)

        def _failed(self, error: Any) -> None:
            without_own_frames(error)
            if self._recorded is not None:
                self._recorded[0].failed = True

        def addError(self, test: Any, error: Any) -> None:
            self._failed(error)
            super().addError(test, error)

        def addFailure(self, test: Any, fail: Any) -> None:
            self._failed(fail)
            super().addFailure(test, fail)

        def addUnexpectedSuccess(self, test: Any, todo: Any = None) -> None:
            self._failed(None)
            super().addUnexpectedSuccess(test, todo)

        def done(self) -> None:
            self._end()
            super().done()
            for line in tests.told():
                self._writeln("deferreds: %s", line)

    return Recording


def main(words: List[str]) -> int:
    """Runs trial with these words, and ends as it does. Raises UnknownTwisted, where tests are to be recorded."""
    sys.path.insert(0, str(Path.cwd()))
    before, sys.argv = sys.argv, ["deferreds-trial", *words]
    setattr(trial, "Options", Options)
    Options.shakes = any(word == f"--{_SHAKE}" or word.startswith(f"--{_SHAKE}=") for word in words)
    try:
        _run()
    except _Shaken as shaken:
        return _shake(shaken.options)
    except SystemExit as exit_:
        if not isinstance(exit_.code, str):
            raise
        print(exit_.code, file=sys.stderr)
        return 1
    finally:
        sys.argv = before
    return 0
