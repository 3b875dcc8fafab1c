"""Has the asynchronous test cases of trial be recorded, whatever runs them."""

from __future__ import annotations

import functools
from typing import Any, Callable, ContextManager, Optional

from twisted.trial.unittest import TestCase

from ..twisted.recording.case import AtRest, RecordedCase
from ..twisted.recording.recorder import Recorder
from .recorded import running


def _recorder() -> Optional[Recorder]:
    """The recorder of the test that runs, if there is one."""
    test = running()
    return None if test is None else test.recorder


def _around(case: TestCase) -> ContextManager[None]:
    """What is entered while a case runs. What a case does that a test runs isn't recorded."""
    test = running()
    if test is not None and test.case is not case:
        return AtRest()
    return RecordedCase(case, _recorder, in_next_turn=False)


def install() -> None:
    """Has each of these cases run its own functions under the recorder. Done twice, it is done once."""
    run: Callable[..., Any] = TestCase.run
    if getattr(run, "_is_recorded", False):
        return

    @functools.wraps(run)
    def recorded_run(self: TestCase, result: Any) -> Any:
        with _around(self):
            return run(self, result)

    setattr(recorded_run, "_is_recorded", True)
    setattr(TestCase, "run", recorded_run)
