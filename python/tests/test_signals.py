"""What handlers of signals do is recorded, and they aren't called inside Twisted's own code."""

from __future__ import annotations

import os
import signal
import sys
import unittest
from types import FrameType
from typing import Any, Dict, List, Optional

from deferreds.twisted import recording
from deferreds.twisted.instruments import install
from deferreds.twisted.recording.inside import reason_of
from deferreds.twisted.recording.recorder import Recorder
from deferreds.twisted.recording.signals import Handlers

from .recording_of import RecordingCase

_FILE = os.path.join(os.path.dirname(recording.__file__), "inside_of_it.py")
_TEXT = """
def inside(signals, handle, called):
    signals.call(handle, 14, sys._getframe())
    called.append("inside")
    helper(called)

def helper(called):
    called.append("helper")
"""


def function_of_the_recorder() -> Any:
    """A function in which a signal comes, whose file is one of the recorder's."""
    names: Dict[str, Any] = {"sys": sys}
    exec(compile(_TEXT, _FILE, "exec"), names)  # pylint: disable=exec-used
    return names["inside"]


class HandlersTest(unittest.TestCase):
    """When handlers are called."""

    def setUp(self) -> None:
        install()
        self.called: List[str] = []
        self.signals = Handlers()
        self.inside = function_of_the_recorder()

    def handle(self, number: int, frame: Optional[FrameType]) -> None:
        """A handler."""
        self.called.append("handler")

    def fail(self, number: int, frame: Optional[FrameType]) -> None:
        """A handler that raises an error."""
        self.called.append("failing")
        raise KeyError(number)

    def test_a_handler_waits_until_the_program_goes_on(self) -> None:
        with Recorder().watching():
            self.inside(self.signals, self.handle, self.called)
            self.called.append("program")
        self.assertEqual(self.called, ["inside", "helper", "handler", "program"])
        self.assertIsNone(sys.getprofile())

    def test_what_it_raises_reaches_the_program(self) -> None:
        with Recorder().watching():
            with self.assertRaises(KeyError):
                self.inside(self.signals, self.fail, self.called)
        self.assertEqual(self.called, ["inside", "helper", "failing"])
        self.assertIsNone(sys.getprofile())

    def test_it_is_called_at_once_in_the_program_and_where_nothing_is_recorded(self) -> None:
        self.inside(self.signals, self.handle, self.called)
        with Recorder().watching():
            self.signals.call(self.handle, 14, sys._getframe())
        self.assertEqual(self.called, ["handler", "inside", "helper", "handler"])

    def test_a_reason_names_the_signal(self) -> None:
        def handler(number: int, frame: Optional[FrameType]) -> str:
            return reason_of(sys._getframe())

        self.assertIn("a handler of SIGTERM uses", handler(signal.SIGTERM, sys._getframe()))


class RecordedTest(RecordingCase):
    """Programs that handle signals."""

    def test_what_handlers_do_is_recorded(self) -> None:
        ended = self.record("signals.py")
        self.assertEqual((ended.status, ended.printed.splitlines()[:2]), (0, ["True True", "True"]))
        self.assertEqual(ended.printed.count("SIGALRM"), 4)
        self.assert_goes_together("signals")
        # in the callback it is an action of that, and while the reactor waits an event, before which time goes on
        events = self.events("signals")
        self.assertIn("SIGALRM", str([event for event in events if event[0] == "addCallback" and "do" in event[2]]))
        self.assertIn("advance deferred addCallback callback", " ".join(event[0] for event in events))

    def test_none_is_refused_wherever_the_signal_comes(self) -> None:
        self.assertEqual(self.record("signals_often.py").status, 0)
        self.assert_goes_together("signals_often")


if __name__ == "__main__":
    unittest.main()
