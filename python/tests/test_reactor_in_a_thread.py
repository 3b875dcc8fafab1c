"""Programs whose reactor runs in another thread than the main one: that thread is recorded, or the command says why it isn't."""

from __future__ import annotations

import signal
import unittest

from deferreds.twisted.instruments.starts import BUSY

from .recording_of import Ended, RecordingCase

_PROGRAM = "reactor_in_a_thread.py"
_NAME = "reactor_in_a_thread"


class ReactorInAThread(RecordingCase):
    """What is recorded of a program that does as crochet does."""

    def assert_recorded(self, ended: Ended, status: int) -> None:
        """The run was recorded, in which the main thread has asked for three results, and has a Deferred of its own."""
        self.assertEqual(ended.status, status, ended.said)
        self.assertIn("./deferreds prints the same", ended.said)
        self.assertIn("left out: 1 Deferred of other threads", ended.said)
        self.assert_goes_together(_NAME)
        lines = self.text(f"{_NAME}.journal").splitlines()
        rest = iter(lines)
        for line in ('fire #0 ok "early"', "deliver 0", 'note "asked in the reactor\'s thread"'):
            self.assertIn(line, rest)
        self.assertTrue(any(line.startswith("later timeout ") for line in lines))
        self.assertNotIn("alone", " ".join(lines))

    def test_the_reactor_is_stopped_when_the_main_thread_has_ended(self) -> None:
        ended = self.record(_PROGRAM, "stops")
        self.assert_recorded(ended, 3)
        self.assertEqual(ended.printed, "early\n8 7\nasked in the reactor's thread\nValueError('no')\nalone\n")
        self.assertEqual(self.facts(_NAME)["ended"], "status 3")
        # what the reactor does while it stops is in: it has a list of its own then, as when it starts
        self.assertRegex(self.text(f"{_NAME}.journal"), r"(?s)fire #\d+ ok \[\]\n.*fire #\d+ ok \[\]\n")

    def test_the_process_ends_while_the_reactor_runs(self) -> None:
        self.assert_recorded(self.record(_PROGRAM, "daemon"), 3)
        self.assert_recorded(self.record(_PROGRAM, "exits"), 5)

    def test_signals(self) -> None:
        begun = self.folder / "begun"
        process = self.start(_PROGRAM, "waits", str(begun))
        self.wait_for(begun.exists, "the wait")
        process.send_signal(signal.SIGUSR1)
        self.wait_for(lambda: self.is_kept(_NAME), "the run so far")
        self.assertEqual(self.facts(_NAME)["ended"], "asked by SIGUSR1")
        self.assert_goes_together(_NAME)
        process.send_signal(signal.SIGTERM)
        ended = self.end(process)
        self.assert_recorded(ended, -signal.SIGTERM)
        self.assertIn(", until SIGTERM; ./deferreds prints the same up to there", ended.said)

    def test_the_last_events(self) -> None:
        ended = self.record("--last", "4", _PROGRAM, "stops")
        self.assertEqual(ended.status, 3, ended.said)
        for name in (_NAME, f"{_NAME}.before"):
            self.assert_goes_together(name)

    def test_a_reactor_that_starts_in_the_midst_of_an_event_is_refused(self) -> None:
        ended = self.record(_PROGRAM, "busy")
        self.assertEqual((ended.status, self.scripts()), (3, ["reactor_in_a_thread"]), ended.said)
        self.assertIn(BUSY, ended.said)

    def test_a_deferred_of_both_threads_is_refused(self) -> None:
        ended = self.record(_PROGRAM, "shared")
        self.assertEqual((ended.status, self.scripts()), (3, ["reactor_in_a_thread"]), ended.said)
        self.assertIn("a Deferred of the program is used in another thread, at ", ended.said)

    def test_under_the_reactor_of_asyncio(self) -> None:
        ended = self.record("-o", _NAME, "on_reactor.py", "asyncio", _PROGRAM, "stops")
        self.assert_recorded(ended, 3)


if __name__ == "__main__":
    unittest.main()
