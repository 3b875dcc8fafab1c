"""Programs under several reactors: recorded, each prints and ends as without the recorder, and its script prints its journal."""

from __future__ import annotations

import re
import tempfile
import unittest
from typing import List, Optional

from deferreds.twisted.telling import KINDS

from .forked import Ran, environment, run
from .test_real_reactor import ProgramTest, Recording, words_of

#: has a program be run as Python runs a file
_RUNS = "import runpy, sys; del sys.argv[0]; runpy.run_path(sys.argv[0], run_name='__main__')"

_OUT_OF_ORDER = "turns or ticks ran in another order than they are due in"


def bare(program: str) -> Ran:
    """How a program runs without the recorder."""
    with tempfile.TemporaryDirectory() as folder:
        return run(["-c", _RUNS, *words_of(program)], folder, environment())


class Reactors(ProgramTest):
    """Each reactor that is supported."""

    def same(self, program: str, by_chance: Optional[str] = None, *words: str, has_order: bool = True) -> Recording:
        """The recording of a program, which has printed what it prints without the recorder, and whose status is 0.

        `has_order`: the order of what it prints doesn't depend on how fast the machine is.
        """
        recording = self.recorded(program, by_chance, *words)
        without = bare(program)
        self.assertEqual(recording.status, without.returncode, recording.said)
        printed, expected = recording.printed.splitlines(), without.stdout.splitlines()
        if not has_order:
            printed.sort()
            expected.sort()
        self.assertEqual(printed, expected, recording.said)
        self.assertIn("prints the same, line for line", recording.said)
        return recording

    def count(self, recording: Recording, *beginnings: str) -> List[int]:
        """How many lines of the journal begin so."""
        return [sum(line.startswith(beginning) for line in recording.lines) for beginning in beginnings]

    def test_times_are_those_of_the_program(self) -> None:
        for reactor in ("select", "poll", "epoll", "asyncio"):
            with self.subTest(reactor):
                recording = self.same(f"on_reactor {reactor} times_of_a_reactor")
                self.assertEqual(self.count(recording, "later timeout ", "timeout ", "later call ", "call ", "reset "), [5, 4, 9, 8, 6])

    def test_what_threads_post_are_events(self) -> None:
        for reactor in ("select", "epoll", "asyncio"):
            with self.subTest(reactor):
                recording = self.same(f"on_reactor {reactor} posts_of_threads")
                words = [event[0] for event in recording.events]
                self.assertEqual((words.count("thread"), words.count("callback")), (4, 40))
                # what asyncio's reactor schedules by itself isn't recorded
                self.assertEqual(self.count(recording, "later call ", "job "), [8 + 4 + 1, 4])

    def test_sockets_loops_and_errors(self) -> None:
        for reactor in ("select", "asyncio"):
            for name, by_chance in (
                ("key_value_lines", None),
                ("idle_clients", None),
                ("forgotten_waiters", None),
                ("error_in_a_call", None),
                ("error_in_a_protocol", None),
                ("call_from_a_thread", None),
                ("loops_that_meet", _OUT_OF_ORDER),
            ):
                with self.subTest(reactor, name=name):
                    self.same(f"on_reactor {reactor} {name}", by_chance)

    def test_what_asyncio_calls_is_an_event(self) -> None:
        recording = self.same("asyncio_tasks")
        events = recording.events
        fired = [place for place, event in enumerate(events) if event[0] == "callback" and type(event[2]) is int]
        self.assertEqual(sorted(events[place][2] for place in fired), [0, 1, 1, 2, 2, 3])
        self.assertIn("advance", [event[0] for event in events[: fired[0]]])
        self.same("futures")

    def test_a_loop_that_the_program_runs_itself(self) -> None:
        self.assertIn("timeout #", self.same("asyncio_server").journal)

    def test_cooperators_and_other_kinds_as_what_they_are_made_of(self) -> None:
        self.same("on_reactor asyncio cooperators_as_events", has_order=False)
        self.same("on_reactor asyncio tick_around_a_call", has_order=False)
        self.same("on_reactor asyncio times_of_a_reactor", None, "--plain", ",".join(sorted(KINDS - {"clock"})))

    def test_the_last_events(self) -> None:
        self.recorded("on_reactor asyncio posts_of_threads", None, "--last", "20")

    def test_tests_of_twisted(self) -> None:
        measured = run(["-m", "deferreds.twisted", "measure", "--reactor", "asyncio", "twisted.test.test_threads"], ".", environment())
        self.assertEqual(measured.returncode, 0, measured.stdout + measured.stderr)
        [line] = [line for line in measured.stdout.splitlines() if line.startswith("| all ")]
        tests, nothing, whole, same, *_ = map(int, re.findall(r"\d+", line))
        self.assertGreater(whole, 10)
        self.assertEqual((tests, same), (nothing + whole, whole))

    def test_calls_moves_and_posts_by_chance(self) -> None:
        for reactor, seeds in (("epoll", (1, 2)), ("asyncio", (3, 4, 5))):
            for seed in seeds:
                with self.subTest(reactor, seed=seed):
                    self.recorded(f"on_reactor {reactor} random_times {seed}")


if __name__ == "__main__":
    unittest.main()
