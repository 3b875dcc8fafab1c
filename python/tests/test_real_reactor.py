"""Programs on a real reactor, recorded: the program prints for their scripts what real Twisted did, line for line."""

from __future__ import annotations

import json
import math
import os
import re
import tempfile
import unittest
from fractions import Fraction
from pathlib import Path
from typing import Any, List, Optional

from deferreds.checkout import TOP
from deferreds.twisted.programs import ours
from deferreds.twisted.running import be_quiet
from deferreds.twisted.running import run as run_script

from .forked import environment, run

PROGRAMS = TOP / "python" / "data" / "programs"


class Recording:
    """What `./record` has written of a program, and said."""

    def __init__(self, program: str, *words: str) -> None:
        """`program`: its name and its words; `words`: those of the command."""
        with tempfile.TemporaryDirectory() as folder:
            command = ["-m", "deferreds.twisted", "record", *words, "-o", os.path.join(folder, "run"), *words_of(program)]
            ran = run(command, folder, environment())
            self.status, self.printed, self.said = ran
            self.script, self.journal = (_text(Path(folder, f"run.{kind}")) for kind in ("json", "journal"))

    @property
    def lines(self) -> List[str]:
        """The lines of the journal, and those of the outcomes."""
        return self.journal.splitlines()

    @property
    def events(self) -> List[Any]:
        """The events of the script."""
        return list(json.loads(self.script)["events"])

    @property
    def tick(self) -> Fraction:
        """The seconds of a tick, as the report has them."""
        told = re.search(r"1 tick = (\d+(?:/\d+)?) (s|ms|µs|ns)\n", self.said)
        assert told is not None, self.said
        return Fraction(told[1]) / 1_000 ** ("s", "ms", "µs", "ns").index(told[2])


def words_of(program: str) -> List[str]:
    """The file of a program, and its words. That which `on_reactor` runs is named by its file, too."""
    words = program.split()
    for place in (0, 2) if words[0] == "on_reactor" else (0,):
        words[place] = os.fspath(PROGRAMS / f"{words[place]}.py")
    return words


def _text(path: Path) -> str:
    return path.read_text(encoding="utf-8") if path.exists() else ""


class ProgramTest(unittest.TestCase):
    """A program that has its reactor run."""

    def recorded(self, name: str, by_chance: Optional[str] = None, *words: str) -> Recording:
        """Its recording, which the program reproduces. If this is said, which may be by chance, it is recorded again, at most twice."""
        recording = Recording(name, *words)
        for _ in range(2):
            if by_chance is not None and by_chance in recording.said:
                recording = Recording(name, *words)
        self.assertEqual(recording.status, 0, recording.said)
        self.assertEqual(ours().answer(recording.script).output, recording.journal)
        return recording

    def refused(self, name: str) -> str:
        """It is refused, and has a journal, and the script of its beginning if there is one: why."""
        recording = Recording(name)
        self.assertEqual(recording.status, 65, recording.said)
        self.assertTrue(recording.journal, recording.said)
        if recording.script:
            self.assertEqual(ours().answer(recording.script).output, recording.journal)
        return recording.said

    def assert_in_order(self, lines: List[str], *expected: str) -> None:
        """These lines are there, in this order."""
        rest = iter(lines)
        for line in expected:
            self.assertIn(line, rest)


class RealReactor(ProgramTest):
    """Programs on the reactor that Twisted chooses."""

    def test_an_error_that_leaves_a_delayed_call(self) -> None:
        recording = self.recorded("error_in_a_call")
        self.assertIn("""unhandled KeyError "'missing'\"""", recording.lines)
        words = [event[0] for event in recording.events]
        self.assertEqual(words.count("later"), 2)
        self.assertIn("advance", words)

    def test_an_error_that_a_reactor_logs(self) -> None:
        self.assertIn('unhandled ValueError "no such verb"', self.recorded("error_in_a_protocol").lines)

    def test_an_error_of_what_another_thread_has_called(self) -> None:
        recording = self.recorded("call_from_a_thread")
        self.assert_in_order(recording.lines, 'note "42"', 'unhandled ValueError "from a thread"')

    def test_who_was_forgotten_is_unfired(self) -> None:
        recording = self.recorded("forgotten_waiters")
        self.assertIn('unhandled ZeroDivisionError "division by zero"', recording.lines)
        self.assert_in_order(recording.lines, 'note "0 A"', 'note "2 OSError"', 'note "3 TimeoutError"', 'note "4 TimeoutError"')

    def test_times_have_the_unit_that_they_need(self) -> None:
        for name, least in (("call_in_an_hour", Fraction(1, 4)), ("call_in_microseconds", Fraction(13, 1_000_000))):
            with self.subTest(name):
                recording = self.recorded(name)
                delays = [event[2] * recording.tick for event in recording.events if event[0] == "later"]
                self.assertEqual(delays, [least, 3_600])
                told = [event[-2 if event[0] == "later" else -1] for event in recording.events if event[0] in ("later", "advance")]
                self.assertEqual(math.gcd(*told), 1)

    def test_connections_have_their_times(self) -> None:
        recording = self.recorded("key_value_lines")
        # the late answer is taken for that of the next request
        self.assert_in_order(recording.lines, 'note "stored"', 'note "timed out"', 'note "at last"')
        waited = [event for event in recording.events if event[0] == "advance"]
        self.assertGreater(len(waited), 4)

    def test_a_call_that_schedules_itself_nests_no_script_too_deep(self) -> None:
        for name, calls in (("call_that_comes_again", 45), ("poll_by_callbacks", 119)):
            with self.subTest(name):
                recording = self.recorded(name)
                self.assertEqual(sum(line.startswith("call ") for line in recording.lines), calls)

    def test_loops_whose_turns_fall_together(self) -> None:
        # on a loaded machine a turn may come when the next one is due
        recording = self.recorded("loops_that_meet", "turns or ticks ran in another order than they are due in")
        self.assertEqual([event[3] * recording.tick for event in recording.events if event[0] == "loop"], [0.25, 0.5])
        moves = [(event[0], event[2] * recording.tick) for event in recording.events if event[0] in ("resetCall", "delayCall")]
        self.assertEqual(moves, [("resetCall", 1), ("delayCall", Fraction(6, 10))])
        self.assertIn('note "True"', recording.lines)

    def test_loops_that_a_slow_body_starts(self) -> None:
        recording = self.recorded("loops_of_a_slow_body", "turns or ticks ran in another order than they are due in")
        began = recording.events[0][3]["do"]
        self.assertEqual([(action[0], action[3] * recording.tick) for action in began], [("loop", Fraction(1, 5)), ("loop", Fraction(2, 5))])
        self.assertIn('note "True"', recording.lines)

    def test_servers(self) -> None:
        for name, note in (("pages", """note "b'at last'\""""), ("idle_clients", 'note "[4, 4, 4]"')):
            with self.subTest(name):
                self.assertIn(note, self.recorded(name).lines)

    def test_calls_that_are_reset_by_what_comes(self) -> None:
        recording = self.recorded("idle_clients")
        resets = [line for line in recording.lines if line.startswith("reset ")]
        self.assertEqual(len(resets), 6)
        self.assertEqual(json.loads(recording.script)["version"], 3)

    def test_results_of_threads_come_at_their_times(self) -> None:
        recording = self.recorded("result_of_a_thread")
        script = json.loads(recording.script)
        [pool] = script["pools"]
        self.assertEqual((script["version"], pool[1]), (2, 2))
        by_word = {event[0]: event for event in recording.events}
        self.assertEqual(by_word["thread"][3], ["value", ["read", 42]])
        self.assertEqual(by_word["threadIn"][2:3] + by_word["threadIn"][4:], [pool[0], ["raise", "OSError", "no such file: a.txt"]])
        self.assertGreaterEqual(by_word["thread"][2] * recording.tick, Fraction(15, 100))
        self.assert_in_order(recording.lines, "deliver 1", "deliver 0")

    def test_a_result_that_nobody_wants_and_one_that_never_comes(self) -> None:
        recording = self.recorded("result_that_comes_late")
        self.assert_in_order(recording.lines, "deliver 0", "swallow #0")
        self.assertNotIn("deliver 1", recording.lines)

    def test_deferreds_of_another_thread_are_left_out(self) -> None:
        recording = self.recorded("deferred_in_a_thread")
        self.assertIn("left out: 3 Deferreds of other threads", recording.said)
        self.assertIn('note "[1, 2]"', recording.lines)

    def test_a_deferred_that_two_threads_use_is_refused(self) -> None:
        self.assertIn("a Deferred of the program is used in another thread", self.refused("fired_in_a_thread"))

    def test_ticks_by_the_wall_clock_have_their_numbers_of_steps(self) -> None:
        recording = Recording("ticks_by_the_clock")
        be_quiet()
        self.assertEqual(recording.status, 0, recording.said)
        self.assertEqual(run_script(recording.script.encode()).output, recording.journal)
        events = json.loads(recording.script)["events"]
        changes = [place for place, event in enumerate(events) if event[0] == "units"]
        self.assertTrue(changes)
        self.assertEqual({events[place + 1][0] for place in changes}, {"advance"})

    def test_ticks_of_several_cooperators(self) -> None:
        recording = self.recorded("tickers")
        script = json.loads(recording.script)
        self.assertEqual([settings["delay"] * recording.tick for _, settings in script["cooperators"]], [Fraction(2, 100), Fraction(3, 1_000)])
        ended = [line.split(" ")[2:] for line in recording.lines if line.startswith("end ") and "SchedulerStopped" in line]
        self.assertEqual(ended, [["fail", "SchedulerStopped", '""']] * 2)

    def test_cooperators_that_no_script_has_by_name(self) -> None:
        for name, note in (("tick_around_a_call", "a call"), ("cooperators_as_events", "ended AlreadyCalledError")):
            with self.subTest(name):
                recording = self.recorded(name)
                self.assertIn("further Cooperators are recorded as events: ", recording.said)
                script = json.loads(recording.script)
                self.assertEqual(("cooperators" in script, [event[0] for event in script["events"]].count("cooperate")), (False, 1))
                self.assertEqual([line for line in recording.lines if line.split(" ")[0] in ("taskin", "tickin", "hold", "whendone")], [])
                self.assertIn(f'note "{note}"', recording.lines)

    def test_what_cooperators_do_that_no_script_has_by_name(self) -> None:
        for case, line in (
            ("held", 'note "ended generator"'),
            ("stopped", 'note "refused SchedulerStopped"'),
            ("fired", 'unhandled AlreadyCalledError ""'),
            ("raises", 'unhandled ValueError "no tick"'),
            ("schedules", 'unhandled ValueError "no more ticks"'),
        ):
            with self.subTest(case):
                recording = self.recorded(f"cooperators_at_odds {case}")
                self.assertIn("further Cooperators are recorded as events: ", recording.said)
                self.assertNotIn('"cooperators"', recording.script)
                self.assertIn(line, recording.lines)

    def test_the_last_events_of_cooperators_that_no_script_has_by_name(self) -> None:
        self.recorded("tick_around_a_call", None, "--last", "10")

    def test_bodies_that_nest_are_told(self) -> None:
        recording = self.recorded("piece_by_piece")
        self.assertIn('"bodies":[[', recording.script)
        self.assertTrue(any(line.startswith("body ") for line in recording.lines))
        self.recorded("poll_by_callbacks")

    def test_a_coroutine_that_is_cancelled_is_told_to_be_otherwise(self) -> None:
        recording = Recording("cancelled_handler")
        self.assertIn("docs/TWISTED.md says of cancelled-inline", recording.said)
        self.assertIn('note "failed: CancelledError"', recording.lines)


if __name__ == "__main__":
    unittest.main()
