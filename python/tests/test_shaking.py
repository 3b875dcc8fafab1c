"""What a seed chooses, how runs are made and judged, what is needed is found, and what a failure takes is said."""

from __future__ import annotations

import gc
import os
import random
import re
import signal
import subprocess
import sys
import threading
import time
import unittest
from collections import Counter
from typing import Callable, Dict, FrozenSet, List, Optional, Sequence, Tuple

from deferreds.twisted.shaking.beside import Recording, page_beside
from deferreds.twisted.shaking.choices import KINDS, Choices, Settings
from deferreds.twisted.shaking.failing import LEFT, STATUS, Judge
from deferreds.twisted.shaking.fast import Fast, Waits
from deferreds.twisted.shaking.log import Log
from deferreds.twisted.shaking.naming import Counts, cleaned, ordinal, place_of_program
from deferreds.twisted.shaking.needed import Cutting
from deferreds.twisted.shaking.runs import Ended, run
from deferreds.twisted.shaking.shaker import CAME, Shaker
from deferreds.twisted.shaking.telling_order import Seen, sentence
from deferreds.view.names import WHOLE_JOURNAL

_WHO = [f"thread-{number}" for number in range(40)]


def sizes(settings: Settings, kinds: Sequence[str] = tuple(KINDS), first: int = 1) -> Dict[str, float]:
    """What is chosen of some hundred possible perturbations, by their keys."""
    choices = Choices(settings)
    asked = [(kind, who, number) for kind in kinds for who in _WHO for number in range(first, first + 4)]
    found = {f"{kind} {who} {number}": choices.size(kind, who, number) for kind, who, number in asked}
    return {key: size for key, size in found.items() if size is not None}


class ChoicesTest(unittest.TestCase):
    """What a seed chooses."""

    def test_a_choice_depends_on_the_seed_and_the_key_alone(self) -> None:
        whole = sizes(Settings(7))
        alone = {key: Choices(Settings(7)).size(*key.split(" ")[:2], int(key.split(" ")[2])) for key in whole}  # type: ignore[arg-type]
        self.assertEqual(alone, whole)
        self.assertNotEqual(sizes(Settings(8)), whole)

    def test_to_leave_some_out_changes_no_other(self) -> None:
        whole = sizes(Settings(7))
        some = frozenset(list(whole)[::3])
        self.assertTrue(some)
        self.assertEqual(sizes(Settings(7, only=some)), {key: whole[key] for key in some})

    def test_kinds_that_are_not_shaken_are_left_alone(self) -> None:
        whole = sizes(Settings(3))
        found = sizes(Settings(3, frozenset({"hold", "cut"})))
        self.assertTrue(found)
        self.assertEqual(found, {key: size for key, size in whole.items() if key.startswith(("hold ", "cut "))})

    def test_each_kind_is_chosen_by_some_seed_and_off_by_another(self) -> None:
        for kind in KINDS:
            counts = [len(sizes(Settings(seed), [kind])) for seed in range(30)]
            self.assertIn(0, counts, kind)
            self.assertGreater(max(counts), len(_WHO), kind)

    def test_who_comes_very_often_is_seldom_held_up(self) -> None:
        early = sum(len(sizes(Settings(seed), ["post"])) for seed in range(30))
        late = sum(len(sizes(Settings(seed), ["post"], 1900)) for seed in range(30))
        self.assertTrue(0 < late * 50 < early, (late, early))
        self.assertEqual([sizes(Settings(seed), ["post"], 2001) for seed in range(30)], [{}] * 30)

    def test_delays_are_as_long_as_is_asked(self) -> None:
        for seed in range(20):
            choices = Choices(Settings(seed, most=80.0))
            lengths = [choices.milliseconds("post a 1", size / 100) for size in range(101)]
            self.assertEqual(lengths, sorted(lengths))
            self.assertAlmostEqual(lengths[0], 0.1)
            self.assertAlmostEqual(lengths[-1], 80.0)

    def test_delays_can_be_longer_all_or_those_of_a_key(self) -> None:
        usual = Choices(Settings(1)).milliseconds("post a 1", 0.4)
        self.assertAlmostEqual(Choices(Settings(1, stretch=1.5)).milliseconds("post a 1", 0.4), usual * 1.5)
        longer = Choices(Settings(1, stretch=2.0, lengths={"post a 1": 0.25}))
        self.assertAlmostEqual(longer.milliseconds("post a 1", 0.4), usual * 0.5)
        self.assertAlmostEqual(longer.milliseconds("post b 1", 0.4), usual * 2)


class NamesTest(unittest.TestCase):
    """Names that things have in each run."""

    def test_a_place_is_that_of_the_program(self) -> None:
        line = sys._getframe().f_lineno + 1
        self.assertEqual(place_of_program(), f"test_shaking.py:{line}")

    def test_names_have_neither_spaces_nor_commas(self) -> None:
        self.assertEqual(cleaned("Thread-1 (work, later)"), "Thread-1_(work__later)")

    def test_what_has_the_same_name_is_counted(self) -> None:
        counts = Counts()
        self.assertEqual([counts.next(name) for name in ("a", "b", "a", "a")], [1, 1, 2, 3])

    def test_ordinals(self) -> None:
        self.assertEqual([ordinal(n) for n in (1, 2, 3, 4, 11, 12, 13, 21, 112)], "1st 2nd 3rd 4th 11th 12th 13th 21st 112th".split())


class RunsTest(unittest.TestCase):
    """Runs in processes of their own."""

    def test_what_a_run_prints_and_notes_is_known(self) -> None:
        def program(log: Log) -> int:
            print("printed")
            Shaker(Choices(Settings(1)), log).meet("post", "a\tb", 1, "two\nlines")
            return 3

        ended = run(program, 20.0)
        self.assertEqual((ended.status, ended.output, ended.met), (3, "printed\n", {"post a b 1": "two lines"}))

    def test_a_run_that_hangs_is_ended_with_all_that_it_has_started(self) -> None:
        def program(log: Log) -> int:
            child = os.fork()
            if child == 0:
                os.setsid()
                time.sleep(60)
            Shaker(Choices(Settings(1)), log, follows=True).come(str(child), "")
            time.sleep(60)
            return 0

        ended = run(program, 1.0)
        self.assertIsNone(ended.status)
        [(child, _)] = ended.came
        self.assertRaises(ProcessLookupError, os.kill, int(child), 0)

    def test_the_signal_that_ends_a_run_is_its_status(self) -> None:
        def program(log: Log) -> int:
            os.kill(os.getpid(), signal.SIGTERM)
            return 0

        handled: List[int] = []
        before = signal.signal(signal.SIGTERM, lambda number, frame: handled.append(number))
        self.addCleanup(signal.signal, signal.SIGTERM, before)
        self.assertEqual(run(program, 20.0).status, -signal.SIGTERM)

    def test_a_run_has_no_standard_input_and_is_no_part_of_this_group(self) -> None:
        def program(log: Log) -> int:
            print(repr(sys.stdin.read()), os.getpgid(0) == os.getpid())
            return 0

        self.assertEqual(run(program, 20.0).output, "'' True\n")

    def test_a_forked_child_notes_nothing(self) -> None:
        def program(log: Log) -> int:
            if os.fork() == 0:
                log.write(CAME, "child", "")
                os._exit(0)
            os.wait()
            log.write(CAME, "parent", "")
            return 0

        self.assertEqual(run(program, 20.0).came, [("parent", "")])

    def test_what_does_not_fit_into_the_log_is_dropped(self) -> None:
        log = Log(64)
        for number in range(9):
            log.write("line", str(number), "x" * 20)
        self.assertEqual([line[1] for line in log.lines()], ["0", "1"])
        log.close()

    def test_errors_that_are_logged_are_noted(self) -> None:
        def program(log: Log) -> int:
            from twisted.internet.defer import fail
            from twisted.python import log as old
            from twisted.python.failure import Failure

            old.err(Failure(KeyError("a")), "why")
            old.err("b")
            old.msg("no error")
            fail(ValueError("c"))  # (which nobody handles)
            return 0

        gc.collect()  # what other tests have dropped isn't the run's
        self.assertEqual(run(program, 20.0).errors, Counter(["KeyError", "without a failure", "ValueError"]))


def ended(status: Optional[int] = 0, errors: Sequence[str] = (), left: Sequence[str] = (), output: str = "") -> Ended:
    """How a run has ended."""
    return Ended(status, output, {}, [], Counter(errors), Counter(left), 0.1)


def whys(until: str, plain: Sequence[Ended], runs: Sequence[Ended]) -> List[Optional[str]]:
    """Why these runs fail."""
    judge = Judge(until, 5.0, plain)
    return [None if why is None else why.text for why in map(judge.why, runs)]


class JudgeTest(unittest.TestCase):
    """Which runs fail."""

    def test_a_run_fails_by_its_status_its_signal_and_its_time(self) -> None:
        found = whys(STATUS, [ended()], [ended(), ended(3), ended(-9), ended(None)])
        self.assertEqual(found, [None, "its status is 3", "signal 9 ends it", "it takes longer than 5 s"])

    def test_an_error_that_plain_runs_log_too_is_none(self) -> None:
        plain = [ended(errors=["KeyError"]), ended(errors=["KeyError", "ValueError"])]
        found = whys(STATUS, plain, [ended(errors=["ValueError", "KeyError"]), ended(errors=["KeyError"] * 2), ended(errors=["OSError"])])
        self.assertEqual(found, [None, None, "an error is logged: OSError"])
        self.assertIsNone(Judge(STATUS, 5.0, plain, looks_at_log=False).why(ended(errors=["OSError"])))

    def test_what_is_left_is_looked_at_if_asked(self) -> None:
        runs = [ended(left=["a", "b"]), ended(left=["a", "a"])]
        self.assertEqual(whys(STATUS, [ended()], runs), [None, None])
        plain = [ended(left=["a"]), ended(left=["b"])]
        self.assertEqual(whys(LEFT, plain, runs), [None, "left at its end: a"])

    def test_a_command_judges_the_output(self) -> None:
        found = whys("grep -q good", [ended()], [ended(output="good\n"), ended(output="bad\n"), ended(2, output="good\n")])
        self.assertEqual(found, [None, "`grep -q good` has status 1", "its status is 2"])
        self.assertEqual(whys('grep -q good "$SHAKEN_OUTPUT"', [], [ended(output="good\n")]), [None])


class FastTest(unittest.TestCase):
    """A clock that jumps, in a process that has neither threads nor children."""

    def alone(self, part: Callable[[], None]) -> None:
        """Runs a part of a test in a process of its own."""
        ended = run(lambda log: part() or 0, 60.0)
        self.assertEqual((ended.output, ended.status), ("", 0))

    def wait(self, fast: Fast, seconds: Optional[float], watched: Sequence[str] = (), found: Sequence[str] = ()) -> Tuple[List[str], List[Optional[float]]]:
        """What is found, and for how long was waited."""
        asked: List[Optional[float]] = []

        def ask(most: Optional[float]) -> List[str]:
            asked.append(most)
            time.sleep(min(most or 0.0, 0.005))
            return list(found)

        return fast.wait(ask, seconds, lambda: watched), asked

    def test_a_wait_for_time_alone_is_left_out(self) -> None:
        def part() -> None:
            fast = Fast()
            self.assertEqual([self.wait(fast, 30.0), self.wait(fast, 12.5)], [([], [0.0])] * 2)
            self.assertEqual(fast.waits, Waits(2, 42.5))
            self.assertEqual(fast.waits.said, "--fast left out 2 waits, of 42.5 s in all")

        self.alone(part)

    def test_what_is_ready_comes_without_a_jump(self) -> None:
        def part() -> None:
            fast = Fast()
            self.assertEqual(self.wait(fast, 30.0, found=["post"]), (["post"], [0.0]))
            self.assertEqual(fast.waits, Waits())

        self.alone(part)

    def test_short_waits_and_those_without_end_are_as_ever(self) -> None:
        def part() -> None:
            fast = Fast()
            self.assertEqual([self.wait(fast, seconds)[1] for seconds in (None, 0.0, 0.001)], [[None], [0.0], [0.001]])
            self.assertEqual(fast.waits, Waits())

        self.alone(part)

    def test_it_waits_while_something_else_can_come(self) -> None:
        def part() -> None:
            fast, going = Fast(), threading.Event()
            asked = self.wait(fast, 30.0, ["port 1"], ["read"])[1]
            thread = threading.Thread(target=going.wait, name="worker")
            thread.start()
            asked += self.wait(fast, 20.0, found=["post"])[1]
            going.set()
            thread.join()
            child = subprocess.Popen(["sleep", "60"])
            asked += self.wait(fast, 10.0, found=["end"])[1]
            child.kill()
            child.wait()
            signal.setitimer(signal.ITIMER_REAL, 60)
            asked += self.wait(fast, 0.015, found=["signal"])[1]
            signal.setitimer(signal.ITIMER_REAL, 0)
            asked += self.wait(fast, 1.0)[1]
            self.assertEqual(asked, [0.02, 0.02, 0.02, 0.015, 0.0])
            reasons = ["port 1 is watched", "the thread worker works", "a process runs", "a timer of the system runs"]
            self.assertEqual((fast.waits.jumps, fast.waits.reasons), (1, Counter(reasons)))
            said = ", ".join(f"{reason} (1 time)" for reason in reasons[:3])
            self.assertRegex(fast.waits.said, rf"^--fast left out 1 wait, of 1\.0 s in all; it waited 4 times, 0\.\d s in all, since {re.escape(said)}, and 1 more$")

        self.alone(part)

    def test_the_rest_of_a_wait_is_left_out_once_nothing_else_can_come(self) -> None:
        def part() -> None:
            fast = Fast()
            thread = threading.Thread(target=time.sleep, args=(0.05,), name="worker")
            thread.start()
            found, asked = self.wait(fast, 600.0)
            self.assertEqual((found, asked[0], asked[-1], fast.waits.jumps, fast.waits.reasons), ([], 0.02, 0.0, 1, Counter(["the thread worker works"])))
            self.assertTrue(0.04 < fast.waits.waited < 300 < fast.waits.skipped, fast.waits)
            self.assertAlmostEqual(fast.waits.waited + fast.waits.skipped, 600.0, 1)

        self.alone(part)

    def test_a_wait_in_which_nothing_comes_is_as_long_as_ever(self) -> None:
        def part() -> None:
            fast = Fast()
            self.assertEqual(self.wait(fast, 0.03, ["port 1"])[0], [])
            self.assertEqual((fast.waits.jumps, fast.waits.waited >= 0.03), (0, True))

        self.alone(part)

    def test_all_clocks_go_on_by_as_much(self) -> None:
        def program(log: Log) -> int:
            fast = Fast(log)
            fast.install()
            clocks = [time.time, time.monotonic, time.perf_counter, lambda: time.time_ns() / 1e9, lambda: time.monotonic_ns() / 1e9, lambda: time.perf_counter_ns() / 1e9]
            before = [clock() for clock in clocks]
            self.wait(fast, 500.0)
            print([round((clock() - then) / 100) for clock, then in zip(clocks, before)], [clock.__name__ for clock in clocks[:3]])
            return 0

        ended = run(program, 20.0)
        self.assertEqual((ended.output, ended.waits), ("[5, 5, 5, 5, 5, 5] ['time', 'monotonic', 'perf_counter']\n", Waits(1, 500.0)))


class CuttingTest(unittest.TestCase):
    """The least perturbations that a failure needs."""

    def test_what_is_needed_is_found(self) -> None:
        keys = [f"post a {number}" for number in range(40)]
        for needed in ([keys[17]], [keys[3], keys[30]], [keys[0], keys[1], keys[39]]):
            cutting = Cutting(lambda some: set(needed) <= set(some), 1000)
            self.assertEqual((sorted(cutting.cut(keys).keys), cutting.runs < 60), (sorted(needed), True), cutting.runs)

    def test_a_set_that_fails_once_in_three_is_not_enough(self) -> None:
        turns = {"alone": 0}

        def fails(keys: Sequence[str]) -> bool:
            if list(keys) == ["a"]:
                turns["alone"] += 1
                return turns["alone"] % 3 == 1
            return set(keys) >= {"a", "b"}

        self.assertEqual(sorted(Cutting(fails, 1000).cut(["a", "b", "c", "d"]).keys), ["a", "b"])

    def test_a_failure_that_needs_nothing_is_seen(self) -> None:
        needed = Cutting(lambda keys: True, 100).cut(["a", "b"])
        self.assertEqual((list(needed.keys), needed.needs_nothing, needed.is_known), ([], True, False))

    def test_on_a_busy_machine_chance_is_no_cause(self) -> None:
        keys = [str(number) for number in range(50)]
        for is_busy in (True, False):
            said = [Cutting(self.failing_by_chance(seed, 0.3), 120, is_busy).cut(keys).is_known for seed in range(200)]
            self.assertLess(sum(said), 10, is_busy)

    def test_on_a_busy_machine_what_is_needed_is_found_too(self) -> None:
        keys = [str(number) for number in range(50)]
        found = [Cutting(self.failing_by_chance(seed, 0.2, frozenset({"17"})), 120, True).cut(keys) for seed in range(200)]
        known = [list(needed.keys) for needed in found if needed.is_known]
        self.assertGreater(len(known), 150)
        self.assertGreater(known.count(["17"]), 0.9 * len(known))

    def test_a_failure_that_comes_seldom_with_all_is_cut_down_if_none_comes_without(self) -> None:
        turns = {"with": 0}

        def fails(keys: Sequence[str]) -> bool:
            turns["with"] += "b" in keys
            return "b" in keys and turns["with"] % 3 == 0

        needed = Cutting(fails, 100).cut(["a", "b", "c", "d"])
        self.assertEqual((list(needed.keys), needed.none, needed.again, needed.is_known), (["b"], 0, 1, True))
        turns["with"] = 0
        self.assertFalse(Cutting(fails, 100, True).cut(["a", "b", "c", "d"]).is_known)

    def failing_by_chance(self, seed: int, chance: float, needed: FrozenSet[str] = frozenset()) -> Callable[[Sequence[str]], bool]:
        """What fails in this share of its runs, and in each of those that have what is needed."""
        drawn = random.Random(seed)
        return lambda keys: drawn.random() < chance or bool(needed) and needed <= set(keys)

    def test_a_failure_that_does_not_come_again_is_seen(self) -> None:
        needed = Cutting(lambda keys: False, 100).cut(["a", "b"])
        self.assertEqual((needed.again, list(needed.keys)), (0, ["a", "b"]))

    def test_what_a_run_that_passes_by_chance_makes_look_needed_is_left_out(self) -> None:
        turns = {"first": 0}

        def fails(keys: Sequence[str]) -> bool:
            if list(keys) == ["a", "b"]:
                turns["first"] += 1
                return turns["first"] > 2
            return "a" in keys

        self.assertEqual(list(Cutting(fails, 1000).cut(["a", "b", "c", "d"]).keys), ["a"])

    def test_no_more_runs_are_made_than_allowed(self) -> None:
        keys = [str(number) for number in range(200)]
        cutting = Cutting(lambda some: set(keys[::2]) <= set(some), 60)
        cutting.cut(keys)
        self.assertLessEqual(cutting.runs, 60)


class BesideTest(unittest.TestCase):
    """The page of two runs."""

    def test_journals_are_compared_where_no_script_has_the_whole_run(self) -> None:
        texts = ["new #0 a\nfire #0 ok 1\n#0 a ok 1\n", "new #0 a\n#0 a unfired\n"]
        failing, passing = (Recording({".json": "{}", ".journal": "new #0 b\n#0 b unfired\n", WHOLE_JOURNAL: text}, {"tick": "1 ms"}) for text in texts)
        page = page_beside("p", failing, passing)
        self.assertIn("<h1><bdi>p, which fails</bdi> and <bdi>p, which passes</bdi></h1>", page)
        self.assertIn("line 2 is the first that differs; 1 outcome differs", page)
        self.assertNotIn("b", re.findall(r"#0 (\w+)", page))


class SentenceTest(unittest.TestCase):
    """What a failure takes, in words."""

    def said(self, key: str, words: str, others: Sequence[Tuple[str, float]], moved: Tuple[str, float], threshold: str) -> str:
        """The sentence of a failure that comes if what is moved comes after the threshold: all with the times at which they come."""
        name, at = moved

        def seen(lengths: Dict[str, float]) -> Seen:
            came = sorted([*others, (name, at * lengths[key])], key=lambda one: one[1])
            order = [each for each, _ in came]
            return Seen(order.index(name) > order.index(threshold), [(each, each.upper()) for each in order])

        return sentence(key, words, seen)

    def test_it_names_what_has_to_come_before(self) -> None:
        others = [("call a", 0.2), ("result b", 0.5), ("call c", 0.52), ("call d", 0.9)]
        for threshold in ("call a", "result b", "call c", "call d"):
            found = self.said("start p.py:3#1 1", "words", others, ("result p.py:3#1", 1.0), threshold)
            self.assertEqual(found, f"RESULT P.PY:3#1 comes after {threshold.upper()}")

    def test_each_kind_moves_its_own(self) -> None:
        rows = [
            ("job j#1 1", "result j#1"),
            ("post thread-a 4", "post thread-a 4"),
            ("hold Client@p.py:3#1.r 2", "Client@p.py:3#1.r 2"),
            ("order Pipe#1.r 2", "Pipe#1.r 2"),
            ("late p.py:9#1 1", "call p.py:9#1"),
            ("child children.r 1", "child children.r 1"),
        ]
        for key, name in rows:
            self.assertEqual(self.said(key, "words", [("call a", 0.4)], (name, 1.0), "call a"), f"{name.upper()} comes after CALL A")

    def test_without_such_an_order_it_says_what_happened(self) -> None:
        came = [("call b", "B"), ("result j", "J"), ("call a", "A")]
        fails = iter([False, True, False, True, False, True, False, True])
        self.assertEqual(sentence("job j 1", "the thread slept", lambda lengths: Seen(next(fails), came)), "the thread slept")

    def test_one_run_may_differ_and_no_more(self) -> None:
        early, late = [("result j", "J"), ("call a", "A")], [("call a", "A"), ("result j", "J")]
        for differing, expected in ((1, "J comes after A"), (2, "the thread slept")):
            # (of the runs with shorter and shorter delays, the last ones fail though the order is that of those that pass)
            runs = iter([(False, early), (True, late), *[(True, late)] * (6 - differing), *[(False, late)] * differing])
            self.assertEqual(sentence("job j 1", "the thread slept", lambda lengths: Seen(*next(runs))), expected)

    def test_what_does_not_come_any_more_is_overtaken_by_the_first(self) -> None:
        passes = [("call a", "A"), ("Client#1.w 1", "C"), ("Server#1.r 1", "R"), ("call b", "B")]
        fails = [("call a", "A"), ("Server#1.r 1", "R"), ("call b", "B"), ("call c", "AFTER")]
        said = sentence("hold Client#1.w 1", "held", lambda lengths: Seen(True, fails) if lengths["hold Client#1.w 1"] > 0.3 else Seen(False, passes))
        self.assertEqual(said, "R comes before C")

    def test_how_much_comes_is_said_as_it_was(self) -> None:
        self.assertEqual(sentence("cut Client#1 1", "the 1st read gave 1 of 9 bytes", self.fail), "the 1st read gave 1 of 9 bytes")


if __name__ == "__main__":
    unittest.main()
