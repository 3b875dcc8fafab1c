"""Times that are recorded of a run on a real reactor, chosen for steps that are given."""

from __future__ import annotations

import random
import unittest
from typing import Any, Callable, Dict, List, NamedTuple, Optional, Tuple

from twisted.internet import task

from deferreds.twisted.instruments.settling import MILLISECOND, Conflict, Entry, Loop, Step, Tick, settle, without_ticks


class History:
    """What happens on a reactor, at times in milliseconds."""

    def __init__(self) -> None:
        self.steps = [Step(None, 0)]
        self._made = 0

    def later(self, delay: float) -> Entry:
        """A call is scheduled."""
        return self._make(Entry(self._made, round(delay * MILLISECOND)))

    def job(self) -> Entry:
        """A job is submitted."""
        return self._make(Entry(self._made))

    def tick(self, delay: float = 0, further: bool = False) -> Entry:
        """A tick of the first Cooperator is scheduled, or of a further one."""
        return self._make(Entry(self._made, tick=Tick(round(delay * MILLISECOND), further)))

    def loop(self, interval: float, at: float) -> Loop:
        """A loop starts."""
        loop = Loop(round(interval * MILLISECOND), round(at * MILLISECOND), "program.py:3 in main")
        self.steps[-1].starts.append(loop)
        return loop

    def turn(self, loop: Loop, number: int) -> Entry:
        """A turn of it is scheduled."""
        return self._make(Entry(self._made, loop=loop, turn=number))

    def reset(self, entry: Entry, delay: float) -> Entry:
        """A call that waits is due so much later than now."""
        return self._move(entry, Entry(entry.order, round(delay * MILLISECOND), moved=entry.moved + 1))

    def delay(self, entry: Entry, delay: float) -> Entry:
        """A call that waits is due so much later than it was."""
        return self._move(entry, Entry(entry.order, round(delay * MILLISECOND), moved=entry.moved + 1, before=entry))

    def _move(self, before: Entry, entry: Entry) -> Entry:
        self.steps[-1].make(entry)
        self.steps[-1].end(before)
        return entry

    def _make(self, entry: Entry) -> Entry:
        self._made += 1
        self.steps[-1].make(entry)
        return entry

    def run(self, entry: Entry, at: float) -> Step:
        """The reactor runs it."""
        return self._begin(entry, at)

    def elsewhere(self, at: float) -> Step:
        """Something comes from elsewhere."""
        return self._begin(None, at)

    def _begin(self, entry: Optional[Entry], at: float) -> Step:
        self.steps[-1].closed = self.steps[-1].closed or entry is None
        step = Step(entry, round(at * MILLISECOND))
        self.steps.append(step)
        return step

    def end(self, entry: Entry) -> None:
        """It is cancelled."""
        self.steps[-1].end(entry)

    def settled(self) -> List[Tuple[bool, float]]:
        """Of each step whether time goes on with it, and the time, in milliseconds."""
        settle(self.steps)
        return [(step.advances, step.time / MILLISECOND) for step in self.steps[1:]]


class Asked(unittest.TestCase):
    """Calls that were asked for."""

    def setUp(self) -> None:
        self.history = History()

    def test_a_call_is_due_after_the_delay_that_was_asked_for(self) -> None:
        first, second = self.history.later(100), self.history.later(250.5)
        self.history.run(first, 100.4)
        self.history.run(second, 251.3)
        self.assertEqual(self.history.settled(), [(True, 100), (True, 250.5)])

    def test_its_delay_counts_from_the_time_that_is_told(self) -> None:
        self.history.run(self.history.later(100), 100.9)
        again = self.history.later(100)
        self.history.run(again, 201.8)
        self.assertEqual(self.history.settled(), [(True, 100), (True, 200)])
        self.assertEqual((again.at, again.due), (100_000, 200_000))

    def test_one_advance_runs_what_is_due_at_one_time(self) -> None:
        first, second = self.history.later(10), self.history.later(10)
        self.history.run(first, 10.1)
        self.history.run(second, 10.1)
        self.assertEqual(self.history.settled(), [(True, 10), (False, 10)])

    def test_a_call_that_ran_late_is_told_as_late_and_others_run_with_it(self) -> None:
        first, second = self.history.later(10), self.history.later(12)
        self.history.run(first, 60)
        self.history.run(second, 60)
        self.assertEqual(self.history.settled(), [(True, 60), (False, 60)])
        self.assertEqual((first.due, second.due), (10_000, 12_000))

    def test_calls_that_ran_in_another_order_than_asked_for_are_told_in_the_order_in_which_they_ran(self) -> None:
        first, second = self.history.later(10.2), self.history.later(10)
        self.history.run(first, 10.6)
        self.history.run(second, 10.7)
        self.history.settled()
        self.assertLess(first.key, second.key)
        self.assertEqual(first.due, 10_200)

    def test_a_call_at_once_runs_in_an_advance_of_its_own_where_something_came_between(self) -> None:
        self.history.elsewhere(3)
        at_once = self.history.later(0)
        self.history.run(at_once, 3.1)
        self.assertEqual(self.history.settled(), [(True, 3), (True, 3)])

    def test_what_comes_from_elsewhere_comes_before_what_is_due_then(self) -> None:
        waits = self.history.later(10)
        self.history.elsewhere(10.4)
        self.history.run(waits, 10.5)
        self.assertEqual(self.history.settled(), [(True, 9), (True, 10)])

    def test_what_was_cancelled_is_due_after_all_that_ran_meanwhile(self) -> None:
        never, runs = self.history.later(10), self.history.later(20)
        self.history.run(runs, 20)
        self.history.end(never)
        self.history.settled()
        self.assertGreater(never.due, runs.due)

    def test_what_still_waits_at_the_end_is_due_after_it(self) -> None:
        never, runs = self.history.later(10), self.history.later(20)
        self.history.run(runs, 20)
        self.history.settled()
        self.assertGreater(never.due, runs.due)

    def test_a_result_is_due_when_it_came(self) -> None:
        job, call = self.history.job(), self.history.later(50)
        self.history.run(job, 31.7)
        self.history.run(call, 50.1)
        self.assertEqual(self.history.settled(), [(True, 31), (True, 50)])
        self.assertEqual(job.due, 31_000)

    def test_all_times_can_be_chosen_once_more(self) -> None:
        self.history.run(self.history.later(10), 10.2)
        before = self.history.settled()
        self.history.elsewhere(15)
        self.assertEqual(self.history.settled(), [*before, (True, 15)])


class Moved(unittest.TestCase):
    """Calls that were reset or delayed."""

    def setUp(self) -> None:
        self.history = History()

    def test_one_that_is_reset_is_due_after_its_new_delay(self) -> None:
        call = self.history.later(100)
        self.history.elsewhere(50.4)
        call = self.history.reset(call, 100)
        self.history.run(call, 150.9)
        self.assertEqual(self.history.settled(), [(True, 50), (True, 150)])
        self.assertEqual((call.at, call.due), (50_000, 150_000))

    def test_one_that_is_delayed_is_due_so_much_later_than_it_was_told_to_be(self) -> None:
        call = self.history.later(100)
        self.history.elsewhere(50.4)
        call = self.history.delay(self.history.reset(call, 70), 30)
        self.history.run(call, 150.9)
        self.assertEqual(self.history.settled(), [(True, 50), (True, 150)])
        self.assertEqual(call.due, 150_000)

    def test_it_keeps_its_place_among_those_that_are_due_with_it(self) -> None:
        first, second = self.history.later(20), self.history.later(10)
        first = self.history.reset(first, 10)
        self.history.run(first, 10.2)
        self.history.run(second, 10.2)
        self.assertEqual(self.history.settled(), [(True, 10), (False, 10)])
        self.assertEqual((first.due, second.due), (10_000, 10_000))

    def test_where_it_ran_after_one_that_was_scheduled_later_it_is_due_after_that(self) -> None:
        first, second = self.history.later(20), self.history.later(10)
        first = self.history.reset(first, 10)
        self.history.run(second, 10.2)
        self.history.run(first, 10.2)
        self.history.settled()
        self.assertEqual(second.due, 10_000)
        self.assertLess(second.due, first.due)

    def test_before_it_was_reset_it_was_due_after_all_that_ran_meanwhile(self) -> None:
        never, runs = self.history.later(10), self.history.later(20)
        self.history.run(runs, 20)
        again = self.history.reset(never, 5)
        self.history.run(again, 25)
        self.assertEqual(self.history.settled(), [(True, 20), (True, 25)])
        self.assertGreater(never.due, runs.due)


class Fixed(unittest.TestCase):
    """Turns of loops, and ticks, which the language works out."""

    def setUp(self) -> None:
        self.history = History()

    def test_turns_are_due_at_whole_numbers_of_intervals(self) -> None:
        loop = self.history.loop(20, 0)
        turn = self.history.turn(loop, 1)
        for number in (1, 2):
            self.history.run(turn, 20 * number + 0.3)
            turn = self.history.turn(loop, number + 1)
        self.assertEqual(self.history.settled(), [(True, 20), (True, 40)])

    def test_turns_that_fall_together_run_in_the_order_in_which_they_were_scheduled(self) -> None:
        slow = self.history.turn(self.history.loop(20, 0), 1)
        fast = self.history.loop(10, 0)
        first = self.history.turn(fast, 1)
        self.history.run(first, 10)
        second = self.history.turn(fast, 2)
        self.history.run(slow, 20)
        self.history.run(second, 20)
        self.assertEqual(self.history.settled(), [(True, 10), (True, 20), (False, 20)])

    def test_a_turn_that_blocked_puts_time_on_so_that_turns_are_missed(self) -> None:
        loop = self.history.loop(20, 0)
        turn = self.history.turn(loop, 1)
        self.history.run(turn, 20)
        after = self.history.turn(loop, 5)
        self.history.run(after, 100)
        self.assertEqual(self.history.settled(), [(True, 80), (True, 100)])
        self.assertEqual(after.due, 100_000)

    def test_a_call_that_ran_before_a_turn_is_due_before_it(self) -> None:
        call = self.history.later(20.1)
        turn = self.history.turn(self.history.loop(20, 0), 1)
        self.history.run(call, 20.4)
        self.history.run(turn, 20.4)
        self.history.settled()
        self.assertLess(call.key, turn.key)
        self.assertEqual(turn.due, 20_000)

    def test_a_result_that_starts_a_loop_is_due_then_and_not_half_way_to_a_turn_that_is_far(self) -> None:
        job = self.history.job()
        self.history.turn(self.history.loop(3_600_000, 0), 1)
        step = self.history.run(job, 5.4)
        self.history.loop(300_000, 6)
        self.history.settled()
        self.assertEqual((job.due, step.time), (6_000, 6_000))

    def test_turns_in_another_order_than_they_are_due_in_are_refused(self) -> None:
        early = self.history.turn(self.history.loop(10, 0), 1)
        late = self.history.turn(self.history.loop(20, 0), 1)
        self.history.run(late, 20)
        self.history.run(early, 20)
        with self.assertRaises(Conflict) as raised:
            self.history.settled()
        self.assertEqual((raised.exception.place, raised.exception.kind), ("program.py:3 in main", "loop"))

    def test_something_from_elsewhere_between_turns_that_are_due_at_one_time_is_refused(self) -> None:
        first = self.history.turn(self.history.loop(20, 0), 1)
        second = self.history.turn(self.history.loop(20, 0), 1)
        self.history.run(first, 20)
        self.history.elsewhere(20.1)
        self.history.run(second, 20.2)
        with self.assertRaises(Conflict):
            self.history.settled()

    def test_no_call_is_due_before_it_is_scheduled(self) -> None:
        early = self.history.turn(self.history.loop(10, 0), 1)
        late = self.history.turn(self.history.loop(18, 0), 1)
        self.history.run(early, 30)
        at_once = self.history.later(0)
        self.history.run(at_once, 30)
        self.history.run(late, 30)
        with self.assertRaises(Conflict):
            self.history.settled()

    def test_ticks_are_due_after_one_time(self) -> None:
        tick = self.history.tick()
        for number in range(3):
            self.history.run(tick, 0.1 * number)
            tick = self.history.tick()
        self.assertEqual(self.history.settled(), [(True, 1), (True, 2), (True, 3)])

    def test_ticks_are_made_shorter_where_calls_are_due_meanwhile(self) -> None:
        call, tick = self.history.later(2.5), self.history.tick()
        for number in range(9):
            self.history.run(tick, 0.1 * number)
            tick = self.history.tick()
        self.history.end(tick)
        self.history.run(call, 2.6)
        self.history.settled()
        self.assertEqual(call.due, 2_500)

    def test_ticks_of_several_are_due_when_they_were_asked_for(self) -> None:
        slow, quick = self.history.tick(20, True), self.history.tick()
        for number in range(1, 9):
            self.history.run(quick, 4.1 * number)
            quick = self.history.tick()
            if number % 5 == 0:
                self.history.run(slow, 4.1 * number)
                slow = self.history.tick(20, True)
        self.history.settled()
        self.assertEqual(slow.due - slow.at, 20_000)

    def test_ticks_that_are_far_from_each_other_beside_turns(self) -> None:
        tick, loop = self.history.tick(15), self.history.loop(10, 0)
        turn = self.history.turn(loop, 1)
        self.history.run(turn, 10)
        turn = self.history.turn(loop, 2)
        self.history.run(tick, 15)
        tick = self.history.tick(15)
        self.history.run(turn, 20)
        self.history.settled()
        self.assertEqual(tick.due - tick.at, 15_000)


def _is_further(entry: Entry) -> bool:
    """Whether it is a tick of another Cooperator than the first."""
    return entry.is_further


class Left(unittest.TestCase):
    """Ticks of further Cooperators that come from elsewhere, as where no times give their order."""

    def setUp(self) -> None:
        self.history = History()

    def settled_without(self, *matters: Step) -> List[Tuple[bool, float]]:
        """The times where these ticks are left out, but for some in which something happens. With them there are no times."""
        with self.assertRaises(Conflict):
            self.history.settled()
        self.history.steps = without_ticks(self.history.steps, _is_further, matters.__contains__)
        return self.history.settled()

    def test_a_call_between_ticks_that_another_has_scheduled(self) -> None:
        older, starts = self.history.later(20), self.history.later(10)
        self.history.run(starts, 10)
        first, second = self.history.tick(0, True), self.history.tick(0, True)
        ran = [self.history.run(entry, 30) for entry in (first, older, second)]
        again = self.history.tick(0, True)
        self.history.end(again)
        self.assertEqual(self.settled_without(ran[0], ran[2]), [(True, 10), (True, 19), (True, 30), (False, 30)])
        self.assertEqual((older.due, ran[0].entry, ran[2].made, ran[2].ended), (20_000, None, [], []))

    def test_what_a_tick_has_scheduled_is_kept(self) -> None:
        turn = self.history.turn(self.history.loop(20, 0), 1)
        tick = self.history.tick(0, True)
        late = self.history.turn(self.history.loop(20, 0), 1)
        self.history.run(turn, 21)
        self.history.run(late, 21)
        self.history.run(tick, 21)
        call = self.history.later(5)
        self.assertTrue(call.inside)
        self.history.run(call, 27)
        self.settled_without()
        self.assertEqual(([step.entry for step in self.history.steps[1:]], call.inside, call.due - call.at), ([turn, late, None, call], False, 5_000))


class Simulated:
    """A reactor that runs what is due late, by a seed: calls, loops, cancels, and what comes from elsewhere.

    `blocks`: how many milliseconds a body may block; `moves`: whether calls are reset and delayed, too; `ticks`: of how many Cooperators,
    in the place of loops.
    """

    def __init__(self, seed: int, blocks: float, moves: bool, ticks: int = 0) -> None:
        self._random = random.Random(seed)
        self.blocks = blocks
        self.moves = moves
        self.history = History()
        self._now = 0.0
        #: what waits, by when it is due on the reactor
        self._waiting: List[Tuple[float, int, Entry]] = []
        for interval in self._random.sample([5, 10, 20, 25], 0 if ticks else self._random.randrange(4)):
            self._schedule_turn(self.history.loop(interval, 0), 1)
        for _ in range(4):
            self._schedule()
        for place in range(ticks):
            self._schedule_tick(place > 0)

    def run(self) -> None:
        """Some turns of the reactor."""
        for _ in range(25):
            self._take_turn()

    def _take_turn(self) -> None:
        chance = self._random
        if not self._waiting or chance.random() < 0.3:
            self._now += chance.random() * 3
            self.history.elsewhere(self._now)
            self._schedule()
            return
        self._now = max(self._now, min(self._waiting)[0]) + chance.random() * chance.choice([0.3, 0.3, 12])
        looked = self._now
        for each in sorted(each for each in self._waiting if each[0] <= looked):
            if each in self._waiting:
                self._waiting.remove(each)
                self._run(each[2], looked)

    def _run(self, entry: Entry, looked: float) -> None:
        self.history.run(entry, looked)
        self._now += self._random.random() * self._random.choice([0.1, 0.1, 0.1, 0.1, self.blocks])
        if entry.loop is not None:
            self._schedule_turn(entry.loop, int(self._now * MILLISECOND) // entry.loop.interval + 1)
        if self._random.random() < 0.6:
            self._schedule()
        if entry.tick is not None:
            self._schedule_tick(entry.tick.further)
        calls = [each for each in self._waiting if not each[2].is_fixed]
        if calls and self._random.random() < 0.2:
            ended = self._random.choice(calls)
            self._waiting.remove(ended)
            self.history.end(ended[2])
        elif calls and self.moves:
            self._move(self._random.choice(calls))

    def _move(self, moved: Tuple[float, int, Entry]) -> None:
        due, order, entry = moved
        self._waiting.remove(moved)
        delay = self._random.choice([0, 1, 10, self._random.random() * 30])
        if self._random.random() < 0.5:
            self._waiting.append((self._now + delay + 0.001, order, self.history.reset(entry, delay)))
        else:
            self._waiting.append((due + delay, order, self.history.delay(entry, delay)))

    def _schedule(self) -> None:
        delay = self._random.choice([0, 1, 10, self._random.random() * 30])
        entry = self.history.later(delay)
        self._waiting.append((self._now + delay + 0.001, entry.order, entry))

    def _schedule_tick(self, further: bool) -> None:
        entry = self.history.tick(0, further)
        self._waiting.append((self._now + 0.001, entry.order, entry))

    def _schedule_turn(self, loop: Loop, number: int) -> None:
        entry = self.history.turn(loop, number)
        self._waiting.append((number * loop.interval / MILLISECOND, entry.order, entry))


class InOrder:
    """A clock that runs calls as the language does: by when they are due, and then by the order of scheduling, which moved ones keep."""

    def __init__(self) -> None:
        self._now = 0
        self._waiting: List[Entry] = []

    def callLater(self, delay: int, run: Callable[[Entry], None], entry: Entry) -> "InOrder._Call":
        """Schedules a call."""
        self._run = run
        self._waiting.append(entry)
        return InOrder._Call(self, entry)

    class _Call(NamedTuple):
        clock: "InOrder"
        entry: Entry

        def cancel(self) -> None:
            """It doesn't wait any more."""
            self.clock._waiting.remove(self.entry)

    def advance(self, by: int) -> None:
        """Time goes on, and what is due runs."""
        self._now += by
        while True:
            first = min(self._waiting, key=lambda entry: (entry.due, entry.order), default=None)
            if first is None or first.due > self._now:
                return
            self._waiting.remove(first)
            self._run(first)


class Replay(unittest.TestCase):
    """What is recorded, run on a clock."""

    def replayed(self, steps: List[Step], moves: bool) -> List[Entry]:
        """What the clock runs, in order, where calls are scheduled with the delays that are recorded."""
        clock: Any = InOrder() if moves else task.Clock()
        ran: List[Entry] = []
        calls: Dict[Entry, Any] = {}
        places = iter([step for step in steps if step.entry is not None])

        def run(entry: Entry) -> None:
            ran.append(entry)
            happens(next(places))

        def happens(step: Step, inside: bool = True) -> None:
            for entry in step.made:
                if entry.inside == inside:
                    calls[entry] = clock.callLater(entry.due - entry.at, run, entry)
            for entry, is_inside in step.ended:
                if is_inside == inside and entry in calls:
                    calls[entry].cancel()  # (what was moved has another call by now)

        for step in steps:
            if step.advances:
                clock.advance(step.by)
            if step.entry is None:
                happens(step, False)
        return ran

    def settled(self, blocks: float, moves: bool = False, ticks: int = 0, leaves: bool = False) -> int:
        """How many of 300 runs are recorded, each of which the clock runs in the same order. `leaves`: without ticks of further Cooperators."""
        settled = 0
        for seed in range(300):
            simulated = Simulated(seed, blocks, moves, ticks)
            simulated.run()
            steps = simulated.history.steps
            if leaves:
                steps = without_ticks(steps, _is_further, lambda step: bool(len(step.made) % 2))
            try:
                settle(steps)
            except Conflict:
                continue
            settled += 1
            with self.subTest(seed=seed, blocks=blocks, moves=moves, ticks=ticks, leaves=leaves):
                self.assertEqual(self.replayed(steps, moves), [step.entry for step in steps if step.entry is not None])
        return settled

    def test_it_runs_in_the_order_of_the_reactor(self) -> None:
        self.assertGreater(self.settled(0.1), 285)

    def test_so_it_does_where_bodies_block(self) -> None:
        self.assertGreater(self.settled(30), 100)

    def test_so_it_does_where_calls_are_moved(self) -> None:
        self.assertGreater(self.settled(0.1, moves=True), 270)
        self.assertGreater(self.settled(30, moves=True), 100)

    def test_so_it_does_where_ticks_of_further_cooperators_come_from_elsewhere(self) -> None:
        self.assertEqual(self.settled(0.1, ticks=3, leaves=True), 300)
        self.assertEqual(self.settled(30, ticks=3, leaves=True), 300)


if __name__ == "__main__":
    unittest.main()
