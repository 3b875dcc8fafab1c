"""Causes that no line tells: who holds a token, what is odd among the Deferreds of a line, what was overtaken, what a cancel didn't end."""

from __future__ import annotations

import unittest
from typing import Dict, List, Optional, Sequence

from deferreds.view.after_cancel import went_on
from deferreds.view.bodies import Bodies
from deferreds.view.findings import Kind, Severity
from deferreds.view.not_returned import not_returned
from deferreds.view.overtaken import overtaken
from deferreds.view.places import Place, Places
from deferreds.view.run import Run, run_of_journal
from deferreds.view.sites import Sites
from deferreds.view.tokens import Holders, asked_in

from .test_report import journal, report_of


def run_of(lines: Sequence[str], places: Optional[Dict[str, int]] = None, tick: str = "") -> Run:
    """The run of a journal; with the lines of a file that made its Deferreds, by their names."""
    run = run_of_journal(journal(*lines), "test")
    run.places = Places({name: Place("/srv/a.py", line) for name, line in (places or {}).items()}, {})
    run.tick = tick
    return run


#: a body takes a token, awaits #2, and ends in the side of that without a release
_LEAK = [
    "lock l",
    "new #0 body",
    "new #1 token",
    "acquire l #1",
    'fire #1 ok "l"',
    "new #2 answer",
    "await #0 #2",
    "add #2",
    "advance 5",
    "fire #2 ok 1",
    "run #2",
    'fire #0 fail ValueError "no"',
    "set #2 ok null",
]
_WAITER = ["new #3 waiter", "acquire l #3"]


class Things(unittest.TestCase):
    """Where locks were made."""

    def test_a_row_says_what_the_line_binds_that_made_the_lock(self) -> None:
        run = run_of([*_LEAK, *_WAITER])
        run.places = Places({}, {}, things={"l": Place("/srv/a.py", 7)}, sources={"/srv/a.py": [(7, ["self.locks[name] = DeferredLock()"])]})
        self.assertIn("l is self.locks[name], made at a.py:7", " ".join(report_of(run)))
        run = run_of([*_LEAK, *_WAITER])
        run.places = Places({}, {}, things={"l": Place("/srv/a.py", 7)})
        self.assertIn("l was made at a.py:7", " ".join(report_of(run)))


class WhoActs(unittest.TestCase):
    """Whose body acts in which line."""

    def acting(self, lines: Sequence[str], names: Sequence[str] = ()) -> Dict[int, int]:
        return Bodies(run_of(lines).fold, frozenset(names)).acting

    def test_a_body_acts_up_to_its_await_and_on_in_the_side_of_whom_it_awaits(self) -> None:
        self.assertEqual(self.acting(_LEAK), {2: 0, 3: 0, 4: 0, 5: 0, 6: 0, 11: 0})

    def test_one_that_another_begins_acts_inside_of_it(self) -> None:
        lines = ["new #0 outer", "new #1 inner", "new #2 d", "await #1 #2", "add #2", "new #3 e", "await #0 #3", "add #3"]
        self.assertEqual(self.acting(lines), {1: 0, 2: 1, 3: 1, 4: 0, 5: 0, 6: 0})

    def test_a_callback_of_whom_it_awaits_isn_t_the_body(self) -> None:
        lines = ["new #2 answer", "add #2", "new #0 body", "await #0 #2", "add #2", "fire #2 ok 1", "run #2", "note 1", "set #2 ok 2", "run #2", "note 2"]
        self.assertEqual(self.acting([*lines, "fire #0 ok null", "set #2 ok null"]), {3: 0, 10: 0, 11: 0})

    def test_one_that_never_awaits_is_known_by_its_name_alone(self) -> None:
        lines = ["lock l", "new #0 body", "new #1 t", "acquire l #1", 'fire #1 ok "l"', "fire #0 ok null"]
        self.assertEqual(self.acting(lines), {})
        self.assertEqual(self.acting(lines, ["body"]), {2: 0, 3: 0, 4: 0, 5: 0})


class TokensThatAreHeld(unittest.TestCase):
    """Who holds a token at the end."""

    def held(self, lines: Sequence[str]) -> Holders:
        fold = run_of(lines).fold
        return Holders(fold, Bodies(fold), asked_in(fold), fold.world.locks.all[0])

    def test_a_body_that_ended_without_a_release_is_to_be_looked_at_if_it_failed(self) -> None:
        run = run_of(_LEAK, {"token": 7})
        found = run.report.findings[1]
        self.assertEqual((found.kind, found.severity, found.row), (Kind.HELD, Severity.BAD, 3))
        self.assertIn(
            'held #0·body took a token of l at a.py:7 and never released it (line 4) | its body failed with ValueError "no" in line 12 | '
            "1 of 1 token of l is held: taken 1 time, released 0 times",
            report_of(run),
        )

    def test_one_that_returned_may_have_passed_it_on_unless_others_wait_for_it(self) -> None:
        returned = [*_LEAK[:11], "fire #0 ok null", _LEAK[12]]
        self.assertEqual([(one.kind, one.severity) for one in run_of(returned).report.findings], [(Kind.HELD, Severity.LEFT)])
        self.assertEqual(run_of([*returned, *_WAITER]).report.findings[0].severity, Severity.BAD)

    def test_one_that_goes_on_holds_it_with_reason(self) -> None:
        found = report_of(run_of([*_LEAK[:8], *_WAITER]))
        self.assertEqual([one.split()[0] for one in found], ["unfired", "token"])
        self.assertIn("held by #0·body since line 4, whose body awaits #2·answer", found[1])

    def test_one_that_only_waits_holds_nothing(self) -> None:
        lines = [*_LEAK, "new #4 second", "new #3 waiter", "acquire l #3", "await #4 #3", "add #3"]
        self.assertEqual([(one.deferred, one.body) for one in self.held(lines).held], [(1, 0)])

    def test_each_body_gives_back_its_own(self) -> None:
        lines = ["semaphore s 2", "new #0 a", "new #1 t", "acquire s #1", 'fire #1 ok "s"', "new #2 x", "await #0 #2", "add #2"]
        lines += ["new #3 b", "new #4 u", "acquire s #4", 'fire #4 ok "s"', "release s", "fire #3 ok null"]
        holders = self.held([*lines[:-2], "new #5 y", "await #3 #5", "add #5", "fire #5 ok 1", "run #5", *lines[-2:], "set #5 ok null"])
        self.assertEqual(([(one.deferred, one.body) for one in holders.held], holders.is_sure), ([(1, 0)], True))

    def test_a_release_by_none_of_them_is_a_guess_if_several_are_out(self) -> None:
        lines = ["semaphore s 2", "new #0 a", "acquire s #0", 'fire #0 ok "s"', "new #1 b", "acquire s #1", 'fire #1 ok "s"', "release s"]
        holders = self.held(lines)
        self.assertEqual(([one.deferred for one in holders.held], holders.is_sure), ([1], False))
        self.assertIn("which of its tokens were released is a guess", report_of(run_of(lines))[0])
        alone = self.held(lines[:4] + ["release s"])
        self.assertEqual((alone.held, alone.is_sure), ([], True))

    def test_the_token_of_a_run_is_held_for_what_its_deferred_waits_for(self) -> None:
        lines = ["lock l", "new #0 body", "new #1 run", "acquire l #1", 'fire #1 ok "l"', "add #1", "run #1", "new #2 work", "wait #1 #2"]
        lines += ["new #3 other", "await #0 #3", "add #3", "fire #3 ok 1", "run #3", "fire #0 ok null", "set #3 ok null"]
        found = report_of(run_of(lines))
        self.assertEqual([one.split()[0] for one in found], ["unfired", "token"])
        self.assertIn("held for #1·run since line 4, which waits for #2·work", found[1])


def _crossing(*orders: str) -> List[str]:
    """The journal of bodies each of which takes the lock of its first letter, and then asks for that of its second one."""
    lines = [f"lock {name}" for name in sorted(set("".join(orders)))]
    for number, (first, _) in enumerate(orders):
        body, token, answer = 10 * number, 10 * number + 1, 10 * number + 2
        lines += [f"new #{body} body", f"new #{token} t", f"acquire {first} #{token}", f'fire #{token} ok "{first}"']
        lines += [f"new #{answer} d", f"await #{body} #{answer}", f"add #{answer}"]
    for number, (_, second) in enumerate(orders):
        body, answer, token = 10 * number, 10 * number + 2, 10 * number + 3
        lines += [f"fire #{answer} ok 1", f"run #{answer}", f"new #{token} t", f"acquire {second} #{token}"]
        lines += [f"await #{body} #{token}", f"add #{token}", f"set #{answer} ok null"]
    return lines


class CrossedLocks(unittest.TestCase):
    """Bodies that hold locks and await each other's."""

    def kinds(self, *orders: str) -> List[str]:
        return [finding.kind.value for finding in run_of(_crossing(*orders)).report.findings]

    def test_a_circle_is_one_row_with_who_took_what(self) -> None:
        self.assertEqual(self.kinds("lm", "ml"), ["circle"])
        row = report_of(run_of(_crossing("lm", "ml")))[0]
        self.assertIn("circle l → m → l: each is held by a body that awaits the next (line 5) | #0·body took l, and awaits m | #10·body took m, and awaits l", row)

    def test_of_three_as_of_two(self) -> None:
        self.assertEqual(self.kinds("lm", "mn", "nl"), ["circle"])
        self.assertIn("circle l → m → n → l", report_of(run_of(_crossing("lm", "mn", "nl")))[0])

    def test_one_who_waits_for_a_lock_of_the_circle_isn_t_in_it(self) -> None:
        found = report_of(run_of(_crossing("lm", "ml", "kl")))
        self.assertEqual([one.split()[0] for one in found], ["circle", "token"])
        self.assertIn("held by #20·body", found[1])

    def test_not_if_another_may_release_a_token(self) -> None:
        lines = [line for line in _crossing("lm", "ml") if line != "lock m"]
        run = run_of(["semaphore m 2", "new #40 other", "acquire m #40", 'fire #40 ok "m"', *lines])
        self.assertNotIn(Kind.CIRCLE, [finding.kind for finding in run.report.findings])


def _answers(count: int, odd: List[str]) -> List[str]:
    """The journal of so many Deferreds of a line, each of which is fired a tick after it was made; and of one more."""
    lines: List[str] = []
    for number in range(count):
        lines += [f"advance {number}", f"new #{number} ask_3_{number}", f"advance {number + 1}", f"fire #{number} ok 1"]
    return [*lines, *odd]


class OddOnes(unittest.TestCase):
    """A Deferred among those of its line."""

    def odd(self, lines: Sequence[str], tick: str = "1 ms") -> List[int]:
        run = run_of(lines, {name: 3 for name in (line.split()[2] for line in lines if line.startswith("new #")) if name.startswith("ask")}, tick)
        return [number for site in Sites(run.fold, run.places, run.durations, tick).all for number in site.odd]

    def test_one_that_is_left_unfired_far_longer_than_the_others_is_odd(self) -> None:
        self.assertEqual(self.odd(_answers(4, ["new #4 ask_4", "advance 100"])), [4])

    def test_not_if_that_is_too_short_to_be_seen_or_the_line_has_made_too_few(self) -> None:
        self.assertEqual(self.odd(_answers(4, ["new #4 ask_4", "advance 50"])), [])
        self.assertEqual(self.odd(_answers(2, ["new #2 ask_2", "advance 100"])), [])

    def test_not_if_it_got_its_value_after_all(self) -> None:
        self.assertEqual(self.odd(_answers(4, ["new #4 ask_4", "advance 100", "fire #4 ok 1"])), [])

    def test_one_that_was_cancelled_among_values_is_odd_however_soon(self) -> None:
        cancelled = ["new #4 ask_4", "cancel #4", 'fire #4 fail CancelledError ""', "add #4", "run #4", "set #4 ok null"]
        lines = _answers(4, cancelled)
        self.assertEqual(self.odd(lines), [4])
        run = run_of(lines, {f"ask_3_{number}": 3 for number in range(4)} | {"ask_4": 3}, "1 ms")
        self.assertEqual([(one.kind, one.severity) for one in run.report.findings], [(Kind.ODD, Severity.LIKELY)])
        self.assertFalse(run.report.is_clean)

    def test_not_if_many_of_the_line_were(self) -> None:
        cancelled = [line for number in (4, 5) for line in (f"new #{number} ask_{number}", f"cancel #{number}", f'fire #{number} fail CancelledError ""')]
        self.assertEqual(self.odd(_answers(4, cancelled)), [])

    def test_one_whose_body_awaited_an_odd_one_isn_t_odd_itself(self) -> None:
        lines: List[str] = []
        for number in range(0, 8, 2):
            lines += [f"new #{number} body", f"new #{number + 1} ask_{number}", f"await #{number} #{number + 1}", f"add #{number + 1}"]
            lines += [f"fire #{number + 1} ok 1", f"run #{number + 1}", f"fire #{number} ok null", f"set #{number + 1} ok null"]
        lines += ["new #8 body", "new #9 ask_8", "await #8 #9", "add #9", "advance 100"]
        run = run_of(lines, {"body": 2, **{f"ask_{number}": 3 for number in range(0, 9, 2)}}, "1 ms")
        self.assertEqual({site.place.line: site.odd for site in run.inferred.sites.all}, {3: [9], 2: []})

    def test_a_failure_is_told_and_isn_t_odd(self) -> None:
        run = run_of(_answers(4, ["new #4 ask_4", 'fire #4 fail ValueError ""', "add #4", "run #4", "set #4 ok null"]), {f"ask_3_{n}": 3 for n in range(4)} | {"ask_4": 3})
        site = run.inferred.sites.all[0]
        self.assertEqual((site.said, site.odd, site.function), ("4 ok, 1 fail", [], "ask"))


class Overtaken(unittest.TestCase):
    """A job whose result came after that of what began later."""

    def late(self, order: Sequence[int], lines: Sequence[int] = (3, 3, 3)) -> List[List[int]]:
        """The numbers of the first that was overtaken, of the one that came first, and how many others came late, for each line."""
        run = self.of_jobs(order, lines)
        return [[one.late.number, one.first.number, one.others] for one in overtaken(run.inferred.sites)]

    @staticmethod
    def of_jobs(order: Sequence[int], lines: Sequence[int]) -> Run:
        begun = [line for job in range(len(order)) for line in (f"new #{job} d{job}", f"job {job} #{job}")]
        came = [line for job in order for line in (f"deliver {job}", f"fire #{job} ok 1")]
        return run_of([*begun, *came], {f"d{job}": line for job, line in enumerate(lines)})

    def test_a_row_for_each_line(self) -> None:
        self.assertEqual(self.late([0, 1, 2]), [])
        self.assertEqual(self.late([1, 0, 2]), [[0, 1, 0]])
        self.assertEqual(self.late([2, 1, 0]), [[0, 2, 1]])
        self.assertEqual(self.late([1, 2, 0]), [[0, 1, 0]])

    def test_jobs_of_other_lines_don_t_count(self) -> None:
        self.assertEqual(self.late([1, 0, 2], (3, 4, 3)), [])

    def test_it_is_a_note(self) -> None:
        run = self.of_jobs([2, 1, 0], (3, 3, 3))
        self.assertEqual([(one.kind, one.severity) for one in run.report.findings], [(Kind.OVERTAKEN, Severity.NOTE)])
        self.assertIn("1 other job of this line came late, too", report_of(run)[0])
        self.assertTrue(run.report.leaves_nothing)

    def test_answers_of_a_network_may_come_in_any_order(self) -> None:
        run = run_of_journal(journal("new #0 a", "new #1 a", "fire #1 ok 1", "fire #0 ok 1"), "test", None, False, [0, 1, 2, 3])
        run.places = Places({"a": Place("/srv/a.py", 3)}, {})
        self.assertTrue(run.report.is_clean)


def _fetching(number: int, value: str, *rest: str) -> List[str]:
    """The journal of a body that gets a value of the queue `q`, awaits an answer, does this, and ends."""
    body, got, answer = 10 * number, 10 * number + 1, 10 * number + 2
    lines = [f"new #{body} body", f"new #{got} g{number}", f"get q #{got}", f"fire #{got} ok {value}", f"new #{answer} d", f"await #{body} #{answer}"]
    return [*lines, f"add #{answer}", f"fire #{answer} ok 1", f"run #{answer}", *rest, f"fire #{body} ok null", f"set #{answer} ok null"]


class PoolsThatRunDry(unittest.TestCase):
    """Values that weren't put back."""

    back = ["queue q none none", 'put q "c"', *_fetching(0, '"c"', 'put q "c"'), *_fetching(1, '"c"', 'put q "c"')]
    waiter = ["new #90 waiter", "get q #90"]

    def kinds(self, *lines: str) -> List[str]:
        return [finding.kind.value for finding in run_of(lines).report.findings]

    def test_the_body_that_kept_one_is_named_if_others_put_theirs_back(self) -> None:
        run = run_of([*self.back, *_fetching(2, '"c"'), *self.waiter], {"g2": 7})
        found = run.report.findings
        self.assertEqual([(one.kind, one.severity) for one in found], [(Kind.KEPT, Severity.LIKELY), (Kind.GETTER, Severity.LEFT)])
        self.assertIn('kept #20·body got "c" from q at a.py:7 and didn\'t put it back (line 30) | its body returned null in line 36', report_of(run)[0])
        self.assertIn("a guess, since 2 other values that were got were put back: as by #0·body", report_of(run)[0])

    def test_not_if_nobody_waits_or_another_puts_it_back(self) -> None:
        self.assertEqual(self.kinds(*self.back, *_fetching(2, '"c"')), [])
        self.assertEqual(self.kinds(*self.back, *_fetching(2, '"c"'), 'put q "c"', *_fetching(3, '"c"', 'put q "c"'), *self.waiter[:1]), ["unfired"])

    def test_not_while_the_body_goes_on(self) -> None:
        self.assertEqual(self.kinds(*self.back, *_fetching(2, '"c"')[:7], *self.waiter), ["unfired", "getter"])

    def test_a_queue_of_work_is_no_pool(self) -> None:
        work = [line for number in range(3) for line in (f'put q "w{number}"', *_fetching(number, f'"w{number}"'))]
        self.assertEqual(self.kinds("queue q none none", *work, *self.waiter), ["getter"])
        again = [*work, 'put q "w3"', *_fetching(3, '"w3"', 'put q "w3"'), *_fetching(4, '"w3"', 'put q "w3"'), *_fetching(5, '"w3"')]
        self.assertEqual(self.kinds("queue q none none", *again, *self.waiter), ["getter"])

    def test_what_rests_in_a_pool_has_no_note(self) -> None:
        self.assertEqual(self.kinds(*self.back), [])
        self.assertEqual(self.kinds("queue q none none", 'put q "w"'), ["stored"])


class NotReturned(unittest.TestCase):
    """A Deferred that a callback made and didn't return."""

    made = ["new #0 d", "add #0", "add #0", "fire #0 ok 1", "run #0", "new #1 work", "set #0 ok null", "run #0", "set #0 ok 2", "advance 3", "fire #1 ok 7"]

    def numbers(self, lines: Sequence[str]) -> List[int]:
        fold = run_of(lines).fold
        return [one.record.number for one in not_returned(fold, Bodies(fold))]

    def test_it_is_named_with_the_callback_that_ran_too_soon(self) -> None:
        self.assertEqual(self.numbers(self.made), [1])
        run = run_of(self.made, {"work": 5})
        self.assertEqual([(one.kind, one.severity, one.row) for one in run.report.findings], [(Kind.NOT_RETURNED, Severity.LIKELY, 5)])
        self.assertIn("the next one ran in line 8, 3 ticks before that was fired | nobody got what it was fired with: ok 7 | a guess", report_of(run)[0])
        self.assertIn("and that is unfired | nobody waits for it", report_of(run_of(self.made[:-1], {"work": 5}))[0])

    def test_not_if_it_was_returned_or_fired_by_then(self) -> None:
        returned = [*self.made[:6], "wait #0 #1", "fire #1 ok 7", "hand #0 #1 ok 7", "run #0", "set #0 ok 2"]
        self.assertEqual(self.numbers(returned), [])
        self.assertEqual(self.numbers([*self.made[:6], "fire #1 ok 7", *self.made[6:-1]]), [])

    def test_not_if_the_program_adds_a_callback_or_waits_for_it_elsewhere(self) -> None:
        self.assertEqual(self.numbers([*self.made[:6], "add #1", *self.made[6:]]), [])
        self.assertEqual(self.numbers([*self.made[:-1], "new #2 body", "await #2 #1", "add #1"]), [])
        self.assertEqual(self.numbers([*self.made[:6], "add #1", "later call c 4", *self.made[6:]]), [1])

    def test_not_if_no_callback_came_after_it_or_that_got_a_value(self) -> None:
        self.assertEqual(self.numbers([*self.made[:7], *self.made[9:]]), [])
        self.assertEqual(self.numbers([*self.made[:6], "set #0 ok 1", *self.made[7:]]), [])

    def test_not_what_an_inline_body_makes(self) -> None:
        body = ["new #0 d", "new #2 body", "await #2 #0", "add #0", "fire #0 ok 1", "run #0", "new #1 work", "new #3 e", "await #2 #3", "add #3", "set #0 ok null", "run #0"]
        self.assertEqual(self.numbers([*body, "set #0 ok null"]), [])


class AfterACancel(unittest.TestCase):
    """A body that went on after it was cancelled."""

    lines = ["new #0 body", "new #1 ask", "await #0 #1", "add #1", "cancel #0", "cancel #1", 'fire #1 fail CancelledError ""', "run #1"]

    def test_it_is_told_with_what_it_awaited_then(self) -> None:
        lines = [*self.lines, "new #2 again", "await #0 #2", "add #2", "set #1 ok null", "fire #2 ok 1", "run #2", "fire #0 ok 1", "set #2 ok null"]
        self.assertEqual([(one.body.number, one.cancel, one.awaited) for one in went_on(run_of(lines).fold)], [(0, 4, [9])])
        self.assertIn("went on #0·body went on after it was cancelled (line 10) | it was cancelled in line 5", report_of(run_of(lines))[0])

    def test_not_if_it_ends(self) -> None:
        ends = [*self.lines, 'fire #0 fail CancelledError ""', "set #1 ok null"]
        self.assertEqual(went_on(run_of(ends).fold), [])

    def test_nor_if_it_had_ended_before(self) -> None:
        lines = ["new #0 body", "new #1 ask", "await #0 #1", "add #1", "fire #1 ok 1", "run #1", "fire #0 ok 1", "set #1 ok null", "cancel #0"]
        self.assertEqual(went_on(run_of(lines).fold), [])


if __name__ == "__main__":
    unittest.main()
