"""What is left, and why: a row a kind, and one row for all that hangs on one thing."""

from __future__ import annotations

import json
import unittest
from typing import List, Optional, Sequence

from deferreds.checkout import TOP
from deferreds.view.facts import read_facts
from deferreds.view.places import Place, Places
from deferreds.view.findings import Kind, Severity
from deferreds.view.run import Run, run_of_facts, run_of_journal
from deferreds.view.scripts import Script
from deferreds.view.terminal import Terminal

from .stand_in import Json, deferred, stuck, thing, told


def report_of(run: Run) -> List[str]:
    """The report as a terminal shows it: a text for each finding, with its details."""
    found: List[str] = []
    lines = list(Terminal(run, False).lines())
    for line in lines[1 : lines.index("")]:
        if line[:3] in ("!! ", " ? ", " * ", " - "):
            found.append(line[3:])
        elif line.startswith(" " * 13) and found:
            found[-1] += f" | {line.strip()}"
    return [" ".join(one.split()) for one in found]


def journal(*lines: str) -> str:
    """A journal with the outcomes that its lines tell."""
    records = run_of_journal("".join(f"{line}\n" for line in lines), "test").fold.records.values()
    outcomes = [f"#{record.number} {record.name or '-'} {record.end}" for record in records]
    return "".join(f"{line}\n" for line in [*lines, *outcomes])


def of_journal(*lines: str, script: Optional[object] = None) -> List[str]:
    """The report of a journal."""
    return report_of(run_of_journal(journal(*lines), "test", Script(script)))


def of_facts(lines: Sequence[str], *left: Json, stopped: bool = False) -> List[str]:
    """The report of a run of which it is known what is left."""
    text = told("".join(f"{line}\n" for line in lines), [0], left, stopped)
    return report_of(run_of_facts(read_facts(text), Script(), "test"))


class OfJournals(unittest.TestCase):
    """What the lines tell."""

    def test_nothing_is_left(self) -> None:
        run = run_of_journal("new #0 d\nfire #0 ok 1\n#0 d ok 1\n", "test")
        self.assertTrue(run.report.is_clean)
        self.assertEqual(next(iter(Terminal(run, False).lines())), "test: nothing is left unfired")

    def test_failures(self) -> None:
        self.assertEqual(
            of_journal("new #0 d", "add #0", "fire #0 ok 1", "run #0", 'set #0 fail ValueError "no"'),
            ['failure #0·d ends with ValueError "no" (line 5) | it comes from line 5: set #0'],
        )
        self.assertEqual(
            of_journal("new #0 d", "pause #0", 'fire #0 fail ValueError "no"'),
            ['failure #0·d ends with ValueError "no" (line 3) | it is paused since line 2'],
        )
        self.assertEqual(of_journal('unhandled NameError "d"'), ['unhandled NameError "d" (line 1)'])

    def test_a_failure_that_is_passed_on_comes_from_where_it_began(self) -> None:
        lines = [
            "new #0 a",
            "new #1 b",
            'fire #0 fail X ""',
            "run #0",
            "new #2 c",
            'set #0 fail X ""',
            'fire #1 fail Y ""',
        ]
        self.assertIn('failure #0·a ends with X "" (line 3)', of_journal(*lines))

    def test_a_circle_is_told_once_with_who_else_waits(self) -> None:
        waits = [
            ["add #%d" % one, "fire #%d ok 1" % one, "run #%d" % one, "wait #%d #%d" % (one, to)]
            for one, to in ((0, 1), (1, 0), (2, 0))
        ]
        found = of_journal("new #0 a", "new #1 b", "new #2 c", *sum(waits, []))
        self.assertEqual(
            found,
            [
                "circle #0·a → #1·b → #0·a (line 7) | each waits for the next: nobody can end this | #2·c waits for #0·a since line 15"
            ],
        )

    def test_all_that_hangs_on_one_that_nobody_fired(self) -> None:
        lines = [
            "new #0 a",
            "add #0",
            "new #1 b",
            "await #1 #0",
            "add #0",
            "new #2 c",
            "fire #2 ok 1",
            "run #2",
            "wait #2 #1",
        ]
        self.assertEqual(
            of_journal(*lines, script={"events": [["later", "x", 1, {"do": [["callback", "a", 1]]}]]}),
            [
                "unfired nobody fired #0·a (line 1) | actions of the script that fire one of this name: /events/0/3/do/0"
                " | 2 pairs wait | the inline body of #1·b awaits #0·a since line 4 | #2·c waits for #1·b since line 9"
            ],
        )

    def test_more_than_six_are_counted(self) -> None:
        lines = ["new #0 a"]
        for one in range(1, 10):
            lines += [f"new #{one} -", f"fire #{one} ok 1", f"run #{one}", f"wait #{one} #0"]
        self.assertTrue(of_journal(*lines)[0].endswith("| and 3 more hang on this"))

    def test_paused(self) -> None:
        self.assertEqual(
            of_journal("new #0 d", "pause #0", "pause #0", "fire #0 ok 1"),
            ["paused #0·d is paused 2 times (line 3)"],
        )

    def test_tokens_and_getters(self) -> None:
        lines = [
            "lock l",
            "new #0 a",
            "acquire l #0",
            'fire #0 ok "l"',
            "new #1 b",
            "acquire l #1",
            "queue q none none",
            "new #2 c",
            "get q #2",
        ]
        self.assertEqual(
            of_journal(*lines),
            [
                "token 1 of 1 token of l is held (line 3) | taken 1 time, released 0 times | held for #0·a since line 3"
                " | #1·b waits for a token of l",
                "getter 1 Deferred waits for a value of q, and nothing is put (line 7) | #2·c waits for a value of q",
            ],
        )

    def test_a_waiter_that_is_cancelled_waits_no_longer_and_one_that_is_fired_does(self) -> None:
        lock = ["lock l", "new #0 a", "acquire l #0", 'fire #0 ok "l"', "new #1 b", "acquire l #1"]
        cancelled = [*lock, "cancel #1", 'fire #1 fail CancelledError ""', "release l"]
        self.assertEqual(of_journal(*cancelled)[0].split()[0], "failure")
        self.assertEqual(len(of_journal(*cancelled)), 1)
        fired = [*lock, "fire #1 ok 1", "release l", "refuse #1", 'unhandled AlreadyCalledError ""']
        self.assertEqual(
            of_journal(*fired)[1].split(" | ")[0], "token 1 of 1 token of l is held (line 8)"
        )

    def test_what_is_due(self) -> None:
        lines = [
            "later call c 5",
            "task t",
            "later tick 1",
            "new #0 j",
            "job 0 #0",
            "later job 0 9",
            "new #1 d",
            "later timeout #1 7",
            "advance 0",
        ]
        self.assertEqual(
            of_journal(*lines),
            [
                "unfired nobody fired #1·d (line 7)",
                "call delayed call c is due at 5, and the run ended at 0 (line 1)",
                "timer the timer of #1·d is due at 7, and the run ended at 0 (line 8)",
                "tick a tick is due at 1, and the run ended at 0 (line 3)",
                "job the result of job 0 for #0·j is due at 9, and the run ended at 0 (line 6)",
                "task task t still takes turns (line 2)",
            ],
        )

    def test_a_call_that_was_reset_is_due_at_the_new_time_and_isn_t_cancelled(self) -> None:
        lines = ["later call c 5", "reset c 9", "reset c 7", "advance 5"]
        self.assertEqual(
            of_journal(*lines),
            ["call delayed call c is due at 7, and the run ended at 5 (line 1) | it was reset in line 3"],
        )
        self.assertEqual(of_journal(*lines, "advance 7", "call c"), [])
        self.assertEqual(of_journal(*lines, "uncall c"), [])

    def test_a_tick_is_dropped_when_nobody_takes_turns(self) -> None:
        self.assertEqual(
            of_journal("task t", "later tick 1", "pausetask t"), ["task task t is paused (line 1)"]
        )
        self.assertEqual(of_journal("task t", "later tick 1", 'end t fail TaskStopped ""'), [])

    def test_loops(self) -> None:
        lines = ["new #0 l", "loop p #0", "later loop p 3"]
        self.assertEqual(
            of_journal(*lines),
            ["loop loop p goes on, its next turn is due at 3 (line 3) | #0·l is fired when loop p ends"],
        )
        turning = [*lines, "advance 3", "turn p"]
        self.assertEqual(
            of_journal(*turning)[0].split(" | ")[0],
            "loop loop p goes on, its last turn isn't over (line 5)",
        )
        self.assertEqual(of_journal(*lines, "stop p", 'fire #0 ok "p"'), [])

    def test_a_task_that_is_held_hangs_on_who_holds_it(self) -> None:
        lines = ["new #0 a", "task t", "new #1 done", "whendone t #1", "hold t #0", "add #0"]
        self.assertEqual(
            of_journal(*lines),
            [
                "unfired nobody fired #0·a (line 1) | 1 pair waits | #1·done is fired when task t ends, which is held by #0·a",
                "task task t is held by #0·a (line 5)",
            ],
        )

    def test_notes(self) -> None:
        lines = ["queue q none none", "put q 1", "put q 2", "new #0 a", "fire #0 ok 1", "refuse #0"]
        found = run_of_journal(journal(*lines), "test").report
        self.assertEqual((found.is_clean, found.leaves_nothing), (False, True))
        self.assertEqual([one.severity for one in found.findings], [Severity.NOTE, Severity.NOTE])
        self.assertEqual(
            of_journal(*lines),
            ["stored 2 values of q were never got (line 2)", "refused a second firing of #0·a (line 6)"],
        )

    def test_a_late_answer_that_was_swallowed_is_a_note(self) -> None:
        lines = ["new #0 d", "cancel #0", 'fire #0 fail CancelledError ""', "add #0", "run #0", "set #0 ok null"]
        run = run_of_journal(journal(*lines, "advance 1", "call answer", "swallow #0"), "test")
        self.assertTrue(run.report.leaves_nothing)
        self.assertEqual(
            report_of(run),
            [
                "swallowed a late firing of #0·d was swallowed: nobody got its answer (line 9)"
                " | it was cancelled in line 2, 1 tick before | by after call answer, line 8"
            ],
        )
        self.assertEqual(next(iter(Terminal(run, False).lines())), "test: nothing is left unfired; 1 to note")

    def test_what_nobody_got_is_told_where_an_event_fires(self) -> None:
        lines = ["new #0 get_7", "cancel #0", 'fire #0 fail CancelledError ""', "advance 4", "swallow #0", "refuse #0"]
        script = Script({"events": [["deferred", "get_7"], ["cancel", "get_7"], ["advance", 4], ["callback", "get_7", "late"], ["errback", "get_7", "E", "no"]]})
        run = run_of_journal(journal(*lines), "test", script, begins=[0, 1, 3, 4, 5])
        run.places, run.tick = Places({"get_7": Place("/srv/get.py", 7)}, {"/events/3": Place("/srv/read.py", 9)}), "1 ms"
        self.assertEqual(
            report_of(run)[-1],
            'swallowed a late firing of #0·get_7 was swallowed: nobody got "late" (line 5)'
            " | it was cancelled in line 2, 0.004 s before"
            ' | by event 3 callback get_7 "late" at read.py:9 | made at get.py:7',
        )
        self.assertEqual([script.fired_with(event) for event in (-1, 0, 3, 4, 5)], ["", "", '"late"', 'E "no"', ""])

    def test_the_second_that_waits_for_one_got_null(self) -> None:
        lines = ["new #0 d", "new #1 a", "new #2 b"]
        for one in (1, 2):
            lines += [f"add #{one}", f"fire #{one} ok 1", f"run #{one}", f"wait #{one} #0"]
        fired = [*lines, "fire #0 ok 42", "hand #0 #1 ok 42", "hand #0 #2 ok null"]
        run = run_of_journal(journal(*fired), "test")
        self.assertTrue(run.report.leaves_nothing)
        self.assertEqual(
            report_of(run),
            ["got null #2·b got null from #0·d, whose value was taken before (line 14) | it went to #1·a in line 13"],
        )
        self.assertEqual(of_journal(*lines, "fire #0 ok null", "hand #0 #1 ok null", "hand #0 #2 ok null"), [])
        anew = [*lines[:-1], "add #0", "fire #0 ok 42", "take #2 #0 ok 42", "run #0", "set #0 ok null", "run #1", "take #1 #0 ok null"]
        self.assertEqual(of_journal(*[line for line in anew if line != "wait #1 #0"]), [])

    def test_who_fires_is_the_canceller(self) -> None:
        lines = ["new #0 d", "new #1 e", "fire #1 ok 1", "run #1", "wait #1 #0"]
        run = run_of_journal(journal(*lines, "cancel #1", 'fire #0 fail ValueError "no"'), "test")
        self.assertEqual(
            list(Terminal(run, False).lines())[-4].split(" ← ")[1], "the canceller of #0·d, by cancel #1·e"
        )
        run = run_of_journal(journal(*lines[:1], "cancel #0", "fire #0 ok 1"), "test")
        self.assertEqual(list(Terminal(run, False).lines())[-3].split(" ← ")[1], "the canceller of #0·d")

    def test_a_failure_names_the_cancel_with_which_it_began(self) -> None:
        began = "it began with cancel #0·d, line 2"
        cancelled = ["new #0 d", "cancel #0", 'fire #0 fail CancelledError ""']
        self.assertEqual(
            of_journal(*cancelled), [f'failure #0·d ends with CancelledError "" (line 3) | {began}']
        )
        other = [*cancelled, "add #0", "run #0", 'set #0 fail TimeoutError ""']
        self.assertEqual(
            of_journal(*other),
            [f'failure #0·d ends with TimeoutError "" (line 6) | it comes from line 6: set #0 | {began}'],
        )
        handed = ["new #0 d", "cancel #0", "new #1 e", "fire #1 ok 1", "run #1", "wait #1 #0", 'fire #0 fail CancelledError ""']
        found = of_journal(*handed, 'hand #0 #1 fail CancelledError ""')
        self.assertEqual([one.split(" | ")[-1] for one in found], [began])
        within = [*cancelled, "add #0", "run #0", "new #1 e", 'fire #1 fail X ""', "set #0 ok null"]
        self.assertEqual(
            of_journal(*within), [f'failure #1·e ends with X "" (line 7) | {began}']
        )
        mended = [*cancelled, "add #0", "run #0", "set #0 ok 1", "run #0", 'set #0 fail X ""']
        self.assertFalse([one for one in of_journal(*mended) if "began" in one])

    def test_a_run_that_stopped(self) -> None:
        found = of_journal("new #0 d", "add #0", "fire #0 ok 1", "run #0")
        self.assertEqual(
            found,
            [
                "stopped the run stopped at the limit of its journal (line 4) | a callback of #0·d, from line 4, hadn't ended"
            ],
        )

    def test_a_journal_that_was_cut_isn_t_one_that_met_its_limit(self) -> None:
        lines = ["new #0 d", "add #0", "new #1 e", "fire #0 ok 1", "run #0", "new #2 f"]
        whole = journal(*lines, "set #0 ok 2", "fire #1 ok 3")
        end = whole.index("set #0")
        for cut in (whole[:end], whole[: end + 5], whole[: whole.index("#1 e")]):
            run = run_of_journal(cut, "test")
            self.assertEqual([one.kind for one in run.report.findings[:1]], [Kind.CUT], cut)
            self.assertFalse(run.report.is_clean or run.problems)
        self.assertEqual(
            report_of(run_of_journal(whole[:end], "test"))[0],
            "cut off the text ends before the outcomes of 3 of 3 Deferreds: how the run went on isn't known (line 6)"
            " | a callback of #0·d, from line 5, hadn't ended",
        )
        self.assertEqual(report_of(run_of_journal(whole[:-1], "test")), report_of(run_of_journal(whole, "test")))

    def test_lines_that_are_missing_at_the_beginning_are_told(self) -> None:
        run = run_of_journal(journal("new #0 d", "fire #0 ok 1").split("\n", 1)[1], "test")
        self.assertEqual([str(part) for part in run.problems[0][:2]], ["the beginning is missing: ", "1 Deferred is made in no line: "])
        self.assertEqual(next(iter(Terminal(run, False).lines())), "test: nothing is left unfired, as far as this can be read")

    def test_what_a_run_has_only_begun_when_it_stopped(self) -> None:
        found = of_journal("new #0 d", "job 0 #0")
        self.assertEqual(found, ["unfired nobody fired #0·d (line 1)"])
        found = of_journal("new #0 d", "new #1 e", "await #1 #0")
        self.assertEqual(
            found[1], "unfired nobody fired #1·e (line 2) | its body has awaited #0·d, and didn't end"
        )

    def test_a_chain_of_many_waits_takes_no_longer_than_its_lines(self) -> None:
        lines = ["new #0 d"]
        for one in range(1, 20_000):
            lines += [f"new #{one} d", f"fire #{one} ok 1", f"run #{one}", f"wait #{one} #{one - 1}"]
        self.assertEqual(len(of_journal(*lines)), 1)


class OfFacts(unittest.TestCase):
    """What `--json` says exactly is believed, whatever the lines seem to say."""

    def test_a_list_hangs_on_its_children(self) -> None:
        lines = ["new #0 d", "new #1 d", "new #2 d", "add #0", "add #1"]
        hangs = [
            {"at": "child", "deferred": deferred(0), "place": 0},
            {"at": "child", "deferred": deferred(1), "place": 1},
        ]
        found = of_facts(lines, stuck(0, "unfired"), stuck(1, "unfired"), stuck(2, "unfired", *hangs))
        self.assertEqual(
            found,
            [
                "unfired nobody fired #0·d (line 1) | 1 pair waits"
                " | #2·d is a list with 2 Deferreds that haven't come: #0·d, #1·d",
                "unfired nobody fired #1·d (line 2) | 1 pair waits",
            ],
        )

    def test_one_that_is_chained_to(self) -> None:
        found = of_facts(
            ["new #0 a", "new #1 b", "add #0"],
            stuck(0, "unfired"),
            stuck(1, "unfired", {"at": "chain", "deferred": deferred(0)}),
        )
        self.assertEqual(
            found, ["unfired nobody fired #0·a (line 1) | 1 pair waits | #1·b is chained to #0·a"]
        )

    def test_a_loop_waits_for_the_deferred_of_its_turn(self) -> None:
        lines = ["new #0 l", "loop p #0", "turn p", "new #1 answer", "add #1"]
        hang = {"at": "loop", "object": thing("loop", 0)}
        loop = {
            "kind": "loop",
            "object": thing("loop", 0),
            "deferred": deferred(0),
            "due": None,
            "waits_for": [deferred(1)],
        }
        self.assertEqual(
            of_facts(lines, stuck(0, "unfired", hang), stuck(1, "unfired"), loop),
            [
                "unfired nobody fired #1·answer (line 4) | 1 pair waits | #0·l is fired when loop p ends, whose turn waits for #1·answer",
                "loop loop p goes on, its last turn isn't over and waits for #1·answer (line 3)",
            ],
        )

    def test_a_timer_that_has_ended_isn_t_left(self) -> None:
        lines = ["new #0 d", "later timeout #0 5", "add #0", "add #0"]
        self.assertEqual(
            of_facts(lines, stuck(0, "unfired")), ["unfired nobody fired #0·d (line 1) | 2 pairs wait"]
        )

    def test_where_objects_of_one_name_are_numbered_nothing_is_guessed(self) -> None:
        tokens = {"kind": "tokens", "object": thing("lock", 0), "given": 1, "tokens": 2, "waiting": []}
        lines = ["semaphore l 2", "new #0 a", "acquire l #0", 'fire #0 ok "l"', "lock l"]
        found = of_facts(lines, tokens)
        self.assertEqual(
            found,
            [
                "token 1 of 2 tokens of l is held (line 3) | taken 1 time, released 0 times | held for #0·a since line 3 in event 0"
            ],
        )

    def test_all_of_the_sides_that_ran_when_it_stopped(self) -> None:
        lines = ["new #0 a", "new #1 b", "fire #0 ok 1", "run #0", "fire #1 ok 1", "run #1"]
        found = of_facts(
            lines, stuck(0, "fired", running=True), stuck(1, "fired", running=True), stopped=True
        )
        self.assertEqual(
            found,
            [
                "stopped the run stopped at the limit of its journal (line 6) | a callback of #0·a, from line 4, hadn't ended"
                " | a callback of #1·b, from line 6, hadn't ended"
            ],
        )

    def test_kinds_of_a_later_version_are_passed_over(self) -> None:
        hangs = [{"at": "moon", "deferred": deferred(0)}, {"at": "deferred", "deferred": deferred(0)}]
        lines = ["new #0 a", "new #1 b", "fire #1 ok 1", "run #1", "wait #1 #0"]
        found = of_facts(
            lines, stuck(0, "unfired"), stuck(1, "waiting", *hangs), {"kind": "tide", "height": 3}
        )
        self.assertEqual(
            found, ["unfired nobody fired #0·a (line 1) | #1·b waits for #0·a since line 5"]
        )

    def test_facts_that_are_cut_off(self) -> None:
        text = told("new #0 d\n#0 d unfired\n", [0], [stuck(0, "unfired")])
        whole = text.split("\n")
        run = run_of_facts(read_facts("\n".join(whole[:-2]) + "\n"), Script(), "test")
        self.assertEqual(
            report_of(run),
            [
                "cut off the text ends before what is left: how the run went on isn't known (line 1)",
                "unfired nobody fired #0·d (line 1)",
            ],
        )
        begun = run_of_facts(read_facts("\n".join(whole[:2]) + "\n"), Script(), "test")
        self.assertIn("before the outcomes of 1 of 1 Deferred:", report_of(begun)[0])


class Scripts(unittest.TestCase):
    """The examples of the repository, by name."""

    def test_events_as_short_texts(self) -> None:
        events = json.loads((TOP / "examples" / "retried.json").read_text(encoding="utf-8"))["events"]
        script = Script({"events": events})
        self.assertEqual(script.shown(1), "later deadline 10 {cancel page}")
        self.assertEqual(script.shown(6), 'errback page "RuntimeError" "connection refused"')
        self.assertTrue(script.shown(2).startswith("addErrback page {deferred second; later retry 1 {"))

    def test_any_json_is_shown(self) -> None:
        for document in (
            {},
            [],
            1,
            {"events": [1, [], [[]], ["x"], {"do": 1}, ["inline", "d", [["end"], ["try", 1, 2, 3]]]]},
        ):
            script = Script(document)
            for event in range(len(script.events)):
                self.assertIsInstance(script.shown(event), str)
            self.assertEqual(script.firing(["d"]), [])


class OfExpectations(unittest.TestCase):
    """A run that ended since a Deferred isn't as the script expects."""

    def report(self, lines: Sequence[str], expected: object) -> str:
        script = Script({"events": [["deferred", "d"], ["expect", "d", expected]]})
        return report_of(run_of_journal(journal(*lines), "test", script, False, [0, len(lines) - 1]))[0]

    def test_what_it_is_and_what_was_expected(self) -> None:
        said = "unmet a Deferred isn't as the script expects, and the run ended there (line 2) | #0·d is unfired, and "
        lines = ["new #0 d", 'unmet #0 unfired expected ok [1,"x"]']
        self.assertEqual(self.report(lines, ["ok", [1, "x"]]), said + 'ok [1,"x"] was expected')
        self.assertEqual(self.report(["new #0 d", "unmet #0 unfired expected waiting"], ["waiting"]), said + "waiting was expected")

    def test_a_text_that_says_expected_is_part_of_the_value(self) -> None:
        lines = ["new #0 d", 'unmet #0 ok "\\" expected ok 1" expected ok "x expected ok 2"']
        said = 'is ok "\\" expected ok 1", and ok "x expected ok 2" was expected'
        self.assertIn(said, self.report(lines, ["ok", "x expected ok 2"]))

    def test_a_name_that_is_bound_to_none(self) -> None:
        self.assertIn('no Deferred has the name "e", and unfired was expected', self.report(["new #0 d", 'unbound "e"'], ["unfired"]))


if __name__ == "__main__":
    unittest.main()
