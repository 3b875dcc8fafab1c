"""The fold over journals: the state of each Deferred, and why."""

from __future__ import annotations

import unittest
from typing import List

from deferreds.twisted.rows import ANY_LINES, read_rows, row_files

from deferreds.checkout import TOP
from deferreds.view.phrases import OfDeferred, OfLine, Phrase
from deferreds.view.records import ArrowKind, Bracket, BracketKind, Look, State
from deferreds.view.run import Run, run_of_facts, run_of_journal
from deferreds.view.facts import read_facts
from deferreds.view.scripts import Script

from .stand_in import told


def run_of(*lines: str) -> Run:
    """The run of a journal with its outcomes."""
    return run_of_journal("".join(f"{line}\n" for line in lines), "test")


def exact(begins: List[int], *lines: str) -> Run:
    """The same, where it is known at which row each event begins."""
    return run_of_facts(
        read_facts(told("".join(f"{line}\n" for line in lines), begins)), Script(), "test"
    )


def plain(phrase: Phrase) -> str:
    """A phrase in short."""
    said = ""
    for part in phrase:
        said += (
            part
            if isinstance(part, str)
            else f"#{part[0]}"
            if isinstance(part, OfDeferred)
            else f"{part[0]}"
        )
    return said


class Fold(unittest.TestCase):
    """States, causes, arrows."""

    def test_the_lines_tell_the_outcomes_of_all_rows(self) -> None:
        runs = 0
        for path in row_files():
            for row in read_rows(path):
                if row.status < 2 and f"{ANY_LINES}\n" not in row.output:
                    runs += 1
                    self.assertEqual(
                        run_of_journal(row.output, "").problems, [], f"{row.file}: {row.name}"
                    )
        self.assertGreater(runs, 2000)

    def test_a_line_and_an_outcome_that_differ_are_told(self) -> None:
        run = run_of("new #0 d", "fire #0 ok 1", "#0 d ok 2", "#1 e unfired", "what")
        self.assertEqual(
            [plain(problem) for problem in run.problems],
            [
                "the lines tell of #0 otherwise than its outcome does",
                "there is an outcome of #1, and no line in which it was made",
                "1 line isn't an outcome",
            ],
        )
        self.assertEqual(plain(run_of("nope").problems[0]), "1 line isn't known: 0")
        self.assertEqual(
            plain(run_of(*["nope"] * 9, "note 1").problems[0]), "9 lines aren't known: 0, 1, 2 …"
        )

    def test_looks(self) -> None:
        run = run_of("new #0 d", "pause #0", 'fire #0 fail X ""', "unpause #0", "run #0", "set #0 ok 1")
        looks = [(row, look) for row, look in run.fold.records[0].spans]
        expected = [
            (0, Look(State.UNFIRED)),
            (1, Look(State.UNFIRED, True)),
            (2, Look(State.FAIL, True)),
            (3, Look(State.FAIL)),
            (4, Look(State.RUN)),
            (5, Look(State.OK)),
        ]
        self.assertEqual(looks, expected)

    def test_causes(self) -> None:
        cases = [
            (["lock l", "new #0 a", "acquire l #0", 'fire #0 ok "l"'], "a token of l was free"),
            (
                [
                    "lock l",
                    "new #0 a",
                    "acquire l #0",
                    'fire #0 ok "l"',
                    "new #1 b",
                    "acquire l #1",
                    "release l",
                    'fire #1 ok "l"',
                ],
                "release l",
            ),
            (
                ["queue q none none", "put q 1", "new #0 a", "get q #0", "fire #0 ok 1"],
                "a value of q was stored",
            ),
            (["queue q none none", "new #0 a", "get q #0", "put q 1", "fire #0 ok 1"], "put q"),
            (["new #0 a", "cancel #0", 'fire #0 fail CancelledError ""'], "cancel #0"),
            (
                ["new #0 a", "job 0 #0", "later job 0 3", "advance 3", "deliver 0", "fire #0 ok 1"],
                "job 0 is done",
            ),
            (
                [
                    "task t",
                    "later tick 1",
                    "new #0 a",
                    "whendone t #0",
                    "advance 1",
                    "tick",
                    "step t",
                    'end t ok "t"',
                    'fire #0 ok "t"',
                ],
                "end of task t, 7",
            ),
            (
                [
                    "task t",
                    "later tick 1",
                    "advance 1",
                    "tick",
                    "step t",
                    'end t ok "t"',
                    "new #0 a",
                    "whendone t #0",
                    'fire #0 ok "t"',
                ],
                "task t has ended already",
            ),
            (["new #0 a", "loop p #0", "later loop p 3", "stop p", 'fire #0 ok "p"'], "stop of loop p"),
            (["later call c 1", "new #0 a", "advance 1", "call c", "fire #0 ok 1"], "after call c, 3"),
            (
                ["new #0 a", "new #1 b", "add #0", "fire #0 ok 1", "run #0", "fire #1 ok 2"],
                "a callback of #0",
            ),
        ]
        for lines, cause in cases:
            self.assertEqual(plain(run_of(*lines).fold.rows[-1].cause), cause)

    def test_where_events_are_known_a_call_fires_and_not_what_comes_after_it(self) -> None:
        lines = [
            "later call c 1",
            "new #0 a",
            "new #1 b",
            "advance 1",
            "call c",
            "fire #0 ok 1",
            "fire #1 ok 1",
        ]
        run = exact([0, 1, 2, 3, 6], *lines)
        self.assertEqual(plain(run.fold.rows[5].cause), "call c")
        self.assertEqual(plain(run.fold.rows[6].cause), "4")
        self.assertEqual([row.depth for row in run.fold.rows], [0, 0, 0, 0, 1, 2, 0])

    def test_a_call_that_was_reset_comes_at_the_new_time(self) -> None:
        run = run_of("later call c 5", "reset c 9", "reset c 5", "reset c 7", "advance 7", "call c", "reset c 8")
        causes = [plain(row.cause) for row in run.fold.rows]
        self.assertEqual(causes[1:4], ["scheduled at 0, was due 5", "scheduled at 0, was due 9", "scheduled at 0, was due 5"])
        self.assertEqual(causes[5:], ["scheduled at 0, reset at 3, due 7", ""])
        self.assertEqual(run.fold.brackets, [Bracket(0, 5, BracketKind.CAME)])

    def test_of_two_calls_of_one_name_the_one_comes_that_is_due_first(self) -> None:
        calls = ["later call c 2", "later call c 9", "advance 1"]
        later = run_of(*calls, "reset c 5", "advance 5", "call c", "call c")
        self.assertEqual([(one.start, one.end) for one in later.fold.brackets], [(0, 5), (1, 6)])
        sooner = run_of(*calls, "reset c 1", "advance 5", "call c", "call c")
        self.assertEqual([(one.start, one.end) for one in sooner.fold.brackets], [(1, 5), (0, 6)])

    def test_a_cancel_of_one_that_waits_reaches_another(self) -> None:
        run = run_of(
            "new #0 a",
            "new #1 b",
            "add #0",
            "fire #0 ok 1",
            "run #0",
            "wait #0 #1",
            "cancel #0",
            'fire #1 fail CancelledError ""',
        )
        cancel, fire = run.fold.rows[6:8]
        self.assertEqual(
            [(arrow.kind, arrow.source, arrow.target) for arrow in cancel.arrows],
            [(ArrowKind.CANCEL, None, 0), (ArrowKind.CANCEL, 0, 1)],
        )
        self.assertEqual(plain(fire.cause), "cancel #0")

    def test_a_cancel_in_a_circle_reaches_nobody(self) -> None:
        lines = ["new #0 a", "new #1 b", "new #2 c"]
        for one, other in ((0, 1), (2, 0), (1, 0)):
            lines += [f"fire #{one} ok 1", f"run #{one}", f"wait #{one} #{other}", "cancel #2"]
        cancels = [row for row in run_of(*lines).fold.rows if row.entry.word == "cancel"]
        self.assertEqual(
            [plain(row.cause) for row in cancels],
            ["", "reaches #1", "the waits go round in a circle: nothing happens"],
        )

    def test_a_name_that_is_bound_anew_is_a_guess(self) -> None:
        lines = [
            "lock l",
            "new #0 a",
            "acquire l #0",
            'fire #0 ok "l"',
            "new #1 b",
            "acquire l #1",
            "lock l",
            "release l",
            'fire #1 ok "l"',
        ]
        run = run_of(*lines, '#0 a ok "l"', '#1 b ok "l"')
        self.assertEqual(run.fold.rows[7].serves, 1)
        self.assertEqual(run.fold.world.locks.guessed, {"l"})
        details = [plain(one) for one in run.report.findings[0].details]
        self.assertIn(
            "the name l was bound more than once: which of them a line means is a guess", details
        )

    def test_brackets(self) -> None:
        run = run_of("later call c 1", "later call d 1", "uncall d", "advance 1", "call c")
        self.assertEqual(
            [(one.start, one.end, one.kind.value) for one in run.fold.brackets],
            [(1, 2, "cancelled"), (0, 4, "came")],
        )

    def test_of_calls_of_one_name_the_one_comes_that_is_due_first(self) -> None:
        run = run_of("later call c 9", "later call c 2", "advance 3", "call c")
        self.assertEqual(plain(run.fold.rows[3].cause), f"scheduled at {OfLine(1)[0]}, due 2")

    def test_cut_and_broken_journals_are_shown_all_the_same(self) -> None:
        row = next(row for row in read_rows(TOP / "crates/test_rows/data/loops.rows") if row.status == 0)
        lines = row.output.split("\n")
        for cut in range(len(lines)):
            self.assertIsNotNone(run_of(*lines[:cut]).report.findings)
            self.assertIsNotNone(run_of(*lines[cut:-1]).report.findings)


if __name__ == "__main__":
    unittest.main()
