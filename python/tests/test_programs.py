"""The programs of python/data/programs/awkward: each is recorded as it ran, or refused with its reason.

What is recorded is given to `deferreds`, which prints the same lines, or parts from them at the entry that is named.
"""

from __future__ import annotations

import contextlib
import functools
import gc
import io
import os
import runpy
import subprocess
import sys
import unittest
from pathlib import Path
from typing import Dict, List, NamedTuple, Optional

from deferreds.program import NotRun, built
from deferreds.twisted.answers import compared
from deferreds.twisted.instruments import install
from deferreds.twisted.programs import Answer, Once
from deferreds.twisted.recording.bodies import deepest
from deferreds.twisted.recording.hiding import CHOICES, SECRETS
from deferreds.twisted.recording.inside import CALLED, CLOSED, FINALIZED, MEDDLED
from deferreds.twisted.recording.programs import PrintingNotes
from deferreds.twisted.recording.reactor import VirtualReactor, in_place_of_the_real
from deferreds.twisted.recording.recorder import ASKED, Recorder
from deferreds.twisted.recording.saying import Said
from deferreds.twisted.running import be_quiet, run
from deferreds.twisted.telling import KINDS

PROGRAMS = Path(__file__).resolve().parent.parent / "data" / "programs" / "awkward"


#: the programs that are refused, and why; all others are recorded
REFUSED: Dict[str, str] = {
    "awaited_failure_used": "a failed Deferred that a coroutine has awaited is used again",
    "canceller_by_hand": CALLED,
    "dropped_body_between": CLOSED,
    "error_text_fires": ASKED,
    "error_text_takes_a_lock": ASKED,
    "finalizer_between": FINALIZED,
    "finalizer_meddles": MEDDLED,
    "finalizer_of_weak_reference": "a weak reference has a method of a Deferred as its callback",
    "gather_by_hand": "a gatherResults is fired by hand with a list that isn't shown in full",
    "inline_drops": FINALIZED,
    "subclass_adds": CALLED,
}

#: the programs that are refused, whatever the reason
OTHERS_REFUSED = {"finalizer_in_a_thread"}

#: what a version of Twisted refuses or awaits and another one doesn't, so that the reason is its own
BY_VERSION = {
    "inline_returns_a_deferred": ("a Deferred is fired with a Deferred", "an inline body gives a Deferred as its result"),
}

#: the recorded programs in which Twisted does what an entry of docs/TWISTED.md says, so that a line differs
ENTRIES: Dict[str, str] = {"cancelled_coroutine": "cancelled-inline"}


class Ran(NamedTuple):
    """A program that was recorded, and what it has printed."""

    said: Said
    printed: str


def record(name: str, kinds: frozenset[str] = KINDS, redact: str = SECRETS) -> Ran:
    """Runs a program under the recorder, with a reactor whose time is virtual."""
    be_quiet()
    install()
    gc.collect()  # what other tests have left ends here, and not while this is recorded
    recorder = Recorder(kinds, redact)
    printed = io.StringIO()
    with contextlib.redirect_stdout(printed), in_place_of_the_real(VirtualReactor()), PrintingNotes():
        with recorder.watching():
            runpy.run_path(str(PROGRAMS / f"{name}.py"), run_name="__main__")
    return Ran(Said(recorder), printed.getvalue())


@functools.lru_cache(maxsize=None)
def ours() -> Optional[Once]:
    """The program `deferreds`, where it can be run."""
    with contextlib.suppress(NotRun):
        return Once([os.fspath(built())])
    return None


class Programs(unittest.TestCase):
    """Each program."""

    @classmethod
    def setUpClass(cls) -> None:
        gc.collect()
        gc.freeze()  # what is there already isn't looked through again
        cls.addClassCleanup(gc.unfreeze)

    def assert_right(self, said: Said, entry: Optional[str] = None) -> None:
        """It is said whole, and both `deferreds` and real Twisted print its journal; or part from it after the entry."""
        self.assertEqual(said.problems, [])
        theirs = Answer(0, said.output, "")
        answers = [Answer(0, run(said.text.encode()).output, "")]
        program = ours()
        if program is not None:
            answers.append(program.answer(said.text))
        for answer in answers:
            first = compared(answer, theirs)
            if entry is None:
                self.assertIsNone(first)
            elif first is not None:
                self.assertIn(entry, [quirk.value for place, quirk in said.quirks if place < first[0]])
        if entry is not None:
            self.assertIn(entry, [quirk.value for _, quirk in said.quirks])

    def test_each_is_recorded_as_it_ran_or_refused(self) -> None:
        for path in sorted(PROGRAMS.glob("*.py")):
            with self.subTest(program=path.stem):
                said = record(path.stem).said
                reasons = {problem.reason for problem in said.problems}
                if path.stem in OTHERS_REFUSED:
                    self.assertTrue(reasons)
                elif path.stem in REFUSED:
                    self.assertEqual(reasons, {REFUSED[path.stem]})
                    self.assertTrue(all(f"{path.stem}.py:" in problem.place for problem in said.problems))
                elif path.stem in BY_VERSION and reasons:
                    self.assertLessEqual(reasons, set(BY_VERSION[path.stem]))
                else:
                    self.assert_right(said, ENTRIES.get(path.stem))

    def test_each_expectation_is_of_a_program(self) -> None:
        names = {path.stem for path in PROGRAMS.glob("*.py")}
        self.assertLessEqual(REFUSED.keys() | ENTRIES.keys() | BY_VERSION.keys() | OTHERS_REFUSED, names)

    def journal(self, name: str) -> List[str]:
        """The journal of a program that is recorded."""
        said = record(name).said
        self.assertEqual(said.problems, [])
        return said.journal

    def test_what_a_finalizer_does_follows_the_action_in_which_it_ran(self) -> None:
        self.assertEqual(
            self.journal("finalizer")[2:],
            ["add #0", "run #0", "set #0 ok null", "new #1 lambda_14", 'fire #1 ok "lost"', "add #1", "run #1", 'set #1 ok "lost"'],
        )

    def test_a_method_that_a_subclass_overrides_is_a_body(self) -> None:
        said = record("subclass_fires").said
        assert said.script is not None
        words = [action[0] for action in said.script["events"][3][2]["do"]]
        self.assertEqual((said.script["events"][3][0], words), ("addCallbacks", ["deferred", "callback", "addCallback", "callback"]))

    def test_what_is_refused_may_be_told_as_what_it_is_made_of(self) -> None:
        said = record("subclass_adds").said
        self.assertEqual({problem.kind for problem in said.problems}, {"list"})
        self.assert_right(record("subclass_adds", KINDS - {"list"}).said)

    def test_an_error_is_asked_for_its_text_once(self) -> None:
        journal = self.journal("error_text_changes")
        self.assertEqual([line for line in journal if "asked" in line], [
            'fire #0 fail CountedError "asked 1 times"', 'set #0 fail CountedError "asked 1 times"'
        ])

    def test_what_is_printed_is_asked_for_its_text_once(self) -> None:
        ran = record("print_asks")
        self.assertEqual((ran.printed, ran.said.journal[-1]), ("asked 1 times in all!\n", 'note "asked 1 times in all"'))

    def test_what_the_recorder_asks_for_is_told_nowhere(self) -> None:
        made = [line for line in self.journal("error_text_uses_deferreds") if line.startswith("new")]
        self.assertEqual(len(made), 2)  # the one that fails, and the one of the text that the program asks for

    def test_no_value_is_asked_for_anything(self) -> None:
        self.assertEqual(record("hostile_values").printed, "not asked\n")

    def test_a_value_keeps_the_text_that_it_had_when_it_was_set(self) -> None:
        lines = [line for line in self.journal("value_changes") if line.startswith(("fire #0", "set #0", "set #3"))]
        self.assertEqual(lines, [
            "fire #0 ok [1]", "set #0 ok [1,2,3]", "set #3 ok [[1,2,3],[1,2,3]]", "set #3 ok [[1,2,3,4],[1,2,3,4]]"
        ])

    def test_a_failure_that_a_coroutine_catches_is_lost_to_nobody(self) -> None:
        said = record("awaited_failure").said
        self.assertEqual([outcome for outcome in said.outcomes if " fail " in outcome], [])
        self.assert_right(record("awaited_failure", KINDS - {"inline"}).said)

    def test_the_deepest_body_is_found_with_what_would_be_told_flat(self) -> None:
        for name, place, kind in (
            ("nested_inline", r"^inline of descend_9_\d+$", "inline"),
            ("poll_again", r"^addCallback of read_13_1\d+$", None),
            ("heartbeat", r"^later of call_beat_13_1\d+$", "clock"),
        ):
            with self.subTest(program=name):
                found = deepest(record(name).said.actions)
                assert found is not None
                self.assertRegex(found.of, place)
                self.assertEqual(found.kind, kind)
                if kind is not None:
                    self.assert_right(record(name, KINDS - {kind}).said)

    def test_what_differs_by_version_is_told_as_what_it_is_made_of(self) -> None:
        for name, kind in (("loop_of_coroutine", "loop"), ("loop_of_other_values", "loop")):
            with self.subTest(program=name):
                self.assert_right(record(name, KINDS - {kind}).said)

    def test_where_turns_differ_each_has_its_body(self) -> None:
        said = record("loop_of_other_values").said
        assert said.script is not None
        self.assertEqual((said.plainly, said.script["version"], type(said.script["events"][0][-1])), ([], 3, list))
        self.assert_right(said)

    def test_the_value_of_a_turn_is_told(self) -> None:
        said = record("loop_of_values").said
        assert said.script is not None
        self.assertEqual(said.script["events"][0][-1], {"end": ["return", [3, "turn"]]})
        self.assertIn('fire #1 ok [3,"turn"]', said.journal)

    def test_secrets_are_hidden_unless_that_is_not_wanted(self) -> None:
        shown = {redact: record("secrets", redact=redact).said.output for redact in CHOICES}
        self.assertNotIn("hunter2", shown["secrets"])
        self.assertIn("hunter2", shown["none"])
        for word in ("hunter2", "plain", "lost", ",1]"):
            self.assertNotIn(word, shown["all"])
        self.assert_right(record("secrets", redact="all").said)

    def test_a_secret_is_hidden_before_it_is_known_and_after_that(self) -> None:
        ran = record("secrets_again")
        self.assert_right(ran.said)
        for text in (ran.said.text, ran.said.whole_output, ran.said.places or ""):
            self.assertNotIn("Hq7hZ2mWx9", text)
        self.assertIn("Hq7hZ2mWx9", record("secrets_again", redact="none").said.output)
        self.assertIn('fire #0 ok "<secret_', ran.said.output)
        self.assertIn("/users/<secret_", ran.said.output)

    def test_a_delayed_call_has_the_function_of_the_program(self) -> None:
        self.assertEqual(record("call_function").printed, "True True {'value': 1} True\nFalse\n")

    def test_tracebacks_are_those_of_a_program_that_nobody_records(self) -> None:
        bare = subprocess.run(
            [sys.executable, str(PROGRAMS / "tracebacks.py")], capture_output=True, text=True, check=True
        )
        self.assertEqual(record("tracebacks").printed, bare.stdout)
        self.assertEqual(bare.stdout.count("False"), 4)


if __name__ == "__main__":
    unittest.main()
