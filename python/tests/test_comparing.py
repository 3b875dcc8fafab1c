"""Comparing, naming, cutting down, random scripts and batches."""

from __future__ import annotations

import json
import unittest
from typing import Callable, List, Optional

from deferreds.twisted import grammar
from deferreds.twisted.answers import compared
from deferreds.twisted.children import MOST_BYTES
from deferreds.twisted.classes import BUILT_IN
from deferreds.twisted.comparing import Comparison, difference, is_of_level
from deferreds.twisted.cutting import cut_down
from deferreds.twisted.posts import batches_of
from deferreds.twisted.profile import Entry
from deferreds.twisted.programs import Answer, Batches, Lack
from deferreds.twisted.randoms import Scripts
from deferreds.twisted.running import be_quiet, run
from deferreds.twisted.script import read


class Twisted:
    """Real Twisted, asked in this process; what it prints may be changed."""

    def __init__(self, change: Callable[[str], str] = lambda output: output) -> None:
        self._change = change

    def answer(self, script: str, batches: Optional[Batches] = None, most: int = MOST_BYTES) -> Answer:
        """What Twisted prints, changed."""
        ran = run(script.encode(), batches)
        return Answer(ran.status, self._change(ran.output), "")

    def close(self) -> None:
        """Nothing is left to do."""

    def interrupt(self) -> None:
        """Nothing runs."""


def script(*events: object, **keys: object) -> str:
    """A script of these events."""
    return json.dumps({"version": 1, "events": list(events), **keys})


class Comparing(unittest.TestCase):
    """Which differences are found, and named."""

    def setUp(self) -> None:
        be_quiet()

    def test_the_first_line_that_differs(self) -> None:
        ours = Answer(0, "a\nb\nc\n", "")
        self.assertIsNone(compared(ours, ours))
        self.assertEqual(compared(ours, Answer(0, "a\nx\nc\n", "")), (2, "b", "x"))
        self.assertEqual(compared(ours, Answer(0, "a\nb\n", "")), (3, "c", "(the end)"))
        stopped = (4, "(the end)", "(stopped at the limit of the journal, status 1)")
        self.assertEqual(compared(ours, Answer(1, "a\nb\nc\n", "")), stopped)

    def test_an_answer_that_is_not_whole_differs_also_where_its_lines_are_the_same(self) -> None:
        ours = Answer(0, "a\n", "")
        late = Answer(-1, "a\n", "", Lack("no answer within 5 seconds", True))
        self.assertEqual(compared(ours, late), (2, "(the end)", "(no answer within 5 seconds)"))
        found = difference(script(), ours, late)
        self.assertEqual(found and (found.entry, found.lacks, found.is_late), (None, True, True))

    def test_two_answers_that_are_not_whole_differ_even_where_both_came_too_late(self) -> None:
        late = Answer(-1, "a\n", "", Lack("no answer within 1 seconds", True))
        self.assertEqual(
            compared(late, late), (2, "(no answer within 1 seconds)", "(no answer within 1 seconds)")
        )

    def test_lines_that_a_row_leaves_out_may_be_any_and_the_others_have_to_be_there(self) -> None:
        row = Answer(0, "a\n...\nz\n", "")
        self.assertIsNone(compared(row, Answer(0, "a\nx\ny\nz\n", "")))
        self.assertIsNone(compared(row, Answer(0, "a\nz\n", "")))
        self.assertEqual(compared(row, Answer(0, "a\nx\ny\n", "")), (3, "z", "y"))
        self.assertEqual(compared(row, Answer(0, "a\n", "")), (2, "z", "(the end)"))

    def test_another_reason_to_refuse_differs_and_another_text_of_a_run_does_not(self) -> None:
        refused = Answer(2, "", "script refused: 4 BadShape\n")
        self.assertIsNotNone(compared(refused, refused._replace(errors="script refused: 6 BadName\n")))
        self.assertIsNone(compared(Answer(0, "", ""), Answer(0, "", "a warning\n")))

    def test_a_difference_is_named_where_theirs_goes_with_twisted(self) -> None:
        text = script(["deferred", "d"], ["unpause", "d"])
        ours = Answer(0, 'new #0 d\nunhandled AssertionError "not paused"\n#0 d unfired\n', "")
        found = difference(text, ours, Twisted().answer(text))
        self.assertEqual(found and found.entry, Entry.UNPAUSE_AT_ZERO)

    def test_a_mistake_after_an_entry_that_twisted_does_not_make_has_no_name(self) -> None:
        text = script(["deferred", "d"], ["unpause", "d"])
        ours = Answer(0, 'new #0 d\nunhandled AssertionError "not paused"\n#0 d unfired\n', "")
        found = difference(text, ours, Answer(0, "new #0 d\nnew #1 e\n", ""))
        self.assertTrue(found is not None and found.entry is None)

    def test_a_program_that_loses_a_line_is_found_and_cut_down(self) -> None:
        loses = Twisted(lambda output: output.replace('note "b"\n', ""))
        comparison = Comparison(Twisted(), loses, 500)
        text = script(
            ["deferred", "d"],
            ["addCallback", "d", {"do": [["note", "a"], ["note", "b"]], "end": ["return", 5]}],
            ["callback", "d", 7],
        )
        found = comparison.of_script(text)
        assert found is not None
        self.assertIsNone(found.entry)
        tried: List[int] = []
        smaller = json.loads(comparison.cut_down(text, found, tried.append))
        self.assertEqual(smaller["events"], [["note", "b"]])
        self.assertEqual(tried, list(range(1, len(tried) + 1)))

    def test_no_more_is_tried_after_a_smaller_script_that_is_not_answered_in_time(self) -> None:
        text = script(["note", "a"], ["note", "b"])
        asked: List[str] = []

        class Hangs(Twisted):
            """It loses the text b, and answers nothing where there is no text a."""

            def answer(self, script: str, batches: Optional[Batches] = None, most: int = MOST_BYTES) -> Answer:
                asked.append(script)
                if '"a"' not in script:
                    return Answer(-1, "", "", Lack("no answer", True))
                return super().answer(script, batches, most)

        comparison = Comparison(Twisted(), Hangs(lambda output: output.replace('"b"', '"c"')), 500)
        found = comparison.of_script(text)
        assert found is not None
        self.assertEqual(comparison.cut_down(text, found, lambda tried: None), text)
        self.assertEqual(len([one for one in asked if '"a"' not in one]), 1)

    def test_levels_leave_out_what_is_above(self) -> None:
        self.assertTrue(is_of_level(script(["note", "cancel"]), "core"))
        self.assertFalse(is_of_level(script(["cancel", "d"]), "core"))
        self.assertTrue(is_of_level(script(["cancel", "d"]), "cancelling"))
        self.assertFalse(is_of_level(script(["advance", 1]), "lists"))
        self.assertFalse(is_of_level(script(["drain", 1]), "threads"))
        self.assertFalse(is_of_level(script(["maybe", "d", {"do": [["lock", "l"]]}]), "lists"))
        self.assertFalse(is_of_level(script(["note", "x"], version=2), "posts"))
        self.assertTrue(is_of_level(script(["drain", 1], version=2), "pools"))
        self.assertFalse(is_of_level(script(["note", "x"], version=3), "pools"))
        self.assertTrue(is_of_level(script(["drain", 1], version=3), "version-3"))


class Cutting(unittest.TestCase):
    """Smallest scripts."""

    def test_nothing_can_be_taken_from_what_is_left(self) -> None:
        def shows(text: str) -> bool:
            return '"x"' in text and '"y"' in text

        text = json.dumps([[1, ["x", 2], {"a": "z", "b": ["y"]}], 5])
        self.assertEqual(json.loads(cut_down(text, shows, 1_000)), [[["x"], {"b": ["y"]}]])

    def test_it_asks_as_often_as_it_may(self) -> None:
        asked: List[str] = []

        def shows(text: str) -> bool:
            asked.append(text)
            return False

        cut_down(json.dumps([[1] * 50]), shows, 3)
        self.assertEqual(len(asked), 3)


class Random(unittest.TestCase):
    """Random scripts."""

    def test_each_level_makes_scripts_that_are_accepted_and_are_of_it(self) -> None:
        for level in grammar.LEVELS:
            scripts = Scripts(5, level)
            for number in range(60):
                text = scripts.script(number)
                read(text.encode(), list(BUILT_IN))
                self.assertTrue(is_of_level(text, level), text)

    def test_a_number_of_a_seed_is_one_script(self) -> None:
        self.assertEqual(Scripts(1, "posts").script(9), Scripts(1, "posts").script(9))
        self.assertNotEqual(Scripts(1, "posts").script(9), Scripts(2, "posts").script(9))

    def test_a_level_has_what_those_before_it_have(self) -> None:
        for level in grammar.LEVELS:
            text = "".join(Scripts(1, level).script(number) for number in range(60))
            self.assertEqual('["advance"' in text, grammar.has(level, "clock"), level)
            self.assertEqual('"callers"' in text, grammar.has(level, "posts"), level)
            self.assertEqual('"version":2' in text, grammar.has(level, "pools"), level)
            self.assertEqual('"version":3' in text, grammar.has(level, "version-3"), level)
            self.assertEqual('"comment":' in text, grammar.has(level, "version-3"), level)
            self.assertEqual('-1.a:"' in text, grammar.has(level, "version-3"), level)
            self.assertIn('"version":1', text, level)

    def test_all_actions_come_up(self) -> None:
        scripts = Scripts(1, "version-3")
        text = "".join(scripts.script(number) for number in range(300))
        self.assertEqual([word for word in grammar.ACTIONS if f'["{word}"' not in text], [])


class Batching(unittest.TestCase):
    """Batches, read off an output."""

    def setUp(self) -> None:
        be_quiet()
        self.text = script(
            ["drain", 2],
            ["note", "between"],
            callers=[[{"do": [["note", "a"]]}, {}], [{}]],
        )

    def assert_found(self, *batches: List[List[int]]) -> None:
        """These batches are read off what a run with them prints."""
        given = [[(caller, index) for caller, index in batch] for batch in batches]
        output = run(self.text.encode(), given).output
        self.assertEqual(batches_of(self.text, output)[0], given)

    def test_posts_before_and_after_what_follows_a_drain(self) -> None:
        self.assert_found([[1, 0]], [[0, 0], [0, 1]])
        self.assert_found([[0, 0], [0, 1]], [[1, 0]])
        self.assert_found([], [[0, 0], [1, 0], [0, 1]])

    def test_what_comes_between_a_drain_and_a_post_was_no_part_of_it(self) -> None:
        text = script(["deferred", "d"], ["drain", 1], ["unpause", "d"], callers=[[{}]])
        output = 'new #0 d\ndrain\nunhandled AssertionError "not paused"\npost 0 0\n'
        self.assertEqual(batches_of(text, output), [[[], [(0, 0)]]])

    def test_a_run_that_stopped_at_a_post(self) -> None:
        stopped = json.loads(self.text)
        stopped["limit"] = 1
        self.assertEqual(
            batches_of(json.dumps(stopped), "drain\n")[0], [[], [(0, 0), (0, 1), (1, 0)]]
        )


if __name__ == "__main__":
    unittest.main()
