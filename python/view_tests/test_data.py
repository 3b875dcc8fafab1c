"""What a page is drawn from."""

from __future__ import annotations

import json
import unittest
from typing import Any, Dict, List, Tuple

from deferreds.view.data_deferreds import FIELDS
from deferreds.view.page import Page, written_page
from deferreds.view.places import Frame, Place, Places
from deferreds.view.run import Run, run_of_journal
from deferreds.view.scripts import Script

from . import samples
from .test_page import data_of

_LINES = [
    "new #0 outer", "later call answer 7", "add #0", "new #1 inner", "add #1", "fire #1 ok null", "run #1", "wait #1 #0", "advance 7", "call answer",
    'fire #0 fail ValueError "no"', "run #0", 'set #0 fail ValueError "no"', 'hand #0 #1 fail ValueError "no"',
]  # fmt: skip
_ENDS = ["#0 outer ok null", '#1 inner fail ValueError "no"']


def of(lines: List[str]) -> Run:
    """The run of a journal."""
    return run_of_journal("".join(f"{line}\n" for line in lines), "t")


def data(run: Run, *part: int) -> Dict[str, Any]:
    """The data of a run's page, with these lines of it."""
    form: Dict[str, Any] = json.loads(json.dumps(Page(run, *part).data.form()))
    return form


def dense(column: Tuple[List[int], List[Any]]) -> Dict[int, Any]:
    """The values of some rows, by row."""
    rows, row = [], 0
    for step in column[0]:
        row += step
        rows.append(row)
    return dict(zip(rows, column[1]))


class Rows(unittest.TestCase):
    """Rows of a page, as data."""

    def test_each_has_its_line_its_word_and_its_depth(self) -> None:
        form = data(of([*_LINES, *_ENDS]))
        self.assertEqual((form["first"], form["total"]), (0, len(_LINES)))
        self.assertEqual(form["lines"].split("\n"), _LINES)
        self.assertEqual([form["words"][kind // 2] for kind in form["kinds"]], [line.split(" ")[0] for line in _LINES])
        self.assertEqual([kind % 2 for kind in form["kinds"]], [int(" fail " in line) for line in _LINES])
        self.assertEqual([line[head:] for line, head in zip(_LINES, form["heads"]) if head], ["ok null", *['fail ValueError "no"'] * 3])
        self.assertEqual((form["depths"], form["sides"]), ([0] * len(_LINES), [0] * len(_LINES)))
        self.assertEqual(form["named"], [0, -1, 0, 1, 1, 1, 1, [1, 0], -1, -1, 0, 0, 0, [1, 0]])

    def test_what_lies_in_a_callback_is_deeper(self) -> None:
        form = data(of(["new #0 d", "fire #0 ok 1", "run #0", "new #1 e", "fire #1 ok 1", "run #1", 'note "x"', "set #1 ok 1", "set #0 ok 1"]))
        self.assertEqual(form["depths"], [0, 0, 0, 1, 1, 1, 2, 1, 0])
        self.assertEqual(form["sides"], form["depths"])

    def test_a_line_that_isn_t_known_is_a_script_s_own(self) -> None:
        form = data(of(["new #0 d", "what is <this>"]))
        self.assertEqual(([form["words"][kind // 2] for kind in form["kinds"]], form["heads"]), (["new", ""], [0, 0]))

    def test_some_have_a_time_arrows_and_a_reason(self) -> None:
        form = data(of([*_LINES, *_ENDS]))
        self.assertEqual(dense(form["times"]), {0: 0, 8: 7})
        self.assertEqual(dense(form["arrows"]), {5: [0, -1, 1], 7: [2, 1, 0], 10: [0, -1, 0], 13: [1, 0, 1]})
        self.assertEqual(dense(form["why"]), {9: ["scheduled at ", -2, ", due 7"]})
        self.assertEqual(form["brackets"], [[0, 1, 9]])

    def test_events_and_their_places(self) -> None:
        script = Script({"events": [["deferred", "d"], ["callback", "d", 1]]})
        run = run_of_journal("new #0 d\nfire #0 ok 1\nrun #0\nset #0 ok 1\n", "t", script, begins=[0, 1])
        run.places = Places({"d": Place("/a/b.py", 3)}, {"/events/0": Place("/a/b.py", 3), "/events/1": Place("c.py", 4)})
        form = data(run)
        self.assertEqual((dense(form["tails"]), dense(form["events"])), ({0: "event 0"}, {1: "event 1  callback d 1"}))
        self.assertEqual(form["files"], [["/a/b.py", "b.py", "file:///a/b.py"], ["c.py", "c.py", None]])
        self.assertEqual([[form["places"][at] for at in dense(form[name]).values()] for name in ("at", "near")], [[[0, 3], [1, 4]], [[1, 4]] * 3])

    def test_places_have_their_functions_and_the_lines_around_them(self) -> None:
        run = of(["new #0 d", "new #1 e"])
        made, caller = Place("/a.py", 3), Place("/a.py", 9)
        frames = ((Frame(made, "make"), Frame(caller, "main")),)
        run.places = Places({"d": made, "e": Place("b.py", 1)}, {}, {"d": frames}, {"/a.py": [(2, ["def make():", "    return Deferred()", ""])]})
        form = data(run)
        self.assertEqual(form["places"], [[0, 3], [1, 1], [0, 9]])
        self.assertEqual(form["functions"], ["make", "", "main"])
        self.assertEqual(form["sources"], [[2, ["def make():", "    return Deferred()", ""]], None, None])
        self.assertEqual(form["stacks"], {"0": [[0, 2]]})

    def test_equal_lines_and_folds(self) -> None:
        form = data(of(["new #0 d", *["cancel #0"] * 9, "later timeout #0 5", "add #0", "add #0"]))
        self.assertEqual((dense(form["same"]), form["folds"]), ({1: 9}, [["p", 10, 11, 12, 0]]))

    def test_of_a_part_rows_keep_their_places(self) -> None:
        form = data(of([*_LINES, *_ENDS]), 9, 11)
        self.assertEqual((form["first"], form["total"], form["lines"].split("\n")), (8, len(_LINES), _LINES[8:11]))
        self.assertEqual((list(dense(form["times"])), list(dense(form["why"])), form["brackets"]), ([0, 8], [9], [[0, 1, 9]]))

    def test_long_lines_say_how_long_they_are(self) -> None:
        lines = data(samples.hostile())["lines"].split("\n")
        self.assertLess(max(map(len, lines)), 1_050 * 6)
        self.assertTrue(any(line.endswith("… (10007 bytes)") for line in lines))


class Deferreds(unittest.TestCase):
    """Deferreds of a page, as data."""

    def test_each_field(self) -> None:
        columns = data(of([*_LINES, *_ENDS]))["deferreds"]
        written = columns.pop("written").split("\n")
        self.assertEqual(columns, {"numbers": [0, 1], "ends": [0, 1], "made": [0, 3], "last": [13, 13], "names": "outer\ninner"})
        outer, inner = (dict(zip(FIELDS, json.loads(one))) for one in written)
        self.assertEqual(
            outer,
            {"value": "null", "waits": -1, "fired": 10, "by": ["after ", ["call answer"], ", ", -10], "spent": [7, 0, 0, 1, 0],
             "spans": [0, 0, 10, 4, 11, 8, 12, 4, 13, 2], "steps": "m0 f10 r11-12"},
        )  # fmt: skip
        self.assertEqual((inner["value"], inner["spans"]), ('ValueError "no"', [3, 0, 5, 2, 6, 8, 7, 6, 13, 4]))

    def test_those_that_ended_well_before_the_lines_that_are_shown_are_left_out(self) -> None:
        lines = [line for number in range(3_000) for line in (f"new #{number} d", f"fire #{number} ok 1")]
        numbers = data(of(lines), 5_999, 6_000)["deferreds"]["numbers"]
        self.assertEqual(numbers, [*range(2_000), 2_999])  # (2,000 stand in the table of outcomes)

    def test_tables_are_of_lines_of_the_program_if_they_are_known(self) -> None:
        run = of(["new #0 a", "new #1 b", "fire #1 ok 1"])
        self.assertEqual(data(run)["tables"], {"first": [0, 1]})
        run = of(["new #0 a", "new #1 b", "fire #1 ok 1"])
        run.places = Places({"a": Place("p.py", 1), "b": Place("p.py", 2)}, {})
        self.assertEqual(data(run)["tables"], {"site-0": [0], "site-1": [1]})


class Sizes(unittest.TestCase):
    """How large the data are."""

    def test_a_hundred_thousand_lines(self) -> None:
        page = written_page(samples.long(100_000))
        self.assertLess(len(page.encode()), 9_000_000)
        self.assertEqual(len(data_of(page)["kinds"]), data_of(page)["total"])


if __name__ == "__main__":
    unittest.main()
