"""A script that is run in given batches, and the batches in which a run was."""

from __future__ import annotations

import contextlib
import io
import json
import tempfile
import unittest
from pathlib import Path
from typing import Tuple

from deferreds.checkout import TOP
from deferreds.view import command
from deferreds.view.batches import NotBatches, parse_batches, text_of

_TWO_CALLERS = TOP / "examples" / "two_callers.json"
_BOB_FIRST = "[[[1,0]],[[0,0],[1,1],[0,1]]]"
_ANN_FIRST = "[[],[[0,0],[0,1],[1,0],[1,1]]]"


def view(*words: object) -> Tuple[int, str, str]:
    """Status, output and errors."""
    output, errors = io.StringIO(), io.StringIO()
    with contextlib.redirect_stdout(output), contextlib.redirect_stderr(errors):
        try:
            status = command.main([str(word) for word in words])
        except SystemExit as exit_:
            status = int(str(exit_.code))
    return status, output.getvalue(), errors.getvalue()


class OfText(unittest.TestCase):
    """Batches as a text."""

    def test_they_are_read_and_printed(self) -> None:
        for text in ("[]", "[[]]", _BOB_FIRST, _ANN_FIRST):
            self.assertEqual(text_of(parse_batches(text)), text)

    def test_what_is_none(self) -> None:
        for text in ("", "{}", "[0]", "[[0]]", "[[[0]]]", "[[[0,0,0]]]", "[[[0,-1]]]", "[[[0,true]]]", "[[[0,0.0]]]", "[" * 9999):
            with self.assertRaises(NotBatches, msg=text[:20]):
                parse_batches(text)


class OfARun(unittest.TestCase):
    """`--batches`."""

    def test_the_posts_are_taken_as_given_and_the_order_is_said(self) -> None:
        for batches, first in ((_BOB_FIRST, "bob"), (_ANN_FIRST, "ann")):
            status, output, errors = view("--text", "--batches", batches, _TWO_CALLERS)
            self.assertEqual((status, errors), (0, ""))
            self.assertIn(f"\nposts were taken in this order: --batches '{batches}'\n", output)
            self.assertIn(f"new #0 {first}", output)

    def test_a_run_is_shown_again_by_the_order_that_it_says(self) -> None:
        _, output, _ = view("--text", _TWO_CALLERS)
        order = output.partition("--batches '")[2].partition("'")[0]
        self.assertEqual(view("--text", "--batches", order, _TWO_CALLERS), (0, output, ""))

    def test_a_page_says_the_order(self) -> None:
        status, page, _ = view("-o", "-", "--batches", _BOB_FIRST, _TWO_CALLERS)
        self.assertEqual(status, 0)
        self.assertIn(f"<code>--batches &#x27;{_BOB_FIRST}&#x27;</code>", page)

    def test_a_script_without_callers_says_none(self) -> None:
        status, output, _ = view("--text", "--batches", "[[]]", TOP / "examples" / "retried.json")
        self.assertEqual((status, "--batches" in output), (0, False))

    def test_batches_that_are_no_order_are_refused(self) -> None:
        with tempfile.TemporaryDirectory() as folder:
            target = Path(folder) / "x.html"
            self.assertEqual(view("-o", target, "--batches", "[[]]", _TWO_CALLERS)[0], 5)
            self.assertFalse(target.exists())

    def test_words_that_do_not_go_together(self) -> None:
        for words in (
            ["--batches", "[[0]]", _TWO_CALLERS],
            ["--batches", "[[]]", _TWO_CALLERS, _TWO_CALLERS],
            ["--batches", "[[]]", "--batches", "[[]]", _TWO_CALLERS],
            ["--batches", "[[]]", "--journal", _TWO_CALLERS],
            ["--batches", "[[]]", "--compare", _TWO_CALLERS, _TWO_CALLERS],
        ):
            status, _, errors = view("--text", *words)
            self.assertEqual((status, errors.count("\n")), (64, 1), words)

    def test_a_run_as_json_with_other_batches_is_refused(self) -> None:
        with tempfile.TemporaryDirectory() as folder:
            told = Path(folder) / "told.jsonl"
            end = {"type": "end", "stopped": False, "weight": 0, "limit": 9, "batches": [[7]]}
            told.write_text('{"type":"start","version":1}\n' + json.dumps(end) + "\n", encoding="utf-8")
            self.assertEqual(view("--text", "--json", told)[0], 66)


class OfTwoRuns(unittest.TestCase):
    """A script in two orders beside each other."""

    def test_the_first_line_that_differs(self) -> None:
        status, output, _ = view(
            "--text", "--compare", _TWO_CALLERS, _TWO_CALLERS, "--batches", _BOB_FIRST, "--batches", _ANN_FIRST
        )
        self.assertEqual(status, 0)
        self.assertIn("\nline 3 is the first that differs; no outcome differs\n", output)
        differ = [line for line in output.splitlines() if line.split()[:2] in (["-", "3"], ["+", "3"])]
        self.assertEqual([line.split("3", 1)[1] for line in differ], [" │ post 1 0", ' note "drained"'])

    def test_only_a_script_has_batches(self) -> None:
        with tempfile.TemporaryDirectory() as folder:
            journal = Path(folder) / "a.journal"
            journal.write_text("new #0 d\n#0 d unfired\n", encoding="utf-8")
            words = ["--compare", journal, _TWO_CALLERS, "--batches", "[[]]", "--batches", _ANN_FIRST]
            status, _, errors = view("--text", *words)
            self.assertEqual((status, errors.count("\n")), (64, 1))


if __name__ == "__main__":
    unittest.main()
