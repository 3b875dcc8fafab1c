"""The points of docs/reference: their form, the names of their runs, and what is a problem. The stage `reference` records them."""

from __future__ import annotations

import tempfile
import unittest
from pathlib import Path
from typing import Any, Dict

from describing.point_names import assigned, names, renamed, wanted_name
from describing.point_pages import Runs, anchor, other_lines, pages, point_parts
from describing.point_recordings import Recording, laid_out
from describing.points import FOLDER, BadPoint, Point, point_of, subject_of, subjects
from describing.reference import first_difference, missing_outcome, problem_of, stale, without_times

_MOST_WORDS = 40


class OfTheRepository(unittest.TestCase):
    """The points that are in the repository."""

    def test_headings_of_a_page_differ(self) -> None:
        for subject in subjects():
            anchors = [anchor(point.title) for point in subject.points]
            self.assertEqual(len(anchors), len({*anchors}), subject.name)

    def test_each_point_says_what_to_look_at(self) -> None:
        for subject in subjects():
            for point in subject.points:
                self.assertEqual(len(point.look), 1, point.name)

    def test_entries_are_those_of_the_page_of_twisted(self) -> None:
        page = FOLDER.with_name("TWISTED.md").read_text(encoding="utf-8")
        for subject in subjects():
            for point in subject.points:
                for entry in point.leaves:
                    self.assertIn(f"\n| `{entry}` |", page, point.name)

    def test_sentences_are_short(self) -> None:
        for subject in subjects():
            texts = [subject.text, *(text for point in subject.points for text in [point.title, *point.says, *point.look])]
            for text in texts:
                for sentence in text.replace("\n", " ").split(". "):
                    self.assertLessEqual(len(sentence.split()), _MOST_WORDS, sentence)
                    self.assertFalse(sentence.startswith("Of "), sentence)


class OfASmallFolder(unittest.TestCase):
    """Points that are written for a test."""

    def setUp(self) -> None:
        folder = tempfile.TemporaryDirectory()
        self.addCleanup(folder.cleanup)
        self.folder = Path(folder.name) / "waits"
        self.folder.mkdir()
        self.add("SUBJECT.txt", "# Waits\n\nWho waits.\n\n- one\n")
        self.add("one.py", '"""It waits.\n\nIt does.\n\nLook at it.\n\nLeaves Twisted: a-b, c\n"""\n\nimport os\n')

    def add(self, name: str, text: str) -> Path:
        path = self.folder / name
        path.write_text(text, encoding="utf-8")
        return path

    def test_a_subject_has_its_points(self) -> None:
        subject = subject_of(self.folder)
        self.assertEqual((subject.name, subject.title, subject.text), ("waits", "Waits", "Who waits."))
        self.assertEqual([point.title for point in subject.points], ["It waits"])

    def test_a_point_is_its_docstring_and_its_program(self) -> None:
        point = point_of(self.folder / "one.py")
        self.assertEqual((point.says, point.look, point.leaves), (["It does."], ["Look at it."], ["a-b", "c"]))
        self.assertEqual(point.python, "import os\n")
        self.assertFalse(point.has_threads)

    def test_a_program_with_threads_needs_a_real_reactor(self) -> None:
        self.assertTrue(point_of(self.add("two.py", '"""It waits.\n\nIt does.\n"""\nfrom threading import Thread\n')).has_threads)

    def test_a_program_that_isnt_listed_is_named(self) -> None:
        self.add("two.py", "")
        with self.assertRaisesRegex(BadPoint, "two has to be there"):
            subject_of(self.folder)

    def test_a_listed_program_that_isnt_there_is_named(self) -> None:
        (self.folder / "one.py").unlink()
        with self.assertRaisesRegex(BadPoint, "one has to be there"):
            subject_of(self.folder)

    def test_a_point_listed_twice_is_named(self) -> None:
        self.add("SUBJECT.txt", "# Waits\n\n- one\n- one\n")
        with self.assertRaisesRegex(BadPoint, "listed once"):
            subject_of(self.folder)

    def test_docstrings_out_of_form_are_named(self) -> None:
        for text in ("import os\n", '"""It waits."""\n', '"""It waits\n\nIt does.\n"""\n'):
            with self.subTest(text=text), self.assertRaises(BadPoint):
                point_of(self.add("one.py", text))

    def test_a_page_that_isnt_what_is_made_is_named_or_written(self) -> None:
        path = self.add("page.md", "old\n")
        self.assertRegex(stale({path: "new\n"}, False)[0], "line 1 is 'old', not 'new'")
        self.assertEqual(stale({path: "new\n"}, True), [])
        self.assertEqual(path.read_text(encoding="utf-8"), "new\n")
        self.assertEqual(stale({path: "new\n"}, False), [])


class OfNames(unittest.TestCase):
    """Names by variables."""

    def test_a_name_is_the_variable_of_its_line(self) -> None:
        lines = assigned("a = f()\ndef g():\n    b = (1,\n        2)\nclock.callLater(3, a.callback)\nclock.callLater(3, print)\n")
        self.assertEqual(lines, {1: "a", 3: "b", 4: "b", 5: "a_callback", 6: "print"})

    def test_wanted_names(self) -> None:
        lines = {3: "answer"}
        for name, made_at, wanted in (
            ("line_3", None, "answer"), ("line_3_2", None, "answer"), ("line_4", None, None), ("fetch_4", None, "fetch"),
            ("call_line_4", None, "call"), ("call_line_3", None, "answer"), ("lock_line_9", 3, "answer"), ("loop_line_3", None, "loop"),
            ("pool_line_3", None, "pool"), ("task_line_3", None, "answer"), ("task_line_4", None, "task"), ("own", None, None),
        ):
            self.assertEqual(wanted_name(name, lines, made_at), wanted, name)

    def test_two_things_of_one_variable_have_numbers(self) -> None:
        script: Dict[str, Any] = {"pools": [["pool_line_2", 1]]}
        journal = 'lock lock_line_2\nnew #0 line_1\nlater call call_line_1 5\nnew #1 line_1_2\nnew #2 -\nnote "new #3 line_1"\n'
        found = names("a = b()\nc = d()\n", script, journal, {"lock_line_2": 2})
        self.assertEqual(found, {"pool_line_2": "pool", "lock_line_2": "c", "line_1": "a", "call_line_1": "a_2", "line_1_2": "a_3"})

    def test_only_whole_names_are_renamed(self) -> None:
        self.assertEqual(renamed('["line_1","line_12","aline_1"]', {"line_1": "a", "line_12": "b"}), '["a","b","aline_1"]')
        self.assertEqual(renamed("line_1", {}), "line_1")


class OfRuns(unittest.TestCase):
    """What is a problem."""

    def point(self, *leaves: str) -> Point:
        return Point(FOLDER / "points" / "a" / "b.py", "It waits", ["It does."], [], list(leaves), "")

    def test_the_script_has_to_print_the_journal_of_the_program(self) -> None:
        recording = Recording(0, "", "{}", "new #0 a\n#0 a unfired\n")
        self.assertIsNone(problem_of(self.point(), recording, Runs(recording.journal, "")))
        self.assertRegex(str(problem_of(self.point(), recording, Runs("new #0 a\n", ""))), "line 2 is 'nothing', not '#0 a unfired'")

    def test_a_program_that_isnt_recorded_is_a_problem(self) -> None:
        for recording in (Recording(65, "record: refused\n", "{}", "x\n"), Recording(0, "record: refused\n", "", "x\n")):
            self.assertRegex(str(problem_of(self.point(), recording, Runs("x\n", ""))), "record: refused$")

    def test_an_entry_that_a_run_reaches_is_named_and_twisteds_lines_are_kept(self) -> None:
        with tempfile.TemporaryDirectory() as folder:
            program = Path(folder) / "b.py"
            recording = Recording(0, "record: Twisted does here what docs/TWISTED.md says of a-b\n", "{}", "x\nz\n")
            point, runs = self.point()._replace(program=program), Runs("x\ny\n", "")
            self.assertRegex(str(problem_of(point, recording, runs)), "reaches a-b, which its docstring doesn't name")
            point = point._replace(leaves=["a-b"])
            self.assertIsNone(problem_of(point, recording, Runs(recording.journal, "")))
            self.assertRegex(str(problem_of(point, recording, runs)), "b.twisted.journal isn't there")
            point.twisted.write_text("x\nz\n", encoding="utf-8")
            point.script.write_text("{ }", encoding="utf-8")
            self.assertRegex(str(problem_of(point, recording, runs)), "b.json isn't the recorded script")
            point.script.write_text("{}", encoding="utf-8")
            self.assertIsNone(problem_of(point, recording, runs))
            self.assertRegex(str(problem_of(point, recording._replace(journal="x\n"), runs)), "line 2 is 'nothing', not 'z'")
            self.assertRegex(str(problem_of(point, recording._replace(said="", journal="x\ny\n"), runs)), "does what the script does")

    def test_the_page_has_twisteds_lines_from_the_first_that_differs(self) -> None:
        self.assertEqual(other_lines("a\nb\nc\n", "a\nd\nc\n"), "d\nc")
        self.assertEqual(other_lines("a\n", "a\nb\n"), "b")

    def test_times_of_jobs_are_the_scripts_own_only_where_an_entry_says_so(self) -> None:
        recording, runs = Recording(0, "", "{}", "later job 0 7\nadvance 7\n"), Runs("later job 0 2\nadvance 2\n", "")
        self.assertIsNotNone(problem_of(self.point(), recording, runs))
        self.assertIsNone(problem_of(self.point("results-at-their-times"), recording, runs))

    def test_no_other_times_are_left_out(self) -> None:
        journal = "later job 0 7\nlater call c 7\nadvance 7\n"
        self.assertEqual(without_times(journal), "later job 0\nlater call c 7\nadvance\n")

    def test_a_program_has_to_end_as_some_order_does(self) -> None:
        orders = '2 orders\na 1 ok "x" in 1 order, first [[[0,0]]]\na 1 fail CancelledError "" in 1 order, first [[[1,0]]]\n'
        self.assertIsNone(missing_outcome('#0 a ok "x"\n', orders))
        self.assertIsNone(missing_outcome('#0 a fail CancelledError ""\n', orders))
        self.assertEqual(missing_outcome('#0 a ok "xy"\n', orders), 'a ok "xy"')
        self.assertEqual(missing_outcome("#0 a unfired\n", orders), "a unfired")
        recording = Recording(0, "", "{}", "#0 a unfired\n")
        self.assertRegex(str(problem_of(self.point(), recording, Runs(recording.journal, orders))), "no order does")

    def test_differences(self) -> None:
        self.assertIsNone(first_difference("a\n", "a\n"))
        self.assertEqual(first_difference("a\nb\n", "a\n"), "line 2 is 'nothing', not 'b'")


class OfPages(unittest.TestCase):
    """What stands on a page."""

    def test_anchors(self) -> None:
        self.assertEqual(anchor("`addBoth` runs in any case, as `finally` does"), "addboth-runs-in-any-case-as-finally-does")

    def test_a_point_has_its_program_and_its_run_in_order(self) -> None:
        point = subjects()[0].points[0]
        parts = point_parts(point, Runs("new #0 a\n", "1 order\n")) if point.orders.is_file() else point_parts(point, Runs("new #0 a\n", ""))
        program = next(place for place, part in enumerate(parts) if part.startswith("```python"))
        run = next(place for place, part in enumerate(parts) if part == "```\nnew #0 a\n```")
        self.assertEqual(parts[0], f"## {point.title}")
        self.assertLess(program, run)
        self.assertEqual(parts[run + 1 :], point.look)

    def test_each_subject_has_a_page_and_each_point_a_line(self) -> None:
        listed = subjects()
        made = pages(listed, {point.name: Runs("", "") for subject in listed for point in subject.points})
        first = made[FOLDER / "README.md"]
        for subject in listed:
            self.assertIn(FOLDER / f"{subject.name}.md", made)
            for point in subject.points:
                self.assertIn(f"- [{point.title}]({subject.name}.md#{anchor(point.title)})", first)

    def test_a_long_script_is_broken_into_lines_and_stays_the_same(self) -> None:
        import json

        script = {"version": 1, "events": [["inline", "a", [["await", "b"]] * 20], ["note", "x" * 200], ["callback", "b", []]]}
        text = laid_out(script)
        self.assertEqual(json.loads(text), script)
        self.assertIn('\n  ["callback","b",[]]]}', text)
        self.assertGreater(len(text.splitlines()), 5)
