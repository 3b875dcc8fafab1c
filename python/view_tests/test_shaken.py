"""What the page of a run that was shaken says of that."""

from __future__ import annotations

import json
import unittest
from typing import Any, Dict

from deferreds.view.as_json import AsJson
from deferreds.view.findings import Severity
from deferreds.view.phrases import OfPlace, OfScript
from deferreds.view.places import Place, Places
from deferreds.view.recordings import Recorded, read_recorded
from deferreds.view.run import Run, run_of_journal
from deferreds.view.shaken import read_shaken, with_places

from .test_report import journal, report_of

_KEY = "start cache.py:7#2 1"
_SHAKEN: Dict[str, Any] = {
    "seed": 4,
    "perturbations": {_KEY: "the thread slept for 9 ms before job 2 of cache.py:7 (save) began"},
    "of": 12,
    "needs": "it fails if the result of job 2 of cache.py:7 (save) comes after delayed call 1 made at cache.py:9, and so on",
    "again": f"--seed 4 --only '{_KEY}'",
}
#: two jobs of one line, of which the second comes first, and one of another line
_JOBS = ["new #0 a_7", "job 0 #0", "new #1 b_8", "job 1 #1", "new #2 a_7_2", "job 2 #2", "fire #2 ok 1", "fire #0 ok 2", "fire #1 ok 3"]
_PLACES = Places({"a_7": Place("/srv/cache.py", 7), "b_8": Place("/srv/cache.py", 8), "a_7_2": Place("/srv/cache.py", 7)}, {"/events/3": Place("/srv/cache.py", 9)})


def shaken_run(**changed: object) -> Run:
    """A run that was shaken so, but for what is changed."""
    run = run_of_journal(journal(*_JOBS), "test")
    run.places, run.tick, run.shaken = _PLACES, "1 ms", json.dumps({**_SHAKEN, **changed})
    return run


class RowTest(unittest.TestCase):
    """The row of the report."""

    def test_what_a_failure_takes_is_the_first_row(self) -> None:
        self.assertEqual(
            report_of(shaken_run())[0],
            f"shaken {_SHAKEN['needs']} (line 7) | the thread slept for 9 ms before job 2 of cache.py:7 (save) began"
            f" | seed 4; 1 of 12 perturbations is needed | again: --seed 4 --only '{_KEY}'",
        )
        self.assertIs(shaken_run().report.findings[0].severity, Severity.BAD)

    def test_the_row_links_the_result_that_was_moved(self) -> None:
        rows = [("job cache.py:7#1 1", 7), ("start cache.py:8#1 1", 8), ("job cache.py:7#3 1", None), ("hold Client@cache.py:7#1.r 1", None), ("start x#1 1", None)]
        for key, row in rows:
            self.assertEqual(shaken_run(perturbations={key: "x"}).report.findings[0].row, row, key)

    def test_several_are_told_and_the_rest_is_counted(self) -> None:
        run = shaken_run(perturbations={f"hold c{number}.r 1": f"read {number}" for number in range(7)}, again="")
        self.assertEqual(report_of(run)[0].split(" | ")[1:], [f"read {number}" for number in range(5)] + ["and 2 more", "seed 4; 7 of 12 perturbations are needed"])

    def test_without_a_cause_it_is_a_note(self) -> None:
        run = shaken_run(needs="")
        self.assertEqual(report_of(run)[0].split(" | ")[0], "shaken it was shaken by seed 4, and met 12 perturbations")
        self.assertTrue(run.report.leaves_nothing)

    def test_lines_of_the_program_are_references(self) -> None:
        places = Places({}, {"/events/0": Place("/a/x.py", 3), "/events/1": Place("/b/x.py", 3), "/events/2": Place("/a/y.py", 1)})
        self.assertEqual(with_places("at y.py:1, and x.py:3", places), (OfScript("at "), OfPlace(Place("/a/y.py", 1)), OfScript(", and x.py:3")))
        self.assertEqual(with_places("", places), ())

    def test_what_cannot_be_read_is_no_row(self) -> None:
        wrong = ("", "{", "[]", "{}", json.dumps({**_SHAKEN, "seed": "x"}), json.dumps({**_SHAKEN, "needs": 3}), json.dumps({**_SHAKEN, "perturbations": {"a": 1}}))
        self.assertEqual([read_shaken(text) for text in wrong], [None] * len(wrong))

    def test_other_programs_read_it(self) -> None:
        row = json.loads(AsJson(shaken_run()).text())["report"][0]
        self.assertEqual((row["severity"], row["kind"], row["said"], row["line"]), ("bad", "shaken", _SHAKEN["needs"], 7))
        self.assertIn({"file": "/srv/cache.py", "line": 9}, row["places"])


class RecordedTest(unittest.TestCase):
    """What the list of a recording says."""

    def test_it_is_read_of_files_that_are_listed(self) -> None:
        listed = {"tick": "1 ms", "shaken": _SHAKEN, "files": {"a.json": "0"}}
        self.assertEqual(read_recorded(json.dumps(listed), "a.json"), Recorded("1 ms", json.dumps(_SHAKEN)))
        self.assertEqual(read_recorded(json.dumps(listed), "b.json"), Recorded())
        for wrong in ([], "x", 5):
            self.assertEqual(read_recorded(json.dumps({**listed, "shaken": wrong}), "a.json"), Recorded("1 ms"))


if __name__ == "__main__":
    unittest.main()
