"""Tests of the workloads: each is a script that the program accepts, at all sizes at which it is measured."""
from __future__ import annotations

import json
import sys
import unittest
from collections.abc import Iterator
from pathlib import Path

from measuring import HERE
from workloads import MOST_WEIGHT, WORKLOADS, Json, Script, Workload, nested_cancels, notes

sys.path.insert(0, str(HERE.parent / "python"))

from deferreds.twisted.script import Refused, read  # noqa: E402

#: the classes of the table that workloads use
CLASSES = ("Exception", "ValueError", "TypeError")
PAGE = HERE / "FIGURES.md"


def all_scripts() -> Iterator[tuple[Workload, int, Script]]:
    """Each workload at each of its sizes."""
    for workload in WORKLOADS:
        for size in workload.sizes(growing=True):
            yield workload, size, workload.make(size)


def rows_of(page: Path) -> dict[str, list[str]]:
    """The rows of a page's tables, by their first cell; one that comes twice is the first one."""
    rows: dict[str, list[str]] = {}
    for line in page.read_text().splitlines():
        if line.startswith("|"):
            cells = [cell.strip() for cell in line.strip("|").split("|")]
            rows.setdefault(cells[0], cells[1:])
    return rows


class Scripts(unittest.TestCase):
    """What the program is given."""

    def test_every_workload_is_accepted_at_all_its_sizes(self) -> None:
        for workload, size, script in all_scripts():
            with self.subTest(workload=workload.name, size=size):
                read(script.source, CLASSES)

    def test_the_reader_that_these_tests_ask_refuses_what_is_no_script(self) -> None:
        with self.assertRaises(Refused):
            read(Script([["callback", "d"]], entries=1).source, CLASSES)
        with self.assertRaises(Refused):
            read(notes(30_000).source, CLASSES)

    def test_journals_have_their_entries_within_the_limit(self) -> None:
        for workload, size, script in all_scripts():
            with self.subTest(workload=workload.name, size=size):
                self.assertTrue(0 < script.entries <= script.limit <= MOST_WEIGHT)
                self.assertEqual(script.stops, script.entries == script.limit)

    def test_a_journal_grows_as_its_workload_does(self) -> None:
        for workload in WORKLOADS:
            if not workload.is_full:
                with self.subTest(workload=workload.name):
                    least, twice, most = (workload.make(size).entries for size in workload.sizes(growing=True))
                    self.assertAlmostEqual(twice / least, 2, delta=0.01)
                    self.assertAlmostEqual(most / twice, 2, delta=0.01)

    def test_a_script_says_its_limit_and_its_keys(self) -> None:
        script = Script([["note", "ä"]], entries=1, limit=7, keys={"callers": [[{}]]})
        told: Json = {"version": 1, "limit": 7, "events": [["note", "ä"]], "callers": [[{}]]}
        self.assertEqual(json.loads(script.source), told)

    def test_a_journal_that_is_filled_ends_by_status_1(self) -> None:
        self.assertEqual(nested_cancels(10).status, 1)
        self.assertEqual(notes(10).status, 0)


class Workloads(unittest.TestCase):
    """What they are called, and where they are described."""

    def test_no_two_have_one_name(self) -> None:
        self.assertEqual(len({workload.name for workload in WORKLOADS}), len(WORKLOADS))

    def test_a_full_one_is_not_doubled(self) -> None:
        for workload in WORKLOADS:
            self.assertEqual(len(workload.sizes(growing=True)), 1 if workload.is_full else 3, workload.name)
            self.assertEqual(workload.sizes(growing=False), (workload.size,))

    def test_the_page_has_a_row_for_each(self) -> None:
        rows = rows_of(PAGE)
        for workload in WORKLOADS:
            with self.subTest(workload=workload.name):
                self.assertEqual(rows[workload.name][:2], [f"{workload.size:,}", workload.what])


if __name__ == "__main__":
    unittest.main()
