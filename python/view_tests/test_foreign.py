"""Which rows tell of Twisted's own doing."""

from __future__ import annotations

import unittest
from typing import Dict, List

from deferreds.view.foreign import foreign_rows, is_library
from deferreds.view.places import Place, Places
from deferreds.view.run import run_of_journal

from .test_browser import InBrowser
from .test_services import run_of_service

_LINES = ["new #0 mine", "new #1 theirs", "later call c 5", "advance 5", "call c", "fire #1 ok 1", "run #1", "fire #0 ok 1", "set #1 ok 1", 'note "x"']


def found(deferreds: Dict[str, str]) -> List[int]:
    """The rows of Twisted's own, by the files in which Deferreds were made."""
    run = run_of_journal("".join(f"{line}\n" for line in _LINES), "t")
    run.places = Places({name: Place(file, 1) for name, file in deferreds.items()}, {})
    return foreign_rows(run, range(len(_LINES)))


class Foreign(unittest.TestCase):
    """Rows of a journal."""

    def test_files_of_libraries(self) -> None:
        for file, expected in (
            ("/srv/shop/ledger.py", False),
            ("/usr/lib/python3/dist-packages/twisted/internet/defer.py", True),
            ("/home/a/env/lib/python3.11/site-packages/twisted/web/http.py", True),
            ("/usr/lib/python3.11/asyncio/events.py", True),
            ("/usr/bin/twistd3", True),
            ("/srv/bin/serve.py", False),
            ("/home/a/lib/python_tools/x.py", False),
        ):
            self.assertEqual(is_library(Place(file, 1)), expected, file)
        self.assertTrue(is_library(None))

    def test_a_row_that_names_a_deferred_of_the_program_is_the_program_s(self) -> None:
        self.assertEqual(found({"mine": "/srv/a.py"}), [1, 2, 4, 5, 6, 8])
        self.assertEqual(found({"mine": "/srv/a.py", "theirs": "/usr/bin/twistd3"}), [1, 2, 4, 5, 6, 8])
        self.assertEqual(found({"mine": "/srv/a.py", "theirs": "/srv/b.py"}), [2, 4])

    def test_if_all_is_in_libraries_none_is_hidden(self) -> None:
        self.assertEqual(found({"mine": "/usr/lib/python3/dist-packages/a.py"}), [])
        self.assertEqual(found({}), [])

    def test_of_a_service_most_rows_are_the_program_s(self) -> None:
        run = run_of_service("ledger")
        rows = foreign_rows(run, range(len(run.fold.rows)))
        self.assertTrue(5 < len(rows) < len(run.fold.rows) // 10, len(rows))
        self.assertFalse([row for row in rows if run.fold.rows[row].entry.word in ("advance", "note", "unhandled")])


class Seen(InBrowser):
    """The page of a recorded service."""

    def test_they_are_hidden_until_they_are_asked_for(self) -> None:
        run = run_of_service("ledger")
        row = foreign_rows(run, range(len(run.fold.rows)))[0] + 1
        self.show(run)
        there = f"document.getElementById('r{row}') !== null"
        self.assertFalse(self.asked(there))
        note = "document.getElementById('folds')"
        self.assertIn("lines are of no file of the program. show them", self.asked(f"{note}.textContent"))
        self.asked(f"{note}.lastChild.click()")
        self.assertTrue(self.asked(there))
        self.asked(f"{note}.lastChild.click()")
        self.assertFalse(self.asked(there))
        self.show(run, f"#row={row}")
        self.assertTrue(self.asked(there))
        self.assertEqual(self.trouble(), [])

    def test_what_a_chosen_deferred_awaits_stays_bright(self) -> None:
        run = run_of_service("ledger")
        awaits = next(row for row in run.fold.rows if row.entry.word == "await")
        self.show(run, f"#row={awaits.place + 1}&f={awaits.entry.deferred}")
        bright = f"[...document.querySelectorAll('#r{awaits.place + 1}, .lane[data-d=\"{awaits.entry.other}\"]')].map(one => Number(getComputedStyle(one).opacity))"
        self.assertGreater(min(self.asked(bright)), 0.4)
        self.assertEqual(self.trouble(), [])


if __name__ == "__main__":
    unittest.main()
