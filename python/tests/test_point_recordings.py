"""Points that are recorded, as `python/make_reference` does."""

from __future__ import annotations

import tempfile
import unittest
from pathlib import Path

from describing.point_recordings import record_all
from describing.points import Point

_WAITS = """
from twisted.internet.defer import Deferred

answer = Deferred()
answer.addCallback(print)
answer.callback("200 OK")
"""
_FAILS = "raise SystemExit(3)\n"


class OfPrograms(unittest.TestCase):
    """Programs that are recorded side by side."""

    def setUp(self) -> None:
        folder = tempfile.TemporaryDirectory()
        self.addCleanup(folder.cleanup)
        self.folder = Path(folder.name)

    def point(self, name: str, python: str) -> Point:
        program = self.folder / f"{name}.py"
        program.write_text(python, encoding="utf-8")
        return Point(program, "It waits", ["It does."], [], [], python)

    def test_each_has_its_script_and_its_journal_with_the_names_of_variables(self) -> None:
        points = [self.point(f"waits_{number}", _WAITS) for number in range(6)]
        found = record_all(points)
        self.assertEqual(set(found), {point.name for point in points})
        for recording in found.values():
            self.assertEqual(recording.status, 0, recording.said)
            self.assertTrue(recording.journal.startswith("new #0 answer\nadd #0\nfire #0 ok"), recording.journal)
            self.assertIn('["deferred","answer"]', recording.script)
            self.assertNotIn("limit", recording.script)

    def test_a_program_that_fails_has_its_status(self) -> None:
        point = self.point("fails", _FAILS)
        self.assertEqual(record_all([point])[point.name].status, 3)

    def test_nothing_is_left_in_the_folder(self) -> None:
        record_all([self.point("waits", _WAITS)])
        self.assertEqual([path.name for path in self.folder.iterdir()], ["waits.py"])
