"""A script has one clock: of a program that has several, the first has its times, and a line says that the others haven't."""

from __future__ import annotations

import unittest

from .recording_of import RecordingCase


class ClocksTest(RecordingCase):
    """Programs with several clocks."""

    def test_a_line_names_where_a_further_clock_was_first_used(self) -> None:
        ended = self.record("clocks.py")
        self.assertEqual((ended.status, ended.printed), (0, "called\nTimeoutError\nTimeoutError\n"))
        self.assertRegex(ended.said, r"no times for 1 further clock \(\S*clocks\.py:8\): its calls are recorded as events\n")
        self.assert_goes_together("clocks")

    def test_a_single_clock_needs_no_line(self) -> None:
        self.assertNotIn("further clock", self.record("as_bare/works_at_exit.py").said)


if __name__ == "__main__":
    unittest.main()
