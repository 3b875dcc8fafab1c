"""Tests of the measuring of pages, on commands that are quickly done."""
from __future__ import annotations

import sys
import tempfile
import unittest
from pathlib import Path

from measuring import NotMeasured
from pages import Run, seconds, times

_BUSY = "sum(range(3_000_000))"


class Pages(unittest.TestCase):
    """What is measured of a command."""

    def test_time_is_that_of_the_processes_that_a_command_starts_too(self) -> None:
        inside = [sys.executable, "-c", f"import subprocess, sys; subprocess.run([sys.executable, '-c', '{_BUSY}'], check=True)"]
        self.assertGreater(seconds(inside), seconds([sys.executable, "-c", _BUSY]) * 0.8)

    def test_a_command_that_waits_takes_no_time(self) -> None:
        self.assertLess(seconds(["/bin/sleep", "0.5"]), 0.2)

    def test_the_output_of_a_command_is_kept(self) -> None:
        with tempfile.TemporaryDirectory() as folder:
            output = Path(folder, "output")
            seconds(["/bin/echo", "kept"], output)
            self.assertEqual(output.read_text(encoding="utf-8"), "kept\n")

    def test_a_command_that_fails_isn_t_measured(self) -> None:
        with self.assertRaisesRegex(NotMeasured, "-c import sys; sys.exit.3.: status 3$"):
            seconds([sys.executable, "-c", "import sys; sys.exit(3)"])

    def test_the_least_time_of_each_command_counts(self) -> None:
        run = Run("a run", 1, {"one": ["/bin/true"], "other": [sys.executable, "-c", _BUSY]})
        least = times(run, 2)
        self.assertLess(least["one"], least["other"])


if __name__ == "__main__":
    unittest.main()
