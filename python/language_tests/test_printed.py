"""What `./deferreds --language` prints, held against `language.json`."""

from __future__ import annotations

import json
import subprocess
import unittest

from deferreds.language import FILE
from deferreds.program import NotRun, built


class OfTheProgram(unittest.TestCase):
    """The output, byte for byte."""

    def test_it_is_the_file(self) -> None:
        try:
            program = built()
        except NotRun as why:
            self.skipTest(str(why))
        printed = subprocess.run([program, "--language"], stdout=subprocess.PIPE, check=True).stdout
        held = FILE.read_bytes()
        if printed != held:
            self._compare(json.loads(printed), json.loads(held))
        self.assertEqual(printed, held, "the same rows, otherwise written")

    def _compare(self, printed: object, held: object) -> None:
        """Names the first row that differs."""
        assert isinstance(printed, dict) and isinstance(held, dict)
        for key in sorted({*printed, *held}):
            rows, others = printed.get(key), held.get(key)
            if isinstance(rows, list) and isinstance(others, list):
                for row, other in zip(rows, others):
                    self.assertEqual(row, other, f"a row of {key}")
            self.assertEqual(rows, others, key)


if __name__ == "__main__":
    unittest.main()
