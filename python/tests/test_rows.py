"""Reading files of rows."""

from __future__ import annotations

import tempfile
import unittest
from pathlib import Path

from deferreds.twisted.rows import Expected, filled, read_rows, written

ROWS = """== two lines
{"version":1,"events":[
 ["note","x"]]}
-- 0
*2 note "x"

== frames
:: [%]
:: {%}
one
two
-- 2 script refused: 2 NotJson
"""


class Rows(unittest.TestCase):
    """Rows as they are written."""

    def setUp(self) -> None:
        folder = tempfile.TemporaryDirectory()
        self.addCleanup(folder.cleanup)
        self.path = Path(folder.name) / "some.rows"

    def test_each_line_stands_in_each_frame(self) -> None:
        self.path.write_text(ROWS)
        rows = list(read_rows(self.path))
        self.assertEqual([row.script for row in rows[1:]], ["[one]", "[two]", "{one}", "{two}"])
        self.assertEqual(rows[0].output, 'note "x"\nnote "x"\n')
        self.assertEqual(
            {(row.status, row.errors) for row in rows[1:]}, {(2, "script refused: 2 NotJson\n")}
        )

    def test_a_line_stands_for_any_lines_or_none(self) -> None:
        expected = ["a", "b", "...", "z"]
        self.assertEqual(filled(expected, ["a", "b", "x", "y", "z"]), ["a", "b", "x", "y", "z"])
        self.assertEqual(filled(expected, ["a", "b", "z"]), ["a", "b", "z"])
        self.assertEqual(filled(expected, ["a", "x", "y", "z"]), ["a", "b", "y", "z"])
        self.assertEqual(filled(expected, ["a"]), ["a", "b", "z"])
        self.assertEqual(filled(["..."], []), [])

    def test_what_is_written_is_read_again(self) -> None:
        row = Expected("some.rows", "a row", '{"version":1}', 3, "", "")
        full = row._replace(name="another", output="x\ny\n", errors="why\n")
        self.path.write_text(written([row, full]))
        self.assertEqual(list(read_rows(self.path)), [row, full])


if __name__ == "__main__":
    unittest.main()
