"""Functions that find an attribute under another name."""

from __future__ import annotations

import traceback
import unittest
from types import SimpleNamespace
from typing import Any

from deferreds.twisted.instruments.renaming import renamed


def moves(one: Any, other: Any) -> object:
    """Uses the attribute in each way."""
    one.result = other.result
    del other.result
    one.left = getattr(one, "result", None)
    return other.result


class Renamed(unittest.TestCase):
    """What `renamed` gives."""

    def test_an_attribute_is_read_and_set_under_two_names(self) -> None:
        one, other = SimpleNamespace(), SimpleNamespace(read=1)
        shown = ""
        try:
            renamed(moves, "result", "read", "written")(one, other)
        except AttributeError:
            shown = traceback.format_exc()
        self.assertEqual({"written": 1, "left": None}, vars(one))
        self.assertEqual({}, vars(other))
        self.assertIn("return other.result", shown)  # its lines stay those of the file
        self.assertIn("no attribute 'read'", shown)

    def test_a_function_without_the_attribute_is_refused(self) -> None:
        with self.assertRaisesRegex(AttributeError, "moves has no attribute results"):
            renamed(moves, "results", "read", "written")


if __name__ == "__main__":
    unittest.main()
