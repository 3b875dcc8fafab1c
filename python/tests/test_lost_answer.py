"""The examples of a recorded service: each records as the run that stands beside it, but for its times."""

from __future__ import annotations

import json
import re
import unittest
from pathlib import Path
from typing import Any, Dict, List, Tuple

from deferreds.checkout import TOP
from deferreds.view.compared import Compared
from deferreds.view.inputs import read_any

from .recording_of import RecordingCase

_EXAMPLES = TOP / "examples" / "python"


def _notes(path: Path) -> List[str]:
    """What the program printed."""
    return [line for line in path.read_text(encoding="utf-8").splitlines() if line.startswith("note ")]


def _places(path: Path) -> List[Tuple[str, Any]]:
    """Where each Deferred was made, by its name without the line: one of Twisted's functions stands elsewhere in another version."""
    places: Dict[str, Any] = json.loads(path.read_text(encoding="utf-8"))["deferreds"]
    return sorted((re.sub(r"_\d+$", "", name), place) for name, place in places.items())


class LostAnswer(RecordingCase):
    """A client that loses an answer, and its mended form, on the real reactor."""

    def test_each_loses_and_gets_what_its_recording_does(self) -> None:
        for name in ("lost_answer", "lost_answer_mended"):
            ended = self.record("-o", name, str(_EXAMPLES / f"{name}.py"))
            self.assertEqual(ended.status, 0, ended.said)
            self.assertEqual(_notes(self.folder / f"{name}.journal"), _notes(_EXAMPLES / f"{name}.journal"))
            compared = Compared(*(read_any(str(folder / f"{name}.json")) for folder in (self.folder, _EXAMPLES)))
            self.assertEqual(compared.outcomes, [])
            swallowed = [[row.entry.line for row in side.run.fold.rows if row.entry.word == "swallow"] for side in (compared.first, compared.second)]
            self.assertEqual(swallowed, [["swallow #7"], ["swallow #7"]])
            self.assertEqual(*(_places(folder / f"{name}.places.json") for folder in (self.folder, _EXAMPLES)))


if __name__ == "__main__":
    unittest.main()
