"""A recorded program prints and ends as the same program does without the recorder."""

from __future__ import annotations

import os
import re
import subprocess
import sys
import unittest
import zipfile
from pathlib import Path
from typing import List, NamedTuple, Sequence

from . import forked
from .recording_of import PROGRAMS, RecordingCase

AS_BARE = PROGRAMS / "as_bare"
RECORD = Path(__file__).resolve().parents[2] / "record"
#: the program that shows what Python has set for it
SHOWS_ITSELF = "shows_itself"

_COMMAND = ("-m", "deferreds.twisted", "record", "-o", "out")
_SAID = "record: "


class Ran(NamedTuple):
    """How a process has ended, and what it has printed, without addresses of objects and what the recorder says."""

    status: int
    printed: str
    errors: str


def ran(status: int, printed: str, errors: str) -> Ran:
    """How a process has ended."""
    own = "".join(line for line in errors.splitlines(True) if not line.startswith(_SAID))
    return Ran(status, *(re.sub("0x[0-9a-f]+", "0x", text) for text in (printed, own)))


def run(words: Sequence[str], folder: Path) -> Ran:
    """A command, which finds this Python."""
    environment = {**os.environ, "PYTHON": sys.executable}
    environment.pop("PYTHONDONTWRITEBYTECODE", None)
    process = subprocess.run(
        words, cwd=folder, env=environment, stdin=subprocess.DEVNULL, capture_output=True, text=True, check=False
    )
    return ran(process.returncode, process.stdout, process.stderr)


class AsBare(RecordingCase):
    """Each program."""

    def test_each_prints_and_ends_as_without_the_recorder(self) -> None:
        self.maxDiff = None
        for program in sorted(AS_BARE.glob("*.py")):
            if program.stem != SHOWS_ITSELF:
                with self.subTest(program.stem):
                    name = os.path.relpath(program, self.folder)
                    recorded = ran(*forked.run([*_COMMAND, name], self.folder, forked.environment()))
                    self.assertEqual(recorded, run([sys.executable, name], self.folder))

    def test_what_is_done_at_the_end_is_recorded(self) -> None:
        ended = self.record("as_bare/works_at_exit.py")
        self.assertIn("left out: 1 Deferred of other threads", ended.said)
        self.assertIn('note "at exit"', self.text("works_at_exit.journal"))
        self.assert_goes_together("works_at_exit")

    def test_a_run_is_kept_though_functions_of_python_are_replaced(self) -> None:
        self.record("as_bare/replaces_functions.py")
        self.assert_goes_together("replaces_functions")

    def test_what_python_sets_is_set(self) -> None:
        self.maxDiff = None
        text = (AS_BARE / f"{SHOWS_ITSELF}.py").read_text(encoding="utf-8")
        (self.folder / "package").mkdir()
        for name in ("shows.py", "package/__main__.py", "package/module.py"):
            (self.folder / name).write_text(text, encoding="utf-8")
        (self.folder / "package" / "__init__.py").touch()
        (self.folder / "linked.py").symlink_to("package/module.py")
        with zipfile.ZipFile(self.folder / "zipped", "w") as zipped:
            zipped.writestr("__main__.py", text)
        for words in (
            ["shows.py", "a", "-b"],
            ["package/../shows.py"],
            ["linked.py"],
            ["package"],
            ["zipped"],
            ["-m", "package.module", "x"],
            ["-m", "package"],
        ):
            with self.subTest(words):
                recorded = run([os.fspath(RECORD), "-o", "out", *words], self.folder)
                self.assertEqual(recorded.printed, run([sys.executable, *words], self.folder).printed)


if __name__ == "__main__":
    unittest.main()
