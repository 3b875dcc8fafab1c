"""Runs `./record` on the programs of python/data/programs, in a folder of the test's own."""

from __future__ import annotations

import hashlib
import json
import os
import shutil
import tempfile
import time
import unittest
from pathlib import Path
from typing import Any, Callable, Dict, List, NamedTuple

from deferreds.twisted.running import be_quiet, run

from .forked import Forked, environment

PROGRAMS = Path(__file__).resolve().parents[1] / "data" / "programs"

_COMMAND = ["-m", "deferreds.twisted", "record"]
_SECONDS = 60.0


class Ended(NamedTuple):
    """How a command ended, and what it has said."""

    status: int
    said: str
    printed: str


class RecordingCase(unittest.TestCase):
    """A folder, and what is recorded in it."""

    def setUp(self) -> None:
        room = tempfile.TemporaryDirectory()
        self.addCleanup(room.cleanup)
        be_quiet()
        self.folder = Path(room.name)

    def start(self, *words: str) -> Forked:
        """Starts the command with these words. A program is named by its file."""
        named = (str(PROGRAMS / word) if (PROGRAMS / word).is_file() else word for word in words)
        process = Forked([*_COMMAND, *named], self.folder, environment())
        self.addCleanup(process.close)
        return process

    def end(self, process: Forked) -> Ended:
        """Waits for the end of the command."""
        printed, said = process.communicate(timeout=_SECONDS)
        return Ended(process.wait(), said, printed)

    def record(self, *words: str) -> Ended:
        """Runs the command to its end."""
        return self.end(self.start(*words))

    def wait_for(self, is_so: Callable[[], object], what: str) -> None:
        """Waits until something is so."""
        until = time.monotonic() + _SECONDS
        while not is_so():
            if time.monotonic() > until:
                self.fail(f"waited in vain for {what}")
            time.sleep(0.02)

    def files(self) -> List[str]:
        """What stands in the folder."""
        return sorted(os.listdir(self.folder))

    def scripts(self) -> List[str]:
        """The names of the recordings that have a script."""
        return [name[: -len(".json")] for name in self.files() if name.endswith(".json") and not name.endswith(".places.json")]

    def text(self, name: str) -> str:
        """What a file of the folder holds."""
        return (self.folder / name).read_text(encoding="utf-8")

    def facts(self, name: str) -> Dict[str, Any]:
        """What the list of a recording's files says."""
        facts: Dict[str, Any] = json.loads(self.text(f"{name}.recording"))
        return facts

    def is_kept(self, name: str) -> bool:
        """Whether a recording is there, and whole: its list gets its name before the other files do."""
        try:
            digests: Dict[str, str] = self.facts(name)["files"]
            return all(hashlib.sha256((self.folder / file).read_bytes()).hexdigest() == digest for file, digest in digests.items())
        except OSError:
            return False

    def events(self, name: str) -> List[Any]:
        """The events of a script."""
        events: List[Any] = json.loads(self.text(f"{name}.json"))["events"]
        return events

    def assert_goes_together(self, name: str) -> None:
        """The script prints the journal that stands beside it."""
        self.assertEqual(run((self.folder / f"{name}.json").read_bytes()).output, self.text(f"{name}.journal"))

    def copied(self, name: str, to: str) -> Path:
        """A program as a file of the folder."""
        return Path(shutil.copy(PROGRAMS / name, self.folder / to))
