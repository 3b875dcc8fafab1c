"""Runs `./record --shake` on the programs of python/data/shaken, in a folder of the test's own."""

from __future__ import annotations

from typing import Any, Dict, List

from deferreds.view.inputs import read_any
from deferreds.view.terminal import Terminal

from .forked import Forked
from .recording_of import Ended, RecordingCase
from .test_shaken_programs import SECONDS, SHAKEN


class ShakenCase(RecordingCase):
    """A folder, and what is shaken there."""

    def end(self, process: Forked) -> Ended:
        """Waits for the end of a search."""
        printed, said = process.communicate(timeout=SECONDS)
        return Ended(process.wait(), said, printed)

    def shake(self, *words: str) -> Ended:
        """A search to its end."""
        return self.record(*words[:-1], str(SHAKEN / words[-1]))

    def scripts(self) -> List[str]:
        """The names of the scripts of runs. Those of every order stand beside some of them."""
        return [name for name in super().scripts() if not name.endswith(".orders")]

    def copied_of_races(self, name: str) -> str:
        """The text of a program with a race."""
        return (SHAKEN / "races" / f"{name}.py").read_text(encoding="utf-8")

    def shaken_facts(self, name: str) -> Dict[str, Any]:
        """What the list of the files says of how the run was shaken."""
        facts: Dict[str, Any] = self.facts(name)["shaken"]
        return facts

    def report(self, name: str) -> List[str]:
        """The report that the view makes of a recording."""
        return list(Terminal(read_any(str(self.folder / f"{name}.journal")), False).report())
