"""The page of a recorded run is the one that `./view` makes of its script."""

from __future__ import annotations

import contextlib
import io
import textwrap
import unittest
from typing import Any, Dict, List, Optional
from unittest import mock

from deferreds.twisted.commands import record
from deferreds.twisted.recording import keeping
from deferreds.view import command
from deferreds.view.inputs import Inputs
from deferreds.view.run import Run, run_of
from deferreds.view.sources import Source

from .recording_of import RecordingCase

_PROGRAMS = {
    "lists": """
        from twisted.internet.defer import Deferred, DeferredList, gatherResults
        from twisted.internet import reactor

        children = [Deferred() for _ in range(3)]
        every = DeferredList(children)
        other = gatherResults([Deferred(), children[2]])
        reactor.callLater(0.01, children[0].callback, {"a": 1})
        reactor.callLater(0.02, reactor.stop)
        reactor.run()
        """,
    "chains": """
        from twisted.internet.defer import Deferred, DeferredLock

        first, second = Deferred(), Deferred()
        first.chainDeferred(second)
        for _ in range(2):
            lock = DeferredLock()
            lock.acquire()
            lock.acquire()
        """,
}


def _folded(run: Run) -> List[Any]:
    """What a run is, as far as a page shows it."""
    records = [[record.names, record.end, record.made, record.waits, record.awaits, record.spans] for record in run.fold.records.values()]
    rows = [[row.entry.line, row.event, row.inside, row.depth, row.cause] for row in run.fold.rows]
    return [run.title, run.tick, run.counts, run.limits, run.problems, run.finish, records, rows, run.left, run.report.findings]


class PageOfRecording(RecordingCase):
    """Both pages of programs whose journals don't say all."""

    def recorded(self, name: str) -> None:
        """Records a program, with its page."""
        (self.folder / f"{name}.py").write_text(textwrap.dedent(_PROGRAMS[name]), encoding="utf-8")
        ended = self.record("-o", name, "--view", str(self.folder / f"{name}.py"))
        self.assertEqual(ended.status, 0, ended.said)
        self.assertIn("prints the same, line for line", ended.said)

    def viewed(self, name: str) -> str:
        """The page that the view makes of its script."""
        with contextlib.redirect_stderr(io.StringIO()):
            self.assertEqual(command.main(["-o", str(self.folder / "other.html"), str(self.folder / f"{name}.json")]), 0)
        return self.text("other.html")

    def test_they_are_the_same(self) -> None:
        for name in _PROGRAMS:
            with self.subTest(name):
                self.recorded(name)
                self.assertEqual(self.text(f"{name}.html"), self.viewed(name))

    def test_the_folds_are_the_same_and_that_of_the_journal_alone_isn_t(self) -> None:
        for name in _PROGRAMS:
            with self.subTest(name):
                self.recorded(name)
                found = self.run_of_page(name)
                viewed = Inputs(str(self.folder / f"{name}.json")).run()
                self.assertEqual(_folded(found), _folded(viewed))
                source = Source(viewed.title, True, self.text(f"{name}.json"), self.text(f"{name}.places.json"), viewed.tick, False)
                self.assertNotEqual(run_of(source, self.text(f"{name}.journal")).left, viewed.left)

    def run_of_page(self, name: str) -> Run:
        """The run of which the recorder makes the page, recorded again by the same notes."""
        self.record("-o", name, "-f", "--keep-notes", "--notes", str(self.folder / f"{name}.py"))
        runs: Dict[str, Run] = {}

        def kept(run: Run) -> str:
            runs[run.title] = run
            return "<html>"

        with mock.patch.object(keeping, "written_page", kept), contextlib.redirect_stderr(io.StringIO()):
            self.assertEqual(record.main(["--from", str(self.folder / f"{name}.notes"), "-f", "--view"]), 0)
        return runs[f"{name}.json"]


if __name__ == "__main__":
    unittest.main()
