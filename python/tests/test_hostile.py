"""Random programs whose values have finalizers that use Deferreds: each is recorded as it ran, or refused."""

from __future__ import annotations

import contextlib
import gc
import json
import unittest
from typing import Iterator, Optional

from deferreds.twisted.answers import compared
from deferreds.twisted.instruments import install
from deferreds.twisted.programs import Answer
from deferreds.twisted.randoms import Scripts
from deferreds.twisted.recording.recorder import Recorder
from deferreds.twisted.recording.saying import Said
from deferreds.twisted.running import be_quiet, run

from .hostile import Program
from .test_programs import ours

_SEED = 1
_SCRIPTS = 30


@contextlib.contextmanager
def without_collector() -> Iterator[None]:
    """Python's collector of garbage runs where this begins and where it ends, so that each run is the same."""
    gc.collect()
    gc.disable()
    try:
        yield
    finally:
        gc.enable()
        gc.collect()


def recorded(level: str, number: int) -> Said:
    """A random program, recorded."""
    script = json.loads(Scripts(_SEED, level).script(number))
    recorder = Recorder()
    with without_collector(), recorder.watching():
        Program(f"{_SEED} {number}").run(script["events"])
    return Said(recorder)


def difference(said: Said) -> Optional[object]:
    """The first line that `deferreds`, or else Twisted, prints otherwise, unless an entry of docs/TWISTED.md says so."""
    program = ours()
    answer = Answer(0, run(said.text.encode()).output, "") if program is None else program.answer(said.text)
    first = compared(answer, Answer(0, said.output, ""))
    if first is None or any(place < first[0] for place, _ in said.quirks):
        return None
    return first


class Hostile(unittest.TestCase):
    """Random programs of some levels."""

    def test_each_is_recorded_as_it_ran_or_refused(self) -> None:
        be_quiet()
        install()
        gc.collect()
        gc.freeze()  # what is there already isn't looked through again
        self.addCleanup(gc.collect)  # finalizers that run in another test would be recorded there
        self.addCleanup(gc.unfreeze)
        for level in ("core", "lists", "locks", "inline"):
            whole = 0
            for number in range(_SCRIPTS):
                with self.subTest(level=level, number=number):
                    said = recorded(level, number)
                    if said.problems:
                        self.assertTrue(all(problem.place for problem in said.problems))
                    whole += not said.problems
                    if said.script is not None:
                        self.assertIsNone(difference(said))
            self.assertGreater(whole, _SCRIPTS // 2)


if __name__ == "__main__":
    unittest.main()
