"""`pytest --shake N`: each test alone, N times, shaken by another seed each time.

Each run is a pytest of its own, in a process that is forked before the first module of the tests is imported. So the reactor is made where
it is perturbed.
"""

from __future__ import annotations

import os
import platform
from pathlib import Path
from typing import Any, Generator, List, NamedTuple, Sequence

import pytest
import twisted

from ..twisted.recording.agreeing import program as found_program
from ..twisted.recording.endings import Endings
from ..twisted.recording.files import NoPlace, Place
from ..twisted.recording.keeper import Keeper
from ..twisted.recording.keeping import Keeping
from ..twisted.recording.messages import Messages
from ..twisted.shaking.choices import Settings
from ..twisted.shaking.failing import STATUS
from ..twisted.shaking.log import Log
from ..twisted.shaking.runs import run
from ..twisted.shaking.search import Program, Search, Wanted
from ..twisted.shaking.shaker import CAME
from ..twisted.shaking.stopping import stopped_by_signals
from ..twisted.shaking.tally import Tally
from ..view.names import COMPARED, ORDERS_SCRIPT
from .folder import SUFFIXES, Folder, NotUsable, name_of
from .recorded import running

#: how many seconds a run of a test may take, if it isn't said, and the collection of all
SECONDS = 20.0
_SECONDS_TO_COLLECT = 600.0

_WHO = "pytest --shake"


class Shaking(NamedTuple):
    """The options: how many runs, by which settings from their seed on, how many seconds each may take, whether it is looked for what a failure needs, into which
    folder recordings go, and the words of pytest beside that."""

    times: int
    settings: Settings
    seconds: float
    cuts: bool
    folder: Path
    options: Sequence[str]
    tests: Sequence[str]


def shake(asked: Shaking) -> int:
    """Shakes each test. Gives 1 if one fails, and else 2 if one fails unshaken. Raises NotUsable, if none is found."""
    messages = Messages(_WHO)
    names = _collected(asked)
    tally = Tally()
    with stopped_by_signals():
        for name in names:
            messages.say(name)
            search = _search(asked, messages, name)
            tally.add(name, search.run(), search.met)
    messages.say(tally.said)
    return tally.status


class _Collector:
    """Notes the tests that pytest finds."""

    def __init__(self, log: Log) -> None:
        self._log = log

    def pytest_collection_finish(self, session: Any) -> None:
        """All tests are found."""
        for item in session.items:
            self._log.write(CAME, item.nodeid, "")


def _collected(asked: Shaking) -> List[str]:
    ended = run(lambda log: _run_pytest([*asked.options, "--collect-only", "-q", *asked.tests], _Collector(log)), _SECONDS_TO_COLLECT)
    if ended.status != 0:
        raise NotUsable(f"no tests are found:\n{ended.output.rstrip()}")
    return [name for name, _ in ended.came]


def _run_pytest(words: Sequence[str], *plugins: object) -> int:
    return int(pytest.main(["-p", "no:cacheprovider", *words], plugins=list(plugins)))


def _search(asked: Shaking, messages: Messages, name: str) -> Search:
    """The search that shakes a test."""
    words = [*asked.options, name]
    place = Place(os.fspath(asked.folder / name_of(name)))
    try:
        place.check([*SUFFIXES, COMPARED, ORDERS_SCRIPT])
    except NoPlace as why:
        raise NotUsable(str(why)) from None
    program = Program(lambda: _run_pytest(words), lambda room: _run_recorded(words, Path(room)))
    wanted = Wanted(asked.times, asked.settings, STATUS, asked.seconds, asked.cuts, looks_at_log=False, says_again=False)
    return Search(program, wanted, place, messages)


class _Kept:
    """Writes the recording of a test that hangs, when the search asks for it by a signal, and of one that passes."""

    def __init__(self, room: Path) -> None:
        self._room = room

    @pytest.hookimpl(hookwrapper=True)
    def pytest_runtest_protocol(self) -> Generator[None, Any, None]:
        """A test with its fixtures, which is being recorded by now."""
        test = running()
        if test is None:
            yield
            return
        keeping = Keeping(Place(os.fspath(self._room)), Messages(_WHO), True, found_program())
        keeper = Keeper(test.recorder, keeping)
        with Endings(keeper).watched():
            yield
            if not test.failed:
                with test.off():
                    keeper.keep("passed")


def _run_recorded(words: Sequence[str], room: Path) -> int:
    """Runs a test under the recorder, which leaves a recording of this name, also if the test hangs."""
    folder = room.with_name("tests")
    status = _run_pytest(["--deferreds-record", os.fspath(folder), *words], _Kept(room))
    for one in Folder(folder).listed():
        paths = {suffix: folder / f"{one.name}{suffix}" for suffix in SUFFIXES}
        files = {suffix: path.read_text(encoding="utf-8") for suffix, path in paths.items() if path.is_file()}
        facts = {"twisted": str(twisted.__version__), "python": platform.python_version(), "ended": "failed" if status else "passed", "said": one.said}
        Place(os.fspath(room)).write(files, facts)
    return status
