"""A test under the recorder, and the run of tests that it belongs to."""

from __future__ import annotations

import contextlib
from pathlib import Path
from typing import Iterator, List, Optional

from ..twisted.instruments import install
from ..twisted.recording.recorder import Recorder
from ..twisted.telling import KINDS, watched
from .folder import Folder, NotUsable
from .left import has_left_nothing, recording_of


class RecordedTest:
    """A test that runs. What it does is recorded while its recorder is on."""

    def __init__(self, name: str, kinds: frozenset[str]) -> None:
        self.name = name
        self.recorder = Recorder(kinds)
        self.failed = False
        #: the test case that it is, where it is one
        self.case: object = None

    @contextlib.contextmanager
    def on(self) -> Iterator[None]:
        """Records what happens inside."""
        with self.recorder.watching():
            yield

    @contextlib.contextmanager
    def off(self) -> Iterator[None]:
        """Records nothing of what happens inside."""
        before, watched.observer = watched.observer, None
        try:
            yield
        finally:
            watched.observer = before


#: the tests that run: one is inside another where a test runs tests of its own
_running: List[RecordedTest] = []


def running() -> Optional[RecordedTest]:
    """The test that runs and is recorded, if there is one."""
    return _running[-1] if _running else None


class RecordedTests:
    """A run of tests that leaves recordings in a folder."""

    def __init__(self, folder: Path, plain: str = "", is_first: bool = True) -> None:
        """`plain` names the kinds of objects that are recorded as the Python that they are made of, with commas between them.

        `is_first` is false for a further process of the same run. Raises NotUsable, and UnknownTwisted.
        """
        unknown = set(filter(None, plain.split(","))) - KINDS
        if unknown:
            raise NotUsable(f"there is no kind {', '.join(sorted(unknown))}; the kinds are {', '.join(sorted(KINDS))}")
        self._kinds = KINDS - set(plain.split(","))
        #: what was printed, and couldn't be written to the list
        self._unwritten: List[str] = []
        install()
        self._folder = Folder(folder)
        if is_first:
            self._folder.begin()

    def begin(self, name: str) -> RecordedTest:
        """A test begins. Its recorder isn't on yet."""
        test = RecordedTest(name, self._kinds)
        _running.append(test)
        return test

    def end(self, test: RecordedTest) -> None:
        """A test has ended: its recording is written if it failed or left something behind, and is named. Nothing is raised."""
        if test in _running:
            del _running[_running.index(test) :]
        recorder = test.recorder
        if not recorder.parts or (not test.failed and has_left_nothing(recorder)):
            return
        with test.off():
            self._keep(test)

    def _keep(self, test: RecordedTest) -> None:
        try:
            recording = recording_of(test.recorder, test.name)
        except Exception as error:  # whatever is wrong here, the test's result is its own
            self._tell("", f"{test.name}: isn't recorded, since {type(error).__name__} was raised: {error}")
            return
        if not (test.failed or recording.left):
            return
        name = self._folder.name(test.name)
        told = f"{test.name}: {recording.told(test.failed)}"
        try:
            self._folder.write(name, recording.files)
        except (OSError, ValueError) as error:
            why = getattr(error, "strerror", None) or error
            self._tell("", f"{told}; its recording can't be written: {why}")
        else:
            self._tell(name, f"{told}; {self._folder.path / name}.html")

    def _tell(self, name: str, said: str) -> None:
        try:
            self._folder.tell(name, said)
        except OSError:
            self._unwritten.append(said)

    def told(self) -> List[str]:
        """What was printed of the tests, a line each."""
        try:
            listed = [one.said for one in self._folder.listed()]
        except OSError as error:
            listed = [f"{error.filename} can't be read: {error.strerror}"]
        return listed + self._unwritten
