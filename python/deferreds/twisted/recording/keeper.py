"""Keeps the run of a program however its process ends: the one place where endings, forks and the recorder meet."""

from __future__ import annotations

import contextlib
import os
import select
import warnings
from types import FrameType
from typing import Callable, List, Optional, Tuple

from ..instruments.pace import Pace
from ..telling import Observer
from .elsewhere import end_elsewhere, is_elsewhere, pause_elsewhere
from .endings import signals_waiting
from .keeping import Keeping, Status
from .last import LastRecorder
from .messages import file_of
from .noted import noted
from .notes import NOTES, NotesFile
from .noting import NotedRecorder
from .originals import Originals
from .recorder import Recorder, growth
from .room import Reserve, memory_left
from .saying import Said

#: the code that logs lines, of an event that isn't noted yet
_TELLING = {
    getattr(cls, name).__code__
    for cls in (Observer, Recorder, LastRecorder, Pace)
    for name in ("tell", "tell_unhandled", "adopt", "_adopt", "_note", "run", "event")
    if hasattr(cls, name)
}

_exit = os._exit

#: how many seconds a copy that writes is waited for
_MOST_SECONDS = 60.0

#: after how many more parts of lines the memory that is left is looked at, and how many bytes it takes to write one part, and a run
_EACH_PARTS = 1 << 15
_BYTES_OF_PART = 320
_BYTES_OF_RUN = 32 << 20

#: how many bytes of memory it takes to make the recording of a byte of notes
_BYTES_OF_NOTE = 16

_SHORT = "memory is short"
_ASKED = "asked by SIGUSR1"


def _forked() -> int:
    """`os.fork`, also where Python warns of that, since other threads run."""
    with warnings.catch_warnings():
        warnings.simplefilter("ignore", DeprecationWarning)
        return os.fork()


class Keeper:
    """Keeps what a recorder has of this process; a forked child keeps only what it has itself done, too."""

    def __init__(
        self, recorder: Recorder, keeping: Keeping, before: Optional[Keeping] = None, notes: Optional[NotesFile] = None, keeps_notes: bool = False
    ) -> None:
        """`before`: where the recording of one that the recorder has taken over from is kept. `notes`: where those of a recorder are written
        that makes some, and `keeps_notes` whether they stay when the recording is written."""
        self._recorder = recorder
        self._keeping = keeping
        self._before = before
        self._notes = notes
        self._keeps_notes = keeps_notes
        self._originals = Originals()
        self._is_busy = False
        self._is_snapshot = False
        #: of each copy that writes the run so far a pipe, which is at its end when that has written, and which file it is
        self._writers: List[Tuple[int, object]] = []
        #: the recorder when this process was forked, and how many parts of lines it had told
        self._forked_at: Optional[Tuple[Recorder, int]] = None
        self._reserve = Reserve()
        #: the result of the recording, once it has ended before the program
        self._ended_early: Optional[Status] = None
        self.take_over(recorder)

    def take_over(self, recorder: Recorder) -> None:
        """From here on this one records."""
        self._recorder = recorder
        if isinstance(recorder, NotedRecorder) and self._notes is not None:
            recorder.noting.begin(self._notes, self._stop_noting)
        else:
            growth.look, growth.looks_at = self._look, _EACH_PARTS

    def _stop_noting(self, why: str) -> None:
        """No more notes can be made: the recording ends before the program."""
        self._keeping.messages.say(f"the program goes on, and the recording ends here: {why}")
        with signals_waiting():
            self._recorder.stop()

    def _look(self, recorder: Recorder) -> None:
        """Ends the recording before the program, if what memory is left is only enough to write it."""
        if recorder is self._recorder and not recorder.is_between_events():
            return
        growth.looks_at = len(recorder.parts) + _EACH_PARTS
        if recorder is not self._recorder:
            return
        left = memory_left()
        if left is None or left > len(recorder.parts) * _BYTES_OF_PART + _BYTES_OF_RUN:
            return
        self._keeping.messages.say(f"{_SHORT}: the program goes on, and the recording ends here. --last N records the last events alone")
        with signals_waiting():
            self._ended_early = self.keep(_SHORT)
            recorder.stop()

    @property
    def is_idle_child(self) -> bool:
        """Whether this is a forked child in which nothing was recorded."""
        return self._forked_at == (self._recorder, len(self._recorder.parts))

    def keep(self, how: str, frame: Optional[FrameType] = None) -> Status:
        """Keeps the run so far, which ended so; the frame is that of the program, where that runs."""
        is_busy, self._is_busy = self._is_busy, True
        try:
            if self.is_idle_child:
                return Status.RECORDED
            if self._ended_early is not None:
                return self._ended_early
            with self._originals, self._reserve.released():
                end_elsewhere(self._recorder)
                self._wait_for_writers()
                return self._keep(how, self._ended(frame))
        except MemoryError:
            self._recorder.forget()
            self._say_lost("out of memory")
            return Status.NOT_WRITTEN
        except Exception as error:  # (whatever it is, the program ends as it would)
            self._say_lost(f"{type(error).__name__}: {error}")
            return Status.NOT_WRITTEN
        finally:
            self._is_busy = is_busy

    def _say_lost(self, why: str) -> None:
        """Says that the run can't be kept, but for its notes."""
        self._keeping.say_lost(why)
        if self._notes is not None and self._notes.is_there:
            self._keeping.messages.say(f"{self._keeping.place.shown(NOTES)} has it: --from makes a recording of that")

    def _keep_noted(self, recorder: NotedRecorder, notes: NotesFile, how: str, ended: Optional[int]) -> Status:
        """Makes the recording of the notes, which aren't needed then."""
        if self._is_snapshot:
            notes.be_shared()
        recorder.noting.finish(ended, how)
        left = memory_left()
        if left is not None and left < notes.size * _BYTES_OF_NOTE:
            self._say_lost(_SHORT)
            return Status.NOT_WRITTEN
        found = noted(notes.read_all())
        status = self._keeping.keep(Said(found.recorder, found.ended), how)
        if status is Status.NOT_WRITTEN:
            self._keeping.messages.say(f"{self._keeping.place.shown(NOTES)} stays: --from makes a recording of it")
        elif not self._keeps_notes and how != _ASKED:
            notes.remove()
        return status

    def _keep(self, how: str, ended: Optional[int]) -> Status:
        recorder = self._recorder
        if isinstance(recorder, NotedRecorder) and self._notes is not None:
            return self._keep_noted(recorder, self._notes, how, ended)
        if not isinstance(recorder, LastRecorder):
            return self._keeping.keep(Said(recorder, ended), how)
        before = recorder.before
        if before is not None and not recorder.events:
            before.meet_all()
            return self._keeping.keep(before.said(), how, before.earlier)
        if before is not None and self._before is not None:
            self._before.keep(before.said(), f"{len(recorder.events)} events later", before.earlier)
        recorder.meet_all()
        return self._keeping.keep(recorder.said(ended), how, recorder.earlier)

    def ends(self, how: str, frame: Optional[FrameType]) -> bool:
        """The process ends after this call; whether it may, since the run isn't being kept at this moment."""
        if self._is_busy:
            return False
        try:
            self.keep(how, frame)
        except BaseException as error:  # (Ctrl-C, too: the process ends in any case)
            self._keeping.say_lost(f"{type(error).__name__}: {error}")
        return True

    def becomes_another(self, how: str, frame: Optional[FrameType]) -> None:
        """Another program takes the place of this one, if it can: a copy of this process writes the run, and has done so then."""
        if not self.is_idle_child:
            with self._originals:
                self._copy(lambda: self.ends(how, frame))

    def is_asked(self, frame: Optional[FrameType]) -> None:
        """Somebody asks for the run so far: a copy of a copy writes it, for which the program doesn't wait."""
        with self._originals:
            self._write_in_copy(frame)

    def _write_in_copy(self, frame: Optional[FrameType]) -> None:
        def write() -> None:
            if _forked() == 0:
                self.ends(_ASKED, frame)

        self._writers = [one for one in self._writers if not self._has_written(*one)]
        try:
            reader, writer = os.pipe()
        except OSError as error:
            self._keeping.messages.say(f"the run so far can't be kept: {error.strerror}")
            return
        self._copy(write)
        os.close(writer)
        self._writers.append((reader, file_of(reader)))

    def _wait_for_writers(self, most: float = _MOST_SECONDS) -> None:
        """Waits until copies that write have done so: what they write is older. The program may have closed a pipe of theirs."""
        for reader, file in self._writers:
            if not self._has_written(reader, file, most):
                os.close(reader)
        self._writers.clear()

    def _has_written(self, reader: int, file: object, most: float = 0) -> bool:
        """Whether the copy of this pipe has written, which is closed then; so many seconds are waited for that at most."""
        if file_of(reader) != file:
            return True
        has_written = bool(select.select([reader], [], [], most)[0])
        if has_written:
            os.close(reader)
        return has_written

    def _copy(self, write: Callable[[], object]) -> None:
        """Has a copy of this process write, and waits for the end of that."""
        if self._is_busy:
            return
        self._is_snapshot = True
        try:
            pause_elsewhere(self._recorder)
            child = _forked()
            if child == 0:
                try:
                    write()
                finally:
                    _exit(0)
            with contextlib.suppress(ChildProcessError):  # (the program may ignore the ends of children)
                os.waitpid(child, 0)
        except OSError as error:
            self._keeping.messages.say(f"the run so far can't be kept: {error.strerror}")
        finally:
            self._is_snapshot = False

    def has_forked(self) -> None:
        """A child of this process was forked."""
        self._keeping.children += not self._is_snapshot

    def is_child(self) -> None:
        """From here on this is a forked child, whose files have its number in their names."""
        if not self._is_snapshot:
            self._wait_for_writers(0)
            self._forked_at = self._recorder, len(self._recorder.parts)
            for keeping in filter(None, (self._keeping, self._before)):
                keeping.be_of_child()
            if self._notes is not None:
                self._notes.be_of_child(self._keeping.place.name_with(NOTES))

    def _ended(self, frame: Optional[FrameType]) -> Optional[int]:
        """How many events have ended, where one is under way; None, where all have."""
        recorder = self._recorder
        if recorder.ended < len(recorder.events):
            return recorder.ended
        if len(recorder.events) == len(recorder.begins) and not self._is_under_way(frame):
            return None
        return max(0, len(recorder.events) - 1)

    def _is_under_way(self, frame: Optional[FrameType]) -> bool:
        """Whether an event is under way, or lines of one are logged that isn't noted yet."""
        if is_elsewhere(self._recorder):
            return self._recorder.frame is not self._recorder.top or self._recorder.acting
        if frame is None:
            return False
        while frame is not None:
            if frame.f_code in _TELLING:
                return True
            frame = frame.f_back
        return self._recorder.frame is not self._recorder.top or self._recorder.acting
