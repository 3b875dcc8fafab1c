"""The files of a recording: whatever fails while they are written, the recording that was there is whole, or the new one is."""

from __future__ import annotations

import errno
import os
import re
import signal
import tempfile
import unittest
from contextlib import ExitStack
from pathlib import Path
from typing import Any, Callable, Dict, Iterator, List
from unittest import mock

from deferreds.twisted.recording import replacing
from deferreds.twisted.recording.files import NoPlace, Place, Written

_OLD = {".json": "old script\n", ".journal": "old journal\n", ".html": "old page\n"}
_NEW = {".json": "new script\n", ".journal": "new journal\n", ".whole.journal": "new whole journal\n", ".places.json": "{}"}

#: the calls of the system by which files are replaced, and what each may fail with
_CALLS = {
    "open_file": errno.EMFILE,
    "write": errno.ENOSPC,
    "fsync": errno.EIO,
    "replace": errno.EACCES,
    "unlink": errno.EACCES,
}

_MOST_CALLS = 40


class Faulty:
    """Calls of the system, the one of this number of which fails in some way."""

    def __init__(self, number: int, fail: Callable[[], None]) -> None:
        self._left = number
        self._fail = fail
        self.has_failed = False

    def of(self, call: Callable[..., Any]) -> Callable[..., Any]:
        def faulty(*args: Any, **kwargs: Any) -> Any:
            self._left -= 1
            if self._left == 0:
                self.has_failed = True
                self._fail()
            return call(*args, **kwargs)

        return faulty

    def in_place(self, *names: str) -> ExitStack:
        stack = ExitStack()
        for name in names:
            stack.enter_context(mock.patch.object(replacing, name, self.of(getattr(replacing, name))))
        return stack


def _raising(number: int) -> Callable[[], None]:
    def fail() -> None:
        raise OSError(number, os.strerror(number))

    return fail


class FilesCase(unittest.TestCase):
    """A folder in which there may be a recording."""

    def setUp(self) -> None:
        room = tempfile.TemporaryDirectory()
        self.addCleanup(room.cleanup)
        self.folder = Path(room.name, "folder")
        temporary = Path(room.name, "temporary")
        temporary.mkdir()
        patched = mock.patch.object(tempfile, "tempdir", str(temporary))
        patched.start()
        self.addCleanup(patched.stop)

    def begin(self, with_old: bool) -> None:
        """Makes the folder anew."""
        if self.folder.exists():
            for path in self.folder.iterdir():
                path.unlink()
        self.folder.mkdir(exist_ok=True)
        if with_old:
            self.place().write(_OLD, {})

    def place(self) -> Place:
        return Place(str(self.folder / "run"))

    def found(self) -> Dict[str, str]:
        """The files that are there, by the endings of their names, but for the list, and for those with the number of this process."""
        texts = {path.name: path.read_text(encoding="utf-8") for path in self.folder.iterdir()}
        others = ("run.recording", f"run.{os.getpid()}.")
        return {name[len("run") :]: text for name, text in texts.items() if not name.startswith(others)}

    def whole(self) -> Dict[str, str]:
        """The same, as the next start finds them, which has to find a recording that is as it was written."""
        self.place().check(_NEW)
        return self.found()


def numbers() -> Iterator[int]:
    """The numbers of calls, more than there are."""
    return iter(range(1, _MOST_CALLS))


class Failing(FilesCase):
    """One call fails."""

    def test_the_earlier_recording_or_the_new_one_is_whole(self) -> None:
        for with_old in (True, False):
            for name, error in _CALLS.items():
                for number in numbers():
                    self.begin(with_old)
                    faulty = Faulty(number, _raising(error))
                    with faulty.in_place(name):
                        written = self.place().write(_NEW, {})
                    if not faulty.has_failed:
                        break
                    with self.subTest(name=name, number=number, with_old=with_old):
                        self.assert_right(written, with_old)
                self.assertLess(number, _MOST_CALLS - 1)

    def assert_right(self, written: Written, with_old: bool) -> None:
        at_once, found = self.found(), self.whole()
        old = _OLD if with_old else {}
        new = {ending: text for ending, text in _NEW.items() if ending in found or ending != ".places.json"}
        self.assertIn(found, (old, new))
        is_here = written.name == str(self.folder / "run")
        self.assertEqual(found == new, is_here and written.is_any, (written, found))
        if written.name.startswith(tempfile.gettempdir()) and with_old:
            self.assertEqual(at_once, old, "no half is left")
            self.assertIn(f"the recording that was there is as it was: {self.folder / 'run'}", written.failures)
        elif is_here and found != _NEW:
            self.assertTrue(written.failures)

    def test_the_message_has_the_step_and_why(self) -> None:
        steps = {
            "open_file": "run.json can't be opened: Too many open files",
            "write": "run.json can't be written: No space left on device",
            "fsync": "run.json can't be synced: Input/output error",
            "replace": "run.recording can't get its name, and is in .run.recording.[0-9a-f.]+.tmp: Permission denied",
        }
        for name, message in steps.items():
            with self.subTest(name=name):
                self.begin(True)
                # (the list is read before anything is written, and the file's own digest is taken)
                with Faulty(1, _raising(_CALLS[name])).in_place(name), mock.patch.object(Place, "_of_others", return_value=[]):
                    written = self.place().write(_NEW, {})
                self.assertRegex(written.failures[0], message)

    def test_it_is_written_into_the_folder_for_temporary_files(self) -> None:
        self.begin(True)
        with Faulty(1, _raising(errno.ENOSPC)).in_place("write"):
            written = self.place().write(_NEW, {})
        self.assertTrue(written.is_any)
        self.assertRegex(written.name, f"^{re.escape(tempfile.gettempdir())}/deferreds[^/]+/run.{os.getpid()}$")
        self.assertEqual(Path(f"{written.name}.json").read_text(encoding="utf-8"), _NEW[".json"])
        self.assertEqual(self.found(), _OLD)


class Killed(FilesCase):
    """The process is killed at each call."""

    def test_the_earlier_recording_or_the_new_one_is_whole(self) -> None:
        for with_old in (True, False):
            ends: List[bool] = []
            for number in numbers():
                self.begin(with_old)
                if not self.is_killed(number):
                    break
                with self.subTest(number=number, with_old=with_old):
                    found = self.whole()
                    self.assertIn(found, (_OLD if with_old else {}, _NEW))
                    ends.append(found == _NEW)
            self.assertEqual(ends, sorted(ends))
            self.assertEqual({False, True}, set(ends))

    def is_killed(self, number: int) -> bool:
        """Whether a process that writes the new recording is killed at the call of this number."""
        child = os.fork()
        if child == 0:
            with Faulty(number, lambda: os.kill(os.getpid(), signal.SIGKILL)).in_place(*_CALLS):
                self.place().write(_NEW, {})
            os._exit(0)
        return os.WIFSIGNALED(os.waitpid(child, 0)[1])


class Others(FilesCase):
    """What isn't a recording's own stays."""

    def test_a_file_beside_the_halves(self) -> None:
        self.begin(True)
        kept = self.folder / f".run.json.{2**22 + 1}.tmp"
        kept.touch()
        self.place().write(_NEW, {})
        self.assertIn(kept, list(self.folder.iterdir()))

    def test_what_a_link_in_the_place_of_a_half_leads_to(self) -> None:
        self.begin(False)
        target = self.folder / "target"
        target.write_text("mine", encoding="utf-8")
        with mock.patch.object(replacing, "urandom", return_value=bytes(6)):
            (self.folder / f".run.json.{os.getpid()}.{bytes(6).hex()}.tmp").symlink_to(target)
            written = self.place().write(_NEW, {})
        self.assertIn("run.json can't be opened: File exists", written.failures[0])
        self.assertEqual(target.read_text(encoding="utf-8"), "mine")

    def test_a_pipe_in_the_place_of_a_file(self) -> None:
        self.begin(True)
        (self.folder / "run.json").unlink()
        os.mkfifo(self.folder / "run.json")
        self.assertRaises(NoPlace, self.place().check, _NEW)
