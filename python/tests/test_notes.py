"""The notes of a run: written as it happens, read after the end of the process or of the run, and dropped from memory."""

from __future__ import annotations

import errno
import io
import marshal
import os
import random
import signal
import struct
import time
import unittest
import zlib
from pathlib import Path
from typing import Any, List
from unittest import mock

from deferreds.twisted.recording.noted import Noted, header, noted
from deferreds.twisted.recording.notes import BadNotes, NotesFile, read_notes, segment, segments
from deferreds.twisted.recording.saying import Said
from deferreds.twisted.recording.windows import Window, windowed
from deferreds.twisted.running import run

from .forked import environment, run as run_python
from .recording_of import PROGRAMS, RecordingCase

#: programs that do the same in each run, with their arguments
SAME = (
    ("awkward/cancelled_coroutine.py",),
    ("awkward/dropped_bodies.py",),
    ("awkward/error_text_fires.py",),
    ("awkward/failure_in_a_value.py",),
    ("awkward/finalizer_meddles.py",),
    ("awkward/heartbeat.py",),
    ("awkward/inline_drops.py",),
    ("awkward/locks_in_turns.py",),
    ("awkward/loop_of_coroutine.py",),
    ("awkward/loop_of_other_values.py",),
    ("awkward/nested_inline.py",),
    ("awkward/poll_again.py",),
    ("awkward/secrets_again.py",),
    ("awkward/several_cooperators.py",),
    ("awkward/stopped_cooperator.py",),
    ("awkward/value_changes.py",),
    ("cooperators_on_a_clock.py",),
    ("goes_on.py", "40"),
    ("loops_that_differ.py",),
    ("raises.py",),
    ("random_calls.py", "3", "200"),
    ("--redact", "all", "awkward/long_values.py"),
    ("--virtual", "loops_that_differ.py", "once"),
    ("--virtual", "loops_that_differ.py", "raises"),
    ("--virtual", "poll_by_callbacks.py"),
)
ENDINGS = (".json", ".journal", ".whole.journal", ".places.json", ".html")


def own_lines(said: str) -> List[str]:
    """What the command itself has said."""
    return [line for line in said.splitlines() if line.startswith("record: ")]


class Recordings(RecordingCase):
    """What is recorded by way of notes."""

    def contents(self, name: str) -> List[Any]:
        """What the files of a recording have, None for each that isn't there."""
        paths = [self.folder / f"{name}{ending}" for ending in ENDINGS]
        return [path.read_bytes().replace(name.encode(), b"NAME") if path.exists() else None for path in paths]

    def test_is_the_same_as_without_and_is_made_again_of_the_notes(self) -> None:
        for place, words in enumerate(SAME):
            with self.subTest(words=words):
                plain, with_notes, again = f"plain{place:02}", f"noted{place:02}", f"again{place:02}"
                first = self.record("-o", plain, *words)
                second = self.record("-o", with_notes, "--keep-notes", *words)
                third = self.record("--from", f"{with_notes}.notes", "-o", again)
                self.assertEqual((second.status, second.printed), (first.status, first.printed))
                self.assertEqual(second.said.replace(with_notes, plain), first.said)
                self.assertEqual(self.contents(with_notes), self.contents(plain))
                self.assertEqual(self.contents(again), self.contents(plain))
                self.assertEqual(own_lines(third.said.replace(again, plain)), own_lines(first.said))

    def test_of_a_real_reactor(self) -> None:
        programs = (("echo.py",), ("times_of_a_reactor.py",), ("loops_that_meet.py",), ("cooperators_as_events.py",))
        for words in (*programs, ("loop_that_asks_a_thread.py",), ("asyncio_tasks.py",), ("random_times.py", "3")):
            with self.subTest(words=words):
                ended = self.record("-o", "run", "--keep-notes", "-f", *words)
                self.assertEqual(ended.status, 0, ended.said)
                self.assertIn("the same, line for line", ended.said)
                before = self.contents("run")
                self.assertEqual(self.record("--from", "run.notes", "-f").status, 0)
                self.assertEqual(self.contents("run"), before)

    def test_the_notes_are_there_while_the_program_runs_and_not_when_the_recording_is(self) -> None:
        process = self.start("-o", "run", "--notes", "answers_and_idles.py")
        self.assertEqual([process.stdout.readline() for _ in range(6)][-1], "idle\n")
        self.assertEqual(self.files(), ["run.notes"])
        self.assertEqual((self.folder / "run.notes").stat().st_mode & 0o777, 0o600)
        process.send_signal(signal.SIGTERM)
        ended = self.end(process)
        self.assertEqual(ended.status, 0, ended.said)
        self.assertEqual(self.files(), ["run.journal", "run.json", "run.places.json", "run.recording"])
        self.assert_goes_together("run")

    def test_a_page_is_made_of_notes(self) -> None:
        self.record("-o", "run", "--view", "--keep-notes", "goes_on.py", "4")
        before = self.contents("run")
        self.assertIsNotNone(before[-1])
        self.record("--from", "run.notes", "--view")
        self.assertEqual(self.contents("run"), before)

    def test_each_forked_child_has_its_own(self) -> None:
        first, second = self.record("-o", "plain", "forks.py"), self.record("-o", "noted", "--notes", "forks.py")
        self.assertEqual((second.status, second.said.count("\n")), (first.status, first.said.count("\n")), second.said)
        self.assertEqual(len(self.scripts()), 4)
        self.assertEqual([name for name in self.files() if "notes" in name], [])
        for name in self.scripts():
            self.assert_goes_together(name)

    def test_os_exit_in_a_callback(self) -> None:
        program = (
            "import os\nfrom twisted.internet import defer\ndefer.succeed(1)\n"
            "async def body():\n await waited\n defer.succeed(2)\n await defer.succeed(3)\n os._exit(7)\n"
            "waited = defer.Deferred()\ndefer.ensureDeferred(body())\nwaited.callback(4)\n"
        )
        (self.folder / "ends.py").write_text(program, encoding="utf-8")
        first = self.record("-o", "plain", str(self.folder / "ends.py"))
        self.assertEqual(first.status, 7)
        second = self.record("-o", "noted", "--keep-notes", str(self.folder / "ends.py"))
        self.assertEqual(second.said.replace("noted", "plain"), first.said)
        self.assertEqual(self.contents("noted"), self.contents("plain"))
        self.record("--from", "noted.notes")
        self.assertEqual(self.contents("noted"), self.contents("plain"))

    def test_sigusr1_writes_the_run_so_far_and_the_notes_go_on(self) -> None:
        process = self.start("-o", "run", "--notes", "answers_and_idles.py")
        self.assertEqual([process.stdout.readline() for _ in range(6)][-1], "idle\n")
        # (the line is printed inside an event, and this is about a run between events)
        time.sleep(1)
        process.send_signal(signal.SIGUSR1)
        self.wait_for(lambda: self.is_kept("run"), "the run so far")
        self.assertIn("run.notes", self.files())
        journal = [line for line in self.text("run.journal").splitlines() if not line.startswith("#")]
        process.kill()
        self.end(process)
        self.assertEqual(self.record("--from", "run.notes").status, 0)
        self.assertEqual(self.text("run.journal").splitlines()[: len(journal)], journal)

    def test_a_program_that_closes_all_descriptors(self) -> None:
        program = "import os\nfrom twisted.internet import defer\ndefer.succeed(1)\nos.closerange(3, 4096)\nopen('/dev/null')\ndefer.succeed(2)\n"
        (self.folder / "closes.py").write_text(program, encoding="utf-8")
        self.assertEqual(self.record("-o", "run", "--notes", str(self.folder / "closes.py")).status, 0)
        self.assertEqual(len(self.events("run")), 4)

    def test_memory_is_bounded(self) -> None:
        ended = self.record("-o", "run", "--notes", "grows.py")
        early, late = (int(line.split()[1]) for line in ended.printed.splitlines())
        # (the 3,000 requests between leave 48,000 objects without notes; what isn't written yet are at most so many parts of lines)
        self.assertLess(late - early, 8_192)
        self.assert_goes_together("run")


class Remembered(RecordingCase):
    """What notes say is what a recorder would have in memory of the same run."""

    def test_of_one_and_the_same_run(self) -> None:
        programs = ("echo", "times_of_a_reactor", "loops_that_meet", "loops_that_differ", "cooperators_as_events", "loop_that_asks_a_thread")
        for name in (*programs, "asyncio_tasks", "cooperators_at_odds", "answers_and_idles 0.2", "awkward/several_cooperators", "awkward/inline_drops"):
            with self.subTest(program=name):
                program, *words = name.split()
                room = self.folder / program.replace("/", "_")
                room.mkdir()
                words = ["-m", "tests.remembering", str(room), str(PROGRAMS / f"{program}.py"), *words]
                ended = run_python(words, self.folder, environment())
                self.assertRegex(ended.stdout.splitlines()[-1], "^the same, [1-9]", ended.stderr)


class Killed(RecordingCase):
    """What is left of a run that is killed."""

    def test_all_that_came_before_an_idle_reactor_was_killed(self) -> None:
        process = self.start("-o", "run", "--notes", "answers_and_idles.py")
        notes = self.folder / "run.notes"
        self.wait_for(lambda: notes.exists() and b'"idle"' in notes.read_bytes(), "the last event before the reactor idles")
        process.kill()
        self.end(process)
        ended = self.record("--from", "run.notes")
        self.assertEqual(ended.status, 0, ended.said)
        self.assertIn("until the end of its notes; ./deferreds prints the same up to there", ended.said)
        self.assertIn('note "idle"\n', self.text("run.journal"))
        self.assert_goes_together("run")

    def test_all_that_came_before_an_idle_loop_of_asyncio_was_killed(self) -> None:
        program = (
            "import asyncio\nfrom twisted.internet import asyncioreactor\nasyncioreactor.install()\n"
            "from twisted.internet import defer, reactor\n"
            "def come():\n for text in ('first', 'second', 'third'):\n  defer.succeed(text)\n"
            "asyncio.get_event_loop_policy().get_event_loop().call_later(0.2, come)\nreactor.run()\n"
        )
        (self.folder / "idles.py").write_text(program, encoding="utf-8")
        process = self.start("-o", "run", "--notes", str(self.folder / "idles.py"))
        notes = self.folder / "run.notes"
        self.wait_for(lambda: notes.exists() and b"third" in notes.read_bytes(), "the last event before the loop idles")
        process.kill()
        self.end(process)
        self.assertEqual(self.record("--from", "run.notes").status, 0)
        self.assert_goes_together("run")

    def test_wherever_it_is_killed_a_good_beginning_is_left(self) -> None:
        chosen, lengths = random.Random(1), set()
        for number in range(12):
            process = self.start("-o", f"run{number}", "--notes", "goes_on.py", "1000000")
            notes = self.folder / f"run{number}.notes"
            wanted = chosen.randrange(1, 150_000)
            self.wait_for(lambda: notes.exists() and notes.stat().st_size >= wanted, "some notes")
            process.kill()
            self.assertEqual(self.end(process).status, -signal.SIGKILL)
            found = noted(read_notes(notes))
            self.assertEqual(found.how, "")
            said = Said(found.recorder, found.ended)
            lengths.add(said.lines)
            if said.lines:
                self.assertTrue(self.is_a_beginning(said))
        self.assertGreater(len(lengths), 6)

    def is_a_beginning(self, said: Said) -> bool:
        """Whether there is a script, which has to print its journal on real Twisted if it reaches no entry of docs/TWISTED.md."""
        if said.script is None or said.quirks:
            return False
        self.assertEqual(run(said.text.encode()).output, said.output)
        return True

    def test_wherever_the_notes_end_they_are_a_beginning(self) -> None:
        for words in (("goes_on.py", "30"), ("awkward/nested_inline.py",), ("echo.py",), ("awkward/several_cooperators.py",)):
            self.assertEqual(self.record("-o", "run", "-f", "--keep-notes", *words).status, 0)
            data = (self.folder / "run.notes").read_bytes()
            whole = self.text("run.journal").splitlines()
            lengths = set()
            for place in range(100):
                (self.folder / "cut.notes").write_bytes(data[: len(data) * (place + 1) // 100])
                try:
                    found = noted(read_notes(self.folder / "cut.notes"))
                except BadNotes:
                    self.assertLess(len(data) * (place + 1) // 100, len(segment(header("secrets", "22.4.0", "3.11.2", 0.0))) + 8)
                    continue
                said = Said(found.recorder, found.ended)
                lengths.add(len(said.journal))
                if place % 10 == 9:
                    self.is_a_beginning(said)
                if words[0] == "goes_on.py":
                    self.assertEqual(said.journal, whole[: len(said.journal)])
            self.assertGreater(len(lengths), 1, words)

    def test_what_a_killed_run_has_left_stays_when_the_next_one_begins(self) -> None:
        self.record("-o", "run", "--keep-notes", "goes_on.py", "3")
        before = (self.folder / "run.notes").read_bytes()
        ended = self.record("-o", "run", "--notes", "goes_on.py", "3")
        self.assertIn("run.notes is of a run that didn't end well: it is run.earlier.notes now", ended.said)
        self.assertEqual((self.folder / "run.earlier.notes").read_bytes(), before)


class Words(RecordingCase):
    """What is refused."""

    def test_words_that_dont_go_together(self) -> None:
        for words in (
            ("--from", "a.notes", "goes_on.py"),
            ("--from", "a.notes", "--redact", "all"),
            ("--from", "a.notes", "--notes"),
            ("--notes", "--last", "5", "goes_on.py"),
            ("--notes", "--test", "a.b.c"),
        ):
            self.assertEqual(self.record(*words).status, 64, words)

    def test_a_file_of_something_else_isnt_touched(self) -> None:
        (self.folder / "run.notes").write_text("my notes\n", encoding="utf-8")
        ended = self.record("-o", "run", "--notes", "goes_on.py", "3")
        self.assertEqual(ended.status, 73, ended.said)
        self.assertEqual(self.text("run.notes"), "my notes\n")
        self.assertEqual(self.record("-o", "run", "-f", "--notes", "goes_on.py", "3").status, 0)

    def test_no_link_is_followed(self) -> None:
        (self.folder / "other").write_bytes(b"")
        os.symlink("other", self.folder / "run.notes")
        self.assertEqual(self.record("-o", "run", "--notes", "goes_on.py", "3").status, 73)
        self.assertEqual(self.text("other"), "")

    def test_files_that_arent_notes(self) -> None:
        first = header("secrets", "22.4.0", "3.11.2", 0.0)
        wrong = {
            "text": b"hello\n" * 100,
            "empty": b"",
            "version": segment([*first[:1], 99, *first[2:]]),
            "words": segment(first) + segment([0] * 11 + [999]),
            "missing": segment(first) + segment([0] * 11 + [4]),
            "number": segment(first) + segment([0] * 11 + [4, "x"]),
            "counts": segment(first) + segment([10**9, *[0] * 10]),
        }
        for name, data in wrong.items():
            (self.folder / f"{name}.notes").write_bytes(data)
        os.mkfifo(self.folder / "pipe.notes")
        for name in (*wrong, "pipe", "none"):
            ended = self.record("--from", f"{name}.notes")
            self.assertIn(ended.status, (65, 66), ended.said)
            self.assertEqual((ended.said.count("\n"), "Traceback" in ended.said), (1, False), ended.said)

    def test_damaged_notes_have_a_message(self) -> None:
        chosen = random.Random(2)
        for words in (("awkward/several_cooperators.py",), ("loops_that_differ.py",), ("echo.py",)):
            self.record("-o", "run", "--keep-notes", "-f", *words)
            self.damage(list(read_notes(self.folder / "run.notes")), chosen)

    def damage(self, whole: List[List[Any]], chosen: random.Random) -> None:
        """Changes some items, after which a reader may only raise BadNotes, and what says the run no end of errors."""
        for _ in range(100):
            damaged = [list(items) for items in whole]
            items = damaged[chosen.randrange(1, len(damaged))]
            for _ in range(chosen.randrange(1, 4)):
                place = chosen.randrange(len(items))
                items[place] = chosen.choice([0, 1, -1, None, "x", True, 1.5, items[place - 1], chosen.randrange(3000)])
            try:
                found: Noted = noted(damaged)
            except BadNotes:
                continue
            try:
                Said(found.recorder, found.ended)
            except RecursionError:
                raise
            except Exception:  # (the command says that they don't go together)
                continue


class Files(unittest.TestCase):
    """The file of notes."""

    def setUp(self) -> None:
        RecordingCase.setUp(self)  # type: ignore[arg-type]
        self.folder: Path
        self.said: List[str] = []
        self.path = self.folder / "run.notes"

    def items(self) -> List[List[Any]]:
        """What the file has."""
        return list(read_notes(self.path))

    def test_segments_come_back(self) -> None:
        written = [[], [0, -1, 2**80, -(2**40), "text", "\udc80é", True, False, None, 1.5], ["x" * 100_000]]
        file = NotesFile(self.path, self.said.append)
        for items in written:
            file.add(items)
        self.assertEqual(self.items(), written)
        self.assertEqual(list(file.read_all()), written)

    def test_a_torn_segment_is_dropped(self) -> None:
        data = segment([1]) + segment([2, "two"])
        for length in range(len(data)):
            self.path.write_bytes(data[:length])
            self.assertEqual(self.items(), [[1]] if length >= len(segment([1])) else [], length)

    def test_a_segment_with_another_sum_ends_the_notes(self) -> None:
        data = bytearray(segment([1]) + segment([2]) + segment([3]))
        data[len(segment([1])) + 12] ^= 1
        self.path.write_bytes(data)
        self.assertEqual(self.items(), [[1]])

    def test_marshal_gets_nothing_but_numbers_and_texts(self) -> None:
        code = compile("pass", "name", "exec")
        for data in (
            *(marshal.dumps([item], 2) for item in ([1], (1,), b"x", {}, {1}, code, 1j, 2**200, Ellipsis)),
            *(marshal.dumps(item, 2) for item in (1, "x", {})),
            b"[\xff\xff\xff\x7f",
            b"[\x01\0\0\0u\xff\xff\xff\x7fx",
            b"[\x01\0\0\0u\xff\xff\xff\xffx",
            b"[\x02\0\0\0N",
            b"[\x01\0\0\0r\0\0\0\0",
        ):
            head = struct.pack(">II", len(data), zlib.crc32(data))
            self.path.write_bytes(head + data)
            with self.assertRaises(BadNotes, msg=data):
                self.items()

    def test_what_cant_be_written_is_written_later(self) -> None:
        file = NotesFile(self.path, self.said.append)
        file.add([1])
        full = OSError(errno.ENOSPC, "No space left on device")
        with mock.patch("os.write", side_effect=full):
            file.add([2])
            file.add([3])
        self.assertEqual((self.items(), list(file.read_all())), ([[1]], [[1], [2], [3]]))
        file.add([4])
        self.assertEqual(self.items(), [[1], [2], [3], [4]])
        self.assertEqual(len(self.said), 1)

    def test_another_file_that_has_the_number_gets_nothing(self) -> None:
        file = NotesFile(self.path, self.said.append)
        file.add([1])
        other = self.folder / "other"
        with open(other, "wb") as taken:
            os.dup2(taken.fileno(), file._descriptor)
            file.add([2])
            self.assertEqual((other.read_bytes(), self.items()), (b"", [[1], [2]]))

    def test_a_file_that_is_gone(self) -> None:
        file = NotesFile(self.path, self.said.append)
        file.add([1])
        self.path.unlink()
        self.assertEqual(list(file.read_all()), [[1]])
        os.close(file._descriptor)
        file.add([2])
        with self.assertRaises(BadNotes):
            list(file.read_all())
        self.assertEqual(len(self.said), 1)

    def test_reading_stops_at_the_size(self) -> None:
        data = segment([1]) + segment([2])
        self.assertEqual(list(segments(io.BytesIO(data).read, len(segment([1])))), [[1]])


class Windows(unittest.TestCase):
    """Lists whose first items are gone."""

    def test_places_and_lengths_count_what_is_gone(self) -> None:
        window: Window[int] = windowed([0, 1, 2])
        window.drop(1)
        window.append(3)
        self.assertEqual((len(window), window[2], window[3], window[-1], window[3:], window.here), (4, 2, 3, 3, [3], [2, 3]))
        window.drop()
        self.assertEqual((len(window), window.here, bool(window)), (4, [], True))


if __name__ == "__main__":
    unittest.main()
