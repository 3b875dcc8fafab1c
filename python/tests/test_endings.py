"""However a program ends, its run is kept; and its files, messages and status are as they are said to be."""

from __future__ import annotations

import contextlib
import hashlib
import json
import os
import re
import signal
import unittest
from pathlib import Path
from typing import List, Optional
from unittest import mock

from twisted.internet import defer

from deferreds.testing.folder import Folder
from deferreds.twisted.children import MOST_BYTES
from deferreds.twisted.instruments import install
from deferreds.twisted.programs import Answer, Batches, Broken, Lack, Program
from deferreds.twisted.recording import endings
from deferreds.twisted.recording.agreeing import Agreed, agreed
from deferreds.twisted.recording.endings import Endings
from deferreds.twisted.recording.files import Place
from deferreds.twisted.recording.keeper import Keeper
from deferreds.twisted.recording.keeping import Keeping, Status
from deferreds.twisted.recording.messages import Messages
from deferreds.twisted.recording.outcomes import outcomes_of
from deferreds.twisted.recording.recorder import Recorder
from deferreds.twisted.recording.saying import Said
from deferreds.twisted.rows import ANY_LINES, read_rows, row_files
from deferreds.twisted.running import be_quiet, run

from .forked import Forked
from .recording_of import RecordingCase


def listed(files: object) -> str:
    """A list of files as a recording writes it."""
    return json.dumps({"written by": "deferreds record", "files": files})


class Words(RecordingCase):
    """Which words are the command's, and which the program's."""

    def test_all_words_after_the_module_are_its_own(self) -> None:
        self.copied("configured.py", "settings.py")
        for words in (("-m", "settings"), ("-msettings",)):
            with self.subTest(words=words):
                ended = self.record("-o", "run", *words, "--reporter=text", "-o", "x", "--view")
                self.assertEqual((ended.status, ended.printed), (0, "['--reporter=text', '-o', 'x', '--view']\n"), ended.said)
                self.assertEqual(self.files(), ["run.journal", "run.json", "run.places.json", "run.recording", "settings.py"])

    def test_all_words_after_the_program_are_its_own(self) -> None:
        ended = self.record("-o", "run", "configured.py", "-m", "x", "--view", "--", "-f")
        self.assertEqual(ended.printed, "['-m', 'x', '--view', '--', '-f']\n", ended.said)

    def test_without_a_name_it_is_that_of_the_program_or_of_the_module(self) -> None:
        (self.folder / "package").mkdir()
        self.copied("configured.py", "package/inner.py")
        self.record("configured.py")
        self.record("-m", "package.inner")
        self.assertEqual(self.scripts(), ["configured", "inner"])

    def test_two_of_program_module_and_test_are_one_too_many(self) -> None:
        ended = self.record("--test", "a.b.c", "configured.py")
        self.assertEqual((ended.status, ended.said.count("\n")), (64, 1), ended.said)

    def test_a_package_that_cant_be_run(self) -> None:
        (self.folder / "package").mkdir()
        (self.folder / "package" / "__init__.py").touch()
        ended = self.record("-m", "package")
        self.assertEqual((ended.status, ended.said.count("\n")), (66, 1), ended.said)
        (self.folder / "package" / "__main__.py").write_text("from twisted.internet import defer\ndefer.succeed(1)\n", encoding="utf-8")
        self.assertEqual(self.record("-m", "package").status, 0)
        self.assert_goes_together("package")

    def test_a_script_on_the_path_is_found(self) -> None:
        (self.folder / "bin").mkdir()
        tool = self.folder / "bin" / "tool"
        tool.write_text("#!/usr/bin/env python3\nfrom twisted.internet import defer\ndefer.succeed(1)\n", encoding="utf-8")
        tool.chmod(0o755)
        before = os.environ["PATH"]
        self.addCleanup(os.environ.__setitem__, "PATH", before)
        os.environ["PATH"] = f"{tool.parent}{os.pathsep}{before}"
        self.assertEqual(self.record("tool").status, 0)
        self.assert_goes_together("tool")
        self.assertEqual(self.record("sh", "-c", "true").status, 66)


class Files(RecordingCase):
    """Where files are written, and which of those that are there."""

    def test_a_name_is_taken_in_the_folder_of_the_start(self) -> None:
        ended = self.record("-o", "run", "chdir.py")
        self.assertEqual((ended.status, self.files()), (0, ["run.journal", "run.json", "run.places.json", "run.recording"]), ended.said)

    def test_a_file_of_somebody_else_is_not_overwritten(self) -> None:
        self.copied("configured.py", "service.py")
        (self.folder / "service.json").write_text('{"port":80}', encoding="utf-8")
        ended = self.record("service.py")
        self.assertEqual((ended.status, ended.printed, ended.said.count("\n")), (73, "", 1), ended.said)
        self.assertIn("service.json is there, and isn't a recording", ended.said)
        self.assertEqual(self.text("service.json"), '{"port":80}')
        self.assertEqual(self.record("-f", "service.py").status, 0)
        self.assert_goes_together("service")

    def test_a_recording_is_overwritten_as_long_as_it_is_as_it_was_written(self) -> None:
        self.assertEqual(self.record("-o", "run", "--view", "configured.py").status, 0)
        self.assertEqual(self.record("-o", "run", "os_exit.py", "0").status, 0)
        self.assertEqual(self.files(), ["run.journal", "run.json", "run.places.json", "run.recording"], "the page of the other run is gone")
        with (self.folder / "run.journal").open("a", encoding="utf-8") as file:
            file.write("what a user has noted\n")
        ended = self.record("-o", "run", "configured.py")
        self.assertEqual((ended.status, ended.printed), (73, ""), ended.said)

    def test_a_file_that_the_program_makes_meanwhile_stays(self) -> None:
        program = self.folder / "makes.py"
        program.write_text(
            "from twisted.internet import defer\ndefer.succeed(1)\nopen('makes.json', 'w').write('mine')\n", encoding="utf-8"
        )
        process = self.start("makes.py")
        ended = self.end(process)
        self.assertEqual((ended.status, self.text("makes.json")), (0, "mine"), ended.said)
        self.assert_goes_together(f"makes.{process.pid}")

    def test_folders_that_arent_there_are_made(self) -> None:
        self.assertEqual(self.record("-o", "new/folder/run", "configured.py").status, 0)
        self.assert_goes_together("new/folder/run")
        self.assertEqual(self.record("-o", "other/", "configured.py").status, 0)
        self.assert_goes_together("other/configured")

    def test_a_folder_that_cant_be_made_is_told_before_the_program_runs(self) -> None:
        (self.folder / "file").touch()
        for name in ("file/run", "file/folder/run"):
            ended = self.record("-o", name, "configured.py")
            self.assertEqual((ended.status, ended.printed, ended.said.count("\n")), (73, "", 1), ended.said)

    def test_its_owner_alone_can_read_a_recording(self) -> None:
        self.assertEqual(self.record("-o", "run", "--view", "--last", "5", "goes_on.py", "9").status, 0)
        found = {name: (self.folder / name).stat().st_mode & 0o777 for name in self.files()}
        self.assertLess({"run.json", "run.journal", "run.html", "run.places.json", "run.recording", "run.before.json"}, set(found))
        self.assertEqual(set(found.values()), {0o600}, found)

    def test_a_list_that_no_recording_has_written_is_told_before_the_program_runs(self) -> None:
        lists = {
            "folder": lambda path: path.mkdir(),
            "pipe": lambda path: os.mkfifo(path),
            "link": lambda path: path.symlink_to("/dev/zero"),
            "empty": lambda path: path.touch(),
            "deep": lambda path: path.write_text("[" * 100_000, encoding="utf-8"),
            "long": lambda path: os.truncate(os.open(path, os.O_CREAT | os.O_WRONLY), 1 << 40),
            "above": lambda path: path.write_text(listed({"../kept.txt": ""}), encoding="utf-8"),
            "absolute": lambda path: path.write_text(listed({str(self.folder / "kept.txt"): ""}), encoding="utf-8"),
            "other": lambda path: path.write_text(listed({"kept.txt": ""}), encoding="utf-8"),
            "strange": lambda path: path.write_text(listed([[[], 1]]), encoding="utf-8"),
        }
        for name, make in lists.items():
            with self.subTest(name=name):
                make(self.folder / f"{name}.recording")
                ended = self.record("-o", name, "configured.py")
                self.assertEqual((ended.status, ended.printed, ended.said.count("\n")), (73, "", 1), ended.said)
                self.assertRegex(ended.said, f"^record: {name}.recording is (there, and isn't a recording|a folder)")

    def test_nothing_that_a_list_of_somebody_else_names_is_removed(self) -> None:
        (self.folder / "kept.txt").write_text("kept", encoding="utf-8")
        (self.folder / "made").mkdir()
        digest = hashlib.sha256(b"kept").hexdigest()
        for number, name in enumerate(("../kept.txt", str(self.folder / "kept.txt"))):
            (self.folder / "made" / f"run_{number}.recording").write_text(listed({name: digest}), encoding="utf-8")
            self.assertEqual(self.record("-f", "-o", f"made/run_{number}", "configured.py").status, 0)
            self.assertEqual(self.text("kept.txt"), "kept")

    def test_a_pipe_in_the_place_of_a_file_is_told_before_the_program_runs(self) -> None:
        self.assertEqual(self.record("-o", "run", "configured.py").status, 0)
        (self.folder / "run.json").unlink()
        os.mkfifo(self.folder / "run.json")
        ended = self.record("-o", "run", "configured.py")
        self.assertEqual((ended.status, ended.printed, ended.said.count("\n")), (73, "", 1), ended.said)

    def test_a_link_with_the_name_of_a_file_that_isnt_whole_yet_is_not_followed(self) -> None:
        kept = self.folder / "kept.txt"
        kept.write_text("kept", encoding="utf-8")
        (self.folder / f".run.json.{os.getpid()}.tmp").symlink_to(kept)
        (self.folder / f".run.json.{os.getpid()}").symlink_to(kept)
        self.assertEqual(Place(str(self.folder / "run")).write({".json": "new"}, {}).failures, [])
        folder = Folder(self.folder)
        folder.write("run", {".json": "newer"})
        self.assertEqual((kept.read_text(encoding="utf-8"), self.text("run.json")), ("kept", "newer"))

    def test_no_link_is_followed(self) -> None:
        kept = self.folder / "kept.txt"
        kept.write_text("kept", encoding="utf-8")
        for ending in (".json", ".journal", ".recording"):
            (self.folder / f"run{ending}").symlink_to(kept)
        self.assertEqual(self.record("-f", "-o", "run", "configured.py").status, 0)
        self.assertEqual(kept.read_text(encoding="utf-8"), "kept")
        self.assertFalse((self.folder / "run.json").is_symlink())
        self.assert_goes_together("run")

    def test_what_cant_be_written_is_told_and_the_rest_is_whole(self) -> None:
        ended = self.record("-o", "run", "--view", "limits_files.py", "4096")
        self.assertEqual(ended.status, 73, ended.said)
        self.assertIn("run.html can't be written: File too large\n", ended.said)
        self.assertEqual(self.files(), ["run.journal", "run.json", "run.places.json", "run.recording"])
        self.assert_goes_together("run")

    def test_a_folder_that_has_gone_is_replaced_by_that_for_temporary_files(self) -> None:
        (self.folder / "room").mkdir()
        (self.folder / "temporary").mkdir()
        (self.folder / "leaves.py").write_text(
            "import os\nfrom twisted.internet import defer\ndefer.succeed(1)\nos.rmdir('room')\n", encoding="utf-8"
        )
        self.addCleanup(os.environ.pop, "TMPDIR", None)
        os.environ["TMPDIR"] = str(self.folder / "temporary")
        process = self.start("-o", "room/run", "leaves.py")
        ended = self.end(process)
        self.assertEqual(ended.status, 73, ended.said)
        self.assertRegex(ended.said, f"temporary/deferreds[.][^/]+/run.{process.pid}.json")
        (room,) = (self.folder / "temporary").iterdir()
        self.assertEqual(room.stat().st_mode & 0o777, 0o700)
        self.assert_goes_together(f"temporary/{room.name}/run.{process.pid}")


class Limits(RecordingCase):
    """What a process may have is used up."""

    def test_descriptors(self) -> None:
        self.assertEqual(self.record("-o", "run", "configured.py").status, 0)
        ended = self.record("-o", "run", "limits_descriptors.py", "128")
        self.assertEqual((ended.status, ended.printed), (0, "Too many open files\n"), ended.said)
        self.assertEqual(self.facts("run")["events"], 2)
        self.assert_goes_together("run")

    def test_descriptors_of_which_the_program_has_closed_and_taken_those_in_reserve(self) -> None:
        self.assertEqual(self.record("-o", "run", "configured.py").status, 0)
        before = self.text("run.json")
        ended = self.record("-o", "run", "limits_descriptors.py", "20")
        self.assertEqual((ended.status, ended.printed, self.text("run.json")), (73, "Too many open files\n", before), ended.said)
        self.assertIn("can't be opened: Too many open files\n", ended.said)
        self.assertIn("the recording that was there is as it was: run\n", ended.said)

    def test_memory_that_the_program_takes(self) -> None:
        ended = self.record("-o", "run", "limits_memory.py", "100", "10", "takes")
        self.assertEqual((ended.status, ended.printed), (0, "9\nout of memory\n"), ended.said)
        self.assert_goes_together("run")

    def test_memory_that_the_recording_takes(self) -> None:
        ended = self.record("-o", "run", "limits_memory.py", "80", "60000")
        self.assertEqual((ended.status, ended.printed), (0, "59999\n"), ended.said)
        self.assertIn("memory is short: the program goes on, and the recording ends here", ended.said)
        self.assertEqual(self.facts("run")["ended"], "memory is short")
        self.assert_goes_together("run")

    def test_memory_that_isnt_enough_to_write(self) -> None:
        messages, place = RecordingMessages(), Place(str(self.folder / "run"))
        keeper = Keeper(Recorder(), Keeping(place, messages, False, None))
        with mock.patch.object(Keeping, "keep", side_effect=MemoryError):
            self.assertEqual(keeper.keep("status 0"), Status.NOT_WRITTEN)
        self.assertEqual(messages.said, ["the run can't be kept: out of memory"])


class RecordingMessages(Messages):
    """Keeps what is said."""

    def __init__(self) -> None:
        super().__init__("record")
        self.said: List[str] = []

    def say(self, text: str) -> None:
        self.said.append(text)


class Busy(unittest.TestCase):
    """A signal comes while the run is being kept."""

    def ended_by(self, times: int, ends: "mock.Mock") -> int:
        """How a process ends that gets SIGTERM so often, whose run is kept so."""
        child = os.fork()
        if child == 0:
            with mock.patch.object(endings, "_SAME_SECONDS", 0.0), Endings(ends).watched():
                for _ in range(times):
                    with contextlib.suppress(MemoryError):
                        os.kill(os.getpid(), signal.SIGTERM)
            os._exit(7)
        status = os.waitpid(child, 0)[1]
        return -os.WTERMSIG(status) if os.WIFSIGNALED(status) else os.WEXITSTATUS(status)

    def test_the_first_waits_and_a_later_one_ends_the_process(self) -> None:
        ends = mock.Mock(ends=mock.Mock(return_value=False))
        self.assertEqual(self.ended_by(1, ends), 7)
        self.assertEqual(self.ended_by(2, ends), -signal.SIGTERM)

    def test_it_ends_the_process_whatever_fails(self) -> None:
        self.assertEqual(self.ended_by(1, mock.Mock(ends=mock.Mock(side_effect=MemoryError))), -signal.SIGTERM)


class Told(RecordingCase):
    """What is said goes to the standard error of the start."""

    def test_whatever_the_program_does_with_standard_error(self) -> None:
        ended = self.record("stderr_taken.py")
        self.assertEqual((ended.status, ended.said.count("\n")), (0, 1), ended.said)
        self.assertIn("stderr_taken.json and stderr_taken.journal: 2 lines, 1 Deferred", ended.said)


class Statuses(RecordingCase):
    """The status is the program's own."""

    def test_of_a_program_that_has_failed(self) -> None:
        ended = self.record("raises.py")
        self.assertEqual(ended.status, 1, ended.said)
        self.assertIn("told of KeyError <module>\n", ended.said)
        self.assert_goes_together("raises")

    def test_of_a_program_that_gives_one(self) -> None:
        ended = self.record("os_exit.py", "7")
        self.assertEqual(ended.status, 7, ended.said)
        self.assert_goes_together("os_exit")
        self.assertEqual(self.facts("os_exit")["ended"], "os._exit")

    def test_os_exit_in_a_step_that_is_recorded_as_events(self) -> None:
        ended = self.record("-o", "run", "tick_around_a_call.py", "third 1")
        self.assertEqual(ended.status, 0, ended.said)
        self.assertIn("further Cooperators are recorded as events: ", ended.said)
        self.assertRegex(ended.said, "the script is of the first [0-9]+ of [0-9]+ events, since an event was under way at the end")
        self.assertIn('note "a call"', self.text("run.whole.journal"))
        self.assert_goes_together("run")

    def test_what_a_script_cant_say(self) -> None:
        program = self.folder / "by_hand.py"
        program.write_text("from twisted.internet import defer\ndefer.succeed(1)\n", encoding="utf-8")
        self.assertEqual(self.record("by_hand.py").status, 0)
        self.assertIn("by_hand.json", self.files())
        program.write_text("from twisted.internet import defer\ndefer.succeed(1).result = 2\n", encoding="utf-8")
        ended = self.record("--view", "by_hand.py")
        self.assertEqual((ended.status, "by_hand.json" in self.files()), (65, True), ended.said)
        self.assertIn("the script is of the first 2 of 2 events, since it can't say what follows: the result of a Def", ended.said)
        self.assertIn("the result of a Deferred is set by hand", (self.folder / "by_hand.html").read_text(encoding="utf-8"))
        self.assertEqual(self.facts("by_hand")["refused"], "the result of a Deferred is set by hand")
        self.assert_goes_together("by_hand")

    def test_what_a_script_cant_say_at_once(self) -> None:
        program = self.folder / "at_once.py"
        program.write_text("from twisted.internet import reactor\nreactor.callLater(float('inf'), print).cancel()\n", encoding="utf-8")
        ended = self.record("--view", "at_once.py")
        self.assertEqual((ended.status, self.files()), (65, ["at_once.html", "at_once.journal", "at_once.py", "at_once.recording"]), ended.said)
        self.assertIn("There is no script", ended.said)

    def test_of_a_test_that_has_failed(self) -> None:
        self.copied("failing_test.py", "failing.py")
        for name, status, message in (
            ("test_passes", 0, "^record: test_passes.json"),
            ("test_fails", 1, "failing.FailingTests.test_fails has failed: .*one isn't two"),
            ("test_raises", 1, "failing.FailingTests.test_raises has failed: .*nobody expects this"),
        ):
            with self.subTest(name=name):
                ended = self.record("--test", f"failing.FailingTests.{name}")
                self.assertEqual(ended.status, status, ended.said)
                self.assertRegex(ended.said, message)
                self.assert_goes_together(name)


class Ends(RecordingCase):
    """Ends that Python doesn't know of."""

    def test_a_signal_that_nobody_handles(self) -> None:
        ended = self.record("killed.py")
        self.assertEqual(ended.status, -signal.SIGTERM, ended.said)
        self.assert_goes_together("killed")
        self.assertEqual(self.facts("killed")["ended"], "SIGTERM")
        self.assertIn(", until SIGTERM; ./deferreds prints the same up to there\n", ended.said)

    def test_a_signal_in_the_midst_of_an_event(self) -> None:
        for number in (signal.SIGTERM, signal.SIGHUP):
            with self.subTest(number=number):
                name, begun = number.name, self.folder / f"{number.name}.begun"
                process = self.start("-o", name, "--view", "waits.py", str(begun))
                self.wait_for(begun.exists, "the callback")
                process.send_signal(number)
                ended = self.end(process)
                self.assertEqual(ended.status, -number, ended.said)
                self.assert_goes_together(name)
                self.assertEqual([event[0] for event in self.events(name)], ["deferred", "callback", "deferred", "addCallback"])
                whole = self.text(f"{name}.whole.journal").splitlines()
                self.assertIn('fire #2 ok "inside"', whole)
                self.assertIn("&quot;inside&quot;", self.text(f"{name}.html"))

    def test_ctrl_c(self) -> None:
        begun = self.folder / "begun"
        process = self.start("waits.py", str(begun), "outside")
        self.wait_for(begun.exists, "the wait")
        process.send_signal(signal.SIGINT)
        ended = self.end(process)
        self.assertEqual(ended.status, -signal.SIGINT, ended.said)
        self.assert_goes_together("waits")
        self.assertIn("KeyboardInterrupt", ended.said)
        self.assertNotIn(str(Path("recording", "programs.py")), ended.said)

    def test_a_forked_child_writes_files_of_its_own(self) -> None:
        ended = self.record("forks.py")
        self.assertEqual(ended.status, 0, ended.said)
        scripts = self.scripts()
        self.assertEqual(len(scripts), 2, scripts)
        for name in scripts:
            self.assert_goes_together(name)
        child = next(name for name in scripts if name != "forks")
        self.assertIn('ok "child"', self.text(f"{child}.journal"))
        self.assertNotIn('ok "child"', self.text("forks.journal"))
        self.assertIn('ok "parent"', self.text("forks.journal"))


class Services(RecordingCase):
    """Services, which are stopped by a signal."""

    def setUp(self) -> None:
        super().setUp()
        self.runs = self.folder / "runs"
        self.addCleanup(os.environ.pop, "RUNS", None)
        os.environ["RUNS"] = str(self.runs)
        self.copied("service.tac", "service.tac")

    def test_twistd(self) -> None:
        for number in (signal.SIGTERM, signal.SIGINT):
            with self.subTest(number=number):
                process = self.start("-o", number.name, "twistd.py", "-n", "-y", "service.tac")
                self.wait_for(self.runs.exists, "the service")
                process.send_signal(number)
                ended = self.end(process)
                self.assertEqual(ended.status, -number, ended.said)
                self.assert_goes_together(number.name)
                self.assertIn("CancelledError", self.text(f"{number.name}.journal"))
                self.assertEqual(self.facts(number.name)["ended"], number.name)
                self.runs.unlink()

    def test_twist(self) -> None:
        process = self.start("twist.py", "web", "--listen", "tcp:0:interface=127.0.0.1")
        while "Starting reactor" not in process.stdout.readline():
            self.assertIsNone(process.poll())
        process.send_signal(signal.SIGTERM)
        ended = self.end(process)
        self.assertEqual(ended.status, -signal.SIGTERM, ended.said)
        self.assert_goes_together("twist")

    def test_a_daemon_is_a_forked_child(self) -> None:
        ended = self.record("twistd.py", "-y", "service.tac")
        self.assertEqual(ended.status, 0, ended.said)
        self.wait_for(self.runs.exists, "the daemon")
        name = f"twistd.{self.text('runs')}"
        self.assertIn("twistd.PID.json", ended.said)
        self.addCleanup(self.kill, int(self.text("runs")))
        os.kill(int(self.text("runs")), signal.SIGTERM)
        self.wait_for(lambda: self.is_kept(name), "the end of the daemon")
        self.assert_goes_together(name)
        self.assertFalse((self.folder / "twistd.json").exists())

    def kill(self, number: int) -> None:
        """Ends a process, if it is still there."""
        with contextlib.suppress(ProcessLookupError):
            os.kill(number, signal.SIGKILL)


class Asked(RecordingCase):
    """SIGUSR1 has the run so far written."""

    def ask(self, *words: str) -> None:
        """Asks while the program waits, and once more; it goes on, and ends by itself."""
        process = self.start("asked.py", *words)
        if words:
            self.assertEqual(process.stdout.readline(), "True\n")
        for count in (1, 2, 3):
            process.stdin.write(f"line {count}\n")
            process.stdin.flush()
            self.assertEqual(process.stdout.readline(), "made\n")
            if count == 3:
                break
            process.send_signal(signal.SIGUSR1)
            if words:
                self.assertEqual(process.stdout.readline(), "asked\n")
            self.wait_for(lambda: self.has_deferreds(count), "the run so far")
            self.assert_goes_together("asked")
            self.assertEqual(self.facts("asked")["ended"], "asked by SIGUSR1")
        process.stdin.close()
        self.assertEqual(process.wait(), 0)
        self.assertTrue(self.has_deferreds(3))
        self.assert_goes_together("asked")

    def has_deferreds(self, count: int) -> bool:
        """Whether the recording has so many Deferreds, and is whole."""
        if not self.is_kept("asked"):
            return False
        return self.text("asked.journal").count("\nfire") == count and self.facts("asked")["events"] >= 2 * count

    def test_it_goes_on(self) -> None:
        self.ask()

    def test_what_the_program_does_at_the_signal_follows(self) -> None:
        self.ask("itself")


class InCalls(RecordingCase):
    """Programs that end, or are asked, in the midst of what the real reactor runs."""

    def setUp(self) -> None:
        super().setUp()
        self.begun, self.goes_on = self.folder / "begun", self.folder / "goes_on"

    def wait_in_a_call(self) -> Forked:
        """Starts the program, and waits until it is in the second call of one advance."""
        process = self.start("waits_in_a_call.py", str(self.begun), str(self.goes_on))
        self.wait_for(self.begun.exists, "the call")
        return process

    def assert_of_the_beginning(self) -> None:
        """The script ends before the advance that runs both calls, since that hasn't ended."""
        self.assert_goes_together("waits_in_a_call")
        journal = self.text("waits_in_a_call.journal")
        self.assertIn('ok "start"', journal)
        self.assertNotIn('ok "first"', journal)
        self.assertIn('ok "second"', self.text("waits_in_a_call.whole.journal"))

    def test_a_signal_in_the_midst_of_an_advance(self) -> None:
        process = self.wait_in_a_call()
        process.send_signal(signal.SIGHUP)
        ended = self.end(process)
        self.assertEqual(ended.status, -signal.SIGHUP, ended.said)
        self.assert_of_the_beginning()
        self.assertRegex(ended.said, "the script is of the first [0-9]+ of [0-9]+ events, since an event was under way at the end")

    def test_what_is_asked_in_the_midst_of_an_advance(self) -> None:
        process = self.wait_in_a_call()
        process.send_signal(signal.SIGUSR1)
        self.wait_for(lambda: self.is_kept("waits_in_a_call"), "the run so far")
        self.assert_of_the_beginning()
        self.goes_on.touch()
        ended = self.end(process)
        self.assertEqual(ended.status, 0, ended.said)
        self.assert_goes_together("waits_in_a_call")
        journal = self.text("waits_in_a_call.journal")
        self.assertLess(journal.index('ok "second"'), journal.index('ok "third"'))
        self.assertFalse((self.folder / "waits_in_a_call.whole.journal").exists())

    def test_a_run_with_times_that_is_too_large_is_cut_at_an_event(self) -> None:
        ended = self.record("large_calls.py")
        self.assertEqual(ended.status, 0, ended.said)
        self.assert_goes_together("large_calls")
        made = [len(re.findall('fire #[0-9]+ ok \\["A', self.text(f"large_calls.{kind}"))) for kind in ("journal", "whole.journal")]
        self.assertEqual(made, [240, 320])


class Limits(RecordingCase):
    """Runs that are larger than a script may be."""

    def test_the_script_is_of_the_longest_beginning(self) -> None:
        for words, reason, events in (
            (("5200", "190", "1", "65"), "the script has more nodes than one may have", 10_153),
            (("270", "190", "200", "65"), "the journal weighs more than a script's may", 523),
        ):
            with self.subTest(reason=reason):
                ended = self.record("-o", "run", "--view", "large.py", *words)
                self.assertEqual(ended.status, 0, ended.said)
                told = f"the script is of the first {events} of {2 * int(words[0])} events, since {reason}"
                self.assertIn(f"{told}; ./deferreds prints the same", ended.said)
                self.assert_goes_together("run")
                whole = self.text("run.whole.journal").splitlines()
                if len(whole) < 1000:  # (the page of a longer run draws itself)
                    self.assertIn(told.replace("'", "&#x27;"), self.text("run.html"))
                self.assertEqual(len(whole), 3 * int(words[0]))
                self.assertEqual(len(self.events("run")), events)


class Heard(Messages):
    """Keeps what is said."""

    def __init__(self) -> None:
        super().__init__("record")
        self.lines: List[str] = []

    def say(self, text: str) -> None:
        """Keeps a line."""
        self.lines.append(text)


class Fixed:
    """A program that gives one answer, or none."""

    def __init__(self, given: Optional[Answer]) -> None:
        self._given = given

    def answer(self, script: str, batches: Optional[Batches] = None, most: int = MOST_BYTES) -> Answer:
        """The answer."""
        if self._given is None:
            raise Broken("it can't be run")
        return self._given

    def close(self) -> None:
        """Nothing is left to do."""


class Compared(RecordingCase):
    """The script is compared with what the program prints for it."""

    def keep(self, asked: Optional[Program]) -> "tuple[Status, str]":
        """Keeps the run of a small program; the status, and the last line that is said."""
        install()
        recorder = Recorder()
        with recorder.watching():
            defer.succeed(1)
        heard = Heard()
        keeping = Keeping(Place(str(self.folder / "run")), heard, True, asked)
        status = keeping.keep(Said(recorder), "status 0")
        return status, heard.lines[-1]

    def test_a_script_that_would_be_wrong_isnt_left(self) -> None:
        wrong = Answer(0, "new #0 other\nfire #0 ok 1\n#0 other ok 1\n", "")
        self.assertEqual(self.keep(None)[0], Status.RECORDED)
        self.assertIn("run.json", self.files())
        status, line = self.keep(Fixed(wrong))
        self.assertEqual(status, Status.REFUSED)
        self.assertRegex(line, "No script is left: it would be wrong, since ./deferreds prints line 1 otherwise: new #0 other and not")
        self.assertEqual(self.files(), ["run.html", "run.journal", "run.recording"])
        self.assertIn("fire #0 ok 1", self.text("run.journal"))

    def test_a_program_that_gives_no_answer_is_no_difference(self) -> None:
        for asked, why in ((None, "isn't here"), (Fixed(None), "it can't be run"), (Fixed(Answer(-1, "", "late")), "late")):
            with self.subTest(why=why):
                status, line = self.keep(asked)
                self.assertEqual(status, Status.RECORDED)
                self.assertRegex(line, f"not compared.*{why}")

    def test_a_difference_of_the_profile_is_named(self) -> None:
        ended = self.record("unpaused.py")
        self.assertEqual(ended.status, 0, ended.said)
        self.assertIn("./deferreds prints the same up to line 2, by unpause-at-zero of docs/TWISTED.md", ended.said)
        self.assertIn("unpaused.json", self.files())


class Behind(RecordingCase):
    """Behind an entry of docs/TWISTED.md real Twisted is asked, which runs the script."""

    #: entries that `behind_an_entry.py` comes to
    ENTRIES = ("unpause-at-zero", "cancelled-inline", "gather-fired-by-hand", "error-leaves-advance")

    def assert_printed_by_twisted(self, name: str, entry: str) -> None:
        """Real Twisted prints the journal for the script, as a Clock does where an error ends an advance."""
        script = (self.folder / f"{name}.json").read_bytes()
        self.assertEqual(run(script, None, entry == "error-leaves-advance").output, self.text(f"{name}.journal"))

    def test_a_run_that_real_twisted_prints_so_is_whole(self) -> None:
        for entry in self.ENTRIES:
            with self.subTest(entry=entry):
                ended = self.record("-o", entry, "behind_an_entry.py", entry, "whole")
                self.assertEqual(ended.status, 0, ended.said)
                self.assertRegex(ended.said, f"by {entry} of docs/TWISTED.md, and real Twisted the same, line for line\n")
                self.assertNotIn(f"{entry}.whole.journal", self.files())
                self.assert_printed_by_twisted(entry, entry)

    def test_a_run_that_it_prints_otherwise_is_cut_before_that(self) -> None:
        for entry in self.ENTRIES:
            with self.subTest(entry=entry):
                ended = self.record("-o", entry, "behind_an_entry.py", entry)
                self.assertEqual(ended.status, 0, ended.said)
                self.assertRegex(
                    ended.said,
                    rf"the script is of the first \d+ of \d+ events, since behind {entry} of docs/TWISTED.md real Twisted prints line \d+ "
                    r"otherwise: refuse #\d and not fire #\d ok 2; ",
                )
                self.assertIn(" ok 2\n", self.text(f"{entry}.whole.journal"))
                self.assertNotIn(" ok 2\n", self.text(f"{entry}.journal"))
                self.assert_printed_by_twisted(entry, entry)

    def test_on_a_real_reactor_and_with_cooperators_that_are_recorded_as_events(self) -> None:
        ended = self.record("-o", "run", "behind_an_entry_in_turns.py")
        self.assertEqual((ended.status, ended.printed), (0, "3\n"), ended.said)
        self.assertRegex(ended.said, r"further Cooperators are recorded as events")
        self.assertRegex(ended.said, r"the script is of the first \d+ of \d+ events, since behind .* ok 2; .* and real Twisted the same, line for line\n")
        self.assert_goes_together("run")

    def agreed(self, judge: Optional[Program]) -> Agreed:
        """How a run goes together with its journal that reaches an entry in its second event, by a judge in the place of real Twisted."""
        be_quiet()
        install()
        recorder = Recorder()
        with recorder.watching():
            defer.succeed(1)
            defer.Deferred().unpause()
            defer.succeed(2)
        self.said = Said(recorder)
        return agreed(self.said, Fixed(Answer(0, run(self.said.text.encode()).output.replace("fire #2", "unpause #1\nfire #2"), "")), twisted=lambda _: judge)

    def test_a_run_of_which_nothing_is_left_has_no_script(self) -> None:
        said, agreement = self.agreed(Fixed(Answer(0, "new #0 other\n", "")))
        self.assertEqual((said, agreement.is_wrong), (self.said, True))
        self.assertRegex(agreement.text, "^behind unpause-at-zero of docs/TWISTED.md real Twisted prints line 1 otherwise: new #0 other and not new #0 ")

    def test_where_real_twisted_gives_no_answer_nothing_behind_the_entry_is_kept(self) -> None:
        for judge, why in ((Fixed(None), "it can't be run"), (Fixed(Answer(-1, "", "", Lack("no answer within 5 seconds", True))), "no answer within 5"), (mock.Mock(answer=mock.Mock(side_effect=MemoryError)), "out of memory")):
            with self.subTest(why=why):
                said, agreement = self.agreed(judge)
                self.assertFalse(said.is_whole)
                self.assertLess(said.events, len(said.begins))
                self.assertRegex(said.too_large[-1].reason, f"^behind unpause-at-zero of docs/TWISTED.md nothing is compared, .*{why}")


class Outcomes(unittest.TestCase):
    """Outcomes by the lines of a journal alone."""

    def test_they_are_those_that_are_printed(self) -> None:
        count = 0
        for file in row_files():
            for row in read_rows(file):
                lines = row.output.splitlines()
                if row.status != 0 or ANY_LINES in lines:
                    continue
                journal = [line for line in lines if not line.startswith("#")]
                self.assertEqual(outcomes_of(journal), lines[len(journal) :], f"{row.file}: {row.name}")
                count += 1
        self.assertGreater(count, 2_000)


if __name__ == "__main__":
    unittest.main()
