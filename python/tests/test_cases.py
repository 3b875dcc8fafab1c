"""Tests that are recorded: on the real reactor, which trial has run, or on one whose time is virtual."""

from __future__ import annotations

import contextlib
import io
import json
import os
import subprocess
import sys
import tempfile
import unittest
from pathlib import Path
from types import ModuleType
from typing import Any, List, Tuple

from deferreds.twisted.answers import compared
from deferreds.twisted.programs import Answer, ours
from deferreds.twisted.recording.case import TestRun, record_test
from deferreds.twisted.recording.programs import tests_of
from deferreds.twisted.recording.reactor import VirtualReactor, in_place_of_the_real
from deferreds.twisted.recording.saying import Said
from deferreds.twisted.running import be_quiet
from deferreds.twisted.telling import KINDS

from .test_real_reactor import PROGRAMS


class Cases(unittest.TestCase):
    """Tests that wait."""

    def setUp(self) -> None:
        be_quiet()
        sys.path.insert(0, os.fspath(PROGRAMS))
        self.addCleanup(sys.path.remove, os.fspath(PROGRAMS))

    def recorded(self, name: str, virtual: bool = False) -> Tuple[TestRun, Said]:
        """How the test went, and its recording, which the program reproduces."""
        [(cls, method)] = tests_of(f"waiting_cases.{name}")
        with contextlib.redirect_stdout(io.StringIO()):
            run = record_test(cls, method, KINDS, virtual)
        said = Said(run.recorder)
        self.assertEqual(said.problems, [])
        self.assertIsNone(compared(ours().answer(said.text), Answer(0, said.output, "")))
        return run, said

    def notes(self, said: Said) -> List[str]:
        """What the test has printed."""
        return [json.loads(line.split(" ", 1)[1]) for line in said.journal if line.startswith("note ")]

    def test_all_parts_are_recorded(self) -> None:
        run, said = self.recorded("WaitingCase.test_answer")
        self.assertEqual((run.passed, run.why), (True, ""))
        self.assertEqual(self.notes(said), ["set up", "ready", "answered", "cleaned", "tear down"])
        self.assertTrue(said.with_times)
        self.assertEqual([line for line in said.journal if line.endswith(" ok []")], [], "the reactor starts with a list of its own")

    def test_what_fails_is_told_to_have_failed(self) -> None:
        run, said = self.recorded("WaitingCase.test_failure")
        self.assertEqual((run.passed, run.why.replace("builtins.", "")), (False, "ValueError: no answer"))
        self.assertTrue(any(line.endswith('fail ValueError "no answer"') for line in said.journal))

    def test_a_test_that_runs_out_of_time_is_recorded_up_to_that(self) -> None:
        run, said = self.recorded("WaitingCase.test_no_answer")
        self.assertFalse(run.passed)
        self.assertIn("still running at 0.2 secs", run.why)
        self.assertIn("TimeoutError", self.notes(said))  # trial fires what the test has given, and so does this

    def test_what_has_come_already_is_waited_for_by_nobody(self) -> None:
        run, said = self.recorded("WaitingCase.test_at_once")
        self.assertTrue(run.passed)
        self.assertEqual(self.notes(said), ["set up", "ready", "1", "cleaned", "tear down"])

    def test_a_generator_is_refused_as_trial_refuses_it(self) -> None:
        run, said = self.recorded("WaitingCase.test_generator")
        self.assertEqual((run.passed, self.notes(said)), (False, ["set up", "ready", "cleaned", "tear down"]))
        self.assertIn("is a generator function", run.why)

    def test_virtual_time(self) -> None:
        run, said = self.recorded("VirtualCase.test_time", virtual=True)
        self.assertTrue(run.passed)
        self.assertIn("advance 3600", said.journal)

    def test_what_a_virtual_reactor_has_not_is_named(self) -> None:
        [(cls, method)] = tests_of("waiting_cases.VirtualCase.test_sockets")
        run = record_test(cls, method, KINDS, True)
        self.assertIn("a reactor whose time is virtual (--virtual) has no listenTCP", run.why)


class InPlaceOfTheReal(unittest.TestCase):
    """A reactor whose time is virtual, in the place of the real one."""

    def test_it_stands_in_every_module_that_has_imported_the_real_one(self) -> None:
        from twisted.internet import reactor

        user: Any = ModuleType("user_of_the_reactor")
        user.clock = user.reactor = reactor
        sys.modules[user.__name__] = user
        self.addCleanup(sys.modules.pop, user.__name__)
        virtual = VirtualReactor()
        with in_place_of_the_real(virtual):
            from twisted.internet import reactor as other

            self.assertEqual([user.clock, user.reactor, other], [virtual] * 3)
        self.assertEqual([user.clock, user.reactor], [reactor] * 2)

    def test_what_it_has_not_is_no_attribute(self) -> None:
        virtual = VirtualReactor()
        self.assertFalse(hasattr(virtual, "spawnProcess"))
        with self.assertRaisesRegex(AttributeError, r"\(--virtual\) has no spawnProcess$"):
            virtual.spawnProcess()


class Commands(unittest.TestCase):
    """`./record` of a test, and of trial."""

    def record(self, folder: str, *words: str) -> "subprocess.CompletedProcess[str]":
        """Runs the command."""
        return subprocess.run(
            [sys.executable, "-m", "deferreds.twisted", "record", "-o", os.path.join(folder, "run"), *words],
            cwd=folder,
            env={**os.environ, "PYTHONPATH": os.pathsep.join([os.fspath(PROGRAMS), *filter(None, sys.path)])},
            capture_output=True,
            text=True,
            timeout=120,
            check=False,
        )

    def assert_same(self, folder: str) -> None:
        """The program reproduces what was recorded."""
        script, journal = (Path(folder, f"run.{kind}").read_text(encoding="utf-8") for kind in ("json", "journal"))
        self.assertEqual(ours().answer(script).output, journal)

    def test_a_test(self) -> None:
        with tempfile.TemporaryDirectory() as folder:
            ran = self.record(folder, "--test", "waiting_cases.WaitingCase.test_answer")
            self.assertEqual(ran.returncode, 0, ran.stderr)
            self.assert_same(folder)

    def test_a_test_under_the_reactor_of_asyncio(self) -> None:
        with tempfile.TemporaryDirectory() as folder:
            text = "from twisted.internet import asyncioreactor\nasyncioreactor.install()\nfrom waiting_cases import WaitingCase\n"
            Path(folder, "cases_of_asyncio.py").write_text(text, encoding="utf-8")
            ran = self.record(folder, "--test", "cases_of_asyncio.WaitingCase.test_answer")
            self.assertEqual(ran.returncode, 0, ran.stderr)
            self.assert_same(folder)

    def test_trial_is_a_program_like_others(self) -> None:
        with tempfile.TemporaryDirectory() as folder:
            ran = self.record(folder, "-m", "twisted.trial", "waiting_cases.WaitingCase.test_answer")
            self.assertEqual(ran.returncode, 0, ran.stderr)
            self.assertIn("PASSED", ran.stdout)
            self.assert_same(folder)


if __name__ == "__main__":
    unittest.main()
