"""Tests that are shaken, by `./record --shake --test`, by trial and by pytest."""

from __future__ import annotations

import importlib.util
import re
import shutil
import unittest

from .forked import environment, run
from .shaken_of import ShakenCase
from .test_shaken_programs import SECONDS, SHAKEN, TRIES

_HAS_PYTEST = importlib.util.find_spec("pytest") is not None


#: a test that fails if the folder of another run is there
_ALONE = """
import os
from twisted.trial.unittest import TestCase

class AloneTest(TestCase):
    def test_alone(self):
        self.assertEqual(os.listdir(os.pardir), [os.path.basename(os.getcwd())])
"""


class ShakenTestsTest(ShakenCase):
    """Each test is shaken alone."""

    def test_a_test_is_shaken_alone(self) -> None:
        shutil.copy(SHAKEN / "test_deposits.py", self.folder)
        words = ["--longest", "2000", "--only", "start test_deposits.py:29#1 1", "--no-cut", "--test", "test_deposits.DepositTest.test_two"]
        ended = self.record("--shake", "1", "--seed", "40", *words)
        self.assertEqual(ended.status, 1, ended.said)
        self.assertRegex(ended.said, r"twisted.trial.unittest.FailTest: \d+ != 130\n")
        self.assertEqual(self.scripts(), ["test_two"])
        self.assertNotIn("written", self.files())

    def test_all_tests_of_a_module_are_shaken_each_alone(self) -> None:
        shutil.copy(SHAKEN / "test_deposits.py", self.folder)
        ended = self.record("--shake", "4", "--shaken", "hold,order,cut", "--test", "test_deposits")
        self.assertEqual(ended.status, 2, ended.said)
        said = re.split(r"record: test_deposits\.", ended.said)[1:]
        self.assertEqual([part.split("\n")[0] for part in said], ["ConnectionTest.test_closed_at_the_end", "DepositTest.test_two", "HangingTest.test_hangs", "WrongTest.test_wrong"])
        # (a janitor that looks while something is held back calls the first one unclean)
        self.assertRegex(said[0], r"none of 4 shaken runs failed, [\d.]+ s; they met \d+ perturbations\n")
        self.assertIn("it is wrong\n", said[3])
        self.assertIn("nothing is shaken, since no plain run passes\n", said[3])
        self.assertEqual(self.files(), ["test_deposits.py"])
        last = r"4 tests, of which 1 met perturbations \((cut \d+, )?hold \d+(, order \d+)?\); 1 failed unshaken \(test_deposits\.WrongTest\.test_wrong\); 3 passed\n$"
        self.assertRegex(ended.said, last)

    def test_a_test_that_is_not_there_is_refused(self) -> None:
        ended = self.record("--shake", "3", "--test", "no_such_module")
        self.assertEqual(ended.status, 66)
        self.assertRegex(ended.said, "^record: no_such_module can't be loaded: .*\n$")

    def test_a_test_that_hangs_is_recorded_as_it_hangs(self) -> None:
        shutil.copy(SHAKEN / "test_deposits.py", self.folder)
        words = ["--longest", "1500", "--only", "start test_deposits.py:53#1 1", "--no-cut"]
        for seconds in ("5", "20"):  # (on a busy machine it may take five seconds until it can be asked for its recording)
            ended = self.record("--shake", "1", "--seed", "3", "--within", seconds, *words, "--test", "test_deposits.HangingTest.test_hangs")
            self.assertEqual(ended.status, 1, ended.said)
            self.assertIn(f": it takes longer than {seconds} s\n", ended.said)
            if "test_hangs.recording" in self.files():
                break
        self.assertEqual(self.facts("test_hangs")["ended"], "asked by SIGUSR1")

    def test_the_folder_of_a_run_is_removed_when_that_has_ended(self) -> None:
        (self.folder / "test_alone.py").write_text(_ALONE, encoding="utf-8")
        ended = self.record("--shake", "3", "--test", "test_alone")
        self.assertEqual(ended.status, 0, ended.said)
        self.assertIn("none of 3 shaken runs failed, ", ended.said)

    def test_trial_shakes_tests_on_a_reactor(self) -> None:
        shutil.copy(SHAKEN / "test_deposits.py", self.folder)
        words = ["--shake", "3", "--reactor", "select", "--deferreds-record", "out", "test_deposits.DepositTest", "test_deposits.ConnectionTest"]
        ran = run(["-m", "deferreds.twisted", "trial", *words], self.folder, environment(), seconds=SECONDS)
        self.assertEqual((ran.returncode, ran.stdout), (0, ""), ran.stderr)
        self.assertEqual(len(re.findall(r"none of 3 shaken runs failed, [\d.]+ s; they met \d+ perturbations?\n", ran.stderr)), 2, ran.stderr)
        for wrong, said in ((["--reactor", "nix", "test_deposits"], "there is no reactor nix"), ([], "--shake needs the name of a test")):
            refused = run(["-m", "deferreds.twisted", "trial", "--shake", "2", *wrong], self.folder, environment(), seconds=SECONDS)
            self.assertNotEqual(refused.returncode, 0)
            self.assertIn(said, refused.stderr)

    def test_trial_shakes_a_test_again_by_the_words_that_a_search_says(self) -> None:
        shutil.copy(SHAKEN / "test_deposits.py", self.folder)
        rows = [
            (["--shake", "2", "--seed", "7", "--only", "start nowhere.py:1#1 1", "--only", "start nowhere.py:2#1 1"], 0, "they met nothing that is shaken\n"),
            (["--shake", "2", "--within", "0.001", "--no-cut"], 2, "it takes longer than 0.001 s"),
            *[([*words], 1, f"{words[0]} is for --shake") for words in (["--seed", "7"], ["--only", "a"], ["--within", "9"], ["--fast"], ["--no-cut"])],
        ]
        for words, status, said in rows:
            ran = run(["-m", "deferreds.twisted", "trial", *words, "test_deposits.ConnectionTest"], self.folder, environment(), seconds=SECONDS)
            self.assertEqual((ran.returncode, said in ran.stdout + ran.stderr), (status, True), (words, ran.stdout, ran.stderr))

    @unittest.skipUnless(_HAS_PYTEST, "pytest isn't here")
    def test_pytest_shakes_each_test_that_it_finds(self) -> None:
        shutil.copy(SHAKEN / "test_deposits.py", self.folder)
        plugin = ["-m", "pytest", "-p", "deferreds.testing.pytest_plugin", "--deferreds-record", "out"]
        ran = run([*plugin, "--shake", "3", "-k", "two or wrong", "test_deposits.py"], self.folder, environment(), seconds=SECONDS)
        self.assertEqual(ran.returncode, 2, ran.stderr)
        said = re.split(r"pytest --shake: test_deposits\.py::", ran.stderr)[1:]
        self.assertEqual([part.split("\n")[0] for part in said], ["DepositTest::test_two", "WrongTest::test_wrong"])
        self.assertRegex(said[0], r"none of 3 shaken runs failed, [\d.]+ s; they met \d+ perturbations?\n")
        self.assertIn("nothing is shaken, since no plain run passes\n", said[1])
        self.assertEqual(self.files(), ["out", "test_deposits.py", "written"])
        for words, why in ((["--shake", "0"], "--shake: the number of runs is from 1 on"), (["--shake", "2", "no_such.py"], "--shake: no tests are found:"), (["--shake", "2", "--shake-within", "nan"], "--shake-within is a number of more than 0")):
            refused = run([*plugin, *words], self.folder, environment(), seconds=SECONDS)
            self.assertEqual(refused.returncode, 4, refused.stdout)
            self.assertIn(why, refused.stderr)

    @unittest.skipUnless(_HAS_PYTEST, "pytest isn't here")
    def test_pytest_records_a_test_that_hangs(self) -> None:
        hurried = (SHAKEN / "test_deposits.py").read_text(encoding="utf-8").replace("callLater(0.3,", "callLater(0.04,")
        (self.folder / "test_deposits.py").write_text(hurried, encoding="utf-8")
        plugin = ["-m", "pytest", "-p", "deferreds.testing.pytest_plugin"]
        for seconds in ("4", "15"):  # (on a busy machine it may take four seconds until it can be asked for its recording)
            words = ["--shake", "60", "--shake-within", seconds, "--shake-no-cut", "-k", "hangs"]
            ran = run([*plugin, *words, "test_deposits.py"], self.folder, environment(), seconds=SECONDS)
            self.assertEqual(ran.returncode, 1, ran.stderr)
            self.assertIn(f": it takes longer than {seconds} s\n", ran.stderr)
            if self.scripts():
                break
        self.assertEqual(self.scripts(), ["test_deposits.HangingTest.test_hangs"])
        self.assertEqual(self.facts("test_deposits.HangingTest.test_hangs")["ended"], "asked by SIGUSR1")
        self.assertIn(" unfired\n", self.text("test_deposits.HangingTest.test_hangs.journal"))

    @unittest.skipUnless(_HAS_PYTEST, "pytest isn't here")
    def test_pytest_records_a_run_that_fails(self) -> None:
        shutil.copy(SHAKEN / "test_deposits.py", self.folder)
        hurried = self.text("test_deposits.py").replace("later(0.5,", "later(0.02,")
        (self.folder / "test_deposits.py").write_text(hurried, encoding="utf-8")
        plugin = ["-m", "pytest", "-p", "deferreds.testing.pytest_plugin"]
        for _ in range(TRIES):
            words = ["--shake", "20", "--shake-no-cut", "test_deposits.py::DepositTest::test_two"]
            ran = run([*plugin, *words], self.folder, environment(), seconds=SECONDS)
            if "test_two.html shows the run that fails" in ran.stderr and "test_two.compared.html shows it beside" in ran.stderr:
                break
        self.assertEqual(ran.returncode, 1, ran.stderr)
        self.assertEqual(self.scripts(), ["test_deposits.DepositTest.test_two"])
        self.assertEqual(self.shaken_facts("test_deposits.DepositTest.test_two")["fails"], "its status is 1")
        self.assertIn("test_deposits.DepositTest.test_two.compared.html", self.files())


if __name__ == "__main__":
    unittest.main()
