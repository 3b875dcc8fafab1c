"""How much slower tests are that are recorded."""

from __future__ import annotations

import os
import sys
import tempfile
import unittest
from pathlib import Path
from unittest import mock

from deferreds.twisted.programs import Broken
from deferreds.twisted.recording.programs import tests_of
from deferreds.twisted.recording.timing import slownesses_of_tests

_TESTS = """
import os
from twisted.internet import defer
from twisted.trial import unittest

class Case(unittest.SynchronousTestCase):
    def test_0_fires(self):
        print("fired", flush=True)
        defer.Deferred().addCallback(str).callback(1)

    def test_1_nothing(self):
        pass

    def test_2_fires(self):
        defer.Deferred().callback(1)

    def test_3_ends(self):
        os._exit(3)
"""

_NAMES = ("test_0_fires", "test_1_nothing", "test_2_fires", "test_3_ends")


class TestsSlowness(unittest.TestCase):
    """What is timed of tests, each in two processes."""

    def setUp(self) -> None:
        folder = tempfile.TemporaryDirectory()
        self.addCleanup(folder.cleanup)
        package = Path(folder.name, "timed")
        package.mkdir()
        for name in ("__init__", "helping", "test_one", "test_two"):
            Path(package, f"{name}.py").write_text(_TESTS, encoding="utf-8")
        path = [folder.name, *filter(None, sys.path)]
        for patch in (mock.patch.dict(os.environ, PYTHONPATH=os.pathsep.join(path)), mock.patch.object(sys, "path", path)):
            patch.start()
            self.addCleanup(patch.stop)
        self.addCleanup(self.forget_package)

    def forget_package(self) -> None:
        """Has the next test load the package again."""
        for name in [name for name in sys.modules if name.partition(".")[0] == "timed"]:
            del sys.modules[name]

    def test_each_test_that_uses_deferreds_is_timed_bare_and_recorded(self) -> None:
        found = slownesses_of_tests("timed.test_one", runs=1)
        first, third = next(found), next(found)
        self.assertEqual(first[:2], ("timed.test_one", "timed.test_one.Case.test_0_fires"))
        self.assertEqual(third.test, "timed.test_one.Case.test_2_fires")
        self.assertGreater(first.bare, 0)
        self.assertEqual(first.times, first.recorded / first.bare)
        with self.assertRaisesRegex(Broken, r"^the process that runs timed\.test_one has ended$"):
            next(found)

    def test_some_tests_of_a_module_can_be_measured_alone(self) -> None:
        [found] = slownesses_of_tests("timed.test_one", runs=1, every=4)
        self.assertEqual(found.test, "timed.test_one.Case.test_0_fires")

    def test_a_package_has_the_tests_of_all_its_modules_of_tests(self) -> None:
        tests = [f"{cls.__module__}.{cls.__name__}.{method}" for cls, method in tests_of("timed")]
        self.assertEqual(tests, [f"timed.{module}.Case.{name}" for module in ("test_one", "test_two") for name in _NAMES])


if __name__ == "__main__":
    unittest.main()
