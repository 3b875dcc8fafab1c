"""Which Twisteds are refused, and that this happens before anything of the user's is run."""

from __future__ import annotations

import contextlib
import io
import json
import os
import subprocess
import sys
import unittest
from typing import Dict, NamedTuple, Sequence
from unittest import mock

import twisted

from deferreds.twisted import self_test
from deferreds.twisted.__main__ import COMMANDS, main
from deferreds.twisted.instruments import deferreds, inline, install
from deferreds.twisted.known import UnknownTwisted, refuse_unusable
from deferreds.twisted.running import be_quiet

#: what each command is given here, of which nothing may be run
WORDS = {
    "conform": ["--rows", "--", "false"],
    "measure": [],
    "measure_shaking": [__file__],
    "on_twisted": [],
    "reached": [],
    "record": ["-o", "/dev/null/run", __file__],
    "recorded_rows": ["--check"],
    "trial": ["--deferreds-record", "/dev/null/run", __name__],
}

#: has commands be run where something is otherwise in Twisted, and prints how each has ended
WITH = """
import contextlib, io, json, sys, twisted
from twisted.internet import defer
{}
from deferreds.twisted.__main__ import main
for words in json.loads(sys.argv[1]):
    with contextlib.redirect_stdout(io.StringIO()) as output, contextlib.redirect_stderr(io.StringIO()) as errors:
        status = main(words)
    print(json.dumps([status, output.getvalue(), errors.getvalue()]))
"""


class Ran(NamedTuple):
    """How a command has ended, and what it has written."""

    status: int
    output: str
    errors: str


def ran(change: str, names: Sequence[str]) -> Dict[str, Ran]:
    """Commands, where this is changed in Twisted before them."""
    child = subprocess.run(
        [sys.executable, "-c", WITH.format(change), json.dumps([[name, *WORDS[name]] for name in names])],
        env={**os.environ, "PYTHONPATH": os.pathsep.join(sys.path)},
        stdin=subprocess.DEVNULL,
        capture_output=True,
        text=True,
        check=True,
    )
    return {name: Ran(*json.loads(line)) for name, line in zip(names, child.stdout.splitlines())}


class SelfTest(unittest.TestCase):
    """What is logged of the script and of the program."""

    def setUp(self) -> None:
        be_quiet()
        install()
        self.addCleanup(self_test.check.cache_clear)

    def assert_refused(self, at: str) -> None:
        """The self-test finds a difference at this line."""
        self_test.check.cache_clear()
        with self.assertRaises(UnknownTwisted) as raised:
            install()
        said = str(raised.exception)
        self.assertTrue(said.startswith(f"Twisted {twisted.__version__} isn't known: "), said)
        self.assertIn(f"where `{at}` has to be", said)
        self.assertEqual(len(said.splitlines()), 1)

    def test_the_instruments_know_the_twisted_that_is_there(self) -> None:
        self.assertIsNone(self_test.difference())

    def test_it_leaves_the_choice_of_a_reactor_to_the_program(self) -> None:
        program = (
            "import sys, twisted.internet\nfrom deferreds.twisted.instruments import install\ninstall()\n"
            "print('twisted.internet.reactor' in sys.modules, hasattr(twisted.internet, 'reactor'))"
        )
        environment = {**os.environ, "PYTHONPATH": os.pathsep.join(sys.path)}
        said = subprocess.run([sys.executable, "-c", program], env=environment, capture_output=True, check=True).stdout
        self.assertEqual(said, b"False False\n")

    def test_an_await_that_isnt_seen(self) -> None:
        with mock.patch.dict(deferreds.special_pairs):
            for name in inline.AWAITS:
                del deferreds.special_pairs[name]
            self.assert_refused("await #1 #0")

    def test_a_cancelled_body_that_isnt_seen(self) -> None:
        for name in ("_MAKERS_OF_INLINE", "_HANDLERS_OF_CANCELS"):
            with mock.patch.object(deferreds, name, ()):
                self.assert_refused("cancel #2")

    def test_a_deferred_that_succeed_makes_and_that_isnt_seen(self) -> None:
        with mock.patch("twisted.internet.defer.succeed", self_test.Deferred):
            self.assert_refused("fire #4 ok 3")

    def test_a_command_says_so_in_one_line_and_runs_nothing(self) -> None:
        change = (
            "from deferreds.twisted.instruments import inline\n"
            "inline.AWAITS = ()  # as where Twisted has another name for it"
        )
        for name, command in ran(change, COMMANDS).items():
            with self.subTest(name):
                self.assertEqual((command.status, command.output), (70, ""))
                self.assertIn(f"Twisted {twisted.__version__} isn't known: ", command.errors)
                self.assertEqual(len(command.errors.splitlines()), 1, command.errors)


class Refused(unittest.TestCase):
    """Twisteds that have other names, or are older."""

    def test_an_older_one(self) -> None:
        for version in ("21.7.0", "22.2.0rc1", "9.0.0"):
            with mock.patch("twisted.__version__", version):
                self.assertRaisesRegex(UnknownTwisted, f"^Twisted {version} .*older than 22.4", refuse_unusable)
        for version in ("22.4.0", "22.4.0rc1", "24.11.0.post0", "100.1"):
            with mock.patch("twisted.__version__", version):
                refuse_unusable()

    def test_a_command_names_the_older_version(self) -> None:
        command = ran("twisted.__version__ = '21.7.0'", ["on_twisted"])["on_twisted"]
        self.assertEqual((command.status, command.output), (70, ""))
        self.assertRegex(command.errors, r"^[^ ]*on_twisted: Twisted 21\.7\.0 isn't known")
        self.assertEqual(len(command.errors.splitlines()), 1, command.errors)

    def test_a_command_names_the_version_in_which_a_name_is_missing(self) -> None:
        command = ran("del defer._cancellableInlineCallbacks", ["record"])["record"]
        self.assertEqual((command.status, command.output), (70, ""))
        self.assertIn(f"record: Twisted {twisted.__version__} isn't known: ", command.errors)
        self.assertEqual(len(command.errors.splitlines()), 1, command.errors)

    def test_a_command_names_the_version_that_this_python_cant_import(self) -> None:
        change = (
            "import importlib.abc\n"
            "class Fails(importlib.abc.MetaPathFinder):\n"
            "    def find_spec(self, name, path, target=None):\n"
            "        if name == 'twisted.internet.task':\n"
            "            raise TypeError('no such argument')\n"
            "sys.meta_path.insert(0, Fails())"
        )
        for name, command in ran(change, COMMANDS).items():
            with self.subTest(name):
                self.assertEqual((command.status, command.output), (70, ""))
                self.assertIn("can't import it: no such argument; ", command.errors)
                self.assertEqual(len(command.errors.splitlines()), 1, command.errors)

    def test_a_command_that_isnt_there(self) -> None:
        for words in ([], ["nothing"]):
            with contextlib.redirect_stderr(io.StringIO()) as errors:
                self.assertEqual(main(words), 64)
            self.assertEqual(len(errors.getvalue().splitlines()), 1)


if __name__ == "__main__":
    unittest.main()
