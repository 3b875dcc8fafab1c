"""How each command of the repository ends whose help can't be written, or is read by nobody."""

from __future__ import annotations

import os
import subprocess
import unittest
from concurrent.futures import ThreadPoolExecutor
from itertools import product
from pathlib import Path
from typing import Iterator, NamedTuple

from programs import TOP

#: the folders that have commands
_FOLDERS = (".", "bench", "checks", "faults", "packaging", "python", "wrapping")
#: the commands that have no help
_WITHOUT_HELP = {"packaging/set_version.py", "python/check_types", "python/recorded_rows", "python/twisted_of_suite"}
#: those that take no words, and do their work, which is more than a test may
_WITHOUT_WORDS = {"packaging/try_in_debian", "python/ci", "python/view_ci"}
#: the program of the launcher has words of its own for it
_WRITE_FAILED = {"deferreds": "write failed\n"}
_NO_TWISTED, _WRONG_WORDS, _NOT_WRITTEN = 70, 64, 4
_SECONDS = 120


class Asked(NamedTuple):
    """A command, and where its help goes."""

    command: str
    output: str
    unbuffered: str

    @property
    def line(self) -> str:
        """The line of the shell, whose status is that of the command."""
        return f"./{self.command} --help {self.output}"


class Ended(NamedTuple):
    """How a command has ended, and what it has written to standard error."""

    status: int
    errors: str


def commands() -> Iterator[str]:
    """Yields each executable file of the repository that takes words."""
    for folder in _FOLDERS:
        for path in sorted((TOP / folder).iterdir()):
            name = str(path.relative_to(TOP))
            if path.is_file() and os.access(path, os.X_OK) and name not in _WITHOUT_WORDS:
                yield name


def environment(asked: Asked) -> "dict[str, str]":
    """That of the command."""
    return {**os.environ, "PYTHONUNBUFFERED": asked.unbuffered, "PYTHONDONTWRITEBYTECODE": "1"}


def ended(asked: Asked) -> Ended:
    """Runs a command whose output can't be written."""
    ran = subprocess.run(
        ["sh", "-c", asked.line], cwd=TOP, stdin=subprocess.DEVNULL, stdout=subprocess.DEVNULL, stderr=subprocess.PIPE, text=True,
        env=environment(asked), timeout=_SECONDS, check=False,
    )  # fmt: skip
    return Ended(ran.returncode, ran.stderr)


def ended_unread(asked: Asked) -> Ended:
    """Runs a command whose output goes to a pipe that nobody reads."""
    reader, writer = os.pipe()
    os.close(reader)
    try:
        ran = subprocess.run(
            ["sh", "-c", asked.line], cwd=TOP, stdin=subprocess.DEVNULL, stdout=writer, stderr=subprocess.PIPE, text=True,
            env=environment(asked), timeout=_SECONDS, check=False,
        )  # fmt: skip
    finally:
        os.close(writer)
    return Ended(ran.returncode, ran.stderr)


def is_left_out(asked: Asked, end: Ended) -> bool:
    """Whether a command printed no help: it has none, or needs Twisted, which isn't here."""
    if asked.command in _WITHOUT_HELP:
        return end.status == _WRONG_WORDS and end.errors.count("\n") == 1
    return end.status == _NO_TWISTED and "Twisted" in end.errors


class Help(unittest.TestCase):
    """Nobody sees a traceback."""

    def test_all_commands_are_found(self) -> None:
        found = set(commands())
        self.assertLessEqual(_WITHOUT_HELP, found)
        self.assertLessEqual({"check", "conform", "deferreds", "faults/sweep.py", "make_release", "python/trial", "record", "view"}, found)
        self.assertTrue(all((TOP / name).is_file() for name in _WITHOUT_WORDS))

    def test_help_that_can_t_be_written_is_told_in_a_line(self) -> None:
        asked = [Asked(*each) for each in product(commands(), (">/dev/full", ">&-"), ("", "1"))]
        with ThreadPoolExecutor(2) as pool:
            for each, end in zip(asked, pool.map(ended, asked)):
                with self.subTest(each.line, unbuffered=each.unbuffered):
                    if is_left_out(each, end):
                        continue
                    reason = "No space left on device" if "full" in each.output else "Bad file descriptor"
                    line = f"{Path(each.command).name}: standard output can't be written: {reason}\n"
                    self.assertEqual(end, (_NOT_WRITTEN, _WRITE_FAILED.get(each.command, line)))

    def test_help_that_nobody_reads_ends_the_command_without_a_word(self) -> None:
        asked = [Asked(*each) for each in product(commands(), ("",), ("", "1"))]
        with ThreadPoolExecutor(2) as pool:
            for each, end in zip(asked, pool.map(ended_unread, asked)):
                with self.subTest(each.line, unbuffered=each.unbuffered):
                    if not is_left_out(each, end):
                        self.assertEqual(end, (_NOT_WRITTEN, _WRITE_FAILED.get(each.command, "")))


if __name__ == "__main__":
    unittest.main()
