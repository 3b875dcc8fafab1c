"""How commands end that are interrupted, or whose output nobody reads."""

from __future__ import annotations

import os
import signal
import subprocess
import sys
import tempfile
import unittest
from pathlib import Path
from typing import Dict, List

from deferreds.checkout import TOP

_JOURNAL = TOP / "examples" / "python" / "workers.journal"
_COMMAND = [sys.executable, "-m", "deferreds.view.command"]


def environment() -> Dict[str, str]:
    """That of the command, which finds the package."""
    return {**os.environ, "PYTHONPATH": str(TOP / "python"), "PYTHONDONTWRITEBYTECODE": "1"}


class Ending(unittest.TestCase):
    """A user sees no traceback."""

    def closed_pipe(self, words: List[str]) -> "tuple[int, str]":
        """Status and errors of the command, where nobody reads its output."""
        reader, writer = os.pipe()
        os.close(reader)
        try:
            ran = subprocess.run(
                [*_COMMAND, *words], stdout=writer, stderr=subprocess.PIPE, text=True, env=environment(), check=False
            )
        finally:
            os.close(writer)
        return ran.returncode, ran.stderr

    def test_a_closed_pipe_ends_the_command_without_a_word(self) -> None:
        self.assertEqual(self.closed_pipe(["--text", "--journal", str(_JOURNAL)]), (4, ""))

    def test_a_closed_pipe_ends_the_help_without_a_word(self) -> None:
        status, errors = self.closed_pipe(["--help"])
        # (some versions of argparse ignore what can't be written)
        self.assertIn(status, (0, 4))
        self.assertEqual(errors, "")

    def in_shell(self, line: str, unbuffered: str = "") -> "tuple[int, str]":
        """Status and errors of a line of the shell, at the top of the repository."""
        ran = subprocess.run(
            ["sh", "-c", line], cwd=TOP, stdout=subprocess.DEVNULL, stderr=subprocess.PIPE, text=True, check=False,
            env={**os.environ, "PYTHONUNBUFFERED": unbuffered},
        )
        return ran.returncode, ran.stderr

    def test_output_that_can_t_be_written_is_told_in_a_line(self) -> None:
        for unbuffered in ("", "1"):
            for words in ("--text --journal examples/python/workers.journal", "-o - --journal examples/python/workers.journal"):
                self.assertEqual(
                    self.in_shell(f"./view {words} >/dev/full", unbuffered),
                    (4, "view: standard output can't be written: No space left on device\n"),
                )
                self.assertEqual(
                    self.in_shell(f"./view {words} >&-", unbuffered),
                    (4, "view: standard output can't be written: Bad file descriptor\n"),
                )

    def test_help_that_can_t_be_written_is_told_in_a_line(self) -> None:
        for unbuffered in ("", "1"):
            self.assertEqual(
                self.in_shell("./view --help >/dev/full", unbuffered),
                (4, "view: standard output can't be written: No space left on device\n"),
            )

    def test_errors_that_can_t_be_written_change_no_status(self) -> None:
        journal = "--journal examples/python/workers.journal"
        with tempfile.TemporaryDirectory() as folder:
            for words, status in (
                (f"-o {folder}/x.html {journal}", 0), (f"-o {folder}/x.html --journal {folder}/nothing", 66), ("--from 0", 64), ("--nosuch", 64),
                (f"--text {journal} >/dev/full", 4), (f"--text {journal} >&-", 4), (f"--text --deferred nobody {journal}", 66),
                (f"--compare examples/first.json examples/first.json -o {folder}/y.html", 0), (f"-o {folder} {journal} --places {folder}/x.html", 66),
            ):  # fmt: skip
                for errors in ("2>/dev/full", "2>&-"):
                    self.assertEqual(self.in_shell(f"./view {words} {errors}"), (status, ""), f"{words} {errors}")

    def test_a_closed_output_that_isn_t_used_is_no_failure(self) -> None:
        with tempfile.TemporaryDirectory() as folder:
            status, errors = self.in_shell(f"./view -o {folder}/x.html --journal examples/python/workers.journal >&-")
            self.assertEqual((status, errors.count("\n")), (0, 1))
            self.assertTrue(Path(folder, "x.html").read_text(encoding="utf-8").startswith("<!doctype html>"))

    def test_an_input_that_can_t_be_read_is_told_in_a_line(self) -> None:
        closed = (66, "view: standard input can't be read: Bad file descriptor\n")
        self.assertEqual(self.in_shell("./view --text <&-"), closed)
        self.assertEqual(self.in_shell("./view --text --journal - <&-"), closed)
        self.assertEqual(self.in_shell("./view --text <."), (66, "view: standard input is a directory\n"))

    def test_commands_run_through_a_symlink(self) -> None:
        with tempfile.TemporaryDirectory() as folder:
            for name in ("view", "record", "conform", "on_twisted", "check"):
                Path(folder, name).symlink_to(TOP / name)
                Path(folder, f"{name}2").symlink_to(name)
                status, errors = self.in_shell(f"{folder}/{name}2 --help")
                self.assertTrue(status == 0 or "has Twisted" in errors, (name, errors))

    def test_an_interrupted_command_ends_by_the_signal_and_says_nothing(self) -> None:
        code = (
            "import os, signal, sys\nfrom deferreds.ending import ended\n"
            "signal.signal(signal.SIGINT, signal.default_int_handler)\n"
            "sys.exit(ended(lambda: os.kill(os.getpid(), signal.SIGINT) or 0, 'view'))\n"
        )
        ran = subprocess.run(
            [sys.executable, "-c", code], capture_output=True, text=True, env=environment(), timeout=60, check=False
        )
        self.assertEqual((ran.returncode, ran.stdout, ran.stderr), (-signal.SIGINT, "", ""))


if __name__ == "__main__":
    unittest.main()
