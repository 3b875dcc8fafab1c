"""The parser of the arguments of all commands."""

from __future__ import annotations

import argparse
from typing import IO, NoReturn, Optional

from .ending import print_text, say

#: the status of a command whose arguments are wrong
USAGE = 64


class Parser(argparse.ArgumentParser):
    """Ends with status 64 if arguments are wrong. Says in one line, and by its status, that its help can't be written.

    The parser of Python goes on as if all were written, or fails, by its version.
    """

    def error(self, message: str) -> NoReturn:
        """Says what is wrong with the words, and ends."""
        say(f"{self.format_usage()}{self.prog}: error: {message}")
        raise SystemExit(USAGE)

    def print_help(self, file: Optional[IO[str]] = None) -> None:
        """Prints the help. Raises OutputFailed if it can't be written."""
        print_text(self.format_help())
