#!/usr/bin/env python3
"""`set_version.py VERSION`: sets the version in pyproject.toml, from which the wheel and Debian's package take theirs."""

from __future__ import annotations

import re
import sys
from typing import List

from command import run_command
from project import PYPROJECT

_FORM = re.compile(r"(0|[1-9][0-9]*)(\.(0|[1-9][0-9]*)){2}")
_LINE = re.compile(r'^version = "[^"]*"$', re.MULTILINE)


def main(words: List[str]) -> int:
    """The command."""
    if len(words) != 1 or _FORM.fullmatch(words[0]) is None:
        print("usage: set_version.py VERSION, which is three numbers, as 0.1.0", file=sys.stderr)
        return 64
    text = PYPROJECT.read_text(encoding="utf-8")
    changed, count = _LINE.subn(f'version = "{words[0]}"', text)
    if count != 1:
        print(f"set_version.py: {PYPROJECT.name} has {count} lines of a version", file=sys.stderr)
        return 1
    PYPROJECT.write_text(changed, encoding="utf-8")
    return 0


if __name__ == "__main__":
    run_command(lambda: main(sys.argv[1:]), "set_version.py")
