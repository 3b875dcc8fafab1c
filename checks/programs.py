"""The program that is checked, and runs of it."""

from __future__ import annotations

import os
import subprocess
import sys
from concurrent.futures import ThreadPoolExecutor
from pathlib import Path
from typing import Callable, Iterable, List, NamedTuple, Optional, TypeVar

from deferreds.program import NOT_RUN, NotRun, built

TOP = Path(__file__).resolve().parent.parent

_SECONDS = 60
_NO_END = -1
_Case = TypeVar("_Case")


class Ran(NamedTuple):
    """How a run ended, and what it wrote."""

    status: int
    output: str
    errors: str


def program_here() -> Path:
    """The program that the launcher runs: built from these sources, or released for them."""
    try:
        return built()
    except NotRun as why:
        print(f"check: {why}", file=sys.stderr)
        sys.exit(NOT_RUN)


def run(program: Path, words: List[str], script: str) -> Ran:
    """Runs the program on a script. A run that has no end in a minute has no status of a program."""
    command = [str(program), *words]
    try:
        ran = subprocess.run(command, input=script.encode(), capture_output=True, timeout=_SECONDS, check=False)
    except subprocess.TimeoutExpired:
        return Ran(_NO_END, "", f"no end after {_SECONDS} s")
    return Ran(ran.returncode, ran.stdout.decode("utf-8", "replace"), ran.stderr.decode("utf-8", "replace"))


def first_difference(expected: str, found: str) -> str:
    """The first line in which two texts differ."""
    expected_lines, found_lines = expected.split("\n"), found.split("\n")
    for number in range(max(len(expected_lines), len(found_lines))):
        wanted, got = (lines[number] if number < len(lines) else "nothing" for lines in (expected_lines, found_lines))
        if wanted != got:
            return f"line {number + 1} is {got[:200]!r}, not {wanted[:200]!r}"
    return "nothing differs"


def run_all(cases: Iterable[_Case], check: Callable[[_Case], Optional[str]], what: str) -> int:
    """Checks all cases side by side, prints what is wrong, and returns the status to end with."""
    passed = failed = 0
    with ThreadPoolExecutor(os.cpu_count() or 1) as pool:
        for wrong in pool.map(check, cases):
            if wrong is None:
                passed += 1
            else:
                failed += 1
                print(wrong)
    print(f"{what}: {passed} passed, {failed} failed")
    return 0 if failed == 0 and passed > 0 else 1
