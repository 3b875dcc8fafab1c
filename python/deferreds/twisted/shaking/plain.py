"""Runs a program as Python alone does, in a process that has imported what records."""

from __future__ import annotations

import sys
from typing import List

from ..recording.main_module import run_as_main
from ..recording.recorder import STACK_ROOM


def run_plain(target: str, words: List[str], is_module: bool) -> int:
    """Runs a file or a module as `__main__` to its end, and gives its status."""
    sys.setrecursionlimit(sys.getrecursionlimit() * STACK_ROOM)  # (of which the program sees its part)
    return run_as_main(target, words, is_module)
