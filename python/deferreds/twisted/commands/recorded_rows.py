"""`python/recorded_rows [--check]`: writes crates/test_rows/data/twisted.rows from the output of real Twisted.

With `--check` nothing is written, and the status is 0 exactly if the file is that output.
"""

from __future__ import annotations

import sys
from typing import List

import twisted

from ..instruments import install
from ..recorded_rows import ROWS, Quirky, file_of_rows
from ..running import be_quiet


def main(words: List[str]) -> int:
    """The command."""
    if words not in ([], ["--check"]):
        print("usage: recorded_rows [--check]", file=sys.stderr)
        return 64
    be_quiet()
    install()
    try:
        text = file_of_rows()
    except Quirky as quirky:
        print(f"recorded_rows: {quirky}", file=sys.stderr)
        return 1
    if not words:
        ROWS.write_text(text, encoding="utf-8")
        return 0
    same = ROWS.read_text(encoding="utf-8") == text
    given = f"what Twisted {twisted.__version__} gives"
    print(f"{ROWS.name} {'is' if same else 'is not'} {given}")
    return 0 if same else 1
