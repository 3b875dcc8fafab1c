"""`deferreds-trial --deferreds-record FOLDER [WORDS OF TRIAL..]`: trial, which leaves recordings of tests."""

from __future__ import annotations

from typing import List

from ...testing import trial


def main(words: List[str]) -> int:
    """The command."""
    return trial.main(words)
