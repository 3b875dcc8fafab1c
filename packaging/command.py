"""What the commands of this folder have in common with all others: the parser of their arguments, and how they end."""

from __future__ import annotations

import sys

from project import TOP

sys.path.insert(0, str(TOP / "python"))

from deferreds.arguments import USAGE, Parser  # noqa: E402
from deferreds.ending import run_command  # noqa: E402

__all__ = ["USAGE", "Parser", "run_command"]
