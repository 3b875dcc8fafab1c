"""`python3 -m deferreds.twisted COMMAND ..`: runs a command that needs Twisted, with the words that follow it."""

from __future__ import annotations

import sys
from typing import List

from ..commands import run_on_twisted

COMMANDS = ("conform", "measure", "measure_shaking", "on_twisted", "reached", "record", "recorded_rows", "trial")


def main(words: List[str]) -> int:
    """Runs the command that the first word names."""
    if not words or words[0] not in COMMANDS:
        print(f"usage: python3 -m deferreds.twisted {{{','.join(COMMANDS)}}} ..", file=sys.stderr)
        return 64
    return run_on_twisted(words[0], words[1:])


if __name__ == "__main__":
    sys.exit(main(sys.argv[1:]))
