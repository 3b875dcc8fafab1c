"""`deferreds`, and `python3 -m deferreds`: the program itself, which takes the place of this process."""

from __future__ import annotations

import sys

from .program import NOT_RUN, NotRun, run_in_place


def main() -> int:
    """Runs the program with the words of this process; the status where it isn't run."""
    try:
        run_in_place(sys.argv[1:])
    except NotRun as why:
        print(f"deferreds: not run: {why}", file=sys.stderr)
        return NOT_RUN


if __name__ == "__main__":
    sys.exit(main())
