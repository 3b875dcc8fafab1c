#!/usr/bin/env python3
"""`wheel.py OUT_FOLDER`: writes the wheel of the project into a folder, as pip would build it, and prints its name."""

from __future__ import annotations

import sys
from pathlib import Path
from typing import List

from backend import build_wheel
from command import Parser, run_command


def main(words: List[str]) -> int:
    """The command."""
    parser = Parser(prog="wheel.py", description=__doc__)
    parser.add_argument("folder", type=Path, metavar="OUT_FOLDER")
    folder: Path = parser.parse_args(words).folder
    try:
        folder.mkdir(parents=True, exist_ok=True)
        print(folder / build_wheel(str(folder)))
    except OSError as error:
        print(f"wheel.py: {error.filename or folder} can't be written: {error.strerror}", file=sys.stderr)
        return 1
    return 0


if __name__ == "__main__":
    run_command(lambda: main(sys.argv[1:]), "wheel.py")
