#!/usr/bin/env python3
"""`wrap_lines.py [--check] [CRATE ..]`: breaks the long lines of Rattle's files, and changes nothing else.

Lines of `src/` may have 100 columns, those of `specs/` and `proofs/` 120. With --check it only lists the longer ones; status 1: there are
some. Without, it writes the files and lists what it can't break. It writes no file whose tokens it would change, and breaks no line that
a wrong body of `must-fail/` names. Run `rt fmt` in each crate's folder afterwards: it has nothing to change.
"""

from __future__ import annotations

import argparse
import sys
from pathlib import Path
from typing import Dict, Iterator, List, Optional

from sources import Changed, too_long, wrapped

sys.path.insert(0, str(Path(__file__).resolve().parent.parent / "python"))

from deferreds.arguments import Parser  # noqa: E402
from deferreds.ending import run_command  # noqa: E402

CRATES = Path(__file__).resolve().parent.parent / "crates"


def files_of(crate: Path) -> Iterator[Path]:
    """Yields Rattle's files of a crate, in order."""
    yield from sorted((crate / "src").rglob("*.rt"))
    for folder in ("specs", "proofs"):
        yield from sorted((crate / folder).rglob("*.antt"))


def kept_texts(crate: Path) -> Dict[str, List[str]]:
    """Returns the texts that the wrong bodies of a crate replace, by the name of their file."""
    kept: Dict[str, List[str]] = {}
    for edit in sorted((crate / "must-fail").glob("*.edit")):
        name = ""
        for line in edit.read_text(encoding="utf-8").split("\n"):
            if line.startswith("file: "):
                name = line[len("file: "):]
            elif line.startswith("old: "):
                kept.setdefault(name, []).append(line[len("old: "):])
    return kept


def wrap(crate: Path) -> None:
    """Breaks the long lines of a crate."""
    kept = kept_texts(crate)
    for path in files_of(crate):
        text = path.read_text(encoding="utf-8")
        made = wrapped(path.name, text, kept.get(path.relative_to(crate).as_posix(), []))
        if made != text:
            path.write_text(made, encoding="utf-8")


def left(crate: Path) -> List[str]:
    """Returns a line for each line of a crate that is too long."""
    return [
        f"{path.relative_to(crate.parent.parent)}:{number}: {length} columns"
        for path in files_of(crate)
        for number, length in too_long(path.name, path.read_text(encoding="utf-8"))
    ]


def main(words: Optional[List[str]] = None, crates_folder: Path = CRATES) -> int:
    parser = Parser(prog="wrap_lines.py", description=__doc__, formatter_class=argparse.RawDescriptionHelpFormatter)
    parser.add_argument("--check", action="store_true", help="only list the lines that are too long")
    parser.add_argument("crates", nargs="*", metavar="CRATE", help="a crate by its name; all, if there are none")
    asked = parser.parse_args(words)
    crates = [crates_folder / name for name in asked.crates] or sorted(
        path for path in crates_folder.iterdir() if (path / "src").is_dir()
    )
    for crate in crates:
        if not (crate / "src").is_dir():
            print(f"wrap_lines.py: {crate.name} is no crate", file=sys.stderr)
            return 64
    try:
        for crate in crates if not asked.check else []:
            wrap(crate)
    except Changed as changed:
        print(f"wrap_lines.py: {changed}", file=sys.stderr)
        return 70
    lines = [line for crate in crates for line in left(crate)]
    print("".join(f"{line}\n" for line in lines), end="")
    return 1 if lines and asked.check else 0


if __name__ == "__main__":
    run_command(main, "wrap_lines.py")
