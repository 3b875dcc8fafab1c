"""`make_map [--write]`: prints the table of crates of crates/README.md, made from the first comment of each crate's root.

With --write the table is written into the page. Status 0: it was printed or written; 1: a crate has no such comment, or the page no
such table; 64: the arguments are wrong.
"""

from __future__ import annotations

import argparse
import sys
from pathlib import Path
from typing import Iterable, List, Optional

from deferreds.arguments import Parser
from deferreds.checkout import TOP
from deferreds.ending import run_command

from .sources import Crate, Missing, crates

PAGE = TOP / "crates" / "README.md"
HEAD = ["| Crate | What it is |", "|---|---|"]


def table(described: Iterable[Crate]) -> List[str]:
    """The lines of the table."""
    return [*HEAD, *(f"| `{crate.name}` | {first_sentence(crate.what)} |" for crate in described)]


def first_sentence(said: str) -> str:
    """The first sentence of what is said, without its point."""
    return said.partition(". ")[0].rstrip(".")


def table_in(page: str) -> Optional[List[str]]:
    """The lines of the table as a page has them."""
    lines = page.splitlines()
    if HEAD[0] not in lines:
        return None
    found: List[str] = []
    for line in lines[lines.index(HEAD[0]) :]:
        if not line.startswith("|"):
            break
        found.append(line)
    return found


def write(page: Path, rows: List[str]) -> bool:
    """Writes the table into the page, in place of the one that it has. Returns whether it has one."""
    text = page.read_text(encoding="utf-8")
    present = table_in(text)
    if present is None:
        return False
    page.write_text(text.replace("\n".join(present), "\n".join(rows)), encoding="utf-8")
    return True


def main() -> int:
    parser = Parser(prog="make_map", description=__doc__, formatter_class=argparse.RawDescriptionHelpFormatter)
    parser.add_argument("--write", action="store_true", help="write the table into crates/README.md")
    asked = parser.parse_args()
    try:
        rows = table(crates())
    except Missing as why:
        print(f"make_map: {why}", file=sys.stderr)
        return 1
    if not asked.write:
        print("\n".join(rows))
    elif not write(PAGE, rows):
        print(f"make_map: {PAGE} has no line {HEAD[0]}", file=sys.stderr)
        return 1
    return 0


if __name__ == "__main__":
    run_command(main, "make_map")
