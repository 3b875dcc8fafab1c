"""`definitions [CRATE ..]`: prints the modules of definitions in reading order, each with the comment with which its file begins.

Without arguments all crates are listed, each below those that use it. A crate without definitions is left out. Status 0: the list was
printed; 1: a module has no such comment; 64: the arguments are wrong.
"""

from __future__ import annotations

import argparse
import sys
from typing import Iterator, List

from deferreds.arguments import Parser
from deferreds.ending import run_command

from .sources import Crate, Missing, crates, modules


def lines(crate: Crate) -> Iterator[str]:
    """The lines of a crate: where its definitions are, what it is, and a line for each module."""
    found = list(modules(crate))
    if not found:
        return
    width = max(len(module.name) for module in found)
    yield f"crates/{crate.name}/specs: {crate.what}"
    for module in found:
        yield f"  {module.name:{width}}  {module.what}"


def listing(asked: List[str]) -> List[str]:
    """The lines of these crates, or of all if none is named."""
    return [line for crate in crates() if not asked or crate.name in asked for line in lines(crate)]


def main() -> int:
    parser = Parser(prog="definitions", description=__doc__, formatter_class=argparse.RawDescriptionHelpFormatter)
    parser.add_argument("crates", nargs="*", metavar="CRATE", help="a crate to list alone, as dv_store")
    asked = parser.parse_args()
    try:
        unknown = sorted(set(asked.crates) - {crate.name for crate in crates()})
        if unknown:
            print(f"definitions: crates.txt has no {unknown[0]}", file=sys.stderr)
            return 64
        print("\n".join(listing(asked.crates)))
    except Missing as why:
        print(f"definitions: {why}", file=sys.stderr)
        return 1
    return 0


if __name__ == "__main__":
    run_command(main, "definitions")
