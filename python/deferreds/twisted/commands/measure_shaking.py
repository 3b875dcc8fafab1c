"""`python/measure_shaking FILE..`: runs programs shaken by many seeds, and prints how many runs fail, a row a program.

A run fails by its status, by an error that it logs, or if it takes longer than 60 s. `--plain N` makes N runs that aren't shaken before.
With `--reactor NAME` the programs run on that reactor: epoll, poll, select or asyncio. docs/SHAKE.md has the figures. The status is 0 if
no run failed, and else 1.
"""

from __future__ import annotations

import argparse
import os
import sys
from typing import List, Optional, Sequence

from ...arguments import Parser
from ...program import NOT_RUN
from ..shaking.choices import Settings
from ..shaking.knowing import why_unknown
from ..shaking.measuring import measured

REACTORS = ("epoll", "poll", "select", "asyncio")

#: how many failing seeds a row names
_MOST_SEEDS = 8


def _arguments(words: List[str]) -> argparse.Namespace:
    parser = Parser(prog="python/measure_shaking", description=__doc__, formatter_class=argparse.RawDescriptionHelpFormatter)
    add = parser.add_argument
    add("--seeds", type=int, default=20, metavar="N", help="how many seeds each program is shaken by (20)")
    add("--first", type=int, default=1, metavar="K", help="the first seed (1)")
    add("--plain", type=int, default=0, metavar="N", help="how many runs aren't shaken (0)")
    add("--reactor", default="", choices=REACTORS, help="on which reactor")
    add("files", nargs="+", metavar="FILE", help="a program")
    return parser.parse_args(words)


def main(words: List[str]) -> int:
    """The command."""
    given = _arguments(words)
    missing = [file for file in given.files if not os.path.isfile(file)]
    if missing:
        print(f"measure_shaking: {missing[0]} isn't a file", file=sys.stderr)
        return 64
    unknown = why_unknown()
    if unknown:
        print(f"measure_shaking: {unknown}", file=sys.stderr)
        return NOT_RUN
    print("| Program | plain | shaken | seeds that fail | perturbations met |\n|---|---|---|---|---|", flush=True)
    is_any = False
    for file in given.files:
        failed = _row(file, given)
        is_any = is_any or failed
    return int(is_any)


def _row(file: str, given: argparse.Namespace) -> bool:
    """Prints the row of a program. Gives whether a run has failed."""
    none: Sequence[Optional[Settings]] = [None] * given.plain
    plain = measured(file, none, given.reactor)
    shaken = measured(file, [Settings(seed) for seed in range(given.first, given.first + given.seeds)], given.reactor)
    seeds = ", ".join(map(str, shaken.failing[:_MOST_SEEDS])) + (", .." if len(shaken.failing) > _MOST_SEEDS else "")
    met = ", ".join(f"{kind} {count}" for kind, count in sorted(shaken.met.items()))
    name = os.path.splitext(os.path.basename(file))[0]
    print(f"| {name} | {len(plain.failing)} of {given.plain} | {len(shaken.failing)} of {given.seeds} | {seeds} | {met} |", flush=True)
    return bool(plain.failing or shaken.failing)
