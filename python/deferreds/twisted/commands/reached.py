"""`python/reached [--random N] [--seed S] [--level LEVEL]`: counts how often rows and random scripts reach each case of a rule.

The cases are those of python/data/cases.txt, of the rules of crates/dv_definition/specs/Definition.antt. The scripts run
on real Twisted with our rules, whose journals are ours. Status 0: each case is reached by a row and by a random script; 1: one isn't;
64: the arguments are wrong.
"""

from __future__ import annotations

import argparse
from typing import List

from ...arguments import Parser
from ...ending import writing
from .. import grammar
from ..instruments import install

_RANDOM = 4_000


def _arguments(words: List[str]) -> argparse.Namespace:
    parser = Parser(prog="reached", description=__doc__, formatter_class=argparse.RawDescriptionHelpFormatter)
    parser.add_argument("--random", type=int, metavar="N", default=_RANDOM, help=f"of N random scripts ({_RANDOM})")
    parser.add_argument("--seed", type=int, metavar="S", default=1, help="which random scripts (1)")
    parser.add_argument("--level", choices=list(grammar.LEVELS), default=list(grammar.LEVELS)[-1], help="of this level (all)")
    return parser.parse_args(words)


def main(words: List[str]) -> int:
    """The command."""
    arguments = _arguments(words)
    from ..reached import Reached, random_scripts, scripts_of_rows
    from ..running import be_quiet, with_room

    be_quiet()
    install()

    def count() -> int:
        reached = Reached()
        reached.count(scripts_of_rows(), 0)
        reached.count(random_scripts(arguments.random, arguments.seed, arguments.level), 1)
        with writing():
            print("\n".join(reached.lines()), flush=True)
        return 0 if reached.are_all else 1

    return with_room(count)
