"""The options by which a program is shaken."""

from __future__ import annotations

import argparse
import math
from typing import FrozenSet, List, Optional

from .choices import KINDS, MOST_MS, Settings
from .failing import LEFT, STATUS
from .search import Wanted

#: those that take a word
TAKE_WORD = ("--shake", "--seed", "--until", "--within", "--shaken", "--longest", "--only", "--reactor")

_FIRST_SEED = 1
_SECONDS = 10.0


def add_options(parser: argparse.ArgumentParser) -> None:
    """Adds the options."""
    add = parser.add_argument_group("shaking", "runs in which other threads, the network and the machine are late (docs/SHAKE.md)").add_argument
    add("--shake", type=_count, metavar="N", help="run it N times, each shaken by another seed, and record the first run that fails")
    add("--seed", type=_seed, metavar="K", help="the first seed; without --shake: record one run, shaken by this seed")
    add("--until", metavar="WHAT", help=f"what fails, beside an error or a hang: a `{STATUS}` (the default), what is `{LEFT}`, or a command's status")
    add("--within", type=_length, metavar="S", help=f"how many seconds a run may take: {_SECONDS:g}, if it isn't said")
    add("--shaken", metavar="KIND,..", help=f"shake these alone: {', '.join(KINDS)}")
    add("--longest", type=_length, metavar="MS", help=f"the longest delay in milliseconds: {MOST_MS:g}, if it isn't said")
    add("--fast", action="store_true", help="have the clock jump over a wait in which nothing but time can bring anything")
    add("--only", action="append", metavar="KEY", help="shake only what has this key, as a search has named it; may be given several times")
    add("--reactor", metavar="NAME", help="with --test: install this reactor first")
    add("--no-cut", dest="cuts", action="store_false", help="don't look which perturbations a failure needs")


def problem_of(arguments: argparse.Namespace) -> str:
    """What is wrong with the options together; nothing, if they are right."""
    unknown = sorted(_kinds(arguments) - set(KINDS))
    if unknown:
        return f"--shaken has no {', '.join(unknown)}: {', '.join(KINDS)}"
    if arguments.shake is None and arguments.seed is None:
        given = [name for name in ("until", "within", "shaken", "longest", "only", "reactor") if getattr(arguments, name) is not None]
        given += ["fast"] if arguments.fast else []
        return f"--{given[0]} is for --shake and --seed" if given else ""
    if arguments.reactor is not None and not arguments.test:
        return "--reactor is for --test; a program installs its own"
    if arguments.virtual:
        return "what is shaken needs a real reactor, and --virtual has none"
    if arguments.test and arguments.shake is None:
        return "with --test --seed needs --shake"
    if arguments.shake is None and (arguments.until is not None or arguments.within is not None):
        return "--until and --within are for --shake"
    if arguments.shake is not None and (arguments.notes or arguments.keep_notes):
        return "--shake and --notes don't go together"
    return "--shake and --last don't go together" if arguments.shake is not None and arguments.last is not None else ""


def settings_of(arguments: argparse.Namespace) -> Settings:
    """What is chosen."""
    only: Optional[FrozenSet[str]] = None if arguments.only is None else frozenset(arguments.only)
    seed = _FIRST_SEED if arguments.seed is None else arguments.seed
    most = MOST_MS if arguments.longest is None else arguments.longest
    return Settings(seed, _kinds(arguments), most, only, is_fast=arguments.fast)


def wanted_of(arguments: argparse.Namespace) -> Wanted:
    """What is looked for."""
    seconds = _SECONDS if arguments.within is None else arguments.within
    return Wanted(arguments.shake, settings_of(arguments), arguments.until or STATUS, seconds, arguments.cuts, not arguments.test)


def _kinds(arguments: argparse.Namespace) -> FrozenSet[str]:
    given: List[str] = list(filter(None, (arguments.shaken or "").split(",")))
    return frozenset(given or KINDS)


def _count(word: str) -> int:
    if not word.isdecimal() or int(word) < 1:
        raise argparse.ArgumentTypeError(f"{word} isn't a number from 1 on")
    return int(word)


def _seed(word: str) -> int:
    if not word.isdecimal():
        raise argparse.ArgumentTypeError(f"{word} isn't a number from 0 on")
    return int(word)


def _length(word: str) -> float:
    try:
        length = float(word)
    except ValueError:
        length = 0.0
    if not (math.isfinite(length) and length > 0):
        raise argparse.ArgumentTypeError(f"{word} isn't a number of more than 0")
    return length
