"""`./conform [--rows] [--random N --seed S] [--script FILE] [--level LEVEL] [--orders] -- COMMAND..`: compares an implementation with `deferreds`.

COMMAND reads a script on standard input, and prints journal and outcomes, as `./on_twisted` does. The first line that differs is printed,
of one script for each cause: differences whose lines have the same words count as of one. If Twisted does as COMMAND does, and `docs/TWISTED.md` has an entry for that, the entry is named, and the run counts as passed.
The last line is `N passed, M failed`, and the status is 0 exactly if M is 0.

With --orders a script with posts is compared in every order in which they may be taken, and not in the one that happened. If it has
more than --most N, it is compared in N of them, spread evenly; if it has more than --sample K, in K that --seed S draws, as
`./deferreds --orders --sample K --seed S` does. A difference is printed with its order.

A COMMAND that ends early, or doesn't answer in time, fails that run, and is reported with the script. After {late} scripts in a row
without an answer in time no more are asked, nor after the first {unanswered} if none was answered. What COMMAND has started is killed
when it has ended, and when this command ends.

Status 1: a run failed; 4: standard output can't be written; 64: the arguments are wrong; 66: the file of a script can't be
read; 70: a program can't be run, or Twisted isn't known.
"""

from __future__ import annotations

import argparse
import math
import signal
import sys
from pathlib import Path
from typing import List, Optional

from ...arguments import USAGE, Parser
from ...bounds import MOST_ORDERS, MOST_SEED
from ...checkout import as_called, command_name
from ...ending import Stopped, stopping, writing
from ...language import LANGUAGE
from .. import grammar
from ..children import ending_all
from ..programs import MOST_LATE, MOST_UNANSWERED, SECONDS, Broken

_SHOWN = 20
_ORDERS = 100
_PROGRESS = 10.0


def _seconds(word: str) -> float:
    """A number of seconds, which may be 0."""
    seconds = float(word)
    if not 0 <= seconds < math.inf:
        raise argparse.ArgumentTypeError("it isn't a number of seconds from 0 on")
    return seconds


def _time(word: str) -> float:
    """A number of seconds above 0."""
    seconds = _seconds(word)
    if not seconds:
        raise argparse.ArgumentTypeError("it is 0 seconds")
    return seconds


def _shown(word: str) -> Optional[int]:
    """How many differences are shown; None where all are."""
    if word == "all":
        return None
    if not word.isdecimal():
        raise argparse.ArgumentTypeError("it is neither a number from 0 on nor `all`")
    return int(word)


def _most(word: str) -> int:
    """How many orders of a script are compared."""
    if not word.isdecimal() or not 1 <= int(word) <= MOST_ORDERS:
        raise argparse.ArgumentTypeError(f"it isn't a number from 1 to {MOST_ORDERS}")
    return int(word)


def _arguments(words: List[str]) -> argparse.Namespace:
    about = __doc__.format(late=MOST_LATE, unanswered=MOST_UNANSWERED)
    parser = Parser(
        prog=command_name("conform"),
        description=as_called(about),
        formatter_class=argparse.RawDescriptionHelpFormatter,
    )
    add = parser.add_argument
    add("--rows", action="store_true", help="compare on the rows of the repository")
    add("--random", type=int, metavar="N", default=0, help="compare on N random scripts")
    add("--script", action="append", metavar="FILE", default=[], help="compare on the script of a file; may be given several times")
    add("--seed", type=int, default=1, metavar="S", help="which random scripts, and which orders of a sample (1)")
    add(
        "--level",
        choices=list(grammar.LEVELS),
        default=list(grammar.LEVELS)[-1],
        help="only what this level and those before it have (default: all)",
    )
    add("--version", type=int, choices=LANGUAGE.versions, help="only random scripts of this version of the language (default: all)")
    add("--turns", choices=[grammar.FAIR, grammar.TWISTED], help="only random scripts whose tasks, if they have any, all take turns by this rule")
    add("--no-refusals", action="store_true", help="leave out the rows whose scripts are refused")
    add("--orders", action="store_true", help="compare a script with posts in every order of them")
    add("--most", type=_most, metavar="N", help=f"with --orders: in at most N orders of a script ({_ORDERS})")
    add("--sample", type=_most, metavar="K", help="with --orders: in at most K orders, which are drawn if a script has more")
    add("--all", action="store_true", help="also show the differences that have an entry")
    add("--show", type=_shown, metavar="N", default=_SHOWN, help=f"show at most N differences, each of another cause, or `all` ({_SHOWN})")
    add("--many", action="store_true", help="COMMAND takes --many, as docs/PORTING.md says")
    add(
        "--timeout",
        type=_time,
        metavar="SECONDS",
        default=SECONDS,
        help=f"how long COMMAND may take for a script ({SECONDS:g})",
    )
    add(
        "--progress",
        type=_seconds,
        metavar="SECONDS",
        default=_PROGRESS,
        help=f"if standard error is no terminal, print the progress there every so many seconds; 0: never ({_PROGRESS:g})",
    )
    add("--ours", metavar="COMMAND", help="our program (default: deferreds, as it is built or installed)")
    add("--trials", type=int, default=1_000, help="at most so many runs to cut a script down (1000)")
    add("command", nargs="+", metavar="COMMAND", help="after --: the implementation, and its arguments")
    parsed = parser.parse_args(words)
    if parsed.random < 0 or parsed.trials < 0:
        print(f"{command_name('conform')}: a number is below 0", file=sys.stderr)
        raise SystemExit(USAGE)
    if not parsed.rows and not parsed.random and not parsed.script:
        print(f"{command_name('conform')}: one of --rows, --random N and --script FILE is needed", file=sys.stderr)
        raise SystemExit(USAGE)
    if parsed.version is not None and not grammar.has_version(parsed.level, parsed.version):
        print(f"{command_name('conform')}: no script of the level {parsed.level} is of version {parsed.version}", file=sys.stderr)
        raise SystemExit(USAGE)
    if parsed.turns is not None and not _may_have_turns(parsed.turns, parsed.level, parsed.version):
        print(f"{command_name('conform')}: no such script has tasks that take turns by this rule", file=sys.stderr)
        raise SystemExit(USAGE)
    if parsed.most is not None and not parsed.orders:
        print(f"{command_name('conform')}: --most is for --orders", file=sys.stderr)
        raise SystemExit(USAGE)
    if parsed.sample is not None and not (parsed.orders and parsed.most is None and 0 <= parsed.seed <= MOST_SEED):
        print(f"{command_name('conform')}: --sample is for --orders without --most, with a seed from 0 to {MOST_SEED}", file=sys.stderr)
        raise SystemExit(USAGE)
    parsed.most = parsed.most or _ORDERS
    return parsed


def _may_have_turns(turns: str, level: str, version: Optional[int]) -> bool:
    """Whether random scripts of a level and a version, or of all that the level has, may have tasks that take turns by a rule."""
    last = max(each for each in LANGUAGE.versions if grammar.has_version(level, each)) if version is None else version
    return grammar.has(level, "cooperator") and (turns == grammar.FAIR or last >= grammar.TURN_RULES_SINCE)


def read_script(name: str) -> str:
    """The text of a script's file. Raises OSError or UnicodeDecodeError where it can't be read."""
    return Path(name).read_text(encoding="utf-8")


def main(words: List[str]) -> int:
    """The command."""
    arguments = _arguments(words)
    # these need Twisted, and what is asked for above doesn't
    from ..conforming import Conforming
    from ..instruments import install
    from ..running import be_quiet, with_room

    try:
        scripts = [(name, read_script(name)) for name in arguments.script]
    except (OSError, UnicodeDecodeError) as error:
        print(f"{command_name('conform')}: the file of a script can't be read: {error}", file=sys.stderr)
        return 66
    be_quiet()
    install()
    running: List[Conforming] = []

    def compare() -> int:
        try:
            running.append(Conforming(arguments, scripts))
            with writing():
                return running[0].run()
        except Broken as broken:
            print(f"{command_name('conform')}: {broken}", file=sys.stderr)
            return 70

    with stopping(signal.SIGTERM, signal.SIGHUP), ending_all():
        try:
            return with_room(compare)
        except (KeyboardInterrupt, Stopped):
            for number in (signal.SIGINT, signal.SIGTERM, signal.SIGHUP):
                signal.signal(number, signal.SIG_IGN)
            for conforming in running:
                conforming.interrupt()
            raise
