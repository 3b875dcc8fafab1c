"""`./view [-o FILE] [--text] [SCRIPT..]`: runs a script, and shows what happened in which order, and what is left and
why.

Writes a page that any browser opens: SCRIPT's name with `.html`, in the folder where the command is run, or FILE. Folders of FILE that
aren't there are made.
With several scripts FILE is a folder, and a second one of a name gets `NAME_2.html`. With `-o -` the page goes to
standard output. `--text` prints the view instead, `--as-json` its report, and `--trace` writes a trace of Chrome's. Without SCRIPT the script is standard
input. `--journal FILE` shows a journal with its outcomes, as `./deferreds`, `./on_twisted` or `./record` prints it, and runs
nothing; `--json FILE` shows what `./deferreds --json` has printed. `--compare A B` shows two runs beside each other.
`--batches BATCHES` runs a script with its posts in that order. `--orders` runs it in every order, and writes a page,
`NAME.orders.html`, of what becomes of each Deferred in how many of them; `--orders --sample K --seed S` runs it in K orders,
which are drawn by the seed S, and writes `NAME.sample.html`. FILE may be `-`, for standard input.

Status 0: shown; 2: the script is refused, and standard error has what `./deferreds --why` says of it; 3, 4, 5, 7, 70: as for `./deferreds`, 4 also
if standard output can't be written; 64: the arguments are wrong; 66: what is to be shown can't be read, or isn't what
it is given as; 73: the page can't be written. With several scripts it is the first status that isn't 0.
"""

from __future__ import annotations

import argparse
from typing import List

from ..arguments import USAGE, Parser
from ..bounds import MOST_ORDERS, MOST_SEED, ORDERS
from ..checkout import as_called, command_name
from ..ending import say
from .batches import NotBatches, parse_batches
from .names import STANDARD, TRACE
from .sizes import MOST_LINES


def parsed(words: List[str]) -> argparse.Namespace:
    """The options and files that these words are. Ends with status 64 if they are wrong, and with 0 if help is asked for."""
    parser = Parser(
        prog=command_name("view"), description=as_called(__doc__), formatter_class=argparse.RawDescriptionHelpFormatter
    )
    add = parser.add_argument
    add(
        "-o",
        dest="output",
        metavar="FILE",
        help="write the page to FILE, or to standard output, which is `-`; with several scripts, into the folder FILE",
    )
    add("--open", action="store_true", help="open the page in the browser")
    form = parser.add_mutually_exclusive_group()
    form.add_argument("--text", action="store_true", help="print the view for a terminal")
    add("--report", action="store_true", help="with --text: print the report and the lines that made Deferreds alone")
    add(
        "--deferred",
        metavar="WHICH",
        help="with --text: print the tree of one Deferred alone, by its number or its name",
    )
    form.add_argument(
        "--trace",
        action="store_true",
        help=f"write SCRIPT's name with `{TRACE}`: a trace of Chrome's, which Perfetto opens, in the place of the page",
    )
    form.add_argument("--as-json", action="store_true", help="print the report and the lines that made Deferreds as JSON")
    source = parser.add_mutually_exclusive_group()
    source.add_argument(
        "--journal",
        metavar="FILE",
        help="show a journal with its outcomes; SCRIPT may be the script of it",
    )
    source.add_argument(
        "--json",
        metavar="FILE",
        help=as_called("show what ./deferreds --json has printed; SCRIPT may be the script of it"),
    )
    source.add_argument(
        "--compare",
        nargs=2,
        metavar=("A", "B"),
        help=as_called(
            "show two runs beside each other, from the first line that differs on; each is a script, a journal, or what "
            "./deferreds --json has printed"
        ),
    )
    add(
        "--places",
        metavar="FILE",
        help=as_called(
            "where in a program Deferreds were made and actions ran, as ./record writes it "
            "(NAME.places.json beside NAME.json or NAME.journal)"
        ),
    )
    add(
        "--batches",
        action="append",
        default=[],
        metavar="BATCHES",
        help=as_called(
            "run SCRIPT in these batches, as ./deferreds --batches does; with --compare, twice: those of A, and those of B"
        ),
    )
    add(
        "--orders",
        action="store_true",
        help=as_called(
            "run SCRIPT in every order of its posts, as ./deferreds --orders does, and write one page: what becomes of each "
            "Deferred in how many orders, the outcomes, the chart of the first order of each, and two of these orders beside each other"
        ),
    )
    add("--most", type=int, metavar="N", help=f"with --orders: run at most N orders ({ORDERS}; {MOST_ORDERS} may be asked for)")
    add("--sample", type=int, metavar="K", help=f"with --orders: run K orders, each drawn from all (1 to {MOST_ORDERS})")
    add("--seed", type=int, metavar="S", help=f"with --sample: the seed of the draws (0 to {MOST_SEED})")
    add("--from", dest="first", type=int, metavar="N", help="the first line that the page has (1)")
    add("--to", dest="last", type=int, metavar="N", help=f"the last line ({MOST_LINES} lines at most)")
    add("scripts", nargs="*", metavar="SCRIPT", help="a script")
    options = parser.parse_args(words)
    wrong = _mistake(options)
    if wrong:
        say(f"{command_name('view')}: {wrong}")
        raise SystemExit(USAGE)
    return options


def _mistake(options: argparse.Namespace) -> str:
    """What is wrong with words that don't go together, or an empty text."""
    numbers = [number for number in (options.first, options.last) if number is not None]
    if min(numbers, default=1) < 1 or (len(numbers) == 2 and options.last < options.first):
        return "--from and --to are numbers of lines, from 1 on, and --to isn't below --from"
    several = len(options.scripts) > 1
    if options.places and several:
        return "with --places there is one SCRIPT at most"
    if (options.journal or options.json) and several:
        return "a journal, or a run as JSON, has one SCRIPT at most"
    if options.compare and (options.scripts or options.trace or options.as_json or options.places or numbers):
        return "--compare takes two FILEs, and neither a SCRIPT nor --trace, --as-json, --places, --from and --to"
    if options.report and (not options.text or options.compare or options.deferred is not None):
        return "--report goes with --text, and without --compare and --deferred"
    if options.deferred is not None and (not options.text or options.compare):
        return "--deferred goes with --text, and without --compare; on a page it is the address that ends with #d=NUMBER"
    if options.batches and not options.compare and (len(options.batches) > 1 or several or options.journal or options.json):
        return "--batches is given once, for one SCRIPT; with --compare it is given for both"
    if options.compare and len(options.batches) not in (0, 2):
        return "with --compare, --batches is given twice: for A, and for B"
    if not all(map(_are_batches, options.batches)):
        return "BATCHES is an array of arrays of posts, [CALLER,POST], as the last line of ./deferreds --json has it"
    if options.orders and (options.text or options.trace or options.as_json or options.journal or options.json or options.compare or options.batches or numbers):
        return as_called("--orders writes a page of a SCRIPT; of other options it takes -o, --open, --places, --most, --sample and --seed; ./deferreds --orders prints a text")
    if options.most is not None and not (options.orders and 0 <= options.most <= MOST_ORDERS):
        return f"--most is a number from 0 to {MOST_ORDERS}, and goes with --orders"
    if (options.sample, options.seed) != (None, None) and not _is_sample(options):
        return f"--sample K --seed S go with --orders, and without --most: K is from 1 to {MOST_ORDERS}, S from 0 to {MOST_SEED}"
    if (options.trace or options.as_json) and options.open:
        return "--open is for a page, which --trace and --as-json don't write"
    if options.output == STANDARD and (several or options.open):
        return "with `-o -` there is one SCRIPT at most, and no --open"
    if [options.journal, options.json, options.places, *options.scripts, *(options.compare or [])].count(STANDARD) > 1:
        return "standard input is read once, for one FILE"
    return ""


def _is_sample(options: argparse.Namespace) -> bool:
    """Whether a sample is asked for that can be drawn."""
    if options.sample is None or options.seed is None or options.most is not None:
        return False
    return bool(options.orders) and 1 <= options.sample <= MOST_ORDERS and 0 <= options.seed <= MOST_SEED


def _are_batches(text: str) -> bool:
    try:
        parse_batches(text)
        return True
    except NotBatches:
        return False
