"""`orders.py [--random K] [--seed S] [--ours PROGRAM]`: runs each row of `orders.rows`, and K random scripts, by `--orders`.

A row is a script, and for each of some words how `--orders` ends with them and what it prints, or `--json --orders`. Where that isn't a
refusal of the script or of the words, the model of `deferreds.survey` has to say the same of it: the model gets every order that Python
finds, or each that it draws for a sample, and what `--batches` and `--json --batches` print of it. Each row of `--orders` is run with
`--json`, too: that has to end as the row says, and to print the JSON of the model. Of a random script, both have to print what the model
does: in every order where there are few, and else of a sample. Without PROGRAM it is the one that `./deferreds` runs.
"""

from __future__ import annotations

import json
from functools import partial
from itertools import count, islice
from pathlib import Path
from typing import Callable, Dict, Iterable, Iterator, List, NamedTuple, Optional

from deferreds.arguments import Parser
from deferreds.bounds import ORDERS
from deferreds.ending import run_command
from deferreds.orders import Order, number_of_orders, orders, posting_of
from deferreds.sampling import MOST_DRAWN_FROM, sampled
from deferreds.survey import (
    NO_SAMPLE,
    ONE_OUTCOME,
    SEVERAL_OUTCOMES,
    TOO_MANY,
    UNMET,
    Run,
    batches_text,
    survey_of,
    too_many,
)
from deferreds.twisted import grammar
from deferreds.twisted.randoms import Scripts
from programs import TOP, Ran, program_here, run, run_all
from worded import Row, difference, read_rows

_FILE = TOP / "checks" / "orders.rows"
_JSON, _OPTION, _BATCHES = "--json", "--orders", "--batches"
#: the statuses of `--orders` of which the model knows; and those of a run: it went to its end, or to the limit of its journal, or to an
#: `expect` that was unmet
_MODELLED, _PERFORMED = (ONE_OUTCOME, SEVERAL_OUTCOMES, TOO_MANY, UNMET), (0, 1, UNMET)
#: the fewest orders of a random script, and how many run at most: if there are more, so many are drawn
_FEWEST, _MOST, _DRAWN = 2, 60, 5
_SHOWN = 300


class NotPerformed(Exception):
    """The program didn't run a script in an order."""


class Forms(NamedTuple):
    """A survey in both forms: lines of text, and JSON Lines."""

    text: Ran
    json_lines: Ran

    def of(self, is_json: bool) -> Ran:
        """Returns one of the two."""
        return self.json_lines if is_json else self.text


class Chosen(NamedTuple):
    """Which orders some words ask for: every one, where there are no more than so many, or a sample."""

    most: int = ORDERS
    #: how many are drawn; 0 where none is
    size: int = 0
    seed: int = 0

    def refusal(self, number: int) -> Optional[str]:
        """Returns what is said of so many orders, where none of them runs."""
        if self.size:
            return NO_SAMPLE if number > MOST_DRAWN_FROM else None
        return too_many(number, self.most) if number > self.most else None


def chosen_by(words: List[str]) -> Chosen:
    """Returns the orders that these words ask for."""
    numbers = {word: int(number) for word, number in zip(words, words[1:]) if word.startswith("--")}
    return Chosen(numbers.get("--most", ORDERS), numbers.get("--sample", 0), numbers.get("--seed", 0))


def performed(program: Path, words: List[str], script: str) -> Ran:
    """Runs a script in an order. Raises NotPerformed."""
    ran = run(program, words, script)
    if ran.status not in _PERFORMED:
        raise NotPerformed(f"{' '.join(words)} has status {ran.status} {ran.errors!r}")
    return ran


def run_in(program: Path, script: str, order: Order) -> Run:
    """Runs a script in an order, in both forms. Raises NotPerformed."""
    words = [_BATCHES, batches_text(order)]
    printed = performed(program, words, script)
    told = performed(program, [_JSON, *words], script)
    return Run(order, printed.output, printed.status, told.output)


def runs_in(program: Path, script: str, chosen: Iterable[Order]) -> Iterator[Run]:
    """Yields the run in each of these orders: one that comes again isn't run again. Raises NotPerformed."""
    known: Dict[Order, Run] = {}
    for order in chosen:
        if order not in known:
            known[order] = run_in(program, script, order)
        yield known[order]


def modelled(program: Path, script: str, chosen: Chosen) -> Forms:
    """Returns how `--orders` ends by the model, and what it prints. Raises NotPerformed."""
    posting = posting_of(json.loads(script))
    number = number_of_orders(posting)
    refusal = chosen.refusal(number)
    if refusal is not None:
        refused = Ran(TOO_MANY, "", f"{refusal}\n")
        return Forms(refused, refused)
    drawn = sampled(posting, chosen.size, chosen.seed) if chosen.size else orders(posting)
    survey = survey_of(runs_in(program, script, drawn), number if chosen.size else None)
    return Forms(Ran(survey.status, survey.text(), ""), Ran(survey.status, survey.json_lines(), ""))


def asked(program: Path, is_json: bool, words: List[str], script: str) -> Ran:
    """Runs a script in the orders that these words ask for."""
    return run(program, [*([_JSON] if is_json else []), _OPTION, *words], script)


def model_of(program: Path, row: Row) -> Forms:
    """Returns both forms of a row by the model, or the row's own where the model doesn't know of it. Raises NotPerformed."""
    if row.expected.status not in _MODELLED:
        return Forms(row.expected, row.expected)
    return modelled(program, row.script, chosen_by(row.words.split()))


def row_differences(program: Path, row: Row) -> Iterator[Optional[str]]:
    """Yields in what a run differs from its row, the row from the model, and the run as JSON from the model. Raises NotPerformed."""
    words = row.words.split()
    model = model_of(program, row)
    yield difference(row.expected, asked(program, row.is_json, words, row.script))
    yield named("the model", difference(row.expected, model.of(row.is_json)))
    yield named("as JSON", difference(model.json_lines, asked(program, True, words, row.script)))


def script_differences(program: Path, script: str, words: List[str]) -> Iterator[Optional[str]]:
    """Yields in what the runs of a random script differ from the model. Raises NotPerformed."""
    model = modelled(program, script, chosen_by(words))
    yield difference(model.text, asked(program, False, words, script))
    yield named("as JSON", difference(model.json_lines, asked(program, True, words, script)))


def named(what: str, wrong: Optional[str]) -> Optional[str]:
    """Returns a difference with what differs before it."""
    return wrong and f"{what}: {wrong}"


def first_of(differences: Iterator[Optional[str]]) -> Optional[str]:
    """Returns the first difference."""
    try:
        return next(filter(None, differences), None)
    except NotPerformed as why:
        return str(why)


def check_row(program: Path, row: Row) -> Optional[str]:
    """Runs a row, and holds the model against it."""
    option = f"{_JSON} {_OPTION}" if row.is_json else _OPTION
    return named(f"{_FILE.name}: {row.name}: {option} {row.words}", first_of(row_differences(program, row)))


def check_script(program: Path, name: str, script: str, words: List[str]) -> Optional[str]:
    """Runs a random script with these words, and holds that against the model."""
    wrong = first_of(script_differences(program, script, words))
    return wrong and f"{name}: {' '.join([_OPTION, *words])}: {wrong}: {script[:_SHOWN]}"


class Scripted(NamedTuple):
    """A random script, by its number, and the words that it is run with."""

    number: int
    script: str
    words: List[str]


def random_scripts(seed: int) -> Iterator[Scripted]:
    """Yields the random scripts of a seed that have several orders: a sample is drawn of those that have many, by the script's number."""
    scripts = Scripts(seed, list(grammar.LEVELS)[-1])
    for number in count():
        script = scripts.script(number)
        found = number_of_orders(posting_of(json.loads(script)))
        if found >= _FEWEST:
            yield Scripted(number, script, [] if found <= _MOST else ["--sample", str(_DRAWN), "--seed", str(number)])


def main() -> int:
    parser = Parser(prog="orders.py", description=__doc__)
    parser.add_argument("--random", type=int, default=0, metavar="K")
    parser.add_argument("--seed", type=int, default=1, metavar="S")
    parser.add_argument("--ours", type=Path, metavar="PROGRAM")
    words = parser.parse_args()
    program = words.ours or program_here()
    checks: List[Callable[[], Optional[str]]] = [
        *(partial(check_row, program, row) for row in read_rows(_FILE, "orders")),
        *(
            partial(check_script, program, f"random script {one.number} of seed {words.seed}", one.script, one.words)
            for one in islice(random_scripts(words.seed), words.random)
        ),
    ]
    return run_all(checks, lambda check: check(), "orders")


if __name__ == "__main__":
    run_command(main, "orders.py")
