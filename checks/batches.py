"""Runs each row of `batches.rows` on the program: a script, and for each of some batches how its run ends and what it prints.

Each is run as JSON, too: that has to end as the row says, to tell the same lines, and to say which batches were taken. Then each of
these scripts is run in every order that Python finds, all of which have to be taken; and with one post changed, which is refused.
"""

from __future__ import annotations

import json
from functools import partial
from pathlib import Path
from typing import Callable, Dict, Iterator, List, NamedTuple, Optional

from deferreds.ending import run_command
from deferreds.orders import Order, orders, posting_of
from programs import TOP, Ran, program_here, run, run_all
from worded import Row, difference, read_rows

_FILE = TOP / "checks" / "batches.rows"
_TOLD = ("entry", "deferred")
#: the statuses of a run: it went to its end, to the limit of its journal, or to an `expect` that was unmet; and that of refused batches
_PERFORMED, _REFUSED = (0, 1, 8), 5
#: a caller that no script has
_NOBODY = 8


def json_difference(row: Row, ran: Ran) -> Optional[str]:
    """Returns in what a run as JSON differs from its row."""
    told = [json.loads(line) for line in ran.output.splitlines()]
    lines = "".join(one["line"] + "\n" for one in told if one["type"] in _TOLD)
    wrong = difference(row.expected, Ran(ran.status, lines, ran.errors))
    if wrong is not None or not told:
        return wrong
    taken = told[-1]["batches"]
    return None if taken == json.loads(row.words) else f"the batches {taken} were taken"


class InOrder(NamedTuple):
    """A script of a row, and one of its orders."""

    name: str
    script: str
    order: Order


def all_orders(rows: List[Row]) -> Iterator[InOrder]:
    """Yields every order of each script of the rows that has events."""
    scripts: Dict[str, str] = {row.script: row.name for row in rows}
    for script, name in scripts.items():
        if "events" in json.loads(script):
            for order in orders(posting_of(json.loads(script))):
                yield InOrder(name, script, order)


def with_a_stranger(order: Order) -> Order:
    """Returns the batches with one post more at the end, of a caller that no script has."""
    return (*order[:-1], (*order[-1], (_NOBODY, 0)))


def check_order(program: Path, case: InOrder) -> Optional[str]:
    """Runs a script in an order, which is accepted, and with batches that are none, which are refused."""
    ran = run(program, ["--json", "--batches", json.dumps(case.order)], case.script)
    if ran.status not in _PERFORMED:
        return f"{case.name}: {case.order}: status {ran.status} {ran.errors!r}"
    taken = json.loads(ran.output.splitlines()[-1])["batches"]
    if taken != json.loads(json.dumps(case.order)):
        return f"{case.name}: {case.order}: the batches {taken} were taken"
    strange = run(program, ["--batches", json.dumps(with_a_stranger(case.order))], case.script)
    if (strange.status, strange.output) != (_REFUSED, ""):
        return f"{case.name}: {case.order} with a stranger: status {strange.status} {strange.output[:80]!r}"
    return None


def check_row(program: Path, row: Row) -> Optional[str]:
    """Runs a row in both forms."""
    words = ["--batches", row.words]
    wrong = difference(row.expected, run(program, words, row.script))
    as_json = json_difference(row, run(program, ["--json", *words], row.script))
    if wrong is None and as_json is None:
        return None
    return f"{_FILE.name}: {row.name}: {row.words}: {wrong or f'as JSON: {as_json}'}"


def main() -> int:
    program = program_here()
    rows = list(read_rows(_FILE, "batches"))
    checks: List[Callable[[], Optional[str]]] = [
        *(partial(check_row, program, row) for row in rows),
        *(partial(check_order, program, case) for case in all_orders(rows)),
    ]
    return run_all(checks, lambda check: check(), "batches")


if __name__ == "__main__":
    run_command(main, "batches.py")
