"""Compares an implementation with `deferreds` on rows, on random scripts and on those of files, and tells each difference."""

from __future__ import annotations

import argparse
import collections
import sys
import time
from typing import Callable, Counter, Iterator, List, Optional, Sequence, TextIO, Tuple

from ..checkout import command_name
from ..survey import batches_text
from .causes import Causes
from .comparing import Comparison, Difference, is_of_level
from .in_orders import Chosen, InOrders, Orders
from .programs import MOST_LATE, MOST_UNANSWERED, Answer, Many, Once, Program, ours
from .randoms import Scripts
from .rows import Expected, read_rows, row_files

_SECONDS_ON_A_TERMINAL = 0.2
_MOST_SCRIPT = 2_000


class Progress:
    """Says how far a long run is: on a terminal in one line that is overwritten, elsewhere by a line each `seconds` seconds,
    or by none where these are 0."""

    def __init__(
        self, stream: TextIO, total: int, seconds: float, now: Callable[[], float] = time.monotonic
    ) -> None:
        self._stream = stream
        self._total = total
        self._on_terminal = stream.isatty()
        self._seconds = _SECONDS_ON_A_TERMINAL if self._on_terminal else seconds
        self._now = now
        self._said_at = now()

    def say(self, runs: int, failed: int, more: str = "") -> None:
        """Says it, if that is due."""
        if not self._seconds or self._now() - self._said_at < self._seconds:
            return
        self._said_at = self._now()
        text = f"{command_name('conform')}: {runs} of {self._total} runs, {failed} failed{more}"
        before, after = ("\r\x1b[K", "") if self._on_terminal else ("", "\n")
        print(f"{before}{text}", end=after, file=self._stream, flush=True)

    def clear(self) -> None:
        """Makes room on a terminal for what is printed next."""
        if self._on_terminal:
            print("\r\x1b[K", end="", file=self._stream, flush=True)


class Tally:
    """Counts runs."""

    def __init__(self) -> None:
        self.passed = 0
        self.failed = 0
        self.named: Counter[str] = collections.Counter()
        #: how many of those that an entry names weren't compared to their ends
        self.cut = 0
        #: how many of the last runs weren't answered in time, and whether any run was answered
        self._late = 0
        self._answered = False

    def count(self, found: Optional[Difference]) -> None:
        """Counts a run."""
        if found is None:
            self.passed += 1
        elif found.entry is not None:
            self.passed += 1
            self.named[found.entry.value] += 1
            self.cut += found.is_cut
        else:
            self.failed += 1
        self._late = self._late + 1 if found is not None and found.is_late else 0
        self._answered = self._answered or found is None or not found.lacks

    @property
    def runs(self) -> int:
        """How many runs were counted."""
        return self.passed + self.failed

    def lines(self) -> List[str]:
        """How many runs that passed differ by which entry, and how they go on behind it."""
        said = [f"{count} differ as docs/TWISTED.md says: {name}" for name, count in sorted(self.named.items())]
        differ = sum(self.named.values())
        if differ:
            said.append(f"{self.passed - differ} the same, {differ - self.cut} the same behind an entry, {self.cut} cut at one")
        return said

    def given_up(self) -> Optional[str]:
        """Why no more scripts are asked; None where they are."""
        if self._late >= MOST_LATE:
            return f"{self._late} scripts in a row weren't answered in time"
        if not self._answered and self.runs >= MOST_UNANSWERED:
            return f"none of the first {self.runs} scripts was answered"
        return None


class Conforming:
    """One run of the command."""

    def __init__(self, arguments: argparse.Namespace, scripts: Sequence[Tuple[str, str]] = ()) -> None:
        self._arguments = arguments
        #: the scripts of files, each with its name
        self._scripts = scripts
        self._level: str = arguments.level
        theirs: Program = Once(arguments.command, seconds=arguments.timeout)
        if arguments.many:
            theirs = Many(arguments.command, arguments.timeout)
        named = arguments.ours.split() if arguments.ours else None
        mine = ours(named, arguments.timeout, arguments.orders) if named or arguments.random or scripts or arguments.orders else theirs
        self._programs = (mine, theirs)
        self._comparison = Comparison(mine, theirs, arguments.trials)
        self._orders: Optional[Orders] = None
        if arguments.orders:
            chosen = Chosen(arguments.sample, arguments.seed) if arguments.sample else Chosen(arguments.most)
            self._comparison = InOrders(mine, theirs, arguments.trials, chosen)
            self._orders = Orders(chosen)
        self._rows = list(self._chosen()) if arguments.rows else []
        self._total: int = len(self._rows) + len(scripts) + arguments.random
        self._tally = Tally()
        self._progress = Progress(sys.stderr, self._total, arguments.progress)
        #: how many differences may still be shown, each of another cause, if not all
        self._left: Optional[int] = arguments.show
        self._causes = Causes()

    def _chosen(self) -> Iterator[Expected]:
        for path in row_files():
            for row in read_rows(path):
                is_left_out = row.status == 2 and self._arguments.no_refusals
                if not is_left_out and is_of_level(row.script, self._level):
                    yield row

    def run(self) -> int:
        """Compares all that is asked for, and gives the status of the command. Raises Broken where a program can't be run."""
        try:
            why = self._compare_rows() or self._compare_scripts() or self._compare_random()
        finally:
            self._progress.clear()
            for program in self._programs:
                program.close()
        self._tell(why)
        return 1 if self._tally.failed else 0

    def interrupt(self) -> None:
        """Ends the programs that run, from another thread than the one that runs this."""
        for program in self._programs:
            program.interrupt()

    def _compare_rows(self) -> Optional[str]:
        """Compares the rows; why it has given up, where it has."""
        for row in self._rows:
            found = self._comparison.of_row(row.script, Answer(row.status, row.output, row.errors))
            self._count(row.script, found)
            name = f"{row.file}: {row.name}"
            if found is not None and self._may_show(name, found):
                self._show(name, row.script, found)
            if self._tally.given_up():
                break
        return self._tally.given_up()

    def _compare_scripts(self) -> Optional[str]:
        """Compares the scripts of files; why it has given up, where it has."""
        for name, script in self._scripts:
            found = self._comparison.of_script(script)
            self._count(script, found)
            if found is not None and self._may_show(name, found):
                self._show(name, script, found)
            if self._tally.given_up():
                break
        return self._tally.given_up()

    def _compare_random(self) -> Optional[str]:
        """Compares random scripts, and cuts those down that are shown; why it has given up, where it has."""
        seed = self._arguments.seed
        for number, script in Scripts(seed, self._level).some(self._arguments.random, self._arguments.version, self._arguments.turns):
            found = self._comparison.of_script(script)
            self._count(script, found)
            name = f"random script {number} of seed {seed}, level {self._level}"
            if found is not None and self._may_show(name, found):
                smaller = self._comparison.cut_down(script, found, self._cutting)
                again = self._comparison.of_script(smaller) if smaller != script else found
                # a program that doesn't differ each time is shown by what was seen
                self._show(name, smaller if again else script, again or found)
            if self._tally.given_up():
                break
        return self._tally.given_up()

    def _count(self, script: str, found: Optional[Difference]) -> None:
        self._tally.count(found)
        if self._orders is not None:
            self._orders.count(script)
        self._progress.say(self._tally.runs, self._tally.failed)

    def _cutting(self, tried: int) -> None:
        self._progress.say(self._tally.runs, self._tally.failed, f"; cuts a script down, {tried} tried")

    def _may_show(self, name: str, found: Difference) -> bool:
        """Whether this is shown: the first one of each cause, of what no entry names, and of all where all are asked for, as long as
        there is room."""
        if found.entry is not None and not self._arguments.all:
            return False
        if self._left is None:
            return True
        is_shown = self._causes.count(name, found, self._left > 0)
        self._left -= is_shown
        return is_shown

    def _show(self, name: str, script: str, found: Difference) -> None:
        self._progress.clear()
        print(f"{name}: line {found.line} differs{_where(found)}")
        order = f"  --batches '{batches_text(found.order)}'\n" if found.order is not None else ""
        other = "Twisted:  " if found.is_ours else "command:  "
        print(f"  deferreds: {found.ours}\n  {other} {found.theirs}\n{order}  {_one_line(script)}", flush=True)

    def _tell(self, why: Optional[str]) -> None:
        """The last lines."""
        lines: List[str] = self._causes.lines()
        lines += self._tally.lines()
        lines += self._orders.lines() if self._orders is not None else []
        left = self._total - self._tally.runs
        if why is not None and left:
            lines.append(f"{left} of {self._total} runs are left out, since {why}")
        print("\n".join([*lines, f"{self._tally.passed} passed, {self._tally.failed} failed"]), flush=True)


def _where(found: Difference) -> str:
    """The part that docs/TWISTED.md has in a difference."""
    if found.entry is not None:
        return f" ({found.entry.value} in docs/TWISTED.md)"
    return "" if found.behind is None else f" behind {found.behind.value}, which docs/TWISTED.md doesn't say"


def _one_line(script: str) -> str:
    text = " ".join(part.strip() for part in script.splitlines())
    return text if len(text) <= _MOST_SCRIPT else text[:_MOST_SCRIPT] + " .."
