"""`python/measure [MODULE..]`: records each test of Twisted's own modules, and compares it with `deferreds`.

It prints a row a module, whose sums docs/TWISTED.md has. The status is 0 exactly if each test that passes without the recorder passes
under it, except those that compare attributes that the recorder sets, and no difference lacks an entry in
docs/TWISTED.md; 70: a module can't be loaded, the program can't be run, or Twisted isn't known. `python/measure --slower`
prints how much slower a recorded program is, and `python/measure --slower-tests [MODULE..]` each test. A package in the place
of a module stands for all of its modules `test_*`. With `--reactor NAME` the tests that are compared run on that reactor.
"""

from __future__ import annotations

import argparse
import contextlib
import os
import statistics
import sys
import tempfile
from typing import Iterable, Iterator, List, Optional, Sequence

import twisted
from twisted.application.reactors import NoSuchReactor, installReactor

from ...arguments import Parser
from ..instruments import install
from ..programs import Broken, ours
from ..recording.measuring import (
    CANNOT,
    DIFFERS,
    NAMED,
    NOTHING,
    SAME,
    SKIPPED,
    Measured,
    bare_failures,
    counted,
    measure_test,
)
from ..recording.programs import NotLoaded, tests_of
from ..recording.slowness import slownesses
from ..recording.timing import RUNS, TestSlowness, slownesses_of_tests
from ..running import with_room

MODULES = (
    "twisted.test.test_defer",
    "twisted.test.test_defgen",
    "twisted.internet.test.test_inlinecb",
    "twisted.test.test_task",
    "twisted.test.test_cooperator",
    "twisted.test.test_internet",
    "twisted.test.test_tcp",
    "twisted.test.test_threads",
    "twisted.test.test_loopback",
    "twisted.test.test_policies",
)

#: tests that compare all attributes of two Deferreds, one of which is what the recorder keeps of each
COMPARE_ATTRIBUTES = frozenset({"DeferredTests.test_succeedMatchesManualSuccess"})

#: how many of the tests that are slowed down most are named
_DEAREST = 10

_HEADER = (
    "| Module | Tests | Nothing to record | Recorded whole | The same line for line "
    "| Differ at an entry | Differ otherwise | Can't be said |\n|---|---|---|---|---|---|---|---|"
)


def _row(name: str, measured: List[Measured]) -> str:
    counts = counted(measured)
    whole = counts[SAME] + counts[NAMED] + counts[DIFFERS]
    nothing = counts[NOTHING] + counts[SKIPPED]
    cells = (len(measured), nothing, whole, counts[SAME], counts[NAMED], counts[DIFFERS], counts[CANNOT])
    return f"| {name} | " + " | ".join(map(str, cells)) + " |"


def _failing(module: str, measured: List[Measured]) -> List[str]:
    """The tests that fail under the recorder, and not without it, but for those that ask for what it keeps."""
    failed = [one.test for one in measured if not one.passed and one.test not in COMPARE_ATTRIBUTES]
    without = bare_failures(module) if failed else []
    return [test for test in failed if test not in without]


def _module(name: str, program: object) -> List[Measured]:
    measured: List[Measured] = []
    tests = tests_of(name)
    if any(cls.__module__ == "unittest.loader" for cls, _ in tests):
        raise Broken(f"{name} can't be imported")
    for cls, method in tests:
        measured.append(measure_test(cls, method, program))  # type: ignore[arg-type]
        if sys.stderr.isatty():
            print(f"\r{name}: {len(measured)} of {len(tests)}", end="", file=sys.stderr)
    return measured


def _run(arguments: argparse.Namespace) -> int:
    program = ours(_command(arguments.ours))
    if arguments.reactor is not None:
        try:
            installReactor(arguments.reactor)
        except NoSuchReactor:
            raise Broken(f"there is no reactor named {arguments.reactor}") from None
    with _folder_for_files():
        return _measure(arguments.modules or MODULES, program)


def _command(words: Optional[str]) -> Optional[List[str]]:
    """The command, whose path doesn't depend on the folder."""
    command = words.split() if words else []
    if command and os.sep in command[0]:
        command[0] = os.path.abspath(command[0])
    return command or None


@contextlib.contextmanager
def _folder_for_files() -> Iterator[None]:
    """Has tests leave their files in a folder that is removed."""
    before = os.getcwd()
    with tempfile.TemporaryDirectory() as folder:
        os.chdir(folder)
        try:
            yield
        finally:
            os.chdir(before)


def _measure(modules: Sequence[str], program: object) -> int:
    everything: List[Measured] = []
    failing: List[str] = []
    print(f"Twisted {twisted.__version__}, Python {sys.version.split()[0]}\n\n{_HEADER}", flush=True)
    for module in modules:
        measured = _module(module, program)
        failing += _failing(module, measured)
        everything += measured
        print(_row(module, measured), flush=True)
    print(_row("all", everything) + "\n")
    _tell_each(everything)
    for test in failing:
        print(f"fails under the recorder alone: {test}")
    unnamed = counted(everything)[DIFFERS]
    sys.stdout.flush()
    return 1 if failing or unnamed else 0


def _tell_each(measured: List[Measured]) -> None:
    down = [one for one in measured if one.state == SAME and not one.natively]
    timed = [one for one in measured if one.state == SAME and one.with_times]
    print(f"{len(down)} of the same are recorded one level down, {len(timed)} with times of the real reactor")
    for one in measured:
        if not one.passed and one.test in COMPARE_ATTRIBUTES:
            print(f"{one.test} fails, since it compares attributes that the recorder sets")
        if one.state in (NAMED, DIFFERS, CANNOT):
            print(f"{one.test} {one.state}{': ' + one.why if one.why else ''}")


def _slower() -> int:
    print("| Program | Times while it runs | Times with what is said of it |\n|---|---|---|")
    for program, running, said in slownesses():
        print(f"| {program} | {running:.1f} | {said:.1f} |", flush=True)
    return 0


def _slower_tests(modules: Sequence[str], runs: int, every: int) -> int:
    print(f"Twisted {twisted.__version__}, Python {sys.version.split()[0]}\n")
    print("| Module | Tests that use Deferreds | Times, lower quartile | Median | Upper quartile |\n|---|---|---|---|---|")
    everything: List[TestSlowness] = []
    for module in modules:
        tests_of(module)
        measured = list(_counting(module, slownesses_of_tests(module, runs, every)))
        print(_quartiles(module, measured), flush=True)
        everything += measured
    print(_quartiles("all", everything) + "\n")
    for test in sorted(everything, key=lambda one: one.times, reverse=True)[:_DEAREST]:
        print(f"{test.times:.1f} times: {test.test}, {test.bare * 1000:.2f} ms without the recorder")
    return 0


def _counting(module: str, measured: Iterable[TestSlowness]) -> Iterator[TestSlowness]:
    """What is measured, while a terminal shows how much that is."""
    for number, one in enumerate(measured, 1):
        if sys.stderr.isatty():
            print(f"\r{module}: {number}", end="", file=sys.stderr)
        yield one


def _quartiles(name: str, measured: Sequence[TestSlowness]) -> str:
    times = [one.times for one in measured]
    found = statistics.quantiles(times, n=4) if len(times) > 1 else times * 3
    return f"| {name} | {len(times)} | " + " | ".join(f"{time:.2f}" for time in found) + " |"


def _count(word: str) -> int:
    """A number from 1 on. Raises ArgumentTypeError."""
    if not word.isdecimal() or int(word) < 1:
        raise argparse.ArgumentTypeError(f"{word} is no number from 1 on")
    return int(word)


def main(words: List[str]) -> int:
    """The command."""
    parser = Parser(prog="measure", description=__doc__.split("\n", 1)[0])
    parser.add_argument("--ours", metavar="COMMAND", help="our program (deferreds, as it is built or installed)")
    parser.add_argument("--reactor", metavar="NAME", help="run the tests on this reactor, as trial does with its option of that name")
    parser.add_argument("--slower", action="store_true", help="measure how much slower a recorded program is")
    parser.add_argument("--slower-tests", action="store_true", help="measure how much slower each recorded test is")
    parser.add_argument("--runs", metavar="N", type=_count, default=RUNS, help=f"how often each of these is run ({RUNS})")
    parser.add_argument("--every", metavar="N", type=_count, default=1, help="measure each N-th test of a module alone (1)")
    parser.add_argument("modules", nargs="*", metavar="MODULE")
    arguments = parser.parse_args(words)
    install()

    def run() -> int:
        try:
            if arguments.slower_tests:
                return _slower_tests(arguments.modules or MODULES, arguments.runs, arguments.every)
            return _slower() if arguments.slower else _run(arguments)
        except (Broken, NotLoaded) as why:
            print(f"measure: {why}", file=sys.stderr)
            return 70

    status = with_room(run) if arguments.ours == "-" else run()
    sys.stdout.flush()
    os._exit(status)  # what tests have left in threads isn't waited for
