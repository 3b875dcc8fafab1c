"""The command `view`: what its words ask for is shown, and what can't be shown is said."""

from __future__ import annotations

import gc
import os
import sys
from functools import partial
from itertools import chain
from pathlib import Path
from typing import TYPE_CHECKING, Callable, Iterator, List, Optional, Set

from ..checkout import command_name
from ..ending import ended, open_streams, say, writing
from .arguments import parsed
from .inputs import NO_INPUT, NO_OUTPUT, Failed, InOrders, Inputs, read_any
from .names import ORDERS_PAGE, SAMPLE_PAGE, STANDARD, TRACE, page_name
from .sizes import said_of_part
from .texts import clipped, visible

# (what a form needs is imported where it is used)
if TYPE_CHECKING:
    import argparse

    from .run import Run


def _orders_words(arguments: argparse.Namespace) -> List[str]:
    """The words by which `./deferreds --orders` is asked for these orders."""
    numbers = (("--most", arguments.most), ("--sample", arguments.sample), ("--seed", arguments.seed))
    return [word for name, number in numbers if number is not None for word in (name, str(number))]


def _say(text: str) -> None:
    say(f"{command_name('view')}: {text}")


def _inputs(arguments: argparse.Namespace) -> List[Inputs]:
    """What each run is made of."""
    return [
        Inputs(script, arguments.journal, arguments.json, arguments.places, next(iter(arguments.batches), None))
        for script in arguments.scripts or [None]
    ]


def _is_folder(output: str) -> bool:
    """Whether pages are written into a folder of this name: one that is there, or that ends as a folder does."""
    return output != STANDARD and (output.endswith("/") or Path(output).is_dir())


def _targets(arguments: argparse.Namespace, inputs: List[Inputs]) -> Iterator[str]:
    """Where each page is written: two have never the same name."""
    output = arguments.output
    is_folder = len(inputs) > 1 or (output is not None and _is_folder(output))
    taken: Set[str] = set()
    for one in inputs:
        if output and not is_folder:
            yield output
            continue
        main, ending = "script" if one.main == STANDARD else one.main, _ending(arguments)
        names = (page_name(main, f"{f'_{number}' if number > 1 else ''}{ending}") for number in range(1, len(inputs) + 1))
        name = next(name for name in names if name not in taken)
        taken.add(name)
        yield os.fspath(Path(output or "", name))


def _ending(arguments: argparse.Namespace) -> str:
    """What the name of a page or a trace ends with, in the place of that of its script."""
    if arguments.orders:
        return SAMPLE_PAGE if arguments.sample is not None else ORDERS_PAGE
    return TRACE if arguments.trace else ".html"


def _check_target(target: str, inputs: List[Inputs]) -> None:
    """Raises Failed where a page would take the place of what one is made from."""
    for one in inputs if target != STANDARD else []:
        for name in one.files:
            if _is_same(target, name):
                raise Failed(NO_OUTPUT, f"{target} isn't written: the view is made from that file; -o FILE names another")


def _is_same(one: str, other: str) -> bool:
    """Whether both are the same file, which is there."""
    try:
        return os.path.samefile(one, other)
    except (OSError, ValueError):
        return False


def _write(text: str, target: str) -> None:
    """Writes a page or a trace, and its folder where that isn't there."""
    if target == STANDARD:
        with writing():
            sys.stdout.write(text)
            sys.stdout.flush()
        return
    try:
        path = Path(target)
        path.parent.mkdir(parents=True, exist_ok=True)
        path.write_bytes(text.encode("utf-8"))
    except (OSError, ValueError) as error:
        why = error.strerror if isinstance(error, OSError) else "it is no name of a file"
        raise Failed(NO_OUTPUT, f"{target} can't be written: {why}") from None


def _print_json(run: Run) -> None:
    from .as_json import AsJson

    with writing():
        print(AsJson(run).text())


def _print_text(run: Run, asked: Optional[str], only_report: bool) -> None:
    from shutil import get_terminal_size

    from .branches import found
    from .terminal import Terminal

    color = sys.stdout.isatty() and not os.environ.get("NO_COLOR") and os.environ.get("TERM") != "dumb"
    terminal = Terminal(run, color, get_terminal_size().columns if sys.stdout.isatty() else 0)
    numbers = found(run, asked) if asked is not None else []
    if numbers is None:
        raise Failed(NO_INPUT, f"{visible(run.title)} has no Deferred {visible(clipped(asked or '', 100))}")
    with writing():
        lines = terminal.report() if only_report else terminal.lines()
        for line in chain.from_iterable(map(terminal.tree, numbers)) if asked is not None else lines:
            print(line)


def _show_page(one: Inputs, arguments: argparse.Namespace, target: str) -> None:
    from .document import written
    from .page import Page

    run = one.run()
    page = Page(run, arguments.first, arguments.last)
    _write(written(run.title, page.pieces()), target)
    _say_written(target, run.counts, said_of_part(len(run.fold.rows), page.rows))
    _open(arguments, target)


def _show_orders(script: InOrders, arguments: argparse.Namespace, target: str) -> None:
    from .orders_page import OrdersPage

    page = OrdersPage(script.title, script.orders, script.run)
    _write(page.html(), target)
    _say(f"{_shown_target(target)}: {page.counts}")
    _open(arguments, target)


def _write_trace(run: Run, target: str) -> None:
    from .trace import Trace

    trace = Trace(run)
    _write(trace.text(), target)
    _say_written(target, run.counts, "" if trace.clock.is_even else "; its times are too long to stand in proportion")


def _say_written(target: str, counts: str, more: str) -> None:
    _say(f"{_shown_target(target)}: {counts}{more}")


def _shown_target(target: str) -> str:
    return "standard output" if target == STANDARD else target


def _open(arguments: argparse.Namespace, target: str) -> None:
    """Opens the page in the browser, where that is asked for."""
    if arguments.open:
        import webbrowser

        webbrowser.open(Path(target).resolve().as_uri())


def start(name: str = "view") -> None:
    """The command, under its name, to the end of the process."""
    open_streams()
    gc.disable()  # what a run is made of stays until the end, and looking through it again and again takes an eighth of the time
    sys.exit(ended(lambda: main(sys.argv[1:]), name))


def main(words: List[str]) -> int:
    """The command."""
    arguments = parsed(words)
    if hasattr(sys.stdout, "reconfigure"):
        sys.stdout.reconfigure(encoding="utf-8")
    if arguments.compare:
        return _status_of(lambda: _compare(arguments))
    inputs = _inputs(arguments)
    shown = [
        _status_of(partial(_show, one, arguments, inputs, target))
        for one, target in zip(inputs, _targets(arguments, inputs))
    ]
    return next((status for status in shown if status), 0)


def _status_of(show: Callable[[], None]) -> int:
    """The status of what is shown; where it can't be, why is said."""
    try:
        show()
    except Failed as failed:
        if str(failed):
            _say(str(failed))
        return failed.status
    return 0


def _show(one: Inputs, arguments: argparse.Namespace, inputs: List[Inputs], target: str) -> None:
    if arguments.text:
        return _print_text(one.run(), arguments.deferred, arguments.report)
    if arguments.as_json:
        return _print_json(one.run())
    _check_target(target, inputs)
    if arguments.orders:
        return _show_orders(InOrders(one, _orders_words(arguments)), arguments, target)
    if arguments.trace:
        return _write_trace(one.run(), target)
    return _show_page(one, arguments, target)


def _compare(arguments: argparse.Namespace) -> None:
    """Shows two runs beside each other."""
    from .compared import Compared
    from .compared_forms import ComparedPage, text_lines

    inputs = [Inputs(name) for name in arguments.compare]
    target = arguments.output
    if target is None or _is_folder(target):
        stems = ("script" if name == STANDARD else Path(name).stem for name in arguments.compare)
        target = os.fspath(Path(target or "", f"{'_and_'.join(stems)}.html"))
    if not arguments.text:
        _check_target(target, inputs)
    first, second = map(read_any, arguments.compare, arguments.batches or [None, None])
    compared = Compared(first, second)
    if arguments.text:
        with writing():
            for line in text_lines(compared):
                print(line)
        return
    _write(ComparedPage(compared).html(), target)
    _say(f"{_shown_target(target)}: {compared.verdict}")
    _open(arguments, target)


if __name__ == "__main__":
    start()
