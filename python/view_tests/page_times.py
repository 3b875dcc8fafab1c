"""`python3 -m view_tests.page_times [LINES]`, in python/: how long a browser takes for a page of many lines, and for steps in it.

Times are milliseconds of the processor, by the main thread of the process that runs the scripts of pages and draws them, and those of a
clock. A page is opened five times, each in a browser of its own, whose process of pages runs already.
"""

from __future__ import annotations

import argparse
import tempfile
import time
from pathlib import Path
from statistics import median
from typing import Callable, List, NamedTuple

from deferreds.view.page import written_page

from . import samples
from .browser import Browser

_LOADS, _STEPS = 5, 50
_EMPTY = "<!doctype html><title>empty</title>"


class Took(NamedTuple):
    """How many milliseconds something took, of the processor and by a clock."""

    busy: float
    passed: float


def took(browser: Browser, act: Callable[[], object]) -> Took:
    """How long this takes until what is seen is drawn."""
    before, begun = browser.busy(), time.monotonic()
    act()
    browser.settle()
    passed = time.monotonic() - begun
    # (the browser has pages of its own, too)
    busy = max(seconds - before.get(process, 0.0) for process, seconds in browser.busy().items())
    return Took(1000 * busy, 1000 * passed)


def _said(name: str, times: List[Took]) -> str:
    busy, passed = [one.busy for one in times], [one.passed for one in times]
    return f"{name:28}{median(busy):8.1f} ({min(busy):.1f} to {max(busy):.1f}){median(passed):10.1f} ({min(passed):.1f} to {max(passed):.1f})"


def main(lines: int) -> None:
    """Prints the times."""
    print(f"{'':28}{'of the processor':26}by a clock, in ms: the median, and from the least to the most")
    with tempfile.TemporaryDirectory() as folder:
        empty, page = Path(folder, "empty.html"), Path(folder, "page.html")
        empty.write_text(_EMPTY, encoding="utf-8")
        page.write_text(written_page(samples.long(lines)), encoding="utf-8")
        loads: List[Took] = []
        for number in range(_LOADS):
            browser = Browser()
            try:
                browser.open(empty)
                loads.append(took(browser, lambda: browser.open(page)))
                if number == _LOADS - 1:
                    print(_said(f"{lines} lines", loads), flush=True)
                    _steps(browser)
            finally:
                browser.close()


def _steps(browser: Browser) -> None:
    for name, step in (("a step of 100 pixels", "scrollBy(0, 100)"), ("a step of a window", "scrollBy(0, innerHeight)"), ("a jump", "scrollTo(0, {})")):
        browser.ask("scrollTo(0, document.getElementById('chart').offsetTop)")
        browser.settle()
        height = browser.ask("document.documentElement.scrollHeight - innerHeight")
        places = [int(height * (number * 0.618 % 1)) for number in range(_STEPS)]
        print(_said(name, [took(browser, lambda: browser.ask(step.format(place))) for place in places]), flush=True)


if __name__ == "__main__":
    _parser = argparse.ArgumentParser(prog="python3 -m view_tests.page_times", description="Measures how long a browser takes for a page.")
    _parser.add_argument("lines", nargs="?", type=int, default=100_000, metavar="LINES", help="how many lines the page has; 100,000 if left out")
    main(_parser.parse_args().lines)
