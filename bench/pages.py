#!/usr/bin/env python3
"""Measures what it costs to make the page of a run, against the run itself (FIGURES.md).

    bench/pages.py [--lines N]... [--runs N] [--memory] [--markdown]

The run is `./deferreds --json SCRIPT`, by the launcher and by the program alone; the page is `./view --json FILE` of what that printed.
Times are of the processor, all processes of a command together, so that other work on the machine counts little. The commands take
turns, and the least of their runs counts. If a command ends with another status than 0, nothing is measured, and the status is 1.
"""
from __future__ import annotations

import argparse
import os
import sys
import tempfile
from collections.abc import Iterator, Mapping, Sequence
from dataclasses import dataclass, replace
from pathlib import Path

from bench import TOP, Parser, built_program, run_command
from measuring import NotMeasured, peak_memory
from tables import Table
from workloads import WORKLOADS, Workload

#: the workloads whose journals have a line for each step of what ordinary programs do
_NAMES = ("callbacks", "inline bodies", "locks", "queues", "time-outs")
_LINES = (1_100, 20_000, 100_000)
#: a script of version 3 may have a journal of this weight, and be that long
_LIMIT = 10_000_000


@dataclass(frozen=True)
class Run:
    """A run of a workload, and the commands that are measured: each by its name."""

    name: str
    lines: int
    commands: Mapping[str, Sequence[str]]


def run_of(workload: Workload, lines: int, folder: Path, program: Path) -> Run:
    """A run of about so many lines, whose script and output are written into the folder."""
    size = lines * workload.size // workload.make(workload.size).entries
    made = replace(workload.make(size), version=3, limit=_LIMIT)
    script, facts = folder / f"{workload.name}.json", folder / f"{workload.name}.jsonl"
    script.write_bytes(made.source)
    commands = {
        "program": [str(program), "--json", str(script)],
        "deferreds": [str(TOP / "deferreds"), "--json", str(script)],
        "view": [str(TOP / "view"), "--json", str(facts), "-o", str(folder / "page.html")],
    }
    seconds(commands["program"], facts)
    return Run(workload.name, made.entries, commands)


def seconds(words: Sequence[str], output: Path = Path(os.devnull)) -> float:
    """How long the processor works for a command, with the processes that it starts."""
    with output.open("wb") as file, open(os.devnull, "wb") as errors:
        to = [(os.POSIX_SPAWN_DUP2, file.fileno(), 1), (os.POSIX_SPAWN_DUP2, errors.fileno(), 2)]
        process = os.posix_spawn(words[0], words, os.environ, file_actions=to)
        _, status, used = os.wait4(process, 0)
    if status != 0:
        raise NotMeasured(f"{' '.join(words)}: status {os.waitstatus_to_exitcode(status)}")
    return used.ru_utime + used.ru_stime


def times(run: Run, runs: int) -> dict[str, float]:
    """The least time of each command of a run."""
    taken = [{name: seconds(words) for name, words in run.commands.items()} for _ in range(runs)]
    return {name: min(one[name] for one in taken) for name in run.commands}


def memory(run: Run) -> Iterator[float]:
    """The peak of memory of the program, and of what makes the page."""
    meter = peak_memory()
    for name in ("program", "view"):
        yield meter.peak(run.commands[name])


def row(run: Run, options: argparse.Namespace) -> list[str]:
    """A row of the table."""
    least = times(run, options.runs)
    cells = [run.name, f"{run.lines:,}", *(f"{1000 * least[name]:.1f}" for name in run.commands)]
    cells += [f"{least['view'] / least[name]:.1f}" for name in ("program", "deferreds")]
    return cells + ([f"{peak / 1e6:.1f}" for peak in memory(run)] if options.memory else [])


def table(options: argparse.Namespace) -> Table:
    """What all runs cost."""
    program = built_program()
    chosen = [one for one in WORKLOADS if one.name in _NAMES]
    rows = []
    with tempfile.TemporaryDirectory() as folder:
        for lines in options.lines or _LINES:
            rows += [row(run_of(one, lines, Path(folder), program), options) for one in chosen]
    headings = ["workload", "lines", "program, ms", "./deferreds --json, ms", "./view --json, ms", "view / program", "view / deferreds"]
    return Table(headings + (["MB, program", "MB, view"] if options.memory else []), rows)


def main(words: Sequence[str] | None = None) -> int:
    """The command."""
    parser = Parser(description=(__doc__ or "").splitlines()[0])
    parser.add_argument("--lines", type=int, action="append", metavar="N", help="about how many lines the runs have; may be given again")
    parser.add_argument("--runs", type=int, default=11, metavar="N", help="of how many runs the least time counts (11)")
    parser.add_argument("--memory", action="store_true", help="measure the peak of resident memory, too")
    parser.add_argument("--markdown", action="store_true", help="print the table as a page has it")
    options = parser.parse_args(words)
    print(f"time of the processor, the least of {options.runs} runs; the load is {os.getloadavg()[0]:.1f}, of {os.cpu_count()} processors")
    try:
        found = table(options)
    except NotMeasured as reason:
        print(reason, file=sys.stderr)
        return 1
    print(found.markdown() if options.markdown else found.plain(), end="")
    return 0


if __name__ == "__main__":
    run_command(main, "pages.py")
