#!/usr/bin/env python3
"""Measures the built program on the workloads of `workloads.py`, and compares what was measured (FIGURES.md).

    bench/bench.py [--program PATH] [--only NAME] [--instructions] [--memory] [--growth]
                   [--save FILE] [--measured FILE] [--against FILE] [--markdown]

Each run has to end with the status that its workload says, and its journal has to have as many entries: otherwise nothing is
measured, and the status is 1. No figure makes the status another: what is fast enough is for the reader of the tables.
"""
from __future__ import annotations

import argparse
import shutil
import subprocess
import sys
from collections.abc import Iterator, Sequence
from pathlib import Path

from figures import Figure, Figures, Measure, pairs
from measuring import Callgrind, Meter, NotMeasured, Stopwatch, peak_memory
from tables import Table, growth_table, measured_table, pairs_table
from workloads import WORKLOADS, Workload

sys.path.insert(0, str(Path(__file__).resolve().parent.parent / "python"))

from deferreds.arguments import Parser  # noqa: E402
from deferreds.ending import run_command  # noqa: E402

TOP = Path(__file__).resolve().parent.parent


class Wrong(Exception):
    """A run that isn't as its workload says."""


def program_of(options: argparse.Namespace) -> Path:
    """The program that is named, or else the one that is built from these sources."""
    program: Path = options.program or built_program()
    if not program.is_file():
        sys.exit(f"there is no program {program}")
    return program.resolve()


def built_program() -> Path:
    """The program that is built from these sources."""
    asked = subprocess.run([str(TOP / "deferreds"), "--program"], capture_output=True, text=True, check=False)
    if asked.returncode != 0:
        sys.exit(asked.stderr.strip() + "; --program PATH names another")
    return Path(asked.stdout.rstrip("\n"))


def meters(options: argparse.Namespace) -> list[Meter]:
    """What measures the runs: the stopwatch, where nothing else is asked for."""
    asked: list[Meter] = []
    if options.instructions:
        if shutil.which("valgrind") is None:
            sys.exit("valgrind, which counts instructions, isn't here")
        asked.append(Callgrind())
    if options.memory:
        asked.append(peak_memory())
    return asked or [Stopwatch()]


def is_measured(workload: Workload, meter: Meter) -> bool:
    """Whether a meter is for a workload."""
    return meter.measure is Measure.MEMORY or not workload.is_full


def measured(program: Path, workload: Workload, size: int, meter: Meter) -> Figure:
    """Runs the program on a workload of a size."""
    script = workload.make(size)
    end, value = meter.of(program, script.source)
    mistake = end.mistake(script)
    if mistake is not None:
        raise Wrong(f"{workload.name} of {size}: {mistake}")
    return Figure(workload.name, size, meter.measure, value)


def all_measured(program: Path, chosen: Sequence[Workload], by: Sequence[Meter], growing: bool) -> Iterator[Figure]:
    """Runs the program on all workloads that are chosen, at their sizes."""
    runs = [(each, size, meter) for each in chosen for size in each.sizes(growing) for meter in by if is_measured(each, meter)]
    for done, (workload, size, meter) in enumerate(runs):
        if sys.stderr.isatty():
            print(f"\r{done} of {len(runs)}: {workload.name} of {size}\x1b[K", end="", file=sys.stderr, flush=True)
        yield measured(program, workload, size, meter)
    if sys.stderr.isatty():
        print("\r\x1b[K", end="", file=sys.stderr)


def tables(figures: Figures, before: Figures | None) -> Iterator[Table]:
    """The tables of what was measured, or those of a comparison, and those of growth where it was measured."""
    if before is None:
        entries = {each.name: each.make(each.size).entries for each in WORKLOADS}
        yield measured_table(figures, entries)
    for measure in figures.measures():
        if before is not None:
            yield pairs_table(pairs(before, figures, measure), measure)
        growths = figures.growths(measure)
        if growths:
            yield growth_table(growths, measure)


def parsed(words: Sequence[str] | None) -> argparse.Namespace:
    """The options."""
    parser = Parser(description=(__doc__ or "").splitlines()[0])
    parser.add_argument("--program", type=Path, help="the built program; otherwise what ./deferreds --program tells")
    parser.add_argument("--only", default="", metavar="NAME", help="the workloads whose names have this in them")
    parser.add_argument("--instructions", action="store_true", help="count instructions, by valgrind, in place of time")
    parser.add_argument("--memory", action="store_true", help="measure the peak of resident memory")
    parser.add_argument("--growth", action="store_true", help="measure at n, 2n and 4n")
    parser.add_argument("--save", type=Path, metavar="FILE", help="write the figures to a file")
    parser.add_argument("--measured", type=Path, metavar="FILE", help="take saved figures, and measure nothing")
    parser.add_argument("--against", type=Path, metavar="FILE", help="compare with saved figures")
    parser.add_argument("--markdown", action="store_true", help="print tables as a page has them")
    return parser.parse_args(words)


def figures_of(options: argparse.Namespace) -> Figures:
    """The figures that are saved, or that are measured now."""
    chosen = [each for each in WORKLOADS if options.only in each.name]
    if not chosen:
        sys.exit(f"no workload has {options.only} in its name")
    if options.measured is not None:
        names = {each.name for each in chosen}
        return Figures(figure for figure in Figures.load(options.measured) if figure.workload in names)
    program = program_of(options)
    by = meters(options)
    print("\n".join(meter.means for meter in by), flush=True)
    return Figures(all_measured(program, chosen, by, options.growth))


def main(words: Sequence[str] | None = None) -> int:
    options = parsed(words)
    before = Figures.load(options.against) if options.against is not None else None
    try:
        figures = figures_of(options)
    except (Wrong, NotMeasured) as reason:
        print(reason, file=sys.stderr)
        return 1
    if options.save is not None:
        figures.save(options.save)
    for table in tables(figures, before):
        print()
        print(table.markdown() if options.markdown else table.plain(), end="")
    return 0


if __name__ == "__main__":
    run_command(main, "bench.py")
