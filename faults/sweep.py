#!/usr/bin/env python3
"""Runs the program on scripts of `scripts/` with each growth of memory refused, and each read and write failed, in turn.

    faults/sweep.py [--cmd PROGRAM] [--cc COMPILER] [--sample]

Runs are swept on all scripts, and runs as JSON on some. Some scripts run in every order of their posts. What is printed as JSON
where nothing fails is first held against the text of the script, line by line. A sample takes a few scripts, and seconds.

Each run is given one fault by a shim that is preloaded, and the next one the next number, until three in a row have met none.
A run that wants memory ends by status 3 with a prefix of its text, or has done without. A run whose reader or writer failed
ends by status 4, with nothing or a prefix written. Anything else is wrong, a run of more than 20 seconds too. The last line
says how many runs there were, how many growths were refused in them, and how many were wrong; the status is 0 where none was.
"""
from __future__ import annotations

import argparse
import json
import os
import subprocess
import sys
import tempfile
from collections.abc import Iterator
from concurrent.futures import ThreadPoolExecutor
from dataclasses import dataclass, field, replace
from itertools import count, product
from pathlib import Path
from threading import Lock

from faults import End, Fault, Kind, is_right
from scripts import Script, all_scripts, sample_scripts, told_sample_scripts, told_scripts

sys.path.insert(0, str(Path(__file__).resolve().parent.parent / "python"))

from deferreds.arguments import Parser  # noqa: E402
from deferreds.ending import run_command  # noqa: E402

HERE = Path(__file__).resolve().parent
LAUNCHER = HERE.parent / "deferreds"
WORKERS = (0, 2)
IN_VAIN = 3
MOST_WRONG = 20
LONG_TEXT = 1_000


@dataclass
class Findings:
    """The results of the runs."""

    runs: int = 0
    refused: int = 0
    wrong: int = 0
    lock: Lock = field(default_factory=Lock)

    def add(self, fault: Fault, end: End) -> None:
        with self.lock:
            self.runs += 1
            self.refused += end.met if fault.kind.is_of_memory else 0

    def add_wrong(self, line: str) -> None:
        with self.lock:
            self.wrong += 1
            print(line, flush=True)

    def __str__(self) -> str:
        return f"{self.runs} runs, {self.refused} refused growths, {self.wrong} wrong"


def run_under(shim: Path, words: list[str], source: bytes, environment: dict[str, str], seconds: float) -> End:
    """Runs a program under the shim."""
    told, tells = os.pipe()
    with open(told, "rb") as reports:
        try:
            status, output, errors = run_telling(shim, words, source, environment, seconds, tells)
        finally:
            os.close(tells)
        return End(status, output, errors, len(reports.read()))


def run_telling(
    shim: Path, words: list[str], source: bytes, environment: dict[str, str], seconds: float, tells: int
) -> tuple[int | None, bytes, bytes]:
    """Runs a program under the shim, which tells this file of each fault that is met: how it ended, and what it wrote."""
    try:
        ran = subprocess.run(
            words,
            input=source,
            capture_output=True,
            env={"LD_PRELOAD": str(shim), "FAULT_REPORT": str(tells), **environment},
            pass_fds=[tells],
            timeout=seconds,
            check=False,
        )
    except subprocess.TimeoutExpired as late:
        return None, late.stdout or b"", late.stderr or b""
    return ran.returncode, ran.stdout, ran.stderr


@dataclass(frozen=True)
class Program:
    """A program under the shim."""

    path: Path
    shim: Path
    seconds: float

    def run(self, script: Script, workers: int, fault: Fault) -> End:
        """Runs a script under a fault."""
        return self.run_in(script, workers, fault.environment())

    def run_in(self, script: Script, workers: int, environment: dict[str, str]) -> End:
        """Runs a script in an environment."""
        words = [str(self.path), *script.words_with(workers)]
        return run_under(self.shim, words, script.source, environment, self.seconds)


@dataclass(frozen=True)
class Row:
    """A row of runs: a script, the number of workers, and the kind of fault, at each number in turn."""

    script: Script
    workers: int
    kind: Kind
    piece: int

    def faults(self) -> Iterator[Fault]:
        return (Fault(self.kind, number, self.piece) for number in count(1))

    def must_meet(self) -> bool:
        """Whether a run meets the first fault: each reads and grows, and one that prints something writes."""
        return self.kind not in (Kind.WRITE_FAILS, Kind.WRITE_TAKES_NOTHING) or bool(self.script.text)

    def __str__(self) -> str:
        return f"{self.script.name} with {self.workers} workers" if self.script.has_workers else self.script.name


def with_workers(scripts: list[Script]) -> Iterator[tuple[Script, int]]:
    """Each of these scripts, with each number of workers, or with none where it takes none."""
    return ((script, workers) for script in scripts for workers in (WORKERS if script.has_workers else (0,)))


def rows(scripts: list[Script]) -> Iterator[Row]:
    """Each row of runs of these scripts. Bytes are moved one by one where the text is short, and with no workers, which neither
    read nor write."""
    for (script, workers), kind in product(with_workers(scripts), Kind):
        yield Row(script, workers, kind, 0)
        if not kind.is_of_memory and workers == 0 and len(script.text) < LONG_TEXT:
            yield Row(script, workers, kind, 1)


def sweep_row(program: Program, row: Row, findings: Findings) -> None:
    """Makes the runs of a row until three in a row have met no fault, or too many runs are wrong."""
    in_vain = 0
    for fault in row.faults():
        end = program.run(row.script, row.workers, fault)
        findings.add(fault, end)
        if not is_right(row.script, fault, end):
            findings.add_wrong(f"{row}: {fault}: {end}")
        if fault.number == 1 and not end.met and row.must_meet():
            findings.add_wrong(f"{row}: {fault}: the shim isn't asked")
        in_vain = 0 if end.met else in_vain + 1
        if in_vain == IN_VAIN or findings.wrong >= MOST_WRONG:
            return


def joined(output: bytes) -> bytes:
    """The texts of entries and outcomes in a run that is printed as JSON."""
    told = [json.loads(line) for line in output.decode().split("\n")[:-1]]
    return "".join(f"{line['line']}\n" for line in told if line["type"] in ("entry", "deferred")).encode()


def told_as_json(program: Program, scripts: list[Script], findings: Findings) -> Iterator[Script]:
    """The scripts, with how the program ends and what it prints if nothing fails."""
    for script in scripts:
        told = replace(script, name=f"{script.name} as JSON", words=("--json", *script.words))
        end = program.run_in(told, 0, {})
        if (end.status, end.errors, joined(end.output)) != (script.status, script.errors, script.text):
            findings.add_wrong(f"{told.name}: {end}, and doesn't tell what is printed")
        yield replace(told, text=end.output)


def sweep(program: Program, scripts: list[Script], findings: Findings) -> Findings:
    """Makes all runs, side by side."""
    with ThreadPoolExecutor(2 * (os.cpu_count() or 1)) as pool:
        for done in [pool.submit(sweep_row, program, row, findings) for row in rows(scripts)]:
            done.result()
    return findings


def compiled(compiler: str, source: Path, target: Path, *words: str) -> Path:
    """Compiles a C file."""
    subprocess.run([compiler, "-O2", "-Wall", "-fno-builtin", *words, "-o", str(target), str(source)], check=True)
    return target


def compiled_shim(compiler: str, folder: Path) -> Path:
    """Compiles the shim into this folder."""
    return compiled(compiler, HERE / "shim.c", folder / "shim.so", "-fPIC", "-shared")


def program_here() -> Path:
    """The program that the launcher runs: built from these sources, or released for them."""
    asked = subprocess.run([str(LAUNCHER), "--program"], stdout=subprocess.PIPE, text=True, check=False)
    if asked.returncode != 0:
        sys.exit(asked.returncode)
    return Path(asked.stdout.strip())


def main() -> int:
    parser = Parser(description=__doc__, formatter_class=argparse.RawDescriptionHelpFormatter)
    parser.add_argument("--cmd", type=Path, metavar="PROGRAM", help="the program that runs, in place of the one that is built or released")
    parser.add_argument("--cc", default=os.environ.get("CC", "cc"), metavar="COMPILER", help="the C compiler for the shim")
    parser.add_argument("--sample", action="store_true", help="take a few scripts alone")
    asked = parser.parse_args()
    path = asked.cmd or program_here()
    if not os.access(path, os.X_OK):
        print(f"{path} isn't there, or can't be run", file=sys.stderr)
        return 2
    scripts, told = (sample_scripts(), told_sample_scripts()) if asked.sample else (all_scripts(), told_scripts())
    findings = Findings()
    with tempfile.TemporaryDirectory() as folder:
        program = Program(path.resolve(), compiled_shim(asked.cc, Path(folder)), 20)
        sweep(program, [*scripts, *told_as_json(program, told, findings)], findings)
    print(findings)
    return 0 if findings.wrong == 0 else 1


if __name__ == "__main__":
    run_command(main, "sweep.py")
