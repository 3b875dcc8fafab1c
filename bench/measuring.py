"""How a run of the program is measured: its time, its instructions, or its memory."""
from __future__ import annotations

import re
import shutil
import subprocess
import sys
import tempfile
import time
from collections.abc import Sequence
from dataclasses import dataclass
from pathlib import Path
from typing import Protocol

from figures import Measure
from workloads import Script

HERE = Path(__file__).resolve().parent

#: with no workers the thread that runs the script runs the jobs, too, so that what is counted is the same each time
WORKERS = "0"
KIBIBYTE = 1024


class NotMeasured(Exception):
    """A tool that measures has told nothing."""


@dataclass(frozen=True)
class End:
    """How a run ended, and what it wrote."""

    status: int
    output: bytes
    errors: bytes

    @property
    def entries(self) -> int:
        """How many lines its journal has: those of what became of Deferreds begin with `#`, and aren't of it."""
        return sum(not line.startswith(b"#") for line in self.output.splitlines())

    def mistake(self, script: Script) -> str | None:
        """In what it isn't the run that the script is meant to have, if it isn't."""
        if self.status != script.status:
            return f"status {self.status} in place of {script.status}: {self.errors.decode(errors='replace').strip()}"
        if self.entries != script.entries:
            return f"{self.entries} entries in place of {script.entries}"
        return None


def run(words: Sequence[str], source: bytes) -> End:
    """Runs a program on a script."""
    ran = subprocess.run(words, input=source, stdout=subprocess.PIPE, stderr=subprocess.PIPE, check=False)
    return End(ran.returncode, ran.stdout, ran.stderr)


def _value(measured: tuple[End, float]) -> float:
    """What was measured of a run."""
    return measured[1]


class Meter(Protocol):
    """Measures runs of a program."""

    @property
    def measure(self) -> Measure:
        """What it measures."""

    @property
    def means(self) -> str:
        """By what it measures."""

    def of(self, program: Path, source: bytes) -> tuple[End, float]:
        """Runs the program on a script: how that ended, and what was measured of it."""


@dataclass(frozen=True)
class Stopwatch:
    """Measures the time that passes, in seconds: the least of some runs."""

    runs: int = 5
    measure: Measure = Measure.TIME

    @property
    def means(self) -> str:
        return f"time that passes, the least of {self.runs} runs"

    def of(self, program: Path, source: bytes) -> tuple[End, float]:
        return min((self._once(program, source) for _ in range(self.runs)), key=_value)

    def _once(self, program: Path, source: bytes) -> tuple[End, float]:
        start = time.perf_counter()
        end = run([str(program), WORKERS], source)
        return end, time.perf_counter() - start


class Callgrind:
    """Counts the instructions of a run, of all its threads together, by callgrind of valgrind."""

    measure = Measure.INSTRUCTIONS
    means = "instructions by valgrind --tool=callgrind"

    def of(self, program: Path, source: bytes) -> tuple[End, float]:
        with tempfile.TemporaryDirectory() as folder:
            valgrind = ["valgrind", "--tool=callgrind", f"--callgrind-out-file={folder}/out"]
            end = run([*valgrind, str(program), WORKERS], source)
        return end, count_of(end.errors)


def count_of(errors: bytes) -> int:
    """The count that callgrind tells at its end."""
    counted = re.search(rb"Collected : (\d+)", errors)
    if counted is None:
        raise NotMeasured("valgrind has counted nothing: " + errors.decode(errors="replace")[-400:])
    return int(counted[1])


@dataclass(frozen=True)
class PeakMemory:
    """Measures the most bytes that a run has resident, by a small program that runs it and writes the kibibytes to a file.

    What a process had resident counts for the one that it becomes, so a run measured from here would have at least what this
    Python has. The kernel counts pages for each processor and adds them up now and then, so one run shows some hundredths more
    or less than another: of some runs the one in the middle is taken.
    """

    #: the words that run the small program, before the name of the file
    words: tuple[str, ...]
    means: str
    #: an odd number
    runs: int = 9
    measure: Measure = Measure.MEMORY

    def of(self, program: Path, source: bytes) -> tuple[End, float]:
        return sorted((self._once(program, source) for _ in range(self.runs)), key=_value)[self.runs // 2]

    def peak(self, words: Sequence[str]) -> float:
        """Runs a command that reads nothing: the most bytes that any process of it had resident, in the middle of some runs."""
        return sorted(self._of_words(words, b"")[1] for _ in range(self.runs))[self.runs // 2]

    def _once(self, program: Path, source: bytes) -> tuple[End, float]:
        return self._of_words([str(program), WORKERS], source)

    def _of_words(self, words: Sequence[str], source: bytes) -> tuple[End, float]:
        with tempfile.NamedTemporaryFile() as told:
            end = run([*self.words, told.name, *words], source)
            kibibytes = told.read().split()
        if not kibibytes:
            raise NotMeasured(f"{self.words[0]} has told nothing: " + end.errors.decode(errors="replace"))
        return end, int(kibibytes[-1]) * KIBIBYTE


def gnu_time() -> PeakMemory | None:
    """GNU time, where it is here; it has a megabyte itself."""
    path = shutil.which("time")
    if path is None or b"GNU" not in subprocess.run([path, "--version"], capture_output=True, check=False).stdout:
        return None
    return PeakMemory((path, "--quiet", "--format=%M", "--output"), f"peak resident memory by {path} (GNU time)")


def peak_memory() -> PeakMemory:
    """GNU time, or else a bare Python, which has some nine megabytes itself: no run is less than that."""
    python = PeakMemory((sys.executable, "-I", "-S", str(HERE / "peak.py")), "peak resident memory by bench/peak.py")
    return gnu_time() or python
