"""What was measured, and what two measurements say of each other."""
from __future__ import annotations

import enum
import json
import statistics
from collections.abc import Iterable, Iterator, Sequence
from dataclasses import dataclass
from pathlib import Path


class Measure(enum.Enum):
    """What is measured of a run, under the word that files of figures have for it."""

    #: seconds that pass
    TIME = "time"
    #: instructions of the whole process, all threads together
    INSTRUCTIONS = "instructions"
    #: bytes that are resident at the most
    MEMORY = "memory"


@dataclass(frozen=True)
class Figure:
    """One run of a workload at a size."""

    workload: str
    size: int
    measure: Measure
    value: float


@dataclass(frozen=True)
class Pair:
    """The figures of a run before a change, and after it."""

    workload: str
    size: int
    before: float
    after: float

    @property
    def ratio(self) -> float:
        """How many times as much it is after the change: below 1 it has become better."""
        return self.after / self.before


@dataclass(frozen=True)
class Growth:
    """The figures of a workload at its size, and at sizes that are doubled each time."""

    workload: str
    sizes: tuple[int, ...]
    values: tuple[float, ...]

    @property
    def doublings(self) -> tuple[float, ...]:
        """What each doubling multiplies the value by, over 2: in proportion to the size that is 1."""
        return tuple(after / before / 2 for before, after in zip(self.values, self.values[1:]))


class Figures:
    """Figures, of which a workload has one for each size and measure."""

    def __init__(self, figures: Iterable[Figure] = ()) -> None:
        self._values = {(each.workload, each.size, each.measure): each.value for each in figures}

    def __iter__(self) -> Iterator[Figure]:
        return (Figure(*key, value) for key, value in self._values.items())

    def add(self, figure: Figure) -> None:
        """Puts a figure in, in place of one that is there of the same run."""
        self._values[figure.workload, figure.size, figure.measure] = figure.value

    def value(self, workload: str, size: int, measure: Measure) -> float | None:
        """What was measured of a workload at a size, if it was."""
        return self._values.get((workload, size, measure))

    def sizes(self, workload: str, measure: Measure) -> tuple[int, ...]:
        """The sizes at which a workload was measured, from the least on."""
        return tuple(sorted(size for name, size, found in self._values if (name, found) == (workload, measure)))

    def workloads(self, measure: Measure) -> list[str]:
        """The workloads of which this was measured, in the order in which they were."""
        return list(dict.fromkeys(name for name, _, found in self._values if found is measure))

    def measures(self) -> list[Measure]:
        """What was measured at all."""
        return [measure for measure in Measure if self.workloads(measure)]

    def growths(self, measure: Measure) -> list[Growth]:
        """How each workload grows that was measured at more than one size."""
        found = []
        for workload in self.workloads(measure):
            sizes = self.sizes(workload, measure)
            if len(sizes) > 1:
                found.append(Growth(workload, sizes, tuple(self._values[workload, size, measure] for size in sizes)))
        return found

    def save(self, path: Path) -> None:
        """Writes them to a file."""
        told = [{"workload": f.workload, "size": f.size, "measure": f.measure.value, "value": f.value} for f in self]
        path.write_text(json.dumps({"figures": told}, indent=1) + "\n")

    @classmethod
    def load(cls, path: Path) -> Figures:
        """Reads what `save` has written. Another file is a KeyError or a ValueError."""
        told = json.loads(path.read_text())["figures"]
        return cls(Figure(each["workload"], each["size"], Measure(each["measure"]), each["value"]) for each in told)


def pairs(before: Figures, after: Figures, measure: Measure) -> list[Pair]:
    """What is in both, of each workload at the least size at which it was measured after the change."""
    found = []
    for workload in after.workloads(measure):
        size = after.sizes(workload, measure)[0]
        first, second = before.value(workload, size, measure), after.value(workload, size, measure)
        if first is not None and second is not None:
            found.append(Pair(workload, size, first, second))
    return found


def mean_ratio(of: Sequence[Pair]) -> float:
    """The geometric mean of the ratios, of which there is one at least."""
    return statistics.geometric_mean(pair.ratio for pair in of)


def worst(of: Sequence[Pair]) -> Pair:
    """The pair with the greatest ratio."""
    return max(of, key=lambda pair: pair.ratio)
