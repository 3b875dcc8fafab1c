"""Tables of figures, plain or in Markdown."""
from __future__ import annotations

from collections.abc import Iterator, Mapping, Sequence
from dataclasses import dataclass

from figures import Figures, Growth, Measure, Pair, mean_ratio, worst

#: in what unit a measure is shown, and how much of its own that is
UNITS: Mapping[Measure, tuple[str, float]] = {
    Measure.TIME: ("ms", 1e-3),
    Measure.INSTRUCTIONS: ("M instructions", 1e6),
    Measure.MEMORY: ("MB", 1e6),
}


@dataclass(frozen=True)
class Table:
    """A table, whose first column stands at the left, and the others at the right."""

    headings: Sequence[str]
    rows: Sequence[Sequence[str]]

    def plain(self) -> str:
        """As a terminal shows it."""
        widths = [max(map(len, column)) for column in zip(self.headings, *self.rows)]
        return "".join(_aligned(row, widths) + "\n" for row in (self.headings, *self.rows))

    def markdown(self) -> str:
        """As a page has it."""
        rule = ["---"] + ["---:"] * (len(self.headings) - 1)
        return "".join(f"| {' | '.join(row)} |\n" for row in (self.headings, rule, *self.rows))


def _aligned(row: Sequence[str], widths: Sequence[int]) -> str:
    """A row whose cells have these widths."""
    first, *others = (cell.rjust(width) if place else cell.ljust(width) for place, (cell, width) in enumerate(zip(row, widths)))
    return "  ".join([first, *others]).rstrip()


def shown(value: float, measure: Measure) -> str:
    """A value in the unit of its measure."""
    return f"{value / UNITS[measure][1]:,.2f}"


def measured_table(figures: Figures, entries: Mapping[str, int]) -> Table:
    """The figures of each workload at its least size, where its journal has so many entries."""
    measures = figures.measures()
    names = dict.fromkeys(name for measure in measures for name in figures.workloads(measure))
    rows = []
    for name in names:
        size = min(size for measure in measures for size in figures.sizes(name, measure))
        values = (figures.value(name, size, measure) for measure in measures)
        cells = ["" if value is None else shown(value, measure) for value, measure in zip(values, measures)]
        rows.append([name, str(size), str(entries.get(name, "")), *cells])
    return Table(["workload", "n", "entries", *(UNITS[measure][0] for measure in measures)], rows)


def growth_table(growths: Sequence[Growth], measure: Measure) -> Table:
    """The figures of each workload at n, 2n and 4n, and how they grew: 1.00 is in proportion to n."""
    unit = UNITS[measure][0]
    rows = []
    for growth in growths:
        values = [shown(value, measure) for value in growth.values]
        rows.append([growth.workload, str(growth.sizes[0]), *values, *(f"{each:.2f}" for each in growth.doublings)])
    most = max((len(growth.sizes) for growth in growths), default=0)
    sizes = ["n"] + [f"{2 ** place}n" for place in range(1, most)]
    doublings = [f"{before} to {after}" for before, after in zip(sizes, sizes[1:])]
    return Table(["workload", "n", *(f"{unit} at {size}" for size in sizes), *doublings], rows)


def pairs_table(pairs: Sequence[Pair], measure: Measure) -> Table:
    """The figures of each workload before a change and after it, and at the end the geometric mean of the ratios, and the worst."""
    rows = [[p.workload, str(p.size), shown(p.before, measure), shown(p.after, measure), f"{p.ratio:.3f}"] for p in pairs]
    unit = UNITS[measure][0]
    return Table(["workload", "n", f"{unit} before", "after", "ratio"], rows + list(_summary(pairs)))


def _summary(pairs: Sequence[Pair]) -> Iterator[Sequence[str]]:
    """The last rows of a comparison."""
    if pairs:
        most = worst(pairs)
        yield ["geometric mean", "", "", "", f"{mean_ratio(pairs):.3f}"]
        yield [f"worst: {most.workload}", "", "", "", f"{most.ratio:.3f}"]
