"""Tests of the arithmetic, and of the tables."""
from __future__ import annotations

import tempfile
import unittest
from pathlib import Path

from figures import Figure, Figures, Growth, Measure, Pair, mean_ratio, pairs, worst
from tables import Table, growth_table, measured_table, pairs_table

COUNTED = Measure.INSTRUCTIONS


def counted(workload: str, *values: float) -> list[Figure]:
    """Counts of a workload at 10, 20, 40 and so on."""
    return [Figure(workload, 10 * 2**place, COUNTED, value) for place, value in enumerate(values)]


BEFORE = Figures(counted("a", 4e6, 8e6, 17.6e6) + counted("b", 1e6) + counted("gone", 1e6))
AFTER = Figures(counted("a", 2e6, 4e6) + counted("b", 2e6) + counted("new", 1e6))


class Arithmetic(unittest.TestCase):
    """Ratios, means and growths."""

    def test_only_what_is_in_both_is_compared_and_at_its_least_size(self) -> None:
        self.assertEqual(pairs(BEFORE, AFTER, COUNTED), [Pair("a", 10, 4e6, 2e6), Pair("b", 10, 1e6, 2e6)])
        self.assertEqual(pairs(BEFORE, AFTER, Measure.MEMORY), [])
        self.assertEqual(pairs(BEFORE, Figures(counted("a", 1e6) + [Figure("b", 9, COUNTED, 1)]), COUNTED)[1:], [])

    def test_a_ratio_is_the_figure_after_over_the_one_before(self) -> None:
        self.assertEqual([pair.ratio for pair in pairs(BEFORE, AFTER, COUNTED)], [0.5, 2.0])

    def test_the_mean_is_the_geometric_one(self) -> None:
        self.assertAlmostEqual(mean_ratio(pairs(BEFORE, AFTER, COUNTED)), 1.0)
        self.assertAlmostEqual(mean_ratio([Pair("a", 1, 1, 1), Pair("b", 1, 1, 8), Pair("c", 1, 1, 1)]), 2.0)

    def test_the_worst_has_the_greatest_ratio(self) -> None:
        self.assertEqual(worst(pairs(BEFORE, AFTER, COUNTED)).workload, "b")

    def test_a_growth_in_proportion_is_1(self) -> None:
        self.assertEqual(Growth("a", (10, 20, 40), (3.0, 6.0, 12.0)).doublings, (1.0, 1.0))
        self.assertEqual(Growth("a", (10, 20, 40), (1.0, 4.0, 16.0)).doublings, (2.0, 2.0))

    def test_what_was_measured_at_one_size_has_no_growth(self) -> None:
        self.assertEqual([growth.workload for growth in BEFORE.growths(COUNTED)], ["a"])
        self.assertEqual(BEFORE.growths(Measure.TIME), [])

    def test_the_sizes_of_a_growth_go_up_whatever_was_measured_first(self) -> None:
        figures = Figures(reversed(counted("a", 1, 2, 4)))
        self.assertEqual(figures.growths(COUNTED), [Growth("a", (10, 20, 40), (1, 2, 4))])


class Files(unittest.TestCase):
    """Figures that are saved."""

    def test_what_is_saved_is_read_again(self) -> None:
        figures = Figures([*BEFORE, Figure("a", 10, Measure.MEMORY, 4096), Figure("a", 10, Measure.TIME, 0.25)])
        with tempfile.TemporaryDirectory() as folder:
            figures.save(Path(folder) / "figures.json")
            self.assertEqual(list(Figures.load(Path(folder) / "figures.json")), list(figures))

    def test_another_file_is_refused(self) -> None:
        for text in ('{"figures":[{"workload":"a","size":1,"measure":"weight","value":1}]}', "{}", "no"):
            with tempfile.NamedTemporaryFile("w") as file:
                file.write(text)
                file.flush()
                with self.assertRaises((KeyError, ValueError), msg=text):
                    Figures.load(Path(file.name))


class Tables(unittest.TestCase):
    """What is printed, to the letter."""

    def test_a_table(self) -> None:
        table = Table(["name", "n"], [["a", "1,000"], ["longer", "2"]])
        self.assertEqual(table.plain(), "name        n\na       1,000\nlonger      2\n")
        self.assertEqual(table.markdown(), "| name | n |\n| --- | ---: |\n| a | 1,000 |\n| longer | 2 |\n")

    def test_a_comparison_ends_with_the_mean_and_the_worst(self) -> None:
        table = pairs_table(pairs(BEFORE, AFTER, COUNTED), COUNTED)
        self.assertEqual(
            table.plain(),
            "workload         n  M instructions before  after  ratio\n"
            "a               10                   4.00   2.00  0.500\n"
            "b               10                   1.00   2.00  2.000\n"
            "geometric mean                                    1.000\n"
            "worst: b                                          2.000\n",
        )

    def test_a_comparison_of_nothing_has_no_mean(self) -> None:
        self.assertEqual(pairs_table([], COUNTED).rows, [])

    def test_a_table_of_growth(self) -> None:
        self.assertEqual(
            growth_table(BEFORE.growths(COUNTED), COUNTED).plain(),
            "workload   n  M instructions at n  M instructions at 2n  M instructions at 4n  n to 2n  2n to 4n\n"
            "a         10                 4.00                  8.00                 17.60     1.00      1.10\n",
        )

    def test_what_was_not_measured_of_a_workload_is_left_empty(self) -> None:
        figures = Figures(counted("a", 1e6, 2e6) + [Figure("full", 30, Measure.MEMORY, 2.5e6)])
        self.assertEqual(
            measured_table(figures, {"a": 50}).rows, [["a", "10", "50", "1.00", ""], ["full", "30", "", "", "2.50"]]
        )


if __name__ == "__main__":
    unittest.main()
