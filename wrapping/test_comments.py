"""Tests of comments that are refilled."""

from __future__ import annotations

import unittest

from comments import refilled


class Refills(unittest.TestCase):
    """Comments at a width of 24."""

    def test_what_does_not_fit_goes_on_in_the_next_line(self) -> None:
        self.assertEqual(
            ["/// one two three four", "/// five six seven", "/// eight"],
            refilled(["/// one two three four five six", "/// seven", "/// eight"], 24),
        )

    def test_a_paragraph_ends_at_an_empty_line_an_item_a_table_and_a_number(self) -> None:
        for after in ("///", "/// - item", "/// | a | b |", "/// 2. two", "///     set in", "/// # Head"):
            self.assertEqual(
                ["/// one two three four", "/// five", after], refilled(["/// one two three four five", after], 24)
            )

    def test_what_has_its_own_layout_stays(self) -> None:
        lines = ["/// ```", "/// let number = one + two + three;", "/// ```", "/// | a long row | of a table |"]
        self.assertEqual(lines, refilled(lines, 24))

    def test_short_comments_stay(self) -> None:
        lines = ["-- one", "-- two", "-- three"]
        self.assertEqual(lines, refilled(lines, 24))

    def test_a_word_that_is_too_long_stays_whole(self) -> None:
        self.assertEqual(["-- a", "-- word_that_is_far_too_long", "-- b"], refilled(["-- a word_that_is_far_too_long b"], 24))


if __name__ == "__main__":
    unittest.main()
