"""Tests of the drawing of orders."""

from __future__ import annotations

import unittest
from itertools import islice, repeat

from deferreds.orders import Posting, number_of_orders, orders
from deferreds.sampling import numbers, place_below, sampled

_LAST = 2**64 - 1


class Numbers(unittest.TestCase):
    """The numbers that follow from a seed."""

    def test_they_are_those_that_are_published(self) -> None:
        published = [6457827717110365317, 3203168211198807973, 9817491932198370423, 4593380528125082431, 16408922859458223821]
        self.assertEqual(list(islice(numbers(1234567), 5)), published)
        self.assertEqual(next(numbers(0)), 0xE220A8397B1DCDAF)


class Places(unittest.TestCase):
    """A place from numbers that are drawn."""

    def test_a_number_past_the_last_multiple_is_passed_over(self) -> None:
        self.assertEqual(place_below(10, iter([_LAST, _LAST - 5, _LAST - 6])), 9)
        self.assertEqual(place_below(2**63 + 1, iter([2**63 + 1, _LAST, 2**63])), 2**63)

    def test_none_is_where_all_numbers_are_a_multiple(self) -> None:
        self.assertEqual([place_below(count, iter([_LAST])) for count in (1, 2, 2**63)], [0, 1, 2**63 - 1])

    def test_the_last_that_is_tried_counts(self) -> None:
        drawn = iter([*repeat(_LAST, 63), _LAST - 1, 0])
        self.assertEqual(place_below(10, drawn), (_LAST - 1) % 10)
        self.assertEqual(next(drawn), 0)


class Samples(unittest.TestCase):
    """The orders that are drawn."""

    def test_each_is_the_order_of_its_place(self) -> None:
        posting = Posting((2, 2), (2,))
        listed, drawn = list(orders(posting)), islice(numbers(7), 30)
        self.assertEqual(list(sampled(posting, 30, 7)), [listed[number % 18] for number in drawn])

    def test_each_comes_about_equally_often(self) -> None:
        posting = Posting((2, 2), ())
        drawn = list(sampled(posting, 6_000, 1))
        self.assertTrue(all(900 < drawn.count(order) < 1_100 for order in orders(posting)))

    def test_one_is_drawn_among_more_than_can_be_listed(self) -> None:
        posting = Posting((2, 3, 3, 3, 3, 4, 4, 4), ())
        self.assertGreater(number_of_orders(posting), 2**63)
        first, second = sampled(posting, 2, 1)
        self.assertEqual([len(batch) for batch in first + second], [26, 26])
        self.assertNotEqual(first, second)


if __name__ == "__main__":
    unittest.main()
