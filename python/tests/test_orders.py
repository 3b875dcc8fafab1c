"""Tests of the enumeration of orders."""

from __future__ import annotations

import json
import random
import unittest
from pathlib import Path
from typing import List

from deferreds.orders import Order, Posting, number_of_orders, order_at, orders, posting_of, some_orders

_TOP = Path(__file__).resolve().parents[2]


def is_order(order: Order, posting: Posting) -> bool:
    """Whether batches are an order, told without enumerating."""
    posts = [post for batch in order for post in batch]
    return (
        len(order) == len(posting.drains) + 1
        and all(len(batch) <= most for batch, most in zip(order, posting.drains))
        and all(
            [index for caller, index in posts if caller == number] == list(range(count))
            for number, count in enumerate(posting.counts)
        )
        and len(posts) == sum(posting.counts)
    )


class Orders(unittest.TestCase):
    def test_two_callers_have_eighteen_orders(self) -> None:
        script = json.loads((_TOP / "examples" / "two_callers.json").read_text(encoding="utf-8"))
        posting = posting_of(script)
        self.assertEqual(posting, Posting((2, 2), (2,)))
        listed = list(orders(posting))
        self.assertEqual(len(listed), 18)
        self.assertEqual(number_of_orders(posting), 18)
        self.assertEqual(listed[0], ((), ((0, 0), (0, 1), (1, 0), (1, 1))))
        self.assertEqual(listed[-1], (((1, 0), (1, 1)), ((0, 0), (0, 1))))

    def test_small_scripts_have_the_orders_worked_out_by_hand(self) -> None:
        one: List[Order] = [((), (), ((0, 0),)), ((), ((0, 0),), ()), (((0, 0),), (), ())]
        self.assertEqual(list(orders(Posting((1,), (1, 1)))), one)
        self.assertEqual(list(orders(Posting((2,), (1,)))), [((), ((0, 0), (0, 1))), (((0, 0),), ((0, 1),))])
        self.assertEqual(list(orders(Posting((), (5,)))), [((), ())])
        self.assertEqual(list(orders(Posting((1, 1), ()))), [(((0, 0), (1, 0)),), (((1, 0), (0, 0)),)])

    def test_the_number_is_that_of_the_orders_and_each_is_one_once(self) -> None:
        source = random.Random(64)
        for _ in range(200):
            counts = tuple(source.randrange(4) for _ in range(source.randrange(4)))
            drains = tuple(source.randrange(4) for _ in range(source.randrange(3)))
            posting = Posting(counts, drains)
            if sum(counts) > 6:
                continue
            listed = list(orders(posting))
            self.assertEqual(len(listed), number_of_orders(posting))
            self.assertEqual(len(set(listed)), len(listed))
            self.assertTrue(all(is_order(order, posting) for order in listed))
            self.assertEqual([order_at(posting, place) for place in range(len(listed))], listed)

    def test_some_orders_are_spread_evenly(self) -> None:
        posting = Posting((2, 2), (2,))
        listed = list(orders(posting))
        self.assertEqual(list(some_orders(posting, 18)), listed)
        self.assertEqual(list(some_orders(posting, 20)), listed)
        self.assertEqual(list(some_orders(posting, 6)), listed[::3])
        self.assertEqual(list(some_orders(posting, 1)), listed[:1])

    def test_an_order_is_found_among_more_than_can_be_listed(self) -> None:
        posting = Posting((64,) * 8, (512, 1))
        last = number_of_orders(posting) - 1
        self.assertGreater(last, 2**64)
        self.assertEqual([len(batch) for batch in order_at(posting, 0)], [0, 0, 512])
        self.assertTrue(is_order(order_at(posting, last // 3), posting))
        self.assertEqual(order_at(posting, last)[0][0], (7, 0))
        self.assertEqual([len(batch) for batch in order_at(posting, last)], [512, 0, 0])
        with self.assertRaises(ValueError):
            order_at(posting, last + 1)


if __name__ == "__main__":
    unittest.main()
