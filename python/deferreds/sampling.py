"""Samples of the orders of a script, drawn without the program: what `--sample K --seed S` is held against.

The numbers of a seed are those of SplitMix64. Each gives the place of an order in the sequence of `deferreds.orders`.
"""

from __future__ import annotations

from itertools import islice
from typing import Iterator

from .orders import Order, Posting, number_of_orders, order_at

#: the most orders among which one is drawn
MOST_DRAWN_FROM = 2**64 - 2

_NUMBERS = 2**64
#: how many numbers are drawn at most for one place
_MOST_TRIED = 64


def numbers(seed: int) -> Iterator[int]:
    """Yields the numbers of 64 bits that follow from a seed."""
    state = seed
    while True:
        state = (state + 0x9E3779B97F4A7C15) % _NUMBERS
        once = (state ^ state >> 30) * 0xBF58476D1CE4E5B9 % _NUMBERS
        twice = (once ^ once >> 27) * 0x94D049BB133111EB % _NUMBERS
        yield twice ^ twice >> 31


def place_below(count: int, drawn: Iterator[int]) -> int:
    """Returns a number below `count`, from the next ones that are drawn.

    Those past the last multiple of `count` are passed over, or else the first places would come more often. The last one that is tried
    counts in any case.
    """
    used = _NUMBERS - _NUMBERS % count
    for number in islice(drawn, _MOST_TRIED):
        if number < used:
            break
    return number % count


def sampled(posting: Posting, size: int, seed: int) -> Iterator[Order]:
    """Yields so many orders, each drawn from all of them: one may come again."""
    count, drawn = number_of_orders(posting), numbers(seed)
    for _ in range(size):
        yield order_at(posting, place_below(count, drawn))
