"""The orders in which the posts of a script may be taken, enumerated without the program: what `--batches` is held against.

An order is the batches of a run: one for each drain, of no more posts than this takes, and one for the end. Together they hold every post
once, and the posts of each caller in order.
"""

from __future__ import annotations

from itertools import permutations, product
from math import factorial, prod
from typing import Iterator, List, NamedTuple, Sequence, Tuple

from .repeats import written_out

Post = Tuple[int, int]
Order = Tuple[Tuple[Post, ...], ...]


class Posting(NamedTuple):
    """What of a script decides its orders."""

    #: how many posts each caller has
    counts: Tuple[int, ...]
    #: how many posts each drain takes at most
    drains: Tuple[int, ...]


def posting_of(script: object) -> Posting:
    """Returns what of a script, as `json` reads it, decides its orders."""
    if not isinstance(script, dict):
        raise ValueError("no script")
    counts = tuple(len(bodies) for bodies in script.get("callers", []))
    drains = tuple(event[1] for event in written_out(script["events"]) if event[0] == "drain")
    return Posting(counts, drains)


def sequences(counts: Sequence[int]) -> List[Tuple[Post, ...]]:
    """Returns every sequence of the posts that keeps those of each caller in order, the first caller's first."""
    callers = [caller for caller, count in enumerate(counts) for _ in range(count)]
    return [with_indices(order) for order in sorted(set(permutations(callers)))]


def with_indices(callers: Sequence[int]) -> Tuple[Post, ...]:
    """Returns the posts of a sequence of callers: each caller's first, second and so on."""
    return tuple((caller, callers[:place].count(caller)) for place, caller in enumerate(callers))


def cuts(sequence: Tuple[Post, ...], drains: Sequence[int]) -> Iterator[Order]:
    """Yields every way to cut a sequence into batches, at each drain the fewest posts first."""
    for lengths in product(*(range(most + 1) for most in drains)):
        if sum(lengths) <= len(sequence):
            yield cut(sequence, lengths)


def cut(sequence: Tuple[Post, ...], lengths: Sequence[int]) -> Order:
    """Returns the batches of these lengths, and what is left."""
    ends = [sum(lengths[:number]) for number in range(len(lengths) + 1)]
    return tuple(sequence[start:end] for start, end in zip(ends, ends[1:] + [len(sequence)]))


def orders(posting: Posting) -> Iterator[Order]:
    """Yields every order, in the sequence in which the definition lists them.

    It takes time in proportion to the permutations of the posts.
    """
    for sequence in sequences(posting.counts):
        yield from cuts(sequence, posting.drains)


def number_of_orders(posting: Posting) -> int:
    """Returns how many orders there are, by the numbers alone."""
    return number_of_sequences(posting.counts) * number_of_cuts(sum(posting.counts), posting.drains)


def number_of_sequences(counts: Sequence[int]) -> int:
    """Returns how many sequences of the posts keep those of each caller in order."""
    return factorial(sum(counts)) // prod(factorial(count) for count in counts)


def number_of_cuts(total: int, drains: Sequence[int]) -> int:
    """Returns in how many ways so many posts are cut."""
    ways = [1] * (total + 1)
    for most in reversed(drains):
        ways = [sum(ways[left - taken] for taken in range(min(most, left) + 1)) for left in range(total + 1)]
    return ways[total]


def order_at(posting: Posting, place: int) -> Order:
    """Returns the order of a place, from 0, in the sequence of `orders`, without those before it."""
    total = sum(posting.counts)
    before, cut_place = divmod(place, number_of_cuts(total, posting.drains))
    return cut(sequence_at(posting.counts, before), lengths_at(total, posting.drains, cut_place))


def some_orders(posting: Posting, most: int) -> Iterator[Order]:
    """Yields every order, or where there are more, so many of them, spread evenly over the sequence of `orders`."""
    number = number_of_orders(posting)
    taken = min(number, most)
    for place in range(taken):
        yield order_at(posting, place * number // taken)


def sequence_at(counts: Sequence[int], place: int) -> Tuple[Post, ...]:
    """Returns the sequence of a place in that of `sequences`."""
    left, number, callers = list(counts), number_of_sequences(counts), []
    for total in range(sum(counts), 0, -1):
        shares = [number * count // total for count in left]
        caller, place = chosen(shares, place)
        number = shares[caller]
        left[caller] -= 1
        callers.append(caller)
    return with_indices(callers)


def lengths_at(total: int, drains: Sequence[int], place: int) -> List[int]:
    """Returns how many posts each drain takes, in the cut of a place in the sequence of `cuts`."""
    lengths: List[int] = []
    for number, most in enumerate(drains):
        shares = [number_of_cuts(total - taken, drains[number + 1 :]) for taken in range(min(most, total) + 1)]
        taken, place = chosen(shares, place)
        lengths.append(taken)
        total -= taken
    return lengths


def chosen(shares: Sequence[int], place: int) -> Tuple[int, int]:
    """Returns in which of these shares, one behind the other, a place is, and its place there."""
    for number, share in enumerate(shares):
        if place < share:
            return number, place
        place -= share
    raise ValueError("there is no such place")
