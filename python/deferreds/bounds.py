"""Bounds of `--orders`, which commands state in their help without what runs orders."""

from __future__ import annotations

#: how many orders run at most where no number is given, and the most that may be asked for
ORDERS, MOST_ORDERS = 20_000, 1_000_000

#: the greatest seed of a sample
MOST_SEED = 2**32 - 1
