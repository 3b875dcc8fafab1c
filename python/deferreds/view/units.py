"""Ticks of the virtual clock in seconds, where a run was recorded."""

from __future__ import annotations

#: how many of each unit a second has
_IN_A_SECOND = {"s": 1, "ms": 1_000, "µs": 1_000_000, "ns": 1_000_000_000}


def seconds_of(ticks: int, tick: str) -> float:
    """How many seconds so many ticks were, each of which is written as `1 ms` or `1/3 ms`; 0 where that is an empty text."""
    number, _, unit = tick.partition(" ")
    over, _, under = number.partition("/")
    return ticks * int(over) / (int(under or 1) * _IN_A_SECOND[unit]) if unit else 0.0


def in_seconds(ticks: int, tick: str) -> str:
    """So many ticks as seconds, with no more digits than a reader can use; an empty text where the tick isn't known."""
    seconds = seconds_of(ticks, tick)
    if not tick:
        return ""
    return f"{seconds:.0f} s" if seconds >= 1_000 else f"{seconds:.4g} s" if seconds >= 0.001 or not seconds else f"{seconds * 1000:.3g} ms"


def time_of(time: int, tick: str) -> str:
    """A time of the clock: in seconds, if it is known how long a tick was."""
    return in_seconds(time, tick) or f"{time}"


def said_of(ticks: int, tick: str) -> str:
    """So many ticks in words: in seconds, if it is known how long a tick was."""
    return in_seconds(ticks, tick) if tick else f"{ticks} tick{'' if ticks == 1 else 's'}"
