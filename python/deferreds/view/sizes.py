"""How large a run is, in words, and how much of it a page shows."""

from __future__ import annotations

from .units import in_seconds

#: how many lines a page has at most; those of a longer run are the last ones
MOST_LINES = 200_000


def several(count: int, one: str, many: str) -> str:
    """The count with its word."""
    return f"{count} {one if count == 1 else many}"


def counts_of(lines: int, deferreds: int, events: int, time: int, tick: str, weight: str) -> str:
    """How large a run is; without its events and its weight, where these aren't known."""
    parts = [several(lines, "line", "lines"), several(deferreds, "Deferred", "Deferreds")]
    if events:
        parts.append(several(events, "event", "events"))
    parts.append(f"{in_seconds(time, tick)}, a tick is {tick}" if tick else f"time 0 to {time}")
    if weight:
        parts.append(f"weight {weight}")
    return ", ".join(parts)


def said_of_part(lines: int, shown: range) -> str:
    """What is said of the lines that a page has; an empty text if it has all."""
    return f", of which the page has {shown.start + 1} to {shown.stop}" if len(shown) < lines else ""


def part_of(lines: int, first: int | None = None, last: int | None = None, most: int = MOST_LINES) -> range:
    """The places of the lines that a page has: those that are asked for, by numbers from 1, or else the last ones."""
    if first is None and last is None:
        return range(max(0, lines - most), lines)
    start = min(max(1, first or 1), max(1, lines)) - 1
    stop = min(lines, last if last is not None else lines, start + most)
    return range(start, max(start, stop))
