"""In which batches the posts of a run were taken, as its output tells them."""

from __future__ import annotations

import json
from typing import Any, Iterator, List, Tuple

from ..repeats import written_out
from .running import run

Batch = List[Tuple[int, int]]


def has_posts(root: Any) -> bool:
    """Whether a script has posts."""
    return any(root.get("callers", []))


def batches_of(script: str, output: str) -> List[List[Batch]]:
    """What the batches of a run of the script may have been that gave this output, the likeliest first.

    What follows a line `drain` up to the next one was taken there. What follows the last one was taken there or at the
    end, and of a run that has stopped the post that came next isn't told. Those are likeliest by which real Twisted
    comes nearest to the output.
    """
    root = json.loads(script)
    drains: List[int] = [event[1] for event in written_out(root["events"]) if event[0] == "drain"]
    taken, untold = _between_drains(output), _untold(root, output)
    choices = list(_choices(taken, untold, drains, _begins_with_post(output)))
    if len(choices) > 1:
        choices.sort(key=lambda choice: _agreement(script, choice, output), reverse=True)
    return choices


def _begins_with_post(output: str) -> bool:
    """Whether a post follows the last line `drain` at once, so that it was taken there."""
    lines = output.splitlines()
    after = len(lines) - lines[::-1].index("drain") if "drain" in lines else len(lines)
    return after < len(lines) and lines[after].startswith("post ")


def _between_drains(output: str) -> List[Batch]:
    """The posts before the first drain, and after each."""
    taken: List[Batch] = [[]]
    for line in output.splitlines():
        if line == "drain":
            taken.append([])
        elif line.startswith("post "):
            caller, index = line.split(" ")[1:]
            taken[-1].append((int(caller), int(index)))
    return taken


def _untold(root: Any, output: str) -> Batch:
    """The posts that no line names."""
    told = {post for batch in _between_drains(output) for post in batch}
    posts = [(c, k) for c, bodies in enumerate(root["callers"]) for k in range(len(bodies))]
    return [post for post in posts if post not in told]


def _choices(
    taken: List[Batch], untold: Batch, drains: List[int], begins: bool
) -> Iterator[List[Batch]]:
    """What the batches may have been, which are one more than the drains."""
    reached = len(taken) - 1
    later: List[Batch] = [[] for _ in drains[reached:]]
    if reached == 0:
        yield [*later, taken[0] + untold]
        return
    early, last = taken[1:-1], taken[-1]
    most = min(drains[reached - 1], len(last)) if begins else 0
    for at in range(most, -1, -1):
        yield [*early, last[:at], *later, last[at:] + untold]
    if untold and len(last) < drains[reached - 1]:
        yield [*early, last + untold[:1], *later, untold[1:]]


def _agreement(script: str, batches: List[Batch], output: str) -> Tuple[bool, int]:
    """Whether a run with these batches prints the output, and else in how many of its first lines."""
    printed = run(script.encode(), batches).output
    count = 0
    for line, other in zip(output.splitlines(), printed.splitlines()):
        if line != other:
            break
        count += 1
    return printed == output, count
