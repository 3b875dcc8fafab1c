"""Says in words what a failure takes: what has to come after what.

A perturbation moves one thing that comes. Runs in which it moves that further and less far are compared: what comes before it in each
run that fails, and after it in each that passes, is what it has to come after.
"""

from __future__ import annotations

from typing import Callable, Dict, List, NamedTuple, Optional, Sequence, Tuple

#: how often the length of a delay is halved
_HALVINGS = 6
#: how many runs may differ from what is said
_MOST_EXCEPTIONS = 1

#: the kinds of perturbations that don't move something, but change how much comes
_AMOUNTS = ("cut", "short")


class Seen(NamedTuple):
    """A run: whether it failed, and what has come in it, in order, with its words."""

    failed: bool
    came: Sequence[Tuple[str, str]]


#: a run with the needed perturbations, in which the delays of these keys are so many times as long, and those of 0 are left out
Runs = Callable[[Dict[str, float]], Seen]


def sentence(key: str, words: str, run: Runs) -> str:
    """What one of the needed perturbations does that the failure takes: "the result of job 1 .. comes after that of job 2 .."."""
    kind = key.split(" ", 1)[0]
    if kind in _AMOUNTS:
        return words
    moved = _moved(key)
    seen = _shorter_and_shorter(key, run)
    return _passed(moved, seen) or _missing(moved, seen) or words


def _moved(key: str) -> str:
    """The name of what comes later by a perturbation."""
    kind, who, number = key.split(" ")
    if kind in ("start", "job"):
        return f"result {who}"
    if kind == "post":
        return f"post {who} {number}"
    if kind == "late":
        return f"call {who}"
    return f"child {who} {number}" if kind == "child" else f"{who} {number}"


def _shorter_and_shorter(key: str, run: Runs) -> List[Seen]:
    """Runs with delays between none, which passes, and the whole, which fails."""
    seen = [run({key: 0.0}), run({key: 1.0})]
    passes, fails = 0.0, 1.0
    for _ in range(_HALVINGS):
        middle = (passes + fails) / 2
        one = run({key: middle})
        seen.append(one)
        if one.failed:
            fails = middle
        else:
            passes = middle
    return seen


def _passed(moved: str, seen: Sequence[Seen]) -> str:
    """What is moved comes after what: a thing before it in each run that fails, and after it in each that passes. Nothing, if none is.

    There may be several: it is the one that comes last before what is moved, in the run that fails with the shortest delay.
    """
    known = [one for one in seen if _place(one, moved) is not None]
    failing = [one for one in known if one.failed]
    if not failing or len(failing) == len(known):
        return ""
    latest = failing[-1]
    place = _place(latest, moved) or 0
    other = _other(moved, known, list(reversed(latest.came[:place])))
    return f"{latest.came[place][1]} comes after {other}" if other else ""


def _missing(moved: str, seen: Sequence[Seen]) -> str:
    """What comes before what is moved in each run that fails, in which the latter doesn't come at all: the first such thing."""
    failing = [one for one in seen if one.failed]
    passing = [one for one in seen if not one.failed and _place(one, moved) is not None]
    if not failing or not passing or _place(failing[-1], moved) is not None:
        return ""
    words = passing[-1].came[_place(passing[-1], moved) or 0][1]
    other = _other(moved, [*failing, *passing], failing[-1].came)
    return f"{other} comes before {words}" if other else ""


def _other(moved: str, seen: Sequence[Seen], candidates: Sequence[Tuple[str, str]]) -> str:
    """The words of the first of the candidates that tells runs that fail from those that pass, or of one that does so but for one run.

    (Threads aren't determined.)
    """
    things = [(name, words) for name, words in candidates if name != moved]
    exceptions = [sum(_is_after(one, moved, name) != one.failed for one in seen) for name, _ in things]
    least = min(exceptions, default=_MOST_EXCEPTIONS + 1)
    return things[exceptions.index(least)][1] if least <= _MOST_EXCEPTIONS else ""


def _place(seen: Seen, name: str) -> Optional[int]:
    return next((place for place, (known, _) in enumerate(seen.came) if known == name), None)


def _is_after(seen: Seen, moved: str, other: str) -> bool:
    """Whether the one comes after the other, which has come."""
    place, before = _place(seen, moved), _place(seen, other)
    return before is not None and (place is None or before < place)
