"""How a run was shaken (docs/SHAKE.md), as a row of its report: what a failure takes, or by which seed the run went as it did."""

from __future__ import annotations

import json
from typing import Dict, List, NamedTuple, Optional, Sequence, Tuple

from .findings import Finding, Kind, Severity, details_of
from .fold import Fold
from .phrases import OfPlace, OfScript, Phrase, words
from .places import Places
from .records import Made
from .sizes import several

#: the kinds of perturbations that move the result of a job
_OF_JOBS = ("start", "job")
_MOST_TOLD = 5


class Shaken(NamedTuple):
    """What is known of it."""

    seed: int
    #: what a failure takes, in words; an empty text, if that isn't known
    needs: str
    #: the perturbations, by their keys and in words: those that the failure needs, or some that were met
    keys: Sequence[str]
    said: Sequence[str]
    #: how many were met
    met: int
    #: the words of the command that run it again, or an empty text
    again: str


def read_shaken(text: str) -> Optional[Shaken]:
    """What the list of a recording says under `shaken`, as JSON; None, if it says nothing that can be read."""
    try:
        told = json.loads(text) if text else None
    except (ValueError, RecursionError):
        return None
    if not isinstance(told, dict) or not isinstance(told.get("perturbations"), dict):
        return None
    met = told["perturbations"]
    texts = [told.get("needs", ""), told.get("again", ""), *met.values()]
    if not all(isinstance(told.get(name), int) for name in ("seed", "of")) or not all(isinstance(one, str) for one in texts):
        return None
    return Shaken(told["seed"], told.get("needs", ""), [key for key, _ in met.items()], list(met.values()), told["of"], told.get("again", ""))


def shaken_row(text: str, fold: Fold, places: Places) -> List[Finding]:
    """The row of the report, if the run was shaken."""
    shaken = read_shaken(text)
    if shaken is None:
        return []
    met = several(shaken.met, "perturbation", "perturbations")
    if not shaken.needs:
        said = words(f"it was shaken by seed {shaken.seed}, and met {met}")
        return [Finding(Severity.NOTE, Kind.SHAKEN, said, _told(shaken, places), None)]
    needed = f"{len(shaken.keys)} of {met} {'is' if len(shaken.keys) == 1 else 'are'} needed"
    again: List[Phrase] = [("again: ", OfScript(shaken.again))] if shaken.again else []
    details = details_of(_told(shaken, places), [(f"seed {shaken.seed}; {needed}",)], again)
    return [Finding(Severity.BAD, Kind.SHAKEN, with_places(shaken.needs, places), details, _row(shaken, fold, places))]


def _told(shaken: Shaken, places: Places) -> Tuple[Phrase, ...]:
    """The perturbations in words."""
    told = [with_places(said, places) for said in shaken.said[:_MOST_TOLD]]
    more = len(shaken.said) - _MOST_TOLD
    return details_of(told, [(f"and {more} more",)] if more > 0 else [])


def with_places(text: str, places: Places) -> Phrase:
    """A text, in which lines of the program are references, as far as these are known."""
    said: Phrase = ()
    plain = ""
    for word in text.split(" "):
        bare = word.rstrip(",")
        place = places.named(bare)
        if place is None:
            plain += f"{word} "
        else:
            said += words(OfScript(plain), OfPlace(place)) if plain else words(OfPlace(place))
            plain = f"{word[len(bare) :]} "
    rest = plain.rstrip(" ")
    return words(*said, OfScript(rest)) if rest else said


def _row(shaken: Shaken, fold: Fold, places: Places) -> Optional[int]:
    """The line in which the result of a job comes that was moved, if one was."""
    for key in shaken.keys:
        kind, _, rest = key.partition(" ")
        if kind in _OF_JOBS:
            return _job(rest.partition(" ")[0], fold, places)
    return None


def _job(name: str, fold: Fold, places: Places) -> Optional[int]:
    """The line in which the result of a job comes, by the name that shaking gives it: its place, and which of this place it is."""
    counted: Dict[str, int] = {}
    for record in fold.records.values():
        place = places.of_deferred(record.names) if record.made is Made.JOB else None
        if place is not None:
            counted[place.text] = counted.get(place.text, 0) + 1
            if f"{place.text}#{counted[place.text]}" == name:
                return record.fired
    return None
