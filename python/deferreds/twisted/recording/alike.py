"""Compares the runs of one body, which have to be the same but for what they make.

What a later run makes has the name of what the first one made in its place: a script binds that name anew.
"""

from __future__ import annotations

from fractions import Fraction
from typing import Any, Callable, Iterable, List, NamedTuple, Optional, Sequence, Tuple, Union

from ..telling import Action, Record, Thing, Time
from .bodies import Body, Done, Run, Steps, Unsayable

_FINEST = 10**9

#: the actions that make what they name first, if that isn't a Deferred
_MAKING = frozenset({"later", "loop", "lock", "semaphore", "queue", "cooperate", "cooperateIn"})

_Pairs = List[Tuple[Any, Any]]


def exact(seconds: Union[float, Fraction]) -> Fraction:
    """A time, as the fraction that its float stands for."""
    return Fraction(seconds).limit_denominator(_FINEST)


def first_record(record: Record) -> Record:
    """The Deferred that an earlier run of the same body made in its place."""
    while record.alias is not None:
        record = record.alias
    return record


def first_body(body: Any) -> Any:
    """The body that an earlier run of the body around it has in its place."""
    while body.alias is not None:
        body = body.alias
    return body


def _first_thing(thing: Thing) -> Thing:
    """What an earlier run of the same body made in its place."""
    while thing.alias is not None:
        thing = thing.alias
    return thing


class Known(NamedTuple):
    """How much is known of what is the same: how many changes were made, and how many pairs of failures were found that were caught."""

    changes: int
    caught: int


#: nothing is known
NOTHING = Known(0, 0)


class Alike:
    """Compares runs. However deep bodies lie in each other, this takes no room on the stack."""

    def __init__(self, runs_of: Callable[[Body], Sequence[Run]], done_in: Callable[[Run], Done]) -> None:
        """`runs_of`: the runs of a body that count, and `done_in` what was done in such a run, of that which counts."""
        self._runs_of = runs_of
        self._done_in = done_in
        #: what was changed: the object, its attribute, and what that was before
        self._changed: List[Tuple[Any, str, Any]] = []
        #: the actions that are the same and whose failures were caught
        self._caught: List[Tuple[Action, Action]] = []

    @property
    def known(self) -> Known:
        """How much is known."""
        return Known(len(self._changed), len(self._caught))

    def undo_to(self, known: Known) -> None:
        """Has everything be as it was when so much was known."""
        for changed, name, before in reversed(self._changed[known.changes :]):
            setattr(changed, name, before)
        del self._changed[known.changes :], self._caught[known.caught :]

    def name_helpers(self) -> None:
        """Has the helpers of actions whose failures were caught have the names of those that are the same in the first runs."""
        for one, two in self._caught:
            if one.helper is not None and two.helper is not None:
                two.helper.alias = one.helper
        self._caught.clear()

    def _set(self, changed: Any, name: str, value: object) -> None:
        self._changed.append((changed, name, getattr(changed, name)))
        setattr(changed, name, value)

    def are_same(self, first: Run, other: Run) -> bool:
        """Whether two runs are the same. If so, what the other one has is known as what the first one has in its place."""
        left: _Pairs = [(first, other)]
        while left:
            within = self._within(*left.pop())
            if within is None:
                return False
            left += reversed(within)
        return True

    def would_be_same(self, first: Run, others: Iterable[Run]) -> bool:
        """Whether some runs are all the same as the first one. Nothing is known by that afterwards."""
        before = self.known
        found = all(self.are_same(first, other) for other in others)
        self.undo_to(before)
        return found

    def _within(self, one: Any, two: Any) -> Optional[_Pairs]:
        """What has to be the same for these to be, each part of one with that of the other; None, where they aren't."""
        if isinstance(one, Run) and isinstance(two, Run):
            return self._within_runs(one, two)
        if isinstance(one, Body) and isinstance(two, Body):
            return self._within_bodies(one, two)
        if isinstance(one, Steps) and isinstance(two, Steps):
            return _paired(one.bodies, two.bodies)
        if isinstance(one, list) and isinstance(two, list):
            self._bind(one, two)
            return _paired(one, two)
        return [] if self._is_same(one, two) else None

    def _within_runs(self, one: Run, two: Run) -> Optional[_Pairs]:
        first, other = self._done_in(one), self._done_in(two)
        if len(first.actions) != len(other.actions):
            return None
        if not all(map(self._are_caught_alike, first.actions, other.actions)):
            return None
        return [(first.end, other.end), *zip(first.actions, other.actions)]

    def _within_bodies(self, one: Body, two: Body) -> _Pairs:
        if one is two:
            return []
        self._set(two, "alias", one)
        first, others = self._runs_of(one), self._runs_of(two)
        if not first:
            self._set(one, "runs", two.runs)
            return []
        return [(first[0], other) for other in others]

    def _are_caught_alike(self, one: Action, two: Action) -> bool:
        """Whether the failures of both were caught, or of neither."""
        if one.caught and two.caught and one is not two:
            self._caught.append((one, two))
        return one.caught == two.caught

    def _is_same(self, one: Any, two: Any) -> bool:
        """Whether two parts that have no parts are the same."""
        if isinstance(one, Record) and isinstance(two, Record):
            return self._is_same_record(one, two)
        if isinstance(one, Thing) and isinstance(two, Thing):
            return _first_thing(one) is _first_thing(two)
        if isinstance(one, Time) and isinstance(two, Time):
            return exact(one.seconds) == exact(two.seconds)
        if isinstance(one, Unsayable) and isinstance(two, Unsayable):
            return True
        return type(one) is type(two) and bool(one == two)

    def _is_same_record(self, one: Record, two: Record) -> bool:
        one, two = first_record(one), first_record(two)
        if one is two:
            return True
        if one.made_in is None or two.made_in is None or one.made_in is two.made_in:
            return False
        if one.made_in.kind == "event" or two.made_in.kind == "event":
            return False
        self._set(two, "alias", one)
        return True

    def _bind(self, one: List[Any], two: List[Any]) -> None:
        """What two actions make has the name of what the first one makes."""
        if one and two and type(one[0]) is str and one[0] == two[0] and one[0] in _MAKING:
            first, other = _first_thing(one[1]), _first_thing(two[1])
            if first is not other:
                self._set(other, "alias", first)


def _paired(one: Sequence[Any], two: Sequence[Any]) -> Optional[_Pairs]:
    return list(zip(one, two)) if len(one) == len(two) else None
