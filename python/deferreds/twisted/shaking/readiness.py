"""Perturbs what a reactor finds ready, and when: sockets are held back, what is ready at once comes in another order, and the machine
pauses before a delayed call.
"""

from __future__ import annotations

import time
from typing import Any, Callable, Dict, Iterable, List, NamedTuple, Optional, Tuple

from .naming import ordinal
from .shaker import Shaker
from .sockets import is_of_network, name_of, words_of

#: how often it is looked again while something is held back, in seconds
_STEP = 0.0005

_seconds = time.monotonic
_sleep = time.sleep

READ, WRITE = "r", "w"
_DOES = {READ: "read", WRITE: "write"}


class Ready(NamedTuple):
    """Something that is ready: the descriptor, whether to be read or written, and what the reactor gets for it."""

    thing: Any
    way: str
    item: Any


class _Turn:
    """How often a descriptor has been ready in one way, and until when it is held back, if it hasn't passed since."""

    __slots__ = ("number", "until")

    def __init__(self) -> None:
        self.number = 0
        self.until: Optional[float] = None


class Readiness:
    """What one reactor finds ready."""

    def __init__(self, shaker: Shaker, reactor: Any, child_waker: type, watched: Callable[[], Iterable[str]]) -> None:
        """`watched`: what it watches, beside what wakes it, in words."""
        self._shaker = shaker
        self._watched = watched
        self._reactor = reactor
        self._child_waker = child_waker
        #: the delayed call before which the machine has last paused, or might have
        self._paused_for: Any = None

    def wait(self, ask: Callable[[Optional[float]], List[Ready]], timeout: Optional[float]) -> List[Any]:
        """What the reactor gets, after at most so many seconds. `ask` waits for that long for what is ready."""
        deadline = None if timeout is None or timeout < 0 else _seconds() + timeout
        has_paused = False
        while True:
            left = None if deadline is None else max(0.0, deadline - _seconds())
            found = ask(left) if self._shaker.fast is None else self._shaker.fast.wait(ask, left, self._watched)
            if not found:
                if has_paused or not self._pauses():
                    return []
                has_paused, deadline = True, _seconds()
                continue
            passing, soonest = self._sift(found)
            if passing:
                return [ready.item for ready in passing]
            now = _seconds()
            if deadline is not None and deadline <= now:
                return []
            step = min(_STEP, soonest - now)
            _sleep(max(0.0, step if deadline is None else min(step, deadline - now)))

    def _sift(self, found: List[Ready]) -> Tuple[List[Ready], float]:
        """What passes of what is ready, in its order, and when the first of what is held back may."""
        now = _seconds()
        passing: List[Ready] = []
        soonest = now + _STEP
        for ready in found:
            until = self._until(ready, now)
            if until > now and not self._shaker.is_calm:
                soonest = min(soonest, until)
            else:
                passing.append(ready)
        if len(passing) > 1:
            passing = self._in_order(passing)
        for ready in passing:
            self._pass(ready)
        return passing, soonest

    def _until(self, ready: Ready, now: float) -> float:
        """Until when it is held back."""
        turn = self._turn(ready)
        if turn is None:
            return now
        if turn.until is None:  # it has become ready again
            turn.number += 1
            turn.until = now + self._hold(ready, turn.number)
        return turn.until

    def _turn(self, ready: Ready) -> Optional[_Turn]:
        """The turn of what has a name, or is the waker of children."""
        if name_of(ready.thing) is None and not isinstance(ready.thing, self._child_waker):
            return None
        turns: Dict[str, _Turn] = vars(ready.thing).setdefault("_shake_turns", {})
        turn = turns.get(ready.way)
        if turn is None:
            turn = turns[ready.way] = _Turn()
        return turn

    def _hold(self, ready: Ready, number: int) -> float:
        """For how many seconds it is held back."""
        thing, way = ready.thing, ready.way
        if isinstance(thing, self._child_waker):
            kind, who, words = "child", "children", "the end of children was seen {} later"
        elif is_of_network(thing):
            kind, who = "hold", f"{thing._shake_name.key}.{way}"
            words = f"{_words(ready, number)} came {{}} later"
        else:
            return 0.0
        milliseconds = self._shaker.delay(kind, who, number)
        if milliseconds is None:
            return 0.0
        self._shaker.meet(kind, who, number, words.format(f"{milliseconds:.1f} ms"))
        return milliseconds / 1000

    def _in_order(self, passing: List[Ready]) -> List[Ready]:
        """What is ready at once, of which some come first or last."""
        ranks = [self._rank(ready) for ready in passing]
        places = sorted(range(len(passing)), key=lambda place: ranks[place])
        for new, old in enumerate(places):
            if new != old and ranks[old]:
                thing, way = passing[old].thing, passing[old].way
                where = "first" if ranks[old] < 0 else "last"
                number = vars(thing)["_shake_turns"][way].number
                words = f"{_words(passing[old], number)} came {where} of what was ready at once"
                self._shaker.meet("order", f"{thing._shake_name.key}.{way}", number, words)
        return [passing[place] for place in places]

    def _rank(self, ready: Ready) -> float:
        """Below 0 for what comes first, above for what comes last."""
        name, turn = name_of(ready.thing), self._turn(ready)
        if name is None or turn is None:
            return 0.0
        size = self._shaker.size("order", f"{name.key}.{ready.way}", turn.number)
        return 0.0 if size is None else size - 1 if size < 0.5 else size

    def _pass(self, ready: Ready) -> None:
        """It passes, and may be held back when it is ready again."""
        turn = self._turn(ready)
        if turn is None:
            return
        turn.until = None
        name = name_of(ready.thing)
        if name is None:
            self._shaker.come(f"child children {turn.number}", "the end of children")
        else:
            self._shaker.come(f"{name.key}.{ready.way} {turn.number}", _words(ready, turn.number))

    def _pauses(self) -> bool:
        """Whether the machine has paused, right before the reactor has seen that a call is due. What came meanwhile comes before it then."""
        calls = self._reactor._pendingTimedCalls
        if not calls or calls[0] is self._paused_for or calls[0].cancelled:
            return False
        call = calls[0]
        if call.time + call.delayed_time > self._reactor.seconds():
            return False
        self._paused_for = call
        name = name_of(call)
        milliseconds = None if name is None else self._shaker.delay("late", name.key, 1)
        if name is None or milliseconds is None:
            return False
        self._shaker.meet("late", name.key, 1, f"the machine paused for {milliseconds:.1f} ms before {name.words} ran")
        _sleep(milliseconds / 1000)
        return True


def _words(ready: Ready, number: int) -> str:
    """What it is in words, for the how many-th time."""
    return f"the {ordinal(number)} {_DOES[ready.way]} of {words_of(ready.thing)}"
