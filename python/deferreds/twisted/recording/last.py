"""Records the last events of a program that runs for long.

After so many events another recorder takes over, and the one before is kept until that happens again. So the memory
that is needed doesn't grow. What stood when a recorder took over is the beginning of its script:
a Deferred from before is recorded as it stood, where it is met first. Until then nothing was done with it, so it stood so at the
beginning. Everything else from before, as a loop or a delayed call, is recorded as the Python that it is made of. So are all locks and
queues from then on, since one from before can't be told from another.
"""

from __future__ import annotations

import copy
import gc
from typing import Any, Callable, List, Optional

from twisted.internet.defer import Deferred

from ..instruments.deferreds import result_of, take_over, take_over_canceller
from ..telling import Action, Observer, Record
from ..texts import NULL, Outcome
from .bodies import Body, Run, Unsayable, forget_bodies
from .places import place
from .recorder import Problem, Recorder
from .saying import Said

#: how many Deferreds that stood and were never met are recorded at most
_MOST_MET = 1_000

#: what a recorder that has taken over doesn't tell as such
_MADE_PLAIN = frozenset({"lock", "queue"})

#: what a cancel without a canceller fires with
_CANCELLED = {"fail": "CancelledError", "message": ""}


class _NameOf:
    """A part of a line: the name of a Deferred, whatever its number is by the time that it is said."""

    def __init__(self, record: Record) -> None:
        self._record = record

    def __str__(self) -> str:
        record = self._record
        while record.alias is not None:
            record = record.alias
        return str(record.name)


class LastRecorder(Recorder):
    """Records some events, and has another recorder take over then."""

    def __init__(
        self,
        kinds: frozenset[str],
        redact: str,
        count: int,
        took_over: Callable[["LastRecorder"], None],
        before: Optional["LastRecorder"] = None,
    ) -> None:
        """`count`: after how many events another takes over, with which `took_over` is called. `before`: the one that this takes over from."""
        super().__init__(kinds, redact)
        self.before = before
        self._redact = redact
        self._count = count
        self._took_over = took_over
        #: how many events were recorded before those of this one
        self.earlier = 0
        self._stood_events: List[Action] = []
        self._stood_begins: List[int] = []
        self._stood_parts: List[Any] = []
        self._stood_records: List[Record] = []
        #: whether an action is being recorded, and those that time needs for it
        self._records = False
        if before is not None:
            self.earlier = before.earlier + len(before.events)
            self.texts = before.texts
            self.spots.began = before.spots.began
            problems = dict.fromkeys(problem.said for problem in before.problems if problem.inner is None)
            self.problems = list(problems)
            self.texts.forget_kept()
            self.texts.ask_by(self.ask)

    # events, and their end

    def act(self, action: Action, call: Callable[..., Any], *args: Any) -> Any:
        """Performs a call of the program's into Twisted. After the last one that is recorded here, another recorder takes over."""
        outer, self._records = self._records, True
        try:
            return super().act(action, call, *args)
        finally:
            self._end_recording(outer)

    def begin_plain(self, action: Action, inside: int) -> Any:
        """The program runs an action in which none of its code is called, while it runs no other. Gives what ends it."""
        outer, self._records = self._records, True
        return outer, super().begin_plain(action, inside + 1)

    def end_plain(self, begun: Any, action: Action, error: Optional[BaseException] = None) -> None:
        """It has ended, or has failed."""
        outer, inside = begun
        super().end_plain(inside, action, error)
        self._end_recording(outer)

    def _end_recording(self, outer: bool) -> None:
        """An action has been recorded, in which another one may be recorded."""
        self._records = outer
        if len(self.events) >= self._count and not self._records and self.is_between_events():
            self._hand_over()

    def _hand_over(self) -> None:
        if self.before is not None:
            self.before.forget()
            self.before = None
        following = LastRecorder(self.kinds - _MADE_PLAIN, self._redact, self._count, self._took_over, self)
        self.hand_over(following)
        self._took_over(following)

    def forget(self) -> None:
        """Keeps nothing of what was recorded, nor of what stood, nor of the recorder before this one."""
        if self.before is not None:
            self.before.forget()
            self.before = None
        for action in self._stood_events:
            forget_bodies(action)
        for record in self._stood_records:
            record.made_in = record.side = record.body = None
        stood: List[List[Any]] = [self._stood_events, self._stood_parts, self._stood_records, self._stood_begins]
        for kept in stood:
            kept.clear()
        super().forget()

    # Deferreds

    def make(self, deferred: Any) -> None:
        """The program has made a Deferred that has no canceller, while it runs no action."""
        Observer.make(self, deferred)

    def made(self, deferred: Deferred[Any], record: Record, kind: str = "", by_twisted: bool = False) -> None:
        """A Deferred was made. Its line has its name, which is known at the end."""
        before = len(self.parts)
        super().made(deferred, record, kind, by_twisted)
        if self.parts[before] == "new ":
            self._name_late(before + 3, record)

    def rename(self, deferred: Deferred[Any]) -> None:
        """A body gave a Deferred, which has another name from here on."""
        before = len(self.parts)
        super().rename(deferred)
        for at in range(before, len(self.parts) - 3):
            if self.parts[at] == "name " and isinstance(self.parts[at + 3], int):
                self._name_late(at + 3, self.record(deferred))

    def _name_late(self, at: int, record: Record) -> None:
        parts: List[Any] = self.parts
        parts[at] = _NameOf(record)

    def adopt(self, deferred: Deferred[Any]) -> Record:
        """A Deferred that this recorder doesn't know. One that another has known is recorded at the beginning, as it stood."""
        stood: Any = getattr(deferred, "_dv_record")
        if stood is None or self.earlier == 0:
            return super().adopt(deferred)
        first = _first_waited_for(deferred)
        if first is not None and self._is_of_earlier(first):
            self._meet(first)
        known: Any = getattr(deferred, "_dv_record")
        if known[0] is not self:
            self.problem("a Deferred from before what is kept, whose waits can't be recorded")
            return super().adopt(deferred)
        return known[1]  # type: ignore[no-any-return]

    def meet_all(self) -> None:
        """Tells the Deferreds that stood and haven't been fired or wait, though nothing was done with them."""
        if self.earlier == 0:
            return
        met = 0
        for found in gc.get_objects():
            if not isinstance(found, Deferred) or not self._is_of_earlier(found):
                continue
            waits = not found.called or isinstance(result_of(found), Deferred)
            if waits and met < _MOST_MET and not _is_odd(_first_waited_for(found)):
                met += 1
                self.record(found)

    def _is_of_earlier(self, deferred: Any) -> bool:
        """Whether it is known by a recorder before this one, and by none since."""
        known = deferred._dv_record
        return known is not None and known[0] is not self and getattr(known[0], "lineage", None) is self.lineage

    def _meet(self, first: Deferred[Any]) -> None:
        """Tells a Deferred that waits for no other, and all that wait for it."""
        waiting = [first]
        while waiting:
            deferred = waiting.pop(0)
            record = self._stand(deferred)
            for one in take_over(self, deferred, record):
                if isinstance(one, Action):
                    self._stood(one, "add ", record)
                else:
                    self._stand(one, record)
                    waiting.append(one)

    def _stand(self, deferred: Any, waits_for: Optional[Record] = None) -> Record:
        """Makes a Deferred as it stood, but for its pairs. One that waits was made before."""
        if deferred._dv_record[0] is self:
            known: Record = deferred._dv_record[1]
            return known
        stood: Record = deferred._dv_record[1]
        if _is_odd(deferred) or (waits_for is not None and not isinstance(result_of(deferred), Deferred)):
            self.problem("a Deferred from before what is kept, which can't be recorded as it stood")
        record = Record()
        record.made_at = stood.made_at or ("stood", None, 0)
        record.number = 0  # (it has one; which, is known when the run is said)
        self.keep(deferred, record)
        made = Action(["deferred", record])
        canceller = None if deferred.called else take_over_canceller(self, deferred)
        if canceller is not None:
            made.append(canceller)
        self._stood_records.append(record)
        self._stood(made, "new ", record, " ", _NameOf(record))
        if deferred.called:
            self._stand_fired(deferred, stood, record, waits_for)
        for _ in range(stood.pauses):
            self._stood(Action(["pause", record]), "pause ", record)
        record.pauses = stood.pauses
        return record

    def _stand_fired(self, deferred: Any, stood: Record, record: Record, waits_for: Optional[Record]) -> None:
        """Fires a Deferred as it was fired: by a cancel, where its late answer is to be swallowed. A side gives what it has since."""
        is_cancelled = bool(deferred._suppressAlreadyCalled)
        outcome = Outcome(_CANCELLED) if is_cancelled else NULL if waits_for is not None else stood.outcome
        has_side = waits_for is not None or (is_cancelled and not outcome.is_same(stood.outcome))
        if has_side:
            self._stood(Action(["addBoth", record, self._giving(["wait", waits_for] if waits_for else self._ending(stood.outcome))]), "add ", record)
        if is_cancelled:
            parts: List[Any] = ["cancel ", record, None, "fire ", record, " ", outcome]
            action = Action(["cancel", record])
        else:
            parts = ["fire ", record, " ", outcome]
            action = self._firing(record, outcome)
        if has_side:
            given: List[Any] = ["wait ", record, " ", waits_for] if waits_for else ["set ", record, " ", stood.outcome]
            parts += [None, "run ", record, None, *given]
        self._stood(action, *parts)
        record.fired, record.outcome, record.waits_for = True, NULL if waits_for else stood.outcome, waits_for

    def _giving(self, end: Any) -> Body:
        """A body that has this END."""
        body, run = Body("callback"), Run("callback")
        run.end = end
        body.runs.append(run)
        return body

    def _ending(self, outcome: Outcome) -> Any:
        """The END that gives this."""
        if isinstance(outcome.value, dict):
            return self._raised(outcome)
        said = self.value(outcome)
        return said if isinstance(said, Unsayable) else ["return", said]

    def _raised(self, outcome: Outcome) -> Any:
        shown = outcome.value
        if "sub" in shown:
            return Unsayable("a FirstError from before what is kept", place(), outcome.text)
        return ["raise", shown["fail"], shown["message"]]

    def _firing(self, record: Record, outcome: Outcome) -> Action:
        if isinstance(outcome.value, dict):
            return Action(["errback", record, self._raised(outcome)])
        return Action(["callback", record, self.value(outcome)])

    def _stood(self, action: Action, *parts: Any) -> None:
        """Adds an event to the beginning of the script, with its lines."""
        self._stood_events.append(action)
        self._stood_begins.append(len(self._stood_parts))
        self._stood_parts.extend((*parts, None))

    # what is said

    def said(self, ended: Optional[int] = None) -> Said:
        """What is recorded here, after what stood. `ended`: how many events have ended, as for `Said`."""
        whole = copy.copy(self)
        shift = len(self._stood_parts)
        whole.preceding, whole.preceding_parts = len(self._stood_events), shift
        whole.events = self._stood_events + self.events
        whole.begins = self._stood_begins + [at + shift for at in self.begins]
        whole.parts = [*self._stood_parts, *self.parts]
        whole.records = self._stood_records + self.records
        whole.quirks = [(at + shift, entry) for at, entry in self.quirks]
        whole.problems = [_later(problem, whole.preceding) for problem in self.problems]
        return Said(whole, None if ended is None else ended + whole.preceding)


def _later(problem: Problem, events: int) -> Problem:
    """A problem, before which so many more events are recorded."""
    return problem if problem.ended is None else problem._replace(ended=problem.ended + events)


def _is_odd(deferred: Any) -> bool:
    """Whether a Deferred stands as no actions of a script leave it, or is none."""
    if deferred is None:
        return True
    stood: Record = deferred._dv_record[1]
    waits = bool(deferred.called and isinstance(result_of(deferred), Deferred))
    is_free = bool(deferred.called and not deferred.paused and deferred.callbacks)
    is_miscounted = deferred.paused != stood.pauses + waits
    return is_free or is_miscounted or bool(deferred._runningCallbacks) or stood.hidden_of is not None


def _first_waited_for(deferred: Any) -> Any:
    """The Deferred that this one waits for, by way of others: itself, where it waits for none; None, where they go round in a circle."""
    seen = {id(deferred)}
    while deferred.called and isinstance(result_of(deferred), Deferred):
        deferred = result_of(deferred)
        if id(deferred) in seen:
            return None
        seen.add(id(deferred))
    return deferred
