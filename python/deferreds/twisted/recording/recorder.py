"""The recorder: an observer that notes the program's actions and bodies beside the lines."""

from __future__ import annotations

import sys
from typing import Any, Callable, List, Mapping, NamedTuple, Optional, Sequence, Tuple, Union

from twisted.internet.defer import Deferred, FirstError
from twisted.python.failure import Failure

from ..classes import Classes
from ..instruments.deferreds import runs_callbacks
from ..profile import Entry
from ..telling import (
    KINDS,
    NO_KEYWORDS,
    Action,
    Advance,
    Ended,
    Failed,
    Frame,
    Observer,
    Record,
    Thing,
    is_deferred,
    know_attributes,
    switching,
    take_off,
    watched,
)
from ..texts import NULL, Outcome, Text, compact, weight_of
from .arguments import WITH_ARGUMENTS, Call, arguments_of
from .bodies import SHALLOW, Body, Run, Steps, Unsayable, forget_bodies
from .hiding import SECRETS, Hiding
from .inside import CALLED, KIND_OF_ACTION, MEDDLED, Inside, entry, is_entered, is_uncalled, reason_of, worked_on
from .places import Spots, place, spot
from .values import Values, is_member

#: kinds of runs whose result is dropped
_DROPPED = frozenset({"call", "canceller", "step"})

#: by the words of actions, which frame is the first that may be the program's, where that isn't the third from what `act` calls
_FIRST_FRAMES = {
    **dict.fromkeys(("addCallback", "addErrback", "addBoth", "addCallbacks", "inline"), 5),
    **dict.fromkeys(("callback", "errback", "cancel", "later", "loop", "maybe", "whenDone", "thread", "threadIn"), 4),
    **dict.fromkeys(("list", "gather", "lock", "semaphore", "acquire", "runWith", "queue", "get", "put"), 4),
}
_first_frame = _FIRST_FRAMES.get


class Problem(NamedTuple):
    """What a script can't say: why, where in the program, and which kind could be told as what it is made of."""

    reason: str
    place: str
    kind: Optional[str]
    #: how many events had ended before it, where a script can be of these
    ended: Optional[int] = None
    #: where it is noted what the object does by itself, if that is noted
    inner: Any = None

    @property
    def said(self) -> "Problem":
        """The same, of any event."""
        return self._replace(ended=None)


#: how many times as many frames a program may have on Python's stack where it is recorded
STACK_ROOM = 3

#: why a script can't say what the program does where it is asked for the text of an object
ASKED = "the text of an object is worked out with more than Deferreds of its own"

_DEFERREDS = frozenset(
    {"deferred", "callback", "errback", "addCallback", "addErrback", "addBoth", "addCallbacks", "chain", "cancel", "pause", "unpause"}
)


class Aside(Observer):
    """Watches where the recorder asks for the text of an object, which the program wouldn't do: nothing of that is recorded."""

    def __init__(self, recorder: Recorder) -> None:
        super().__init__()
        self._recorder = recorder

    def act(self, action: Action, call: Callable[..., Any], *args: Any) -> Any:
        """Performs a call into Twisted, which has to be on a Deferred that only this knows."""
        if action and action[0] not in _DEFERREDS:
            self._recorder.problem(ASKED)
        return super().act(action, call, *args)

    def adopt(self, deferred: Deferred[Any]) -> Record:
        """Notes that a Deferred is used which the recorder knows."""
        known: Any = deferred
        if known._dv_record is not None and known._dv_record[0] is self._recorder:
            self._recorder.problem(ASKED)
        return super().adopt(deferred)

    def has_clock(self, clock: Any) -> bool:
        """Every clock is of the run."""
        return True

    def forget(self) -> None:
        """Forgets what was recorded."""
        self.parts.clear()
        self.records.clear()
        self.quirks.clear()


class Growth:
    """After how many parts of lines, at the end of an event, it is to be looked what memory is left, and what does so.

    (A recorder has as many attributes as Python finds soon.)
    """

    __slots__ = ("looks_at", "look", "inside")

    def __init__(self) -> None:
        self.looks_at = sys.maxsize
        #: how many actions are run inside others, in Twisted's own code
        self.inside = 0
        self.look: Callable[[Recorder], None] = lambda recorder: None


growth = Growth()


class Recorder(Observer):
    """Records a run of a program. It is on where the program's code runs.

    `redact` says what is hidden: `all`, `secrets` or `none`. Raises ValueError where it is none of these.
    """

    #: the program itself, and the run of a body in which it is
    top: Run
    frame: Run
    texts: Values

    stack_room = STACK_ROOM
    notes_inner = True
    #: how many events come before those by which the runs of bodies count, and how many parts of lines before those that are noted so
    preceding = preceding_parts = 0
    #: what watches where the text of an object is asked for, once one was
    _aside: Optional[Aside] = None

    def __init__(self, kinds: frozenset[str] = KINDS, redact: str = SECRETS) -> None:
        classes = Classes()
        values = Values(classes, self.ask, Hiding(redact))
        super().__init__(kinds if "clock" in kinds else kinds - {"timer", "loop", "thread"}, classes, values, Run("event"))
        # what is asked for often is found sooner on the object than on its class
        self.top.expected, self.top.anonymous = (), False
        #: the actions of the program itself, and how many parts of lines were logged before each
        self.events: List[Action] = []
        self.begins: List[int] = []
        #: the actions of bodies that have failed
        self.failed: List[Action] = []
        self.problems: List[Problem] = []
        #: the action that Twisted runs, and what the program has done inside it, though that calls for nothing
        self._performed: Optional[Action] = None
        self._inside: Optional[Inside] = None
        #: where actions ran and Deferreds were made
        self.spots = Spots()
        #: how many events have ended
        self.ended = 0
        #: where clocks were first used that aren't that of the run
        self.further_clocks: List[str] = []

    def problem(self, reason: str, kind: Optional[str] = None, inner: Any = None) -> None:
        """Notes what a script can't say."""
        self.problems.append(Problem(reason, place(), kind, self.ended, inner))

    def note_further_clock(self) -> None:
        """Notes that a clock is used which isn't that of the run."""
        self.further_clocks.append(place().partition(" in ")[0])

    def place(self) -> str:
        """The place in the program."""
        return place()

    def is_between_events(self) -> bool:
        """Whether the program itself runs, and is in none of Twisted's code."""
        is_outside = self.frame is self.top and not self.acting and not self.top.expected
        return is_outside and watched.observer is self and not runs_callbacks()

    def stop(self) -> None:
        """Records nothing any more, and keeps nothing of what was recorded: the program goes on as without a recorder."""
        watched.observer = None
        take_off(self.lineage)
        self.forget()

    def forget(self) -> None:
        """Keeps nothing of what was recorded: Deferreds from then still refer to this recorder."""
        for action in self.events:
            forget_bodies(action)
        for record in self.records:
            record.made_in = record.side = record.body = None
        everything: List[List[Any]] = [self.events, self.parts, self.records, self.failed, self.quirks, self.begins, self.quirks_of]
        for kept in everything:
            kept.clear()
        self.spots.forget()
        self._clock = self.pace = self.cooperator = None

    def happening(self) -> Optional[Action]:
        """The event that happens, or has happened last."""
        return self.events[-1] if self.events else None

    def ask(self, call: Callable[[], Any]) -> Any:
        """What the program's code says of an object of its own. What it does beside that is recorded nowhere."""
        if watched.observer is not self:
            return call()
        aside = self._aside
        if aside is None:
            aside = self._aside = Aside(self)
        watched.observer = aside
        try:
            return call()
        finally:
            watched.observer = self
            aside.forget()

    # names

    def spot(self) -> Any:
        """Where the program is, as what is made there is named."""
        return spot()

    def thing(self, kind: str, made_at: Any = None) -> Thing:
        """A name for an object that is made here, or was made there."""
        return self.spots.thing(kind, made_at or spot())

    def locate_action(self, action: Action, inside: int) -> None:
        """Notes where the program is, if that is where an action will have run. So many frames, from the caller's on, aren't its."""
        self.spots.note(action, 1 + inside)

    def note_made(self, thing: Thing, made_at: Any) -> None:
        """Notes where the lock or the queue was made that has this name, if that is known."""
        if made_at is not None and made_at[1] is not None:
            self.spots.places_of_things.append((thing, made_at))

    def note_call(self, action: Action, body: Any) -> None:
        """Notes what the generator or the coroutine of an inline body was called with."""
        if type(body) in WITH_ARGUMENTS:
            argument = self.texts.argument
            given = [(name, argument(name, value)) for name, value in arguments_of(body)]
            self.spots.calls.append(Call(action, body.__name__, given))

    def locate_await(self, awaited: Any, generator: Any) -> None:
        """Notes where the generator or the coroutine of an inline body stands, which awaits."""
        self.spots.note_await(awaited, generator)

    def locate(self, record: Record, by_twisted: bool = False) -> None:
        """Notes where the program makes a Deferred, or Twisted's own code for it."""
        spot_ = self.spots.of_last(self._performed, self.maker) if by_twisted else None
        record.made_at = self.spots.locate(record, self.maker, 3) if spot_ is None else spot_

    def adopt(self, deferred: Deferred[Any]) -> Record:
        """A Deferred that was made before the recording began is made, and fired, where it is met first."""
        if self.is_settled(deferred):
            known: Any = deferred
            self.problem("a failed Deferred that a coroutine has awaited is used again")
            record: Record = known._dv_record[1]
            self.keep(deferred, record)
            return record
        state, value = deferred.__dict__, getattr(deferred, "result", None)
        if state.get("callbacks") or deferred.paused or state.get("_canceller"):
            self.problem("a Deferred from before the recording, which has pairs, pauses or a canceller")
        if is_deferred(value):
            self.problem("a Deferred from before the recording, which waits for another")
        if self.quiet:
            self.problem("a Deferred from before the recording, which Twisted meets first")
        adopted: Record = self.own(self._adopt, deferred, value)
        if self.frame is self.top and not self.acting:
            self.ended = len(self.events)
        return adopted

    def _adopt(self, deferred: Deferred[Any], value: object) -> Record:
        before = len(self.parts)
        record = super().adopt(deferred)
        self._note(Action(["deferred", record]), before)
        if deferred.called:
            told = (place for place in range(len(self.parts) - 1, before, -1) if self.parts[place] == "fire ")
            self._note(self.firing(record, value, record.outcome), next(told))
        return record

    # actions and bodies

    @switching
    def act(self, action: Action, call: Callable[..., Any], *args: Any) -> Any:
        """Performs a call of the program's into Twisted, and notes it as an action."""
        if self.acting:
            return self._act_inside(action, call, *args)
        run, parts, inside, performed = self.frame, self.parts, self._inside, self._performed
        if run is not self.top:
            # Python's collector may run a finalizer anywhere, so that this is set before anything is noted
            self.acting = True
            run.note(action)
            if run.kind != "inline":
                parts.append(action)
        else:
            if self.pace is not None and type(action) is not Advance:
                self.pace.event(action[0] == "loop")
            self.acting = True
            self._told = None
            self.events.append(action)
            self.begins.append(len(parts))
        self._performed = action
        if inside is not None:
            self._inside = None
        word = action[0]
        if word != "deferred" and type(action) is not Advance:
            self.spots.note(action, _first_frame(word, 3))
        try:
            return call(*args)
        except BaseException as error:
            self._end_action(run, action, error)
            raise
        finally:
            if self._inside is not inside:
                if self._inside is not None:
                    self._refuse_unless_last(self._inside, action.raised is not None)
                self._inside = inside
            self._performed = performed
            self.acting = False
            if run is self.top:
                self.ended = len(self.events)
                if len(parts) > growth.looks_at:
                    growth.look(self)

    def begin_plain(self, action: Action, inside: int) -> Any:
        """The program runs an action in which none of its code is called, while it runs no other. Gives what ends it.

        So many frames, from the caller's on, are known not to be the program's.
        """
        run, before = self.frame, self._inside
        if run is not self.top:
            self.acting = True
            run.note(action)
            if run.kind != "inline":
                self.parts.append(action)
        else:
            if self.pace is not None:
                self.pace.event(False)
            self.acting = True
            self._told = None
            self.events.append(action)
            self.begins.append(len(self.parts))
        if before is not None:
            self._inside = None
        self.spots.note(action, 2 + inside)
        return before

    def end_plain(self, begun: Any, action: Action, error: Optional[BaseException] = None) -> None:
        """It has ended, or has failed."""
        if error is not None:
            self._end_action(self.frame, action, error)
        if self._inside is not begun:
            if self._inside is not None:
                self._refuse_unless_last(self._inside, error is not None)
            self._inside = begun
        self.acting = False
        if self.frame is self.top:
            self.ended = len(self.events)
            if len(self.parts) > growth.looks_at:
                growth.look(self)

    @switching
    def make(self, deferred: Any) -> None:
        """The program has made a Deferred that has no canceller, while it runs no action."""
        run = self.frame
        record = Record(run)
        deferred._dv_record = (self, record)
        record.made_at = self.spots.locate(record, self.maker, 2)
        action = Action(("deferred", record))
        if self._inside is not None or run.expected or run.anonymous:
            self.act(action, self.made, deferred, record)
            return
        # what most programs do takes Python least here
        parts, records, events, is_event = self.parts, self.records, self.events, run is self.top
        if is_event and self.pace is not None:
            self.pace.event(False)
        self.acting = True
        try:
            if is_event:
                self._told = None
                events.append(action)
                self.begins.append(len(parts))
            else:
                run.note(action)
                if run.kind != "inline":
                    parts.append(action)
            self.maker = None
            record.number = number = len(records)
            parts.extend(("new ", record, " ", number, None))
            records.append(record)
        except BaseException as error:
            self._end_action(run, action, error)
            raise
        finally:
            self.acting = False
            if is_event:
                self.ended = len(events)
        if self._inside is not None:
            self._refuse_unless_last(self._inside, False)
            self._inside = None

    @switching
    def own(self, call: Callable[..., Any], *args: Any) -> Any:
        """Has Twisted's own code run, as a part of an action or of a body that runs."""
        inside, self._inside = self._inside, None
        try:
            return super().own(call, *args)
        finally:
            if self._inside is not None:
                self._refuse_unless_last(self._inside, False)
            self._inside = inside

    # what the program does inside Twisted's own code

    @property
    def quiet(self) -> bool:
        """Whether Twisted's own code calls the instrument which asks, and not the program's that runs inside that."""
        return self.acting and not is_entered(2)

    def _act_inside(self, action: Action, call: Callable[..., Any], *args: Any) -> Any:
        """Runs an action of the program's which Twisted's own code, that runs another one, doesn't call for.

        It is noted after that one, and is refused unless that one tells nothing more.
        """
        entered = entry(1)
        if self._inside is not None:
            self._refuse_unless_last(self._inside, False)
        uncalled = entered is not None and is_uncalled(entered)
        if not uncalled:
            self.problem(CALLED, self._kind_performed())
        busy = [] if entered is None else [self._known_as(one) for one in worked_on(entered)]
        frame, before, ended = self.frame, len(self.parts), self.ended
        kept = frame.expected, frame.anonymous, frame.passing, self._told, self.forwarded, self.turn, self.maker
        frame.expected, frame.anonymous, frame.passing, self.forwarded, self.turn = (), False, None, None, None
        self.acting = False
        growth.inside += 1
        try:
            return self.act(action, call, *args)
        finally:
            growth.inside -= 1
            self.acting, self.ended = True, ended
            frame.expected, frame.anonymous, frame.passing, self._told, self.forwarded, self.turn, self.maker = kept
            if uncalled and any(part is one for part in self.parts[before:] if part is not None for one in busy):
                self.problem(MEDDLED)
            self._inside = Inside(len(self.parts), place(), uncalled, ended, reason_of(entered))

    def _known_as(self, thing: object) -> object:
        """What lines name an object by, if any do."""
        for name in ("_dv_record", "_dv_thing", "_dv_loop", "_dv_task"):
            known = getattr(thing, "__dict__", {}).get(name)
            if known is not None and known[0] is self:
                named = known[1][0] if isinstance(known[1], tuple) else known[1]
                return getattr(named, "thing", named)
        return None

    def _refuse_unless_last(self, inside: Inside, raised: bool) -> None:
        """Refuses what was done inside Twisted's code, where that has gone on to tell something after it."""
        if inside.is_uncalled and (raised or inside.told < len(self.parts)):
            self.problems.append(Problem(inside.reason, inside.place, None, inside.ended))

    def _kind_performed(self) -> Optional[str]:
        """The kind of objects to which what Twisted runs belongs."""
        return None if self._performed is None else KIND_OF_ACTION.get(self._performed[0])

    def _note(self, action: Action, before: int) -> None:
        """Notes an action of the program, or of the body that runs, which was logged after so many parts of lines."""
        if self.frame is self.top:
            self.events.append(action)
            self.begins.append(before)
        else:
            action.at = before
            self.frame.note(action)

    def _end_action(self, run: Run, action: Action, error: BaseException) -> None:
        """An action has failed."""
        action.raised = self.texts.failure(error).text
        if isinstance(error, RecursionError):
            self.quirk(Entry.PYTHON_STACK)
        if run is self.top:
            self.tell_unhandled(error)
        elif run.kind != "inline":
            self.parts.append(Failed(action))
            self.failed.append(action)

    def note(self, text: str) -> None:
        """The program notes a text, unless that is inside Twisted's own code."""
        if self.acting:
            return
        said = self.texts.note(text)
        self.act(Action(["note", said]), self.tell, "note ", Text(compact(said), weight_of(said)))

    def end_inner(self, action: Action, error: BaseException) -> None:
        """What an object of Twisted's does by itself has failed, which is noted as this action."""
        action.raised = self.texts.failure(error).text
        if self.frame.kind not in ("event", "inline"):
            self.parts.append(Failed(action))
            self.failed.append(action)

    def new_body(self, kind: str, is_deep: bool = False) -> Union[Body, Steps]:
        """A body that the program hands to Twisted. `is_deep`: it may come to lie in many others."""
        depth = max(self.frame.depth, SHALLOW) + 1 if is_deep else self.frame.depth + 1
        return Steps(depth) if kind == "steps" else Body(kind, depth)

    def depth_of(self, body: Any) -> int:
        """In how many others a body lies."""
        return int(body.depth)

    def begin_side(self, body: Any, given: Outcome) -> Frame:
        """A side of the program's begins, and is the run of a body in which the program is."""
        run = Run("callback", given, body.depth, len(self.events))
        body.runs.append(run)
        if body.depth > SHALLOW:
            self.parts.append(body)
        self.frame = run
        self.acting = False
        return run

    def end_side(self, frame: Frame, result: object, value: object, given: Outcome) -> Optional[Outcome]:
        """It has ended with this result, for a value that was shown so. Gives how the result is shown, where that is known."""
        assert isinstance(frame, Run)
        if result is given.value and frame.noted is None and (result is None or type(result) is int):
            if result is not value:
                frame.end = ["return", result]
            return given
        self._end_run(frame, result, (value, given))
        return self.gave

    def _end_run(self, run: Run, result: object, given: Optional[Tuple[object, Outcome]]) -> None:
        """A run has ended with this result, whose kind isn't one whose result is dropped."""
        if (result is None or type(result) is int) and run.noted is None:
            run.end = self._returned_plain(run, result, given)
        else:
            self.end_body(run, None, result, given)

    def perform(
        self,
        body: Any,
        kind: str,
        given: Optional[Tuple[object, Outcome]],
        call: Callable[..., Any],
        args: Sequence[Any] = (),
        kwargs: Mapping[str, Any] = NO_KEYWORDS,
    ) -> Any:
        """Has the program do what it was called back for: a run of the body, on what it is given."""
        run = Run(kind, None if given is None else given[1], body.depth, len(self.events))
        body.runs.append(run)
        if body.depth > SHALLOW:
            self.parts.append(body)
        before, acting = self.frame, self.acting
        self.frame, self.acting = run, False
        try:
            result = call(*args, **kwargs)
        except BaseException as error:
            self.end_body(run, error, None, given)
            raise
        else:
            if kind in _DROPPED:
                self.end_body(run, None, result, given)
            else:
                self._end_run(run, result, given)
            return result
        finally:
            self.frame, self.acting = before, acting

    def begin_body(
        self, body: Any, kind: str, given: Optional[Tuple[object, Outcome]]
    ) -> Run:
        """A run of a body begins."""
        run = Run(kind, None if given is None else given[1], body.depth, len(self.events))
        body.runs.append(run)
        return run

    def end_body(
        self,
        frame: Frame,
        error: Optional[BaseException],
        result: object,
        given: Optional[Tuple[object, Outcome]],
    ) -> None:
        """A run of a body has ended."""
        assert isinstance(frame, Run)
        self.gave = None
        raised = None if error is None else self.texts.failure(error).text
        if frame.noted is not None and frame.settle_raised(raised):
            return
        if error is not None:
            passed = given is not None and given[1].text == f"fail {raised}"
            frame.end = None if passed else self.raising(error)
        elif _is_waited_for(frame, result):
            if frame.kind == "step" or frame.kind not in _DROPPED:
                frame.end = ["wait", self.record(result)]
        elif frame.kind not in _DROPPED:
            frame.end = self._returned(frame, result, given)

    def _returned_plain(self, frame: Run, result: Optional[int], given: Optional[Tuple[object, Outcome]]) -> Any:
        """What `_returned` says where a body gave None or an integer, which is found sooner."""
        before = NULL if given is None else given[1]
        if before.value is result:
            self.gave = before
            return None if given is None or given[0] is result else ["return", result]
        if result is None:
            self.gave = NULL
            return ["return", None]
        return self._returned(frame, result, given)

    def end_by_warning(self, record: Record, error: BaseException) -> None:
        """A side gave its own Deferred, and Twisted's warning of that was raised as an error."""
        if record.side is not None:
            record.side.runs[-1].end = self.raising(error)

    def _returned(
        self, frame: Run, result: object, given: Optional[Tuple[object, Outcome]]
    ) -> Any:
        """The END by which a body gave this result."""
        before = NULL if given is None else given[1]
        outcome = self.texts.outcome(result)
        is_same = outcome.is_same(before) or (type(before.value) is list and outcome.is_same(self._as_made(before)))
        if isinstance(result, Failure):
            return None if is_same else self.raising(self.texts.error_of(result))
        self.gave = before if is_same else outcome
        if is_same and (given is None or result is given[0]):
            return None
        said = self.value(outcome)
        if isinstance(said, Unsayable):
            return None if is_same else said
        return ["return", said]

    # steps and inline bodies

    def begin_step(self, steps: Any) -> Body:
        """A step of a task begins."""
        body = Body("step", steps.depth)
        steps.bodies.append(body)
        return body

    def end_steps(self, steps: Any, body: Any, inner: Any) -> None:
        """A task has ended, in a step that has no body. `inner`: where it is noted what its Cooperator does by itself."""
        steps.bodies.remove(body)
        if body.runs[0].actions:
            self.problem("a task acts in the step in which it ends", "cooperator", inner)

    def begin_inline(self, body: Any) -> bool:
        """The program is about to begin an inline body. Whether it does so in another one, so deep that a script may have to declare it."""
        if self.frame.kind != "inline" or body.depth <= SHALLOW:
            return False
        self.parts.append(body)
        return True

    def end_inline_action(self, action: Action) -> None:
        """The action that has begun it has ended."""
        self.parts.append(Ended(action))

    def begin_await(self, frame: Frame, record: Record) -> Action:
        """An inline body awaits a Deferred."""
        assert isinstance(frame, Run)
        awaited = Action(["await", record])
        frame.note(awaited)
        return awaited

    def end_await(self, awaited: Any, value: object, outcome: Outcome) -> None:
        """What it awaited has come, and is thrown where it is a failure."""
        awaited.came = len(self.events)
        if isinstance(value, Failure):
            awaited.raised = self.texts.failure(self.texts.error_of(value)).text

    def end_inline(self, frame: Frame, result: object) -> None:
        """An inline body has ended."""
        assert isinstance(frame, Run)
        error = self.texts.error_of(result) if isinstance(result, Failure) else None
        raised = None if error is None else self.texts.failure(error).text
        if frame.settle_raised(raised):
            return
        if error is not None:
            frame.end = self.raising(error)
            return
        outcome, present = self.texts.outcome(result), frame.present
        said = self.value(outcome)
        awaited = any(action[0] == "await" for action in frame.actions)
        if isinstance(said, Unsayable):
            passes = present is not None and present.text == said.outcome
            frame.end = ["pass"] if passes else said
        elif result is not None or awaited:
            frame.end = ["return", said]

    # values

    def _as_made(self, outcome: Outcome) -> Outcome:
        """The same, as it is shown where the program makes it."""
        return Outcome(self.texts.as_made(outcome.value))

    def firing(self, record: Record, result: object, outcome: Outcome) -> Action:
        """The action that fires a Deferred with this, which is shown so."""
        shown = outcome.value
        if isinstance(result, Failure):
            is_plain = type(shown) is dict and "sub" not in shown
            raising = ["raise", shown["fail"], shown["message"]] if is_plain else self.raising(self.texts.error_of(result))
            return Action(("errback", record, raising))
        if type(shown) is list or type(shown) is dict:
            shown = self.value(outcome)
        return Action(("callback", record, shown))

    def value(self, outcome: Outcome) -> Any:
        """A VALUE, unless the language has none for it."""
        shown = outcome.value
        if isinstance(shown, dict) or not _is_value(shown):
            return Unsayable("a Failure is a value", place(), outcome.text)
        return shown

    def raised(self, error: BaseException) -> Any:
        """A failure, as the work of a job has it."""
        raising = self.raising(error)
        return raising if isinstance(raising, list) else ["value", raising]

    def raising(self, error: BaseException) -> Any:
        """The END that raises a failure."""
        if isinstance(error, FirstError) and hasattr(error, "subFailure"):
            outcome = f"fail {self.texts.failure(error).text}"
            return Unsayable("a FirstError is made or passed on by the program", place(), outcome)
        return ["raise", self.classes.name_of(type(error)), self.texts.message(error)]


#: the attributes that a recorder may get later
LATER = ("is_on", "thread", "_told", "gave", "forwarded", "turn", "_clock", "clock_base", "cooperator")

know_attributes(Recorder(), LATER)


def _is_waited_for(frame: Run, result: object) -> bool:
    """Whether Twisted waits for what a body gave. Its Cooperator asks by `isinstance`, whatever the rest of it does."""
    return isinstance(result, Deferred) if frame.kind == "step" else is_deferred(result)


def _is_value(shown: Any) -> bool:
    """Whether a value of a script, or a member of a list in it, may be what is shown so."""
    if isinstance(shown, dict):
        return is_member(shown)
    return not isinstance(shown, list) or all(map(_is_value, shown))
