"""Runs a script on real Twisted: the script is the program, and the instruments log what Twisted does."""

from __future__ import annotations

import collections
import contextlib
import functools
import sys
import threading
import warnings
from bisect import bisect_left
from collections import deque
from typing import (
    AbstractSet,
    Any,
    Callable,
    Collection,
    Counter,
    Deque,
    Dict,
    Generator,
    Iterator,
    List,
    NoReturn,
    Optional,
    Sequence,
    Tuple,
    Union,
)

from twisted.internet import defer, task, threads
from twisted.internet.defer import Deferred
from twisted.logger import globalLogBeginner
from twisted.python.failure import Failure

from ..ending import OutputFailed
from ..language import LANGUAGE
from . import grammar
from .classes import BUILT_IN, Classes
from .instruments import install, locks, queues
from .instruments.clock import run_due
from .instruments.tasks import Cooperating, know
from .profile import Entry, entries_of_turns
from .rules import holding
from .rules.cooperators import cooperator_class
from .script import Script, Settings, read
from .telling import Action, Line, Observer, Part, Record, Stopped, Thing, Time, lines_of, weight
from .texts import Outcome, Text, compact, weight_of

#: a caller's post, by the numbers of the caller and of the post
Post = Tuple[int, int]
Batches = Sequence[Sequence[Post]]

_Failure: Callable[..., Failure] = Failure

#: the first version in which an `end` of an inline body that fails throws its failure there
ENDS_THROW_SINCE = 3

RECURSION = 40_000
STACK = 512 * 1024 * 1024


class Unmet(Stopped):
    """A Deferred isn't as the script expects: nothing happens any more."""


#: the statuses of a run: all events were performed, it stopped at its limit, or a Deferred wasn't as the script expects
OVER, AT_LIMIT, UNMET = 0, 1, 8


class Run:
    """What a run printed, its status, and where Twisted did in it what an entry of the profile names."""

    def __init__(self, lines: List[str], outcomes: List[str], status: int) -> None:
        self.journal = lines
        self.outcomes = outcomes
        self.status = status
        self.quirks: List[Tuple[int, Entry]] = []
        #: the lines with which events begin, from 0
        self.begins: List[int] = []
        #: how often what happened of which no line tells, by names that python/data/cases.txt has
        self.seen: Counter[str] = collections.Counter()

    @property
    def stopped(self) -> bool:
        """Whether it stopped at the limit of its journal."""
        return self.status == AT_LIMIT

    @property
    def output(self) -> str:
        """The whole text."""
        return "".join(line + "\n" for line in self.journal + self.outcomes)


class Teller(Observer):
    """Tells a run up to the limit of its journal."""

    def __init__(self, limit: int, version: int = LANGUAGE.versions[0]) -> None:
        super().__init__(classes=Classes(version))
        self.room = limit
        self.tell_line = self._tell_line
        self.goes_on_after_errors = True
        self.outcomes: Optional[List[str]] = None
        self._names: List[str] = []

    def _tell_line(self, parts: Sequence[Optional[Part]]) -> None:
        """Tells a line, or stops the run where it doesn't fit."""
        cost = weight(parts)
        if self.outcomes is not None or cost > self.room:
            self.end()
            raise Stopped
        self.room -= cost
        self.parts.extend(parts)

    @property
    def stopped(self) -> bool:
        """Whether the run is over."""
        return self.outcomes is not None

    def end(self) -> None:
        """What each Deferred has now is what its line shows."""
        if self.outcomes is None:
            self.outcomes = [f"#{r.number} {r.name} {r.state()}" for r in self.records]

    @contextlib.contextmanager
    def undoing(self, record: Record) -> Iterator[None]:
        """A Deferred whose value can't be told to be taken keeps it."""
        left, record.outcome = record.outcome, record.before
        yield
        record.outcome = left

    def name_next(self, name: str) -> None:
        """Has the next lock, queue, delayed call, loop or task be known by this name."""
        self._names.append(name)

    def thing(self, kind: str, made_at: Any = None) -> Thing:
        """The object that was named before it is made."""
        return Thing(self._names.pop())


def rendered(line: Line, records: Sequence[Record]) -> str:
    """A line as it is printed, where these Deferreds were made."""
    return "".join(str(records[part].name) if isinstance(part, int) else _part(part) for part in line)


def _part(part: Part) -> str:
    if isinstance(part, Record):
        return f"#{part.number}"
    if isinstance(part, Time):
        return str(int(part.seconds))
    return part.text if isinstance(part, (Text, Outcome)) else str(part)


class Job:
    """The result of a job, and what gets it at a time of the clock."""

    def __init__(self, done: Callable[[bool, object], None], success: bool, result: object) -> None:
        self._done = done
        self._success = success
        self._result = result

    def deliver(self) -> None:
        """Reports its result."""
        self._done(self._success, self._result)


class Pool:
    """A pool of threads as Twisted's `deferToThreadPool` sees it: a job is done where it is submitted, on no thread."""

    def __init__(self) -> None:
        self.jobs: List[Job] = []

    def callInThreadWithCallback(self, done: Callable[[bool, object], None], f: Any) -> None:
        """Runs a job, and keeps its result."""
        try:
            job = Job(done, True, f())
        except Exception:
            job = Job(done, False, _Failure())
        self.jobs.append(job)


class OwnThread:
    """The reactor as Twisted's `deferToThreadPool` sees it, on the thread of all that happens."""

    def callFromThread(self, f: Callable[..., object], *args: object) -> None:
        """Calls at once."""
        f(*args)


#: what has become of a Deferred: `unfired`, `waiting` and the one that it waits for, or what it has
State = Union[Outcome, Sequence[str]]


def _is_met(wanted: Union[Outcome, str], state: State) -> bool:
    """Whether a Deferred of this state is as it is expected to be."""
    if not isinstance(state, Outcome):
        return state[0] == wanted
    # (by what both show: what a waiter has is the lock itself, which is shown as the text of its name)
    return isinstance(wanted, Outcome) and state.text == wanted.text


def _state_of(deferred: Deferred[Any], teller: Teller) -> State:
    """What has become of a Deferred, read off Twisted's own object."""
    if not deferred.called:
        return ("unfired",)
    result: object = getattr(deferred, "result")
    # (while it waits, it has the other one; `_chainedTo` goes on naming that of a paused one which was handed its result)
    if not isinstance(result, Deferred):
        return teller.texts.outcome(result)
    record = teller.record(result)
    # a cancelled inline body is fired with a Deferred of Twisted's own, which no script knows
    return ("unfired",) if record.hidden_of is not None else ("waiting", f"#{record.number}")


class Steps:
    """The iterator of a task: a body a step."""

    def __init__(self, bodies: List[Dict[str, Any]], perform: Callable[..., Any]) -> None:
        self._bodies = iter(bodies)
        self._perform = perform

    def __iter__(self) -> "Steps":
        return self

    def __next__(self) -> Any:
        return self._perform(next(self._bodies), None, None)


class _Leaving:
    """An inline body is left by an `end`, whose result this makes."""

    def __init__(self, result: Callable[[], object]) -> None:
        self.result = result


class _Left(Exception):
    """An `end` in the second statements of a `finally` takes the place of how the first ended, as a `return` there does."""

    def __init__(self, leaving: _Leaving) -> None:
        super().__init__()
        self.leaving = leaving


class _NoneOfItsOwn(Exception):
    """Is handled around an inline body, so that Python finds this, and not what the body's caller handles."""


class _Inline:
    """What the statements of an inline body share."""

    def __init__(self, deferred: Deferred[Any]) -> None:
        self.deferred = deferred
        self.present: object = None
        #: the words `try` and `finally` in whose first statements it is, the innermost last
        self.inside: List[str] = []


#: the answer to an `await`: the exception that is thrown there, if there is one, and the value
_Answer = Tuple[Optional[Exception], Any]

#: statements of an inline body that run: they end past the last one, or leave the body
_Running = Generator[Deferred[Any], _Answer, Optional[_Leaving]]


class Player:
    """Performs a script on real Twisted. `batches` are the posts that each drain takes, and those at the end.

    At the entries of `rules` it does what `deferreds` does, and not what Twisted does.
    """

    def __init__(
        self,
        script: Script,
        batches: Optional[Batches] = None,
        errors_end_advances: bool = False,
        rules: AbstractSet[Entry] = frozenset(),
    ) -> None:
        self.script = script
        self._errors_end_advances = errors_end_advances
        self._rules = rules
        self.teller = Teller(script.limit, script.root["version"])
        for name, parent in script.classes:
            self.teller.classes.declare(name, parent)
        self.clock = task.Clock()
        #: how many steps a tick has of each Cooperator, by its name; None is that of the one that each script has
        self.units: Dict[Optional[str], int] = {}
        self.cooperator = self._cooperator(None, script.cooperator)
        self.cooperators = {name: self._cooperator(name, settings) for name, settings in script.cooperators.items()}
        self.deferreds: Dict[str, Deferred[Any]] = {}
        self.things: Dict[Tuple[str, str], Any] = {}
        self.reactor = OwnThread()
        self.pool = Pool()
        self.pools = {name: Pool() for name in script.pools}
        self.batches: Optional[Iterator[Sequence[Post]]] = None if batches is None else iter(batches)
        self.taken = [0] * len(script.callers)
        self._seen: Counter[str] = collections.Counter()
        #: before which parts of lines events begin
        self._begun: List[int] = []

    def run(self) -> Run:
        """Performs all events, and tells what came of them."""
        status = OVER
        with holding(self._rules), self.teller.watching():
            try:
                for event in self.script.events:
                    self._event(event)
                self._posts(None)
            except Unmet:
                status = UNMET
            except Stopped:
                status = AT_LIMIT
        teller = self.teller
        teller.end()
        lines = list(lines_of(teller.parts))
        journal = [rendered(line, teller.records) for _, line in lines]
        run = Run(journal, teller.outcomes or [], status)
        run.seen = self._seen
        places = [place for place, _ in lines]
        quirks = [(place, entry) for place, entry in teller.quirks if entry not in self._rules]
        run.quirks = [(bisect_left(places, place), entry) for place, entry in quirks]
        run.begins = [bisect_left(places, place) for place in self._begun]
        return run

    def _cooperator(self, name: Optional[str], settings: Settings) -> task.Cooperator:
        """Makes a Cooperator of the script: Twisted's own, but for the entries of `rules` that it can reach."""
        of_turns = entries_of_turns(settings.turns, self.script.root["version"])
        made = cooperator_class(self._rules, of_turns)(
            terminationPredicateFactory=lambda: self._terminator(name),
            scheduler=lambda tick: self.clock.callLater(settings.delay, tick),
        )
        self.units[name] = settings.units
        know(self.teller, Cooperating(made, name, of_turns=of_turns))
        return made

    def _terminator(self, name: Optional[str]) -> Callable[[], bool]:
        left = [self.units[name]]

        def is_over() -> bool:
            left[0] -= 1
            return left[0] <= 0

        return is_over

    # events

    def _event(self, event: List[Any]) -> None:
        self._begun.append(len(self.teller.parts))
        if event[0] == "drain":
            self.teller.tell("drain")
            self._posts(event[1])
        elif event[0] == "expect":
            self._expect(event[1], event[2])
        else:
            self._telling(lambda: self._action(event, None))

    def _expect(self, name: str, expected: List[Any]) -> None:
        """Tells what has become of a Deferred, and ends the run where that isn't what is expected."""
        deferred = self.deferreds.get(name)
        if deferred is None:
            self._end_unmet("unbound ", Text(compact(name), weight_of(name)))
        state = _state_of(deferred, self.teller)
        shown: Part = state if isinstance(state, Outcome) else " ".join(state)
        record = self.teller.record(deferred)
        wanted = self._wanted(expected)
        if not _is_met(wanted, state):
            self._end_unmet("unmet ", record, " ", shown, " expected ", wanted)
        self.teller.tell("expect ", record, " ", shown)

    def _end_unmet(self, *parts: Part) -> NoReturn:
        """Tells what isn't as the script expects, and ends the run."""
        self.teller.tell(*parts)
        self.teller.end()
        raise Unmet

    def _wanted(self, expected: List[Any]) -> Union[Outcome, str]:
        """What a script expects, as a line shows it."""
        if expected[0] not in ("ok", "fail"):
            return str(expected[0])
        return self.teller.texts.outcome(self._value(expected[1]) if expected[0] == "ok" else self._failure(expected[1]))

    def _telling(self, happen: Callable[[], object]) -> None:
        """What fails here is logged, and the run goes on."""
        self.teller.begin_event()
        try:
            happen()
        except Stopped:
            raise
        except BaseException as failure:
            self._go_on()
            if isinstance(failure, RecursionError):
                self.teller.quirk(Entry.PYTHON_STACK)
            self.teller.tell_unhandled(failure)

    def _go_on(self) -> None:
        """Where Twisted has swallowed the end of the run, it is over all the same."""
        if self.teller.stopped:
            raise Stopped

    def _posts(self, most: Optional[int]) -> None:
        """Performs the posts of a drain, or those that are left."""
        batch: Sequence[Post] = ()
        if self.batches is None:
            batch = self._batch(most)
        else:
            batch = next(self.batches, batch)
        for caller, index in batch:
            self._go_on()
            self.teller.tell(f"post {caller} {index}")
            body = self.script.callers[caller][index]
            self._telling(lambda: self.teller.perform(None, "post", None, self._body, (body,)))

    def _batch(self, most: Optional[int]) -> List[Post]:
        """As many posts as may be taken, caller by caller in turn."""
        batch: List[Post] = []
        left = sum(map(len, self.script.callers)) - sum(self.taken)
        while left and (most is None or len(batch) < most):
            for caller, posts in enumerate(self.script.callers):
                if self.taken[caller] < len(posts) and (most is None or len(batch) < most):
                    batch.append((caller, self.taken[caller]))
                    self.taken[caller] += 1
                    left -= 1
        return batch

    # bodies

    def _body(
        self,
        body: grammar.Body,
        given: object = None,
        here: Optional[Deferred[Any]] = None,
    ) -> Any:
        """Performs a body on what it is given."""
        if isinstance(body, str):
            return self._run_body(body, given, here)
        with self._counting("body raises"):
            for action in body.get("do", ()):
                self._action(action, here)
        return self._end(body.get("end", ("pass",)), given, here)

    @contextlib.contextmanager
    def _counting(self, failure: str) -> Iterator[None]:
        """Counts a failure that is raised here, by this name."""
        try:
            yield
        except Exception:
            self._seen[failure] += 1
            raise

    def _end(self, end: Sequence[Any], given: object, here: Optional[Deferred[Any]]) -> Any:
        word = end[0]
        if word == "return":
            return self._value(end[1])
        if word == "pass":
            return given
        if word == "plus":
            return self._plus(given, end[1])
        if word == "raise":
            raise self.teller.classes.make(end[1], end[2])
        if word == "trap":
            return self._trap(given, end[1], self._value(end[2]))
        if word == "throw":
            return self._throw(given, end[1])
        if word == "run":
            return self._run_body(end[1], given, here)
        return self._deferred(end[1], here)

    def _run_body(self, name: str, given: object, here: Optional[Deferred[Any]]) -> Any:
        """Runs a body that the script declares."""
        self.teller.tell(f"body {name}")
        return self._body(self.script.bodies[name], given, here)

    def _value(self, value: Any) -> Any:
        """A value of the script: what is a failure in a list of it is a Failure."""
        if isinstance(value, list):
            return [self._value(item) for item in value]
        return self._failure(value) if isinstance(value, dict) else value

    def _failure(self, shown: Dict[str, Any]) -> Failure:
        """The Failure that a script shows so."""
        if "sub" in shown:
            return _Failure(defer.FirstError(self._failure(shown["sub"]), shown["index"]))
        return _Failure(self.teller.classes.make(shown["fail"], shown["message"]))

    def _plus(self, given: object, number: int) -> int:
        if type(given) is not int:
            raise self.teller.classes.make("TypeError", "plus")
        if given + number not in grammar.NUMBERS[grammar.Kind.INTEGER]:
            raise self.teller.classes.make("OverflowError", "plus")
        return given + number

    def _trap(self, given: object, classes: List[str], value: object) -> object:
        if not isinstance(given, Failure):
            raise self.teller.classes.make("TypeError", "trap")
        self._seen["trap left"] += not classes
        if not classes:
            return given
        trap: Callable[..., object] = given.trap
        with self._counting("trap left"):
            trap(*[self.teller.classes.get(name) for name in classes])
        self._seen["trap taken"] += 1
        return value

    def _throw(self, given: object, path: List[int]) -> object:
        """Raises the failure at a path, each of whose numbers is a place in a list."""
        found = given
        for place in path:
            found = found[place] if isinstance(found, (list, tuple)) and place < len(found) else None
        if not isinstance(found, Failure):
            raise self.teller.classes.make("TypeError", "throw")
        self._seen["throw found"] += 1
        raises: Callable[[], object] = found.raiseException
        return raises()

    def _side(self, body: Dict[str, Any], here: Deferred[Any]) -> Callable[[object], Any]:
        return lambda given: self._body(body, given, here)

    # names

    def _deferred(self, name: str, here: Optional[Deferred[Any]]) -> Deferred[Any]:
        found = here if name == "@" else self.deferreds.get(name)
        if found is None:
            raise self.teller.classes.make("NameError", name)
        return found

    def _thing(self, kind: str, name: str) -> Any:
        found = self.things.get((kind, name))
        if found is None:
            raise self.teller.classes.make("NameError", name)
        return found

    def _naming(self, name: str) -> None:
        """The next Deferred that is made has this name."""

        def bind(deferred: Deferred[Any], record: Record) -> None:
            self.deferreds[name] = deferred

        self.teller.expect_name(name, bind)

    def _making(self, kind: str, name: str, made: Any) -> Any:
        """Binds a name to an object that is made."""
        self.things[kind, name] = made
        return made

    # actions

    def _action(self, action: List[Any], here: Optional[Deferred[Any]]) -> None:
        self._go_on()
        self._seen[f"action {action[0]}"] += 1
        if action[0] in _ON_DEFERREDS:
            deferreds = [self._deferred(name, here) for name in _deferreds_of(action)]
            _ON_DEFERREDS[action[0]](self, action, *deferreds)
        else:
            _OTHERS[action[0]](self, action, here)
        self._go_on()

    def _make_deferred(self, action: List[Any], here: Optional[Deferred[Any]]) -> None:
        self._naming(action[1])
        if len(action) == 2:
            Deferred()
            return

        def canceller(deferred: Deferred[Any]) -> None:
            self._seen["canceller"] += 1
            with self._counting("canceller fails"):
                self._body(action[2], None, deferred)

        Deferred(canceller)

    def _callback(self, action: List[Any], deferred: Deferred[Any]) -> None:
        deferred.callback(self._value(action[2]))

    def _errback(self, action: List[Any], deferred: Deferred[Any]) -> None:
        deferred.errback(_Failure(self.teller.classes.make(action[2], action[3])))

    def _add_callback(self, action: List[Any], deferred: Deferred[Any]) -> None:
        deferred.addCallback(self._side(action[2], deferred))

    def _add_errback(self, action: List[Any], deferred: Deferred[Any]) -> None:
        deferred.addErrback(self._side(action[2], deferred))

    def _add_both(self, action: List[Any], deferred: Deferred[Any]) -> None:
        deferred.addBoth(self._side(action[2], deferred))

    def _add_callbacks(self, action: List[Any], deferred: Deferred[Any]) -> None:
        deferred.addCallbacks(
            self._side(action[2], deferred), self._side(action[3], deferred)
        )

    def _chain(self, action: List[Any], first: Deferred[Any], second: Deferred[Any]) -> None:
        first.chainDeferred(second)

    def _pause(self, action: List[Any], deferred: Deferred[Any]) -> None:
        deferred.pause()

    def _unpause(self, action: List[Any], deferred: Deferred[Any]) -> None:
        deferred.unpause()

    def _cancel(self, action: List[Any], deferred: Deferred[Any]) -> None:
        deferred.cancel()

    def _add_timeout(self, action: List[Any], deferred: Deferred[Any]) -> None:
        clock: Any = self.clock
        if len(action) == 3:
            deferred.addTimeout(action[2], clock)
            return
        handle = self._side(action[3], deferred)

        def handled(result: object, timeout: object) -> Any:
            self._seen["time-out handled"] += 1
            return handle(result)

        deferred.addTimeout(action[2], clock, handled)

    def _list(self, action: List[Any], *children: Deferred[Any]) -> None:
        self._naming(action[1])
        make: Callable[..., Any] = defer.DeferredList
        make(children, **{flag: True for flag in action[3]})

    def _gather(self, action: List[Any], *children: Deferred[Any]) -> None:
        self._naming(action[1])
        defer.gatherResults(children, **{flag: True for flag in action[3]})

    def _note(self, action: List[Any], here: Optional[Deferred[Any]]) -> None:
        text = action[1]
        self.teller.tell("note ", Text(compact(text), weight_of(text)))

    def _maybe(self, action: List[Any], here: Optional[Deferred[Any]]) -> None:
        self._naming(action[1])
        defer.maybeDeferred(self._body, action[2])

    def _lock(self, action: List[Any], here: Optional[Deferred[Any]]) -> None:
        self.teller.name_next(action[1])
        locks.thing_of(self.teller, self._making("lock", action[1], defer.DeferredLock()))

    def _semaphore(self, action: List[Any], here: Optional[Deferred[Any]]) -> None:
        self.teller.name_next(action[1])
        made = self._making("lock", action[1], defer.DeferredSemaphore(action[2]))
        locks.thing_of(self.teller, made)

    def _acquire(self, action: List[Any], here: Optional[Deferred[Any]]) -> None:
        lock = self._thing("lock", action[2])
        self._naming(action[1])
        lock.acquire()

    def _release(self, action: List[Any], here: Optional[Deferred[Any]]) -> None:
        self._thing("lock", action[1]).release()

    def _run_with(self, action: List[Any], here: Optional[Deferred[Any]]) -> None:
        lock = self._thing("lock", action[2])
        self._naming(action[1])
        lock.run(self._body, action[3])

    def _queue(self, action: List[Any], here: Optional[Deferred[Any]]) -> None:
        self.teller.name_next(action[1])
        made = self._making("queue", action[1], defer.DeferredQueue(action[2], action[3]))
        queues.thing_of(self.teller, made)

    def _put(self, action: List[Any], here: Optional[Deferred[Any]]) -> None:
        self._thing("queue", action[1]).put(self._value(action[2]))

    def _get(self, action: List[Any], here: Optional[Deferred[Any]]) -> None:
        queue = self._thing("queue", action[2])
        self._naming(action[1])
        queue.get()

    def _later(self, action: List[Any], here: Optional[Deferred[Any]]) -> None:
        self.teller.name_next(action[1])
        made = self.clock.callLater(action[2], self._body, action[3])
        self._making("call", action[1], made)

    def _cancel_call(self, action: List[Any], here: Optional[Deferred[Any]]) -> None:
        self._thing("call", action[1]).cancel()

    def _reset_call(self, action: List[Any], here: Optional[Deferred[Any]]) -> None:
        self._thing("call", action[1]).reset(action[2])

    def _delay_call(self, action: List[Any], here: Optional[Deferred[Any]]) -> None:
        self._thing("call", action[1]).delay(action[2])

    def _advance(self, action: List[Any], here: Optional[Deferred[Any]]) -> None:
        """Time goes on. As a reactor does, this goes on after an error that leaves a delayed call, unless that is to end it."""
        advance: Callable[[], object] = lambda: self.clock.advance(action[1])
        while True:
            try:
                advance()
                return
            except Stopped:
                raise
            except BaseException as failure:
                self._go_on()
                self.teller.tell_unhandled(failure)
                if self._errors_end_advances:
                    return
            advance = lambda: self.teller.act(Action(), run_due, self.clock)

    def _loop(self, action: List[Any], here: Optional[Deferred[Any]]) -> None:
        _, name, deferred, interval, now, body = action
        loop = task.LoopingCall(self._turn, deque(body if isinstance(body, list) else [body]))
        setattr(loop, "clock", self.clock)
        self.teller.name_next(name)
        self._naming(deferred)
        self._making("loop", name, loop)
        loop.start(interval, now)

    def _turn(self, bodies: Deque[grammar.Body]) -> Any:
        """A turn of a loop, whose next one has the next body. The last one stays."""
        return self._body(bodies.popleft() if len(bodies) > 1 else bodies[0])

    def _stop_loop(self, action: List[Any], here: Optional[Deferred[Any]]) -> None:
        self._thing("loop", action[1]).stop()

    def _set_units(self, action: List[Any], here: Optional[Deferred[Any]]) -> None:
        """Each tick has so many steps from the next one on."""
        self.teller.tell(f"units {action[1]}")
        self.units[None] = action[1]

    def _set_units_in(self, action: List[Any], here: Optional[Deferred[Any]]) -> None:
        """The same of a Cooperator that the script names."""
        self.teller.tell(f"unitsin {action[1]} {action[2]}")
        self.units[action[1]] = action[2]

    def _cooperate_in(self, action: List[Any], here: Optional[Deferred[Any]]) -> None:
        self.teller.name_next(action[1])
        made = self.cooperators[action[2]].cooperate(Steps(action[3], self._body))
        self._making("task", action[1], made)

    def _stop_cooperator(self, action: List[Any], here: Optional[Deferred[Any]]) -> None:
        self.cooperators[action[1]].stop()

    def _cooperate(self, action: List[Any], here: Optional[Deferred[Any]]) -> None:
        self.teller.name_next(action[1])
        made = self.cooperator.cooperate(Steps(action[2], self._body))
        self._making("task", action[1], made)

    def _when_done(self, action: List[Any], here: Optional[Deferred[Any]]) -> None:
        made = self._thing("task", action[2])
        self._naming(action[1])
        made.whenDone()

    def _pause_task(self, action: List[Any], here: Optional[Deferred[Any]]) -> None:
        self._thing("task", action[1]).pause()

    def _resume_task(self, action: List[Any], here: Optional[Deferred[Any]]) -> None:
        self._thing("task", action[1]).resume()

    def _stop_task(self, action: List[Any], here: Optional[Deferred[Any]]) -> None:
        self._thing("task", action[1]).stop()

    # inline bodies

    def _inline(self, action: List[Any], here: Optional[Deferred[Any]]) -> None:
        name, statements = action[1], action[2]
        mine: List[Deferred[Any]] = []

        def bind(deferred: Deferred[Any], record: Record) -> None:
            self.deferreds[name] = deferred
            mine.append(deferred)

        self.teller.expect_name(name, bind)
        defer.inlineCallbacks(self._inline_body)(statements, mine)

    def _inline_body(
        self, statements: List[Any], mine: List[Deferred[Any]]
    ) -> Generator[Deferred[Any], Any, Any]:
        """The generator of an inline body, in which what its caller handles isn't active.

        The generators in it are never thrown at: what those around one handle isn't active in it then, until Python goes on in them.
        """
        self._seen["inline"] += 1
        running = self._statements(statements, _Inline(mine[0]))
        answer: Optional[_Answer] = None
        leaving: Optional[_Leaving] = None
        try:
            raise _NoneOfItsOwn
        except _NoneOfItsOwn:
            while True:
                try:
                    awaited = next(running) if answer is None else running.send(answer)
                except StopIteration as over:
                    leaving = over.value
                    break
                try:
                    answer = (None, (yield awaited))
                except Exception as error:
                    answer = (error, None)
        return None if leaving is None else leaving.result()

    def _statements(self, statements: List[Any], body: _Inline) -> _Running:
        for statement in statements:
            word = statement[0]
            leaving: Optional[_Leaving] = None
            if word == "do":
                self._seen["statement do"] += 1
                with self._counting("do raises"):
                    self._action(statement[1], body.deferred)
            elif word == "await":
                yield from self._await(statement[1], body)
            elif word == "try":
                leaving = yield from self._try(statement, body)
            elif word == "finally":
                leaving = yield from self._finally(statement, body)
            elif word == "raise":
                self._need_active(word)
                raise
            elif word == "caught":
                self._need_active(word)
                body.present = [_Failure(sys.exc_info()[1])]
            else:
                leaving = self._leaving(statement[1], body)
            if leaving is not None:
                return leaving
        return None

    def _await(self, name: str, body: _Inline) -> Generator[Deferred[Any], _Answer, None]:
        with self._counting("await unbound"):
            awaited = self._deferred(name, body.deferred)
        error, value = yield awaited
        self._go_on()
        if error is not None:
            raise error
        body.present = value

    def _leaving(self, end: List[Any], body: _Inline) -> _Leaving:
        """Leaves a body by an `end`, which fails here; up to version 2 it fails when the body has been left, outside of every `try`."""
        make = functools.partial(self._end, end, body.present, body.deferred)
        inside = frozenset(body.inside)
        if self.script.root["version"] < ENDS_THROW_SINCE:
            return _Leaving(lambda: self._made(make, "end fails past a", inside))
        result = self._made(make, "end fails in a", inside)
        return _Leaving(lambda: result)

    def _made(self, make: Callable[[], object], failure: str, inside: Collection[str]) -> object:
        """What an `end` returns. A failure is counted, for each word in whose first statements it stands."""
        try:
            return make()
        except Exception:
            self._seen.update(f"{failure} {word}" for word in inside)
            raise

    def _need_active(self, word: str) -> None:
        """Raises RuntimeError where the body handles no exception. Python would take one that a caller handles."""
        is_active = not isinstance(sys.exc_info()[1], _NoneOfItsOwn)
        self._seen[f"{word} {'active' if is_active else 'none'}"] += 1
        if not is_active:
            raise self.teller.classes.make("RuntimeError", "no active exception")

    def _first(self, statement: List[Any], body: _Inline) -> _Running:
        """The first statements of a `try` or a `finally`."""
        body.inside.append(statement[0])
        try:
            return (yield from self._statements(statement[1], body))
        finally:
            body.inside.pop()

    def _second(self, statements: List[Any], body: _Inline) -> _Running:
        """The second statements of a `try` or a `finally`, which begin on null."""
        self._go_on()
        body.present = None
        return (yield from self._statements(statements, body))

    def _try(self, statement: List[Any], body: _Inline) -> _Running:
        classes = tuple(self.teller.classes.named(name) for name in statement[2])
        try:
            return (yield from self._first(statement, body))
        except classes:
            self._seen["try caught"] += 1
            return (yield from self._second(statement[3], body))
        except Exception:
            self._seen["try passed"] += 1
            raise

    def _finally(self, statement: List[Any], body: _Inline) -> _Running:
        try:
            return (yield from self._in_finally(statement, body))
        except _Left as left:
            self._seen["finally replaced"] += 1
            return left.leaving

    def _in_finally(self, statement: List[Any], body: _Inline) -> _Running:
        how = "thrown"
        try:
            leaving = yield from self._first(statement, body)
            how = "ended" if leaving is None else "left"
            return leaving
        finally:
            # the second statements run in no generator that is closed, and in no run that has stopped
            if how != "thrown" or isinstance(sys.exc_info()[1], Exception):
                self._seen[f"finally {how}"] += 1
                present = body.present
                with self._counting("finally fails"):
                    instead = yield from self._second(statement[2], body)
                if instead is not None:
                    raise _Left(instead)
                body.present = present

    # threads

    def _thread(self, action: List[Any], here: Optional[Deferred[Any]]) -> None:
        _, name, delay, work = action
        self._submit(name, self.pool, delay, work)

    def _thread_in(self, action: List[Any], here: Optional[Deferred[Any]]) -> None:
        _, name, pool, delay, work = action
        self._submit(name, self.pools[pool], delay, work)

    def _submit(self, name: str, pool: Pool, delay: int, work: List[Any]) -> None:
        """Submits a job to a pool. Jobs of all pools are numbered in one row."""
        number = sum(len(each.jobs) for each in (self.pool, *self.pools.values()))
        if number == grammar.MOST_JOBS:
            raise self.teller.classes.make("RuntimeError", "too many jobs")

        def made(deferred: Deferred[Any], record: Record) -> None:
            self.deferreds[name] = deferred
            self.teller.tell(f"job {number} ", record)

        self.teller.expect_name(name, made)
        submit: Callable[..., Any] = threads.deferToThreadPool
        self.teller.act(Action(), submit, self.reactor, pool, lambda: self._work(work))
        self._deliver_later(number, delay, pool.jobs[-1])

    def _deliver_later(self, number: int, delay: int, job: Job) -> None:
        self.teller.tell(f"later job {number} ", Time(self.clock.seconds() + delay))

        def deliver() -> None:
            self.teller.tell(f"deliver {number}")
            self._telling(job.deliver)

        self.teller.act(Action(), self.clock.callLater, delay, deliver)

    def _work(self, work: List[Any]) -> Any:
        word = work[0]
        if word == "value":
            return self._value(work[1])
        if word == "raise":
            raise self.teller.classes.make(work[1], work[2])
        return work[1] * (work[1] + 1) // 2


def _deferreds_of(action: List[Any]) -> List[str]:
    """The names of the Deferreds that an action looks up before anything else, in order."""
    word = action[0]
    if word in ("list", "gather"):
        return list(action[2])
    return list(action[1:3]) if word == "chain" else [action[1]]


#: actions on Deferreds that exist
_ON_DEFERREDS: Dict[str, Callable[..., None]] = {
    "callback": Player._callback,
    "errback": Player._errback,
    "addCallback": Player._add_callback,
    "addErrback": Player._add_errback,
    "addBoth": Player._add_both,
    "addCallbacks": Player._add_callbacks,
    "chain": Player._chain,
    "pause": Player._pause,
    "unpause": Player._unpause,
    "cancel": Player._cancel,
    "addTimeout": Player._add_timeout,
    "list": Player._list,
    "gather": Player._gather,
}

#: the other actions, and the event `advance`
_OTHERS: Dict[str, Callable[[Player, List[Any], Optional[Deferred[Any]]], None]] = {
    "deferred": Player._make_deferred,
    "note": Player._note,
    "maybe": Player._maybe,
    "lock": Player._lock,
    "semaphore": Player._semaphore,
    "acquire": Player._acquire,
    "release": Player._release,
    "runWith": Player._run_with,
    "queue": Player._queue,
    "put": Player._put,
    "get": Player._get,
    "later": Player._later,
    "cancelCall": Player._cancel_call,
    "resetCall": Player._reset_call,
    "delayCall": Player._delay_call,
    "advance": Player._advance,
    "loop": Player._loop,
    "stopLoop": Player._stop_loop,
    "units": Player._set_units,
    "unitsIn": Player._set_units_in,
    "cooperate": Player._cooperate,
    "cooperateIn": Player._cooperate_in,
    "stopCooperator": Player._stop_cooperator,
    "whenDone": Player._when_done,
    "pauseTask": Player._pause_task,
    "resumeTask": Player._resume_task,
    "stopTask": Player._stop_task,
    "inline": Player._inline,
    "thread": Player._thread,
    "threadIn": Player._thread_in,
}


def run(
    data: bytes,
    batches: Optional[Batches] = None,
    errors_end_advances: bool = False,
    rules: AbstractSet[Entry] = frozenset(),
) -> Run:
    """Reads a script, and runs it on real Twisted. An error of a delayed call ends an advance, as with Twisted's Clock, only if that is
    asked for. At the entries of `rules` the run is that of `deferreds`."""
    script = read(data, list(BUILT_IN))
    install()
    return Player(script, batches, errors_end_advances, rules).run()


def be_quiet() -> None:
    """Has Twisted log and warn of nothing, since what happens is in the journal."""
    warnings.simplefilter("ignore")
    globalLogBeginner.beginLoggingTo([], redirectStandardIO=False, discardBuffer=True)
    sys.unraisablehook = _tell_unraisable


def _tell_unraisable(unraisable: Any) -> None:
    """Tells what a destructor has failed with, but for one that couldn't log since Python's stack was full."""
    if unraisable.exc_type is not RecursionError:
        sys.__unraisablehook__(unraisable)


def with_room(call: Callable[[], int]) -> int:
    """Calls on a stack on which long rows of nested firings have room."""
    result: List[int] = []
    raised: List[BaseException] = []

    def perform() -> None:
        try:
            result.append(call())
        except (BrokenPipeError, OutputFailed, SystemExit) as error:
            raised.append(error)

    before = sys.getrecursionlimit()
    sys.setrecursionlimit(RECURSION)
    threading.stack_size(STACK)
    try:
        thread = threading.Thread(target=perform)
        thread.start()
        thread.join()
    finally:
        threading.stack_size(0)
        sys.setrecursionlimit(before)
    if raised:
        raise raised[0]
    return result[0] if result else 70
