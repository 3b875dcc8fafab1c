"""Who watches Twisted, and tells what happens as lines of a journal.

The instruments (`deferreds.twisted.instruments`) change Twisted's classes so that each thing that happens is reported to the
observer that is on, and is done by Twisted's own code. Where no observer is on they change nothing.

A call from the program into Twisted is an *action*. What the program is called back for is a *body*. While Twisted's own
code runs an action the observer is `quiet`: lines are logged, and what Twisted calls is no action of the program's. What
a finalizer of the program's calls meanwhile is one all the same, so whether the observer is quiet is asked where it matters.
"""

from __future__ import annotations

import contextlib
import threading
import weakref
from fractions import Fraction
from sys import getrecursionlimit, setrecursionlimit
from threading import get_ident
from types import CodeType
from typing import (
    Any,
    Callable,
    Dict,
    Iterable,
    Iterator,
    List,
    Mapping,
    NamedTuple,
    Optional,
    Sequence,
    Set,
    Tuple,
    TypeVar,
    Union,
)

from twisted.internet import defer
from twisted.internet.defer import Deferred

from .classes import Classes
from .profile import Entry
from .texts import NULL, Outcome, Text, Texts

#: the kinds of objects that the language has, each of which can be told as such or as the Python that it is made of
KINDS = frozenset(
    {"maybe", "list", "lock", "queue", "clock", "timer", "loop", "cooperator", "inline", "thread"}
)


class _Twisted(threading.local):
    """Twisted, as it is watched in a thread."""

    #: the observer that is on, if any
    observer: Optional["Observer"] = None
    #: whether one is at rest: what is scheduled now is none of the program's, and is watched by nobody when it runs
    is_resting = False


watched = _Twisted()


#: the observers that are on, in any thread
observers_on: List["Observer"] = []


def count_elsewhere() -> None:
    """Counts a Deferred that is made where no observer is on, for those that are on in other threads."""
    if not observers_on:
        return
    for observer in observers_on:
        if observer.thread != get_ident():
            observer.elsewhere += 1


def refuse_elsewhere(deferred: Any) -> None:
    """A Deferred is used where no observer is on: one that is recorded must not be used in another thread."""
    if not observers_on:
        return
    known: Optional[Tuple[Union[Observer, Settled], Record]] = deferred._dv_record
    if known is None:
        return
    lineage = (known[0].observer if isinstance(known[0], Settled) else known[0]).lineage
    for observer in observers_on:
        if observer.lineage is lineage and observer.thread != get_ident():
            observer.problem("a Deferred of the program is used in another thread")


def observer_of(kind: str) -> Optional["Observer"]:
    """The observer that is on, if it tells objects of this kind as such."""
    if not observers_on:
        return None
    watcher = watched.observer
    return watcher if watcher is not None and kind in watcher.kinds else None


#: the classes whose objects Twisted waits for, where it keeps a list of them
_waited_for: Optional[List[type]] = getattr(defer, "_DEFERRED_SUBCLASSES", None)


def is_deferred(value: object) -> bool:
    """Whether Twisted takes it for a Deferred. (`isinstance` takes long, since Twisted's class is an abstract one.)"""
    return Deferred in type(value).__mro__ if _waited_for is None else type(value) in _waited_for


def is_dead_reference(value: object) -> bool:
    """Whether it is a weak reference to what is gone, which callbacks of such references are given."""
    return type(value) is weakref.ReferenceType and value() is None


_Function = TypeVar("_Function", bound=Callable[..., Any])

#: the code objects, by their ids, of the functions between which and what they call an observer may be quiet
switches: Set[int] = set()
#: those around which nobody has to look who calls: the switches, and the functions that run once that was asked
looked_round: Set[int] = set()
#: their names, by which others are left out sooner
looked_round_names: Set[str] = set()


def switching(function: _Function) -> _Function:
    """The function, which sets whether Twisted's own code acts."""
    switches.add(id(getattr(function, "__code__")))
    return looked(function)


def looked(function: _Function) -> _Function:
    """The function, which runs only where it was asked before who calls."""
    code: CodeType = getattr(function, "__code__")
    looked_round.add(id(code))
    looked_round_names.add(code.co_name)
    return function


def know_attributes(first: object, names: Iterable[str]) -> None:
    """Has Python know which attributes objects of a class may have later, beside those that each has from the beginning.

    It finds them soonest where the first object of the class has all, and where they are 29 at most: with one more, each object that
    has the last of them gets a dictionary of its own, in which all are found later.
    """
    for name in names:
        setattr(first, name, getattr(first, name))


class Stopped(BaseException):
    """The journal's limit is reached: nothing happens any more."""


class Record:
    """What is known of a Deferred. It doesn't keep that alive."""

    # what is read often is set when it is made, and is found sooner then

    name: Optional[str] = None
    number: Optional[int] = None
    #: where in the program it was made, by which it is named
    made_at: Optional[Tuple[Any, ...]] = None
    fired = False
    waits_for: Optional["Record"] = None
    #: whether a side of its own has run whose result isn't in place yet, and what that is, where it is known
    ran = False
    same: Optional[Outcome] = None
    pauses = 0
    #: the body of the side that ran last
    side: Any = None
    kind = ""
    #: of a list: what its children came with, by their places
    came: Optional[Dict[int, Outcome]] = None
    #: of an inline body: its frame
    body: Optional["Frame"] = None
    alias: Optional["Record"] = None
    helper = False
    #: its number in the notes of the run, if these are written
    noted_as = -1

    def __init__(self, made_in: Optional["Frame"] = None) -> None:
        self.made_in = made_in
        self.outcome = NULL
        #: what it had before that was taken
        self.before = NULL
        #: of a Deferred that Twisted makes for a cancelled inline body: the one that the program knows
        self.hidden_of: Optional[Record] = None

    def child_came(self, place: int, outcome: Outcome) -> None:
        """The child of a list that has this place came with this."""
        if self.came is None:
            self.came = {}
        self.came[place] = outcome

    def state(self) -> str:
        """How it is, as its line shows it."""
        waits_for = self.waits_for
        if not self.fired or (waits_for is not None and waits_for.hidden_of is not None):
            state = "unfired"
        elif waits_for is not None:
            state = f"waiting #{waits_for.number}"
        else:
            state = self.outcome.text
        return f"paused {state}" if self.pauses > 0 else state


know_attributes(
    Record(),
    ("name", "number", "made_at", "fired", "waits_for", "ran", "same")
    + ("pauses", "side", "kind", "came", "body", "alias", "helper", "noted_as"),
)


class Thing:
    """A lock, queue, delayed call, loop or task, by the name that its lines show."""

    alias: Optional["Thing"] = None
    #: whether a script declares it, so that no action binds its name anew
    declared = False
    #: where it is noted what the object does by itself, if that is noted: a loop, a Cooperator, or a task of one
    inner: Any = None
    #: its number in the notes of the run, if these are written
    noted_as = -1

    def __init__(self, name: str, find_name: Optional[Callable[[], None]] = None) -> None:
        """`find_name` sets the name where that isn't known yet, and is called where it is asked for."""
        self.own_name = name
        self.find_name = find_name

    @property
    def name(self) -> str:
        """The name, which is another's where that was found to be the same."""
        if self.alias is not None:
            return self.alias.name
        if self.find_name is not None:
            self.find_name()
        return self.own_name

    def __str__(self) -> str:
        return self.name


class Pool(NamedTuple):
    """A pool of threads that has a name: at most so many of them do its jobs."""

    threads: "weakref.ReferenceType[Any]"
    thing: Thing
    workers: int


class Time:
    """A part of a line: a time of the clock, in the program's seconds."""

    __slots__ = ("seconds",)

    def __init__(self, seconds: Union[float, Fraction]) -> None:
        self.seconds = seconds


class Action(List[Any]):
    """An action of the program: a word of the language, and what it was given.

    Among the parts of lines it is a whole line: that its helper is made, which is logged only for an action that has one.
    """

    #: the failure that it raised, as a line shows it, and whether its body went on after that
    raised: Optional[str] = None
    caught = False
    #: the Deferred of the inline body in which such a one is logged
    helper: Optional[Record] = None
    #: where an object does something by itself: after how many parts of lines it did what, and where this is noted of the object
    inner: Optional[List[Tuple[int, Any]]] = None
    inner_of: Any = None
    #: the END that raises the failure which such an action raised
    raises: Any = None
    #: before which part of lines it begins, where it isn't among these itself
    at: Optional[int] = None
    #: of what an inline body awaits: how many events had begun when that came
    came: Optional[int] = None
    #: its number in the notes of the run, if these are written
    noted_as = -1


class Advance(Action):
    """The action by which time goes on to what the reactor runs, or to what comes from elsewhere.

    Among the parts of lines it is a whole line. Whether it is logged, and with what times, is known when the run is over.
    """

    def __init__(self) -> None:
        self.to = Time(0)
        self.by = Time(0)
        self.is_told = False
        super().__init__(["advance", self.by])


class Failed:
    """Among the parts of lines, a whole line: that the helper of an action is fired, if it has one."""

    def __init__(self, action: Action) -> None:
        self.action = action


class Ended:
    """Among the parts of lines, two whole lines: that the helper of an action is made and fired, if it has one."""

    helper: Optional[Record] = None

    def __init__(self, action: Action) -> None:
        self.action = action


class Begun:
    """What the program hands to Twisted to be called back. Among the parts of lines, a whole line: that it runs, if it has a name."""

    #: the name by which the script declares it, and the one that an earlier run of the body around it has in its place
    name: Optional[str] = None
    alias: Optional["Begun"] = None


#: a number is the name of the Deferred that was made as the one of this number
Part = Union[str, int, Record, Thing, Time, Text, Outcome, Action, Failed, Ended, Begun]
Line = Tuple[Part, ...]


def lines_of(parts: Iterable[Optional[Part]]) -> Iterator[Tuple[int, Line]]:
    """Each line of these parts, and the place of its first one, where no line is that of a helper."""
    line: List[Part] = []
    for place, part in enumerate(parts):
        if part is not None:
            line.append(part)
        else:
            yield place - len(line), tuple(line)
            line = []


def weight(line: Iterable[Optional[Part]]) -> int:
    """What a line weighs."""
    return 1 + sum(part.weight for part in line if isinstance(part, (Text, Outcome)))


class Frame:
    """A run of a body: `kind` is the kind of body, or `event` for the program itself."""

    #: how it ended, if that is noted, and for an inline body whether its end was logged
    end: Any = None
    has_fired = False
    #: of an inline body: its Deferred, and whether it awaits another
    record: Optional[Record] = None
    awaits = False
    #: the run in which it was begun, or gone on with
    outer: Optional["Frame"] = None
    #: what it awaited last had
    present: Optional[Outcome] = None
    #: whether a Deferred that is made now has no name
    anonymous = False
    #: what the side that runs was given, where that is Twisted's own
    passing: Optional[Tuple[object, Outcome]] = None
    #: what is expected of the next Deferreds that are made, the next one last
    expected: Tuple["Expected", ...] = ()

    def __init__(self, kind: str) -> None:
        self.kind = kind


class Expected:
    """What is to be done with the next Deferred that is made: it gets this name, and `made` is called with it."""

    def __init__(
        self,
        name: Optional[str] = None,
        made: Optional[Callable[[Deferred[Any], Record], None]] = None,
    ) -> None:
        self.name = name
        self.made = made


class Watching:
    """Has Twisted be watched by an observer while this is entered, once. (It is no generator, since each test enters some.)"""

    def __init__(self, observer: "Observer") -> None:
        self._observer = observer
        #: how many frames there could be on Python's stack, where the observer was on nowhere
        self._limit = 0

    def __enter__(self) -> "Observer":
        observer = self._observer
        in_thread = watched.__dict__
        self._before, in_thread["observer"] = in_thread.get("observer"), observer
        if not observer.is_on:
            observer.is_on, observer.thread, observer.in_thread = True, get_ident(), in_thread
            observers_on.append(observer)
            self._limit = limit = getrecursionlimit()
            setrecursionlimit(limit * observer.stack_room)
        return observer

    def __exit__(self, *error: object) -> None:
        watched.observer = self._before
        limit = self._limit
        observer = self._observer
        if not limit or on_elsewhere(observer.lineage) is not None:
            return
        if observer.is_on and observers_on[-1] is observer:
            del observers_on[-1]
            observer.is_on = False
        else:
            take_off(observer.lineage)
        if getrecursionlimit() == limit * observer.stack_room:
            setrecursionlimit(limit)


def take_off(lineage: object) -> None:
    """Has the observer that has taken over from another, or has moved to another thread, be on no more."""
    for observer in [observer for observer in observers_on if observer.lineage is lineage]:
        observers_on.remove(observer)
        observer.is_on = False
        if observer.in_thread is not None and observer.in_thread.get("observer") is observer:
            observer.in_thread["observer"] = None


def on_elsewhere(lineage: object) -> Optional["Observer"]:
    """The observer of these that take over from each other which is on in another thread, if one is."""
    return next((one for one in observers_on if one.lineage is lineage and one.thread != get_ident()), None)


class Settled(NamedTuple):
    """In place of the observer that knows a Deferred: that it is recorded as settled, though Twisted keeps its failure in it."""

    observer: "Observer"


_NOTHING = Expected()
NO_KEYWORDS: Mapping[str, Any] = {}


class Observer:
    """Tells the lines of a run. A subclass may also note the actions and bodies of the program."""

    #: how many times as many frames there may be on Python's stack where it is on
    stack_room = 1

    #: whether it notes what loops and Cooperators do by themselves
    notes_inner = False

    # what is seldom set: an object with few attributes of its own is made and read sooner

    #: what the instruments of a kind keep of this run. The clock is the program's, and isn't kept alive
    _clock: Optional["weakref.ReferenceType[Any]"] = None
    clock_base = 0.0
    #: whether a call of the clock was reset
    has_reset = False
    cooperator: Optional[Any] = None
    jobs = 0
    pools: Sequence[Pool] = ()
    #: whether it is on in its thread, and how many Deferreds were made in others meanwhile
    is_on = False
    elsewhere = 0
    #: whether what is due is run after an error of a delayed call too, as under a reactor
    goes_on_after_errors = False
    #: the thread in which it is on, the attributes of `watched` there, and the reactor that has started there last
    thread = 0
    in_thread: Optional[Dict[str, Any]] = None
    reactor: Any = None
    #: whether it moves to the thread in which a reactor starts
    moves = False
    #: the Deferred to which a cancel is being passed on along a wait
    forwarded: Optional[Deferred[Any]] = None
    #: what the body that has ended last gave, where it was asked for
    gave: Optional[Outcome] = None
    #: the inline bodies that are being cancelled
    cancelling: Tuple[Record, ...] = ()
    #: the number of Python for the failure that was logged last, by the event that happens
    _told: Optional[int] = None
    #: the body of the turn that Twisted is about to run
    turn: Any = None

    def __init__(
        self,
        kinds: frozenset[str] = KINDS,
        classes: Optional[Classes] = None,
        texts: Optional[Texts] = None,
        top: Optional[Frame] = None,
    ) -> None:
        self.kinds = kinds
        self.texts: Texts = Texts(Classes() if classes is None else classes) if texts is None else texts
        #: the parts of all lines, each line followed by None. No line is an object of its own, since Python's collector
        #: of garbage goes over all objects again and again
        self.parts: List[Optional[Part]] = []
        #: tells a line: its parts, followed by None
        self.tell_line: Callable[[Sequence[Optional[Part]]], None] = self.parts.extend
        self.records: List[Record] = []
        self.top = self.frame = Frame("event") if top is None else top
        #: whether Twisted's own code runs an action; if it doesn't, nothing has to ask whether this is `quiet`
        self.acting = False
        #: where Twisted did what an entry of docs/TWISTED.md names: how many parts were logged before, and the entry
        self.quirks: List[Tuple[int, Entry]] = []
        #: the loops and Cooperators with which it did so, by where it is noted what they do by themselves
        self.quirks_of: List[Tuple[Any, Entry]] = []
        #: the told time, where the clock is a real reactor
        self.pace: Any = None
        #: one object for all observers that take over from each other
        self.lineage = object()
        #: the function after which the next Deferred is named, where that isn't the one that makes it
        self.maker: Optional[str] = None

    @property
    def classes(self) -> Classes:
        """The classes of failures that this run knows."""
        return self.texts.classes

    def watching(self) -> "Watching":
        """Has Twisted be watched by this observer, and by no other, while what this gives is entered."""
        return Watching(self)

    def hand_over(self, following: "Observer") -> None:
        """Has another observer watch from here on, in the place of this one."""
        following.lineage, following.thread, following.in_thread = self.lineage, self.thread, self.in_thread
        following.reactor, following.moves = self.reactor, self.moves
        observers_on[observers_on.index(self)] = following
        self.is_on, following.is_on = False, True
        watched.observer = following

    def move_here(self) -> None:
        """Watches in this thread from here on, and no more in the one in which it was on."""
        if self.in_thread is not None:
            self.in_thread["observer"] = None
        self.thread, self.in_thread = get_ident(), watched.__dict__
        watched.observer = self

    @property
    def quiet(self) -> bool:
        """Whether it is Twisted's own code that calls the instrument which asks, while it runs an action."""
        return self.acting

    # lines

    def tell(self, *parts: Part) -> None:
        """Tells a line."""
        self.tell_line((*parts, None))

    def quirk(self, entry: Entry, place: Optional[int] = None) -> None:
        """Notes that Twisted does here, or where so many parts are logged, what an entry of the profile names."""
        self.quirks.append((len(self.parts) if place is None else place, entry))

    def problem(self, reason: str, kind: Optional[str] = None, inner: Any = None) -> None:
        """Notes what a script can't say: it may be told as the Python that objects of this kind are made of.

        `inner`: where it is noted what the object does by itself.
        """

    def place(self) -> str:
        """Where the program is, if that is known."""
        return ""

    def happening(self) -> Optional[Action]:
        """The event that happens, or has happened last, if events are noted."""
        return None

    @contextlib.contextmanager
    def undoing(self, record: Record) -> Iterator[None]:
        """Has a Deferred keep what it had, if what is logged here isn't logged any more."""
        yield

    def begin_event(self) -> None:
        """Something happens of its own: what fails in it is logged, though the like was logged before."""
        self._told = None

    def tell_unhandled(self, error: BaseException) -> None:
        """Tells of a failure that nobody catches, once."""
        if id(error) != self._told:
            self._told = id(error)
            self.tell("unhandled ", self.texts.failure(error))

    def is_told(self, error: BaseException) -> bool:
        """Whether this is the failure that was logged last, by the event that happens."""
        return id(error) == self._told

    # Deferreds

    def record(self, deferred: Any) -> Record:
        """What is known of a Deferred."""
        found: Optional[Tuple[Observer, Record]] = deferred._dv_record
        return found[1] if found is not None and found[0] is self else self.adopt(deferred)

    def adopt(self, deferred: Deferred[Any]) -> Record:
        """Begins to know a Deferred that was made before this observer was on."""
        record = Record()
        expected = self.take_expected()
        self.keep(deferred, record)
        self.made(deferred, record)
        self.put_expected(expected)
        if deferred.called:
            outcome = self.texts.outcome(getattr(deferred, "result", None))
            self.tell("fire ", record, " ", outcome)
            record.fired, record.outcome = True, outcome
        return record

    def keep(self, deferred: Any, record: Record) -> None:
        """Has a Deferred be known by this record."""
        deferred._dv_record = (self, record)

    def settle(self, deferred: Any, record: Record) -> None:
        """Tells a pair that takes the failure of a Deferred, which Twisted keeps in it all the same."""
        self.tell("add ", record)
        self.tell("run ", record)
        self.tell("set ", record, " ", NULL)
        record.outcome = NULL
        deferred._dv_record = (Settled(self), record)

    def is_settled(self, deferred: Any) -> bool:
        """Whether a Deferred is recorded as settled, though Twisted keeps its failure in it."""
        known = deferred._dv_record
        return known is not None and isinstance(known[0], Settled) and known[0].observer is self

    def locate(self, record: Record, by_twisted: bool = False) -> None:
        """Notes where the program makes a Deferred, or Twisted's own code for it, if it is named by that."""

    def make(self, deferred: Deferred[Any]) -> None:
        """The program has made a Deferred that has no canceller, while it runs no action."""
        record = Record(self.frame)
        self.keep(deferred, record)
        self.locate(record)
        self.act(Action(("deferred", record)), self.made, deferred, record)

    def made(self, deferred: Deferred[Any], record: Record, kind: str = "", by_twisted: bool = False) -> None:
        """Records a Deferred that was made, maybe by Twisted's own code inside an action, and gives it its name."""
        frame = self.frame
        expected = self._next_expected() if frame.expected else None
        if frame.anonymous:
            record.name = "-"
        elif expected is not None and expected.name is not None:
            record.name = expected.name
        elif record.made_at is None:
            self.locate(record, by_twisted)
        self.maker = None
        if kind:
            record.kind = kind
        records = self.records
        record.number = number = len(records)
        self.tell_line(("new ", record, " ", number, None))
        records.append(record)
        if expected is not None and expected.made is not None:
            expected.made(deferred, record)

    def rename(self, deferred: Deferred[Any]) -> None:
        """A body gave a Deferred, which has the name of the next one that is made from here on."""
        expected = self._next_expected()
        record = self.record(deferred)
        own: Part = "-" if record.number is None else record.number
        self.tell("name ", record, " ", expected.name or own)
        if expected.made is not None:
            expected.made(deferred, record)

    def expect(self, made: Callable[[Deferred[Any], Record], None]) -> None:
        """Has this be told of the next Deferred that is made, beside what is expected already."""
        before = self._next_expected()

        def both(deferred: Deferred[Any], record: Record) -> None:
            if before.made is not None:
                before.made(deferred, record)
            made(deferred, record)

        self.frame.expected += (Expected(before.name, both),)

    def expect_name(
        self, name: str, bind: Callable[[Deferred[Any], Record], None]
    ) -> None:
        """Has the next Deferred that is made be known by this name."""
        self.frame.expected += (Expected(name, bind),)

    def _next_expected(self) -> Expected:
        """What is expected of the next Deferred, and not of those after it."""
        *others, expected = self.frame.expected or (_NOTHING,)
        self.frame.expected = tuple(others)
        return expected

    def take_expected(self) -> Tuple[Expected, ...]:
        """What is expected of the next Deferreds, which isn't expected any more."""
        expected, self.frame.expected = self.frame.expected, ()
        return expected

    def put_expected(self, expected: Tuple[Expected, ...]) -> None:
        """Expects this again."""
        self.frame.expected = expected

    # actions and bodies

    def begin_plain(self, action: Action, inside: int) -> Any:
        """The program runs an action in which none of its code is called, while it runs no other. Gives what ends it.

        So many frames, from the caller's on, are known not to be the program's.
        """
        self.acting = True

    def end_plain(self, begun: Any, action: Action, error: Optional[BaseException] = None) -> None:
        """It has ended, or has failed."""
        self.acting = False

    @switching
    def act(self, action: Action, call: Callable[..., Any], *args: Any) -> Any:
        """Performs a call of the program's into Twisted."""
        acting, self.acting = self.acting, True
        try:
            return call(*args)
        finally:
            self.acting = acting

    @switching
    def own(self, call: Callable[..., Any], *args: Any) -> Any:
        """Has Twisted's own code run, as a part of an action or of a body that runs."""
        acting, self.acting = self.acting, True
        try:
            return call(*args)
        finally:
            self.acting = acting

    def begin_side(self, body: Any, given: Outcome) -> Frame:
        """A side of the program's begins, and is the run of a body in which the program is."""
        frame = self.begin_body(body, "callback", (None, given))
        self.frame, self.acting = frame, False
        return frame

    def end_side(self, frame: Frame, result: object, value: object, given: Outcome) -> Optional[Outcome]:
        """It has ended with this result, for a value that was shown so. Gives how the result is shown, where that is known."""
        self.end_body(frame, None, result, (value, given))
        return self.gave

    def perform(
        self,
        body: Any,
        kind: str,
        given: Optional[Tuple[object, Outcome]],
        call: Callable[..., Any],
        args: Sequence[Any] = (),
        kwargs: Mapping[str, Any] = NO_KEYWORDS,
    ) -> Any:
        """Has the program do what it was called back for: a run of the body, on what it is given."""
        frame = self.begin_body(body, kind, given)
        before, acting = self.frame, self.acting
        self.frame, self.acting = frame, False
        try:
            result = call(*args, **kwargs)
        except BaseException as error:
            self.end_body(frame, error, None, given)
            raise
        else:
            self.end_body(frame, None, result, given)
            return result
        finally:
            self.frame, self.acting = before, acting

    def new_body(self, kind: str, is_deep: bool = False) -> Any:
        """A body that the program hands to Twisted. `is_deep`: it may come to lie in many others."""
        return kind

    def depth_of(self, body: Any) -> int:
        """In how many others a body lies, as it is logged."""
        return 0

    def begin_body(
        self, body: Any, kind: str, given: Optional[Tuple[object, Outcome]]
    ) -> Frame:
        """A run of a body begins."""
        return Frame(kind)

    def end_body(
        self,
        frame: Frame,
        error: Optional[BaseException],
        result: object,
        given: Optional[Tuple[object, Outcome]],
    ) -> None:
        """It has ended, by raising or with a result."""

    def end_by_warning(self, record: Record, error: BaseException) -> None:
        """A side gave its own Deferred, and Twisted's warning of that was raised as an error."""

    def begin_step(self, steps: Any) -> Any:
        """A step of a task begins: its body."""
        return self.new_body("step")

    def end_steps(self, steps: Any, body: Any, inner: Any) -> None:
        """A task has ended, in a step that has no body. `inner`: where it is noted what its Cooperator does by itself."""

    def begin_inline(self, body: Any) -> bool:
        """The program is about to begin an inline body. Whether `end_inline_action` has to be called when it waits, or has ended."""
        return False

    def end_inline_action(self, action: Action) -> None:
        """The action that has begun an inline body has ended."""

    def begin_await(self, frame: Frame, record: Record) -> Any:
        """An inline body awaits a Deferred."""
        return None

    def end_await(self, awaited: Any, value: object, outcome: Outcome) -> None:
        """What it awaited has come."""

    def end_inline(self, frame: Frame, result: object) -> None:
        """An inline body has ended with this result."""

    def has_result(self, work: List[Any]) -> None:
        """The result of a job has come, and this, which its action has, says it from here on."""

    def has_noted(self, inner: Any) -> None:
        """Something is noted there of what an object does by itself."""

    def rests(self) -> None:
        """The reactor has run what was due, and may wait now."""

    def spot(self) -> Any:
        """Where the program is, as what is made there is named."""
        return None

    def thing(self, kind: str, made_at: Any = None) -> Thing:
        """A name for a lock, queue, delayed call, loop, task or Cooperator that is made here, or was made there."""
        return Thing(kind)

    def locate_action(self, action: Action, inside: int) -> None:
        """Notes where the program is, if that is where an action will have run. So many frames, from the caller's on, aren't its."""

    def note_made(self, thing: Thing, made_at: Any) -> None:
        """Notes where the lock or the queue was made that has this name, if that is known."""

    def note_call(self, action: Action, body: Any) -> None:
        """Notes what the generator or the coroutine of an inline body was called with, which the action is about to begin."""

    def locate_await(self, awaited: Any, generator: Any) -> None:
        """Notes where the generator or the coroutine of an inline body stands, which awaits."""

    def value(self, outcome: Outcome) -> Any:
        """A value of the program's that is shown so, as an action of it has it."""
        return None

    def raised(self, error: BaseException) -> Any:
        """A failure, as the work of a job has it."""
        return []

    def raising(self, error: BaseException) -> Any:
        """The END that raises a failure."""
        return []

    def firing(self, record: Record, result: object, outcome: Outcome) -> Action:
        """The action that fires a Deferred with this, which is shown so."""
        return Action()

    def end_inner(self, action: Action, error: BaseException) -> None:
        """What an object of Twisted's does by itself has failed, which is noted as this action."""

    # the clock

    def has_clock(self, clock: Any) -> bool:
        """Whether this is the clock of the run. The first clock that is used is."""
        if self._clock is None and not clock.calls:
            self.use_clock(clock)
            self.clock_base = clock.seconds()
        return self.is_clock(clock)

    def is_clock(self, clock: Any) -> bool:
        """Whether this is the clock of the run. Any other has no times in a recording, which is noted once."""
        if self.clock is clock:
            return True
        if clock._dv_further is not self:
            clock._dv_further = self
            self.note_further_clock()
        return False

    def note_further_clock(self) -> None:
        """Notes that a clock is used which isn't that of the run."""

    @property
    def clock(self) -> Optional[Any]:
        """The clock of the run, as long as the program has it."""
        return None if self._clock is None else self._clock()

    @property
    def has_had_clock(self) -> bool:
        """Whether the run has a clock, or had one."""
        return self._clock is not None

    def use_clock(self, clock: Any) -> None:
        """Has this be the clock of the run."""
        self._clock = weakref.ref(clock)

    def now(self) -> float:
        """The time since the run began."""
        clock = self.clock
        return 0.0 if clock is None else float(clock.seconds() - self.clock_base)
