"""What a run has come to, Deferred by Deferred, and what stands in a row of the view."""

from __future__ import annotations

import enum
from typing import List, NamedTuple, Optional, Tuple

from .lines import Entry, Outcome
from .phrases import Phrase
from .sizes import several


class State(enum.Enum):
    """What a Deferred is, but for its pauses."""

    UNFIRED = "unfired"
    OK = "ok"
    FAIL = "fail"
    WAIT = "wait"
    RUN = "run"


class Finish(enum.Enum):
    """How a run ended, as far as the text that was read says it."""

    WHOLE = "it ended"
    STOPPED = "it stopped at the limit of its journal"
    UNMET = "a Deferred wasn't as the script expects"
    CUT = "the text was cut off"


class Look(NamedTuple):
    """What a lane shows of a Deferred."""

    state: State
    paused: bool = False


class Made(enum.Enum):
    """What a Deferred was made for, as far as that is known."""

    ACTION = "an action"
    ACQUIRE = "acquire"
    GET = "get"
    JOB = "job"
    LOOP = "loop"
    WHEN_DONE = "whenDone"
    INLINE = "inline"


class Record:
    """A Deferred, as the lines up to some row tell of it."""

    def __init__(self, number: int, name: str, row: int) -> None:
        self.number = number
        self.names: List[str] = [name] if name != "-" else []
        #: the row in which it was made, and the last that names it
        self.row = self.last = row
        self.made = Made.ACTION
        #: the number of the lock, queue, loop, task or job that it was made for
        self.of = -1
        self.value: Optional[Outcome] = None
        #: the rows in which it was fired, and in which its value came to be
        self.fired: Optional[int] = None
        self.origin: Optional[int] = None
        self.fired_by: Phrase = ()
        self.pauses = 0
        self.paused_at: Optional[int] = None
        self.waits: Optional[int] = None
        self.waits_at: Optional[int] = None
        #: whom its inline body awaits
        self.awaits: Optional[int] = None
        self.awaits_at: Optional[int] = None
        #: the row from which a side of it runs
        self.runs_since: Optional[int] = None
        self.pairs = 0
        #: the rows of firings that were refused, and of those that were swallowed
        self.refused: List[int] = []
        self.swallowed: List[int] = []
        #: the row of the cancel by which it was fired, and of the one with which its failure began
        self.cancelled: Optional[int] = None
        self.begun: Optional[int] = None
        #: the row in which another took its value, which has left null in it since
        self.taken: Optional[int] = None
        #: from which row on it has which look
        self.spans: List[Tuple[int, Look]] = [(row, Look(State.UNFIRED))]
        #: its outcome line without number and name; what the lines tell, where there is none
        self.end = ""

    @property
    def name(self) -> str:
        """The name that it was made with, or an empty text."""
        return self.names[0] if self.names else ""

    @property
    def waiting_pairs(self) -> int:
        """How many of its pairs wait for it to be fired."""
        return self.pairs if self.fired is None else 0

    @property
    def in_vain(self) -> List[str]:
        """How many firings had no effect, in words."""
        kinds = (("refused", self.refused), ("swallowed", self.swallowed))
        return [f"{several(len(rows), 'firing', 'firings')} {word}" for word, rows in kinds if rows]

    @property
    def state(self) -> State:
        """What it is now."""
        if self.runs_since is not None:
            return State.RUN
        if self.waits is not None:
            return State.WAIT
        if self.value is None or self.fired is None:
            return State.UNFIRED
        return State.FAIL if self.value.is_failure else State.OK

    @property
    def is_stuck(self) -> bool:
        """Whether its pairs can't be used now."""
        return (
            self.fired is None
            or self.waits is not None
            or self.pauses > 0
            or self.runs_since is not None
        )

    def tells(self) -> str:
        """What its outcome line would say now."""
        paused = "paused " if self.pauses else ""
        if self.waits is not None:
            return f"{paused}waiting #{self.waits}"
        return paused + (
            self.value.text if self.value is not None and self.fired is not None else "unfired"
        )

    def look_at(self, row: int) -> None:
        """Notes what it is from this row on."""
        last, state, paused = self.spans[-1][1], self.state, self.pauses > 0
        if last.state is not state or last.paused is not paused:
            self.spans.append((row, Look(state, paused)))


class Ended(enum.Enum):
    """What an outcome line tells of a Deferred."""

    OK = "ok"
    FAIL = "fail"
    WAIT = "waiting"
    PAUSED = "paused"
    UNFIRED = "unfired"


def ended(outcome: str) -> Ended:
    """Which of them the state of an outcome line is."""
    if outcome.startswith("paused "):
        return Ended.PAUSED
    if outcome.startswith("ok "):
        return Ended.OK
    if outcome.startswith("fail "):
        return Ended.FAIL
    return Ended.WAIT if outcome.startswith("waiting ") else Ended.UNFIRED


class ArrowKind(enum.Enum):
    """What one Deferred does to another, or an event or a call to a Deferred."""

    FIRE = "fire"
    HAND = "hand"
    WAIT = "wait"
    CANCEL = "cancel"
    REFUSE = "refuse"
    SWALLOW = "swallow"
    PAUSE = "pause"


class Arrow(NamedTuple):
    """An arrow of a row; without a source it comes from the left edge."""

    kind: ArrowKind
    source: Optional[int]
    target: int


class By(enum.Enum):
    """Who acts in a row."""

    SIDE = "a side of a Deferred"
    SECTION = "what is due, or a post"
    AFTER = "not known: the row comes after one whose end isn't told"
    EVENT = "an event of the script"
    NOBODY = "not known"


class GotNull(NamedTuple):
    """A Deferred waited for another, whose value was taken before: the row, and the row in which it was taken."""

    row: int
    taker: int
    giver: int
    taken: int


class Actor(NamedTuple):
    """Who acts in a row, with the number of the Deferred, the row of the section, or the event."""

    by: By
    number: int = -1


#: what most rows have: no cause, and nobody who acts
_NO_CAUSE: Phrase = ()
_NOBODY = Actor(By.NOBODY)


class Row:
    """A line of the journal in the view."""

    __slots__ = (
        "entry",
        "place",
        "time",
        "event",
        "depth",
        "sides",
        "inside",
        "actor",
        "cause",
        "is_plain",
        "arrows",
        "names",
        "opens",
        "closes",
        "serves",
    )

    def __init__(self, entry: Entry, time: int, event: Optional[int]) -> None:
        self.entry = entry
        #: the place of its line in the journal, from 0
        self.place = entry.row
        #: the time of the clock after the line
        self.time = time
        #: the event of the script that it belongs to, where that is known
        self.event = event
        #: how deep it lies, and how many of these are sides
        self.depth = 0
        self.sides = 0
        #: the row in which it lies directly
        self.inside: Optional[int] = None
        self.actor = _NOBODY
        #: why it happened; plain where that is only who acts
        self.cause = _NO_CAUSE
        self.is_plain = False
        self.arrows: List[Arrow] = []
        #: the Deferreds that it touches
        self.names: List[int] = []
        self.opens = self.closes = False
        #: whom it serves: the Deferred that gets a token, a value, or the end of a task or a loop by it
        self.serves: Optional[int] = None

    def name(self, number: int) -> None:
        """Notes that it touches a Deferred."""
        if not self.names:
            self.names = [number]  # (a list that is made with one takes less room in the browser than one that grows)
        elif number not in self.names:
            self.names.append(number)

    def draw(self, kind: ArrowKind, source: Optional[int], target: int) -> None:
        """Adds an arrow."""
        self.arrows = [*self.arrows, Arrow(kind, source, target)] if self.arrows else [Arrow(kind, source, target)]


class BracketKind(enum.Enum):
    """What became of what was scheduled."""

    CAME = "came"
    CANCELLED = "cancelled"
    LEFT = "left"


class Bracket(NamedTuple):
    """What was scheduled in a row, and the row in which it came or was cancelled; None where it is left."""

    start: int
    end: Optional[int]
    kind: BracketKind
