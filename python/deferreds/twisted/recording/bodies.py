"""What is noted of a run: bodies, made empty where they are handed to Twisted and filled by their runs."""

from __future__ import annotations

from typing import Any, Iterator, List, NamedTuple, Optional, Sequence, Tuple

from ..telling import Action, Begun, Frame, Record, Thing, know_attributes
from ..texts import Outcome


class Unsayable:
    """Something in an action that the language has no words for."""

    def __init__(self, reason: str, place: str, outcome: str) -> None:
        self.reason = reason
        self.place = place
        #: what it is, as a line shows it
        self.outcome = outcome


#: a body that lies in more others than this is among the parts of lines at the beginning of each run, so that it can be declared
SHALLOW = 2


class Body(Begun):
    """What the program hands to Twisted to be called back."""

    #: of an inline body that is declared: the name of the Deferred that calls it
    helper: Optional[str] = None

    def __init__(self, kind: str, depth: int = 0) -> None:
        self.kind = kind
        #: in how many others it lies
        self.depth = depth
        self.runs: List["Run"] = []


class Steps:
    """What the program hands to a Cooperator: the bodies of the steps of a task."""

    #: its number in the notes of the run, if these are written
    noted_as = -1

    def __init__(self, depth: int = 0) -> None:
        self.depth = depth
        self.bodies: List[Body] = []


class Turns(Steps):
    """The bodies of the turns of a loop, where these did different things. The last one is also that of all turns after it."""


class Done(NamedTuple):
    """What was done in a run: the actions, in order, and how it ended."""

    actions: Sequence[Action]
    end: Any


class Run(Frame):
    """A run of a body: the actions that it ran, and how it ended."""

    #: how it ended, or None, where its input was passed on
    end: Any = None
    #: its number in the notes of the run, if these are written, and how many of its actions are in them
    noted_as = -1
    written = 0

    def __init__(self, kind: str, given: Optional[Outcome] = None, depth: int = -1, began: int = 0) -> None:
        self.kind = kind
        self.given = given
        #: that of its body
        self.depth = depth
        #: how many events of the program had begun when it did
        self.began = began
        #: the actions, once there is one
        self.noted: Optional[List[Action]] = None

    @property
    def actions(self) -> Sequence[Action]:
        """The actions, in order."""
        return self.noted or ()

    @property
    def done(self) -> Done:
        """All that was done in it."""
        return Done(self.actions, self.end)

    def until(self, events: int) -> Done:
        """What was done in it until so many events had ended. Only an inline body runs in several events: it goes on after an `await`."""
        for place, action in enumerate(self.actions):
            if action.came is not None and action.came > events:
                return Done(self.actions[: place + 1], None)
        return self.done

    def forget(self) -> None:
        """Keeps no action."""
        self.noted = None

    def note(self, action: Action) -> None:
        """Notes an action: the body has gone on after the failure of the last one, if that failed."""
        noted = self.noted
        if noted is None:
            self.noted = [action]
            return
        if noted[-1].raised is not None:
            noted[-1].caught = True
        noted.append(action)

    def settle_raised(self, raised: Optional[str]) -> bool:
        """Notes which actions it went on after, though they raised; whether it ended by the last one's failure."""
        if self.noted is None:
            return False
        for action in self.noted[:-1]:
            action.caught = action.caught or action.raised is not None
        last = self.noted[-1]
        if last.raised is None:
            return False
        if raised == last.raised:
            return True
        last.caught = True
        return False


know_attributes(Body("event"), ("name", "alias", "helper"))
know_attributes(
    Run("event"),
    ("end", "has_fired", "record", "awaits", "outer", "present", "anonymous", "passing", "expected", "noted_as", "written"),
)

#: the kinds of bodies that aren't nested where their objects are recorded as what they are made of, and the kinds of these
_TOLD_PLAINLY = {"inline": "inline", "call": "clock", "turn": "loop"}


class Deepest(NamedTuple):
    """The body that lies deepest in others: of what it is, and which kind of objects nests most, of those that may be told
    as what they are made of."""

    of: str
    kind: Optional[str]


def deepest(actions: Sequence[Action]) -> Optional[Deepest]:
    """The body that lies deepest in others, if there is one. However deep that is, this takes no room on the stack."""
    found: List[Tuple[int, str, str]] = []  # of each body: the place of the one around it, its kind, and of what it is
    left: List[Tuple[int, Action]] = [(-1, action) for action in reversed(actions)]
    levels: List[int] = []
    best = -1
    while left:
        around, action = left.pop()
        for body in bodies_of(action):
            found.append((around, body.kind, in_words(action)))
            levels.append(levels[around] + 1 if around >= 0 else 1)
            if best < 0 or levels[-1] > levels[best]:
                best = len(levels) - 1
            if body.runs:
                left += [(len(found) - 1, inner) for inner in reversed(body.runs[0].actions)]
    if best < 0:
        return None
    kinds: List[str] = []
    place = best
    while place >= 0:
        kinds.append(found[place][1])
        place = found[place][0]
    most = max(_TOLD_PLAINLY, key=kinds.count)
    return Deepest(found[best][2], _TOLD_PLAINLY[most] if most in kinds else None)


def bodies_of(action: Action) -> Iterator[Body]:
    """The bodies that an action hands to Twisted."""
    for part in action:
        if isinstance(part, Body):
            yield part
        elif isinstance(part, Steps):
            yield from part.bodies


def forget_bodies(part: Any) -> None:
    """Empties the runs of all bodies that an action has."""
    waiting = [part]
    while waiting:
        part = waiting.pop()
        if isinstance(part, Body):
            runs, part.runs = part.runs, []
            waiting.extend(runs)
        elif isinstance(part, Run):
            actions = part.actions
            part.forget()
            waiting.extend(actions)
        elif isinstance(part, list):
            if isinstance(part, Action) and part.inner_of is not None:
                part.inner_of.forget()
                part.inner = part.inner_of = None
            waiting.extend(part)
        elif isinstance(part, Steps):
            waiting.extend(part.bodies)


def in_words(action: Action) -> str:
    """What an action is of, in words."""
    named = next((part for part in action if isinstance(part, (Record, Thing))), None)
    name = named.name if named is not None else None
    return f"{action[0]} of {name}" if name else str(action[0])
