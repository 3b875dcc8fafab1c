"""Whose turn is next in each Cooperator, and which turns of loops were missed, as the lines of a journal show it."""

from __future__ import annotations

import collections
from typing import AbstractSet, Callable, Collection, Counter, Dict, List, Sequence

from . import grammar
from .profile import Entry, entries_of_turns
from .script import Script, Settings

#: the first words of lines with which something begins that is due, and of those with which a task joins
_DUE = frozenset({"tick", "tickin", "call", "timeout", "deliver", "post"})
_JOINS = frozenset({"task", "taskin", "resumetask"})


class _Turns:
    """The list of a Cooperator, and the place in it whose turn is next."""

    def __init__(self, seen: Counter[str], units: int, of_turns: AbstractSet[Entry]) -> None:
        """`of_turns`: the entries of how tasks take turns that it can reach."""
        self.seen = seen
        self.units = units
        self.of_turns = of_turns
        self.tasks: List[str] = []
        self.place = 0
        self.in_tick = False
        #: whether a task has left since the last step, so that no other was next
        self._has_left = False
        self._has_joined = False

    @property
    def _stays_at_end(self) -> bool:
        """Whether the place stays at the end of the list when a task leaves."""
        return Entry.JOIN_AFTER_THE_LAST in self.of_turns

    def join(self, name: str) -> None:
        """A task joins, last."""
        if self._has_left and not self._stays_at_end:
            self.seen["joined last"] += 1
        elif self.tasks and self.place >= len(self.tasks):
            self.seen["joined after" if self._has_left else "joined next"] += 1
        if self.in_tick:
            self._has_joined = True
            self.seen["joined in a tick"] += 1
        self.tasks.append(name)

    def leave(self, name: str) -> None:
        """A task leaves, if it is there."""
        if name not in self.tasks:
            return
        at = self.tasks.index(name)
        self.tasks.remove(name)
        if at < self.place:
            self.place -= 1
            self.seen["left before"] += self.place < len(self.tasks)
        elif at == self.place:
            self.seen["next left"] += self.place < len(self.tasks)
        if self.place >= len(self.tasks):
            self._has_left = True
            self.place = self.place if self._stays_at_end else 0
        self._has_left = self._has_left and bool(self.tasks)
        self.seen["emptied after a join"] += self._has_joined and not self.tasks

    def step(self, name: str) -> None:
        """It is the turn of a task."""
        if self.place >= len(self.tasks) > 1:
            self.seen["round"] += 1
        if name in self.tasks:
            self.place = self.tasks.index(name) + 1
        self._has_left = False

    def begin_tick(self) -> None:
        """A tick begins."""
        self.in_tick, self._has_joined = True, False

    def schedule(self, joined: bool) -> None:
        """The next tick is scheduled, at the end of one if one goes on. `joined`: right after a task has joined."""
        self.end_tick()

    def end_tick(self) -> None:
        """A tick has ended, if one went on."""
        self.in_tick = False


class _TwistedTurns(_Turns):
    """The list of a Cooperator whose tasks take turns as Twisted has it: the place stays the same when a task leaves."""

    def __init__(self, seen: Counter[str], units: int) -> None:
        super().__init__(seen, units, frozenset())
        #: how many steps the tick that goes on may have, and whether the next one is scheduled
        self._room = 0
        self._is_scheduled = False
        #: whether no task took turns when the steps of a tick were used up
        self._is_kept = False

    def join(self, name: str) -> None:
        """A task joins, last."""
        if self.place == len(self.tasks) > 0:
            self.seen["joined at the place" if self._has_left else "joined next, as in Twisted"] += 1
        self.seen["joined before the place"] += self.place > len(self.tasks)
        self.seen["joined where a tick was scheduled"] += self.in_tick and self._is_scheduled
        self.tasks.append(name)

    def leave(self, name: str) -> None:
        """A task leaves, if it is there."""
        if name not in self.tasks:
            return
        at = self.tasks.index(name)
        self.tasks.remove(name)
        self._has_left = True
        self.seen["passed by"] += at < self.place <= len(self.tasks)
        if not self.tasks:
            self.seen["dropped in a tick"] += self.in_tick and self._is_scheduled
            self._is_scheduled = False

    def step(self, name: str) -> None:
        """It is the turn of a task."""
        self._room -= 1
        if name not in self.tasks:
            return
        at = self.tasks.index(name)
        self.seen["went on"] += self._is_kept and at == self.place
        self.seen["round past the end"] += self.place > len(self.tasks)
        self.place, self._has_left, self._is_kept = at + 1, False, False

    def begin_tick(self) -> None:
        """A tick begins."""
        self.in_tick, self._is_scheduled, self._room = True, False, self.units

    def schedule(self, joined: bool) -> None:
        """The next tick is scheduled, at the end of one if one goes on. `joined`: right after a task has joined."""
        if self.in_tick:
            self.seen["scheduled by a join" if joined else "scheduled at the end"] += 1
        if not joined:
            self.end_tick()
        self._is_scheduled = True

    def end_tick(self) -> None:
        """A tick has ended, if one went on."""
        if self.in_tick and not self.tasks:
            self._is_kept = self._room == 0
            self.seen["emptied" if self._is_kept else "found nobody"] += 1
            self.place = self.place if self._is_kept else 0
        self.seen["ended where one was scheduled"] += self.in_tick and self._is_scheduled
        self.in_tick = False


class _Loop:
    """A loop: when its last turn was due, and how long it is to the next."""

    def __init__(self, start: int) -> None:
        self.due = start
        self.interval = 0


class Turning:
    """Reads the lines of a journal, and counts what is seen of turns."""

    def __init__(self, script: Script) -> None:
        self.seen: Counter[str] = collections.Counter()
        version = script.root["version"]
        settings = {"": script.cooperator, **script.cooperators}
        self._cooperators = {name: self._turns(each, version) for name, each in settings.items()}
        #: by the name of a task, its Cooperator, and how often it is paused
        self._of: Dict[str, str] = {}
        self._pauses: Counter[str] = collections.Counter()
        self._loops: Dict[str, _Loop] = {}
        self._now = 0
        self._changes: Dict[str, Callable[[Sequence[str]], None]] = {
            "task": self._make,
            "taskin": self._make,
            "pausetask": self._pause,
            "hold": self._pause,
            "resumetask": self._resume,
            "end": self._end,
            "step": self._step,
            "tick": self._tick,
            "tickin": self._tick,
            "advance": self._advance,
            "loop": self._begin_loop,
            "later": self._later,
            "units": lambda rest: self._set_units("", rest[0]),
            "unitsin": lambda rest: self._set_units(*rest),
        }
        #: the first word of the line before
        self._before = ""

    def _turns(self, settings: Settings, version: int) -> _Turns:
        if settings.turns == grammar.TWISTED:
            return _TwistedTurns(self.seen, settings.units)
        return _Turns(self.seen, settings.units, entries_of_turns(settings.turns, version))

    def read(self, lines: Sequence[str], begins: Collection[int]) -> Counter[str]:
        """Reads all lines, and gives what was seen. `begins`: the lines with which events begin."""
        for place, line in enumerate(lines):
            word, *rest = line.split(" ")
            if place in begins or word in _DUE or (word == "turn" and self._before != "loop"):
                self._end_ticks()
            change = self._changes.get(word)
            if change is not None:
                change(rest)
            self._before = word
        return self.seen

    def _make(self, rest: Sequence[str]) -> None:
        name, of = rest[0], rest[1] if len(rest) > 1 else ""
        self._of[name], self._pauses[name] = of, 0
        self._cooperators[of].join(name)

    def _turns_of(self, name: str) -> _Turns:
        return self._cooperators[self._of.get(name, "")]

    def _pause(self, rest: Sequence[str]) -> None:
        self._pauses[rest[0]] += 1
        self._turns_of(rest[0]).leave(rest[0])

    def _resume(self, rest: Sequence[str]) -> None:
        self._pauses[rest[0]] -= 1
        if rest[0] in self._of and self._pauses[rest[0]] == 0:
            self._turns_of(rest[0]).join(rest[0])

    def _end(self, rest: Sequence[str]) -> None:
        self._turns_of(rest[0]).leave(rest[0])
        self._of.pop(rest[0], None)

    def _step(self, rest: Sequence[str]) -> None:
        self._turns_of(rest[0]).step(rest[0])

    def _end_ticks(self) -> None:
        for turns in self._cooperators.values():
            turns.end_tick()

    def _tick(self, rest: Sequence[str]) -> None:
        self._cooperators[rest[0] if rest else ""].begin_tick()

    def _set_units(self, name: str, units: str) -> None:
        self._cooperators[name].units = int(units)

    def _advance(self, rest: Sequence[str]) -> None:
        self._now = int(rest[0])

    def _begin_loop(self, rest: Sequence[str]) -> None:
        self._loops[rest[0]] = _Loop(self._now)

    def _later(self, rest: Sequence[str]) -> None:
        if rest[0] in ("tick", "tickin"):
            self._cooperators[rest[1] if rest[0] == "tickin" else ""].schedule(self._before in _JOINS)
        loop = self._loops.get(rest[1]) if rest[0] == "loop" else None
        if loop is None:
            return
        due = int(rest[2])
        loop.interval = loop.interval or due - loop.due
        self.seen["missed"] += due - loop.due > loop.interval
        loop.due = due
