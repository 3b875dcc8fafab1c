"""Hides secrets where a run has shown them before they were known, or as a part of another text."""

from __future__ import annotations

from typing import Any, Iterator, List, Set

from ..classes import BUILT_IN
from ..grammar import ACTIONS
from ..telling import Action
from ..texts import Outcome, Shown, Text
from .bodies import Body, Run, Steps, Unsayable
from .hiding import Again
from .recorder import Recorder


def hide_again(recorder: Recorder) -> None:
    """Hides the secrets that are known when a run is over in all that was recorded of it. Names of the program's own stay."""
    again = recorder.texts.hiding.afterwards()
    if again is not None:
        _Hider(again, {*BUILT_IN, *ACTIONS, *(pair[0] for pair in recorder.classes.declared)}).hide(recorder)


class _Hider:
    """Changes what a recorder has noted."""

    def __init__(self, again: Again, words: Set[str]) -> None:
        self._again = again
        #: the words of scripts, and names of classes, which are texts there, too
        self._words = words

    def hide(self, recorder: Recorder) -> None:
        """Hides them."""
        for part in recorder.parts:
            self._part(part)
        for record in recorder.records:
            self._part(record.outcome)
        for action in _actions(recorder.events):
            for place in range(1, len(action)):
                action[place] = self._noted(action[place])
            action.raises = self._noted(action.raises)
            if action.raised is not None:
                action.raised = self._again.part(action.raised)
        calls = recorder.spots.calls
        calls[:] = [call._replace(arguments=[(name, self._shown(value)) for name, value in call.arguments]) for call in calls]
        recorder.problems[:] = [problem._replace(reason=self._again.text(problem.reason)) for problem in recorder.problems]

    def _part(self, part: object) -> None:
        if isinstance(part, Outcome):
            part.value = self._shown(part.value)
        elif isinstance(part, Text):
            text = self._again.part(part.text)
            if text != part.text:
                part.weight += len(text.encode("utf-8")) - len(part.text.encode("utf-8"))
                part.text = text

    def _shown(self, value: Shown) -> Shown:
        """A value, or a failure."""
        if type(value) is str:
            return self._again.text(value)
        if type(value) is list:
            hidden = [self._shown(item) for item in value]
            return value if hidden == value else hidden
        if type(value) is dict and "fail" in value:
            hidden_failure = {**value, "message": self._shown(value["message"])}
            if "sub" in value:
                hidden_failure["sub"] = self._shown(value["sub"])
            return hidden_failure
        return value

    def _noted(self, part: Any) -> Any:
        """A part of an action."""
        if type(part) is str:
            return part if part in self._words else self._again.text(part)
        if type(part) is list:
            return [self._noted(item) for item in part]
        if isinstance(part, Unsayable):
            part.outcome = self._again.part(part.outcome)
        elif isinstance(part, (Body, Steps)):
            for run in _runs(part):
                if run.given is not None:
                    self._part(run.given)
                run.end = self._noted(run.end)
        else:
            return self._shown(part)
        return part


def _runs(part: Any) -> Iterator[Run]:
    for body in [part] if isinstance(part, Body) else part.bodies:
        yield from body.runs


def _actions(events: List[Action]) -> Iterator[Action]:
    """The actions of these events and of the bodies in them, each once. However deep these lie, this takes no room on the stack."""
    left = list(events)
    seen: Set[int] = set()
    while left:
        action = left.pop()
        if id(action) in seen:
            continue
        seen.add(id(action))
        yield action
        for part in action:
            if isinstance(part, (Body, Steps)):
                for run in _runs(part):
                    left += run.actions
