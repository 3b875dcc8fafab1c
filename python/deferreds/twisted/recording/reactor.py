"""A reactor whose time is virtual, in the place of the real one: it goes on to whatever is due next."""

from __future__ import annotations

import contextlib
import math
import sys
from types import ModuleType
from typing import Any, Callable, Iterator, List, Tuple, cast

import twisted.internet
from twisted.internet import error, interfaces, task
from zope.interface import implementer

_MOST_ADVANCES = 100_000
#: a shorter delay comes from what floats leave out, as where a loop has added its interval again and again: no script has such a time
_SHORTEST = 1e-9
#: how late a call is due for which that was asked
_GRAIN = 0.001
#: by how many floats what is added to a time is wrong at most, where both aren't of one size
_MOST_WRONG = 4


class NotVirtual(AttributeError):
    """Something that a reactor has whose time is real."""


@implementer(interfaces.IReactorTime)
class VirtualReactor(task.Clock):
    """Time, delayed calls and triggers: what programs without sockets use of a reactor."""

    def __init__(self) -> None:
        super().__init__()
        self.running = False
        self._triggers: List[Tuple[str, Callable[..., Any], Any, Any]] = []

    def __getattr__(self, name: str) -> Any:
        """Refuses what a virtual reactor hasn't."""
        raise NotVirtual(f"a reactor whose time is virtual (--virtual) has no {name}")

    def callLater(self, delay: float, callable: Callable[..., Any], *args: Any, **kw: Any) -> Any:
        """Calls later, as a real reactor does that looks at its clock once in a while."""
        return super().callLater(_GRAIN if 0 < delay < _SHORTEST else delay, callable, *args, **kw)

    def callWhenRunning(self, f: Callable[..., Any], *args: Any, **kwargs: Any) -> None:
        """Calls when it runs."""
        if self.running:
            f(*args, **kwargs)
        else:
            self._triggers.append(("startup", f, args, kwargs))

    def addSystemEventTrigger(
        self, phase: str, event: str, f: Callable[..., Any], *args: Any, **kwargs: Any
    ) -> None:
        """Calls when the event comes."""
        self._triggers.append((event, f, args, kwargs))

    def callFromThread(self, f: Callable[..., Any], *args: Any, **kwargs: Any) -> None:
        """Calls in the next turn."""
        self.callLater(0, f, *args, **kwargs)

    def _trigger(self, event: str) -> None:
        due = [trigger for trigger in self._triggers if trigger[0] == event]
        self._triggers = [trigger for trigger in self._triggers if trigger[0] != event]
        for _, f, args, kwargs in due:
            f(*args, **kwargs)

    def stop(self) -> None:
        """It doesn't run any more."""
        if not self.running:
            raise error.ReactorNotRunning()
        self.running = False

    def run(self, *args: Any, **kwargs: Any) -> None:
        """Runs until it is stopped, or nothing waits."""
        self.running = True
        self._trigger("startup")
        while self.running and self.calls:
            self.advance_to_next()
        self.running = False
        self._trigger("shutdown")

    def advance_to_next(self) -> None:
        """Time goes on to what is due next. Errors are lost, as a reactor logs them."""
        due = min(call.getTime() for call in self.calls)  # the list isn't in order, if a call was reset
        with contextlib.suppress(Exception):
            self.advance(self._until(due))

    def _until(self, due: float) -> float:
        """By how much time goes on so that it is this one."""
        now, amount = self.seconds(), due - self.seconds()
        for _ in range(_MOST_WRONG):
            if now + amount >= due:
                break
            amount = math.nextafter(amount, math.inf)
        return max(0, amount)

    def run_until(self, is_over: Callable[[], bool]) -> None:
        """Runs until something is over, or nothing waits."""
        self.running = True
        for _ in range(_MOST_ADVANCES):
            if is_over() or not self.calls:
                break
            self.advance_to_next()
        self.running = False


@contextlib.contextmanager
def in_place_of_the_real(reactor: VirtualReactor) -> Iterator[None]:
    """Has this reactor be the one of Twisted, and of all modules that have imported the real one, by whatever name."""
    name = "twisted.internet.reactor"
    missing = object()
    real = sys.modules.get(name)
    before = real, getattr(twisted.internet, "reactor", missing)
    places = [] if real is None else list(_places_of(real))
    sys.modules[name] = cast(ModuleType, reactor)
    setattr(twisted.internet, "reactor", reactor)
    for module, attribute in places:
        setattr(module, attribute, reactor)
    try:
        yield
    finally:
        _put_back(name, *before, missing)
        for module, attribute in places:
            setattr(module, attribute, real)


def _places_of(real: object) -> Iterator[Tuple[ModuleType, str]]:
    """The attributes of modules that are the real reactor."""
    for module in list(sys.modules.values()):
        names = getattr(module, "__dict__", None)
        if isinstance(module, ModuleType) and names is not None and module is not twisted.internet:
            for attribute in [attribute for attribute, value in list(names.items()) if value is real]:
                yield module, attribute


def _put_back(name: str, module: Any, attribute: Any, missing: object) -> None:
    if module is None:
        del sys.modules[name]
    else:
        sys.modules[name] = module
    if attribute is missing:
        delattr(twisted.internet, "reactor")
    else:
        setattr(twisted.internet, "reactor", attribute)
