"""Has each reactor that is made from now on find ready what is perturbed: epoll's, poll's, select's and asyncio's."""

from __future__ import annotations

import importlib
import math
import select
import selectors
from typing import Any, Callable, Iterator, List, Optional

from twisted.internet import pollreactor, selectreactor

from .readiness import READ, WRITE, Readiness, Ready
from .shaker import Shaker
from .sockets import words_of

_READINESS = "_shake_readiness"


class _Poller:
    """An epoll or a poll that is perturbed."""

    def __init__(self, real: Any, reactor: Any, readiness: Readiness, unit: int, write: int) -> None:
        """`unit`: how many of its units of time a second has. `write`: the event of what can be written alone."""
        self._real, self._reactor, self._readiness = real, reactor, readiness
        self._unit, self._write = unit, write

    def __getattr__(self, name: str) -> Any:
        return getattr(self._real, name)

    def poll(self, timeout: Optional[float] = None, *most: int) -> List[Any]:
        """What is ready, as the real one says it."""

        def ask(seconds: Optional[float]) -> List[Ready]:
            given = -1 if seconds is None else seconds if self._unit == 1 else math.ceil(seconds * self._unit)
            things = self._reactor._selectables
            return [
                Ready(things.get(number), WRITE if event == self._write else READ, (number, event))
                for number, event in self._real.poll(given, *most)
            ]

        return self._readiness.wait(ask, None if timeout is None or timeout < 0 else timeout / self._unit)


class _Selector:
    """The selector of an asyncio loop that is perturbed."""

    def __init__(self, real: Any, readiness: Readiness) -> None:
        self._real, self._readiness = real, readiness

    def __getattr__(self, name: str) -> Any:
        return getattr(self._real, name)

    def select(self, timeout: Optional[float] = None) -> List[Any]:
        """What is ready, as the real one says it."""

        def ask(seconds: Optional[float]) -> List[Ready]:
            return [
                Ready(_thing_of(key), WRITE if mask == selectors.EVENT_WRITE else READ, (key, mask))
                for key, mask in self._real.select(seconds)
            ]

        return self._readiness.wait(ask, timeout)


def _thing_of(key: Any) -> Any:
    """The descriptor of Twisted's that asyncio watches by this key, if it is one."""
    handles = key.data if isinstance(key.data, tuple) else ()
    for handle in handles:
        given = getattr(handle, "_args", None) or ()
        if given and hasattr(given[0], "fileno"):
            return given[0]
    return None


def shake(shaker: Shaker) -> None:
    """Perturbs what the reactors that are made from now on find ready."""
    _poll(shaker, pollreactor.PollReactor, 1000, select.POLLOUT)
    if hasattr(select, "epoll"):
        from twisted.internet import epollreactor

        _poll(shaker, epollreactor.EPollReactor, 1, select.EPOLLOUT)
    _select(shaker)
    _asyncio(shaker)


def _readiness(shaker: Shaker, reactor: Any) -> Readiness:
    return Readiness(shaker, reactor, _child_waker(), lambda: _watched(reactor))


def _watched(reactor: Any) -> Iterator[str]:
    """What a reactor watches, beside what wakes it, in words."""
    for thing in [*reactor.getReaders(), *reactor.getWriters()]:
        if thing not in reactor._internalReaders:
            yield words_of(thing)


def _watched_by_loop(reactor: Any, selector: Any) -> Iterator[str]:
    """What asyncio's loop watches, beside what wakes it and the reactor, in words."""
    yield from _watched(reactor)
    known = {thing.fileno() for thing in reactor._internalReaders}
    waker = getattr(reactor._asyncioEventloop, "_ssock", None)
    for key in list(selector.get_map().values()):
        if key.fd not in known and key.fileobj is not waker and (waker is None or key.fd != waker.fileno()):
            yield "something of asyncio's"


def _child_waker() -> type:
    """The class of what wakes a reactor when a child has ended, which versions of Twisted have in different modules."""
    for name in ("_signals", "posixbase"):
        found = getattr(importlib.import_module(f"twisted.internet.{name}"), "_SIGCHLDWaker", None)
        if isinstance(found, type):
            return found
    raise ImportError("no _SIGCHLDWaker")


def _poll(shaker: Shaker, reactors: Any, unit: int, write: int) -> None:
    make: Callable[..., None] = reactors.__init__

    def __init__(self: Any, *args: Any, **kwargs: Any) -> None:
        make(self, *args, **kwargs)
        self._poller = _Poller(self._poller, self, _readiness(shaker, self), unit, write)

    reactors.__init__ = __init__


def _asyncio(shaker: Shaker) -> None:
    try:
        from twisted.internet.asyncioreactor import AsyncioSelectorReactor
    except ImportError:
        return
    make: Callable[..., None] = AsyncioSelectorReactor.__init__

    def __init__(self: Any, *args: Any, **kwargs: Any) -> None:
        make(self, *args, **kwargs)
        loop = self._asyncioEventloop
        if hasattr(loop, "_selector"):  # (another loop than Python's own has none)
            selector = loop._selector
            loop._selector = _Selector(selector, Readiness(shaker, self, _child_waker(), lambda: _watched_by_loop(self, selector)))

    setattr(AsyncioSelectorReactor, "__init__", __init__)


def _select(shaker: Shaker) -> None:
    """select's reactor asks a function of its module, which doesn't get the reactor: that is the one whose turn it is."""
    ask_all: Callable[..., Any] = getattr(selectreactor, "_select")
    turn: Callable[[Any, Any], Any] = selectreactor.SelectReactor.doSelect
    turning: List[Any] = []

    def _select(reads: Any, writes: Any, errors: Any, timeout: Optional[float] = None) -> Any:
        reactor = turning[-1]
        readiness = vars(reactor).get(_READINESS)
        if readiness is None:
            readiness = vars(reactor)[_READINESS] = _readiness(shaker, reactor)

        def ask(seconds: Optional[float]) -> List[Ready]:
            read, written, _ = ask_all(reads, writes, errors, seconds)
            return [*(Ready(each, READ, (READ, each)) for each in read), *(Ready(each, WRITE, (WRITE, each)) for each in written)]

        found = readiness.wait(ask, timeout)
        return [thing for way, thing in found if way == READ], [thing for way, thing in found if way == WRITE], []

    def doSelect(self: Any, timeout: Optional[float]) -> Any:
        turning.append(self)
        try:
            return turn(self, timeout)
        finally:
            turning.pop()

    setattr(selectreactor, "_select", _select)
    setattr(selectreactor.SelectReactor, "doSelect", doSelect)
    setattr(selectreactor.SelectReactor, "doIteration", doSelect)
