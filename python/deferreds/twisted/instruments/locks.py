"""The instrument of DeferredLock and DeferredSemaphore."""

from __future__ import annotations

import functools
from typing import Any, Callable, Type, Union

from twisted.internet import defer
from twisted.internet.defer import Deferred, DeferredLock, DeferredSemaphore

from ..classes import set_message
from ..telling import Action, Observer, Record, Thing, observer_of
from .maybe import making

Primitive = Union[DeferredLock, DeferredSemaphore]


def thing_of(watcher: Observer, primitive: Primitive) -> Thing:
    """The lock or semaphore, which is logged where it is met for the first time."""
    known = primitive.__dict__.get("_dv_thing")
    if known is not None and known[0] is watcher:
        return known[1]  # type: ignore[no-any-return]
    semaphore = isinstance(primitive, DeferredSemaphore)
    thing = watcher.thing("semaphore" if semaphore else "lock")
    watcher.note_made(thing, primitive.__dict__.get("_dv_made_at"))
    primitive.__dict__["_dv_thing"] = (watcher, thing)
    watcher.texts.bind(primitive, thing)
    if primitive.waiting or _is_held(primitive):
        watcher.problem("a lock or semaphore that was used before it is recorded", "lock")
    if isinstance(primitive, DeferredSemaphore):
        tokens = primitive.limit
        action = Action(["semaphore", thing, tokens])
        watcher.act(action, watcher.tell, "semaphore ", thing, f" {tokens}")
    else:
        watcher.act(Action(["lock", thing]), watcher.tell, "lock ", thing)
    return thing


def _is_held(primitive: Primitive) -> bool:
    """Whether a token of it is given."""
    if isinstance(primitive, DeferredSemaphore):
        return bool(primitive.tokens < primitive.limit)
    return bool(primitive.locked)


def _asking(
    watcher: Observer, action: Action, thing: Thing, call: Callable[[], Any]
) -> Any:
    """Performs an action by which a new Deferred asks for a token."""

    def made(deferred: Deferred[Any], record: Record) -> None:
        action[1] = record
        watcher.tell("acquire ", thing, " ", record)

    def ask() -> Any:
        watcher.expect(made)
        return call()

    return watcher.act(action, ask)


def _instrument(cls: Type[Any]) -> None:
    acquire, release, run = cls.acquire, cls.release, cls.run

    def instrumented_acquire(self: Any) -> Any:
        watcher = observer_of("lock")
        if watcher is None or watcher.quiet:
            return acquire(self)
        thing = thing_of(watcher, self)
        return _asking(watcher, Action(["acquire", None, thing]), thing, lambda: acquire(self))

    def instrumented_release(self: Any) -> Any:
        watcher = observer_of("lock")
        if watcher is None:
            return release(self)
        if watcher.quiet:
            return _give_back(watcher, self, release)
        action = Action(["release", thing_of(watcher, self)])
        return watcher.act(action, _give_back, watcher, self, release)

    def instrumented_run(self: Any, f: Callable[..., Any], *args: Any, **kwargs: Any) -> Any:
        watcher = observer_of("lock")
        if watcher is None or watcher.quiet:
            return run(self, f, *args, **kwargs)
        thing, body = thing_of(watcher, self), watcher.new_body("run")
        perform = _performing(watcher, body, f)
        action = Action(["runWith", None, thing, body])
        return _asking(watcher, action, thing, lambda: run(self, perform, *args, **kwargs))

    cls.acquire, cls.release, cls.run = (
        instrumented_acquire,
        instrumented_release,
        instrumented_run,
    )


def _performing(
    watcher: Observer, body: Any, f: Callable[..., Any]
) -> Callable[..., Any]:
    """The function of a run, as a body."""

    def perform(*args: Any, **kwargs: Any) -> Any:
        if observer_of("lock") is not watcher:
            return f(*args, **kwargs)
        return watcher.perform(body, "run", None, making(f), args, kwargs)

    return perform


def _give_back(watcher: Observer, primitive: Primitive, release: Callable[[Any], Any]) -> Any:
    held = _is_held(primitive)
    if held:
        watcher.tell("release ", thing_of(watcher, primitive))
    try:
        return release(primitive)
    except AssertionError as error:
        if not held:
            set_message(error, "not held")
        raise


def note_place(cls: Type[Any], kind: str) -> None:
    """Has objects of a class know where they were made: a lock is recorded only where it is used first."""
    init = cls.__init__

    @functools.wraps(init)
    def instrumented_init(self: Any, *args: Any, **kwargs: Any) -> None:
        watcher = observer_of(kind)
        if watcher is not None:
            self.__dict__["_dv_made_at"] = watcher.spot()
        init(self, *args, **kwargs)

    setattr(cls, "__init__", instrumented_init)


def install() -> None:
    """Puts the instrument into both classes."""
    note_place(DeferredLock, "lock")
    note_place(DeferredSemaphore, "lock")
    _instrument(defer.DeferredLock)
    _instrument(defer.DeferredSemaphore)
