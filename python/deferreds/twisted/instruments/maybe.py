"""The instrument of `maybeDeferred`."""

from __future__ import annotations

from types import CoroutineType
from typing import Any, Callable, List

from twisted.internet import defer, task
from twisted.internet.defer import Deferred

from ..telling import Action, Observer, Record, is_deferred, looked, observers_on, watched

_maybe = defer.maybeDeferred


async def _nothing() -> None:
    """A coroutine function."""


def _makes_of_coroutines() -> bool:
    """Whether `maybeDeferred` makes a Deferred of a coroutine that it is given, as later Twisteds do."""
    coroutine: Any = _nothing()
    made: Any = _maybe(lambda: coroutine)
    coroutine.close()
    return made.result is not coroutine


_makes = _makes_of_coroutines()


def making(f: Callable[..., Any]) -> Callable[..., Any]:
    """The function, which makes the Deferred of a coroutine itself where `maybeDeferred` would."""

    def call(*args: Any, **kwargs: Any) -> Any:
        result = f(*args, **kwargs)
        return Deferred.fromCoroutine(result) if type(result) is CoroutineType else result

    return call if _makes else f


def _instrumented_maybe(f: Callable[..., Any], *args: Any, **kwargs: Any) -> Any:
    watcher = watched.observer if observers_on else None
    if watcher is None:
        return _maybe(f, *args, **kwargs)
    if watcher.quiet:
        return _of_twisteds_own(watcher, f, args, kwargs)
    if "maybe" not in watcher.kinds:
        return _maybe(f, *args, **kwargs)
    return _act(watcher, f, args, kwargs)


def _act(watcher: Observer, f: Callable[..., Any], args: Any, kwargs: Any) -> Any:
    body = watcher.new_body("maybe")
    action = Action(["maybe", None, body])

    def made(deferred: Deferred[Any], record: Record) -> None:
        action[1] = record

    def make() -> Deferred[Any]:
        expected = watcher.take_expected()
        given: List[Deferred[Any]] = []

        def perform() -> Any:
            result = watcher.perform(body, "maybe", None, making(f), args, kwargs)
            watcher.put_expected(expected)
            if is_deferred(result):
                given.append(result)
            else:
                watcher.expect(made)
            return result

        def failing() -> Any:
            try:
                return perform()
            except BaseException:
                watcher.put_expected(expected)
                watcher.expect(made)
                raise

        deferred: Deferred[Any] = _maybe(failing)
        if given:
            action[1] = watcher.record(deferred)
            watcher.rename(deferred)
        return deferred

    return watcher.act(action, make)


@looked
def _of_twisteds_own(
    watcher: Observer, f: Callable[..., Any], args: Any, kwargs: Any
) -> Deferred[Any]:
    """In a turn of a loop, or with a token: a Deferred that is made of what the body gives has no name."""
    turn, watcher.turn = watcher.turn, None

    def perform() -> Any:
        if turn is None:
            return f(*args, **kwargs)
        return watcher.perform(turn, "turn", None, making(f), args, kwargs)

    frame = watcher.frame
    before, frame.anonymous = frame.anonymous, True
    try:
        return _maybe(perform)
    finally:
        frame.anonymous = before


def install() -> None:
    """Puts the instrument into the modules of Twisted that use `maybeDeferred`."""
    setattr(defer, "maybeDeferred", _instrumented_maybe)
    setattr(task, "maybeDeferred", _instrumented_maybe)
