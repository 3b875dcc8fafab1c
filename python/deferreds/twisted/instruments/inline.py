"""The instrument of `inlineCallbacks` and of coroutines: made, and what their bodies await."""

from __future__ import annotations

import functools
from typing import Any, Callable, List

from twisted.internet import defer
from twisted.internet.defer import Deferred
from twisted.python.failure import Failure

from ..telling import Action, Frame, Observer, Record, observer_of, switching, watched
from .deferreds import PairArguments, add_silently, named_as, result_of, special_pairs

_cancellable = defer._cancellableInlineCallbacks
_inline_callbacks = defer._inlineCallbacks
#: what a coroutine asks a Deferred by: in earlier Twisteds a Deferred is its own iterator
_ASKS = "send" if hasattr(Deferred, "send") else "__iter__"
_asked: Callable[..., Any] = getattr(Deferred, _ASKS)

#: the names, in one version or another, of the errback by which a body awaits
AWAITS = ("_inlineCallbacks.<locals>.gotResult", "_gotResultInlineCallbacks")

#: and of the errback by which the Deferred of a cancelled body waits for a hidden one
HIDDEN = ("_cancellableInlineCallbacks.<locals>.handleCancel", "_handleCancelInlineCallbacks")

#: the frames of bodies that are made, until Twisted begins to run them
_begun: List[Frame] = []
#: the generators and coroutines of bodies that run, the innermost last
_going_on: List[Any] = []


def _instrumented_cancellable(gen: Any) -> Any:
    watcher = observer_of("inline")
    if watcher is None:
        return _cancellable(gen)
    if watcher.quiet:
        watcher.problem("an inline body that Twisted makes", "inline")
        return _cancellable(gen)
    return _act(watcher, gen)


def _act(watcher: Observer, gen: Any) -> Any:
    body = watcher.new_body("inline")
    frame = watcher.begin_body(body, "inline", None)
    action = Action(["inline", None, body])

    def made(deferred: Deferred[Any], record: Record) -> None:
        action[1] = record
        frame.record = record
        record.body = frame

    def make() -> Any:
        watcher.maker = getattr(gen, "__name__", None)
        watcher.expect(made)
        _begun.append(frame)
        return _cancellable(gen)

    watcher.note_call(action, gen)
    is_nested = watcher.begin_inline(body)
    deferred = watcher.act(action, make)
    if is_nested:
        watcher.end_inline_action(action)
    return deferred


@switching
def _instrumented_inline(result: object, gen: Any, status: Any, *context: Any) -> None:
    watcher = observer_of("inline")
    if watcher is None:
        _inline_callbacks(result, gen, status, *context)
        return
    kept = status.__dict__.get("_dv_frame")
    if kept is None and _begun:
        kept = status.__dict__["_dv_frame"] = (watcher, _begun.pop())
    if kept is None or kept[0] is not watcher:
        _inline_callbacks(result, gen, status, *context)
        return
    frame: Frame = kept[1]
    acting, outer = watcher.acting, watcher.frame
    watcher.acting, watcher.frame, frame.outer = False, frame, outer
    _going_on.append(gen)
    try:
        _inline_callbacks(result, gen, status, *context)
    except BaseException:
        if not frame.has_fired:
            watcher.problem("an inline body gives a Deferred as its result", "inline")  # later Twisteds take it
        raise
    finally:
        _going_on.pop()
        watcher.acting, watcher.frame = acting, outer


def _add_await(
    watcher: Observer,
    deferred: Deferred[Any],
    record: Record,
    callback: Callable[..., Any],
    errback: Callable[..., Any],
    arguments: PairArguments,
) -> bool:
    """The pair by which an inline body awaits."""
    frame = watcher.frame
    if "inline" not in watcher.kinds or frame.kind != "inline" or watcher.quiet:
        return False
    came: List[bool] = []
    watcher.own(_await, watcher, deferred, record, callback, arguments, came)
    if not came:
        frame.awaits = True
    return True


def _await(
    watcher: Observer,
    deferred: Deferred[Any],
    record: Record,
    callback: Callable[..., Any],
    arguments: PairArguments,
    came: List[bool],
) -> None:
    """Tells that the body that runs awaits, and adds the pair; has `came` hold something when the result has come."""
    frame = watcher.frame
    awaited = watcher.begin_await(frame, record)
    watcher.locate_await(awaited, _going_on[-1] if _going_on else None)
    if frame.record is not None:
        watcher.tell("await ", frame.record, " ", record)
    watcher.tell("add ", record)

    def got(value: object, *args: Any, **kwargs: Any) -> object:
        if watched.observer is not watcher:
            return callback(value, *args, **kwargs)
        came.append(True)
        watcher.tell("run ", record)
        frame.awaits, frame.present = False, record.outcome
        watcher.end_await(awaited, value, record.outcome)
        try:
            return callback(value, *args, **kwargs)
        finally:
            record.ran = True

    add_silently(deferred, named_as(callback, got), got, arguments)


def _add_hidden(
    watcher: Observer,
    deferred: Deferred[Any],
    record: Record,
    callback: Callable[..., Any],
    errback: Callable[..., Any],
    arguments: PairArguments,
) -> bool:
    """The pair by which Twisted has the Deferred of a cancelled inline body wait for a hidden one."""
    if "inline" not in watcher.kinds:
        return False
    add_silently(deferred, callback, errback, arguments)
    return True


def _instrumented_asked(self: Deferred[Any], *given: object) -> Any:
    """A coroutine that awaits a fired Deferred asks it for what it has, and adds no pair; a failure isn't lost then."""
    watcher = watched.observer
    if watcher is not None and not self.paused and not self._runningCallbacks:
        held = result_of(self)
        if isinstance(held, Failure) and not watcher.is_settled(self):
            _tell_failure_taken(watcher, self, held)
    return _asked(self, *given)


def _tell_failure_taken(watcher: Observer, deferred: Deferred[Any], failure: Failure) -> None:
    """Tells that a coroutine awaits a failed Deferred, or where coroutines aren't told as such that an errback takes it."""
    frame, record = watcher.frame, watcher.record(deferred)
    if "inline" in watcher.kinds and frame.kind == "inline" and not watcher.acting:
        watcher.own(_await_failure, watcher, deferred, record, failure)
    elif not watcher.quiet:
        _take_by_errback(watcher, deferred, record, failure)


def _take_by_errback(watcher: Observer, deferred: Deferred[Any], record: Record, failure: Failure) -> None:
    """Tells that an errback takes the failure of a Deferred, and gives None."""
    body = watcher.new_body("callback")
    watcher.begin_body(body, "callback", (failure, record.outcome)).end = ["return", None]
    watcher.act(Action(["addErrback", record, body]), watcher.settle, deferred, record)


def _await_failure(watcher: Observer, deferred: Deferred[Any], record: Record, failure: Failure) -> None:
    """Tells that the body that runs awaits a failed Deferred, whose failure is thrown in it."""
    frame, outcome = watcher.frame, record.outcome
    awaited = watcher.begin_await(frame, record)
    if frame.record is not None:
        watcher.tell("await ", frame.record, " ", record)
    watcher.settle(deferred, record)
    watcher.end_await(awaited, failure, outcome)


def install() -> None:
    """Puts the instrument into twisted.internet.defer."""
    asked = functools.wraps(_asked)(_instrumented_asked)
    setattr(Deferred, _ASKS, asked)
    setattr(Deferred, "__next__" if _ASKS == "send" else "__await__", asked)
    setattr(defer, "_cancellableInlineCallbacks", _instrumented_cancellable)
    setattr(defer, "_inlineCallbacks", _instrumented_inline)
    special_pairs.update(dict.fromkeys(AWAITS, _add_await))
    special_pairs.update(dict.fromkeys(HIDDEN, _add_hidden))
