"""The instrument of DeferredQueue."""

from __future__ import annotations

from typing import Any, Optional

from twisted.internet.defer import Deferred, DeferredQueue

from ..telling import Action, Observer, Record, Thing, observer_of
from .locks import note_place

_put = DeferredQueue.put
_get = DeferredQueue.get


def thing_of(watcher: Observer, queue: DeferredQueue[Any]) -> Thing:
    """The queue, which is logged where it is met for the first time."""
    known = queue.__dict__.get("_dv_thing")
    if known is not None and known[0] is watcher:
        return known[1]  # type: ignore[no-any-return]
    thing = watcher.thing("queue")
    watcher.note_made(thing, queue.__dict__.get("_dv_made_at"))
    queue.__dict__["_dv_thing"] = (watcher, thing)
    watcher.texts.bind(queue, thing)
    if queue.pending or queue.waiting:
        watcher.problem("a queue that was used before it is recorded", "queue")
    bounds = f" {_bound(queue.size)} {_bound(queue.backlog)}"
    action = Action(["queue", thing, queue.size, queue.backlog])
    watcher.act(action, watcher.tell, "queue ", thing, bounds)
    return thing


def _bound(bound: Optional[int]) -> str:
    return "none" if bound is None else str(bound)


def _instrumented_put(self: DeferredQueue[Any], obj: Any) -> Any:
    watcher = observer_of("queue")
    if watcher is None or watcher.quiet:
        return _put(self, obj)
    return _act_put(watcher, self, obj)


def _act_put(watcher: Observer, queue: DeferredQueue[Any], obj: Any) -> Any:
    thing = thing_of(watcher, queue)
    if isinstance(obj, Deferred):
        watcher.problem("a Deferred is put into a queue", "queue")

    def put() -> Any:
        if queue.waiting or queue.size is None or len(queue.pending) < queue.size:
            watcher.tell("put ", thing, " ", watcher.texts.value(obj))
        return _put(queue, obj)

    action = Action(["put", thing, watcher.value(watcher.texts.outcome(obj))])
    return watcher.act(action, put)


def _instrumented_get(self: DeferredQueue[Any]) -> Any:
    watcher = observer_of("queue")
    if watcher is None or watcher.quiet:
        return _get(self)
    return _act_get(watcher, self)


def _act_get(watcher: Observer, queue: DeferredQueue[Any]) -> Any:
    thing = thing_of(watcher, queue)
    action = Action(["get", None, thing])

    def made(deferred: Deferred[Any], record: Record) -> None:
        action[1] = record
        watcher.tell("get ", thing, " ", record)

    def get() -> Any:
        if queue.pending or queue.backlog is None or len(queue.waiting) < queue.backlog:
            watcher.expect(made)
        else:
            watcher.take_expected()
            action[1] = Thing("unmade")
        return _get(queue)

    return watcher.act(action, get)


def install() -> None:
    """Puts the instrument into the class."""
    note_place(DeferredQueue, "queue")
    setattr(DeferredQueue, "put", _instrumented_put)
    setattr(DeferredQueue, "get", _instrumented_get)
