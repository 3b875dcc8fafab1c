"""The instrument of Deferreds: made, fired, given pairs, paused, cancelled; what runs, and what it gives.

Twisted keeps what a Deferred has in its attribute `result`, which it sets at six places. Which of these a change is
can be told from what the Deferred is doing, so that nothing depends on the lines of Twisted's code:

- a side of its own has just run: that is the side's result;
- it waits for another: that one hands its value over;
- what it has is a Deferred: it takes the value of that one;
- otherwise None is left in it, since its value was taken or handed over.

So `result` is a property, whose value is in the attribute `_dv_result`. Twisted's own functions that fire a Deferred and
run its callbacks find it there, which takes Python a tenth of the time.
"""

from __future__ import annotations

import functools
import sys
from functools import partial
from types import CodeType, FrameType, FunctionType, MethodType
from typing import Any, Callable, Dict, List, Optional, Tuple

from twisted.internet import defer
from twisted.internet.defer import Deferred
from twisted.python.failure import Failure

from ..classes import set_message
from ..profile import Entry
from ..telling import (
    Action,
    Frame,
    Observer,
    Record,
    count_elsewhere,
    is_dead_reference,
    is_deferred,
    looked,
    observers_on,
    refuse_elsewhere,
    switching,
    watched,
)
from ..texts import NULL, Outcome
from .renaming import direct, renamed

#: typed as a function by Twisted, since its overloads say what it gives
DeferredList: Any = defer.DeferredList

_init: Callable[..., None] = Deferred.__init__
_add_callbacks: Callable[..., Any] = Deferred.addCallbacks
_chain_deferred = Deferred.chainDeferred
_add_callback, _add_errback, _add_both = (
    direct(getattr(Deferred, name), "addCallbacks", "_dv_add_callbacks") for name in ("addCallback", "addErrback", "addBoth")
)
_start: Callable[..., None] = renamed(Deferred._startRunCallbacks, "result", "_dv_result", "_dv_result")
_run_callbacks: Callable[..., None] = renamed(Deferred._runCallbacks, "result", "_dv_result", "_dv_result")
#: the same, which tells what it sets
_run_telling: Callable[..., None] = renamed(Deferred._runCallbacks, "result", "_dv_result", "_dv_told_result")
_continuation = Deferred._continuation
_pause = Deferred.pause
_unpause = Deferred.unpause
_cancel = Deferred.cancel
_list_cancel = DeferredList.cancel
_run_code: CodeType = getattr(_run_callbacks, "__code__")
_telling_code: CodeType = getattr(_run_telling, "__code__")
_succeed_code: CodeType = defer.succeed.__code__
_inline_code: CodeType = defer._inlineCallbacks.__code__

_passthru: Callable[..., Any] = defer.passthru
_failthru: Callable[..., Any] = defer._failthru

_NO_RESULT = object()
_NO_KEYWORDS: Dict[str, Any] = {}

#: the arguments of the callback and of the errback of a pair, each with those that have keywords
PairArguments = Tuple[Any, Any, Any, Any]

#: the runs of callbacks that are under way, each with those that handed a value over in it, and where that is logged
_givers: List[List[Tuple[Deferred[Any], int]]] = []

Canceller = Callable[[Deferred[Any]], Any]

#: adds a pair by the function that the program has called, which shows in tracebacks
AddAs = Callable[[Any, Callable[..., Any], Callable[..., Any], PairArguments], object]

#: adds a pair of Twisted's own that is recorded otherwise than others, unless it isn't such a one after all
AddSpecial = Callable[
    [Observer, Deferred[Any], Record, Callable[..., Any], Callable[..., Any], PairArguments], bool
]

#: the functions that make the Deferred of an inline body, and the hidden one of a cancelled one where that isn't in it
_MAKERS_OF_INLINE = ("_cancellableInlineCallbacks", "_handleCancelInlineCallbacks")

#: the errback by which the Deferred of a cancelled inline body begins to wait for a hidden one
_HANDLERS_OF_CANCELS = ("handleCancel", "_handleCancelInlineCallbacks")

#: by the names of their errbacks; and of those that have none, by the names of their callbacks
special_pairs: Dict[str, AddSpecial] = {}
special_callbacks: Dict[str, AddSpecial] = {}


def qualified(function: object) -> str:
    """The name of a function or method with those of what it stands in. Any other object, which might run code, has none."""
    kind = type(function)
    return str(getattr(function, "__qualname__", "")) if kind is FunctionType or kind is MethodType else ""


def result_of(deferred: Deferred[Any]) -> object:
    """What a Deferred has, or `_NO_RESULT`."""
    return getattr(deferred, "_dv_result", _NO_RESULT)


def _get_result(deferred: Any) -> Any:
    """The attribute `result` of a Deferred."""
    try:
        return deferred._dv_result
    except AttributeError:
        raise AttributeError(f"{type(deferred).__name__!r} object has no attribute 'result'") from None


def _set_result(deferred: Any, value: object) -> None:
    """Sets the attribute `result` of a Deferred where its callbacks aren't run: later Twisteds do so in `succeed`."""
    watcher = watched.observer if observers_on else None
    if watcher is not None:
        if not deferred.called and sys._getframe(1).f_code is _succeed_code:
            _tell_made_fired(watcher, deferred, value)
        else:
            watcher.problem("the result of a Deferred is set by hand")
    deferred._dv_result = value


def _set_told_result(deferred: Any, value: object) -> None:
    """Sets what a Deferred has where its callbacks are run, and tells what has come about by that."""
    watcher = watched.observer
    if watcher is None:
        deferred._dv_result = value
        return
    known = deferred._dv_record
    record = known[1] if known is not None and known[0] is watcher else watcher.record(deferred)
    if not watcher.acting:
        watcher.problem("the result of a Deferred is set by hand")
    elif record.ran:
        record.ran = False
        same = record.same
        if same is not None:
            record.same = None
            tell_line = watcher.tell_line
            tell_line(("set ", record, " ", same, None))
            record.outcome = same
        elif not is_deferred(value):
            _tell_set(watcher, record, value)
    else:
        _tell_moved(watcher, deferred, record, result_of(deferred), value)
    deferred._dv_result = value


def _delete_result(deferred: Any) -> None:
    del deferred._dv_result


def _tell_made_fired(watcher: Observer, deferred: Deferred[Any], value: object) -> None:
    """Later Twisteds have `succeed` set the result of the Deferred that it makes, and fire nothing."""
    record = watcher.record(deferred)
    if watcher.quiet:
        _tell_fired(watcher, record, value, _handed_on(watcher, deferred, record, value))
    else:
        outcome = watcher.texts.outcome(value)
        action = watcher.firing(record, value, outcome)
        watcher.act(action, _tell_fired, watcher, record, value, outcome)


def _tell_fired(watcher: Observer, record: Record, result: object, outcome: Outcome) -> None:
    if is_deferred(result):
        watcher.problem("a Deferred is fired with a Deferred")  # earlier Twisteds refuse it
    tell_line = watcher.tell_line
    tell_line(("fire ", record, " ", outcome, None))
    record.fired, record.outcome = True, outcome


def _tell_moved(
    watcher: Observer, deferred: Deferred[Any], record: Record, held: object, value: object
) -> None:
    """Tells what has come about, where a value comes from another Deferred, or goes to one."""
    if record.waits_for is not None and held is not deferred:
        _tell_hand_over(watcher, deferred, record, record.waits_for, held)
    elif value is held:
        record.before = record.outcome
    elif held is deferred:
        if isinstance(value, Failure):
            watcher.end_by_warning(record, watcher.texts.error_of(value))
        record.waits_for = None
        _tell_set(watcher, record, value)
    elif is_deferred(held):
        _tell_taken(watcher, record, watcher.record(held))
    elif value is None:
        record.before, record.outcome = record.outcome, NULL


def _tell_set(watcher: Observer, record: Record, value: object) -> None:
    outcome = watcher.texts.outcome(value)
    if isinstance(value, Failure) and isinstance(value.value, RecursionError):
        watcher.quirk(Entry.PYTHON_STACK)
    tell_line = watcher.tell_line
    tell_line(("set ", record, " ", outcome, None))
    record.outcome = outcome


def _tell_hand_over(
    watcher: Observer, deferred: Deferred[Any], record: Record, giver: Record, held: object
) -> None:
    if giver.hidden_of is None:
        watcher.tell("hand ", giver, " ", record, " ", giver.outcome)
    record.outcome = giver.outcome
    record.waits_for = None
    if deferred.paused > 1:
        watcher.quirk(Entry.PAUSED_RECEIVER)
    elif _givers and isinstance(held, Deferred):
        _givers[-1].append((held, len(watcher.parts)))


def _tell_taken(watcher: Observer, record: Record, giver: Record) -> None:
    if giver.hidden_of is None:
        with watcher.undoing(giver):
            watcher.tell("take ", record, " ", giver, " ", giver.before)
    record.outcome = giver.before


# making


def _instrumented_init(self: Deferred[Any], canceller: Optional[Canceller] = None) -> None:
    if not observers_on:
        return _init(self, canceller)
    watcher = watched.observer
    if watcher is None:
        count_elsewhere()
        _init(self, canceller)
        return
    if canceller is None and not watcher.acting:
        _init(self)
        watcher.make(self)
        return
    record = Record(watcher.frame)
    if canceller is not None and is_inline_canceller(canceller) and "inline" in watcher.kinds:
        _init(self, canceller)
        if sys._getframe(1).f_code.co_name in _HANDLERS_OF_CANCELS:
            record.hidden_of = _cancelled_inline(watcher)
            watcher.keep(self, record)
        else:
            watcher.keep(self, record)
            watcher.made(self, record, "inline")
        return
    if watcher.acting and watcher.quiet:
        _init(self, canceller)
        watcher.keep(self, record)
        watcher.made(self, record, "", True)
        return
    _act_deferred(watcher, self, record, canceller)


def _act_deferred(
    watcher: Observer, deferred: Deferred[Any], record: Record, canceller: Optional[Canceller]
) -> None:
    """The program makes a Deferred, which may have a canceller, or may be made inside an action."""
    action = Action(("deferred", record))
    if canceller is not None and callable(canceller):
        body = watcher.new_body("canceller")
        action.append(body)
        canceller = _instrumented_canceller(watcher, body, canceller)
    _init(deferred, canceller)
    watcher.keep(deferred, record)
    watcher.locate(record)
    watcher.act(action, watcher.made, deferred, record)


def is_inline_canceller(canceller: object) -> bool:
    """Whether it is the canceller that Twisted gives the Deferred of an inline body."""
    name = qualified(canceller)
    return "InlineCallbacks" in name and name.partition(".<locals>.")[0] in _MAKERS_OF_INLINE


def _cancelled_inline(watcher: Observer) -> Optional[Record]:
    """The Deferred, which the program knows, of the inline body that is being cancelled."""
    record = watcher.cancelling[-1] if watcher.cancelling else None
    while record is not None and record.hidden_of is not None:
        record = record.hidden_of
    return record


def _instrumented_canceller(watcher: Observer, body: Any, canceller: Canceller) -> Canceller:
    def cancelled(deferred: Deferred[Any]) -> object:
        if watched.observer is not watcher:
            return canceller(deferred)
        if is_inline_canceller(canceller):
            watcher.problem("a cancel of an inline body that isn't recorded as one")
        return watcher.perform(body, "canceller", None, canceller, (deferred,))

    cancelled.__qualname__ = qualified(canceller) or "cancelled"
    setattr(cancelled, "__wrapped__", canceller)
    return cancelled


# pairs


def _instrumented_add(
    self: Deferred[Any],
    callback: Callable[..., Any],
    errback: Optional[Callable[..., Any]] = None,
    callbackArgs: Any = (),
    callbackKeywords: Any = _NO_KEYWORDS,
    errbackArgs: Any = (),
    errbackKeywords: Any = _NO_KEYWORDS,
) -> Deferred[Any]:
    watcher = watched.observer if observers_on else None
    if watcher is None:
        if observers_on:
            refuse_elsewhere(self)
        _add_callbacks(self, callback, errback, callbackArgs, callbackKeywords, errbackArgs, errbackKeywords)
        return self
    errback = _failthru if errback is None else errback
    _add(watcher, self, callback, errback, callbackArgs, callbackKeywords, errbackArgs, errbackKeywords)
    return self


def _add_as_callbacks(deferred: Any, callback: Callable[..., Any], errback: Callable[..., Any], arguments: PairArguments) -> None:
    _add_callbacks(deferred, callback, errback, *arguments)


def _add_as_callback(deferred: Any, callback: Callable[..., Any], _: Callable[..., Any], arguments: PairArguments) -> None:
    _add_callback(deferred, callback, *arguments[0], **arguments[1])


def _add_as_errback(deferred: Any, _: Callable[..., Any], errback: Callable[..., Any], arguments: PairArguments) -> None:
    _add_errback(deferred, errback, *arguments[2], **arguments[3])


def _add_as_both(deferred: Any, callback: Callable[..., Any], errback: Callable[..., Any], arguments: PairArguments) -> None:
    if callback is errback:
        _add_both(deferred, callback, *arguments[0], **arguments[1])
    else:
        _add_callbacks(deferred, callback, errback, *arguments)


def _add(
    watcher: Observer,
    deferred: Any,
    callback: Callable[..., Any],
    errback: Callable[..., Any],
    on_value: Any,
    by_name: Any,
    on_failure: Any,
    by_name_on_failure: Any,
    add: AddAs = _add_as_callbacks,
) -> None:
    """A pair is added where an observer is on."""
    if not callable(callback) or not callable(errback):
        _add_callbacks(deferred, callback, errback, on_value, by_name, on_failure, by_name_on_failure)
        watcher.problem("a callback that can't be called")  # earlier Twisteds refuse it
        return
    known = deferred._dv_record
    record = known[1] if known is not None and known[0] is watcher else watcher.record(deferred)
    if watcher.acting or deferred.called or record.hidden_of is not None:
        _add_odd(watcher, deferred, record, callback, errback, (on_value, by_name, on_failure, by_name_on_failure), add)
        return
    if errback is _failthru:
        # what most programs do takes Python least here
        body = watcher.new_body("callback")
        action = Action(("addCallback", record, body))
        first, second = _side(watcher, record, callback, body), errback
    else:
        arguments = (on_value, by_name, on_failure, by_name_on_failure)
        special = special_pairs.get(qualified(errback))
        if special is not None and special(watcher, deferred, record, callback, errback, arguments):
            return
        action, first, second = _pair(watcher, record, callback, errback, arguments)
    _add_plain(watcher, deferred, action, first, second, on_value, by_name, on_failure, by_name_on_failure)


@switching
def _add_plain(
    watcher: Observer,
    deferred: Any,
    action: Action,
    first: Callable[..., Any],
    second: Callable[..., Any],
    on_value: Any,
    by_name: Any,
    on_failure: Any,
    by_name_on_failure: Any,
) -> None:
    """The program adds a pair that doesn't run yet."""
    begun = watcher.begin_plain(action, 3)
    try:
        tell_line = watcher.tell_line
        tell_line(("add ", action[1], None))
        _add_callbacks(deferred, first, second, on_value, by_name, on_failure, by_name_on_failure)
    except BaseException as error:
        watcher.end_plain(begun, action, error)
        raise
    watcher.end_plain(begun, action)


def _add_odd(
    watcher: Observer,
    deferred: Any,
    record: Record,
    callback: Callable[..., Any],
    errback: Callable[..., Any],
    arguments: PairArguments,
    add: AddAs,
) -> None:
    """A pair is added to a Deferred that is fired, or hidden, or while Twisted's own code acts."""
    if record.hidden_of is not None:
        if not watcher.quiet:
            watcher.problem("the hidden Deferred of a cancelled inline body is used", "inline")
        _add_callbacks(deferred, callback, errback, *arguments)
        return
    if errback is not _failthru:
        special = special_pairs.get(qualified(errback))
        if special is not None and special(watcher, deferred, record, callback, errback, arguments):
            return
    if watcher.acting and watcher.quiet:
        special = special_callbacks.get(qualified(callback)) if errback is _failthru else None
        if special is None or not special(watcher, deferred, record, callback, errback, arguments):
            add_own_pair(watcher, deferred, record, callback, errback, arguments, add)
    else:
        action, first, second = _pair(watcher, record, callback, errback, arguments)
        watcher.act(action, _tell_pair, watcher, deferred, record, first, second, arguments, add)


def _pair(
    watcher: Observer,
    record: Record,
    callback: Callable[..., Any],
    errback: Callable[..., Any],
    arguments: PairArguments,
) -> Tuple[Action, Callable[..., Any], Callable[..., Any]]:
    """The action that adds a pair of the program's, and the two sides that Twisted is given for it."""
    body = watcher.new_body("callback")
    if errback is _failthru:
        return Action(("addCallback", record, body)), _side(watcher, record, callback, body), errback
    if callback is _passthru:
        return Action(("addErrback", record, body)), callback, _side(watcher, record, errback, body)
    first = _side(watcher, record, callback, body)
    if _is_same_function(callback, errback) and _are_same(arguments):
        return Action(("addBoth", record, body)), first, first
    other = watcher.new_body("callback")
    return Action(("addCallbacks", record, body, other)), first, _side(watcher, record, errback, other)


def _is_same_function(one: object, other: object) -> bool:
    """Whether both are one function, or one method of one object. No object is asked, which might run code."""
    if type(one) is MethodType and type(other) is MethodType:
        return one.__func__ is other.__func__ and one.__self__ is other.__self__
    return one is other


def _are_same(arguments: PairArguments) -> bool:
    """Whether callback and errback have the same objects as arguments. Some give None for none."""
    on_value, by_name, on_failure, by_name_on_failure = arguments
    if on_value is on_failure and by_name is by_name_on_failure:
        return True
    first, second = _parts(on_value, by_name), _parts(on_failure, by_name_on_failure)
    return len(first) == len(second) and all(one is other for one, other in zip(first, second))


def _parts(positional: object, by_name: object) -> List[object]:
    """The arguments one after the other, where these are a tuple or a list, and a dict."""
    parts: List[object] = []
    for given in (positional, by_name):
        if isinstance(given, (tuple, list)):
            parts += given
        elif isinstance(given, dict):
            parts += [part for pair in given.items() for part in pair]
        elif given is not None:
            parts.append(given)
        parts.append(_NO_RESULT)
    return parts


@looked
def _tell_pair(
    watcher: Observer,
    deferred: Deferred[Any],
    record: Record,
    callback: Callable[..., Any],
    errback: Callable[..., Any],
    arguments: PairArguments,
    add: AddAs,
) -> None:
    """Tells that a pair is added, and adds it."""
    tell_line = watcher.tell_line
    tell_line(("add ", record, None))
    add(deferred, callback, errback, arguments)


def add_own_pair(
    watcher: Observer,
    deferred: Deferred[Any],
    record: Record,
    callback: Callable[..., Any],
    errback: Callable[..., Any],
    arguments: PairArguments,
    add: AddAs = _add_as_callbacks,
) -> None:
    """Adds a pair of Twisted's own."""
    first, second = _own_side(watcher, record, callback), _own_side(watcher, record, errback)
    _tell_pair(watcher, deferred, record, first, second, arguments, add)


def add_silently(
    deferred: Deferred[Any],
    callback: Callable[..., Any],
    errback: Callable[..., Any],
    arguments: PairArguments,
) -> None:
    """Adds a pair, of which nothing is recorded."""
    _add_callbacks(deferred, callback, errback, *arguments)


def _side(
    watcher: Observer, record: Record, call: Callable[..., Any], body: Any
) -> Callable[..., Any]:
    """A side of the program's, which runs the body, unless it is what Twisted puts in place of one that isn't given."""
    if call is _passthru:
        return call
    return partial(_run_side, call, watcher, record, body)


def _own_side(watcher: Observer, record: Record, call: Callable[..., Any]) -> Callable[..., Any]:
    """A side of Twisted's own, unless it is what Twisted puts in place of one that isn't given."""
    if call is _passthru or call is _failthru:
        return call
    return partial(_run_own_side, call, watcher, record)


def _stands_for(side: Callable[..., Any]) -> Callable[..., Any]:
    """What was given as a side, where this is what Twisted was given in its place."""
    is_ours = isinstance(side, partial) and side.func in (_run_side, _run_own_side)
    return side.args[0] if is_ours else side  # type: ignore[attr-defined, no-any-return]


def _run_side(
    call: Callable[..., Any],
    watcher: Observer,
    record: Record,
    body: Any,
    /,
    *args: Any,
    **kwargs: Any,
) -> object:
    if watched.observer is not watcher:
        return call(*args, **kwargs)
    tell_line, given = watcher.tell_line, record.outcome
    tell_line(("run ", record, None))
    record.side = body
    before, acting = watcher.frame, watcher.acting
    run = watcher.begin_side(body, given)
    try:
        result = call(*args, **kwargs)
    except BaseException as error:
        watcher.end_body(run, error, None, (args[0], given))
        raise
    else:
        record.same = watcher.end_side(run, result, args[0], given)
        return result
    finally:
        watcher.frame, watcher.acting = before, acting
        record.ran = True


@looked
def _run_own_side(
    call: Callable[..., Any], watcher: Observer, record: Record, /, *args: Any, **kwargs: Any
) -> object:
    if watched.observer is not watcher:
        return call(*args, **kwargs)
    value = args[0]
    tell_line = watcher.tell_line
    tell_line(("run ", record, None))
    given, frame = record.outcome, watcher.frame
    before, frame.passing = frame.passing, (value, given)
    if getattr(call, "__func__", None) is DeferredList._cbDeferred:
        watcher.record(getattr(call, "__self__")).child_came(args[1], given)
    try:
        result = call(*args, **kwargs)
        if result is value and type(result) is list:
            record.same = given
        elif getattr(call, "__wrapped__", call) is _parse_result:
            record.same = _second_parts(given)
        return result
    finally:
        frame.passing = before
        record.ran = True


def running_side() -> Optional[Record]:
    """The Deferred of which Twisted's own side runs, where one does: the innermost."""
    frame: Optional[FrameType] = sys._getframe(1)
    while frame is not None and frame.f_code is not _OWN_SIDE:
        frame = frame.f_back
    return None if frame is None else frame.f_locals["record"]


_OWN_SIDE: CodeType = _run_own_side.__code__


def _second_parts(given: Outcome) -> Optional[Outcome]:
    """What is gathered of a list shows the values of its children as they were when they came."""
    shown = given.value
    if not isinstance(shown, list):
        return None
    if not all(isinstance(item, list) and len(item) == 2 for item in shown):
        return None
    return Outcome([item[1] for item in shown])


_parse_result = defer._parseDeferredListResult


def named_as(call: Callable[..., Any], side: Callable[..., Any]) -> Callable[..., Any]:
    """The side, which warnings and texts of Twisted show as what it stands for."""
    side.__qualname__ = qualified(call) or "side"
    side.__name__ = str(getattr(call, "__name__", "side"))
    side.__module__ = str(getattr(call, "__module__", ""))
    side.__dict__["__wrapped__"] = call
    return side


#: what stands in the place of Twisted's function
_own_add = _instrumented_add
#: whether another one that a Deferred has is called by those that add a pair with one side: later Twisteds add it themselves
_CALLS_ANY: bool = "addCallbacks" in getattr(Deferred.addCallback, "__code__").co_names


def _instrumented_add_callback(
    self: Deferred[Any], callback: Callable[..., Any], *args: Any, **kwargs: Any
) -> Deferred[Any]:
    if _CALLS_ANY and getattr(self.addCallbacks, "__func__", None) is not _own_add:
        return self.addCallbacks(callback, callbackArgs=args, callbackKeywords=kwargs)
    watcher = watched.observer if observers_on else None
    if watcher is None:
        if observers_on:
            refuse_elsewhere(self)
        _add_callbacks(self, callback, None, args, kwargs)
        return self
    _add(watcher, self, callback, _failthru, args, kwargs, (), _NO_KEYWORDS, _add_as_callback)
    return self


def _instrumented_add_errback(
    self: Deferred[Any], errback: Callable[..., Any], *args: Any, **kwargs: Any
) -> Deferred[Any]:
    if _CALLS_ANY and getattr(self.addCallbacks, "__func__", None) is not _own_add:
        return self.addCallbacks(_passthru, errback, errbackArgs=args, errbackKeywords=kwargs)
    watcher = watched.observer if observers_on else None
    if watcher is None:
        if observers_on:
            refuse_elsewhere(self)
        _add_callbacks(self, _passthru, errback, (), _NO_KEYWORDS, args, kwargs)
        return self
    given = _failthru if errback is None else errback
    _add(watcher, self, _passthru, given, (), _NO_KEYWORDS, args, kwargs, _add_as_errback)
    return self


def _instrumented_add_both(
    self: Deferred[Any], callback: Callable[..., Any], *args: Any, **kwargs: Any
) -> Deferred[Any]:
    if _CALLS_ANY and getattr(self.addCallbacks, "__func__", None) is not _own_add:
        return self.addCallbacks(
            callback,
            callback,
            callbackArgs=args,
            errbackArgs=args,
            callbackKeywords=kwargs,
            errbackKeywords=kwargs,
        )
    watcher = watched.observer if observers_on else None
    if watcher is None:
        if observers_on:
            refuse_elsewhere(self)
        _add_callbacks(self, callback, callback, args, kwargs, args, kwargs)
        return self
    errback = _failthru if callback is None else callback
    _add(watcher, self, callback, errback, args, kwargs, args, kwargs, _add_as_both)
    return self


def _instrumented_chain(self: Deferred[Any], other: Deferred[Any]) -> Any:
    watcher = watched.observer if observers_on else None
    if watcher is None or watcher.quiet or not _fires_as_twisted_does(other):
        return _chain_deferred(self, other)  # told as the pair that it is made of
    action = Action(["chain", watcher.record(self), watcher.record(other)])
    return watcher.act(action, _chain_deferred, self, other)


def _fires_as_twisted_does(other: object) -> bool:
    """Whether it is a Deferred whose methods that fire it are Twisted's own."""
    if not isinstance(other, Deferred):
        return False
    fires, fails = getattr(other.callback, "__func__", None), getattr(other.errback, "__func__", None)
    return fires is Deferred.callback and fails is Deferred.errback


# firing


def _instrumented_start(self: Any, result: object) -> None:
    if not observers_on:
        return _start(self, result)
    watcher = watched.observer
    if watcher is None:
        refuse_elsewhere(self)
        _start(self, result)
        return
    known = self._dv_record
    record = known[1] if known is not None and known[0] is watcher else watcher.record(self)
    if isinstance(result, Failure) and isinstance(result.value, _INTERNAL) and "inline" in watcher.kinds:
        record.fired = True
        _start(self, result)
    elif watcher.acting and watcher.quiet:
        if is_dead_reference(result):
            watcher.problem("a weak reference has a method of a Deferred as its callback")
        _fire(watcher, self, record, result, _handed_on(watcher, self, record, result))
    elif watcher.frame.kind == "inline" and _ends_inline(watcher):
        _fire_inline(watcher, self, record, result)
    else:
        if record.hidden_of is not None:
            watcher.problem("the hidden Deferred of a cancelled inline body is used", "inline")
        outcome = watcher.texts.outcome(result)
        action = watcher.firing(record, result, outcome)
        watcher.act(action, _fire, watcher, self, record, result, outcome)


def _fire_inline(
    watcher: Observer, deferred: Deferred[Any], record: Record, result: object
) -> None:
    """An inline body fires its own Deferred. What follows is inside what it was begun by, or gone on with."""
    frame = watcher.frame
    watcher.acting = frame.has_fired = True
    watcher.end_inline(frame, result)
    if frame.outer is not None:
        watcher.frame = frame.outer
    _fire(watcher, deferred, record, result, watcher.texts.outcome(result))


#: the error by which Twisted cancels an inline body, in the versions that have one
_INTERNAL: Tuple[type, ...] = tuple(
    filter(None, [getattr(defer, "_InternalInlineCallbacksCancelledError", None)])
)


def _ends_inline(watcher: Observer) -> bool:
    """Whether an inline body fires its own Deferred: its caller's caller is Twisted's loop over bodies."""
    return "inline" in watcher.kinds and sys._getframe(3).f_code is _inline_code


@looked
def _fire(
    watcher: Observer, deferred: Deferred[Any], record: Record, result: object, outcome: Outcome
) -> None:
    """Tells a firing, by Twisted's own code or by the program, and fires."""
    if record.hidden_of is not None:
        _tell_hidden_firing(watcher, deferred, record, record.hidden_of, result)
    elif not deferred.called:
        if is_deferred(result):
            watcher.problem("a Deferred is fired with a Deferred")  # earlier Twisteds refuse it
        tell_line = watcher.tell_line
        tell_line(("fire ", record, " ", outcome, None))
        record.fired, record.outcome = True, outcome
    elif deferred._suppressAlreadyCalled:
        watcher.tell("swallow ", record)
    else:
        watcher.tell("refuse ", record)
    try:
        _start(deferred, result)
    except defer.AlreadyCalledError as error:
        set_message(error, "")
        raise


def _handed_on(watcher: Observer, deferred: Deferred[Any], record: Record, result: object) -> Outcome:
    """What Twisted hands on shows what it had when it was logged last, though the program has changed it since."""
    passing = watcher.frame.passing
    if passing is not None and passing[0] is result and type(result) is list:
        return passing[1]
    came = _came_to(deferred, record.came, passing, result) if record.kind == "list" and record.came else None
    return watcher.texts.outcome(result) if came is None else came


def _came_to(
    deferred: Any, came: Dict[int, Outcome], passing: Optional[Tuple[object, Outcome]], result: object
) -> Optional[Outcome]:
    """What a DeferredList is fired with, by what its children came with; None, if other code has made it."""
    if type(result) is tuple and len(result) == 2 and passing is not None and result[0] is passing[0]:
        return Outcome([passing[1].value, result[1]]) if type(result[1]) is int and result[1] in came else None
    if result is deferred.resultList and len(deferred.resultList) == len(came):
        return Outcome([[pair[0] is True, came[place].value] for place, pair in enumerate(deferred.resultList)])
    return None


def _tell_hidden_firing(
    watcher: Observer, deferred: Deferred[Any], record: Record, known: Record, result: object
) -> None:
    if deferred.called:
        return
    outcome = watcher.texts.outcome(result)
    watcher.tell("fire ", known, " ", outcome)
    record.outcome = known.outcome = outcome
    record.fired = True


# waits, pauses, cancels


def _instrumented_continuation(self: Deferred[Any]) -> Any:
    """Twisted asks for this where a Deferred begins to wait for what it has."""
    watcher = watched.observer if observers_on else None
    if watcher is not None:
        held = result_of(self)
        record, other = watcher.record(self), watcher.record(held)
        if other.hidden_of is None:
            watcher.tell("wait ", record, " ", other)
        record.waits_for = other
    return _continuation(self)


def _instrumented_run(self: Deferred[Any]) -> None:
    if not observers_on:
        return _run_callbacks(self)
    watcher = watched.observer
    if watcher is None or self._runningCallbacks or not self.callbacks:
        return _run_callbacks(self)
    givers: List[Tuple[Deferred[Any], int]] = []
    _givers.append(givers)
    try:
        _run_telling(self)
    finally:
        _givers.pop()
    for giver, place in givers:
        if _is_abandoned(giver):
            watcher.quirk(Entry.ABANDONED_CHAIN, place)


def _is_abandoned(giver: Deferred[Any]) -> bool:
    """Whether a giver has pairs left that nothing will run, since the loop over its chain has ended."""
    if not giver.callbacks or giver.paused or giver._runningCallbacks:
        return False
    return not any(giver is other for givers in _givers for other, _ in givers)


def _instrumented_pause(self: Deferred[Any]) -> None:
    if not observers_on:
        _pause(self)
        return
    watcher = watched.observer
    if watcher is None:
        refuse_elsewhere(self)
    code = sys._getframe(1).f_code
    if watcher is None or watcher.quiet or code is _telling_code or code is _run_code:
        _pause(self)
        return
    record = watcher.record(self)
    watcher.act(Action(["pause", record]), _tell_paused, watcher, self, record)


def _tell_paused(watcher: Observer, deferred: Deferred[Any], record: Record) -> None:
    watcher.tell("pause ", record)
    if deferred._runningCallbacks:
        watcher.quirk(Entry.PAUSE_IN_OWN_SIDE)
    record.pauses += 1
    _pause(deferred)


def _instrumented_unpause(self: Deferred[Any]) -> None:
    if not observers_on:
        _unpause(self)
        return
    watcher = watched.observer
    if watcher is None:
        refuse_elsewhere(self)
    if watcher is None or watcher.quiet:
        _unpause(self)
        return
    record = watcher.record(self)
    watcher.act(Action(["unpause", record]), _tell_unpaused, watcher, self, record)


def _tell_unpaused(watcher: Observer, deferred: Deferred[Any], record: Record) -> None:
    if record.pauses == 0:
        watcher.quirk(Entry.UNPAUSE_AT_ZERO)
    else:
        watcher.tell("unpause ", record)
        record.pauses -= 1
    _unpause(deferred)


def _instrumented_cancel(self: Deferred[Any]) -> None:
    _cancelled(self, _cancel)


def _instrumented_list_cancel(self: Any) -> None:
    watcher = watched.observer if observers_on else None
    if watcher is not None and watcher.record(self).kind != "list" and not self.called:
        if watcher.quiet:
            watcher.problem("a cancel reaches a DeferredList that isn't recorded as one", "list")
        _list_cancel(self)  # told as what it is made of
        return
    _cancelled(self, _list_cancel)


def _cancelled(deferred: Deferred[Any], cancel: Callable[[Any], None]) -> None:
    if not observers_on:
        cancel(deferred)
        return
    watcher = watched.observer
    if watcher is None:
        refuse_elsewhere(deferred)
        cancel(deferred)
    elif watcher.quiet:
        _tell_cancel(watcher, deferred, cancel)
    else:
        action = Action(["cancel", watcher.record(deferred)])
        watcher.act(action, _tell_cancel, watcher, deferred, cancel)


@looked
def _tell_cancel(
    watcher: Observer, deferred: Deferred[Any], cancel: Callable[[Any], None]
) -> None:
    """Tells a cancel, unless it is one that is passed on along a wait, and cancels."""
    record = watcher.record(deferred)
    if watcher.forwarded is deferred:
        watcher.forwarded = None
    elif record.hidden_of is None:
        watcher.tell("cancel ", record)
        if _waits_in_a_circle(deferred):
            watcher.quirk(Entry.CIRCLE_OF_WAITS)
    held = result_of(deferred)
    if deferred.called and isinstance(held, Deferred):
        if not is_deferred(held):
            watcher.problem("a cancel is passed on to a Deferred that Twisted takes for a value")
        if isinstance(deferred, DeferredList):
            watcher.quirk(Entry.CANCEL_OF_A_FIRED_LIST)
        else:
            watcher.forwarded = held
    if deferred.called or "inline" not in watcher.kinds or not is_inline_canceller(deferred._canceller):
        try:
            cancel(deferred)
        finally:
            watcher.forwarded = None  # (a subclass may not have passed it on)
        return
    _note_cancelled_inline(watcher, record)
    before = watcher.cancelling
    watcher.cancelling = (*before, record)
    try:
        cancel(deferred)
    finally:
        watcher.cancelling = before


def _note_cancelled_inline(watcher: Observer, record: Record) -> None:
    known: Optional[Record] = record
    while known is not None and known.hidden_of is not None:
        known = known.hidden_of
    frame: Optional[Frame] = known.body if known is not None else None
    awaits = frame is not None and frame.awaits
    entry = Entry.CANCELLED_INLINE if awaits else Entry.CANCELLED_RUNNING_INLINE
    watcher.quirk(entry)


def _waits_in_a_circle(deferred: Deferred[Any]) -> bool:
    seen = set()
    while deferred.called and id(deferred) not in seen:
        seen.add(id(deferred))
        held = result_of(deferred)
        if not isinstance(held, Deferred):
            return False
        deferred = held
    return bool(deferred.called)



def runs_callbacks() -> bool:
    """Whether the callbacks of a Deferred are being run."""
    return bool(_givers)


def take_over(watcher: Observer, deferred: Any, record: Record) -> List[Any]:
    """Has the pairs of a Deferred that another observer has known be told by this one, as pairs of the program's.

    Gives what is in its queue, in order: the action that adds a pair, or a Deferred that waits.
    """
    queue: List[Any] = []
    for place, ((callback, *on_value), (errback, *on_failure)) in enumerate(deferred.callbacks):
        if callback is _CONTINUE:
            queue.append(on_value[0][0])
            continue
        arguments = on_value[0], on_value[1], on_failure[0], on_failure[1]
        action, first, second = _pair(watcher, record, _stands_for(callback), _stands_for(errback), arguments)
        deferred.callbacks[place] = (first, *on_value), (second, *on_failure)
        queue.append(action)
    return queue


def take_over_canceller(watcher: Observer, deferred: Any) -> Any:
    """Likewise its canceller: the body of that, or None where there is none."""
    canceller = deferred._canceller
    if canceller is None or not callable(canceller):
        return None
    if getattr(canceller, "__code__", None) is _CANCELLED:
        canceller = canceller.__wrapped__
    body = watcher.new_body("canceller")
    deferred._canceller = _instrumented_canceller(watcher, body, canceller)
    return body


_CONTINUE: object = getattr(defer, "_Sentinel")._CONTINUE

#: the code of the cancellers that stand in the place of the program's
_CANCELLED = getattr(_instrumented_canceller(Observer(), None, defer.passthru), "__code__")


def _warn_about(offender: Callable[..., Any], text: str) -> None:
    """Warns of the function that a side stands for."""
    _warn(_stands_for(offender), text)


_warn: Callable[..., Any] = getattr(defer, "warnAboutFunction")


def install() -> None:
    """Puts the instrument into Deferred and DeferredList."""
    setattr(defer, "warnAboutFunction", _warn_about)
    setattr(Deferred, "result", property(_get_result, _set_result, _delete_result))
    setattr(Deferred, "_dv_told_result", property(fset=_set_told_result))
    setattr(Deferred, "_dv_record", None)
    setattr(Deferred, "_dv_add_callbacks", _add_callbacks)
    wrapped: Dict[str, Callable[..., Any]] = {
        "__init__": _instrumented_init,
        "addCallbacks": _instrumented_add,
        "addCallback": _instrumented_add_callback,
        "addErrback": _instrumented_add_errback,
        "addBoth": _instrumented_add_both,
        "chainDeferred": _instrumented_chain,
        "_startRunCallbacks": _instrumented_start,
        "_runCallbacks": _instrumented_run,
        "_continuation": _instrumented_continuation,
        "pause": _instrumented_pause,
        "unpause": _instrumented_unpause,
        "cancel": _instrumented_cancel,
    }
    for name, instrument in wrapped.items():
        setattr(Deferred, name, functools.wraps(getattr(Deferred, name))(instrument))
    DeferredList.cancel = functools.wraps(_list_cancel)(_instrumented_list_cancel)
