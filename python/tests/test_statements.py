"""Statements of inline bodies, as they are played on real Twisted, beside functions that say the same in Python."""

from __future__ import annotations

import json
import sys
import unittest
from typing import Any, Callable, Generator, List, NamedTuple

from twisted.internet.defer import Deferred, inlineCallbacks, succeed
from twisted.python.failure import Failure

from deferreds.twisted.running import be_quiet, run

_failure: Callable[..., Failure] = Failure


class Waits(NamedTuple):
    """What a body may await: it is fired later with `"t"`, with 2, and with TypeError `t`."""

    a: Deferred[Any]
    b: Deferred[Any]
    late: Deferred[Any]


Function = Callable[[Waits], Generator[Deferred[Any], Any, Any]]


class Case(NamedTuple):
    """What happens, in the words of a script and in Python."""

    what: str
    statements: List[Any]
    function: Function


def plus(value: object) -> int:
    """What `["plus",1]` returns."""
    if type(value) is not int:
        raise TypeError("plus")
    return value + 1


def held(value: Any) -> Any:
    """What `["throw",[0]]` returns."""
    found = value[0] if isinstance(value, list) and value else None
    if not isinstance(found, Failure):
        raise TypeError("throw")
    return getattr(found, "raiseException")()


def active() -> List[Failure]:
    """What `["caught"]` makes."""
    return [_failure(sys.exc_info()[1])]


def raised_in_a_try(on: Waits) -> Any:
    try:
        raise ValueError("x")
    except ValueError:
        return active()
    yield


def raised_in_a_finally(on: Waits) -> Any:
    try:
        raise ValueError("x")
    finally:
        raise
    yield


def thrown_on(on: Waits) -> Any:
    try:
        try:
            raise ValueError("x")
        finally:
            yield on.b
    except ValueError:
        return active()


def of_another_class(on: Waits) -> Any:
    try:
        try:
            raise ValueError("x")
        except TypeError:
            pass
    finally:
        raise
    yield


def plus_of_nothing(on: Waits) -> Any:
    try:
        return plus(None)
    except TypeError:
        return active()
    yield


def plus_after_a_wait(on: Waits) -> Any:
    try:
        value = yield on.a
        return plus(value)
    finally:
        yield on.b
        raise


def a_sum(on: Waits) -> Any:
    try:
        value = yield on.b
        return plus(value)
    except TypeError:
        pass


def held_in_a_try(on: Waits) -> Any:
    try:
        value = yield succeed([_failure(ValueError("x"))])
        return held(value)
    except ValueError:
        return active()


def none_held(on: Waits) -> Any:
    try:
        value = yield on.a
        return held(value)
    except TypeError:
        return active()


def returned_in_a_try(on: Waits) -> Any:
    try:
        return [_failure(ValueError("x"))]
    except Exception:
        pass
    yield


def returned_in_a_finally(on: Waits) -> Any:
    try:
        raise ValueError("x")
    except ValueError:
        try:
            return [_failure(TypeError("t"))]
        finally:
            raise
    yield


def passed_in_a_try(on: Waits) -> Any:
    try:
        value = yield on.a
        return value
    except Exception:
        pass


def replaced_by_another(on: Waits) -> Any:
    try:
        try:
            raise ValueError("x")
        finally:
            raise TypeError("t")
    finally:
        raise
    yield


def replaced_by_a_value(on: Waits) -> Any:
    try:
        try:
            raise ValueError("x")
        finally:
            return 2
    except Exception:
        pass
    yield


def a_value_replaced(on: Waits) -> Any:
    try:
        try:
            return 2
        finally:
            raise ValueError("x")
    except ValueError:
        return active()
    yield


def in_the_second_of_a_try(on: Waits) -> Any:
    try:
        try:
            raise ValueError("x")
        except ValueError:
            raise TypeError("t")
    except TypeError:
        return active()
    yield


def caught_again(on: Waits) -> Any:
    try:
        raise ValueError("x")
    finally:
        try:
            raise
        except ValueError:
            yield on.b


def active_after_a_wait_that_fails(on: Waits) -> Any:
    try:
        raise ValueError("x")
    except ValueError:
        try:
            yield on.late
        except TypeError:
            pass
        raise


_X: List[Any] = ["end", ["raise", "ValueError", "x"]]
_T: List[Any] = ["end", ["raise", "TypeError", "t"]]
_NOTHING: List[Any] = []

CASES = (
    Case("raise in a try", [["try", [_X], ["ValueError"], [["caught"], ["end", ["pass"]]]]], raised_in_a_try),
    Case("raise in a finally", [["finally", [_X], [["raise"]]]], raised_in_a_finally),
    Case("raise, thrown on", [["try", [["finally", [_X], [["await", "b"]]]], ["ValueError"], [["caught"], ["end", ["pass"]]]]], thrown_on),
    Case("raise of another class", [["finally", [["try", [_X], ["TypeError"], _NOTHING]], [["raise"]]]], of_another_class),
    Case("plus in a try", [["try", [["end", ["plus", 1]]], ["TypeError"], [["caught"], ["end", ["pass"]]]]], plus_of_nothing),
    Case("plus in a finally", [["finally", [["await", "a"], ["end", ["plus", 1]]], [["await", "b"], ["raise"]]]], plus_after_a_wait),
    Case("plus that returns", [["try", [["await", "b"], ["end", ["plus", 1]]], ["TypeError"], _NOTHING]], a_sum),
    Case(
        "throw in a try",
        [
            ["try", [["try", [_X], ["ValueError"], [["caught"]]], ["end", ["throw", [0]]]], ["ValueError"], [["caught"], ["end", ["pass"]]]],
        ],
        held_in_a_try,
    ),
    Case("throw of none", [["try", [["await", "a"], ["end", ["throw", [0]]]], ["TypeError"], [["caught"], ["end", ["pass"]]]]], none_held),
    Case(
        "return in a try",
        [["try", [["end", ["return", [{"fail": "ValueError", "message": "x"}]]]], ["Exception"], _NOTHING]],
        returned_in_a_try,
    ),
    Case(
        "return in a finally",
        [["try", [_X], ["ValueError"], [["finally", [["end", ["return", [{"fail": "TypeError", "message": "t"}]]]], [["raise"]]]]]],
        returned_in_a_finally,
    ),
    Case("pass in a try", [["try", [["await", "a"], ["end", ["pass"]]], ["Exception"], _NOTHING]], passed_in_a_try),
    Case("a failure in place of a failure", [["finally", [["finally", [_X], [_T]]], [["raise"]]]], replaced_by_another),
    Case(
        "a value in place of a failure",
        [["try", [["finally", [_X], [["end", ["return", 2]]]]], ["Exception"], _NOTHING]],
        replaced_by_a_value,
    ),
    Case(
        "a failure in place of a value",
        [["try", [["finally", [["end", ["return", 2]]], [_X]]], ["ValueError"], [["caught"], ["end", ["pass"]]]]],
        a_value_replaced,
    ),
    Case(
        "raise in the second statements of a try",
        [["try", [["try", [_X], ["ValueError"], [_T]]], ["TypeError"], [["caught"], ["end", ["pass"]]]]],
        in_the_second_of_a_try,
    ),
    Case(
        "raise that the second statements catch",
        [["finally", [_X], [["try", [["raise"]], ["ValueError"], [["await", "b"]]]]]],
        caught_again,
    ),
    Case(
        "a failure is active after a wait that fails",
        [["try", [_X], ["ValueError"], [["try", [["await", "late"]], ["TypeError"], _NOTHING], ["raise"]]]],
        active_after_a_wait_that_fails,
    ),
)


def by_script(statements: List[Any], version: int) -> str:
    """What the Deferred of an inline body shows at the end."""
    be_quiet()
    events = [
        ["deferred", "a"],
        ["deferred", "b"],
        ["deferred", "late"],
        ["inline", "d", statements],
        ["callback", "a", "t"],
        ["callback", "b", 2],
        ["errback", "late", "TypeError", "t"],
    ]
    return run(json.dumps({"version": version, "events": events}).encode()).outcomes[-1]


def by_python(function: Function) -> str:
    """The same for a function that says it."""
    on = Waits(Deferred(), Deferred(), Deferred())
    results: List[object] = []
    inlineCallbacks(function)(on).addBoth(results.append)
    on.a.callback("t")
    on.b.callback(2)
    on.late.addErrback(lambda failure: None)
    on.late.errback(TypeError("t"))
    (result,) = results
    return f"#3 d {_shown(result)}"


def _shown(result: object) -> str:
    if isinstance(result, Failure):
        return f"fail {result.type.__name__} {json.dumps(result.getErrorMessage())}"
    return f"ok {json.dumps(result, default=_as_json, separators=(',', ':'))}"


def _as_json(failure: Failure) -> object:
    return {"fail": failure.type.__name__, "message": failure.getErrorMessage()}


class Played(unittest.TestCase):
    """Statements of version 3 do what Python's do."""

    def test_each_body_ends_as_the_function_that_says_the_same(self) -> None:
        for case in CASES:
            with self.subTest(case.what):
                self.assertEqual(by_script(case.statements, 3), by_python(case.function))


if __name__ == "__main__":
    unittest.main()
