"""What is recorded of programs: the script, its journal, and what is refused."""

from __future__ import annotations

import json
import math
import os
import sys
import tempfile
import unittest
from pathlib import Path
from typing import Any, Callable, List

from twisted.internet import base, defer, reactor, task
from twisted.python.failure import Failure

from deferreds.twisted.instruments import install
from deferreds.twisted.instruments.maybe import making
from deferreds.twisted.recording.programs import NotLoaded, tests_of
from deferreds.twisted.recording.recorder import Recorder
from deferreds.twisted.recording.saying import Said
from deferreds.twisted.running import be_quiet, run
from deferreds.twisted.telling import KINDS, is_deferred

from . import forked


def recorded(program: Callable[[], object], kinds: frozenset[str] = KINDS) -> Said:
    """A run of the program, said."""
    be_quiet()
    install()
    recorder = Recorder(kinds)
    with recorder.watching():
        program()
    return Said(recorder)


class Unaware:
    """Doesn't tell the class above it of those below."""

    def __init_subclass__(cls, **kwargs: Any) -> None:
        pass


class Unregistered(Unaware, defer.Deferred[int]):
    """A Deferred that later Twisteds take for a value."""


class Recorded(unittest.TestCase):
    """Programs that a script can say."""

    def assert_said(self, program: Callable[[], object]) -> List[Any]:
        """It is said whole, and the script prints the journal of the program on Twisted; gives the events."""
        said = recorded(program)
        self.assertEqual(said.problems, [])
        self.assertEqual(run(said.text.encode()).output, said.output)
        events: List[Any] = json.loads(said.text)["events"]
        return events

    def test_a_callback_is_a_body_that_was_filled_by_its_run(self) -> None:
        def program() -> None:
            first: defer.Deferred[int] = defer.Deferred()
            second: defer.Deferred[int] = defer.Deferred()

            def fire(value: int) -> str:
                second.callback(value + 1)
                return "done"

            first.addCallback(fire)
            first.callback(3)

        events = self.assert_said(program)
        first, second = events[0][1], events[1][1]
        self.assertRegex(first, r"^program_\d+$")
        self.assertEqual(int(second.split("_")[1]), int(first.split("_")[1]) + 1)
        body = {"do": [["callback", second, 4]], "end": ["return", "done"]}
        self.assertEqual(events[2:], [["addCallback", first, body], ["callback", first, 3]])

    def test_a_failure_in_a_list_is_said_in_the_third_version(self) -> None:
        def program() -> None:
            first: defer.Deferred[Any] = defer.Deferred()
            first.callback([(False, Failure(ValueError("no"))), (True, 1)])

        told = [[False, {"fail": "ValueError", "message": "no"}], [True, 1]]
        name, *events = [event[1:] for event in self.assert_said(program)]
        self.assertEqual(events, [[name[0], told]])
        self.assertEqual(json.loads(recorded(program).text)["version"], 3)

    def test_the_results_of_a_list_that_a_program_passes_on(self) -> None:
        def program() -> None:
            child: defer.Deferred[Any] = defer.Deferred()
            results: defer.Deferred[Any] = defer.Deferred()
            both = defer.DeferredList([child, defer.succeed(2)], consumeErrors=True)
            both.addCallback(lambda told: results.callback([told, "kept"]))
            child.errback(ValueError("no"))

        said = recorded(program)
        told = [[False, {"fail": "ValueError", "message": "no"}], [True, 2]]
        self.assert_said(program)
        self.assertIn(json.dumps([told, "kept"], separators=(",", ":")), said.text)
        self.assertEqual(json.loads(said.text)["version"], 3)

    def test_a_failure_that_a_body_catches_is_told_by_a_helper(self) -> None:
        def program() -> None:
            fired = defer.succeed(1)

            def twice(value: int) -> int:
                try:
                    fired.callback(2)
                except defer.AlreadyCalledError:
                    pass
                return value

            defer.succeed(5).addCallback(twice)

        said = recorded(program)
        self.assertEqual(said.problems, [])
        self.assertIn("refuse #0", said.journal)
        self.assertIn("fire #2 ok null", said.journal)
        self.assertEqual(run(said.text.encode()).output, said.output)

    def test_at_which_line_each_event_begins(self) -> None:
        before: defer.Deferred[int] = defer.succeed(1)

        def program() -> None:
            before.addCallback(lambda value: defer.succeed(value + 1).addCallback(str) and None)
            clock = task.Clock()
            clock.callLater(1, defer.Deferred)
            clock.advance(1)

        said = recorded(program)
        events = json.loads(said.text)["events"]
        begun = [said.journal[line].split(" ")[0] for line in said.begins]
        self.assertEqual([event[0] for event in events], ["deferred", "callback", "addCallback", "later", "advance"])
        self.assertEqual(begun, ["new", "fire", "add", "later", "advance"])

    def test_an_exception_becomes_a_class_below_its_nearest_parent(self) -> None:
        class Lost(KeyError):
            """An error of the program's."""

        def program() -> None:
            defer.fail(Lost("key")).addErrback(lambda failure: failure.trap(LookupError))

        said = recorded(program)
        self.assertEqual(
            json.loads(said.text)["classes"],
            [["LookupError", "Exception"], ["KeyError", "LookupError"], ["Lost", "KeyError"]],
        )

    def test_a_failure_that_holds_a_text_is_an_error_of_its_own(self) -> None:
        def program() -> None:
            failure = Failure(ValueError("x"))
            failure.value = "copied"  # type: ignore[assignment]
            defer.fail(failure).addErrback(lambda _: None)

        events = self.assert_said(program)
        self.assertEqual(events[1][2:], ["Copied", "copied"])

    def test_one_object_is_one_text(self) -> None:
        class Request:
            """Something that no script has."""

        def program() -> None:
            request = Request()
            defer.succeed([request, request, Request()])

        events = self.assert_said(program)
        self.assertEqual(events[-1][2], ["<Request 1>", "<Request 1>", "<Request 2>"])

    def test_a_value_is_told_as_it_was_when_it_was_set(self) -> None:
        def program() -> None:
            items = [1]
            deferred = defer.succeed(items)
            items.append(2)
            deferred.addCallback(lambda value: None)

        self.assertEqual(recorded(program).journal[1], "fire #0 ok [1]")

    def test_an_inline_body_with_a_try(self) -> None:
        @defer.inlineCallbacks
        def body(awaited: defer.Deferred[int]) -> Any:
            try:
                yield awaited
            except ValueError:
                pass
            return "caught"

        def program() -> None:
            awaited: defer.Deferred[int] = defer.Deferred()
            body(awaited)
            awaited.errback(ValueError("no"))

        events = self.assert_said(program)
        statements = events[1][2]
        self.assertEqual(statements[0], ["try", [["await", events[0][1]]], ["Exception"], []])
        self.assertEqual(statements[1], ["end", ["return", "caught"]])

    def test_times_are_whole_in_the_unit_that_they_have_in_common(self) -> None:
        def program() -> None:
            clock = task.Clock()
            clock.callLater(0.5, lambda: None)
            clock.callLater(0.25, lambda: None)
            clock.advance(1)

        events = self.assert_said(program)
        self.assertEqual([event[1:][-2:][0] for event in events[:2]], [2, 1])
        self.assertEqual(events[2], ["advance", 4])

    def test_what_succeed_makes_is_a_deferred_that_is_fired(self) -> None:
        events = self.assert_said(lambda: defer.succeed(3))
        name = events[0][1]
        self.assertEqual(events, [["deferred", name], ["callback", name, 3]])

    def test_a_coroutine_is_an_inline_body_where_twisted_makes_a_deferred_of_it(self) -> None:
        waited: List[defer.Deferred[int]] = []

        async def coroutine() -> int:
            return await waited[0] + 1

        if making(coroutine) is coroutine:
            self.skipTest("this Twisted makes no Deferred of it")

        def program() -> None:
            waited.append(defer.Deferred())
            defer.maybeDeferred(coroutine)
            waited[0].callback(3)

        _, maybe, _ = self.assert_said(program)
        word, name, statements = maybe[2]["do"][0]
        self.assertEqual((word, maybe[2]["end"]), ("inline", ["wait", name]))
        self.assertEqual(statements[-1], ["end", ["return", 4]])

    def test_a_subclass_is_waited_for_where_twisted_knows_it(self) -> None:
        def program() -> None:
            waited: defer.Deferred[int] = Unregistered()
            defer.succeed(1).addCallback(lambda _: waited)
            defer.maybeDeferred(lambda: waited)
            clock = task.Clock()
            cooperator = task.Cooperator(scheduler=lambda tick: clock.callLater(1, tick))
            cooperator.cooperate(iter([waited]))
            clock.advance(1)
            waited.callback(2)

        self.assert_said(program)

    def test_turns_that_do_the_same_are_one_body(self) -> None:
        def program() -> None:
            clock = task.Clock()
            loop = task.LoopingCall(lambda: defer.succeed("turn"))
            loop.clock = clock  # type: ignore[assignment]
            loop.start(2)
            clock.advance(2)
            clock.advance(2)
            loop.stop()

        events = self.assert_said(program)
        self.assertEqual([event[0] for event in events], ["loop", "advance", "advance", "stopLoop"])

    def test_a_delayed_call_that_is_moved_is_reset(self) -> None:
        def program() -> None:
            clock = task.Clock()
            call = clock.callLater(2, lambda: None)
            clock.advance(1)
            call.reset(2)
            clock.advance(2)

        events = self.assert_said(program)
        words = [event[0] for event in events]
        self.assertEqual(words, ["later", "advance", "resetCall", "advance"])

    def test_what_is_not_told_as_such_is_told_as_what_it_is_made_of(self) -> None:
        def program() -> None:
            child: defer.Deferred[int] = defer.Deferred()
            defer.gatherResults([child])
            child.callback(1)

        natively = [event[0] for event in json.loads(recorded(program).text)["events"]]
        self.assertEqual(natively, ["deferred", "gather", "callback"])
        plainly = recorded(program, KINDS - {"list"})
        words = [event[0] for event in json.loads(plainly.text)["events"]]
        self.assertEqual(words, ["deferred", "deferred", "addCallbacks", "addCallback", "callback"])
        self.assertEqual(run(plainly.text.encode()).output, plainly.output)


class Shown(unittest.TestCase):
    """The page of a run."""

    def test_it_is_written_beside_the_script_and_the_journal(self) -> None:
        example = Path(__file__).resolve().parents[2] / "examples" / "python" / "workers.py"
        command = ["-m", "deferreds.twisted", "record", "--virtual", "--view"]
        with tempfile.TemporaryDirectory() as folder:
            name = Path(folder, "workers")
            ran = forked.run([*command, "-o", str(name), str(example)], folder, forked.environment())
            self.assertEqual(ran.returncode, 0, ran.stderr)
            page = Path(f"{name}.html").read_text(encoding="utf-8")
        self.assertIn("122 lines, 14 Deferreds, 15 events, 6 s, a tick is 1 s", page)
        self.assertIn(" inline worker_56 [queue queue_worker_37 ", page)


class Command(unittest.TestCase):
    """What is wrong gets one line and a status, and no traceback."""

    def run_record(self, *words: str, cwd: str) -> "tuple[int, str]":
        """Status and errors, where the command is installed: its own folder is the first of the path."""
        code = "import sys; sys.path.pop(0); from deferreds.commands import record; sys.exit(record())"
        ran = forked.run(["-c", code, *words], cwd, forked.environment())
        return ran.returncode, ran.stderr

    def test_wrong_words_and_places(self) -> None:
        with tempfile.TemporaryDirectory() as folder:
            Path(folder, "program.py").write_text(
                "from twisted.internet.defer import Deferred\nDeferred().callback(1)\n", encoding="utf-8"
            )
            cases = (
                ((), 64),
                (("--plain", "nothing", "program.py"), 64),
                (("--redact", "some", "program.py"), 64),
                (("nosuch.py",), 66),
                (("-m", "nosuch"), 66),
                (("-m", "nosuch.below"), 66),
                (("--test", "nosuch.Case.test"), 66),
                (("-o", "program.py/name", "program.py"), 73),
            )
            for words, expected in cases:
                with self.subTest(words=words):
                    status, errors = self.run_record(*words, cwd=folder)
                    self.assertEqual((status, errors.count("\n")), (expected, 1), errors)
            self.assertEqual(os.listdir(folder), ["program.py"])

    def test_a_module_is_found_in_the_folder_where_the_command_is_given(self) -> None:
        with tempfile.TemporaryDirectory() as folder:
            Path(folder, "program.py").write_text(
                "from twisted.internet.defer import Deferred\nDeferred().callback(1)\n", encoding="utf-8"
            )
            status, errors = self.run_record("-m", "program", cwd=folder)
            self.assertEqual(status, 0, errors)
            self.assertIn(": 2 lines, 1 Deferred;", errors)


class Loaded(unittest.TestCase):
    """Tests that are recorded."""

    def test_what_cant_be_loaded_is_named_with_the_reason(self) -> None:
        for name, reason in (
            ("twisted.nothing", "No module named 'twisted.nothing'"),
            ("tests.test_recording.Loaded.nothing", "type object 'Loaded' has no attribute 'nothing'"),
        ):
            with self.assertRaisesRegex(NotLoaded, f"^{name} can't be loaded: .*{reason}$"):
                tests_of(name)


class Refused(unittest.TestCase):
    """What no script can say."""

    def assert_refused(self, program: Callable[[], object], reason: str) -> None:
        """It is refused with this reason, and with the place in this file."""
        said = recorded(program)
        problems = said.problems
        if said.script is not None:
            self.assertEqual(run(said.text.encode()).output, said.output, "the script of the beginning")
        self.assertIn(reason, [problem.reason for problem in problems])
        places = [problem.place for problem in problems if problem.place]
        self.assertTrue(all("test_recording.py:" in place for place in places), places)

    def test_a_failure_that_is_put_into_a_queue(self) -> None:
        self.assert_refused(lambda: defer.DeferredQueue().put(Failure(ValueError("no"))), "a Failure is a value")

    def test_a_delay_that_is_too_long_for_the_unit_of_the_others(self) -> None:
        def program() -> None:
            clock = task.Clock()
            clock.callLater(30 * 24 * 3600, lambda: None)
            clock.callLater(0.000001, lambda: None)

        def on_reactor() -> None:
            real: Any = reactor
            for seconds in (30 * 24 * 3600, 0.000001):
                real.callLater(seconds, lambda: None).cancel()

        for each in (program, on_reactor):
            self.assert_refused(each, "a delay of 2.592e+06 seconds, where the other times need ticks of 1 µs")

    def test_a_delay_that_has_no_end(self) -> None:
        def scheduled() -> None:
            real: Any = reactor
            real.callLater(math.inf, lambda: None).cancel()

        def moved() -> None:
            for clock in (task.Clock(), reactor):
                with_time: Any = clock
                call = with_time.callLater(1, lambda: None)
                call.reset(math.inf)
                call.cancel()

        def looping() -> None:
            loop = task.LoopingCall(lambda: None)
            loop.start(math.inf)
            loop.stop()

        self.assert_refused(scheduled, "a delay that is no number from 0")
        self.assert_refused(moved, "a delayed call is moved by what is no number of seconds (reset)")
        self.assert_refused(looping, "a delay that is no number from 0")

    def test_turns_that_do_something_else_each_time(self) -> None:
        def program() -> None:
            clock = task.Clock()
            deferreds = [defer.Deferred(), defer.Deferred()]
            loop = task.LoopingCall(lambda: deferreds.pop().callback(None))
            loop.clock = clock  # type: ignore[assignment]
            loop.start(1)
            clock.advance(1)

        said = recorded(program)
        self.assertEqual(said.problems, [])
        self.assertEqual(said.plainly, [])
        self.assertEqual(run(said.text.encode()).output, said.output)

    def test_what_earlier_twisteds_refuse(self) -> None:
        def fired() -> None:
            try:
                defer.Deferred().callback(defer.Deferred())
            except AssertionError:
                self.skipTest("this Twisted refuses it")

        def added() -> None:
            not_callable: Any = 3
            defer.Deferred().addCallback(not_callable)

        for program, reason in (
            (fired, "a Deferred is fired with a Deferred"),
            (added, "a callback that can't be called"),
        ):
            self.assertIn(reason, str(recorded(program).problems))

    def test_a_cancel_that_goes_on_to_a_value(self) -> None:
        if is_deferred(Unregistered()):
            self.skipTest("this Twisted waits for it")

        def program() -> None:
            first = defer.succeed(1).addCallback(lambda _: Unregistered())
            first.cancel()

        self.assert_refused(program, "a cancel is passed on to a Deferred that Twisted takes for a value")

    def test_time_that_goes_on_inside_a_body(self) -> None:
        def program() -> None:
            clock = task.Clock()
            defer.succeed(None).addCallback(lambda _: clock.advance(1))

        self.assert_refused(program, "time is advanced inside a body")

    def test_a_result_that_is_set_by_hand(self) -> None:
        def program() -> None:
            defer.succeed(1).result = 2

        self.assert_refused(program, "the result of a Deferred is set by hand")


class Cheap(unittest.TestCase):
    """What a recorded program costs."""

    def test_a_deferred_with_a_callback_takes_few_calls_of_python(self) -> None:
        calls: List[str] = []

        def count(frame: Any, event: str, argument: Any) -> None:
            if event == "call":
                calls.append(frame.f_code.co_name)

        def program() -> None:
            sys.setprofile(count)
            try:
                for number in range(100):
                    deferred: defer.Deferred[int] = defer.Deferred()
                    deferred.addCallback(str)
                    deferred.callback(number)
            finally:
                sys.setprofile(None)

        recorded(program)
        self.assertLess(len(calls) / 100, 80)


class Transparent(unittest.TestCase):
    """Where nobody watches, Twisted is as it was."""

    def test_a_deferred_has_no_result_until_it_is_fired(self) -> None:
        install()
        deferred: defer.Deferred[int] = defer.Deferred()
        with self.assertRaisesRegex(AttributeError, "^'Deferred' object has no attribute 'result'$"):
            getattr(deferred, "result")
        deferred.callback(1)
        self.assertEqual(deferred.result, 1)
        del deferred.result
        self.assertFalse(hasattr(deferred, "result"))

    def test_nothing_is_told_where_nobody_watches(self) -> None:
        install()
        recorder = Recorder()
        with recorder.watching():
            pass
        defer.succeed(1).addCallback(lambda value: value)
        self.assertEqual(recorder.parts, [])

    def test_arguments_of_callbacks_arrive(self) -> None:
        came: List[Any] = []

        def callback(value: int, *args: int, **kwargs: int) -> None:
            came.append((value, args, kwargs))

        recorded(lambda: defer.succeed(1).addCallback(callback, 2, key=3))
        self.assertEqual(came, [(1, (2,), {"key": 3})])


class Names(unittest.TestCase):
    """What is put into Twisted."""

    def test_functions_are_called_as_those_in_whose_place_they_are(self) -> None:
        install()
        for place, name in (
            (defer.Deferred, "callback"),
            (defer.DeferredQueue, "get"),
            (base.DelayedCall, "cancel"),
            (base.ReactorBase, "callLater"),
            (task.Clock, "advance"),
            (task.LoopingCall, "start"),
        ):
            function = getattr(place, name)
            self.assertEqual((function.__name__, function.__qualname__), (name, f"{place.__name__}.{name}"))
            self.assertEqual(function.__module__, place.__module__)


if __name__ == "__main__":
    unittest.main()
