"""Random scripts that run as programs: with values whose finalizers and texts use Deferreds, and that are changed later."""

from __future__ import annotations

import random
from typing import Any, Callable, Dict, Generator, List

from twisted.internet import defer, task
from twisted.python.failure import Failure

_CLASSES: Dict[str, type] = {
    "ValueError": ValueError,
    "TypeError": TypeError,
    "CancelledError": defer.CancelledError,
    "Exception": Exception,
    "AlreadyCalledError": defer.AlreadyCalledError,
}


class Counted(ValueError):
    """An error with another text each time."""

    asked = 0

    def __str__(self) -> str:
        self.asked += 1
        defer.succeed(self.asked).addCallback(str)
        return f"asked {self.asked} times"


class Pass(defer.Deferred[Any]):
    """A Deferred whose methods do more."""

    def callback(self, result: Any) -> None:
        """Makes a Deferred of its own, and fires."""
        defer.succeed("more")
        super().callback(result)


class Program:
    """Performs a script as a program would."""

    def __init__(self, seed: str) -> None:
        self._random = random.Random(seed)
        self._deferreds: Dict[str, defer.Deferred[Any]] = {}
        self._locks: Dict[str, Any] = {}
        self._queues: Dict[str, defer.DeferredQueue[Any]] = {}
        self._calls: Dict[str, Any] = {}
        self._loops: Dict[str, Any] = {}
        self._tasks: Dict[str, Any] = {}
        self._lists: List[List[Any]] = []
        self._clock = task.Clock()
        self._cooperator = task.Cooperator(
            terminationPredicateFactory=lambda: lambda: True, scheduler=lambda tick: self._clock.callLater(1, tick)
        )
        self._ending = 0

    def run(self, events: List[List[Any]]) -> None:
        """Runs each event. What it raises is noted, and nothing more."""
        for event in events:
            try:
                self.perform(event)
            except Exception:
                pass

    def perform(self, action: List[Any]) -> None:
        """Performs an action, where the program has words for it."""
        method: Any = getattr(self, f"do_{action[0]}", None)
        if method is not None:
            method(*action[1:])

    # what the program hands over

    def value(self, value: Any) -> Any:
        """A value, in which there may be something hostile."""
        choice = self._random.randrange(6)
        if choice == 0:
            return Mortal(self)
        if choice == 4:
            circle: List[Any] = [Mortal(self)]
            circle.append(circle)
            return {"circle": circle}
        if choice == 1:
            return [value, Mortal(self)]
        if choice == 2:
            items: List[Any] = [value]
            self._lists.append(items)
            items.append(self._random.choice(self._lists))
            return items
        if choice == 3:
            return {"value": Mortal(self)}
        return value

    def error(self, name: str, text: str) -> BaseException:
        """An error, which may have a text that changes."""
        made: BaseException = _CLASSES.get(name, Counted)(text)
        return made

    def end_of_one(self) -> None:
        """Something is gone: acts, but not for ever."""
        if self._ending < 3 and self._random.randrange(4):
            self._ending += 1
            name = self._random.choice("abcde")
            choice = self._random.randrange(4)
            if choice == 0:
                self._deferreds[name] = defer.succeed("made at an end")
            elif choice == 1 and name in self._deferreds and not self._deferreds[name].called:
                self._deferreds[name].callback("fired at an end")
            elif choice == 2 and name in self._deferreds:
                self._deferreds[name].addBoth(lambda value: value)
            else:
                self._clock.callLater(1, defer.succeed, "later")
            self._ending -= 1

    def body(self, body: Dict[str, Any]) -> Callable[..., Any]:
        """A function that does what the body says."""

        def call(value: Any = None) -> Any:
            for action in body.get("do", []):
                self.perform(action)
            if self._lists and not self._random.randrange(4):
                self._random.choice(self._lists).append("changed")
            return self.end(body.get("end", ["pass"]), value)

        return call

    def end(self, end: List[Any], value: Any) -> Any:
        """What a body gives for what it is given."""
        word = end[0]
        if word == "return":
            return self.value(end[1])
        if word == "raise":
            raise self.error(end[1], end[2])
        if word == "wait" and end[1] in self._deferreds:
            return self._deferreds[end[1]]
        if word == "plus" and isinstance(value, int):
            return value + 1
        if word == "trap" and isinstance(value, Failure):
            value.trap(Exception)
            return end[2]
        return [value] if word == "plus" else value

    def statements(self, statements: List[Any]) -> Generator[Any, Any, Any]:
        """An inline body."""
        value: Any = None
        for statement in statements:
            if statement[0] == "do":
                self.perform(statement[1])
            elif statement[0] == "await" and statement[1] in self._deferreds:
                value = yield self._deferreds[statement[1]]
            elif statement[0] == "try":
                try:
                    value = yield from self.statements(statement[1])
                except Exception:
                    value = yield from self.statements(statement[3])
            elif statement[0] == "end":
                return self.end(statement[1], value)
        return self.value(value)

    async def coroutine(self, statements: List[Any]) -> Any:
        """The same as a coroutine."""
        value: Any = None
        for statement in statements:
            if statement[0] == "do":
                self.perform(statement[1])
            elif statement[0] == "await" and statement[1] in self._deferreds:
                value = await self._deferreds[statement[1]]
            elif statement[0] == "try":
                try:
                    value = await self.coroutine(statement[1])
                except Exception:
                    value = await self.coroutine(statement[3])
            elif statement[0] == "end":
                return self.end(statement[1], value)
        return self.value(value)

    # the words

    def do_deferred(self, name: str, *body: Any) -> None:
        """Makes a Deferred."""
        made = Pass if not self._random.randrange(10) else defer.Deferred
        self._deferreds[name] = made(self.body(body[0]) if body else None)

    def do_callback(self, name: str, value: Any) -> None:
        """Fires one."""
        self._deferreds[name].callback(self.value(value))

    def do_errback(self, name: str, cls: str, text: str) -> None:
        """Fires one with a failure."""
        self._deferreds[name].errback(Failure(self.error(cls, text)))

    def do_addCallback(self, name: str, body: Any) -> None:
        """Adds a pair."""
        self._deferreds[name].addCallback(self.body(body))

    def do_addErrback(self, name: str, body: Any) -> None:
        """Adds a pair."""
        self._deferreds[name].addErrback(self.body(body))

    def do_addBoth(self, name: str, body: Any) -> None:
        """Adds a pair."""
        self._deferreds[name].addBoth(self.body(body))

    def do_addCallbacks(self, name: str, body: Any, other: Any) -> None:
        """Adds a pair."""
        self._deferreds[name].addCallbacks(self.body(body), self.body(other))

    def do_chain(self, name: str, other: str) -> None:
        """Chains two."""
        self._deferreds[name].chainDeferred(self._deferreds[other])

    def do_pause(self, name: str) -> None:
        """Pauses one."""
        self._deferreds[name].pause()

    def do_unpause(self, name: str) -> None:
        """Takes a pause back, where there is one."""
        if self._deferreds[name].paused:
            self._deferreds[name].unpause()

    def do_cancel(self, name: str) -> None:
        """Cancels one."""
        self._deferreds[name].cancel()

    def do_maybe(self, name: str, body: Any) -> None:
        """Makes a Deferred of what a function gives."""
        self._deferreds[name] = defer.maybeDeferred(self.body(body))

    def do_gather(self, name: str, children: List[str], flags: List[str]) -> None:
        """Gathers the results of some."""
        found = [self._deferreds[child] for child in children]
        self._deferreds[name] = defer.gatherResults(found, consumeErrors=bool(flags))

    def do_list(self, name: str, children: List[str], flags: List[str]) -> None:
        """Makes a DeferredList."""
        found = [self._deferreds[child] for child in children]
        self._deferreds[name] = defer.DeferredList(found, **{flag: True for flag in flags})

    def do_lock(self, name: str) -> None:
        """Makes a lock."""
        self._locks[name] = defer.DeferredLock()

    def do_acquire(self, name: str, lock: str) -> None:
        """Asks for a lock."""
        self._deferreds[name] = self._locks[lock].acquire()

    def do_release(self, lock: str) -> None:
        """Gives a lock back."""
        self._locks[lock].release()

    def do_runWith(self, name: str, lock: str, body: Any) -> None:
        """Runs with a lock."""
        self._deferreds[name] = self._locks[lock].run(self.body(body))

    def do_queue(self, name: str, size: Any, backlog: Any) -> None:
        """Makes a queue."""
        self._queues[name] = defer.DeferredQueue(size, backlog)

    def do_put(self, name: str, value: Any) -> None:
        """Puts a value."""
        self._queues[name].put(self.value(value))

    def do_get(self, name: str, queue: str) -> None:
        """Gets a value."""
        self._deferreds[name] = self._queues[queue].get()

    def do_later(self, name: str, delay: int, body: Any) -> None:
        """Schedules a call."""
        self._calls[name] = self._clock.callLater(delay, self.body(body))

    def do_cancelCall(self, name: str) -> None:
        """Cancels a call."""
        self._calls[name].cancel()

    def do_addTimeout(self, name: str, seconds: int) -> None:
        """Sets a timer."""
        self._deferreds[name].addTimeout(seconds, self._clock)

    def do_advance(self, seconds: int) -> None:
        """Time goes on."""
        self._clock.advance(seconds)

    def do_inline(self, name: str, statements: List[Any]) -> None:
        """Calls a function with inlineCallbacks, or a coroutine."""
        if self._random.randrange(2):
            self._deferreds[name] = defer.inlineCallbacks(self.statements)(statements)
        else:
            self._deferreds[name] = defer.ensureDeferred(self.coroutine(statements))

    def do_loop(self, name: str, deferred: str, interval: int, now: bool, body: Any) -> None:
        """Starts a LoopingCall."""
        loop: Any = task.LoopingCall(self.body(body))
        loop.clock = self._clock
        self._loops[name] = loop
        self._deferreds[deferred] = loop.start(interval, now)

    def do_stopLoop(self, name: str) -> None:
        """Stops a LoopingCall."""
        self._loops[name].stop()

    def do_cooperate(self, name: str, bodies: List[Any]) -> None:
        """Hands a task to the Cooperator."""
        self._tasks[name] = self._cooperator.cooperate(self.body(body)() for body in bodies)

    def do_pauseTask(self, name: str) -> None:
        """Pauses a task."""
        self._tasks[name].pause()

    def do_resumeTask(self, name: str) -> None:
        """Resumes a task."""
        self._tasks[name].resume()

    def do_stopTask(self, name: str) -> None:
        """Stops a task."""
        self._tasks[name].stop()

    def do_whenDone(self, name: str, task_name: str) -> None:
        """Asks for the end of a task."""
        self._deferreds[name] = self._tasks[task_name].whenDone()


class Mortal:
    """Something whose end the program notices."""

    def __init__(self, program: Program) -> None:
        self._program = program

    def __eq__(self, other: object) -> bool:
        self._program.end_of_one()
        return True

    def __hash__(self) -> int:
        self._program.end_of_one()
        return 1

    def __repr__(self) -> str:
        self._program.end_of_one()
        return "mortal"

    def __del__(self) -> None:
        try:
            self._program.end_of_one()
        except Exception:
            pass
