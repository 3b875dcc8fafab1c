"""Where in a program's own files Deferreds were made and actions ran."""

from __future__ import annotations

import json
import os
import subprocess
import sys
import tempfile
import textwrap
import unittest
from pathlib import Path
from typing import Any, Dict, List, Tuple

from deferreds.twisted.recording.places import line_of

from . import forked

_PROGRAM = """
    from maker import made
    from twisted.internet import defer, task
    from twisted.internet.defer import Deferred

    d = Deferred()
    d.addCallback(
        lambda value: made().callback(value)
    )
    d.addCallbacks(str, repr)
    d.addCallbacks(str)
    d.callback(1)
    lock = defer.DeferredLock()
    token = lock.acquire()
    token.addBoth(str)
    token.pause()
    clock = task.Clock()
    clock.callLater(1, Deferred)
    clock.advance(1)
    children = [Deferred() for _ in range(2)]
    defer.gatherResults(children)

    @defer.inlineCallbacks
    def body():
        made()
        yield d
        token.unpause()

    body()
    defer.succeed(1).chainDeferred(Deferred())
"""

_MAKER = """
    from twisted.internet.defer import Deferred

    def made():
        return Deferred()
"""

_AWAITS = """
    from twisted.internet import defer
    from twisted.internet.defer import Deferred

    async def inner():
        await later[0]

    async def outer():
        await later[1]
        await inner()

    @defer.inlineCallbacks
    def steps():
        yield later[2]
        yield (
            later[3]
        )

    later = [Deferred() for _ in range(4)]
    defer.ensureDeferred(outer())
    steps()
    for one in reversed(later):
        one.callback(2)
"""

#: an object of the program that a coroutine awaits, and that notes what it is asked for
_NOSY = """
    from twisted.internet import defer

    class Nosy:
        def __init__(self, answer):
            self.answers = [answer]

        def __await__(self):
            return self

        def __iter__(self):
            return self

        def __next__(self):
            if self.answers:
                return self.answers.pop()
            raise StopIteration

        def __getattr__(self, name):
            asked.append(name)
            raise AttributeError(name)

    async def body():
        await Nosy(answer)
        print("answered")

    asked = []
    answer = defer.Deferred()
    defer.ensureDeferred(body())
    answer.callback(None)
    print(asked)
"""


def _recorded(folder: Path, texts: Dict[str, str], *words: str) -> Tuple[Dict[str, Any], Dict[str, Any]]:
    """The script and the places of `program.py` among these files, recorded in a folder."""
    for name, text in texts.items():
        (folder / name).write_text(textwrap.dedent(text), encoding="utf-8")
    ran = subprocess.run(
        [sys.executable, "-m", "deferreds.twisted", "record", "-o", "run", *words, "program.py"],
        cwd=folder,
        env={**os.environ, "PYTHONPATH": os.pathsep.join(map(os.path.abspath, filter(None, sys.path)))},
        stdout=subprocess.DEVNULL,
        stderr=subprocess.PIPE,
        text=True,
        check=False,
    )
    if ran.returncode != 0:
        raise AssertionError(ran.stderr)
    return json.loads((folder / "run.json").read_text(encoding="utf-8")), json.loads((folder / "run.places.json").read_text(encoding="utf-8"))


class AwaitsTest(unittest.TestCase):
    """A recorded program, and the lines in which its bodies await."""

    def test_each_await_has_the_line_where_its_body_stands(self) -> None:
        room = tempfile.TemporaryDirectory()
        self.addCleanup(room.cleanup)
        script, places = _recorded(Path(room.name).resolve(), {"program.py": _AWAITS})
        lines = textwrap.dedent(_AWAITS).splitlines()
        found: Dict[str, str] = {}
        for pointer, (_, line) in places["actions"].items():
            at: Any = script
            for key in pointer.split("/")[1:]:
                at = at[int(key)] if isinstance(at, list) else at[key]
            if at[0] == "await":
                found[at[1]] = lines[line - 1].strip()
        made = [name for name, (_, line) in places["deferreds"].items() if lines[line - 1].startswith("later = ")]
        self.assertEqual([found[name] for name in made], ["await later[0]", "await later[1]", "yield later[2]", "yield ("])

    def test_an_object_of_the_program_that_is_awaited_is_asked_for_nothing(self) -> None:
        room = tempfile.TemporaryDirectory()
        self.addCleanup(room.cleanup)
        script, places = _recorded(Path(room.name).resolve(), {"program.py": _NOSY})
        self.assertIn('["note", "answered"]', json.dumps(script))
        self.assertIn('["note", "[]"]', json.dumps(script))
        lines = textwrap.dedent(_NOSY).splitlines()
        self.assertIn("await Nosy(answer)", [lines[line - 1].strip() for _, line in places["actions"].values()])


_CALLED = """
    from client import ask
    from twisted.internet import defer, task

    clock = task.Clock()

    def deep(depth):
        return deep(depth - 1) if depth else ask()

    def called():
        return [ask() for _ in range(1)][0]

    async def order():
        await ask()
        await ask()

    @defer.inlineCallbacks
    def shop():
        yield defer.ensureDeferred(order())

    clock.callLater(1, called)
    ask().addCallback(lambda value: called())
    deep(5)
    shop()
    clock.advance(1)
    first[0].callback(1)
    first[2].callback(2)
"""

_CLIENT = """
    import builtins
    from twisted.internet.defer import Deferred

    builtins.first = []

    def ask():
        answer = Deferred()
        first.append(answer)
        return answer
"""

#: where each Deferred of `ask` was made: the functions on Python's stack, innermost first, and those around each body
_STACKS = [
    [["ask answer = Deferred()", "<module> ask().addCallback(lambda value: called())"]],
    [["ask answer = Deferred()", *["deep return deep(depth - 1) if depth else ask()"] * 3]],
    [["ask answer = Deferred()", "order await ask()"], ["shop yield defer.ensureDeferred(order())"], ["<module> shop()"]],
    [["ask answer = Deferred()", "called return [ask() for _ in range(1)][0]"], ["<module> clock.callLater(1, called)"]],
    [
        ["ask answer = Deferred()", "called return [ask() for _ in range(1)][0]", "<lambda> ask().addCallback(lambda value: called())"],
        ["<module> ask().addCallback(lambda value: called())"],
    ],
    [["ask answer = Deferred()", "order await ask()"], ["shop yield defer.ensureDeferred(order())"], ["<module> shop()"]],
]


class StacksTest(unittest.TestCase):
    """A recorded program, and the functions in which its Deferreds were made and its actions ran."""

    folder: Path
    script: Dict[str, Any]
    places: Dict[str, Any]

    @classmethod
    def setUpClass(cls) -> None:
        room = tempfile.TemporaryDirectory()
        cls.addClassCleanup(room.cleanup)
        cls.folder = Path(room.name).resolve()
        cls.script, cls.places = _recorded(cls.folder, {"program.py": _CALLED, "client.py": _CLIENT})

    def stack(self, number: int) -> List[List[str]]:
        """A list of the file: for each function its name, and the line of the program."""
        return [[self._frame(*self.places["stacks"]["frames"][frame]) for frame in part] for part in self.places["stacks"]["lists"][number]]

    def _frame(self, file: int, line: int, function: str) -> str:
        text = Path(self.places["files"][file]).read_text(encoding="utf-8")
        return f"{function} {text.splitlines()[line - 1].strip()}"

    def test_a_deferred_has_the_functions_that_have_led_to_it(self) -> None:
        stacks = self.places["stacks"]["deferreds"]
        asked = [name for name in self.places["deferreds"] if name.startswith("ask_")]
        self.assertEqual([self.stack(stacks[name]) for name in asked], _STACKS)

    def test_each_place_is_the_first_of_its_stack(self) -> None:
        for kind in ("deferreds", "actions"):
            places, stacks = self.places[kind], self.places["stacks"][kind]
            self.assertEqual(list(places), list(stacks))
            for name, place in places.items():
                self.assertEqual(self.places["stacks"]["frames"][self.places["stacks"]["lists"][stacks[name]][0][0]][:2], place)

    def test_an_action_has_them_too(self) -> None:
        added = next(f"/events/{number}" for number, event in enumerate(self.script["events"]) if event[0] == "addCallback")
        self.assertEqual(self.stack(self.places["stacks"]["actions"][added]), [["<module> ask().addCallback(lambda value: called())"]])

    def test_the_lines_around_each_are_kept(self) -> None:
        kept = {(file, first + at): line for file, first, lines in self.places["sources"] for at, line in enumerate(lines)}
        for file, line, _ in self.places["stacks"]["frames"]:
            text = Path(self.places["files"][file]).read_text(encoding="utf-8").split("\n")
            for number in range(max(1, line - 3), min(len(text), line + 3) + 1):
                self.assertEqual(kept[file, number], text[number - 1])

    def test_each_is_written_once(self) -> None:
        stacks = self.places["stacks"]
        for table in ("frames", "lists"):
            self.assertEqual(len(set(map(str, stacks[table]))), len(stacks[table]))


_THINGS = """
    from twisted.internet import defer

    class Pool:
        def __init__(self, name):
            self.locks = {}
            self.locks[name] = defer.DeferredLock()
            self.slots = defer.DeferredSemaphore(2)
            self.queue = defer.DeferredQueue()

    def use(pool):
        pool.locks["a"].acquire()
        pool.slots.acquire()
        pool.queue.get()

    use(Pool("a"))
    use(Pool("a"))
"""


class ThingsTest(unittest.TestCase):
    """A recorded program, and where its locks and queues were made, which are recorded where they are used first."""

    def test_each_has_the_line_that_made_it(self) -> None:
        for words in ([], ["--notes"]):
            with tempfile.TemporaryDirectory() as room:
                script, places = _recorded(Path(room).resolve(), {"program.py": _THINGS}, *words)
                lines = textwrap.dedent(_THINGS).splitlines()
                found = {name: lines[line - 1].strip() for name, (_, line) in places["things"].items()}
                made = [event[1] for event in script["events"] if event[0] in ("lock", "semaphore", "queue")]
                expected = ["self.locks[name] = defer.DeferredLock()", "self.slots = defer.DeferredSemaphore(2)", "self.queue = defer.DeferredQueue()"]
                self.assertEqual([found[name] for name in made], expected * 2)


class PlacesTest(unittest.TestCase):
    """A recorded program, and the file of its places."""

    folder: Path
    script: Dict[str, Any]
    places: Dict[str, Any]

    @classmethod
    def setUpClass(cls) -> None:
        room = tempfile.TemporaryDirectory()
        cls.addClassCleanup(room.cleanup)
        cls.folder = Path(room.name).resolve()
        cls.script, cls.places = _recorded(cls.folder, {"program.py": _PROGRAM, "maker.py": _MAKER})

    def line(self, place: List[int], file: str = "program.py") -> str:
        """The line of the program at a place, which is in this file."""
        number, line = place
        self.assertEqual(self.places["files"][number], str(self.folder / file))
        return textwrap.dedent(_PROGRAM if file == "program.py" else _MAKER).splitlines()[line - 1].strip()

    def at(self, *action: object) -> List[str]:
        """The lines of the events that begin with these words."""
        found: List[str] = []
        for number, event in enumerate(self.script["events"]):
            if event[: len(action)] == list(action):
                found.append(self.line(self.places["actions"][f"/events/{number}"]))
        return found

    def test_each_event_has_the_line_that_performs_it(self) -> None:
        self.assertEqual(len([key for key in self.places["actions"] if key.count("/") == 2]), len(self.script["events"]))
        self.assertEqual(self.at("addCallback")[:2], ["d.addCallback(", "d.addCallbacks(str)"])
        self.assertEqual(self.at("addCallbacks"), ["d.addCallbacks(str, repr)"])
        self.assertEqual(self.at("callback")[:1], ["d.callback(1)"])
        self.assertEqual(self.at("lock"), ["token = lock.acquire()"])  # a lock is recorded where it is used first
        self.assertEqual(self.at("acquire"), ["token = lock.acquire()"])
        self.assertEqual(self.at("addBoth"), ["token.addBoth(str)"])
        self.assertEqual(self.at("pause"), ["token.pause()"])
        self.assertEqual(self.at("later"), ["clock.callLater(1, Deferred)"])
        self.assertEqual(self.at("advance"), ["clock.advance(1)"])
        self.assertEqual(self.at("gather"), ["defer.gatherResults(children)"])
        self.assertEqual(self.at("inline"), ["body()"])
        self.assertEqual(self.at("chain"), ["defer.succeed(1).chainDeferred(Deferred())"])

    def test_each_action_of_a_body_has_its_line(self) -> None:
        inside = [self.any_line(place) for action, place in self.places["actions"].items() if action.count("/") > 2]
        made_and_fired = ["return Deferred()", "lambda value: made().callback(value)"]
        self.assertEqual(sorted(inside), sorted([*made_and_fired, "clock.advance(1)", "return Deferred()", "token.unpause()", "yield d"]))

    def any_line(self, place: List[int]) -> str:
        """The line at a place, in whichever file."""
        return self.line(place, os.path.basename(self.places["files"][place[0]]))

    def test_each_deferred_has_the_line_that_makes_it(self) -> None:
        deferreds = self.places["deferreds"]
        first = self.script["events"][0][1]
        self.assertEqual(self.line(deferreds[first]), "d = Deferred()")
        acquired = next(event[1] for event in self.script["events"] if event[0] == "acquire")
        self.assertEqual(self.line(deferreds[acquired]), "token = lock.acquire()")
        made = [name for name, (number, _) in deferreds.items() if self.places["files"][number].endswith("maker.py")]
        self.assertEqual([self.line(deferreds[name], "maker.py") for name in made], ["return Deferred()"] * 2)

    def test_a_file_is_named_once_and_none_is_twisteds(self) -> None:
        self.assertEqual(sorted(self.places["files"]), [str(self.folder / name) for name in ("maker.py", "program.py")])


class LineTest(unittest.TestCase):
    """The line of an instruction, which is worked out when the run is over."""

    def test_it_is_the_one_that_python_tells(self) -> None:
        text = "import sys\n\n\ndef f(a):\n    return [\n        a(),\n\n        a(),\n    ]\n"
        names: Dict[str, Any] = {}
        exec(compile(text, "<text>", "exec"), names)  # pylint: disable=exec-used
        told: List[List[int]] = []

        def note() -> None:
            frame = sys._getframe(1)
            told.append([frame.f_lineno, line_of(frame.f_code, frame.f_lasti)])

        names["f"](note)
        self.assertEqual(told, [[6, 6], [8, 8]])


class RecordTest(unittest.TestCase):
    """The command writes the places, and a page that links them."""

    def test_the_page_links_the_files(self) -> None:
        with tempfile.TemporaryDirectory() as room:
            program = Path(room, "a b.py")
            program.write_text("from twisted.internet.defer import Deferred\nDeferred().callback(1)\n", encoding="utf-8")
            name = str(Path(room, "out"))
            words = ["-m", "deferreds.twisted", "record", "-o", name, "--view", str(program)]
            self.assertEqual(forked.run(words, room, forked.environment()).returncode, 0)
            page = Path(f"{name}.html").read_text(encoding="utf-8")
            address = program.as_uri()
            link = f'<a class=at target=_top href="{address}" title="{program}:2"><bdi>a b.py:2</bdi></a>'
            self.assertEqual(page.count(link), 1)  # at the line that made it
            self.assertIn(f'"files":[["{program}","a b.py","{address}"]]', page)  # for the outcome, and two events
            self.assertIn("%20", address)


if __name__ == "__main__":
    unittest.main()
