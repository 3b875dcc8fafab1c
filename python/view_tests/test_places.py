"""Where in a program all happened: read from a file, and shown on the page and on a terminal."""

import contextlib
import io
import json
import tempfile
import unittest
from pathlib import Path
from typing import Any, Dict, List, NamedTuple

from deferreds.view import command
from deferreds.view.places import Frame, NotPlaces, Place, read_places

from .test_page import data_of

_JOURNAL = """\
new #0 d
add #0
new #1 e
fire #1 ok 1
#0 d unfired
#1 e ok 1
"""

_SCRIPT = {
    "version": 1,
    "events": [["deferred", "d"], ["addCallback", "d", {"do": [["callback", "d", 1]]}], ["deferred", "e"], ["callback", "e", 1]],
}

_PLACES: Dict[str, Any] = {
    "version": 1,
    "files": ["/srv/a b/<i>.py", "relative.py"],
    "deferreds": {"d": [0, 12], "e": [1, 3]},
    "actions": {"/events/0": [0, 12], "/events/1/2/do/0": [0, 15]},
}

_ADDRESS = "file:///srv/a%20b/%3Ci%3E.py"


class Shown(NamedTuple):
    """How the command has ended, and what it has written."""

    status: int
    output: str
    errors: str


class ReadTest(unittest.TestCase):
    """A text of places."""

    def test_places_are_found_by_names_and_by_pointers(self) -> None:
        places = read_places(json.dumps(_PLACES))
        place = Place("/srv/a b/<i>.py", 12)
        self.assertEqual((places.of_deferred(["x", "d"]), places.of_event(0)), (place, place))
        self.assertEqual(places.of_action("/events/1/2/do/0"), place._replace(line=15))
        self.assertEqual((places.of_deferred([]), places.of_event(1), places.of_event(-1)), (None, None, None))
        self.assertEqual((place.text, place.whole, place.address), ("<i>.py:12", "/srv/a b/<i>.py:12", _ADDRESS))
        self.assertIsNone(Place("relative.py", 3).address)
        self.assertTrue(places)

    def test_what_is_none_is_refused_with_the_reason(self) -> None:
        for text, why in (
            ("{", "it isn't JSON"),
            ("[" * 100_000, "it isn't JSON"),
            ("[]", "it isn't an object of version 1"),
            (json.dumps({**_PLACES, "version": 2}), "it isn't an object of version 1"),
            (json.dumps({**_PLACES, "files": [1]}), "its files aren't an array of texts"),
            (json.dumps({**_PLACES, "deferreds": []}), "its deferreds aren't an object"),
        ):
            with self.assertRaisesRegex(NotPlaces, why):
                read_places(text)
        for place in ([2, 1], [-1, 1], [0, 0], [0], [0, "1"], [0, True], 5, None):
            with self.assertRaisesRegex(NotPlaces, "in its actions, that of /events/0 isn't the number of a file and a line"):
                read_places(json.dumps({**_PLACES, "actions": {"/events/0": place}}))


_STACKS: Dict[str, Any] = {
    "frames": [[0, 12, "ask"], [1, 3, "order"]],
    "lists": [[[0, 1], [1]], [[0]]],
    "deferreds": {"d": 0},
    "actions": {"/events/0": 1},
}


class StacksTest(unittest.TestCase):
    """The functions in a text of places."""

    def test_they_are_found_by_names_and_by_pointers(self) -> None:
        places = read_places(json.dumps({**_PLACES, "stacks": _STACKS}))
        ask, order = Frame(Place("/srv/a b/<i>.py", 12), "ask"), Frame(Place("relative.py", 3), "order")
        self.assertEqual(places.stack_of(["x", "d"]), ((ask, order), (order,)))
        self.assertEqual((places.stack_of_action("/events/0"), places.stack_of_action("/events/1"), places.stack_of(["e"])), (((ask,),), (), ()))
        self.assertEqual(ask.text, "<i>.py:12 ask")

    def test_an_earlier_recording_has_none(self) -> None:
        places = read_places(json.dumps(_PLACES))
        self.assertEqual((places.stack_of(["d"]), places.stack_of_action("/events/0")), ((), ()))

    def test_what_is_damaged_is_refused_with_the_reason(self) -> None:
        for changed, why in (
            ([], "its stacks aren't an object"),
            ({**_STACKS, "frames": 1}, "its stacks aren't an object of frames and lists"),
            ({**_STACKS, "frames": [[0, 12], [0, 1, "f"]]}, "a frame of its stacks isn't"),
            ({**_STACKS, "frames": [[7, 12, "ask"], [0, 1, "f"]]}, "in its frames, that of ask isn't the number of a file and a line"),
            ({**_STACKS, "lists": [[[0, 2]], []]}, "something else than numbers of frames"),
            ({**_STACKS, "lists": [[[True]], []]}, "something else than numbers of frames"),
            ({**_STACKS, "lists": [[0], []]}, "isn't an array of arrays"),
            ({**_STACKS, "deferreds": {"d": 2}}, "the deferreds of its stacks aren't numbers of lists"),
            ({**_STACKS, "actions": 1}, "the actions of its stacks aren't numbers of lists"),
        ):
            with self.assertRaisesRegex(NotPlaces, why):
                read_places(json.dumps({**_PLACES, "stacks": changed}))


class CallsTest(unittest.TestCase):
    """What inline bodies were called with, in a text of places."""

    def test_they_are_found_by_names(self) -> None:
        places = read_places(json.dumps({**_PLACES, "calls": {"d": "get(key=3)"}}))
        self.assertEqual((places.call_of(["x", "d"]), places.call_of(["e"])), ("get(key=3)", ""))
        self.assertEqual(read_places(json.dumps(_PLACES)).call_of(["d"]), "")

    def test_what_is_damaged_is_refused_with_the_reason(self) -> None:
        for changed in ([], {"d": 1}, "x"):
            with self.assertRaisesRegex(NotPlaces, "its calls aren't an object of texts"):
                read_places(json.dumps({**_PLACES, "calls": changed}))


class ThingsTest(unittest.TestCase):
    """Where locks and queues were made, in a text of places."""

    def test_they_are_found_by_their_names_and_by_what_the_line_binds(self) -> None:
        lines = ["self.locks[name] = DeferredLock()", "use(DeferredLock())", "a == b", "f(a=DeferredLock())", f"{'x' * 70} = 1"]
        kept = {"things": {"lock_a": [0, 1]}, "sources": [[0, 1, lines]]}
        places = read_places(json.dumps({**_PLACES, **kept}))
        place = places.of_thing("lock_a")
        assert place is not None
        self.assertEqual((place.text, places.bound_at(place), places.of_thing("lock_b")), ("<i>.py:1", "self.locks[name]", None))
        self.assertEqual([places.bound_at(place._replace(line=line)) for line in range(2, 7)], [""] * 5)
        self.assertIsNone(read_places(json.dumps(_PLACES)).of_thing("lock_a"))

    def test_what_is_damaged_is_refused_with_the_reason(self) -> None:
        with self.assertRaisesRegex(NotPlaces, "in its things, that of lock_a isn't the number of a file and a line"):
            read_places(json.dumps({**_PLACES, "things": {"lock_a": [9, 1]}}))


class SourcesTest(unittest.TestCase):
    """The lines of files in a text of places."""

    def test_they_are_those_around_a_place(self) -> None:
        kept = [[0, 10, ["a", "b", "c", "d"]], [1, 1, ["x"]], [0, 30, [str(number) for number in range(30, 50)]]]
        places = read_places(json.dumps({**_PLACES, "sources": kept}))
        file = "/srv/a b/<i>.py"
        self.assertEqual(places.source_of(Place(file, 12)), [(10, "a"), (11, "b"), (12, "c"), (13, "d")])
        self.assertEqual([line.number for line in places.source_of(Place(file, 40))], list(range(37, 44)))
        self.assertEqual(places.source_of(Place(file, 40), 0), [(40, "40")])
        self.assertEqual([places.source_of(place) for place in (Place(file, 9), Place(file, 14), Place("other.py", 1))], [[], [], []])

    def test_an_earlier_recording_has_none(self) -> None:
        self.assertEqual(read_places(json.dumps(_PLACES)).source_of(Place("/srv/a b/<i>.py", 12)), [])

    def test_what_is_damaged_is_refused_with_the_reason(self) -> None:
        for changed, why in (
            ({}, "its sources aren't an array"),
            ([1], "isn't the number of a file, a line and an array"),
            ([[0, 1]], "isn't the number of a file, a line and an array"),
            ([[9, 1, []]], "in its sources, that of a line isn't the number of a file and a line"),
            ([[0, 1, ["a", 2]]], "something else than texts"),
        ):
            with self.assertRaisesRegex(NotPlaces, why):
                read_places(json.dumps({**_PLACES, "sources": changed}))


class ShownTest(unittest.TestCase):
    """The command, with a file of places."""

    def setUp(self) -> None:
        room = tempfile.TemporaryDirectory()
        self.addCleanup(room.cleanup)
        self.folder = Path(room.name)
        self.write("run.journal", _JOURNAL)
        self.write("run.json", json.dumps(_SCRIPT))

    def write(self, name: str, text: str) -> str:
        """Writes a file, and gives its path."""
        (self.folder / name).write_text(text, encoding="utf-8")
        return str(self.folder / name)

    def view(self, *words: str) -> Shown:
        """Runs the command with these words."""
        output, errors = io.StringIO(), io.StringIO()
        with contextlib.redirect_stdout(output), contextlib.redirect_stderr(errors):
            status = command.main(list(words))
        return Shown(status, output.getvalue(), errors.getvalue())

    def page(self, *words: str) -> str:
        """The page that the command writes."""
        out = str(self.folder / "out.html")
        self.assertEqual(self.view("-o", out, *words).status, 0)
        return Path(out).read_text(encoding="utf-8")

    def journal(self) -> List[str]:
        """The words that show the journal with its script."""
        return ["--journal", str(self.folder / "run.journal"), str(self.folder / "run.json")]

    def test_a_file_beside_the_script_is_used(self) -> None:
        self.write("run.places.json", json.dumps(_PLACES))
        page = self.page(*self.journal())
        link = f'<a class=at target=_top href="{_ADDRESS}" title="/srv/a b/&lt;i&gt;.py:12"><bdi>&lt;i&gt;.py:12</bdi></a>'
        self.assertEqual(page.count(link), 2)  # in the report, and at the outcomes
        self.assertIn('<span class=at title="relative.py:3"><bdi>relative.py:3</bdi></span>', page)
        data = data_of(page)
        self.assertEqual(data["files"], [["/srv/a b/<i>.py", "<i>.py", _ADDRESS], ["relative.py", "relative.py", None]])
        self.assertEqual(data["places"], [[0, 12], [1, 3]])
        self.assertIn("<span>Made at</span>", page)
        self.assertIn("lines that fire one of this name: <", page)
        self.assertIn("<bdi>&lt;i&gt;.py:15</bdi>", page)
        text = self.view("--text", *self.journal()).output
        self.assertIn("made at <i>.py:12\n", text)
        self.assertIn("made at <i>.py:12\n#0 d unfired\nmade at relative.py:3\n#1 e ok 1\n", text)

    def test_a_file_beside_a_journal_alone_is_used(self) -> None:
        self.write("run.places.json", json.dumps(_PLACES))
        self.assertIn("<span>Made at</span>", self.page("--journal", str(self.folder / "run.journal")))

    def test_without_one_nothing_is_shown_of_places(self) -> None:
        page = self.page(*self.journal())
        self.assertNotIn("Made at", page)
        self.assertNotIn("class=at", page)

    def test_another_file_can_be_named(self) -> None:
        other = self.write("other.json", json.dumps(_PLACES))
        self.assertIn(_ADDRESS, self.page("--places", other, *self.journal()))

    def test_a_named_file_that_tells_no_places_is_refused(self) -> None:
        wrong = self.write("wrong.json", "[]")
        for name, why in ((wrong, "doesn't tell places: it isn't an object of version 1"), ("/nowhere/x", "can't be read")):
            shown = self.view("--text", "--places", name, *self.journal())
            self.assertEqual((shown.status, shown.output), (66, ""))
            self.assertIn(f"{name} {why}", shown.errors)

    def test_a_file_beside_the_script_that_tells_no_places_is_only_told(self) -> None:
        self.write("run.places.json", "{")
        shown = self.view("--text", *self.journal())
        self.assertEqual(shown.status, 0)
        self.assertIn("run.places.json isn't used, since it doesn't tell places: it isn't JSON", shown.errors)

    def test_how_long_a_tick_was_is_read_in_the_recording(self) -> None:
        listed = {"tick": "250 ms", "files": {"run.json": "0", "run.journal": "1"}}
        self.write("run.recording", json.dumps(listed))
        for words in (self.journal(), self.journal()[:2]):
            self.assertIn("0 s, a tick is 250 ms\n", self.view("--text", *words).output)
            self.assertIn("a tick is 250 ms", self.page(*words))
        wrong = ("<b>", "1 ms</span><script>", "\u202e1 ms", "0 ms", "1  ms", 5, None, ["1 ms"])
        for text in ("{", "[]", "5", "[" * 100_000, *(json.dumps({**listed, "tick": tick}) for tick in wrong), json.dumps({**listed, "files": {}})):
            self.write("run.recording", text)
            shown = self.view("--text", *self.journal())
            self.assertEqual((shown.status, "a tick is" in shown.output), (0, False), text[:60])

    def test_with_several_scripts_none_can_be_named(self) -> None:
        with self.assertRaises(SystemExit) as ended, contextlib.redirect_stderr(io.StringIO()):
            command.main(["--places", "x", "a.json", "b.json"])
        self.assertEqual(ended.exception.code, 64)


if __name__ == "__main__":
    unittest.main()
