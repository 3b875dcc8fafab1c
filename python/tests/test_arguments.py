"""What inline bodies and coroutines were called with."""

from __future__ import annotations

import gc
import json
import unittest
import weakref
from typing import Any, List, Tuple

from deferreds.twisted.recording.arguments import LONGEST, MOST, MOST_CHARACTERS, Call, arguments_of
from deferreds.twisted.telling import Action

from .recording_of import RecordingCase

_PROGRAM = """
from twisted.internet import defer

class Bank:
    @defer.inlineCallbacks
    def pay(self, card, pence, *more, retry=False, **others):
        yield defer.succeed(1)

    async def login(self, user, password):
        card = user
        await waits[0]

waits = [defer.Deferred(), defer.Deferred()]
bank = Bank()
bank.pay("card-6", 312, 4, 5, town="Bath", token="abcdef123")
defer.ensureDeferred(bank.login("ann", "correct horse 9"))
waits[1].addCallback(lambda value: bank.pay([1, 2], {"a": 1}))
waits[1].callback("correct horse 9")
"""


class Held:
    """What a test may hold a weak reference to."""


def steps(first: object, second: object = 2, *, third: object = 3) -> Any:
    """A generator."""
    del first
    yield second, third


async def work(self: object, *many: object, **named: object) -> None:
    """A coroutine."""


class Arguments(unittest.TestCase):
    """Those of a generator or a coroutine."""

    def found(self, body: Any) -> List[Tuple[str, Any]]:
        found = list(arguments_of(body))
        body.close()
        return found

    def test_they_have_their_names_without_the_object_of_a_method(self) -> None:
        self.assertEqual(self.found(steps(1, third=5)), [("first", 1), ("second", 2), ("third", 5)])
        self.assertEqual(self.found(work(1, 2, 3, a=4)), [("*many", (2, 3)), ("a", 4)])
        self.assertEqual(self.found(value for value in [1])[0][0], ".0")

    def test_one_that_has_ended_has_none(self) -> None:
        body = steps(1)
        body.close()
        self.assertEqual(self.found(body), [])

    def test_their_number_is_bounded(self) -> None:
        self.assertEqual(len(self.found(work(None, **{f"a{number}": number for number in range(50)}))), MOST)

    def test_none_is_kept_alive(self) -> None:
        held = Held()
        gone = weakref.ref(held)
        body = steps(held)
        list(arguments_of(body))
        del held
        next(body)
        gc.collect()
        self.assertIsNone(gone())


class Texts(unittest.TestCase):
    """A call as a text."""

    def test_it_is_as_python_has_it_and_bounded(self) -> None:
        call = Call(Action(["inline"]), "pay", [("card", "card-6"), ("pence", 312), ("to", "<Bank 1>"), ("now", None)])
        self.assertEqual(call.text, "pay(card='card-6', pence=312, to=<Bank 1>, now=None)")
        long = call._replace(arguments=[(f"a{number}", "x" * 1000) for number in range(8)]).text
        self.assertLess(len(long), MOST_CHARACTERS + 10)
        self.assertIn(f"a0='{'x' * (LONGEST - 3)}..", long)


class Recorded(RecordingCase):
    """Those of a recorded program."""

    def calls(self, *words: str) -> List[str]:
        """The calls in the file of places."""
        (self.folder / "pays.py").write_text(_PROGRAM, encoding="utf-8")
        ended = self.record("-o", "run", "-f", *words, str(self.folder / "pays.py"))
        self.assertEqual(ended.status, 0, ended.said)
        calls = json.loads(self.text("run.places.json"))["calls"]
        self.assertLessEqual(set(calls), set(json.loads(self.text("run.places.json"))["deferreds"]))
        return list(calls.values())

    def test_each_is_with_what_it_was_called_and_secrets_are_hidden(self) -> None:
        for words in ([], ["--notes"]):
            self.assertEqual(
                self.calls(*words),
                [
                    "pay(card='card-6', pence=312, retry=False, *more=[4, 5], town='Bath', token=<secret_1>)",
                    "login(user='ann', password=<secret_2>)",
                    "pay(card=[1, 2], pence=<dict {'a': 1}>, retry=False, *more=[])",
                ],
            )
            self.assertNotIn("correct horse", self.text("run.journal") + self.text("run.json") + self.text("run.places.json").partition('"sources"')[0])

    def test_all_values_are_hidden_if_that_is_asked_for(self) -> None:
        for call in self.calls("--redact", "all"):
            for value in ("card-6", "312", "ann", "Bath", "abcdef123", "correct"):
                self.assertNotIn(value, call)


if __name__ == "__main__":
    unittest.main()
