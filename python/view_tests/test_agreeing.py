"""The fold of journals against facts: what agrees, and that what differs is seen."""

from __future__ import annotations

import json
import unittest
from pathlib import Path
from typing import List

from deferreds.run_json.agreeing import agreement
from deferreds.run_json.checking import Wrong, check_fold
from deferreds.view.facts import read_facts

from .stand_in import Json, stuck, thing, told

_JOURNAL = 'lock l\nnew #0 a\nacquire l #0\nfire #0 ok "l"\nnew #1 b\nacquire l #1\nadd #0\nrun #0\nset #0 ok 1\n#0 a ok 1\n#1 b unfired\n'
_LEFT: List[Json] = [
    stuck(1, "unfired", {"at": "lock", "object": thing("lock", 0)}),
    {
        "kind": "tokens",
        "object": thing("lock", 0),
        "given": 1,
        "tokens": 1,
        "waiting": [{"name": "b", "number": 1}],
    },
]
_VALUES: Json = {"kind": "values", "object": thing("queue", 0, "q"), "values": [1, "a"]}


def differences(text: str) -> List[str]:
    """What differs."""
    return agreement(read_facts(text)).differences


class Agreeing(unittest.TestCase):
    """What is found."""

    def test_what_the_program_has_told(self) -> None:
        data = Path(__file__).resolve().parent / "data"
        for path in [*sorted(data.glob("*.jsonl")), *sorted((data / "agreeing").glob("*.jsonl"))]:
            found = agreement(read_facts(path.read_text(encoding="utf-8")))
            self.assertEqual(found.differences, [], path.name)

    def test_what_agrees(self) -> None:
        self.assertEqual(differences(told(_JOURNAL, [0, 1, 4, 6], _LEFT)), [])

    def test_what_differs_is_seen(self) -> None:
        self.assertTrue(differences(told(_JOURNAL, [0, 1, 4, 6], _LEFT[:1])))
        self.assertTrue(
            differences(
                told(
                    _JOURNAL,
                    [0, 1, 4, 6],
                    [*_LEFT, {"kind": "failure", "deferred": {"name": "a", "number": 0}}],
                )
            )
        )
        self.assertTrue(
            differences(told(_JOURNAL.replace("#0 a ok 1", "#0 a ok 2"), [0, 1, 4, 6], _LEFT))
        )
        wrong = [json.loads(line) for line in told(_JOURNAL, [0, 1, 4, 6], _LEFT).splitlines()]
        wrong[8]["under"], wrong[8]["depth"] = 1, 1
        self.assertTrue(differences("".join(f"{json.dumps(line)}\n" for line in wrong)))

    def test_another_order_is_seen(self) -> None:
        self.assertTrue(differences(told(_JOURNAL, [0, 1, 4, 6], _LEFT[::-1])))

    def test_another_name_or_value_is_seen(self) -> None:
        self.assertEqual(self._checked(["queue q none none", "put q 1", 'put q "a"'], _VALUES), [])
        for wrong in (
            {**_VALUES, "object": thing("queue", 0, "p")},
            {**_VALUES, "values": [1]},
            {**_VALUES, "values": ["a", 1]},
        ):
            self.assertTrue(self._checked(["queue q none none", "put q 1", 'put q "a"'], wrong))

    def _checked(self, journal: List[str], left: Json) -> List[str]:
        text = told("".join(f"{line}\n" for line in journal), [0, 1, 2], [left])
        return agreement(read_facts(text), [json.loads(line) for line in text.splitlines()]).differences

    def test_a_run_that_differs_is_wrong(self) -> None:
        text = told(_JOURNAL, [0, 1, 4, 6], _LEFT[1:])
        with self.assertRaisesRegex(Wrong, "only the fold"):
            check_fold(text, [])
        with self.assertRaises(Wrong):
            check_fold("no facts", [])


if __name__ == "__main__":
    unittest.main()
