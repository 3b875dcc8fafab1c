"""Recorded runs whose results of jobs become posts of callers, and every order of these."""

from __future__ import annotations

import json
import unittest
from pathlib import Path
from tempfile import TemporaryDirectory
from typing import Any, Dict, List, Optional, Sequence

from deferreds.twisted.shaking.as_callers import AsCallers, as_callers, outcome_of
from deferreds.twisted.shaking.beside import Recording
from deferreds.twisted.shaking.in_orders import Ends, script_of
from deferreds.view.batches import text_of
from deferreds.view.inputs import run_script
from deferreds.view.places import Place, Places
from deferreds.view.run import Run

Json = Any

#: the lines of the program that made the Deferreds of jobs, by the names of these
_PLACES = {f"{name}_{line}": line for name, line in (("load", 22), ("save", 23), ("read", 31))}


def script(*events: Json, **keys: Json) -> Dict[str, Json]:
    """A script of these events."""
    return {"version": 1, "events": list(events), **keys}


def run_of(root: Dict[str, Json], batches: Optional[str] = None) -> Run:
    """The run of a script, with the lines of its program."""
    run = run_script(json.dumps(root).encode(), "x", batches).run()
    run.places = Places({name: Place("/srv/a.py", line) for name, line in _PLACES.items()}, {})
    return run


def job(name: str, ticks: int, result: Json = None) -> Json:
    """The action that asks for a job."""
    return ["thread", name, ticks, ["value", result]]


def inline(name: str, *awaited: Json) -> Json:
    """An inline body that asks for jobs one after the other."""
    return ["inline", name, [part for action in awaited for part in (["do", action], ["await", action[1]])]]


#: two jobs after each other, and a delayed call that asks for a third
_CHAIN = script(
    inline("deposit", job("load_22", 2, 100), job("save_23", 1)),
    ["later", "call", 30, {"do": [job("read_31", 4)]}],
    ["advance", 2],
    ["advance", 1],
    ["advance", 27],
    ["advance", 4],
)


class AsCallersTest(unittest.TestCase):
    """The script with callers."""

    def made(self, root: Dict[str, Json], *names: str) -> AsCallers:
        """The script, which runs in its batches as the given one."""
        run = run_of(root)
        made = as_callers(root, run, names)
        assert made is not None
        self.assertEqual(outcome_of(run_of(json.loads(made.text), text_of(made.batches))), outcome_of(run))
        return made

    def test_results_that_follow_each_other_are_posts_of_a_caller(self) -> None:
        made = self.made(_CHAIN, "a.py:23#1")
        root = json.loads(made.text)
        self.assertEqual(root["callers"], [[{"do": [["callback", "load_22", 100]]}, {"do": [["callback", "save_23", None]]}]])
        body = ["inline", "deposit", [["do", ["deferred", "load_22"]], ["await", "load_22"], ["do", ["deferred", "save_23"]], ["await", "save_23"]]]
        later = ["later", "call", 30, {"do": [job("read_31", 4)]}]
        self.assertEqual(root["events"], [body, later, ["drain", 2], ["advance", 30], ["drain", 2], ["advance", 4]])
        self.assertEqual((made.batches, made.posts, made.orders), ((((0, 0), (0, 1)), (), ()), 2, 6))

    def test_up_to_the_event_in_which_the_job_is_asked_for_all_stays(self) -> None:
        root = json.loads(self.made(_CHAIN, "a.py:31#1").text)
        self.assertEqual(root["callers"], [[{"do": [["callback", "read_31", None]]}]])
        self.assertEqual(root["events"], [_CHAIN["events"][0], ["later", "call", 30, {"do": [["deferred", "read_31"]]}], *_CHAIN["events"][2:5]])

    def test_jobs_under_way_are_callers_of_their_own(self) -> None:
        root = script(job("load_22", 5, 1), job("save_23", 3, 2), ["later", "call", 4, {}], ["advance", 3], ["advance", 1], ["advance", 1])
        made = self.made(root, "a.py:22#1")
        self.assertEqual([len(posts) for posts in json.loads(made.text)["callers"]], [1, 1])
        self.assertEqual(made.batches, (((1, 0),), ((0, 0),)))

    def test_a_second_job_of_a_result_keeps_its_time(self) -> None:
        root = script(job("load_22", 2), ["addCallback", "load_22", {"do": [job("save_23", 3), job("read_31", 4)]}], ["advance", 2], ["advance", 3], ["advance", 1])
        made = json.loads(self.made(root, "a.py:22#1").text)
        self.assertEqual(made["callers"], [[{"do": [["callback", "load_22", None]]}, {"do": [["callback", "save_23", None]]}]])
        self.assertIn(job("read_31", 4), made["events"][1][2]["do"])

    def test_objects_that_others_name_are_made_at_the_start(self) -> None:
        body = ["inline", "work", [["do", ["lock", "l"]], ["do", job("load_22", 2)], ["try", [["do", ["queue", "q", None, None]]], [], [["do", ["put", "q", ["lock", "l"]]]]]]]
        root = script(body, ["deferred", "d", {"do": [["semaphore", "s", 2]]}], ["advance", 2])
        made = json.loads(self.made(root, "a.py:22#1").text)
        self.assertEqual(made["events"][:3], [["lock", "l"], ["queue", "q", None, None], ["semaphore", "s", 2]])
        self.assertEqual(made["events"][3][2][1], ["try", [], [], [["do", ["put", "q", ["lock", "l"]]]]])

    def test_failures_are_posted_as_such(self) -> None:
        root = script(["thread", "load_22", 2, ["raise", "ValueError", "no"]], ["addErrback", "load_22", {}], ["advance", 2])
        self.assertEqual(json.loads(self.made(root, "a.py:22#1").text)["callers"], [[{"do": [["errback", "load_22", "ValueError", "no"]]}]])

    def test_without_such_results_there_is_none(self) -> None:
        rows: List[Sequence[Any]] = [
            (_CHAIN, "a.py:99#1"),
            (_CHAIN, "a.py:22#2"),
            (script(job("load_22", 2), job("load_22", 3), ["advance", 3]), "a.py:22#1"),
            (script(job("load_22", 9), ["advance", 3]), "a.py:22#1"),
            (script(job("load_22", 1), ["advance", 3], callers=[[{}]]), "a.py:22#1"),
        ]
        for root, name in rows:
            self.assertIsNone(as_callers(root, run_of(root), [name]), root)


class InOrdersTest(unittest.TestCase):
    """What is said of the orders."""

    def said(self, keys: Sequence[str], failing: Dict[str, Json], passing: Dict[str, Json], is_late: bool = False) -> str:
        """What is said; nothing, if no script is made. The places are those that a recording has."""
        places = json.dumps({"version": 1, "files": ["/srv/a.py"], "deferreds": {name: [0, line] for name, line in _PLACES.items()}, "actions": {}})
        one, other = (Recording({".json": json.dumps(root), ".places.json": places}, {}) for root in (failing, passing))
        with TemporaryDirectory() as room:
            path = Path(room, "x.orders.json")
            made = script_of(keys, Ends(one, is_late), other, path)
            self.assertFalse(path.exists())
        return made.said("x.orders.json") if made is not None else ""

    def crossed(self, first: int, second: int) -> Dict[str, Json]:
        """Two bodies that take two locks in different orders, with a job between; how long these jobs take."""
        bodies = [
            ["inline", body, [["do", ["acquire", f"{body}_1", locks[0]]], ["await", f"{body}_1"], ["do", asked], ["await", asked[1]], ["do", ["acquire", f"{body}_2", locks[1]]],
            ["await", f"{body}_2"], ["do", ["release", locks[1]]], ["do", ["release", locks[0]]]]]
            for body, locks, asked in (("one", "ab", job("load_22", first)), ("two", "ba", job("save_23", second)))
        ]  # fmt: skip
        return script(["lock", "a"], ["lock", "b"], bodies[0], ["later", "call", 30, {"do": [bodies[1]]}], ["advance", first], ["advance", 30], ["advance", 10], ["advance", 9])

    def test_orders_that_end_as_the_run_that_fails_are_counted(self) -> None:
        said = self.said(["start a.py:22#1 1"], self.crossed(35, 20), self.crossed(5, 5))
        self.assertEqual(said, "./deferreds --orders x.orders.json runs 3 orders of 1 result, of which 2 end as the run that fails")

    def test_it_is_said_if_no_order_does(self) -> None:
        other = script(job("load_22", 2, 5), ["advance", 2])
        said = self.said(["start a.py:22#1 1"], other, self.crossed(5, 5))
        self.assertTrue(said.endswith("of which none ends as the run that fails: the program's Python does something else there, which no script says"), said)

    def test_it_is_said_if_the_failure_is_not_seen_in_deferreds(self) -> None:
        said = self.said(["job a.py:22#1 1"], self.crossed(6, 5), self.crossed(5, 5))
        self.assertTrue(said.endswith("what fails isn't seen in Deferreds, as these end in the run that fails as in one that passes"), said)

    def test_other_perturbations_make_none(self) -> None:
        for keys in ([], ["hold Client#1.r 1"], ["start a.py:22#1 1", "late a.py:31#1 1"], ["start a.py:99#1 1"]):
            self.assertEqual(self.said(keys, self.crossed(35, 20), self.crossed(5, 5)), "", keys)

    def test_too_many_orders_are_sampled(self) -> None:
        jobs = [job("load_22", 1), job("save_23", 2), job("read_31", 3)]
        calls = [["later", f"call{number}", 5 + number, {}] for number in range(40)]
        root = script(*jobs, *calls, *([["advance", 1]] * 50))
        self.assertRegex(self.said(["start a.py:22#1 1"], root, root), r"^./deferreds --orders --sample 1000 --seed 1 x\.orders\.json runs a sample of the [\d,]+ orders of 3 results$")


if __name__ == "__main__":
    unittest.main()
