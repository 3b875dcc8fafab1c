"""Programs with races are found wrong, and programs that no lawful run has go wrong aren't. Threads decide some: so runs are counted."""

from __future__ import annotations

import json
import unittest
from pathlib import Path
from typing import Any, Dict, List, NamedTuple, Sequence, Tuple

from .forked import environment, run

#: the programs
SHAKEN = Path(__file__).resolve().parents[1] / "data" / "shaken"

#: of each program with a race, a seed and the perturbations with which it goes wrong, and how much longer their delays are
WRONG: Dict[str, Tuple[int, float, Sequence[str]]] = {
    "double_close": (108, 2.0, ["start double_close.py:18#3 1", "job double_close.py:18#3 1"]),
    "drained_twice": (218, 3.0, ["start drained_twice.py:15#3 1"]),
    "lock_order": (192, 2.0, ["job lock_order.py:15#2 1"]),
    "lost_update": (1, 2.0, ["start lost_update.py:23#1 1"]),
    "old_answer": (1, 1.0, ["short Server<Port@old_answer.py:35#1#1 1", "hold Server<Port@old_answer.py:35#1#1.w 2"]),
    "partial_lines": (1, 1.0, ["cut Server<Port@partial_lines.py:35#1#1 1"]),
    "sent_in_reconnect": (267, 2.0, ["late sent_in_reconnect.py:40#1 1"]),
    "stopped_in_start": (50, 2.0, ["job stopped_in_start.py:16#2 1", "start stopped_in_start.py:16#3 1"]),
    "timeout_beats": (64, 2.5, ["hold Client@timeout_beats.py:38#1.r 1"]),
    "two_awaits": (260, 3.0, ["hold Client@two_awaits.py:26#1.r 1"]),
}

#: makes runs, each in a process of its own, and prints for each its status, its output and how many perturbations it met of each kind.
#: Each is tried until it has the status that is expected, but not more often than it may
_CODE = """
import json, sys
from collections import Counter
from deferreds.twisted.shaking.choices import Settings
from deferreds.twisted.shaking.measuring import run_shaken
for path, settings, reactor, expected, tries in json.loads(sys.argv[1]):
    settings = Settings(**settings)
    if settings.only is not None:
        settings = settings._replace(only=frozenset(settings.only))
    for _ in range(tries):
        ended = run_shaken(path, settings, reactor)
        if ended.status == expected:
            break
    met, waits = Counter(key.split(" ")[0] for key in ended.met), ended.waits
    print(json.dumps([ended.status, ended.output, met, ended.seconds, waits.skipped, waits.reasons]), flush=True)
"""

#: how often a race is tried: a busy machine shakes, too, and threads aren't determined
TRIES = 12

#: a search makes many runs, each of which takes its time, also on a busy machine
SECONDS = 900.0


class Shaken(NamedTuple):
    """A run that was shaken."""

    status: int
    output: str
    met: Dict[str, int]
    #: how many seconds it took, how many of its waits were left out, and why how many others weren't
    seconds: float
    skipped: float
    waited: Dict[str, int]


class Asked(NamedTuple):
    """A run that is made: of a program, by its settings, on its reactor, if one is named."""

    path: Path
    settings: Dict[str, Any]
    reactor: str = ""
    #: the status that is expected, and how often it is tried
    status: int = 0
    tries: int = 1


def shaken(asked: Sequence[Asked]) -> List[Shaken]:
    """These runs."""
    words = json.dumps([[str(one.path), *one[1:]] for one in asked])
    ran = run(["-c", _CODE, words], ".", environment(), seconds=SECONDS)
    if ran.returncode != 0:
        raise AssertionError(ran.stdout + ran.stderr)
    return [Shaken(*json.loads(line)) for line in ran.stdout.splitlines()]


def programs(folder: str) -> List[Path]:
    """The programs of a folder."""
    return sorted((SHAKEN / folder).glob("*.py"))


class LawfulTest(unittest.TestCase):
    """Programs that fail only if a run can't happen."""

    def test_no_program_goes_wrong_that_no_lawful_run_has_go_wrong(self) -> None:
        found = programs("lawful")
        self.assertGreaterEqual(len(found), 14)
        runs = shaken([Asked(path, {"seed": seed}) for path in found for seed in (1, 3)])
        wrong = [one.output for one in runs if one.status != 0]
        self.assertEqual(wrong, [])
        met = {kind for one in runs for kind in one.met}
        self.assertEqual(met, {"start", "job", "post", "hold", "order", "cut", "short", "late", "child"})

    def test_no_program_goes_wrong_on_another_reactor(self) -> None:
        names = ("many_connections", "whole_stream", "posts_of_a_job", "in_order", "child_and_pipes", "whole_datagrams")
        paths = [SHAKEN / "lawful" / f"{name}.py" for name in names]
        runs = shaken([Asked(path, {"seed": 4}, reactor) for reactor in ("select", "poll", "asyncio") for path in paths])
        self.assertEqual([one.output for one in runs if one.status != 0], [])
        for first in range(0, len(runs), len(paths)):
            self.assertLess({"hold", "cut", "order"}, {kind for one in runs[first : first + len(paths)] for kind in one.met})


class FastTest(unittest.TestCase):
    """Programs that wait for long, with a clock that jumps: each knows in which order what it waits for has to come."""

    #: how many seconds pass in each at least, nearly all of them left out, and why it waits otherwise
    WAITS: Dict[str, Tuple[float, Sequence[str]]] = {
        "child_first": (35, ["a process runs"]),
        "connection": (9.9, ["port 1 made at connection.py:29", "connection 1 made at connection.py:30", "connection 1 accepted by port 1"]),
        "job_first": (23, ["a thread of a pool works", "the thread Thread-"]),
        "minutes": (60, []),
    }

    def test_what_comes_before_a_wait_is_over_is_waited_for_on_each_reactor(self) -> None:
        paths = programs("fast")
        self.assertEqual([path.stem for path in paths], sorted(self.WAITS))
        settings: List[Dict[str, Any]] = [{"seed": 0, "kinds": [], "is_fast": True}, {"seed": 3, "is_fast": True}]
        asked = [Asked(path, one, reactor) for reactor in ("epoll", "poll", "select", "asyncio") for path in paths for one in settings]
        for one, ran in zip(asked, shaken(asked)):
            least, reasons = self.WAITS[one.path.stem]
            self.assertEqual(ran.status, 0, (one, ran))
            # (what the program itself takes passes too, and isn't left out: a busy machine shows that)
            self.assertGreater(ran.skipped + ran.seconds, least, (one, ran))
            self.assertGreater(ran.skipped, 0.9 * least, (one, ran))
            self.assertLess(ran.seconds, least, (one, ran))
            self.assertEqual(bool(ran.waited), bool(reasons), (one, ran))
            self.assertTrue(all(why.startswith(tuple(reasons)) for why in ran.waited), (one, ran))


class RacesTest(unittest.TestCase):
    """Programs with races, by perturbations with which they go wrong nearly always."""

    def test_each_race_is_seen_with_what_it_needs_and_not_without(self) -> None:
        self.assertEqual(sorted(WRONG), [path.stem for path in programs("races")])
        asked: List[Asked] = []
        for name, (seed, stretch, keys) in WRONG.items():
            path, settings = SHAKEN / "races" / f"{name}.py", {"seed": seed, "stretch": stretch}
            asked += [Asked(path, {**settings, "only": only}, status=int(bool(only)), tries=TRIES) for only in (keys, [])]
        runs = shaken(asked)
        found = {one.path.stem: (runs[place].status, runs[place + 1].status) for place, one in enumerate(asked) if place % 2 == 0}
        self.assertEqual(found, dict.fromkeys(WRONG, (1, 0)))
        self.assertTrue(all(run.met for run in runs[::2]) and not any(run.met for run in runs[1::2]))


if __name__ == "__main__":
    unittest.main()
