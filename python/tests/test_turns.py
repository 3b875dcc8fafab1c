"""By which rule the tasks of a Cooperator take turns: rows that were worked out by hand, and Twisted beside the rule as docs/SCRIPT.md says it."""

from __future__ import annotations

import random
import unittest
from contextlib import redirect_stderr
from io import StringIO
from typing import Dict, Iterator, List, Optional, Set

from twisted.internet import task

from deferreds.arguments import USAGE
from deferreds.twisted import grammar
from deferreds.twisted.classes import BUILT_IN
from deferreds.twisted.commands import conform
from deferreds.twisted.profile import TURN_ENTRIES, Entry, entries_of_turns
from deferreds.twisted.randoms import Scripts, turns_of
from deferreds.twisted.rows import Expected, read_rows, row_files
from deferreds.twisted.rules import RULES
from deferreds.twisted.rules.cooperators import cooperator_class
from deferreds.twisted.running import be_quiet, run
from deferreds.twisted.script import Refused, read

_REFUSED = 2
_RUNS = 300
_ACTIONS = 40


def rows_of_turns() -> Iterator[Expected]:
    """The rows of tasks that take turns by each rule."""
    files = [path for path in row_files() if path.name in ("turns.rows", "turn_rules.rows")]
    assert len(files) == 2
    return (row for path in files for row in read_rows(path) if row.status != _REFUSED)


class Rule:
    """The list of a Cooperator and the position in it, as docs/SCRIPT.md has them."""

    def __init__(self, turns: str, version: int) -> None:
        self._is_fair = turns == grammar.FAIR
        self._stays_at_end = version < grammar.TURN_RULES_SINCE
        self.tasks: List[str] = []
        self._position = 0
        self._in_tick = False
        self.is_scheduled = False

    def join(self, name: str) -> None:
        """A task joins."""
        self.tasks.append(name)
        if not (self._is_fair and self._in_tick):
            self.is_scheduled = True

    def leave(self, name: str) -> None:
        """A task leaves."""
        if self._is_fair and self.tasks.index(name) < self._position:
            self._position -= 1
        self.tasks.remove(name)
        if self._is_fair and not self._stays_at_end and self._position >= len(self.tasks):
            self._position = 0
        if not self.tasks:
            self.is_scheduled = False

    def begin_tick(self) -> None:
        """A tick begins."""
        self._in_tick, self.is_scheduled = True, False

    def next(self) -> Optional[str]:
        """Whose turn it is."""
        if not self.tasks:
            self._position = 0
            return None
        at = self._position if self._position < len(self.tasks) else 0
        self._position = at + 1
        return self.tasks[at]

    def end_tick(self) -> None:
        """A tick ends."""
        self._in_tick, self.is_scheduled = False, bool(self.tasks)


class Beside:
    """Tasks that join, leave and take turns by chance, in a Cooperator of Twisted's and by the rule."""

    def __init__(self, seed: int, turns: str, version: int) -> None:
        self._random = random.Random(seed)
        self._rule = Rule(turns, version)
        self._clock = task.Clock()
        self._units = 1
        made = cooperator_class(RULES, entries_of_turns(turns, version))
        self._cooperator = made(self._begin_tick, lambda tick: self._clock.callLater(1, tick))
        self._tasks: Dict[str, task.CooperativeTask] = {}
        self._is_paused: Dict[str, bool] = {}
        self.stepped: List[str] = []
        self.expected: List[Optional[str]] = []

    def _begin_tick(self) -> task._TPredicate:  # type: ignore[name-defined]
        left = [self._units]
        self._rule.begin_tick()

        def is_over() -> bool:
            left[0] -= 1
            if left[0] > 0 and not self._rule.tasks:
                self._rule.next()
            return left[0] <= 0

        return is_over

    def _steps(self, name: str) -> Iterator[None]:
        while True:
            self.expected.append(self._rule.next())
            self.stepped.append(name)
            for _ in range(self._random.choice((0, 0, 1, 3))):
                self._act()
            yield None

    def _act(self) -> None:
        """A task is made, paused or resumed."""
        if len(self._tasks) < 6 and self._random.randrange(3) == 0:
            name = f"task {len(self._tasks)}"
            self._rule.join(name)
            self._is_paused[name] = False
            self._tasks[name] = self._cooperator.cooperate(self._steps(name))
        elif self._tasks:
            name = self._random.choice(sorted(self._tasks))
            was, self._is_paused[name] = self._is_paused[name], not self._is_paused[name]
            if was:
                self._rule.join(name)
                self._tasks[name].resume()
            else:
                self._rule.leave(name)
                self._tasks[name].pause()

    def run(self, test: unittest.TestCase) -> int:
        """Acts, and has time go on. Gives how many steps there were."""
        for _ in range(_ACTIONS):
            if self._random.randrange(2):
                self._units = self._random.randint(1, 4)
                if self._rule.is_scheduled:
                    self._clock.advance(1)
                    self._rule.end_tick()
            else:
                self._act()
            test.assertEqual(self.stepped, self.expected)
            test.assertEqual(bool(self._clock.getDelayedCalls()), self._rule.is_scheduled)
        return len(self.stepped)


class Turns(unittest.TestCase):
    """Tasks of one Cooperator."""

    def setUp(self) -> None:
        be_quiet()

    def test_rows_that_were_worked_out_by_hand(self) -> None:
        for row in rows_of_turns():
            with self.subTest(row=row.name):
                ran = run(row.script.encode(), rules=RULES)
                self.assertEqual((ran.output, ran.quirks), (row.output, []))

    def test_those_of_twisted_reach_no_entry(self) -> None:
        for row in rows_of_turns():
            script = read(row.script.encode(), list(BUILT_IN))
            settings = script.cooperators.values() or [script.cooperator]
            if {each.turns for each in settings} == {grammar.TWISTED} and "stop" not in row.name:
                with self.subTest(row=row.name):
                    ran = run(row.script.encode())
                    self.assertEqual((ran.output, ran.quirks), (row.output, []))

    def test_the_rule_of_the_page_and_twisted_agree(self) -> None:
        for turns, version in ((grammar.TWISTED, 3), (grammar.FAIR, 3), (grammar.FAIR, 1)):
            steps = 0
            for seed in range(_RUNS):
                with self.subTest(turns=turns, version=version, seed=seed):
                    steps += Beside(seed, turns, version).run(self)
            self.assertGreater(steps, 10 * _RUNS)

    def test_which_entries_a_rule_can_reach(self) -> None:
        self.assertEqual(entries_of_turns(grammar.TWISTED, 3), set())
        self.assertEqual(entries_of_turns(grammar.FAIR, 3), TURN_ENTRIES - {Entry.JOIN_AFTER_THE_LAST})
        for version in (1, 2):
            self.assertEqual(entries_of_turns(grammar.FAIR, version), TURN_ENTRIES)


class Read(unittest.TestCase):
    """The key `turns` of a script."""

    def refusal(self, version: int, settings: str) -> str:
        """Why a script is refused whose Cooperator has these settings, or nothing, if it isn't."""
        script = f'{{"version":{version},"cooperator":{{"units":1,"delay":1{settings}}},"events":[]}}'
        try:
            read(script.encode(), list(BUILT_IN))
        except Refused as refused:
            return refused.reason[1]
        return ""

    def test_only_the_third_version_has_it(self) -> None:
        for turns in (grammar.FAIR, grammar.TWISTED):
            refusals = [self.refusal(version, f',"turns":"{turns}"') for version in (1, 2, 3)]
            self.assertEqual(refusals, ["BadShape", "BadShape", ""])

    def test_it_is_one_of_two_words(self) -> None:
        for value in ('"Fair"', '""', "null", "1", "true", '["fair"]', "{}"):
            self.assertEqual(self.refusal(3, f',"turns":{value}'), "BadShape", value)

    def test_without_it_turns_are_fair(self) -> None:
        script = read(b'{"version":3,"cooperators":[["w",{"units":2,"delay":3}]],"events":[]}', list(BUILT_IN))
        self.assertEqual((script.cooperator, script.cooperators), ((1, 1, "fair"), {"w": (2, 3, "fair")}))


class Random(unittest.TestCase):
    """Random scripts by the rules of their Cooperators."""

    def rules(self, turns: Optional[str], version: int) -> Set[str]:
        """The rules that some scripts have."""
        scripts = [script for _, script in Scripts(1, "version-3").some(20, version, turns)]
        self.assertEqual(len(scripts), 20)
        return {rule for script in scripts for rule in turns_of(script)}

    def test_those_of_a_rule_have_no_other(self) -> None:
        self.assertEqual(self.rules(grammar.TWISTED, 3), {grammar.TWISTED})
        self.assertEqual(self.rules(grammar.FAIR, 3), {grammar.FAIR})

    def test_others_have_both_in_the_third_version(self) -> None:
        self.assertEqual(self.rules(None, 3), {grammar.FAIR, grammar.TWISTED})
        self.assertEqual(self.rules(None, 2), {grammar.FAIR})

    def test_what_no_script_has_is_a_wrong_word(self) -> None:
        for words in (["--version", "1"], ["--level", "posts"], ["--level", "loops"]):
            with self.subTest(words=words), self.assertRaises(SystemExit) as ended, redirect_stderr(StringIO()):
                conform.main(["--random", "1", "--turns", grammar.TWISTED, *words, "--", "true"])
            self.assertEqual(ended.exception.code, USAGE)


if __name__ == "__main__":
    unittest.main()
