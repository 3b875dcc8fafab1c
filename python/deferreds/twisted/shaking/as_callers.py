"""A recorded run as a script whose results of jobs are posts of callers: `./deferreds --orders` runs every order of these.

Until time goes on after the job in question is asked for, the run stays as it was recorded. These results come after that, and are posts: of all
jobs that were asked for by then, and of those that are asked for when the result of one comes, of each the first. So the results of a caller can
come at any time that its own earlier ones leave open. All else stays as it was recorded: what other results were, at which times delayed
calls ran, and what each callback did.
"""

from __future__ import annotations

import json
import re
from collections import Counter
from typing import Any, Counter as Counts, Dict, FrozenSet, List, Mapping, NamedTuple, Optional, Sequence, Set, Tuple

from ...language import LANGUAGE
from ...orders import number_of_orders, posting_of
from ...repeats import written_out
from ...view.batches import Batches
from ...view.compared_lines import masked
from ...view.records import Row
from ...view.run import Run

#: how many callers a script has at most, and how many posts each of them
_MOST_CALLERS, _MOST_POSTS = 8, 256
#: later than each event
_NEVER = 1 << 62
#: the limit of a journal that isn't said, and the greatest in each version of the language
_USUAL_LIMIT = 2_000
_MOST_LIMIT = {1: 200_000, 2: 200_000, 3: 10_000_000}

#: what begins what comes by itself, beside events
_COMING = frozenset({"call", "turn", "tick", "tickin", "step", "timeout"})
_DELIVER = "deliver"
#: what makes an object whose name others use: it may be made at the start as well
_MAKING = frozenset({"lock", "semaphore", "queue"})
_THREADS = frozenset({"thread", "threadIn"})
#: the actions that have bodies
_WITH_BODIES = frozenset(word.word for word in LANGUAGE.at("action") if any("body" in str(form) for form in word.arguments))

#: the number behind the line in the name of what the same line made before
_FURTHER = re.compile(r"(_\d+)_\d+$")
_NUMBER = re.compile(r"#\d+")

Json = Any


class AsCallers(NamedTuple):
    """The script, the batches in which it runs as it was recorded, how many results are posts, and in how many orders they may come."""

    text: str
    batches: Batches
    posts: int
    orders: int


def as_callers(script: Mapping[str, Json], run: Run, names: Sequence[str]) -> Optional[AsCallers]:
    """A script with callers, of a script and the run of it. `names`: how shaking names some of the jobs, of which the first that is known decides
    from which event on results are posts. None, if none is known, or the script has callers by now.
    """
    jobs = _jobs_of(run)
    wanted = next((job for name in names for job in jobs if job.key == name), None)
    if wanted is None or script.get("callers"):
        return None
    base = _last_before_time(script["events"], _root(wanted, jobs).asked)
    chains = _chains(jobs, base)[:_MOST_CALLERS]
    if not chains or not _are_named_once(run, chains):
        return None
    posts = {job.number: (caller, place) for caller, chain in enumerate(chains) for place, job in enumerate(chain)}
    rewriting = _Rewriting(frozenset(job.name for chain in chains for job in chain))
    events = _Events(run, posts, base)
    for number, event in enumerate(written_out(script["events"])):
        events.add(number, rewriting.actions([event]))
    bodies = {"bodies": [[name, rewriting.body(body)] for name, body in script["bodies"]]} if "bodies" in script else {}
    callers = [[{"do": [rewriting.fired(job.name)]} for job in chain] for chain in chains]
    version = script["version"]
    limit = min(2 * script.get("limit", _USUAL_LIMIT), _MOST_LIMIT[version])
    root = {**script, **bodies, "limit": limit, "callers": callers, "events": [*rewriting.made, *events.events]}
    return AsCallers(json.dumps(root, separators=(",", ":")), events.batches, len(posts), number_of_orders(posting_of(root)))


class _Job(NamedTuple):
    """A job: its number, its Deferred, how shaking names it, in which event it was asked for, in which its result came, and the job whose result it
    was asked for first after, if there is one."""

    number: int
    name: str
    key: str
    asked: int
    came: int
    after: Optional[int]


def _jobs_of(run: Run) -> List[_Job]:
    """The jobs of a run, by their numbers."""
    rows = run.fold.rows
    came = {row.entry.number: row.event for row in rows if row.entry.word == _DELIVER}
    known: Set[int] = set()
    counts: Dict[str, int] = {}
    jobs: List[_Job] = []
    for row in (row for row in rows if row.entry.word == "job"):
        number, record = row.entry.number or 0, run.fold.records[row.entry.deferred]
        place = run.places.of_deferred(record.names)
        where = place.text if place is not None else ""
        counts[where] = counts.get(where, 0) + 1
        after = _result_of(run, row)
        first = after if after not in known else None
        known.update([] if after is None else [after])
        last = came.get(number)
        jobs.append(_Job(number, next(iter(record.names), ""), f"{where}#{counts[where]}", row.event or 0, _NEVER if last is None else last, first))
    return jobs


def _result_of(run: Run, row: Row) -> Optional[int]:
    """The number of the job in whose result a row lies; None, if it lies in none."""
    inside: Optional[Row] = row
    while inside is not None and inside.entry.word not in (*_COMING, _DELIVER):
        inside = None if inside.inside is None else run.fold.rows[inside.inside]
    return inside.entry.number if inside is not None and inside.entry.word == _DELIVER else None


def _root(job: _Job, jobs: Sequence[_Job]) -> _Job:
    """The job that is asked for first of those that lead to this one."""
    while job.after is not None:
        job = jobs[job.after]
    return job


def _last_before_time(events: Sequence[Json], event: int) -> int:
    """The last event before time goes on after this one."""
    later = (number for number, one in enumerate(written_out(events)) if number > event and one[0] == "advance")
    return next(later, len(events)) - 1


def _chains(jobs: Sequence[_Job], base: int) -> List[List[_Job]]:
    """The jobs of each caller: one that is under way after this event, and then those that are each asked for first after the one before."""
    following = {job.after: job for job in jobs if job.after is not None}
    chains: List[List[_Job]] = []
    for job in jobs:
        if job.asked <= base < job.came < _NEVER:
            chain = [job]
            after = following.get(job.number)
            while after is not None and after.came < _NEVER and len(chain) < _MOST_POSTS:
                chain.append(after)
                after = following.get(after.number)
            chains.append(chain)
    return chains


def _are_named_once(run: Run, chains: Sequence[Sequence[_Job]]) -> bool:
    """Whether each name of these jobs is that of one Deferred alone."""
    counts = Counter(name for record in run.fold.records.values() for name in record.names)
    return all(job.name and counts[job.name] == 1 for chain in chains for job in chain)


class _Rewriting:
    """Rewrites actions: these jobs become Deferreds, and what has a name that others use is made at the start."""

    def __init__(self, jobs: FrozenSet[str]) -> None:
        self._jobs = jobs
        self._works: Dict[str, Json] = {}
        #: what is made at the start
        self.made: List[Json] = []

    def fired(self, name: str) -> Json:
        """The action that fires the Deferred of a job with its result."""
        work = self._works[name]
        return ["callback", name, work[1]] if work[0] == "value" else ["errback", name, *work[1:]]

    def actions(self, actions: Sequence[Json]) -> List[Json]:
        """Events or actions, without those that are made at the start."""
        self.made += [action for action in actions if action[0] in _MAKING]
        return [self._action(action) for action in actions if action[0] not in _MAKING]

    def body(self, body: Json) -> Json:
        """A body."""
        return {**body, "do": self.actions(body["do"])} if "do" in body else body

    def _action(self, action: Json) -> Json:
        if action[0] in _THREADS and action[1] in self._jobs:
            self._works[action[1]] = action[-1]
            return ["deferred", action[1]]
        if action[0] == "inline":
            return [*action[:2], self._statements(action[2])]
        return [self._part(part) for part in action] if action[0] in _WITH_BODIES else action

    def _part(self, part: Json) -> Json:
        if isinstance(part, list):
            return [self._part(one) for one in part]
        return self.body(part) if isinstance(part, dict) else part

    def _statements(self, statements: Sequence[Json]) -> List[Json]:
        made = [one[1] for one in statements if one[0] == "do" and one[1][0] in _MAKING]
        self.made += made
        return [self._statement(one) for one in statements if not (one[0] == "do" and one[1] in made)]

    def _statement(self, statement: Json) -> Json:
        word, *parts = statement
        if word == "do":
            return ["do", self._action(parts[0])]
        if word in ("try", "finally"):  # (in whose midst classes may stand)
            return [word, self._statements(parts[0]), *parts[1:-1], self._statements(parts[-1])]
        return statement


class _Events:
    """The events of the script. After the base a drain comes before each in which something else comes than the results that are posts."""

    def __init__(self, run: Run, posts: Mapping[int, Tuple[int, int]], base: int) -> None:
        self._posts = posts
        self._base = base
        self._rows: Dict[int, List[Row]] = {}
        for row in run.fold.rows:
            if row.event is not None and row.entry.word in (*_COMING, _DELIVER):
                self._rows.setdefault(row.event, []).append(row)
        self._time = 0
        self._waiting: List[Tuple[int, int]] = []
        self._batches: List[Tuple[Tuple[int, int], ...]] = []
        #: those so far
        self.events: List[Json] = []

    @property
    def batches(self) -> Batches:
        """The batches in which results come as they were recorded."""
        return (*self._batches, tuple(self._waiting))

    def add(self, number: int, rewritten: Sequence[Json]) -> None:
        """Adds an event as it was rewritten, with the results that come in it."""
        if number <= self._base or not rewritten or rewritten[0][0] != "advance":
            self._pass_time()
            self.events += rewritten
            return
        self._time += rewritten[0][1]
        comes = [self._posts.get(row.entry.number or 0) if row.entry.word == _DELIVER else None for row in self._rows.get(number, [])]
        early = comes.index(None) if None in comes else len(comes)
        self._waiting += [post for post in comes[:early] if post is not None]
        if None in comes:
            self._pass_time()
        self._waiting += [post for post in comes[early:] if post is not None]

    def _pass_time(self) -> None:
        if self._time:
            self.events += [["drain", len(self._posts)], ["advance", self._time]]
            self._batches.append(tuple(self._waiting))
            self._waiting, self._time = [], 0


def outcome_of(run: Run) -> Counts[Tuple[str, str]]:
    """How the Deferreds of a run have ended, by names and values that other runs have, too."""
    return Counter((_FURTHER.sub(r"\1", record.name), _NUMBER.sub("#", masked(record.end))) for record in run.fold.records.values())
