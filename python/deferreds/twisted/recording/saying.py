"""Says a recorded run: its script, and the journal and outcomes that real Twisted gave.

A run may be longer than a script can be, or end in the midst of an event. Then the script is of its beginning, up to an event.
"""

from __future__ import annotations

import math
from bisect import bisect_left, bisect_right
from fractions import Fraction
from itertools import accumulate, compress, count
from typing import Any, Container, Dict, Iterator, List, NamedTuple, Optional, Sequence, Set, Tuple, Union

from ...language import LANGUAGE
from .. import grammar
from ..classes import is_built_in
from ..instruments.inner import Inner
from ..instruments.settling import Conflict
from ..instruments.tasks import Cooperating, Cooperators
from ..profile import Entry
from ..script import nodes
from ..telling import Action, Advance, Begun, Ended, Failed, Part, Record, Thing, Time
from ..texts import Outcome, Text, compact
from .again import hide_again
from .alike import NOTHING, Alike, exact, first_body, first_record
from .bodies import Body, Done, Run, Steps, Turns, Unsayable, bodies_of, deepest, in_words
from .declaring import MOST_OF_EVENT, Declared
from .hindsight import Hindsight
from .outcomes import outcomes_of
from .places import FreeNames, name_of_spot
from .recorder import Problem, Recorder
from .ticking import Uneven, changes_of, places_of
from .turns import tell_apart
from .whereabouts import Acted, actions_of, whereabouts_of

_FINEST = 10**9
_LARGEST_SCALE = 10**10
#: the first version whose scripts may be larger, and how large a script of the first and of the last version may be
_LARGE_SINCE = LANGUAGE.smaller["before"]
_SMALL_LIMIT, _MOST_LIMIT = (LANGUAGE.most("limit", version) for version in (1, _LARGE_SINCE))
_SMALL_BYTES, _MOST_BYTES = (LANGUAGE.most("bytes", version) for version in (1, _LARGE_SINCE))
_SMALL_NODES, _MOST_NODES = (LANGUAGE.most("nodes", version) for version in (1, _LARGE_SINCE))
#: the events that set how many steps ticks have, and in which argument an action names a Cooperator
_CHANGES = frozenset({"units", "unitsIn"})
_NAMES_COOPERATOR = {"cooperateIn": 2, "unitsIn": 1, "stopCooperator": 1}
#: the fewest bytes that a node has: a digit, and what stands between it and the next
_BYTES_OF_NODE = 2


#: how many shorter scripts are tried before the event that can't be said is left out with all that follows it
_MOST_TRIED = 20


class CannotSay(Exception):
    """The language has no words for it."""


class Plainly(NamedTuple):
    """Which objects are recorded as what they are made of, and why; or why they can't be, where that is needed."""

    what: str
    why: str
    as_what: str
    is_told: bool

    @property
    def text(self) -> str:
        """This, in words."""
        verb = "can't be" if not self.is_told else "are" if self.what.endswith("s") else "is"
        return f"{self.what} {verb} recorded as {self.as_what}: {self.why}"


class Said:
    """A recorded run, said."""

    def __init__(self, recorder: Recorder, ended: Optional[int] = None, counts: Optional[Sequence[int]] = None) -> None:
        """`ended`: how many events of the program have ended; those after them aren't part of the script. None: all have.

        `counts`: where further Cooperators are left out already, by how many events have ended, how many of the recorded ones."""
        hide_again(recorder)
        self._recorder = recorder
        self._scale = 1
        self.problems: List[Problem] = []
        #: why loops and Cooperators aren't in the script as such, where it is of a run that has some; or what stands in the way of that
        self.plainly: List[Plainly] = []
        #: what is left out so, and what can't be, each with why
        self._left: Dict[Inner, str] = {}
        self._stuck: Dict[Inner, str] = {}
        self._hindsight = Hindsight(recorder, counts)
        #: the bodies of each event, each before those that lie in it; None: it can't be said
        self._found: Optional[List[Sequence[Body]]] = None
        #: those of the problems that are of the size of the whole run alone: the script is of its beginning
        self.too_large: List[Problem] = []
        #: whether the script is of the beginning of the run, since it can't say what comes next
        self.is_cut = False
        most = len(recorder.events if counts is None else counts[1:])
        self._ended = most if ended is None else min(ended, most)
        #: what number of steps the ticks of each Cooperator have at first, by its number of Python, if a script can say what they have
        self._tick_units: Dict[int, int] = {}
        #: the Cooperators that are named in the script, by the numbers of Python for their names
        self._used: Set[int] = set()
        #: how many events the script has
        self.events = 0
        #: by the numbers of Python for actions that add a pair which only fires another Deferred, what fires it
        self._chains: Dict[int, Action] = {}
        self._alike = Alike(self._runs, self._done)
        #: the place of the event that is being said; and where that is known, how many events had ended before the part that is
        self._saying: Optional[int] = None
        self._ended_by_then: Optional[int] = None
        self._choose()
        #: the bodies that the script declares, and those of the event that is being said, by their numbers of Python
        self._declared = Declared()
        self._said: Dict[int, Any] = {}
        self.records: List[Record] = []
        #: by the numbers of Python for the arrays of the script that are actions, these, and what was noted of them
        self.acted: Acted = {}
        self._name()
        self._number()
        self._alike.name_helpers()
        self._find_scale()
        self.script = self._script()
        if self.refusals:
            self.script = self._script_before(self.refusals)
        while len(self._declared.pairs) > grammar.MOST_BODIES and self.script is not None:
            self.script = self._script_of_fewer()
        if self._declared.pairs:
            self._number()
        self.journal: List[str] = []
        #: at which line of the journal each event of the script begins
        self.begins: List[int] = []
        self.quirks: List[Tuple[int, Entry]] = []
        self._say_lines()
        self.outcomes = [f"#{r.number} {first_record(r).name} {r.state()}" for r in self.records]
        #: the script, as JSON
        self.text = ""
        if self.script is not None:
            self._finish(self.script)
            self._refuse_size(self.script)

    @property
    def lines(self) -> int:
        """How many lines the journal of the script has."""
        return self.begins[self.events] if self.events < len(self.begins) else len(self.journal)

    @property
    def is_whole(self) -> bool:
        """Whether the script is of the whole run."""
        return self.events == len(self.actions) and not self.too_large and not self.is_cut

    @property
    def refusals(self) -> List[Problem]:
        """What a script can't say of the run, however short that is. Unless `is_cut`, there is no script for it."""
        return [problem for problem in self.problems if problem not in self.too_large]

    @property
    def elsewhere(self) -> int:
        """How many Deferreds of other threads are left out."""
        return self._recorder.elsewhere

    @property
    def further_clocks(self) -> List[str]:
        """Where clocks were first used that have no times here, since another was used before."""
        return self._recorder.further_clocks

    @property
    def is_empty(self) -> bool:
        """Whether nothing has happened, but that time went on."""
        return all(isinstance(action, Advance) for action in self.actions) and not self.records

    def before(self, line: int, why: str) -> Optional[Said]:
        """The same run, whose script ends before the event that has this line of the journal, from 1, and why; None if no event is left.

        This one isn't used any more.
        """
        place = min(bisect_right(self.begins, line - 1), self.events) - 1
        ended = self._ended_before(max(place, 0))
        self._declared.forget()
        shorter = Said(self._recorder, ended, self._hindsight.counts)
        shorter.plainly = self.plainly + shorter.plainly
        if place <= 0 or shorter.script is None or not 0 < shorter.events < self.events:
            return None
        problem = Problem(why, "", None)
        shorter.too_large.append(problem)
        shorter.problems.append(problem)
        return shorter

    @property
    def with_times(self) -> bool:
        """Whether times of a real reactor are recorded."""
        return any(isinstance(action, Advance) for action in self.actions)

    @property
    def tick(self) -> str:
        """What a unit of the clock is, or nothing, where no clock was used."""
        return "" if not self._recorder.has_had_clock else _second_part(self._scale)

    @property
    def output(self) -> str:
        """The journal of the script, and the outcomes."""
        if self.is_whole:
            return self.whole_output
        journal = self.journal[: self.lines]
        return "".join(line + "\n" for line in journal + outcomes_of(journal))

    @property
    def whole_output(self) -> str:
        """The journal of the whole run, and the outcomes."""
        return "".join(line + "\n" for line in self.journal + self.outcomes)

    @property
    def places(self) -> Optional[str]:
        """Where in the program's own files Deferreds were made and actions ran, as JSON; None where that isn't known."""
        return whereabouts_of(self._recorder, self.records, self.script, self.acted)

    def _problem(self, reason: str, kind: Optional[str] = None, place: str = "", ended: Optional[int] = None) -> None:
        self.problems.append(Problem(reason, place, kind, ended))

    # numbers and times

    def _settle(self) -> Optional[Conflict]:
        """Has the times of a real reactor be set, and leaves out the advances that aren't told. Gives why there are no times, if so."""
        recorder = self._recorder
        conflict: Optional[Conflict] = None if recorder.pace is None else recorder.pace.settle()
        self._leave_out_advances()
        return conflict

    def _leave_out_advances(self) -> None:
        """Leaves out the advances that aren't told."""
        recorder = self._recorder
        told = self._told = [not isinstance(action, Advance) or action.is_told for action in recorder.events]
        #: the events of the whole run that are recorded, before which parts of lines each begins, and its place among the recorder's
        self.actions = list(compress(recorder.events, told))
        self._begins = list(compress(recorder.begins, told))
        self._places = list(compress(count(), told))

    def _settle_beginning(self, conflict: Conflict) -> Optional[int]:
        """Has the times be set of the beginning of a run whose order no times give. Gives how many events have ended then, if there are any."""
        after = self._recorder.pace.settle_beginning(conflict)
        if after is None:
            return None
        self._leave_out_advances()
        self._change_units()
        place = next(place for place, event in enumerate(self._recorder.events) if event is after)
        counts = self._hindsight.counts
        return place if counts is None else bisect_right(counts, place) - 1

    # what is recorded as what it is made of

    def _choose(self) -> None:
        """Has loops and Cooperators be told as what they are made of, as long as a script can't say some of them as such."""
        while True:
            self.problems.clear()
            conflict = self._settle()
            self._change_units()
            self.events = self._count_events()
            self._find_all_bodies()
            leaving = self._leaving(conflict)
            if not leaving:
                break
            self._alike.undo_to(NOTHING)
            self._hindsight.leave(list(leaving))
            self._recorder = self._hindsight.recorder
            hide_again(self._recorder)
            self._left.update(leaving)
        self._note_problems(conflict)
        self._note_plainly()

    def _leaving(self, conflict: Optional[Conflict]) -> Dict[Inner, str]:
        """What a script can't say as such and can say as what it is made of, each with why."""
        reasons: Dict[Inner, str] = {}
        for problem in self._recorder.problems:
            if problem.inner is not None:
                reasons.setdefault(problem.inner, problem.reason)
        for inner, entry in self._recorder.quirks_of:
            if not inner.unclear:
                reasons.setdefault(inner, f"Twisted does what docs/TWISTED.md says of {entry.value}")
        in_the_way = None if conflict is None else self._in_the_way(conflict)
        if in_the_way is not None and not in_the_way.unclear and in_the_way not in self._left:
            assert conflict is not None
            # (the times of ticks, and the advances that are recorded, are known once nothing is in the way)
            reasons.setdefault(in_the_way, conflict.reason)
        else:
            reasons.update(self._lacks(reasons))
        self._stuck.update((inner, inner.unclear) for inner in reasons if inner.unclear)
        return {inner: why for inner, why in reasons.items() if not inner.unclear and inner not in self._left}

    def _lacks(self, known: Container[Inner]) -> Dict[Inner, str]:
        """Why a script can't say the ticks of some Cooperators, but for these."""
        cooperating = [one for one in self._cooperators() if one.inner is not None and one.inner not in known]
        lacks = [(one.inner, self._lack(one)) for one in cooperating]
        return {inner: lack for inner, lack in reversed(lacks) if inner is not None and lack}

    def _in_the_way(self, conflict: Conflict) -> Optional[Inner]:
        """What may be left out because no times give the order of what happened: a loop, or else further Cooperators, or else the first."""
        if conflict.kind == "loop" and conflict.owner is not None:
            return conflict.owner  # type: ignore[no-any-return]
        cooperating = [one for one in self._cooperators() if one.inner is not None and not one.inner.unclear]
        chosen = next((one for one in cooperating if one.is_further), cooperating[0] if cooperating else None)
        return None if chosen is None else chosen.inner

    def _find_all_bodies(self) -> None:
        """Finds the bodies of all events."""
        self._chains.clear()
        try:
            self._found = [self._find_bodies(action) for action in self._each_event()]
            self._saying = None
        except CannotSay:
            self._found = None

    def _note_plainly(self) -> None:
        """Notes what is recorded as what it is made of, and what would have to be and can't."""
        for reasons, is_told in ((self._left, True), (self._stuck, False)):
            loops = [why for inner, why in reasons.items() if inner.kind == "loop"]
            if loops:
                self.plainly.append(Plainly("loops", loops[0], "delayed calls", is_told))
            further = self._hindsight.further
            for inner, why in reasons.items():
                if inner.kind != "loop":
                    which = "further Cooperators" if inner is further else "the first Cooperator"
                    self.plainly.append(Plainly(which, why, "events", is_told))

    def _lack(self, cooperating: Cooperating) -> str:
        """Why a script can't say the ticks of a Cooperator, or nothing, if it can."""
        if id(cooperating) not in self._tick_units:
            return "ticks of different numbers of steps"
        delays = {exact(delay.seconds) for delay in cooperating.delays}
        return "ticks that are due after different times, or at once" if len(delays) > 1 or 0 in delays else ""

    def _note_problems(self, conflict: Optional[Conflict]) -> None:
        """Notes what a script can't say of what was recorded."""
        self.problems += [problem._replace(inner=None) for problem in self._recorder.problems]
        if conflict is not None:
            self._problem(conflict.reason, conflict.kind, conflict.place, self._settle_beginning(conflict))

    def _counted(self, events: int) -> int:
        """How many events are recorded, after so many of those by which runs count."""
        counts = self._hindsight.counts
        return events if counts is None else counts[events]

    def _count_events(self) -> int:
        """How many of the recorded events have ended.

        What an advance that isn't recorded runs is run by the recorded one before it, which ends with it.
        """
        while self._counted(self._ended) < len(self._told) and not self._told[self._counted(self._ended)]:
            self._ended -= 1
        return bisect_left(self._places, self._counted(self._ended))

    def _cooperators(self) -> List[Cooperating]:
        """The Cooperators that are recorded as such."""
        known = self._recorder.cooperator
        return known.all() if isinstance(known, Cooperators) else []

    def _change_units(self) -> None:
        """Has ticks have as many steps as they had: each change is an event of its own, before the advance in which its first tick runs."""
        changed: Dict[int, List[Action]] = {}
        for cooperating in self._cooperators():
            try:
                changes = changes_of(cooperating.ticks)
                places = places_of(changes[1:], self._recorder.events)
            except Uneven:
                continue
            self._tick_units[id(cooperating)] = changes[0].units if changes else grammar.UNITS[-1]
            for place, units in places.items():
                change = ["units", units] if cooperating.thing is None else ["unitsIn", cooperating.thing, units]
                changed.setdefault(place, []).append(Action(change))
        if not changed:
            return
        before = list(zip(self.actions, self._begins, self._places))
        self.actions, self._begins, self._places = [], [], []
        for place, (action, begin, at) in enumerate(before):
            for change in changed.get(place, ()):
                self._add_event(change, begin, at)
            self._add_event(action, begin, at)

    def _add_event(self, action: Action, begin: int, place: int) -> None:
        self.actions.append(action)
        self._begins.append(begin)
        self._places.append(place)

    def _name(self) -> None:
        """Names the Deferreds of the program by where they were made, in the order in which they were."""
        names = FreeNames()
        for record in self._recorder.records:
            if record.name is None and record.made_at is not None:
                record.name = names.give(name_of_spot(record.made_at))

    def _number(self) -> None:
        """Numbers the Deferreds in the order of their lines, with the helpers of caught actions and of nested ones among them."""
        self.records.clear()
        if not self._declared.pairs and not any(action.caught for action in self._recorder.failed):
            for record in self._recorder.records:
                self._add_record(record)
            return
        before: Optional[Part] = None
        for part in self._recorder.parts:
            if before == "new " and isinstance(part, Record):
                self._add_record(part)
            elif isinstance(part, Action) and part.caught:
                self._add_record(part.helper or self._help(part, f"caught_{len(self.records)}"))
            elif isinstance(part, Ended) and first_body(part.action[2]).helper is not None:
                self._add_record(self._help(part, first_body(part.action[2]).helper))
            before = part

    @staticmethod
    def _help(part: Union[Action, Ended], name: str) -> Record:
        """Gives a part of the lines a helper of this name."""
        part.helper = helper = Record()
        helper.name = name
        helper.fired = helper.helper = True
        return helper

    def _add_record(self, record: Record) -> None:
        record.number = len(self.records)
        self.records.append(record)

    def _find_scale(self) -> None:
        """How many units of the clock a second has, so that all times are whole."""
        if not self._recorder.has_had_clock and self._recorder.cooperator is None:
            return
        times = [part.seconds for part in self._recorder.parts if isinstance(part, Time)]
        times += [part.to.seconds for part in self._recorder.parts if isinstance(part, Advance) and part.is_told]
        times += _times(self.actions)
        for seconds in times:
            denominator = exact(seconds).denominator
            self._scale = self._scale * denominator // math.gcd(self._scale, denominator)
        if self._scale > _LARGEST_SCALE:
            self._problem("times that have no unit in common", "clock")
            self._scale = _FINEST
        longest = max(_times([action for action in self.actions if action[0] != "advance"]), default=0)
        if longest * self._scale > grammar.DELAYS[-1]:
            self._problem(f"a delay of {float(longest):g} seconds, where the other times need ticks of {self.tick}", "clock")

    def _units(self, time: Time) -> int:
        return int(exact(time.seconds) * self._scale)

    # the journal

    def _say_lines(self) -> None:
        """Says the journal, at which of its lines each event begins, and after how many of them Twisted did what an entry of the
        profile names."""
        texts = [part if type(part) is str else self._part(part) for part in self._recorder.parts]
        changes = [place for place, action in enumerate(self.actions) if action[0] in _CHANGES]
        for place in reversed(changes):
            begin, (word, *parts) = self._begins[place], self.actions[place]
            texts[begin] = f"{word.lower()} {' '.join(map(str, parts))}\n{texts[begin]}"
        self.journal = "".join(texts).split("\n")[:-1]
        before = [0, *accumulate(text.count("\n") for text in texts)]
        self.quirks = [(before[place], entry) for place, entry in self._recorder.quirks]
        self.begins = [before[place] for place in self._begins]
        for place in changes:  # (those in a row are before the same event)
            self.begins[place + 1] = self.begins[place] + 1

    def _part(self, part: Optional[Part]) -> str:
        """A part of a line, or its end."""
        if part is None:
            return "\n"
        if isinstance(part, Record):
            return f"#{part.number}"
        if isinstance(part, (Text, Outcome)):
            return part.text
        if isinstance(part, int):
            return str(first_record(self._recorder.records[part]).name)
        if isinstance(part, Time):
            return str(self._units(part))
        if isinstance(part, Advance):
            return f"advance {self._units(part.to)}\n" if part.is_told else ""
        if isinstance(part, Action):
            return "" if part.helper is None else _made(part.helper)
        if isinstance(part, Failed):
            return "" if part.action.helper is None else _fired(part.action.helper)
        if isinstance(part, Ended):
            return "" if part.helper is None else _made(part.helper) + _fired(part.helper)
        if isinstance(part, Begun):
            name = first_body(part).name
            return "" if name is None else f"body {name}\n"
        return str(part)

    # the script

    def _script(self) -> Optional[Dict[str, Any]]:
        script: Dict[str, Any] = {"version": 1, "limit": _MOST_LIMIT}
        if self._found is None:
            return None
        try:
            events = [self._event(action, bodies) for action, bodies in zip(self._each_event(), self._found)]
            self._saying = None
            self._say_cooperators(script)
        except CannotSay:
            return None
        if self._recorder.pools:
            script["pools"] = [[pool.thing.name, pool.workers] for pool in self._recorder.pools[: grammar.MOST_POOLS]]
        if self._recorder.classes.declared:
            script["classes"] = [list(pair) for pair in self._recorder.classes.declared]
        if self._declared.pairs:
            script["bodies"] = self._declared.pairs
        script["events"] = events
        return script

    def _each_event(self) -> Iterator[Action]:
        """The events of the script, each as long as it is said."""
        for place, action in enumerate(self.actions[: self.events]):
            self._saying = place
            self._ended_by_then = None
            yield action

    def _ended_before(self, place: int) -> int:
        """How many events have ended before one, of those by which runs count."""
        recorded = self._places[place]
        counts = self._hindsight.counts
        return recorded if counts is None else bisect_right(counts, recorded) - 1

    def _script_before(self, refusals: Sequence[Problem]) -> Optional[Dict[str, Any]]:
        """The longest script of the beginning in which nothing is refused, if there is one."""
        for tried in count():
            ends = [problem.ended for problem in refusals if problem.ended is not None]
            if len(ends) < len(refusals):
                return None
            ended = min(*ends, self._ended)
            if tried > _MOST_TRIED and self._saying is not None:
                ended = min(ended, self._ended_before(self._saying))
            before = len(self.problems)
            script = self._script_until(ended)
            if self.events == 0:
                return None
            if script is not None:
                self.is_cut = True
                return script
            refusals = self.problems[before:]
        return None

    def _script_until(self, ended: int) -> Optional[Dict[str, Any]]:
        """The script of the beginning in which so many events have ended."""
        self._ended = ended
        self.events = self._count_events()
        self._declared.forget()
        self.acted.clear()
        self._used.clear()
        self._find_all_bodies()
        return self._script()

    def _script_of_fewer(self) -> Optional[Dict[str, Any]]:
        """The script of the beginning that needs no more names of bodies than a script may have."""
        if not self.too_large:
            self.too_large.append(Problem("the script needs more names of bodies than one may have", "", None))
            self.problems += self.too_large
        return self._script_until(self._declared.most_ended() + self._recorder.preceding)

    def _finish(self, script: Dict[str, Any]) -> None:
        """Sets the limit and the version of a script, and says it as JSON."""
        self._set_limit(script)
        self._set_version(script, self._version(script))
        if script["version"] < _LARGE_SINCE and self._is_large(script):
            self._set_version(script, _LARGE_SINCE)

    def _set_version(self, script: Dict[str, Any], version: int) -> None:
        """Sets the version of a script, which declares no class that this has, and says it as JSON."""
        script["version"] = version
        if "classes" in script:
            script["classes"] = [list(pair) for pair in self._recorder.classes.declared if not is_built_in(pair[0], version)]
        self.text = compact({key: value for key, value in script.items() if value or key != "classes"})

    def _is_large(self, script: Dict[str, Any]) -> bool:
        """Whether a script is longer, or has more nodes, than one of the first version may."""
        size = len(self.text.encode())
        return size > _SMALL_BYTES or (size > _SMALL_NODES * _BYTES_OF_NODE and nodes(script) > _SMALL_NODES)

    def _version(self, script: Dict[str, Any]) -> int:
        """The least version that has the words of a script, and its limit."""
        keys = [key.since for key in LANGUAGE.keys_of("script") if key.key in script]
        turns = [grammar.TURN_RULES_SINCE] if "cooperator" in script else []
        actions = [action for _, action in actions_of(script, self.acted)]
        forms = {(action[0], len(action) - 1) for action in actions}
        loops = [grammar.TURNS_SINCE] if any(map(_has_turns, actions)) else []
        failures = [grammar.FAILURES_SINCE] if _has_failures([script["events"], self._declared.pairs]) else []
        large = [_LARGE_SINCE] if script["limit"] > _SMALL_LIMIT else []
        return max([*keys, *turns, *loops, *failures, *large, *(grammar.ACTIONS_SINCE.get(form, 1) for form in forms)])

    def _cannot(self, reason: str, kind: Optional[str] = None, place: str = "", ended: Optional[int] = None) -> CannotSay:
        """The event that is said, or what happens after so many have ended, can't be said."""
        if ended is None and self._saying is not None:
            ended = self._ended_before(self._saying) if self._ended_by_then is None else self._ended_by_then
        self._problem(reason, kind, place, ended)
        return CannotSay(reason)

    def _find_bodies(self, event: Action) -> Sequence[Body]:
        """The bodies of an event, each before those that lie in it. The runs of each have to be the same."""
        if not any(isinstance(part, (Body, Steps)) for part in event):
            return ()
        found: List[Body] = []
        left = [event]
        while left:
            action = left.pop()
            chained = self._chained(action)
            if chained is not None:
                self._chains[id(action)] = chained
                continue
            for body in bodies_of(action):
                runs = self._compared(body, action)
                if runs is None:
                    left.append(action)  # which has a body for each turn now
                    break
                found.append(body)
                if runs:
                    left += reversed(self._done(runs[0]).actions)
        return found

    def _ended_with(self, begun: int) -> int:
        """How many events had ended in the program when so many of this recorder's had begun."""
        return begun - 1 + self._recorder.preceding

    def _compared(self, body: Body, action: Action) -> Optional[Sequence[Run]]:
        """The runs of a body of an action, which have to be the same. None: they are turns that aren't, and are told apart now."""
        runs = self._runs(body)
        before = self._alike.known
        for other in runs[1:]:
            if not self._alike.are_same(runs[0], other):
                self._alike.undo_to(before)
                if tell_apart(action, self._recorder.parts, self._recorder.preceding_parts, self._alike):
                    return None
                kind = "loop" if body.kind == "turn" else None
                why = f"a {body.kind} ran more than once, and did something else"
                raise self._cannot(why, kind, in_words(action), self._ended_with(other.began))
        return runs

    def _event(self, action: Action, bodies: Sequence[Body]) -> List[Any]:
        """An event, in which these bodies lie. If they do so too deep for a script, some are declared."""
        if not bodies:
            return self._helped(action)
        words = self._with_bodies(action, bodies, False)
        if self._declared.height(words) > MOST_OF_EVENT:
            words = self._with_bodies(action, bodies, True)
        if self._declared.height(words) > MOST_OF_EVENT:
            self._refuse_depth()
            raise CannotSay
        return words

    def _with_bodies(self, action: Action, bodies: Sequence[Body], declares: bool) -> List[Any]:
        """An event, whose bodies are said before it, those first that lie in others."""
        self._said.clear()
        self._declared.begin_event(declares)
        for body in reversed(bodies):
            said = self._said[id(body)] = self._say_body(body)
            self._declared.measure(said)
        self._ended_by_then = None
        return self._helped(action)

    def _action(self, said: Action) -> List[Any]:
        words = self._words(said)
        self.acted[id(words)] = words, said
        return words

    def _words(self, said: Action) -> List[Any]:
        if said[0] in _NAMES_COOPERATOR:
            self._used.add(id(said[_NAMES_COOPERATOR[said[0]]]))
        chained = self._chains.get(id(said))
        if chained is not None:
            return ["chain", self._say(said[1]), self._say(chained[1])]
        if said[0] == "errback" and isinstance(said[2], list):
            return [self._say(part) for part in (said[0], said[1], *said[2][1:])]
        words = [self._say(part) for part in said]
        if self._declared.is_on:
            for place, part in enumerate(said):
                if isinstance(part, Body):
                    words[place] = self._named(part, words[place], said)
                elif isinstance(part, Steps):
                    words[place] = [self._named(body, step, said) for body, step in zip(self._said_of(part), words[place])]
        return words

    def _named(self, body: Body, said: Any, action: Action) -> Any:
        """What stands for a body of an action: its name, if it lies in others and is too tall for a script."""
        if body.kind == "inline" or not self._declared.can_name(body, said):
            return said
        return self._declared.name(body, said, _name_in(action))

    def _say(self, part: Any) -> Any:
        """A part of an action, in the words of the language."""
        if type(part) is str:
            return part
        if isinstance(part, Record):
            return self._deferred(part)
        if isinstance(part, Thing):
            return part.name
        if isinstance(part, Time):
            return self._units(part)
        if isinstance(part, Unsayable):
            raise self._cannot(part.reason, None, part.place)
        if isinstance(part, Body):
            return self._said[id(part)]
        if isinstance(part, Steps):
            return [self._said[id(body)] for body in self._said_of(part)]
        if isinstance(part, list):
            return [self._say(item) for item in part]
        return part

    def _said_of(self, steps: Steps) -> Sequence[Body]:
        """The bodies of a task or of the turns of a loop, but for turns of which none was taken in the events of the script."""
        if self._has_all or not isinstance(steps, Turns):
            return steps.bodies
        return [body for place, body in enumerate(steps.bodies) if place == 0 or self._runs(body)]

    def _deferred(self, record: Record) -> str:
        if record.hidden_of is not None:
            raise self._cannot("the hidden Deferred of a cancelled inline body is used", "inline")
        name = first_record(record).name
        if name is None or name == "-":
            raise self._cannot("a Deferred without a name is used by the program")
        return name

    def _chained(self, said: Action) -> Optional[Action]:
        """What fires another Deferred, if this adds a pair that only does so with what it was given, which may be no value of the language."""
        if said[0] not in ("addCallback", "addErrback", "addBoth", "addCallbacks"):
            return None
        ran = [run for body in said[2:] for run in self._runs(body)]
        if len(ran) != 1 or len(ran[0].actions) != 1 or ran[0].end not in (None, ["return", None]):
            return None
        fired: Action = ran[0].actions[0]
        given = ran[0].given
        if fired[0] not in ("callback", "errback") or not isinstance(fired[2], Unsayable):
            return None
        return fired if given is not None and fired[2].outcome == given.text else None

    def _say_body(self, body: Body) -> Any:
        """A body, in which others are said already."""
        runs = self._runs(body)
        self._ended_by_then = self._ended_with(runs[0].began) if runs else None
        if body.kind == "inline":
            return self._statements(runs[0]) if runs else []
        if not runs:
            return {}
        said: Dict[str, Any] = {}
        actions = [self._helped(action) for action in runs[0].actions]
        if actions:
            said["do"] = actions
        if runs[0].end is not None:
            said["end"] = self._say(runs[0].end)
        return said

    def _helped(self, action: Action) -> List[Any]:
        """An action; one whose failure its body caught stands in the `try` of an inline body."""
        said = self._action(action)
        if not action.caught or action.helper is None:
            return said
        return ["inline", action.helper.name, [["try", [["do", said]], ["Exception"], []]]]

    def _statements(self, run: Run) -> List[Any]:
        done = self._done(run)
        statements: List[List[Any]] = []
        for action in done.actions:
            statements.append(self._statement(action))
            if action.came is not None:
                self._ended_by_then = self._ended_with(action.came)
        if done.end is not None:
            statements.append(["end", self._say(done.end)])
        return statements

    def _statement(self, action: Action) -> List[Any]:
        """An action of an inline body. One that begins another inline body is called by a helper, if that lies too deep."""
        said = self._action(action)
        if said[0] == "await":
            statement = said
        else:
            statement = ["do", self._called(action, said) if said[0] == "inline" else said]
        caught = action.raised is not None and action.caught
        return ["try", [statement], ["Exception"], []] if caught else statement

    def _called(self, action: Action, said: List[Any]) -> List[Any]:
        """An action that begins an inline body: as it is, or as the body of a helper, which has a name."""
        body: Body = action[2]
        if action.raised is not None or not self._declared.can_name(body, said):
            return said
        name = self._declared.name(body, {"do": [said]}, _name_in(action))
        body.helper = f"nested:{len(self._declared.pairs)}"
        return ["maybe", body.helper, name]

    @property
    def _has_all(self) -> bool:
        """Whether all events have ended that are recorded."""
        return self._counted(self._ended) == len(self._recorder.events)

    def _runs(self, body: Body) -> Sequence[Run]:
        """The runs of a body, but for those of an event that isn't part of the script."""
        if self._has_all:
            return body.runs
        return [run for run in body.runs if run.began + self._recorder.preceding <= self._ended]

    def _done(self, run: Run) -> Done:
        """What was done in a run, in the events of the script."""
        return run.until(self._ended - self._recorder.preceding) if not self._has_all and run.kind == "inline" else run.done

    def _say_cooperators(self, script: Dict[str, Any]) -> None:
        """Says the Cooperators: the one that has no name, and those by name that the script uses."""
        named: List[List[Any]] = []
        for cooperating in self._cooperators():
            if cooperating.thing is None:
                script["cooperator"] = self._cooperator(cooperating)
            elif id(cooperating.thing) in self._used:
                named.append([cooperating.thing.name, self._cooperator(cooperating)])
        if named:
            script["cooperators"] = named

    def _cooperator(self, cooperating: Cooperating) -> Dict[str, Union[int, str]]:
        lack = self._lack(cooperating)
        if lack:
            raise self._cannot(lack, "cooperator")
        delay = exact(cooperating.delays[0].seconds) if cooperating.delays else Fraction(1)
        return {"units": self._tick_units[id(cooperating)], "delay": int(delay * self._scale), "turns": grammar.TWISTED}

    # limits of scripts

    def _set_limit(self, script: Dict[str, Any]) -> None:
        """Sets the limit of the journal, which is at least what the lines weigh. It isn't more than the first version has if that will do."""
        lines = self.journal[: self.lines]
        weight = len(lines) + len("".join(lines).encode())
        if weight > _SMALL_LIMIT and self._weights()[self.events] <= _SMALL_LIMIT:
            weight = _SMALL_LIMIT
        script["limit"] = min(_MOST_LIMIT, max(grammar.DEFAULT_LIMIT, weight))

    def _refuse_depth(self) -> None:
        """Bodies lie in each other too deep: names the deepest, and the kind of objects that would be told flat."""
        found = deepest(self.actions)
        self._cannot("bodies are nested too deep", found and found.kind, found.of if found else "")

    def _refuse_size(self, script: Dict[str, Any]) -> None:
        """Notes what is larger than a script may be. Where that is the whole run, the script is cut to its beginning."""
        if len(script.get("classes", [])) > grammar.MOST_CLASSES:
            self._problem("the script has more classes than one may have")
        reasons = self._too_large(script)
        if reasons:
            too_large = [Problem(reason, "", None) for reason in reasons]
            self.too_large += too_large
            self.problems += too_large
            if any(_has_turns(action) for _, action in actions_of(script, self.acted)):
                self._shorten(script)
            else:
                self._cut(script)

    def _too_large(self, script: Dict[str, Any]) -> List[str]:
        """In what the script is larger than one may be."""
        reasons: List[str] = []
        if script["limit"] == _MOST_LIMIT and self._weights()[-1] > _MOST_LIMIT:
            reasons.append("the journal weighs more than a script's may")
        if len(self.text.encode()) > _MOST_BYTES:
            reasons.append("the script is longer than one may be")
        elif len(self.text) > _MOST_NODES * _BYTES_OF_NODE and nodes(script) > _MOST_NODES:
            reasons.append("the script has more nodes than one may have")
        return reasons

    def _cut(self, script: Dict[str, Any]) -> None:
        """Leaves out the last events of the script, as few as can be, so that it and its journal aren't too large."""
        events = script["events"]
        bare = {**script, "limit": _MOST_LIMIT, "events": []}
        size = list(accumulate((len(compact(event).encode()) + 1 for event in events), initial=len(compact(bare).encode())))
        count = list(accumulate(map(nodes, events), initial=nodes(bare)))
        weights = self._weights()
        self.events = max(
            place
            for place in range(len(events) + 1)
            if place == 0
            or (size[place] <= _MOST_BYTES and count[place] <= _MOST_NODES and weights[place] <= _MOST_LIMIT)
        )
        script["events"] = events[: self.events]
        self._finish(script)

    def _shorten(self, script: Dict[str, Any]) -> None:
        """Leaves out the end of a run until the script of the rest, and its journal, aren't too large.

        What a turn of a loop does stands where the loop begins. So what an event adds to the script isn't known event by event.
        """
        shorter: Optional[Dict[str, Any]] = script
        while shorter is not None and self._too_large(shorter):
            times_too_large = max(
                len(self.text.encode()) / _MOST_BYTES,
                nodes(shorter) / _MOST_NODES,
                self._weights()[-1] / _MOST_LIMIT,
            )
            shorter = self._script_until(min(self._ended - 1, int(self._ended / times_too_large)))
            if shorter is not None:
                self._finish(shorter)
        self.script = shorter

    def _weights(self) -> List[int]:
        """What the lines before each event weigh, and before the end of the script."""
        before = list(accumulate(map(_weight, self._recorder.parts), initial=0))
        begins = [*self._begins, len(self._recorder.parts)]
        changes = accumulate((action[0] in _CHANGES for action in self.actions), initial=0)
        return [before[place] + more for place, more in zip(begins[: self.events + 1], changes)]


def _weight(part: Optional[Part]) -> int:
    """What a part of a line adds to the weight of the journal, or the end of a line."""
    if part is None:
        return 1
    if isinstance(part, (Text, Outcome)):
        return part.weight
    if isinstance(part, Advance):
        return 1 if part.is_told else 0
    if isinstance(part, Action):
        return 0 if part.helper is None else 1
    if isinstance(part, Failed):
        return 0 if part.action.helper is None else 2
    if isinstance(part, Ended):
        return 0 if part.helper is None else 3
    if isinstance(part, Begun):
        return 0 if first_body(part).name is None else 1
    return 0


def _made(helper: Record) -> str:
    """The line that a helper is made."""
    return f"new #{helper.number} {first_record(helper).name}\n"


def _fired(helper: Record) -> str:
    """The line that it is fired."""
    return f"fire #{helper.number} ok null\n"


def _name_in(action: Action) -> str:
    """The name of the first object that an action names."""
    named = next((part for part in action if isinstance(part, (Record, Thing))), None)
    name = first_record(named).name if isinstance(named, Record) else named and named.name
    return name if name and name != "-" else "body"


def _second_part(count: int) -> str:
    """How long one of so many parts of a second is."""
    for unit, factor in (("s", 1), ("ms", 1_000), ("µs", 1_000_000), ("ns", 1_000_000_000)):
        if factor % count == 0:
            return f"{factor // count} {unit}"
    return f"1/{count} s"


def _has_turns(action: Action) -> bool:
    """Whether an action starts a loop whose turns have bodies of their own."""
    return isinstance(action[-1], Turns)


def _has_failures(events: List[Any]) -> bool:
    """Whether a value in these events has a failure in a list."""
    left: List[Any] = [events]
    while left:
        part = left.pop()
        if isinstance(part, list):
            left += part
        elif isinstance(part, dict):
            if "fail" in part:
                return True
            left += part.values()
    return False


def _times(part: Any) -> Iterator[Union[float, Fraction]]:
    """The times that a part of an action has, each run of a body once. However deep these lie, this takes no room on the stack."""
    seen: Set[int] = set()
    left = [part]
    while left:
        part = left.pop()
        if isinstance(part, Time):
            yield part.seconds
        elif isinstance(part, (list, tuple)):
            left += part
        elif isinstance(part, Body):
            left += part.runs
        elif isinstance(part, Steps):
            left += part.bodies
        elif isinstance(part, Run) and id(part) not in seen:
            seen.add(id(part))
            left += part.actions
