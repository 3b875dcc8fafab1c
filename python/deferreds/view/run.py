"""A run as the view shows it: its rows, its Deferreds, what is left, and where that comes from."""

from __future__ import annotations

from typing import List, Optional, Sequence

from .batches import Batches, text_of
from .bodies import Bodies
from .durations import Durations
from .facts import Facts, read_facts
from .fold import Fold
from .inferred import Inferred
from .left import Left, LeftDeferred, left_of
from .lines import parts, read_end, read_line
from .phrases import Phrase
from .places import NOWHERE, Places, read_places
from .records import Finish
from .report import Report
from .row_places import RowPlaces
from .scripts import Script, read_script
from .sections import places_of
from .sizes import counts_of, several
from .sources import Source
from .stories import Stories
from .units import said_of


class Run:
    """A run that was read."""

    def __init__(self, fold: Fold, left: List[Left], script: Script, title: str) -> None:
        self.fold = fold
        self.left = left
        self.script = script
        self.title = title
        is_running = any(isinstance(one, LeftDeferred) and one.running for one in left)
        self.finish = Finish.STOPPED if is_running else Finish.WHOLE
        #: what can't be relied on: of the text that was read, and of the view of it
        self.problems: List[Phrase] = list(fold.problems)
        #: whether what is left was told, and isn't found in the lines
        self.is_exact = True
        self.knows_stop = True
        #: how many lines were read, outcomes among them, and how many of them aren't known
        self.read = self.unknown = 0
        #: the weight of the journal, and its limit
        self.weight: Optional[str] = None
        #: the batches in which posts were taken, if that is known
        self.batches: Batches = ()
        #: where in the program Deferreds were made and events performed, as far as that is known; set before the report is asked for
        self.places: Places = NOWHERE
        #: how long a tick was where the run was recorded, as `1 ms`, or an empty text
        self.tick = ""
        #: how it was shaken, as JSON, or an empty text
        self.shaken = ""
        self.durations = Durations(fold.rows)
        self._row_places: Optional[RowPlaces] = None
        self._inferred: Optional[Inferred] = None
        self._report: Optional[Report] = None
        self._bodies: Optional[Bodies] = None
        self._stories: Optional[Stories] = None

    @property
    def bodies(self) -> Bodies:
        """Whose inline body acts in each line."""
        if self._bodies is None:
            self._bodies = Bodies(self.fold, self.script.bodies)
        return self._bodies

    @property
    def stories(self) -> Stories:
        """What each Deferred does, step by step."""
        if self._stories is None:
            self._stories = Stories(self.fold, self.left, self.bodies)
        return self._stories

    @property
    def is_recorded(self) -> bool:
        """Whether a recorder tells of the run, whose files stand beside it."""
        return bool(self.tick or self.places)

    def ticks(self, count: int) -> str:
        """So many ticks in words: in seconds, if the run was recorded."""
        return said_of(count, self.tick)

    @property
    def row_places(self) -> RowPlaces:
        """Which line of the program each row tells of, as far as that is known."""
        if self._row_places is None:
            self._row_places = RowPlaces(self.fold, self.script, self.places)
        return self._row_places

    @property
    def inferred(self) -> Inferred:
        """What no line tells: causes, and the lines of the program that made Deferreds."""
        if self._inferred is None:
            self._inferred = Inferred(self.fold, self.script, self.places, self.row_places, self.durations, self.tick, lambda: self.bodies)
        return self._inferred

    @property
    def report(self) -> Report:
        """What is left, and why."""
        if self._report is None:
            self._report = Report(self.fold, self.left, self.finish, self.script, self.inferred, self.places, self.ticks, self.shaken)
        return self._report

    @property
    def nothing(self) -> str:
        """What is said where the report has nothing to look at, and nothing left."""
        return "nothing is left unfired" + (", as far as this can be read" if self.problems else "")

    @property
    def limits(self) -> str:
        """What the view can't tell, since it wasn't told."""
        if self.is_exact:
            return ""
        untold = "the children of a list, chains, and which of several objects of one name is meant"
        stopped = "" if self.knows_stop else ", and whether the run stopped at its limit"
        if self.fold.knows_events:
            return f"What is left is read from the lines of the journal, which don't tell {untold}{stopped}."
        return (
            "Read from a journal alone: rows are nested by the callbacks that run. It doesn't tell where events begin, and where calls, "
            f"turns and posts end. Nor does it tell {untold}{stopped}."
        )

    @property
    def order(self) -> str:
        """The batches in which its posts were taken, ready for `--batches`; an empty text where there were none, or it isn't told."""
        return text_of(self.batches) if any(self.batches) else ""

    @property
    def counts(self) -> str:
        """How large the run is."""
        fold = self.fold
        weight = "" if self.is_recorded or self.weight is None else self.weight
        return counts_of(len(fold.rows), len(fold.records), len(self.script.events), fold.world.now, self.tick, weight)


#: the words of the lines after which nothing comes, since a Deferred isn't as the script expects
_UNMET = frozenset({"unmet", "unbound"})


def _finish(stopped: bool, unmet: bool) -> Finish:
    """How a run ended of which the whole text is there."""
    if unmet:
        return Finish.UNMET
    return Finish.STOPPED if stopped else Finish.WHOLE


def run_of_facts(facts: Facts, script: Script, title: str) -> Run:
    """A run as `./deferreds --json` tells it: exact."""
    fold = Fold(facts.entries, facts.ends, facts.places)
    run = Run(fold, facts.left if facts.ending is not None else left_of(fold), script, title)
    if facts.ending is None:
        run.is_exact, run.knows_stop, run.finish = False, False, Finish.CUT
    else:
        run.finish = _finish(facts.ending.stopped, facts.ending.unmet is not None)
        run.weight = f"{facts.ending.weight} of {facts.ending.limit}"
        run.batches = facts.ending.batches
    return run


def run_of_journal(
    text: str,
    title: str,
    script: Optional[Script] = None,
    stopped: Optional[bool] = None,
    begins: Optional[Sequence[int]] = None,
) -> Run:
    """A run as its journal and its outcomes tell it; whether it stopped at its limit, and at which line each event of the script
    begins, where that is known."""
    lines, outcomes, is_cut = parts(text)
    ends = [end for end in map(read_end, outcomes) if end is not None]
    entries = [read_line(row, line) for row, line in enumerate(lines)]
    fold = Fold(entries, ends, places_of(entries, begins) if begins is not None else None)
    run = Run(fold, left_of(fold), script if script is not None else Script(), title)
    run.is_exact = False
    unmet = bool(entries) and entries[-1].word in _UNMET
    if stopped is not None or unmet:
        run.finish = _finish(bool(stopped), unmet)
    elif is_cut:
        run.finish = Finish.CUT
    run.knows_stop = stopped is not None or run.finish in (Finish.STOPPED, Finish.UNMET)
    run.read = len(lines) + len(outcomes)
    run.unknown = sum(not entry.word for entry in entries) + len(outcomes) - len(ends)
    if len(ends) < len(outcomes):
        run.problems.append(
            (several(len(outcomes) - len(ends), "line isn't an outcome", "lines aren't outcomes"),)
        )
    return run


def run_of(source: Source, text: str) -> Run:
    """The run of a text. Raises NotFacts."""
    script = read_script(source.script)
    if source.is_journal:
        run = run_of_journal(text, source.title, script, source.stopped, source.begins)
    else:
        run = run_of_facts(read_facts(text), script, source.title)
    if source.problem:
        run.problems.append((source.problem,))
    run.places = read_places(source.places) if source.places else NOWHERE
    run.tick = source.tick
    run.shaken = source.shaken
    return run
