"""Looks for a run that fails: plain runs first, then one for each seed. Of the first that fails, what it needs is found and said, and a run
with that alone is recorded.
"""

from __future__ import annotations

from collections import Counter
from typing import Any, Callable, Counter as Counts, Dict, FrozenSet, List, Mapping, NamedTuple, Optional, Sequence

from ...checkout import command_name
from ...program import NOT_RUN
from ...view.names import COMPARED, ORDERS_SCRIPT, RECORDING
from ...view.sizes import several
from ..recording.files import Place
from ..recording.messages import Messages
from .beside import Recording, page_beside
from .choices import MOST_MS, Choices, Settings
from .failing import LEFT, Judge, Why
from .fast import Waits
from .in_orders import Ends, script_of
from .install import install
from .kept import Room
from .knowing import why_unknown
from .left import left_of
from .log import Log
from .needed import AGAIN, Cutting, Needed
from .progress import Progress, runs
from .runs import Ended, run
from .shaker import Shaker
from .stopping import Stopped
from .telling_order import Seen, sentence

#: the status if a run has failed, if none has, and if plain runs fail, so that there is nothing to look for
FAILED, PASSED, UNUSABLE = 1, 0, 2

#: how many plain runs are made
_PLAIN = 3
#: how many runs cutting down may take
_MOST_CUTTING = 120
#: how much longer delays are tried, if a recorded run doesn't fail, and how often each
_STRETCHES = (1.0, 1.5, 2.0)
_TRIES = 3
_LINES_OF_OUTPUT = 3
#: after how many runs that have met nothing no more are made: in a run each kind may be off, but not in all of these
_MOST_UNMET = 12


class Program(NamedTuple):
    """What is run."""

    #: runs it as Python does, and gives its status
    bare: Callable[[], int]
    #: runs it under the recorder, which writes a recording of this name, and gives the program's status
    recorded: Callable[[str], int]
    #: removes what a run has left that has ended
    clear: Callable[[], None] = lambda: None


class Wanted(NamedTuple):
    """What is looked for, and how."""

    times: int
    settings: Settings
    until: str
    most_seconds: float
    cuts: bool
    #: whether errors that are logged count
    looks_at_log: bool = True
    #: whether the command has the options that run a failing run again
    says_again: bool = True


class Found(NamedTuple):
    """A run that fails."""

    settings: Settings
    why: Why
    ended: Ended


class Kept(NamedTuple):
    """A run that fails, of which the recording is kept."""

    settings: Settings
    why: Why
    recording: Recording


class Search:
    """One search."""

    def __init__(self, program: Program, wanted: Wanted, place: Place, messages: Messages) -> None:
        self._program = program
        self._wanted = wanted
        self._place = place
        self._progress = Progress(messages)
        self._judge = self._judging(())
        #: how many runs were made, and how many perturbations of which kind the shaken ones have met
        self._count = 0
        self.met: Counts[str] = Counter()
        #: whether a run has failed that wasn't shaken
        self._is_busy = False
        self._kept: Optional[Kept] = None
        self._waits = Waits()

    def run(self) -> int:
        """Looks. Gives the status of the command. Ctrl-C raises KeyboardInterrupt, and a signal Stopped; what was kept until then stays."""
        self._room = Room(self._place)
        try:
            return self._run()
        except (KeyboardInterrupt, Stopped) as stopped:
            by = stopped.name if isinstance(stopped, Stopped) else "Ctrl-C"
            self._progress.say(f"stopped by {by}, after {runs(self._count)}; {'the recording stays' if self._kept else 'nothing is kept'}")
            raise
        finally:
            if self._wanted.settings.is_fast:
                self._progress.say(self._waits.said)
            self._room.close()

    def _run(self) -> int:
        unknown = why_unknown()
        if unknown:
            self._progress.say(unknown)
            return NOT_RUN
        if not self._has_plain():
            return UNUSABLE
        found = self._find()
        if found is None:
            return PASSED
        self._keep(found, found.settings.only, {})
        if self._wanted.cuts:
            self._explain(found)
        if self._kept is not None:
            self._show(self._kept)
        return FAILED

    def _judging(self, plain: Sequence[Ended]) -> Judge:
        return Judge(self._wanted.until, self._wanted.most_seconds, plain, self._wanted.looks_at_log)

    # the runs

    def _has_plain(self) -> bool:
        """Makes plain runs, by which the others are judged, and says which of them fail: a busy machine shakes, too. Whether one passes."""
        passing: List[Ended] = []
        is_late = True
        for number in range(1, _PLAIN + 1):
            self._progress.show(f"plain run {number} of {_PLAIN}")
            ended = self._plain()
            why = self._judging([*passing, ended]).why(ended)
            if why is None:
                passing.append(ended)
                continue
            self._is_busy = True
            is_late = is_late and why.is_late
            self._say_output(ended)
            self._progress.say(f"plain run {number} of {_PLAIN} fails, which isn't shaken: {why.text}{_longer(why)}")
        self._judge = self._judging(passing)
        if not passing:
            end = "; a program that serves for ever needs an end, as a timer that stops the reactor" if is_late else ""
            self._progress.say(f"nothing is shaken, since no plain run passes{end}")
        return bool(passing)

    def _plain(self) -> Ended:
        """A run in which nothing is perturbed."""
        if self._wanted.settings.is_fast:
            return self._shaken(self._wanted.settings.plain)
        self._count += 1
        if self._wanted.until == LEFT:
            return self._recorded(lambda log: self._program.recorded(str(self._room.name)))
        return self._run_one(lambda log: self._program.bare())

    def _run_one(self, program: Callable[[Log], int], is_written: Optional[Callable[[], bool]] = None) -> Ended:
        """A run, of which nothing is left."""
        try:
            ended = run(program, self._wanted.most_seconds, is_written)
        finally:
            self._program.clear()
        self._waits = self._waits.with_more(ended.waits)
        return ended

    def _find(self) -> Optional[Found]:
        """The first run that fails, of those of the seeds. One that has met nothing is a plain one, and is only said."""
        first, times = self._wanted.settings.seed, self._wanted.times
        unshaken = 0
        for number in range(times):
            self._progress.show(f"{number} of {runs(times)}")
            if number == _MOST_UNMET and not self.met:
                self._progress.say(f"none of {number} shaken runs failed, {self._progress.seconds}; they met nothing that is shaken, so no more are made")
                return None
            settings = self._wanted.settings._replace(seed=first + number)
            ended = self._shaken(settings)
            self.met.update(key.split(" ", 1)[0] for key in ended.met)
            why = self._judge.why(ended)
            if why is not None and not ended.met:
                unshaken += 1
                self._is_busy = True
                self._say_output(ended)
                self._progress.say(f"the run of seed {settings.seed} fails, and has met nothing that is shaken: {why.text}{_longer(why)}")
            elif why is not None:
                self._say_output(ended)
                self._progress.say(f"seed {settings.seed} fails, after {runs(number + 1)}, {self._progress.seconds}: {why.text}")
                return Found(settings, why, ended)
        count = sum(self.met.values())
        met = f"they met {several(count, 'perturbation', 'perturbations')}" if count else "they met nothing that is shaken"
        self._progress.say(f"none of {times - unshaken} shaken runs failed, {self._progress.seconds}; {met}")
        return None

    def _shaken(self, settings: Settings, records: bool = False, known: Mapping[str, object] = {}) -> Ended:
        """A run that is perturbed by these. `known`: what its recording says of how it was shaken, beside what it knows itself."""
        self._count += 1
        if records or self._wanted.until == LEFT:
            return self._recorded(lambda log: self._under_recorder(settings, log, known))
        return self._run_one(lambda log: self._bare(settings, log))

    def _bare(self, settings: Settings, log: Log) -> int:
        install(Shaker(Choices(settings), log, follows=True))
        return self._program.bare()

    def _under_recorder(self, settings: Settings, log: Log, known: Mapping[str, object]) -> int:
        from ..instruments import install as install_instruments

        install_instruments()  # (which hold Twisted's own functions: so these are perturbed after them)
        install(Shaker(Choices(settings), log, self._wanted.until == LEFT, known))
        return self._program.recorded(str(self._room.name))

    def _recorded(self, program: Callable[[Log], int]) -> Ended:
        self._room.clear()
        ended = self._run_one(program, self._room.is_written)
        return ended._replace(left=left_of(self._room.name)) if self._wanted.until == LEFT else ended

    # what is kept

    def _keep(self, found: Found, only: Optional[FrozenSet[str]], known: Mapping[str, object]) -> None:
        """Records a run that fails like this one, by all perturbations or by these keys alone, and longer ones if that doesn't do.

        `known`: what a failure takes, if that is found by now.
        """
        for attempt in range(_TRIES * len(_STRETCHES)):
            self._progress.show(f"recording, attempt {attempt + 1}")
            settings = found.settings._replace(only=only, stretch=_STRETCHES[attempt // _TRIES])
            ended = self._shaken(settings, records=True, known=known)
            why = self._judge.why(ended)
            if why is not None and why.is_late == found.why.is_late:
                self._write(settings, why, ended)
                return
        stays = "; the one with all perturbations stays" if self._kept else ""
        self._progress.say(f"none of {runs(_TRIES * len(_STRETCHES))} that were recorded failed{stays}")

    def _write(self, settings: Settings, why: Why, ended: Ended) -> None:
        """Gives a recording its place, at once."""
        recording = self._room.recording()
        if recording is None:
            self._say_missing(why, ended)
            return
        recording = recording._replace(facts={**recording.facts, "shaken": {**recording.facts.get("shaken", {}), "fails": why.text}})
        if self._is_written(recording):
            self._kept = Kept(settings, why, recording)

    def _say_missing(self, why: Why, ended: Ended) -> None:
        """Says why there is no recording: in the recorder's own words, if it has said something."""
        said = _own_lines(ended.output)
        for line in said:
            self._progress.say(line)
        reason = "it was ended before that" if why.is_late else "it has used no Deferreds"
        self._progress.say(f"the failing run has left no recording{'' if said else f': {reason}'}")

    def _is_written(self, recording: Recording) -> bool:
        """Writes a recording, and says what of it can't be. Whether any of it is."""
        written = self._room.keep(recording)
        for failure in written.failures:
            self._progress.say(failure)
        return written.is_any

    def _show(self, kept: Kept) -> None:
        """Says where the recording is, which no other replaces, and adds to it what shows it beside a run that passes."""
        recording, shown = kept.recording, self._place.shown
        if self._has_file(".html"):
            self._progress.say(f"{shown('.html')} shows the run that fails, and {shown(RECORDING)} lists its files")
        else:
            self._progress.say(f"{shown(RECORDING)} lists the files of the run that fails")
        if not recording.has_script:
            self._progress.say(str(recording.facts.get("compared", "")))
        passing = self._passing(kept.settings)
        if passing is None:
            return
        more = {COMPARED: page_beside(self._place.name.name, recording, passing)}
        room = self._room.name.with_name(f"{self._room.name.name}{ORDERS_SCRIPT}")
        script = script_of(list(kept.settings.only or ()), Ends(recording, kept.why.is_late), passing, room)
        if script is not None:
            more[ORDERS_SCRIPT] = script.text
        if not self._is_written(recording._replace(files={**recording.files, **more})):
            return
        if self._has_file(COMPARED):
            self._progress.say(f"{shown(COMPARED)} shows it beside a run that passes")
        if script is not None and self._has_file(ORDERS_SCRIPT):
            self._progress.say(script.said(shown(ORDERS_SCRIPT)))

    def _has_file(self, ending: str) -> bool:
        return self._place.name_with(ending).is_file()

    def _passing(self, settings: Settings) -> Optional[Recording]:
        """The recording of a run that passes: by all needed perturbations but one, or else by none. None, if there is none."""
        keys = sorted(settings.only or ())
        fewer = [frozenset(keys) - {key} for key in keys if len(keys) > 1]
        tried = [*fewer, *[frozenset[str]()] * _TRIES]
        for only in tried:
            self._progress.show(f"recording a run that passes, {runs(self._count)}")
            if self._judge.why(self._shaken(settings._replace(only=only), records=True)) is None:
                return self._room.recording()
        self._progress.say(f"none of {runs(len(tried))} with fewer perturbations passed, so none stands beside it")
        return None

    # what is needed

    def _explain(self, found: Found) -> None:
        """Cuts down, says what is needed, and records with that alone."""
        cutting = Cutting(lambda keys: self._fails(found, frozenset(keys)), _MOST_CUTTING, self._is_busy)
        all_keys = list(found.ended.met)
        needed = cutting.cut(all_keys)
        self._say_needed(found, needed, len(all_keys))
        if not needed.is_known:
            return
        words = self._words(found, needed.keys)
        sentences = [self._sentence(found, needed.keys, key, words[key]) for key in needed.keys]
        said = f"it fails if {', and '.join(dict.fromkeys(sentences))}"
        self._progress.say(said)
        known: Dict[str, object] = {"needs": said, "of": len(all_keys)}
        if self._wanted.says_again:
            known["again"] = _again(found.settings, needed.keys)
            self._progress.say(f"again: {known['again']}")
        self._keep(found, frozenset(needed.keys), known)

    def _fails(self, found: Found, only: FrozenSet[str]) -> bool:
        self._progress.show(f"cutting down, {runs(self._count)}")
        return self._fails_alike(found, self._shaken(found.settings._replace(only=only)))

    def _fails_alike(self, found: Found, ended: Ended) -> bool:
        why = self._judge.why(ended)
        return why is not None and why.is_late == found.why.is_late

    def _say_needed(self, found: Found, needed: Needed, count: int) -> None:
        if needed.needs_nothing:
            self._progress.say("it fails with no perturbation, too: the machine is busy enough")
        elif not needed.again:
            self._progress.say(f"none of {AGAIN} further runs of seed {found.settings.seed} failed; threads aren't determined by a seed")
        elif not needed.is_known:
            self._progress.say(
                f"what it needs can't be told: with {'the perturbation' if count == 1 else f'all {count} perturbations'} it fails in "
                f"{needed.again} of {AGAIN} runs, and with none in {needed.none} of {AGAIN}; the machine may be busy"
            )
        else:
            one = len(needed.keys) == 1
            self._progress.say(
                f"{len(needed.keys)} of {several(count, 'perturbation', 'perturbations')} {'is' if one else 'are'} needed ({runs(needed.runs)}; "
                f"{'with it' if one else 'with these'} alone {needed.alone} of {AGAIN} fail, with none {needed.none} of {AGAIN}):"
            )

    def _words(self, found: Found, keys: Sequence[str]) -> Dict[str, str]:
        """What the needed perturbations did, in words, which are said."""
        met = {**found.ended.met, **self._shaken(found.settings._replace(only=frozenset(keys))).met}
        for key in keys:
            self._progress.say(f"  {met[key]}")
        return met

    def _sentence(self, found: Found, keys: Sequence[str], key: str, words: str) -> str:
        def seen(lengths: Dict[str, float]) -> Seen:
            self._progress.show(f"finding what it takes, {runs(self._count)}")
            left_out = {key for key, length in lengths.items() if length == 0}
            ended = self._shaken(found.settings._replace(only=frozenset(set(keys) - left_out), lengths=lengths))
            return Seen(self._fails_alike(found, ended), ended.came)

        return sentence(key, words, seen)

    def _say_output(self, ended: Ended) -> None:
        own = f"{command_name('record')}: "
        lines = [line for line in ended.output.rstrip().splitlines() if not line.startswith(own)]
        for line in lines[-_LINES_OF_OUTPUT:]:
            self._progress.say(f"  | {line}")


def _own_lines(output: str) -> List[str]:
    """What the recorder has said in a run."""
    own = f"{command_name('record')}: "
    return [line[len(own) :] for line in output.splitlines() if line.startswith(own)]


def _again(settings: Settings, keys: Sequence[str]) -> str:
    """The options by which a run is shaken by these keys alone."""
    longest = [f"--longest {settings.most:g}"] if settings.most != MOST_MS else []
    fast = ["--fast"] if settings.is_fast else []
    return " ".join([f"--seed {settings.seed}", *longest, *fast, *(f"--only '{key}'" for key in keys)])


def _longer(why: Why) -> str:
    return "; --within S gives it longer" if why.is_late else ""


