"""Compares what was recorded with what the program prints for the script, and behind an entry with what real Twisted does."""

from __future__ import annotations

import json
import os
import sys
from typing import Callable, List, NamedTuple, Optional

from ...checkout import as_called
from ...program import NotRun, built
from ..answers import compared
from ..posts import has_posts
from ..profile import Entry
from ..programs import Answer, Broken, Once, Program, ours
from .saying import Said

#: how many seconds real Twisted has for a script. It needs a second for some ten thousand lines
_SECONDS = 300.0

#: where modules were found when this process began, before the program could change that
_PATH = list(sys.path)
_ON_TWISTED = (
    "import json, sys\nsys.path[:] = json.loads(sys.argv[1])\n"
    "from deferreds.commands import run_on_twisted\nsys.exit(run_on_twisted('on_twisted', sys.argv[2:]))"
)


class Agreement(NamedTuple):
    """How the script of a run and its journal go together, in a few words."""

    #: whether the script isn't that of the run
    is_wrong: bool
    text: str
    #: whether the program prints the journal of the script
    is_same: bool = False


class Agreed(NamedTuple):
    """A recorded run, whose script may end earlier than it did, and how it goes together with its journal."""

    said: Said
    agreement: Agreement


class Judged(NamedTuple):
    """In what real Twisted differs: at which line of the journal, if it ran the script, and that in words."""

    line: Optional[int]
    text: str


#: what asks real Twisted. Whether errors end advances is said, as of a Clock
Twisted = Callable[[bool], Program]


def program() -> Optional[Program]:
    """The program that is released or built; None, where none is there."""
    try:
        return ours()
    except Broken:
        return None


def facts_of(said: Said) -> Optional[str]:
    """The run of the script as JSON, by the program: all that a journal doesn't say, as the children of lists. None if it can't be had."""
    try:
        answer = Once([os.fspath(built()), "--json"], False, _SECONDS).answer(said.text)
    except (NotRun, Broken, OSError, MemoryError):
        return None
    return answer.output if answer.status == 0 and answer.lack is None else None


def real_twisted(errors_end_advances: bool) -> Program:
    """Real Twisted, in a process of its own: this one is the program's."""
    words = ["--errors-end-advances"] if errors_end_advances else []
    return Once([sys.executable, "-I", "-B", "-c", _ON_TWISTED, json.dumps(_PATH), *words], False, _SECONDS)


def agreed(said: Said, asked: Optional[Program], has_ended: bool = True, twisted: Twisted = real_twisted) -> Agreed:
    """What the program prints for the script, compared with the script's journal as real Twisted gave it.

    If they differ behind an entry, real Twisted runs the script, and has to print the journal. The script ends before the event
    in which it doesn't. `has_ended`: the program has ended by itself, so that the journal may be that of a whole run.
    """
    name = as_called("./deferreds")
    if asked is None:
        return Agreed(said, Agreement(False, f"not compared, since {name} isn't here"))
    try:
        answer = asked.answer(said.text)
    except Broken as why:
        return Agreed(said, Agreement(False, f"not compared: {why}"))
    except OSError as error:
        return Agreed(said, Agreement(False, f"not compared: {error.strerror}"))
    except MemoryError:
        return Agreed(said, Agreement(False, "not compared: out of memory"))
    if answer.status < 0:
        return Agreed(said, Agreement(False, f"not compared: {answer.errors.strip() or 'no answer'}"))
    first = compared(answer, Answer(0, said.output, ""))
    if first is None:
        how_far = ", line for line" if said.is_whole and has_ended else " up to there"
        return Agreed(said, Agreement(False, f"{name} prints the same{how_far}", True))
    line, mine, other = first
    before = [entry for place, entry in said.quirks if place < line]
    if before:
        return _behind(said, asked, twisted, line, before)
    if has_posts(json.loads(said.text)):
        return Agreed(said, Agreement(False, f"{name} took posts in other batches, from line {line} on"))
    return Agreed(said, Agreement(True, f"{name} prints line {line} otherwise: {mine} and not {other}"))


def _behind(said: Said, asked: Program, twisted: Twisted, line: int, entries: List[Entry]) -> Agreed:
    """The run, whose script the program runs otherwise from a line on, which is behind these entries."""
    entry = entries[-1].value
    judged = judged_by_twisted(said, entries, twisted)
    if judged is None:
        text = f"{as_called('./deferreds')} prints the same up to line {line}, by {entry} of docs/TWISTED.md, and real Twisted the same, line for line"
        return Agreed(said, Agreement(False, text))
    return _ended(said, asked, twisted, judged.line or line, f"behind {entry} of docs/TWISTED.md {judged.text}")


def judged_by_twisted(said: Said, entries: List[Entry], twisted: Twisted = real_twisted) -> Optional[Judged]:
    """In what real Twisted differs from the journal when it runs the script of a run that came to these entries; None if it doesn't."""
    try:
        answer = twisted(Entry.ERROR_LEAVES_ADVANCE in entries).answer(said.text)
    except (Broken, OSError, MemoryError) as why:
        return Judged(None, f"nothing is compared, since real Twisted can't be asked: {str(why) or 'out of memory'}")
    if answer.lack is not None or answer.status < 0:
        why_not = answer.lack.why if answer.lack is not None else answer.errors.strip() or "no answer"
        return Judged(None, f"nothing is compared, since real Twisted doesn't run the script: {why_not}")
    first = compared(answer, Answer(0, said.output, ""))
    if first is None:
        return None
    line, theirs, mine = first
    return Judged(line, f"real Twisted prints line {line} otherwise: {theirs} and not {mine}")


def _ended(said: Said, asked: Program, twisted: Twisted, line: int, why: str) -> Agreed:
    """The run, whose script ends before the event that has this line, if an event is left."""
    shorter = said.before(line, why)
    if shorter is None:
        return Agreed(said, Agreement(True, why))
    return agreed(shorter, asked, False, twisted)
