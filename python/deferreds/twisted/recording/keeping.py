"""Keeps a recording: says the run, compares it, writes its files, and tells what they are."""

from __future__ import annotations

import enum
import json
import platform
import signal
from typing import Any, Dict, List, Optional, Sequence

import twisted

from ...view.page import written_page
from ...view.run import run_of
from ...view.sizes import several
from ...view.names import PLACES, WHOLE_JOURNAL
from ...view.sources import Source
from ..programs import Program
from .agreeing import Agreement, agreed, facts_of
from .files import Place, Written
from .how_shaken import how_shaken
from .messages import Messages
from .recorder import Problem
from .saying import Said


#: how many places a message names
_MOST_PLACES = 3


#: how a run has ended of which the notes don't say that
NOT_NOTED = "after its notes"


class Status(enum.IntEnum):
    """The result of a recording, as the status of the command."""

    RECORDED = 0
    REFUSED = 65
    NOTHING = 66
    NOT_WRITTEN = 73


class Keeping:
    """Where recordings are kept, and how."""

    def __init__(self, place: Place, messages: Messages, view: bool, asked: Optional[Program]) -> None:
        """`view`: a page is written, too. `asked`: the program that scripts are compared with, if there is one."""
        self.place = place
        self.messages = messages
        #: how many children this process has forked
        self.children = 0
        #: the versions with which the run was recorded
        self.twisted, self.python = str(twisted.__version__), platform.python_version()
        self._view = view
        self._asked = asked

    def be_of_child(self) -> None:
        """From here on the files are those of a forked child, which are named by its number."""
        self.children = 0
        self.place.be_of_this_process()
        self.messages.be_of_child()

    def keep(self, said: Said, how: str, earlier: int = 0) -> Status:
        """Keeps a run that ended so, and before which so many events were, which aren't kept. What can't be kept is reported."""
        if said.refusals or said.script is None:
            self._refuse(said.refusals, said)
            return self._write(said, how, earlier) if said.is_cut else self._write_refused(said, how, earlier)
        if said.is_empty:
            self._tell_nothing()
            return Status.NOTHING
        return self._write(said, how, earlier)

    def say_lost(self, why: str) -> None:
        """Says that the run can't be kept, and that the earlier recording is as it was, if there is one."""
        self.messages.say(f"the run can't be kept: {why}")
        stays = self.place.what_stays()
        if stays:
            self.messages.say(stays)

    def _write_refused(self, said: Said, how: str, earlier: int) -> Status:
        """Writes the journal, and if it is wanted the page, of a run that a script can't say."""
        why = _reasons(said.refusals) or "it has no words for it"
        files: Dict[str, str] = {".journal": said.whole_output}
        counts = self._add_places_and_page(files, said, said.places, why)
        written = self._write_files(files, self._facts(said, how, earlier, f"no script: {why}"), counts)
        if written.is_any:
            lines = several(len(said.journal), "line", "lines")
            self.messages.say(f"{written.name}.journal: {lines}. There is no script, and the journal may lack what is refused")
        return Status.REFUSED

    def _tell_nothing(self) -> None:
        if self.children:
            self.messages.say(
                "nothing was recorded in this process: it has used no Deferreds. "
                f"What a forked child does is written when that ends: {self.place.shown('.PID.json')}"
            )
        else:
            self.messages.say("nothing was recorded: the program has used no Deferreds")

    def _refuse(self, refusals: Sequence[Problem], said: Said) -> None:
        for problem in dict.fromkeys(problem.said for problem in refusals):
            at = f", at {problem.place}" if problem.place else ""
            plainly = f" (--plain {problem.kind} tells it as what it is made of)" if problem.kind else ""
            self.messages.say(f"a script can't say this: {problem.reason}{at}{plainly}")
        for hindrance in (one for one in said.plainly if not one.is_told):
            self.messages.say(hindrance.text)

    def _write(self, said: Said, how: str, earlier: int) -> Status:
        until = _cut_by(how)
        said, agreement = agreed(said, self._asked, not until)
        files: Dict[str, str] = {}
        if agreement.is_wrong:
            files[".journal"] = said.whole_output
        else:
            files.update({".json": said.text + "\n", ".journal": said.output})
            if not said.is_whole:
                files[WHOLE_JOURNAL] = said.whole_output
        facts = facts_of(said) if self._view and agreement.is_same and said.is_whole else None
        counts = self._add_places_and_page(files, said, None if agreement.is_wrong else said.places, facts=facts)
        written = self._write_files(files, self._facts(said, how, earlier, agreement.text), counts)
        if not written.is_any:
            return Status.NOT_WRITTEN
        self._tell(said, written.name, agreement, until)
        if agreement.is_wrong or said.is_cut:
            return Status.REFUSED
        lacks_page = self._view and ".html" not in files
        return Status.NOT_WRITTEN if written.failures or lacks_page else Status.RECORDED

    def _add_places_and_page(
        self, files: Dict[str, str], said: Said, places: Optional[str], refused: str = "", facts: Optional[str] = None
    ) -> str:
        """Adds the places, and if it is wanted the page of the whole run. Gives how large that is, or nothing where there is none.

        `refused`: why there is no script, where there is none. `facts`: what the program prints of the whole run as JSON, of which the page is
        made then, as the one that `./view` makes of the script."""
        if places is not None:
            files[PLACES] = places
        if not self._view:
            return ""
        problem = f"a script can't say this: {refused}. What is shown may lack it" if refused else "" if said.is_whole else _beginning(said)
        name, script, text = self.place.name.name, "" if refused else said.text, said.whole_output
        source = Source(name, True, script, places or "", said.tick, False, said.begins, problem, json.dumps(how_shaken()))
        if facts is not None:
            source, text = Source(f"{name}.json", False, f"{script}\n", places or "", said.tick, False, shaken=source.shaken), facts
        try:
            run = run_of(source, text)
            files[".html"] = written_page(run)
        except (OSError, MemoryError) as error:
            why = error.strerror if isinstance(error, OSError) else "out of memory"
            self.messages.say(f"{self.place.shown('.html')} can't be made: {why}")
            return ""
        return run.counts

    def _write_files(self, files: Dict[str, str], facts: Dict[str, Any], counts: str) -> Written:
        """Writes the files and their list, and says what couldn't be written, and how large the page is, where there is one."""
        written = self.place.write(files, facts)
        for failure in written.failures:
            self.messages.say(failure)
        if written.is_any and counts:
            self.messages.say(f"{written.name}.html: {counts}")
        return written

    def _facts(self, said: Said, how: str, earlier: int, compared: str) -> Dict[str, Any]:
        """What the list of the files says of the recording."""
        return {
            "twisted": self.twisted,
            "python": self.python,
            "ended": how,
            "earlier events": earlier,
            "events": len(said.begins),
            "events of the script": said.events,
            "compared": compared,
            **({"refused": _reasons(said.refusals)} if said.is_cut else {}),
            **({"tick": said.tick} if said.tick else {}),
            **({"shaken": how_shaken()} if how_shaken() else {}),
        }

    def _tell(self, said: Said, name: str, agreement: Agreement, until: str) -> None:
        for entry in sorted({entry.value for _, entry in said.quirks}):
            self.messages.say(f"Twisted does here what docs/TWISTED.md says of {entry}")
        for plainly in said.plainly:
            self.messages.say(plainly.text)
        if said.tick:
            self.messages.say(f"1 tick = {said.tick}")
        if said.further_clocks:
            self.messages.say(_of_further_clocks(said.further_clocks))
        if said.elsewhere:
            self.messages.say(f"left out: {several(said.elsewhere, 'Deferred', 'Deferreds')} of other threads")
        lines, deferreds = several(len(said.journal), "line", "lines"), several(len(said.records), "Deferred", "Deferreds")
        deferreds += f", until {until}" if until else ""
        if agreement.is_wrong:
            self.messages.say(f"{name}.journal: {lines}, {deferreds}. No script is left: it would be wrong, since {agreement.text}")
            return
        if said.is_whole:
            self.messages.say(f"{name}.json and {name}.journal: {lines}, {deferreds}; {agreement.text}")
            return
        lacks = ". It may lack what is refused" if said.is_cut else ""
        self.messages.say(f"{name}{WHOLE_JOURNAL}: {lines}, {deferreds}{lacks}")
        self.messages.say(f"{name}.json and {name}.journal: {_beginning(said)}; {agreement.text}")


def _reasons(problems: Sequence[Problem]) -> str:
    """Why there is no script, or none of the whole run; nothing, where there are no problems."""
    return "; ".join(dict.fromkeys(problem.reason for problem in problems))


def _cut_by(how: str) -> str:
    """What has ended a run, where that isn't the program itself: it may have hung, or have had more to do."""
    if how == f"status {-signal.SIGINT}":
        return "Ctrl-C"
    if how == NOT_NOTED:
        return "the end of its notes"
    return how.split()[-1] if how.startswith(("SIG", "asked by ")) else ""


def _of_further_clocks(places: List[str]) -> str:
    """That clocks have no times in a recording, which were first used at these places."""
    shown = ", ".join([*dict.fromkeys(places[:_MOST_PLACES]), *([".."] if len(places) > _MOST_PLACES else [])])
    whose = "its" if len(places) == 1 else "their"
    return f"no times for {several(len(places), 'further clock', 'further clocks')} ({shown}): {whose} calls are recorded as events"


def _beginning(said: Said) -> str:
    """Which events the script has, where it isn't of the whole run, and why."""
    why = _reasons(said.too_large) or "an event was under way at the end"
    if said.is_cut:
        why = f"it can't say what follows: {_reasons(said.refusals)}"
    return f"the script is of the first {said.events} of {several(len(said.begins), 'event', 'events')}, since {why}"
