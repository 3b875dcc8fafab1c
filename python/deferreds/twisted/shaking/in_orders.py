"""Every order of the results that came late: a run that passes as a script with callers, and whether some order of it ends as the run that fails."""

from __future__ import annotations

import json
from pathlib import Path
from typing import Counter as Counts, NamedTuple, Optional, Sequence, Tuple

from ...bounds import ORDERS
from ...checkout import as_called
from ...view.batches import text_of
from ...view.inputs import Failed, InOrders, Inputs, run_script
from ...view.names import PLACES, WHOLE_JOURNAL
from ...view.recordings import Recorded
from ...view.run import Run
from ...view.sizes import several
from .as_callers import AsCallers, as_callers, outcome_of
from .beside import Recording

#: the kinds of perturbations that move the result of a job
_OF_RESULTS = frozenset({"start", "job"})
#: how many orders a sample has that is proposed
_SAMPLE = 1_000
#: up to how many outcomes are compared with the run that fails
_MOST_OUTCOMES = 300


class Script(NamedTuple):
    """The script, the options that run its orders, and what is said of these."""

    text: str
    options: str
    orders: str

    def said(self, shown: str) -> str:
        """What is said of the script, which is kept under this name."""
        return f"{as_called('./deferreds')} {self.options} {shown} runs {self.orders}"


class Ends(NamedTuple):
    """How the run that fails ends: its recording, and whether it doesn't, so that the recording is of its beginning."""

    failing: Recording
    is_late: bool


def script_of(keys: Sequence[str], ends: Ends, passing: Recording, path: Path) -> Optional[Script]:
    """The script of a run that passes, with the results as posts that these perturbations move; None, if they move something else, too, or it
    can't be made. `path`: where the script may be written, and is removed.
    """
    names = [key.split(" ")[1] for key in keys if key.split(" ", 1)[0] in _OF_RESULTS]
    if not keys or len(names) < len(keys):
        return None
    try:
        run = _run_of(passing)
        made = None if run is None else as_callers(json.loads(passing.files[".json"]), run, names)
        if run is None or made is None or outcome_of(run) != _outcome(made, text_of(made.batches)):
            return None
        if made.orders > ORDERS:
            sample = f"a sample of the {made.orders:,} orders of {several(made.posts, 'result', 'results')}"
            return Script(made.text, f"--orders --sample {_SAMPLE} --seed 1", sample)
        return Script(made.text, "--orders", _orders(made, ends, path))
    except Failed:  # (the program isn't there, or refuses the script, which may be too large for a language with posts)
        return None


def _run_of(recording: Recording) -> Optional[Run]:
    """The run of a script that has all of it."""
    if not recording.has_script or WHOLE_JOURNAL in recording.files:
        return None
    told = run_script(recording.files[".json"].encode(), "the script")
    return told.beside(recording.files.get(PLACES, ""), Recorded()).run()


def _outcome(made: AsCallers, batches: str) -> Counts[Tuple[str, str]]:
    return outcome_of(run_script(made.text.encode(), "the script", batches).run())


def _orders(made: AsCallers, ends: Ends, path: Path) -> str:
    """How many orders a script has, and how many of these end as the run that fails."""
    has = f"{several(made.orders, 'order', 'orders')} of {several(made.posts, 'result', 'results')}"
    failed = _run_of(ends.failing)
    if failed is None:
        return has
    wanted = outcome_of(failed)
    if _is_alike(wanted, _outcome(made, text_of(made.batches)), ends.is_late):
        return f"{has}; what fails isn't seen in Deferreds, as these end in the run that fails as in one that passes"
    alike = _alike(made, wanted, ends.is_late, path)
    if alike is None:
        return has
    if alike:
        return f"{has}, of which {alike} {'ends' if alike == 1 else 'end'} as the run that fails"
    return f"{has}, of which none ends as the run that fails: the program's Python does something else there, which no script says"


def _alike(made: AsCallers, wanted: Counts[Tuple[str, str]], is_late: bool, path: Path) -> Optional[int]:
    """How many orders end in this way; None, if there are too many ways."""
    path.write_text(made.text, encoding="utf-8")
    try:
        outcomes = InOrders(Inputs(str(path)), []).orders.outcomes
    finally:
        path.unlink()
    if len(outcomes) > _MOST_OUTCOMES:
        return None
    return sum(one.orders for one in outcomes if _is_alike(wanted, _outcome(made, text_of(one.first)), is_late))


def _is_alike(wanted: Counts[Tuple[str, str]], found: Counts[Tuple[str, str]], is_late: bool) -> bool:
    """Whether a run ends as the wanted one, or has all of that, if that hadn't ended."""
    return not wanted - found if is_late else wanted == found
