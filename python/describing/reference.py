"""`make_reference [--write] [SUBJECT ..]`: checks docs/reference, or makes it anew from its points.

For each point the program is recorded on real Twisted, and the script beside it has to print the journal of that. Each page has to be the
one that is made of the points. With --write a point without a script gets the recorded one, and the pages are written; a script that
prints another journal is only named: remove it to have it recorded anew. With SUBJECT only the points of that subject are recorded.

Without Twisted no program is recorded, and the last line says so. Status 0: each point holds; 1: one doesn't, or a page isn't what is
made; 64: the arguments are wrong; 70: there is no program for these sources.
"""

from __future__ import annotations

import argparse
import importlib.util
import re
import sys
from pathlib import Path
from typing import Dict, List, Optional

from deferreds.arguments import USAGE, Parser
from deferreds.ending import run_command
from deferreds.program import NOT_RUN, NotRun, built

from .point_pages import Runs, pages, run_all
from .point_recordings import Recording, record_all
from .points import BadPoint, Point, subjects

#: by this entry of docs/TWISTED.md the times of results are the script's own
_OWN_TIMES = "results-at-their-times"
#: how the recorder names an entry of docs/TWISTED.md that a run has reached
_REACHED = re.compile(r"Twisted does here what docs/TWISTED\.md says of ([\w-]+)")
#: a last line of a run: the name and the outcome
_OUTCOME = re.compile(r"^#\d+ (\S+) (.+)$", re.MULTILINE)


def has_twisted() -> bool:
    """Whether programs can be recorded."""
    return importlib.util.find_spec("twisted") is not None


def without_times(journal: str) -> str:
    """A journal without the times at which results of jobs are due."""
    return re.sub(r"^(later job \d+|advance) \d+$", r"\1", journal, flags=re.MULTILINE)


def first_difference(expected: str, found: str) -> Optional[str]:
    """The first line in which two texts differ."""
    wanted, got = expected.splitlines(), found.splitlines()
    for number in range(max(len(wanted), len(got))):
        lines = [text[number] if number < len(text) else "nothing" for text in (wanted, got)]
        if lines[0] != lines[1]:
            return f"line {number + 1} is {lines[1]!r}, not {lines[0]!r}"
    return None


def missing_outcome(journal: str, orders: str) -> Optional[str]:
    """The outcome of a run, as its last lines say it, that stands in no line of what `--orders` prints."""
    for name, outcome in _OUTCOME.findall(journal):
        if not re.search(rf"^{re.escape(name)} \d+ {re.escape(outcome)} in \d+ order", orders, re.MULTILINE):
            return f"{name} {outcome}"
    return None


def problem_with_twisted(point: Point, recording: Recording) -> Optional[str]:
    """Why a point doesn't hold in which Twisted prints otherwise, by an entry of docs/TWISTED.md."""
    if not point.twisted.is_file():
        return f"{point.twisted.name} isn't there; --write writes it"
    if not point.script.is_file() or point.script.read_text(encoding="utf-8") != recording.script:
        return f"{point.script.name} isn't the recorded script, as it has to be where Twisted prints otherwise"
    different = first_difference(point.twisted.read_text(encoding="utf-8"), recording.journal)
    return None if different is None else f"Twisted prints otherwise than {point.twisted.name} has it: {different}"


def problem_of(point: Point, recording: Recording, runs: Runs) -> Optional[str]:
    """Why a point doesn't hold: its program can't be recorded, its script prints something else, or no order ends as the program."""
    if recording.status != 0 or not recording.script:
        return f"status {recording.status}: {recording.said.strip()}"
    entries: List[str] = _REACHED.findall(recording.said)
    unnamed = [entry for entry in entries if entry not in point.leaves]
    if unnamed:
        return f"its run reaches {unnamed[0]}, which its docstring doesn't name"
    if entries and recording.journal != runs.journal:
        return problem_with_twisted(point, recording)
    if point.twisted.is_file():
        return f"{point.twisted.name} is there, and Twisted does what the script does"
    missing = missing_outcome(recording.journal, runs.orders) if runs.orders else None
    if missing is not None:
        return f"the program ends with {missing}, and no order does"
    expected, journal = recording.journal, runs.journal
    if _OWN_TIMES in point.leaves:
        expected, journal = without_times(expected), without_times(journal)
    different = first_difference(expected, journal)
    return None if different is None else f"the script prints another journal than the program: {different}"


def write_scripts(points: List[Point], recordings: Dict[str, Recording]) -> None:
    """Writes the scripts of points that have none."""
    for point in points:
        recording = recordings.get(point.name)
        if recording is not None and recording.script and not point.script.is_file():
            point.script.write_text(recording.script, encoding="utf-8")
            print(f"{point.script} is written")


def write_twisted(points: List[Point], recordings: Dict[str, Recording], runs: Dict[str, Runs]) -> None:
    """Writes what Twisted prints, where that differs by an entry of docs/TWISTED.md, and isn't there."""
    for point in points:
        recording = recordings.get(point.name)
        if recording is None or point.twisted.is_file() or not _REACHED.search(recording.said):
            continue
        if recording.journal != runs[point.name].journal:
            point.twisted.write_text(recording.journal, encoding="utf-8")
            print(f"{point.twisted} is written")


def problems_of(points: List[Point], recordings: Dict[str, Recording], runs: Dict[str, Runs]) -> List[str]:
    """What is wrong with these points."""
    found = []
    for point in points:
        recording = recordings.get(point.name)
        problem = None if recording is None else problem_of(point, recording, runs[point.name])
        if not point.script.is_file():
            problem = problem or "it has no script; --write writes it"
        if problem is not None:
            found.append(f"{point.program}: {problem}")
    return found


def stale(made: Dict[Path, str], writes: bool) -> List[str]:
    """The pages that aren't what is made, which are written if that is asked for."""
    found = []
    for path, text in made.items():
        present = path.read_text(encoding="utf-8") if path.is_file() else ""
        different = first_difference(text, present)
        if different is not None and writes:
            path.write_text(text, encoding="utf-8")
            print(f"{path} is written")
        elif different is not None:
            found.append(f"{path} isn't what is made of its points, {different}; python/make_reference --write makes it")
    return found


def check(program: Path, asked: List[str], writes: bool) -> int:
    """Checks or writes the reference. Raises BadPoint if a file isn't in its form."""
    listed = subjects()
    points = [point for subject in listed for point in subject.points]
    chosen = [point for point in points if not asked or point.program.parent.name in asked]
    recordings = record_all(chosen) if has_twisted() else {}
    if writes:
        write_scripts(chosen, recordings)
    runs = run_all(program, points)
    if writes:
        write_twisted(chosen, recordings, runs)
    problems = problems_of(chosen, recordings, runs) + stale(pages(listed, runs), writes)
    for problem in problems:
        print(problem)
    held = f"{len(points)} points on {len(listed)} pages"
    if problems:
        print(f"{held}: {len(problems)} problems")
        return 1
    print(f"{held}: {said_of(recordings, len(points))}")
    return 0


def said_of(recordings: Dict[str, Recording], points: int) -> str:
    """What was checked, if there was no problem."""
    if not recordings:
        return "each script prints its journal; no program was recorded, since Twisted isn't here"
    import twisted

    many = "each holds" if len(recordings) == points else f"{len(recordings)} were recorded, and hold"
    return f"{many} on Twisted {twisted.__version__}"


def main() -> int:
    parser = Parser(prog="make_reference", description=__doc__, formatter_class=argparse.RawDescriptionHelpFormatter)
    parser.add_argument("--write", action="store_true", help="write missing scripts, and the pages")
    parser.add_argument("subjects", nargs="*", metavar="SUBJECT", help="a subject to record alone, as callbacks")
    asked = parser.parse_args()
    try:
        unknown = sorted({*asked.subjects} - {subject.name for subject in subjects()})
        if unknown:
            print(f"make_reference: there is no subject {unknown[0]}", file=sys.stderr)
            return USAGE
        return check(built(), asked.subjects, asked.write)
    except BadPoint as why:
        print(f"make_reference: {why}", file=sys.stderr)
        return 1
    except NotRun as why:
        print(f"make_reference: {why}", file=sys.stderr)
        return NOT_RUN


if __name__ == "__main__":
    run_command(main, "make_reference")
