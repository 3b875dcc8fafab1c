"""The pages of docs/reference, made from its points: what each says, its program, its script and its run."""

from __future__ import annotations

import os
import re
import subprocess
from concurrent.futures import ThreadPoolExecutor
from pathlib import Path
from typing import Dict, Iterable, List, NamedTuple

from .points import FOLDER, BadPoint, Point, Question, Subject, questions

_SECONDS = 60

#: what stands in the place of a journal while a new point has no script
_NOT_RUN = "(no script yet)\n"


class Runs(NamedTuple):
    """What the program prints for a point: the run of its script, and its orders, if it has callers."""

    journal: str
    orders: str


def run_all(program: Path, points: Iterable[Point]) -> Dict[str, Runs]:
    """What the program prints for each point, by its name. Raises BadPoint if it refuses a script."""
    listed = list(points)
    with ThreadPoolExecutor(os.cpu_count() or 1) as pool:
        return {point.name: runs for point, runs in zip(listed, pool.map(lambda point: _runs(program, point), listed))}


def _runs(program: Path, point: Point) -> Runs:
    journal = _printed(program, point.script, ()) if point.script.is_file() else _NOT_RUN
    orders = _printed(program, point.orders, (0, 6), "--orders") if point.orders.is_file() else ""
    return Runs(journal, orders)


def _printed(program: Path, script: Path, further: Iterable[int], *words: str) -> str:
    """What the program prints for a script. Raises BadPoint if it ends with a status other than 0 or one of the further ones."""
    command = [os.fspath(program), *words]
    ran = subprocess.run(command, input=script.read_bytes(), capture_output=True, timeout=_SECONDS, check=False)
    if ran.returncode not in (0, *further):
        raise BadPoint(script, f"status {ran.returncode}: {ran.stderr.decode('utf-8', 'replace').strip()}")
    return ran.stdout.decode("utf-8")


def pages(listed: List[Subject], runs: Dict[str, Runs]) -> Dict[Path, str]:
    """The text of each page, by its path."""
    found = {FOLDER / f"{subject.name}.md": subject_page(subject, runs) for subject in listed}
    found[FOLDER / "questions.md"] = questions_page(questions(), listed, runs)
    found[FOLDER / "README.md"] = first_page((FOLDER / "points" / "README.txt").read_text(encoding="utf-8"), listed)
    return found


def first_page(text: str, listed: List[Subject]) -> str:
    """The page of all subjects, and of all points with a line each."""
    parts = [text.strip()]
    for subject in listed:
        lines = [f"- [{point.title}]({subject.name}.md#{anchor(point.title)})" for point in subject.points]
        parts += [f"## [{subject.title}]({subject.name}.md)", "\n".join(lines)]
    return "\n\n".join(parts) + "\n"


def questions_page(asked: List[Question], listed: List[Subject], runs: Dict[str, Runs]) -> str:
    """The page of questions. Raises BadPoint if one names no point."""
    points = {point.name: point for subject in listed for point in subject.points}
    parts = ["# Questions", "Each answer is shown by a run, which is a point of another page."]
    parts.append("\n".join(f"- [{question.asked}](#{anchor(question.asked)})" for question in asked))
    for question in asked:
        point = points.get(question.point)
        if point is None:
            raise BadPoint(FOLDER / "points" / "QUESTIONS.txt", f"there is no point {question.point}")
        page = f"{point.program.parent.name}.md#{anchor(point.title)}"
        parts += [f"## {question.asked}", question.answer, block("python", point.python)]
        parts += [f"The run of this point, [{point.title}]({page}):", block("", runs[point.name].journal)]
    return "\n\n".join(parts) + "\n"


def subject_page(subject: Subject, runs: Dict[str, Runs]) -> str:
    """The page of a subject."""
    parts = [f"# {subject.title}", subject.text]
    for point in subject.points:
        parts += point_parts(point, runs[point.name])
    return "\n\n".join(parts) + "\n"


def point_parts(point: Point, runs: Runs) -> List[str]:
    """The paragraphs and blocks of a point."""
    script = point.script.read_text(encoding="utf-8") if point.script.is_file() else ""
    parts = [f"## {point.title}", *point.says, block("python", point.python)]
    parts += [f"As a [script]({place(point.script)}):", block("json", script), "The run:", block("", runs.journal)]
    if point.twisted.is_file():
        parts += ["Twisted prints this in the place of the last lines:", block("", other_lines(runs.journal, point.twisted.read_text(encoding="utf-8")))]
    if runs.orders:
        posts = point.orders.read_text(encoding="utf-8")
        parts += [f"With the threads as [callers]({place(point.orders)}):", block("json", posts)]
        parts += ["What `./deferreds --orders` prints:", block("", runs.orders)]
    return [*parts, *point.look, *(leaving(entry, point.twisted.is_file()) for entry in point.leaves)]


def other_lines(journal: str, twisted: str) -> str:
    """The lines that Twisted prints, from the first one on that differs from ours."""
    ours, theirs = journal.splitlines(), twisted.splitlines()
    same = 0
    while same < min(len(ours), len(theirs)) and ours[same] == theirs[same]:
        same += 1
    return "\n".join(theirs[same:])


def block(language: str, text: str) -> str:
    """A block of a page."""
    return f"```{language}\n{text.rstrip()}\n```"


def place(path: Path) -> str:
    """A file of a point, as a page links it."""
    return path.relative_to(FOLDER).as_posix()


def leaving(entry: str, differs: bool) -> str:
    """The paragraph that names an entry of docs/TWISTED.md, by whether Twisted prints other lines for this run."""
    link = f"[`{entry}`](../TWISTED.md#where-this-leaves-twisted)"
    return f"Here this leaves Twisted: {link}." if differs else f"Twisted does the same in this run; {link} says where it doesn't."


def anchor(title: str) -> str:
    """The anchor that a heading has on a page."""
    return re.sub(r"[^\w -]", "", title.lower()).replace(" ", "-")
