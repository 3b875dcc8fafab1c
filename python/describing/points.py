"""The points of docs/reference: for each a small program, whose docstring says what it shows, and a script of the same run.

A subject is a folder of `docs/reference/points`. Its page begins with the text of its `SUBJECT.txt`, whose list at the end names its
points in order. `SUBJECTS.txt` lists the subjects in order.
"""

from __future__ import annotations

import ast
import re
from pathlib import Path
from typing import List, NamedTuple

from deferreds.checkout import TOP

FOLDER = TOP / "docs" / "reference"

_LISTED = re.compile(r"^- (\w+)$", re.MULTILINE)
#: with what the paragraphs of a docstring begin that don't stand above the program
_LOOK = "Look at"
_LEAVES = re.compile(r"Leaves Twisted: ([\w, -]+)")


class BadPoint(Exception):
    """A point or a subject isn't in its form: which file, and why."""

    def __init__(self, path: Path, why: str) -> None:
        super().__init__(f"{path}: {why}")


class Point(NamedTuple):
    """A program and its script."""

    program: Path
    title: str
    #: the paragraphs above the program, and what to look at in its run
    says: List[str]
    look: List[str]
    #: the entries of docs/TWISTED.md that its run reaches
    leaves: List[str]
    #: the program without its docstring
    python: str

    @property
    def script(self) -> Path:
        """The script of the same run."""
        return self.program.with_suffix(".json")

    @property
    def orders(self) -> Path:
        """A script with the same posts by callers, which is run in every order; it needn't be there."""
        return self.program.with_suffix(".orders.json")

    @property
    def twisted(self) -> Path:
        """What Twisted prints, where that differs by an entry of docs/TWISTED.md; it is there only then."""
        return self.program.with_suffix(".twisted.journal")

    @property
    def name(self) -> str:
        """The subject and the point, as messages name it."""
        return f"{self.program.parent.name}/{self.program.stem}"

    @property
    def has_threads(self) -> bool:
        """Whether the program needs the threads of a real reactor."""
        return re.search(r"^(?:from|import) (?:threading|twisted\.python\.threadpool)\b", self.python, re.MULTILINE) is not None


class Subject(NamedTuple):
    """A page, and its points in order."""

    name: str
    title: str
    text: str
    points: List[Point]


class Question(NamedTuple):
    """A question that is asked again and again, its answer, and the name of the point whose run shows it."""

    asked: str
    answer: str
    point: str


def questions(folder: Path = FOLDER) -> List[Question]:
    """The questions, in order: blocks of a line that asks, lines that answer, and a line with the point. Raises BadPoint if one isn't so."""
    path = folder / "points" / "QUESTIONS.txt"
    return [_question_of(path, block) for block in path.read_text(encoding="utf-8").strip().split("\n\n")]


def _question_of(path: Path, block: str) -> Question:
    """The question of a block. Raises BadPoint if it isn't in its form."""
    asked, *answer, point = block.split("\n")
    if not asked.endswith("?") or not answer or not point.startswith("- "):
        raise BadPoint(path, f"{asked!r}: a line that asks, lines that answer, and a line `- SUBJECT/POINT` are needed")
    return Question(asked, " ".join(answer), point[2:])


def subjects(folder: Path = FOLDER) -> List[Subject]:
    """The subjects, in order. Raises BadPoint if a folder isn't listed, or a listed one isn't there."""
    points = folder / "points"
    listed = (points / "SUBJECTS.txt").read_text(encoding="utf-8").split()
    _check_listed(points / "SUBJECTS.txt", listed, [path.parent.name for path in points.glob("*/SUBJECT.txt")])
    return [subject_of(points / name) for name in listed]


def subject_of(folder: Path) -> Subject:
    """The subject of a folder. Raises BadPoint if it isn't in its form."""
    path = folder / "SUBJECT.txt"
    text = path.read_text(encoding="utf-8")
    listed: List[str] = _LISTED.findall(text)
    _check_listed(path, listed, [program.stem for program in folder.glob("*.py")])
    title, _, rest = _LISTED.sub("", text).strip().partition("\n")
    if not title.startswith("# "):
        raise BadPoint(path, "its first line is no title")
    return Subject(folder.name, title[2:], rest.strip(), [point_of(folder / f"{name}.py") for name in listed])


def _check_listed(path: Path, listed: List[str], there: List[str]) -> None:
    """Raises BadPoint if something is listed twice, isn't there, or isn't listed."""
    wrong = sorted({*listed} ^ {*there}) or sorted(name for name in listed if listed.count(name) > 1)
    if wrong:
        raise BadPoint(path, f"{wrong[0]} has to be there, and to be listed once")


def point_of(program: Path) -> Point:
    """The point of a program. Raises BadPoint if its docstring isn't in its form."""
    source = program.read_text(encoding="utf-8")
    tree = ast.parse(source)
    docstring = ast.get_docstring(tree)
    if docstring is None:
        raise BadPoint(program, "it has no docstring")
    title, *paragraphs = docstring.split("\n\n")
    end = tree.body[0].end_lineno or 0
    look = [text for text in paragraphs if text.startswith(_LOOK)]
    left = [found for text in paragraphs for found in _LEAVES.findall(text)]
    says = [text for text in paragraphs if not text.startswith(_LOOK) and not _LEAVES.match(text)]
    if not says or not title.endswith(".") or "\n" in title:
        raise BadPoint(program, "its docstring has to begin with a title of one line, a sentence, and then a paragraph")
    entries = [entry for entry in ", ".join(left).split(", ") if entry]
    return Point(program, title.rstrip("."), says, look, entries, "\n".join(source.splitlines()[end:]).strip() + "\n")
