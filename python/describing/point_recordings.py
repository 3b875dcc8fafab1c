"""Records programs on real Twisted, several side by side: each in a process that is forked off this one, which has imported Twisted once."""

from __future__ import annotations

import atexit
import json
import os
import sys
import tempfile
from pathlib import Path
from typing import Dict, Iterable, List, NamedTuple, Sequence, Tuple

from .point_names import names, renamed
from .points import Point

#: at most this many run at a time
_MOST = os.cpu_count() or 1


class Recording(NamedTuple):
    """How the recorder ended, what it said, and the script and the journal that it wrote, with the names of variables."""

    status: int
    said: str
    script: str
    journal: str


def record_all(points: Iterable[Point]) -> Dict[str, Recording]:
    """The recording of each point, by its name."""
    import deferreds.twisted.commands.record  # noqa: F401 (each process has it then)

    with tempfile.TemporaryDirectory(prefix="reference.") as room:
        return _record_all(list(points), Path(room))


def _record_all(waiting: List[Point], room: Path) -> Dict[str, Recording]:
    """Records points, some at a time, in this folder."""
    found: Dict[str, Recording] = {}
    running: Dict[int, Tuple[Point, Path]] = {}
    while waiting or running:
        if waiting and len(running) < _MOST:
            point = waiting.pop(0)
            output = room / point.name.replace("/", "_")
            running[_start(point, output)] = point, output
            continue
        process = next(iter(running))  # (the one that began first; others of this process's children aren't waited for)
        _, status = os.waitpid(process, 0)
        point, output = running.pop(process)
        found[point.name] = _read(point, output, os.waitstatus_to_exitcode(status))
    return found


def _start(point: Point, output: Path) -> int:
    """Starts to record a point, and returns the number of the process."""
    sys.stdout.flush()
    sys.stderr.flush()
    process = os.fork()
    if process == 0:
        status = 1
        atexit._clear()  # (the recorder runs what is to run at the end of a program, and that isn't what this process has registered)
        try:
            status = _record(["-o", os.fspath(output), *([] if point.has_threads else ["--virtual"]), os.fspath(point.program)], output)
        finally:
            sys.stdout.flush()
            sys.stderr.flush()
            os._exit(status)
    return process


def _record(words: Sequence[str], output: Path) -> int:
    """Runs the command, in a process of its own. What it says goes into a file, and so does what the program prints."""
    from deferreds.twisted.commands.record import main

    said = os.open(f"{output}.said", os.O_WRONLY | os.O_CREAT)
    for stream in (1, 2):
        os.dup2(said, stream)
    return int(main(list(words)))


def _read(point: Point, output: Path, status: int) -> Recording:
    """Reads what the recorder wrote; the script and the journal are empty if it wrote none."""
    said = _text(Path(f"{output}.said"))
    script, journal = _text(Path(f"{output}.json")), _text(Path(f"{output}.journal"))
    if not script:
        return Recording(status, said, "", journal)
    read = json.loads(script)
    new_names = names(point.program.read_text(encoding="utf-8"), read, journal, _made_at(Path(f"{output}.places.json")))
    return Recording(status, said, renamed(laid_out(_plain(read)), new_names), renamed(journal, new_names))


def _text(path: Path) -> str:
    return path.read_text(encoding="utf-8") if path.is_file() else ""


def _made_at(places: Path) -> Dict[str, int]:
    """The lines that made locks, semaphores and queues, by their names."""
    read = json.loads(_text(places) or "{}")
    return {name: int(place[1]) for name, place in read.get("things", {}).items()}


#: the limit of a script that names none
_USUAL_LIMIT = 2_000


def _plain(script: Dict[str, object]) -> Dict[str, object]:
    """A script without a limit that is the usual one."""
    return {key: value for key, value in script.items() if (key, value) != ("limit", _USUAL_LIMIT)}


_WIDTH = 110


def laid_out(script: Dict[str, object]) -> str:
    """The text of a script: a line for each event, and more for a long one."""
    keys = ",\n ".join(f"{json.dumps(key)}:{_laid_out(value, 1, key == 'events')}" for key, value in script.items())
    return f"{{{keys}}}\n"


def _laid_out(value: object, indent: int, is_broken: bool = False) -> str:
    """A value, with one item to a line if it is too long for a line."""
    short = json.dumps(value, ensure_ascii=False, separators=(",", ":"))
    if not is_broken and len(short) + indent <= _WIDTH or not isinstance(value, (list, dict)) or not value:
        return short
    if isinstance(value, dict):
        return "{" + _joined([f"{json.dumps(key)}:{_laid_out(item, indent + 1)}" for key, item in value.items()], indent) + "}"
    if is_broken:
        return "[\n" + " " * (indent + 1) + _joined([_laid_out(item, indent + 1) for item in value], indent) + "]"
    return "[" + _joined([_laid_out(item, indent + 1) for item in value], indent) + "]"


def _joined(items: List[str], indent: int) -> str:
    """Items, of which the short ones at the beginning stand on one line."""
    short = 0
    while short < len(items) and "\n" not in items[short] and len(items[short]) < 24 and not items[short].startswith(("[", "{")):
        short += 1
    separator = ",\n" + " " * (indent + 1)
    first = ",".join(items[: short + 1]) if short else items[0]
    return separator.join([first, *items[short + 1 if short else 1 :]])
