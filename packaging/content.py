"""What packages of the project hold: the Python, the program, the rows, and what is said about them."""

from __future__ import annotations

import platform
import sys
from typing import Dict, List

from archives import File, files_below
from project import TOP, Project

#: the executable of the release, and for which machines it is
PROGRAM = "release/x86_64-linux/deferreds"
TAG = "py3-none-manylinux_2_34_x86_64"

#: the folder that is put on Python's path in a checkout
PYTHON = TOP / "python"

_PACKAGE = PYTHON / "deferreds"
_ROWS = TOP / "crates" / "test_rows" / "data"
_SUFFIXES = (".py", ".typed", ".js", ".css", ".html", ".rows", ".json")
_LICENSE = "LICENSE"


class NotBuilt(SystemExit):
    """A package can't be built: the process ends, and prints why in one line."""

    def __init__(self, why: str) -> None:
        super().__init__(f"deferreds: no package is built: {why}")


def python_files() -> List[File]:
    """The package `deferreds` without the program, as it lies in a folder of Python's path."""
    return files_below(_PACKAGE, _SUFFIXES, "deferreds") + files_below(_ROWS, (".rows",), "deferreds/rows")


def program() -> bytes:
    """The executable of the release."""
    machine = f"{platform.system()} on {platform.machine()}"
    if not sys.platform.startswith("linux") or platform.machine() != "x86_64":
        raise NotBuilt(f"the program is for Linux on x86-64, and this is {machine}")
    try:
        return (TOP / PROGRAM).read_bytes()
    except OSError as error:
        raise NotBuilt(f"the program {PROGRAM} can't be read: {error.strerror}") from None


def about(project: Project) -> List[File]:
    """What a folder `.dist-info` says of the project, but for the wheel."""
    groups = {"console_scripts": project.scripts, **project.entry_points}
    return [
        File("METADATA", metadata(project)),
        File("entry_points.txt", "\n".join(map(_group, groups, groups.values())).encode()),
        File(_LICENSE, (TOP / _LICENSE).read_bytes()),
    ]


def _group(name: str, points: Dict[str, str]) -> str:
    """A group of entry points."""
    return f"[{name}]\n" + "".join(f"{point} = {target}\n" for point, target in sorted(points.items()))


def metadata(project: Project) -> bytes:
    """The core metadata of the project."""
    lines = [
        "Metadata-Version: 2.1",
        f"Name: {project.name}",
        f"Version: {project.version}",
        f"Summary: {project.description}",
        f"Keywords: {','.join(project.keywords)}",
        f"License: {project.license}",
        f"License-File: {_LICENSE}",
        f"Requires-Python: {project.requires_python}",
        "Description-Content-Type: text/markdown; charset=UTF-8",
    ]
    for extra, required in sorted(project.extras.items()):
        lines.append(f"Provides-Extra: {extra}")
        lines += [f'Requires-Dist: {each}; extra == "{extra}"' for each in required]
    return "\n".join([*lines, "", ""]).encode() + (TOP / project.readme).read_bytes()


def sources(project: Project) -> List[File]:
    """What a wheel is built from, as it lies in a checkout."""
    names = ["pyproject.toml", project.readme, _LICENSE]
    found = [File(name, (TOP / name).read_bytes()) for name in names]
    found.append(File(PROGRAM, program(), True))
    found += files_below(TOP / "packaging", (".py",), "packaging")
    found += files_below(_PACKAGE, _SUFFIXES, "python/deferreds")
    found += files_below(_ROWS, (".rows",), _ROWS.relative_to(TOP).as_posix())
    return [*found, File("PKG-INFO", metadata(project))]
