"""The crates of the repository, the modules of their definitions, and the first comments that describe both."""

from __future__ import annotations

import re
from pathlib import Path
from typing import Iterator, List, NamedTuple

from deferreds.checkout import TOP

_MODULE = re.compile(r"^pub mod (\w+)$", re.MULTILINE)


class Missing(Exception):
    """A source isn't there, or has no comment that describes it."""

    def __init__(self, path: Path) -> None:
        super().__init__(f"{path} has no comment in its first line that describes it")


class Module(NamedTuple):
    """A module of definitions, and what its first comment says."""

    name: str
    what: str


class Crate(NamedTuple):
    """A crate, and what the first comment of its root says."""

    name: str
    what: str
    folder: Path


def first_comment(path: Path, mark: str) -> str:
    """The comment with which a file begins, as one line; each of its lines begins with this mark."""
    said: List[str] = []
    for line in path.read_text(encoding="utf-8").splitlines() if path.is_file() else []:
        if not line.startswith(mark):
            break
        said.append(line[len(mark) :].strip())
    if not said:
        raise Missing(path)
    return " ".join(said)


def crates(top: Path = TOP) -> Iterator[Crate]:
    """The crates, in the order of `crates.txt`: each stands below those that use it."""
    for line in (top / "crates.txt").read_text(encoding="utf-8").splitlines():
        name = line.partition("#")[0].partition(":")[0].strip()
        if name:
            folder = top / "crates" / name
            yield Crate(name, first_comment(root_of(folder), "//!"), folder)


def root_of(folder: Path) -> Path:
    """The root file of a crate: of a library, or else of a program."""
    library, program = folder / "src" / "lib.rt", folder / "src" / "main.rt"
    return program if program.is_file() else library


def modules(crate: Crate) -> Iterator[Module]:
    """The modules of a crate's definitions, in the order in which `Lib.antt` lists them; a folder of modules is none."""
    listed = crate.folder / "specs" / "Lib.antt"
    if not listed.is_file():
        return
    for name in _MODULE.findall(listed.read_text(encoding="utf-8")):
        path = listed.with_name(f"{name}.antt")
        if not path.is_file() or path.read_text(encoding="utf-8").startswith("pub mod "):
            continue
        yield Module(name, first_comment(path, "--"))
