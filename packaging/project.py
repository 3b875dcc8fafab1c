"""What pyproject.toml says of the project, read by the standard library of Python 3.9, which has no reader of TOML."""

from __future__ import annotations

import json
from pathlib import Path
from typing import Any, Dict, List, NamedTuple

#: the top of the repository, or of what is unpacked of a source distribution
TOP = Path(__file__).resolve().parents[1]

PYPROJECT = TOP / "pyproject.toml"

_TABLE = "project"
_POINTS = f"{_TABLE}.entry-points."


class Project(NamedTuple):
    """The project, as packages of it tell."""

    name: str
    version: str
    description: str
    readme: str
    license: str
    requires_python: str
    keywords: List[str]
    #: what each extra requires
    extras: Dict[str, List[str]]
    #: the function that each command calls
    scripts: Dict[str, str]
    #: by the names of their groups, what other programs find in this project
    entry_points: Dict[str, Dict[str, str]]

    @property
    def stem(self) -> str:
        """The name with the version, as files of the project begin."""
        return f"{self.name}-{self.version}"


def read(path: Path = PYPROJECT) -> Project:
    """The project of this file."""
    tables = _tables(path)
    own = tables[_TABLE]
    return Project(
        name=own["name"],
        version=own["version"],
        description=own["description"],
        readme=own["readme"],
        license=own["license"],
        requires_python=own["requires-python"],
        keywords=own["keywords"],
        extras=tables[f"{_TABLE}.optional-dependencies"],
        scripts=tables[f"{_TABLE}.scripts"],
        entry_points={
            name[len(_POINTS) :]: table for name, table in tables.items() if name.startswith(_POINTS)
        },
    )


def _tables(path: Path) -> Dict[str, Dict[str, Any]]:
    """The tables of the project, in which each line is a comment or a key with a value that is JSON, too."""
    tables: Dict[str, Dict[str, Any]] = {}
    table = ""
    for number, line in enumerate(path.read_text(encoding="utf-8").splitlines(), 1):
        if line.startswith("["):
            table = line.strip("[]")
            tables[table] = {}
        elif table.split(".")[0] == _TABLE and line and not line.startswith("#"):
            key, _, value = line.partition("=")
            try:
                tables[table][key.strip()] = json.loads(value)
            except ValueError:
                raise SystemExit(f"{path.name}:{number}: the value has to be JSON on one line, too") from None
    return tables
