"""Builds wheels and source distributions, as pip asks for them (PEP 517 and 660), with nothing but the standard library."""

from __future__ import annotations

import os
from pathlib import Path
from typing import Any, List, Mapping, Optional

import content
import project as projects
from archives import File, write_tar, write_wheel

Settings = Optional[Mapping[str, Any]]

_ANYWHERE = "py3-none-any"


def build_wheel(
    wheel_directory: str, config_settings: Settings = None, metadata_directory: Optional[str] = None
) -> str:
    """Writes the wheel, with the program, and gives the name of its file."""
    files = content.python_files()
    files.append(File("deferreds/bin/deferreds", content.program(), True))
    return _write(wheel_directory, files, content.TAG)


def build_editable(
    wheel_directory: str, config_settings: Settings = None, metadata_directory: Optional[str] = None
) -> str:
    """Writes a wheel that has Python find the package in this checkout, whose launcher runs the program."""
    path = f"{os.fspath(content.PYTHON)}\n".encode()
    return _write(wheel_directory, [File("deferreds.pth", path)], _ANYWHERE)


def build_sdist(sdist_directory: str, config_settings: Settings = None) -> str:
    """Writes what the wheel is built from, the program among it, and gives the name of the file."""
    project = projects.read()
    name = f"{project.stem}.tar.gz"
    write_tar(Path(sdist_directory, name), content.sources(project), project.stem)
    return name


def prepare_metadata_for_build_wheel(metadata_directory: str, config_settings: Settings = None) -> str:
    """Writes what the wheel says of the project, and gives the name of the folder."""
    project = projects.read()
    name = _folder(project)
    folder = Path(metadata_directory, name)
    folder.mkdir(parents=True)
    for file in _about(project, content.TAG):
        (folder / file.name).write_bytes(file.data)
    return name


def _write(directory: str, files: List[File], tag: str) -> str:
    project = projects.read()
    name, folder = f"{project.stem}-{tag}.whl", _folder(project)
    about = [file._replace(name=f"{folder}/{file.name}") for file in _about(project, tag)]
    write_wheel(Path(directory, name), files, about, folder)
    return name


def _folder(project: projects.Project) -> str:
    return f"{project.stem}.dist-info"


def _about(project: projects.Project, tag: str) -> List[File]:
    is_pure = str(tag == _ANYWHERE).lower()
    wheel = f"Wheel-Version: 1.0\nGenerator: deferreds\nRoot-Is-Purelib: {is_pure}\nTag: {tag}\n"
    return [*content.about(project), File("WHEEL", wheel.encode())]
