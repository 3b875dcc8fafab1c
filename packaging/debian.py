#!/usr/bin/env python3
"""`debian.py OUT_FOLDER`: writes Debian's package of the project into a folder, and prints its name.

It needs dpkg-deb and git. Its time is that of the last commit, or SOURCE_DATE_EPOCH, so that the same content gives the
same bytes.
"""

from __future__ import annotations

import argparse
import hashlib
import os
import subprocess
import sys
import tempfile
from pathlib import Path
from typing import List

import content
import project as projects
from archives import File, compressed
from command import Parser, run_command
from project import TOP, Project

_DOCUMENTS = "usr/share/doc/deferreds"
_PYTHON = "usr/lib/python3/dist-packages"
_SHOWN = (".md", ".png")

_CONTROL = """\
Package: {name}
Version: {version}
Architecture: amd64
Maintainer: the authors of deferreds
Installed-Size: {size}
Depends: libc6 (>= 2.34), python3 (>= 3.9)
Recommends: python3-twisted
Section: devel
Priority: optional
Description: {description}
 The program runs a script of actions on Deferreds, and prints the journal of all
 that happens, in order, and the outcome of each Deferred. What it prints is proved
 to be what its definitions say.
 .
 Other commands show a run as a page, record Python programs that use Twisted, and
 compare implementations of Deferreds.
"""

#: what Python itself needs to know of modules that are installed, and removed
_SCRIPTS = {
    "postinst": """\
#!/bin/sh
set -e
if [ "$1" = configure ] && command -v py3compile >/dev/null; then
    py3compile -p deferreds
fi
""",
    "prerm": """\
#!/bin/sh
set -e
if command -v py3clean >/dev/null; then
    py3clean -p deferreds
fi
""",
}

_COMMAND = """\
#!/usr/bin/python3
import sys

from {module} import {function}

sys.exit({function}())
"""


class Failed(Exception):
    """The package can't be made: why, in one line."""


def _run(*words: str, **variables: str) -> str:
    """What a command prints, run at the top of the repository."""
    try:
        ran = subprocess.run(
            words, cwd=TOP, env={**os.environ, **variables}, capture_output=True, text=True, check=False
        )
    except OSError as error:
        raise Failed(f"{words[0]} can't be run: {error.strerror}") from None
    if ran.returncode != 0:
        raise Failed(f"{words[0]} has failed: {(ran.stderr.strip() or ran.stdout.strip()).splitlines()[-1]}")
    return ran.stdout


def _time() -> int:
    """The time of the package, in seconds."""
    told = os.environ.get("SOURCE_DATE_EPOCH") or _run("git", "log", "-1", "--format=%ct")
    try:
        return int(told)
    except ValueError:
        raise Failed(f"SOURCE_DATE_EPOCH is no number: {told}") from None


def _tracked(*names: str) -> List[str]:
    return _run("git", "ls-files", "-z", "--", *names).split("\0")[:-1]


def _document(name: str) -> File:
    path = TOP / name
    return File(f"{_DOCUMENTS}/{name}", path.read_bytes(), os.access(path, os.X_OK))


def files(project: Project) -> List[File]:
    """What the package installs."""
    manual = (TOP / "packaging" / "deferreds.1").read_bytes()
    found = [
        File("usr/bin/deferreds", content.program(), True),
        File("usr/share/man/man1/deferreds.1.gz", compressed(manual)),
        File(f"{_DOCUMENTS}/copyright", (TOP / "LICENSE").read_bytes()),
        *map(_document, _tracked("README.md", "CHANGELOG.md", "examples")),
        *(_document(name) for name in _tracked("docs") if Path(name).suffix in _SHOWN),
        *(file._replace(name=f"{_PYTHON}/{file.name}") for file in content.python_files()),
    ]
    about = [*content.about(project), File("INSTALLER", b"debian\n")]
    found += [file._replace(name=f"{_PYTHON}/{project.stem}.dist-info/{file.name}") for file in about]
    for name, call in project.scripts.items():
        if name != project.name:
            module, function = call.split(":")
            text = _COMMAND.format(module=module, function=function)
            found.append(File(f"usr/bin/{name}", text.encode(), True))
    return sorted(found)


def _control(project: Project, installed: List[File]) -> List[File]:
    """What the package says of itself."""
    size = sum(-(-len(file.data) // 1024) for file in installed)
    text = _CONTROL.format(
        name=project.name, version=project.version, description=project.description, size=size
    )
    sums = "".join(f"{hashlib.md5(file.data).hexdigest()}  {file.name}\n" for file in installed)
    scripts = [File(name, script.encode(), True) for name, script in _SCRIPTS.items()]
    return [File("control", text.encode()), File("md5sums", sums.encode()), *scripts]


def _lay_out(root: Path, found: List[File], time: int) -> None:
    """Writes the files below a folder, with the permissions and times that the package has."""
    for file in found:
        path = root / file.name
        path.parent.mkdir(parents=True, exist_ok=True)
        path.write_bytes(file.data)
        path.chmod(file.mode)
        os.utime(path, (time, time))
    for folder in [root, *(path for path in root.rglob("*") if path.is_dir())]:
        folder.chmod(0o755)


def build(folder: Path) -> Path:
    """Writes the package into a folder, and gives its file."""
    project, time = projects.read(), _time()
    installed = files(project)
    target = folder.resolve() / f"{project.name}_{project.version}_amd64.deb"
    with tempfile.TemporaryDirectory() as room:
        root = Path(room, project.name)
        control = [file._replace(name=f"DEBIAN/{file.name}") for file in _control(project, installed)]
        _lay_out(root, installed + control, time)
        words = ("dpkg-deb", "--root-owner-group", "-Zxz", "--build", os.fspath(root), os.fspath(target))
        _run(*words, SOURCE_DATE_EPOCH=str(time))
    return target


def main(words: List[str]) -> int:
    """The command."""
    parser = Parser(
        prog="debian.py", description=__doc__, formatter_class=argparse.RawDescriptionHelpFormatter
    )
    parser.add_argument("folder", type=Path, metavar="OUT_FOLDER")
    folder: Path = parser.parse_args(words).folder
    try:
        folder.mkdir(parents=True, exist_ok=True)
        print(build(folder))
    except Failed as failed:
        print(f"debian.py: {failed}", file=sys.stderr)
        return 1
    except OSError as error:
        print(f"debian.py: {error.filename or folder}: {error.strerror}", file=sys.stderr)
        return 1
    return 0


if __name__ == "__main__":
    run_command(lambda: main(sys.argv[1:]), "debian.py")
