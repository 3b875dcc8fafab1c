"""What the tests of packages share: a copy of the checkout, virtual environments, and what isn't here."""

from __future__ import annotations

import importlib.util
import os
import shutil
import subprocess
import sys
import tempfile
import unittest
from pathlib import Path
from typing import Dict, List, NamedTuple, Optional

from deferreds.checkout import TOP

sys.path.insert(0, str(TOP / "packaging"))

import project as projects  # noqa: E402

PROJECT = projects.read()
WHEEL = f"{PROJECT.stem}-py3-none-manylinux_2_34_x86_64.whl"
ABOUT = f"{PROJECT.stem}.dist-info"

#: the executable of the release, as it lies in a checkout
PROGRAM = Path("release", "x86_64-linux", "deferreds")
RELEASED = TOP / PROGRAM if (TOP / PROGRAM).is_file() else None

#: an executable that may stand for it
CAT = Path(shutil.which("cat") or "cat").resolve()

#: a script, and the journal that the program prints of it
SCRIPT = TOP / "examples" / "python" / "workers.json"
JOURNAL = TOP / "examples" / "python" / "workers.journal"

_SECONDS = 600

#: what packages are made of
_COPIED = (
    "CHANGELOG.md",
    "LICENSE",
    "README.md",
    "crates/test_rows/data",
    "docs",
    "examples",
    "packaging",
    "pyproject.toml",
    "python/deferreds",
)

needs_release = unittest.skipUnless(RELEASED, f"{PROGRAM}, the executable of the release, isn't here")
needs_venv = unittest.skipUnless(
    importlib.util.find_spec("venv") and importlib.util.find_spec("ensurepip"),
    "this Python can't make virtual environments",
)
needs_dpkg = unittest.skipUnless(
    shutil.which("dpkg-deb") and shutil.which("git"), "dpkg-deb or git isn't here"
)
needs_twisted = unittest.skipUnless(importlib.util.find_spec("twisted"), "Twisted isn't here")


class Ran(NamedTuple):
    """How a command ended, and what it printed."""

    status: int
    output: str
    errors: str


def environment(**variables: str) -> Dict[str, str]:
    """The environment for commands: pip asks no index, and Python finds what is installed alone."""
    kept = {name: value for name, value in os.environ.items() if not name.startswith(("PIP_", "PYTHON"))}
    plain = {
        "PIP_NO_INDEX": "1",
        "PIP_CONFIG_FILE": os.devnull,
        "PIP_DISABLE_PIP_VERSION_CHECK": "1",
        "PYTHONDONTWRITEBYTECODE": "1",
    }
    return {**kept, **plain, **variables}


def run(
    *words: object, cwd: Path, stdin: Optional[Path] = None, path: str = "", python: Optional[Path] = None
) -> Ran:
    """Runs a command, with folders before the PATH and on Python's path."""
    more = {"PYTHONPATH": str(python)} if python else {}
    if path:
        more["PATH"] = path
    with open(stdin or os.devnull, "rb") as file:
        ran = subprocess.run(
            [str(word) for word in words],
            cwd=cwd,
            env=environment(**more),
            stdin=file,
            capture_output=True,
            text=True,
            timeout=_SECONDS,
            check=False,
        )
    return Ran(ran.returncode, ran.stdout, ran.stderr)


def copy_checkout(to: Path, program: Optional[Path] = None) -> None:
    """Copies what packages are made of, with this program; without one, the small executable `cat` stands for it."""
    for name in _COPIED:
        source, target = TOP / name, to / name
        target.parent.mkdir(parents=True, exist_ok=True)
        if source.is_dir():
            shutil.copytree(source, target, ignore=shutil.ignore_patterns("__pycache__"))
        else:
            shutil.copy(source, target)
    (to / PROGRAM).parent.mkdir(parents=True)
    shutil.copy(program or CAT, to / PROGRAM)


def build_wheel(checkout: Path) -> Path:
    """Builds the wheel of a checkout, and gives its file."""
    built = run(sys.executable, checkout / "packaging" / "wheel.py", "out", cwd=checkout)
    if built.status != 0:
        raise AssertionError(built.errors)
    return checkout / built.output.strip()


def journal() -> str:
    """What the release prints of the script; where it isn't here, what `cat` does, the script itself."""
    return (JOURNAL if RELEASED else SCRIPT).read_text(encoding="utf-8")


class PackagingTest(unittest.TestCase):
    """A test with a folder of its own, in which there is an empty one."""

    def setUp(self) -> None:
        folder = tempfile.TemporaryDirectory()
        self.addCleanup(folder.cleanup)
        self.folder = Path(folder.name).resolve()
        self.empty = self.folder / "empty"
        self.empty.mkdir()

    def copy(self, name: str = "checkout") -> Path:
        """A copy of the checkout."""
        copy_checkout(self.folder / name)
        return self.folder / name

    def assert_ran(self, ran: Ran, output: Optional[str] = None) -> None:
        """It ended with status 0, and printed this, if it is given."""
        self.assertEqual(ran.status, 0, ran.errors or ran.output)
        if output is not None:
            self.assertEqual(ran.output, output)

    def assert_refused(self, ran: Ran, status: int, *parts: str) -> None:
        """It ended with this status, and printed one line of errors, with these parts."""
        self.assertEqual((ran.status, ran.output, ran.errors.count("\n")), (status, "", 1), ran.errors)
        for part in parts:
            self.assertIn(part, ran.errors)


def virtual_environment(folder: Path, *words: str) -> Path:
    """Makes a virtual environment, and gives the folder of its commands."""
    made = run(sys.executable, "-m", "venv", *words, folder, cwd=folder.parent)
    if made.status != 0:
        raise unittest.SkipTest(f"this Python can't make virtual environments: {made.errors or made.output}")
    return folder / "bin"


def contents(folder: Path) -> List[str]:
    """The names of all files below a folder, but for what Python compiles."""
    return sorted(
        path.relative_to(folder).as_posix()
        for path in folder.rglob("*")
        if path.is_file() and "__pycache__" not in path.parts
    )
