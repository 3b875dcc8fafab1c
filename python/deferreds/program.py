"""Finds the program `deferreds`, and runs it in the place of this process.

An installed package holds the executable. In a checkout its launcher runs it. Debian's package has it on the PATH.
"""

from __future__ import annotations

import os
import sys
from pathlib import Path
from typing import NoReturn, Optional, Sequence, Tuple

from .checkout import LAUNCHER, is_checkout

#: the status of a command that hasn't run the program
NOT_RUN = 70

#: the executable that an installed package holds
PACKAGED = Path(__file__).resolve().parent / "bin" / "deferreds"

_NAME = "deferreds"
_PROCESSOR = "x86_64"
_C_LIBRARY = (2, 34)
_MAGIC = b"\x7fELF"


class NotRun(Exception):
    """The program can't be run: why, in one line."""


def found() -> Path:
    """The program: the package's own, or the launcher of the checkout, or the one on the PATH."""
    if PACKAGED.exists():
        _check_machine()
        return _executable(PACKAGED)
    if is_checkout():
        return _executable(LAUNCHER)
    _check_machine()
    program = _on_path()
    if program is None:
        raise NotRun(f"this package holds no program, and no executable {_NAME} is on the PATH")
    return program


def built() -> Path:
    """The program as an executable: in a checkout, the one that is built from the sources that stand there."""
    program = found()
    if program != LAUNCHER:
        return program
    import subprocess

    try:
        asked = subprocess.run(
            [os.fspath(LAUNCHER), "--program"], capture_output=True, text=True, check=False
        )
    except OSError as error:
        raise NotRun(f"{LAUNCHER} can't be run: {error.strerror}") from None
    if asked.returncode != 0:
        raise NotRun(
            "no program is built from these sources; ./deferreds --build proves and builds it"
        )
    return Path(asked.stdout.rstrip("\n"))


def run_in_place(words: Sequence[str]) -> NoReturn:
    """Has the program take the place of this process, with these words."""
    import signal

    program = os.fspath(found())
    # Python ignores these two signals, and what it ignores the program would ignore, too
    signal.signal(signal.SIGPIPE, signal.SIG_DFL)
    signal.signal(signal.SIGXFSZ, signal.SIG_DFL)
    try:
        os.execv(program, [program, *words])
    except OSError as error:
        raise NotRun(f"{program} can't be run: {error.strerror}") from None


def _executable(path: Path) -> Path:
    if not os.access(path, os.X_OK):
        raise NotRun(f"{path} isn't executable")
    return path


def _on_path() -> Optional[Path]:
    """The first executable of the name on the PATH that is no script: this package's own script has the same name."""
    for folder in os.get_exec_path():
        candidate = Path(folder, _NAME)
        if candidate.is_file() and os.access(candidate, os.X_OK) and _begins_as_program(candidate):
            return candidate
    return None


def _begins_as_program(path: Path) -> bool:
    try:
        with path.open("rb") as file:
            return file.read(len(_MAGIC)) == _MAGIC
    except OSError:
        return False


def _check_machine() -> None:
    """Raises NotRun where this machine can't run the executable."""
    import platform

    if not sys.platform.startswith("linux"):
        raise NotRun(f"the program is for Linux, and this is {sys.platform}")
    if platform.machine() != _PROCESSOR:
        raise NotRun(f"the program is for {_PROCESSOR}, and this processor is {platform.machine()}")
    version = _c_library()
    if version is None:
        raise NotRun("the program needs the GNU C library, from 2.34 on, which isn't here")
    if version < _C_LIBRARY:
        raise NotRun(
            f"the program needs the GNU C library from 2.34 on, and this is {version[0]}.{version[1]}"
        )


def _c_library() -> Optional[Tuple[int, int]]:
    """The version of the GNU C library; None where Python runs on another one."""
    try:
        told = os.confstr("CS_GNU_LIBC_VERSION") or ""
        name, version = told.split(" ", 1)
        major, minor = version.split(".")[:2]
        return (int(major), int(minor)) if name == "glibc" else None
    except (OSError, ValueError):
        return None
