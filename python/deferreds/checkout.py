"""The checkout of the repository in which this package stands, where it stands in one, and what commands are called there."""

from __future__ import annotations

import re
from pathlib import Path

#: the top of the repository; where the package is installed, a folder without the repository's files
TOP = Path(__file__).resolve().parents[2]

#: the launcher of the program, as a checkout has it
LAUNCHER = TOP / "deferreds"

_COMMAND = re.compile(r"\./(conform|deferreds|on_twisted|record|view)\b")

#: what commands of a checkout are called where the package is installed
_INSTALLED = {
    "conform": "deferreds-conform",
    "deferreds": "deferreds",
    "on_twisted": "python3 -m deferreds.twisted on_twisted",
    "record": "deferreds-record",
    "trial": "deferreds-trial",
    "view": "deferreds-view",
}


def is_checkout() -> bool:
    """Whether this package stands in a checkout of the repository."""
    return LAUNCHER.is_file() and (TOP / "crates.txt").is_file()


def command_name(name: str) -> str:
    """What a command is called: its name in a checkout, or that of an installed package."""
    return name if is_checkout() else _INSTALLED.get(name, name)


def as_called(text: str) -> str:
    """A text that names commands as a checkout has them, `./view`, with what they are called here."""
    return text if is_checkout() else _COMMAND.sub(lambda found: _INSTALLED[found.group(1)], text)
