"""The console scripts beside `deferreds` itself."""

from __future__ import annotations

import importlib
import importlib.util
import sys
from typing import Callable, List

from .checkout import command_name
from .ending import ended, open_streams
from .program import NOT_RUN
from .twisted.known import UnknownTwisted, refuse_unusable
from .view.command import start

#: the commands that run a program of the user's, whose standard streams are as they were given
_RUN_PROGRAMS = ("record", "trial")


def view() -> None:
    """`deferreds-view`."""
    start(command_name("view"))


def record() -> int:
    """`deferreds-record`."""
    return run_on_twisted("record", sys.argv[1:])


def conform() -> int:
    """`deferreds-conform`."""
    return run_on_twisted("conform", sys.argv[1:])


def trial() -> int:
    """`deferreds-trial`."""
    return run_on_twisted("trial", sys.argv[1:])


def run_on_twisted(name: str, words: List[str]) -> int:
    """Runs a command that needs Twisted, or says that it isn't there or isn't known."""
    if name not in _RUN_PROGRAMS:
        open_streams()
    try:
        if importlib.util.find_spec("twisted") is not None:
            refuse_unusable()
        module = importlib.import_module(f".twisted.commands.{name}", __package__)
        main: Callable[[List[str]], int] = module.main
        return ended(lambda: main(words), command_name(name))
    except UnknownTwisted as unknown:
        why = str(unknown)
    except ModuleNotFoundError as error:
        missing = error.name or ""
        if missing.split(".")[0] == __package__:
            raise
        needs = "needs Twisted, from 22.4 on" if missing == "twisted" else f"needs Twisted, which needs {missing}"
        why = f"{needs}: pip install 'deferreds[record]', or apt-get install python3-twisted"
    print(f"{command_name(name)}: {why}", file=sys.stderr)
    return NOT_RUN
