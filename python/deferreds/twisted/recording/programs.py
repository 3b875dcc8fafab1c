"""Runs a program or a module that is recorded, and finds tests."""

from __future__ import annotations

import builtins
import contextlib
import importlib.util
import io
import pkgutil
import sys
import unittest
from typing import Any, Callable, List, Tuple

from ..instruments import install
from ..instruments.tracebacks import stands_in
from ..telling import KINDS, watched
from .elsewhere import wait_for_thread
from .hiding import SECRETS
from .main_module import run_as_main
from .reactor import VirtualReactor, in_place_of_the_real
from .recorder import Recorder

#: the kinds that are recorded as such, tried one after the other until a run can be expressed
LADDER: Tuple[frozenset[str], ...] = tuple(
    KINDS - frozenset(without)
    for without in (
        (),
        ("timer",),
        ("cooperator",),
        ("loop",),
        ("loop", "cooperator"),
        ("thread",),
        ("inline",),
        ("list",),
        ("lock", "queue", "maybe"),
        ("clock", "timer", "loop"),
        ("clock", "timer", "loop", "cooperator"),
        tuple(KINDS - {"list", "inline"}),
        tuple(KINDS - {"list"}),
        tuple(KINDS - {"inline"}),
        tuple(KINDS),
    )
)

_BUILTINS = vars(builtins)


class PrintingNotes:
    """Has what the program prints be notes of the journal, while it is entered."""

    def __enter__(self) -> None:
        self._print: Callable[..., None] = _BUILTINS["print"]
        self._noting = _BUILTINS["print"] = self._note

    def __exit__(self, *error: object) -> None:
        if _BUILTINS["print"] is self._noting:  # (the program may have put another one there)
            _BUILTINS["print"] = self._print

    def _note(self, *values: Any, **kwargs: Any) -> None:
        recorder = watched.observer
        is_elsewhere = kwargs.get("file") is not None or sys.stdout is None
        if is_elsewhere or not isinstance(recorder, Recorder) or recorder.acting:
            self._print(*values, **kwargs)
            return
        said = io.StringIO()
        self._print(*values, file=said, sep=kwargs.pop("sep", " "), end="")  # so that each value is asked for its text once
        self._print(said.getvalue(), **kwargs)
        recorder.note(said.getvalue())


stands_in(PrintingNotes._note)


def record_program(
    recorder: Recorder, target: str, words: List[str], is_module: bool, virtual: bool
) -> int:
    """Runs a file or a module as `__main__`, and gives its exit status: -SIGINT, where Ctrl-C has ended it."""
    install()
    place = in_place_of_the_real(VirtualReactor()) if virtual else contextlib.nullcontext()
    with place, PrintingNotes():
        recorder.moves = True
        with recorder.watching():
            status = run_as_main(target, words, is_module)
        wait_for_thread(recorder)
    return status


def _modules_of(name: str) -> List[str]:
    """The modules of a package that have tests; the name itself, where it is none of a package."""
    try:
        spec = importlib.util.find_spec(name)
    except ImportError:  # what it is a part of is no package
        return [name]
    places = None if spec is None else spec.submodule_search_locations
    found = [module.name for module in pkgutil.iter_modules(places or ())]
    return sorted(f"{name}.{module}" for module in found if module.startswith("test_")) or [name]


class NotLoaded(Exception):
    """Tests can't be loaded: why, in one line."""


def tests_of(name: str) -> List[Tuple[type[unittest.TestCase], str]]:
    """The tests of a module, of a package or of what has this name in one, each by its class and its method. Raises NotLoaded."""
    found: List[Tuple[type[unittest.TestCase], str]] = []
    suites: List[Any] = [unittest.TestLoader().loadTestsFromName(module) for module in _modules_of(name)]
    while suites:
        suite = suites.pop(0)
        if isinstance(suite, unittest.TestSuite):
            suites[:0] = list(suite)
        elif type(suite).__module__ == "unittest.loader":  # a test in place of those that can't be loaded, which raises why
            raise NotLoaded(f"{name} can't be loaded: {str(suite._exception).strip().splitlines()[-1]}")
        else:
            found.append((type(suite), suite._testMethodName))
    return found
