"""A program as Python's own command runs it: as the module `__main__`, of a file, of a folder or a zip file that has one, or of a module.

What Python sets before it runs a program is set likewise, and so is what it does after that: threads are waited for, and the functions of
`atexit` are called, while the program is still watched.
"""

from __future__ import annotations

import atexit
import builtins
import contextlib
import os
import pkgutil
import runpy
import signal
import sys
import threading
import traceback
from importlib.machinery import SourceFileLoader, SourcelessFileLoader
from pathlib import Path
from types import ModuleType, TracebackType
from typing import Any, Callable, Dict, List, Optional

from ..instruments.tracebacks import outside, stands_in, unlink
from .recorder import STACK_ROOM

#: what `python3 -m` calls, and what it waits for at its end
_run_module: Callable[..., Any] = getattr(runpy, "_run_module_as_main")
_shut_threads_down: Callable[[], None] = getattr(threading, "_shutdown")
_call_at_exit: Callable[[], None] = getattr(atexit, "_run_exitfuncs")

#: the status of a program that raised an error
_FAILED = 1
_STANDARD_ERROR = 2


def is_runnable(target: str) -> bool:
    """Whether it is a file, or a folder or a zip file that has a module `__main__`."""
    path = Path(target)
    return path.is_file() or (path / "__main__.py").is_file() or (path / "__main__.pyc").is_file()


def run_as_main(target: str, words: List[str], is_module: bool) -> int:
    """Runs a program with these words to its end. Gives its exit status: -SIGINT, where Ctrl-C has ended it."""
    main = ModuleType("__main__")
    vars(main).update(__builtins__=builtins, __annotations__={})
    sys.modules["__main__"] = main
    sys.argv[:] = ["-m" if is_module else target, *words]
    with outside(), _RecursionLimit():
        status = _status_of(lambda: _run(vars(main), target, is_module))
        _end_threads()
        with contextlib.suppress(BaseException):  # (an early Python raises here what it has printed)
            _call_at_exit()
    return status


stands_in(run_as_main)


class _RecursionLimit:
    """Has the program see and set the limit of Python's stack as it is without the frames of what watches, while this is entered."""

    def __enter__(self) -> None:
        self._kept = sys.getrecursionlimit, sys.setrecursionlimit
        get_limit, set_limit = self._kept
        sys.getrecursionlimit = lambda: get_limit() // STACK_ROOM
        sys.setrecursionlimit = lambda limit: set_limit(limit * STACK_ROOM if limit > 0 else limit)

    def __exit__(self, *error: object) -> None:
        sys.getrecursionlimit, sys.setrecursionlimit = self._kept


def _run(names: Dict[str, Any], target: str, is_module: bool) -> None:
    if is_module:
        set_first_folder(os.getcwd())
        _run_module(target)
        return
    path = os.path.join(os.getcwd(), target)
    if pkgutil.get_importer(path) is not None:
        set_first_folder(path, is_program=True)
        _run_module("__main__", False)
        return
    set_first_folder(os.path.dirname(os.path.realpath(path)))
    _run_file(names, path)


def set_first_folder(folder: str, is_program: bool = False) -> None:
    """Has modules be looked for in the folder first, where that of the command was before. Python may be started so that it has neither."""
    if not getattr(sys.flags, "safe_path", False):
        sys.path[:1] = [folder]
    elif is_program:
        sys.path.insert(0, folder)


def _run_file(names: Dict[str, Any], path: str) -> None:
    """Runs a file in a module that has these names."""
    is_compiled = path.endswith(".pyc")
    loader: Any = SourcelessFileLoader("__main__", path) if is_compiled else SourceFileLoader("__main__", path)
    names.update(__file__=path, __cached__=None, __loader__=loader)
    try:
        code = loader.get_code("__main__") if is_compiled else compile(loader.get_data(path), path, "exec", dont_inherit=True)
        exec(code, names)
    except SystemExit:
        raise
    except BaseException:
        _forget_file(names)
        raise
    _forget_file(names)


stands_in(_run_file)


def _forget_file(names: Dict[str, Any]) -> None:
    """Python forgets these names when it has run a file, unless that has raised SystemExit."""
    names.pop("__file__", None)
    names.pop("__cached__", None)


# how a program ends


def _status_of(run: Callable[[], None]) -> int:
    """The status with which Python ends when this has run, after it has shown what that has raised."""
    try:
        run()
        return 0
    except SystemExit as exit_:
        return _status_of_exit(exit_.code)
    except BaseException as error:
        failed = error
    return _show(failed)  # (what a hook raises isn't raised while the error is handled)


def _status_of_exit(code: object) -> int:
    """The status with which Python ends where this is given to `sys.exit`; a text is shown."""
    if code is None:
        return 0
    if isinstance(code, int):
        return code & 0xFF
    with contextlib.suppress(Exception):
        text = f"{code}\n"
        if sys.stderr is None:
            os.write(_STANDARD_ERROR, text.encode("utf-8", "backslashreplace"))
        else:
            sys.stderr.write(text)
    return _FAILED


def _show(error: BaseException) -> int:
    """Shows an error that has left the program, as Python would: without the frames of what watches. Gives the status for it."""
    kind, trace = type(error), unlink(error.__traceback__)
    error.__traceback__ = trace
    last: Any = sys
    last.last_type, last.last_value, last.last_traceback = kind, error, trace
    hook: Optional[Callable[..., Any]] = getattr(sys, "excepthook", None)
    if hook is None:
        _write_error("sys.excepthook is missing\n", error)
    else:
        try:
            hook(kind, error, trace)
        except SystemExit as exit_:
            return _status_of_exit(exit_.code)
        except BaseException as failed:
            failed.__traceback__ = unlink(failed.__traceback__)
            _write_error("Error in sys.excepthook:\n", failed)
            _write_error("\nOriginal exception was:\n", error)
    return -signal.SIGINT if kind is KeyboardInterrupt else _FAILED


def _write_error(text: str, error: BaseException) -> None:
    with contextlib.suppress(Exception):
        sys.stderr.write(text)
    sys.__excepthook__(type(error), error, error.__traceback__)


def _end_threads() -> None:
    """Waits for the threads that aren't daemons."""
    try:
        _shut_threads_down()
    except BaseException as error:
        trace: Optional[TracebackType] = unlink(error.__traceback__)
        with contextlib.suppress(Exception):
            sys.stderr.write(f"Exception ignored in: {threading!r}\n")
            sys.stderr.write("".join(traceback.format_exception(type(error), error, trace)))
