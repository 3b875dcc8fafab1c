"""How a command ends where Ctrl-C is pressed, or where its output can't be written."""

from __future__ import annotations

import errno
import io
import os
import sys

#: typing takes longer to import than most commands to start, and types aren't looked at then
TYPE_CHECKING = False
if TYPE_CHECKING:
    from types import FrameType, TracebackType
    from typing import IO, Any, Callable, NoReturn, Optional, Type

    Buffer = Any

#: the status of a command whose output couldn't be written, which is that of `deferreds`
WRITE_FAILED = 4


class OutputFailed(Exception):
    """Standard output can't be written: why."""


class Stopped(BaseException):
    """A signal that ends the process has come."""

    def __init__(self, number: int) -> None:
        super().__init__(number)
        self.number = number


class stopping:
    """Within it these signals raise Stopped in the main thread, if they would end the process. `ended` ends it by them."""

    def __init__(self, *numbers: int) -> None:
        self._numbers = numbers

    def __enter__(self) -> None:
        import signal

        self._numbers = tuple(number for number in self._numbers if signal.getsignal(number) == signal.SIG_DFL)
        for number in self._numbers:
            signal.signal(number, self._stop)

    def __exit__(self, _: Optional[Type[BaseException]], __: Optional[BaseException], ___: Optional[TracebackType]) -> None:
        import signal

        for number in self._numbers:
            signal.signal(number, signal.SIG_DFL)

    def _stop(self, number: int, _: Optional[FrameType]) -> None:
        raise Stopped(number)


class writing:
    """Raises OutputFailed if what is done within it can't be written to standard output; a pipe that is closed stays BrokenPipeError."""

    def __enter__(self) -> None:
        pass

    def __exit__(self, _: Optional[Type[BaseException]], error: Optional[BaseException], __: Optional[TracebackType]) -> None:
        if isinstance(error, OSError) and not isinstance(error, BrokenPipeError):
            raise OutputFailed(error.strerror) from None


class _Output(io.FileIO):
    """The file of standard output: if it can't be written, each print raises OutputFailed."""

    def write(self, text: Buffer, /) -> int:
        with writing():
            return super().write(text)


def print_text(text: str) -> None:
    """Prints a text to standard output, and flushes it. Raises OutputFailed if it can't be written."""
    with writing():
        if sys.stdout is None:
            raise OSError(errno.EBADF, os.strerror(errno.EBADF))
        sys.stdout.write(text)
        sys.stdout.flush()


def say(text: str) -> None:
    """Prints a line to standard error. Where that can't be written nobody is there to read it, and the status stays what it is."""
    try:
        print(text, file=sys.stderr, flush=True)
    except OSError:
        _discard(sys.stderr)


def open_streams() -> None:
    """Has a standard stream that is closed, or can't be written, fail as `ended` expects when it is used.

    Python has None in the place of a closed one, and a file that is opened would get its number.
    """
    if sys.stdin is None:
        sys.stdin = os.fdopen(os.open(os.devnull, os.O_WRONLY), "r")
    if sys.stdout is None:
        sys.stdout = open(os.open(os.devnull, os.O_RDONLY), "w", closefd=False)
    if sys.stderr is None:
        sys.stderr = os.fdopen(os.open(os.devnull, os.O_WRONLY), "w")
    if isinstance(sys.stdout, io.TextIOWrapper):
        sys.stdout = _checked(sys.stdout)


def _checked(stream: io.TextIOWrapper) -> io.TextIOWrapper:
    """A stream as this one, to the same file, which raises OutputFailed where it can't be written."""
    raw = _Output(stream.fileno(), "wb", closefd=False)
    file: Any = raw if stream.write_through else io.BufferedWriter(raw)
    return io.TextIOWrapper(
        file, stream.encoding, stream.errors, line_buffering=stream.line_buffering, write_through=stream.write_through
    )


def run_command(main: Callable[[], int], name: str) -> NoReturn:
    """Runs a command, which runs no program of the user's in its process, to the end of the process."""
    open_streams()
    sys.exit(ended(main, name))


class ProgramStatus(int):
    """The status of a program of the user's, that a command has run. It is below 0 if the program was ended by this signal."""


def ended(main: Callable[[], int], name: str) -> int:
    """The status of the command of this name.

    Ctrl-C ends the process by its signal, and a closed pipe ends it without a word, as `| head` expects. The standard streams of a program
    of the user's are left to Python, which ends as if it had run the program itself.
    """
    is_program = False
    try:
        try:
            status = main()
        except SystemExit as exit_:
            status = exit_.code if isinstance(exit_.code, int) else int(exit_.code is not None)
            if isinstance(exit_.code, str):
                say(exit_.code)
        is_program = isinstance(status, ProgramStatus)
        if is_program:
            return _ended_program(status)
        if sys.stdout is not None:
            with writing():
                sys.stdout.flush()
        return status
    except BrokenPipeError:
        discard_output()
        return WRITE_FAILED
    except OutputFailed as why:
        say(f"{name}: standard output can't be written: {why}")
        discard_output()
        return WRITE_FAILED
    except KeyboardInterrupt:
        import signal

        return _end_by(signal.SIGINT)
    except Stopped as stopped:
        return _end_by(stopped.number)
    finally:
        if not is_program:
            _flush_errors()


def _ended_program(status: int) -> int:
    """The status of a program. One that was ended by a signal ends this process by it, when Python has written what it printed."""
    if status >= 0:
        return status
    for stream in (sys.stdout, sys.stderr):
        try:
            stream.flush()
        except Exception:  # (the program may have put anything there)
            pass
    return _end_by(-status)


def _end_by(number: int) -> int:
    """Ends the process by a signal: a shell sees by it that it was Ctrl-C, say. Threads that still run aren't waited for.

    Returns the status that a shell has for that, if the process goes on.
    """
    import signal

    signal.signal(number, signal.SIG_DFL)
    os.kill(os.getpid(), number)
    return 128 + number


def _flush_errors() -> None:
    """Writes what others have left for standard error; Python itself would end with another status where that fails."""
    try:
        if sys.stderr is not None:
            sys.stderr.flush()
    except OSError:
        _discard(sys.stderr)


def discard_output() -> None:
    """Drops what is still to be written to standard output, which would fail again when Python ends."""
    _discard(sys.stdout)


def _discard(stream: Optional[IO[str]]) -> None:
    if stream is not None:
        os.dup2(os.open(os.devnull, os.O_WRONLY), stream.fileno())
