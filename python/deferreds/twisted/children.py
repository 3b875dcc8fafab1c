"""Processes that are written to and read from until their answer is whole, in no more than a given time."""

from __future__ import annotations

import contextlib
import enum
import os
import selectors
import signal
import subprocess
import time
from typing import IO, Callable, Iterator, List, Optional, Sequence, Set

from .family import Family

#: how many bytes an answer has at most, where it isn't known what it has to be; a journal and its outcomes have far fewer
MOST_BYTES = 64 * 1024 * 1024

#: how many bytes are kept of what is written to standard error, which are the last ones
_MOST_ERRORS = 65_536

_CHUNK = 65_536
_SECONDS_TO_END = 5.0

#: the children that may still run, and what they belong to, where all of it is to be ended
_running: Set["Child"] = set()
_family: Optional[Family] = None


@contextlib.contextmanager
def ending_all() -> Iterator[Family]:
    """Has a child end with all that it has started, whatever that did to leave it. This is for a process that starts children alone."""
    global _family
    with Family() as family:
        _family = family
        try:
            yield family
        finally:
            _family = None


class Came(enum.Enum):
    """How an exchange has ended."""

    WHOLE = "the answer is whole"
    ENDED = "the process has closed its output"
    LATE = "the time is over"
    TOO_LONG = "the answer is too long"


class Child:
    """A process with pipes, in a group of processes of its own, so that what it has started can be ended with it.

    What has left the group is ended, too, within `ending_all`, once no other child runs. Raises OSError where the command can't be run.
    """

    def __init__(self, command: Sequence[str], takes_errors: bool) -> None:
        self._process = subprocess.Popen(
            command,
            stdin=subprocess.PIPE,
            stdout=subprocess.PIPE,
            stderr=subprocess.PIPE if takes_errors else None,
            bufsize=0,
            start_new_session=True,
        )
        assert self._process.stdin is not None and self._process.stdout is not None
        self._input: IO[bytes] = self._process.stdin
        os.set_blocking(self._input.fileno(), False)
        #: what it has written to standard output, and to standard error, where that is taken
        self.output = bytearray()
        self.errors = bytearray()
        #: how many bytes of that aren't kept any more
        self._dropped = 0
        _running.add(self)

    def exchange(self, data: bytes, seconds: float, is_whole: Optional[Callable[[], bool]] = None, most: int = MOST_BYTES) -> Came:
        """Writes the data, and reads until the answer is whole, or has more than so many bytes. Without `is_whole` it is whole where the
        process has closed its output; its input is closed then after the data."""
        deadline = time.monotonic() + seconds
        with selectors.DefaultSelector() as selector:
            selector.register(self._input, selectors.EVENT_WRITE)
            for stream, kept in ((self._process.stdout, self.output), (self._process.stderr, self.errors)):
                if stream is not None:
                    selector.register(stream, selectors.EVENT_READ, kept)
            left = memoryview(data)
            while left or is_whole is None or not is_whole():
                if not any(key.events == selectors.EVENT_READ for key in selector.get_map().values()):
                    return Came.ENDED
                if len(self.output) > most or self._dropped > MOST_BYTES:
                    return Came.TOO_LONG
                remaining = deadline - time.monotonic()
                if remaining <= 0:
                    return Came.LATE
                for key, _ in selector.select(remaining):
                    if key.events == selectors.EVENT_READ:
                        self._read(selector, key)
                    else:
                        left = self._write(selector, left, is_whole is None)
        return Came.WHOLE

    def _read(self, selector: selectors.BaseSelector, key: selectors.SelectorKey) -> None:
        chunk = os.read(key.fd, _CHUNK)
        key.data.extend(chunk)
        more = len(self.errors) - _MOST_ERRORS
        if more > 0:
            del self.errors[:more]
            self._dropped += more
        if not chunk:
            selector.unregister(key.fileobj)

    def _write(self, selector: selectors.BaseSelector, left: memoryview, closes: bool) -> memoryview:
        """Writes what fits. What a process doesn't read any more isn't written."""
        try:
            left = left[os.write(self._input.fileno(), left[:_CHUNK]) :]
        except BlockingIOError:
            return left
        except BrokenPipeError:
            left = left[len(left) :]
        if not left:
            selector.unregister(self._input)
            if closes:
                self._input.close()
        return left

    def wait(self, seconds: float) -> Optional[int]:
        """The status with which the process ends, minus the number of a signal; None where it doesn't in this time."""
        try:
            return self._process.wait(max(0.0, seconds))
        except subprocess.TimeoutExpired:
            return None

    def end(self) -> None:
        """Closes its input, and kills it and what it has started, where it doesn't end by that. May be called again."""
        self._close(self._input)
        if self.wait(_SECONDS_TO_END) is None:
            self.kill()
        self._close(self._process.stdout, self._process.stderr)
        self._end_rest()

    def kill(self) -> None:
        """Kills it, and all that it has started."""
        self.interrupt()
        self.wait(_SECONDS_TO_END)
        self._close(self._input, self._process.stdout, self._process.stderr)
        self._end_rest()

    def _end_rest(self) -> None:
        """Kills what is left of it, if that can be told from what other children have started."""
        _running.discard(self)
        if _family is not None and not _running:
            _family.end()

    def interrupt(self) -> None:
        """Kills it and its group, from any thread: who reads from it sees its end."""
        if self._process.returncode is None:  # once it has been waited for, the number may be another process's
            with contextlib.suppress(ProcessLookupError, PermissionError):
                os.killpg(self._process.pid, signal.SIGKILL)

    @staticmethod
    def _close(*streams: Optional[IO[bytes]]) -> None:
        for stream in streams:
            if stream is not None:
                with contextlib.suppress(OSError):
                    stream.close()


def named_status(status: int) -> str:
    """What a status of a process says: the number, or the signal that has ended it."""
    if status >= 0:
        return f"status {status}"
    try:
        return f"signal {-status}, {signal.Signals(-status).name}"
    except ValueError:
        return f"signal {-status}"


def last_line(errors: str, most: int = 200) -> str:
    """The last line of what a process has written to standard error, cut to so many characters; empty where there is none."""
    lines: List[str] = [line.strip() for line in errors.splitlines() if line.strip()]
    line = lines[-1] if lines else ""
    return line if len(line) <= most else f"{line[:most]} .."
