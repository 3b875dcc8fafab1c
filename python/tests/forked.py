"""Processes of Python that are forked off one which has imported Twisted and the commands: each costs a fork, and not the imports.

Run as a program, this is the one that they are forked off, the server. It takes requests from the socket whose number is its word.
It has no reactor, and puts no instruments in: so each process has these as if it had imported them itself. Beside each process the
server forks a second one, which waits for its end and reports it.
"""

from __future__ import annotations

import atexit
import contextlib
import functools
import gc
import json
import os
import runpy
import select
import signal
import socket
import subprocess
import sys
from concurrent.futures import ThreadPoolExecutor
from pathlib import Path
from typing import Dict, List, Mapping, NamedTuple, Optional, Sequence, Tuple, Union

#: more bytes than a request has
_MOST = 1 << 17

#: how many bytes a number has that is sent
_NUMBER = 8

#: longer than any of these processes runs
_SECONDS = 120.0


class Forked:
    """`python3 WORDS..`, as a `subprocess.Popen` with pipes. The first of the words is `-m` or `-c`."""

    def __init__(self, words: Sequence[str], folder: Union[str, Path], environment: Mapping[str, str], merged: bool = False) -> None:
        """`merged` has standard error go where standard output goes."""
        stdin, ours_in = os.pipe()
        ours_out, stdout = os.pipe()
        ours_err, stderr = os.pipe()
        ours_told, told = os.pipe()
        request = {"words": list(words), "folder": os.fspath(folder), "environment": dict(environment)}
        theirs = [stdin, stdout, stdout if merged else stderr, told]
        socket.send_fds(_server(), [json.dumps(request).encode()], theirs)
        for number in (stdin, stdout, stderr, told):
            os.close(number)
        self.args = list(words)
        self.stdin = open(ours_in, "w")
        self.stdout = open(ours_out)
        self.stderr = open(ours_err)
        self._told = ours_told
        #: the status, once it is known; that of a process that was ended by a signal is less than 0
        self.returncode: Optional[int] = None
        self.pid = _read_number(ours_told)

    def poll(self) -> Optional[int]:
        """The status, where it has ended."""
        if self.returncode is None and select.select([self._told], [], [], 0)[0]:
            self.wait()
        return self.returncode

    def wait(self) -> int:
        """The status, when it has ended."""
        if self.returncode is None:
            self.returncode = _read_number(self._told)
            os.close(self._told)
        return self.returncode

    def send_signal(self, number: int) -> None:
        """Sends it a signal, where it hasn't ended."""
        if self.poll() is None:
            with contextlib.suppress(ProcessLookupError):
                os.kill(self.pid, number)

    def kill(self) -> None:
        """Ends it."""
        self.send_signal(signal.SIGKILL)

    def communicate(self, timeout: float, given: str = "") -> Tuple[str, str]:
        """What it prints up to its end, and what it says, where it is given this, which is short. Ends it, and raises TimeoutError, where
        that takes longer.
        """
        with contextlib.suppress(BrokenPipeError):
            self.stdin.write(given)
            self.stdin.close()
        with ThreadPoolExecutor(2) as pool:
            reading = [pool.submit(stream.read) for stream in (self.stdout, self.stderr)]
            try:
                printed, said = (each.result(timeout) for each in reading)
            except BaseException:
                self.kill()
                raise
        self.wait()
        return printed, said

    def close(self) -> None:
        """Ends it, if it runs, and closes the pipes."""
        self.kill()
        self.wait()
        for stream in (self.stdin, self.stdout, self.stderr):
            with contextlib.suppress(BrokenPipeError):
                stream.close()


class Ran(NamedTuple):
    """How a process has ended, as a `subprocess.CompletedProcess`."""

    returncode: int
    stdout: str
    stderr: str


def run(
    words: Sequence[str],
    folder: Union[str, Path],
    environment: Mapping[str, str],
    merged: bool = False,
    given: str = "",
    seconds: float = _SECONDS,
) -> Ran:
    """Runs `python3 WORDS..` to its end, with this as standard input. Raises TimeoutError, if it takes longer."""
    process = Forked(words, folder, environment, merged)
    try:
        printed, said = process.communicate(seconds, given)
        return Ran(process.wait(), printed, said)
    finally:
        process.close()


def environment() -> Dict[str, str]:
    """The environment in which a Python finds what this one finds."""
    return {**os.environ, "PYTHONPATH": os.pathsep.join(map(os.path.abspath, filter(None, sys.path)))}


def _read_number(stream: int) -> int:
    """The next number that is sent."""
    told = os.read(stream, _NUMBER)
    if len(told) != _NUMBER:
        raise EOFError("the process that was to tell of another has ended")
    return int.from_bytes(told, "big", signed=True)


def _write_number(stream: int, number: int) -> None:
    """Tells a number, where anybody still listens."""
    with contextlib.suppress(BrokenPipeError):
        os.write(stream, number.to_bytes(_NUMBER, "big", signed=True))


@functools.lru_cache(maxsize=None)
def _server() -> socket.socket:
    """The socket by which the server is asked, which is started."""
    ours, theirs = socket.socketpair(socket.AF_UNIX, socket.SOCK_SEQPACKET)
    with theirs:
        process = subprocess.Popen(
            [sys.executable, __file__, str(theirs.fileno())],
            env=environment(),
            stdin=subprocess.DEVNULL,
            pass_fds=[theirs.fileno()],
        )
    parent = os.getpid()

    def stop() -> None:
        ours.close()
        if os.getpid() == parent:
            with contextlib.suppress(subprocess.TimeoutExpired):
                process.wait(_SECONDS)

    atexit.register(stop)
    return ours


def _next_process(requests: socket.socket) -> Dict[str, object]:
    """Forks a process for each request, and returns in these alone: what each is asked for."""
    while True:
        message, numbers, _, _ = socket.recv_fds(requests, _MOST, 4)
        with contextlib.suppress(ChildProcessError):
            while os.waitpid(-1, os.WNOHANG if message else 0)[0]:
                pass
        if not message:
            os._exit(0)
        if os.fork() == 0:
            requests.close()
            told = numbers.pop()
            process = os.fork()
            if process == 0:
                os.close(told)
                for number, stream in enumerate(numbers):
                    os.dup2(stream, number)
                os.closerange(3, max(numbers) + 1)
                request: Dict[str, object] = json.loads(message)
                return request
            for stream in set(numbers):
                os.close(stream)
            _write_number(told, process)
            _write_number(told, os.waitstatus_to_exitcode(os.waitpid(process, 0)[1]))
            os._exit(0)
        for number in set(numbers):
            os.close(number)


def _run(words: List[str], folder: str, environment: Dict[str, str]) -> None:
    """Runs `python3 WORDS..`, as it runs where Python is started with these words."""
    os.chdir(folder)
    os.environ.clear()
    os.environ.update(environment)
    option, what, *rest = words
    sys.argv[:] = [option, *rest]
    given = filter(None, environment.get("PYTHONPATH", "").split(os.pathsep))
    sys.path[:] = dict.fromkeys(["" if option == "-c" else os.getcwd(), *given, *sys.path[1:]])
    if option == "-c":
        exec(compile(what, "<string>", "exec"), {"__name__": "__main__"})
    else:
        runpy.run_module(what, run_name="__main__", alter_sys=True)


def main() -> None:
    """The server; and then each of the processes."""
    import deferreds.twisted.commands.on_twisted  # noqa: F401
    import deferreds.twisted.commands.record  # noqa: F401
    import deferreds.twisted.commands.trial  # noqa: F401
    import twisted.trial.runner  # noqa: F401

    assert "twisted.internet.reactor" not in sys.modules
    signal.signal(signal.SIGINT, signal.SIG_IGN)
    gc.freeze()  # the collector leaves alone what all processes have in common, which stays in common so
    request = _next_process(socket.socket(fileno=int(sys.argv[1])))
    signal.signal(signal.SIGINT, signal.default_int_handler)
    _run(**request)  # type: ignore[arg-type]


if __name__ == "__main__":
    main()
