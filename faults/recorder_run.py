"""Records a program, and has it end again and again from where its run is kept, each time under another fault.

    recorder_run.py SHIM FOLDER GROWTHS ANSWERS WORDS..

WORDS are those of `./record`. The process forks for each fault, and only the forked one ends; so the program runs once. What is in
FOLDER is put back before. GROWTHS says how many of the allocations fail, spread over all. A line of JSON in the file ANSWERS is an end.
"""
from __future__ import annotations

import _signal
import base64
import ctypes
import gc
import json
import os
import signal
import sys
import time
from pathlib import Path
from types import FrameType
from typing import Any, Dict, Generator, List, Optional

from recorder_faults import End, Fault, Kind

from deferreds.commands import run_on_twisted
from deferreds.twisted.recording.keeper import Keeper
from deferreds.twisted.recording.keeping import Status
from deferreds.twisted.recording.messages import file_of

_SECONDS = 30.0
#: more faults of one kind than there are
_MOST = 400
_LOWER = (Kind.OPEN, Kind.WRITE, Kind.SYNC, Kind.RENAME, Kind.UNLINK)

_keep = Keeper.keep
_exit = os._exit


class Sweep:
    """Ends the process under each fault."""

    def __init__(self, shim: str, folder: Path, growths: int, answers: Path) -> None:
        self._shim = ctypes.CDLL(shim)
        self._shim.fault_count.restype = self._shim.fault_met.restype = ctypes.c_long
        self._folder = folder
        self._files = read_folder(folder)
        self._growths = growths
        self._answers = answers
        self.is_child = False

    def faults(self) -> Generator[Fault, None, None]:
        """Each fault, first none. Those of a kind end with one that isn't met."""
        yield Fault(Kind.CALL, 0)
        growths = self._shim.fault_count(int(Kind.GROWTH))
        for kind, kills in [*((kind, False) for kind in _LOWER), (Kind.CALL, True)]:
            for number in range(1, _MOST):
                yield Fault(kind, number, kills)
                if not self._shim.fault_met():
                    break
        for part in range(self._growths):
            yield Fault(Kind.GROWTH, 1 + part * growths // self._growths)

    def next_fault(self, keeper: Any) -> Fault:
        """Forks for each fault. Returns in the forked processes alone, which are to have that fault."""
        sys.stdout.flush()
        printed, room = os.pread(1, 1 << 20, 0), self._answers.parent
        answers = os.open(self._answers, os.O_WRONLY | os.O_CREAT | os.O_APPEND)
        gc.freeze()
        keeper._is_snapshot = True  # (a forked child would write files of its own)
        handler = _signal.getsignal(signal.SIGTERM)
        _signal.signal(signal.SIGTERM, _signal.SIG_DFL)
        faults = self.faults()
        for fault in faults:
            self._put_back()
            child = os.fork()
            if child == 0:
                faults.close()
                _signal.signal(signal.SIGTERM, handler)
                keeper._is_snapshot = False
                if keeper._notes is not None:  # (each has its own file of them, which begins with what is there)
                    keeper._notes.be_of_child(keeper._notes.path)
                self._begin(room, printed, keeper._keeping.messages)
                return fault
            end = self._waited(child, room)
            said = {**vars(end), "fault": [int(fault.kind), fault.number, fault.kills], "printed": text_of(end.printed)}
            said["files"] = {name: text_of(data) for name, data in end.files.items()}
            os.write(answers, f"{json.dumps(said)}\n".encode())
        _exit(0)

    def _begin(self, room: Path, printed: bytes, messages: Any) -> None:
        """Has what this process writes go to files of its own."""
        self.is_child = True
        for number, name in ((1, "printed"), (2, "said")):
            file = os.open(room / name, os.O_RDWR | os.O_CREAT | os.O_TRUNC | os.O_APPEND)
            os.dup2(file, number)
            os.close(file)
        os.write(1, printed)
        os.dup2(2, messages._descriptor)
        messages._file = file_of(2)

    def arm(self, fault: Fault) -> None:
        """Has the fault be met from here on."""
        self._shim.fault_arm(int(fault.kind), fault.number, int(fault.kills))

    def disarm(self) -> None:
        """Has no fault be met from here on."""
        self._shim.fault_disarm()

    def _waited(self, child: int, room: Path) -> End:
        """How the process ends; it is killed if it doesn't in time."""
        until, status = time.monotonic() + _SECONDS, None
        while status is None and time.monotonic() < until:
            done, code = os.waitpid(child, os.WNOHANG)
            if done:
                status = os.waitstatus_to_exitcode(code)
            else:
                time.sleep(0.002)
        if status is None:
            os.kill(child, signal.SIGKILL)
            os.waitpid(child, 0)
        said = (room / "said").read_text(encoding="utf-8", errors="replace")
        return End(status, (room / "printed").read_bytes(), said, bool(self._shim.fault_met()), read_folder(self._folder))

    def _put_back(self) -> None:
        for path in self._folder.iterdir():
            path.unlink()
        for name, data in self._files.items():
            (self._folder / name).write_bytes(data)


def read_folder(folder: Path) -> Dict[str, bytes]:
    """The contents of the files of a folder, by their names."""
    return {path.name: path.read_bytes() for path in folder.iterdir()}


def text_of(data: bytes) -> str:
    """Bytes as JSON has them."""
    return base64.b64encode(data).decode()


def main(shim: str, folder: str, growths: str, answers: str, words: List[str]) -> int:
    """Records, and ends under each fault. Only forked processes return."""
    for name in ("LD_PRELOAD", "PYTHONMALLOC"):
        os.environ.pop(name, None)
    sweep = Sweep(shim, Path(folder), int(growths), Path(answers))
    os.chdir(folder)

    def keep(self: Keeper, how: str, frame: Optional[FrameType] = None) -> Status:
        if not sweep.is_child:
            sweep.arm(sweep.next_fault(self))
        try:
            return _keep(self, how, frame)
        finally:
            sweep.disarm()

    setattr(Keeper, "keep", keep)
    status = run_on_twisted("record", words)
    sys.stdout.flush()
    return status


if __name__ == "__main__":
    _exit(main(*sys.argv[1:5], sys.argv[5:]))  # (Python's own end takes longer than all else)
