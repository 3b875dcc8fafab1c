#!/usr/bin/env python3
"""Records programs, and has each call by which the recorder keeps a run fail in turn.

    faults/recorder_sweep.py [--cc COMPILER] [--growths N] [--sample]

These calls open, write, sync, rename and remove files; and of the allocations N are taken, spread over all. Each of the calls also
kills the process. All is done with an earlier recording there and without. It needs Twisted, and a C compiler.

A run is right if the program prints and ends as without the recorder, if the earlier recording or the new one is whole, and if
what is said says which. The last line says how many runs there were, in how many a call failed, and how many were wrong; the status
is 0 if none was.
"""
from __future__ import annotations

import argparse
import base64
import json
import os
import subprocess
import sys
import tempfile
from concurrent.futures import ThreadPoolExecutor
from dataclasses import dataclass
from pathlib import Path
from typing import Dict, List, Tuple

from recorder_faults import LIST, NAME, End, Fault, Kind, Program, digest, has_crashed, wrongs

HERE = Path(__file__).resolve().parent
PYTHON = HERE.parent / "python"
sys.path.insert(0, str(PYTHON))

from deferreds.arguments import Parser  # noqa: E402
from deferreds.ending import run_command  # noqa: E402

PROGRAMS = PYTHON / "data" / "programs"

#: where recordings are written: in memory, if there is such a folder, so that a sync takes no time
ROOM = "/dev/shm" if os.access("/dev/shm", os.W_OK) else None

#: programs with their arguments, and options of the recorder
RECORDED: Tuple[Tuple[str, ...], ...] = (
    ("configured.py",),
    ("chdir.py",),
    ("forgotten_waiters.py",),
    ("error_in_a_call.py",),
    ("call_that_comes_again.py",),
    ("result_of_a_thread.py",),
    ("raises.py",),
    ("os_exit.py", "7"),
    ("--view", "futures.py"),
    ("--view", "awkward/finalizer_meddles.py"),
    ("awkward/loop_of_other_values.py",),
    ("--last", "2", "tickers.py"),
    ("--notes", "awkward/several_cooperators.py"),
)
SAMPLE = (RECORDED[0], RECORDED[9])

_OLD = {".json": b"an earlier script\n", ".journal": b"an earlier journal\n", ".html": b"an earlier page\n"}
_SECONDS = 600


@dataclass
class Findings:
    """The results of the runs."""

    runs: int = 0
    met: int = 0
    killed: int = 0
    crashed: int = 0
    wrong: int = 0

    def __str__(self) -> str:
        ends = f"{self.killed} killed processes, {self.crashed} crashes of Python itself"
        return f"{self.runs} runs, {self.met} failed calls, {ends}, {self.wrong} wrong"


def earlier() -> Dict[str, bytes]:
    """The files of an earlier recording."""
    files = {NAME + ending: data for ending, data in _OLD.items()}
    listed = {"written by": "deferreds record", "files": {name: digest(data) for name, data in files.items()}}
    return {**files, LIST: json.dumps(listed).encode()}


def bare(words: Tuple[str, ...], folder: str) -> Tuple[int, bytes]:
    """How the program ends without the recorder, and what it prints."""
    at = next(place for place, word in enumerate(words) if word.endswith(".py"))
    ran = subprocess.run([sys.executable, PROGRAMS / words[at], *words[at + 1 :]], cwd=folder, capture_output=True, timeout=_SECONDS, check=False)
    return ran.returncode, ran.stdout


def ends(words: Tuple[str, ...], old: Dict[str, bytes], shim: Path, growths: int) -> List[Tuple[Fault, End]]:
    """Each fault, first none, and how the process ends under it that records the program of these words."""
    with tempfile.TemporaryDirectory(dir=ROOM) as room:
        folder, temporary, answers = (Path(room, name) for name in ("folder", "temporary", "answers"))
        folder.mkdir()
        temporary.mkdir()
        for name, data in old.items():
            (folder / name).write_bytes(data)
        named = [str(PROGRAMS / word) if word.endswith(".py") else word for word in words]
        path = os.pathsep.join([str(PYTHON), *filter(None, [os.environ.get("PYTHONPATH")])])
        added = {"PYTHONPATH": path, "LD_PRELOAD": str(shim), "PYTHONMALLOC": "malloc", "TMPDIR": str(temporary)}
        command = [sys.executable, HERE / "recorder_run.py", shim, folder, str(growths), answers, "-o", NAME, *named]
        with open(Path(room, "out"), "w+b") as out, open(Path(room, "err"), "w+b") as err:
            ran = subprocess.run(command, env={**os.environ, **added}, stdout=out, stderr=err, timeout=_SECONDS, check=False)
            err.seek(0)
            if ran.returncode != 0:
                sys.exit(f"{' '.join(words)} can't be swept: {err.read().decode(errors='replace')}")
        return [_end(json.loads(line)) for line in answers.read_text(encoding="utf-8").splitlines()]


def _end(told: Dict[str, object]) -> Tuple[Fault, End]:
    kind, number, kills = told.pop("fault")  # type: ignore[misc]
    files = {name: base64.b64decode(data) for name, data in told["files"].items()}  # type: ignore[attr-defined]
    end = End(told["status"], base64.b64decode(told["printed"]), told["said"], bool(told["met"]), files)  # type: ignore[arg-type]
    return Fault(Kind(kind), number, kills), end


def sweep(words: Tuple[str, ...], has_old: bool, shim: Path, growths: int, findings: Findings) -> None:
    """Records a program under each fault."""
    with tempfile.TemporaryDirectory() as folder:
        status, printed = bare(words, folder)
    old = earlier() if has_old else {}
    program = Program(" ".join(words), status, printed, old)
    all_ends = ends(words, old, shim, growths)
    clean = all_ends[0][1]
    for fault, end in all_ends:
        findings.runs += 1
        findings.met += end.met and not fault.kills
        findings.crashed += has_crashed(fault, end)
        findings.killed += end.met and fault.kills
        wrong = wrongs(program, fault, end, clean)
        if wrong:
            findings.wrong += 1
            with_old = "over an earlier recording" if has_old else "into an empty folder"
            print(f"{program.name}, {with_old}: {fault}: {'; '.join(wrong)}\n{end.said}", flush=True)


def main() -> int:
    parser = Parser(description=__doc__, formatter_class=argparse.RawDescriptionHelpFormatter)
    parser.add_argument("--cc", default=os.environ.get("CC", "cc"), metavar="COMPILER", help="the C compiler for the shim")
    parser.add_argument("--growths", type=int, default=40, metavar="N", help="how many allocations fail of each recording")
    parser.add_argument("--sample", action="store_true", help="take a few programs alone")
    asked = parser.parse_args()
    findings = Findings()
    with tempfile.TemporaryDirectory() as room:
        shim = Path(room, "shim.so")
        subprocess.run(
            [asked.cc, "-O2", "-Wall", "-fno-builtin", "-fPIC", "-shared", "-o", shim, HERE / "recorder_shim.c"], check=True
        )
        chosen = SAMPLE if asked.sample else RECORDED
        with ThreadPoolExecutor(os.cpu_count() or 1) as pool:
            done = [pool.submit(sweep, words, has_old, shim, asked.growths, findings) for words in chosen for has_old in (True, False)]
            for one in done:
                one.result()
    print(findings)
    return 0 if findings.wrong == 0 else 1


if __name__ == "__main__":
    run_command(main, "recorder_sweep.py")
