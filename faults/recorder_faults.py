"""The faults that a recorder is given while it keeps a run, and which ends are right under each."""
from __future__ import annotations

import hashlib
import json
import re
from dataclasses import dataclass, field
from enum import IntEnum
from typing import Dict, List, Optional

#: what a recording is called
NAME = "run"
LIST = f"{NAME}.recording"

#: the statuses by which the recorder replaces status 0 of a program
OF_RECORDER = (0, 65, 66, 73)
KILLED = -9
#: how a process ends in which Python itself crashes, as `co_lines` of Python 3.11 does without memory
CRASHED = (-11, -6)


class Kind(IntEnum):
    """The calls that fail, in the order of faults/recorder_shim.c."""

    OPEN = 0
    WRITE = 1
    SYNC = 2
    RENAME = 3
    UNLINK = 4
    CALL = 5
    GROWTH = 6


@dataclass(frozen=True)
class Fault:
    """One fault: the call of this kind and number fails, or kills the process. With the number 0 there is none."""

    kind: Kind
    number: int
    kills: bool = False

    def __str__(self) -> str:
        how = "kills the process" if self.kills else "fails"
        return f"{self.kind.name.lower()} {self.number} {how}"


@dataclass
class End:
    """How a process ended under a fault: what it printed and said, and the files that are there then."""

    status: Optional[int]
    printed: bytes
    said: str
    met: bool
    files: Dict[str, bytes] = field(default_factory=dict)


@dataclass(frozen=True)
class Program:
    """A program that is recorded: how it ends bare, what it prints, and the recording of its name that was there."""

    name: str
    status: int
    printed: bytes
    old: Dict[str, bytes]


def digest(data: bytes) -> str:
    """The SHA-256 of what a file has."""
    return hashlib.sha256(data).hexdigest()


def whole(files: Dict[str, bytes], name: str = NAME) -> Optional[Dict[str, str]]:
    """The digests of the files of the recording of this name, each of which has its own name or that of its half; None, if there is none."""
    try:
        listed = json.loads(files[f"{name}.recording"])
    except (KeyError, ValueError):
        return None
    for one, wanted in listed["files"].items():
        half = f".{one}.{listed.get('halves', '')}"
        if wanted not in (digest(files.get(one, b"")), digest(files.get(half, b""))):
            return None
    return dict(listed["files"])


def wrongs(program: Program, fault: Fault, end: End, clean: End) -> List[str]:
    """The mistakes of an end. `clean`: the one without a fault."""
    if end.status is None:
        return ["it hangs"]
    is_killed = fault.kills and end.met
    if not is_killed and not has_crashed(fault, end):
        return _wrong_end(program, end) + _wrong_files(program, end, clean) + _wrong_words(program, end, clean)
    found = _wrong_files(program, end, clean)
    if is_killed and (end.status != KILLED or not program.printed.startswith(end.printed)):
        found.append(f"killed, it has status {end.status}, and has printed {end.printed!r}")
    return found


def has_crashed(fault: Fault, end: End) -> bool:
    """Whether Python itself has crashed."""
    return fault.kind is Kind.GROWTH and end.status in CRASHED


def _wrong_end(program: Program, end: End) -> List[str]:
    found = []
    if end.printed != program.printed:
        found.append(f"it prints {end.printed!r}")
    if end.status != program.status and not (program.status == 0 and end.status in OF_RECORDER):
        found.append(f"its status is {end.status}")
    if "Traceback" in end.said and "Exception ignored" not in end.said:  # (Python's words, where a generator has no memory to end)
        found.append("it has a traceback")
    return found


def _wrong_files(program: Program, end: End, clean: End) -> List[str]:
    is_old = all(end.files.get(name) == data for name, data in program.old.items())
    return [] if is_old or _is_new(end.files, clean) else ["neither the earlier recording nor the new one is whole"]


def _is_new(files: Dict[str, bytes], clean: End) -> bool:
    """Whether the new recording is whole. It may lack a page and places."""
    found, wanted = whole(files), whole(clean.files)
    if found is None or wanted is None:
        return found == wanted
    return all(found.get(name) == of for name, of in wanted.items() if not name.endswith((".html", ".places.json")))


def _wrong_words(program: Program, end: End, clean: End) -> List[str]:
    """The mistakes of what was said: it has to say whether the new recording is there."""
    is_new = _is_new(end.files, clean)
    says_new = re.search(rf"[ /]{NAME}(\.whole)?\.(json|journal)( and [^ ]*)?: |whole: {NAME}$", end.said, re.MULTILINE) is not None
    says_not = re.search(r"can't be (opened|written|synced|kept)|can't get its name", end.said) is not None
    found = []
    if is_new and not says_new:
        found.append("the new recording is there, and nothing says so")
    if not is_new and says_new:
        found.append("it says that the new recording is there")
    if not is_new and not says_not and f"{NAME}." not in end.said:
        found.append("the new recording isn't there, and nothing says so")
    if not is_new and program.old and f"as it was: {NAME}" not in end.said and not re.search(rf"{NAME}\.[0-9]+\.j", end.said):
        found.append("nothing says that the earlier recording is as it was")
    left = [name for name in end.files if name.endswith(".tmp") and name not in clean.files]
    if left and "can't get its name" not in end.said:
        found.append(f"{left} are left")
    return found
