"""The faults that a run is given, and which ends are right under each."""
from __future__ import annotations

from dataclasses import dataclass
from enum import Enum

from scripts import Script

OUT_OF_MEMORY = (3, b"out of memory\n")
READ_FAILED = (4, b"read failed\n")
WRITE_FAILED = (4, b"write failed\n")
NOT_JSON = (2, b"script refused: 2 NotJson\n")


class Kind(Enum):
    """What fails, and how the shim gets that."""

    GROWTH = "growth {} is refused"
    GROWTHS = "growth {} and all later ones are refused"
    READ_FAILS = "read {} fails"
    READ_ENDS = "read {} finds nothing left"
    WRITE_FAILS = "write {} fails"
    WRITE_TAKES_NOTHING = "write {} takes no byte"

    @property
    def is_of_memory(self) -> bool:
        return self in (Kind.GROWTH, Kind.GROWTHS)


VARIABLES = {
    Kind.GROWTH: ("FAULT_GROWTH", ""),
    Kind.GROWTHS: ("FAULT_GROWTHS", ""),
    Kind.READ_FAILS: ("FAULT_READ", "fail"),
    Kind.READ_ENDS: ("FAULT_READ", "nothing"),
    Kind.WRITE_FAILS: ("FAULT_WRITE", "fail"),
    Kind.WRITE_TAKES_NOTHING: ("FAULT_WRITE", "nothing"),
}


@dataclass(frozen=True)
class Fault:
    """One fault: the number of the growth, read or write that meets it, and how many bytes a read or write moves, 0 for all."""

    kind: Kind
    number: int
    piece: int = 0

    def __str__(self) -> str:
        pieces = f", with {self.piece} byte a call" if self.piece else ""
        return self.kind.value.format(self.number) + pieces

    def environment(self) -> dict[str, str]:
        """What tells the shim of it."""
        variable, answer = VARIABLES[self.kind]
        return {variable: str(self.number), "FAULT_ANSWER": answer, "FAULT_PIECE": str(self.piece)}


@dataclass(frozen=True)
class End:
    """How a run ended: its status, or none where it had to be stopped, and how many faults it met."""

    status: int | None
    output: bytes
    errors: bytes
    met: int

    def __str__(self) -> str:
        if self.status is None:
            return "hangs"
        return f"ends by {self.status} {self.errors!r} after {len(self.output)} bytes"


def is_whole(script: Script, end: End) -> bool:
    """Whether a run printed all that the script prints."""
    return (end.status, end.errors, end.output) == (script.status, script.errors, script.text)


def gave_up(why: tuple[int, bytes], end: End) -> bool:
    """Whether a run ended for this reason."""
    return (end.status, end.errors) == why


def wrote_prefix(script: Script, end: End) -> bool:
    """Whether a run wrote a prefix of the text, from none of it to all of it."""
    return script.text.startswith(end.output)


def wrote_as_much(script: Script, fault: Fault, end: End) -> bool:
    """Whether a run wrote what it may have before the write that meets a fault."""
    if fault.piece:
        return end.output == script.text[: fault.piece * (fault.number - 1)]
    return wrote_prefix(script, end)


def read_before(script: Script, fault: Fault) -> bytes:
    """What was read before the read that meets a fault. A script is so small that one read takes all of it."""
    return script.source[: (fault.piece or len(script.source)) * (fault.number - 1)]


def is_cut_off(script: Script, fault: Fault, end: End) -> bool:
    """Whether a run printed what the script prints up to the read that finds nothing left."""
    if read_before(script, fault).strip() == script.source.strip():
        return is_whole(script, end)
    return gave_up(NOT_JSON, end) and not end.output


def is_right(script: Script, fault: Fault, end: End) -> bool:
    """Whether a run under a fault ended as it may."""
    if not end.met:
        return is_whole(script, end)
    if fault.kind.is_of_memory:
        return is_whole(script, end) or (gave_up(OUT_OF_MEMORY, end) and wrote_prefix(script, end))
    if fault.kind is Kind.READ_FAILS:
        return gave_up(READ_FAILED, end) and not end.output
    if fault.kind is Kind.READ_ENDS:
        return is_cut_off(script, fault, end)
    return gave_up(WRITE_FAILED, end) and wrote_as_much(script, fault, end)
